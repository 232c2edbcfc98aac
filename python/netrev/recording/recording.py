"""The text of a recording, with its steps and their lines by number. netrev decides whether the text is a recording and
whether its steps apply."""

import json
import os
import re
import stat
from bisect import bisect_left
from collections.abc import Callable, Iterable, Iterator, Sequence
from functools import cached_property
from itertools import chain
from os.path import commonprefix
from typing import Any, NamedTuple, TypeVar

from netrev.errors import NetrevError
from netrev.messages import session as messages
from netrev.text.files import check_name
from netrev.text.line_starts import LineStarts
from netrev.text.vocabulary import KINDS

from .step_changes import RecordedChanges
from .suspect_list import SuspectList
from .where import SourceLines

# any text with a blank line after the first line contains at least one of these
BEFORE_BLANKS = (b"\n\n", b"\n ", b"\n\t", b"\n\r")
BLANK_LINE = re.compile(rb"^[ \t\r]*$", re.MULTILINE)
SHOWN = 40
PIECE = 1_024  # steps
AT_ONCE = 16_384  # the number of steps that are parsed together
Row = TypeVar("Row")


class Step(NamedTuple):
    """A step: its number (from 1), its line, its kind and its arguments. In version 2, a step also has its recorded
    answer as JSON: a string, or a list of a string and a number."""

    number: int
    line: int
    kind: str
    arguments: tuple[Any, ...]
    answer: Any = None

    def argument(self, name: str) -> Any:
        """The argument with this name; None if steps of this kind have no such argument."""
        kind = KINDS.get(self.kind)
        if kind is None or name not in kind.arguments:
            return None
        place = kind.arguments.index(name)
        return self.arguments[place] if place < len(self.arguments) else None

    def __str__(self) -> str:
        return " ".join((self.kind, *(shortened(str(argument)) for argument in self.arguments)))


class NotARecordingError(NetrevError):
    """Raised for a text that isn't a recording: netrev didn't accept it, or read a different text."""


def parsed(text: bytes) -> Any:
    """The JSON value of a text; raises NotARecordingError if it isn't JSON."""
    try:
        return json.loads(text)
    except (ValueError, RecursionError):
        raise NotARecordingError(messages.NO_HEADER) from None


def check_size(path: str, size: int) -> None:
    """Raises NotARecordingError if a file has more bytes than this machine has memory."""
    if size > os.sysconf("SC_PHYS_PAGES") * os.sysconf("SC_PAGE_SIZE"):
        raise NotARecordingError(too_large(path))


def too_large(path: str) -> str:
    return messages.TOO_LARGE.format(path=path)


def shortened(text: str) -> str:
    """The text, or its beginning if it is long."""
    return text if len(text) <= SHOWN else f"{text[: SHOWN - 2]}.."


class Recording:
    """A recording's text. Steps are parsed when they are needed, because a recording may have a million steps."""

    def __init__(self, data: bytes):
        self.data = data
        self._starts = LineStarts(data)
        end = len(data.rstrip(b" \t\r\n"))  # (only blank lines follow that place)
        numbers = range(1, self._starts.line_at(end) + (end > 0))
        blanks = (
            BLANK_LINE.finditer(data, 0, end)
            if data[:1].isspace() or (not self._are_arrays(end) and any(map(data.__contains__, BEFORE_BLANKS)))
            else ()
        )
        blank = {self._starts.line_at(found.start()) for found in blanks}
        self._numbers: Sequence[int] = [number for number in numbers if number not in blank] if blank else numbers
        self.header_line = self._numbers[0] if self._numbers else 1
        self.lines = SourceLines()
        self.changes: RecordedChanges | None = None  # from netrev, once a caller needs them
        self.suspects: SuspectList | None = None  # the output of `netrev suspects`, for a recording in a file

    def _are_arrays(self, end: int) -> bool:
        """Whether each line before that place, except the first line, begins with `[`. If so, none of them is blank."""
        return self.data.count(b"\n[", 0, end) == self._starts.line_at(end) - 1

    @classmethod
    def read(cls, path: str) -> "Recording":
        """Reads the file that netrev reads. Raises an OSError if that fails, and NotARecordingError if the file can't
        be read twice."""
        check_name(path)
        if not stat.S_ISREG(os.stat(path).st_mode) and not os.path.isdir(path):
            raise NotARecordingError(messages.NOT_A_FILE.format(path=path))
        try:
            with open(path, "rb") as file:
                check_size(path, os.fstat(file.fileno()).st_size)
                recording = cls(file.read())
            recording.lines = SourceLines.beside(path, recording.length)
        except MemoryError:
            raise NotARecordingError(too_large(path)) from None
        return recording

    @property
    def length(self) -> int:
        """The number of steps."""
        return max(len(self._numbers) - 1, 0)

    def line(self, number: int) -> bytes:
        """The line with this number, from 1, without its line feed; empty if no such line exists."""
        if not 1 <= number < len(self._starts):
            return b""
        begin = self._starts[number - 1]
        end = self.data.find(b"\n", begin)
        return self.data[begin:] if end < 0 else self.data[begin:end]

    def before_line(self, number: int) -> bytes:
        """The text before the line with this number."""
        return self.data[: self._starts[number - 1]]

    def between(self, first: int, last: int) -> bytes:
        """The lines of the steps that lead from one position to another."""
        last = min(last, self.length)
        if first >= last:
            return b""
        return self.data[self._starts[self._numbers[first + 1] - 1] : self._starts[self._numbers[last]]]

    def is_last(self, number: int) -> bool:
        """Whether only blank lines follow the line with this number."""
        return not self.data[self._starts[number] :].strip(b" \t\r\n\0")

    @cached_property
    def limits(self) -> dict[str, Any]:
        """The header's keys and values."""
        header = parsed(self.line(self.header_line))
        return header if isinstance(header, dict) else {}

    @property
    def has_answers(self) -> bool:
        """Whether each step's array ends with a recorded answer, as in version 2."""
        return self.limits.get("netrev") == 2

    def step_or_none(self, number: int) -> Step | None:
        """The step with this number, from 1; None if no such step exists."""
        return self.step(number) if 1 <= number <= self.length else None

    def step(self, number: int) -> Step:
        """The step with this number, from 1 to the recording's length."""
        return self._made(number, parsed(self.line(self._numbers[number])))

    def _made(self, number: int, values: Any) -> Step:
        """The step with this number, from the array in its line."""
        if not (isinstance(values, list) and values and isinstance(values[0], str)):
            raise NotARecordingError(messages.NOT_A_STEP.format(line=self._numbers[number]))
        kind, *arguments = values
        answer = arguments.pop() if self.has_answers and arguments else None
        return Step(number, self._numbers[number], kind, tuple(arguments), answer)

    def found_back(self, spelled: re.Pattern[bytes], until: int) -> Iterator[re.Match[bytes]]:
        """The matches of a pattern in the lines of the steps up to a position, latest first. The text is searched
        backwards in pieces, each twice as long as the previous one."""
        end, size = min(until, self.length), PIECE
        while end > 0:
            first = max(end - size, 0) + 1
            begin, stop = self._starts[self._numbers[first] - 1], self._starts[self._numbers[end]]
            yield from reversed(list(spelled.finditer(self.data, begin, stop)))
            end, size = first - 1, 2 * size

    def number_at(self, place: int) -> int:
        """The number of the step at this place in the text."""
        return bisect_left(self._numbers, self._starts.line_at(place))

    def arrays(self) -> Iterator[list[Any]]:
        """The JSON array of each step, in order. Equal lines may share an array, which must not be changed."""
        return self.rows(lambda values: values)

    def rows(self, row_of: Callable[[list[Any]], Row], begin: int = 1, end: int | None = None) -> Iterator[Row]:
        """The result of `made` for each step's array, in order. Equal lines near each other may share one result."""
        return chain.from_iterable(self._rows_together(row_of, begin, end))

    def _rows_together(
        self, row_of: Callable[[list[Any]], Row], begin: int, end: int | None
    ) -> Iterator[Iterable[Row]]:
        """The values of `rows`, in groups of steps that are parsed together."""
        end = self.length if end is None else min(end, self.length)
        for first in range(begin, end + 1, AT_ONCE):
            last = min(first + AT_ONCE, end + 1) - 1
            text = self.data[self._starts[self._numbers[first] - 1] : self._starts[self._numbers[last]]]
            lines = text.split(b"\n")
            if not lines[-1]:
                lines.pop()
            if not isinstance(self._numbers, range):  # (some are blank)
                lines = [line for line in lines if line and not line.isspace()]
            unlike = dict.fromkeys(lines)
            rows = dict(zip(unlike, map(row_of, parsed(b"[%s]" % b",".join(unlike)))))
            yield map(rows.__getitem__, lines)

    def steps_of(self, kinds: tuple[str, ...], until: int, socket: int | None = None) -> Iterator[Step]:
        """The steps of these kinds up to a position. If a socket is given, the result has only the steps at that
        socket."""
        for number, values in self.arrays_like(kinds, until, socket):
            step = self._made(number, values)
            if step.kind in kinds and socket in (None, step.argument("s")):
                yield step

    def arrays_like(
        self, kinds: tuple[str, ...], until: int, socket: int | None = None
    ) -> Iterator[tuple[int, list[Any]]]:
        """The arrays of the steps of these kinds, with the steps' numbers. The result may have other steps too."""
        numbers = list(self._numbers_of(kinds, until, socket))
        lines = [self.line(self._numbers[number]) for number in numbers]
        yield from zip(numbers, parsed(b"[%s]" % b",".join(lines)))

    @cached_property
    def has_escapes(self) -> bool:
        """Whether the text contains an escape. A search of the text could miss a kind that is spelled with an
        escape."""
        return b"\\" in self.data

    def _numbers_of(self, kinds: tuple[str, ...], until: int, socket: int | None) -> Iterable[int]:
        """The numbers of the steps of these kinds, from a search of the text if that finds all of them. The result may
        have other steps too."""
        until = min(until, self.length)
        if not until or self.has_escapes:
            return range(1, until + 1)
        named = rb"" if socket is None else rb"\s*,\s*\d+\s*,\s*%d\b" % socket
        prefix = commonprefix(kinds)  # (a search is faster if the pattern begins with many letters)
        rest = "|".join(kind[len(prefix) :] for kind in kinds)
        spelled = re.compile(rb'"%s(?:%s)"%s' % (prefix.encode(), rest.encode(), named))
        begin, end = self._starts[self._numbers[1] - 1], self._starts[self._numbers[until]]
        places = (found.start() for found in spelled.finditer(self.data, begin, end))
        return self._numbers_at(places, self._numbers[1], begin)

    def _numbers_at(self, places: Iterable[int], line: int, begin: int) -> Iterator[int]:
        """The numbers of the steps at these places of the text, in ascending order. The first search begins at `begin`,
        where line `line` begins."""
        for place in places:
            line += self.data.count(b"\n", begin, place)
            begin = place
            yield line - 1 if isinstance(self._numbers, range) else bisect_left(self._numbers, line)
