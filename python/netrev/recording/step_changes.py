"""The output of `netrev changes` for a recording: the cells that each step changed, with their new values. At first the
lines are kept as bytes, which are searched and parsed only when needed. After many queries they become arrays of
numbers, two for each cell. Each value is stored once, because a million steps change several million cells."""

import re
from array import array
from bisect import bisect_left, bisect_right
from collections.abc import Callable, Iterable, Iterator, Sequence
from itertools import groupby
from operator import itemgetter
from typing import NamedTuple

from netrev.errors import NetrevError
from netrev.messages import session as messages

LINE = re.compile(rb"\d+ [a-z]+(?: \d+)? = [ -~]+")
LINES = re.compile(r"^(\d+) ([a-z]+(?: \d+)?) = ([ -~]+)$", re.MULTILINE | re.ASCII)
WINDOW = 2**14  # the number of bytes of lines that are parsed at once; they fit into a processor's cache


def next_step(text: str, place: int) -> int:
    """The place, after a given place, at which the lines of the next step begin; -1 if the text ends first."""
    line = text.find("\n", place)
    step = text[line + 1 : text.find(" ", line) + 1]
    while step and text.startswith(step, line + 1):
        line = text.index("\n", line + 1)
    return line if line + 1 < len(text) else -1


class IncompleteChangesError(NetrevError, ValueError):
    """Raised for a text that isn't the whole output of `netrev changes`."""


class ChangedLines:
    """The lines of changes, in pieces that never split a line. One thread may add lines while another thread reads."""

    def __init__(self) -> None:
        self.pieces: list[bytes] = []
        self._lasts = array("I")  # the last step of each piece

    def take(self, lines: bytes) -> None:
        """Adds whole lines, each with its line feed; raises IncompleteChangesError if a line isn't a change."""
        first, last = lines[: lines.index(b"\n")], lines[lines.rfind(b"\n", 0, -1) + 1 : -1]
        if lines.count(b"\n") != lines.count(b" = ") or not (LINE.fullmatch(first) and LINE.fullmatch(last)):
            raise IncompleteChangesError(messages.CHANGES_MALFORMED)
        self.pieces.append(lines)
        self._lasts.append(int(last[: last.index(b" ")]))

    @property
    def last(self) -> int:
        """The last step with a line; 0 if no step has one."""
        return self._lasts[-1] if self._lasts else 0

    def texts(self, first: int, end: int) -> Iterator[tuple[str, str, str]]:
        """The step, the cell and the value of each line of these pieces, as texts; raises IncompleteChangesError if a
        line lacks one of them."""
        for piece in self.pieces[first:end]:
            found = LINES.findall(piece.decode("latin-1"))
            if len(found) != piece.count(b"\n"):
                raise IncompleteChangesError(messages.CHANGES_MALFORMED)
            yield from found

    def between(self, first: int, last: int) -> Iterator[tuple[str, str, str]]:
        """The changes made by the steps that lead from one position to another, in the form of `texts`."""
        begin, end = (bisect_right(self._lasts, position) for position in (first, last))
        for step, cell, value in self.texts(begin, end + 1):
            if first < int(step) <= last:
                yield step, cell, value

    def whole_steps(self, end: int) -> Iterator[tuple[int, str]]:
        """The lines as texts, each with the step after which it ends. Each text begins with a line feed and has all
        lines of its steps. The last text ends before `end`."""
        text = "\n"
        for piece in self.pieces:
            text, begin = text + piece.decode("latin-1"), 0
            while (next_one := next_step(text, begin + WINDOW)) >= 0:
                yield int(text[next_one + 1 : text.index(" ", next_one)]), text[begin : next_one + 1]
                begin = next_one
            text = text[begin:]
        yield end, text

    def at(self, step: int) -> list[tuple[str, str]]:
        """The cells that a step changed, with their new values."""
        found: list[tuple[str, str]] = []
        number = b"\n%d " % step
        for place in range(bisect_left(self._lasts, step), len(self._lasts)):
            piece = self.pieces[place]
            begin = 0 if piece.startswith(number[1:]) else piece.find(number) + 1
            while piece.startswith(number[1:], begin):
                end = piece.index(b"\n", begin)
                cell, _, value = piece[begin + len(number) - 1 : end].decode().partition(" = ")
                found.append((cell, value))
                begin = end + 1
            if self._lasts[place] > step:
                break
        return found

    def changes_of(self, cell: str, until: int | None = None) -> Iterator[tuple[int, str]]:
        """The steps that changed a cell, in ascending order, with the new values. If `until` is given, the result has
        only steps up to that position."""
        named = b" %s = " % cell.encode()
        end = len(self._lasts) if until is None else bisect_right(self._lasts, until) + 1
        for piece in self.pieces[:end]:
            before, *parts = piece.split(
                named
            )  # (each part ends with the number of the next step that changed the cell)
            for part in parts:
                step = int(before[before.rfind(b"\n") + 1 :])
                if until is not None and step > until:
                    return
                yield step, part[: part.index(b"\n")].decode()
                before = part

    def back(self, cell: str, position: int) -> Iterator[tuple[int, str]]:
        """The steps up to a position that changed a cell, latest first, with the new values."""
        named = b" %s = " % cell.encode()
        for place in range(min(bisect_right(self._lasts, position), len(self._lasts) - 1), -1, -1):
            piece = self.pieces[place]
            at = piece.rfind(named)
            while at >= 0:
                begin = piece.rfind(b"\n", 0, at) + 1
                if (step := int(piece[begin:at])) <= position:
                    yield step, piece[at + len(named) : piece.index(b"\n", at)].decode()
                at = piece.rfind(named, 0, at)


FEW = 300  # this many queries are answered by a search of the lines; the next one builds the arrays
AT_START = {"clock": "0", "waiters": "0", "timers": "0", "firings": "0", "gor 0": "idle"}


class Change(NamedTuple):
    """A step, a cell that the step changed, and the cell's new value."""

    step: int
    cell: str
    value: str


class StepChanges(NamedTuple):
    """The changes of a range of steps. The lines are in one text, with a line feed before each line."""

    first: int
    end: int
    text: str

    def cells(self) -> Iterator[tuple[str, str]]:
        """Each step with a cell (`12 lock 0`), and the cell's value."""
        cells_and_values = iter(self.text[1:].replace(" = ", "\n").split("\n"))
        return zip(cells_and_values, cells_and_values)


class Texts(dict[str, int]):
    """Texts, each stored once, and their numbers in order of arrival."""

    def __init__(self) -> None:
        super().__init__()
        self.all: list[str] = []

    def __missing__(self, text: str) -> int:
        number = self[text] = len(self.all)
        self.all.append(text)
        return number


class OfCells(dict[str, "array[int]"]):
    """An array of numbers for each cell."""

    def __missing__(self, cell: str) -> "array[int]":
        self[cell] = numbers = array("I")
        return numbers


def value_at_start(cell: str) -> str:
    """The value of a cell before the first step."""
    return AT_START.get(cell, "absent")


class RecordedChanges:
    """The changes of a recording's steps. The changes may still be arriving; a caller waits for the changes that it
    needs."""

    def __init__(self) -> None:
        # for each cell, the numbers of its changes
        self._steps, self._values, self._texts = OfCells(), OfCells(), Texts()
        self._lines = ChangedLines()
        self._held = 0  # the number of pieces whose changes are in the arrays
        self._asked = 0
        self._rest = b""
        self._is_whole, self._length, self._fault = False, 0, ""

    @classmethod
    def read(cls, pieces: Iterable[bytes]) -> "RecordedChanges":
        """The changes of a whole output, given in pieces; raises IncompleteChangesError if the output is malformed or
        incomplete."""
        changes = cls()
        for piece in pieces:
            changes.take(piece)
        if not changes.is_whole:
            raise IncompleteChangesError(messages.CHANGES_END_EARLY)
        return changes

    # ---- queries

    @property
    def length(self) -> int:
        """The number of steps that apply: all steps, or the steps before the first fault."""
        self._wait(None)
        return self._length

    @property
    def fault(self) -> str:
        """The line with the recording's first fault; empty if the recording has no fault."""
        self._wait(None)
        return self._fault

    def at(self, step: int) -> list[tuple[str, str]]:
        """The cells that a step changed, with their new values, in netrev's order."""
        self._wait(step)
        return self._lines.at(step)

    def between(self, first: int, last: int) -> Iterator[tuple[int, list[tuple[str, str]]]]:
        """The steps that lead from one position to another and changed at least one cell, each with its changes."""
        self._wait(last)
        for step, lines in groupby(self._lines.between(first, last), itemgetter(0)):
            yield int(step), [(cell, value) for _, cell, value in lines]

    def value(self, cell: str, position: int) -> str:
        """The value of a cell at a position."""
        return next((value for _, value in self.back(cell, position)), value_at_start(cell))

    def back(self, cell: str, position: int) -> Iterator[tuple[int, str]]:
        """The steps up to a position that changed a cell, latest first, with the new values."""
        self._wait(position)
        if self._is_asked_little():
            return self._lines.back(cell, position)
        steps, values, texts = self._steps.get(cell, ()), self._values.get(cell, ()), self._texts.all
        return ((steps[at], texts[values[at]]) for at in range(bisect_right(steps, position) - 1, -1, -1))

    def values(self, position: int, cells: Iterable[str]) -> list[str]:
        """The values of cells at a position."""
        return [self.value(cell, position) for cell in cells]

    def steps_of(self, cell: str, until: int | None = None) -> "array[int]":
        """The steps that changed a cell, in ascending order. If `until` is given, the result has only steps up to that
        position."""
        return array("I", (step for step, _ in self.changes_of(cell, until)))

    def nearest(
        self, cells: Sequence[str], are_wanted: Callable[[list[str]], bool], position: int, backwards: bool
    ) -> int | None:
        """The nearest later position just after a change of one of the cells; with `backwards`, the nearest earlier
        one. Positions are skipped unless `are_wanted` accepts the cells' values there. The result is None if no
        position is left."""
        steps = sorted({step for cell in cells for step in self.steps_of(cell, position if backwards else None)})
        ways = reversed(steps[: bisect_left(steps, position)]) if backwards else steps[bisect_right(steps, position) :]
        return next((step for step in ways if are_wanted(self.values(step, cells))), None)

    def changes_of(self, cell: str, until: int | None = None) -> list[tuple[int, str]]:
        """The steps that changed a cell, with the new values. If `until` is given, the result has only steps up to that
        position."""
        self._wait(until)
        if self._is_asked_little():
            return list(self._lines.changes_of(cell, until))
        steps, texts = self._steps.get(cell, array("I")), self._texts.all
        end = len(steps) if until is None else bisect_right(steps, until)
        return [(step, texts[value]) for step, value in zip(steps[:end], self._values.get(cell, ()))]

    def cells(self) -> list[str]:
        """The cells that any step changed, in the order of their first changes."""
        return list(dict.fromkeys(cell for _, cell, _ in self.texts()))

    def at_end(self) -> dict[str, str]:
        """The last value of each cell that any step changed."""
        return {cell: value for _, cell, value in self.texts()}

    def texts(self) -> Iterator[tuple[str, str, str]]:
        """All changes, step by step, as texts: the step, the cell and the cell's value."""
        self._wait(None)
        return self._lines.texts(0, len(self._lines.pieces))

    def pieces(self) -> Sequence[bytes]:
        """The lines of all changes as they arrived, in pieces of whole lines."""
        self._wait(None)
        return self._lines.pieces

    def __iter__(self) -> Iterator[Change]:
        """All changes, step by step."""
        return (Change(int(step), cell, value) for step, cell, value in self.texts())

    def by_steps(self) -> Iterator[StepChanges]:
        """All changes, a few thousand steps at a time, for a caller that needs few of the changes. The lines aren't
        parsed one by one."""
        self._wait(None)
        first = 1
        for end, text in self._lines.whole_steps(self._length + 1):
            yield StepChanges(first, end, text)
            first = end

    def _is_asked_little(self) -> bool:
        """Whether searching the lines is fast enough for the number of queries so far. If it isn't, puts the changes so
        far into the arrays."""
        self._asked += 1
        if self._asked > FEW:
            self._hold()
        return self._asked <= FEW

    def _hold(self) -> None:
        """Puts the changes so far into arrays."""
        while self._held < len(self._lines.pieces):
            self._hold_piece()

    def _hold_piece(self) -> None:
        """Puts the whole next piece into arrays."""
        steps, values, texts = self._steps, self._values, self._texts
        for step, cell, value in self._lines.texts(self._held, self._held + 1):
            steps[cell].append(int(step))
            values[cell].append(texts[value])
        self._held += 1

    def _wait(self, position: int | None) -> None:
        """Waits until the changes up to a position have arrived (None: all changes)."""

    # ---- reading the changes

    def prepare(self) -> None:
        """Starts reading, unless it has started."""

    def drop(self) -> None:
        """Stops reading."""

    @property
    def is_whole(self) -> bool:
        """Whether the whole output has been read."""
        return self._is_whole

    def has(self, position: int | None) -> bool:
        """Whether the changes up to a position have been read (None: all changes)."""
        return self._is_whole or (position is not None and position < self._lines.last)

    def take(self, piece: bytes) -> None:
        """Adds a piece of the output, which may end within a line."""
        text = self._rest + piece
        end = text.rfind(b"\n") + 1
        self._rest = text[end:]
        if not end:
            return
        if self._is_whole:
            raise IncompleteChangesError(messages.CHANGES_GO_ON)
        last = text.rfind(b"\n", 0, end - 1) + 1
        is_end = text.find(b" = ", last, end) < 0
        if lines := text[: last if is_end else end]:
            self._lines.take(lines)
        if is_end:
            try:
                self._take_end(text[last : end - 1].decode("ascii"))
            except (ValueError, IndexError):
                raise IncompleteChangesError(messages.CHANGES_MALFORMED) from None

    def _take_end(self, line: str) -> None:
        """Reads the last line: the number of steps, or the fault."""
        first, *words = line.split()
        if first == "ok":
            self._length = int(words[0])
        elif first in ("step", "line", "fault"):
            self._fault = line
            self._length = int(words[0].rstrip(":")) - 1 if first == "step" else 0
        else:
            raise IncompleteChangesError(line)
        self._is_whole = True
