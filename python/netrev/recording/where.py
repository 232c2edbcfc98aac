"""NAME.where, the file of source lines beside a recording (docs/reference/RECORDING.md has the format). netrev never
reads it, and a recording works without it."""

import json
import os
import re
import stat
from array import array
from collections.abc import Iterable
from functools import cached_property
from itertools import accumulate
from pathlib import Path
from typing import Any, NamedTuple

from netrev.errors import NetrevError
from netrev.messages import session as messages

from .goroutines import OF_GOROUTINES, AllGoroutines, typed

OF_GO, OF_THE_PROGRAM, OF_A_LIBRARY = "go", "program", "library"
OF_SOCKETS = frozenset(("peers", "ends", "addresses", "sent", "sizes", "errors"))  # lines of the file
OF_CALL = {"function": str, "file": str, "line": int, "of": str}
MOST_BYTES, MOST_LINE = 2**26, 2**24  # the maximum size of the file and of one of its lines, in bytes
SHOWN = 12  # the maximum number of calls shown from a stack
FORMS = (1, 2)  # formats of the file; the second has all goroutines


class SourceCall(NamedTuple):
    """A call: its function, file and line, and whether the code is Go's, a library's or the program's."""

    function: str
    file: str
    line: int
    of: str

    def place(self) -> str:
        return f"{self.file}:{self.line}"


class Stack(NamedTuple):
    """The calls at a step, innermost first, and the `go` statement that started the step's goroutine."""

    calls: tuple[SourceCall, ...]
    made: SourceCall | None

    def own(self) -> tuple[SourceCall, str] | None:
        """The innermost call of the program, or else of a library, and the function that it calls."""
        for wanted in ((OF_THE_PROGRAM,), (OF_THE_PROGRAM, OF_A_LIBRARY)):
            inner = ""
            for call in self.calls:
                if call.of in wanted:
                    return call, inner
                inner = call.function
        return None

    def place(self) -> str:
        """The program's line; if no line is known, only `in` and the innermost function."""
        found = self.own()
        return found[0].place() if found else self.words()

    def words(self) -> str:
        """The program's line, and the function that the line calls."""
        found = self.own()
        if not found:
            return f"in {self.calls[0].function}" if self.calls else ""
        call, inner = found
        return f"{call.place()} {inner or call.function}"


class RecordedWait(NamedTuple):
    """A goroutine's wait outside the poller: the steps after which it begins and ends (0: it doesn't end in the
    recording), the reason in words (empty if only the stack shows it), the stack, and the goroutine that ended it (-1:
    unknown)."""

    first: int
    last: int
    goroutine: int
    reason: str
    stack: int
    by: int


class UnusableFileError(NetrevError):
    """Raised, with the reason, for a NAME.where that can't be used."""


class SourceLines(AllGoroutines):
    """The source lines of a recording's steps. If NAME.where can't be used, the reason is kept; a missing file isn't a
    fault."""

    def __init__(self, text: str = "", steps: int = 0) -> None:
        self._begin()
        self.fault = ""
        self.written = 0.0  # the time at which the file was written
        if text:
            self._take(text.splitlines(), steps)

    @classmethod
    def beside(cls, path: str, steps: int) -> "SourceLines":
        """The lines from the file beside a recording with this many steps."""
        lines, name = cls(), Path(path).with_suffix(".where")
        try:
            status = os.stat(name)
            if not stat.S_ISREG(status.st_mode):
                lines.fault = messages.LINES_NOT_A_FILE
            elif status.st_size > MOST_BYTES:
                lines.fault = messages.LINES_TOO_LARGE.format(megabytes=MOST_BYTES // 2**20)
            else:
                lines.written = status.st_mtime
                with open(name, encoding="utf-8") as file:
                    lines._take(iter(lambda: file.readline(MOST_LINE), ""), steps)
        except FileNotFoundError:
            pass
        except OSError as error:
            lines.fault = error.strerror or messages.LINES_UNREADABLE
        return lines

    def why_unused(self, path: str) -> str:
        """The message that says why a file can't be used."""
        name = Path(path).with_suffix(".where").name
        return messages.LINES_UNUSED.format(name=name, fault=self.fault)

    def _begin(self) -> None:
        """Starts without any line."""
        self.steps = array("l")
        self.stacks: dict[int, Stack] = {0: Stack((), None)}
        # the recorded orders between pairs of steps; None if the recorder saw no order
        self.orders: list[tuple[int, int]] | None = None
        self.bytes: int | None = (
            None  # the largest count that is recorded for a read or a write; None if counts have no limit
        )
        self.has_tags = False  # whether Go compared an event's tag with the current use of the descriptor
        self.prelude = 0  # the number of steps that lead to the state in which the recording begins
        # for each test, the first and the last step during the test, its package and its name
        self.tests: list[tuple[int, int, str]] = []
        self.peers: dict[int, int] = {}  # for a socket, the socket at the other end of its connection
        # for a socket, the numbers of its own name and of the name of its other end
        self.ends: dict[int, tuple[int, int]] = {}
        # for datagram sockets, their addresses, and the addresses to which they are connected
        self.addresses: dict[int, tuple[str, str]] = {}
        self.sent: dict[int, str] = {}  # the address to which a datagram was sent, keyed by a step of the call
        # keyed by step, the number of bytes that a read or a write moved, if the recording counts fewer
        self.sizes: dict[int, int] = {}
        self.errors: dict[int, str] = {}  # the system's errors, keyed by the step after which a call got them
        self.waits: dict[int, list[RecordedWait]] = {}  # waits outside the poller, keyed by goroutine
        # the times of the steps, in nanoseconds from the start of the log; empty if the recorder had none
        self.times = array("q")
        self._calls: dict[int, SourceCall] = {}
        self.begin_goroutines()

    def _take(self, lines: Iterable[str], steps: int) -> None:
        """Reads all lines of the file. If one of them is wrong, none counts."""
        number = 0
        try:
            for number, line in enumerate(lines, 1):
                value = json.loads(line)
                if number == 1:
                    of_steps(value, steps)
                else:
                    self._add(value)
        except UnusableFileError as why:
            self.fault = str(why)
        except UnicodeDecodeError:
            self.fault = messages.LINES_NOT_TEXT
        except (ValueError, TypeError, KeyError, OverflowError, RecursionError):
            self.fault = messages.LINES_MALFORMED.format(number=number)
        if self.fault:
            self._begin()
        if len(self.times) != steps:
            self.times = array("q")

    def _add(self, line: dict[str, Any]) -> None:
        """Adds a line other than the first."""
        if "call" in line:
            self._calls[line["call"]] = SourceCall(*(typed(line[name], sort) for name, sort in OF_CALL.items()))
        elif "stack" in line:
            started_by = self._calls[line["made"]] if "made" in line else None
            self.stacks[line["stack"]] = Stack(tuple(self._calls[number] for number in line["calls"]), started_by)
        elif "orders" in line:
            self.orders = [] if self.orders is None else self.orders
            self.orders += [(typed(first, int), typed(second, int)) for first, second in line["orders"]]
        elif "bytes" in line:
            self.bytes = typed(line["bytes"], int)
        elif "tags" in line:
            self.has_tags = typed(line["tags"], int) == 1
        elif "prelude" in line:
            self.prelude = typed(line["prelude"], int)
        elif "taken" in line:
            self.add_owners(line["taken"])
        elif "test" in line:
            first, last = line["steps"]
            name = f"{typed(line['package'], str)} {typed(line['test'], str)}"
            self.tests.append((typed(first, int), typed(last, int), name))
        elif not OF_SOCKETS.isdisjoint(line):
            self._add_of_sockets(line)
        elif "times" in line:
            self.times.extend(accumulate(_later(line["times"]), initial=self.times[-1] if self.times else 0))
            del self.times[-len(line["times"]) - 1]  # (the time from which the sums start)
        elif "waits" in line:
            for values in line["waits"]:
                wait = RecordedWait(*map(typed, values, (int, int, int, str, int, int)))
                known = wait if wait.stack in self.stacks else wait._replace(stack=0)
                self.waits.setdefault(wait.goroutine, []).append(known)
        elif not OF_GOROUTINES.isdisjoint(line):
            self.add_goroutines(line, self._calls, self.stacks)
        elif line["step"] == len(self.steps) + 1:
            numbers = line["stacks"]
            are_known = self.stacks.keys() >= set(numbers)  # (usually all thousand numbers are known)
            self.steps.extend(numbers if are_known else (number if number in self.stacks else 0 for number in numbers))

    def _add_of_sockets(self, line: dict[str, Any]) -> None:
        """Adds a line about sockets: the two ends of connections, their names and addresses, or errors of the
        system."""
        if "ends" in line:
            for end, own, other in line["ends"]:
                self.ends[typed(end, int)] = typed(own, int), typed(other, int)
        elif "addresses" in line:
            for socket, name, peer in line["addresses"]:
                self.addresses[typed(socket, int)] = typed(name, str), typed(peer, str)
        elif "sent" in line:
            self.sent.update((typed(step, int), typed(address, str)) for step, address in line["sent"])
        elif "sizes" in line:
            self.sizes.update((typed(step, int), typed(size, int)) for step, size in line["sizes"])
        elif "peers" in line:
            for end, other in line["peers"]:
                self.peers[typed(end, int)], self.peers[typed(other, int)] = other, end
        else:
            self.errors.update((typed(step, int), typed(name, str)) for step, name in line["errors"])

    def __bool__(self) -> bool:
        return len(self.steps) > 0

    @cached_property
    def named(self) -> re.Pattern[str]:
        """The pattern of a text that names a line of one of the program's files, such as `main.go:12`. The name of the
        file begins at the start of a word."""
        files = sorted({call.file for call in self._calls.values()}, key=len, reverse=True)
        return re.compile(rf"(?<![\w./@+~-])({'|'.join(map(re.escape, files)) or '(?!)'}):(\d+)\b")

    def of(self, step: int) -> Stack:
        """The stack of a step; a stack without calls if unknown."""
        return self.stacks[self.steps[step - 1]] if 0 < step <= len(self.steps) else self.stacks[0]

    def tests_at(self, step: int) -> list[str]:
        """The tests that ran at a step, each with its package."""
        return [name for first, last, name in self.tests if first <= step <= last]

    def words(self, step: int) -> str:
        """The program's line at a step, and the function that the line calls; empty if unknown."""
        return self.of(step).words()


def of_steps(first: Any, steps: int) -> None:
    """Raises UnusableFileError if the file's first line belongs to another recording."""
    if first["where"] not in FORMS:
        raise UnusableFileError(messages.LINES_OF_OTHER_VERSION)
    if first["steps"] != steps:
        raise UnusableFileError(messages.LINES_OF_OTHER.format(theirs=typed(first["steps"], int), steps=steps))


def _later(values: Any) -> Any:
    """Returns the given differences between times; raises a TypeError or a ValueError if a value is invalid. A
    recording may have a million differences."""
    if set(map(type, values)) - {int}:
        raise TypeError
    if min(values, default=0) < 0:
        raise ValueError
    return values


def stack_lines(stack: Stack) -> list[str]:
    """The calls of a stack, one per line. The program's own calls are marked."""
    lines = []
    for call in stack.calls[:SHOWN]:
        mark = "*" if call.of == OF_THE_PROGRAM else " "
        lines.append(f"  {mark} {call.place():<32} {call.function}")
    if len(stack.calls) > SHOWN:
        lines.append(f"    and {len(stack.calls) - SHOWN} more")
    if stack.made:
        lines.append(f"    started at {stack.made.place()} ({stack.made.function})")
    return lines
