"""The tests that ran in a process, from LOG.tests, the file of lines that go/log/tests.go writes beside the log."""

from __future__ import annotations

import os
import pathlib
from collections.abc import Iterator
from contextlib import suppress
from dataclasses import dataclass, field
from enum import Enum
from typing import BinaryIO

from netrev_go.go_command.trusted_files import opened_beside

ENDING = ".tests"
MOST_BYTES = 2**26
PIECE = 2**16
SECOND = 10**9


class Went(Enum):
    """The outcome of a test. A test that never ended was still running when its process ended."""

    PASSED = "passed"
    FAILED = "failed"
    SKIPPED = "skipped"
    UNFINISHED = "unfinished"


@dataclass(eq=False)
class Ran:
    """A test that ran: its goroutine, and how many points were logged before it began, first failed and ended."""

    package: str
    name: str
    goroutine: int
    began: int
    began_at: int  # nanoseconds since the log began
    failed: int | None = None
    place: tuple[str, int] | None = None  # the file and the line of its first failure
    ended: int | None = None
    ended_at: int | None = None
    skipped: bool = False
    bubbles: int = 0  # open bubbles of testing/synctest: package testing runs each as a test of the same name

    def went(self) -> Went:
        if self.failed is not None:
            return Went.FAILED
        if self.ended is None:
            return Went.UNFINISHED
        return Went.SKIPPED if self.skipped else Went.PASSED

    def seconds(self) -> float:
        """How long the test ran; 0 if it never ended."""
        return (self.ended_at - self.began_at) / SECOND if self.ended_at is not None else 0.0

    def is_red(self) -> bool:
        return self.went() in (Went.FAILED, Went.UNFINISHED)

    def is_below(self, other: Ran) -> bool:
        """Whether this is a subtest of the other test, at any depth."""
        return self.name.startswith(other.name + "/")


@dataclass
class Tests:
    """A process's tests, in the order in which they began; the package is empty if the process had no tests."""

    package: str = ""
    ran: list[Ran] = field(default_factory=list)
    by_name: dict[str, Ran] = field(default_factory=dict)  # the last test of each name

    def take(self, passed: int, goroutine: int, time: int, what: str, name: str) -> None:
        """Processes a line."""
        if what == "package":
            self.package = name
        elif what == "runs" and name in self.by_name and self.by_name[name].ended is None:
            self.by_name[name].bubbles += 1
        elif what == "runs":
            self.by_name[name] = Ran(self.package, name, goroutine, passed, time)
            self.ran.append(self.by_name[name])
        elif (words := name.partition("\t"))[0] in self.by_name:
            self.happened(self.by_name[words[0]], passed, time, what, words[2])

    @staticmethod
    def happened(test: Ran, passed: int, time: int, what: str, place: str) -> None:
        if what == "ends" and test.bubbles:
            test.bubbles -= 1
        elif what == "ends":
            test.ended, test.ended_at = passed, time
        elif what == "fails" and test.failed is None:
            test.failed, test.place = passed, place_of(place)
        elif what == "skips":
            test.skipped = True

    def to_keep(self) -> list[Ran]:
        """The failed tests, without tests that failed because of a subtest."""
        red = [test for test in self.ran if test.is_red()]
        return [test for test in red if not any(other.is_below(test) for other in red)]

    def leaves(self) -> list[Ran]:
        """The tests without subtests."""
        return [test for test in self.ran if not any(other.is_below(test) for other in self.ran)]


def place_of(text: str) -> tuple[str, int] | None:
    """A file and a line; the file is relative if it is below the current folder."""
    file, _, line = text.rpartition(":")
    if not file or not (line.isascii() and line.isdigit() and len(line) < 9):
        return None
    return file.removeprefix(f"{pathlib.Path.cwd()}/"), int(line)


def forget(log: pathlib.Path) -> None:
    """Removes a log, and the lines of its tests."""
    for path in (log, log.with_name(log.name + ENDING)):
        path.unlink(missing_ok=True)


def of_log(log: pathlib.Path, owner: int | None = None) -> Tests:
    """The tests of the process that wrote this log, which belongs to this user or to the given owner. A damaged line is
    ignored."""
    tests = Tests()
    found = opened_beside(log.with_name(log.name + ENDING), os.geteuid() if owner is None else owner, MOST_BYTES)
    if found is None:
        return tests
    with suppress(OSError), found as file:
        text = b"".join(written(file)).decode("utf-8", "replace")
    for line in text.split("\n"):
        words = line.split(" ", 4)
        if (
            len(words) == 5
            and "\0" not in line
            and all(word.isascii() and word.isdigit() and len(word) < 20 for word in words[:3])
        ):
            tests.take(int(words[0]), int(words[1]), int(words[2]), words[3], words[4])
    return tests


def written(file: BinaryIO) -> Iterator[bytes]:
    """The written part of a mapped file: the rest is zeros, mostly a hole in the file."""
    for _ in range(MOST_BYTES // PIECE):
        piece = file.read(PIECE)
        if piece == bytes(len(piece)):
            return
        yield piece
