"""The contents of a log: points in the order of a single counter, and the stacks at which they were logged."""

from __future__ import annotations

from collections.abc import Iterator
from dataclasses import dataclass, field
from enum import IntEnum
from functools import cached_property
from itertools import compress
from operator import itemgetter
from typing import NamedTuple

from netrev.text.vocabulary import NUMBERS


class PointKind(IntEnum):
    """The kind of a point: the number of the step's kind, or a number above 100 for a point that isn't a step."""

    INIT = NUMBERS["sockopen"]
    READ = NUMBERS["sysread"]
    WRITE = NUMBERS["syswrite"]
    INCREF = NUMBERS["incref"]
    INCREF_CLOSE = NUMBERS["increfclose"]
    DECREF = NUMBERS["decref"]
    RW_LOCK = NUMBERS["rwlock"]
    RW_UNLOCK = NUMBERS["rwunlock"]
    ACQUIRE = NUMBERS["acquire"]
    RELEASE = NUMBERS["release"]
    OPEN = NUMBERS["pollopen"]
    CLOSE = NUMBERS["pollclose"]
    RESET = NUMBERS["pollreset"]
    WAIT_BEGIN = NUMBERS["waitbegin"]
    ARM = NUMBERS["blockarm"]
    CHECK = NUMBERS["blockcheck"]
    PARK = NUMBERS["parkcommit"]
    SWAP = NUMBERS["blockswap"]
    WAIT_CHECK = NUMBERS["waitcheck"]
    SET_DEADLINE = NUMBERS["setdeadline"]
    EVICT = NUMBERS["evict"]
    EVENT = NUMBERS["pollevent"]
    FIRE = NUMBERS["fire"]
    CLOSE_WRITE = NUMBERS["closewrite"]
    OPEN_FAILED = 116
    READY = 117
    SENT = 118
    RECEIVED = 119
    MET = 120
    CHANNEL_CLOSED = 121
    FOUND_CLOSED = 122
    NAMED = 123
    PARKS = 124
    GOES_ON = 125
    CASES = 126
    HANDED = 127
    ENDS = 128
    TIMER = 129
    GROUP = 130
    STOPPED = 131
    MAKES = 132
    DIAL_FAILED = 133
    NOTED = 134
    NOTED_POLL = 135
    NOTED_DEADLINES = 136
    NOTED_INSIDE = 137
    NOTED_QUEUED = 138
    NOTES_BEGIN = 139
    NOTES_END = 140
    NOTED_NAMED = 141
    DEADLINE_CALL = 142


# Sets of plain numbers, as in points: comparing an enumeration's members is much slower.
KINDS = frozenset(map(int, PointKind))
# Points at which the program itself puts goroutines in order; they belong to no socket.
ORDERING = frozenset(range(PointKind.READY, PointKind.FOUND_CLOSED + 1)) | {int(PointKind.HANDED)}
# Points at which a goroutine begins to wait outside the poller, continues, gets a value that it waits for, makes or
# stops a timer, adds to a WaitGroup, makes a channel, fails to connect a socket, or ends.
WAITING = frozenset(range(PointKind.PARKS, PointKind.DIAL_FAILED + 1))
# Points that note the state of a socket that may have been opened before the oldest point.
NOTING = frozenset(range(PointKind.NOTED, PointKind.NOTED_NAMED + 1))
AT_A_SOCKET = KINDS - ORDERING - WAITING - NOTING
LOCKING = frozenset(
    map(int, (PointKind.INCREF, PointKind.INCREF_CLOSE, PointKind.DECREF, PointKind.RW_LOCK, PointKind.RW_UNLOCK))
)
# The kinds of points that have a lock word's address. All other points except INIT have a descriptor's address.
AT_A_WORD = LOCKING | set(
    map(
        int,
        (PointKind.READ, PointKind.WRITE, PointKind.ACQUIRE, PointKind.RELEASE, PointKind.CLOSE_WRITE, PointKind.NAMED),
    )
)


class Point(NamedTuple):
    """A point, with the goroutine that logged it (0 if none did), its kind, its address, the values there, the time if
    Go's clock was read, and the number of its stack (0 if it has no stack)."""

    number: int
    kind: int
    goroutine: int
    at: int
    a: int
    b: int
    c: int
    time: int
    stack: int


NUMBER, KIND, GOROUTINE, TIME = (
    itemgetter(Point._fields.index(name)) for name in ("number", "kind", "goroutine", "time")
)


class PointStack(NamedTuple):
    """The return addresses of the calls, innermost first; then the address of the `go` statement that started the
    goroutine, and the address of the goroutine's function."""

    made: int
    started: int
    calls: tuple[int, ...]


class LoggedHolder(NamedTuple):
    """A mutex that was locked when the log ended: its address, the goroutine that had locked it, whether for reading,
    how many points had been logged by then, and the stack from which it was locked (0 if unknown)."""

    address: int
    goroutine: int
    is_reader: bool
    passed: int
    stack: int


@dataclass
class Log:
    """A log that was read. `holders` is None if the log doesn't say which mutexes are locked."""

    points: list[Point]
    stacks: dict[int, PointStack] = field(default_factory=dict)
    begin: int = 0
    process: int = 0
    text: int = 0
    program: str = ""
    from_the_start: bool = True  # the log still has the first point that was logged
    has_orders: bool = False  # whether the log has the points that order the program's goroutines
    notes: list[str] = field(default_factory=list)
    holders: list[LoggedHolder] | None = None

    @cached_property
    def kinds(self) -> bytes:
        """The kind of each point."""
        return bytes(map(KIND, self.points))

    def of_kinds(self, wanted: frozenset[int]) -> Iterator[Point]:
        """The points of these kinds. (There may be a million points, so this avoids a Python loop over them.)"""
        return compress(self.points, self.kinds.translate(bytes(kind in wanted for kind in range(256))))
