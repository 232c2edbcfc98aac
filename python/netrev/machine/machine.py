"""The machine's state, as in docs/internals/MACHINE.md. A state is immutable: a step makes the next state from it.

A status is a tuple of the words of `print gor`: ("idle",), ("acquiring", 0, "r"), ("owing", 0, 2, 1). Values for both
sides are pairs, reading first.
"""

from __future__ import annotations

from typing import Any, NamedTuple, TypeVar

from netrev.errors import NetrevError
from netrev.text.contents import Answer, Limits

Status = tuple[Any, ...]  # a name, numbers and a side
Word = str | int  # "nil", "ready", "wait" or a goroutine's number
Item = TypeVar("Item")

SIDES = "rw"
IDLE: Status = ("idle",)
GONE: Status = ("gone",)
INSIDE = ("entering", "armed", "parking", "parked", "swapping", "checking")
GREATEST_SEQUENCE = 2**64 - 1
GREATEST_COUNT = 2**32 - 1


class StepRefusedError(NetrevError):
    """Raised if a step is refused; `reason` is the number of the reason."""

    def __init__(self, reason: int) -> None:
        super().__init__(reason)
        self.reason = reason


class Lock(NamedTuple):
    """The lock word of a socket, field by field."""

    closed: bool = False
    taken: tuple[bool, ...] = (False, False)
    references: int = 0
    waiting: tuple[int, ...] = (0, 0)

    @property
    def number(self) -> int:
        low = self.closed + 2 * self.taken[0] + 4 * self.taken[1]
        return low + (self.references << 3) + (self.waiting[0] << 23) + (self.waiting[1] << 43)


class Socket(NamedTuple):
    """A socket. The socket's input buffer is for reading, and its output buffer is for writing."""

    capacities: tuple[int, int]
    lock: Lock = Lock()
    counts: tuple[int, ...] = (0, 0)
    queues: tuple[tuple[int, ...], ...] = ((), ())
    buffers: tuple[bytes, bytes] = (b"", b"")
    peer_closed: bool = False
    shut: bool = False


class Desc(NamedTuple):
    """A poll descriptor. A word is "nil", "ready", "wait" or a goroutine's number."""

    words: tuple[Word, ...] = ("nil", "nil")
    closing: bool = False
    error: bool = False
    deadlines: tuple[int, ...] = (0, 0)
    running: tuple[bool, ...] = (False, False)
    sequences: tuple[int, ...] = (0, 0)
    fdseq: int = 0
    socket: int = 0


class Timer(NamedTuple):
    """An armed timer, or a firing. They are sorted as Python sorts tuples: by time, then by arming number."""

    when: int
    number: int
    desc: int
    side: str
    function: str
    sequence: int

    @property
    def covers(self) -> str:
        """The sides whose deadlines its function sets."""
        return {"both": "rw", "read": "r", "write": "w"}[self.function]


class World(NamedTuple):
    """The whole state. The first descriptor of the free list was freed last; the timers are sorted."""

    limits: Limits
    clock: int = 0
    waiters: int = 0
    next_number: int = 1
    goroutines: tuple[Status, ...] = (IDLE,)
    sockets: tuple[Socket, ...] = ()
    descs: tuple[Desc, ...] = ()
    free: tuple[int, ...] = ()
    timers: tuple[Timer, ...] = ()
    firings: tuple[Timer, ...] = ()

    def is_open(self, d: int) -> bool:
        return d < len(self.descs) and d not in self.free

    def inside(self, d: int, side: str) -> list[int]:
        """The goroutines that are inside a wait on this side of the descriptor."""
        return [g for g, status in enumerate(self.goroutines) if status[0] in INSIDE and status[1:] == (d, side)]

    def with_status(self, g: int, status: Status) -> World:
        return self._replace(goroutines=put(self.goroutines, g, status))

    def with_socket(self, s: int, **changes: Any) -> World:
        return self._replace(sockets=put(self.sockets, s, self.sockets[s]._replace(**changes)))

    def with_desc(self, d: int, **changes: Any) -> World:
        return self._replace(descs=put(self.descs, d, self.descs[d]._replace(**changes)))


def put(items: tuple[Item, ...], place: int, item: Item) -> tuple[Item, ...]:
    """The tuple with this item at this place."""
    return (*items[:place], item, *items[place + 1 :])


Outcome = tuple[World, Answer]


def at(side: str) -> int:
    """The place of a side in a pair."""
    return SIDES.index(side)
