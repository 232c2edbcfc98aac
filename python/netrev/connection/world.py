"""The objects at the session's position, derived from netrev's replies and the recording's steps: the open descriptors,
and the socket of each."""

import re
from collections.abc import Iterable, Sequence
from functools import lru_cache

from netrev.recording.recording import Recording
from netrev.text.vocabulary import ObjectKind

from .netrev import Netrev

OF_POLL = re.compile(rb'"poll(?:close"\s*,\s*\d+\s*,\s*(\d+)|open"\s*,\s*\d+\s*,\s*(\d+))')
COUNTED_BY = {ObjectKind.GOROUTINE: "gor", ObjectKind.SOCKET: "lock", ObjectKind.DESCRIPTOR: "fdseq"}
LIMITS = {ObjectKind.GOROUTINE: "gor", ObjectKind.SOCKET: "sock", ObjectKind.DESCRIPTOR: "desc"}
AT_FIRST, TIMES = 8, 8  # the number of cells in the first query, and the factor for each later one
BLOCK = 16_384  # the number of steps after which the open descriptors are stored again
PIECE = 256  # the same within a block, for positions near recent ones


class PositionValues:
    """Reads values at the session's position."""

    def __init__(self, netrev: Netrev, recording: Recording, position: int):
        self.netrev, self.recording, self.position = netrev, recording, position

    def values(self, cells: Sequence[str]) -> list[str]:
        """The values of the cells."""
        return self.netrev.values(cells)

    def value(self, cell: str) -> str:
        """The value of a cell."""
        return self.values([cell])[0]

    def number(self, cell: str) -> int:
        """The value of a cell that holds a number."""
        return int(self.value(cell))

    def of_each(self, numbers: Iterable[int], *names: str) -> dict[int, list[str]]:
        """For each number, the values of the cells with these names, in order."""
        numbers = list(numbers)
        values = self.values([f"{name} {number}" for number in numbers for name in names])
        return {number: values[at * len(names) : (at + 1) * len(names)] for at, number in enumerate(numbers)}

    def queue(self, dump: str, socket: int) -> list[int]:
        """The goroutines in a queue of a socket, from front to back."""
        (shown,) = self.netrev.looks([f"dump {dump} {socket}"])
        return [] if shown in ("-", "absent") else [int(word) for word in shown.split()]

    def count(self, of: ObjectKind) -> int:
        """The number of goroutines, sockets or descriptors that exist. Each kind of object is numbered from 0."""
        return count_at(self.netrev, of, room_for(self.recording, of))

    def sockets_of_open(self) -> dict[int, int]:
        """The open descriptors, each with its socket."""
        return opened_by(self.recording, self.position)[0]


class Opened:
    """The descriptors that are open after the openings and closings so far."""

    def __init__(self, earlier: "Opened | None" = None) -> None:
        self.count: int = earlier.count if earlier else 0
        self.free: list[int] = earlier.free.copy() if earlier else []
        self.now: dict[int, int] = earlier.now.copy() if earlier else {}

    def after(self, recording: Recording, first: int, last: int) -> "Opened":
        """The descriptors that are open after the steps from one position to another."""
        opened = Opened(self)
        for closed, socket in closings_and_openings(recording, first, last):
            if closed:
                opened.free.append(int(closed))
                del opened.now[opened.free[-1]]
            else:
                opened.now[opened.take()] = int(socket)
        return opened

    def next(self) -> int:
        """The number that `pollopen` takes: the number of the descriptor freed last, or the next new number."""
        return self.free[-1] if self.free else self.count

    def take(self) -> int:
        if self.free:
            return self.free.pop()
        self.count += 1
        return self.count - 1


@lru_cache(maxsize=128)
def opened_after(recording: Recording, blocks: int) -> Opened:
    """The descriptors that are open after this many blocks of steps."""
    if not blocks:
        return Opened()
    return opened_after(recording, blocks - 1).after(recording, (blocks - 1) * BLOCK, blocks * BLOCK)


@lru_cache(maxsize=2 * BLOCK // PIECE)
def opened_within(recording: Recording, pieces: int) -> Opened:
    """The descriptors that are open after this many pieces of a block."""
    if pieces % (BLOCK // PIECE) == 0:
        return opened_after(recording, pieces * PIECE // BLOCK)
    return opened_within(recording, pieces - 1).after(recording, (pieces - 1) * PIECE, pieces * PIECE)


@lru_cache(maxsize=4)
def opened_by(recording: Recording, position: int) -> tuple[dict[int, int], int]:
    """The descriptors that are open at a position, each with its socket, and the number that the next `pollopen`
    takes."""
    pieces = position // PIECE
    opened = opened_within(recording, pieces).after(recording, pieces * PIECE, position)
    return opened.now, opened.next()


def closings_and_openings(recording: Recording, first: int, last: int) -> Iterable[tuple[bytes, bytes]]:
    """A pair for each `pollclose` and `pollopen` among the steps from one position to another. The pair has the
    descriptor and an empty text for a `pollclose`, and an empty text and the socket for a `pollopen`."""
    if not recording.has_escapes:
        return OF_POLL.findall(recording.between(first, last))
    steps = recording.steps_of(("pollopen", "pollclose"), last)
    numbers = ((b"%d" % step.arguments[1], step.kind == "pollclose") for step in steps if step.number > first)
    return ((number, b"") if is_closed else (b"", number) for number, is_closed in numbers)


def room_for(recording: Recording, of: ObjectKind) -> int:
    """The most goroutines, sockets or descriptors that a recording may have, by its header."""
    return int(recording.limits[LIMITS[of]])


def count_at(netrev: Netrev, of: ObjectKind, most: int) -> int:
    """The number of goroutines, sockets or descriptors that exist at netrev's position; `most` if more of them
    exist."""
    count, size = 0, AT_FIRST
    while count < most:
        values = netrev.values([f"{COUNTED_BY[of]} {number}" for number in range(count, min(count + size, most))])
        if "absent" in values:
            return count + values.index("absent")
        count, size = count + len(values), size * TIMES
    return count
