"""The recorder's notes of sockets that were open before the oldest point in the log (go/log/notes.go writes them): the
state of the lock word and of the descriptor, the goroutines that waited there, each with its stage of the wait, and the
goroutines that were using the socket."""

from __future__ import annotations

from collections import Counter
from collections.abc import Iterable
from dataclasses import dataclass, field
from typing import NamedTuple

from .points import Point, PointKind

NOTED, POLL, DEADLINES, INSIDE, QUEUED, BEGIN, END, NAMED = map(
    int,
    (
        PointKind.NOTED, PointKind.NOTED_POLL, PointKind.NOTED_DEADLINES, PointKind.NOTED_INSIDE, PointKind.NOTED_QUEUED, PointKind.NOTES_BEGIN, PointKind.NOTES_END,
        PointKind.NOTED_NAMED,
    ),
)  # fmt: skip
INCREF, INCREF_CLOSE, DECREF, RW_LOCK, RW_UNLOCK, RELEASE, ACQUIRE, EVICT = map(
    int,
    (
        PointKind.INCREF,
        PointKind.INCREF_CLOSE,
        PointKind.DECREF,
        PointKind.RW_LOCK,
        PointKind.RW_UNLOCK,
        PointKind.RELEASE,
        PointKind.ACQUIRE,
        PointKind.EVICT,
    ),
)
# Stages of a wait, as go/log/notes.go numbers them.
ENTERING, ARMED, PARKING, PARKED, SWAPPING, CHECKING = range(1, 7)
# Words of a descriptor in a note.
NIL, READY, WAIT, GOROUTINE = range(4)
CLOSING, EVENT_ERROR, READ_RUNS, WRITE_RUNS, SHUT = (1 << bit for bit in range(5))
WORDS, UNQUEUED = (8, 10), 1 << 12
REFERENCES, WAITING = (3, 2**20 - 1), ((23, 2**20 - 1), (43, 2**20 - 1))  # fields of a lock word
YES = 2
READING, WRITING = 0, 1


class Inside(NamedTuple):
    """A goroutine inside a wait, the stage that the wait has reached, and the stack at its start."""

    goroutine: int
    place: int
    stack: int


class Queued(NamedTuple):
    """A goroutine that is queued for a lock, and the side (0 for reading, 1 for writing)."""

    goroutine: int
    side: int
    stack: int


@dataclass
class Note:
    """A noted socket, with what later points show about it: which goroutine releases a lock or a reference that it had
    when the socket was noted."""

    number: int  # of the point
    word: int
    counts: tuple[int, int]
    tag: int = 0
    sequences: tuple[int, int] = (0, 0)
    deadlines: tuple[int, int] = (0, 0)  # in Go's time
    flags: int | None = None  # None until the note's point with the flags comes
    inside: dict[int, Inside] = field(default_factory=dict)  # by side
    queued: list[Queued] = field(default_factory=list)
    holders: dict[int, int] = field(default_factory=dict)  # the goroutines that have the locks, by side
    references: Counter[int] = field(
        default_factory=Counter
    )  # how many references each goroutine has, besides those of its locks
    evicter: int = 0
    is_in_motion: bool = False  # the lock was being passed from one goroutine to a waiting one

    def add(self, point: Point) -> None:
        """Adds the facts from a further point of the note."""
        _, kind, goroutine, _, a, b, c, _, stack = point
        if kind == POLL:
            self.tag, self.sequences = a, (b, c)
        elif kind == DEADLINES:
            self.deadlines, self.flags = (a, b), c
        elif kind == INSIDE:
            self.inside[side_of(a)] = Inside(goroutine, b, stack)
        elif kind == QUEUED:
            self.queued.append(Queued(goroutine, side_of(a), stack))

    def goroutines(self) -> set[int]:
        """The goroutines that wait on the socket."""
        return {holder.goroutine for holder in self.inside.values()} | {holder.goroutine for holder in self.queued}

    def known(self) -> set[int]:
        """The goroutines that had the socket's locks and references."""
        return {*self.holders.values(), *self.references, self.evicter} - {0}

    def waits_to_write(self) -> bool:
        """Whether a goroutine waits inside a write. A goroutine that waits for a connection doesn't count, because it
        has no lock."""
        return WRITING in self.inside and self.is_taken(WRITING)

    def field(self, place: tuple[int, int]) -> int:
        """A field of the lock word."""
        return self.word >> place[0] & place[1]

    def is_taken(self, side: int) -> bool:
        return bool(self.word & 2 << side)

    def word_of(self, side: int) -> int:
        """The descriptor's word for a side."""
        return (self.flags or 0) >> WORDS[side] & 3

    def runs(self, side: int) -> bool:
        """Whether the timer of a side runs."""
        return bool((self.flags or 0) & READ_RUNS << side)


def side_of(mode: int) -> int:
    return int(mode == ord("w"))


class Debts:
    """Finds which goroutines had a socket's locks and references when it was noted. Such a goroutine later releases a
    lock or reference that it hasn't acquired after the note."""

    def __init__(self, note: Note) -> None:
        self.note = note
        self.had: Counter[int] = Counter()
        self.owes: Counter[int] = Counter()
        self.locked: set[int] = set()
        self.queued = {waiter.goroutine for waiter in note.queued}
        self.waits: set[int] = set()

    def point(self, point: Point) -> None:
        """Processes a later point of the socket."""
        note, (_, kind, g, _, old, new, bits, _, _) = self.note, point
        side = 0 if bits & 1 else 1
        if kind == RW_UNLOCK:
            if side not in self.locked:
                note.holders.setdefault(side, g)
                self.locked.add(side)
            self.owes[g] += old >> WAITING[side][0] & WAITING[side][1] > 0
        elif kind == RW_LOCK and bits & YES:
            self.locked.add(side)
        elif kind == RW_LOCK and old != new:
            self.waits.add(g)
        elif kind == INCREF and bits & YES:
            self.had[g] += 1
        elif kind == INCREF_CLOSE and bits & YES:
            self.had[g] += 1
            self.owes[g] += sum(old >> shift & most for shift, most in WAITING)
        elif kind == DECREF:
            self.had[g] -= 1
            if self.had[g] < 0:
                note.references[g] += 1
                self.had[g] = 0
        elif kind == RELEASE:
            self.owes[g] -= 1
            note.is_in_motion |= self.owes[g] < 0
        elif kind == ACQUIRE:
            note.is_in_motion |= g not in self.waits and g not in self.queued
        elif kind == EVICT and not note.evicter:
            note.evicter = g


class NotesSpan(NamedTuple):
    """The numbers of the first and the last point of notes about all open descriptors."""

    begin: int
    end: int


def spans(points: Iterable[Point]) -> list[NotesSpan]:
    """The spans of the complete notes. A note is complete if the log has its first and its last point."""
    begun: dict[int, int] = {}
    found = []
    for point in points:
        if point.kind == BEGIN:
            begun[point.a] = point.number
        elif point.kind == END and point.a in begun:
            found.append(NotesSpan(begun[point.a], point.number))
    return found
