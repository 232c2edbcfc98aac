"""Makes the recording of a log: chooses the sockets that fit, makes the steps, and notes what is left out."""

from __future__ import annotations

import json
import pathlib
from collections.abc import Callable, Iterator
from dataclasses import dataclass, field
from functools import cached_property

from netrev.errors import NetrevError
from netrev.messages import recorder as messages
from netrev.text.files import whole
from netrev.text.plurals import counted
from netrev_go.log.goroutines import CONCERNED, Goroutines, goroutines_of
from netrev_go.log.lifetimes import ENDS, Lifetimes, lifetimes_of
from netrev_go.log.notes import spans
from netrev_go.log.orders import Made, orders_of
from netrev_go.log.point_answers import UnconvertibleError
from netrev_go.log.points import AT_A_SOCKET, LOCKING, NOTING, ORDERING, Log, Point, PointKind
from netrev_go.log.prelude import NOBODY
from netrev_go.log.socket_facts import Beside
from netrev_go.log.sockets import (  # fmt: skip
    FEW_BYTES,
    MOST_GOROUTINES,
    MOST_MEGABYTES,
    MOST_SOCKETS,
    MOST_STEPS,
    POINT,
    LoggedSocket,
    Owned,
    chosen,
    lead_to,
    owned,
)
from netrev_go.log.times import times_of
from netrev_go.log.waits import waits_of

from .converter import Converter
from .leading_steps import LatePreludeError
from .zeros import Line

LockWord = tuple[int, int, int]  # the step before, the socket, and the word


class NothingRecordedError(NetrevError):
    """The log contains nothing from which a recording could be made."""


class NoSocketError(NothingRecordedError):
    """The program opened no socket."""


@dataclass
class NewRecording:
    """A recording that isn't written yet."""

    header: str
    lines: list[Line]
    stacks: list[int]
    goroutines: int
    last_steps: list[int]
    sockets: int
    orders: list[tuple[int, int]] | None = None  # None if the log has no orders
    notes: list[str] = field(default_factory=list)
    beside: Beside = field(default_factory=Beside)
    bytes: int | None = None  # the limit for the count of a read or a write, if one moved more bytes
    made: list[Made] = field(default_factory=list)  # the goroutines' steps
    times: list[int] | None = None  # the time of each step since the log began; None if the log has no times
    points: list[tuple[Point, LoggedSocket]] = field(default_factory=list)
    ended: list[int] = field(default_factory=list)  # the number of steps after each point
    everybody: Goroutines = field(default_factory=Goroutines)  # also goroutines without a step
    numbers: dict[int, int] = field(default_factory=dict)  # the recording's goroutines, by Go's numbers
    prelude: int = 0  # how many steps lead to the state in which the recording begins
    has_tags: bool = False  # Go's events have tags, which Go compares with the descriptor's current use
    taken: list[tuple[int, int, int]] = field(
        default_factory=list
    )  # (number, step, goroutine): the goroutine takes the number after the step

    @cached_property
    def words(self) -> list[LockWord]:
        """Go's lock words."""
        return [(step, socket.number, point.b) for point, socket, step in self._locks()]

    @cached_property
    def old_numbers(self) -> list[int]:
        """The earlier value of each of these lock words."""
        return [point.a for point, _, _ in self._locks()]

    def _locks(self) -> Iterator[tuple[Point, LoggedSocket, int]]:
        """The points that changed a lock word, each with its step."""
        return ((*pair, step) for pair, step in zip(self.points, self.ended) if pair[0].kind in LOCKING)


Part = Callable[[Log, Owned], list[LoggedSocket]]
ENDING = frozenset((ENDS,))
AT_ONCE = 1_024  # lines that are written together


def make(
    log: Log,
    most: int = MOST_SOCKETS,
    megabytes: int = MOST_MEGABYTES,
    all_bytes: bool = True,
    part: Part | None = None,
    first: int = 0,
) -> NewRecording:
    """The recording of a log's newest sockets, or of the sockets that `part` chooses: at most `most` sockets, and at
    most `megabytes` of text for their bytes. A socket whose lock word has the address `first` is kept before all
    others."""
    window = window_of(log, all_bytes)
    found = window.found
    notes = [*log.notes, *window.notes]
    if not found.sockets:
        if log.from_the_start:
            raise NoSocketError(messages.NO_SOCKET)
        raise NothingRecordedError(messages.OPENED_EARLIER)
    wanted = found.sockets if part is None else part(log, found)
    if not wanted:
        raise NoSocketError(messages.NO_SOCKET_OF_TEST)
    fitted = Fitted(found, wanted, list(log.of_kinds(ENDING)), first)
    converter = fitted.converted(log.begin, most, megabytes)
    notes += fitted.notes
    if fitted.kept < len(wanted):
        notes.append(messages.SOME_SOCKETS.format(kept=fitted.kept, wanted=len(wanted)))
    if found.cut:
        notes.append(messages.FEW_BYTES.format(bytes=FEW_BYTES))
    orders = orders_of(log.of_kinds(ORDERING), converter.made) if log.has_orders else None
    everybody = goroutines_of(log.of_kinds(CONCERNED), converter.made, log.begin, log.holders)
    numbers, since = owners_of(converter)
    prelude = converter.steps_before(window.end) if window.end else 0
    if prelude:
        notes.append(messages.BEGINS_IN_THE_MIDDLE.format(steps=prelude))
    converter.beside.waits = waits_of(everybody, converter.goroutines, since)
    converter.beside.pair_unix()
    converter.beside.sizes = [
        (converter.early.get(point.number, step), size)
        for (point, socket), step in zip(converter.points, converter.ended)
        if socket.whole and step and (size := socket.whole.get(point.number))
    ]  # fmt: skip
    return NewRecording(
        converter.header(), converter.lines, converter.stacks,
        len(converter.goroutines) - (NOBODY in converter.goroutines), converter.last_steps, converter.sockets, orders, notes,
        converter.beside, FEW_BYTES if found.cut else None, converter.made,
        times_of(map(POINT, converter.points), converter.ended, log.begin), converter.points, converter.ended,
        everybody, numbers, prelude, any(point.kind == PointKind.EVENT and point.c for point, _ in converter.points), converter.taken,
    )  # fmt: skip


@dataclass
class PointWindow:
    """The points of a recording: all points of sockets, or those from the first complete notes on."""

    found: Owned
    end: int = 0  # the number of the last point of these notes; 0 if there are none
    notes: list[str] = field(default_factory=list)


def window_of(log: Log, all_bytes: bool) -> PointWindow:
    """If the log lacks its first points, the points that begin with the first complete notes; otherwise all points."""
    noted = [] if log.from_the_start else spans(log.of_kinds(NOTING))
    if not noted:
        return PointWindow(owned(list(log.of_kinds(AT_A_SOCKET)), all_bytes))
    begin, end = noted[0]
    points = [point for point in log.of_kinds(AT_A_SOCKET | NOTING) if point.number >= begin]
    found = owned(points, all_bytes)
    left_out = lead_to(found.sockets, log.begin)
    return PointWindow(found, end, [lacks(*item) for item in left_out.items()])


def lacks(why: str, number: int) -> str:
    """The message about sockets that were open before the recording begins and aren't in it."""
    which = "that was open before is" if number == 1 else "that were open before are"
    return f"{counted(number, 'socket')} {which} left out: {why}"


def owners_of(converter: Converter) -> tuple[dict[int, int], dict[int, int]]:
    """The recording's goroutines by Go's numbers: for each number, the last goroutine that had it; and the step after
    which a goroutine took its number."""
    numbers = {name: number for number, name in enumerate(converter.names) if name != NOBODY}
    return numbers, {name: step for _, step, name in converter.taken}


class Fitted:
    """The sockets that fit; their steps are counted exactly if an estimate isn't enough."""

    def __init__(self, found: Owned, wanted: list[LoggedSocket], ends: list[Point], first: int = 0) -> None:
        self.found = found
        self.first = first
        self.ends = ends
        self.wanted = {socket.opening for socket in wanted}
        self.before = [dict(vars(socket)) for socket in found.sockets]
        self.kept = 0
        self.is_crowded = False  # more goroutines at one time than a recording has numbers
        self.notes: list[str] = []

    @cached_property
    def lifetimes(self) -> Lifetimes:
        """When goroutines begin and end; computed only if there are many."""
        return lifetimes_of(self.found.began(), self.ends)

    def at_once(self, goroutines: set[int]) -> int:
        """The greatest number of these goroutines that exist at one time."""
        return self.lifetimes.most(goroutines)

    def converted(self, begin: int, most: int, megabytes: int) -> Converter:
        """The converter of the sockets that fit; raises NothingRecordedError if not even one fits."""
        room, counted = MOST_STEPS, False
        while True:
            points = self.chosen(most, megabytes, room)
            converter = Converter(points, begin, self.lifetimes.in_order() if self.is_crowded else None)
            try:
                converter.convert()
            except LatePreludeError as why:
                self.wanted.remove(why.opening)
                self.notes.append(lacks(str(why), 1))
                self.restore()
                continue
            over = len(converter.lines) - MOST_STEPS
            if over <= 0:
                return converter
            steps = converter.made_of()
            self.restore()
            for socket in self.found.sockets:
                socket.steps = max(socket.steps, steps.get(socket.opening, 0))
            room -= over if counted else 0
            counted = True

    def restore(self) -> None:
        """Removes the marks that a converter leaves at sockets."""
        for socket, before in zip(self.found.sockets, self.before):
            vars(socket).update(before)

    def chosen(self, most: int, megabytes: int, room: int) -> list[tuple[Point, LoggedSocket]]:
        """The points of the sockets that may fit."""
        wanted = [socket for socket in self.found.sockets if socket.opening in self.wanted]
        kept = chosen(wanted, most, megabytes, room, self.at_once, self.first)
        self.is_crowded = len(set().union(*(socket.goroutines for socket in kept))) > MOST_GOROUTINES
        if not kept:
            raise NothingRecordedError(messages.ONE_IS_TOO_LARGE.format(megabytes=megabytes))
        self.kept = len(kept)
        return [pair for pair in self.found.points if pair[1] in kept]


def write(
    recording: NewRecording, name: pathlib.Path, write_others: Callable[[], object] = bool, permissions: int = 0o666
) -> None:
    """Writes the recording atomically, after the call that writes the files beside it; raises an OSError that names the
    file if either fails. An earlier recording of that name then stays."""
    with whole(name, permissions=permissions) as file:
        file.write(recording.header + "\n")
        for first in range(0, len(recording.lines), AT_ONCE):
            file.write("\n".join(map(str, recording.lines[first : first + AT_ONCE])) + "\n")
        file.flush()
        write_others()


def write_words(recording: NewRecording, name: pathlib.Path, permissions: int = 0o666) -> None:
    """Writes Go's lock words, a line of JSON for each: the step before, the cell, and the value."""
    with whole(name, permissions=permissions) as file:
        for step, socket, word in recording.words:
            file.write(json.dumps([step, f"lock {socket}", str(word % 2**64)]) + "\n")


__all__ = [
    "NoSocketError",
    "NothingRecordedError",
    "NewRecording",
    "UnconvertibleError",
    "make",
    "write",
    "write_words",
]
