"""All goroutines of a log, including those without sockets: where each waits outside the poller and on what object,
which goroutine started it, when it ends, and what it did with channels. Goroutines have Go's own numbers here, as in
Go's stack dumps."""

from __future__ import annotations

from bisect import bisect_left
from collections.abc import Container, Iterable
from dataclasses import dataclass, field, replace
from operator import itemgetter
from typing import NamedTuple

from .orders import Made
from .points import ORDERING, WAITING, LoggedHolder, Point, PointKind

READY, SENT, RECEIVED, MET, CLOSED, FOUND_CLOSED = map(
    int,
    (
        PointKind.READY,
        PointKind.SENT,
        PointKind.RECEIVED,
        PointKind.MET,
        PointKind.CHANNEL_CLOSED,
        PointKind.FOUND_CLOSED,
    ),
)
PARKS, GOES_ON, CASES, HANDED, ENDS, TIMER, GROUP, STOPPED, MAKES, DIAL_FAILED = map(
    int,
    (
        PointKind.PARKS, PointKind.GOES_ON, PointKind.CASES, PointKind.HANDED, PointKind.ENDS, PointKind.TIMER, PointKind.GROUP, PointKind.STOPPED, PointKind.MAKES, PointKind.DIAL_FAILED,
    ),
)  # fmt: skip
CONCERNED = ORDERING | WAITING
BY_GO = 1  # in a READY point: started by a `go` statement
GIVES, TAKES = 1, 2  # in a MET point: the direction of the value; 0 in older logs
PUT, TOOK, CLOSES, ENDED = "put", "took", "closed", "ended"
ADDED, DONE = "added", "done"  # at a WaitGroup
OF_A_WAIT_GROUP = 8  # the offset of a WaitGroup's semaphore from its address, in all recordable releases of Go
NEVER = -1  # for a stopped timer, instead of the time at which it goes off
OF_KIND = {SENT: PUT, RECEIVED: TOOK, CLOSED: CLOSES, FOUND_CLOSED: ENDED}
# The reasons for waits, as in go/log/orders.go: the lowest byte of a point's word.
(
    OTHER, VALUE, ROOM, SELECT, CONDITION, SLEEP, MUTEX, READ_LOCK, WRITE_LOCK, WAIT_GROUP, SEMAPHORE, NIL_CHANNEL, NO_CASES,
) = range(13)  # fmt: skip
UNENDED = -1
GENERATION = 48  # from this bit on, a channel's key counts the earlier channels at its address
BEHIND = 2**64, 0, 0  # a step after the last point


class At(NamedTuple):
    """The address of an object on which a goroutine waits, and the operation that it waits for: VALUE, ROOM, or 0."""

    address: int
    use: int


class LoggedPark(NamedTuple):
    """A wait outside the poller: the goroutine, the steps after which it begins and ends, both times, the reason, the
    stack, the goroutine that ended it (0 if unknown), the objects, and the end of a sleep (0 if unknown)."""

    goroutine: int
    first: int
    last: int
    begin: int
    end: int
    what: int
    stack: int
    by: int
    objects: tuple[At, ...]
    due: int = 0


class Born(NamedTuple):
    """The start of a goroutine: the goroutine that started it, the step before, and the time."""

    maker: int
    step: int
    time: int


class LoggedTimer(NamedTuple):
    """A timer that a goroutine made, reset or stopped: its channel's address (0 if it calls a function), the goroutine,
    the stack, the step before, the time, and when it was due (NEVER if it was stopped)."""

    address: int
    goroutine: int
    stack: int
    step: int
    time: int
    due: int


class Used(NamedTuple):
    """A goroutine's use of a channel or a WaitGroup's semaphore, from one stack."""

    address: int
    goroutine: int
    what: str
    stack: int


class UseSpan(NamedTuple):
    """A count, and the first and the last time, by steps and by the clock."""

    often: int
    first: int
    last: int
    begin: int
    end: int


class LoggedChannel(NamedTuple):
    """A new channel: the goroutine that made it, the stack, the step before, and the time."""

    goroutine: int
    stack: int
    step: int
    time: int


class LoggedMutex(NamedTuple):
    """A mutex that is locked when the log ends: its address, the goroutine that locked it, whether it is locked for
    reading, the goroutine's stack, and the last step before it was locked."""

    address: int
    goroutine: int
    is_reader: bool
    stack: int
    step: int


class LoggedDial(NamedTuple):
    """A dial that failed: the goroutine, the stack, the step before, the time, the error, the address as the recorder
    packs it, and the channel of its context (0 if it has none)."""

    goroutine: int
    stack: int
    step: int
    time: int
    why: int
    address: int
    context: int


@dataclass
class Goroutines:
    """The log's facts about all goroutines. Waits are in the order in which they begin. A channel is known by its
    address, or, if it was made at an older channel's address, by a key of its own. `held` is None if the log doesn't
    say which mutexes are locked."""

    parks: list[LoggedPark] = field(default_factory=list)
    finished: list[int] = field(default_factory=list)  # the indices of those that ended, in the order of their ends
    born: dict[int, Born] = field(default_factory=dict)
    ended: dict[int, tuple[int, int]] = field(default_factory=dict)  # after which step, and when
    uses: dict[Used, UseSpan] = field(default_factory=dict)
    rooms: dict[int, int] = field(default_factory=dict)  # for channels, by address
    timers: list[LoggedTimer] = field(default_factory=list)
    made: dict[int, LoggedChannel] = field(default_factory=dict)  # for channels, by key
    dials: list[LoggedDial] = field(default_factory=list)
    held: list[LoggedMutex] | None = None

    def stacks(self) -> set[int]:
        """The stacks of waits, uses, timers, channels, failed connects and locked mutexes."""
        waiting = {park.stack for park in self.parks} | {use.stack for use in self.uses}
        making = {timer.stack for timer in self.timers} | {making.stack for making in self.made.values()}
        return waiting | making | {dial.stack for dial in self.dials} | {held.stack for held in self.held or ()}

    def during(self, begin: int, end: int | None) -> Goroutines:
        """The waits and uses that overlap a period, and the timers that were made before its end."""

        def overlaps(first: int, last: int) -> bool:
            return (end is None or first <= end) and (last == UNENDED or last >= begin)

        parks = [park for park in self.parks if overlaps(park.begin, park.end)]
        uses = {use: span for use, span in self.uses.items() if overlaps(span.begin, span.end)}
        timers = [timer for timer in self.timers if end is None or timer.time <= end]
        dials = [dial for dial in self.dials if overlaps(dial.time, dial.time)]
        return replace(self, parks=parks, finished=[], uses=uses, timers=timers, dials=dials)

    def goroutines(self) -> set[int]:
        """The goroutines that wait, use a channel, make a timer or fail to dial."""
        waiting, timing = {park.goroutine for park in self.parks}, {timer.goroutine for timer in self.timers}
        return waiting | timing | {use.goroutine for use in self.uses} | {dial.goroutine for dial in self.dials}

    def without(self, others: Container[int]) -> Goroutines:
        """The facts about all goroutines except these."""
        parks = [park for park in self.parks if park.goroutine not in others]
        uses = {use: span for use, span in self.uses.items() if use.goroutine not in others}
        timers = [timer for timer in self.timers if timer.goroutine not in others]
        dials = [dial for dial in self.dials if dial.goroutine not in others]
        return replace(self, parks=parks, finished=[], uses=uses, timers=timers, dials=dials)


def objects_of(what: int, at: int, b: int, c: int) -> tuple[At, ...]:
    """The objects of a PARKS or CASES point: one object, or up to three channels of a select, each with two bits for
    its use."""
    if not at:
        return ()
    use = what & 255
    if use != SELECT:
        return (At(at, use if use == VALUE or use == ROOM else 0),)
    if not b:
        return (At(at, what >> 8 & 3),)
    if not c:
        return (At(at, what >> 8 & 3), At(b, what >> 10 & 3))
    return (At(at, what >> 8 & 3), At(b, what >> 10 & 3), At(c, what >> 12 & 3))


class Begun(NamedTuple):
    """A wait that has begun: its index among all waits, and the known facts about it."""

    place: int
    step: int
    time: int
    what: int
    stack: int
    objects: tuple[At, ...]
    due: int


class Passing:
    """Reads a log's points, each with the number of steps before it. (There may be half a million points.)"""

    def __init__(self, begin: int) -> None:
        self.found = Goroutines()
        self.parks: list[LoggedPark | None] = []
        self._begin = begin
        self._parked: dict[int, Begun] = {}
        self._ready: dict[int, int] = {}
        self._cases: dict[int, tuple[At, ...]] = {}
        self._uses: dict[tuple[int, int, str, int], list[int]] = {}
        self._keys: dict[int, int] = {}  # for an address, the key of the last channel that was made there

    def point(self, point: Point, step: int) -> None:
        """Processes the next point; `step` is the last step before it."""
        _, kind, g, at, a, b, c, clock, stack = point
        time = max(clock - self._begin, 0)  # (older logs have no times)
        channel = self._keys.get(at, at)
        if kind == READY:
            if b != BY_GO:
                self._ready[a] = g
            else:
                self.found.born[a] = Born(g, step, time)
        elif kind == PARKS:
            self._parks(point, step, time)
        elif kind == GOES_ON:
            if g in self._parked:
                self._ends(g, self._parked.pop(g), step, time)
        elif kind == SENT or kind == RECEIVED or kind == FOUND_CLOSED:
            self.found.rooms[channel] = b
            self._used(channel, g, OF_KIND[kind], stack, step, time)
        elif kind == CLOSED:
            self._used(channel, g, CLOSES, stack, step, time)
        elif kind == MET or kind == HANDED:
            self._met(point, step, time)
        elif kind == CASES:
            self._cases[g] = self._cases.get(g, ()) + self._objects(a, at, b, c)
        elif kind == MAKES:
            self._makes(point, step, time)
        elif kind == DIAL_FAILED:
            self.found.dials.append(LoggedDial(g, stack, step, time, a, b, channel))
        elif kind == ENDS:
            self.found.ended[g] = step, time
        elif kind == TIMER:
            self.found.timers.append(LoggedTimer(channel, g, stack, step, time, max(a - self._begin, 0)))
        elif kind == STOPPED:
            self.found.timers.append(LoggedTimer(channel, g, stack, step, time, NEVER))
        elif kind == GROUP:
            self._used(at + OF_A_WAIT_GROUP, g, ADDED if a > 0 else DONE, stack, step, time, abs(a))

    def all(self) -> Goroutines:
        """The result, after the last point."""
        for g, begun in self._parked.items():
            self.parks[begun.place] = self._park(g, begun, UNENDED, UNENDED, 0)
        self.found.parks = [park for park in self.parks if park]
        self.found.uses = {Used(*use): UseSpan(*span) for use, span in self._uses.items()}
        return self.found

    def _makes(self, point: Point, step: int, time: int) -> None:
        """Records that a goroutine makes a channel."""
        key = self._keys.get(point.at, point.at)
        if key in self.found.made or key in self.found.rooms:
            key += 1 << GENERATION
            self._keys[point.at] = key
        self.found.made[key] = LoggedChannel(point.goroutine, point.stack, step, time)
        self.found.rooms[key] = point.b

    def _objects(self, what: int, at: int, b: int, c: int) -> tuple[At, ...]:
        """The objects of a wait, with the key of each channel instead of its address."""
        keys, objects = self._keys, objects_of(what, at, b, c)
        if not any([thing.address in keys for thing in objects]):  # (as nearly always)
            return objects
        return tuple(
            [At(keys.get(thing.address, thing.address), thing.use) if thing.use else thing for thing in objects]
        )

    def _parks(self, point: Point, step: int, time: int) -> None:
        """Records that a goroutine begins to wait. If it is already waiting, the log was damaged, and the earlier wait
        lasts to the end."""
        _, _, g, at, a, b, c, _, stack = point
        what = a & 255
        self._ready.pop(g, None)
        objects = self._objects(a, at, b, c)
        if g in self._cases:
            objects = self._cases.pop(g) + objects
        if at and (what == VALUE or what == ROOM):
            self.found.rooms[self._keys.get(at, at)] = b
        due = b - self._begin if what == SLEEP else 0
        if g in self._parked:
            self.parks[self._parked[g].place] = self._park(g, self._parked[g], UNENDED, UNENDED, 0)
        self._parked[g] = Begun(len(self.parks), step, time, what, stack, objects, due if due > time else 0)
        self.parks.append(None)

    def _ends(self, g: int, begun: Begun, step: int, time: int) -> None:
        """Records that a goroutine continues."""
        self.parks[begun.place] = self._park(g, begun, step, time, self._ready.pop(g, 0))
        self.found.finished.append(begun.place)

    @staticmethod
    def _park(g: int, begun: Begun, step: int, time: int, by: int) -> LoggedPark:
        _, first, begin, what, stack, objects, due = begun
        return LoggedPark(g, first, step, begin, time, what, stack, by, objects, due)

    def _met(self, point: Point, step: int, time: int) -> None:
        """Records that a value passes from one goroutine to another that waits for it."""
        _, kind, g, at, other, b, _, _, stack = point
        at = self._keys.get(at, at)
        self._ready[other] = g
        way = b if kind == MET else GIVES
        if way != GIVES and way != TAKES:  # in an older log
            what = self._parked[other].what if other in self._parked else OTHER
            way = {VALUE: GIVES, ROOM: TAKES}.get(what, 0)
        self.found.rooms[at] = b if kind == HANDED else 0
        if way:
            mine, others = (PUT, TOOK) if way == GIVES else (TOOK, PUT)
            self._used(at, g, mine, stack, step, time)
            self._used(at, other, others, 0, step, time)

    def _used(self, at: int, g: int, what: str, stack: int, step: int, time: int, often: int = 1) -> None:
        """Records what a goroutine did with a channel or a WaitGroup. If it waits, it has the stack of its wait."""
        if not stack and g in self._parked:
            stack = self._parked[g].stack
        use = at, g, what, stack
        span = self._uses.get(use)
        if span:
            span[0] += often
            span[2], span[4] = step, time
        else:
            self._uses[use] = [often, step, step, time, time]


def goroutines_of(
    points: Iterable[Point], steps: list[Made], begin: int, holders: list[LoggedHolder] | None = None
) -> Goroutines:
    """All goroutines, from the points about them and the locked mutexes. `steps` has the steps of each point, in the
    order of the points."""
    passing = Passing(begin)
    pass_point = passing.point
    following = iter((*steps, BEHIND))
    step, upcoming = 0, next(following)
    for point in points:
        while upcoming[0] < point[0]:
            step, upcoming = upcoming[2], next(following)
        pass_point(point, step)
    found = passing.all()
    if holders is not None:
        found.held = [
            LoggedMutex(
                holder.address, holder.goroutine, holder.is_reader, holder.stack, steps[index - 1][2] if index else 0
            )
            for holder in holders
            for index in [bisect_left(steps, holder.passed, key=itemgetter(0))]
        ]
    return found
