"""The orders and waits of random programs equal the results of a naive search, which follows all edges between points
and looks for the end of each wait."""

import random

import pytest

from netrev_go.log.goroutines import (  # fmt: skip
    BY_GO,
    CONDITION,
    MUTEX,
    NEVER,
    ROOM,
    SLEEP,
    UNENDED,
    VALUE,
    At,
    Born,
    Goroutines,
    LoggedPark,
    LoggedTimer,
    goroutines_of,
)
from netrev_go.log.orders import orders_of
from netrev_go.log.points import Point, PointKind
from netrev_go.log.waits import WAITED_FOR, LoggedWait, waits_of

Edges = dict[int, set[int]]  # for each point, those that directly precede it
Pairs = list[tuple[int, int]]


class Synchronized:
    """A program whose goroutines make steps, wake one another, meet, and send through channels with buffers."""

    def __init__(self, seed: int) -> None:
        self.dice = random.Random(seed)
        self.points: list[Point] = []
        self.steps: dict[int, int] = {}  # the goroutine of each point that is a step
        self.edges: Edges = {}
        self.last: dict[int, set[int]] = {}  # for each goroutine, the points that precede its next point
        self.rooms = {900 + at: self.dice.randint(1, 3) for at in range(2)}
        self.sent: dict[int, list[int]] = {channel: [] for channel in self.rooms}
        self.received: dict[int, list[int]] = {channel: [] for channel in self.rooms}
        self.closed: dict[int, int] = {}
        for _ in range(80):
            self.turn(self.dice.randint(1, 4), self.dice.randint(1, 4))

    def point(self, kind: int, g: int, at: int = 0, a: int = 0, b: int = 0, behind: tuple[int, ...] = ()) -> int:
        """Adds a point of a goroutine, which follows the goroutine's last point and the given points."""
        number = len(self.points)
        self.points.append(Point(number, kind, g, at, a, b, 0, 0, 0))
        self.edges[number] = self.last.get(g, set()) | set(behind)
        self.last[g] = {number}
        return number

    def turn(self, g: int, other: int) -> None:
        what = self.dice.choice(("step", "step", "ready", "send", "receive", "meet", "close", "find"))
        channel = self.dice.choice(list(self.rooms))
        sent, received, room = self.sent[channel], self.received[channel], self.rooms[channel]
        held = len(sent) - len(received)
        if what == "step":
            self.steps[self.point(PointKind.INCREF, g)] = g
        elif what == "ready" and g != other:
            self.last[other] = self.last.get(other, set()) | {self.point(PointKind.READY, g, a=other)}
        elif what == "send" and held < room and channel not in self.closed:
            place = received[len(sent) - room : len(sent) - room + 1] if len(sent) >= room else []
            sent.append(self.point(PointKind.SENT, g, channel, held, room, (*place,)))
        elif what == "receive" and held:
            received.append(self.point(PointKind.RECEIVED, g, channel, held, room, (sent[len(received)],)))
        elif what == "meet" and g != other:
            number = self.point(PointKind.MET, g, 800, other, behind=(*self.last.get(other, ()),))
            self.last[other] = {number}
        elif what == "close" and channel not in self.closed:
            self.closed[channel] = self.point(PointKind.CHANNEL_CLOSED, g, channel, held, room)
        elif what == "find" and channel in self.closed:
            self.point(PointKind.FOUND_CLOSED, g, channel, held, room, (self.closed[channel],))

    def before(self) -> dict[int, set[int]]:
        """For each step, all steps that come before it along the edges."""
        reached: dict[int, set[int]] = {}
        for number in range(len(self.points)):
            near = self.edges[number]
            reached[number] = set().union(*(reached[number_before] for number_before in near)) | {
                number_before for number_before in near if number_before in self.steps
            }
        return {number: reached[number] for number in self.steps}

    def found(self) -> Pairs:
        """The pairs of steps that are found; a step's number is its point's number plus one."""
        ordering = [point for point in self.points if point.number not in self.steps]
        return orders_of(ordering, [(number, g, number + 1) for number, g in self.steps.items()])

    def along(self, pairs: Pairs) -> dict[int, set[int]]:
        """For each step, the steps that precede it according to these pairs and the goroutines' own order."""
        reached: dict[int, set[int]] = {}
        newest: dict[int, int] = {}
        for number, g in self.steps.items():
            near = {first - 1 for first, second in pairs if second == number + 1} | {
                newest[g] for _ in (g,) if g in newest
            }
            reached[number] = near.union(*(reached[number_before] for number_before in near))
            newest[g] = number
        return reached


@pytest.mark.parametrize("seed", range(60))
def test_a_step_comes_behind_those_that_lead_to_it(seed: int) -> None:
    program = Synchronized(seed)
    pairs = program.found()
    assert program.along(pairs) == program.before()
    assert [second for _, second in pairs] == sorted(second for _, second in pairs)


@pytest.mark.parametrize("seed", range(20))
def test_no_pair_follows_from_an_earlier_one_of_the_same_goroutines(seed: int) -> None:
    program = Synchronized(seed)
    newest: dict[tuple[int, int], int] = {}
    for first, second in program.found():
        whose = program.steps[first - 1], program.steps[second - 1]
        assert whose[0] != whose[1] and first > newest.get(whose, 0)
        newest[whose] = first


BEGIN = 1_000
Made = tuple[int, int, int]


def random_waits(seed: int) -> tuple[list[Point], list[Made]]:
    """Points of goroutines that wait, wake and start other goroutines, make timers, and end; and the steps, by the
    numbers of their points."""
    dice, points, steps = random.Random(seed), list[Point](), list[Made]()
    for number in range(100):
        kind = dice.choice(
            (
                0,
                0,
                0,
                PointKind.PARKS,
                PointKind.PARKS,
                PointKind.GOES_ON,
                PointKind.READY,
                PointKind.READY,
                PointKind.TIMER,
                PointKind.STOPPED,
                PointKind.ENDS,
            )
        )
        g, at, a, b, clock = (
            dice.randint(1, 4),
            800,
            dice.randint(1, 4),
            dice.choice((0, 0, BY_GO)),
            BEGIN + 10 * number,
        )
        if kind == 0:
            steps.append((number, g, len(steps) + 1))
            continue
        if kind == PointKind.PARKS:
            at, a, b = dice.choice(
                (
                    (700, VALUE, 2),
                    (700, ROOM, 2),
                    (0, SLEEP, clock + 7),
                    (0, SLEEP, 0),
                    (600, MUTEX, 0),
                    (0, CONDITION, 0),
                )
            )
        elif kind == PointKind.TIMER:
            a = clock + a
        points.append(Point(number, kind, g, at, a, b, 0, clock, dice.randint(0, 3)))
    return points, steps


def steps_before(number: int, steps: list[Made]) -> int:
    return sum(1 for at, _, _ in steps if at < number)


def end_of(park: Point, points: list[Point]) -> Point | None:
    """The point at which a goroutine continues; None if it parks again before that, or never continues."""
    own = (later for later in points if later.number > park.number and later.goroutine == park.goroutine)
    following = next((later for later in own if later.kind in (PointKind.PARKS, PointKind.GOES_ON)), None)
    return following if following and following.kind == PointKind.GOES_ON else None


def naive_park(parking: Point, points: list[Point], steps: list[Made]) -> LoggedPark:
    end = end_of(parking, points)
    woken = [
        other.goroutine for other in points
        if end and parking.number < other.number < end.number and other.kind == PointKind.READY
        and (other.a, other.b) == (parking.goroutine, 0)
    ]  # fmt: skip
    objects = (At(parking.at, parking.a if parking.a in (VALUE, ROOM) else 0),) if parking.at else ()
    due = parking.b - BEGIN if parking.a == SLEEP and parking.b > parking.time else 0
    last, ends = (steps_before(end.number, steps), end.time - BEGIN) if end else (UNENDED, UNENDED)
    first, by = steps_before(parking.number, steps), woken[-1] if woken else 0
    return LoggedPark(
        parking.goroutine, first, last, parking.time - BEGIN, ends, parking.a, parking.stack, by, objects, due
    )


@pytest.mark.parametrize("seed", range(40))
def test_a_wait_ends_where_its_goroutine_goes_on_and_by_who_made_it_ready(seed: int) -> None:
    points, steps = random_waits(seed)
    found = goroutines_of(points, steps, BEGIN)
    parks = [point for point in points if point.kind == PointKind.PARKS]
    assert found.parks == [naive_park(point, points, steps) for point in parks]
    ended = sorted((end.number, place) for place, point in enumerate(parks) if (end := end_of(point, points)))
    assert found.finished == [place for _, place in ended]
    assert found.ended == {
        point.goroutine: (steps_before(point.number, steps), point.time - BEGIN)
        for point in points
        if point.kind == PointKind.ENDS
    }
    assert found.born == {
        point.a: Born(point.goroutine, steps_before(point.number, steps), point.time - BEGIN)
        for point in points if point.kind == PointKind.READY and point.b == BY_GO
    }  # fmt: skip
    assert found.timers == [
        LoggedTimer(
            point.at, point.goroutine, point.stack, steps_before(point.number, steps), point.time - BEGIN,
            point.a - BEGIN if point.kind == PointKind.TIMER else NEVER,
        )
        for point in points if point.kind in (PointKind.TIMER, PointKind.STOPPED)
    ]  # fmt: skip


@pytest.mark.parametrize("seed", range(40))
def test_waits_of_a_recording_are_those_with_a_step_in_them(seed: int) -> None:
    """Goroutine 4 has no number. Goroutine 3 got its number after step 5; before that, another goroutine had that
    number."""
    points, steps = random_waits(seed)
    found, numbers, since = goroutines_of(points, steps, BEGIN), {1: 0, 2: 1, 3: 2}, {3: 5}
    ended = sorted(
        (end.number, point.number)
        for point in points
        if point.kind == PointKind.PARKS and (end := end_of(point, points))
    )
    by_number = dict(zip((point.number for point in points if point.kind == PointKind.PARKS), found.parks))
    never = [number for number, park in by_number.items() if park.last == UNENDED]
    expected = []
    for park in [by_number[number] for number in (*(number for _, number in ended), *never)]:
        taken = since.get(park.goroutine, 0)
        if park.goroutine == 4 or park.what == SLEEP or park.first == park.last or park.first < taken:
            continue
        by = numbers[park.by] if park.by in numbers and park.last >= since.get(park.by, 0) else -1
        reason = WAITED_FOR[park.what] if park.what in (VALUE, ROOM, CONDITION) else ""
        expected.append(LoggedWait(park.first, max(park.last, 0), numbers[park.goroutine], reason, park.stack, by))
    assert waits_of(found, numbers, since) == expected


def overlap(begin: int, end: int | None, first: int, last: int) -> bool:
    """Whether two periods overlap; a wait without an end lasts to the end of the log."""
    moments = range(begin, (2_000 if end is None else end) + 1)
    return any(first <= moment and (last == UNENDED or moment <= last) for moment in moments)


@pytest.mark.parametrize("begin, end", [(0, None), (300, 500), (500, 500), (505, 509), (990, None), (0, 0)])
def test_those_during_a_time_have_a_moment_in_it(begin: int, end: int | None) -> None:
    found: Goroutines = goroutines_of(*random_waits(1), BEGIN)
    during = found.during(begin, end)
    assert during.parks == [park for park in found.parks if overlap(begin, end, park.begin, park.end)]
    assert during.timers == [park for park in found.timers if end is None or park.time <= end]
