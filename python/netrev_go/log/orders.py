"""The orders between steps that the program itself enforces: by `go` statements, channels, and wake-ups, such as those
of a mutex, a condition or a WaitGroup. They may also pass through goroutines without steps. If a lock was free, no
order is known."""

from __future__ import annotations

from collections import defaultdict, deque
from collections.abc import Iterable, Iterator

from .points import Point, PointKind

READY, SENT, RECEIVED, MET, CHANNEL_CLOSED, HANDED = map(
    int,
    (PointKind.READY, PointKind.SENT, PointKind.RECEIVED, PointKind.MET, PointKind.CHANNEL_CLOSED, PointKind.HANDED),
)
END = Point(2**63, 0, 0, 0, 0, 0, 0, 0, 0)  # after the last point

Frontier = dict[int, int]  # for each goroutine, its last step that precedes others


class ValueQueue:
    """The steps that precede each value in a queue. The first values may be unknown and are only counted, because a
    channel's capacity isn't known."""

    def __init__(self) -> None:
        self._unknown = 0
        self._known: deque[Frontier] = deque()

    def __len__(self) -> int:
        return self._unknown + len(self._known)

    def fit(self, length: int) -> None:
        """Sets the length, which may differ because another channel may have been at this address, or because the log
        begins later."""
        while len(self._known) > length:
            self._known.popleft()
        self._unknown = length - len(self._known)

    def put(self, frontier: Frontier) -> None:
        self._known.append(frontier)

    def take(self) -> Frontier:
        """Removes the first value; returns its steps."""
        if not self._unknown:
            return self._known.popleft()
        self._unknown -= 1
        return {}


class Channel:
    """For a channel: the steps that precede each value in its buffer, each free place, and its close."""

    def __init__(self) -> None:
        self.values = ValueQueue()
        self.places = ValueQueue()
        self.closed: Frontier = {}


class Orders:
    """The orders found so far. Goroutines have Go's numbers."""

    def __init__(self) -> None:
        self.found: list[tuple[int, int]] = []  # for each order, the earlier step and the later one
        self.own: dict[int, int] = {}
        self.behind: dict[int, Frontier] = defaultdict(dict)  # the steps that a goroutine's next step follows
        self.known: dict[int, Frontier] = defaultdict(dict)  # the same for all its steps so far
        self.channels: dict[int, Channel] = defaultdict(Channel)

    def step(self, goroutine: int, number: int) -> None:
        """A goroutine makes a step."""
        behind = self.behind.pop(goroutine, {})
        self.found += sorted((first, number) for first in behind.values())
        self.own[goroutine] = number

    def point(self, point: Point) -> None:
        """Processes a point at which the program orders goroutines."""
        _, kind, g, at, a, b, _, _, _ = point
        if kind == READY or kind == HANDED:
            self._comes_behind(a, self._frontier(g))
        elif kind == SENT or kind == RECEIVED:
            self._buffer(kind == SENT, self.channels[at], g, a, b)
        elif kind == CHANNEL_CLOSED:
            self.channels[at].closed = self._frontier(g)
        elif kind == MET:
            there = self._frontier(a)
            self._comes_behind(a, self._frontier(g))
            self._comes_behind(g, there)
        else:
            self._comes_behind(g, self.channels[at].closed)

    def _buffer(self, sends: bool, channel: Channel, goroutine: int, length: int, room: int) -> None:
        """Processes a value that enters or leaves a channel's buffer."""
        held = max(0, min(length, room))
        channel.values.fit(held)
        channel.places.fit(max(0, room) - held)
        taken, put = (channel.places, channel.values) if sends else (channel.values, channel.places)
        if taken:
            self._comes_behind(goroutine, taken.take())
            put.put(self._frontier(goroutine))

    def _frontier(self, goroutine: int) -> Frontier:
        behind, own = self.behind.get(goroutine), self.own.get(goroutine)
        frontier = behind.copy() if behind else {}
        if own is not None:
            frontier[goroutine] = own
        return frontier

    def _comes_behind(self, goroutine: int, frontier: Frontier) -> None:
        known, behind = self.known[goroutine], self.behind[goroutine]
        latest = known.get
        for other, number in frontier.items():  # (most of it is known already, and a log may have millions of these)
            if number > latest(other, 0) and other != goroutine:
                known[other] = behind[other] = number


Made = tuple[int, int, int]  # a step of a goroutine: the number of its point, the goroutine, and the step's number


def orders_of(points: Iterable[Point], steps: Iterable[Made]) -> list[tuple[int, int]]:
    """Pairs of steps whose first step precedes the second in every run, sorted by the second. Points and steps are
    given in the points' order."""
    orders = Orders()
    ordering = iter(points)
    point = next(ordering, END)
    upcoming = point[0]
    own, behind = orders.own, orders.behind
    for number, goroutine, step in steps:
        while upcoming < number:
            orders.point(point)
            point = next(ordering, END)
            upcoming = point[0]
        if goroutine in behind:
            orders.step(goroutine, step)
        else:
            own[goroutine] = step
    return orders.found


def parts(found: list[tuple[int, int]], size: int) -> Iterator[list[tuple[int, int]]]:
    """The pairs, split into parts of at most this size. If there are no pairs, one part is empty."""
    for first in range(0, max(len(found), 1), size):
        yield found[first : first + size]
