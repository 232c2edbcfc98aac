"""The waits of goroutines outside the poller, from NAME.where, and the names of goroutines."""

from bisect import bisect_right
from collections import defaultdict
from collections.abc import Iterable, Iterator
from functools import lru_cache
from operator import attrgetter
from typing import NamedTuple

from .cell_meanings import duration
from .goroutines import A_MUTEX, A_RECEIVER, A_SLEEP, A_WAIT_GROUP, ROOM, STILL, At, Park
from .recording import Recording
from .where import RecordedWait, SourceLines, Stack

MOST_NUMBERS = 8  # the maximum number of goroutines that are listed by number
LAST_USE, A_CONNECTION, A_RESPONSE, ALL_REQUESTS = (
    "the last user of the descriptor",
    "a connection of net/http",
    "a response of net/http",
    "the end of all requests of net/http",
)
# The reason for a wait, if its stack shows it.
OF_FUNCTIONS = {
    "sync.(*Mutex).Lock": A_MUTEX,
    "sync.(*Mutex).lockSlow": A_MUTEX,
    "internal/sync.(*Mutex).lockSlow": A_MUTEX,
    "sync.(*RWMutex).Lock": A_MUTEX,
    "sync.(*RWMutex).RLock": A_MUTEX,
    "sync.(*WaitGroup).Wait": A_WAIT_GROUP,
    "sync.(*Cond).Wait": "a condition",
    "internal/poll.(*FD).Close": LAST_USE,
    "net/http.(*Transport).getConn": A_CONNECTION,
    "net/http.(*persistConn).roundTrip": A_RESPONSE,
    "net/http.(*Server).Shutdown": ALL_REQUESTS,
}
FIRST = attrgetter("first")


class Name(NamedTuple):
    """A goroutine, named by its number in the recording, or by Go's own number if the goroutine made no step."""

    number: int
    is_goid: bool = False

    def __str__(self) -> str:
        return f"goid {self.number}" if self.is_goid else f"goroutine {self.number}"

    @property
    def values(self) -> dict[str, int | None]:
        """The name as JSON."""
        return {"goroutine": None, "goid": self.number} if self.is_goid else {"goroutine": self.number}


class ObjectWait(NamedTuple):
    """A wait outside the poller: the steps after which it began and ended (None: it doesn't end), the reason, the
    stack, and the goroutine that ended it, if known. Each of its objects has the operation that the goroutine waits
    for."""

    name: Name
    first: int
    last: int | None
    reason: str
    stack: Stack
    by: Name | None = None
    objects: tuple[At, ...] = ()
    begin: int = 0  # in nanoseconds; orders waits that begin after the same step
    due: int = 0  # the planned end of a sleep, if known

    def is_at(self, position: int) -> bool:
        """Whether the wait was in progress at a position."""
        return self.first <= position and (self.last is None or position < self.last)

    @property
    def is_asleep(self) -> bool:
        """Whether the wait is only a sleep."""
        return self.reason == A_SLEEP or any(call.function == A_SLEEP for call in self.stack.calls[:2])

    @property
    def kind(self) -> str:
        """The kind of object that the goroutine waits for: `a mutex`, `a select`; empty if the kind isn't known."""
        return (
            next((OF_FUNCTIONS[call.function] for call in self.stack.calls if call.function in OF_FUNCTIONS), "")
            or self.reason
        )

    @property
    def does(self) -> str:
        """What the wait's goroutine does, in words."""
        if self.is_asleep:
            return f"sleeps for {duration(self.due - self.begin)}" if self.due > self.begin else "sleeps"
        return f"waits for {self.kind}" if self.kind else "waits"


class Waits:
    """A recording's waits outside the poller, keyed by goroutine. Each list is in the order in which the waits
    began."""

    def __init__(self, waits: Iterable[ObjectWait]) -> None:
        self.of: dict[Name, list[ObjectWait]] = defaultdict(list)
        for wait in waits:
            self.of[wait.name].append(wait)
        for some in self.of.values():
            some.sort(key=lambda wait: (wait.first, wait.begin))

    def at(self, name: Name, position: int) -> ObjectWait | None:
        """The wait that a goroutine is in at a position."""
        some = self.of.get(name, [])
        last = bisect_right(some, position, key=FIRST) - 1
        return some[last] if last >= 0 and some[last].is_at(position) else None

    def all_at(self, position: int) -> Iterator[ObjectWait]:
        """The waits that are in progress at a position."""
        return (wait for name in self.of if (wait := self.at(name, position)))

    def left(self, position: int) -> Iterator[ObjectWait]:
        """The waits that were in progress at a position and don't end."""
        return (some[-1] for some in self.of.values() if some[-1].last is None and some[-1].first <= position)


@lru_cache(maxsize=2)
def waits_of(recording: Recording) -> Waits:
    """The waits outside the poller in NAME.where. The first format has only the waits of goroutines with steps."""
    lines = recording.lines
    if lines.parks:
        return Waits(of_park(lines, park) for parks in lines.parks.values() for park in parks)
    return Waits(of_wait(wait, lines.stacks[wait.stack]) for some in lines.waits.values() for wait in some)


def of_wait(wait: RecordedWait, stack: Stack) -> ObjectWait:
    """A wait of a goroutine that has steps."""
    by = Name(wait.by) if wait.by >= 0 else None
    return ObjectWait(Name(wait.goroutine), wait.first, wait.last or None, wait.reason, stack, by)


def of_park(lines: SourceLines, park: Park) -> ObjectWait:
    """A wait of any goroutine."""
    by = name_of_goid(lines, park.by, None if park.last == STILL else park.last) if park.by else None
    last = None if park.last == STILL else park.last
    name = name_of_goid(lines, park.goid, park.first)
    known = lines.objects.get(park.objects[0].object) if park.reason == ROOM and park.objects else None
    reason = A_RECEIVER if known and known.room == 0 else park.reason
    return ObjectWait(name, park.first, last, reason, lines.stacks[park.stack], by, park.objects, park.begin, park.due)


def name_of_goid(lines: SourceLines, goid: int, step: int | None = None) -> Name:
    """The name of the goroutine with this goid: its number in the recording at the step (by default at the end), or
    else the goid."""
    number = lines.number_of(goid, step)
    return Name(number) if number >= 0 else Name(goid, True)


def of_names(names: Iterable[Name]) -> str:
    """Goroutines by their names: `goroutine 3`, `goroutines 3 and 5, goid 41`. A long list
    gives only the first numbers and says how many more follow."""
    every = set(names)
    numbers, goids = (sorted(name.number for name in every if name.is_goid is is_goid) for is_goid in (False, True))
    named = [f"goroutine{'s' if numbers[1:] else ''} {listed(numbers)}"] if numbers else []
    return ", ".join([*named, *([f"goid {listed(goids)}"] if goids else [])])


def listed(numbers: list[int]) -> str:
    """Numbers as text: `3, 5 and 7`."""
    shown = list(map(str, numbers[:MOST_NUMBERS]))
    last = f"{len(numbers) - MOST_NUMBERS} more" if numbers[MOST_NUMBERS:] else shown.pop()
    return f"{', '.join(shown)} and {last}" if shown else last
