"""All goroutines of a log, including goroutines without sockets. NAME.where has Go's numbers for them, each wait
outside the poller, and the objects on which goroutines wait (docs/reference/RECORDING.md has the format)."""

from collections.abc import Container, Iterator, Sequence
from typing import TYPE_CHECKING, Any, NamedTuple

if TYPE_CHECKING:
    from .where import SourceCall

OF_GOROUTINES = frozenset(
    ("goroutines", "parks", "objects", "uses", "timers", "left_out", "channels", "failed_dials", "held")
)  # lines of the file
STILL = -1  # the end of a wait that lasts until the end of the recording
# What goroutines wait for outside the poller.
A_RECEIVER = "a receiver at a channel"  # for a channel without a buffer
A_VALUE, ROOM, A_SELECT, A_CONDITION = "a value from a channel", "room in a channel", "a select", "a condition"
A_SLEEP, A_MUTEX, A_READ_LOCK, A_WRITE_LOCK = "time.Sleep", "a mutex", "a read lock", "a write lock"
A_WAIT_GROUP, A_SEMAPHORE, A_NIL_CHANNEL, NO_CASES = (
    "a WaitGroup",
    "a semaphore",
    "a nil channel",
    "a select without cases",
)
MUTEXES = (A_MUTEX, A_READ_LOCK, A_WRITE_LOCK)
FOR_VALUE, FOR_ROOM = "value", "room"  # on a channel
PUT, TOOK, CLOSED, ENDED = "put", "took", "closed", "ended"  # what goroutines do on a channel
ADDED, DONE = "added", "done"  # what goroutines do on a WaitGroup


class GoGoroutine(NamedTuple):
    """A goroutine. `goid` is Go's own number for it, as in a stack dump; `number` is its number in the recording (-1:
    it made no step). `made` is the call of the `go` statement that started it, and `maker` the goroutine that made this
    call (0 if unknown). The goroutine started after step `first` at the time `begin`, and ended after step `last` at
    the time `end`; -1 if unknown."""

    goid: int
    number: int
    made: "SourceCall | None"
    maker: int
    first: int
    last: int
    begin: int
    end: int


class At(NamedTuple):
    """The number of an object on which a goroutine waits, and the operation that the goroutine waits for: FOR_VALUE,
    FOR_ROOM, or empty."""

    object: int
    use: str


class Park(NamedTuple):
    """A wait of a goroutine outside the poller. The wait begins after step `first` at the time `begin`, and ends after
    step `last` at the time `end` (-1: the goroutine still waits). `reason` is in words, and `by` is the goroutine that
    ended the wait (0 if unknown). A select has an object for each case. `due` is the end of a sleep (0 if unknown)."""

    goid: int
    first: int
    last: int
    begin: int
    end: int
    reason: str
    stack: int
    by: int
    objects: tuple[At, ...]
    due: int = 0

    def is_at(self, position: int) -> bool:
        """Whether the wait is in progress at a position; never if the wait begins and ends between two steps."""
        return self.first <= position and (self.last == STILL or position < self.last)


class Object(NamedTuple):
    """An object on which goroutines wait: its number, its kind, and the capacity of a channel (-1: unknown)."""

    object: int
    sort: str
    room: int


class ObjectUse(NamedTuple):
    """A goroutine's uses of an object from one stack: their number, and the steps and times of the first and the last
    use. A use of a channel is PUT, TOOK, CLOSED or ENDED; a use of a WaitGroup is ADDED or DONE."""

    object: int
    goid: int
    what: str
    stack: int
    often: int
    first: int
    last: int
    begin: int
    end: int


class Timer(NamedTuple):
    """A timer that a goroutine made, reset or stopped. `object` is its channel (0 if the timer calls a function), and
    `step` is the last step before the goroutine did so. `due` is the time at which the timer goes off (-1 if it was
    stopped). For a timer without a channel, the recording has only the call that made it."""

    object: int
    goid: int
    stack: int
    step: int
    time: int
    due: int

    @property
    def is_stopped(self) -> bool:
        """Whether the goroutine stopped the timer."""
        return self.due < 0


class ChannelOrigin(NamedTuple):
    """How a channel was made: by which goroutine, from which stack, after which step and at what time."""

    object: int
    goid: int
    stack: int
    step: int
    time: int


class FailedDial(NamedTuple):
    """A failed dial of a goroutine. `step` is the last step before the dial. `why` is the system's error, `timeout`,
    `cancelled`, or empty; the address is empty if unknown. `context` is the channel of the dial's context (0 if it has
    none)."""

    goid: int
    stack: int
    step: int
    time: int
    why: str
    address: str
    context: int


class HeldMutex(NamedTuple):
    """A mutex that is locked at the end of the recording: the goroutine that locked it, how it is held (READ: for
    reading), the stack that locked it, and the last step before that."""

    object: int
    goid: int
    how: str
    stack: int
    step: int


READ = "read"  # how an RWMutex is held


class LeftOut(NamedTuple):
    """Waits with a reason and a stack that didn't fit into the file: the number that last until the end, and the number
    that ended."""

    reason: str
    stack: int
    waiting: int
    ended: int


# The types of the values in the rows of each line.
OF_GOROUTINE: tuple[type, ...] = (int,) * 8
OF_PARK: tuple[type, ...] = (int, int, int, int, int, str, int, int, list, int)
OF_AT: tuple[type, ...] = (int, str)
OF_OBJECT: tuple[type, ...] = (int, str, int)
OF_USE: tuple[type, ...] = (int, int, str, int, int, int, int, int, int)
OF_TIMER: tuple[type, ...] = (int,) * 6
OF_LEFT_OUT: tuple[type, ...] = (str, int, int, int)
OF_MAKING: tuple[type, ...] = (int,) * 5
OF_FAILED_DIAL: tuple[type, ...] = (int, int, int, int, str, str, int)
OF_HELD: tuple[type, ...] = (int, int, str, int, int)
OF_OWNER: tuple[type, ...] = (int,) * 3


class AllGoroutines:
    """The file's facts about all goroutines. It is empty for a file of the first format."""

    def begin_goroutines(self) -> None:
        """Starts without any goroutine."""
        self.goroutines: dict[int, GoGoroutine] = {}
        self.parks: dict[int, list[Park]] = {}  # by goroutine, in the order in which they began
        self.objects: dict[int, Object] = {}
        self.uses: dict[int, list[ObjectUse]] = {}  # by object
        self.timers: dict[int, list[Timer]] = {}  # by channel
        self.left_out: list[LeftOut] = []
        self.made: dict[int, ChannelOrigin] = {}  # by channel
        self.failed_dials: dict[int, list[FailedDial]] = {}  # by goroutine
        self.held: dict[int, list[HeldMutex]] | None = None  # by mutex; None if the recording doesn't have them
        self._goids: dict[int, int] = {}  # by the recording's numbers
        self.owners: dict[
            int, list[tuple[int, int]]
        ] = {}  # for a number of the recording: the steps after which goroutines took the number, and their goids
        self._owned: dict[int, int] = {}  # the number that a goroutine has taken, by Go's number

    def add_goroutines(self, line: dict[str, Any], calls: dict[int, "SourceCall"], stacks: Container[int]) -> None:
        """Adds a line about all goroutines, or about the objects on which they wait."""

        def known(numbers: Sequence[int]) -> Iterator[int]:
            """The numbers of these stacks, with 0 for a stack that isn't in the file."""
            return (number if number in stacks else 0 for number in numbers)

        if "goroutines" in line:
            goids, numbers, starts, *rest = columns(line["goroutines"], OF_GOROUTINE)
            of_calls = (calls[number] if number else None for number in starts)
            self.goroutines.update(zip(goids, map(GoGoroutine._make, zip(goids, numbers, of_calls, *rest))))
            self._goids.update((number, goid) for goid, number in zip(goids, numbers) if number >= 0)
        elif "parks" in line:
            whole = [wait if len(wait) == len(OF_PARK) else (*wait, 0) for wait in line["parks"]]
            *before, of_stacks, by, objects, due = columns(whole, OF_PARK)
            for park in map(Park._make, zip(*before, known(of_stacks), by, map(ats, objects), due)):
                self.parks.setdefault(park.goid, []).append(park)
        elif "objects" in line:
            for made_of in map(Object._make, zip(*columns(line["objects"], OF_OBJECT))):
                self.objects[made_of.object] = made_of
        elif "uses" in line:
            objects, goids, what, of_stacks, *rest = columns(line["uses"], OF_USE)
            for use in map(ObjectUse._make, zip(objects, goids, what, known(of_stacks), *rest)):
                self.uses.setdefault(use.object, []).append(use)
        elif "timers" in line:
            objects, goids, of_stacks, *rest = columns(line["timers"], OF_TIMER)
            for timer in map(Timer._make, zip(objects, goids, known(of_stacks), *rest)):
                self.timers.setdefault(timer.object, []).append(timer)
        elif "channels" in line:
            objects, goids, of_stacks, *rest = columns(line["channels"], OF_MAKING)
            self.made.update(zip(objects, map(ChannelOrigin._make, zip(objects, goids, known(of_stacks), *rest))))
        elif "failed_dials" in line:
            goids, of_stacks, *rest = columns(line["failed_dials"], OF_FAILED_DIAL)
            for failed in map(FailedDial._make, zip(goids, known(of_stacks), *rest)):
                self.failed_dials.setdefault(failed.goid, []).append(failed)
        elif "held" in line:
            self.held = {} if self.held is None else self.held
            objects, goids, how, of_stacks, steps = columns(line["held"], OF_HELD)
            for held in map(HeldMutex._make, zip(objects, goids, how, known(of_stacks), steps)):
                self.held.setdefault(held.object, []).append(held)
        else:
            reasons, of_stacks, *rest = columns(line["left_out"], OF_LEFT_OUT)
            self.left_out += map(LeftOut._make, zip(reasons, known(of_stacks), *rest))

    def add_owners(self, rows: Any) -> None:
        """Adds goroutines that took over the number of another goroutine, each with the step after which it did so."""
        for number, step, goid in zip(*columns(rows, OF_OWNER)):
            self.owners.setdefault(number, []).append((step, goid))
            self._owned[goid] = number

    def goid_of(self, number: int, step: int | None = None) -> int:
        """Go's number for the goroutine that has this number in the recording at a step. Without a step, the result is
        for the last goroutine that had the number. The result is 0 if unknown."""
        if step is None or number not in self.owners:
            return self._goids.get(number, 0)
        return next((goid for taken, goid in reversed(self.owners[number]) if taken < max(step, 1)), 0)

    def reused_goid(self, number: int, step: int) -> int:
        """Go's number for the goroutine that has this number in the recording at a step, if several goroutines have had
        the number; 0 if only one goroutine has had it, or if the goroutine is unknown."""
        return self.goid_of(number, step) if number in self.owners else 0

    def number_of(self, goid: int, step: int | None = None) -> int:
        """The number in the recording that the goroutine with this goid has at a step, by default at the end; -1 if it
        has no number then."""
        known = self.goroutines.get(goid)
        number = self._owned.get(goid, known.number if known else -1)
        return -1 if number in self.owners and self.goid_of(number, step) != goid else number

    def has_step(self, goid: int, number: int, step: int) -> bool:
        """Whether the goroutine with this goid made a step that the recording attributes to this number."""
        return number not in self.owners or self.goid_of(number, step) == goid

    def park_of(self, goid: int, position: int) -> Park | None:
        """The goroutine's wait outside the poller at a position; None if it isn't in such a wait."""
        return next((park for park in self.parks.get(goid, ()) if park.is_at(position)), None)


def typed(value: Any, sort: type) -> Any:
    """Returns a value of this type; raises a TypeError if the value has another type."""
    if type(value) is not sort:
        raise TypeError
    return value


def columns(rows: Any, sorts: Sequence[type]) -> list[Any]:
    """The columns of rows whose values have these types; raises a TypeError or a ValueError if they don't. There may be
    65,536 rows, so no Python loop visits all values."""
    if set(map(len, rows)) - {len(sorts)}:
        raise ValueError
    found = list(zip(*rows)) or [()] * len(sorts)
    for column, sort in zip(found, sorts):
        if set(map(type, column)) - {sort}:
            raise TypeError
    return found


def ats(pairs: Any) -> tuple[At, ...]:
    """The objects of a wait."""
    return tuple(map(At._make, zip(*columns(pairs, OF_AT))))
