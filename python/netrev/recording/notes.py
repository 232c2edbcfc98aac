"""The notes of a recording: a class for each kind of note, a class for uses of descriptors, which contain most notes,
and the goroutines: their statuses, each parsed once, and how long they pause in each status."""

from bisect import bisect_left
from typing import NamedTuple

CLOSING, TIMED_OUT, EVENT_ERROR = 1, 2, 3  # the codes of a side
# (a million steps make some 100,000 notes, and a NamedTuple's own constructor takes three times as long)
new = tuple.__new__


class Setting(NamedTuple):
    """A `setdeadline`: its step, its goroutine, its sides, and its time."""

    step: int
    goroutine: int
    mode: str
    time: int


class Due(NamedTuple):
    """The origin of a side's deadline: the last call that set the deadline, and the first later call that set only the
    other side's deadline."""

    setting: Setting
    moved: Setting | None


class Passing(NamedTuple):
    """A deadline that passed: the step, the step's kind, and the step that caused it."""

    step: int
    kind: str
    due: Due


class Taking(NamedTuple):
    """A step at which a goroutine consumed a descriptor's readiness: the step, the goroutine, and the step of the event
    that had made the descriptor ready."""

    step: int
    goroutine: int
    event: int


class Wait(NamedTuple):
    """The beginning of a wait on a side: the step, the goroutine, and the step at which the goroutine last read or
    wrote."""

    step: int
    goroutine: int
    tried: int


class ErrorEvent(NamedTuple):
    """An event with an error: its step and its sides."""

    step: int
    mode: str


class Timeout(NamedTuple):
    """A call that ended because its deadline had passed, and the origin of that deadline."""

    step: int
    goroutine: int
    descriptor: int
    side: str
    passing: Passing
    due: Due


class Hold(NamedTuple):
    """A reference to a socket: the goroutine that holds it, the step that took it, and that step's kind. If the step
    also took a lock, `side` is the lock's side."""

    goroutine: int
    step: int
    kind: str
    side: str


class By(NamedTuple):
    """A step and its goroutine."""

    step: int
    goroutine: int


AT = {"r": 0, "w": 1}  # the indexes of the sides
SIDES = {"r": (0,), "w": (1,), "rw": (0, 1)}  # the indexes of the sides of a mode


class Use:
    """A use of a descriptor: its socket, its first and last step (0: the use lasts until the end), its tag, and the
    notes about it."""

    __slots__ = (
        *("descriptor", "socket", "opened", "closed", "tag"),
        *("settings", "dues", "passings", "last_events", "errors", "waits", "thrown", "taken"),
    )

    def __init__(self, descriptor: int, socket: int, opened: int, tag: int) -> None:
        self.descriptor, self.socket, self.opened, self.closed, self.tag = descriptor, socket, opened, 0, tag
        self.settings: list[Setting] = []
        self.errors: list[ErrorEvent] = []
        self.thrown: list[Taking] = []  # events for reading that a `pollreset` discarded
        # for each side: the origin of the deadline, the steps at which the deadline passed, the last event, the last
        # time that readiness was consumed or discarded, and the waits
        self.dues: list[Due | None] = [None, None]
        self.passings: tuple[list[Passing], ...] = ([], [])
        self.last_events = [0, 0]
        self.taken: list[Taking | None] = [None, None]
        self.waits: tuple[list[Wait], ...] = ([], [])

    def last_event(self, side: str) -> int:
        """The step of the last event of a side; 0 if no event has come."""
        return self.last_events[AT[side]]

    def setting(self, step: int) -> Setting:
        """The setting that a step made."""
        return self.settings[bisect_left(self.settings, (step,))]

    def setting_after(self, side: str, step: int) -> Setting | None:
        """The first setting of a side after a step."""
        later = range(bisect_left(self.settings, (step + 1,)), len(self.settings))
        return next((self.settings[at] for at in later if side in self.settings[at].mode), None)


def code_of(info: int, side: str) -> int:
    """The code of a side, from a descriptor's `info`: the code of the first condition that is true, or 0."""
    if info & 1:
        return CLOSING
    if info & (4 if side == "r" else 8):
        return TIMED_OUT
    return EVENT_ERROR if side == "r" and info & 2 else 0


IDLE, ACQUIRING, QUEUED, PARKED = "idle", "acquiring", "queued", "parked"
MANY = 3  # the longest pause in a status counts only after this many pauses in that status have ended


class Pauses:
    """The number of pauses in a status that were reported, and the longest of these. A pause is reported only if it is
    longer than `enough`."""

    __slots__ = ("count", "longest", "enough")

    def __init__(self) -> None:
        self.count, self.longest, self.enough = 0, 0, -1

    def ends(self, steps: int) -> None:
        """Records that a pause of this many steps has ended."""
        self.count += 1
        self.longest = max(self.longest, steps)
        if self.count >= MANY:
            self.enough = self.longest


class NoPauses(Pauses):
    """The pauses of an idle goroutine, which aren't reported."""

    __slots__ = ()

    def __init__(self) -> None:
        super().__init__()
        self.enough = 2**63


class GoroutineStatus(str):
    """A status as netrev prints it. For quick access, it has the number and the side of its socket or descriptor, the
    pauses in this status, and the goroutines that sleep in it, in order."""

    __slots__ = ("number", "side", "pauses", "sleepers", "is_idle", "is_acquiring", "is_asleep")

    number: int
    side: str
    pauses: Pauses
    sleepers: "dict[Goroutine, None]"
    is_idle: bool
    is_acquiring: bool
    is_asleep: bool

    def __new__(cls, text: str, pauses: Pauses) -> "GoroutineStatus":
        status = super().__new__(cls, text)
        place, *rest = text.split(" ")
        status.number, status.side = int(rest[0]) if rest else -1, "".join(rest[1:])
        status.pauses, status.sleepers = pauses, {}
        status.is_idle, status.is_acquiring, status.is_asleep = (
            place == IDLE,
            place == ACQUIRING,
            place in (QUEUED, PARKED),
        )
        return status


class Statuses(dict[str, GoroutineStatus]):
    """The statuses that goroutines had, keyed by their texts, and the pauses of each place."""

    def __init__(self) -> None:
        super().__init__()
        # an idle goroutine pauses while it holds a reference; the pause is recorded at the goroutine's steps, not when
        # the goroutine leaves the status
        self.pauses: dict[str, Pauses] = {IDLE: Pauses()}
        self[IDLE] = GoroutineStatus(IDLE, NoPauses())

    def __missing__(self, text: str) -> GoroutineStatus:
        pauses = self.pauses.setdefault(text.partition(" ")[0], Pauses())
        status = self[text] = GoroutineStatus(text, pauses)
        return status


ABSENT = GoroutineStatus("absent", NoPauses())


class Goroutine:
    """A goroutine: its cell after a step, its status and the step that gave it that status, its last step, its last
    `pollreset`, its last read or write, and the number of references that it holds. While the goroutine makes
    consecutive steps, its last step isn't stored."""

    __slots__ = ("number", "cell", "status", "since", "last", "reset", "tried", "held")

    def __init__(self, number: int) -> None:
        self.number, self.cell, self.status = number, f" gor {number}", ABSENT
        self.since = self.last = self.reset = self.tried = self.held = 0

    def is_made(self, step: int, status: GoroutineStatus) -> None:
        self.status = status
        self.since = self.last = step
