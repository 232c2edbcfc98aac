"""A recording's steps with the objects that they name. Goroutines and sockets are named by number, descriptors by use
(because their numbers are reused), and timers by use and side. A step therefore keeps its meaning if other steps are
removed."""

from functools import partial
from typing import Any, NamedTuple

from netrev.recording.recording import Recording
from netrev.run.notes import Look, Notes
from netrev.run.timers import timers_of
from netrev.text.contents import Answer
from netrev.text.vocabulary import KINDS, OF_A_GOROUTINE

Timer = tuple[int, str]  # the use of a descriptor, and the side
NUMBERED = ("spawn", "sockopen", "pollopen")  # kinds whose answer is the number of a new object


class Event(NamedTuple):
    """A step: its number, its kind, its arguments (with uses instead of descriptors), and its answer. A `pop` or a
    `fire` has its timer. For a `pollevent`, `tag_lag` is the descriptor's own tag minus the event's."""

    number: int
    kind: str
    arguments: tuple[Any, ...]
    answer: Answer
    timer: Timer | None = None
    tag_lag: int = 0

    def named(self, form: str) -> int | None:
        """The goroutine, socket or use that an event names."""
        forms = KINDS[self.kind].arguments
        return self.arguments[forms.index(form)] if form in forms else None


class Rest(NamedTuple):
    """The state of a step's goroutine after the step: whether it is idle or gone, and the number of references that it
    holds."""

    is_at_rest: bool
    holds: int


class DescriptorUse(NamedTuple):
    """A use of a descriptor: its number, the socket for which it is opened, and the step that opened it."""

    descriptor: int
    socket: int
    opened: int


class Events:
    """The events of a recording. The recording must have answers."""

    def __init__(self, recording: Recording) -> None:
        self.all: list[Event] = []
        self.rests: list[Rest] = []
        self.uses: list[DescriptorUse] = []
        self._of: dict[int, int] = {}  # the last use of each descriptor
        self._firings: list[Timer] = []
        notes = Notes(recording, {kind: partial(self._rests, kind) for kind in KINDS})
        timers = timers_of(recording)
        for number, (kind, *arguments, answer) in enumerate(recording.arrays(), 1):
            self.all.append(self._event(notes, number, kind, arguments, answer))
            if kind == "pop":
                self._firings.append((self._of[timers[number].descriptor], timers[number].sides[0]))
                self.all[-1] = self.all[-1]._replace(timer=self._firings[-1])
        self.kept_for_ever = {hold.step for holds in notes.holds.values() for hold in holds}

    def use_at(self, descriptor: int, step: int) -> int | None:
        """A descriptor's latest use that was opened at this step or before; None if none was."""
        found = [at for at, use in enumerate(self.uses) if use.descriptor == descriptor and use.opened <= step]
        return found[-1] if found else None

    def socket_of(self, event: Event) -> int | None:
        """The socket of an event. An event names its socket directly, or by a descriptor or timer."""
        if (socket := event.named("s")) is not None:
            return socket
        use = event.timer[0] if event.timer else event.named("d")
        return None if use is None else self.uses[use].socket

    def _rests(self, kind: str, notes: Notes, *arguments: Any) -> Look:
        """The function that stores a goroutine's state after a step."""
        if kind not in OF_A_GOROUTINE:
            return lambda step: self.rests.append(Rest(True, 0))
        goroutine = notes.goroutine(arguments[0])
        return lambda step: self.rests.append(Rest(goroutine.status in ("idle", "gone"), goroutine.held))

    def _event(self, notes: Notes, number: int, kind: str, arguments: list[Any], answer: Any) -> Event:
        """The event for a step."""
        parts = (answer,) if isinstance(answer, str) else tuple(answer)
        timer, tag_lag, named = None, 0, list(arguments)
        for at, form in enumerate(KINDS[kind].arguments):
            if form == "d":
                named[at] = self._of[arguments[at]]
            elif form == "bytes":
                named[at] = bytes.fromhex(arguments[at])
        if kind == "fire":
            timer = self._firings.pop(arguments[0])
        elif kind == "pollevent":
            tag_lag = int(notes.changes.value(f"fdseq {arguments[0]}", number)) - arguments[1]
        elif kind == "pollopen":
            self._of[parts[1]] = len(self.uses)
            self.uses.append(DescriptorUse(parts[1], arguments[1], number))
        return Event(number, kind, tuple(named), parts, timer, tag_lag)
