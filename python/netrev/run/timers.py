"""The timer that a `pop` starts and a `fire` runs, and the step that set it. nrdb computes the timers from the
recording's steps, because netrev shows only the number of timers."""

from collections.abc import Mapping
from functools import lru_cache
from typing import Any, NamedTuple

from netrev.connection.output import Row, Table
from netrev.machine.deadlines import Deadlines
from netrev.machine.deadlines import DeadlineTimer as Armed
from netrev.machine.polling import deadline_of
from netrev.recording.cell_meanings import SIDES
from netrev.recording.recording import Recording, Step

# steps that arm, stop and run timers, and steps that reuse descriptors or advance the clock
FOLLOWED = frozenset(("pollopen", "pollclose", "setdeadline", "evict", "tick", "pop", "fire"))


class StepTimer(NamedTuple):
    """A timer of a `pop` or a `fire`: its sides, its descriptor, the descriptor's socket when the deadline was set,
    the due time, and the step that set the deadline. A stale timer was stopped or moved before its function ran."""

    sides: str
    descriptor: int
    socket: int
    due: int
    set_at: int
    set_by: int
    is_stale: bool

    def __str__(self) -> str:
        sides = " and ".join(SIDES[side] for side in self.sides)
        stale = ", stale" if self.is_stale else ""
        return f"the {sides} timer of descriptor {self.descriptor}, set at step {self.set_at} by goroutine {self.set_by}{stale}"


class Following:
    """The machine's timers after the steps so far."""

    def __init__(self) -> None:
        self._deadlines = Deadlines()
        self._clock = 0
        self._free: list[int] = []  # free descriptors, with the one freed last at the end
        self._sockets: dict[int, int] = {}  # the socket of each descriptor

    def follow(self, number: int, kind: str, *arguments: Any) -> StepTimer | None:
        """Processes a step, and returns the timer that it pops or runs."""
        deadlines = self._deadlines
        match kind, *arguments:
            case ["tick", time]:
                self._clock = time
            case ["pollopen", _, s]:
                d = self._free.pop() if self._free else len(self._sockets)
                self._sockets[d] = s
                deadlines.open(d)
            case ["pollclose", _, d]:
                self._free.append(d)
            case ["evict", _, d]:
                deadlines.evict(d)
            case ["setdeadline", g, d, mode, time]:
                deadlines.set(d, mode, deadline_of(self._clock, time), (self._sockets[d], number, g))
            case ("pop",):
                return _timer(deadlines.pop(), False)
            case ["fire", place]:
                return _timer(*deadlines.fire(place))
        return None


def _timer(armed: Armed | None, is_stale: bool) -> StepTimer:
    """A timer of the machine, in the form that is printed."""
    assert armed  # (netrev has popped one)
    socket, step, g = armed.setter
    return StepTimer(armed.covers, armed.descriptor, socket, armed.due, step, g, is_stale)


@lru_cache(maxsize=2)
def timers_of(recording: Recording) -> Mapping[int, StepTimer]:
    """The timer of each `pop` and each `fire`, by the step's number."""
    following, end = Following(), -1 if recording.has_answers else None
    rows = recording.rows(lambda values: tuple(values[:end]) if values[0] in FOLLOWED else None)
    timers = ((number, following.follow(number, *row)) for number, row in enumerate(rows, 1) if row)
    return {number: timer for number, timer in timers if timer}


def timer_of(recording: Recording, step: Step | None) -> StepTimer | None:
    """The timer of a step; None if the step has none."""
    return timers_of(recording)[step.number] if step and step.kind in ("pop", "fire") else None


def timer_words(recording: Recording, step: Step) -> str:
    """The owner of a step's timer, in parentheses after a row; empty if the step has no timer."""
    timer = timer_of(recording, step)
    return f"({timer})" if timer else ""


def timers_beside(recording: Recording, position: int) -> Table:
    """The timers of the last step and of the next step."""
    rows = []
    for number in (position, position + 1):
        step = recording.step_or_none(number)
        if step and (timer := timer_of(recording, step)):
            rows.append(Row({"step": number, **timer._asdict()}, f"step {number}, {step}: {timer}"))
    return Table("timer", rows)
