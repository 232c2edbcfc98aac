"""Replays some of a recording's units with the Python model of the machine. The objects of the steps get new numbers.
If a step of a unit doesn't apply or has a different answer, the unit is removed too."""

from bisect import bisect_left
from collections.abc import Callable, Iterable
from typing import Any

from netrev.machine.in_place import Machine
from netrev.machine.machine import StepRefusedError, World
from netrev.text.contents import Answer, Limits
from netrev.text.vocabulary import KINDS

from .events import NUMBERED, Event, Events, Timer
from .units import Dependencies, Unit

MADE = {"spawn": "g", "sockopen": "s", "pollopen": "d"}

Step = tuple[Any, ...]


class ReplayPlayer:
    """The Python model of the machine after some of the events. The next replay undoes steps up to the common beginning
    of both replays, and continues there."""

    def __init__(self, events: Events, units: list[Unit], limits: Limits, check: Callable[[], None]) -> None:
        self.events, self.units, self.limits, self.check = events, units, limits, check
        self.needs = Dependencies(events, units)
        self.owner = {place: at for at, unit in enumerate(units) for place in unit.events}
        self.played = 0  # the number of all steps replayed so far
        self.chosen: list[int] = []  # the events that were replayed
        self.steps: list[tuple[Step, Answer]] = []
        self.numbers: dict[str, dict[int, int]] = {"g": {0: 0}, "s": {}, "d": {}}
        self._machine = Machine(limits, remembers=None)
        self._firings: list[tuple[Timer, ...]] = [()]  # at the start, and after each event
        self._identity = self._identities()

    @property
    def world(self) -> World:
        """The machine's state."""
        return self._machine.world()

    def _identities(self) -> dict[int, int]:
        """For each event that makes a goroutine, a socket or a use, the object's number."""
        counts = {"spawn": 1, "sockopen": 0, "pollopen": 0}
        found = {}
        for place, event in enumerate(self.events.all):
            if event.kind in counts:
                found[place] = counts[event.kind]
                counts[event.kind] += 1
        return found

    def settle(self, kept: Iterable[int]) -> set[int]:
        """Replays these units, drops the units that no longer apply, and returns the replayed units."""
        left = set(kept)
        wanted = sorted(place for unit in left for place in self.units[unit].events)
        at = self._common(wanted)
        self._rewind(at)
        while at < len(wanted):
            place = wanted[at]
            if self.owner[place] not in left:
                at += 1
            elif self._step(place):
                at += 1
            else:
                gone = self.needs.with_needing([self.owner[place]]) & left
                left -= gone
                first = min(self.units[unit].events[0] for unit in gone)
                if first < place:
                    self._rewind(bisect_left(self.chosen, first))
                    at = bisect_left(wanted, self.chosen[-1]) + 1 if self.chosen else 0
        return left

    def _common(self, wanted: list[int]) -> int:
        """The number of events at the start of this replay that are the same as in the last replay."""
        at = 0
        for number, other in zip(self.chosen, wanted):
            if number != other:
                break
            at += 1
        return at

    def _rewind(self, to: int) -> None:
        """Goes back to the state after this number of events."""
        for place in self.chosen[to:]:
            if place in self._identity:
                del self.numbers[MADE[self.events.all[place].kind]][self._identity[place]]
            self._machine.undo()
        del self.chosen[to:], self.steps[to:], self._firings[to + 1 :]

    def _step(self, place: int) -> bool:
        """Replays an event. Returns False if the event doesn't apply or has a different answer."""
        event = self.events.all[place]
        step = self._renumbered(event)
        if step is None:
            return False
        try:
            answer = self._machine.step(step)
        except StepRefusedError:
            return False
        if event.kind not in NUMBERED and answer != event.answer:
            self._machine.undo()
            return False
        self.played += 1
        if self.played % 1_000 == 0:
            self.check()
        firings = self._firings[-1]
        if event.kind in NUMBERED:
            self.numbers[MADE[event.kind]][self._identity[place]] = answer[1]
        elif event.kind == "pop":
            assert event.timer
            firings = (*firings, event.timer)
        elif event.kind == "fire":
            firings = (*firings[: step[1]], *firings[step[1] + 1 :])
        self._firings.append(firings)
        self.chosen.append(place)
        self.steps.append((step, answer))
        return True

    def _renumbered(self, event: Event) -> Step | None:
        """The step of an event with the new numbers of its objects; None if an object doesn't exist."""
        if event.kind == "pop":
            return ("pop",) if self._is_next(event) else None
        if event.kind == "fire":
            firings = self._firings[-1]
            return ("fire", firings.index(event.timer)) if event.timer in firings else None
        step: list[Any] = [event.kind]
        for form, value in zip(KINDS[event.kind].arguments, event.arguments):
            if form in self.numbers:
                value = self.numbers[form].get(value)
                if value is None:
                    return None
            step.append(value)
        if event.kind == "pollevent":
            step[2] = self._tag(event, step[1])
        return tuple(step)

    def _is_next(self, event: Event) -> bool:
        """Whether the first timer in the machine is the timer of the event."""
        assert event.timer
        first = next(iter(self._machine.timers), None)
        return first is not None and (self.numbers["d"].get(event.timer[0]), event.timer[1]) == (first.desc, first.side)

    def _tag(self, event: Event, descriptor: int) -> int:
        """The tag of an event. If the descriptor exists, the tag differs from the descriptor's own tag by as much as in
        the recording."""
        own = self._machine.descs[descriptor].fdseq
        tag = own - event.tag_lag
        return tag if tag >= 0 else event.arguments[1] if event.arguments[1] != own else own + 1
