"""Removes units as long as a replay without them still shows the target: first all units except those near the target,
then whole goroutines, sockets and runs of units. It tries to remove all candidates at once, then half of them at a
time, then fewer."""

from collections.abc import Iterable, Iterator

from netrev.errors import NetrevError

from .events import Events
from .replay import ReplayPlayer
from .targets import ReductionTarget
from .units import Unit, UnitKind

WINDOWS = (64, 512, 4_096)  # how many steps around the target are kept at first, smallest window first
MOST_PLAYED = 600_000  # after this number of replayed steps, the best result so far is used


class NotReproducedError(NetrevError):
    """Raised if even a replay of the whole recording doesn't show the target."""


class Shrinking:
    """The units that remain."""

    def __init__(self, player: ReplayPlayer, events: Events, units: list[Unit], target: ReductionTarget) -> None:
        self.player, self.events, self.units, self.target = player, events, units, target
        self.kept: set[int] = set()
        self._budget = MOST_PLAYED

    @property
    def is_done(self) -> bool:
        """Whether the budget of replayed steps is used up."""
        return self.player.played >= self._budget

    def run(self) -> set[int]:
        """Removes units until none can be removed or the budget is used up, and returns the units that remain."""
        for candidate in self._beginnings():
            if (settled := self._showing(candidate)) is not None:
                self.kept = settled
                break
        else:
            raise NotReproducedError
        self._budget += self.player.played
        self._thin(self._idle_ticks())
        for sort in (UnitKind.GOROUTINE, UnitKind.SOCKET):
            self._thin(unit for unit in self.kept if self.units[unit].sort is sort)
        while self._thin(self.kept):
            pass
        self.player.settle(self.kept)
        return self.kept

    def _showing(self, candidate: Iterable[int]) -> set[int] | None:
        """The units that remain after a replay; None if the replay doesn't show the target."""
        settled = self.player.settle(candidate)
        return settled if self.target.shows(self.player) else None

    def _thin(self, candidates: Iterable[int]) -> bool:
        """Removes as many candidates as possible, the last candidates first. It tries all at once, then halves, and so
        on. Returns whether it removed any."""
        left = sorted(candidates, key=lambda unit: self.units[unit].events[0], reverse=True)
        size, has_changed = len(left), False
        while size and not self.is_done:
            for at in range(0, len(left), size):
                piece = self.player.needs.with_needing(left[at : at + size]) & self.kept
                if piece and (settled := self._showing(self.kept - piece)) is not None:
                    self.kept, has_changed = settled, True
                if self.is_done:
                    break
            left = [unit for unit in left if unit in self.kept]
            size = min(size, len(left) + 1) // 2
        return has_changed

    def _idle_ticks(self) -> list[int]:
        """The ticks that have no effect: before the next tick, no timer starts and no deadline is set."""
        found, is_needed = [], False
        for unit in sorted(self.kept, key=lambda unit: self.units[unit].events[0], reverse=True):
            kinds = {self.events.all[place].kind for place in self.units[unit].events}
            if self.units[unit].sort is UnitKind.TICK:
                if not is_needed:
                    found.append(unit)
                is_needed = False
            elif kinds & {"pop", "setdeadline"}:
                is_needed = True
        return found

    def _beginnings(self) -> Iterator[set[int]]:
        """The sets of units with which to begin, small sets first. The narrow scope has the units of the target's
        socket and goroutine. The wide scope has the units of the socket and of all goroutines that use it. First come
        the units of each scope near the target, then each whole scope, and last all units."""
        near = self._about({self.target.socket}, {self.target.goroutine})
        users = {event.named("g") for event in self.events.all if self.events.socket_of(event) == self.target.socket}
        wide = self._about({self.target.socket}, users)
        for scope in (near, wide):
            for window in WINDOWS:
                if (windowed := self._window(scope, window)) != scope:
                    yield self._whole(windowed)
        yield self._whole(near)
        yield self._whole(wide)
        yield set(range(len(self.units)))

    def _about(self, sockets: set[int | None], goroutines: set[int | None]) -> set[int]:
        """The units about these objects, and all ticks."""
        found = set()
        for place, event in enumerate(self.events.all):
            is_about = event.kind == "tick" or self.events.socket_of(event) in sockets - {None}
            if is_about or (event.named("g") in goroutines - {None}):
                found.add(self.player.owner[place])
        return found

    def _window(self, scope: set[int], window: int) -> set[int]:
        """The units near the steps of the target."""
        first, last = min(self.target.steps) - window, max(self.target.steps) + window
        return {
            unit
            for unit in scope
            if self.units[unit].events[-1] + 1 >= first and self.units[unit].events[0] + 1 <= last
        }

    def _whole(self, units: set[int]) -> set[int]:
        """The given units, and all units that they need."""
        return self.player.needs.with_needed(units)
