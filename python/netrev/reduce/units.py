"""Units: steps that are removed together. A unit has the steps of a goroutine's call, or an event and the bytes that
came or went before it, or a timer's `pop` and the `fire` that runs its function. Any other step is a unit by itself."""

from collections.abc import Iterable
from enum import Enum
from typing import NamedTuple

from netrev.run.flow import LAST
from netrev.text.vocabulary import OF_A_GOROUTINE

from .events import Event, Events

SIDE_OF = {"arrive": "r", "peerclose": "r", "drain": "w"}


class UnitKind(Enum):
    """The kinds of units, each with its name in singular and plural."""

    CALL = "call", "calls"
    GOROUTINE = "goroutine", "goroutines"
    SOCKET = "socket", "sockets"
    NETWORK = "arrival or event", "arrivals and events"
    TIMER = "timer", "timers"
    TICK = "tick", "ticks"


class Unit(NamedTuple):
    """Events that belong together: their indices in the list of all events, in ascending order."""

    sort: UnitKind
    events: list[int]


def units_of(events: Events) -> list[Unit]:
    """All units, in the order of their first events."""
    calls, others = _calls(events), _others(events)
    return sorted((*calls, *others), key=lambda unit: unit.events[0])


def _calls(events: Events) -> list[Unit]:
    """The calls of each goroutine. A call has ended when the goroutine is at rest and holds no reference, except
    references that it never gives back. A step that frees the descriptor belongs to the call that gave back the last
    reference."""
    calls: dict[int, list[Unit]] = {}
    kept: dict[int, int] = {}
    has_ended: dict[int, bool] = {}
    for place, (event, rest) in enumerate(zip(events.all, events.rests)):
        if event.kind not in OF_A_GOROUTINE:
            continue
        g = event.arguments[0]
        if has_ended.get(g, True) and not _frees(events, calls.get(g), event):
            calls.setdefault(g, []).append(Unit(UnitKind.CALL, []))
        calls[g][-1].events.append(place)
        if event.number in events.kept_for_ever:
            kept[g] = kept.get(g, 0) + 1
        has_ended[g] = rest.is_at_rest and rest.holds <= kept.get(g, 0)
    return [unit for units in calls.values() for unit in units]


def _frees(events: Events, calls: list[Unit] | None, event: Event) -> bool:
    """Whether the event frees a descriptor, and the goroutine's last call gave up the descriptor's last reference."""
    return event.kind == "pollclose" and calls is not None and events.all[calls[-1].events[-1]].answer == LAST


def _others(events: Events) -> list[Unit]:
    """The units of the network, of timers and of new objects."""
    units: list[Unit] = []
    arrivals: dict[tuple[int, str], list[int]] = {}
    firings: list[Unit] = []  # the firings that haven't run yet, in the machine's order
    for place, event in enumerate(events.all):
        if event.kind in SIDE_OF:
            arrivals.setdefault((event.arguments[0], SIDE_OF[event.kind]), []).append(place)
        elif event.kind == "pollevent":
            socket = events.uses[event.arguments[0]].socket
            before = [arrival for side in event.arguments[2] for arrival in arrivals.pop((socket, side), ())]
            units.append(Unit(UnitKind.NETWORK, sorted((*before, place))))
        elif event.kind == "pop":
            assert event.timer
            units.append(Unit(UnitKind.TIMER, [place]))
            firings.append(units[-1])
        elif event.kind == "fire":
            assert event.timer
            firings.pop(event.arguments[0]).events.append(place)
        elif event.kind not in OF_A_GOROUTINE:
            sort = {"spawn": UnitKind.GOROUTINE, "sockopen": UnitKind.SOCKET}.get(event.kind, UnitKind.TICK)
            units.append(Unit(sort, [place]))
    return units + [Unit(UnitKind.NETWORK, [place]) for places in arrivals.values() for place in places]


class Dependencies:
    """The dependencies of units: a unit that names an object depends on the unit that makes it."""

    def __init__(self, events: Events, units: list[Unit]) -> None:
        maker: dict[tuple[str, int], int] = {}
        counts = {"spawn": 1, "sockopen": 0, "pollopen": 0}
        forms = {"spawn": "g", "sockopen": "s", "pollopen": "d"}
        owner = {place: at for at, unit in enumerate(units) for place in unit.events}
        self.by: list[set[int]] = [set() for _ in units]  # for each unit, the units that need it
        self.of: list[set[int]] = [set() for _ in units]  # for each unit, the units that it needs
        for place, event in enumerate(events.all):
            unit = owner[place]
            if event.kind in counts:
                maker[forms[event.kind], counts[event.kind]] = unit
                counts[event.kind] += 1
            named = [(form, event.named(form)) for form in "gsd"] + [("d", event.timer[0] if event.timer else None)]
            for form, which in named:
                made_by = maker.get((form, which)) if which is not None else None
                if made_by is not None and made_by != unit:
                    self.by[made_by].add(unit)
                    self.of[unit].add(made_by)

    def with_needed(self, units: Iterable[int]) -> set[int]:
        """The given units, and all units that they need."""
        return _closure(units, self.of)

    def with_needing(self, units: Iterable[int]) -> set[int]:
        """The given units, and all units that need them."""
        return _closure(units, self.by)


def _closure(units: Iterable[int], links: list[set[int]]) -> set[int]:
    found: set[int] = set()
    left = list(units)
    while left:
        unit = left.pop()
        if unit not in found:
            found.add(unit)
            left.extend(links[unit])
    return found
