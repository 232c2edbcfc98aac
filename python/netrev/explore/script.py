"""A script: what each goroutine, the network and the clock did in a recording, without the order between them. If the
machine's answer differs from the recorded answer, a goroutine may continue with an operation other than the next."""

from collections.abc import Iterator
from dataclasses import dataclass, replace
from typing import Any, NamedTuple

from netrev.recording.recording import Recording
from netrev.recording.where import SourceLines
from netrev.reduce.events import Event, Events, Timer
from netrev.reduce.units import SIDE_OF
from netrev.run.flow import OperationType
from netrev.text.contents import Limits

from .control_flow import Operation
from .goroutine_scripts import goroutines_of
from .orders import Order, Trigger, orders_of, triggers_of

CLOCK = ("tick", "pop", "fire")
RAW = ("internal/poll.(*FD).RawRead", "internal/poll.(*FD).RawWrite")
TRIGGERS = ("syswrite", "closewrite", "pollopen", "evict", "pollclose")  # steps that the network may answer
TRIES = {OperationType.READ: ("sysread", "r"), OperationType.WRITE: ("syswrite", "w")}
JUST_BEFORE = 0.4


class Action(NamedTuple):
    """A recorded step of the network, the clock or an unknown goroutine, and its due time."""

    due: float
    event: Event
    timer: Timer | None = None


@dataclass
class Script:
    """What all actors do: the operations of each goroutine, the network's actions at each socket, timers and the clock,
    and the steps of unknown goroutines. Objects have their numbers in the recording, except that each descriptor is
    replaced by its use."""

    limits: Limits
    length: int
    goroutines: list[list[Operation]]
    network: dict[int, list[Action]]
    clock: list[Action]
    creations: list[Action]
    sockets: list[int]  # the socket of each use
    ordinals: list[int]  # for each use, its ordinal among the uses of its descriptor, from 0
    triggers: list[Trigger]
    answers: list[tuple[Any, ...]]
    # for each goroutine, the orders that the recorder saw the program impose; None if the recording has no orders
    orders: list[list[Order]] | None = None


def script_of(recording: Recording) -> Script:
    """The script of a recording with answers."""
    events = Events(recording)
    limits = Limits(*(recording.limits[key] for key in Limits._fields))
    seen: dict[int, int] = {}
    ordinals = []
    for use in events.uses:
        ordinals.append(seen.get(use.descriptor, 0))
        seen[use.descriptor] = ordinals[-1] + 1
    openers = {event.arguments[1] for event in events.all if event.kind == "pollopen"}
    network, clock, creations = _environment(events, openers)
    count = 1 + sum(event.kind == "spawn" for event in events.all)
    goroutines = goroutines_of(events, count)
    _mark_raw(goroutines, recording.lines)
    return Script(
        limits,
        len(events.all),
        goroutines,
        network,
        clock,
        creations,
        [use.socket for use in events.uses],
        ordinals,
        triggers_of(goroutines, TRIGGERS),
        [event.answer for event in events.all],
        orders_of(goroutines, recording.lines.orders),
    )


def _mark_raw(goroutines: list[list[Operation]], lines: SourceLines) -> None:
    """Marks the waits made through a RawConn, if the program's lines are known."""
    for operation in (operation for operations in goroutines for operation in operations):
        if operation.sort is OperationType.WAIT and operation.steps:
            calls = lines.of(operation.steps[0]).calls
            operation.is_raw = any(call.function in RAW for call in calls)


def _environment(events: Events, openers: set[int]) -> tuple[dict[int, list[Action]], list[Action], list[Action]]:
    """The steps that no known goroutine made: steps of the network, the clock and unknown goroutines."""
    network: dict[int, list[Action]] = {}
    clock: list[Action] = []
    creations: list[Action] = []
    sockets = 0
    for event in events.all:
        action = Action(event.number, event, event.timer)
        if event.kind in CLOCK:
            clock.append(action)
        elif event.kind == "spawn":
            creations.append(action)
        elif event.kind == "sockopen":
            if sockets not in openers:
                creations.append(action)
            sockets += 1
        elif event.kind == "pollevent":
            network.setdefault(events.uses[event.arguments[0]].socket, []).append(action)
        elif event.kind in SIDE_OF:
            network.setdefault(event.arguments[0], []).append(action)
    return network, clock, creations


def operations_of(script: Script, sort: OperationType) -> Iterator[tuple[int, Operation]]:
    """The operations of a kind that have steps, each with its goroutine."""
    for g, operations in enumerate(script.goroutines):
        yield from ((g, operation) for operation in operations if operation.sort is sort and operation.steps)


# ---- the times at which bytes arrive at a socket and leave it


class Tries(NamedTuple):
    """The steps that tried to read or write on one side of a socket, and those of them that found nothing; both in
    ascending order."""

    all: list[int]
    in_vain: list[int]


def with_early_arrivals(script: Script) -> Script:
    """The script, with some bytes moved. A recorder of Go doesn't see when bytes arrive or leave. It writes them just
    before the read or write that shows them, although the event that reported them came earlier. If no later event
    reports bytes, they therefore arrive just before an earlier event."""
    tries = _tries(script)
    network = {}
    for s, actions in script.network.items():
        events = [action.event for action in actions if action.event.kind == "pollevent"]
        moved = [
            action._replace(due=_due(action, events, tries.get((s, SIDE_OF.get(action.event.kind, "")))))
            for action in actions
        ]
        network[s] = sorted(moved, key=lambda action: action.due)
    return replace(script, network=network)


def _tries(script: Script) -> dict[tuple[int, str], Tries]:
    """All tries, keyed by socket and side."""
    found: dict[tuple[int, str], Tries] = {}
    for operation in (operation for operations in script.goroutines for operation in operations):
        if operation.sort in TRIES:
            kind, side = TRIES[operation.sort]
            tries = found.setdefault((operation.socket, side), Tries([], []))
            numbers = [number for number, step_kind in zip(operation.steps, operation.kinds) if step_kind == kind]
            tries.all.extend(numbers)
            tries.in_vain.extend(number for number in numbers if script.answers[number - 1] == ("again",))
    return {of: Tries(sorted(tries.all), sorted(tries.in_vain)) for of, tries in found.items()}


def _due(action: Action, events: list[Event], tries: Tries | None) -> float:
    """The due time of an arrival. If a try comes before the next event, the due time is just before the first event
    since the last failed try."""
    if tries is None:
        return action.due
    number, side = action.event.number, SIDE_OF[action.event.kind]
    numbers = [event.number for event in events if side in event.arguments[2]]
    following = min((event for event in numbers if event > number), default=None)
    shown = min((attempt for attempt in tries.all if attempt > number), default=None)
    if shown is None or (following is not None and following < shown):
        return action.due
    since = max((attempt for attempt in tries.in_vain if attempt < number), default=0)
    first = min((event for event in numbers if since < event < number), default=None)
    return action.due if first is None else first - JUST_BEFORE
