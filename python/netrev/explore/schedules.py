"""The schedules to try: the recorded schedule with a few delays. In a delay, a goroutine pauses until another actor has
made a step at the same part of the same socket. Each delay is first tried alone. Then two or three delays, drawn by a
seed, are tried together."""

import random
from bisect import bisect_left, bisect_right
from collections.abc import Iterator
from itertools import islice
from typing import NamedTuple

from netrev.reduce.units import SIDE_OF as SIDE_OF_NETWORK
from netrev.run.flow import OperationType

from .control_flow import Operation
from .script import Script, operations_of

NEAR = 4  # a pause waits for at most this many steps of other actors on the same part
AROUND = 40  # the maximum number of steps between delays that are drawn together
IN_VAIN = 2_000  # the search ends after this many consecutive seeds without a new schedule
LOCK, WAIT, BYTES = "lock", "wait", "bytes"  # the parts of a socket that a step may concern
OF_THING = {
    LOCK: ("rwlock", "rwunlock", "increfclose", "acquire", "release"),
    WAIT: (
        *("pollreset", "waitbegin", "blockarm", "blockcheck", "parkcommit", "blockswap", "waitcheck"),
        *("setdeadline", "evict", "pollevent", "fire"),
    ),
    BYTES: ("sysread", "syswrite", "closewrite", "arrive", "peerclose", "drain"),
}
THING_OF = {kind: thing for thing, kinds in OF_THING.items() for kind in kinds}
SIDE_OF = {**SIDE_OF_NETWORK, "sysread": "r", "syswrite": "w", "closewrite": "w"}
# two steps about a wait are paired only if one of them has such a kind: only the goroutine in the wait makes steps of
# the other kinds, and no other goroutine can enter the wait in between
TO_OTHERS = frozenset(("setdeadline", "evict", "pollevent", "fire"))

Thing = tuple[int, str, str]  # a socket, a part of it, and a side


class Delay(NamedTuple):
    """A pause of a goroutine: before its step `before`, it waits until after the recorded time of step `until`."""

    before: int
    until: int


class Schedule(NamedTuple):
    """The delays of a schedule, and the seed that drew them (0 for a single delay)."""

    delays: tuple[Delay, ...]
    seed: int

    def is_simpler_than(self, other: "Schedule") -> bool:
        """Whether a schedule has fewer delays than the other, or as many with a smaller total length."""
        return self.measure() < other.measure()

    def measure(self) -> tuple[int, int]:
        """The number of delays, and their total length."""
        return len(self.delays), sum(delay.until - delay.before for delay in self.delays)


class TouchedPart(NamedTuple):
    """A recorded step on a part of a socket, and the step's goroutine (-1: the network or a timer)."""

    number: int
    actor: int
    kind: str

    def matters_to(self, other: "TouchedPart") -> bool:
        """Whether the two steps are by different actors and their order may matter."""
        if self.actor == other.actor:
            return False
        return THING_OF[self.kind] != WAIT or self.kind in TO_OTHERS or other.kind in TO_OTHERS


def touched(script: Script) -> dict[Thing, list[TouchedPart]]:
    """The steps at each part of a socket, in order."""
    found: dict[Thing, list[TouchedPart]] = {}

    def note(socket: int, sides: str, step: TouchedPart) -> None:
        for side in sides if step.kind in THING_OF else "":
            found.setdefault((socket, THING_OF[step.kind], side), []).append(step)

    for g, operations in enumerate(script.goroutines):
        for operation in operations:
            for number, kind in zip(operation.steps, operation.kinds):
                note(operation.socket, operation.side or SIDE_OF.get(kind, "rw"), TouchedPart(number, g, kind))
    for s, row in script.network.items():
        for item in row:
            kind = item.event.kind
            note(s, SIDE_OF.get(kind) or item.event.arguments[2], TouchedPart(item.event.number, -1, kind))
    for item in script.clock:
        if item.timer:
            note(script.sockets[item.timer[0]], "rw", TouchedPart(item.event.number, -1, item.event.kind))
    return {thing: sorted(steps) for thing, steps in found.items()}


def single_delays(script: Script) -> list[Delay]:
    """All delays that make a step wait for a later step of another actor, nearest first."""
    by_distance: list[set[Delay]] = [set() for _ in range(NEAR)]
    for steps in touched(script).values():
        for at, step in enumerate(steps):
            if step.actor >= 0:
                others = (other.number for other in steps[at + 1 :] if other.matters_to(step))
                for distance, number in enumerate(islice(others, NEAR)):
                    by_distance[distance].add(Delay(step.number, number))
    return list(dict.fromkeys([*(delay for delays in by_distance for delay in sorted(delays)), *_late_delays(script)]))


def _late_delays(script: Script) -> Iterator[Delay]:
    """Delays of a call until its deadline has passed, if the deadline was set for both sides and the other side's
    deadline was then moved alone."""
    sets = _in_order(script, OperationType.SET)
    for number, reset in _in_order(script, OperationType.RESET):
        before = [(at, setting) for at, setting in sets if at < number and setting.use == reset.use]
        own = [(at, setting) for at, setting in before if reset.side in setting.side]
        if own and own[-1][1].side == "rw" and own[-1][1].values[0] > 0 and own[-1][0] < before[-1][0]:
            yield Delay(number, script.length + 1)


def _in_order(script: Script, sort: OperationType) -> list[tuple[int, Operation]]:
    """The operations of a kind that have steps, in order, each with the number of its first step."""
    return sorted((operation.steps[0], operation) for _, operation in operations_of(script, sort))


def schedules(delays: list[Delay], most: int) -> Iterator[Schedule]:
    """At most `most` different schedules, those with the nearest delays first. There are fewer if the seeds yield no
    new schedules."""
    for delay in delays[:most]:
        yield Schedule((delay,), 0)
    in_order = sorted(delays)
    drawn_before: set[tuple[Delay, ...]] = {(delay,) for delay in delays}
    seed = last = 0
    while delays and len(drawn_before) < most and seed - last < IN_VAIN:
        seed += 1
        chosen = drawn(delays, in_order, seed)
        if chosen not in drawn_before:
            last = seed
            drawn_before.add(chosen)
            yield Schedule(chosen, seed)


def drawn(delays: list[Delay], in_order: list[Delay], seed: int) -> tuple[Delay, ...]:
    """Two or three delays that are near each other. Short delays are preferred."""
    dice = random.Random(seed)
    first = delays[int(len(delays) * dice.random() ** 2)]
    begin = bisect_left(in_order, Delay(first.before - AROUND, 0))
    near = in_order[begin : bisect_right(in_order, Delay(first.before + AROUND, 0))]
    near.sort(key=lambda delay: delay.until - delay.before)
    chosen = [first, *(near[int(len(near) * dice.random() ** 2)] for _ in range(dice.choice((1, 2))))]
    return tuple(sorted({delay.before: delay for delay in chosen}.values()))
