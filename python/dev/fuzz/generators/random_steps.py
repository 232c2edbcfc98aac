"""Random recordings. Most steps are a goroutine's next step, or possible actions of the network, the poller and the
clock, so that waits, queues, timers, evictions and full buffers occur. The frequencies differ from recording to
recording: most have a theme."""

import random
from collections.abc import Iterator, Sequence

from netrev.machine.machine import IDLE, StepRefusedError, World
from netrev.machine.steps import apply
from netrev.run.flow import ASLEEP, step_by_status
from netrev.text.contents import GREATEST_TIME, Answer, Contents, Limits, Step
from netrev.text.parser import ARGUMENTS, KINDS, RANGES
from netrev.text.vocabulary import COUNTED_ANSWERS
from netrev.text.vocabulary import KINDS as OF_NRDB
from netrev.text.vocabulary import PLAIN_ANSWERS, VERSIONS

OF_IDLE = {
    **{"rwlock": 6, "rwunlock": 9, "incref": 2, "decref": 2, "increfclose": 0.12, "exit": 0.1},
    **{"sysread": 4, "syswrite": 4, "pollreset": 3, "waitbegin": 8, "setdeadline": 6},
    **{"pollopen": 1, "evict": 0.8, "pollclose": 2, "closewrite": 0.3},
}
OF_NOBODY = {
    **{"spawn": 2, "sockopen": 1, "arrive": 4, "drain": 3, "peerclose": 0.08},
    **{"pollevent": 2, "tick": 2, "pop": 6, "fire": 4},
}
THEMES = (
    "",
    "rwlock rwunlock increfclose spawn",
    "incref decref increfclose rwlock rwunlock",
    "sysread syswrite arrive drain peerclose",
    "sysread syswrite drain closewrite",
    "setdeadline tick pop fire",
    "setdeadline tick pop waitbegin",
    "waitbegin setdeadline evict pollevent fire",
    "pollopen evict pollclose pollevent setdeadline",
)
TIMES_AS_OFTEN = 8
SELDOM = 0.03


def random_limits(dice: random.Random, version: int) -> Limits:
    most = RANGES[version]["buf"]
    if dice.random() < 0.03:
        return Limits(4096, 256, 256, most)
    buffers = [1, 2, 5, 16, 64, most]
    return Limits(dice.randint(1, 9), dice.randint(1, 3), dice.randint(1, 3), dice.choice(buffers))


def random_answer(dice: random.Random, kind: str, near: Answer) -> Answer:
    """A random answer: one of the same sort as the given answer, another answer of the step's kind, or any answer."""
    number = near[1] if len(near) == 2 else 0
    names = dice.choice([near[:1], OF_NRDB[kind].answers, PLAIN_ANSWERS + COUNTED_ANSWERS])
    name = dice.choice(names)
    if name in PLAIN_ANSWERS:
        return (name,)
    return name, dice.choice([number + 1, max(number - 1, 0), 0, 1, 2, 3, 4_294_967_295])


def other_answer(dice: random.Random, kind: str, answer: Answer) -> Answer:
    """An answer that differs from this one."""
    while (other := random_answer(dice, kind, answer)) == answer:
        pass
    return other


def features(world: World) -> Iterator[str]:
    """Names for features of a state: statuses, full, free or closed objects, pending timers."""
    yield from {status[0] for status in world.goroutines}
    if len(world.descs) == world.limits.desc and not world.free:
        yield "no descriptor left"
    if world.free:
        yield "a free descriptor"
    if any(desc.closing for desc in world.descs):
        yield "a closing descriptor"
    if world.firings:
        yield "firings full" if len(world.firings) == 2 * world.limits.desc else "a firing"
    if world.timers and world.timers[0].when <= world.clock:
        yield "a timer due, firings full" if len(world.firings) == 2 * world.limits.desc else "a timer due"
    if any(socket.peer_closed for socket in world.sockets):
        yield "a peer closed"
    if any(len(socket.buffers[0]) == socket.capacities[0] for socket in world.sockets):
        yield "an input full"
    if any(socket.shut for socket in world.sockets):
        yield "a shut socket"


class Author:
    """Makes random steps for the current state of a recording."""

    def __init__(
        self, dice: random.Random, wild: float = 0.03, version: int | None = None, themes: Sequence[str] = THEMES
    ) -> None:
        self.dice = dice
        self.version = version or dice.choice(VERSIONS)
        self.limits = random_limits(dice, self.version)
        self.wild = wild
        self.past = SELDOM
        self.of_goroutines = dice.uniform(0.35, 0.8)
        theme = dice.choice(themes).split()
        idle = {kind: weight for kind, weight in OF_IDLE.items() if kind in KINDS[self.version]}
        self.of_idle = {kind: self.weight(kind in theme, weight) for kind, weight in idle.items()}
        self.of_nobody = {kind: self.weight(kind in theme, weight) for kind, weight in OF_NOBODY.items()}

    def weight(self, of_theme: bool, weight: float) -> float:
        return weight * self.dice.random() ** 2 * (TIMES_AS_OFTEN if of_theme else 1) + 0.01

    def recording(self, length: int) -> tuple[Contents, list[World]]:
        """A Recording whose steps all apply, with their answers in version 2, and the states at all positions."""
        worlds = [World(self.limits)]
        steps: list[Step] = []
        answers: list[Answer | None] = []
        for _ in range(3 * length):
            if len(steps) == length:
                break
            step = self.step(worlds[-1])
            try:
                world, answer = apply(worlds[-1], step)
            except StepRefusedError:
                continue
            worlds.append(world)
            steps.append(step)
            answers.append(answer if self.version == 2 else None)
        return Contents(self.version, self.limits, steps, answers), worlds

    def any_answer(self, kind: str) -> Answer | None:
        """A recorded answer for a step that doesn't apply; netrev never compares it."""
        return random_answer(self.dice, kind, ("done",)) if self.version == 2 else None

    def rare_position(self, worlds: Sequence[World]) -> int:
        """A position with a rare feature: each rare feature has the same chance."""
        having: dict[str, list[int]] = {}
        for position, world in enumerate(worlds):
            for feature in features(world):
                having.setdefault(feature, []).append(position)
        return self.dice.choice(having[self.dice.choice(sorted(having))])

    def refused_step(self, world: World) -> Step | None:
        """A step that doesn't apply, or None if none is found. Each reason among the candidates has the same chance,
        and so has each kind with that reason."""
        found: dict[int, dict[str, Step]] = {}
        for _ in range(80):
            step = self.wild_step(world) if self.dice.random() < 0.5 else self.step(world)
            try:
                apply(world, step)
            except StepRefusedError as refused:
                found.setdefault(refused.reason, {})[step[0]] = step
        return self.dice.choice(list(self.dice.choice(list(found.values())).values())) if found else None

    def step(self, world: World) -> Step:
        if self.dice.random() < self.wild:
            return self.wild_step(world)
        if self.dice.random() < self.of_goroutines:
            return self.step_of(world, self.goroutine(world))
        kind = "sockopen" if not world.sockets else self.choose(self.of_nobody)
        return self.with_arguments(world, kind, 0)

    def goroutine(self, world: World) -> int:
        """An existing goroutine, preferably one that isn't idle."""
        able = [g for g, status in enumerate(world.goroutines) if status[0] not in ("gone", *ASLEEP)]
        return self.dice.choice(able or [0])

    def step_of(self, world: World, g: int) -> Step:
        """A goroutine's next step."""
        if step := step_by_status(g, world.goroutines[g]):
            return step
        if world.sockets and len(world.descs) == len(world.free) and self.dice.random() < 0.3:
            return self.with_arguments(world, "pollopen", g)
        closing = [d for d, desc in enumerate(world.descs) if desc.closing and d not in world.free]
        if closing and self.dice.random() < 0.15:
            return ("pollclose", g, self.dice.choice(closing))
        return self.with_arguments(world, self.choose(self.of_idle), g)

    def choose(self, weights: dict[str, float]) -> str:
        return self.dice.choices(list(weights), list(weights.values()))[0]

    def wild_step(self, world: World) -> Step:
        """A step of any kind, whose arguments often name nothing that exists."""
        self.past = self.dice.choice([0.05, 0.2, 0.6])
        idle = [g for g, status in enumerate(world.goroutines) if status == IDLE]
        g = self.dice.choice(idle) if idle and self.dice.random() < 0.6 else self.near(len(world.goroutines))
        kind = self.dice.choice(KINDS[self.version])
        if g < len(world.goroutines) and world.goroutines[g][0] == "relock" and self.dice.random() < 0.5:
            kind = "rwlock"
        step = self.with_arguments(world, kind, g)
        self.past = SELDOM
        return step

    def with_arguments(self, world: World, kind: str, g: int) -> Step:
        s, d = self.near(len(world.sockets)), self.near(len(world.descs))
        numbers = {"g": g, "s": s, "d": d}
        return (
            kind,
            *(numbers[form] if form in numbers else self.argument(world, kind, form, s, d) for form in ARGUMENTS[kind]),
        )

    def near(self, count: int) -> int:
        """A number below the given number; sometimes a number that is too large."""
        if self.dice.random() < self.past or count == 0:
            return self.dice.choice([count, count, count + 1, 4_294_967_295])
        return self.dice.randrange(count)

    def argument(self, world: World, kind: str, form: str, s: int, d: int) -> object:
        dice = self.dice
        match form:
            case "side":
                return dice.choice("rw")
            case "mode":
                return dice.choice(["r", "w", "rw"])
            case "bytes":
                return dice.randbytes(self.size(world))
            case "n" if kind == "drain" and s < len(world.sockets) and dice.random() < 0.9:
                return min(self.size(world), len(world.sockets[s].buffers[1]))
            case "n" if world.limits.buf > 65_536 and dice.random() < 0.2:
                return dice.choice([65_536, 65_537, world.limits.buf, world.limits.buf, world.limits.buf + 1])
            case "n":
                return self.size(world)
            case "tag":
                now = world.descs[d].fdseq if d < len(world.descs) else 0
                return max(0, now + dice.choice([0, 0, 0, 0, 0, -1, 1])) if dice.random() < 0.98 else 2**64 - 1
            case "err":
                return int(dice.random() < 0.2)
            case "deadline":
                extreme = [GREATEST_TIME, -GREATEST_TIME - 1, GREATEST_TIME - world.clock, -7]
                return dice.choice([1, 1, 2, 2, 3, 5, 0, -1, -1]) if dice.random() < 0.9 else dice.choice(extreme)
            case "clock":
                return self.time(world)
            case "i":
                return self.near(len(world.firings))
        raise ValueError(form)

    def size(self, world: World) -> int:
        """A count of bytes, which is often small, and sometimes 0 or one more than a buffer may hold."""
        most = world.limits.buf
        if self.dice.random() < self.past:
            return self.dice.choice([0, most + 1, 65_536]) if most < 65_536 else 0
        return self.dice.randint(1, min(most, self.dice.choice([2, 4, 9, 40, 300])))

    def time(self, world: World) -> int:
        """A time for the clock: a little later, or the due time of the first timer."""
        roll = self.dice.random()
        if roll < 0.4 and world.timers:
            return world.timers[0].when
        if roll < 0.44:
            return max(0, world.clock - 1)
        if roll < 0.4405:
            return GREATEST_TIME
        return min(world.clock + self.dice.choice([0, 1, 1, 2, 5]), GREATEST_TIME)
