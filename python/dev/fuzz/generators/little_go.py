"""A small model of Go that makes recordings. A goroutine is a generator that makes Go's calls, with the control flow of
internal/poll and runtime/netpoll: one step of the model's machine each time it is resumed. A random scheduler chooses
the goroutine."""

import json
import random
from collections.abc import Callable, Generator
from typing import Any

from netrev.machine.machine import StepRefusedError, World
from netrev.machine.steps import apply
from netrev.run.flow import ASLEEP, LAST, step_by_status
from netrev.text.contents import Answer, Limits

Turns = Generator[None, None, Any]  # a call: it yields after each of its steps, and returns the result of Go's function
CLOSED, EOF = -1, 0  # in place of a count, a read may return one of these, or a negated code of the poller


class LittleProgram:
    """A running program: the machine's state, the steps so far, and the goroutines with their remaining work."""

    def __init__(self, seed: int, limits: Limits):
        self.dice = random.Random(seed)
        self.limits, self.world = limits, World(limits)
        self.steps: list[list[Any]] = []
        self.running: dict[int, Turns] = {}
        self.stopped: set[int] = set()  # goroutines that the scheduler no longer chooses
        self.descriptors: dict[int, int] = {}  # the descriptor of each socket

    def do(self, kind: str, *arguments: Any) -> tuple[Any, ...]:
        """Makes a step and returns its answer."""
        self.world, answer = apply(self.world, (kind, *arguments))
        self.steps.append(
            [kind, *(argument.hex() if isinstance(argument, bytes) else argument for argument in arguments)]
        )
        return answer

    def may(self, kind: str, *arguments: Any) -> tuple[Any, ...]:
        """Makes a step if it applies, and returns its answer, or None."""
        try:
            return self.do(kind, *arguments)
        except StepRefusedError:
            return ()

    def go(self, body: Callable[[int], Turns]) -> int:
        """Starts a goroutine."""
        goroutine = self.do("spawn")[1]
        self.running[goroutine] = body(goroutine)
        return goroutine

    def turn(self, goroutine: int) -> None:
        """Lets a goroutine make a step."""
        try:
            next(self.running[goroutine])
        except StopIteration:
            del self.running[goroutine]
            self.do("exit", goroutine)

    def ready(self) -> list[int]:
        """The goroutines that can continue."""
        statuses = self.world.goroutines
        return [g for g in self.running if g not in self.stopped and statuses[g][0] not in ASLEEP]

    def text(self) -> bytes:
        """The recording."""
        header = {"netrev": 1, **self.limits._asdict()}
        lines = (json.dumps(line, separators=(",", ":")) for line in (header, *self.steps))
        return "".join(f"{line}\n" for line in lines).encode()

    # ---- Go's calls

    def operation(self, kind: str, g: int, *arguments: Any) -> Turns:
        """Makes an operation that begins with this step; returns its first and its last answer."""
        answer = self.do(kind, g, *arguments)
        yield
        return answer, (yield from self.goes_on(g, answer))

    def goes_on(self, g: int, answer: Answer = ()) -> Turns:
        """Continues an operation until its goroutine is idle; returns the last answer."""
        while (step := step_by_status(g, self.world.goroutines[g])) or self.world.goroutines[g][0] in ASLEEP:
            if step:
                answer = self.do(*step)
            yield
        return answer

    def rwlock(self, g: int, s: int, side: str) -> Turns:
        _, answer = yield from self.operation("rwlock", g, s, side)
        return answer == ("yes",)

    def rwunlock(self, g: int, s: int, side: str) -> Turns:
        yield from self.gives("rwunlock", g, s, side)

    def decref(self, g: int, s: int) -> Turns:
        yield from self.gives("decref", g, s)

    def gives(self, kind: str, g: int, s: int, *side: str) -> Turns:
        """Drops a reference; the goroutine that drops the last reference destroys the descriptor."""
        answer, _ = yield from self.operation(kind, g, s, *side)
        if answer == LAST:
            self.do("pollclose", g, self.descriptors[s])
            yield

    def reset(self, g: int, s: int, side: str) -> Turns:
        _, (_, code) = yield from self.operation("pollreset", g, self.descriptors[s], side)
        return code

    def wait(self, g: int, s: int, side: str) -> Turns:
        _, answer = yield from self.operation("waitbegin", g, self.descriptors[s], side)
        return answer[1] if answer[0] == "code" else 0

    def read(self, g: int, s: int, most: int) -> Turns:
        if not (yield from self.rwlock(g, s, "r")):
            return CLOSED
        code: int = yield from self.reset(g, s, "r")
        answer: tuple[Any, ...] = ("again",)
        while code == 0 and answer[0] == "again":
            answer = self.do("sysread", g, s, most)
            yield
            if answer[0] == "again":
                code = yield from self.wait(g, s, "r")
        yield from self.rwunlock(g, s, "r")
        return -code if code else answer[1] if answer[0] == "got" else EOF

    def write(self, g: int, s: int, data: bytes) -> Turns:
        if not (yield from self.rwlock(g, s, "w")):
            return CLOSED
        code, left = (yield from self.reset(g, s, "w")), data
        while code == 0 and left:
            answer = self.do("syswrite", g, s, left)
            yield
            if answer[0] == "put":
                left = left[answer[1] :]
            else:
                code = yield from self.wait(g, s, "w")
        yield from self.rwunlock(g, s, "w")
        return -code if code else len(data)

    def set_deadline(self, g: int, s: int, mode: str, time: int) -> Turns:
        if self.do("incref", g, s)[0] != "yes":
            return (yield)
        yield
        self.do("setdeadline", g, self.descriptors[s], mode, time)
        yield
        yield from self.decref(g, s)

    # ---- the network and the clock

    def arrive(self, s: int, data: bytes) -> None:
        """Bytes arrive for a socket, and so does their event."""
        if self.may("arrive", s, data):
            d = self.descriptors[s]
            self.do("pollevent", d, self.world.descs[d].fdseq, "r", 0)

    def drain(self, s: int, count: int) -> None:
        """The network takes bytes from a socket, and an event says that the socket has room."""
        if self.may("drain", s, count):
            d = self.descriptors[s]
            self.do("pollevent", d, self.world.descs[d].fdseq, "w", 0)

    def pass_time(self, most: int) -> None:
        """Runs a firing, takes a due timer, or lets at most this much time pass."""
        world = self.world
        if world.firings:
            self.do("fire", self.dice.randrange(len(world.firings)))
        elif world.timers and world.timers[0].when <= world.clock:
            self.do("pop")
        else:
            self.do("tick", world.clock + self.dice.randint(1, most))
