"""The scheduler: runs a script under the delays of a schedule. Time is counted in steps of the recording. A recorded
step is due at the time at which it was made, or later if its goroutine is delayed; any other step is due at once. A
goroutine makes no step while it sleeps, while the program's order lets another goroutine continue first, or while its
object doesn't exist."""

from heapq import heapify, heappop, heappush
from typing import NamedTuple

from netrev.reduce.events import Event
from netrev.run.flow import ASLEEP, OperationType
from netrev.text.contents import Answer, Step

from .control_flow import (
    NEVER,
    MissingObjectError,
    Operation,
    ScriptPlace,
    next_number,
    next_step,
    number_of,
    place_after,
)
from .environment import CHANGING, GOROUTINE, NETWORK, UNKNOWN, Actor, Environment, steps_past_deadline
from .numbered_state import AnsweredStep, NumberedState
from .orders import OrderProgress
from .schedules import Delay
from .script import Script

WAKING = frozenset(("pollevent", "setdeadline", "evict", "fire", "release"))
MAKING = frozenset(("spawn", "sockopen", "pollopen"))
NEWS = (("code", 2), ("pipe",))  # a timeout, a broken pipe

Due = tuple[float, int, Actor]  # a time, the order among the actors that are due at that time, and the actor


class PendingStep(NamedTuple):
    """A goroutine's next step, and its number in the recording (0: the recording doesn't have the step)."""

    step: Step
    number: int


class Scheduler:
    """A run of a script under delays. A run can be copied, continued under other delays, and compared with another."""

    def __init__(self, script: Script, delays: tuple[Delay, ...] = ()) -> None:
        self.script = script
        self.state = NumberedState(script.limits)
        self.environment = Environment(script)
        self.before = 0  # the number of steps that the copied run had made
        self.steps: list[AnsweredStep] = []  # the steps after those of the copied run
        self.places = [ScriptPlace() for _ in script.goroutines]
        self.orders = OrderProgress(script.orders, script.triggers, self.places)
        self.pending: dict[int, PendingStep] = {}  # the next step of each goroutine that is due
        self.diverged: set[int] = set()  # the goroutines whose last steps the recording doesn't have
        self.has_news = False  # whether a step got an answer in NEWS that differs from the recorded answer
        self.paused: dict[int, float] = {}  # the goroutines that pause, each with the time at which its pause ends
        self.asleep: set[int] = set()
        self.missing: list[Actor] = []  # the actors that wait until their object exists
        self.waiting: dict[int, list[Actor]] = {}  # for each goroutine, the actors that wait until it continues
        self.now = 0.0
        self._pause_ends = {delay.before: delay.until + 0.5 for delay in delays}
        self._due: list[Due] = []  # a heap
        self._count = 0
        self._schedule_goroutine(0)
        for due, actor in self.environment.first_due():
            self._schedule(due, actor)

    def copy(self, delays: tuple[Delay, ...]) -> "Scheduler":
        """A copy of the run, which continues under other delays."""
        copy = object.__new__(Scheduler)
        copy.__dict__.update(self.__dict__)
        copy.state, copy.environment = self.state.copy(), self.environment.copy()
        copy.before, copy.steps, copy.places = self.step_count(), [], list(self.places)
        copy.orders = self.orders.copy(copy.places)
        copy.pending, copy.diverged = dict(self.pending), set(self.diverged)
        copy.paused, copy.asleep, copy.missing = dict(self.paused), set(self.asleep), list(self.missing)
        copy.waiting = {g: list(actors) for g, actors in self.waiting.items()}
        copy._pause_ends = {delay.before: delay.until + 0.5 for delay in delays}
        copy._due = [copy._delayed(due) for due in self._due]
        heapify(copy._due)
        return copy

    def _delayed(self, entry: Due) -> Due:
        """The entry of an actor that is due, after the pause of a goroutine that has a delay before its next step."""
        due, count, (kind, g) = entry
        if kind != GOROUTINE or self.pending[g].number not in self._pause_ends:
            return entry
        self.paused[g] = max(due, self._pause_ends[self.pending[g].number])
        return self.paused[g], count, (kind, g)

    def step_count(self) -> int:
        """The number of steps made."""
        return self.before + len(self.steps)

    # ---- comparisons

    def is_equivalent_to(self, other: "Scheduler") -> bool:
        """Whether both runs continue in the same way, though perhaps with other numbers for their objects."""
        return (
            self.places == other.places
            and self.diverged == other.diverged
            and not self.paused
            and self.state.is_equivalent_to(other.state)
            and self.environment.is_equivalent_to(other.environment)
            and sorted(self._actors_due()) == sorted(other._actors_due())
        )

    def is_identical_to(self, other: "Scheduler") -> bool:
        """Whether both runs agree in everything that decides how they continue, so that they make the same steps."""
        return (
            self.places == other.places
            and self.diverged == other.diverged
            and not self.paused
            and self.state.is_identical_to(other.state)
            and self.environment.is_identical_to(other.environment)
            and (self.asleep, self.missing, self.waiting) == (other.asleep, other.missing, other.waiting)
            and self.pending == other.pending
            and self._actors_due() == other._actors_due()
        )

    def _actors_due(self) -> list[tuple[float, Actor]]:
        """The actors that are due, in their order."""
        return [(due, actor) for due, _, actor in sorted(self._due)]

    # ---- the order of the actors

    def run(self, until: float, most: int) -> None:
        """Runs everything that is due before a time, until `most` steps have been made."""
        most -= self.before
        while self._due and self._due[0][0] < until and len(self.steps) < most:
            self.now, _, actor = heappop(self._due)
            if actor[0] == GOROUTINE:
                self._take_turn(actor[1])
            else:
                self._perform(actor)

    def finish(self, most: int) -> None:
        """Runs the rest of the script, and then due timers and pending events, as long as a goroutine continues."""
        while True:
            self.run(NEVER, most)
            step = next(self.environment.remaining_steps(self.state), None)
            if step is None or self.step_count() >= most:
                return
            self._make(step, 0)

    def _schedule(self, due: float, actor: Actor) -> None:
        self._count += 1
        heappush(self._due, (due if due > self.now else self.now, self._count, actor))

    def _schedule_goroutine(self, g: int) -> None:
        """Schedules a goroutine's next step for the time at which it is due. Schedules nothing if the goroutine has no
        more steps, sleeps or doesn't exist."""
        if (other := self.orders.predecessor(g)) is not None:
            self.waiting.setdefault(other, []).append((GOROUTINE, g))
            return
        operations, place = self.script.goroutines[g], self.places[g]
        if g >= len(self.state.machine.goroutines) or g in self.asleep or place.operation >= len(operations):
            return
        operation = operations[place.operation]
        try:
            step = next_step(self.state, g, place, operation)
        except MissingObjectError:
            self.missing.append((GOROUTINE, g))
            return
        number = number_of(operation, place, step[0])
        self.pending[g] = PendingStep(step, number)
        due = float(number)
        if not number and g not in self.diverged and next_number(operations, place) == NEVER:
            due = self.script.length + 1.0  # the recording ends before this step
        elif number in self._pause_ends:
            due = self.paused[g] = max(due, self._pause_ends[number])
        self._schedule(due, (GOROUTINE, g))

    def _reschedule(self, actors: list[Actor]) -> None:
        """Schedules actors that waited. They wait again if they still must."""
        for actor in actors:
            if actor[0] == GOROUTINE:
                self._schedule_goroutine(actor[1])
            else:
                self._schedule(self.now, actor)

    def _make(self, step: Step, number: int) -> Answer:
        """Makes a step, and schedules the goroutines that it wakes."""
        result = self.state.make(step, number)
        self.steps.append(result)
        kind, answer = step[0], result.answer
        if answer in NEWS and (not number or self.script.answers[number - 1] != answer):
            self.has_news = True
        if kind in CHANGING:
            self.environment.record(step, self.state)
        if kind in WAKING and self.asleep:
            statuses = self.state.machine.goroutines
            for g in sorted(g for g in self.asleep if statuses[g][0] not in ASLEEP):
                self.asleep.discard(g)
                self._schedule_goroutine(g)
        return answer

    def _has_made(self, kind: str) -> None:
        """Schedules the actors that waited for an object, if a step of this kind has made one."""
        if kind in MAKING:
            missing, self.missing = self.missing, []
            self._reschedule(missing)

    # ---- goroutines

    def _take_turn(self, g: int) -> None:
        """Lets a goroutine make its step, and schedules its next step."""
        if self.paused and self.paused.pop(g, 0) > self.script.length + 1:
            for earlier in steps_past_deadline(self.state, self.pending[g].step):
                self._make(earlier, 0)
        step, number = self.pending.pop(g)
        place = self.places[g]
        operation = self.script.goroutines[g][place.operation]
        if step[0] == "waitbegin" and self._skips_wait(place, operation):
            self.places[g] = ScriptPlace(place.operation + 1)
            self._continue(g)
            return
        answer = self._make(step, number)
        status = self.state.machine.goroutines[g][0]
        self.places[g] = self._place_after(g, self.steps[-1], operation, status)
        if step[0] == "sockopen":
            self.state.add_socket(operation.socket, answer[1])
        elif step[0] == "pollopen":
            self.state.add_use(operation.use, operation.socket, answer[1])
        elif step[0] == "pollclose":
            self.state.remove_use(operation.socket)
        self._has_made(step[0])
        self._continue(g, status)

    def _place_after(self, g: int, made: AnsweredStep, operation: Operation, status: str) -> ScriptPlace:
        """The place of a goroutine after its step. Records whether the recording has that step, and whether the
        goroutine has skipped others."""
        place = self.places[g]
        if made.number:
            place = place._replace(step_index=place.step_index + 1)
            self.diverged.discard(g)
        else:
            self.diverged.add(g)
        if made.answer == ("last",) and operation.socket in self.state.open_uses:
            place = place._replace(destroys=self.state.open_uses[operation.socket])
        following = place_after(place, operation, made.step[0], made.answer, status)
        if following.operation != place.operation and place.step_index < len(operation.steps):
            self.diverged.add(g)
        return following

    def _continue(self, g: int, status: str = "idle") -> None:
        """Schedules the actors that waited for a goroutine, which has continued, and then the goroutine's next step."""
        if g in self.waiting:
            self._reschedule(self.waiting.pop(g))
        if status in ASLEEP:
            self.asleep.add(g)
        elif status != "gone":
            self._schedule_goroutine(g)

    def _skips_wait(self, place: ScriptPlace, operation: Operation) -> bool:
        """Whether a goroutine's event has come already, so that its call continues without a wait."""
        if operation.sort is not OperationType.WAIT or place.is_waiting or operation.is_raw:
            return False
        if operation.is_brief:
            d = self.state.descriptors.get(operation.use)
            return d is None or self.state.machine.descs[d].words["rw".index(operation.side)] != "ready"
        return operation.cause in self.environment.events

    # ---- the environment

    def _perform(self, actor: Actor) -> None:
        """Lets the network, the clock or unknown goroutines do what is due."""
        action = self.environment.next(actor)
        if action is None or self._must_wait(actor, action.event):
            return
        try:
            steps = self.environment.steps_of(action, self.state)
        except MissingObjectError:
            self.missing.append(actor)
            return
        if steps is None:
            self._schedule(self.now + 5, actor)
            return
        self.environment.finish(actor, action)
        for step in steps:
            answer = self._make(step, action.event.number if step[0] == action.event.kind else 0)
            if step[0] == "sockopen":
                self.state.add_socket(action.event.answer[1], answer[1])
            elif step[0] == "spawn":
                self._schedule_goroutine(answer[1])
            self._has_made(step[0])
        if (following := self.environment.next(actor)) is not None:
            self._schedule(following.due, actor)

    def _must_wait(self, actor: Actor, event: Event) -> bool:
        """Whether a due action must wait. The network waits for the steps to which it may react. If the parent of a new
        goroutine is unknown, the new goroutine waits for the goroutines that pause."""
        if actor[0] == NETWORK:
            if (other := self.orders.trigger_goroutine(event.number)) is not None:
                self.waiting.setdefault(other, []).append(actor)
                return True
        elif actor[0] == UNKNOWN and (event.kind != "spawn" or self.script.orders is None):
            pauses = [(next_number(self.script.goroutines[g], self.places[g]), end) for g, end in self.paused.items()]
            until = max((end for first, end in pauses if first < event.number), default=0.0)
            if until:
                self._schedule(until + 0.25, actor)
                return True
        return False
