"""Runs schedules, and keeps the schedules that end with a suspect or with a call that hangs, one for each rule and
place."""

from bisect import bisect_left, bisect_right
from collections import Counter
from collections.abc import Callable, Iterator
from dataclasses import dataclass, field, replace
from typing import Any, NamedTuple

from netrev.findings.suspects.ranking import suspects_of
from netrev.findings.suspects.rule_loader import LEFT_BEHIND, LOST_WAKE_UP, TAKEN_BACK, WRITE_AFTER_SHUT
from netrev.findings.suspects.suspect import Suspect
from netrev.machine.machine import Status, World
from netrev.model.changes import undone
from netrev.run.changes import PlayedSteps
from netrev.text.contents import Answer, Limits, Step

from .control_flow import ScriptPlace
from .hangs import hangs, waits_for_ever
from .numbered_state import AnsweredStep, ImpossibleScheduleError
from .scheduler import Scheduler
from .schedules import Delay, Schedule, schedules, single_delays
from .script import Script, with_early_arrivals

COPIES, MOST_COPIES = 200, 2_000  # the number of copies of the recorded run from which schedules continue
APART = 5  # the number of steps between two copies, unless that makes more copies than allowed
LONGER = 4  # the longest schedule, as a multiple of the recording's length
HANG = "a call that hangs"
ORDERED = (LOST_WAKE_UP, TAKEN_BACK, LEFT_BEHIND, WRITE_AFTER_SHUT)  # the rules whose suspects depend on an order

Key = tuple[Any, ...]


@dataclass(frozen=True)
class Run:
    """A schedule that was run, with its steps and the numbers of its objects."""

    steps: list[AnsweredStep]
    world: World
    places: list[ScriptPlace]
    sockets: dict[int, int]  # the numbers of sockets, keyed by their numbers in the recording
    has_news: bool
    # the changes of each step; None if the rules aren't asked about this run
    changes: list[list[str]] | None = field(default=None, compare=False)

    def pairs(self) -> list[tuple[Step, Answer]]:
        return [(step.step, step.answer) for step in self.steps]


class ScheduleFinding(NamedTuple):
    """A schedule's result: a suspect, or a goroutine that hangs."""

    key: Key
    suspect: Suspect | None
    hangs: int  # the goroutine that hangs, or -1
    schedule: Schedule
    run: Run


class Search:
    """The schedules run so far, and their findings."""

    def __init__(self, script: Script, line_of: Callable[[int], str]) -> None:
        self.script, self.line_of = with_early_arrivals(replace(script, limits=_wide(script.limits))), line_of
        self.found: dict[Key, ScheduleFinding] = {}
        self.times: Counter[Key] = Counter()  # how many schedules end with each finding
        self.tried = self.impossible = 0  # the number of schedules, and of those in which a step doesn't apply
        self.taken_over = 0  # the number of shares that were taken over from processes that ended too early
        self._most = LONGER * script.length + 200
        self._copies: list[Scheduler] = []
        self._copy_times: list[int] = []  # the times at which the copies were made
        self.delays = single_delays(self.script)
        self.seed = 0  # the last seed that gave a schedule
        self.recorded = self._run_recorded()
        self._parked = {g for g, status in enumerate(self.recorded.world.goroutines) if status[0] == "parked"}
        self.known = {finding.key for finding in self._findings(Schedule((), 0), self.recorded)}

    def _run_recorded(self) -> Run:
        """Runs the recorded schedule, and keeps copies of the state along the way."""
        scheduler = Scheduler(self.script)
        length = self.script.length
        every = max(length // MOST_COPIES, min(length // COPIES, APART), 1)
        for time in range(0, length + 1, every):
            scheduler.run(time, self._most)
            self._copies.append(scheduler.copy(()))
            self._copy_times.append(time)
        scheduler.finish(self._most)
        self._steps = scheduler.steps
        run = self._run_of(scheduler)
        self._changes = undone(scheduler.state.machine)
        return replace(run, changes=self._changes)

    def _run_of(self, scheduler: Scheduler) -> Run:
        steps = self._steps[: scheduler.before] + scheduler.steps
        world, sockets = scheduler.state.machine.world(), scheduler.state.sockets
        return Run(steps, world, scheduler.places, sockets, scheduler.has_news)

    def run(self, most: int, tell: Callable[[], None]) -> None:
        """Runs this number of schedules; calls `tell` after each of them."""
        for schedule in schedules(self.delays, most):
            self.try_schedule(schedule)
            tell()

    def try_schedule(self, schedule: Schedule) -> set[Key]:
        """Runs a schedule, and keeps its findings; returns their keys."""
        self.tried += 1
        self.seed = max(self.seed, schedule.seed)
        try:
            run = self.run_schedule(schedule.delays)
        except ImpossibleScheduleError:
            self.impossible += 1
            return set()
        if not run or not self._may_differ(run):
            return set()
        findings = [finding for finding in self._findings(schedule, run) if finding.key not in self.known]
        for finding in findings:
            self.times[finding.key] += 1
            if finding.key not in self.found or schedule.is_simpler_than(self.found[finding.key].schedule):
                self.found[finding.key] = finding
        return {finding.key for finding in findings}

    def keep(self, key: Key, schedule: Schedule) -> None:
        """Keeps the finding that another process found in a schedule."""
        self.found.update((finding.key, finding) for finding in self._findings_of(schedule) if finding.key == key)

    def simplest(self, finding: ScheduleFinding) -> ScheduleFinding:
        """The finding, with all unnecessary delays removed."""
        delays = finding.schedule.delays
        for left_out in delays if len(delays) > 1 else ():
            schedule = finding.schedule._replace(delays=tuple(delay for delay in delays if delay != left_out))
            for found in self._findings_of(schedule):
                if found.key == finding.key:
                    return self.simplest(found)
        return finding

    def _findings_of(self, schedule: Schedule) -> list[ScheduleFinding]:
        """The findings at the end of a schedule."""
        try:
            run = self.run_schedule(schedule.delays)
        except ImpossibleScheduleError:
            return []
        return list(self._findings(schedule, run)) if run else []

    def run_schedule(self, delays: tuple[Delay, ...]) -> Run | None:
        """Runs a schedule from the last copy before its first delay; returns None if the schedule returns to the
        recorded run. Without the two comparisons with the recorded run, long recordings take twice as long or more."""
        first, last = min(delay.before for delay in delays), max(delay.until for delay in delays)
        scheduler = self._copies[max(bisect_left(self._copy_times, first) - 1, 0)].copy(delays)
        for at in range(bisect_right(self._copy_times, last), len(self._copy_times)):
            scheduler.run(self._copy_times[at], self._most)
            copy = self._copies[at]
            if not scheduler.has_news:
                if scheduler.is_equivalent_to(copy):
                    return None
            elif scheduler.step_count() <= copy.step_count() + self.script.length and scheduler.is_identical_to(copy):
                return self._with_the_rest(scheduler, copy)
        scheduler.finish(self._most)
        return self._with_changes(self._run_of(scheduler), scheduler, len(self._steps))

    def _with_the_rest(self, scheduler: Scheduler, copy: Scheduler) -> Run:
        """The result of a schedule that has reached a state of the recorded run, with the same numbers for all objects.
        The rest of its steps are the recorded ones."""
        steps = self._steps[: scheduler.before] + scheduler.steps + self._steps[copy.before :]
        recorded = self.recorded
        run = Run(steps, recorded.world, recorded.places, recorded.sockets, scheduler.has_news)
        return self._with_changes(run, scheduler, copy.before)

    def _with_changes(self, run: Run, scheduler: Scheduler, rest: int) -> Run:
        """The run with the changes of its steps, if the rules are asked about it. This undoes the scheduler's steps. The
        steps before them are recorded ones, and so are the steps after them, which follow the first `rest` recorded
        steps."""
        if not self._may_differ(run):
            return run
        changes = self._changes[: scheduler.before] + undone(scheduler.state.machine) + self._changes[rest:]
        return replace(run, changes=changes)

    # ---- the findings of a schedule

    def _may_differ(self, run: Run) -> bool:
        """Whether a schedule may end differently from the recorded run."""
        parked = {g for g, status in enumerate(run.world.goroutines) if status[0] == "parked"}
        return run.has_news or bool(parked - self._parked)

    def _findings(self, schedule: Schedule, run: Run) -> Iterator[ScheduleFinding]:
        ranked = suspects_of(PlayedSteps((step.step for step in run.steps), run.changes))
        suspects = [suspect for suspect in ranked.suspects if self._is_finding(suspect, run)]
        for suspect in suspects:
            yield ScheduleFinding(self._key(suspect, run), suspect, -1, schedule, run)
        named = {suspect.goroutine for suspect in suspects}
        for g in range(len(run.world.goroutines)):
            if g not in named and hangs(self.script, g, run.places[g], run.world, run.steps):
                operation = self.script.goroutines[g][run.places[g].operation]
                number = operation.steps[0] if operation.steps else 0
                yield ScheduleFinding((HANG, self.line_of(number) or (g, operation.socket)), None, g, schedule, run)

    def _is_finding(self, suspect: Suspect, run: Run) -> bool:
        """Whether a suspect counts as a finding: it depends on the order of steps, and a goroutine that was woken
        wrongly doesn't continue by itself."""
        if not suspect.is_shown or suspect.rule not in ORDERED:
            return False
        if suspect.rule not in (LOST_WAKE_UP, TAKEN_BACK) or suspect.goroutine is None:
            return True
        status = run.world.goroutines[suspect.goroutine]
        if status[0] != "parked":
            return False
        is_cut_off = suspect.rule == TAKEN_BACK and waits_for_ever(status, run.world)
        return is_cut_off or self._has_arrived(status, run.world)

    @staticmethod
    def _has_arrived(status: Status, world: World) -> bool:
        """Whether the event or the bytes that a parked goroutine waits for have come."""
        socket = world.sockets[world.descs[status[1]].socket]
        return status[2] == "r" and (bool(socket.buffers[0]) or socket.peer_closed)

    def _key(self, suspect: Suspect, run: Run) -> Key:
        """The rule and the place of a finding: the program's line at fault if known, else the rule's object."""
        if line := self.line_of(run.steps[suspect.step - 1].number):
            return suspect.rule, line
        back = {number: socket for socket, number in run.sockets.items()}
        return suspect.rule, suspect.goroutine, back.get(suspect.socket if suspect.socket is not None else -1)


def _wide(limits: Limits) -> Limits:
    """Limits with a descriptor for each socket, because more sockets may be open at once than in the recorded run."""
    return limits._replace(desc=max(limits.desc, limits.sock))
