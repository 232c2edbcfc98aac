"""Deadline left behind: a goroutine moved only the other side's deadline, and then this side's deadline passes; it was
set for both sides, or before the recording begins. Or the goroutine that set the deadline has since set the other
side's deadline instead."""

from collections.abc import Iterator

from netrev.findings.suspects.run import Run
from netrev.findings.suspects.suspect import Evidence, Suspect, Weight
from netrev.findings.suspects.weights import of_a_deadline
from netrev.recording.cell_meanings import SIDES as NAMES
from netrev.recording.notes import By, Use
from netrev.recording.suspect_list import OfDeadline

HABIT = 2  # a goroutine that sets one side alone this many times has a habit of setting that side


def rule(run: Run) -> Iterator[Suspect]:
    for passed in run.facts.passed_deadlines:
        if passed.moved and (found := left_behind(run, passed, passed.moved)):
            yield of_a_deadline(run, passed, found)


def left_behind(run: Run, passed: OfDeadline, moved: By) -> Suspect | None:
    """The suspect about a deadline that passes, if a goroutine set the other side's deadline instead. `moved` is the
    first step that did so."""
    side, other, (set_at, g) = passed.side, "w" if passed.side == "r" else "r", passed.setting
    use = run.use_at(passed.descriptor, passed.step)
    if passed.sides == "rw":
        how = "took back" if use.setting(moved.step).time == 0 else "moved"
        story = (
            f"is of step {set_at}, which set both; step {moved.step} by goroutine {moved.goroutine} {how} the "
            f"{NAMES[other]} deadline alone"
        )
        return suspect_of(run, passed, use.socket, Weight.POSSIBLE, story, moved.step)
    if set_at <= run.recording.lines.prelude:
        return before_the_recording(run, passed, use)
    settings = [setting for setting in use.settings if setting.goroutine == g and setting.step < passed.step]
    count, own = sum(setting.mode == side for setting in settings), [
        setting.step for setting in settings if setting.mode == other
    ]
    if count >= HABIT and own and own[0] > set_at:
        story = (
            f"was set {count} times by goroutine {g}, the last time at step {set_at}; from step {own[0]} on it "
            f"set the {NAMES[other]} deadline in its place ({len(own)} times)"
        )
        return suspect_of(run, passed, use.socket, Weight.LIKELY, story, own[0])
    return None


def before_the_recording(run: Run, passed: OfDeadline, use: Use) -> Suspect | None:
    """The suspect for a deadline that was set before the recording begins. Since then, the other side's deadline must
    have been set alone, and more than once."""
    prelude, other = run.recording.lines.prelude, "w" if passed.side == "r" else "r"
    since = [setting for setting in use.settings if prelude < setting.step < passed.step]
    if len(since) < HABIT or any(setting.mode != other for setting in since):
        return None
    story = (
        f"was set before the recording begins; from step {since[0].step} on the {NAMES[other]} deadline alone was set "
        f"({len(since)} times)"
    )
    return suspect_of(run, passed, use.socket, Weight.POSSIBLE, story, since[0].step)


def suspect_of(run: Run, passed: OfDeadline, socket: int, weight: int, story: str, moved_at: int) -> Suspect:
    step, d, side = passed.step, passed.descriptor, passed.side
    cell = f"{side}d {d}"
    suspect = Suspect(
        step,
        weight,
        [f"the {NAMES[side]} deadline of descriptor {d} that passed at step {step} {story}"],
        descriptor=d,
        socket=socket,
        evidence=[Evidence(step, cell, "-1"), Evidence(step - 1, cell, run.changes.value(cell, step - 1))],
        looks=[f"goto {step}", f"history {cell}"],
        steps=[passed.setting.step, moved_at, step],
    )
    suspect.has_line(passed.line)
    return suspect
