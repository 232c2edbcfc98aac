"""Deadline taken back too soon: a deadline that has passed is moved before the goroutine that it woke has checked why
it was woken."""

from collections.abc import Iterator

from netrev.findings.suspects.run import Run
from netrev.findings.suspects.suspect import Evidence, Suspect, Weight
from netrev.findings.suspects.weights import of_a_goroutine
from netrev.recording.cell_meanings import SIDES as NAMES
from netrev.recording.notes import Passing, Setting, Use

# statuses inside a wait, before the goroutine checks why it was woken
NOT_LOOKED = ("armed", "parking", "swapping", "checking")


def rule(run: Run) -> Iterator[Suspect]:
    for use in run.notes.uses:
        for side, passings in zip("rw", use.passings):
            for passing in passings:
                setting = use.setting_after(side, passing.step)
                if setting and setting.time >= 0:
                    goroutine = not_looked(run, use, side, setting.step - 1)
                    if goroutine is not None:
                        yield of_a_goroutine(run, suspect_of(run, use, side, passing, setting, goroutine))


def not_looked(run: Run, use: Use, side: str, position: int) -> int | None:
    """The goroutine that was woken by the deadline of its side and hasn't checked why yet; None if no goroutine is in
    that state."""
    goroutine, word = run.inside(use, side, position), run.changes.value(f"{side}g {use.descriptor}", position)
    place = "" if goroutine is None else run.status(goroutine, position)[0]
    is_woken = place in ("swapping", "checking") or word == "nil"
    return goroutine if place in NOT_LOOKED and is_woken and word != "ready" else None


def suspect_of(run: Run, use: Use, side: str, passing: Passing, setting: Setting, goroutine: int) -> Suspect:
    d, step = use.descriptor, setting.step
    status, how = run.changes.value(f"gor {goroutine}", step - 1), "took it back" if setting.time == 0 else "moved it"
    says = (
        f"the {NAMES[side]} deadline of descriptor {d} passed at step {passing.step} ({passing.kind}), and step {step} by goroutine "
        f"{setting.goroutine} {how} before goroutine {goroutine}, {status.split()[0]}, had checked why it was woken"
    )
    listed = run.facts.taken_back.get((step, d, side))
    return Suspect(
        step,
        Weight.POSSIBLE,
        [says],
        goroutine=goroutine,
        descriptor=d,
        socket=use.socket,
        listed=[listed.line] if listed else [],
        evidence=[Evidence(step - 1, f"gor {goroutine}", status), Evidence(step - 1, f"{side}d {d}")],
        looks=[f"goto {step - 1}", f"history info {d}"],
        steps=[passing.step, step],
    )
