"""Lost wake-up: a goroutine is parked at a side, the readiness of the side's last event was taken, and no try has been
answered EAGAIN since then; netrev lists these goroutines. Or a `pollreset` discarded an event, and the goroutine is
about to park for reading without a read in between."""

from collections.abc import Iterator

from netrev.findings.suspects.arrived_events import waits_after_arrival
from netrev.findings.suspects.run import Run
from netrev.findings.suspects.suspect import Evidence, Suspect, Weight
from netrev.findings.suspects.weights import is_accepting, is_without_tries, of_a_goroutine
from netrev.recording.notes import AT, Taking, Use, Wait
from netrev.recording.suspect_list import LostWakeUp

# the goroutine that waits, its descriptor, the step that took the readiness, and the side
Taken = tuple[int | None, int | None, int, str]
BUFFERS, WAITS = {"r": "in", "w": "out"}, {"r": "reading", "w": "writing"}


def rule(run: Run) -> Iterator[Suspect]:
    throwing = (use for use in run.notes.uses if use.thrown)
    throws: dict[Taken, list[Suspect]] = {}
    for suspect in (thrown_away(run, use, *both) for use in throwing for both in waits_after_throw(use)):
        throws.setdefault((suspect.goroutine, suspect.descriptor, suspect.step, "r"), []).append(suspect)
    lost: dict[Taken, LostWakeUp] = {
        (wake_up.goroutine, wake_up.descriptor, wake_up.taken, wake_up.side): wake_up
        for wake_up in run.facts.lost_wake_ups
    }
    for throw, suspects in throws.items():
        about = lost.pop(throw, None)
        for suspect in suspects:
            of_a_goroutine(run, suspect)
            # (Go's own Accept tries again after each pollreset, and so loses no wake-up)
            if is_accepting(run.recording, suspect) or is_parked(run, suspect) and about is None:
                suspect.weight = Weight.DOUBTFUL
            if about:
                has_lines(run, suspect, about)
            yield suspect
    for about in lost.values():
        yield taken_and_parked(run, about)


def is_parked(run: Run, suspect: Suspect) -> bool:
    """Whether the goroutine is parked at that descriptor at the end. If no wake-up was lost there, the goroutine waits
    after a try."""
    return run.notes.now[f"gor {suspect.goroutine}"].startswith(f"parked {suspect.descriptor} ")


def has_lines(run: Run, suspect: Suspect, lost: LostWakeUp) -> None:
    """Adds netrev's lines about a lost wake-up and about bytes that are still unread."""
    suspect.has_line(lost.line)
    suspect.has_line(run.asleep(lost.goroutine, lost.descriptor, lost.side))


def taken_and_parked(run: Run, lost: LostWakeUp) -> Suspect:
    """The suspect about a lost wake-up, unless a `pollreset` of the same goroutine discarded it. The goroutine hangs
    because of the event if what came with the event is unread, or if nothing is unread and the goroutine hasn't read or
    written since."""
    g, d, side, use = lost.goroutine, lost.descriptor, lost.side, run.notes.use_of[lost.descriptor]
    entered, _, tried = use.waits[AT[side]][-1]
    coming = next((waits for waits in waits_after_arrival(run) if (waits.goroutine, side) == (g, "r")), None)
    hangs_for_it = coming.has_event if coming else tried < lost.event
    begins = coming.begins if coming else f"goroutine {g} is parked for {WAITS[side]} since step {run.since(g)}"
    how = (
        f"the event of step {lost.event} was taken at step {lost.taken} by goroutine {lost.by}, and goroutine {g} began its wait at step "
        f"{entered} without {WAITS[side]} until EAGAIN"
    )
    suspect = Suspect(
        lost.taken,
        Weight.DOUBTFUL if coming is None else Weight.POSSIBLE if hangs_for_it else Weight.SHOWN,
        [begins, how],
        goroutine=g,
        descriptor=d,
        socket=use.socket,
        evidence=[
            Evidence(run.end, cell, run.notes.now[cell]) for cell in (f"gor {g}", f"{BUFFERS[side]} {use.socket}")
        ],
        looks=[f"goto {entered - 1}", f"history {side}g {d}"],
        steps=[lost.event, lost.taken, entered],
    )
    has_lines(run, suspect, lost)
    if hangs_for_it:
        of_a_goroutine(run, suspect)
    if is_accepting(run.recording, suspect) or coming is None and is_without_tries(run.recording, suspect):
        suspect.weight = Weight.DOUBTFUL
    return suspect


def waits_after_throw(use: Use) -> Iterator[tuple[Taking, Wait]]:
    """The waits for reading in which the goroutine had discarded a readiness and hasn't read or written since."""
    thrown, at = use.thrown, 0
    for wait in use.waits[AT["r"]]:
        while at < len(thrown) and thrown[at].step < wait.step:
            at += 1
        if at and thrown[at - 1].goroutine == wait.goroutine and wait.tried < thrown[at - 1].step:
            yield thrown[at - 1], wait


def thrown_away(run: Run, use: Use, thrown: Taking, wait: Wait) -> Suspect:
    (step, g, event), d = thrown, use.descriptor
    says = f"step {step}, by goroutine {g}, threw away the event of step {event}, and no sysread came before the wait of step {wait.step}"
    has_come = run.number(f"in {use.socket}", wait.step) or run.notes.peer.get(use.socket, run.end + 1) < wait.step
    return Suspect(
        step,
        Weight.POSSIBLE if has_come else Weight.DOUBTFUL,
        [says],
        goroutine=g,
        descriptor=d,
        socket=use.socket,
        evidence=[Evidence(step - 1, f"rg {d}", "ready"), Evidence(step, f"rg {d}", "nil")],
        looks=[f"goto {step - 1}", f"history rg {d}"],
        steps=[event, step, wait.step],
    )
