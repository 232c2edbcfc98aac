"""Lock held: a goroutine sleeps for a lock whose holder is gone or has paused too long. Locks that Go's own Read, Write
or SendFile holds over a system call are left out."""

# too long: more than twice the longest pause that ended in this recording

from collections.abc import Iterator

from netrev.findings.suspects.run import Run
from netrev.findings.suspects.suspect import Evidence, Suspect, Weight
from netrev.findings.suspects.weights import of_a_holder
from netrev.recording.cell_meanings import SIDES as NAMES


def rule(run: Run) -> Iterator[Suspect]:
    for g, (s, side) in run.statuses("queued"):
        holder = next((hold for hold in reversed(run.notes.holds.get(int(s), [])) if hold.side == side), None)
        if holder and (how := how_it_is_held(run, holder.goroutine)):
            cells = [f"gor {goroutine}" for goroutine in (holder.goroutine, g)]
            suspect = Suspect(
                holder.step,
                Weight.CERTAIN,
                [
                    f"goroutine {g} sleeps for socket {s}'s {NAMES[side]} lock since step {run.since(g)}",
                    f"goroutine {holder.goroutine} took it at step {holder.step} and {how}",
                ],
                goroutine=holder.goroutine,
                socket=int(s),
                evidence=[Evidence(run.end, cell, run.notes.now[cell]) for cell in cells],
                looks=[f"goto {run.end}", f"info holders {s}"],
                steps=[holder.step, run.since(g)],
            )
            yield of_a_holder(run, suspect)


def how_it_is_held(run: Run, g: int) -> str:
    """Text that says why a holder won't give its lock back; empty if it may give the lock back."""
    status = run.notes.status(g)
    if status == "gone":
        return "is gone"
    pause = run.stalled(g) if status == "idle" else ""
    return f"has done nothing since step {run.notes.goroutines[g].last}: {pause}" if pause else ""
