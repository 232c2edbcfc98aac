"""Missed release: a goroutine that owes a release of a semaphore has paused too long at that place."""

# too long: more than twice the longest pause at that place that ended in this recording

from collections.abc import Iterator

from netrev.findings.suspects.run import Run
from netrev.findings.suspects.suspect import Evidence, Suspect, Weight
from netrev.text.plurals import counted


def rule(run: Run) -> Iterator[Suspect]:
    queued = sorted(run.statuses("queued"), key=lambda status: run.since(status[0]))
    for g, (s, reads, writes) in run.statuses("owing"):
        pause, since = run.stalled(g), run.since(g)
        if not pause:
            continue
        sides = [side for side, owed in (("r", reads), ("w", writes)) if owed != "0"]
        asleep = [str(goroutine) for side in sides for goroutine, at in queued if at == [s, side]]
        owed = counted(int(reads) + int(writes), "release")
        says = [f"goroutine {g} owes {owed} on socket {s} since step {since}, {pause}"]
        if asleep:
            says.append(f"{counted(len(asleep), 'goroutine')} asleep in the queue: {', '.join(asleep)}")
        yield Suspect(
            since,
            Weight.CERTAIN if asleep else Weight.POSSIBLE,
            says,
            goroutine=g,
            socket=int(s),
            evidence=[Evidence(run.end, f"gor {g}", run.notes.now[f"gor {g}"])],
            looks=[f"goto {since}", f"history gor {g}"],
            steps=[since],
        )
