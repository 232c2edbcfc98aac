"""Leaked reference: the goroutine that holds a reference is gone, has paused too long, or has held it too long.
References that Go's own calls hold over a system call are left out."""

# A pause or a hold is too long if it lasts more than twice as long as the longest of its kind that ended in this
# recording.

from collections.abc import Iterator

from netrev.findings.suspects.kept_references import kept
from netrev.findings.suspects.run import Run
from netrev.findings.suspects.suspect import Suspect, Weight
from netrev.findings.suspects.weights import of_a_holder


def rule(run: Run) -> Iterator[Suspect]:
    for reference in kept(run):
        weights = (Weight.LIKELY, Weight.STRONG)
        if reference.is_gone:
            weights, how = (Weight.STRONG, Weight.CERTAIN), "and is gone"
        elif reference.is_unevicted(run):
            continue
        elif reference.pause:
            how = (
                f"and has done nothing since step {run.notes.goroutines[reference.hold.goroutine].last}: "
                f"{reference.pause}"
            )
        elif reference.age and not reference.hold.side:
            weights, how = (Weight.POSSIBLE, Weight.STRONG), f"and has gone on since: {reference.age}"
        else:
            continue
        yield of_a_holder(run, reference.suspect(run, how, weights))
