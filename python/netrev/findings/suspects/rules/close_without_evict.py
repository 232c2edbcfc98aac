"""Close without evict: the goroutine that closed a socket hasn't evicted its descriptor, and has paused too long or
held its reference too long."""

# A pause or a hold is too long if it lasts more than twice as long as the longest of its kind that ended in this
# recording.

from collections.abc import Iterator

from netrev.findings.suspects.kept_references import kept
from netrev.findings.suspects.run import Run
from netrev.findings.suspects.suspect import Suspect, Weight


def rule(run: Run) -> Iterator[Suspect]:
    for reference in kept(run):
        if reference.is_unevicted(run):
            how = f"and hasn't evicted its descriptor: {reference.pause or reference.age}"
            yield reference.suspect(run, how, (Weight.LIKELY, Weight.STRONG))
