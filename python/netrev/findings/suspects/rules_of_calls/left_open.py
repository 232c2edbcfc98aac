"""Left open: the other end of a connection was closed, 50 steps or more before the recording ends, and no goroutine
closes this end or is in a call on it that would return EOF."""

from collections.abc import Iterator

from netrev.findings.causes.leftovers import left_open
from netrev.findings.finding import Cause
from netrev.findings.suspects.run import Run
from netrev.findings.suspects.suspect import Evidence, Suspect, Weight

SINCE = 50


def rule(run: Run) -> Iterator[Suspect]:
    for cause in left_open(run.calls):  # (only if the recording says which sockets are the two ends of a connection)
        if run.end - cause.steps[-1] >= SINCE:
            yield suspect_of(run.end, cause)


def without_heading(says: str) -> str:
    """A sentence as a clause, with a lower-case first letter."""
    return (says.replace("Its", "its", 1) if says.startswith("Its ") else says).removesuffix(".")


def suspect_of(length: int, cause: Cause) -> Suspect:
    call = cause.call
    return Suspect(
        cause.steps[-1],
        Weight.SHOWN,
        [f"perhaps: {cause.says[0].removesuffix('.')}", *(without_heading(says) for says in cause.says[1:])],
        socket=call.socket,
        evidence=[Evidence(length, f"lock {call.socket}")],
        looks=cause.looks,
        steps=cause.steps,
    )
