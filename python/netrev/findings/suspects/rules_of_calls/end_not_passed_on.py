"""End not passed on: a goroutine copied one connection to another, reached the end of the stream, and never closed the
destination for writing, so the Read at the destination's other end hangs."""

from collections.abc import Iterator

from netrev.findings.streams.unpassed_ends import UnpassedEnd, unpassed_ends
from netrev.findings.suspects.run import Run
from netrev.findings.suspects.suspect import Evidence, Suspect, Weight


def rule(run: Run) -> Iterator[Suspect]:
    for end in unpassed_ends(run.calls):  # (only if the recording says which sockets are the two ends of a connection)
        yield suspect_of(run, end)


def suspect_of(run: Run, end: UnpassedEnd) -> Suspect:
    first, second = (says.removesuffix(".") for says in end.says(run.recording))
    return Suspect(
        end.met.last,
        Weight.LIKELY,
        [first[0].lower() + first[1:], second],
        goroutine=end.met.goroutine,
        socket=end.write.socket,
        evidence=[Evidence(run.end, f"shut {end.write.socket}", "0")],
        looks=[f"goto {end.met.last}", f"calls gor {end.met.goroutine}"],
        steps=[end.write.first, end.met.last, end.waits.first],
    )
