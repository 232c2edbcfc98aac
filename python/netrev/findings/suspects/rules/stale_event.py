"""Stale event: a goroutine is parked for reading, bytes are unread or the peer has closed, and an event came with an
old tag."""

from collections.abc import Iterator

from netrev.findings.suspects.arrived_events import waits_after_arrival
from netrev.findings.suspects.run import Run
from netrev.findings.suspects.suspect import Evidence, Suspect, Weight


def rule(run: Run) -> Iterator[Suspect]:
    for waits in waits_after_arrival(run):
        if not waits.has_stale_event(run):
            continue
        d, arrival = waits.use.descriptor, waits.arrival
        step, tag = run.notes.stale[d]
        own = run.notes.now[f"fdseq {d}"]
        dropped = f"the event of step {step} was dropped: its tag is {tag}, and descriptor {d}'s is {own}"
        suspect = waits.suspect(run, step, Weight.CERTAIN, [f"{waits.begins} since step {arrival}", dropped])
        suspect.evidence.append(Evidence(run.end, f"fdseq {d}", own))
        suspect.looks, suspect.steps = [f"goto {step}", f"history fdseq {d}"], [arrival, step]
        yield suspect
