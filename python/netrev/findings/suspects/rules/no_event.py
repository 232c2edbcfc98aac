"""No event: a goroutine is parked for reading, bytes are unread or the peer has closed, and no event has followed."""

from collections.abc import Iterator

from netrev.findings.suspects.arrived_events import waits_after_arrival
from netrev.findings.suspects.run import Run
from netrev.findings.suspects.suspect import Evidence, Suspect, Weight

JUST_NOW = 3  # bytes or a close that came within this many steps of the end may still get their event


def rule(run: Run) -> Iterator[Suspect]:
    for waits in waits_after_arrival(run):
        if waits.has_event or waits.has_stale_event(run):
            continue
        d, arrival, event = waits.use.descriptor, waits.arrival, waits.use.last_event("r")
        last = f" (the last at step {event})" if event else ""
        weight = Weight.LIKELY if run.end - arrival > JUST_NOW else Weight.SHOWN
        says = [f"{waits.begins} since step {arrival}", f"no event came for descriptor {d} after it{last}"]
        suspect = waits.suspect(run, arrival, weight, says)
        cell = f"in {waits.use.socket}"
        suspect.evidence.append(Evidence(run.end, cell, run.notes.now[cell]))
        suspect.looks, suspect.steps = [f"goto {arrival}", f"history rg {d}"], [arrival, waits.since]
        yield suspect
