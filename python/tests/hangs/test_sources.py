"""Hangs that the source explains, in recordings of tools/go/samples/sizes and sources (made by tests.trials.go_caused):
the first cause names the line with the reason, and no cause of a good run does."""

from pathlib import Path

import pytest

from netrev.findings.causes.first_output import first_words
from netrev.recording.recording import Recording
from tests.failed_calls.test_causes import in_the_folder_of_the_source
from tests.trials.go_caused import NAMES, SIZES, SOURCES, bug_line

from .test_needs import stored

SAYS = {
    "datagram": "Read at {bug} in resolve, called at",
    "ordered": "Shutdown at {bug} in (*board).closeLate",
    "departed": "which waits at {bug} in (*club).tell",
    "reentered": "holds it, locked at {bug}.",
    "unreturned": "Perhaps they kept it on this way: {bug} returns without main.go:",
    "unpushed": "Perhaps what {bug} writes is still in a buffer",
    "turnedAway": "has ended, from whose loop {bug} leads.",
    "mixed": "Perhaps bytes that were read before are lost: {bug} made a reader with a buffer",
    "spins": "the break at {bug} leaves a select or a switch alone.",
    "seated": "Perhaps (*hall).enter keeps it on this way: {bug} returns without main.go:",
    "partly": "Read at {bug} in load, called at main.go:",
}
MORE = {
    "datagram": "read it into a buffer of 16 bytes",
    "ordered": "waits for the ends of all requests, and cancels none of their contexts.",
    "departed": "The goroutine that took values there has ended.",
    "mixed": "doesn't read from that. The other end has written nothing since.",
    "partly": "were never read",
}


def causes_of(recording: Recording, source: Path) -> list[str]:
    """The causes of a recording of one of the programs, each with its tree."""
    recording.lines.written = float("inf")
    with in_the_folder_of_the_source(source):
        return "\n".join(first_words(recording, "sources")).split("\ncause:")


@pytest.mark.parametrize("source,name", [(source, name) for source in (SIZES, SOURCES) for name in NAMES[source]])
def test_the_first_cause_has_the_reason(source: Path, name: str) -> None:
    reason = SAYS[name].format(bug=bug_line(name))
    first = causes_of(stored(f"{name}-bad"), source)[0]
    assert reason in first and MORE.get(name, "") in first
    good = "\n".join(causes_of(stored(f"{name}-good"), source))
    assert reason not in good and (name not in MORE or MORE[name] not in good)
