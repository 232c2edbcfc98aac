"""Goroutines that failed to pass on a value or a turn, in recordings of tools/go/samples/hands (made by
tests.trials.go_caused). In a bad run, the first cause names the line with the reason. In a good run, no cause names
that line."""

import pytest

from netrev.findings.causes.first_output import first_words
from netrev.recording.recording import Recording
from tests.failed_calls.test_causes import in_the_folder_of_the_source
from tests.trials.go_caused import HANDS, NAMES, bug_line

from .test_needs import stored

SAYS = {
    "severed": ("in (*caller).receive, from whose loop {bug} leads", "met the end of the stream"),
    "dismissed": ("have all ended, from whose loop {bug} leads.", "which put such values at main.go:"),
    "deferred": ("It is closed only as crawl returns: the defer at {bug} is in a loop.", "3 connections are kept"),
    "mingled": ("Read at {bug} in ask", "each Read gets what comes next, perhaps the answer to another's request"),
}


def causes_of(recording: Recording) -> list[str]:
    """The causes of a recording of one of the programs, each with its tree."""
    recording.lines.written = float("inf")
    with in_the_folder_of_the_source(HANDS):
        return "\n".join(first_words(recording, "hands")).split("\ncause:")


@pytest.mark.parametrize("name", NAMES[HANDS])
def test_the_first_cause_has_the_reason(name: str) -> None:
    line, more = (says.format(bug=bug_line(name)) for says in SAYS[name])
    first = causes_of(stored(f"{name}-bad"))[0]
    assert line in first and more in first
    assert not any(more in cause for cause in causes_of(stored(f"{name}-good")))
