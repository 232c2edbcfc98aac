"""Answers about a recording that begins in the middle of a run: they claim nothing about the time before, and name no
goroutine for the steps that lead to the first state."""

from typing import Any

from netrev.findings.causes import first_words
from netrev.findings.evidence.call_words import place_of_step, since_begin
from netrev.findings.evidence.waiters import waiters_at
from netrev.findings.handovers.givers import only_itself, untouched
from netrev.findings.streams.ends_of_reads import end_sentence
from netrev.recording.goroutines import FOR_ROOM, At, ObjectUse
from netrev.recording.recording import Recording
from netrev.recording.waits import Name, ObjectWait
from netrev.recording.where import Stack
from netrev.run.index import run_of
from tests.failed_calls.test_causes import READS_ON, TWO_ENDS, with_lines

NOBODY_WROTE = "Nobody has written anything on this connection"


def begun(begins: int, steps: list[Any]) -> Recording:
    """A recording of these steps, which begin with the steps that lead to its first state."""
    recording = with_lines(steps)
    recording.lines.prelude = begins
    return recording


def said(begins: int) -> str:
    """nrdb's text about a Read that still waits when the recording ends. No goroutine has written to its other end."""
    recording = begun(begins, [*TWO_ENDS, *READS_ON])
    index = run_of(recording)
    (call,) = [waiter.call for waiter in waiters_at(index, recording.length).values() if waiter.call]
    (says,) = end_sentence(index, call, 0, recording.length)
    return says


def test_who_has_written_before_is_not_known() -> None:
    assert said(0) == f"{NOBODY_WROTE}."
    for begins in (len(TWO_ENDS), len(TWO_ENDS) + 3):
        assert said(begins) == f"{NOBODY_WROTE} since the recording begins."


def test_of_a_connection_that_was_opened_since_then_it_is() -> None:
    assert said(1) == f"{NOBODY_WROTE}."


def test_nobody_is_named_that_opened_the_other_end() -> None:
    steps, named = [*TWO_ENDS, *READS_ON], "goroutine 0"
    words = ["\n".join(first_words(begun(begins, steps), "a.jsonl")) for begins in (0, len(TWO_ENDS))]
    assert "Nobody has read or written there since it was opened at a.go:1" in words[0]
    assert "Nobody has read or written there since the recording begins." in words[1]
    assert [named in text for text in words] == [True, False]


def test_steps_that_lead_there_have_no_place() -> None:
    recording = begun(4, [*TWO_ENDS, *READS_ON])
    assert place_of_step(recording, 4, 0) == " before the recording begins"
    assert place_of_step(recording, 5, 0) == " at a.go:1 in main (goroutine 0, step 5)"
    recording.lines.prelude = 0
    assert place_of_step(recording, 4, 0) == " at a.go:1 in main (goroutine 0, step 4)"


def test_what_was_there_before() -> None:
    for begins, opened, expected in ((0, 0, False), (0, 3, False), (4, 0, True), (4, 4, True), (4, 5, False)):
        words = since_begin(begun(begins, [*TWO_ENDS, *READS_ON]), opened)
        assert words == (" since the recording begins" if expected else "")


def test_channels() -> None:
    wait = ObjectWait(Name(41, True), 3, None, "", Stack((), None), objects=(At(1, FOR_ROOM),))
    for begins, words in ((0, "so far"), (4, "since the recording begins")):
        recording = begun(begins, [*TWO_ENDS, *READS_ON])
        assert untouched(recording, wait) == [f"Nobody has taken a value from that channel {words}."]
        recording.lines.uses[1] = [ObjectUse(1, 41, "took", 0, 1, 1, 1, 0, 0)]
        assert only_itself(recording, wait) == f"Only goid 41 itself has taken values there {words},."
