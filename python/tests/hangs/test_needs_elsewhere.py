"""The goroutine that could end a wait outside the poller: the goroutine at the same channel, or the goroutine that
serves the awaited request."""


import re

from netrev.findings.causes.first_output import left_by
from netrev.findings.evidence.need import Certainty, Need
from netrev.findings.evidence.responses import socket_of
from netrev.findings.hangs.wait_graph import graph_at
from netrev.recording.goroutines import FOR_VALUE, PUT, TOOK, At, GoGoroutine, Park
from netrev.recording.recording import Recording
from netrev.recording.waits import Name, ObjectWait
from netrev.recording.where import Stack
from netrev.run.index import run_of
from tests.failed_calls.test_causes import GETS, TWO_ENDS, UNLOCKS, with_lines
from tests.suspects.test_suspects import Steps

from .test_needs import line, stored, use

WAITER, OTHER, GONE = 5, 6, 7
A_VALUE = "a value from a channel"


def waiting(before: int, now: int, steps: Steps = TWO_ENDS) -> Recording:
    """Two goroutines that wait for values. The first waits on channel `now`. At the same line, it had waited on channel
    `before`, until the second goroutine ended that wait."""
    recording = with_lines(steps)
    lines = recording.lines
    lines.stacks[2], lines.stacks[3] = (
        Stack((line(number, function),), None) for number, function in ((23, "deliver"), (54, "send"))
    )
    lines.parks[WAITER] = [
        Park(WAITER, 0, 1, 10, 20, A_VALUE, 2, OTHER, (At(before, FOR_VALUE),)),
        Park(WAITER, 1, -1, 30, -1, A_VALUE, 2, 0, (At(now, FOR_VALUE),)),
    ]
    lines.parks[OTHER] = [Park(OTHER, 1, -1, 40, -1, A_VALUE, 3, 0, (At(9, FOR_VALUE),))]
    return recording


def need_of(recording: Recording) -> Need:
    return graph_at(recording, recording.length).needs[Name(WAITER, True)]


def test_at_the_same_channel() -> None:
    need = need_of(waiting(3, 3))
    assert (need.by, need.certainty) == (Name(OTHER, True), Certainty.LIKELY)
    assert "ended its wait there before" in need.how


def test_at_another_channel_of_the_same_line_that_is_said_with_perhaps() -> None:
    need = need_of(waiting(3, 4))
    assert (need.by, need.certainty) == (Name(OTHER, True), Certainty.PERHAPS)
    assert "a wait at that line before" in need.how


def test_one_that_gave_a_value_there_is_likely_until_it_has_returned_from_that() -> None:
    for stack, certainty, how in (
        (3, Certainty.LIKELY, r"^\{by\} put the last value there at .* in send$"),
        (2, Certainty.PERHAPS, r"^perhaps for \{by\}: it put the last value there at .* in deliver$"),
    ):
        recording = waiting(3, 4)
        recording.lines.uses[4] = [use(OTHER, PUT, stack, number=4)]
        need = need_of(recording)
        assert (need.by, need.certainty) == (Name(OTHER, True), certainty)
        assert re.search(how, need.how)


def test_a_goroutine_that_gave_something_there_and_has_ended_is_named_in_its_place() -> None:
    recording = waiting(3, 4)
    recording.lines.uses[4] = [use(GONE, PUT, 3, number=4)]
    recording.lines.goroutines[GONE] = GoGoroutine(GONE, -1, None, 0, 0, 1, 0, 0)
    need = need_of(recording)
    assert need.by is None
    assert re.search(r"^Goid 7 put the last value there .*; it ended after step 1\.$", need.says[0])


def output_of(ended: int) -> list[str]:
    """The text about the only call of goroutine 1, which is Go's goroutine 7. It was the last goroutine to send a
    value to the channel on which another goroutine waits."""
    recording = waiting(3, 4, [*TWO_ENDS, *GETS, *UNLOCKS])
    lines = recording.lines
    lines.uses[4] = [use(GONE, PUT, 3, number=4)]
    lines.goroutines[GONE] = GoGoroutine(GONE, 1, None, 0, 0, ended, 0, 0)
    lines._goids[1] = GONE
    (call,) = run_of(recording).by_goroutine[1]
    return left_by(graph_at(recording, recording.length), call)


def test_others_wait_for_the_goroutine_of_a_failed_call() -> None:
    (text,) = output_of(len(TWO_ENDS) + 5)
    assert re.search(
        r"^Goroutine 1 ended after that, at step \d+; goid 5 waits .*, at which goroutine 1 was the last to put a value\.$",
        text,
    )


def test_one_that_goes_on() -> None:
    assert output_of(-1) == []


def test_a_connection_that_another_goroutine_used_since_is_not_that_of_the_request() -> None:
    recording = stored("requests")
    wait = ObjectWait(Name(0), 420, None, "a select", Stack((), None))
    before = socket_of(run_of(recording), wait, recording.length)
    first = recording.lines.uses[7]
    put, took = first[0]._replace(goid=99, begin=10**9, end=10**9), first[1]._replace(begin=10**9, end=10**9)
    assert (put.what, took.what) == (PUT, TOOK)
    recording.lines.uses[7] = [*first, put, took]
    assert socket_of(run_of(recording), wait, recording.length) == before
    assert before is not None
