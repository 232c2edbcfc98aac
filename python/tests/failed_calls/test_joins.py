"""Failed calls and the hangs that explain them, in recordings of tools/go/samples/joins (made by
tests.trials.go_caused): the first cause has both, and a cause with a known reason comes before others. Other tests are
about waits that aren't a deadlock, because a deadline ends them."""

import re
from types import SimpleNamespace as Made
from typing import cast

import pytest

from netrev.findings.causes.first_output import failures_of, first_findings, first_words, hangs_of
from netrev.findings.evidence.deadlines_ahead import deadline_ahead
from netrev.findings.evidence.need import Certainty, Need
from netrev.findings.evidence.waiters import Waiter
from netrev.findings.hangs.hang_words import hang_sentences
from netrev.findings.hangs.joins import Topic, because_of, joined
from netrev.findings.hangs.wait_graph import Hang, WaitGraph, graph_at, order, waiters_of
from netrev.recording.goroutines import CLOSED, PUT
from netrev.recording.recording import Recording
from netrev.recording.waits import Name, ObjectWait
from netrev.recording.where import Stack
from netrev.run.index import run_of
from tests.hangs.test_needs import stored
from tests.suspects.test_suspects import Steps
from tests.trials.go_caused import JOINS, NAMES, bug_line

from .test_causes import TWO_ENDS, in_the_folder_of_the_source, with_lines, writes

SAYS = {
    "gaveup": "from whose loop {bug} leads, or the end of its range over",
    "guarded": "it waited at {bug} in (*ledger).add, called at",
    "rounds": "waits at {bug} in (*Bank).Move for a mutex",
    "uncased": "waits at {bug} in (*feed).write",
    "pooled": "values there at {bug} in (*pool).ask and put",
    "stuck": "waits at {bug} in (*sink).putAndTell",
    "polled": "waits at {bug} in polled.func1 for a select",
}


def causes_of(recording: Recording) -> list[str]:
    """The causes of a recording of one of the programs, each with its tree."""
    recording.lines.written = float("inf")
    with in_the_folder_of_the_source(JOINS):
        return "\n".join(first_words(recording, "joins")).split("\ncause:")


def first_cause(name: str) -> str:
    return causes_of(stored(name))[0]


def graph_of(recording: Recording) -> WaitGraph:
    return graph_at(recording, recording.length)


@pytest.mark.parametrize("name", NAMES[JOINS])
def test_the_first_cause_has_the_reason(name: str) -> None:
    reason = SAYS[name].format(bug=bug_line(name))
    assert reason in first_cause(f"{name}-bad")
    assert not any(reason in cause for cause in causes_of(stored(f"{name}-good")))


def test_a_hang_is_below_the_failed_call_that_brought_it_about() -> None:
    causes = causes_of(stored("gaveup-bad"))
    lines = causes[0].splitlines()
    ended = next(number for number, line in enumerate(lines) if "Goroutine 3 ended after that" in line)
    assert "ended with a timeout" in lines[0]
    assert lines[ended + 1].startswith("          Goroutine 0 waits perhaps for ")
    assert len(causes) == 1 and "more: info" not in causes[0]


def left_locked(recording: Recording) -> tuple[WaitGraph, Hang]:
    """The graph of a recording, and its only hang, with a reason."""
    graph = graph_of(recording)
    (hang,) = graph.shown
    return graph, hang._replace(needs=[Need(["Nobody unlocked it."])])


def test_a_hang_of_a_program_that_ended_is_below_the_failed_call_that_it_explains() -> None:
    recording = stored("guarded-bad")
    graph, hang = left_locked(recording)
    (topic,) = joined(graph, [Topic(failures_of(recording)[0]), Topic(None, hang)])
    assert graph.has_ended and topic.hang is hang
    assert topic.because == "Goroutine 2, at the other end, was waiting then, and still is."


@pytest.mark.parametrize("stuck, function", [(0, "ask"), (21, "mingled.func1")])
def test_the_call_that_was_found_to_hang_comes_before_earlier_failures(stuck: int, function: str) -> None:
    recording = stored("mingled-bad")
    findings = first_findings(recording, stuck).shown
    assert f" in {function}" in findings[0].sentences[0] and len(findings) == 1 + bool(stuck)


def test_a_hang_of_the_goroutine_of_a_failed_call_is_below_that() -> None:
    first, *says = first_cause("stuck-bad").splitlines()
    assert re.search(
        r"^cause:  Write at main.go:\d+ in \(\*sink\).putAndTell, .* ended with (EPIPE|ECONNRESET)\.$", first
    )
    waits = next(
        number for number, line in enumerate(says) if re.search(r"Goroutine \d+ has been waiting since then\.$", line)
    )
    assert re.match(r" {10}All \d wait perhaps for goroutine \d+, which waits at main.go:\d+ in ", says[waits + 1])


def test_a_shutdown_that_waits_for_a_request() -> None:
    assert re.search(
        r"Shutdown at main.go:\d+ in polled \(goroutine 0\) waits for the ends of all requests, and cancels none of their contexts\.",
        first_cause("polled-bad"),
    )
    assert "Shutdown" not in "".join(causes_of(stored("polled-good")))


def test_of_a_program_that_ended_a_mutex_that_was_left_locked_is_said_if_nothing_else_is() -> None:
    _, hang = left_locked(stored("guarded-bad"))
    graph = cast(WaitGraph, Made(shown=[hang], has_ended=True))
    assert hangs_of(graph, False) == [hang] and not hangs_of(graph, True)


def test_a_hang_that_began_later_or_has_no_reason_explains_nothing() -> None:
    recording = stored("guarded-bad")
    (graph, hang), (cause,) = left_locked(recording), failures_of(recording)
    later = hang._replace(roots=[hang.root._replace(since=recording.length + 1)])
    assert because_of(graph, hang, cause)
    assert not because_of(graph, later, cause)
    assert not because_of(graph, hang._replace(needs=[Need([])]), cause)
    assert not because_of(graph, hang, None)


def test_a_call_of_the_same_line_that_waits_yet_explains_one_that_failed() -> None:
    """The waiting call explains the failed call only if the reason for the wait is known."""
    recording = stored("guarded-bad")
    graph, (cause,) = graph_of(recording), failures_of(recording)
    twin = Waiter(Name(9), recording.length, recording.lines.of(cause.call.first), cause.call)
    hang = Hang([twin, twin], [Need([], more=["It was dropped."])] * 2, [])
    assert because_of(graph, hang, cause) == "Goroutine 9 is still waiting in such a call."
    assert not because_of(graph, hang._replace(needs=[Need([])] * 2), cause)


def test_of_three_that_hold_mutexes_for_one_another_only_that_is_said() -> None:
    causes = causes_of(stored("rounds-bad"))
    first, *members = causes[0].splitlines()
    names = re.search(
        r"goid (\d+), (\d+) and (\d+) hold mutexes for which others of them wait, and 10 goroutines more", first
    )
    assert names and len(causes) == 1
    assert [line.split()[1] for line in members[:3]] == list(names.groups())


def test_those_that_wait_for_an_answer_wait_for_its_reader_and_that_for_who_answers() -> None:
    tree = first_cause("rounds-bad").splitlines()[4:]
    assert re.search(r"^ {10}- Read in encoding/gob.* perhaps goid .* answer what was read there last$", tree[0])
    assert re.search(r"^ {12}- a value from a channel .* perhaps goroutines .* read the answer$", tree[1])


def test_the_line_that_closed_what_a_select_lacks() -> None:
    close = next(n for n, line in enumerate(JOINS.read_text().splitlines(), 1) if "close(made.quit)" in line)
    cause = first_cause("uncased-bad")
    assert f"it has none for the channel that was closed at main.go:{close} in uncased (goroutine 0, " in cause
    assert "lacks a case" not in first_cause("uncased-good")


def test_a_channel_with_values_or_that_another_closed_is_no_case_that_is_lacking() -> None:
    for is_put in (True, False):
        recording = stored("uncased-bad")
        every, stacks = recording.lines.uses, recording.lines.stacks
        closed = (at for at, uses in every.items() for use in uses if use.what == CLOSED and stacks[use.stack].own())
        (number,) = closed
        uses = recording.lines.uses[number]
        recording.lines.uses[number] = [
            *(use._replace(goid=use.goid if is_put else 99) for use in uses),
            *([uses[0]._replace(what=PUT)] if is_put else []),
        ]
        assert "lacks a case" not in causes_of(recording)[0]


def test_who_reads_at_a_kept_connection_waits_for_nobody() -> None:
    recording = stored("pooled-bad")
    graph = graph_of(recording)
    hang = graph.shown[0]
    assert "Read at" not in first_cause("pooled-bad")
    assert not any(waiter.call for waiter in waiters_of(hang))
    assert any(need.is_kept for need in hang.needs)


AHEAD: Steps = [["incref", 0, 0], ["setdeadline", 0, 0, "w", 5], ["decref", 0, 0]]
NONE: Steps = [["incref", 0, 0], ["setdeadline", 0, 0, "w", 0], ["decref", 0, 0]]
OTHER: Steps = [["incref", 0, 0], ["setdeadline", 0, 0, "r", 5], ["decref", 0, 0]]


@pytest.mark.parametrize(("sets", "is_timed"), [([], False), (AHEAD, True), (AHEAD + NONE, False), (OTHER, False)])
def test_calls_with_a_deadline_are_no_deadlock(sets: Steps, is_timed: bool) -> None:
    graph = graph_of(with_lines(TWO_ENDS + sets + writes(0) + writes(1)))
    (hang,) = graph.shown
    first, *says = hang_sentences(graph, hang)
    ahead = deadline_ahead(run_of(graph.recording), hang.until, graph.position) if hang.until else None
    assert (ahead is not None) is is_timed
    if is_timed:
        assert first == "Two calls wait for one another until the deadline of the Write at a.go:1 passes."
        assert "Its deadline was set at a.go:1 in main (goroutine 0, step 7), 5 ns ahead, and hasn't passed." in says
    else:
        assert first == "Deadlock: two calls wait for one another."


def hang_of(waits: str, need: Need, waiting: int = 1, roots: int = 1, sure: Certainty = Certainty.KNOWN) -> Hang:
    stack = Stack((), None)
    waiter = Waiter(Name(1), 1, stack, None, ObjectWait(Name(1), 1, None, waits, stack))
    return Hang([waiter] * roots, [need] * roots, [], waiting, 0, sure)


def test_a_reason_comes_before_what_more_wait_for() -> None:
    ring = hang_of("a mutex", Need([]), 1, 2, Certainty.PERHAPS)
    odd, many = hang_of("a select", Need([], is_odd=True), 2), hang_of("a select", Need([]), 9)
    alone = hang_of("a mutex", Need(["Perhaps nobody unlocked it."]), 0)
    assert sorted([alone, many, ring, odd], key=order) == [odd, ring, many, alone]
    idle = hang_of("a value from a channel", Need([], more=["No line closes it."]), 2)
    assert sorted([idle, many], key=order) == [many, idle]
    unwoken = idle._replace(roots=hang_of("a condition", Need([])).roots)
    assert sorted([many, unwoken], key=order) == [unwoken, many]
    sure = hang_of("a select", Need([]), 0, 2)
    assert sorted([odd, ring, sure], key=order)[0] is sure
