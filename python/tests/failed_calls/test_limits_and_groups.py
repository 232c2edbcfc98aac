"""Time limits are reported only if they are certain: those of an http.Server, and of an http.Client that was
redirected. The text about a wait for a WaitGroup names the goroutines that the waiting goroutine started, but never the
waiting goroutine itself."""

import json
import re
from typing import Any

import pytest

from netrev.findings.causes.failed_calls import causes_of
from netrev.findings.evidence.responses import contains
from netrev.findings.evidence.waiters import Waiter
from netrev.findings.http.cancellations import Cancel, cancel_sentence
from netrev.findings.http.requests import CLIENT_TIMEOUT
from netrev.findings.locks.groups import Groups
from netrev.recording.goroutines import GoGoroutine
from netrev.recording.waits import Name, waits_of
from netrev.recording.where import SourceLines, Stack
from netrev.run.index import run_of
from tests.hangs.test_needs import line
from tests.suspects.test_suspects import OPEN

from .test_causes import LATE, PASSES, SETS, TWO_ENDS, with_lines
from .test_http_requests import recording, sentence_with

SETTER = ("internal/poll.setDeadlineImpl", "net.(*conn).SetReadDeadline")
SERVES = ("net/http.(*conn).serve", "net/http.(*Server).Serve.gowrap3")
HANDLER = ("main.handle", "net/http.HandlerFunc.ServeHTTP", "net/http.serverHandler.ServeHTTP")
CONTROLLER = ("net/http.(*response).SetReadDeadline", "net/http.(*ResponseController).SetReadDeadline")
MILLISECOND = 10**6


def timeout_sentence(functions: tuple[str, ...]) -> str:
    """The text about a Read that timed out, whose deadline was set in these functions, the innermost first."""
    steps = OPEN + SETS + PASSES + LATE
    recording = with_lines(steps)
    of = {True: "program", False: "go"}
    result: list[Any] = [{"where": 1, "steps": len(steps)}]
    result += [
        {"call": number, "function": function, "file": "a.go", "line": number, "of": of[function.startswith("main.")]}
        for number, function in enumerate(functions, 1)
    ]
    result += [{"stack": 1, "calls": list(range(1, len(functions) + 1))}, {"step": 1, "stacks": [1] * len(steps)}]
    recording.lines = SourceLines("\n".join(map(json.dumps, result)), len(steps))
    assert not recording.lines.fault, recording.lines.fault
    return "\n".join(causes_of(recording, recording.length)[0].says)


@pytest.mark.parametrize("by", [("net/http.(*conn).readRequest",), ("net/http.(*conn).readRequest.func1",), ()])
def test_a_deadline_that_the_server_set_is_one_of_its_own(by: tuple[Any, ...]) -> None:
    assert "of its http.Server" in timeout_sentence((*SETTER, *by, *SERVES))


def test_one_that_a_handler_set_is_none() -> None:
    stops = ("net/http.(*connReader).abortPendingRead", "net/http.(*response).finishRequest")
    for by in (HANDLER, CONTROLLER + HANDLER, stops, ("example.com/lib.limit", *HANDLER)):
        says = timeout_sentence((*SETTER, *by, *SERVES))
        assert "ended with a timeout" in says, by
        assert "of its http.Server" not in says, by


def says(*earlier: tuple[int, int]) -> str:
    """The text about an http.Client's time limit. Its goroutine also made earlier timers at the same place, one for
    each pair in `earlier`: how much earlier the timer was made, and how much earlier it was due."""
    made = recording()
    lines = made.lines
    timer = next(timer for timer in lines.timers[0] if contains(lines.stacks[timer.stack], CLIENT_TIMEOUT))
    lines.timers[0] += [timer._replace(time=timer.time - time, due=timer.due - due) for time, due in earlier]
    use = next(use for uses in lines.uses.values() for use in uses)
    return cancel_sentence(run_of(made), Cancel(1, use, [timer]))


def test_what_a_redirect_left_is_no_limit() -> None:
    begins = r"had found that the Timeout of an http.Client had passed; the request began at main.go:\d+ in \w+ "
    assert re.search(rf"{begins}\(goroutine \d+, step \d+\), \d+ ms earlier\.$", says())
    assert re.search(rf"{begins}\(goroutine \d+\)\.$", says((5 * MILLISECOND, -110)))


def test_a_request_before_it_has_a_limit_of_its_own() -> None:
    assert re.search(r", \d+ ms earlier\.$", says((5 * MILLISECOND, 5 * MILLISECOND - 90)))


def test_a_request_that_ended_names_no_rest_either() -> None:
    def redirected(lines: Any) -> None:
        lines.timers[0] += [
            timer._replace(time=timer.time - 5 * MILLISECOND, due=timer.due + 90) for timer in lines.timers[0]
        ]

    assert re.search(
        r"It counts from the call at main.go:\d+ .* \d+ ms earlier\.$", sentence_with(lambda lines: None)[0]
    )
    assert re.search(r"It counts from the call at main.go:\d+ in \w+\.$", sentence_with(redirected)[0])


def text_of_group(*others: tuple[int, int], waiter: int = 0, maker: int = 1) -> str:
    """The text about the wait of a goroutine that `main.walk` started together with other goroutines. `others` has
    pairs: a goroutine's number, and the number of the goroutine that started it."""
    recording = with_lines(TWO_ENDS)
    go = line(4, "walk")
    stack = Stack((line(9, "walk"),), go)
    names = [Name(7, True), *(Name(goid, True) for goid, _ in others)]
    recording.lines.goroutines.update(
        {goid: GoGoroutine(goid, -1, go, maker, 0, -1, 0, -1) for goid, maker in [(7, maker), *others]}
    )
    groups = Groups(run_of(recording), waits_of(recording), [(name, stack) for name in names], recording.length)
    for name in (names[0], names[waiter]):
        need = groups.of(Waiter(name, 1, stack), (), lambda name: "waits for nothing")
    return " ".join(need.says) if need else ""


def test_nobody_waits_for_itself() -> None:
    assert text_of_group() == ""


def test_who_waits_in_the_same_lines_has_not_started_the_same() -> None:
    assert "goid 8, started at bank.go:4, and" in text_of_group((8, 1), maker=8)
    assert "goid 7, which it started, and" in text_of_group((8, 1), maker=8, waiter=1)


def test_who_started_a_goroutine_is_said_if_it_is_known() -> None:
    assert text_of_group((8, 7)) == "Perhaps it waits for goid 8, which it started, and which waits for nothing."
    for maker in (0, 1):
        assert (
            text_of_group((8, maker))
            == "Perhaps it waits for goid 8, started at bank.go:4, and which waits for nothing."
        )
