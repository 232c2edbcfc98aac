"""Requests of net/http's client: the connection on which each was written, and the requests that ended because a
deadline passed or they were cancelled. The recording is of tools/go/samples/requests."""

import pathlib
import re
from collections.abc import Callable
from typing import Any

from dev.recorder.suites import SAMPLES
from netrev.findings.causes import errors_table, first_words, requests_table
from netrev.findings.http.requests import cancelled_requests, requests_of
from netrev.recording.goroutines import CLOSED
from netrev.recording.recording import Recording
from netrev.run.index import run_of

CAUSED = pathlib.Path(__file__).parents[1] / "caused"
SOURCE = SAMPLES / "requests" / "main.go"


def line_of(bug: str) -> str:
    """The place of a marked line of the program."""
    lines = SOURCE.read_text(encoding="utf-8").split("\n")
    return f"main.go:{next(number for number, line in enumerate(lines, 1) if f'// BUG {bug}' in line)}"


def recording(name: str = "requests") -> Recording:
    """A recording only for this test, so that its lines may be changed."""
    return Recording.read(str(CAUSED / f"{name}.jsonl"))


def sentence_with(change: Callable[[Any], None]) -> list[str]:
    """The text about the requests that ended, with changed lines."""
    changed = recording()
    change(changed.lines)
    return [" ".join(request.says(changed)) for request in cancelled_requests(run_of(changed))]


def test_each_is_on_the_connection_on_which_it_was_written() -> None:
    rows = requests_table(recording()).rows
    firsts = [row.text for row in rows if row.values]
    assert len(firsts) == 3
    assert re.search(
        rf"^socket 2 +3 requests at {line_of('client')} in fetch \(goroutine 0\), the last after step \d+$", firsts[0]
    )
    assert [row.values["socket"] for row in rows if row.values] == [2, 4, 6]


def test_two_goroutines_that_take_from_one_channel_are_no_connection() -> None:
    changed = recording()
    lines = changed.lines
    loop = {use.goid for uses in lines.uses.values() for use in uses if use.what == "took"} - {1}
    for number, uses in lines.uses.items():
        lines.uses[number] = [*uses, *(use._replace(goid=max(loop) + 1) for use in uses if use.goid in loop)]
    assert requests_of(run_of(changed)) == []


def test_without_lines_nothing_is_said() -> None:
    table = requests_table(Recording((CAUSED / "requests.jsonl").read_bytes()))
    assert table.rows == []
    assert "no request" in table.rest


def test_the_first_print_names_the_deadlines() -> None:
    lines = [line for line in first_words(recording(), "requests.jsonl") if "serves the request" not in line]
    client, set_here, context, at_context, *_ = lines
    assert re.search(
        rf"^cause:  The request at {line_of('client')} in fetch .* ended because its client's Timeout passed \(step \d+\)\.$",
        client,
    )
    assert re.search(
        rf"It counts from the call at {line_of('client')} in fetch \(step \d+\), 40 ms earlier\.$", set_here
    )
    assert re.search(
        r"^cause:  The request at main\.go:43 in ask .* the deadline of its context passed \(step \d+\)\.$", context
    )
    assert re.search(rf"That was set at {line_of('context')} in main \(step \d+\), 40 ms ahead\.$", at_context)


def test_one_that_the_program_cancelled_is_no_failure() -> None:
    assert line_of("cancelled") not in "\n".join(first_words(recording(), "requests.jsonl"))
    assert any(
        re.search(rf"cancelled at {line_of('cancelled')} in main.func1 \(goid \d+", says)
        for says in sentence_with(lambda _: None)
    )


def test_info_errors_says_why_the_connection_was_closed() -> None:
    result = [row.text for row in errors_table(recording(), 10**6, None).rows]
    at = next(number for number, text in enumerate(result) if "It was closed at main.go:29" in text)
    assert "ended because its client's Timeout passed" in result[at + 1]


def test_of_two_deadlines_none_is_named() -> None:
    def twice(lines: Any) -> None:
        some = [timer for timer in lines.timers[0] if lines.stacks[timer.stack].own()]
        lines.timers[0] += [timer._replace(goid=99, due=timer.due - 1) for timer in some]

    says = sentence_with(twice)
    # the request's own goroutine made only one of the two timers
    assert re.search(r"its client's Timeout passed .* It counts from the call at", says[0])
    assert re.search(r"ended because a deadline of its context passed \(step \d+\)\.$", says[1])


def test_a_deadline_that_is_later_is_not_the_one() -> None:
    def later(lines: Any) -> None:
        lines.timers[0] = [timer._replace(due=timer.due + 10**12) for timer in lines.timers[0]]

    for says in sentence_with(later)[:2]:
        assert re.search(r"ended because a deadline of its context passed \(step \d+\)\.$", says)


def test_a_channel_that_was_closed_twice_is_two_channels() -> None:
    def again(lines: Any) -> None:
        for number, uses in lines.uses.items():
            lines.uses[number] = [*uses, *(use for use in uses if use.what == CLOSED)]

    assert sentence_with(again) == []
