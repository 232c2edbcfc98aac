"""Answers that don't arrive, because they stay in a buffer, because the WriteTimeout of an http.Server cuts them off,
or because a datagram gets none; and requests that a buffered reader has read ahead."""

import re
from dataclasses import replace
from pathlib import Path
from typing import Any


from netrev.findings.datagrams.datagrams import dropped_datagram
from netrev.findings.http.cancellations import cancel_before, deferred_sentence
from netrev.findings.http.late_answers import is_of_write_timeout, late_answers
from netrev.findings.locks.new_readers import thrown_away
from netrev.findings.streams.exchanges import perhaps_why
from netrev.recording.recording import Recording
from netrev.recording.where import OF_GO
from netrev.recording.where import SourceCall as LineCall
from netrev.recording.where import Stack
from netrev.run.index import run_of
from tests.hangs.test_needs import line, stored
from tests.trials.go_caused import source_of

from .test_causes import GETS, READS_ON, TWO_ENDS, UNLOCKS, in_the_folder_of_the_source, with_lines

READER = """\
package main

func command(conn net.Conn) string {
	line, _ := bufio.NewReader(conn).ReadString('\\n')
	return line
}

func answer(conn net.Conn) {
	conn.Write(nil)
}
"""


def file_of(folder: Path, source: str) -> str:
    """A file with this source."""
    path = folder / "a.go"
    path.write_text(source, encoding="utf-8")
    return str(path)


def test_requests_of_the_same_form_were_answered() -> None:
    index = run_of(stored("unflushed-good"))
    calls = [call for call in index.by_goroutine[0] if call.name == "Read" and index.other_end(call.socket) is not None]
    now = next(call for call in index.calls if call.name == "Read" and call.goroutine != 0 and call.moved)
    stack = index.recording.lines.of(now.first)
    added = LineCall("bufio.(*Scanner).Scan", "bufio/scan.go", 1, OF_GO)
    index.recording.lines.stacks[99] = Stack((added, *stack.calls), None)
    index.recording.lines.steps[now.first - 1] = 99
    assert re.search(
        r"^ Perhaps the answer is in a buffer .*; or the request lacks", perhaps_why(index, calls[-1], now)
    )
    assert re.search(r"^ Perhaps the request lacks .*; or the answer is in a buffer", perhaps_why(index, calls[0], now))


def sentences_about_readers(folder: Path, source: str = READER, more: list[Any] = []) -> list[str]:
    """Goroutine 1 reads from socket 0 in `command`, answers in `answer`, and reads again. Goroutine 0 waits on socket
    1."""
    answers: list[Any] = [
        ["rwlock", 1, 0, "w"],
        ["pollreset", 1, 0, "w"],
        ["syswrite", 1, 0, "6f6b"],
        ["rwunlock", 1, 0, "w"],
    ]
    got: list[Any] = [
        ["arrive", 1, "6f6b"],
        ["rwlock", 0, 1, "r"],
        ["pollreset", 0, 1, "r"],
        ["sysread", 0, 1, 16],
        ["rwunlock", 0, 1, "r"],
    ]
    waits: list[Any] = [[name, 0, 1, *rest] for name, _, _, *rest in READS_ON[:4]] + [
        [name, 0] for name, *_ in READS_ON[4:]
    ]
    wrote: list[Any] = [
        ["rwlock", 0, 1, "w"],
        ["pollreset", 0, 1, "w"],
        ["syswrite", 0, 1, "6869"],
        ["rwunlock", 0, 1, "w"],
    ]
    again: list[Any] = [
        ["rwlock", 1, 0, "r"],
        ["pollreset", 1, 0, "r"],
        ["sysread", 1, 0, 16],
        ["waitbegin", 1, 0, "r"],
    ]
    steps = [*TWO_ENDS, *wrote, *GETS, *UNLOCKS, *answers, *got, *more, *waits, *again]
    recording, file = with_lines(steps), file_of(folder, source)
    lines = recording.lines
    lines.written = float("inf")
    lines.stacks[2], lines.stacks[3] = (
        Stack((line(at, name, file),), None) for at, name in ((4, "command"), (9, "answer"))
    )
    index = run_of(recording)
    for call in index.by_goroutine[1]:
        for step in range(call.first, (call.last or len(steps)) + 1):
            lines.steps[step - 1] = 2 if call.name == "Read" else 3
    (now,) = [call for call in index.by_goroutine[1] if not call.last]
    return [says.replace(file, "a.go") for says in thrown_away(index, now, 1, recording.length)]


def test_one_for_each_call(folder: Path) -> None:
    (sentence,) = sentences_about_readers(folder)
    assert re.search(
        r"^Perhaps bytes that it had read before are lost: a.go:4 makes a new reader with a buffer in each call\.",
        sentence,
    )


def test_one_that_is_kept_or_a_request_that_is_new(folder: Path) -> None:
    assert sentences_about_readers(folder, READER.replace("bufio.NewReader(conn)", "reader")) == []
    wrote: list[Any] = [
        ["rwlock", 0, 1, "w"],
        ["pollreset", 0, 1, "w"],
        ["syswrite", 0, 1, "6869"],
        ["rwunlock", 0, 1, "w"],
    ]
    assert sentences_about_readers(folder, more=wrote) == []


def recording(function: str) -> Recording:
    """The recording of a Write after its deadline. Its stack has only functions of net/http, one of which set the
    deadline."""
    recording = stored("overdue-bad")
    lines = recording.lines
    (call,) = [call for call in run_of(recording).failed(recording.length) if call.name == "Write"]
    for step, name in ((call.first, "net/http.(*conn).serve"), (call.cause, function)):
        lines.stacks[90 + step] = Stack((LineCall(name, "net/http/server.go", 1, OF_GO),), None)
        lines.steps[step - 1] = 90 + step
    return recording


def test_the_write_timeout_of_a_server() -> None:
    index = run_of(recording("net/http.(*conn).readRequest.func1"))
    (found,) = late_answers(index)
    assert re.search(r"^An http.Server's WriteTimeout, \d+ ms, had passed before", found.says[0])
    assert re.search(r"slept at main.go:\d+ in overdue", found.says[-1])


def test_another_deadline() -> None:
    index = run_of(recording("net/http.(*Transport).dialConn"))
    assert list(late_answers(index)) == []
    assert not any(is_of_write_timeout(index, call) for call in index.calls)


def test_one_that_was_read_and_not_answered() -> None:
    recording = stored("dropped-bad")
    index = run_of(recording)
    (call,) = [call for call in index.by_goroutine[0] if call.name == "Read" and not call.last]
    assert re.search(
        r"^Perhaps its request, Write .*, which had answered there before, sent no answer to it: it read on in step \d+\.$",
        dropped_datagram(index, replace(call, last=recording.length))[0],
    )
    answered = [
        call
        for call in index.by_goroutine[0]
        if call.name == "Read" and call.moved and index.other_end(call.socket) is None
    ]
    assert [says for item in answered for says in dropped_datagram(index, item)] == []


def test_the_line_that_defers_a_cancel_and_the_one_that_makes_the_context() -> None:
    recording = stored("cancelled-bad")
    recording.lines.written = float("inf")
    index = run_of(recording)
    found = (cancel_before(index, call.first) for call in index.calls if call.name == "Close")
    cancel = next(item for item in found if item)
    with in_the_folder_of_the_source(source_of("cancelled")):
        assert re.search(
            r"^main.go:\d+ defers that, of the context that main.go:\d+ makes\.$", deferred_sentence(index, cancel)[0]
        )
    recording.lines.written = 0
    assert deferred_sentence(index, cancel) == []
