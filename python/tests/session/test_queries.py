"""Consecutive queries: they are sent together, in batches, and the output is the same."""

import io
import os
import tempfile
import threading
from collections.abc import Iterator, Sequence

import pytest

from netrev.connection.netrev import Netrev, NetrevEndedError, Reply
from netrev.connection.output import TextPrinter
from netrev.connection.shapes import StrangeReplyError
from netrev.session.attached_commands import Attached
from netrev.session.queries import MOST, answer_run, lines_together, query_of, runs_of
from netrev.session.session import Session
from netrev.system.interrupts import Interrupts, SessionAbandonedError


class Scripted(Netrev):
    """Answers each `print N` with `clock = N`, ends at `print end`, and sends an endless line for `print strange`.
    Stores the lines of each write."""

    def __init__(self) -> None:
        super().__init__(Interrupts())
        self.sent: list[list[str]] = []

    def _send(self, text: bytes) -> None:
        self.sent.append(text.decode().splitlines())

    def _next(self, request: str) -> str | None:
        if request.endswith("strange"):
            raise StrangeReplyError(request, "x")
        return None if request.endswith("end") else f"clock = {request.split()[-1]}"

    def close(self) -> int | None:
        return 5


class WithoutMemory(Scripted):
    def _next(self, request: str) -> str | None:
        return "fault 301 memory"


class ServedSession(Scripted):
    asks_ahead = False


class Counting(io.StringIO):
    """Stores the output at each flush."""

    def __init__(self) -> None:
        super().__init__()
        self.flushed: list[str] = []

    def flush(self) -> None:
        self.flushed.append(self.getvalue())


def session_with(netrev: Netrev) -> tuple[Session, Counting]:
    out = Counting()
    return Session(netrev, None, None, TextPrinter(out), Interrupts(), {}), out


def test_a_print_however_it_is_written() -> None:
    for line, sent in {
        "print lock 0": "print lock 0",
        "  p   lock 0 ": "print lock 0",
        "stepi": "",
        "print clock; stepi": "",
        "pr": "print",
        "": "",
        "# print clock": "",
        "commands": "",
    }.items():
        assert query_of(line) == sent, line


def runs(netrev: Netrev, lines: Sequence[str]) -> list[list[str]]:
    return [list(run) for run in runs_of(session_with(netrev)[0], lines)]


def test_queries_in_a_row_and_others_alone() -> None:
    lines = ["print 1", "print 2", "stepi", "quit", "print 3", "stepi", "print 4", "print 5"]
    wanted = [lines[:2], ["stepi"], ["quit"], ["print 3"], ["stepi"], lines[6:]]
    assert runs(Scripted(), lines) == wanted


def test_no_more_together_than_a_pipe_has_room_for() -> None:
    assert [len(run) for run in runs(Scripted(), ["print 1"] * (MOST + 3))] == [MOST, 3]
    assert [len(run) for run in runs(Scripted(), [f"print {'1' * 9_000}"] * 3)] == [1, 1, 1]


def test_alone_in_a_session_that_others_move() -> None:
    assert runs(ServedSession(), ["print 1", "print 2"]) == [["print 1"], ["print 2"]]


def test_alone_as_long_as_a_mark_takes_lines() -> None:
    session, _ = session_with(Scripted())
    session.attached = Attached(taking="1", lines={"1": []})
    assert len(list(runs_of(session, ["print 1", "print 2"]))) == 2


def test_one_piece_is_sent_and_each_reply_is_at_its_line() -> None:
    netrev = Scripted()
    netrev.ask_ahead(["print 1", "print 2"])
    assert [netrev.ask("print 1"), netrev.ask("print 2")] == [Reply("clock = 1"), Reply("clock = 2")]
    assert netrev.sent == [["print 1", "print 2"]]


def test_the_queries_of_a_run_are_sent_together() -> None:
    netrev = Scripted()
    session, _ = session_with(netrev)
    assert answer_run(session, ["print 1", "print 2"])
    assert netrev.sent == [["print 1", "print 2"]]


def test_another_line_is_sent_and_what_was_asked_ahead_is_stale() -> None:
    netrev = Scripted()
    netrev.ask_ahead(["print 1", "print 2"])
    netrev.ask("stepi 7")
    netrev.ask("print 1")
    assert netrev.sent == [["print 1", "print 2"], ["stepi 7"], ["print 1"]]


def test_a_query_is_sent_again_only_after_another_line() -> None:
    netrev = Scripted()
    assert netrev.ask_all(["print 1", "print 2", "print 1"]) == ["clock = 1", "clock = 2", "clock = 1"]
    assert netrev.ask_all(["print 3", "print 2"]) == ["clock = 3", "clock = 2"]
    assert netrev.ask("print 1") == Reply("clock = 1")
    netrev.ask("stepi")
    netrev.ask("print 2")
    assert netrev.sent == [["print 1", "print 2"], ["print 3"], ["stepi"], ["print 2"]]


def test_a_fault_is_asked_for_again() -> None:
    netrev = WithoutMemory()
    netrev.ask("print 1")
    netrev.ask("print 1")
    assert netrev.sent == [["print 1"], ["print 1"]]


def test_each_query_is_sent_in_a_session_that_others_move() -> None:
    netrev = ServedSession()
    netrev.ask("print 1")
    netrev.ask_all(["print 1", "print 1"])
    assert netrev.sent == [["print 1"], ["print 1", "print 1"]]


def test_its_end_is_told_at_the_line_that_met_it() -> None:
    for last, wrong in (("print end", NetrevEndedError), ("print strange", StrangeReplyError)):
        netrev = Scripted()
        netrev.ask_ahead(["print 1", last, "print 2"])
        assert netrev.ask("print 1") == Reply("clock = 1")
        with pytest.raises(wrong):
            netrev.ask(last)
        with pytest.raises(NetrevEndedError):  # (a reply is left unread)
            netrev.ask("print 2")


def test_nothing_is_answered_when_the_session_is_given_up() -> None:
    netrev = Scripted()
    netrev.ask_ahead(["print 1", "print 2"])
    with pytest.raises(SessionAbandonedError):
        netrev._interrupts.give_up()
    with pytest.raises(SessionAbandonedError):
        netrev.ask("print 1")


SHOWN = "(netrev) print 1\nclock = 1\n(netrev) p 2\nclock = 2\n"


def test_a_run_is_shown_as_its_lines_are_alone_and_goes_out_at_once() -> None:
    session, out = session_with(Scripted())
    assert answer_run(session, ["print 1", "p 2"])
    assert out.flushed == [SHOWN]
    alone, out_alone = session_with(Scripted())
    assert all(answer_run(alone, [line]) for line in ("print 1", "p 2"))
    assert out_alone.getvalue() == SHOWN


def test_what_came_before_the_end_is_out() -> None:
    session, out = session_with(Scripted())
    with pytest.raises(NetrevEndedError):
        answer_run(session, ["print 1", "p 2", "print end"])
    assert out.flushed[-1] == f"{SHOWN}(netrev) print end\n"


def pieces(texts: Sequence[bytes]) -> Iterator[list[str]]:
    """The results for these texts, each of which is written when the lines of the previous text have been read."""
    reader, writer = os.pipe()
    taken = threading.Semaphore(1)

    def write() -> None:
        for text in texts:
            taken.acquire()
            os.write(writer, text)
        taken.acquire()
        os.close(writer)

    thread = threading.Thread(target=write)
    thread.start()
    with open(reader, encoding="utf-8", errors="surrogateescape") as stream:
        for lines in lines_together(stream):
            yield lines
            taken.release()
    thread.join()


def test_lines_that_come_together() -> None:
    assert list(pieces([b"print 1\nprint 2 \r\n", b"\xff\rstepi\n"])) == [["print 1", "print 2"], ["\udcff", "stepi"]]


def test_a_line_alone_is_not_kept_for_the_next() -> None:
    assert list(pieces([b"print 1\n", b"print 2\n"])) == [["print 1"], ["print 2"]]


def test_the_last_line_may_have_no_end() -> None:
    assert list(lines_of(b"a\nb")) == ["a", "b"]
    assert list(lines_of(b"")) == []
    assert list(lines_of(b"a\n\n")) == ["a", ""]


def test_as_python_reads_them() -> None:
    for text in (b"a\rb\r\nc\n\rd", b"\xc3\xa9" * 9_000 + b"\n" + b"x" * 40_000, b"a\r", b"\r\n\xe2\x82"):
        plain = io.TextIOWrapper(io.BytesIO(text), encoding="utf-8", errors="surrogateescape")
        assert list(lines_of(text)) == list(map(str.rstrip, plain)), text[:20]


def test_a_stream_without_bytes() -> None:
    assert list(lines_together(io.StringIO("a \nb"))) == [["a"], ["b"]]


def lines_of(text: bytes) -> Iterator[str]:
    with tempfile.TemporaryFile() as file:
        file.write(text)
        file.seek(0)
        with open(os.dup(file.fileno()), encoding="utf-8", errors="surrogateescape") as stream:
            for lines in lines_together(stream):
                yield from lines
