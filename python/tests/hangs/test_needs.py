"""What goroutines need, in recordings of tools/go/samples/turns, some of which are changed: each rule says nothing if
it doesn't apply."""

import re
from typing import Any

from netrev.findings.evidence.call_words import result_words
from netrev.findings.evidence.past_tense import in_the_past
from netrev.findings.evidence.siblings import odd_goroutines
from netrev.findings.evidence.waiters import waiters_at
from netrev.findings.pools.balances import balances_of, give_back, has_ended
from netrev.findings.streams.ends_of_reads import bound_sentence, end_sentence
from netrev.findings.streams.exchanges import unanswered, unasked
from netrev.findings.streams.failed_dials import failed_dials
from netrev.findings.streams.unaccepted_connections import unaccepted
from netrev.findings.streams.unread_bytes import unread
from netrev.recording.call import Call
from netrev.recording.goroutines import FOR_VALUE, PUT, TOOK, At, GoGoroutine, Object, ObjectUse, Park, Timer
from netrev.recording.recording import Recording
from netrev.recording.waits import Name
from netrev.recording.where import OF_THE_PROGRAM
from netrev.recording.where import SourceCall as LineCall
from netrev.recording.where import SourceLines, Stack
from netrev.run.index import run_of
from netrev_go.log.points import Point, PointKind
from netrev_go.log.socket_facts import Beside
from tests.failed_calls.test_causes import CAUSED, GETS, TWO_ENDS, UNLOCKS, with_lines


def line(number: int, function: str, file: str = "bank.go") -> LineCall:
    return LineCall(f"main.{function}", file, number, OF_THE_PROGRAM)


def use(goid: int, what: str, stack: int, often: int = 1, begin: int = 0, number: int = 1) -> ObjectUse:
    return ObjectUse(number, goid, what, stack, often, 1, 1, begin, begin)


def stored(name: str) -> Recording:
    return Recording.read(str(CAUSED / f"{name}.jsonl"))


def recording_of(*uses: ObjectUse, room: int = 2) -> Recording:
    """A recording in which stack 1 takes a value in `borrow`, stack 2 puts one back in `borrow`, and stack 3 fills
    the channel."""
    recording = with_lines(TWO_ENDS)
    lines = recording.lines
    outer = line(9, "main")
    for number, inner in ((1, line(3, "borrow")), (2, line(7, "borrow")), (3, line(20, "fill"))):
        lines.stacks[number] = Stack((inner, outer), None)
    lines.objects[1], lines.uses[1] = Object(1, "channel", room), list(uses)
    for goid in (4, 5):
        lines.goroutines[goid] = GoGoroutine(goid, -1, None, 0, 0, 3, 0, 0)
    return recording


def test_what_is_given_back_too_often_and_never() -> None:
    recording = recording_of(
        use(1, PUT, 3, 2), use(4, TOOK, 1, 3, 1), use(4, PUT, 2, 4, 2), use(5, TOOK, 1, 3, 1), use(5, PUT, 2, 1, 2)
    )
    found = {balance.name.number: balance.missing for balance in balances_of(recording, 1, {})}
    assert found == {4: -1, 5: 2}
    assert has_ended(recording, Name(4, True))


def test_a_call_that_has_one_has_kept_none() -> None:
    recording = recording_of(use(4, TOOK, 1, 3, 1), use(4, PUT, 2, 2, 2))
    now = {Name(4, True): Stack((line(5, "borrow"), line(9, "main")), None)}
    (balance,) = balances_of(recording, 1, now)
    assert (balance.missing, balance.has_value) == (0, True)
    (ended,) = balances_of(recording, 1, {})
    assert ended.missing == 1


def test_a_queue_into_which_some_jobs_come_again_is_no_pool() -> None:
    assert not give_back(balances_of(recording_of(use(4, TOOK, 1, 9, 1), use(4, PUT, 2, 2, 2)), 1, {}))
    assert give_back(balances_of(recording_of(use(4, TOOK, 1, 4, 1), use(4, PUT, 2, 2, 2)), 1, {}))


def test_those_who_only_put_or_only_take_have_none() -> None:
    assert balances_of(recording_of(use(1, PUT, 3, 2), use(4, TOOK, 1, 3)), 1, {}) == []


def test_one_of_three_that_passed_other_lines() -> None:
    recording = recording_of(use(3, PUT, 2), use(4, PUT, 2), use(5, PUT, 3))
    assert odd_goroutines(recording, [3, 4, 5]) == ([5], line(7, "borrow"))
    assert odd_goroutines(recording, [3, 4]) is None


def test_a_server_that_reads_on_lacks_no_request() -> None:
    index = run_of(stored("unflushed-bad"))
    text = [
        unasked(index, call)
        for call in index.calls
        if call.name == "Read" and not call.last and not index.is_listening(call)
    ]
    assert sorted(map(len, text)) == [0, 1]


def test_a_request_that_is_answered() -> None:
    index = run_of(stored("longer-bad"))
    reads = [call for call in index.by_goroutine[0] if call.name == "Read" and index.other_end(call.socket) is not None]
    other = index.other_end(reads[-1].socket)
    assert other is not None
    assert len(unanswered(index, reads[-1], other, index.recording.length)) == 1
    assert unanswered(index, reads[-2], other, reads[-2].last) == []


def test_what_a_read_looks_for() -> None:
    index = run_of(stored("relay-bad"))
    waiting = [waiter.call for waiter in waiters_at(index, index.recording.length).values() if waiter.call]
    words = [says for call in waiting for says in end_sentence(index, call, 1, index.recording.length)]
    assert "io.Copy has met no end of the stream: nobody has closed socket 1 for writing." in words


def test_up_to_where_functions_read() -> None:
    copy, read = "io.copyBuffer", "net.(*conn).Read"
    for functions, words in (
        (
            {"io.ReadAll", read},
            "io.ReadAll reads to the end of the stream: nobody has closed socket 4 for writing.",
        ),
        ({copy, read}, "io.Copy reads to the end of the stream: nobody has closed socket 4 for writing."),
        (
            {copy, "internal/poll.Splice"},
            "io.Copy has met no end of the stream: nobody has closed socket 4 for writing.",
        ),
        (
            {"io.CopyN", copy, "io.(*LimitedReader).Read", read},
            "io.CopyN reads a number of bytes, which haven't all come.",
        ),
        ({"io.CopyN", copy, "internal/poll.Splice"}, "io.CopyN reads a number of bytes, which haven't all come."),
        ({copy, "io.(*LimitedReader).Read", read}, ""),
        (
            {"io.ReadAll", "io.(*LimitedReader).Read", read},
            "io.ReadAll reads to the end of the stream, or up to a limit: nobody has closed socket 4 for writing.",
        ),
        ({"io.ReadAtLeast", read}, ""),
    ):
        assert bound_sentence(functions, 4) == words, (words, sorted(functions))


def test_bytes_that_nobody_reads() -> None:
    index = run_of(with_lines([*TWO_ENDS, *put(0, "6869")]))
    assert [(item.bytes, item.socket) for item in unread(index, index.recording.length)] == [(2, 1)]
    index.recording.lines.bytes = 2
    assert list(unread(index, index.recording.length)) == []


def put(goroutine: int, text: str) -> list[Any]:
    """Goroutine g writes to socket g."""
    g = goroutine
    return [["rwlock", g, g, "w"], ["pollreset", g, g, "w"], ["syswrite", g, g, text], ["rwunlock", g, g, "w"]]


def waiting(recording: Recording) -> Call:
    """The Read on a connection whose other end isn't known."""
    index = run_of(recording)
    calls = [waiter.call for waiter in waiters_at(index, recording.length).values() if waiter.call]
    (call,) = [call for call in calls if index.other_end(call.socket) is None]
    return call


def test_one_that_nobody_has_accepted() -> None:
    recording = stored("queued-bad")
    call = waiting(recording)
    need = unaccepted(run_of(recording), call, recording.length)
    assert need is not None
    assert re.search(
        r"^Nobody has accepted its connection: goroutine 1, which accepts at main.go:\d+ in queued.func1, is in Read",
        need.says[0],
    )
    ends = dict(recording.lines.ends)
    recording.lines.ends.clear()
    need = unaccepted(run_of(recording), call, recording.length)
    assert need is not None
    assert need.says[0].startswith("Perhaps nobody has accepted its connection"), need.says
    own, other = ends[call.socket]
    recording.lines.ends.update({**ends, 99: (other, own)})
    assert unaccepted(run_of(recording), call, recording.length) is None


def test_names_of_ends_are_numbered() -> None:
    beside = Beside()
    for socket, own, other in ((1, 700, 800), (2, 900, 800), (3, 800, 700)):
        beside.named(socket, Point(1, PointKind.NAMED, 1, 0, own, other, 0, 0, 0))
    assert (beside.ends, beside.peers) == ([(1, 1, 2), (2, 3, 2), (3, 2, 1)], [(1, 3)])
    steps = len(TWO_ENDS)
    lines = SourceLines(f'{{"where":2,"steps":{steps}}}\n{{"ends":[[1,1,2],[3,2,1]]}}', steps)
    assert (lines.fault, lines.ends) == ("", {1: (1, 2), 3: (2, 1)})
    assert SourceLines(f'{{"where":2,"steps":{steps}}}\n{{"ends":[[1,"1",2]]}}', steps).fault


def test_dials_that_fail() -> None:
    text = [cause.says for cause in failed_dials(run_of(stored("undone-bad")))]
    assert len(text) == 1
    assert re.search(r"^Dial at main.go:\d+ in .* failed: socket \d+ was never connected\.$", text[0][0])
    assert list(failed_dials(run_of(stored("uncounted-bad")))) == []


def test_a_ticker_goes_on_and_a_timer_that_is_to_go_off_later() -> None:
    """A timer that has gone off doesn't count."""
    for function, due, waits in (("time.NewTicker", 5, 0), ("time.NewTimer", 500, 0), ("time.NewTimer", 5, 1)):
        recording = with_lines(TWO_ENDS)
        lines = recording.lines
        lines.stacks[2] = Stack((LineCall(function, "time/tick.go", 1, "go"), line(3, "main")), None)
        lines.parks[9] = [Park(9, 1, -1, 100, -1, "a value from a channel", 2, 0, (At(4, FOR_VALUE),))]
        lines.timers[4] = [Timer(4, 9, 2, 1, 1, due)]
        found = waiters_at(run_of(recording), recording.length)
        assert sum(item.wait is not None for item in found.values()) == waits, (function, due)


def test_what_was() -> None:
    assert (
        in_the_past("It needs bytes; it sleeps at a.go:3 for 1 s, it is now in a call")
        == "It needed bytes; it slept at a.go:3 for 1 s, it was then in a call"
    )


def test_bytes_that_are_cut() -> None:
    recording = with_lines([*TWO_ENDS, *GETS, *UNLOCKS])
    call = next(call for call in run_of(recording).calls if call.name == "Read")
    assert result_words(recording, call) == "got 2 bytes"
    recording.lines.bytes = 2
    assert result_words(recording, call) == "got at least 2 bytes"
