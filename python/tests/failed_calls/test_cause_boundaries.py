"""The rules of causes at their boundaries: a row for each side of a boundary, with a few lines of source and made-up
calls and waits."""

from types import SimpleNamespace as Made
from typing import Any, cast

import pytest

from netrev.findings.causes import leftovers  # fmt: skip
from netrev.findings.datagrams import cut_datagrams  # fmt: skip
from netrev.findings.evidence.need import Certainty

from netrev.findings.hangs import missing_cases, needs_elsewhere, wait_graph  # fmt: skip
from netrev.findings.http import requests as http_requests  # fmt: skip
from netrev.findings.locks import group_counts, groups, new_readers  # fmt: skip
from netrev.findings.source import functions as source_functions
from netrev.findings.source import locks

from netrev.findings.source import package as package_source  # fmt: skip
from netrev.findings.streams import unused_sockets  # fmt: skip
from netrev.recording.call import OPEN
from netrev.recording.goroutines import FOR_ROOM, FOR_VALUE
from netrev.recording.waits import Name
from netrev.recording.where import OF_GO, OF_THE_PROGRAM, SourceCall
from netrev.run.index import RunIndex

Patch = pytest.MonkeyPatch


def line_of(number: int, function: str = "main.serve", file: str = "a.go", of: str = OF_THE_PROGRAM) -> SourceCall:
    return SourceCall(function, file, number, of)


def stacks(*calls: SourceCall) -> Any:
    """A recording in which each step has these calls of the program."""
    return Made(lines=Made(of=lambda step: Made(own=lambda: list(calls), calls=list(calls))))


@pytest.mark.parametrize(
    "lines, number, end",
    [
        (["f(func() {", "\tg()", "})"], 1, 3), (["f(func() {", "\tg()", "})", "h()"], 1, 3), (["f(func() {", "\tg()", ""], 1, 0),
        (["f(func() {", "\tg()"], 1, 0), (["f()", "\tgo func() { // run", "\t\tg()", "\t}()"], 2, 4), (["f() // func() {", "})"], 1, 0),
        (["f(func() { g() })", "h()"], 1, 0),
    ],
)  # fmt: skip
def test_the_last_line_of_a_function_literal(lines: list[str], number: int, end: int) -> None:
    assert locks.end_of_literal(tuple(lines), number) == end


@pytest.mark.parametrize(
    "text, is_whole",
    [
        ("f(func() { g() })", True), ("f(func() { g() }) // {", True), ("f(func() {", False), ("f(func() { // }", False),
        ("f(func())", False), ("g() // func() {}", False), ("g() {}", False),
    ],
)  # fmt: skip
def test_a_function_literal_of_one_line(text: str, is_whole: bool) -> None:
    assert source_functions.is_literal_of_one_line(text) is is_whole


@pytest.mark.parametrize(
    "statements, next_one",
    [("f9 f10 f12", 10), ("f12 f11", 11), ("f9 g11", None), ("f9 g10 f13", 13), ("", None)],
)
def test_the_next_go_statement_of_the_function_that_added(statements: str, next_one: int | None) -> None:
    kinds = [Made(statement=line_of(int(word[1:]), word[0])) for word in statements.split()]
    recording = Made(lines=Made(stacks={4: Made(own=lambda: [line_of(10, "f")])}))
    found = group_counts.next_after(cast(Any, recording), cast(Any, Made(added=[Made(stack=4)])), cast(Any, kinds))
    assert [kind.statement.line for kind in found] == ([next_one] if next_one else [])
    recording.lines.stacks[4] = Made(own=lambda: None)
    assert group_counts.next_after(cast(Any, recording), cast(Any, Made(added=[Made(stack=4)])), cast(Any, kinds)) == []


@pytest.mark.parametrize("until, moved", [(0, 0), (1, 7), (8, 7), (9, 9), (99, 9)])
def test_the_bytes_that_calls_of_a_name_moved_up_to_a_step(until: int, moved: int) -> None:
    rows = [("Read", 1, 7), ("Read", 9, 2), ("Read", 5, None), ("Read", 0, 40), ("Write", 3, 80)]
    calls = [Made(name=name, last=last, moved=count) for name, last, count in rows]
    index = cast(Any, Made(by_socket={3: calls}))
    assert RunIndex.moved(index, 3, "Read", until) == moved and RunIndex.moved(index, 4, "Read", until) == 0


@pytest.mark.parametrize(
    "text, is_last, when",
    [("\tdefer wg.Done()", False, " as it ends"), ("\twg.Done()", False, ""), ("\twg.Done()", True, " as it ends")],
)
def test_when_a_goroutine_calls_done(text: str, is_last: bool, when: str, monkeypatch: Patch) -> None:
    found = groups.DONE.search(text)
    other = groups.DONE.search("\tdefer wg.Done()")
    monkeypatch.setattr(groups, "found_in", lambda recording, call, pattern: [(3, other), (5, found)])
    monkeypatch.setattr(groups, "is_last_line", lambda recording, call, number: is_last)
    member = groups.Member(cast(Any, None), line_of(1), 5)
    assert groups.Groups._when(cast(Any, Made(_recording=None)), member) == when


@pytest.mark.parametrize(
    "goids, failed, odd, named",
    [
        ([5], [], [], ""), ([5], [5], [], "5"), ([5, 6], [], [], ""), ([5, 6], [6], [], "6"), ([5, 6], [5, 6], [], ""), ([5, 6, 7], [5, 7], [], "5 and 7"),
        ([5, 6, 7], [5], [[6], [7]], "6"),
    ],
)  # fmt: skip
def test_goroutines_that_ended_without_done(
    goids: list[int], failed: list[int], odd: list[list[int]], named: str, monkeypatch: Patch
) -> None:
    monkeypatch.setattr(groups, "odd_goroutines", lambda recording, goids: odd)
    monkeypatch.setattr(groups, "lines_words", lambda recording, some, others: "")
    monkeypatch.setattr(groups, "name_of_goid", lambda lines, goid: str(goid))
    monkeypatch.setattr(groups, "of_names", lambda names: " and ".join(names))
    own = Made(_recording=Made(lines=None), _failed_dial=lambda goid: "its Dial failed" if goid in failed else "")
    says = groups.Groups._ended_words(cast(Any, own), line_of(4), goids)
    assert ("All " in says[0]) is (len(goids) > 1)
    dial = "; its Dial failed" if named and int(named[0]) in failed else ""
    assert says[1:] == ([f"Perhaps {named} ended without Done{dial}."] if named else [])


@pytest.mark.parametrize("closes, closed", [((), None), ((9,), None), ((10,), 10), ((12, 15), 12)])
def test_the_close_after_a_request_was_cancelled(
    closes: tuple[int, ...], closed: int | None, monkeypatch: Patch
) -> None:
    monkeypatch.setattr(http_requests, "timer_of", lambda recording, request, close: None)
    monkeypatch.setattr(http_requests, "name_of_goid", lambda lines, goid: goid)
    calls = [Made(name="Close", socket=socket, first=step) for step in closes for socket in (8, 2)]
    calls.append(Made(name="Read", socket=2, first=11))
    name = Name(1)
    index = Made(recording=Made(lines=Made(stacks={0: None})), calls_of={name: calls}.get)
    every = [Made(goid=7, time=time, name=name, socket=socket) for time, socket in ((3, 4), (5, 2), (20, 6))]
    close = Made(begin=20, last=9, goid=1, stack=0)
    found = list(http_requests.cancelled(cast(Any, index), cast(Any, every), cast(Any, Made(goid=7)), cast(Any, close)))
    assert [(cancel.closed.first, cancel.request) for cancel in found] == ([(closed, every[1])] if closed else [])


def test_the_function_of_the_program_that_makes_a_call() -> None:
    call = cast(Any, Made(first=3))
    for calls, place in (
        ((line_of(4, "f"), line_of(9, "g")), ("f", 4)),
        ((), ("", 0)),
        ((line_of(4, of=OF_GO),), ("", 0)),
    ):
        assert tuple(leftovers.place_of_function(stacks(*calls), call)) == place


@pytest.mark.parametrize(
    "change, reader",
    [
        ({}, "reader"), ({"is_goid": True}, None), ({"is_new": False}, None), ({"is_for_values": False}, None), ({"is_dialed": False}, None),
        ({"wrote": "Read"}, None), ({"wrote_last": 0}, None), ({"reads": "Write"}, None), ({"socket": 4}, None), ({"is_asking": True}, None),
    ],
)  # fmt: skip
def test_a_reader_of_answers_for_a_goroutine_that_wrote(
    change: dict[str, Any], reader: str | None, monkeypatch: Patch
) -> None:
    usual: dict[str, Any] = {
        "is_goid": False, "is_new": True, "is_for_values": True, "is_dialed": True, "wrote": "Write", "wrote_last": 6, "reads": "Read",
        "socket": 3, "is_asking": False,
    }  # fmt: skip
    case = Made(**(usual | change))
    monkeypatch.setattr(needs_elsewhere, "is_for_values", lambda wait: case.is_for_values)
    monkeypatch.setattr(needs_elsewhere, "is_dialed", lambda index, socket: case.is_dialed and socket == 3)
    monkeypatch.setattr(needs_elsewhere, "back", lambda calls, step: iter(calls))
    wrote = Made(name=case.wrote, last=case.wrote_last, socket=3)
    reading = Made(name="reader", call=Made(name=case.reads, socket=case.socket, is_asking=case.is_asking))
    own = Made(
        _channels=Made(is_new=lambda wait: case.is_new), _index=Made(by_goroutine={1: [wrote]}),
        _waiters={0: Made(name="other", call=None), 1: reading},
    )  # fmt: skip
    wait = Made(name=Made(is_goid=case.is_goid, number=1), first=9)
    assert needs_elsewhere.NeedsElsewhere._reader_for(cast(Any, own), cast(Any, wait)) == reader


@pytest.mark.parametrize("line, inside", [(3, ""), (4, ""), (5, "first"), (6, "first last"), (7, "first last")])
def test_the_types_of_a_function_s_variables(line: int, inside: str) -> None:
    lines = (
        "type server struct {", "}", "func (s *server) run(c net.Conn, n, m int) {", "\tfirst := &reader{} // {", "\tlast := pool{}",
        "\tuse(first) // other := pool{}", "}",
    )  # fmt: skip
    made = {"first": "reader", "last": "pool"}
    types = {"s": "server", "c": "net.Conn", "n": "int", "m": "int"} | {name: made[name] for name in inside.split()}
    assert package_source.variables_of(cast(Any, None), lines, line_of(line)) == types
    assert package_source.variables_of(cast(Any, None), lines, line_of(2)) == {}


def test_connections_that_a_goroutine_has_dialed_since_and_never_used(monkeypatch: Patch) -> None:
    index = cast(Any, Made(recording=Made(lines=Made(of=lambda step: step)), by_goroutine={1: [
        Made(name=name, first=step, socket=socket)
        for name, step, socket in ((OPEN, 5, 2), (OPEN, 6, 3), (OPEN, 7, 4), (OPEN, 8, 5), ("Read", 9, 3), (OPEN, 10, 6), (OPEN, 11, 7))
    ]}))  # fmt: skip
    monkeypatch.setattr(unused_sockets, "is_dialed", lambda given_index, socket: given_index is index and socket != 4)
    monkeypatch.setattr(unused_sockets, "is_used", lambda given_index, socket: given_index is index and socket == 5)
    monkeypatch.setattr(
        unused_sockets, "place_in", lambda step: "" if step == 11 else " at a.go:1" if step < 10 else " at a.go:2"
    )
    sentences = unused_sockets.unused_since(index, cast(Any, Made(goroutine=1)), 5)
    assert sentences == [
        "Goroutine 1 has dialed since at a.go:1, and never used socket 3.",
        "Goroutine 1 has dialed since at a.go:2, and never used socket 6.",
    ]


@pytest.mark.parametrize(
    "change, is_idle",
    [
        ({}, True), ({"call": None}, False), ({"reads": "Write"}, False), ({"is_kept": False}, False), ({"last": "Read"}, False),
        ({"by": 2}, False), ({"first": "Write"}, False), ({"certainty": Certainty.PERHAPS}, False), ({"none": True}, False),
    ],
)  # fmt: skip
def test_a_goroutine_that_has_answered_and_reads_where_nothing_may_come(
    change: dict[str, Any], is_idle: bool, monkeypatch: Patch
) -> None:
    usual = {
        "reads": "Read", "is_kept": True, "first": "Read", "last": "Write", "by": 1, "certainty": Certainty.KNOWN,
        "none": False,
    }  # fmt: skip
    case = Made(**(usual | change))
    calls = [
        Made(name=case.first, goroutine=1, last=3, moved=4), Made(name="Read", goroutine=2, last=4, moved=4),
        Made(name=case.last, goroutine=case.by, last=5, moved=4), Made(name="Read", goroutine=1, last=0, moved=4),
        Made(name="Read", goroutine=1, last=6, moved=0), Made(name="Control", goroutine=1, last=7, moved=1),
    ]  # fmt: skip
    monkeypatch.setattr(wait_graph, "run_of", lambda recording: Made(by_socket={3: [] if case.none else calls}))
    call = None if "call" in change else Made(name=case.reads, socket=3, goroutine=1)
    own = Made(
        waiters={"a": Made(call=call)},
        recording=None,
        needs={"a": Made(certainty=case.certainty), "b": Made(is_kept=case.is_kept)},
    )
    assert bool(wait_graph.WaitGraph._is_idle(cast(Any, own), cast(Any, "a"), cast(Any, "b"))) is is_idle


def hang(**change: Any) -> Any:
    usual = {
        "is_deadlock": True, "certainty": Certainty.KNOWN, "until": 0, "roots": [Made(call=Made(name="Read"))], "has_reason": True,
        "waiting": 2, "needs": [Made(is_odd=False)], "is_of_go": False, "is_quiet": False, "root": Made(since=7),
    }  # fmt: skip
    return Made(**(usual | change))


ACCEPT, NO_CALL = [Made(call=Made(name="Accept"))], [Made(call=None)]
READ_AND_MORE = [Made(call=Made(name="Read")), Made(call=Made(name="Accept"))]


@pytest.mark.parametrize(
    "change, rank",
    [
        ({}, 0), ({"has_reason": False}, 2), ({"has_reason": False, "roots": ACCEPT}, 0), ({"has_reason": False, "roots": NO_CALL}, 0),
        ({"has_reason": False, "roots": READ_AND_MORE}, 0), ({"certainty": Certainty.PERHAPS}, 1), ({"until": 5}, 1),
        ({"is_deadlock": False}, 1), ({"is_deadlock": False, "waiting": 0}, 3), ({"is_deadlock": False, "waiting": 1}, 1),
        ({"is_deadlock": False, "waiting": 0, "needs": [Made(is_odd=True)]}, 1), ({"is_deadlock": False, "has_reason": False}, 3),
        ({"certainty": Certainty.PERHAPS, "has_reason": False}, 3),
    ],
)  # fmt: skip
def test_the_order_of_hangs(change: dict[str, Any], rank: int) -> None:
    assert wait_graph.order(hang(**change)) == (False, False, rank, -change.get("waiting", 2), 7)


@pytest.mark.parametrize(
    "moved, is_asking",
    [
        ([("Write", 1)], True), ([], False), ([("Write", 2)], False), ([("Read", 1)], False), ([("Write", 1), ("Read", 1), ("Write", 1)], True),
        ([("Read", 1), ("Write", 1)], False), ([("Write", 1), ("Read", 1)], False), ([("Write", 1), ("Write", 2)], False),
        ([("Write", 2), ("Write", 1)], True),
    ],
)  # fmt: skip
def test_a_goroutine_that_asked_and_waits_for_the_answer(moved: list[tuple[str, int]], is_asking: bool) -> None:
    calls = [Made(name=name, goroutine=g, last=3, moved=4, first=2) for name, g in moved]
    call = Made(socket=3, goroutine=1, first=9, name="Read")
    index = Made(by_socket={3: [*calls, Made(name="Read", goroutine=1, last=0, moved=0, first=9)]})
    assert bool(leftovers.is_asking(cast(Any, index), cast(Any, call))) is is_asking


@pytest.mark.parametrize(
    "line, within", [(1, range(1, 3)), (2, range(1, 3)), (3, None), (4, range(4, 7)), (5, range(4, 7)), (6, range(4, 7)), (7, range(7, 8)), (8, None)]
)  # fmt: skip
def test_the_lines_of_the_function_around_a_line(line: int, within: range | None) -> None:
    lines = ("func f() {", "}", "", "func g() {", "\tx()", "}", "func h() { y() }", "")
    assert source_functions.range_of(lines, line_of(line)) == within


@pytest.mark.parametrize(
    "size, requested, moved, cut",
    [(9, 8, 8, True), (8, 8, 8, False), (7, 8, 7, False), (9, 8, 7, False), (9, None, 8, False)],
)
def test_a_datagram_that_is_longer_than_the_buffer(
    size: int, requested: int | None, moved: int, cut: bool, monkeypatch: Patch
) -> None:
    read, wrote = Made(name="Read", moved=moved, last=6, first=5), Made(name="Write", moved=size, first=3, last=4)
    monkeypatch.setattr(cut_datagrams, "read_sizes_of", lambda recording: Made(of=lambda call: requested))
    monkeypatch.setattr(cut_datagrams, "size_of", lambda index, call: call.moved)
    monkeypatch.setattr(cut_datagrams, "is_datagram", lambda index, socket: socket == 3)
    monkeypatch.setattr(cut_datagrams, "sent_to", lambda index, socket: [wrote])
    index = cast(Any, Made(recording=None, by_socket={3: [wrote, read], 4: [read]}))
    assert [(cut_datagram.write, cut_datagram.read) for cut_datagram in cut_datagrams.cut_at(index, 3)] == (
        [(wrote, read)] if cut else []
    )
    assert not list(cut_datagrams.cut_at(index, 4))


def test_one_cause_for_each_line_that_read_cut_datagrams(monkeypatch: Patch) -> None:
    pairs = [Made(read=Made(first=step)) for step in (4, 5, 6, 7)]
    monkeypatch.setattr(cut_datagrams, "cut_datagrams", lambda index: pairs)
    monkeypatch.setattr(cut_datagrams, "cause_of", lambda index, pair, others: (pair.read.first, others))
    index = Made(recording=Made(lines=Made(of=lambda step: Made(own=lambda: "a.go:9" if step == 5 else "a.go:3"))))
    assert cut_datagrams.causes_of_cuts(cast(Any, index)) == [(4, 2), (5, 0)]


@pytest.mark.parametrize(
    "first, last, function, says",
    [(5, 9, "main.run", True), (6, 9, "main.run", False), (0, 0, "main.run", True), (-1, 9, "main.run", False), (5, 20, "main.run", True),
     (5, 21, "main.run", False), (5, -1, "main.run", False), (5, 9, "main.other", False)],
)  # fmt: skip
def test_all_goroutines_that_a_waiter_started_have_ended(first: int, last: int, function: str, says: bool) -> None:
    starter, none = line_of(4, function), Made(made=None, first=1, last=2)
    known = {7: none, 8: Made(made=starter, first=first, last=last)}
    own = Made(
        _recording=Made(lines=Made(goroutines=known)),
        _position=20,
        _ended_words=lambda starter, goids: [(starter, goids)],
    )
    waiter = Made(stack=Made(calls=[line_of(9, "sync.Wait", of=OF_GO), line_of(9, "main.run")]), since=5)
    assert groups.Groups._of_ended(cast(Any, own), cast(Any, waiter)) == ([(starter, [8])] if says else [])
    waiter.stack.calls[1] = line_of(9, "main.run", of=OF_GO)
    assert groups.Groups._of_ended(cast(Any, own), cast(Any, waiter)) == []


@pytest.mark.parametrize("count, step", [(0, 2), (1, 2), (2, 5), (4, 5), (5, None)])
def test_the_write_after_which_more_was_written_than_read(count: int, step: int | None, monkeypatch: Patch) -> None:
    monkeypatch.setattr(leftovers, "size_of", lambda index, call: call.moved)
    calls = [Made(name="Read", first=1, moved=9), Made(name="Write", first=2, moved=2), Made(name="Read", first=3, moved=9), Made(name="Write", first=5, moved=3)]  # fmt: skip
    found = leftovers.first_beyond(cast(Any, Made(by_socket={3: calls})), 3, count)
    assert (found.first if found else None) == step


@pytest.mark.parametrize(
    "objects, serves, own, says",
    [(1, True, True, "waits since step 4, and for nothing else: the end of the request's context doesn't end that."), (2, True, True, "waits since step 4."),
     (1, False, True, ""), (1, True, False, ""), (None, True, True, "")],
)  # fmt: skip
def test_a_handler_whose_client_has_gone(
    objects: int | None, serves: bool, own: bool, says: str, monkeypatch: Patch
) -> None:
    wait = Made(stack=Made(own=lambda: own), first=4, objects=[None] * (objects or 0)) if objects else None
    monkeypatch.setattr(leftovers, "waits_of", lambda recording: Made(at=lambda name, position: wait))
    monkeypatch.setattr(leftovers, "contains", lambda stack, function: serves)
    monkeypatch.setattr(leftovers, "waits_words", lambda wait: "waits")
    found = leftovers.serves_on(cast(Any, Made(length=9)), cast(Any, Made(goroutine=2)))
    assert found == ([f"Goroutine 2, which serves it, {says}"] if says else [])


@pytest.mark.parametrize(
    "mine, name, use, function, lacks",
    [(8, 4, FOR_VALUE, "main.(*hub).other", True), (9, 4, FOR_VALUE, "main.(*hub).other", False), (8, 1, FOR_VALUE, "main.(*hub).other", False),
     (8, 2, FOR_VALUE, "main.(*hub).other", False), (8, 4, FOR_ROOM, "main.(*hub).other", False), (8, 4, FOR_VALUE, "main.(*hub).run", False),
     (8, 4, FOR_VALUE, "main.(*pool).other", False)],
)  # fmt: skip
def test_a_case_that_a_select_lacks(
    mine: int, name: int, use: str, function: str, lacks: bool, monkeypatch: Patch
) -> None:
    def waiting(number: int, starter: str, *at: Any) -> Any:
        return Made(name=number, objects=at, stack=Made(own=lambda: (line_of(3, starter), "")))

    wait = waiting(1, "main.(*hub).run", Made(object=mine, use=FOR_VALUE))
    other = waiting(name, function, Made(object=7, use=FOR_VALUE), Made(object=9, use=use))
    closed = Made()
    monkeypatch.setattr(missing_cases, "closed_by", lambda recording, by: {9: closed} if by == 2 else {})
    monkeypatch.setattr(missing_cases, "waits_of", lambda recording: Made(of={0: [other]}))
    found = missing_cases.lacking_of(cast(Any, None), wait, cast(Any, Made(name=2)))
    assert found == ((closed, other) if lacks else None)
    assert missing_cases.lacking_of(cast(Any, None), wait, cast(Any, Made(name=3))) is None


@pytest.mark.parametrize(
    "change, says",
    [
        ({}, True), ({"buffered": "first last"}, False), ({"buffered": ""}, False), ({"now": None}, False), ({"now": 20}, False),
        ({"now": 19}, False), ({"now": 21}, True), ({"function": "main.other"}, False), ({"of": OF_GO}, False), ({"made": 0}, False),
    ],
)  # fmt: skip
def test_a_read_that_passes_by_a_reader_with_a_buffer(change: dict[str, Any], says: bool, monkeypatch: Patch) -> None:
    usual = {"buffered": "last", "now": 0, "function": "main.run", "of": OF_THE_PROGRAM, "made": 7}
    case = Made(**(usual | change))
    monkeypatch.setattr(new_readers, "is_buffered", lambda stack: stack.name in case.buffered.split())
    monkeypatch.setattr(new_readers, "maker_line", lambda index, frame: case.made)
    monkeypatch.setattr(new_readers, "text_of_call", lambda recording, call: "it")
    monkeypatch.setattr(new_readers, "lost_with", lambda index, file, maker, read, last, why: f"{file}:{maker}, {why}")
    stacks = {
        9: Made(name="first", calls=[line_of(9, "main.run.func1"), line_of(9, "os.f", of=OF_GO)]),
        5: Made(name="last", calls=[line_of(9, "bufio.f", of=OF_GO), line_of(9, case.function, of=case.of)]),
    }
    now = None if case.now is None else Made(last=case.now)
    index = Made(recording=Made(lines=Made(of=stacks.get)), last_use=lambda other, position, names: now)
    call, read = cast(Any, Made(first=9)), cast(Any, Made(first=5))
    found = new_readers.past_a_reader(cast(Any, index), call, 4, read, 20)
    assert found == (["a.go:7, it doesn't read from that"] if says else [])


@pytest.mark.parametrize(
    "of, at_once, more, goroutine, says",
    [(OF_THE_PROGRAM, True, True, 1, True), (OF_GO, True, True, 1, False), (OF_THE_PROGRAM, False, True, 1, False),
     (OF_THE_PROGRAM, True, False, 1, False), (OF_THE_PROGRAM, True, True, 2, False)],
)  # fmt: skip
def test_a_reader_that_no_variable_keeps(
    of: str, at_once: bool, more: bool, goroutine: int, says: bool, monkeypatch: Patch
) -> None:
    for name, value in (
        ("past_a_reader", []), ("is_buffered", True), ("own_reader", 0), ("may_have_more", more), ("is_of_one_statement", at_once),
    ):  # fmt: skip
        monkeypatch.setattr(new_readers, name, lambda *rest, value=value: value)
    monkeypatch.setattr(new_readers, "lost_with", lambda index, file, line, read, last, why: f"{file}:{line}, {why}")
    read = Made(name="Read", moved=4, first=3, last=5, goroutine=goroutine)
    stacks = {3: Made(calls=[line_of(9, "main.ask", of=of)]), 8: Made(calls=[line_of(7, "main.ask")])}
    index = Made(
        recording=Made(lines=Made(of=stacks.get)),
        by_socket={2: [read]},
        last_use=lambda other, position, names: Made(first=2),
    )
    found = new_readers.left_reader(cast(Any, index), cast(Any, Made(first=8, socket=2, goroutine=1)), 4, 20)
    assert found == (["a.go:9, no variable keeps it"] if says else [])
