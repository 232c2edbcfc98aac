"""Tests the rules that find what a goroutine needs, and their texts, at each boundary. A table has a row for each side
of a boundary, with made-up calls and waits."""

from types import SimpleNamespace as Made
from typing import Any, cast

import pytest

from netrev.findings.causes import first_output, tables  # fmt: skip
from netrev.findings.datagrams import datagrams  # fmt: skip
from netrev.findings.evidence.need import Certainty, Need

from netrev.findings.handovers import dropped_answers  # fmt: skip
from netrev.findings.hangs import hang_words, needs, needs_elsewhere  # fmt: skip
from netrev.findings.http import cancellations  # fmt: skip
from netrev.findings.pools import leaking_paths  # fmt: skip
from netrev.findings.streams import ends_of_reads, failed_dials, unpassed_ends, unread_bytes  # fmt: skip
from netrev.recording.call import CLOSE, OPEN
from netrev.recording.goroutines import ENDED, FOR_ROOM, FOR_VALUE, PUT, TOOK, ObjectUse
from netrev.recording.waits import Name
from netrev.recording.where import OF_GO, OF_THE_PROGRAM, SourceCall, Stack
from tests.failed_calls.test_cause_boundaries import line_of
from tests.failed_calls.test_causes import TWO_ENDS, with_lines

Patch = pytest.MonkeyPatch
NOTHING = cast(Any, None)


@pytest.mark.parametrize(
    "need, own, by",
    [
        (Need([], Name(4), "", Certainty.PERHAPS), Name(5), Name(5)), (Need([], Name(4), "", Certainty.LIKELY), Name(5), Name(4)),
        (Need(["Why."]), Name(5), None), (Need([]), Name(5), Name(5)), (Need([], Name(4), "", Certainty.PERHAPS), None, Name(4)),
        (Need([]), None, None),
    ],
)  # fmt: skip
def test_its_own_reader_is_named_if_nothing_surer_is(
    need: Need, own: Name | None, by: Name | None, monkeypatch: Patch
) -> None:
    for name in ("timers_of_select", "without_receiver"):
        monkeypatch.setattr(needs_elsewhere, name, lambda *rest: [])
    monkeypatch.setattr(needs_elsewhere, "of_own_reader", lambda *rest: Need([], own) if own else None)
    whole = Made(
        _of=lambda waiter, wait: need,
        _index=None,
        _position=9,
        _recording=None,
        _channels=Made(besides=lambda wait: []),
    )
    assert needs_elsewhere.NeedsElsewhere.of(cast(Any, whole), NOTHING, NOTHING).by == by


def test_sentences_beside_those_of_a_need(monkeypatch: Patch) -> None:
    for name in ("timers_of_select", "without_receiver"):
        monkeypatch.setattr(needs_elsewhere, name, lambda *rest, name=name: [name])
    need = Need(["Why."], more=["more"])
    channels = Made(besides=lambda wait: ["besides"])
    whole = Made(_of=lambda waiter, wait: need, _index=None, _position=9, _recording=None, _channels=channels)
    found = needs_elsewhere.NeedsElsewhere.of(cast(Any, whole), NOTHING, NOTHING)
    assert found.says == ["Why."] and found.more == ["more", "timers_of_select", "besides", "without_receiver"]


@pytest.mark.parametrize(
    "change, count",
    [
        ({}, 3), ({"read": 5}, None), ({"read": 6}, None), ({"read": 4}, 1), ({"wrote_last": 0}, None), ({"calls": [("Read", 4, 0, 8)]}, None),
        ({"calls": [("Read", 4, 9, 8)]}, None), ({"calls": [("Read", 4, 20, 8)]}, 3), ({"calls": [("Read", 4, 21, 8)]}, None),
        ({"calls": [("Read", 3, 0, 8)]}, 3), ({"calls": [("Read", 4, 0, 21)]}, 3), ({"calls": [(CLOSE, 4, 9, 8)]}, None),
        ({"calls": [(CLOSE, 3, 9, 8)]}, None), ({"calls": [(CLOSE, 4, 22, 21)]}, 3), ({"of_go": True}, None), ({"known": False, "cut": True}, None),
        ({"known": False}, 3), ({"cut": True}, 3),
    ],
)  # fmt: skip
def test_bytes_that_nobody_reads(change: dict[str, Any], count: int | None, monkeypatch: Patch) -> None:
    case = Made(**({"read": 2, "wrote_last": 7, "calls": [], "of_go": False, "known": True, "cut": False} | change))
    case.calls = [item if item[2] != 9 or item[0] == CLOSE else (*item[:2], 25, item[3]) for item in case.calls]
    wrote = Made(name="Write", socket=3, first=5, last=case.wrote_last, goroutine=1)
    calls = [wrote, *(Made(name=n, socket=s, last=last, first=begin) for n, s, last, begin in case.calls)]
    moved = {(3, "Write"): 5, (4, "Read"): case.read}
    monkeypatch.setattr(unread_bytes, "moved_at", lambda index, socket, name, until: moved.get((socket, name), 0))
    monkeypatch.setattr(unread_bytes, "is_of_go", lambda recording, call: case.of_go)
    monkeypatch.setattr(unread_bytes, "are_known", lambda index: case.known)
    monkeypatch.setattr(unread_bytes, "is_cut", lambda recording, index, ends: case.cut)
    index = Made(
        recording=Made(lines=Made(peers={3: 4})),
        by_socket={s: [item for item in calls if item.socket == s] for s in (3, 4)},
        last_use=lambda socket, until, names: wrote,
    )
    found = [(item.write, item.bytes, item.socket) for item in unread_bytes.unread(cast(Any, index), 20)]
    assert found == ([(wrote, count, 4)] if count else [])


@pytest.mark.parametrize(
    "use, found",
    [
        ((3, 9), True), ((2, 9), False), ((9, 5), True), ((9, 6), False), ((9, 3), True), ((6, 7), False),
        ((2, 2), False),
    ],
)  # fmt: skip
def test_channels_that_a_goroutine_found_closed(use: tuple[int, int], found: bool) -> None:
    recording = with_lines(TWO_ENDS)
    recording.lines.stacks[4] = Stack((line_of(3, "main.look"),), None)
    recording.lines.uses[5] = [ObjectUse(5, 7, what, 4, 1, *use, 30, 40) for what in (ENDED, TOOK)]
    says = [
        (closed_channel.object, closed_channel.looker)
        for closed_channel in cancellations.found_closed(recording, 7, 3, 6)
    ]
    assert says == ([(5, "main.look")] if found else [])
    assert not list(cancellations.found_closed(recording, 8, 3, 6))


@pytest.mark.parametrize(
    "calls, expected",
    [
        ([line_of(0, "context.WithTimeout.func1", of=OF_GO)], ["timer"]), ([line_of(0, "time.goFunc", of=OF_GO)], []),
        ([line_of(0, "context.WithTimeout.func1", of=OF_GO), line_of(4)], []), ([], []), ([line_of(4)], []),
    ],
)  # fmt: skip
def test_a_limit_closes_a_channel_if_no_line_of_the_program_does(
    calls: list[SourceCall], expected: list[str], monkeypatch: Patch
) -> None:
    monkeypatch.setattr(cancellations, "limits_before", lambda recording, time, goid: ["timer"] if time == 8 else [])
    monkeypatch.setattr(cancellations, "OF_A_LIMIT", ("context.WithTimeout",))
    recording = Made(lines=Made(stacks={4: Stack(tuple(calls), None)}))
    assert cancellations.limits_of(cast(Any, recording), cast(Any, Made(stack=4, begin=8)), 7) == expected


@pytest.mark.parametrize(
    "socket, is_deadlock, look",
    [(3, False, "calls sock 3"), (3, True, "info goroutines"), (None, False, "info goroutines"), (None, True, "info goroutines")],
)  # fmt: skip
def test_what_to_type_after_a_hang(socket: int | None, is_deadlock: bool, look: str) -> None:
    roots = [Made(since=since, call=Made(socket=socket) if socket else None) for since in (5, 9, 7)]
    hang = cast(Any, Made(root=roots[0], roots=roots, is_deadlock=is_deadlock))
    assert hang_words.hang_queries(hang) == ["goto 9", look]


SELECTS = [
    "\tselect {", "\tcase <-quit:", "\t}", "\tselect {", "\tcase sem <- 1: // <-other", "\t\t<-inner",
    "\tcase <-done:", "\t}",
]  # fmt: skip


@pytest.mark.parametrize(
    "line, use, case", [(1, FOR_VALUE, 2), (1, FOR_ROOM, 1), (4, FOR_ROOM, 5), (4, FOR_VALUE, 7), (2, FOR_VALUE, 2), (6, FOR_ROOM, 6)]
)  # fmt: skip
def test_the_case_of_a_select_at_which_a_goroutine_waits(line: int, use: str, case: int, monkeypatch: Patch) -> None:
    monkeypatch.setattr(leaking_paths, "source_of", lambda recording, file: tuple(SELECTS))
    assert leaking_paths.case_of(NOTHING, line_of(line), use) == line_of(case)
    monkeypatch.setattr(leaking_paths, "source_of", lambda recording, file: None)
    assert leaking_paths.case_of(NOTHING, line_of(line), use) == line_of(line)


@pytest.mark.parametrize(
    "change, found",
    [
        ({}, [(1, 8)]), ({"took_at": 4}, "source"), ({"took": PUT}, "source"), ({"what": TOOK}, "source"), ({"reads": "Write"}, "source"),
        ({"of": OF_GO}, "source"), ({"goid": 3}, "source"), ({"other": "main.loop"}, [(1, 8), (2, 8)]),
    ],
)  # fmt: skip
def test_goroutines_that_pass_on_what_they_read(change: dict[str, Any], found: Any, monkeypatch: Patch) -> None:
    usual = {
        "took_at": 3, "took": TOOK, "what": PUT, "reads": "Read", "of": OF_THE_PROGRAM, "goid": 1,
        "other": "main.other",
    }  # fmt: skip
    case = Made(**(usual | change))
    monkeypatch.setattr(dropped_answers, "name_of_goid", lambda lines, goid: Name(goid))
    monkeypatch.setattr(dropped_answers, "by_source", lambda recording, wait, readers: "source")
    stacks = {
        3: Stack((line_of(3, "main.ask"),), None), 4: Stack((line_of(4, "main.ask"),), None), 8: Stack((line_of(8, "main.loop", of=case.of),), None),
    }  # fmt: skip
    uses = {6: [Made(what=case.took, stack=case.took_at, goid=5), Made(what=case.what, stack=8, goid=case.goid)]}
    waiters = {
        Name(1): Made(call=Made(name=case.reads), stack=stacks[4]),
        Name(2): Made(call=Made(name="Read"), stack=Stack((line_of(2, case.other),), None)), Name(3): Made(call=None, stack=stacks[4]),
    }  # fmt: skip
    names = {id(waiter): name.number for name, waiter in waiters.items()}
    recording = Made(lines=Made(uses=uses, stacks=stacks))
    hands: Any = dropped_answers.hands_of(cast(Any, recording), cast(Any, Made(stack=stacks[3])), cast(Any, waiters))
    assert (hands if hands == "source" else [(names[id(hand.reader)], hand.line.line) for hand in hands]) == found


def test_requests_are_listed_with_what_ended_them(monkeypatch: Patch) -> None:
    requests = [Made(name=name, socket=socket, stack=3) for name, socket in ((1, 5), (2, 5), (1, 5), (1, 6))]
    ended = [Made(request=requests[2]), Made(request=requests[3])]
    for name, value in (("run_of", None), ("requests_of", requests), ("cancelled_requests", ended), ("place_in", "")):
        monkeypatch.setattr(tables, name, lambda *rest, value=value: value)
    monkeypatch.setattr(tables, "request_rows", lambda recording, some, ended: [(some, ended)])
    table = tables.requests_table(NOTHING)
    assert table.rows == [([requests[0], requests[2]], [ended[0]]), ([requests[1]], []), ([requests[3]], [ended[1]])]
    assert table.rest == ""
    monkeypatch.setattr(tables, "requests_of", lambda index: [])
    assert tables.requests_table(NOTHING).rest.startswith("no request of net/http's client is known")


@pytest.mark.parametrize(
    "change, says",
    [
        ({}, ["Nobody has written anything on this connection, ever."]), ({"bound": "It reads."}, ["It reads."]),
        ({"bound": "Nobody has closed it for writing."}, ["Nobody has closed it for writing.", "CloseWrite is called."]),
        ({"name": "Write"}, []), ({"of_go": True}, []), ({"wrote": 3}, []), ({"wrote": 4}, []),
    ],
)  # fmt: skip
def test_what_a_read_looks_for(change: dict[str, Any], says: list[str], monkeypatch: Patch) -> None:
    case = Made(**({"name": "Read", "of_go": False, "bound": "", "wrote": 0} | change))
    monkeypatch.setattr(ends_of_reads, "is_of_go", lambda recording, call: case.of_go)
    monkeypatch.setattr(ends_of_reads, "bound_sentence", lambda functions, other: case.bound)
    monkeypatch.setattr(ends_of_reads, "half_closes", lambda index, other, position: ["CloseWrite is called."])
    monkeypatch.setattr(ends_of_reads, "since_begin", lambda recording, step: ", ever" if step == 2 else "")
    index = Made(
        recording=Made(lines=Made(of=lambda step: Stack((), None))), by_socket={3: [Made(first=2), Made(first=9)]},
        moved=lambda socket, name, until: int(socket == case.wrote and name == "Write"),
    )  # fmt: skip
    assert (
        ends_of_reads.end_sentence(cast(Any, index), cast(Any, Made(name=case.name, first=9, socket=3)), 4, 20) == says
    )


@pytest.mark.parametrize(
    "change, name",
    [
        ({}, 6), ({"name": "Write"}, None), ({"is_under_way": False}, None), ({"moved": 0}, None), ({"ended": 0}, None), ({"by": 2}, None),
        ({"maker": 0}, None), ({"first": 4}, 5), ({"first": 8}, 5), ({"other": 9}, None),
    ],
)  # fmt: skip
def test_the_goroutine_that_a_reader_started_to_answer(
    change: dict[str, Any], name: int | None, monkeypatch: Patch
) -> None:
    usual = {
        "name": "Read", "is_under_way": True, "moved": 4, "ended": 5, "by": 1, "maker": 11, "first": 5, "other": 11,
    }  # fmt: skip
    case = Made(**(usual | change))
    monkeypatch.setattr(needs, "name_of_goid", lambda lines, goid: Name(goid))
    goroutines = {
        goid: Made(goid=goid, maker=maker, first=begin)
        for goid, maker, begin in ((4, 12, 6), (5, case.other, 7), (6, case.other, case.first), (7, 11, 9))
    }
    got = Made(name="Read", goroutine=case.by, moved=case.moved, last=case.ended)
    begins = {5: 9, 6: 8 if case.first != 8 else 10}
    own = Made(
        _recording=Made(lines=Made(goroutines=goroutines, goid_of=lambda goroutine, step: case.maker)),
        _index=Made(by_socket={3: [got, Made(name="Write", goroutine=1, moved=4, last=6)]}),
        _is_under_way=lambda last: case.is_under_way,
        _waiters={Name(number): Made(name=number, since=since) for number, since in begins.items()},
    )
    last = Made(name=case.name, socket=3, goroutine=1, first=9)
    assert needs.Needs._started_by(cast(Any, own), cast(Any, last)) == name


@pytest.mark.parametrize(
    "failed, connected, refused", [([], [], None), ([5], [], 5), ([5, 9], [], 9), ([5, 9], [7], 9), ([5, 9], [10], None), ([9], [9], 9), ([9], [3, 12], None)]
)  # fmt: skip
def test_the_last_connect_that_failed(
    failed: list[int], connected: list[int], refused: int | None, monkeypatch: Patch
) -> None:
    monkeypatch.setattr(failed_dials, "run_of", lambda recording: None)
    opens = {2: [Made(first=step) for step in connected], -1: [Made(first=99)]}
    monkeypatch.setattr(failed_dials, "connected_by", lambda index, number: opens[number])
    lines = Made(failed_dials={7: [Made(step=step) for step in failed]}, goroutines={7: Made(number=2)})
    found = failed_dials.refused(cast(Any, Made(lines=lines)), 7)
    assert (found.step if found else None) == refused
    lines.goroutines, opens[-1] = {}, []
    found = failed_dials.refused(cast(Any, Made(lines=lines)), 7)
    assert (found.step if found else None) == (failed[-1] if failed else None)


def test_a_piece_of_source_is_shown_once(monkeypatch: Patch) -> None:
    monkeypatch.setattr(first_output, "text_after", lambda recording, step: [f"source after {step}"] if step else [])
    monkeypatch.setattr(first_output, "alike", lambda recording, step, other: step // 10 == other // 10)
    monkeypatch.setattr(first_output, "hang_sentences", lambda graph, hang: [])
    monkeypatch.setattr(first_output, "tree_lines", lambda graph, hang: [])
    shown = set[int]()
    hangs = [Made(is_deadlock=is_deadlock, needs=[Made(stopped=step)]) for is_deadlock, step in ((False, 41), (False, 42), (True, 51), (False, 52))]  # fmt: skip
    lines_of_hangs = [
        first_output.hang_lines(cast(Any, Made(recording=None)), cast(Any, hang), shown) for hang in hangs
    ]
    assert lines_of_hangs == [["source after 41"], [], [], ["source after 52"]]


@pytest.mark.parametrize(
    "change, says",
    [
        ({}, True), ({"is_datagram": False}, False), ({"wrote": None}, False), ({"by": 4}, False), ({"read": None}, False), ({"earlier": 6}, False),
        ({"earlier": 5}, True), ({"later": 9}, False), ({"later": 20}, False), ({"later": 21}, True), ({"name": "Write"}, False),
        ({"socket": 2}, False), ({"first": 20}, True), ({"first": 21}, False), ({"moved": 0}, False), ({"at": 2}, False), ({"next": False}, False),
    ],
)  # fmt: skip
def test_a_request_in_a_datagram_that_got_no_answer(change: dict[str, Any], says: bool, monkeypatch: Patch) -> None:
    usual = {
        "is_datagram": True, "wrote": 5, "by": 1, "read": 6, "earlier": 3, "later": 0, "name": "Read", "socket": 4, "first": 9, "moved": 4, "at": 4,
        "next": True,
    }  # fmt: skip
    case = Made(**(usual | change))
    wrote = case.wrote and Made(goroutine=case.by, first=5, steps=lambda: "step 5")
    read = case.read and Made(goroutine=2, socket=4, first=6, last=8, moved=4)
    calls = [Made(name="Write", socket=case.at, first=case.earlier, moved=case.moved)]
    calls += [Made(name=case.name, socket=case.socket, first=case.first, moved=0)] if case.next else []
    calls += [Made(name="Write", socket=4, first=case.later, moved=4)] if case.later else []
    monkeypatch.setattr(datagrams, "is_datagram", lambda index, socket: case.is_datagram)
    monkeypatch.setattr(datagrams, "reader_of", lambda index, call, wrote, position: read)
    monkeypatch.setattr(datagrams, "text_of_call", lambda recording, call: "it")
    for requested, whole in (
        (8, ""),
        (4, " It asked for 4 bytes and got as many: perhaps the datagram was longer, and cut."),
    ):
        monkeypatch.setattr(
            datagrams, "read_sizes_of", lambda recording, requested=requested: Made(of=lambda call: requested)
        )
        index = Made(recording=None, last_use=lambda socket, step, names: wrote, by_goroutine={2: calls})
        call = cast(Any, Made(socket=3, first=6, last=20, goroutine=1))
        found = datagrams.dropped_datagram(cast(Any, index), call)
        end = f"sent no answer to it: it read on in step {case.first}.{whole}"
        assert [sentence.endswith(end) for sentence in found] == [True] * says


@pytest.mark.parametrize(
    "moved, wrote",
    [
        ("r1 w2", 2), ("w2", 2), ("r1 w2 w3", 3), ("r1 w2 r3 w4", 4), ("r1 w2 r3", None), ("w2 r3", None), ("r1", None), ("r1 w2:7", 2), ("r1 w2 w3:7", None), ("r1 w2:4", None), ("r1:7 w2", None),
        ("r1 w2 o3", 2), ("r1 w2 e3", 2),
    ],
)  # fmt: skip
def test_the_last_write_of_a_relay(moved: str, wrote: int | None, monkeypatch: Patch) -> None:
    monkeypatch.setattr(unpassed_ends, "is_over", lambda index, end: True)
    names = {"r": "Read", "w": "Write", "o": OPEN, "e": "Read"}
    calls = []
    for word in moved.split():
        at, _, socket = word.partition(":")
        default = 5 if at[0] == "w" else 4
        calls.append(
            Made(name=names[at[0]], first=int(at[1:]), moved=0 if at[0] == "e" else 3, socket=int(socket or default))
        )
    end = Made(name="Read", first=9, moved=0, socket=4, goroutine=1)
    for rest, found in (
        ([end], wrote),
        ([end, Made(name=CLOSE, first=10, moved=0, socket=5)], wrote),
        ([end, Made(name="Write", first=10, moved=3, socket=5)], None),
    ):
        index = cast(Any, Made(by_goroutine={1: [*calls, *rest]}))
        last = unpassed_ends.last_write_of_relay(index, cast(Any, end))
        assert (last.first if last else None) == found
    monkeypatch.setattr(unpassed_ends, "is_over", lambda index, end: False)
    assert unpassed_ends.last_write_of_relay(cast(Any, Made(by_goroutine={1: [*calls, end]})), cast(Any, end)) is None
