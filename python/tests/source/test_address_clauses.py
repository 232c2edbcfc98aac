"""The rules about requests and answers, datagrams from other addresses and failed dials, clause by
clause: a row for each clause that doesn't hold, and for each side of a boundary."""

import re
from pathlib import Path
from types import SimpleNamespace as Made
from typing import Any, cast

import pytest

from netrev.findings.datagrams import undelivered_datagrams  # fmt: skip
from netrev.findings.handovers import dropped_answers  # fmt: skip
from netrev.findings.hangs import needs_elsewhere  # fmt: skip
from netrev.findings.source import functions as source_functions  # fmt: skip
from netrev.findings.streams import exchanges, failed_dials, left_in_buffers  # fmt: skip
from netrev.recording.call import CLOSE
from netrev.recording.goroutines import CLOSED, PUT, ObjectUse
from netrev.recording.waits import Name
from netrev.recording.where import OF_GO, OF_THE_PROGRAM, SourceCall, Stack
from tests.failed_calls.test_cause_boundaries import line_of

Patch = pytest.MonkeyPatch


@pytest.mark.parametrize(
    "change, says",
    [
        ({}, True), ({"addresses": {}}, False), ({"addresses": {3: ("", "b:2")}}, False), ({"addresses": {3: ("a:1", "")}}, False), ({"target": "a:3"}, False),
        ({"source": "b:2"}, False), ({"target": "0.0.0.0:1"}, True), ({"target": "0.0.0.0:3"}, False), ({"source": "[::]:2"}, False), ({"source": "[::]:3"}, True),
        ({"first": 20}, True), ({"first": 21}, False), ({"first": 5}, True), ({"first": 4}, False), ({"first": 4, "name": "Write"}, True), ({"first": 4, "moved": 0}, True),
        ({"first": 4, "last": 8}, True), ({"first": 7, "last": 7}, False), ({"first": 8, "last": 7}, True),
    ],
)  # fmt: skip
def test_a_datagram_from_another_address(change: dict[str, Any], says: bool, monkeypatch: Patch) -> None:
    usual = {
        "addresses": {3: ("a:1", "b:2")}, "target": "a:1", "source": "c:4", "first": 6, "name": "Read", "moved": 5, "last": 4,
    }  # fmt: skip
    case = Made(**(usual | change))

    def sent(begin: int, target: str) -> Any:
        wrote = Made(first=begin, socket=9, steps=lambda: f"step {begin}")
        return undelivered_datagrams.Sent(cast(Any, wrote), case.source, target)

    monkeypatch.setattr(
        undelivered_datagrams, "sent_at", lambda index: [sent(19, "a:7"), sent(case.first, case.target)]
    )
    monkeypatch.setattr(undelivered_datagrams, "text_of_call", lambda recording, call: "Write")
    monkeypatch.setattr(undelivered_datagrams, "opened_at", lambda index, socket: ", opened")
    reads = [Made(name=case.name, moved=case.moved, last=case.last), Made(name="Read", moved=5, last=2)]
    index = Made(recording=Made(lines=Made(addresses=case.addresses)), by_socket={3: reads})
    need = undelivered_datagrams.unheard(cast(Any, index), cast(Any, Made(socket=3, first=8)), 20)
    expected = [
        f"Write sent a datagram to its address, a:1, in step {case.first}, from socket 9, {case.source}, opened.",
        "Socket 3 is connected to b:2: the system drops what comes from any other address.",
    ]
    assert (need.says if need else []) == (expected if says else []) and (need is None or need.is_odd)


def test_the_first_datagram_from_another_address_is_named(monkeypatch: Patch) -> None:
    every = [
        undelivered_datagrams.Sent(
            cast(Any, Made(first=begin, socket=9, steps=lambda begin=begin: f"step {begin}")), "c:4", "a:1"
        )
        for begin in (9, 6, 7)
    ]
    monkeypatch.setattr(undelivered_datagrams, "sent_at", lambda index: every)
    monkeypatch.setattr(undelivered_datagrams, "text_of_call", lambda recording, call: "Write")
    monkeypatch.setattr(undelivered_datagrams, "opened_at", lambda index, socket: "")
    index = Made(recording=Made(lines=Made(addresses={3: ("a:1", "b:2")})), by_socket={3: []})
    need = undelivered_datagrams.unheard(cast(Any, index), cast(Any, Made(socket=3, first=8)), 20)
    assert need and " in step 6, from socket 9" in need.says[0]


@pytest.mark.parametrize(
    "change, by",
    [
        ({}, 6), ({"goroutine": 1}, 5), ({"first": 20}, 6), ({"first": 21}, 5), ({"last": 20}, 5), ({"last": 21}, 6), ({"last": 7}, 5), ({"inside": False}, 0), ({"goid": True}, 0),
    ],
)  # fmt: skip
def test_the_call_that_a_close_waits_for(change: dict[str, Any], by: int, monkeypatch: Patch) -> None:
    case = Made(**({"goroutine": 6, "first": 6, "last": 0, "inside": True, "goid": False} | change))
    monkeypatch.setattr(needs_elsewhere, "text_of_call", lambda recording, call: f"Goroutine {call.goroutine}")
    calls = [Made(goroutine=5, first=4, last=0), Made(goroutine=case.goroutine, first=case.first, last=case.last)]
    closes = Made(socket=3, goroutine=1)
    index = Made(
        call_at=lambda number, position: closes if case.inside and (number, position) == (1, 20) else None,
        by_socket={3: calls},
    )
    whole = Made(_index=index, _position=20, _recording=None)
    waiter = cast(Any, Made(name=Name(1)._replace(is_goid=case.goid)))
    need = needs_elsewhere.NeedsElsewhere._of_close(cast(Any, whole), waiter)
    says = f"Goroutine {by} uses socket 3 since step {case.first if by == 6 else 4}."
    assert (need.says, need.by) == (([says], Name(by)) if by else ([], None))


@pytest.mark.parametrize(
    "change, says",
    [
        ({}, "cancelled"), ({"context": 0}, ""), ({"context": 6}, ""), ({"what": PUT}, ""), ({"begin": 8}, "cancelled"), ({"begin": 9}, ""), ({"own": False}, ""),
        ({"once": True}, "once"), ({"once": True, "context": 0}, "once"),
    ],
)  # fmt: skip
def test_why_a_dial_failed(change: dict[str, Any], says: str, monkeypatch: Patch) -> None:
    case = Made(**({"context": 5, "what": CLOSED, "begin": 7, "own": True, "once": False} | change))
    monkeypatch.setattr(failed_dials, "name_of_goid", lambda lines, goid: f"goid {goid}")
    stacks = {
        1: Stack((line_of(4, "main.stop") if case.own else line_of(0, "context.cancel", of=OF_GO),), None),
        2: Stack((line_of(0, failed_dials.ONCE if case.once else "net.Dial", of=OF_GO), line_of(9)), None),
    }
    uses = {
        5: [ObjectUse(5, 7, case.what, 1, 1, 3, 3, case.begin, case.begin), ObjectUse(5, 8, PUT, 2, 1, 1, 1, 1, 1)],
        0: [ObjectUse(0, 7, CLOSED, 1, 1, 3, 3, 1, 1)],
    }
    failed = Made(context=case.context, time=8, stack=2)
    found = failed_dials.ended_sentence(cast(Any, Made(lines=Made(uses=uses, stacks=stacks))), cast(Any, failed))
    texts = {
        "cancelled": ["Its context had been cancelled at a.go:4 in stop (goid 7, step 3)."], "": [],
        "once": ["That was in a sync.Once, which calls its function once alone: no later call dials again."],
    }  # fmt: skip
    assert found == texts[says]


def test_no_lines_are_found_without_the_source(tmp_path: Path) -> None:
    recording = cast(Any, Made(lines=Made(written=float("inf"))))
    call = SourceCall("main.f", str(tmp_path / "none.go"), 3, OF_THE_PROGRAM)
    assert source_functions.found_in(recording, call, re.compile("x")) == []
    assert source_functions.function_of(recording, call) == ((), range(0))


@pytest.mark.parametrize(
    "calls, found",
    [
        ("w2 r3", "2/3"), ("w2 w3 r4 r5", "2,3/4,5"), ("w2 r3 w4 r5", "2/3 4/5"), ("r1 w2 r3", "2/3"), ("w2", "2/"), ("r2", ""), ("", ""), ("w2 r9", "2/9"), ("w2 r10", "2/"),
        ("w2 o3 r4", "2/4"), ("w2 r3:other r4", "2/4"), ("w2 r3:nothing r4", "2/4"), ("w2 r3:going r4", "2/4"), ("w2:other r3", ""),
    ],
)  # fmt: skip
def test_what_a_goroutine_wrote_and_read_in_turn(calls: str, found: str) -> None:
    names = {"r": "Read", "w": "Write", "o": CLOSE}
    turns = []
    for word in calls.split():
        at, _, how = word.partition(":")
        turns.append(
            Made(
                name=names[at[0]], first=int(at[1:]), goroutine=2 if how == "other" else 1, moved=0 if how == "nothing" else 4,
                last=0 if how == "going" else int(at[1:]),
            )
        )  # fmt: skip
    says = exchanges.exchanges_of(cast(Any, Made(by_socket={3: turns})), 1, 3, 9)
    texts = [
        "/".join(",".join(str(call.first) for call in part) for part in (word.writes, word.reads)) for word in says
    ]
    assert " ".join(texts) == found
    assert exchanges.exchanges_of(cast(Any, Made(by_socket={})), 1, 3, 9) == []


@pytest.mark.parametrize(
    "calls, request_count, on, is_answered",
    [
        ("r6 w7", 1, False, True), ("r6 w7", 2, False, False), ("r6 w7", 2, True, True), ("r5 w7", 1, False, False), ("r6", 1, True, False), ("w7", 1, True, False),
        ("r6 w6", 1, True, False), ("r6 w7 w8", 2, False, True), ("r6 w7 w8b", 3, True, False), ("r6 w7 r8", 2, True, False), ("", 1, True, False), ("w3 r6 w7", 2, False, True),
    ],
)  # fmt: skip
def test_whether_all_requests_were_answered(
    calls: str, request_count: int, on: bool, is_answered: bool, monkeypatch: Patch
) -> None:
    turns = []
    for word in calls.split():
        step = int(word[1])
        turns.append(
            Made(
                name="Read" if word[0] == "r" else "Write",
                first=step,
                last=step,
                moved=4,
                goroutine=2 if word[2:] else 1,
            )
        )
    monkeypatch.setattr(
        dropped_answers, "reads_on", lambda index, goroutine, socket: on and (goroutine, socket) == (1, 4)
    )
    mine = [Made(name="Write", moved=4)] * request_count + [Made(name="Read", moved=4), Made(name="Write", moved=0)]
    index = Made(other_end=lambda socket: 4 if socket == 3 else None, by_socket={3: mine, 4: turns})
    wrote = Made(socket=3, first=5)
    assert dropped_answers.is_answered(cast(Any, index), cast(Any, wrote)) is is_answered
    wrote.socket = 5
    assert not dropped_answers.is_answered(cast(Any, index), cast(Any, wrote))


@pytest.mark.parametrize(
    "of, flushed, places, says",
    [
        (OF_THE_PROGRAM, "", ["a.go:4", "a.go:5"], "a.go:4"), (OF_GO, "", ["a.go:4"], ""), (OF_THE_PROGRAM, "w", ["a.go:4"], ""), (OF_THE_PROGRAM, "x", ["a.go:4"], "a.go:4"),
        (OF_THE_PROGRAM, "", [], ""),
    ],
)  # fmt: skip
def test_a_writer_that_no_line_flushes(of: str, flushed: str, places: list[str], says: str, monkeypatch: Patch) -> None:
    monkeypatch.setattr(
        left_in_buffers, "places_with", lambda recording, file, pattern: places if file == "a.go" else []
    )
    monkeypatch.setattr(left_in_buffers, "names_near", lambda recording, file: Made(flushed={flushed}, buffers={"w"}))
    stacks = [Stack((line_of(3, of=of),), None), Stack((), None)]
    recording = cast(Any, Made(lines=Made(of=lambda step: stacks[step])))
    assert left_in_buffers.never_flushed(recording, cast(Any, Made(first=0))) == says
    assert left_in_buffers.never_flushed(recording, cast(Any, Made(first=1))) == ""


@pytest.mark.parametrize(
    "opened, closed, connected, expected",
    [((3,), (5,), (), 5), ((3, 4), (5, 8), (), 8), ((3,), (5,), (6,), None), ((3, 4), (5, 8), (6,), 8), ((), (), (), None)],
)  # fmt: skip
def test_the_last_dial_of_a_goroutine_that_failed(
    opened: tuple[int, ...],
    closed: tuple[int, ...],
    connected: tuple[int, ...],
    expected: int | None,
    monkeypatch: Patch,
) -> None:
    monkeypatch.setattr(failed_dials, "is_dialed", lambda index, socket: socket in opened)
    monkeypatch.setattr(
        failed_dials, "connected_by", lambda index, goroutine: [Made(first=first) for first in connected]
    )
    calls = [Made(name=failed_dials.CLOSE, first=first, socket=socket) for socket, first in zip(opened, closed)]
    lines = Made(of=lambda step: Made(calls=[Made(function=failed_dials.FAILED)]))
    index = cast(Any, Made(recording=Made(lines=lines), by_goroutine={2: calls}))
    found = failed_dials.failed_dial(index, 2)
    assert (found.close.first if found else None) == expected
