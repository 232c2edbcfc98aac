"""The tables of failed calls and of hangs, the rules about cut datagrams, and the rules about goroutines that ended
before they passed something on, clause by clause."""

from types import SimpleNamespace as Made
from typing import Any, cast

import pytest

from netrev.findings.causes import tables
from netrev.findings.datagrams import cut_datagrams
from netrev.findings.handovers import ended_hands
from netrev.recording.goroutines import FOR_ROOM, FOR_VALUE, PUT, TOOK, At, ObjectUse
from netrev.recording.waits import Name, ObjectWait
from netrev.recording.where import OF_A_LIBRARY, OF_THE_PROGRAM, Stack
from netrev.run.index import RunIndex

from .test_cause_boundaries import line_of

Patch = pytest.MonkeyPatch


@pytest.mark.parametrize(
    "most, shown, rest",
    [
        (None, "3 5 8 later9 later12", ""), (5, "3 5 8 later9 later12", ""), (4, "3 5 8 later9", "1 later ones: info errors all"), (3, "3 5 8", "2 later ones: info errors all"),
        (2, "5 8", "1 earlier ones: info errors all; 2 later ones: info errors all"),
    ],
)  # fmt: skip
@pytest.mark.parametrize("of_go", [0, 2])
def test_the_failed_calls_of_a_table(most: int | None, shown: str, rest: str, of_go: int, monkeypatch: Patch) -> None:
    error, fine = Made(is_error=True), Made(is_error=False)
    calls = [Made(last=last, outcome=error, go=False) for last in (3, 5, 0, 8, 9, 12)]
    calls += [Made(last=4, outcome=fine, go=False), *[Made(last=4, outcome=error, go=True)] * of_go]
    run = RunIndex(cast(Any, None))
    run.__dict__["_book"] = Made(calls=calls)
    monkeypatch.setattr(tables, "run_of", lambda recording: run)
    monkeypatch.setattr(tables, "is_by_go", lambda recording, call: call.go)
    monkeypatch.setattr(tables, "call_row", lambda recording, call, position: f"{call.last}")
    monkeypatch.setattr(tables, "later_row", lambda recording, call: f"later{call.last}")
    monkeypatch.setattr(tables, "error_rows", lambda recording, call, row: [row])
    table = tables.errors_table(cast(Any, None), 8, most)
    more = f"{of_go} more are waits of Go's own code, which it ended itself" if of_go else ""
    assert (" ".join(map(str, table.rows)), table.rest) == (shown, "; ".join(part for part in (rest, more) if part))


@pytest.mark.parametrize(
    "position, shown, idle, rest",
    [
        (7, ["a"], 0, []), (7, ["a"], 2, ["2 more in Go's own code alone, as idle connections of net/http are"]), (0, ["a"], 0, ["that is at the end, position 20: the session is at the start"]),
        (7, [], 0, ["no call hangs at position 7, but for those that wait for connections"]), (0, [], 0, ["no call hangs at the end, but for those that wait for connections"]),
    ],
)  # fmt: skip
def test_the_hangs_of_a_table(position: int, shown: list[str], idle: int, rest: list[str], monkeypatch: Patch) -> None:
    graph = Made(shown=shown, idle=idle)
    monkeypatch.setattr(tables, "graph_at", lambda recording, at: graph if at == (position or 20) else None)
    monkeypatch.setattr(tables, "rows_of", lambda graph, hang: [hang, f"below {hang}"])
    table = tables.hangs_table(cast(Any, Made(length=20)), position)
    assert (table.rows, table.rest) == (["a", "below a"] if shown else [], "; ".join(rest))


@pytest.mark.parametrize(
    "change, says",
    [
        ({}, True), ({"of": OF_A_LIBRARY}, False), ({"own": False}, False), ({"use": FOR_ROOM}, False), ({"objects": 2}, False), ({"what": TOOK}, True), ({"object": 5}, False),
        ({"object": 6}, True), ({"ended": (7,)}, False), ({"hands": ()}, False), ({"name": 7}, False), ({"hands": (7,)}, True),
    ],
)  # fmt: skip
def test_hands_that_have_ended(change: dict[str, Any], says: bool, monkeypatch: Patch) -> None:
    usual = {
        "of": OF_THE_PROGRAM, "own": True, "use": FOR_VALUE, "objects": 1, "what": PUT, "object": 6, "ended": (7, 8), "hands": (7, 8), "name": 1,
    }  # fmt: skip
    case = Made(**(usual | ({"object": 5} if "what" in change else {}) | change))
    monkeypatch.setattr(ended_hands, "hands_at", lambda index, line: [Made(name=Name(hand)) for hand in case.hands])
    monkeypatch.setattr(ended_hands, "has_ended", lambda recording, name: name.number in case.ended)
    monkeypatch.setattr(ended_hands, "sentence_of", lambda index, hands: ["They ended."])
    uses = {case.object: [ObjectUse(case.object, 3, case.what, 1, 1, 1, 4, 1, 1)]}
    stack = Stack((line_of(3, of=case.of),) if case.own else (), None)
    wait = ObjectWait(Name(case.name), 5, None, "a value", stack, None, (At(5, case.use),) * case.objects)
    need = ended_hands.ended_hand(cast(Any, Made(recording=Made(lines=Made(uses=uses)))), wait)
    names = tuple(Name(hand) for hand in case.hands)
    found = (need.says, need.ended, need.gone, need.is_odd) if need else None
    assert found == ((["They ended."], names, names[0] if len(names) == 1 else None, True) if says else None)


@pytest.mark.parametrize(
    "change, says",
    [
        ({}, "read on in step 12."), ({"next": "Write"}, "It was cut."), ({"socket": 4}, "It was cut."), ({"first": 9}, "It was cut."),
        ({"datagram": False}, "last"), ({"wrote": False}, "last"), ({"goroutine": 2}, "last"), ({"last": 20}, "read on in step 21."), ({"last": 21}, "last"),
    ],
)  # fmt: skip
def test_a_request_that_was_cut(change: dict[str, Any], says: str, monkeypatch: Patch) -> None:
    usual = {
        "next": "Read", "socket": 5, "first": 12, "datagram": True, "wrote": True, "goroutine": 1, "last": 9,
    }  # fmt: skip
    case = Made(**(usual | ({"first": 21} if "last" in change else {}) | change))
    wrote, read = Made(goroutine=case.goroutine), Made(goroutine=7, first=8, last=case.last, socket=5)
    pair = Made(write=wrote, read=read, says=lambda index: ["It was cut."])
    other = Made(write=Made(goroutine=1), read=read, says=lambda index: ["Another."])
    monkeypatch.setattr(cut_datagrams, "is_datagram", lambda index, socket: case.datagram)
    monkeypatch.setattr(cut_datagrams, "cut_datagrams", lambda index: (other, pair))
    monkeypatch.setattr(cut_datagrams, "last_cut", lambda index, call: ["last"])
    index = Made(
        recording=Made(lines=Made(of=lambda step: None)), last_use=lambda socket, step, names: wrote if case.wrote else None,
        by_goroutine={7: [read, Made(first=case.first, name=case.next, socket=case.socket)]},
    )  # fmt: skip
    found = cut_datagrams.cut_sentence(cast(Any, index), cast(Any, Made(socket=3, first=10, goroutine=1)), 20)
    assert found[-1].endswith(says) and len(found) == (2 if "read on" in says else 1)
