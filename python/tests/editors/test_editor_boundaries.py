"""Tests how the adapter for editors answers requests whose arguments are at a boundary. Each side of a boundary has a
row."""

import base64
from types import SimpleNamespace as Made
from typing import Any, cast

import pytest

from netrev.connection.shapes import Move
from netrev.recording.call import Outcome
from netrev.run.index import RunIndex
from nrdb.dap import breakpoints, inspection
from nrdb.dap import marks as dap_marks
from nrdb.dap import moves
from nrdb.dap.breakpoint_requests import wish_of
from nrdb.dap.marks import BreakpointKind, Marks
from nrdb.dap.moves import AT_THE_END, Moves, Stop, text_of
from nrdb.dap.view import filters, memory
from nrdb.dap.view.filters import Failure, Filter, Filters
from nrdb.dap.view.messages import Request, UnanswerableError
from nrdb.dap.view.numbering import Numbering


class Asked:
    """A netrev whose buffer `in 2` has four bytes, whose `out 2` is empty, and which has no other buffers."""

    def looks(self, lines: list[str]) -> list[str]:
        return [{"dump in 2": "00112233", "dump out 2": "-"}.get(line, "absent") for line in lines]


def request(**arguments: Any) -> Request:
    return cast(Request, Made(
        arguments=arguments, text=lambda name: str(arguments[name]), whole_number=lambda name: int(arguments[name])
    ))  # fmt: skip


def read(named: str, count: int, offset: int | None = None) -> dict[str, Any]:
    asked = request(memoryReference=named, count=count, **({} if offset is None else {"offset": offset}))
    return memory.read(cast(Any, Asked()), asked)


@pytest.mark.parametrize(
    "named, count, offset, data, address, missing",
    [
        ("in 2", 4, None, "00112233", "0x0", 0), ("in 2", 3, None, "001122", "0x0", 0), ("in 2", 5, None, "00112233", "0x0", 1),
        ("in 2", 2, 1, "1122", "0x1", 0), ("in 2", 3, 1, "112233", "0x1", 0), ("in 2", 4, 1, "112233", "0x1", 1), ("in 2", 2, 4, "", "0x4", 2),
        ("in 2", 1, 3, "33", "0x3", 0), ("in 2", 3, -1, "", "0x0", 3), ("in 2", 0, None, "", "0x0", 0), ("out 2", 2, None, "", "0x0", 2),
        ("out 2", 0, 0, "", "0x0", 0),
    ],
)  # fmt: skip
def test_bytes_of_a_buffer(named: str, count: int, offset: int | None, data: str, address: str, missing: int) -> None:
    found = read(named, count, offset)
    assert base64.b64decode(found.pop("data", "")).hex() == data
    assert found == {"address": address} | ({"unreadableBytes": missing} if missing else {})


@pytest.mark.parametrize(
    "named, count",
    [("in", 1), ("in 2 3", 1), ("in x", 1), ("lock 2", 1), ("in 3", 1), ("in 2", -1), ("rq 2", 1), ("", 1)],
)
def test_memory_that_has_no_bytes(named: str, count: int) -> None:
    with pytest.raises(UnanswerableError):
        read(named, count)


@pytest.mark.parametrize(
    "cell, buffer", [("in 2", "in 2"), ("out 0", "out 0"), ("in", None), ("lock 2", None), ("clock", None)]
)
def test_the_buffer_whose_bytes_a_cell_counts(cell: str, buffer: str | None) -> None:
    assert memory.reference_of(cell) == buffer


@pytest.mark.parametrize(
    "reason, says, length, text",
    [
        ("exception", "a timeout", 20_001, "a timeout"), ("step", AT_THE_END, 20_000, "what hangs"), ("step", AT_THE_END, 20_001, ""),
        ("step", "at 5", 7, ""), ("exception", AT_THE_END, 7, AT_THE_END),
    ],
)  # fmt: skip
def test_the_text_of_a_stop(reason: str, says: str, length: int, text: str, monkeypatch: pytest.MonkeyPatch) -> None:
    monkeypatch.setattr(moves, "root_sentence", lambda recording: "what hangs")
    assert text_of(Stop(reason, says), cast(Any, Made(length=length))) == text


@pytest.mark.parametrize("line, reply", [("stepi", "at 6"), ("reverse-stepi", "at 4")])
def test_a_step_of_an_editor_is_netrev_s(line: str, reply: str) -> None:
    arrived: list[Any] = []
    faced: list[str] = []
    own = Made(
        _face_forwards=lambda: faced.append(line), _session=Made(ask=lambda asked_line: {line: reply}[asked_line]), _end_or=lambda *why: why,
        _arrived=lambda *arrival: arrived.append(arrival),
    )  # fmt: skip
    Moves.step(cast(Any, own), line)
    move = Move(int(reply.split()[1]), False, ())
    assert faced and arrived == [(line, reply, move, [], ("step", move))]


def test_what_went_wrong_by_filters(monkeypatch: pytest.MonkeyPatch) -> None:
    suspects = [
        Made(is_shown=shown, step=step, rule="rule", sentence=lambda: "says")
        for shown, step in ((True, 9), (False, 3), (True, 5))
    ]
    calls = [
        Made(last=last, outcome=outcome, goroutine=1, words=lambda: "Read")
        for last, outcome in (
            (8, Outcome.TIMED_OUT),
            (4, Outcome.TIMED_OUT),
            (0, Outcome.CLOSED),
            (7, Outcome.CLOSED),
            (6, Outcome.DONE),
        )
    ]
    monkeypatch.setattr(filters, "suspects_of", lambda recording: Made(suspects=suspects))
    run = RunIndex(cast(Any, None))
    run.__dict__["_book"] = Made(calls=calls)
    monkeypatch.setattr(filters, "run_of", lambda recording: run)
    own = Made(_recording=None)
    found = cast(Any, Filters._all).func(own)
    steps = {name: [failure.step for failure in failures] for name, failures in found.items()}
    assert steps == dict.fromkeys(Filter, list[int]()) | {
        Filter.SUSPECTS: [5, 9],
        Filter.TIMEOUTS: [4, 8],
        Filter.ERRORS: [7],
    }
    assert found[Filter.SUSPECTS][0] == Failure(5, "rule", "says")


@pytest.mark.parametrize(
    "text, column, first, labels, start",
    [
        ("info go", 8, 1, ["goroutines"], 6), ("info go", 7, 1, ["goroutines"], 6), ("info go", 7, 0, ["goroutines"], 5), ("inf", 4, 1, ["info"], 1),
        ("info shoe", 10, 1, [], 6), ("info go", 3, 1, ["info"], 1),
    ],
)  # fmt: skip
def test_completions_of_a_word(text: str, column: int, first: int, labels: list[str], start: int) -> None:
    target = cast(Any, Made(debuggee=Made(numbers=lambda of: [])))
    found = cast(Any, inspection.completions(target, cast(Any, Made(first=first)), request(text=text, column=column)))
    assert [target["label"] for target in found["targets"]] == labels
    assert {(target["start"], target["length"]) for target in found["targets"]} == (
        {(start, column - start)} if labels else set()
    )


def test_completions_before_the_first_column_are_those_of_an_empty_line() -> None:
    target = cast(Any, Made(debuggee=Made(numbers=lambda of: [])))
    found = cast(Any, inspection.completions(target, cast(Any, Made(first=1)), request(text="info go", column=0)))
    assert {"info", "stepi"} <= {target["label"] for target in found["targets"]}


@pytest.mark.parametrize(
    "requested, is_true, position, stops",
    [
        ({}, False, 5, True), ({"condition": "lock 0 8"}, True, 5, True), ({"condition": "lock 0 8"}, False, 5, False), ({"hitCondition": "2"}, False, 5, True),
        ({"hitCondition": "2"}, False, 3, False), ({"hitCondition": "2"}, False, 6, False), ({"hitCondition": "> 1"}, False, 9, True),
        ({"hitCondition": "2", "condition": "lock 0 8"}, True, 5, True), ({"hitCondition": "2", "condition": "lock 0 8"}, False, 5, False),
    ],
)  # fmt: skip
def test_a_breakpoint_stops_by_its_condition_and_hit_count(
    requested: dict[str, str], is_true: bool, position: int, stops: bool, monkeypatch: pytest.MonkeyPatch
) -> None:
    """The steps of this kind are at positions 3, 5 and 9."""
    monkeypatch.setattr(dap_marks, "positions_of", lambda session, what: [3, 5, 9])
    session = Made(
        netrev=Made(marks=lambda: []), ask=lambda line: {"break rwlock": "mark 4", "break acquire": "mark 7"}[line], holding=lambda numbers: numbers,
        holds=lambda condition, at=0: is_true, current_position=lambda: Made(position=position),
    )  # fmt: skip
    marks = Marks(cast(Any, session))
    set_ones = marks.replace(
        BreakpointKind.FUNCTION,
        [wish_of("rwlock", requested), wish_of("acquire", {}), wish_of("rwlock", {"condition": "x"})],
    )
    assert [set_one.get("id") for set_one in set_ones] == [4, 7, None] and not set_ones[2]["verified"]
    assert marks.holding(["4", "7", "9"]) == [*(["4"] if stops else []), "7", "9"]  # (9 was set in the console)
    assert [marks.reason(number) for number in ("4", "9")] == ["function breakpoint", "breakpoint"]


def test_breakpoints_of_a_kind_are_replaced() -> None:
    """Only breakpoints of this kind that are no longer wanted are deleted, unless the console deleted them already."""
    lines: list[str] = []
    numbers = iter(range(1, 9))

    def ask(line: str) -> str:
        lines.append(line)
        return (
            "done"
            if line.startswith("delete")
            else f"mark {next(numbers)}"
            if line != "watch x"
            else "fault 202 bad argument"
        )

    standing = [Made(number=str(number)) for number in (1, 2, 4)]
    marks = Marks(cast(Any, Made(ask=ask, netrev=Made(marks=lambda: standing))))
    marks.replace(BreakpointKind.FUNCTION, [wish_of("rwlock", {}), wish_of("acquire", {}), wish_of("spawn", {})])
    assert [
        answer["verified"] for answer in marks.replace(BreakpointKind.DATA, [wish_of("lock 0", {}), wish_of("x", {})])
    ] == [
        True,
        False,
    ]
    lines.clear()
    assert [
        answer["id"]
        for answer in marks.replace(BreakpointKind.FUNCTION, [wish_of("acquire", {}), wish_of("spawn", {})])
    ] == [2, 5]
    assert lines == ["delete 1", "break spawn"]  # (3 had been deleted)
    lines.clear()
    marks.replace(BreakpointKind.FUNCTION, [])
    assert lines == ["delete 2"]  # (and 5, but for the list of marks above)


@pytest.mark.parametrize(
    "line, end, is_recording, wanted",
    [
        (3, None, False, [3]), (4, None, False, []), (3, 9, False, [3, 5, 9]), (4, 8, False, [5]), (2, 3, False, [3]), (9, 12, False, [9]), (10, 12, False, []),
        (5, 4, False, []), (3, 4, True, [3, 4]), (4, None, True, [4]), (1, 2, True, [2]), (4, 9, True, [4, 5]), (6, 9, True, []),
    ],
)  # fmt: skip
@pytest.mark.parametrize("first", [0, 1])
def test_the_lines_that_have_a_step(
    line: int, end: int | None, is_recording: bool, wanted: list[int], first: int
) -> None:
    """Steps are at lines 3, 5 and 9 of the program, and at lines 2 to 5 of the recording. The editor counts lines from
    `first`."""
    steps = {number: Made(number=number, line=number + 1) for number in (1, 2, 3, 4)}
    debuggee = Made(
        is_at=lambda path: is_recording, step=steps.get, step_at=lambda line: next((step for step in steps.values() if step.line >= line), None)
    )  # fmt: skip
    target = Made(debuggee=debuggee, go_lines=Made(lines=lambda path: {9, 3, 5}))
    shift = 1 - first
    request = Request(
        1,
        "breakpointLocations",
        {"source": {"path": "main.go"}, "line": line - shift} | ({"endLine": end - shift} if end else {}),
    )
    found = breakpoints.locations(cast(Any, target), Numbering(first == 1), request)
    assert [step["line"] + shift for step in found["breakpoints"]] == wanted


@pytest.mark.parametrize("last, count", [(999, 999), (1_000, 1_000), (1_001, 1_000), (2_000, 1_000)])
@pytest.mark.parametrize("is_recording", [False, True])
def test_a_thousand_lines_that_have_a_step(last: int, count: int, is_recording: bool) -> None:
    debuggee = Made(
        is_at=lambda path: is_recording, step=lambda number: Made(number=number, line=number), step_at=lambda line: Made(number=line, line=line)
    )  # fmt: skip
    target = Made(debuggee=debuggee, go_lines=Made(lines=lambda path: set(range(1, 3_000))))
    request = Request(1, "breakpointLocations", {"source": {"path": "main.go"}, "line": 1, "endLine": last})
    found = breakpoints.locations(cast(Any, target), Numbering(True), request)
    assert [breakpoint["line"] for breakpoint in found["breakpoints"]] == list(range(1, count + 1))
