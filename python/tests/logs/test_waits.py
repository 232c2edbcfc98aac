"""Waits outside the poller: points of the recorder become waits in NAME.where, and the text about a hanging call names
these waits."""

import json
from typing import Any

import pytest

from netrev.findings.causes.tables import hangs_table
from netrev.recording.goroutines import A_SLEEP
from netrev.recording.waits import Name, ObjectWait, of_names
from netrev.recording.where import SourceLines, Stack
from netrev_go.log.goroutines import SLEEP, goroutines_of
from netrev_go.log.points import Point, PointKind
from netrev_go.log.waits import LoggedWait, waits_of
from tests.failed_calls.test_causes import TWO_ENDS, with_lines, writes
from tests.suspects.test_suspects import Steps


def point(number: int, kind: PointKind, goroutine: int, a: int = 0, stack: int = 0) -> Point:
    return Point(number, kind, goroutine, 0, a, 0, 0, 0, stack)


def waits(*points: Point) -> list[LoggedWait]:
    """The waits from these points, in NAME.where's form for the recording's goroutines."""
    return waits_of(goroutines_of(points, STEPS, 0), NUMBERS)


NUMBERS = {17: 0, 18: 1}  # the recording's number for each goroutine, by Go's number
STEPS = [(0, 17, 4), (3, 18, 5), (3, 18, 6)]


def test_a_wait_that_ends_is_kept_where_a_step_is_in_it() -> None:
    parks, goes_on = point(1, PointKind.PARKS, 17, 1, 9), point(5, PointKind.GOES_ON, 17)
    readies = point(4, PointKind.READY, 18, 17)
    points = [point(0, PointKind.READ, 17), parks, point(3, PointKind.READ, 18), readies, goes_on]
    assert waits(*points) == [LoggedWait(4, 6, 0, "a value from a channel", 9, 1)]
    assert waits(points[0], parks, point(2, PointKind.GOES_ON, 17), points[2]) == []


def test_one_that_does_not_end_is_kept() -> None:
    points = [point(0, PointKind.READ, 17), point(1, PointKind.PARKS, 17, 3, 9)]
    assert waits(*points) == [LoggedWait(4, 0, 0, "a select", 9, -1)]


def test_they_have_the_order_of_their_ends() -> None:
    parks = [point(1, PointKind.PARKS, 17, 3, 9), point(2, PointKind.PARKS, 18, 3, 8)]
    goes_on = [point(6, PointKind.GOES_ON, 18), point(7, PointKind.GOES_ON, 17)]
    assert [wait.stack for wait in waits(*parks, *goes_on)] == [8, 9]
    assert [wait.stack for wait in waits(*parks, *goes_on[:1])] == [8, 9]


def test_a_sleep_is_none_of_these() -> None:
    assert waits(point(1, PointKind.PARKS, 17, SLEEP)) == []


def test_a_goroutine_that_the_recording_has_not_is_left_out() -> None:
    assert waits(point(1, PointKind.PARKS, 99)) == []


def hung(extra: list[dict[str, Any]], steps: Steps) -> str:
    """The output of `info hangs` at the end of these steps, with further lines of NAME.where."""
    recording = with_lines(steps)
    result = [
        {"where": 1, "steps": len(steps)},
        {"call": 1, "function": "main.main", "file": "a.go", "line": 1, "of": "program"},
        {"call": 2, "function": "sync.(*Mutex).lockSlow", "file": "sync/mutex.go", "line": 7, "of": "go"},
        {"call": 3, "function": "main.(*pool).take", "file": "a.go", "line": 44, "of": "program"},
        {"stack": 1, "calls": [1]},
        {"stack": 2, "calls": [3]},
        {"stack": 3, "calls": [2, 3]},
        {"step": 1, "stacks": [1] * len(steps)},
        {"peers": [[0, 1]]},
        *extra,
    ]
    recording.lines = SourceLines("\n".join(map(json.dumps, result)), len(steps))
    assert not recording.lines.fault, recording.lines.fault
    return "\n".join(row.text for row in hangs_table(recording, recording.length).rows)


READ: Steps = [["arrive", 1, "6869"], ["rwlock", 1, 1, "r"], ["pollreset", 1, 1, "r"], ["sysread", 1, 1, 16]]
WAKES: Steps = [*TWO_ENDS, *READ, ["rwunlock", 1, 1, "r"], *writes(0)]


def test_who_could_wake_a_call_and_waits_for_a_channel() -> None:
    text = hung([{"waits": [[9, 0, 1, "a value from a channel", 2, -1]]}], WAKES)
    assert (
        "Goroutine 0 waits for goroutine 1, which waits at a.go:44 in (*pool).take for a value from a channel since step 9."
        in text
    )
    assert "- Write at a.go:1 in main (goroutine 0) on socket 0; goroutine 1 read at the other end last" in text


def test_a_mutex_is_known_by_the_stack() -> None:
    assert "for a mutex since step 9" in hung([{"waits": [[9, 0, 1, "", 3, -1]]}], WAKES)


def test_without_it_nothing_is_said_of_that() -> None:
    text = hung([], WAKES)
    assert "since step 10 it is in no call of a socket" in text
    assert "wait for" not in text


def test_a_wait_that_is_over_is_not_told() -> None:
    assert "a.go:44" not in hung([{"waits": [[9, 12, 1, "a select", 2, 0]]}], WAKES)


def test_lines_of_no_such_form_are_a_fault() -> None:
    for waits in ([[1, 2]], [[1, 2, 3, 4, 5, 6]], 7, [["1", 0, 0, "", 0, 0]]):
        with pytest.raises(AssertionError, match="is malformed"):
            hung([{"waits": waits}], TWO_ENDS)


def test_what_a_goroutine_does() -> None:
    wait = ObjectWait(Name(3), 5, None, "", Stack((), None), begin=1_000)
    for reason, due, words in (
        (A_SLEEP, 0, "sleeps"),
        (A_SLEEP, 2_000_001_000, "sleeps for 2 s"),
        ("a select", 0, "waits for a select"),
        ("", 0, "waits"),
    ):
        assert wait._replace(reason=reason, due=due).does == words


def test_names_of_goroutines() -> None:
    for names, words in (
        ([Name(3)], "goroutine 3"),
        ([Name(5), Name(3), Name(5)], "goroutines 3 and 5"),
        ([Name(41, True), Name(3)], "goroutine 3, goid 41"),
        ([Name(number) for number in range(20)], "goroutines 0, 1, 2, 3, 4, 5, 6, 7 and 12 more"),
    ):
        assert of_names(names) == words
