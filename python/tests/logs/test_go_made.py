"""Tests the lines made from made-up logs, and tests that nrdb reads these lines. They say where channels are made, even
if one reuses another's address, and which dials fail. Other tests are about the functions that belong to the recorder
itself. No program is needed."""

import errno
import json
from typing import Any

import pytest

from netrev.recording import goroutines as where
from netrev.recording.where import SourceLines
from netrev_go.log.goroutines import (  # fmt: skip
    GENERATION,
    GIVES,
    ROOM,
    UNENDED,
    VALUE,
    At,
    Goroutines,
    LoggedChannel,
    LoggedDial,
    LoggedTimer,
)
from netrev_go.log.points import PointKind
from netrev_go.log.socket_facts import OF_IPV4
from netrev_go.log.source_lines import OF_GO, OF_THE_PROGRAM, Calls, LineCall, is_ours, outside_the_runtime
from netrev_go.log.tests_in_log import Ran
from netrev_go.steps.goroutine_records import CANCELLED, TIMED_OUT
from netrev_go.steps.scopes_of_tests import goroutines_of

from .test_go_goroutines import CHANNEL, GO_STATEMENT
from .test_go_goroutines import OF_GO as CALL_OF_GO
from .test_go_goroutines import OTHER_CHANNEL, PROGRAM, Points, cases, written

SECOND, THIRD = CHANNEL + (1 << GENERATION), CHANNEL + (2 << GENERATION)
CALLS = {4: Calls((PROGRAM,), None), 5: Calls((GO_STATEMENT,), None)}
SERVER = OF_IPV4 << 56 | (127 << 24 | 1) << 16 | 4_000  # 127.0.0.1:4000, as the recorder packs it


def used(found: Goroutines) -> list[tuple[int, int, str]]:
    """The uses of each channel, by goroutine."""
    return [(use.address, use.goroutine, use.what) for use in found.uses]


def test_who_made_a_channel_where_and_when() -> None:
    found = Points().at(3).add(PointKind.MAKES, 7, CHANNEL, b=2, stack=4).found()
    assert (found.made, found.rooms) == ({CHANNEL: LoggedChannel(7, 4, 1, 3_000)}, {CHANNEL: 2})
    assert found.stacks() == {4}


def test_one_that_is_made_at_an_address_again_is_another() -> None:
    points = Points().add(PointKind.MAKES, 7, CHANNEL, b=2).add(PointKind.SENT, 7, CHANNEL, 0, 2)
    points.add(PointKind.MAKES, 8, CHANNEL, b=1).add(PointKind.SENT, 8, CHANNEL, 0, 1).add(
        PointKind.RECEIVED, 9, CHANNEL, 1, 1
    )
    points.add(PointKind.MAKES, 9, CHANNEL, b=0).add(PointKind.CHANNEL_CLOSED, 9, CHANNEL)
    found = points.found()
    assert [making.goroutine for making in found.made.values()] == [7, 8, 9]
    assert list(found.made) == [CHANNEL, SECOND, THIRD]
    assert found.rooms == {CHANNEL: 2, SECOND: 1, THIRD: 0}
    expected = [(CHANNEL, 7, "put"), (SECOND, 8, "put"), (SECOND, 9, "took"), (THIRD, 9, "closed")]
    assert used(found) == expected


def test_one_whose_making_was_not_seen_is_another_too() -> None:
    points = Points().add(PointKind.SENT, 7, CHANNEL, 0, 2).add(PointKind.MAKES, 8, CHANNEL, b=1)
    found = points.add(PointKind.SENT, 8, CHANNEL, 0, 1).found()
    assert used(found) == [(CHANNEL, 7, "put"), (SECOND, 8, "put")]
    assert list(found.made) == [SECOND]


def test_those_of_other_addresses_stay_apart() -> None:
    points = (
        Points()
        .add(PointKind.MAKES, 7, CHANNEL)
        .add(PointKind.MAKES, 7, OTHER_CHANNEL)
        .add(PointKind.MAKES, 7, CHANNEL)
    )
    assert list(points.found().made) == [CHANNEL, OTHER_CHANNEL, SECOND]


def test_a_wait_is_at_the_channel_that_was_there_when_it_began() -> None:
    points = Points().add(PointKind.MAKES, 7, CHANNEL).add(PointKind.PARKS, 8, CHANNEL, VALUE)
    points.add(PointKind.MAKES, 7, CHANNEL).add(PointKind.PARKS, 9, CHANNEL, ROOM).add(PointKind.GOES_ON, 8)
    found = points.found()
    assert [park.objects for park in found.parks] == [(At(CHANNEL, VALUE),), (At(SECOND, ROOM),)]
    assert [park.end == UNENDED for park in found.parks] == [False, True]


def test_a_select_is_at_those_that_are_there() -> None:
    points = Points().add(PointKind.MAKES, 7, CHANNEL).add(PointKind.MAKES, 7, CHANNEL)
    points.add(PointKind.CASES, 8, CHANNEL, cases(VALUE, VALUE), OTHER_CHANNEL)
    points.add(PointKind.PARKS, 8, CHANNEL, cases(ROOM))
    (park,) = points.found().parks
    assert park.objects == (At(SECOND, VALUE), At(OTHER_CHANNEL, VALUE), At(SECOND, ROOM))


def test_a_value_that_is_handed_over_goes_through_the_one_that_is_there() -> None:
    for kind, more in ((PointKind.MET, GIVES), (PointKind.HANDED, 3)):
        points = Points().add(PointKind.MAKES, 7, CHANNEL).add(PointKind.MAKES, 7, CHANNEL)
        points.add(PointKind.PARKS, 8, CHANNEL, VALUE).add(kind, 7, CHANNEL, 8, more)
        assert used(points.found()) == [(SECOND, 7, "put"), (SECOND, 8, "took")]


def test_a_timer_has_the_channel_that_is_there() -> None:
    points = Points().add(PointKind.MAKES, 7, CHANNEL).add(PointKind.TIMER, 7, CHANNEL, 90_000)
    points.add(PointKind.MAKES, 8, CHANNEL).add(PointKind.TIMER, 8, CHANNEL, 95_000).add(PointKind.STOPPED, 8, CHANNEL)
    found = points.add(PointKind.TIMER, 9, 0, 80_000).found().timers
    assert [timer.address for timer in found] == [CHANNEL, SECOND, SECOND, 0]
    assert isinstance(found[0], LoggedTimer)


def test_nrdb_reads_where_they_were_made() -> None:
    points = (
        Points().at(3).add(PointKind.MAKES, 7, CHANNEL, b=2, stack=4).add(PointKind.SENT, 7, CHANNEL, 0, 2, stack=4)
    )
    points.at(12).add(PointKind.MAKES, 8, CHANNEL, b=1, stack=5).add(PointKind.PARKS, 9, CHANNEL, VALUE, 1, stack=4)
    points.add(PointKind.MAKES, 8, OTHER_CHANNEL, stack=5)  # a channel that isn't used
    lines = written(points.found(), CALLS)
    (at,) = lines.parks[9][0].objects
    first = at.object % 2 + 1
    assert lines.made == {
        first: where.ChannelOrigin(first, 7, 1, 1, 3_000),
        at.object: where.ChannelOrigin(at.object, 8, 2, 2, 12_000),
    }
    assert [use.goid for use in lines.uses[first]] == [7]
    assert at.object not in lines.uses
    assert (lines.objects[first].room, lines.objects[at.object].room) == (2, 1)
    assert lines.stacks[2].words() == "main.go:30 main.main"


def dials() -> Points:
    """Three failed dials: the context of the first was cancelled, the system refused the second, and the third,
    which only Go's own code made, timed out."""
    points = Points().add(PointKind.MAKES, 7, CHANNEL).add(PointKind.MAKES, 7, CHANNEL).at(3)
    points.add(PointKind.CHANNEL_CLOSED, 7, CHANNEL, stack=4)
    points.add(PointKind.DIAL_FAILED, 7, CHANNEL, CANCELLED, 0, stack=4).at(12)
    points.add(PointKind.DIAL_FAILED, 8, 0, errno.ECONNREFUSED, SERVER, stack=5)
    return points.add(PointKind.DIAL_FAILED, 9, 0, TIMED_OUT, 0, stack=6)


def test_who_dialed_where_when_and_under_which_context() -> None:
    expected = [
        LoggedDial(7, 4, 1, 4_000, CANCELLED, 0, SECOND),
        LoggedDial(8, 5, 2, 12_000, errno.ECONNREFUSED, SERVER, 0),
        LoggedDial(9, 6, 2, 13_000, TIMED_OUT, 0, 0),
    ]
    assert dials().found().dials == expected
    assert {4, 5, 6} <= dials().found().stacks()


def test_those_of_a_time() -> None:
    for begin, end, goroutines in (
        (0, None, [7, 8, 9]),
        (5_000, None, [8, 9]),
        (0, 12_500, [7, 8]),
        (5_000, 11_000, []),
    ):
        found = dials().found().during(begin, end)
        assert [dial.goroutine for dial in found.dials] == goroutines


def test_those_of_other_goroutines_are_left_out() -> None:
    assert [dial.goroutine for dial in dials().found().without({7, 9}).dials] == [8]


def test_a_dial_of_another_test_is_none_of_a_tests() -> None:
    """A test doesn't get the dial of another test's goroutine, even if that goroutine did nothing else."""
    tests = [Ran("p", "TestFirst", 8, 0, 0), Ran("p", "TestSecond", 9, 0, 0)]
    for test, goroutines in zip(tests, ([7, 8], [7, 9])):
        found = goroutines_of(test, dials().found(), tests, {})
        assert [dial.goroutine for dial in found.dials] == goroutines


def test_nrdb_reads_why_they_failed() -> None:
    lines = written(dials().found(), {**CALLS, 6: Calls((CALL_OF_GO,), None)})
    context = lines.failed_dials[7][0].context
    assert lines.failed_dials == {
        7: [where.FailedDial(7, lines.uses[context][0].stack, 1, 4_000, "cancelled", "", context)],
        8: [where.FailedDial(8, 2, 2, 12_000, "ECONNREFUSED", "127.0.0.1:4000", 0)],
    }
    assert [use.what for use in lines.uses[context]] == [where.CLOSED]
    assert set(lines.goroutines) == {7, 8}


def test_why_in_words() -> None:
    for why, words in (
        (TIMED_OUT, "timeout"),
        (CANCELLED, "cancelled"),
        (0, ""),
        (errno.EHOSTUNREACH, "EHOSTUNREACH"),
        (999_999, ""),
    ):
        lines = written(Points().add(PointKind.DIAL_FAILED, 7, 0, why).found(), {})
        assert lines.failed_dials[7][0].why == words


def test_the_newest_are_kept_where_there_isnt_room_for_all() -> None:
    points = Points()
    for goid in (7, 8, 9):
        points.add(PointKind.DIAL_FAILED, goid)
    assert list(written(points.found(), {}, most=2).failed_dials) == [8, 9]


def test_lines_of_no_such_form_are_a_fault() -> None:
    first: list[Any] = [{"where": 2, "steps": 3}, {"call": 1, **PROGRAM._asdict()}, {"stack": 1, "calls": [1]}]
    good: dict[str, list[Any]] = {
        "channels": [1, 7, 1, 2, 3], "failed_dials": [7, 1, 2, 3, "EPIPE", "127.0.0.1:80", 0],
    }  # fmt: skip
    for name, row in good.items():
        untyped = [[[*row[:at], None, *row[at + 1 :]]] for at in range(len(row))]
        for rows in ([row], row, 7, [row[:-1]], [[*row, 1]], *untyped):
            read = SourceLines("\n".join(map(json.dumps, [*first, {name: rows}])), 3)
            assert read.fault == ("" if rows == [row] else "line 4 is malformed"), (name, rows)
            assert not read.fault or not (read.made or read.failed_dials)


@pytest.mark.parametrize(
    "function, of, is_so",
    [
        ("runtime.netrevHolds", OF_GO, True),
        ("sync.runtime_netrevLocked", OF_GO, True),
        ("internal/sync.(*Mutex).netrevLock", OF_GO, True),
        ("net.netrevDialed.func1", OF_GO, True),
        ("sync.(*Mutex).Lock", OF_GO, False),
        ("main.netrevLocked", OF_THE_PROGRAM, False),
        ("example.com/netrev.(*Pool).Get", OF_GO, False),
    ],
)
def test_which_functions_are_the_recorders(function: str, of: Any, is_so: bool) -> None:
    assert is_ours(LineCall(function, "a.go", 3, of)) is is_so


def test_a_stack_has_none_of_them() -> None:
    ours, lock = LineCall("sync.runtime_netrevLocked", "sync/mutex.go", 9, OF_GO), LineCall(
        "sync.(*Mutex).Lock", "sync/mutex.go", 40, OF_GO
    )
    assert outside_the_runtime([ours, lock, PROGRAM]) == (lock, PROGRAM)
