"""The mutexes that are locked when a log ends: the table of a made-up log becomes steps and lines, which nrdb reads. No
program is needed."""

import json
import struct
from collections.abc import Sequence
from typing import Any

import pytest

from dev.fuzz.generators.logs import STACKS, HolderRow, binary
from netrev.recording import goroutines as where
from netrev.recording.where import SourceLines
from netrev_go.log.goroutines import MUTEX, READ_LOCK, Goroutines, LoggedMutex, goroutines_of
from netrev_go.log.logfile import HEADER_BYTES, HOLDER_BEGUN, HOLDER_BYTES, MOST_HOLDERS, MOST_STACKS, NotALogError
from netrev_go.log.points import Log, LoggedHolder, PointKind, PointStack
from netrev_go.log.source_lines import Calls
from netrev_go.steps.goroutine_records import HELD
from netrev_go.steps.recording_builder import make

from .test_go_goroutines import OF_GO, PROGRAM, STEPS, Points, written
from .test_go_logs import opened, read

LOCK, OTHER_LOCK = 0xC000_1000, 0xC000_2000
PLACE_OF_ROWS, PLACE_OF_KNOWN = 12 * 8, 14 * 8  # in a log's header


def log_of(rows: Sequence[HolderRow] | None, lost: int = 0) -> Log:
    """A log of a socket, with this table of locked mutexes."""
    return read(binary(opened(1), {3: PointStack(0, 0, (700,))}, holders=rows, holders_lost=lost))


def test_who_holds_a_mutex_and_from_which_calls() -> None:
    log = log_of([HolderRow(0), HolderRow(LOCK, 7, False, 5, (11, 12, 13))])
    assert log.holders == [LoggedHolder(LOCK, 7, False, 5, MOST_STACKS + 2)]
    assert log.stacks == {3: PointStack(0, 0, (700,)), MOST_STACKS + 2: PointStack(0, 0, (11, 12, 13))}


def test_one_without_calls_has_no_stack() -> None:
    assert log_of([HolderRow(LOCK, 7, False, 5)]).holders == [LoggedHolder(LOCK, 7, False, 5, 0)]


def test_as_many_calls_as_a_row_has_room_for() -> None:
    calls = tuple(range(1, 13))
    log = log_of([HolderRow(LOCK, 7, False, 5, calls)])
    assert [stack.calls for number, stack in log.stacks.items() if number != 3] == [calls]


def test_of_two_rows_of_a_mutex_the_later_counts() -> None:
    """The memory of a mutex that was left locked may have been reused."""
    for passed, holder in (((5, 9), 8), ((9, 5), 7)):
        rows = [HolderRow(LOCK, goid, False, at) for goid, at in zip((7, 8), passed)]
        assert [holder.goroutine for holder in log_of(rows).holders or ()] == [holder]


def test_each_reader_counts_and_each_time_that_one_reads() -> None:
    rows = [HolderRow(LOCK, goid, True, 5) for goid in (7, 8, 7)] + [HolderRow(OTHER_LOCK, 9, False, 6)]
    held = [(holder.address, holder.goroutine, holder.is_reader) for holder in log_of(rows).holders or ()]
    assert held == [(LOCK, 7, True), (LOCK, 8, True), (LOCK, 7, True), (OTHER_LOCK, 9, False)]


def test_a_writer_and_readers_of_a_mutex_are_apart() -> None:
    rows = [HolderRow(LOCK, 7, True, 5), HolderRow(LOCK, 8, False, 6)]
    assert [holder.goroutine for holder in log_of(rows).holders or ()] == [7, 8]


def test_a_row_that_is_being_written_is_left_out() -> None:
    rows = [HolderRow(HOLDER_BEGUN, 7, False, 5), HolderRow(LOCK, 8, False, 6)]
    assert [holder.goroutine for holder in log_of(rows).holders or ()] == [8]


def test_a_row_of_more_calls_than_there_is_room_for_is_left_out() -> None:
    data = bytearray(binary(opened(1), holders=[HolderRow(LOCK, 7), HolderRow(OTHER_LOCK, 8)]))
    struct.pack_into("<Q", data, HEADER_BYTES + STACKS * 256 + 3 * 8, 13)
    assert [holder.goroutine for holder in read(bytes(data)).holders or ()] == [8]


def test_a_table_without_rows_says_that_none_is_locked() -> None:
    assert log_of([]).holders == []
    assert log_of([HolderRow(0)]).holders == []


def test_without_a_table_it_isnt_known() -> None:
    assert log_of(None).holders is None


def test_once_a_row_was_lost_it_isnt_known() -> None:
    assert log_of([HolderRow(LOCK, 7, False, 5)], lost=1).holders is None


def test_a_table_that_the_recorder_hasnt_begun_isnt_known() -> None:
    data = bytearray(binary(opened(1), holders=[HolderRow(LOCK, 7, False, 5)]))
    struct.pack_into("<Q", data, PLACE_OF_KNOWN, 0)
    assert read(bytes(data)).holders is None


def test_the_points_come_after_the_table() -> None:
    log = log_of([HolderRow(LOCK, 7, False, 5)] * 3)
    assert [point.kind for point in log.points] == [PointKind.INIT, PointKind.OPEN]


def test_a_log_that_ends_in_the_table_has_what_is_whole() -> None:
    rows = [HolderRow(LOCK, 7, False, 5, (11,)), HolderRow(OTHER_LOCK, 8, False, 6, (12,))]
    data = binary(opened(1), holders=rows)
    log = read(data[: HEADER_BYTES + STACKS * 256 + HOLDER_BYTES + 40])
    assert ([holder.goroutine for holder in log.holders or ()], log.points) == ([7], [])


def test_a_table_that_is_too_large_is_none_of_a_log() -> None:
    data = bytearray(binary(opened(1)))
    struct.pack_into("<Q", data, PLACE_OF_ROWS, MOST_HOLDERS + 1)
    with pytest.raises(NotALogError, match="its header is damaged"):
        read(bytes(data))


def held_of(holders: list[LoggedHolder] | None) -> list[LoggedMutex] | None:
    """The held mutexes of a log without points, for a recording with the steps of `STEPS`."""
    return goroutines_of([], STEPS, 0, holders).held


@pytest.mark.parametrize("passed, step", [(0, 0), (1, 1), (10, 1), (11, 2), (20, 2), (21, 3), (500, 3)])
def test_a_mutex_was_locked_after_the_steps_of_the_points_before(passed: int, step: int) -> None:
    held = held_of([LoggedHolder(LOCK, 7, True, passed, 4)])
    assert held == [LoggedMutex(LOCK, 7, True, 4, step)]


def test_a_log_that_doesnt_know_holders_has_none() -> None:
    assert held_of(None) is None
    assert held_of([]) == []


def test_their_stacks_are_looked_up() -> None:
    found = Goroutines(held=[LoggedMutex(LOCK, 7, False, 4, 1)])
    assert found.stacks() == {4}


def test_a_recording_has_those_of_its_log() -> None:
    found = make(log_of([HolderRow(LOCK, 7, False, 2, (11,))])).everybody.held
    assert found == [LoggedMutex(LOCK, 7, False, MOST_STACKS + 1, 2)]


def waits(what: int, address: int, stack: int = 4) -> Goroutines:
    """A goroutine that waits for a mutex, given the address of the mutex's semaphore."""
    return Points().at(3).add(PointKind.PARKS, 9, address, what, stack=stack).found()


def test_nrdb_reads_which_mutexes_are_held() -> None:
    found = waits(MUTEX, LOCK + 4)
    found.held = [LoggedMutex(LOCK, 7, False, 5, 2), LoggedMutex(OTHER_LOCK, 8, True, 5, 3)]
    lines = written(found, {4: Calls((PROGRAM,), None), 5: Calls((PROGRAM,), None)})
    (at,) = lines.parks[9][0].objects
    other = at.object % 2 + 1
    expected = {
        at.object: [where.HeldMutex(at.object, 7, "", 2, 2)], other: [where.HeldMutex(other, 8, where.READ, 2, 3)],
    }  # fmt: skip
    assert lines.held == expected
    assert (lines.stacks[2].words(), set(lines.goroutines)) == ("main.go:7 main.work", {7, 8, 9})


def test_all_readers_of_a_mutex_are_kept() -> None:
    found = waits(READ_LOCK, LOCK + 12)
    found.held = [LoggedMutex(LOCK, goid, True, 4, 1) for goid in (7, 8, 7)]
    lines = written(found, {4: Calls((PROGRAM,), None)})
    (at,) = lines.parks[9][0].objects
    assert [line.goid for line in (lines.held or {})[at.object]] == [7, 8, 7]


def test_that_none_is_held_is_said() -> None:
    found = waits(MUTEX, LOCK + 4)
    found.held = []
    assert written(found, {}).held == {}


def test_that_it_isnt_known_is_said_by_no_line() -> None:
    assert written(waits(MUTEX, LOCK + 4), {}).held is None


def test_of_gos_own_mutexes_those_are_kept_at_which_a_goroutine_waits() -> None:
    calls = {4: Calls((PROGRAM,), None), 6: Calls((OF_GO,), None)}
    found = waits(MUTEX, LOCK + 4)
    found.held = [LoggedMutex(LOCK, 7, False, 6, 1), LoggedMutex(OTHER_LOCK, 8, False, 6, 1)]
    lines = written(found, calls)
    assert [item.goid for some in (lines.held or {}).values() for item in some] == [7]
    assert set(lines.goroutines) == {7, 9}


def test_those_of_a_goroutine_of_the_recording_are_kept() -> None:
    found = Points().found()
    found.held = [LoggedMutex(OTHER_LOCK, 8, False, 6, 1)]
    lines = written(found, {4: Calls((PROGRAM,), None), 6: Calls((OF_GO,), None)}, {8: 0})
    assert [item.goid for some in (lines.held or {}).values() for item in some] == [8]


def test_the_newest_are_kept_where_there_isnt_room_for_all() -> None:
    found = Points().found()
    found.held = [LoggedMutex(LOCK + 16 * at, 7 + at, False, 4, 1) for at in range(5)]
    lines = written(found, {4: Calls((PROGRAM,), None)}, most=2)
    assert [item.goid for some in (lines.held or {}).values() for item in some] == [10, 11]


def test_lines_of_no_such_form_are_a_fault() -> None:
    first: list[Any] = [{"where": 2, "steps": 3}, {"call": 1, **PROGRAM._asdict()}, {"stack": 1, "calls": [1]}]
    good = [1, 7, where.READ, 1, 2]
    untyped = [[[*good[:at], None, *good[at + 1 :]]] for at in range(len(good))]
    for rows in ([good], [], good, 7, [good[:-1]], [[*good, 1]], *untyped):
        fault = "" if rows in ([good], []) else "line 4 is malformed"
        read_back = SourceLines("\n".join(map(json.dumps, [*first, {HELD: rows}])), 3)
        assert read_back.fault == fault, rows
        assert not fault or read_back.held is None
    two = SourceLines("\n".join(map(json.dumps, [*first, {HELD: [good]}, {HELD: [[2, 8, "", 1, 3]]}])), 3)
    assert [item.goid for some in (two.held or {}).values() for item in some] == [7, 8]
    unknown_stack = SourceLines("\n".join(map(json.dumps, [*first, {HELD: [[1, 7, "", 9, 2]]}])), 3)
    assert (unknown_stack.held or {})[1][0].stack == 0
