"""All goroutines of a log, as written to NAME.where and read by nrdb: made-up logs of a few points, and of a hundred
thousand goroutines. No program is needed."""

import json
import pathlib
import tempfile
from typing import Any

import pytest

from dev.fuzz.generators.logs import binary
from netrev.recording import goroutines as where
from netrev.recording.goroutines import GoGoroutine, LeftOut, Object
from netrev.recording.where import SourceCall, SourceLines
from netrev_go.go_command.toolchain import Go
from netrev_go.log import source_lines
from netrev_go.log.goroutines import (  # fmt: skip
    BY_GO,
    GIVES,
    MUTEX,
    NEVER,
    OF_A_WAIT_GROUP,
    OTHER,
    READ_LOCK,
    ROOM,
    SELECT,
    SEMAPHORE,
    SLEEP,
    TAKES,
    UNENDED,
    VALUE,
    WAIT_GROUP,
    WRITE_LOCK,
    At,
    Born,
    Goroutines,
    LoggedPark,
    LoggedTimer,
    Used,
    UseSpan,
    goroutines_of,
)
from netrev_go.log.points import Point, PointKind, PointStack
from netrev_go.log.source_lines import Calls, LineCall
from netrev_go.steps import conversion
from netrev_go.steps.conversion import RecordingOptions, convert
from netrev_go.steps.goroutine_records import MOST, Everybody, kept, newest
from netrev_go.steps.where import write_where

from .test_go_logs import opened

CHANNEL, OTHER_CHANNEL, CONDITION = 5_000, 6_000, 7_000
STEPS = [(0, 1, 1), (10, 1, 2), (20, 1, 3)]


class Points:
    """Points of a log, each of which is a microsecond after the previous point."""

    def __init__(self) -> None:
        self.points: list[Point] = []

    def add(self, kind: PointKind, g: int, at: int = 0, a: int = 0, b: int = 0, c: int = 0, stack: int = 0) -> "Points":
        number = len(self.points)
        self.points.append(Point(number, kind, g, at, a, b, c, 1_000 * number, stack))
        return self

    def at(self, number: int) -> "Points":
        """Sets the number of the next point."""
        while len(self.points) < number:
            self.add(PointKind.READY, 0, 0, 99)
        return self

    def found(self) -> Goroutines:
        return goroutines_of(self.points, STEPS, 0)


def cases(*uses: int) -> int:
    """The value in a select's point that encodes the uses of its channels."""
    return SELECT | sum(use << 8 + 2 * place for place, use in enumerate(uses))


def test_a_goroutine_without_steps_waits_too() -> None:
    points = Points().at(3).add(PointKind.PARKS, 7, 0, SLEEP, stack=4).at(15).add(PointKind.GOES_ON, 7)
    assert points.found().parks == [LoggedPark(7, 1, 2, 3_000, 15_000, SLEEP, 4, 0, ())]


def test_until_when_it_sleeps() -> None:
    for due, known in ((90_000, 90_000), (2_000, 0)):  # (a synctest bubble has another clock)
        points = Points().at(3).add(PointKind.PARKS, 7, 0, SLEEP, due)
        assert points.found().parks[0].due == known


def test_timers() -> None:
    points = Points().at(3).add(PointKind.TIMER, 7, CHANNEL, 90_000, stack=4).at(15).add(PointKind.TIMER, 8, 0, 80_000)
    assert points.found().timers == [
        LoggedTimer(CHANNEL, 7, 4, 1, 3_000, 90_000),
        LoggedTimer(0, 8, 0, 2, 15_000, 80_000),
    ]


def test_one_that_waits_to_the_end_has_no_end() -> None:
    points = Points().at(3).add(PointKind.PARKS, 7, 400, MUTEX, stack=4)
    assert points.found().parks == [LoggedPark(7, 1, UNENDED, 3_000, UNENDED, MUTEX, 4, 0, (At(400, 0),))]


def test_who_made_it_ready_is_known_in_this_wait_alone() -> None:
    points = (
        Points()
        .at(3)
        .add(PointKind.READY, 8, 0, 7)
        .add(PointKind.PARKS, 7)
        .add(PointKind.READY, 9, 0, 7)
        .add(PointKind.GOES_ON, 7)
    )
    points.add(PointKind.PARKS, 7).add(PointKind.GOES_ON, 7)
    assert [park.by for park in points.found().parks] == [9, 0]


def test_a_select_has_each_of_its_channels() -> None:
    points = Points().at(3).add(PointKind.CASES, 7, 1, cases(VALUE, VALUE, ROOM), 2, 3)
    points.add(PointKind.PARKS, 7, 4, cases(ROOM, 0), 5).add(PointKind.GOES_ON, 7).add(
        PointKind.PARKS, 7, 6, cases(VALUE)
    )
    expected = [(At(1, VALUE), At(2, VALUE), At(3, ROOM), At(4, ROOM), At(5, 0)), (At(6, VALUE),)]
    assert [park.objects for park in points.found().parks] == expected


def test_who_made_it_and_its_end() -> None:
    points = Points().at(3).add(PointKind.READY, 1, 0, 7, BY_GO).at(15).add(PointKind.ENDS, 7)
    found = points.found()
    assert (found.born, found.ended) == ({7: Born(1, 1, 3_000)}, {7: (2, 15_000)})


def uses(points: Points, address: int = CHANNEL) -> dict[tuple[int, str, int], int]:
    """How often goroutines used the channel, by goroutine, action, and stack."""
    found = points.found().uses
    assert {use.address for use in found} <= {address}
    return {(use.goroutine, use.what, use.stack): span.often for use, span in found.items()}


def test_what_goes_through_a_buffer() -> None:
    points = (
        Points().at(3).add(PointKind.SENT, 7, CHANNEL, 0, 2, stack=4).add(PointKind.SENT, 7, CHANNEL, 1, 2, stack=4)
    )
    points.at(15).add(PointKind.RECEIVED, 8, CHANNEL, 2, 2, stack=5).add(PointKind.SENT, 7, CHANNEL, 1, 2, stack=4)
    assert uses(points) == {(7, "put", 4): 3, (8, "took", 5): 1}
    found = points.found()
    assert found.uses[Used(CHANNEL, 7, "put", 4)] == UseSpan(3, 1, 2, 3_000, 16_000)
    assert found.rooms == {CHANNEL: 2}


def test_what_goes_from_one_to_the_other() -> None:
    for way, mine, other in ((GIVES, "put", "took"), (TAKES, "took", "put")):
        points = Points().add(PointKind.PARKS, 8, CHANNEL, SELECT, stack=5)
        assert uses(points.add(PointKind.MET, 7, CHANNEL, 8, way, stack=4)) == {(7, mine, 4): 1, (8, other, 5): 1}


def test_a_log_of_before_says_it_by_the_wait() -> None:
    for what, expected in ((VALUE, {(7, "put", 0): 1, (8, "took", 5): 1}), (SELECT, {})):
        points = Points().add(PointKind.PARKS, 8, 0, what, stack=5).add(PointKind.MET, 7, CHANNEL, 8)
        assert uses(points) == expected


def test_who_waits_at_a_buffer_is_handed_the_value() -> None:
    points = (
        Points().add(PointKind.PARKS, 8, CHANNEL, VALUE, 3, stack=5).add(PointKind.HANDED, 7, CHANNEL, 8, 3, stack=4)
    )
    assert uses(points) == {(7, "put", 4): 1, (8, "took", 5): 1}


def test_who_gives_a_value_ends_the_wait() -> None:
    for kind in (PointKind.HANDED, PointKind.MET):
        points = Points().add(PointKind.PARKS, 8, CHANNEL, VALUE, 3, stack=5).add(kind, 7, CHANNEL, 8, GIVES)
        assert [park.by for park in points.add(PointKind.GOES_ON, 8).found().parks] == [7]


def test_closes() -> None:
    points = Points().add(PointKind.CHANNEL_CLOSED, 7, CHANNEL, 0, 3, stack=4).add(PointKind.FOUND_CLOSED, 8, CHANNEL)
    assert uses(points) == {(7, "closed", 4): 1, (8, "ended", 0): 1}


def test_a_wait_group_has_what_is_added_and_taken_off() -> None:
    points = Points().add(PointKind.GROUP, 7, CHANNEL, 3, 3, stack=4).add(PointKind.GROUP, 7, CHANNEL, 2, 5, stack=4)
    points.add(PointKind.GROUP, 8, CHANNEL, -1, 4, stack=5)
    assert uses(points, CHANNEL + OF_A_WAIT_GROUP) == {(7, "added", 4): 5, (8, "done", 5): 1}


def test_a_timer_that_is_stopped_never_goes_off() -> None:
    points = Points().add(PointKind.TIMER, 7, CHANNEL, 90_000, stack=4).add(PointKind.STOPPED, 8, CHANNEL, stack=5)
    points.add(PointKind.TIMER, 8, CHANNEL, 95_000, stack=6)
    found = points.found().timers
    assert [(item.goroutine, item.stack, item.due) for item in found] == [(7, 4, 90_000), (8, 5, NEVER), (8, 6, 95_000)]


def test_those_of_a_time() -> None:
    points = Points().at(3).add(PointKind.PARKS, 7).at(5).add(PointKind.GOES_ON, 7).at(8).add(PointKind.PARKS, 8)
    for begin, end, expected in (
        (0, None, [7, 8]), (6_000, None, [8]), (4_000, 7_000, [7]), (6_000, 7_000, []), (9_000, 9_500, [8]),
    ):  # fmt: skip
        found = points.found().during(begin, end)
        assert [park.goroutine for park in found.parks] == expected


PROGRAM = LineCall("main.work", "main.go", 7, "program")
GO_STATEMENT = LineCall("main.main", "main.go", 30, "program")
OF_GO = LineCall("net/http.(*persistConn).readLoop", "net/http/transport.go", 9, "go")


def of_sync(*names: str) -> Calls:
    """A stack in which the program calls these functions of package sync, the innermost first."""
    return Calls((*(LineCall(name, "sync/x.go", 3, "go") for name in names), PROGRAM), None)


def written(
    found: Goroutines, calls: dict[int, Calls], numbers: dict[int, int] | None = None, most: int = MOST
) -> SourceLines:
    """The file for a recording of three steps, as nrdb reads it."""
    with tempfile.TemporaryDirectory() as folder:
        path = pathlib.Path(folder, "x.where")
        numbers = numbers or {}
        everybody = Everybody(found, kept(found, numbers, calls, most), numbers, {})
        write_where(path, [0] * 3, calls, everybody=everybody)
        read = SourceLines.beside(str(path), 3)
        assert not read.fault, read.fault
        return read


def test_nrdb_reads_what_is_written() -> None:
    calls = {4: Calls((PROGRAM,), GO_STATEMENT), 5: Calls((PROGRAM,), None)}
    points = Points().at(3).add(PointKind.READY, 5, 0, 7, BY_GO).add(PointKind.PARKS, 7, CHANNEL, VALUE, 3, stack=4)
    points.at(15).add(PointKind.SENT, 5, CHANNEL, 0, 3, stack=5).add(PointKind.READY, 5, 0, 7).add(PointKind.GOES_ON, 7)
    points.add(PointKind.ENDS, 7).add(PointKind.PARKS, 5, OTHER_CHANNEL, cases(ROOM), stack=5)
    points.add(PointKind.TIMER, 7, CHANNEL, 90_000, stack=4).add(PointKind.PARKS, 9, 0, SLEEP, 70_000, stack=4)
    read = written(points.found(), calls, {5: 0})
    park = where.Park(7, 1, 2, 4_000, 17_000, where.A_VALUE, 1, 5, (where.At(1, where.FOR_VALUE),))
    still = where.Park(5, 2, -1, 19_000, -1, where.A_SELECT, 2, 0, (where.At(2, where.FOR_ROOM),))
    sleep = where.Park(9, 3, -1, 21_000, -1, where.A_SLEEP, 1, 0, (), 70_000)
    assert read.parks == {7: [park], 5: [still], 9: [sleep]}
    assert read.timers == {1: [where.Timer(1, 7, 1, 2, 20_000, 90_000)]}
    assert not read.timers[1][0].is_stopped
    assert read.stacks[1].words() == "main.go:7 main.work"
    source_call = SourceCall(*GO_STATEMENT)
    assert read.goroutines[7] == GoGoroutine(7, -1, source_call, 5, 1, 2, 3_000, 18_000)
    assert read.goroutines[5] == GoGoroutine(5, 0, None, 0, -1, -1, -1, -1)
    assert read.objects == {1: Object(1, "channel", 3), 2: Object(2, "channel", -1)}
    assert read.uses == {1: [where.ObjectUse(1, 5, where.PUT, 2, 1, 2, 2, 15_000, 15_000)]}
    assert (read.goid_of(0), read.goid_of(1), read.left_out) == (5, 0, [])
    at = [read.park_of(7, position) for position in (0, 1, 2)]
    assert at == [None, park, None]
    assert [read.park_of(5, position) for position in (1, 2, 3)] == [None, still, still]


def test_a_wait_group_is_one_object_by_its_waits_and_by_what_is_added() -> None:
    points = Points().add(PointKind.GROUP, 7, 900, 1, 1, stack=4).add(PointKind.PARKS, 8, 908, WAIT_GROUP, stack=4)
    points.add(PointKind.STOPPED, 7, CHANNEL, stack=4)
    read = written(points.found(), {4: Calls((PROGRAM,), None)})
    (at,) = read.parks[8][0].objects
    assert (read.objects[at.object].sort, [use.what for use in read.uses[at.object]]) == ("WaitGroup", [where.ADDED])
    assert [timer.is_stopped for some in read.timers.values() for timer in some] == [True]


def test_a_file_without_them_has_the_first_form(folder: pathlib.Path) -> None:
    path = folder / "x.where"
    write_where(path, [0] * 3, {})
    assert json.loads(path.read_text().splitlines()[0]) == {"where": 1, "steps": 3}
    read = SourceLines.beside(str(path), 3)
    assert (read.fault, read.parks, read.goroutines, read.objects) == ("", {}, {}, {})


def test_what_is_of_gos_own_code_alone_is_left_out() -> None:
    calls = {4: Calls((PROGRAM,), None), 5: Calls((OF_GO,), None), 6: Calls((OF_GO,), GO_STATEMENT)}
    points = Points()
    for goid, stack in ((11, 4), (12, 5), (13, 6), (14, 5), (15, 0)):
        points.add(PointKind.PARKS, goid, 0, OTHER, stack=stack)
    assert list(written(points.found(), calls, {14: 0}).parks) == [11, 13, 14]
    assert list(written(points.found(), {}).parks) == [11, 12, 13, 14, 15]


def test_a_lock_is_known_by_the_reason_or_by_the_stack() -> None:
    lock = 800  # of an RWMutex, and thus of its mutex
    stacks = {
        1: of_sync("sync.(*Mutex).lockSlow", "sync.(*Mutex).Lock"), 2: of_sync("sync.(*RWMutex).RLock"),
        3: of_sync("internal/sync.(*Mutex).lockSlow", "sync.(*RWMutex).Lock"), 4: of_sync("sync.(*RWMutex).Lock"),
        5: of_sync("sync.runtime_Semacquire", "sync.(*WaitGroup).Wait"), 6: of_sync("sync.runtime_Semacquire"),
    }  # fmt: skip
    wanted = {
        1: (MUTEX, lock + 4, where.A_MUTEX), 2: (READ_LOCK, lock + 12, where.A_READ_LOCK),
        3: (MUTEX, lock + 4, where.A_WRITE_LOCK), 4: (WRITE_LOCK, lock + 8, where.A_WRITE_LOCK),
        5: (WAIT_GROUP, 908, where.A_WAIT_GROUP), 6: (SEMAPHORE, 1_000, where.A_SEMAPHORE),
    }  # fmt: skip
    for is_known in (True, False):  # found by the reason, as since Go 1.20, or only by the stack
        points = Points()
        for stack, (what, address, _) in wanted.items():
            points.add(PointKind.PARKS, 10 + stack, address, what if is_known else SEMAPHORE, stack=stack)
        read = written(points.found(), stacks)
        parks = [read.parks[10 + stack][0] for stack in stacks]
        assert [park.reason for park in parks] == [reason for _, _, reason in wanted.values()]
        objects = [read.objects[park.objects[0].object] for park in parks]
        assert len(set(objects[:4])) == 1
        assert [item.sort for item in objects[3:]] == ["RWMutex", "WaitGroup", "semaphore"]
    points = Points().add(PointKind.PARKS, 11, 0, OTHER, stack=1)  # as in an older log
    assert written(points.found(), stacks).parks[11][0].reason == where.A_MUTEX


def test_lines_of_no_such_form_are_a_fault() -> None:
    first: list[Any] = [{"where": 2, "steps": 3}, {"call": 1, **PROGRAM._asdict()}, {"stack": 1, "calls": [1]}]
    good: dict[str, list[Any]] = {
        "goroutines": [7, -1, 1, 5, 1, 2, 3, 4], "parks": [7, 1, 2, 3, 4, "a select", 1, 5, [[1, "value"]]],
        "objects": [1, "channel", 3], "uses": [1, 5, "put", 1, 1, 2, 2, 3, 3], "left_out": ["a select", 1, 3, 4],
        "timers": [1, 5, 1, 2, 3, 4],
    }  # fmt: skip
    for name, value in good.items():
        untyped = [[[*value[:at], None, *value[at + 1 :]]] for at in range(len(value))]
        for wrong in ([value], value, 7, [value[:-1]], [[*value, 1]], *untyped):
            lines_of_file = "\n".join(map(json.dumps, [*first, {name: wrong}]))
            fault = "" if wrong == [value] or wrong == [[*good["parks"], 1]] else "line 4 is malformed"
            assert SourceLines(lines_of_file, 3).fault == fault, (name, wrong)
    unknown = {"goroutines": [[7, -1, 9, 5, 1, 2, 3, 4]]}
    assert "line 4" in SourceLines("\n".join(map(json.dumps, [*first, unknown])), 3).fault
    parks = {"parks": [[7, 1, 2, 3, 4, "a select", 9, 5, []]]}
    assert SourceLines("\n".join(map(json.dumps, [*first, parks])), 3).parks[7][0].stack == 0


def test_those_that_wait_still_come_first_and_then_the_newest() -> None:
    waits = [True, False, True, False, False]
    for most, expected in ((12, "11111"), (8, "10111"), (4, "10101"), (2, "10100"), (1, "00100"), (0, "00000")):
        assert "".join(str(int(item)) for item in newest(waits, most)) == expected


def test_what_is_left_out_is_counted() -> None:
    calls = {4: Calls((PROGRAM,), GO_STATEMENT)}
    points = Points()
    for goid in range(11, 16):
        points.add(PointKind.PARKS, goid, CHANNEL, VALUE, stack=4)
    points.add(PointKind.GOES_ON, 11).add(PointKind.GOES_ON, 12)
    read = written(points.found(), calls, most=2)
    assert (list(read.parks), list(read.goroutines)) == ([14, 15], [14, 15])
    assert read.left_out == [LeftOut(where.A_VALUE, 1, 1, 2)]


def test_of_those_that_are_over_a_quarter_as_many_are_kept() -> None:
    points = Points()
    for _ in range(64):
        points.add(PointKind.PARKS, 11, CHANNEL, VALUE).add(PointKind.GOES_ON, 11)
    points.add(PointKind.PARKS, 11, CHANNEL, VALUE)
    read = written(points.found(), {}, most=64)
    assert (len(read.parks[11]), read.parks[11][-1].last) == (17, UNENDED)
    assert read.left_out == [LeftOut(where.A_VALUE, 0, 0, 48)]


def test_a_program_of_a_hundred_thousand_goroutines_has_room(
    folder: pathlib.Path, monkeypatch: pytest.MonkeyPatch
) -> None:
    """Each of the goroutines waits on its own channel until the end, and some of them slept before that. One further
    goroutine has steps."""
    count, sleepers = 100_000, 1_000
    points = list(opened(1))
    for goid in range(10, count + 10):
        slept = ((PointKind.PARKS, SLEEP), (PointKind.GOES_ON, 0)) if goid < sleepers + 10 else ()
        for kind, a in (*slept, (PointKind.PARKS, VALUE)):
            number = len(points)
            points.append(Point(number, kind, goid, goid * 96 if a == VALUE else 0, a, 0, 0, 1_000 * number, 3))
    log, name = folder / "log.1", folder / "x.jsonl"
    log.write_bytes(binary(points, {3: PointStack(500, 600, (700,))}))
    (folder / "log.program.0.0").touch()
    symbols = {699: ("main.work", "/x/main.go", 7), 499: ("main.main", "/x/main.go", 30)}
    go = Go("go", pathlib.Path("/nowhere"), "go1", "linux/amd64", "")
    with monkeypatch.context() as patch:
        patch.setattr(source_lines, "shift", lambda *_, **__: 0)
        patch.setattr(source_lines, "looked_up", lambda *_, **__: symbols)
        patch.setattr(conversion, "report", lambda *_, **__: (True, []))
        convert(log, name, go, RecordingOptions())
    size = name.with_suffix(".where").stat().st_size
    read = SourceLines.beside(str(name), 2)
    assert read.fault == ""
    assert size < 8 * 2**20
    assert sum(map(len, read.parks.values())) == MOST
    assert max(read.parks) == count + 9
    assert all(park.last == UNENDED for parks in read.parks.values() for park in parks)
    assert len(read.goroutines) == MOST
    left = {item.reason: (item.waiting, item.ended) for item in read.left_out}
    assert left == {where.A_VALUE: (count - MOST, 0), where.A_SLEEP: (0, sleepers)}
