"""Calls that have waited long, found in the tables of a log; and a log that is copied while it is written. No program
is needed."""

import argparse
import io
import pathlib
import re
import struct
import time

import pytest

from dev.fuzz.generators.logs import binary
from netrev_go.log.logfile import Header, copy_of, log_of, read_log
from netrev_go.log.notes import ARMED, PARKED
from netrev_go.log.points import Log, Point, PointKind
from netrev_go.log.source_lines import OF_GO, OF_THE_PROGRAM, Calls, LineCall
from netrev_go.log.times import seconds
from netrev_go.options import check, of_a_process, parser
from netrev_go.snapshots import LOCKS, READS, WRITES, SocketWait, Watch, waiting_in
from netrev_go.steps.conversion import program_of

ROWS, QUEUE = 4, 2
COPIED = 17  # the word of the header that marks a copy
WORD = 0xC000012340
Side = tuple[int, int, int, int]  # place, goroutine, stack and begin
NOBODY: Side = (0, 0, 0, 0)
OWN = LineCall("main.ask", "main.go", 7, OF_THE_PROGRAM)
READ_OF_GO = LineCall("internal/poll.(*FD).Read", "internal/poll/fd_unix.go", 170, OF_GO)
ACCEPT_OF_GO = READ_OF_GO._replace(function="internal/poll.(*FD).Accept")


def row(word: int, reading: Side = NOBODY, writing: Side = NOBODY) -> bytes:
    return struct.pack("<16Q", 1, word, *reading, *writing, *(0,) * 6)


def log_with(rows: list[bytes], queue: list[tuple[int, ...]] = [], points: list[Point] = []) -> bytes:
    """A log with these tables."""
    text = bytearray(binary(points, room=16))
    begin = Header(bytes(text)).ring
    struct.pack_into("<2Q", text, 15 * 8, ROWS, QUEUE)
    tables = b"".join(rows).ljust(ROWS * 128, b"\0")
    tables += b"".join(struct.pack("<8Q", *item, 0, 0, 0) for item in queue).ljust(QUEUE * 64, b"\0")
    return bytes(text[:begin]) + tables + bytes(text[begin:])


def waits(text: bytes) -> list[SocketWait]:
    return list(waiting_in(io.BytesIO(text), Header(text)))


def test_who_waits() -> None:
    rows = [row(WORD, (PARKED, 41, 3, 900)), row(WORD + 64, NOBODY, (PARKED, 42, 0, 800))]
    found = waits(log_with(rows, [(WORD + 8, 1, 43, 4, 700), (WORD + 12, 2, 44, 5, 600)]))
    assert found == [
        SocketWait(41, READS, 3, 900, WORD), SocketWait(42, WRITES, 0, 800, WORD + 64), SocketWait(43, LOCKS, 4, 700, WORD), SocketWait(44, LOCKS, 5, 600, WORD),
    ]  # fmt: skip


def test_one_that_has_not_parked_or_whose_socket_is_gone_does_not() -> None:
    assert waits(log_with([row(WORD, (ARMED, 41, 3, 900)), row(0, (PARKED, 42, 3, 900))])) == []


def test_logs_of_before_have_no_such_tables() -> None:
    assert waits(binary([], room=16)) == []


def test_the_ring_comes_behind_them() -> None:
    points = [Point(number, PointKind.INIT, 1, WORD, 0, 0, 0, 5, 0) for number in range(3)]
    text = log_with([row(WORD, (PARKED, 41, 3, 900))], [], points)
    assert log_of(io.BytesIO(text)).points == points


def stuck(rows: list[bytes], calls: dict[int, Calls], only_writes: bool = False) -> int:
    """The goroutine whose call has waited for a second, or 0."""
    text = log_with(rows)
    watch = Watch(pathlib.Path("log.1"), io.BytesIO(text), Header(text), None)
    with pytest.MonkeyPatch.context() as patch:
        patch.setattr(watch, "calls", calls.get)
        found = watch.stuck(1.0, only_writes)
    return found.goroutine if found else 0


def test_the_one_that_has_waited_longest() -> None:
    now = time.clock_gettime_ns(time.CLOCK_MONOTONIC)
    second = 10**9
    own, accept, of_go = (
        Calls((READ_OF_GO, OWN), None),
        Calls((ACCEPT_OF_GO, OWN), None),
        Calls((READ_OF_GO,), None),
    )
    calls = {1: own, 2: accept, 3: of_go}

    def reads(stack: int, since: int) -> bytes:
        return row(WORD, (PARKED, 40 + stack, stack, now - since * second))

    def writes(stack: int, since: int) -> bytes:
        return row(WORD, NOBODY, (PARKED, 50 + stack, stack, now - since * second))

    for rows, only_writes, expected in (
        ([reads(1, 2), writes(1, 3)], False, 51),
        ([reads(1, 3), writes(1, 2)], False, 41),
        ([reads(1, 3), writes(1, 2)], True, 51),
        ([reads(1, 0)], False, 0),
        ([reads(2, 3)], False, 0),
        ([reads(3, 3)], False, 0),
        ([writes(3, 3)], False, 53),
        ([reads(4, 3)], False, 0),  # its line is unknown
        ([writes(4, 3)], False, 54),
    ):
        assert stuck(rows, calls, only_writes) == expected


def test_what_is_said_of_it(monkeypatch: pytest.MonkeyPatch) -> None:
    text = log_with([])
    watch = Watch(pathlib.Path("log.1"), io.BytesIO(text), Header(text), None)
    since = time.clock_gettime_ns(time.CLOCK_MONOTONIC) - 2 * 10**9
    monkeypatch.setattr(watch, "calls", lambda _: Calls((READ_OF_GO, OWN), None))
    message = watch.words(SocketWait(41, READS, 1, since, WORD))
    assert re.search(r"^main\.go:7: internal/poll\.\(\*FD\)\.Read waits to read since 2\.\d s \(goid 41\)$", message)


def test_times() -> None:
    for text, expected in (("5s", 5.0), ("500ms", 0.5), ("2m", 120.0), ("1.5h", 5_400.0), ("7", 7.0)):
        assert seconds(text) == expected
    for text in ("", "0s", "-1s", "5 s", "s", "1d", "1e9s", "٣s"):
        with pytest.raises(argparse.ArgumentTypeError):
            seconds(text)


def test_options_may_follow_the_process() -> None:
    for words in (["watch", "7", "--stuck", "2s", "--writes"], ["--stuck", "2s", "--writes", "watch", "7"]):
        options = parser().parse_args(words)
        check(options)
        of_a_process(options)
        assert (options.pid, options.stuck, options.writes) == (7, 2.0, True)


def test_a_process_has_a_number() -> None:
    for words in (["snapshot"], ["snapshot", "x"], ["snapshot", "7", "8"], ["snapshot", "7", "--stuck", "2s"]):
        with pytest.raises(SystemExit):
            of_a_process(parser().parse_args(words))


def test_a_copy_has_all_that_the_log_has(folder: pathlib.Path) -> None:
    points = [Point(number, PointKind.INIT, 1, WORD, 0, 0, 0, 5, 0) for number in range(40)]
    log = folder / "log.1"
    log.write_bytes(log_with([row(WORD)], [], points))
    assert read_log(log, True).points == points[24:]
    assert read_log(log).points == points[24:]
    with log.open("rb") as file:
        assert copy_of(file).read() == log.read_bytes()


def test_points_that_were_replaced_while_it_was_copied_are_no_damage() -> None:
    points = [Point(number, PointKind.INIT, 1, WORD, 0, 0, 0, 5, 0) for number in range(200)]
    text = bytearray(binary(points, room=100))
    struct.pack_into("<Q", text, 8, 150)  # the number of points when the header was last written
    text[-3200:-3180] = bytes(20)  # a point that was being written
    for is_written, is_copy, damaged in ((True, 0, False), (False, 0, True), (False, 1, False)):
        struct.pack_into("<Q", text, COPIED * 8, is_copy)
        log = log_of(io.BytesIO(bytes(text)), is_written)
        assert [point.number for point in log.points] == [*range(100, 150), *range(151, 200)]
        assert any("left out" in note for note in log.notes) == damaged


def test_a_copy_that_the_program_made_lies_beside_the_program_too() -> None:
    log = Log([], {}, process=7, program="1.2")
    for base in ("log", "log.5"):
        for ending in ("7", "7.2", "7.snapshot", "7.2.snapshot"):
            assert program_of(pathlib.Path(f"a/{base}.{ending}"), log) == pathlib.Path(f"a/{base}.program.1.2")
