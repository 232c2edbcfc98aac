"""The orders of a program: for made-up logs of a few points, which steps must follow which other steps. No program is
needed."""

import json
import pathlib

from dev.fuzz.generators.logs import binary
from netrev.recording.where import SourceLines
from netrev_go.log.orders import ValueQueue
from netrev_go.log.points import Log, PointKind
from netrev_go.steps.recording_builder import make
from netrev_go.steps.where import write_where

from .test_go_converting import WORD, Points
from .test_go_logs import read

CHANNEL = 5_000
MADE = 1  # in a READY point: a `go` statement made the goroutine ready


class Ordered(Points):
    """A log of an open socket, on which goroutines make some steps. The first two steps open it."""

    def __init__(self) -> None:
        super().__init__()
        self.opened()

    def step(self, g: int) -> "Ordered":
        self.add(PointKind.INCREF, g, WORD, 0, 8, 2)
        return self

    def ready(self, g: int, whom: int, how: int = 0) -> "Ordered":
        self.add(PointKind.READY, g, 0, whom, how)
        return self

    def at(self, kind: PointKind, g: int, a: int = 0, b: int = 0, channel: int = CHANNEL) -> "Ordered":
        self.add(kind, g, channel, a, b)
        return self

    def orders(self) -> list[list[str]]:
        """The orders as pairs of names: 2.1 is the first step of Go's goroutine 2."""
        recording = make(Log(self.points, has_orders=True))
        names: dict[int, str] = {}
        counts: dict[int, int] = {}
        for number, line in enumerate(map(json.loads, map(str, recording.lines)), 1):
            if line[0] == "incref":
                counts[line[1]] = counts.get(line[1], 0) + 1
                names[number] = f"{line[1] + 1}.{counts[line[1]]}"
        assert recording.orders is not None
        return [[names.get(first, "open"), names[second]] for first, second in recording.orders]


def test_a_goroutine_comes_behind_its_go_statement() -> None:
    log = Ordered().step(1).ready(1, 2, MADE).step(1).step(2)
    assert log.orders() == [["1.1", "2.1"]]


def test_who_is_made_ready_comes_behind_who_does_it() -> None:
    log = Ordered().step(1).step(2).ready(1, 2).step(1).step(2).step(2)
    assert log.orders() == [["1.1", "2.2"]]


def test_who_is_handed_a_value_comes_behind_who_gives_it() -> None:
    log = Ordered().step(1).step(2).at(PointKind.HANDED, 1, 2, 3).step(1).step(2)
    assert log.orders() == [["1.1", "2.2"]]


def test_an_order_goes_through_goroutines_without_steps() -> None:
    log = Ordered().step(1).ready(1, 8).ready(8, 9).ready(9, 2).step(2)
    assert log.orders() == [["1.1", "2.1"]]


def test_nothing_is_said_twice() -> None:
    log = Ordered().step(1).ready(1, 2).step(2).ready(1, 2).step(2).step(1).ready(1, 2).step(2)
    assert log.orders() == [["1.1", "2.1"], ["1.2", "2.3"]]


def test_both_come_behind_a_meeting() -> None:
    log = Ordered().step(1).step(2).at(PointKind.MET, 1, 2).step(1).step(2)
    assert log.orders() == [["2.1", "1.2"], ["1.1", "2.2"]]


def test_a_value_of_a_buffer_comes_behind_its_own_sender() -> None:
    log = Ordered().step(1).step(2).step(3)
    log.at(PointKind.SENT, 1, 0, 2).at(PointKind.SENT, 2, 1, 2).at(PointKind.RECEIVED, 3, 2, 2).step(3)
    assert log.orders() == [["1.1", "3.2"]]
    assert log.at(PointKind.RECEIVED, 3, 1, 2).step(3).orders() == [["1.1", "3.2"], ["2.1", "3.3"]]


def test_a_place_of_a_buffer_comes_behind_who_made_room() -> None:
    log = (
        Ordered()
        .at(PointKind.SENT, 1, 0, 1)
        .step(2)
        .at(PointKind.RECEIVED, 2, 1, 1)
        .at(PointKind.SENT, 3, 0, 1)
        .step(3)
    )
    assert log.orders() == [["open", "3.1"], ["2.1", "3.1"]]


def test_who_finds_a_channel_closed_comes_behind_its_close() -> None:
    log = Ordered().step(1).at(PointKind.CHANNEL_CLOSED, 1).step(2).at(PointKind.FOUND_CLOSED, 2).step(2)
    assert log.orders() == [["1.1", "2.2"]]


def test_another_channel_at_the_same_place_is_another_one() -> None:
    log = (
        Ordered()
        .step(1)
        .at(PointKind.SENT, 1, 0, 2)
        .at(PointKind.SENT, 2, 0, 2)
        .at(PointKind.RECEIVED, 3, 1, 2)
        .step(3)
    )
    assert log.orders() == []


def test_a_queue_gets_the_length_that_is_known() -> None:
    orders = make(
        Log(Ordered().at(PointKind.RECEIVED, 1, 2, 2).at(PointKind.SENT, 1, 9, 1).points, has_orders=True)
    ).orders
    assert orders == []
    for count, taken in ((0, [{}, {}]), (1, [{}, {1: 0}]), (2, [{1: 0}, {1: 1}]), (5, [{1: 3}, {1: 4}])):
        queue = ValueQueue()
        for number in range(count):
            queue.put({1: number})
        queue.fit(2)
        assert (len(queue), [queue.take(), queue.take()]) == (2, taken)


def test_a_channel_has_any_number_of_places() -> None:
    log = Ordered().step(1)
    for most in (2**30, 2**62):
        log.at(PointKind.SENT, 1, 0, most).at(PointKind.RECEIVED, 2, 1, most).step(2)
    assert log.orders() == [["1.1", "2.1"]]


def test_a_log_says_whether_it_has_orders() -> None:
    points = Ordered().step(1).ready(1, 2, MADE).step(2).points
    data = bytearray(binary(points))
    assert make(read(bytes(data))).orders is None
    data[88] = 1
    assert make(read(bytes(data))).orders == [(3, 5)]


def test_nrdb_reads_what_is_written(folder: pathlib.Path) -> None:
    path = folder / "x.where"
    written: tuple[list[tuple[int, int]] | None, ...] = None, [], [(n, n + 1) for n in range(1, 2_500)]
    for orders in written:
        write_where(path, [0] * 3_000, {}, orders)
        assert SourceLines.beside(str(path), 3_000).orders == orders
        assert SourceLines.beside(str(path), 2_999).orders is None
