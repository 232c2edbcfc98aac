"""Go's points become the steps that they represent, in made-up logs of a few points each. No program is needed."""

import json
from typing import Any

import pytest

from netrev_go.log.point_answers import UnconvertibleError, lock_answer
from netrev_go.log.points import Log, Point, PointKind
from netrev_go.steps.recording_builder import NewRecording, NothingRecordedError, make

WORD, DESCRIPTOR = 700, 900


class Points:
    """A log that grows point by point."""

    def __init__(self) -> None:
        self.points: list[Point] = []

    def add(self, kind: PointKind, g: int, at: int, a: int = 0, b: int = 0, c: int = 0, time: int = 0) -> "Points":
        self.points.append(Point(len(self.points), kind, g, at, a, b, c, time, 0))
        return self

    def opened(
        self, word: int = WORD, descriptor: int = DESCRIPTOR, reading: int = 1, writing: int = 1, g: int = 1
    ) -> "Points":
        return self.add(PointKind.INIT, g, word).add(PointKind.OPEN, g, descriptor, 4, reading, writing)

    def closed(self, word: int = WORD, descriptor: int = DESCRIPTOR) -> "Points":
        self.add(PointKind.INCREF_CLOSE, 1, word, 0, 9, 2).add(PointKind.EVICT, 1, descriptor)
        return self.add(PointKind.DECREF, 1, word, 9, 1, 2).add(PointKind.CLOSE, 1, descriptor)

    def made(self, most: int = 256) -> NewRecording:
        return make(Log(self.points), most)

    def steps(self) -> list[list[object]]:
        return [json.loads(str(line)) for line in self.made().lines]


# a point after the opening of a socket, and the steps for it
LOGGED: tuple[tuple[PointKind, tuple[int, ...], list[list[object]]], ...] = (
    (PointKind.READ, (8, 2, 0), [["arrive", 0, "0000", "done"], ["sysread", 0, 0, 8, ["got", 2]]]),
    (PointKind.READ, (8, 0, 1), [["sysread", 0, 0, 8, "again"]]),
    (PointKind.READ, (8, 0, 0), [["peerclose", 0, "done"], ["sysread", 0, 0, 8, "eof"]]),
    (PointKind.READ, (8, 0, 3), []),
    (PointKind.WRITE, (3, 2, 0), [["syswrite", 0, 0, "0000", ["put", 2]]]),
    (PointKind.WRITE, (3, -1, 2), []),
    (PointKind.WRITE, (3, -1, 3), []),
    (PointKind.CLOSE_WRITE, (), [["closewrite", 0, 0, "done"]]),
    (PointKind.ACQUIRE, (1, 1), [["acquire", 0, "yes"]]),
    (PointKind.ACQUIRE, (0, 1), [["acquire", 0, "wait"]]),
    (PointKind.RELEASE, (), [["release", 0, "done"]]),
    (PointKind.INCREF, (0, 8, 2), [["incref", 0, 0, "yes"]]),
    (PointKind.RW_LOCK, (0, 12, 2), [["rwlock", 0, 0, "w", "yes"]]),
    (PointKind.RW_LOCK, (10, 2**23 + 10, 1), [["rwlock", 0, 0, "r", "wait"]]),
)
AT_THE_DESCRIPTOR: tuple[tuple[PointKind, tuple[int, ...], list[object]], ...] = (
    (PointKind.RESET, (114, 2), ["pollreset", 0, 0, "r", ["code", 2]]),
    (PointKind.WAIT_BEGIN, (119, 0), ["waitbegin", 0, 0, "w", ["code", 0]]),
    (PointKind.ARM, (114, 0), ["blockarm", 0, "wait"]),
    (PointKind.ARM, (114, 1), ["blockarm", 0, ["code", 0]]),
    (PointKind.CHECK, (114, 3), ["blockcheck", 0, ["code", 3]]),
    (PointKind.PARK, (114, 1), ["parkcommit", 0, "yes"]),
    (PointKind.PARK, (114, 0), ["parkcommit", 0, "no"]),
    (PointKind.SWAP, (114, 1), ["blockswap", 0, "yes"]),
    (PointKind.SWAP, (114, 0), ["blockswap", 0, "no"]),
    (PointKind.WAIT_CHECK, (114, 1), ["waitcheck", 0, ["code", 1]]),
    (PointKind.EVENT, (114 + 119, 1), ["pollevent", 0, 1, "rw", 1, "done"]),
)
# the kind, the lock word before and after, two bits (1: for reading, 2: Go's function returned true), and the recorded
# answer
RETURNED = (
    (PointKind.INCREF, 0, 8, 2, "yes"),
    (PointKind.INCREF, 1, 1, 0, "no"),
    (PointKind.INCREF_CLOSE, 18, 27, 2, "yes"),
    (PointKind.INCREF_CLOSE, 9, 9, 0, "no"),
    (PointKind.DECREF, 9, 1, 2, "last"),
    (PointKind.DECREF, 17, 9, 0, "notlast"),
    (PointKind.RW_LOCK, 0, 10, 3, "yes"),
    (PointKind.RW_LOCK, 10, 10 + 2**23, 1, "wait"),
    (PointKind.RW_LOCK, 19, 19, 1, "no"),
    (PointKind.RW_UNLOCK, 11, 1, 3, "last"),
    (PointKind.RW_UNLOCK, 10, 0, 1, "notlast"),
)


def test_each_point_becomes_its_steps() -> None:
    for kind, seen, steps in LOGGED:
        assert Points().opened().add(kind, 1, WORD, *seen).steps()[2:] == steps, (kind, seen)
    for kind, seen, step in AT_THE_DESCRIPTOR:
        assert Points().opened().add(kind, 1, DESCRIPTOR, *seen).steps()[2:] == [step], (kind, seen)


@pytest.mark.parametrize("kind, old, new, bits, answer", RETURNED)
def test_lock_words_say_what_go_returned(kind: Any, old: int, new: int, bits: int, answer: str) -> None:
    assert lock_answer(kind, old == new, bits) == answer


def test_a_write_after_a_closewrite_fails() -> None:
    steps = Points().opened().add(PointKind.CLOSE_WRITE, 1, WORD).add(PointKind.WRITE, 1, WORD, 3, -1, 2).steps()
    assert steps[2:] == [["closewrite", 0, 0, "done"], ["syswrite", 0, 0, "000000", "pipe"]]


def test_a_write_that_a_closewrite_overtook_stands_before_it() -> None:
    log = Points().opened().add(PointKind.CLOSE_WRITE, 2, WORD)
    # (the goroutine that closed the side continues before the write's point is logged)
    log.add(PointKind.RW_LOCK, 2, WORD, 9, 17, 0).add(PointKind.WRITE, 1, WORD, 3, 3, 0).add(
        PointKind.WRITE, 1, WORD, 3, -1, 2
    )
    recording = log.made()
    assert [json.loads(str(line))[0] for line in recording.lines[2:]] == [
        "spawn",
        "syswrite",
        "closewrite",
        "rwlock",
        "syswrite",
    ]
    assert [(number, goroutine) for number, goroutine, _ in recording.made[2:]] == [(2, 1), (2, 2), (3, 2), (5, 1)]


def test_a_write_that_found_no_room_and_a_closewrite_overtook_stands_before_it() -> None:
    log = Points().opened().add(PointKind.WRITE, 1, WORD, 5, 5, 0).add(PointKind.CLOSE_WRITE, 2, WORD)
    steps = log.add(PointKind.WRITE, 1, WORD, 3, 0, 1).add(PointKind.CLOSE_WRITE, 2, WORD).steps()
    assert [step[-1] if step[0] == "syswrite" else step[0] for step in steps[2:]] == [
        ["put", 5],
        "spawn",
        "again",
        "closewrite",
        "closewrite",
    ]


def test_the_size_of_a_write_that_a_closewrite_overtook_is_at_its_step() -> None:
    log = Points().opened().add(PointKind.CLOSE_WRITE, 2, WORD).add(PointKind.DECREF, 2, WORD, 9, 1, 0)
    log.add(PointKind.WRITE, 1, WORD, 999, 999, 0)
    recording = make(Log(log.points), all_bytes=False)
    (place,) = (place for place, line in enumerate(recording.lines, 1) if "syswrite" in str(line))
    assert recording.beside.sizes == [(place, 999)]


def test_an_output_is_full_where_go_found_it_so() -> None:
    steps = Points().opened().add(PointKind.WRITE, 1, WORD, 3, 2, 0).add(PointKind.WRITE, 1, WORD, 1, 0, 1).steps()
    assert steps[0][:3] == ["sockopen", 65_536, 2]
    assert steps[2:] == [["syswrite", 0, 0, "0000", ["put", 2]], ["syswrite", 0, 0, "00", "again"]]


def test_an_output_that_sendfile_filled_has_no_step() -> None:
    log = Points().opened().add(PointKind.WRITE, 1, WORD, 9, 9, 0).add(PointKind.WRITE, 1, WORD, 9, 0, 1)
    log.add(PointKind.WRITE, 1, WORD, 5, 5, 0).add(PointKind.WRITE, 1, WORD, 5, 0, 1)
    assert [step[-1] for step in log.steps()[2:] if step[0] == "syswrite"][:2] == [["put", 9], "again"]
    log = Points().opened().add(PointKind.WRITE, 1, WORD, 9, 0, 1)
    assert log.steps()[2:] == []


def test_a_write_of_more_than_a_page_goes_through() -> None:
    log = (
        Points()
        .opened()
        .add(PointKind.WRITE, 1, WORD, 5000, 5000, 0)
        .add(PointKind.WRITE, 1, WORD, 200_000, 200_000, 0)
    )
    puts = [step[-1] for step in log.steps() if step[0] == "syswrite"]
    assert puts[0] == ["put", 5000]
    assert sum(put[1] for put in puts if isinstance(put, list)) == 205_000


def test_an_address_is_used_again_after_a_collection() -> None:
    log = Points()
    for i in range(20):
        log.opened(WORD + i % 2).closed(WORD + i % 2)
    steps = log.steps()
    assert [s[-1] for s in steps if s[0] == "sockopen"] == [["number", i] for i in range(20)]
    assert {str(s[-1]) for s in steps if s[0] == "pollopen"} == {"['number', 0]"}


def test_an_address_that_is_a_files_now_is_forgotten() -> None:
    log = Points().opened().closed()
    late = log.add(PointKind.INCREF, 2, WORD, 1, 1).steps()
    assert late[-1] == ["incref", 1, 0, "no"]
    assert log.add(PointKind.INCREF, 2, WORD, 0, 8, 2).add(PointKind.READ, 2, WORD, 1, 1).steps() == late


def test_a_socket_that_was_open_before_is_left_out() -> None:
    log = (
        Points()
        .add(PointKind.INCREF, 2, 70, 0, 8, 2)
        .add(PointKind.WAIT_BEGIN, 2, 90, 114)
        .add(PointKind.PARK, 2, 90, 114, 1)
    )
    log.add(PointKind.EVENT, 0, 90, 114).add(PointKind.FIRE, 0, 90, 3, 1, time=5)
    assert log.opened().steps() == Points().opened().steps()


def test_opened_files_are_left_out() -> None:
    log = Points()
    for i in range(1000):
        log.opened(1000 + i % 7, 90).add(PointKind.OPEN_FAILED, 1, 90, 1)
        log.add(PointKind.INCREF_CLOSE, 1, 1000 + i % 7, 0, 9, 2).add(PointKind.DECREF, 1, 1000 + i % 7, 9, 1, 2)
    assert log.opened().steps() == Points().opened().steps()
    with pytest.raises(NothingRecordedError, match="no socket was opened"):
        Points().opened().add(PointKind.OPEN_FAILED, 1, DESCRIPTOR, 1).made()


def test_a_socket_that_is_opened_again_and_is_not_goes_on() -> None:
    log = Points().opened().add(PointKind.INCREF, 2, WORD, 0, 8, 2)
    log.opened(WORD, DESCRIPTOR + 1).add(PointKind.OPEN_FAILED, 1, DESCRIPTOR + 1, 1).add(
        PointKind.DECREF, 2, WORD, 8, 0, 0
    )
    assert log.steps()[-1] == ["decref", 1, 0, "notlast"]
    assert len(log.steps()) == len(Points().opened().steps()) + 3


def test_whether_events_have_gos_tags() -> None:
    for tag in (0, 3):
        log = Points().add(PointKind.INIT, 1, WORD).add(PointKind.OPEN, 1, DESCRIPTOR, 4 | tag << 32, 1, 1)
        recording = log.add(PointKind.EVENT, 0, DESCRIPTOR, 114, 0, tag).made()
        assert recording.has_tags == bool(tag)


def test_an_event_behind_the_close_is_stale() -> None:
    log = Points().opened().closed().add(PointKind.EVENT, 0, DESCRIPTOR, 114)
    assert log.steps()[-1] == ["pollevent", 0, 1, "r", 0, "stale"]
    log.opened(WORD + 1).add(PointKind.EVENT, 0, DESCRIPTOR, 114)
    assert log.steps()[-1] == ["pollevent", 0, 2, "r", 0, "done"]


def test_a_call_that_sets_a_deadline_is_three_steps() -> None:
    log = Points().opened().add(PointKind.RW_LOCK, 1, WORD, 0, 10, 3)
    log.add(PointKind.DEADLINE_CALL, 2, DESCRIPTOR, 114, 5, 10, time=100).add(PointKind.RW_UNLOCK, 1, WORD, 10, 0, 1)
    steps = [
        ["incref", 1, 0, "yes"],
        ["tick", 100, "done"],
        ["setdeadline", 1, 0, "r", 5, "done"],
        ["decref", 1, 0, "notlast"],
    ]
    assert log.steps()[-5:-1] == steps
    assert [word for _, _, word in log.made().words] == [10, 18, 10, 0]
    assert log.made().notes == []


def test_a_call_that_sets_a_deadline_of_an_unknown_socket_is_none() -> None:
    log = Points().opened().add(PointKind.DEADLINE_CALL, 2, DESCRIPTOR + 300, 114, 5, 10, time=100)
    assert len(log.steps()) == 2


def fired(bits: int, time: int = 105) -> Points:
    log = Points().opened(reading=7, writing=7).add(PointKind.SET_DEADLINE, 1, DESCRIPTOR, 114, 5, time=100)
    return log.add(PointKind.FIRE, 0, DESCRIPTOR, 7, bits, time=time)


def test_a_firing_says_whether_it_was_current() -> None:
    for bits, answer in ((1, "done"), (5, "stale")):
        assert fired(bits).steps()[-1] == ["fire", 0, answer]


def test_a_firing_that_no_timer_is_of_is_told_with_its_point() -> None:
    with pytest.raises(UnconvertibleError, match="point 3: a deadline passed whose timer wasn't due"):
        fired(1, 104).made()


def test_a_timer_that_fires_later_goes_off_before_it_is_moved() -> None:
    log = Points().opened().add(PointKind.SET_DEADLINE, 1, DESCRIPTOR, 114, 5, time=100)
    log.add(PointKind.SET_DEADLINE, 1, DESCRIPTOR, 114, 50, time=106).add(PointKind.FIRE, 0, DESCRIPTOR, 1, 5, time=107)
    names = [step[0] for step in log.steps()[2:]]
    assert names == ["tick", "setdeadline", "tick", "pop", "setdeadline", "tick", "fire"]
    assert log.steps()[-1][-1] == "stale"


def test_a_deadline_is_gos_where_another_processor_read_a_later_time() -> None:
    log = Points().opened().opened(WORD + 20, DESCRIPTOR + 300)
    log.add(PointKind.SET_DEADLINE, 1, DESCRIPTOR, 114, 50, time=110)
    log.add(PointKind.SET_DEADLINE, 1, DESCRIPTOR + 300, 114, 50, time=104)
    times = [step[-2] for step in log.steps() if step[0] == "setdeadline"]
    assert times == [50, 44]


def test_a_firing_of_an_earlier_use_is_of_that_use() -> None:
    log = Points().opened().add(PointKind.SET_DEADLINE, 1, DESCRIPTOR, 114, 5, time=100)
    log.closed().opened(WORD + 20, reading=9, writing=9).add(PointKind.FIRE, 0, DESCRIPTOR, 1, 5, time=107)
    assert [s[0] for s in log.steps()][-2:] == ["tick", "fire"]
    assert log.steps()[-1] == ["fire", 0, "stale"]


def sockets(count: int, closed: set[int] | None = None) -> Points:
    log = Points()
    for i in range(count):
        log.opened(10_000 + 16 * i, 50_000 + 300 * i, g=i + 1)
    for i in closed or ():
        log.closed(10_000 + 16 * i, 50_000 + 300 * i)
    return log


def test_the_open_ones_come_first_and_then_the_newest() -> None:
    log = sockets(10, {0, 1, 2, 9})
    for most, openings in ((3, "6 7 8"), (6, "3 4 5 6 7 8"), (8, "2 3 4 5 6 7 8 9")):
        recording = log.made(most)
        assert recording.sockets == most
        assert f"{most} of 10 sockets are kept: those still open first, then the newest" in recording.notes
        gone = {0, 1, 2, 9} & {int(word) for word in openings.split()}
        assert sum('"increfclose"' in str(line) for line in recording.lines) == len(gone)


def test_a_recording_has_256_sockets_at_most() -> None:
    assert sockets(300).made(1000).sockets == 256


def test_a_recording_has_4096_goroutines_at_most() -> None:
    log = sockets(2)
    for g in range(4_090):
        log.add(PointKind.INCREF, 10 + g, 10_000, 0, 8, 2)
    assert log.made().goroutines == 4_092
    for g in range(10):
        log.add(PointKind.INCREF, 10_000 + g, 10_016, 0, 8, 2)
    recording = log.made()
    assert (recording.sockets, recording.goroutines) == (1, 11)


def test_a_recording_has_1000000_steps_at_most() -> None:
    log = sockets(3)
    log.add(PointKind.WRITE, 1, 10_000, 2**32, 2**32, 0)
    assert log.made().sockets == 2
    with pytest.raises(NothingRecordedError, match="one socket alone"):
        Points().opened().add(PointKind.WRITE, 1, WORD, 2**32, 2**32, 0).made()
