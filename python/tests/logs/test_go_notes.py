"""Recordings that begin in the middle of a run, with notes of the sockets that were open: made-up logs of a few points
each, which the model in Python replays. No program is needed."""

import json
import random
from dataclasses import replace
from typing import Any

import pytest

from netrev.machine.in_place import Machine
from netrev.text.contents import Limits
from netrev.text.parser import read_text
from netrev_go.log.notes import (  # fmt: skip
    ARMED,
    CHECKING,
    CLOSING,
    ENTERING,
    EVENT_ERROR,
    GOROUTINE,
    NIL,
    PARKED,
    PARKING,
    READ_RUNS,
    READY,
    SHUT,
    SWAPPING,
    UNQUEUED,
    WAIT,
    WRITE_RUNS,
)
from netrev_go.log.point_answers import UnconvertibleError
from netrev_go.log.points import AT_A_SOCKET, AT_A_WORD, Log, Point, PointKind
from netrev_go.log.prelude import NOBODY
from netrev_go.steps.recording_builder import NewRecording, NothingRecordedError, make

WORD, DESCRIPTOR, OTHER_WORD, OTHER_DESCRIPTOR = 700, 900, 1700, 1900
READ, WRITE = ord("r"), ord("w")
READER, WRITER, SECOND = 11, 12, 13
READ_LOCKED, WRITE_LOCKED, BOTH_LOCKED = 10, 12, 22
A_READER_WAITS = 1 << 23
BEGIN = 5_000  # of the log, by Go's clock
NOW = 9_000
TAG, SEQUENCES = 70_000, (1_000_000, 2_000_000)
Inside = tuple[int, int, int]  # side, goroutine and place


class Noted:
    """A log that has lost its first points and begins with notes."""

    def __init__(self) -> None:
        self.points: list[Point] = []
        self.add(PointKind.NOTES_BEGIN, 0, 0, 1)

    def add(self, kind: PointKind, g: int, at: int, a: int = 0, b: int = 0, c: int = 0, stack: int = 0) -> "Noted":
        self.points.append(Point(100 + len(self.points), kind, g, at, a, b, c, NOW, stack))
        return self

    def note(
        self, lock: int = 0, flags: int = 0, words: tuple[int, int] = (NIL, NIL), deadlines: tuple[int, int] = (0, 0),
        inside: tuple[Inside, ...] = (), queued: tuple[tuple[int, int], ...] = (), word: int = WORD, descriptor: int = DESCRIPTOR,
        counts: int = 0,
    ) -> "Noted":  # fmt: skip
        self.add(PointKind.NOTED, 0, word, lock, descriptor, counts)
        self.add(PointKind.NOTED_POLL, 0, descriptor, TAG, *SEQUENCES)
        self.add(PointKind.NOTED_DEADLINES, 0, descriptor, *deadlines, flags | words[0] << 8 | words[1] << 10)
        for side, g, place in inside:
            self.add(PointKind.NOTED_INSIDE, g, descriptor, side, place, stack=5)
        for side, g in queued:
            self.add(PointKind.NOTED_QUEUED, g, word, side)
        return self

    def end(self) -> "Noted":
        return self.add(PointKind.NOTES_END, 0, 0, 1, 1)

    def made(self) -> NewRecording:
        return make(Log(self.points, begin=BEGIN, from_the_start=False))

    def replayed(self) -> tuple[NewRecording, Machine]:
        """The recording, and the machine after it; checks that the machine gives each recorded answer."""
        recording = self.made()
        return recording, replayed(recording)


def replayed(recording: NewRecording) -> Machine:
    text = read_text("\n".join([recording.header, *map(str, recording.lines)]).encode())
    machine = Machine(Limits(*text.limits))
    for number, (step, answer) in enumerate(zip(text.steps, text.answers), 1):
        found = machine.step(step)
        assert found == answer, f"step {number}: {step} is answered {found}, and not {answer}"
    return machine


def left_out(log: Noted) -> str:
    """The reason why the only socket in the notes is left out. The log has another socket, so that it has a
    recording."""
    log.note(word=OTHER_WORD, descriptor=OTHER_DESCRIPTOR)
    recording = log.end().made()
    assert recording.sockets == 1, recording.lines
    return next(note.partition("left out: ")[2] for note in recording.notes if "left out" in note)


# a noted socket: its lock word, its flags, the descriptor's words, its deadlines, and the goroutines inside waits
WAITS: dict[str, dict[str, Any]] = {
    "idle": {},
    "a read that is parked": {"lock": READ_LOCKED, "words": (GOROUTINE, NIL), "inside": ((READ, READER, PARKED),)},
    "a write that is parked": {"lock": WRITE_LOCKED, "words": (NIL, GOROUTINE), "inside": ((WRITE, WRITER, PARKED),)},
    "a connect that is parked": {"words": (NIL, GOROUTINE), "inside": ((WRITE, WRITER, PARKED),)},
    "both": {
        "lock": BOTH_LOCKED,
        "words": (GOROUTINE, GOROUTINE),
        "inside": ((READ, READER, PARKED), (WRITE, WRITER, PARKED)),
    },
    "one that enters": {"lock": READ_LOCKED, "words": (READY, NIL), "inside": ((READ, READER, ENTERING),)},
    "one that has armed": {"lock": READ_LOCKED, "words": (WAIT, NIL), "inside": ((READ, READER, ARMED),)},
    "one that has armed, and an event came": {
        "lock": READ_LOCKED,
        "words": (READY, NIL),
        "inside": ((READ, READER, ARMED),),
    },
    "one that will park": {"lock": READ_LOCKED, "words": (WAIT, NIL), "inside": ((READ, READER, PARKING),)},
    "one that an event woke": {"lock": READ_LOCKED, "words": (READY, NIL), "inside": ((READ, READER, PARKED),)},
    "one that didn't park": {"lock": READ_LOCKED, "words": (READY, NIL), "inside": ((READ, READER, SWAPPING),)},
    "one that a deadline woke": {
        "lock": READ_LOCKED,
        "flags": READ_RUNS,
        "deadlines": (-1, 0),
        "inside": ((READ, READER, PARKED),),
    },
    "one that the past woke": {"lock": READ_LOCKED, "deadlines": (-7, 0), "inside": ((READ, READER, SWAPPING),)},
    "one that checks why": {"lock": READ_LOCKED, "deadlines": (-7, 0), "inside": ((READ, READER, CHECKING),)},
    "a deadline that was taken back": {
        "lock": READ_LOCKED,
        "flags": READ_RUNS,
        "deadlines": (NOW + 500, 0),
        "inside": ((READ, READER, SWAPPING),),
    },
    "a deadline to come": {"flags": READ_RUNS, "deadlines": (NOW + 500, 0)},
    "deadlines of both": {"flags": READ_RUNS | WRITE_RUNS, "deadlines": (NOW + 500, NOW + 600)},
    "one timer for both": {"flags": READ_RUNS, "deadlines": (NOW + 500, NOW + 500)},
    "both went off": {"flags": READ_RUNS | WRITE_RUNS, "deadlines": (-1, -1)},
    "one for both went off": {"flags": READ_RUNS, "deadlines": (-1, -1)},
    "one went off, and one is to come": {"flags": READ_RUNS | WRITE_RUNS, "deadlines": (NOW + 500, -1)},
    "the latest deadline": {"flags": READ_RUNS, "deadlines": (2**63 - 1, 0)},
    "readiness": {"words": (READY, READY)},
    "an error and readiness": {"flags": EVENT_ERROR, "words": (READY, READY)},
    "an error alone": {"flags": EVENT_ERROR},
    "an error alone, and a read that is parked": {
        "lock": READ_LOCKED,
        "flags": EVENT_ERROR,
        "words": (GOROUTINE, NIL),
        "inside": ((READ, READER, PARKED),),
    },
    "a shut side": {"flags": SHUT},
}


@pytest.mark.parametrize("name, what", WAITS.items())
def test_it_leads_to_what_was_noted(name: Any, what: Any) -> None:
    recording, machine = Noted().note(**what).end().replayed()
    assert (recording.sockets, recording.prelude) == (1, len(recording.lines))
    socket, descriptor = machine.sockets[0], machine.descs[0]
    flags, places = what.get("flags", 0), {place for _, _, place in what.get("inside", ())}
    assert socket.lock.number == what.get("lock", 0)
    assert (descriptor.error, socket.shut) == (bool(flags & EVENT_ERROR), bool(flags & SHUT))
    assert descriptor.running == (bool(flags & READ_RUNS), bool(flags & WRITE_RUNS))
    expected = [due - BEGIN if 0 < due < 2**63 - 1 else due for due in what.get("deadlines", (0, 0))]
    assert list(descriptor.deadlines) == expected
    codes = [{"nil": NIL, "ready": READY, "wait": WAIT}.get(str(word), GOROUTINE) for word in descriptor.words]
    assert tuple(codes) == what.get("words", (NIL, NIL))
    inside = {status[0] for status in machine.goroutines if status[0] != "idle"}
    assert bool(inside) == bool(places)


def test_its_goroutines_have_their_names_and_stacks() -> None:
    recording, _ = Noted().note(**WAITS["a read that is parked"]).end().replayed()
    assert (recording.numbers, recording.goroutines) == ({READER: 1}, 1)
    steps = [json.loads(str(line)) for line in recording.lines]
    of_reader = [number for number, step in enumerate(steps) if step[0] == "parkcommit"]
    assert [recording.stacks[number] for number in of_reader] == [5]
    assert recording.last_steps[1] == len(steps)


def test_the_clock_is_that_of_the_notes() -> None:
    _, machine = Noted().note(**WAITS["a deadline to come"]).end().replayed()
    assert (machine.clock, machine.descs[0].deadlines[0] - machine.clock) == (NOW - BEGIN, 500)


def test_a_timer_that_is_due_is_armed_still() -> None:
    _, machine = Noted().note(flags=READ_RUNS, deadlines=(NOW - 10, 0)).end().replayed()
    assert machine.descs[0].deadlines[0] == NOW - 10 - BEGIN
    assert machine.clock < NOW - 10 - BEGIN


def test_goroutines_are_queued_in_their_order() -> None:
    log = Noted().note(
        READ_LOCKED + 2 * A_READER_WAITS, words=(GOROUTINE, NIL), inside=((READ, READER, PARKED),),
        queued=((READ, SECOND), (READ, WRITER)),
    )  # fmt: skip
    recording, machine = log.end().replayed()
    assert machine.sockets[0].queues[0] == (recording.numbers[SECOND], recording.numbers[WRITER])


def test_a_lock_is_that_of_who_gives_it_up() -> None:
    log = Noted().note(READ_LOCKED).end().add(PointKind.RW_UNLOCK, SECOND, WORD, READ_LOCKED, 0, 1)
    recording, machine = log.replayed()
    assert ["rwlock", recording.numbers[SECOND], 0, "r", "yes"] in [json.loads(str(line)) for line in recording.lines]
    assert (machine.sockets[0].lock.number, recording.prelude) == (0, len(recording.lines) - 1)


def test_a_reference_is_that_of_who_gives_it_up() -> None:
    log = (
        Noted()
        .note(16)
        .end()
        .add(PointKind.DECREF, READER, WORD, 16, 8, 0)
        .add(PointKind.DECREF, SECOND, WORD, 8, 0, 0)
    )
    recording, machine = log.replayed()
    assert (set(recording.numbers), machine.sockets[0].lock.number) == ({READER, SECOND}, 0)


def test_one_that_is_closed_while_a_read_is_under_way() -> None:
    log = Noted().note(19, CLOSING, inside=((READ, READER, SWAPPING),))
    log.note(word=OTHER_WORD, descriptor=OTHER_DESCRIPTOR).end()
    log.add(PointKind.SWAP, READER, DESCRIPTOR, READ, 0).add(PointKind.WAIT_CHECK, READER, DESCRIPTOR, READ, 1)
    log.add(PointKind.DECREF, SECOND, WORD, 19, 11, 0).add(PointKind.RW_UNLOCK, READER, WORD, 11, 1, 3)
    recording, machine = log.add(PointKind.CLOSE, READER, DESCRIPTOR).replayed()
    assert (machine.sockets[0].lock.number, machine.free) == (1, (0,))
    assert recording.sockets == 2


def test_a_writes_output_is_full() -> None:
    _, machine = Noted().note(**WAITS["a write that is parked"]).end().replayed()
    assert len(machine.sockets[0].buffers[1]) == machine.sockets[0].capacities[1]
    _, machine = Noted().note(**WAITS["a connect that is parked"]).end().replayed()
    assert machine.sockets[0].buffers[1] == b""


def test_an_output_that_is_found_full_later_was_full() -> None:
    log = Noted().note(WRITE_LOCKED).end().add(PointKind.WRITE, WRITER, WORD, 3, 2, 0)
    log.add(PointKind.WRITE, WRITER, WORD, 3, 0, 1).add(PointKind.RW_UNLOCK, WRITER, WORD, WRITE_LOCKED, 0, 0)
    recording, machine = log.replayed()
    answers = [json.loads(str(line))[-1] for line in recording.lines if "syswrite" in str(line)]
    assert answers == [["put", 4_096], ["put", 2], "again"]
    assert len(machine.sockets[0].buffers[1]) == 4_096


def test_gos_sequences_and_tags_are_counted_from_there() -> None:
    log = Noted().note(flags=READ_RUNS, deadlines=(NOW, 0)).end()
    log.add(PointKind.FIRE, 0, DESCRIPTOR, SEQUENCES[0] - 1, 1 | 4)  # of a timer that was stopped before
    log.add(PointKind.FIRE, 0, DESCRIPTOR, SEQUENCES[0], 1).add(PointKind.EVENT, 0, DESCRIPTOR, READ, 0, TAG)
    log.add(PointKind.EVENT, 0, DESCRIPTOR, READ, 2, TAG - 1)
    recording, machine = log.replayed()
    assert [str(line) for line in recording.lines if "fire" in str(line)] == ['["fire",0,"done"]']
    assert (machine.descs[0].deadlines[0], machine.descs[0].words[0]) == (-1, "ready")
    events = [json.loads(str(line)) for line in recording.lines[recording.prelude :] if "pollevent" in str(line)]
    assert events == [["pollevent", 0, 1, "r", 0, "done"]]


def test_a_socket_of_the_window_is_not_noted_again() -> None:
    log = (
        Noted()
        .note()
        .end()
        .add(PointKind.INIT, 1, OTHER_WORD)
        .add(PointKind.OPEN, 1, OTHER_DESCRIPTOR, 5 | 9 << 32, 1, 1)
    )
    log.note(word=OTHER_WORD, descriptor=OTHER_DESCRIPTOR, lock=8).note(lock=8).end()
    recording, machine = log.replayed()
    assert (recording.sockets, [socket.lock.number for socket in machine.sockets]) == (2, [0, 0])


def test_the_socket_that_is_asked_for_comes_first() -> None:
    log = Noted().note().note(word=OTHER_WORD, descriptor=OTHER_DESCRIPTOR, lock=0, flags=SHUT).end()
    for first, is_shut in ((0, True), (WORD, False), (OTHER_WORD, True)):
        recording = make(Log(log.points, begin=BEGIN, from_the_start=False), 1, first=first)
        assert [socket.shut for socket in replayed(recording).sockets] == [is_shut]


def test_points_before_its_note_are_not_its() -> None:
    log = Noted().add(PointKind.INCREF, READER, WORD, 0, 8, 2).add(PointKind.DECREF, READER, WORD, 8, 0, 0).note().end()
    recording, _ = log.replayed()
    assert sum("incref" in str(line) for line in recording.lines) == 0


def test_why() -> None:
    handing, holding, referring = (
        "a goroutine passed its lock on to another",
        "a goroutine has a lock of it that it doesn't give up in the log",
        "a goroutine has a reference to it that it doesn't give up in the log",
    )
    for log, why in (
        (Noted().note(READ_LOCKED), holding),
        (Noted().note(8), referring),
        (Noted().note(1, CLOSING), "it was being closed"),
        (Noted().note(READ_LOCKED).add(PointKind.RELEASE, READER, WORD), handing),
        (Noted().note().add(PointKind.ACQUIRE, READER, WORD, 1, 1), handing),
        (Noted().note(READ_LOCKED + A_READER_WAITS, UNQUEUED), handing),
        (Noted().note(READ_LOCKED + A_READER_WAITS).add(PointKind.RW_UNLOCK, 1, WORD, READ_LOCKED + A_READER_WAITS, 0, 1), "the model comes to another lock"),
        (
            Noted().note(WRITE_LOCKED, EVENT_ERROR, (NIL, GOROUTINE), inside=((WRITE, WRITER, PARKED),)),
            "a goroutine waits to write there after an error",
        ),
        (Noted().note(counts=1), "the model comes to another semaphore"),
        (Noted().note(words=(GOROUTINE, NIL)), "the model comes to another word"),
        (Noted().note(words=(WAIT, NIL)), "the model comes to another word"),
        (Noted().note(deadlines=(NOW + 500, 0)), "the model comes to another timer"),
        (Noted().note(deadlines=(BEGIN - 1, 0), flags=READ_RUNS), "its timer was due"),
        (Noted().add(PointKind.NOTED, 0, WORD, 0, DESCRIPTOR), "its note is cut short or damaged"),
        (Noted().note(inside=((READ, READER, 9),)), "its note is cut short or damaged"),
    ):  # fmt: skip
        assert left_out(log) == why, why


def test_a_log_that_has_all_points_needs_no_notes() -> None:
    log = Noted().note().end()
    with pytest.raises(NothingRecordedError, match="no socket was opened"):
        make(Log(log.points, begin=BEGIN))


def test_notes_that_are_cut_off_are_not_used() -> None:
    with pytest.raises(NothingRecordedError, match="before the oldest point"):
        Noted().note().made()


def test_whatever_notes_say_a_recording_is_one() -> None:
    chance, made = random.Random(7), 0
    sockets = (
        (WORD, DESCRIPTOR, (READER, WRITER, SECOND)),
        (OTHER_WORD, OTHER_DESCRIPTOR, (READER + 10, WRITER + 10, SECOND + 10)),
    )
    disturbed: dict[str, list[Any]] = {
        "lock": [0, 1, 8, 19, READ_LOCKED + A_READER_WAITS, chance.getrandbits(63)],
        "flags": [0, READ_RUNS, CLOSING, EVENT_ERROR | SHUT, chance.getrandbits(8)],
        "words": [(NIL, NIL), (READY, WAIT), (GOROUTINE, GOROUTINE)],
        "deadlines": [(-1, 0), (NOW + 9, -5), (2**63 - 1, -(2**63))],
        "queued": [((READ, 31),), ((WRITE, 31), (WRITE, 31))],
        "counts": [1, -1],
    }
    others = [kind for kind in map(PointKind, sorted(AT_A_SOCKET)) if kind not in (PointKind.INIT, PointKind.OPEN)]
    for _ in range(400):
        log = Noted()
        for word, descriptor, goroutines in sockets:
            what = dict(chance.choice(list(WAITS.values())))
            inside = what.get("inside", ())
            what["inside"] = tuple((side, g + goroutines[0] - READER, place) for side, g, place in inside)
            for field, values in disturbed.items():
                if chance.random() < 0.1:
                    what[field] = chance.choice(values)
            log.note(word=word, descriptor=descriptor, **what)
        log.end()
        for _ in range(chance.randint(0, 4)):
            kind = chance.choice(others)
            word, descriptor, goroutines = chance.choice(sockets)
            at = word if kind in AT_A_WORD else descriptor
            log.add(kind, chance.choice(goroutines), at, *(chance.choice((0, 1, 8, 10, 114, 119)) for _ in range(3)))
        try:
            recording = log.made()
        except (NothingRecordedError, UnconvertibleError):
            continue
        prelude = [*map(str, recording.lines[: recording.prelude])]
        made += bool(prelude)
        replayed(replace(recording, lines=list(prelude)))
    assert made > 100


def crowd(ends: bool) -> Noted:
    """5,000 goroutines, each of which sets a deadline."""
    log = Noted().note().end()
    for g in range(1, 5_001):
        log.add(PointKind.INCREF, g, WORD, 0, 8, 2).add(PointKind.DECREF, g, WORD, 8, 0, 0)
        if ends:
            log.add(PointKind.ENDS, g, 0)
    return log


def test_one_that_has_ended_hands_its_number_on() -> None:
    recording, machine = crowd(True).replayed()
    assert (recording.goroutines, len(machine.goroutines)) == (5_000, 2)
    assert (recording.numbers, len(recording.taken)) == ({5_000: 1}, 5_000)
    assert recording.taken[:2] == [(1, 0, 1), (1, recording.prelude + 3, 2)]


def test_one_that_has_not_keeps_it() -> None:
    with pytest.raises(NothingRecordedError, match="4,096 goroutines"):
        crowd(False).made()


def test_where_all_fit_each_has_its_own() -> None:
    log = Noted().note().end()
    for g in (1, 2):
        log.add(PointKind.INCREF, g, WORD, 0, 8, 2).add(PointKind.DECREF, g, WORD, 8, 0, 0).add(PointKind.ENDS, g, 0)
    recording, _ = log.replayed()
    assert (recording.numbers, recording.taken) == ({1: 1, 2: 2}, [])


def test_nobody_is_no_goroutine_of_gos() -> None:
    recording = Noted().note().end().made()
    assert (recording.goroutines, NOBODY in recording.numbers) == (0, False)
