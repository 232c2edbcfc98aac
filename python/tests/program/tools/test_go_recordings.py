"""Recordings of real Go programs and of made-up logs: netrev accepts them; Go's lock words equal netrev's; and each
difference from Go is found at its step."""

import json
from pathlib import Path

import pytest

from dev.fuzz.generators.logs import binary, from_text
from netrev_go.log.logfile import read_log
from netrev_go.log.points import PointKind
from netrev_go.steps.analysis import Analysis, check, hanging, never_closed
from netrev_go.steps.compare import differing
from netrev_go.steps.recording_builder import make, write, write_words
from netrev_go.steps.report import report
from tests.logs.test_go_converting import DESCRIPTOR, WORD, Points
from tests.program.nrdb.common.support import NETREV

REAL = Path(__file__).resolve().parents[4] / "examples/real"
NAMES = ("half", "hijacked", "hung", "leak", "lost", "older", "past")


@pytest.fixture
def recorded(folder: Path) -> Path:
    return folder / "made.jsonl"


def convert(name: str, path: Path) -> None:
    """Writes the recording of a stored log, with its lock words."""
    log = path.with_suffix(".log")
    log.write_bytes(from_text((REAL / f"{name}.log").read_text())[0])
    recording = make(read_log(log))
    write(recording, path)
    write_words(recording, path.with_suffix(".words"))


def accepted(path: Path, points: Points) -> None:
    recording = points.made()
    write(recording, path)
    assert check(str(NETREV), path) == (True, f"ok {len(recording.lines)} steps")


@pytest.mark.parametrize("name", NAMES)
def test_answers_and_lock_words_are_netrevs(recorded: Path, name: str) -> None:
    convert(name, recorded)
    steps = recorded.read_text().count("\n") - 1
    assert check(str(NETREV), recorded) == (True, f"ok {steps} steps")
    compared, differ = differing(str(NETREV), recorded)
    assert compared > 10
    assert differ == []


def test_a_lock_word_that_differs_is_told(recorded: Path) -> None:
    convert("past", recorded)
    words = recorded.with_suffix(".words")
    words.write_text(words.read_text().replace("lock 2", "lock 1", 1))
    assert len(differing(str(NETREV), recorded)[1]) == 1


def test_what_go_did_otherwise_is_found_at_its_step(recorded: Path) -> None:
    data, _ = from_text((REAL / "past.log").read_text())
    log = recorded.with_suffix(".log")
    log.write_bytes(data)
    read = read_log(log)
    last = max(index for index, point in enumerate(read.points) if point.kind == PointKind.PARK)
    read.points[last] = read.points[last]._replace(b=0)
    recording = make(read)
    write(recording, recorded)
    steps = [json.loads(str(line)) for line in recording.lines]
    wrong = [number for number, step in enumerate(steps, 1) if step[0] == "parkcommit" and step[-1] == "no"]
    assert check(str(NETREV), recorded) == (False, f"step {wrong[-1]}: fault 109 answer")
    outcome = report(recording, recorded, {})
    assert not outcome.taken
    assert "netrev rejects this recording" in outcome.lines[-1]


def test_ordinary_programs_are_taken(recorded: Path) -> None:
    accepted(
        recorded,
        Points().opened().add(PointKind.WRITE, 1, WORD, 5000, 5000, 0).add(PointKind.READ, 1, WORD, 2**17, 2**17),
    )
    log = Points()
    for i in range(20):
        log.opened(WORD + i % 2).closed(WORD + i % 2)
    accepted(recorded, log)
    late = Points().opened().add(PointKind.CLOSE_WRITE, 2, WORD).add(PointKind.WRITE, 1, WORD, 3, 3, 0)
    accepted(recorded, late.add(PointKind.WRITE, 1, WORD, 3, -1, 2))
    old = Points().opened().add(PointKind.SET_DEADLINE, 1, DESCRIPTOR, 114, 5, time=100)
    old.closed().opened(WORD + 20, reading=9, writing=9).add(PointKind.FIRE, 0, DESCRIPTOR, 1, 5, time=107)
    accepted(recorded, old.add(PointKind.EVENT, 0, DESCRIPTOR, 114))


def test_a_ring_gives_a_recording_of_its_own(recorded: Path) -> None:
    log = Points()
    for i in range(40):
        log.opened(WORD + 16 * i).closed(WORD + 16 * i)
    recorded.with_suffix(".log").write_bytes(binary(log.points, room=100))
    recording = make(read_log(recorded.with_suffix(".log")))
    write(recording, recorded)
    assert (recording.sockets, check(str(NETREV), recorded)[0]) == (16, True)


def test_who_hangs_and_what_never_closes(recorded: Path) -> None:
    for name, waiting, held in (("past", {2: "parked 1 r"}, {}), ("leak", {}, {2: 1})):
        convert(name, recorded)
        with Analysis(str(NETREV), recorded) as analysis:
            values = analysis.values()
        assert (hanging(values), never_closed(values)) == (waiting, held)
