"""The output of `netrev changes`, stored and queried: compared with the model, whole and in pieces, with faults,
with a failing netrev, and interrupted."""

from collections.abc import Iterator
from pathlib import Path
from threading import Thread

import pytest

from netrev.connection.arriving_changes import ArrivingChanges
from netrev.connection.scout import ScoutUnavailableError
from netrev.machine.cells import look
from netrev.machine.observer import Observer
from netrev.messages.session import COMPUTING_CHANGES
from netrev.model.changes import changes as said_by_model
from netrev.model.program import replay
from netrev.recording import step_changes as changed_lines
from netrev.recording import step_changes as recorded_changes
from netrev.recording.step_changes import IncompleteChangesError, RecordedChanges
from netrev.system.interrupts import Interrupts, SearchInterruptedError
from netrev.text.vocabulary import CELLS, ObjectKind
from tests.support.examples import EXAMPLES
from tests.support.stubs import raising

WITH_FAULTS = ("other-answer",)
RECORDINGS = sorted(path for path in EXAMPLES.glob("*.jsonl") if path.stem not in WITH_FAULTS)
FEW = b"1 gor 1 = idle\n3 lock 0 = 0\n3 in 0 = 0\n4 lock 0 = 8\nok 5 steps\n"


def said(path: Path) -> bytes:
    """netrev's output for a recording, according to the model."""
    lines, _ = said_by_model(path.read_bytes(), Observer())
    return "".join(f"{line}\n" for line in lines).encode()


def in_pieces(text: bytes, size: int) -> Iterator[bytes]:
    return (text[at : at + size] for at in range(0, len(text), size))


@pytest.mark.parametrize("few", [0, 10**9], ids=["in arrays", "in lines"])
@pytest.mark.parametrize("path", RECORDINGS, ids=lambda path: path.stem)
def test_values_are_those_that_prints_say_at_each_position(
    path: Path, few: int, monkeypatch: pytest.MonkeyPatch
) -> None:
    monkeypatch.setattr(recorded_changes, "FEW", few)
    changes = RecordedChanges.read(in_pieces(said(path), 500))
    worlds = replay(path.read_bytes(), Observer()).worlds
    assert changes.length == len(worlds) - 1 and not changes.fault
    last = worlds[-1]
    counts = {
        ObjectKind.GOROUTINE: len(last.goroutines) + 1,
        ObjectKind.SOCKET: len(last.sockets) + 1,
        ObjectKind.DESCRIPTOR: len(last.descs) + 1,
    }
    cells = [
        spelled
        for cell in CELLS.values()
        for spelled in (
            [cell.name] if cell.of is ObjectKind.ALL else [f"{cell.name} {at}" for at in range(counts[cell.of])]
        )
    ]
    for position, world in enumerate(worlds):
        assert changes.values(position, cells) == [look(world, f"print {cell}").split(" = ")[1] for cell in cells]
    for cell in cells:
        steps = changes.steps_of(cell)
        assert [(step, changes.value(cell, step)) for step in steps] == list(changes.changes_of(cell))
        assert all(changes.value(cell, step) != changes.value(cell, step - 1) for step in steps)
    every = [(step, cell, value) for step in range(1, changes.length + 1) for cell, value in changes.at(step)]
    assert every == list(changes) and {cell for _, cell, _ in every} == set(changes.cells())


@pytest.mark.parametrize("size", [1, 7, 64])
def test_pieces_may_end_within_lines(size: int) -> None:
    changes = RecordedChanges.read(in_pieces(FEW, size))
    assert list(changes) == [(1, "gor 1", "idle"), (3, "lock 0", "0"), (3, "in 0", "0"), (4, "lock 0", "8")]
    assert changes.length == 5 and changes.at(2) == [] and changes.at(3) == [("lock 0", "0"), ("in 0", "0")]
    assert list(changes.steps_of("lock 0")) == [3, 4] and list(changes.steps_of("wg 7")) == []


@pytest.mark.parametrize("path", RECORDINGS, ids=lambda path: path.stem)
def test_what_is_told_between_two_positions_is_what_their_steps_changed(path: Path) -> None:
    changes = RecordedChanges.read(in_pieces(said(path), 40))
    each = [(step, changes.at(step)) for step in range(1, changes.length + 1)]
    for first, last in ((0, changes.length), (0, 0), (changes.length // 3, changes.length // 2)):
        assert list(changes.between(first, last)) == [item for item in each[first:last] if item[1]]


@pytest.mark.parametrize("window", [1, 60, 10**6])
@pytest.mark.parametrize("path", RECORDINGS, ids=lambda path: path.stem)
def test_what_is_told_together_has_all_lines_of_its_steps(
    path: Path, window: int, monkeypatch: pytest.MonkeyPatch
) -> None:
    monkeypatch.setattr(changed_lines, "WINDOW", window)
    changes = RecordedChanges.read(in_pieces(said(path), 40))
    end = 1
    found: list[tuple[str, str]] = []
    for lines in changes.by_steps():
        assert lines.first == end
        end = lines.end
        cells = list(lines.cells())
        assert all(lines.first <= int(name.split()[0]) < lines.end for name, _ in cells)
        found += cells
    assert end == changes.length + 1
    assert found == [(f"{step} {cell}", value) for step, cell, value in changes]


def test_before_the_first_change_the_empty_world_shows() -> None:
    changes = RecordedChanges.read([FEW])
    cells = ["clock", "waiters", "timers", "firings", "least", "gor 0", "gor 1", "lock 0", "rd 3"]
    assert changes.values(0, cells) == ["0", "0", "0", "0", "absent", "idle", "absent", "absent", "absent"]


def test_an_empty_recording_has_no_changes() -> None:
    changes = RecordedChanges.read([b"ok 0 steps\n"])
    assert (changes.length, changes.fault, list(changes), changes.value("clock", 0)) == (0, "", [], "0")


def test_a_fault_ends_the_changes() -> None:
    changes = RecordedChanges.read([b"1 gor 1 = idle\nstep 3: fault 107 reason 2\n"])
    assert (changes.length, changes.fault, changes.value("gor 1", 2)) == (2, "step 3: fault 107 reason 2", "idle")
    unread = RecordedChanges.read([b"line 1: fault 101 syntax\n"])
    assert (unread.length, unread.fault, list(unread)) == (0, "line 1: fault 101 syntax", [])


@pytest.mark.parametrize("text", [b"", b"1 gor 1 = idle\n", b"ok 5 ste", b"ok 0 steps\nok 0 steps\n", b"hello\n"])
def test_a_text_without_its_end_is_none(text: bytes) -> None:
    with pytest.raises(IncompleteChangesError):
        RecordedChanges.read([text])


@pytest.fixture
def netrev(tmp_path: Path) -> Path:
    """The path of a stand-in for netrev."""
    return tmp_path / "netrev"


def arriving(netrev: Path, script: str, interrupts: "Interrupts | None" = None) -> tuple[ArrivingChanges, list[str]]:
    """The changes that this shell script prints, and the messages that nrdb prints while it waits for them."""
    netrev.write_text(f"#!/bin/sh\n{script}\n")
    netrev.chmod(0o755)
    result: list[str] = []
    return ArrivingChanges(str(netrev), "some.jsonl", interrupts or Interrupts(), result.append), result


def test_what_has_come_is_there_before_the_end(netrev: Path) -> None:
    changes, result = arriving(netrev, "echo 1 gor 1 = idle; echo 3 lock 0 = 0; exec sleep 60")
    assert changes.value("gor 1", 2) == "idle" and changes.at(1) == [("gor 1", "idle")] and not result
    changes.drop()


def test_who_waits_long_is_told_so_once(netrev: Path) -> None:
    changes, result = arriving(netrev, "sleep 1.3; echo 3 lock 0 = 0; echo ok 3 steps")
    assert list(changes.steps_of("lock 0")) == [3] and result == [COMPUTING_CHANGES]
    changes.drop()


def test_an_interrupted_wait_can_be_begun_anew(netrev: Path, tmp_path: Path) -> None:
    interrupts = Interrupts()
    script = f"echo 1 gor 1 = idle; while ! [ -e {tmp_path}/go ]; do sleep 0.05; done; echo ok 1 steps"
    changes, _ = arriving(netrev, script, interrupts)
    with interrupts.held():
        interrupts.press()
        with pytest.raises(SearchInterruptedError):
            changes.steps_of("gor 1")
    assert changes.value("gor 1", 0) == "absent"
    (tmp_path / "go").touch()
    assert list(changes.steps_of("gor 1")) == [1] and changes.length == 1
    changes.drop()


@pytest.mark.parametrize(
    "script, why",
    [
        ("echo 1 gor 1 = idle; exit 2", "it ended with status 2"),
        ("kill -9 $$", "it ended with status -9"),
        ("echo fault 108 memory; exit 1", "fault 108 memory"),
        ("echo hello", "a line isn't a change"),
        ("echo 1 = 2", "a line isn't a change"),
    ],
)
def test_a_netrev_that_fails_is_told(netrev: Path, script: str, why: str) -> None:
    changes, _ = arriving(netrev, script)
    with pytest.raises(ScoutUnavailableError, match=f"{netrev} changes some.jsonl: {why}"):
        changes.value("gor 1", 1)
    with pytest.raises(ScoutUnavailableError):
        changes.steps_of("gor 1")
    changes.drop()


def test_a_netrev_that_was_killed_is_begun_anew(netrev: Path, tmp_path: Path) -> None:
    once = (
        f"echo 1 gor 1 = idle; [ -e {tmp_path}/killed ] || {{ touch {tmp_path}/killed; kill -9 $$; }}; echo ok 1 steps"
    )
    changes, _ = arriving(netrev, once)
    with pytest.raises(ScoutUnavailableError):
        changes.steps_of("gor 1")
    assert list(changes) == [(1, "gor 1", "idle")] and changes.length == 1
    changes.drop()


def test_a_line_in_the_middle_that_is_no_change_is_told(netrev: Path) -> None:
    changes, _ = arriving(netrev, "printf '1 gor 1 = idle\\nno number = 3\\n2 clock = 5\\nok 2 steps\\n'")
    with pytest.raises(ScoutUnavailableError, match="a line isn't a change"):
        list(changes)
    changes.drop()


def test_a_reader_that_was_not_started_is_replaced(monkeypatch: pytest.MonkeyPatch, netrev: Path) -> None:
    changes, _ = arriving(netrev, "echo 1 gor 1 = idle; echo ok 1 steps")
    with monkeypatch.context() as patch, pytest.raises(KeyboardInterrupt):
        patch.setattr(Thread, "start", raising(KeyboardInterrupt))
        changes.prepare()
    changes.drop()
    assert list(changes) == [(1, "gor 1", "idle")]
    changes.drop()


def test_a_netrev_that_is_not_there_is_told(tmp_path: Path) -> None:
    changes = ArrivingChanges(str(tmp_path / "none"), "some.jsonl", Interrupts(), print)
    with pytest.raises(ScoutUnavailableError, match="No such file"):
        changes.value("clock", 1)
    changes.drop()
