"""Logs and runs at the boundaries of their rules: which headers are possible, which bytes count, and what a run's end
says."""

import argparse
import io
import json
import re
import subprocess
from collections.abc import Callable
from pathlib import Path
from types import SimpleNamespace as Made
from typing import Any, cast
from xml.etree import ElementTree

import pytest

from dev.fuzz.generators.logs import binary
from netrev.findings.finding import Finding
from netrev.findings.finding import Kind as FindingKind
from netrev.findings.finding import Sentence, SuspectFindings
from netrev.messages import recorder as messages
from netrev.recording.recording import NotARecordingError
from netrev.system.time_limits import LateError
from netrev_go import cli, doctor, go_test_results, recordings, recovery, release_check
from netrev_go.go_command import calls_of_go, run_folders, running, toolchain
from netrev_go.go_command.status import ExitStatus
from netrev_go.go_command.toolchain import RecorderError
from netrev_go.log import goroutines, logfile, sockets, source_lines
from netrev_go.log.goroutines import NEVER, Goroutines, LoggedChannel, LoggedPark, Passing, Used, UseSpan
from netrev_go.log.logfile import HEADER_WORDS, MOST_HOLDERS, MOST_POINTS, MOST_STACKS, UNDER_WAY, Header, NotALogError
from netrev_go.log.notes import REFERENCES, WAITING, Note
from netrev_go.log.point_answers import can_answer
from netrev_go.log.points import Log, Point, PointKind
from netrev_go.log.socket_facts import OF_UNIX, Beside
from netrev_go.log.sockets import BUFFER, FEW_BYTES, OUTPUT, LoggedSocket
from netrev_go.log.source_lines import Calls, LineCall
from netrev_go.steps import analysis, compare, conversion, forms, recording_builder, report
from netrev_go.steps.conversion import RecordingOptions

from .test_go_logs import opened

Patch = pytest.MonkeyPatch
Output = pytest.CaptureFixture[str]


@pytest.mark.parametrize(
    "word, most", [(2, MOST_POINTS), (3, MOST_STACKS), (4, 2**63 - 1), (12, MOST_HOLDERS), (15, MOST_POINTS), (16, MOST_POINTS)]
)  # fmt: skip
def test_the_greatest_number_of_a_header_and_one_more(word: int, most: int) -> None:
    def header(number: int) -> Header:
        words = bytearray(binary(opened(1)))
        words[8 * word : 8 * word + 8] = number.to_bytes(8, "little")
        return Header(bytes(words[: HEADER_WORDS * 8]))

    header(most)
    with pytest.raises(NotALogError, match="header is damaged"):
        header(most + 1)


def test_a_log_has_room_for_a_point() -> None:
    words = bytearray(binary(opened(1)))
    words[16:24] = bytes(8)
    with pytest.raises(NotALogError, match="header is damaged"):
        Header(bytes(words))


@pytest.mark.parametrize(
    "room, is_written, missing, says",
    [
        (0, False, 0, ""), (0, False, 1, "1 point wasn't"), (0, False, 2, "2 points weren't"), (0, True, 2, "2 points weren't"),
        (200, True, 2, ""), (200, False, 2, "2 points weren't"), (200, True, UNDER_WAY + 1, ""), (200, False, UNDER_WAY, "64 points weren't"),
        (200, False, UNDER_WAY + 1, "cut short or damaged"), (0, True, UNDER_WAY + 1, "cut short or damaged"),
    ],
)  # fmt: skip
def test_points_that_a_log_lacks_are_named_unless_newer_ones_replace_them(
    room: int, is_written: bool, missing: int, says: str
) -> None:
    """Among the newest points, every second one is missing, so that no gap is large."""
    points = opened(200)
    gone = {len(points) - 1 - 2 * index for index in range(1, missing + 1)}
    data = binary((point for point in points if point.number not in gone), room=room)
    notes = logfile.log_of(io.BytesIO(data), is_written).notes
    notes = [note for note in notes if "newest" not in note]
    assert len(notes) == (1 if says else 0) and says in "".join(notes)


@pytest.mark.parametrize("has_room", [True, False])
def test_doctor_says_where_logs_have_room(has_room: bool, tmp_path: Path, monkeypatch: Patch, capsys: Output) -> None:
    def folder(points: int) -> Path:
        if not has_room:
            raise RecorderError("full")
        (tmp_path / "logs").mkdir()
        return tmp_path / "logs"

    monkeypatch.setattr(doctor, "logs_folder", folder)
    assert doctor.has_room() is has_room
    output = messages.ROOM.format(folder=tmp_path) if has_room else messages.ROOM_MISSING.format(why="full")
    assert capsys.readouterr().out == output + "\n" and not any(tmp_path.iterdir())


@pytest.mark.parametrize(
    "began, ended, steps",
    [(0, None, [1, 4]), (0, 2, [1, 1]), (0, 3, [1, 2]), (2, 7, [2, 3]), (2, 8, [2, 4]), (3, 7, [3, 3]), (7, None, [4, 4]), (8, None, None), (3, 5, None), (9, 9, None)],
)  # fmt: skip
def test_a_test_has_the_steps_of_points_from_its_begin_to_its_end(
    began: int, ended: int | None, steps: list[int] | None
) -> None:
    recording = cast(Any, Made(bytes=None, prelude=0, taken=[], made=[(1, 5, 1), (2, 5, 2), (5, 5, 3), (7, 5, 4)]))
    test = Made(name="T", package="p", began=began, ended=ended)
    lines_of = conversion.of_tests(recording, cast(Any, Made(ran=[test])))
    assert lines_of == ([{"test": "T", "package": "p", "steps": steps}] if steps else [])


@pytest.mark.parametrize(
    "script, says",
    [
        ("touch log.1", "no recording"), ("touch log.1; exit 3", "status 3"), ("true", "0 logs"), ("touch log.1 log.2", "2 logs"),
        ("touch log.1 log.1.2", "2 logs"), ("touch log.1 log.x", "no recording"),
    ],
)  # fmt: skip
def test_a_trial_writes_one_log(script: str, says: str, tmp_path: Path, monkeypatch: Patch) -> None:
    def read(log: Path) -> None:
        raise NotALogError("empty")

    monkeypatch.setattr(release_check, "read_log", read)
    monkeypatch.setattr(messages, "NO_TRIAL_RECORDING", "no recording: {why}")
    monkeypatch.setattr(messages, "TRIAL_FAILED", "status {status}, {logs} logs: {why}")
    trial = release_check.recorded(["sh", "-c", f"cd {tmp_path}/one; {script}"], tmp_path / "one", 1, True)
    assert not trial.good and says in trial.said


@pytest.mark.parametrize(
    "ages, sent",
    [([0, 4], ""), ([0, 5], "Q"), ([0, 5, 5, 6], "Q"), ([0, 5, 14], "Q"), ([0, 5, 15], "QK"), ([3, 7, 8], "Q")],
)
def test_a_process_that_is_too_old_gets_one_quit_and_is_killed_later(
    ages: list[int], sent: str, monkeypatch: Patch
) -> None:
    signals: list[str] = []
    monkeypatch.setattr(running, "logs_in", lambda folder: [Path("log.1")])
    monkeypatch.setattr(running, "send", lambda log, number: signals.append(number.name[3]))
    monkeypatch.setattr(running, "GRACE", 10)
    own = cast(Any, Made(folder=Path(), began={}, told=set()))
    for age in ages:
        running.GoRunner.end_the_old(own, age, 5)
    assert "".join(signals) == sent


@pytest.mark.parametrize(
    "package, name", [("p", "p"), ("a/p", "p"), ("p/v2", "p"), ("a/p/v2", "p"), ("v2", "v2"), ("a/v", "v")]
)
def test_a_test_program_has_the_package_s_last_name(package: str, name: str) -> None:
    assert go_test_results.short_name(package) == name


@pytest.mark.parametrize(
    "status, suspected, possible, fail_on, is_strict, all_recorded, ends",
    [
        (0, True, True, None, False, False, ExitStatus.DONE), (0, True, False, ["suspects"], False, True, ExitStatus.SUSPECTED),
        (0, False, True, ["suspects"], False, True, ExitStatus.DONE), (0, False, True, ["possible"], False, True, ExitStatus.SUSPECTED),
        (0, True, False, ["possible"], False, True, ExitStatus.DONE), (0, False, False, ["suspects", "possible"], True, True, ExitStatus.DONE),
        (0, False, False, None, True, False, ExitStatus.UNRECORDED), (0, True, True, ["possible"], True, False, ExitStatus.SUSPECTED), (3, True, True, ["suspects"], True, False, 3),
    ],
)  # fmt: skip
def test_the_status_of_recorded_tests(
    status: int, suspected: bool, possible: bool, fail_on: list[str] | None, is_strict: bool, all_recorded: bool, ends: int, monkeypatch: Patch
) -> None:  # fmt: skip
    results = Made(status=status, suspected=suspected, possible=possible, all_recorded=all_recorded)
    monkeypatch.setattr(cli, "record_tests", lambda *words: results)
    monkeypatch.setattr(cli, "flags", lambda go, words: [])
    monkeypatch.setattr(cli, "wish_of", lambda options: None)
    options = argparse.Namespace(command="test", words_of_go=[], fail_on=fail_on, strict=is_strict)
    assert cli.record(options, cast(Any, Made(program="go"))) == ends


def test_what_a_conversion_didn_t_print_yet_comes_at_its_end(monkeypatch: Patch, capsys: Output) -> None:
    def convert(
        log: Path, name: Path, go: object, options: object, known: object, hear: Callable[..., None], is_written: bool
    ) -> Made:
        hear(["first"])
        return Made(lines=["first", "second"], taken=log.name != "b")

    for name, fake in {"go_if_any": lambda: None, "wish_of": lambda options: RecordingOptions()}.items():
        monkeypatch.setattr(cli, name, fake)
    monkeypatch.setattr(cli, "convert", convert)
    assert cli.convert_log(argparse.Namespace(words_of_go=["a", "b"], pid=None, o=None)) == ExitStatus.REFUSED
    assert capsys.readouterr().out == 2 * "first\nsecond\n"


def test_only_values_are_netrev_s_answers(monkeypatch: Patch) -> None:
    queries: list[str] = []

    def run(words: list[object], input: str, **more: object) -> Made:
        queries.append(input)
        return Made(stdout="step 3\nlock 0 = 8\nlock 1 = 9\n")

    monkeypatch.setattr(subprocess, "run", run)
    values = compare.asked("netrev", Path("x"), [(3, "lock 0", "8"), (3, "lock 1", "9"), (5, "lock 0", "0")])
    assert values == ["lock 0 = 8", "lock 1 = 9"]
    assert queries == ["stepi 3\nprint lock 0\nprint lock 1\nstepi 2\nprint lock 0\n"]


@pytest.mark.parametrize(
    "function, of, is_ours",
    [
        ("runtime.netrevPoint", "go", True), ("internal/poll.(*fdMutex).netrevNote", "go", True), ("runtime.netrevPoint.func1", "go", True),
        ("net/netrev.Dial", "go", False), ("runtime.gopark", "go", False), ("main.netrevPoint", "program", False),
    ],
)  # fmt: skip
def test_the_recorder_s_own_calls(function: str, of: str, is_ours: bool) -> None:
    assert source_lines.is_ours(LineCall(function, "x.go", 1, of)) is is_ours


@pytest.mark.parametrize(
    "kind, requested, got, failed, text, steps, written, largest, full_at",
    [
        (PointKind.READ, 9, 5, 0, 10, 1, 0, OUTPUT, 0), (PointKind.READ, 9, 0, 0, 0, -1, 0, OUTPUT, 0), (PointKind.READ, 9, -1, 1, 0, -1, 0, OUTPUT, 0),
        (PointKind.READ, 2 * BUFFER, BUFFER, 0, 2 * BUFFER, 1, 0, OUTPUT, 0), (PointKind.READ, 2 * BUFFER, BUFFER + 1, 0, 2 * BUFFER + 2, 3, 0, OUTPUT, 0),
        (PointKind.WRITE, 9, 5, 0, 10, 0, 5, OUTPUT, 0), (PointKind.WRITE, 9, 0, 2, 18, 0, 0, OUTPUT, 0), (PointKind.WRITE, 0, -1, 2, 2, 0, 0, OUTPUT, 0),
        (PointKind.WRITE, BUFFER + 1, 0, 2, 2 * BUFFER, 0, 0, OUTPUT, 0), (PointKind.WRITE, 9, 0, 1, 18, 0, 0, OUTPUT, 1), (PointKind.WRITE, 9, 5, 1, 10, 0, 5, OUTPUT, 5),
        (PointKind.WRITE, 9, OUTPUT + 1, 0, 2 * OUTPUT + 2, 0, OUTPUT + 1, OUTPUT + 1, 0), (PointKind.WRITE, 9, BUFFER + 1, 1, 2 * BUFFER + 2, 0, BUFFER + 1, BUFFER, BUFFER),
    ],
)  # fmt: skip
def test_the_bytes_of_a_read_or_a_write(
    kind: int, requested: int, got: int, failed: int, text: int, steps: int, written: int, largest: int, full_at: int
) -> None:
    socket = LoggedSocket(0)
    sockets.count_bytes(socket, Point(1, kind, 1, 0, requested, got, failed, 0, 0))
    assert (socket.text, socket.steps, socket.written) == (text, steps, written)
    assert (socket.largest, socket.full_at, socket.capacity()) == (largest, full_at, full_at or largest)
    assert (socket.last_write is not None) is (kind == PointKind.WRITE and (got > 0 or failed == 1))


@pytest.mark.parametrize(
    "kind, requested, got, few",
    [
        (PointKind.WRITE, 64, 64, (64, 64)), (PointKind.WRITE, 65, 3, (64, 3)), (PointKind.WRITE, 3, 3, (3, 3)), (PointKind.READ, 65, 65, (65, 64)), (PointKind.READ, 9, -1, (9, -1)),
    ],
)  # fmt: skip
def test_few_of_the_bytes_of_a_call(kind: int, requested: int, got: int, few: tuple[int, int]) -> None:
    point = sockets.of_few(Point(1, kind, 2, 3, requested, got, 4, 5, 6))
    assert FEW_BYTES == 64 and point == Point(1, kind, 2, 3, *few, 4, 5, 6)


@pytest.mark.parametrize(
    "kind, got, error, held, is_shut, answers",
    [
        (PointKind.READ, 1, 7, 0, False, True), (PointKind.READ, 0, 1, 0, False, True), (PointKind.READ, 0, 0, 0, False, True), (PointKind.READ, 0, 7, 0, False, False), (PointKind.READ, 0, 2, 0, True, False),
        (PointKind.WRITE, 0, 1, OUTPUT, False, True), (PointKind.WRITE, 0, 1, OUTPUT - 1, False, False), (PointKind.WRITE, 0, 2, 0, True, True), (PointKind.WRITE, 0, 2, 0, False, False),
        (PointKind.WRITE, 0, 0, 0, True, False),
    ],
)  # fmt: skip
def test_the_results_for_which_the_machine_has_an_answer(
    kind: int, got: int, error: int, held: int, is_shut: bool, answers: bool
) -> None:
    socket = LoggedSocket(0, held=held, shut=is_shut)
    assert can_answer(socket, Point(1, kind, 1, 0, 9, got, error, 0, 0)) is answers


@pytest.mark.parametrize(
    "statuses, ends",
    [("a", 0), ("r", 1), ("t", 4), ("ra", 1), ("ar", 1), ("tr", 4), ("rt", 4), ("", 0)],
)
def test_the_status_of_recovered_runs(statuses: str, ends: int, monkeypatch: Patch, capsys: Output) -> None:
    """Each run's recordings are all accepted (a), not all accepted (r), or can't be written (t). In each case, --keep
    leaves the run's logs."""
    left: list[bool] = []
    folders: list[Path] = []
    runs = [Made(folder=Path(kind), command=kind, when=lambda: "today") for kind in statuses]

    def made(folder: Path, base: Path, go: object, options: object, count: int, is_typed: bool) -> Made:
        kind = folder.name
        return Made(
            all=lambda failed: None, leave=left.append, count=count + 1, trouble=kind == "t", all_taken=kind == "a"
        )

    fakes: dict[str, Callable[..., object]] = {
        "look": lambda base, is_typed, more: folders.append(base), "left_runs": lambda *kept: [] if kept else runs, "take_over": lambda run: True, "RecordingMaker": made,
    }  # fmt: skip
    for name, fake in fakes.items():
        monkeypatch.setattr(recovery, name, fake)
    assert recovery.recover(argparse.Namespace(keep=True, o=None), Path("x"), None, cast(Any, None)) == ends
    assert left == [True] * len(statuses) and folders == [Path("x")]
    errors = capsys.readouterr().err
    assert (f"{len(statuses)} recordings" in errors) is (len(statuses) > 1)


@pytest.mark.parametrize(
    "outcomes, is_ok, count, suspected, says",
    [
        ("", True, 2, False, ""), ("t", True, 3, False, ""), ("r", False, 3, False, ""), ("rt", False, 4, False, ""), ("s", True, 3, True, ""), ("st", True, 4, True, ""),
        ("e", True, 2, False, "nothing"), ("et", True, 3, False, "1 more process"), ("tee", True, 3, False, "2 more processes"), ("w", False, 2, False, ""),
    ],
)  # fmt: skip
def test_the_recordings_of_a_run_s_processes(
    outcomes: str, is_ok: bool, count: int, suspected: bool, says: str, monkeypatch: Patch, capsys: Output
) -> None:
    """A log's recording is accepted (t), accepted with a suspect (s), refused (r), unwritten (w) or empty (e)."""

    def convert(log: Path, name: Path, go: object, options: object, hear: object) -> Made:
        if log.name == "w":
            raise OSError(28, "full")
        return Made(is_empty=log.name == "e", taken=log.name in "ts", lines=[], suspects=[""] * (log.name == "s"))

    monkeypatch.setattr(recordings, "logs_in", lambda folder: [Path(kind) for kind in outcomes])
    monkeypatch.setattr(recordings, "convert", convert)
    monkeypatch.setattr(messages, "NOTHING_TO_RECORD", "nothing")
    monkeypatch.setattr(messages, "OPENED_NONE", "{processes}")
    recording_maker = recordings.RecordingMaker(Path("logs"), Path("x"), None, cast(Any, None), 2)
    assert recording_maker._make(Path("x"), RecordingOptions(), 2) == (is_ok, count)
    assert recording_maker.suspected is suspected and recording_maker.trouble is ("w" in outcomes)
    assert says in capsys.readouterr().err


@pytest.mark.parametrize("unknown, status", [([], 0), (["FD.New"], 1)])
def test_the_statuses_for_unknown_calls_of_go(
    unknown: list[str], status: int, monkeypatch: Patch, capsys: Output
) -> None:
    monkeypatch.setattr(calls_of_go, "find_go", lambda: Made(version="go9"))
    monkeypatch.setattr(calls_of_go, "unknown_calls", lambda go: unknown)
    assert calls_of_go.main([]) == status
    output = capsys.readouterr().out.splitlines()
    assert output == [
        *(f"go9 has {call}, which isn't in the table" for call in unknown),
        f"go9: {len(unknown)} unknown calls",
    ]


def test_the_status_if_no_go_is_installed(monkeypatch: Patch, capsys: Output) -> None:
    def find() -> None:
        raise RecorderError("no Go")

    monkeypatch.setattr(calls_of_go, "find_go", find)
    assert calls_of_go.main([]) == 3 and capsys.readouterr().err == "no Go\n"
    assert calls_of_go.main(["--table"]) == 0


@pytest.mark.parametrize(
    "starter, says",
    [(None, ""), (LineCall("main.f", "main.go", 3, "program"), "; started at main.go:3")],
)
def test_a_goroutine_is_told_with_the_line_that_started_it(starter: LineCall | None, says: str) -> None:
    calls = Calls((LineCall("main.f", "main.go", 14, "program"),), starter)
    wait = report.wait_of(2, "running w", 7, "step 7", calls)
    (sentence,) = wait.sentences
    assert sentence.endswith(f"(goroutine 2, since step 7{says})") and "main.go:14" in sentence
    assert (wait.place, wait.steps, wait.goroutines) == (("main.go", 14), (7,), ((2, False),))


def passed(*points: tuple[int, ...], begin: int = 0) -> Goroutines:
    """The goroutines that these points describe. Each tuple has a point's fields except its number; point N comes after
    step N."""
    passing = Passing(begin)
    for number, point in enumerate(points, 1):
        passing.point(Point(number, *point), number)
    return passing.all()


@pytest.mark.parametrize("due, ends", [(120, 20), (101, 1), (100, 0), (40, 0)])
def test_a_timer_is_due_when_it_is_set_to_or_at_once(due: int, ends: int) -> None:
    found = passed(
        (PointKind.TIMER, 3, 0x50, due, 0, 0, 110, 9), (PointKind.STOPPED, 4, 0x50, 0, 0, 0, 90, 8), begin=100
    )  # fmt: skip
    assert found.timers == [
        goroutines.LoggedTimer(0x50, 3, 9, 1, 10, ends), goroutines.LoggedTimer(0x50, 4, 8, 2, 0, NEVER)
    ]  # fmt: skip


def test_a_dial_that_fails() -> None:
    found = passed((PointKind.DIAL_FAILED, 3, 0x50, 111, 12, 0, 110, 9), begin=100)
    assert found.dials == [goroutines.LoggedDial(3, 9, 1, 10, 111, 12, 0x50)]
    assert found.stacks() == {9} and found.goroutines() == {3}


def test_each_channel_at_an_address_has_its_own_key() -> None:
    make = [(PointKind.MAKES, 3, 0x50, 0, room, 0, 10 * room, room) for room in (1, 2, 3)]
    found = passed(*make, (PointKind.SENT, 4, 0x50, 1, 3, 0, 40, 9))
    keys = [0x50, 0x50 + 2**48, 0x50 + 2**49]
    assert found.made == {key: LoggedChannel(3, room, room, 10 * room) for key, room in zip(keys, (1, 2, 3))}
    assert found.rooms == dict(zip(keys, (1, 2, 3))) and [use.address for use in found.uses] == keys[2:]


def test_a_use_lasts_from_its_first_time_to_its_last() -> None:
    sent = [(PointKind.SENT, 4, 0x50, 1, 3, 0, time, 9) for time in (20, 30, 45)]
    assert passed(*sent).uses == {Used(0x50, 4, "put", 9): UseSpan(3, 1, 3, 20, 45)}


def test_the_stacks_of_all_facts() -> None:
    found = Goroutines(
        [LoggedPark(1, 0, 2, 0, 9, 5, 11, 0, ())], uses={Used(0x50, 4, "put", 12): UseSpan(1, 1, 1, 2, 2)}
    )
    found.timers.append(goroutines.LoggedTimer(0, 1, 13, 1, 1, 1))
    found.made[0x50] = LoggedChannel(1, 14, 1, 1)
    found.dials.append(goroutines.LoggedDial(1, 15, 1, 1, 1, 1, 0))
    assert found.stacks() == {11, 12, 13, 14, 15}
    found.held = [goroutines.LoggedMutex(0x60, 1, False, 16, 1)]
    assert found.stacks() == {11, 12, 13, 14, 15, 16}


@pytest.mark.parametrize(
    "begin, end, is_kept",
    [(0, None, True), (30, None, True), (31, None, False), (0, 20, True), (0, 19, False), (30, 40, True), (31, 40, False)],
)  # fmt: skip
def test_the_facts_of_a_period(begin: int, end: int | None, is_kept: bool) -> None:
    waits = [
        LoggedPark(1, 0, 2, 20, 30, 5, 11, 0, ()),
        LoggedPark(2, 0, goroutines.UNENDED, 20, goroutines.UNENDED, 5, 11, 0, ()),
    ]
    found = Goroutines(waits, uses={Used(0x50, 4, "put", 12): UseSpan(1, 1, 1, 20, 30)})
    kept = found.during(begin, end)
    assert (waits[0] in kept.parks) is is_kept and bool(kept.uses) is is_kept
    assert (waits[1] in kept.parks) is (end is None or end >= 20)


@pytest.mark.parametrize(
    "words, called",
    [
        (["snapshot", "7"], ["offer", "snapshot 7"]), (["watch", "7"], ["offer", "watch 7"]), (["doctor"], ["offer", "doctor"]), (["env"], ["offer", "env"]),
        (["build"], ["offer", "build"]), (["run"], ["offer", "record"]), (["test"], ["offer", "record"]), (["convert", "x"], ["offer", "convert_log"]), (["recover"], ["recover"]),
    ],
)  # fmt: skip
def test_each_command_does_its_own(words: list[str], called: list[str], monkeypatch: Patch) -> None:
    calls: list[str] = []

    def fake(name: str) -> Callable[..., int]:
        def call(*given: Any) -> int:
            calls.append(f"{name} {given[0].pid}" if name in ("snapshot", "watch") else name)
            return 7

        return call

    monkeypatch.setattr(cli.gc, "disable", lambda: None)
    monkeypatch.setattr(cli, "find_go", lambda: None)
    for name in ("recover", "offer", "convert_log", "snapshot", "watch", "doctor", "build", "env", "record"):
        monkeypatch.setattr(cli, name, fake(name))
    assert (cli.main(words), calls) == (7, called)


@pytest.mark.parametrize("status, says", [(1, ["unfit a", "broken"]), (0, [])])
def test_rules_that_don_t_fit_are_named(status: int, says: list[str], tmp_path: Path, monkeypatch: Patch) -> None:
    run = Made(returncode=status, stdout="unfit a\nfits b\nwithout c\nis unfit \n", stderr="broken")
    (tmp_path / "points").touch()
    (tmp_path / toolchain.NEW).write_text(json.dumps({"Replace": {"/src/a.go": f"{tmp_path}/a.go", "/b.go": "/b.go"}}))
    monkeypatch.setattr(toolchain, "points_program", lambda go, folder: tmp_path / "points")
    monkeypatch.setattr(toolchain, "quiet_go", lambda *words: Made(returncode=0))
    monkeypatch.setattr(subprocess, "run", lambda *words, **more: run)
    monkeypatch.setattr(messages, "RULES_DONT_FIT", "")
    go = cast(Any, Made(version="go1.27", sources=lambda: Path("/src")))
    if says:
        with pytest.raises(RecorderError) as trouble:
            toolchain.make_overlay(go, tmp_path)
        assert str(trouble.value).splitlines() == says
    else:
        assert toolchain.make_overlay(go, tmp_path) == [toolchain.OVERLAY, toolchain.LEFT_OUT, "a.go"]
        assert (tmp_path / toolchain.LEFT_OUT).read_text() == "without c\n" and (tmp_path / toolchain.OVERLAY).exists()


@pytest.mark.parametrize("count", [0, 1, 3, 4, 7])
def test_a_recording_has_a_header_and_all_its_lines(count: int, tmp_path: Path, monkeypatch: Patch) -> None:
    monkeypatch.setattr(recording_builder, "AT_ONCE", 3)
    recording = cast(Any, Made(header="header", lines=[f"line {number}" for number in range(count)]))
    recording_builder.write(recording, tmp_path / "x.jsonl")
    assert (tmp_path / "x.jsonl").read_text().splitlines() == ["header", *recording.lines]


WRITES = [
    ([(12, 12, 0)], 4_096, [12]), ([(9, 5, 1), (12, 12, 0)], 5, [5, 5, 5, 2]), ([(9, 5, 1), (5, 5, 0)], 5, [5, 5]), ([(70_000, 70_000, 0)], BUFFER, [BUFFER, 70_000 - BUFFER]),
]  # fmt: skip


@pytest.mark.parametrize("writes, capacity, counts", WRITES)
def test_a_write_has_as_many_steps_as_fit_into_the_output(
    writes: list[tuple[int, int, int]], capacity: int, counts: list[int]
) -> None:
    points = opened(1) + [
        Point(2 + place, PointKind.WRITE, 1, 1000, *write, 0, 0) for place, write in enumerate(writes)
    ]
    steps = [json.loads(str(line)) for line in recording_builder.make(Log(points)).lines]
    assert next(step[2] for step in steps if step[0] == "sockopen") == capacity
    assert [step[4][1] for step in steps if step[0] == "syswrite" and step[4] != "again"] == counts


def test_a_file_that_is_no_log_is_named_and_not_everything_is_recorded(tmp_path: Path, capsys: Output) -> None:
    recordings = go_test_results.Recordings(tmp_path, cast(Any, None), RecordingOptions(), False, False)
    assert recordings.read(tmp_path / "log.1", cast(Any, None)) is None
    assert not recordings.all_recorded and str(tmp_path / "log.1") in capsys.readouterr().err


def report_with(suspects: Callable[[], SuspectFindings]) -> tuple[SuspectFindings, list[str]]:
    """The suspects of a report, and the lines about them, if the library computes them in this way."""
    made = report.Report(cast(Any, None), Path("x.jsonl"), {}, report.unheard)
    return made.suspects(cast(Any, Made(suspects=suspects)))


@pytest.mark.parametrize(
    "count, rest, lines_of_report",
    [
        (0, "", []), (0, "no suspect", ["  nrdb suspects:", "    no suspect"]),
        (1, "", ["  nrdb suspects:", "    1. rule: a\\x07", "       next:   goto 7"]), (1, "more", ["  nrdb suspects:", "    1. rule: a\\x07", "       next:   goto 7", "    more"]),
    ],
)  # fmt: skip
def test_the_suspects_of_a_report(count: int, rest: str, lines_of_report: list[str]) -> None:
    findings = [Finding(FindingKind.SUSPECT, (Sentence("rule: a\x07"),), evidence=("goto 7",))] * count
    found = SuspectFindings(findings, rest)
    assert report_with(lambda: found) == (found, lines_of_report)


@pytest.mark.parametrize(
    "count, details, shown", [(0, 0, []), (1, 0, [2]), (7, 0, [2] * 6), (2, 9, [11, 1]), (3, 12, [12])]
)
def test_a_report_has_few_lines_about_suspects(count: int, details: int, shown: list[int]) -> None:
    more = (Sentence("netrev: x"),) * details
    findings = [Finding(FindingKind.SUSPECT, (Sentence("a"),), evidence=("goto 7",), details=more)] * count
    assert [len(lines) for _, lines in report.shown_suspects(findings)] == shown
    _, lines = report_with(lambda: SuspectFindings(findings, ""))
    assert len(lines) == sum(shown) + (count > 0)


@pytest.mark.parametrize(
    "fault, says",
    [
        (LateError("late"), "  late: `.* --suspects x.jsonl` prints them"), (KeyboardInterrupt(), "  the search for suspects was interrupted: `.* --suspects x.jsonl` prints them"),
        (KeyError(7), r"  error in nrdb, not in the recording: KeyError: 7 \(set NRDB_TRACEBACK=1 to see its traceback\)"), (NotARecordingError("no"), None),
    ],
)  # fmt: skip
def test_a_report_without_its_suspects_says_why(fault: BaseException, says: str | None) -> None:
    def suspects() -> SuspectFindings:
        raise fault

    found, lines = report_with(suspects)
    assert not found.findings
    assert [bool(re.fullmatch(says, line)) for line in lines] == [True] if says else not lines


@pytest.mark.parametrize(
    "system, has_sources, status, says",
    [("linux amd64", True, 0, ""), ("linux amd64", False, 0, "no sources"), ("linux arm64", True, 0, "linux/arm64"), ("darwin amd64", True, 0, "darwin/amd64"), ("linux amd64", True, 2, "go env: broken")],
)  # fmt: skip
def test_a_go_that_can_record(
    system: str, has_sources: bool, status: int, says: str, tmp_path: Path, monkeypatch: Patch
) -> None:
    if has_sources:
        (tmp_path / "src/runtime").mkdir(parents=True)
        (tmp_path / "src/runtime/netpoll.go").touch()
    kind, processor = system.split()
    variables = {"GOROOT": str(tmp_path), "GOVERSION": "go1.27", "GOOS": kind, "GOARCH": processor, "GOFLAGS": "-v"}
    run = Made(returncode=status, stdout=json.dumps(variables), stderr="broken")
    monkeypatch.setattr(subprocess, "run", lambda *words, **more: run)
    monkeypatch.setattr(toolchain.shutil, "which", lambda name: f"/bin/{name}")
    monkeypatch.setattr(messages, "NO_SOURCES", "no sources")
    monkeypatch.setattr(messages, "GO_ENV_FAILED", "go env: {why}")
    if says:
        with pytest.raises(RecorderError, match=says):
            toolchain.find_go()
    else:
        assert toolchain.find_go() == toolchain.Go("/bin/go", tmp_path, "go1.27", "linux/amd64", "-v")


@pytest.mark.parametrize(
    "word, references",
    [("9", 1), ("1", 0), ("8", 0), ("0", 0), (f"{1 + 8 * (2**20 - 1)}", 2**20 - 1), (f"{1 + 8 * 2 + 2**23}", 2), (f"{1 + 2**23}", 0), ("none", 0)],
)  # fmt: skip
def test_a_closed_socket_with_references_is_never_closed(word: str, references: int) -> None:
    values = {"lock 3": word, "gor 4": "9"}
    assert analysis.never_closed(values) == ({3: references} if references else {})


@pytest.mark.parametrize(
    "name, is_mine, is_folder", [("folder", True, True), ("folder", False, False), ("file", True, False), ("link", True, False)]
)  # fmt: skip
def test_a_left_run_is_in_a_folder_of_this_user_s(
    name: str, is_mine: bool, is_folder: bool, tmp_path: Path, monkeypatch: Patch
) -> None:
    (tmp_path / "folder").mkdir()
    (tmp_path / "file").touch()
    (tmp_path / "link").symlink_to(tmp_path / "folder")
    user = (tmp_path / name).lstat().st_uid
    monkeypatch.setattr(run_folders.os, "geteuid", lambda: user if is_mine else user + 1)
    assert run_folders.is_own(tmp_path / name) is is_folder


@pytest.mark.parametrize(
    "status, failed, parts",
    [("passed", 0, []), ("skipped", 0, [("skipped", None)]), ("failed", 1, [("failure", "a\nb")]), ("unfinished", 1, [("error", "a\nb")])],
)  # fmt: skip
def test_the_parts_of_a_test_case(status: str, failed: int, parts: list[tuple[str, str | None]]) -> None:
    test_result = forms.TestResult("p", "T", status, 1, failed, 0.5, says=["a", "b"])
    case = ElementTree.fromstring(forms.junit([test_result])).find("testsuite/testcase")
    assert case is not None and case.attrib == {"classname": "p", "name": "T", "time": "0.500000"}
    assert [(part.tag, part.text) for part in case] == parts


ACCEPTED, DIALED = (7, 0), (0, 7)  # the path of a Unix socket's own end, and of its other end


@pytest.mark.parametrize(
    "ends, peers",
    [
        ([(0, ACCEPTED, 1), (1, DIALED, 2)], [(1, 0)]), ([(0, DIALED, 1), (1, ACCEPTED, 1), (2, DIALED, 1), (3, ACCEPTED, 1)], [(0, 1), (2, 3)]),
        ([(0, ACCEPTED, 1), (1, DIALED, 2), (2, DIALED, 3)], []), ([(0, ACCEPTED, 1), (1, ACCEPTED, 3), (2, DIALED, 2)], []), ([(0, ACCEPTED, 1), (1, (0, 8), 2)], []),
    ],
)  # fmt: skip
def test_the_ends_of_unix_connections_are_paired_if_their_order_is_known(
    ends: list[tuple[int, tuple[int, int], int]], peers: list[tuple[int, int]]
) -> None:
    beside = Beside()
    for socket, path, goroutine in ends:
        beside.named(socket, Point(1, PointKind.NAMED, goroutine, 0, *path, OF_UNIX, 0, 0))
    beside.pair_unix()
    assert beside.peers == peers


def test_recordings_of_a_running_program_are_numbered(monkeypatch: Patch) -> None:
    names: list[str] = []

    def convert(log: Path, name: Path, *words: object, **more: object) -> Made:
        names.append(name.name)
        return Made(is_empty=False, taken=True, lines=[], suspects=[])

    monkeypatch.setattr(recordings, "logs_in", lambda folder: [Path("log.1"), Path("log.2")])
    monkeypatch.setattr(recordings, "convert", convert)
    recording_maker = recordings.RecordingMaker(Path("logs"), Path("x"), None, RecordingOptions())
    recording_maker.so_far()
    recording_maker.so_far()
    assert names == ["x-so-far-1.jsonl", "x-so-far-1-2.jsonl", "x-so-far-2.jsonl", "x-so-far-2-2.jsonl"]


def test_the_fields_of_a_lock_word() -> None:
    note = Note(1, 1 | 2 | 5 << 3 | 70 << 23 | (2**20 - 1) << 43, (0, 0))
    assert [note.field(place) for place in (REFERENCES, *WAITING)] == [5, 70, 2**20 - 1]
    assert note.is_taken(0) and not note.is_taken(1)


@pytest.mark.parametrize(
    "lengths, rooms", [([10], [10]), ([12, 10], [10, 10]), ([12, 13, 9], [10, 10, 7]), ([12, 13, 11, 8], [10, 10, 7, 6])]
)  # fmt: skip
def test_a_recording_that_is_too_long_after_its_steps_were_counted_gets_less_room(
    lengths: list[int], rooms: list[int], monkeypatch: Patch
) -> None:
    limits: list[int] = []
    lengths_left = iter(lengths)

    def converter(points: object, begin: int, ends: object) -> Made:
        return Made(lines=[""] * next(lengths_left), convert=lambda: None, made_of=dict)

    own = Made(chosen=lambda most, megabytes, room: limits.append(room), is_crowded=False, restore=lambda: None, found=Made(sockets=[]))  # fmt: skip
    monkeypatch.setattr(recording_builder, "Converter", converter)
    monkeypatch.setattr(recording_builder, "MOST_STEPS", 10)
    assert len(recording_builder.Fitted.converted(cast(Any, own), 0, 256, 1).lines) == lengths[-1] and limits == rooms


@pytest.mark.parametrize(
    "numbers, first",
    [
        ([5, 5 + UNDER_WAY], 5), ([5, 6 + UNDER_WAY], 6 + UNDER_WAY), ([5, 6, 7 + UNDER_WAY, 8 + UNDER_WAY], 7 + UNDER_WAY), ([5, 45, 85], 5), ([5, 100, 200, 240], 200), ([5], 5), ([], None),
    ],
)  # fmt: skip
def test_the_points_after_the_last_gap_that_is_too_large(numbers: list[int], first: int | None) -> None:
    points = [Point(number, PointKind.INIT, 1, 0, 0, 0, 0, 0, 0) for number in numbers]
    kept = logfile.after_last_gap(points)
    assert kept == [point for point in points if first is not None and point.number >= first]
