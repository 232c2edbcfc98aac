"""A run is never lost. A stand-in for Go leaves a stored log, does what a test requests, and ends with a status.
Neither Go nor netrev is needed."""

import contextlib
import io
import json
import os
import re
import shlex
import shutil
import signal
import subprocess
import sys
from collections.abc import Callable
from contextlib import ExitStack, redirect_stderr, redirect_stdout
from pathlib import Path
from types import SimpleNamespace
from typing import Any

import pytest

from dev.fuzz.generators.logs import binary, from_text
from netrev.messages import recorder as messages
from netrev.text.files import whole
from netrev_go import cli, recordings
from netrev_go.cli import ExitStatus
from netrev_go.go_command.outputs import base_name, look
from netrev_go.go_command.running import SIGNALS
from netrev_go.go_command.toolchain import Go, RecorderError
from netrev_go.log.logfile import Header
from netrev_go.log.points import Log, PointKind
from netrev_go.steps import recording_builder, report
from netrev_go.steps.recording_builder import make
from netrev_go.steps.zeros import Zeros
from tests.logs.test_go_converting import WORD, Points
from tests.logs.test_go_logs import opened
from tests.support.stubs import raising

PYTHON = Path(__file__).resolve().parents[2]
STORED = PYTHON.parent / "examples/real/past.log"
STANDS_IN = """#!/bin/sh
{leaves}
{does}
exit {status}
"""
KEPT = re.compile(r"the logs are in (\S+)")
WHOLE = STORED.with_suffix(".jsonl").read_text()
AGAIN = re.compile(r"`\S*netrev-go -o NAME convert (\S+)`")


def restore_signals(cleanups: ExitStack) -> None:
    """Signals are handled after the test as they were before it."""
    for number in SIGNALS:
        cleanups.callback(signal.signal, number, signal.getsignal(number))
    cleanups.callback(signal.pthread_sigmask, signal.SIG_SETMASK, signal.pthread_sigmask(signal.SIG_BLOCK, ()))


class Run:
    """A folder in which netrev-go is called."""

    def __init__(self, folder: Path, monkeypatch: pytest.MonkeyPatch, cleanups: ExitStack) -> None:
        self.folder, self.cleanups = folder, cleanups
        self.log = self.folder / "stored"
        self.log.write_bytes(from_text(STORED.read_text())[0])
        monkeypatch.chdir(folder)
        restore_signals(cleanups)

    def go(self, does: str, status: int, leaves: str) -> Go:
        """The stand-in for Go."""
        program = self.folder / "go"
        program.write_text(STANDS_IN.format(leaves=leaves, does=does, status=status))
        program.chmod(0o700)
        return Go(str(program), self.folder, "go1", "linux/amd64", "")

    def called(
        self, *words: str, does: str = "", status: int = 0, leaves: str = "", netrev: str | None = None
    ) -> tuple[int, str]:
        """netrev-go's status, and all its output."""
        go = self.go(does, status, leaves or f'cp {self.log} "$NETREV_LOG.$$"')
        output = io.StringIO()
        with pytest.MonkeyPatch.context() as patch, redirect_stdout(output), redirect_stderr(output):
            patch.setattr(cli, "find_go", lambda: go)
            patch.setattr(cli, "ready", lambda _: self.folder / "overlay.json")
            patch.setattr(report, "netrev_program", lambda: netrev)
            returned = cli.main(list(words))
        return returned, output.getvalue()

    def again(self, output: str) -> str:
        """The result of converting the logs that were kept, with the command that was printed for that."""
        kept, logs = KEPT.search(output), AGAIN.search(output)
        assert kept and logs, output
        self.cleanups.callback(shutil.rmtree, kept[1], True)
        returned, output = self.called("-o", "again", "convert", logs[1])
        assert returned == 0, output
        return (self.folder / "again.jsonl").read_text()


@pytest.fixture
def run(folder: Path, monkeypatch: pytest.MonkeyPatch, cleanups: ExitStack) -> Run:
    return Run(folder, monkeypatch, cleanups)


def test_what_can_be_written_is_written(run: Run) -> None:
    returned, output = run.called("-o", "mine", "run", "main.go")
    assert (returned, (run.folder / "mine.jsonl").read_text()) == (0, WHOLE)
    assert "the logs are in" not in output
    assert sorted(os.listdir()) == ["go", "mine.jsonl", "stored"]


def test_a_name_that_cannot_be_written_is_told_before_the_program_runs(run: Run) -> None:
    (run.folder / "taken.jsonl").mkdir()
    (run.folder / "file").touch()
    for name in (
        "nowhere/x",
        "/",
        ".",
        "..",
        "",
        "folder/",
        "x" * 300,
        "x" * 245,
        "taken",
        "file/x",
        "/proc/x",
        "/dev/null",
    ):
        returned, output = run.called("-o", name, "run", "main.go", does=f"touch {run.folder}/ran")
        assert returned == ExitStatus.TROUBLE, output
        assert re.search(r"netrev-go: .*(Nothing was run|can't be the name of a recording)", output), name
        assert not (run.folder / "ran").exists(), name


def test_only_a_name_that_was_typed_is_written_over(run: Run) -> None:
    for name in ("recording.jsonl", "recording-3.where", "mine.jsonl", "mine-2.jsonl", "diary"):
        (run.folder / name).write_text(name)
    (run.folder / "recording-2.jsonl").symlink_to("diary")
    before = sorted(os.listdir())
    assert "recording-4.jsonl: " in run.called("run", "main.go")[1]
    two = f'cp {run.log} "$NETREV_LOG.$$"; cp {run.log} "$NETREV_LOG.1$$"'
    output = run.called("-o", "mine", "run", "main.go", leaves=two)[1]
    assert "mine.jsonl: " in output and "mine-3.jsonl: " in output
    texts = {path.name: path.read_text() for path in run.folder.iterdir() if path.name not in ("go", "stored")}
    assert sorted(texts) == sorted({*before, "mine-3.jsonl", "recording-4.jsonl"} - {"stored"})
    for name, text in texts.items():
        is_new = name in ("recording-4.jsonl", "mine.jsonl", "mine-3.jsonl")
        assert text == (WHOLE if is_new else "diary" if name == "recording-2.jsonl" else name)


@pytest.mark.parametrize(
    "make", [lambda path: path.write_text("mine"), lambda path: path.symlink_to("stored"), Path.mkdir]
)
def test_what_is_beside_a_recording_is_not_written_over(run: Run, make: Callable[[Path], object]) -> None:
    make(run.folder / "mine.where")
    returned, output = run.called("-o", "mine", "run", "main.go")
    assert (returned, "mine.where exists and can't be overwritten" in output) == (ExitStatus.TROUBLE, True)
    returned, output = run.called("-o", "mine", "convert", str(run.log))
    assert (returned, (run.folder / "mine.jsonl").exists()) == (ExitStatus.TROUBLE, False)
    assert "netrev-go: mine.where: this file isn't from netrev, so the recording needs another name" in output


def test_a_folder_that_is_removed_meanwhile_loses_nothing(run: Run) -> None:
    (run.folder / "out").mkdir()
    returned, output = run.called("--strict", "-o", "out/x", "run", "main.go", does=f"rmdir {run.folder}/out")
    assert returned == ExitStatus.UNRECORDED, output
    assert "netrev-go: out/x.jsonl: No such file or directory" in output
    assert run.again(output) == WHOLE


def test_the_folder_in_which_it_is_called_may_be_removed(run: Run) -> None:
    here = run.folder / "here"
    here.mkdir()
    os.chdir(here)
    returned, output = run.called("run", "main.go", does=f"rmdir {here}")
    os.chdir(run.folder)
    assert returned == 0, output
    assert run.again(output) == WHOLE


def test_a_disk_that_is_full_leaves_what_stood_there(monkeypatch: pytest.MonkeyPatch, run: Run) -> None:
    (run.folder / "x.jsonl").write_text("an earlier one")
    (run.folder / "x.where").write_text('{"where":1,"steps":0}')

    def full(file: Any, text: str) -> int:
        raise OSError(28, "No space left on device")

    with monkeypatch.context() as patch:
        patch.setattr("netrev_go.steps.recording_builder.whole", failing(full))
        returned, output = run.called("-o", "x", "run", "main.go")
    assert returned == 0, output
    assert "netrev-go: x.jsonl: No space left on device" in output
    assert (run.folder / "x.jsonl").read_text() == "an earlier one"
    assert (run.folder / "x.where").read_text() == '{"where":1,"steps":0}'
    assert run.again(output) == WHOLE
    assert [name for name in os.listdir() if name.startswith(".netrev")] == []


@pytest.mark.parametrize(
    "error, status, says", [(MemoryError, 1, "memory ran out"), (KeyboardInterrupt, 130, "interrupted")]
)
def test_whatever_fails_the_logs_stay_and_are_named_until_they_are_removed(
    error: type[BaseException], status: int, says: str, monkeypatch: pytest.MonkeyPatch, run: Run
) -> None:
    with monkeypatch.context() as patch:
        patch.setattr(recordings, "convert", raising(error))
        returned, output = run.called("run", "main.go")
    assert (returned, f"netrev-go: {says}\n" in output) == (status, True), output
    assert run.again(output) == WHOLE
    for command in ("recover", "convert"):
        found = re.findall(r"convert (\S+)` makes recordings of them, `(rm -r \S+)` deletes", run.called(command)[1])
        assert [logs for logs, _ in found] == AGAIN.findall(output)
        removes = found[0][1]
    subprocess.run(removes, shell=True, check=True)
    assert "kept" not in run.called("recover")[1] and os.listdir(os.environ["NETREV_LOGS"]) == []


def test_a_log_of_a_recording_that_netrev_refuses_stays(run: Run) -> None:
    netrev = run.folder / "netrev"
    netrev.write_text("#!/bin/sh\necho step 1: fault 107 reason 4\nexit 1\n")
    netrev.chmod(0o700)
    returned, output = run.called("--strict", "run", "main.go", netrev=str(netrev))
    assert returned == ExitStatus.UNRECORDED, output
    assert "please keep the log and report it" in output
    assert run.again(output) == WHOLE


def test_processes_that_cannot_write_a_log_are_named(run: Run) -> None:
    mark = 'touch "$NETREV_LOG.unrecorded/process.{}"; '
    marks = mark.format("12.13") + mark.format("14.27") + mark.format("15.27") + mark.format("x.y")
    for command in ("run", "test"):
        returned, output = run.called("--strict", "-o", f"of-{command}", command, ".", does=marks)
        assert returned == ExitStatus.UNRECORDED, output
        assert "netrev-go: process 12 couldn't write a log (Permission denied) and isn't recorded\n" in output
        assert "2 processes couldn't write a log (`ulimit -f` limits the size of its files) and aren't" in output
        assert "the logs are in" not in output
    returned, output = run.called("run", ".", does=marks, leaves="true")
    assert (returned, "nothing was recorded" in output) == (0, False), output


def test_go_may_fail_after_a_program_ran_that_opened_no_log(run: Run) -> None:
    for status in (0, 1):
        for command in ("run", "test"):
            returned, output = run.called(command, ".", status=status, leaves="true")
            assert (returned, output) == (status, f"netrev-go: {messages.NOTHING_RAN}\n")


def test_memory_that_runs_out_stops_only_the_log_that_needs_it(run: Run) -> None:
    (run.folder / "large").write_bytes(binary(opened(150_000)))
    words = [sys.executable, str(PYTHON), "netrev_go", "-o", "x", "convert", "large", "stored"]
    script = f"ulimit -v 150000; exec {shlex.join(words)}"
    ended = subprocess.run(["sh", "-c", script], capture_output=True, text=True, check=False)
    assert (ended.returncode, ended.stderr, "large: memory ran out\n" in ended.stdout) == (1, "", True), ended
    assert (run.folder / "x-2.jsonl").read_text() == WHOLE and not (run.folder / "x.jsonl").exists()


@pytest.mark.parametrize(
    "of_log, before, after",
    [(0o600, None, 0o600), (0o640, None, 0o640), (0o777, None, 0o644), (0o400, None, 0o600), (0o600, 0o664, 0o664)],
)
def test_a_new_recording_has_the_permissions_of_its_log(of_log: int, before: int | None, after: int, run: Run) -> None:
    run.log.with_name("stored.tests").write_text("1 1 5 package p\n2 3 9 runs T\n")
    run.log.chmod(of_log)
    names = [run.folder / f"x.{ending}" for ending in ("jsonl", "where", "words")]
    for name in names if before is not None else ():
        name.write_text('[1, "lock 0", "1"]' if name.suffix == ".words" else '{"where":1}')
        name.chmod(before or 0)
    umask = os.umask(0o022)
    status, output = run.called("--words", "-o", "x", "convert", "stored")
    os.umask(umask)
    assert (status, [name.stat().st_mode & 0o777 for name in names]) == (0, [after] * 3), output


def test_logs_that_are_gone_are_said_to_be(run: Run) -> None:
    returned, output = run.called("--strict", "run", "main.go", does='rm -r "$(dirname $NETREV_LOG)"')
    assert returned == ExitStatus.UNRECORDED, output
    assert re.search(r"nothing was recorded: the folder of the logs, \S+, no longer exists", output)


def test_lines_of_an_earlier_recording_go(run: Run) -> None:
    for text, stays in (('{"where":1,"steps":245}\n', False), ("a list of places", True)):
        (run.folder / "x.where").write_text(text)
        run.called("-o", "x", "run", "main.go")
        assert (run.folder / "x.where").exists() == stays


def test_one_log_that_cannot_be_converted_takes_nothing_from_the_others(run: Run) -> None:
    (run.folder / "x.jsonl").mkdir()
    returned, output = run.called("-o", "x", "convert", str(run.log), str(run.log), "/dev/zero", "")
    assert returned == ExitStatus.TROUBLE, output
    assert "netrev-go: x.jsonl: Is a directory" in output
    assert (run.folder / "x-2.jsonl").read_text() == WHOLE
    assert "/dev/zero: can't be read: it is a device" in output and output.count("it is a folder") == 1, output
    for word in ("", "/", "."):
        assert "it is a folder" in run.called("convert", word)[1]


def test_a_reader_that_has_gone_stops_nothing(run: Run) -> None:
    words = [sys.executable, str(PYTHON), "netrev_go", "-o", "x", "convert", str(run.log), str(run.log)]
    with subprocess.Popen(words, stdout=subprocess.PIPE, stderr=subprocess.PIPE) as running:
        assert running.stdout and running.stderr
        running.stdout.close()
        assert (running.stderr.read(), running.wait()) == (b"", 0)
    assert (run.folder / "x-2.jsonl").read_text() == WHOLE
    words[4] = "y"
    with open("/dev/full", "w") as full:
        ended = subprocess.run(words, stdout=full, stderr=subprocess.PIPE, check=False)
    assert (ended.stderr, ended.returncode) == (b"", 0)
    assert (run.folder / "y-2.jsonl").read_text() == WHOLE


def failing(write: Callable[[Any, str], int]) -> Any:
    """A file in which every write after the first fails."""

    @contextlib.contextmanager
    def opened(path: Path, mode: str = "w", permissions: int = 0o666) -> Any:
        with whole(path, mode, permissions) as file:
            file.write("a part")
            yield SimpleNamespace(write=lambda text: write(file, text), flush=file.flush, fileno=file.fileno)

    return opened


def test_it_is_gos_own_first(run: Run) -> None:
    none = "true"
    for command in ("run", "test"):
        for status, leaves, strict in ((0, "", 0), (1, "", 1), (2, none, 2), (77, "", 77), (0, none, 5)):
            assert run.called(command, ".", status=status, leaves=leaves)[0] == status, (command, status, leaves)
            assert run.called("--strict", command, ".", status=status, leaves=leaves)[0] == strict, (
                command,
                status,
                leaves,
            )


def test_a_test_that_passes_without_a_socket_passes(run: Run) -> None:
    log = run.folder / "empty"
    data = run.log.read_bytes()
    log.write_bytes(data[:8] + bytes(8) + data[16 : Header(data).ring])  # no point was logged
    returned, output = run.called("--strict", "run", ".", leaves=f'cp {log} "$NETREV_LOG.$$"')
    assert (returned, "no socket was opened: there is nothing to record" in output) == (0, True), output
    assert "the logs are in" not in output


def test_a_signal_is_told_as_a_shell_does(run: Run) -> None:
    assert run.called("run", "main.go", does="kill -9 $$")[0] == 137


def test_other_schedules_are_not_offered_of_a_run_that_failed() -> None:
    for failed, words in ((False, "--explore a.jsonl"), (True, "a.jsonl -ex continue -ex 'info errors'")):
        output = report.next_line(Path("a.jsonl"), [], True, failed)
        assert output.endswith(words), output
    hangs = report.next_line(Path("a.jsonl"), [], False, True)
    assert hangs.endswith("-ex 'info goroutines'"), hangs


def test_numbers_that_no_run_can_have_are_refused(run: Run) -> None:
    for words in (["--sockets", "0"], ["--megabytes", "0"], ["-n", "nan"], ["-n", "-1"], ["--procs", "0"]):
        returned, output = run.called(*words, "run", "main.go", does=f"touch {run.folder}/ran")
        assert returned == ExitStatus.TROUBLE, output
        assert f"{words[0]} must be from" in output
    assert not (run.folder / "ran").exists()


def test_bytes_are_written_out_last() -> None:
    recording = make(Log(Points().opened().add(PointKind.READ, 1, WORD, 65_536, 2**28).points))
    assert len(recording.lines) == 2 + 2 * 2**12
    assert isinstance(recording.lines[2], Zeros) and len(str(recording.lines[2])) > 2**17


def test_more_text_than_is_asked_for_is_left_out() -> None:
    points = Points().opened().add(PointKind.READ, 1, WORD, 65_536, 2**20).opened(701, 901).points
    assert make(Log(points), megabytes=2).sockets == 2
    assert make(Log(points), megabytes=1).sockets == 1
    with pytest.raises(Exception, match="or 1 MB of text for its bytes"):
        make(Log(points[:3]), megabytes=1)


def test_a_write_into_an_output_of_one_byte_has_a_step_for_each() -> None:
    for size in (2**19, 2**31 - 1):
        points = Points().opened().add(PointKind.WRITE, 1, WORD, 9, -1, 1).add(PointKind.WRITE, 1, WORD, size, size)
        with pytest.raises(Exception, match="more than 1,000,000 steps"):
            points.made()


def test_reads_and_writes_count_few_bytes() -> None:
    log = (
        Points().opened().add(PointKind.READ, 1, WORD, 2**20, 2**30).add(PointKind.WRITE, 1, WORD, 2**30, 2**30)
    )
    log.add(PointKind.WRITE, 1, WORD, 2**20, -1, 1).add(PointKind.READ, 1, WORD, 9, 5)
    recording = make(Log(log.points), all_bytes=False)
    assert recording.bytes == 64
    assert "reads and writes count at most 64 bytes each: --all-bytes counts all" in recording.notes
    steps = [json.loads(str(line)) for line in recording.lines]
    assert [step[-1] for step in steps[2:]] == ["done", ["got", 64], ["put", 64], "again", "done", ["got", 5]]
    assert sum(len(str(line)) for line in recording.lines) < 1_000
    small = make(Log(Points().opened().add(PointKind.READ, 1, WORD, 2**20, 64).points), all_bytes=False)
    assert (small.bytes, small.notes) == (None, [])


def test_a_socket_is_left_out_only_where_there_is_no_room(monkeypatch: pytest.MonkeyPatch) -> None:
    log = Points()
    for at in range(4):
        log.opened(700 + at, 900 + at)
        for _ in range(10):
            log.add(PointKind.INCREF, 1, 700 + at, 0, 8, 2)
    for room, kept in ((48, 4), (47, 3), (12, 1)):
        with monkeypatch.context() as patch:
            patch.setattr(recording_builder, "MOST_STEPS", room)
            recording = make(Log(log.points))
        assert (recording.sockets, len(recording.lines)) == (kept, 12 * kept)


def test_steps_that_cannot_be_reckoned_are_counted(monkeypatch: pytest.MonkeyPatch) -> None:
    log = Points().opened()
    for time in range(10):  # each also has a tick
        log.add(PointKind.SET_DEADLINE, 1, 900, ord("r"), 10**9, 0, 100 * (time + 1))
    log.opened(701, 901).add(PointKind.INCREF, 1, 701, 0, 8, 2)
    for room, sockets, steps in ((25, 2, 25), (24, 1, 3)):
        with monkeypatch.context() as patch:
            patch.setattr(recording_builder, "MOST_STEPS", room)
            recording = make(Log(log.points))
        assert (recording.sockets, len(recording.lines)) == (sockets, steps)


def test_what_is_converted_again_is_as_at_first(monkeypatch: pytest.MonkeyPatch) -> None:
    log, alone = Points().opened(), Points()
    for time in range(10):  # each also has a tick
        log.add(PointKind.SET_DEADLINE, 1, 900, ord("r"), 10**9, 0, 100 * (time + 1))
    for points in (log, alone):
        points.opened(701, 901).add(PointKind.WRITE, 1, 701, 9, 5).add(PointKind.WRITE, 1, 701, 9, -1, 1)
        points.add(PointKind.SET_DEADLINE, 1, 901, ord("r"), 10**9, 0, 10_000).add(PointKind.READ, 1, 701, 8, 0)
    whole = make(Log(alone.points))
    monkeypatch.setattr(recording_builder, "MOST_STEPS", len(whole.lines) + 13)
    recording = make(Log(log.points))
    assert (recording.sockets, recording.header) == (1, whole.header)
    assert list(map(str, recording.lines)) == list(map(str, whole.lines))


def test_a_name_may_end_as_recordings_do() -> None:
    assert base_name("a/b.jsonl") == Path("a/b")
    assert base_name(None) == Path("recording")
    with pytest.raises(RecorderError):
        base_name(".jsonl")


def test_looking_leaves_nothing(folder: Path) -> None:
    look(folder / "x")
    assert os.listdir(folder) == []
