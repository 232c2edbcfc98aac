"""Tests the copies of a log that a program makes on SIGUSR2, if the program's owner has turned on such copies. It needs
Go and netrev; `make real` runs it."""

import os
import pathlib
import signal
import stat
import subprocess
import time
from collections.abc import Callable
from contextlib import ExitStack

import pytest

from netrev_go.log.logfile import read_log

from .go_programs import Tool, program

# sends itself bytes until it is killed; if it has an argument, it also handles SIGUSR2
RUNS = program(
    "\tif len(os.Args) > 1 {\n\t\tasked := make(chan os.Signal, 1)\n\t\tsignal.Notify(asked, syscall.SIGUSR2)\n"
    '\t\tgo func() {\n\t\t\tfor range asked {\n\t\t\t\tfmt.Println("asked")\n\t\t\t}\n\t\t}()\n\t}\n'
    '\tfmt.Println("runs")\n'
    '\tfor {\n\t\ta.Write([]byte("x"))\n\t\tb.Read(make([]byte, 1))\n\t\ttime.Sleep(20 * time.Microsecond)\n\t}',
    "fmt", "os", "os/signal", "syscall", "time",
)  # fmt: skip
POINTS = 2**14
PATIENCE = 120.0  # seconds


class Signals(Tool):
    """A folder with the program of this module, and its running processes."""

    def __init__(self, folder: pathlib.Path, cleanups: ExitStack) -> None:
        super().__init__(folder, cleanups)
        self.write(RUNS)
        assert self.call("build", "-o", "prog", "main.go")[0] == 0

    def start(self, *words: str, **settings: str) -> tuple[subprocess.Popen[str], pathlib.Path]:
        """Starts the program, and returns its process and its log once it runs."""
        return self.start_by(["./prog", *words], settings)

    def start_by(self, command: list[str], settings: dict[str, str]) -> tuple[subprocess.Popen[str], pathlib.Path]:
        """Starts a command that becomes the program, and returns its process and its log once it runs."""
        settings |= {"NETREV_LOG": str(self.folder / "log"), "NETREV_POINTS": str(POINTS)}
        process = subprocess.Popen(
            command,
            cwd=self.folder,
            env=self.environment(**settings),
            stdout=subprocess.PIPE,
            text=True,
        )
        self.cleanups.callback(process.wait)
        self.cleanups.callback(process.kill)
        assert process.stdout
        assert process.stdout.readline() == "runs\n"
        return process, self.folder / f"log.{process.pid}"

    def wait_until(self, is_done: Callable[[], bool]) -> None:
        """Waits until a condition holds; fails if that takes too long."""
        end = time.monotonic() + PATIENCE
        while not is_done():
            assert time.monotonic() < end
            time.sleep(0.02)

    def count(self, log: pathlib.Path) -> int:
        """The number of points that a log has had so far."""
        with log.open("rb") as file:
            return int.from_bytes(file.read(16)[8:], "little")


@pytest.fixture
def tool(folder: pathlib.Path, cleanups: ExitStack) -> Signals:
    """A folder with the program of this module, built by netrev-go."""
    return Signals(folder, cleanups)


def test_the_log_is_copied_while_the_program_runs(tool: Signals) -> None:
    process, log = tool.start(NETREV_SIGNAL="usr2")
    tool.wait_until(lambda: tool.count(log) > 2 * POINTS)
    copy, versions = log.with_name(log.name + ".snapshot"), set()
    for _ in range(3):
        before = copy.stat().st_ino if copy.exists() else 0
        process.send_signal(signal.SIGUSR2)
        tool.wait_until(lambda: copy.exists() and copy.stat().st_ino != before)
        versions.add(tool.count(copy))
        assert stat.S_IMODE(copy.stat().st_mode) == 0o600
        assert copy.stat().st_size == log.stat().st_size
        read = read_log(copy)
        assert read.notes == [f"the log keeps the newest {POINTS} points of {tool.count(copy)}"]
        assert len(read.points) > POINTS // 2
        status, output = tool.call("-o", "copied", "convert", copy.name)
        assert status == 0, output
        tool.check_recording(output, "copied")
        assert "it begins in the middle of the run" in output
        assert '"file":"main.go"' in (tool.folder / "copied.where").read_text()
    assert len(versions) == 3
    assert process.poll() is None
    assert sorted(path.name for path in tool.folder.glob("log.*.snapshot*")) == [copy.name]


def test_the_programs_own_handler_gets_it_too(tool: Signals) -> None:
    process, log = tool.start("handles", NETREV_SIGNAL="usr2")
    process.send_signal(signal.SIGUSR2)
    assert process.stdout
    assert process.stdout.readline() == "asked\n"
    tool.wait_until(log.with_name(log.name + ".snapshot").exists)


@pytest.mark.parametrize("settings", [{}, {"NETREV_SIGNAL": "usr1"}, {"NETREV_SIGNAL": ""}])
def test_without_the_choice_the_signal_is_the_programs_alone(tool: Signals, settings: dict[str, str]) -> None:
    process, log = tool.start("handles", **settings)
    process.send_signal(signal.SIGUSR2)
    assert process.stdout
    assert process.stdout.readline() == "asked\n"
    tool.wait_until(lambda: tool.count(log) > POINTS)
    assert list(tool.folder.glob("*.snapshot*")) == []


def test_on_a_full_disk_the_program_runs_on_and_convert_says_why_there_is_no_copy(tool: Signals) -> None:
    alone = ["unshare", "-m" if os.geteuid() == 0 else "-rm"]
    if subprocess.run([*alone, "true"], check=False, capture_output=True).returncode != 0:
        pytest.skip("this system gives no mounts of its own")
    disk = tool.folder / "disk"
    disk.mkdir()
    command = f"mount -t tmpfs -o size=64m none {disk} && NETREV_LOG={disk}/log exec ./prog"
    process, _ = tool.start_by([*alone, "sh", "-c", command], {"NETREV_SIGNAL": "usr2"})
    inside = pathlib.Path(f"/proc/{process.pid}/root{disk}")
    log, filler = inside / f"log.{process.pid}", inside / "filler"
    with pytest.raises(OSError), filler.open("wb", buffering=0) as file:
        while True:
            file.write(bytes(2**16))
    process.send_signal(signal.SIGUSR2)
    failed = log.with_name(log.name + ".snapshot.failed.028")
    tool.wait_until(failed.exists)
    before = tool.count(log)
    tool.wait_until(lambda: tool.count(log) > before + POINTS)
    assert sorted(path.name for path in inside.glob("*snapshot*")) == [failed.name]
    status, output = tool.call("-o", "none", "convert", str(inside / f"{log.name}.snapshot"))
    assert "the program couldn't copy its log: No space left on device" in output
    assert status != 0
    filler.unlink()
    process.send_signal(signal.SIGUSR2)
    tool.wait_until(lambda: log.with_name(log.name + ".snapshot").exists() and not failed.exists())
    status, output = tool.call("-o", "copied", "convert", str(inside / f"{log.name}.snapshot"))
    assert status == 0, output
    tool.check_recording(output, "copied")


def test_without_room_there_is_no_copy_and_the_program_runs_on(tool: Signals) -> None:
    process, log = tool.start(NETREV_SIGNAL="usr2")
    os.mkdir(log.with_name(log.name + ".snapshot.part"))  # a name that can't be used
    process.send_signal(signal.SIGUSR2)
    before = tool.count(log)
    tool.wait_until(lambda: tool.count(log) > before + POINTS)
    assert not log.with_name(log.name + ".snapshot").exists()
    assert log.with_name(log.name + ".snapshot.failed.017").exists()
    assert process.poll() is None
