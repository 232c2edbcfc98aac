"""The log of a running process: snapshots and watches of it, and what they print if there is none. A script in Python
maps files as recorded programs do. Neither Go nor netrev is needed."""

import os
import re
import signal
import struct
import subprocess
import sys
import time
from collections.abc import Callable
from contextlib import ExitStack
from pathlib import Path

import pytest

from dev.fuzz.generators.logs import from_text
from netrev_go import cli, snapshots
from netrev_go.go_command import process_logs, running
from netrev_go.go_command.process_logs import ProcessLog, log_of_process
from netrev_go.go_command.toolchain import RecorderError
from netrev_go.log.notes import PARKED
from netrev_go.log.points import Point, PointKind
from netrev_go.steps import report
from tests.support.go_stand_in import STORED, wait_until
from tests.support.stubs import stub

from .test_go_stuck_calls import WORD, log_with, row

Patch = pytest.MonkeyPatch
Output = pytest.CaptureFixture[str]
IS_ROOT = os.geteuid() == 0
# Maps the log PATH.PID, whose text is in the file PATH.text, with a page more than it has, and then does what a test
# requests. `ended` leaves only that page.
MAPS = """
import mmap, os, sys, time
path, page, mapped = sys.argv[1], mmap.PAGESIZE, []
def log(name, text, ended=False):
    file = os.open(name, os.O_RDWR | os.O_CREAT | os.O_EXCL, 0o600)
    size = -(-len(text) // page) * page
    os.write(file, text)
    os.truncate(file, size + page)
    mapped.append(mmap.mmap(file, page if ended else size + page, offset=size if ended else 0))
    os.truncate(file, size)
def unwritten(name):
    file = os.memfd_create(name)
    os.truncate(file, page)
    mapped.append(mmap.mmap(file, page))
text, own = open(path + ".text", "rb").read(), f"{path}.{os.getpid()}"
"""
ENDS = "\nopen(path + '.here', 'x').close()\ntime.sleep(120)"
EMPTIED = "log(own, text, ended=True); os.truncate(own, 0)"


@pytest.fixture
def path(folder: Path, monkeypatch: Patch) -> Path:
    """The path of logs, and the text of a log, in the current folder."""
    monkeypatch.chdir(folder)
    monkeypatch.setattr(report, "netrev_program", lambda: None)
    monkeypatch.setattr(cli, "go_if_any", lambda: None)
    monkeypatch.setattr(process_logs, "STARTING", 0.2)
    (folder / "log.text").write_bytes(from_text(STORED.read_text())[0])
    return folder / "log"


def started(path: Path, cleanups: ExitStack, does: str, *before: str) -> int:
    """A process that maps files, and ends with the test."""
    words = [*before, sys.executable, "-c", MAPS + does + ENDS, str(path)]
    process = subprocess.Popen(words, env=os.environ | {"NETREV_LOG": str(path)})
    cleanups.callback(process.wait)
    cleanups.callback(process.kill)
    wait_until(path.with_name("log.here").exists)
    return process.pid


@pytest.mark.parametrize(
    "does, message",
    [
        ("", r"writes no log: build it with `.*netrev-go build` and start it with NETREV_LOG=PATH"),
        ("unwritten('netrev-unwritten.28')", r"couldn't write its log {path}\.{process}: No space left on device\. Correct that"),
        ("unwritten('netrev-unwritten.17')", r"couldn't write its log {path}\.{process}: too many logs with its number exist\."),
        ("unwritten('netrev-secure')", r"records nothing, because it has privileges that its caller may lack"),
        ("log(own, text); os.unlink(own)", r"its log {path}\.{process} was removed\. Start the program again"),
        (EMPTIED, r"its log {path}\.{process} was truncated, or its device failed; recording ended then"),
        ("log(own, text); os.truncate(own, 0)", r"its log {path}\.{process} was truncated, or its device failed"),
    ],
)  # fmt: skip
def test_a_process_without_a_log_is_reported_with_the_reason(
    does: str, message: str, path: Path, cleanups: ExitStack, capsys: Output
) -> None:
    process = started(path, cleanups, does)
    assert cli.main(["snapshot", str(process)]) == cli.ExitStatus.TROUBLE
    line = r"netrev-go: process \d+:? " + message.format(path=re.escape(str(path)), process=process) + r".*\n"
    assert re.fullmatch(line, capsys.readouterr().err)


def test_a_process_that_has_ended_is_reported(path: Path, capsys: Output) -> None:
    ended = subprocess.Popen(["true"])
    os.waitid(os.P_PID, ended.pid, os.WEXITED | os.WNOWAIT)
    for words in (["snapshot", str(ended.pid)], ["watch", str(ended.pid)], ["--pid", str(ended.pid), "convert"]):
        assert cli.main(words) == cli.ExitStatus.TROUBLE
        assert capsys.readouterr().err == f"netrev-go: process {ended.pid} has ended\n"
    ended.wait()
    assert cli.main(["snapshot", str(ended.pid)]) == cli.ExitStatus.TROUBLE
    assert capsys.readouterr().err == f"netrev-go: no process {ended.pid}\n"


def test_a_process_of_another_user_is_reported(monkeypatch: Patch) -> None:
    def mappings(process: int) -> list[running.Mapping]:
        raise PermissionError

    monkeypatch.setattr(process_logs, "mappings", mappings)
    with pytest.raises(RecorderError, match=f"no permission to read process {os.getpid()}: run netrev-go as the user"):
        log_of_process(os.getpid())


@pytest.mark.parametrize("words", [("snapshot", "{}"), ("watch", "{}"), ("--pid", "{}", "convert")])
def test_what_is_left_of_a_log_is_converted(
    words: tuple[str, ...], path: Path, cleanups: ExitStack, capsys: Output
) -> None:
    process = started(path, cleanups, "log(own, text, ended=True)")
    assert cli.main(["-o", "now", *(word.format(process) for word in words)]) == 0
    output = "".join(capsys.readouterr())
    head = f"netrev-go: process {process}: its log {path}.{process} was truncated, or its device failed; recording ended then\n"
    assert output.startswith(head + "now.jsonl: ") and Path("now.jsonl").exists()


def test_a_process_that_was_just_started_is_waited_for(path: Path, cleanups: ExitStack, monkeypatch: Patch) -> None:
    """It makes its log a moment after its start, and writes the header a moment later."""
    monkeypatch.setattr(process_logs, "STARTING", 5.0)
    late = "open(path + '.here', 'x').close()\ntime.sleep(0.1); log(own, bytes(page)); time.sleep(0.5); mapped[0][0] = 1; time.sleep(60)"
    process = started(path, cleanups, late)
    assert log_of_process(process) == ProcessLog(Path(f"{path}.{process}"))
    assert Path(f"{path}.{process}").read_bytes()[:1] == b"\1"


@pytest.mark.skipif(not IS_ROOT, reason="only root can make namespaces")
@pytest.mark.parametrize("does, note", [("log(own, text)", ""), ("log(own, text, ended=True)", "recording ended then")])
def test_a_process_in_a_container_is_recorded(
    does: str, note: str, path: Path, cleanups: ExitStack, capsys: Output
) -> None:
    """It is process 1 there, and a file system that is mounted only there has its log. Here its path has another file."""
    text, inside = path.parent / "log.text", path.parent / "inside"
    inside.mkdir()
    (inside / "log.1").write_text("another file")
    script = f'mount -t tmpfs none {inside} && cp {text} {inside}/log.text && exec "$@"'
    words = ["unshare", "--pid", "--mount", "--fork", "--kill-child", "--mount-proc", "sh", "-c", script, "sh"]
    words += [
        sys.executable,
        "-c",
        MAPS + does + f"\nopen('{path}.here', 'x').close()\ntime.sleep(120)",
        f"{inside}/log",
    ]
    outer = subprocess.Popen(words)
    cleanups.callback(outer.wait)
    cleanups.callback(outer.kill)
    wait_until(path.with_name("log.here").exists)
    process = int(Path(f"/proc/{outer.pid}/task/{outer.pid}/children").read_text())
    log = log_of_process(process)
    assert log.path == Path(f"/proc/{process}/root{inside}/log.1") and note in log.fault
    assert cli.main(["-o", "now", "snapshot", str(process)]) == 0
    assert Path("now.jsonl").read_text() == STORED.with_suffix(".jsonl").read_text()
    assert "now.jsonl: " in capsys.readouterr().err


@pytest.mark.parametrize(
    "here, there, is_here",
    [
        ((1, 7), None, True), ((1, 7), (2, 7), True), ((2, 7), (2, 7), True), ((2, 7), None, True), (None, None, True), (None, (1, 7), False),
        ((1, 8), (1, 7), False), ((2, 7), (3, 7), False), ((1, 8), None, False),
    ],
)  # fmt: skip
def test_where_a_mapped_file_is(
    here: tuple[int, int] | None, there: tuple[int, int] | None, is_here: bool, monkeypatch: Patch
) -> None:
    """Each file has a device and an inode, or doesn't exist. Some file systems have another device in /proc/PID/maps."""
    files = {Path("/a.5"): here, Path("/proc/5/root/a.5"): there}
    status = {path: file and stub(st_dev=file[0], st_ino=file[1], st_size=3) for path, file in files.items()}
    monkeypatch.setattr(process_logs, "status_of", status.get)
    path, size = process_logs.place_of(5, running.Mapping(8_192, (1, 7), "/a.5"))
    assert (path, size) == (list(files)[not is_here], 3 if status[path] else None)


@pytest.mark.parametrize(
    "pages, length, has_ended",
    [(1, 9 * 4096, True), (1, 0, True), (2, 8192, False), (3, 8192, False), (4, 8193, False), (4, 8192, False), (4, 8191, True), (5, None, False)],
)  # fmt: skip
def test_a_log_that_is_shorter_than_its_mapping_has_ended(
    pages: int, length: int | None, has_ended: bool, monkeypatch: Patch
) -> None:
    """The mapping may have a page more than the log, which may end within a page."""
    monkeypatch.setattr(process_logs, "place_of", lambda *_: (Path("/a.5"), length))
    log = process_logs.log_at(5, running.Mapping(4096, (1, 7), "/a.5"), pages * 4096)
    assert bool(log.fault) is has_ended


def test_when_a_process_was_started() -> None:
    ticks = int(process_logs.start_of(os.getpid())) / os.sysconf("SC_CLK_TCK")
    assert 0 < time.clock_gettime(time.CLOCK_BOOTTIME) - ticks < 86_400
    with pytest.raises(process_logs.ProcessEndedError, match="no process 99999999"):
        process_logs.start_of(99_999_999)


@pytest.mark.parametrize(
    "path, is_log",
    [
        ("/tmp/log.7", True), ("/tmp/my logs/a  b.7", True), ("/tmp/log.7.2", True), ("/tmp/log.7.345", True), ("/tmp/log.77", False), ("/tmp/log.8", False),
        ("/tmp/log.7.x", False), ("/tmp/\udcff.7", True), ("", False),
    ],
)  # fmt: skip
def test_the_log_among_mapped_files(path: str, is_log: bool, monkeypatch: Patch) -> None:
    maps = f"7f00000-7f01000 r--p 00000000 00:00 0 \n7f02000-7f05000 rw-s 00000000 00:1a 2345                       {path}\n"
    monkeypatch.setattr(Path, "read_bytes", lambda own: maps.encode("utf-8", "surrogateescape"))
    monkeypatch.setattr(process_logs, "number_inside", lambda process: process)
    assert process_logs.mapped_log(7) == (ProcessLog(Path(path)) if is_log else None)
    assert running.writes(7, Path(path or "/tmp/log.7")) is bool(path)
    assert not running.writes(7, Path("/tmp/log.7.3"))


def when_watching(does: Callable[[], object], monkeypatch: Patch) -> None:
    """Calls this as soon as a watch begins."""

    def complain(text: str) -> None:
        print(f"netrev-go: {text}", file=sys.stderr)
        if text.startswith("watching"):
            does()

    monkeypatch.setattr(snapshots, "complain", complain)


def waiting(goroutine: int, since: int) -> bytes:
    """A log in which this goroutine waits."""
    points = [Point(number, PointKind.INIT, 1, WORD, 0, 0, 0, 5, 0) for number in range(3)]
    return log_with([row(WORD, (0, 0, 0, 0), (PARKED, goroutine, 0, since))], [], points)


@pytest.mark.parametrize("is_same", [True, False])
def test_the_next_program_of_a_process_is_watched(
    is_same: bool, path: Path, cleanups: ExitStack, monkeypatch: Patch, capsys: Output
) -> None:
    """If another process has the number meanwhile, the watched process has ended."""
    path.with_name("log.text").write_bytes(waiting(41, time.clock_gettime_ns(time.CLOCK_MONOTONIC)))
    path.with_name("log.next").write_bytes(waiting(42, 1))
    script = (
        "if len(sys.argv) == 2:\n log(own, text)\n open(path + '.here', 'x').close()\n while not os.path.exists('go'): time.sleep(0.01)\n"
        " os.execv(sys.executable, [sys.executable, '-c', open(path + '.script').read(), path, 'again'])\n"
        "log(own + '.2', open(path + '.next', 'rb').read())\ntime.sleep(120)"
    )
    path.with_name("log.script").write_text(MAPS + script)
    process = started(path, cleanups, script)
    when_watching(Path("go").touch, monkeypatch)
    starts = iter("aa" if is_same else "ab")
    monkeypatch.setattr(snapshots, "start_of", lambda process: next(starts))
    cli.main(["-o", "now", "watch", str(process), "--stuck", "30s"])
    errors = capsys.readouterr().err.splitlines()
    if not is_same:
        assert errors[1:] == [f"netrev-go: process {process} has ended, and no call waited that long"]
        return
    assert (
        errors[1]
        == f"netrev-go: process {process} has executed another program, whose log is {path}.{process}.2; watching that"
    )
    assert errors[2].endswith("(goid 42)") and f"{path}.{process}.2" in errors[3]


@pytest.mark.parametrize(
    "does, status, message",
    [
        (lambda log: os.kill(int(log.suffix[1:]), signal.SIGKILL), 0, "process {process} has ended, and no call waited that long"),
        (os.unlink, 4, "process {process}: its log {log} was removed. Start the program again to record it"),
        (lambda log: os.truncate(log, 0), 4, "process {process}: its log {log} was truncated, or its device failed; recording ended then"),
    ],
)  # fmt: skip
def test_a_watch_ends_with_its_process_or_its_log(
    does: Callable[[Path], object], status: int, message: str, path: Path, cleanups: ExitStack, monkeypatch: Patch, capsys: Output
) -> None:  # fmt: skip
    path.with_name("log.text").write_bytes(waiting(41, struct.unpack("<Q", b"\xff" * 7 + b"\x0f")[0]))
    process = started(path, cleanups, "log(own, text)")
    log = Path(f"{path}.{process}")
    when_watching(lambda: does(log), monkeypatch)
    assert cli.main(["watch", str(process)]) == status
    assert capsys.readouterr().err.splitlines()[1:] == ["netrev-go: " + message.format(process=process, log=log)]


def test_a_name_that_cannot_be_written_is_reported_without_a_run(
    path: Path, cleanups: ExitStack, capsys: Output
) -> None:
    process = started(path, cleanups, "log(own, text)")
    for words in (["snapshot", str(process)], ["watch", str(process)], ["recover"]):
        assert cli.main(["-o", "/proc/x", *words]) == cli.ExitStatus.TROUBLE
        assert capsys.readouterr().err == "netrev-go: /proc/x.jsonl can't be written: No such file or directory\n"


@pytest.fixture
def full(path: Path, cleanups: ExitStack) -> Path:
    """A folder on a disk with little room, and an earlier recording in it."""
    if not IS_ROOT:
        pytest.skip("only root can mount a small disk")
    small = path.parent / "small"
    small.mkdir()
    subprocess.run(["mount", "-t", "tmpfs", "-o", "size=32k", "none", small], check=True)
    cleanups.callback(os.system, f"umount {small}")
    return small


@pytest.mark.parametrize("room", [0, 4096])
def test_a_full_disk_leaves_an_earlier_recording(
    room: int, full: Path, path: Path, cleanups: ExitStack, monkeypatch: Patch, capsys: Output
) -> None:
    """The disk has room for no recording, or for a recording without its lock words."""
    process = started(path, cleanups, "log(own, text)")
    monkeypatch.setattr("netrev_go.go_command.outputs.TRIED", 0)
    earlier = {"now.jsonl": "earlier", "now.where": '{"where":1,"steps":0}\n'}
    for name, text in earlier.items():
        (full / name).write_text(text)
    (full / "filler").write_bytes(bytes(32_768 - 8_192 - room))
    for words in (["snapshot", str(process)], ["--pid", str(process), "convert"], ["convert", f"{path}.{process}"]):
        assert cli.main(["-o", str(full / "now"), "--words", *words]) == cli.ExitStatus.TROUBLE
        assert "".join(capsys.readouterr()) == f"netrev-go: {full}/now.jsonl: No space left on device\n"
        assert {name: (full / name).read_text() for name in earlier} == earlier


@pytest.mark.parametrize("netrev, status", [(None, 0), ("/nowhere/netrev", 1)])
def test_a_recording_that_was_not_checked(
    netrev: str | None, status: int, path: Path, cleanups: ExitStack, monkeypatch: Patch, capsys: Output
) -> None:
    process = started(path, cleanups, "log(own, text)")
    monkeypatch.setattr(report, "netrev_program", lambda: netrev)
    assert cli.main(["snapshot", str(process)]) == status
    assert "  not checked" in capsys.readouterr().err and Path("snapshot.jsonl").exists()
