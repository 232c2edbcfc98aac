"""Another user's tricks at every name that netrev-go uses: the log and the files beside it, the folder of a run, the cache
and the outputs. Each is refused with one line, or changes nothing; none stops netrev-go, and none is believed."""

import contextlib
import io
import json
import mmap
import os
import resource
import shutil
import subprocess
import sys
from collections.abc import Iterator
from contextlib import ExitStack, redirect_stderr, redirect_stdout
from pathlib import Path
from typing import Any, cast

import pytest

from dev.fuzz.generators.logs import from_text
from dev.recorder.fetching import chosen, is_here
from dev.recorder.suites import SAMPLES
from netrev.system.time_limits import time_limit
from netrev_go import cli
from netrev_go.go_command import toolchain, trusted_files
from netrev_go.go_command.line_reader import kept, line_reader, shipped
from netrev_go.go_command.process_logs import ProcessLog
from netrev_go.go_command.toolchain import Go, RecorderError, overlay, quiet_go
from netrev_go.steps import report
from tests.go_command.test_go_line_reader import elf
from tests.go_command.test_go_signals import RUNS, killed
from tests.support.go_stand_in import STORED, WHOLE, StandIn, wait_until

OTHER = 12_345  # a user
AS_OTHER = ["setpriv", f"--reuid={OTHER}", f"--regid={OTHER}", "--clear-groups"]
PATIENCE = 10.0  # seconds
MEMORY = 2**29
LOG, TESTS, PROGRAM, COPY = "server.4711", "server.4711.tests", "server.program.0.0", "server.4711.snapshot"
READER = "#!/bin/sh\nwhile read line; do echo main.planted; echo /x/main.go:7; done\n"
PLANTED = {PROGRAM: elf(), TESTS: b"1 1 5 package p\n2 3 9 runs TestPlanted\n", LOG: from_text(STORED.read_text())[0]}
PLANTED[COPY] = PLANTED[LOG]
BIND = "import socket, sys; socket.socket(socket.AF_UNIX).bind(sys.argv[1])"
FOREIGN = f"it belongs to user {OTHER}"
# what the other user does at a name, and why netrev-go doesn't use the result
TRICKS = {
    "ln -s /dev/zero {name}": "it is a link",
    "ln -s $PWD/own/{name} {name}": "it is a link",
    "ln -s nowhere {name}": "it is a link",
    "ln -s {name} {name}": "it is a link",
    "ln -s / {name}": "it is a link",
    "mkfifo {name}": "it is a FIFO",
    f"{sys.executable} -c '{BIND}' {{name}}": "it is a socket",
    "mkdir {name}": "it is a folder",
    "truncate -s 50G {name}": FOREIGN,
    "cp own/{name} {name}": FOREIGN,
    "cp own/{name} {name}; chmod 0 {name}": FOREIGN,
    "ln own/{name} {name}": "it has 2 names, in a folder where other users can write",
}
pytestmark = pytest.mark.skipif(
    os.geteuid() != 0 or not shutil.which("setpriv"), reason="another user's files: needs root, and setpriv"
)


def by_other(script: str, folder: Path) -> int:
    """The status of the other user's script."""
    return subprocess.run([*AS_OTHER, "sh", "-c", script], cwd=folder, timeout=PATIENCE, capture_output=True).returncode


@contextlib.contextmanager
def little_memory() -> Iterator[None]:
    """In this context, the process gets little more memory than it has."""
    before = resource.getrlimit(resource.RLIMIT_AS)
    held = int(Path("/proc/self/statm").read_text().split()[0]) * mmap.PAGESIZE
    resource.setrlimit(resource.RLIMIT_AS, (held + MEMORY, before[1]))
    try:
        yield
    finally:
        resource.setrlimit(resource.RLIMIT_AS, before)


class Shared:
    """A folder in which all users can make files, as in /dev/shm, with root's log. Its folder `own` is root's."""

    def __init__(self, folder: Path, monkeypatch: pytest.MonkeyPatch) -> None:
        self.folder, self.own = folder, folder / "own"
        self.own.mkdir()
        for name, data in PLANTED.items():
            (self.own / name).write_bytes(data)
        folder.chmod(0o1777)
        self.go = Go("false", folder / "own/go", "go1.27.3", "linux/amd64", "")
        shipped(self.go).parent.mkdir(parents=True)
        shipped(self.go).write_text(READER)
        shipped(self.go).chmod(0o755)
        monkeypatch.chdir(folder)
        monkeypatch.setattr(cli, "go_if_any", lambda: self.go)
        monkeypatch.setattr(cast(Any, cli).gc, "disable", lambda: None)
        monkeypatch.setattr(report, "netrev_program", lambda: None)
        monkeypatch.setattr(trusted_files, "COMPLAINED", set())

    def tried(self, trick: str, name: str) -> None:
        """Has the other user try a trick. Most kernels let no user link another user's file, so root does that."""
        if by_other(trick.format(name=name), self.folder):
            os.link(self.own / name, self.folder / name)

    def has(self, *names: str) -> None:
        """Makes these files of root's."""
        for name in names:
            (self.folder / name).write_bytes(PLANTED[name])
            (self.folder / name).chmod(0o600)

    def call(self, *words: str) -> tuple[int, list[str]]:
        """The status of netrev-go, and the lines that it prints. It hangs nowhere, and needs little memory."""
        output = io.StringIO()
        with redirect_stdout(output), redirect_stderr(output), little_memory(), time_limit(PATIENCE, "it hangs"):
            status = cli.main(list(words))
        return status, output.getvalue().splitlines()


@pytest.fixture
def shared(folder: Path, monkeypatch: pytest.MonkeyPatch) -> Shared:
    return Shared(folder, monkeypatch)


def is_planted(folder: Path) -> bool:
    """Whether the planted lines or tests are in a recording's lines."""
    where = folder / "x.where"
    return where.exists() and ("main.planted" in where.read_text() or "TestPlanted" in where.read_text())


@pytest.mark.parametrize("name", [PROGRAM, TESTS])
@pytest.mark.parametrize("trick, why", TRICKS.items())
def test_a_file_beside_a_log_has_to_be_its_owner_s(name: str, trick: str, why: str, shared: Shared) -> None:
    shared.has(LOG)
    shared.tried(trick, name)
    status, lines = shared.call("-o", "own/x", "convert", LOG, LOG)
    assert [line for line in lines if name in line] == [f"netrev-go: {name} isn't used: {why}"], lines
    assert (status, (shared.own / "x.jsonl").read_text()) == (0, WHOLE.read_text())
    assert not is_planted(shared.own)


@pytest.mark.parametrize("trick", TRICKS)
def test_a_file_that_is_replaced_after_it_was_examined_is_examined_again(
    trick: str, shared: Shared, monkeypatch: pytest.MonkeyPatch
) -> None:
    shared.tried(trick, LOG)
    status = (shared.own / LOG).lstat()
    monkeypatch.setattr(Path, "lstat", lambda path: status)
    with pytest.raises(OSError), time_limit(PATIENCE, "it hangs"):
        trusted_files.opened_log(Path(LOG)).close()


@pytest.mark.parametrize("name", [PROGRAM, TESTS])
def test_a_file_of_the_log_s_owner_is_used_unless_it_is_too_large(name: str, shared: Shared) -> None:
    shared.has(LOG, name)
    status, lines = shared.call("-o", "own/x", "convert", LOG)
    assert (status, is_planted(shared.own)) == (0, True), lines
    os.truncate(name, 2**40)
    status, lines = shared.call("-o", "own/y", "convert", LOG)
    assert (status, f"netrev-go: {name} isn't used: it has {2**40} bytes" in lines) == (0, True), lines


@pytest.mark.parametrize("name", [LOG, COPY])
@pytest.mark.parametrize("trick, why", TRICKS.items())
def test_a_log_has_to_be_the_user_s(name: str, trick: str, why: str, shared: Shared) -> None:
    shared.tried(trick, name)
    assert shared.call("-o", "own/x", "convert", name) == (1, [f"{name}: can't be read: {why}"])


@pytest.mark.parametrize("ending", ["028", "٠٢٨", "9" * 30])
def test_another_user_s_mark_gives_no_reason_for_a_missing_copy(ending: str, shared: Shared) -> None:
    for trick in ("touch", "mkfifo", "ln -s nowhere"):
        by_other(f"rm -f {COPY}.failed.*; {trick} {COPY}.failed.{ending}", shared.folder)
        missing = (1, [f"{COPY}: can't be read: No such file or directory"])
        assert shared.call("-o", "own/x", "convert", COPY) == missing


MAPS = """import mmap, os, socket, subprocess, sys, time
name = f"log.{os.getpid()}"
with open(name, "w+b") as file:
    os.truncate(name, 4096)
    file.write(b"x")
    file.flush()
    mapped = mmap.mmap(file.fileno(), 4096)
subprocess.run(sys.argv[1].format(name=name), shell=True)
print(flush=True)
time.sleep(60)
"""


@pytest.mark.parametrize(
    "trick, why",
    [
        ("truncate -s 60G {name}", "can't be read: it has 64424509440 bytes"), ("true", "not a log of netrev-go"), ("mkfifo new; mv new {name}", "can't be read: it is a FIFO"),
        ("mkdir new; rm {name}; mv new {name}", "can't be read: it is a folder"), ("ln -sf $PWD/own/server.4711 {name}", "can't be read: it is a link"),
    ],
)  # fmt: skip
def test_a_log_that_another_user_s_process_has_mapped(
    trick: str, why: str, shared: Shared, cleanups: ExitStack, monkeypatch: pytest.MonkeyPatch
) -> None:
    """Another file may get the log's name after netrev-go has read the name."""
    words = [*AS_OTHER, sys.executable, "-c", MAPS, trick]
    running = cleanups.enter_context(subprocess.Popen(words, cwd=shared.folder, stdout=subprocess.PIPE))
    cleanups.callback(running.kill)
    assert running.stdout and running.stdout.readline()
    log = f"{shared.folder}/log.{running.pid}"
    for module in ("go_command.process_logs", "snapshots"):
        monkeypatch.setattr(f"netrev_go.{module}.mapped_log", lambda process: ProcessLog(Path(log)))
    assert shared.call("-o", "own/x", "snapshot", str(running.pid)) == (1, [f"{log}: {why}"])
    status, lines = shared.call("-o", "own/x", "watch", str(running.pid))
    assert lines.pop(0) == f"netrev-go: watching process {running.pid}; Ctrl-C ends that"
    assert (status, len(lines), why.removeprefix("can't be read: ") in lines[0]) == (4, 1, True), lines


@pytest.mark.parametrize(
    "trick, status",
    [
        ("ln -s own/precious x.jsonl", 4), ("ln -s nowhere x.jsonl", 4), ("mkfifo x.jsonl", 4), ("mkdir x.jsonl", 4), ("touch x.jsonl; chmod 666 x.jsonl", 0),
        ("ln -s own/precious x.where", 4), ("ln -s own/earlier.where x.where", 4), ("mkfifo x.where", 4), ("echo '{\"where\":1' > x.where; chmod 666 x.where", 0),
        ("ln -s own/precious x.words", 4), ("mkfifo x.words", 4),
    ],
)  # fmt: skip
def test_nothing_is_written_to_what_another_user_put_there(trick: str, status: int, shared: Shared) -> None:
    shared.has(LOG, PROGRAM)
    texts = {shared.own / "precious": "text", shared.own / "earlier.where": '{"where":1}'}
    for path, text in texts.items():
        path.write_text(text)
    assert by_other(trick, shared.folder) == 0
    ended, lines = shared.call("--words", "-o", "x", "convert", LOG)
    assert ended == status and ("netrev-go: x." in "".join(lines)) is (status != 0), lines
    assert {path: path.read_text() for path in texts} == texts and not (shared.folder / "nowhere").exists()
    for path in filter(Path.is_file, shared.folder.glob("x.*")):
        assert path.is_symlink() or path.stat().st_mode & 0o777 == 0o600, path


PLANT = (
    """rm -rf {folder}; mkdir {folder}; echo '{"Replace":{}}' > {folder}/overlay.json; echo '{}' > {folder}/sums.json"""
)


@pytest.mark.parametrize(
    "trick, why",
    [
        ("mkdir netrev-go", FOREIGN), ("ln -s own netrev-go", FOREIGN), ("ln -s nowhere netrev-go", "No such file"), ("mkfifo netrev-go", FOREIGN), ("touch netrev-go", FOREIGN),
        (PLANT, FOREIGN), ("rm -rf {folder}; ln -s $PWD/own {folder}", FOREIGN),
        *(
            (f"cd {{folder}}; rm -f {name}; {trick} {name}", why)
            for name in ("overlay.json", "sums.json", "runtime_a.go")
            for trick, why in (("mkfifo", "it is a FIFO"), ("ln -s /dev/zero", "it is a link"), ("truncate -s 50G", FOREIGN), ("echo >", FOREIGN))
        ),
    ],
)  # fmt: skip
def test_another_user_s_files_in_the_cache_are_refused(
    trick: str, why: str, shared: Shared, monkeypatch: pytest.MonkeyPatch
) -> None:
    def make(go: Go, folder: Path) -> list[str]:
        (folder / "overlay.json").write_text(json.dumps({"Replace": {"a.go": f"{folder}/runtime_a.go"}}))
        (folder / "runtime_a.go").write_text("package runtime")
        return ["overlay.json", "runtime_a.go"]

    monkeypatch.setenv("XDG_CACHE_HOME", str(shared.folder))
    monkeypatch.setattr(toolchain, "make_overlay", make)
    folder = toolchain.cache() / toolchain.key_of(shared.go)
    if "{folder}" in trick:
        assert overlay(shared.go).parent == folder
        assert by_other(f"flock -n {folder}/lock true", shared.folder) != 0
        for path in (toolchain.cache(), folder):
            path.chmod(0o777)
    assert by_other(trick.replace("{folder}", str(folder)), shared.folder) == 0
    with pytest.raises(RecorderError, match=why), little_memory(), time_limit(PATIENCE, "it hangs"):
        overlay(shared.go)


def test_another_user_s_program_in_the_cache_does_not_run(shared: Shared, monkeypatch: pytest.MonkeyPatch) -> None:
    monkeypatch.setenv("XDG_CACHE_HOME", str(shared.folder))
    shipped(shared.go).unlink()
    program = kept(shared.go)
    assert by_other(f"mkdir -p {program.parent}; echo '#!/bin/sh' > {program}; chmod 755 {program}", shared.folder) == 0
    assert line_reader(shared.go) == ["false", "tool", "addr2line"]


ATTEMPTS = (
    "ls $LOGS/*/", "ls $LOGS/*/*/", "cat $LOGS/*/owner", "flock -n $LOGS/*/owner true", "flock -n $LOGS/*/*/owner true", "touch $LOGS/*/log.unrecorded/process.1.5",
    "touch $LOGS/*/*/log.unrecorded/process.1.5", "for folder in $LOGS/*; do mkfifo $folder/log.1; done", "for folder in $LOGS/*; do ln -s / $folder/log.1; done",
    "mv $LOGS/* $LOGS/x", "rm -r $LOGS/*",
)  # fmt: skip


def stand_in(folder: Path, script: str) -> StandIn:
    """netrev-go with a stand-in for Go, whose logs are in a folder of all users."""
    folder.chmod(0o755)
    made = StandIn(folder, script)
    made.logs.chmod(0o1777)
    return made


def test_another_user_can_do_nothing_in_the_folder_of_a_run(folder: Path) -> None:
    tricks = "\n".join(f"env -u NETREV_LOG LOGS=$NETREV_LOGS {' '.join(AS_OTHER)} sh -c '{trick}' && echo '{trick}' >> did" for trick in ATTEMPTS)  # fmt: skip
    status, errors = stand_in(folder, f"{tricks}\nexit 0").call("--strict", "-o", "x", "run", ".")
    assert (status, (folder / "did").exists(), "isn't recorded" in errors) == (0, False, False), errors


def test_a_process_of_another_user_that_the_run_started_is_named(folder: Path) -> None:
    script = f"{' '.join(AS_OTHER)} sh -c 'touch $NETREV_LOG.unrecorded/process.77.13'"
    status, errors = stand_in(folder, script).call("--strict", "-o", "x", "run", ".")
    assert (status, "process 77 couldn't write a log (Permission denied)" in errors) == (5, True), errors


def test_another_user_can_neither_hide_nor_plant_an_interrupted_run(folder: Path) -> None:
    netrev_go = stand_in(folder, RUNS)
    killed(netrev_go)
    (run,) = netrev_go.logs.glob("*/*")
    for trick in (f"flock -n {run}/owner sleep 60 &", f"flock {run} sleep 60 &"):
        by_other(f"({trick}) > /dev/null 2>&1; sleep 0.1", netrev_go.logs)
    for name, trick in (("a", "cp -r own"), ("b", "ln -s own"), ("c", "mkfifo"), ("d", f"ln -s {run}")):
        by_other(f"mkdir own; echo planted > own/owner; echo > own/log.1; {trick} netrev-go-{name}", netrev_go.logs)
    status, errors = netrev_go.call("-o", "x", "recover")
    assert (status, netrev_go.recording("x"), "planted" in errors) == (0, WHOLE.read_text(), False), errors
    assert "no run was interrupted" in netrev_go.call("recover")[1]


@pytest.mark.long
@pytest.mark.skipif(not is_here("1.27"), reason="Go 1.27 isn't here (python3 python dev.recorder.fetching 1.27)")
def test_a_server_is_recorded_among_another_user_s_files(shared: Shared, cleanups: ExitStack) -> None:
    shared.go = chosen("1.27")
    words = ("build", "-overlay", str(overlay(shared.go)), "-o", "server", str(SAMPLES / "load/main.go"))
    built = quiet_go(shared.go, shared.own, *words)
    assert built.returncode == 0, built.stderr
    status = (shared.own / "server").stat()
    program = f"server.program.{status.st_ino}.{status.st_mtime_ns}"
    by_other(f"mkfifo {program}", shared.folder)
    settings = {"NETREV_LOG": f"{shared.folder}/server", "NETREV_POINTS": "16384"}
    running = cleanups.enter_context(
        subprocess.Popen([shared.own / "server", "8", "1000000000", "500"], env=os.environ | settings)
    )
    cleanups.callback(running.kill)
    wait_until(lambda: len(os.listdir(f"/proc/{running.pid}/fd")) > 8)
    tests = f"server.{running.pid}.tests"
    by_other(f"cp own/{TESTS} {tests}", shared.folder)
    ended, lines = shared.call("-o", "own/x", "snapshot", str(running.pid))
    assert ended == 0 and not is_planted(shared.own), lines
    assert f"netrev-go: {shared.folder}/{program} isn't used: it is a FIFO" in lines
    assert f"netrev-go: {shared.folder}/{tests} isn't used: {FOREIGN}" in lines
