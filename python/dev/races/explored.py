"""Records programs and explores the recordings, for the tables of races and of healthy programs."""

import os
import shutil
import subprocess
import tempfile
import time
from collections import Counter
from pathlib import Path
from typing import NamedTuple

from dev.recorder.suites import DEBIAN
from netrev.explore.script import script_of
from netrev.explore.search import HANG, Search
from netrev.findings.suspects.ranking import suspects_of
from netrev.recording.recording import Recording
from netrev.recording.where import SourceLines
from netrev_go.go_command.running import LOG
from netrev_go.go_command.toolchain import Go
from netrev_go.steps.conversion import RecordingOptions, convert

PATIENCE = 120  # seconds that a program may run


def environment(**settings: str) -> dict[str, str]:
    return os.environ | {"GO111MODULE": "off", "GOPATH": str(DEBIAN), "GOFLAGS": ""} | settings


class ProgramRun(NamedTuple):
    """How a program ended, what it printed, and the recording of the first of its processes that opened sockets."""

    status: int
    printed: str
    recording: Path | None


def recorded(go: Go, command: list[str], folder: Path, processors: int, name: Path) -> ProgramRun:
    """Runs a program that was built to record."""
    logs = Path(tempfile.mkdtemp(prefix="netrev-explored-", dir="/dev/shm"))
    settings = {"NETREV_LOG": str(logs / "log"), "GOMAXPROCS": str(processors)}
    try:
        run = subprocess.run(
            command, cwd=folder, env=environment(**settings), capture_output=True, text=True, errors="replace",
            stdin=subprocess.DEVNULL, timeout=PATIENCE, check=False,
        )  # fmt: skip
        for log in sorted(path for path in logs.iterdir() if LOG.match(path.name)):
            if not convert(log, name, go, RecordingOptions()).is_empty:
                return ProgramRun(run.returncode, run.stdout, name if name.exists() else None)
        return ProgramRun(run.returncode, run.stdout, None)
    except subprocess.TimeoutExpired:
        return ProgramRun(1, "", None)
    finally:
        shutil.rmtree(logs, ignore_errors=True)


def read(path: Path) -> Recording:
    """A recording with its NAME.where."""
    recording = Recording.read(str(path))
    recording.lines = SourceLines.beside(str(path), recording.length)
    return recording


def is_good(recording: Recording) -> bool:
    """Whether no rule finds anything in the recording."""
    return not any(suspect.is_shown for suspect in suspects_of(recording).suspects)


class Exploration(NamedTuple):
    """The result of exploring: the number of schedules; for each finding, the number of schedules that have it, and the
    first of these; and the seconds."""

    played: int
    times: Counter[str]
    first: dict[str, int]
    seconds: float
    search: Search


def explored(recording: Recording, most: int) -> Exploration:
    """Runs this many schedules near a recording."""
    begun = time.process_time()
    search = Search(script_of(recording), recording.lines.words)
    first: dict[str, int] = {}

    def tell() -> None:
        for key in search.found:
            first.setdefault(named(key[0]), search.tried)

    search.run(most, tell)
    times: Counter[str] = Counter()
    for key, count in search.times.items():
        times[named(key[0])] += count
    return Exploration(search.tried, times, first, time.process_time() - begun, search)


def named(what: object) -> str:
    """The name of a rule, or of a call that hangs."""
    return str(what or HANG)
