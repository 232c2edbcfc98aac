"""Runs the small programs of go_untouched.go with and without recording, and compares the results:
output, status and files.

    python3 python tests.trials.go_untouched [RELEASE ..]    prints a line for each program, with these releases of Go or with all
    installed releases"""

import contextlib
import os
import re
import signal
import stat
import subprocess
import sys
import tempfile
import time
from collections.abc import Iterator
from dataclasses import dataclass
from pathlib import Path

from dev.recorder.fetching import SUITES, commands_of, is_here
from netrev_go.go_command.run_folders import claim
from netrev_go.go_command.running import RunLimits, environment, logs_in
from netrev_go.go_command.toolchain import Go, overlay, quiet_go

SOURCE = Path(__file__).with_suffix(".go")
NAMES = re.findall(r'^\t"([^"]+)": +(?:func\(\)|\w+,$)', SOURCE.read_text(), re.MULTILINE)
OF_ROOT = ("another user", "another user works", "another root folder")  # the programs that only root can run
DAEMONS = ("a daemon", "a daemon of a daemon")  # the test waits for the file that they leave
INPUT = b"first, and the rest\n"
PATIENCE = 300.0  # seconds; on an idle machine a program takes a twentieth of a second


@dataclass
class Run:
    """The results of a program's run."""

    output: bytes
    errors: bytes
    status: int
    files: dict[str, tuple[int, bytes]]  # by name: the mode, and the bytes


def go_of(release: str) -> Go:
    commands = commands_of(release)
    version = subprocess.run([commands / "go", "env", "GOVERSION"], capture_output=True, text=True, check=True)
    return Go(str(commands / "go"), commands.parent.resolve(), version.stdout.strip(), "linux/amd64", "")


class Programs:
    """The programs, built with and without netrev's overlay for a release of Go."""

    def __init__(self, go: Go, folder: Path) -> None:
        self._folder, self._runs = folder, 0
        folder.chmod(0o755)  # for child processes that run as other users
        flags_of: dict[str, list[str]] = {"plain": [], "recording": ["-overlay", str(overlay(go))]}
        for name, flags in flags_of.items():
            run = quiet_go(go, folder, "build", *flags, "-o", str(folder / name), str(SOURCE))
            assert run.returncode == 0, run.stderr

    def runs(self, name: str) -> tuple[Run, Run, Path]:
        """A run without recording, a run with it, and the folder of the second run's logs."""
        self._runs += 1
        logs = claim(Path(tempfile.mkdtemp(dir=self._folder)))
        settings = environment(logs, RunLimits(points=2**16))
        return self._run("plain", name, dict(os.environ)), self._run("recording", name, settings), logs

    def _run(self, program: str, name: str, settings: dict[str, str]) -> Run:
        folder = self._folder / f"{program} {self._runs}"
        folder.mkdir()
        folder.chmod(0o755)
        ended = subprocess.run(
            [self._folder / program, name], cwd=folder, env=settings, input=INPUT, capture_output=True, timeout=PATIENCE,
            check=False,
        )  # fmt: skip
        if name in DAEMONS:
            wait_for(folder / "daemon")
        return Run(ended.stdout, ended.stderr, ended.returncode, files_below(folder))


@contextlib.contextmanager
def programs(release: str) -> Iterator[Programs]:
    """The programs of a release, in a folder that is removed afterwards."""
    with tempfile.TemporaryDirectory(prefix="untouched-") as folder:
        yield Programs(go_of(release), Path(folder))


def wait_for(file: Path) -> None:
    end = time.monotonic() + PATIENCE
    while not (file.exists() and file.stat().st_size) and time.monotonic() < end:
        time.sleep(0.01)


def files_below(folder: Path) -> dict[str, tuple[int, bytes]]:
    """For each name below a folder, the file's mode and contents; a link's contents are the name of its target."""
    found = {}
    for path in sorted(folder.rglob("*")):
        mode = path.lstat().st_mode
        text = os.fsencode(os.readlink(path)) if stat.S_ISLNK(mode) else path.read_bytes() if path.is_file() else b""
        found[str(path.relative_to(folder))] = mode, text
    return found


def differing(release: str) -> list[str]:
    """Runs all programs of a release, prints a line for each, and returns the names of those that differ."""
    found = []
    with programs(release) as built:
        for name in NAMES:
            plain, recorded, logs = built.runs(name)
            status = signal.Signals(-plain.status).name if plain.status < 0 else str(plain.status)
            same = "same" if plain == recorded else "DIFFERS"
            found += [name] * (plain != recorded)
            print(f"{release}  {name:<24} {same:<8} status {status:<8} {len(logs_in(logs))} logs", flush=True)
    return found


def main(releases: list[str]) -> int:
    wanted = releases or list(filter(is_here, SUITES))
    found = [(release, name) for release in wanted for name in differing(release)]
    print(f"{len(NAMES)} programs, {len(wanted)} releases ({', '.join(wanted)}): {len(found)} differ")
    return min(len(found), 100)


if __name__ == "__main__":
    sys.exit(main(sys.argv[1:]))
