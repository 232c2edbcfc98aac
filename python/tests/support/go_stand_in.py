"""netrev-go as a separate process, with a shell script instead of Go:  python3 python tests.support.go_stand_in FOLDER WORDS ..

FOLDER/go is the script, which leaves a stored log and does what a test requests, and FOLDER/netrev, if it exists, replaces
netrev."""

import os
import signal
import subprocess
import sys
import time
from collections.abc import Callable
from pathlib import Path

from dev.fuzz.generators.logs import from_text
from netrev_go import cli
from netrev_go.go_command.toolchain import Go
from netrev_go.steps import report

PYTHON = Path(__file__).resolve().parents[2]
STORED = PYTHON.parent / "examples/real/past.log"
WHOLE = STORED.with_suffix(".jsonl")
PATIENCE = 120.0  # seconds


def until(name: str) -> str:
    """A line of a shell script that waits until this file exists, or until the test's folder is removed."""
    return f"while [ -e go ] && [ ! -e {name} ]; do sleep 0.05; done"


WAITS = until("never")


def reset_signals(ignored: int | None = None) -> None:
    """Makes this process ignore only this signal, or none. The process that runs the tests may ignore other signals, as
    under nohup, and its children inherit that."""
    for number in (signal.SIGHUP, signal.SIGINT, signal.SIGQUIT, signal.SIGTERM):
        signal.signal(number, signal.SIG_IGN if number == ignored else signal.SIG_DFL)


class StandIn:
    """A folder with a script instead of Go, in which netrev-go is started."""

    def __init__(self, folder: Path, script: str) -> None:
        self.folder = folder
        self.logs = folder / "logs"
        self.logs.mkdir()
        (folder / "stored").write_bytes(from_text(STORED.read_text())[0])
        self.executable("go", f'cp {folder}/stored "$NETREV_LOG.$$"\n{script}')

    def executable(self, name: str, script: str) -> None:
        (self.folder / name).write_text(f"#!/bin/sh\n{script}\n")
        (self.folder / name).chmod(0o700)

    def words(self, *words: str) -> list[str]:
        return [sys.executable, str(PYTHON), "tests.support.go_stand_in", str(self.folder), *words]

    def environment(self) -> dict[str, str]:
        return os.environ | {"NETREV_LOGS": str(self.logs)}

    def start(self, *words: str, ignored: int | None = None) -> "subprocess.Popen[str]":
        """Starts netrev-go, with a given signal ignored as under nohup."""
        return subprocess.Popen(
            self.words(*words), cwd=self.folder, env=self.environment(), text=True, stdin=subprocess.DEVNULL,
            stdout=subprocess.PIPE, stderr=subprocess.PIPE,
            preexec_fn=lambda: reset_signals(ignored),
        )  # fmt: skip

    def call(self, *words: str) -> tuple[int, str]:
        """netrev-go's status, and what it prints on standard error."""
        running = self.start(*words)
        _, errors = running.communicate(timeout=PATIENCE)
        return running.returncode, errors

    def wait_for(self, name: str) -> None:
        wait_until((self.folder / name).exists)

    def recording(self, name: str) -> str:
        return (self.folder / f"{name}.jsonl").read_text()


def wait_until(is_so: Callable[[], object]) -> None:
    """Waits until a condition holds; fails if that takes too long."""
    end = time.monotonic() + PATIENCE
    while not is_so():
        assert time.monotonic() < end, "it takes too long"
        time.sleep(0.01)


def main(folder: Path, words: list[str]) -> int:
    netrev = folder / "netrev"
    go = Go(str(folder / "go"), folder, "go1", "linux/amd64", "")
    sys.argv[1:] = words
    setattr(cli, "find_go", lambda: go)
    setattr(cli, "ready", lambda _: folder / "overlay.json")
    setattr(report, "netrev_program", lambda: str(netrev) if netrev.exists() else None)
    return cli.main(words)


if __name__ == "__main__":
    sys.exit(main(Path(sys.argv[1]), sys.argv[2:]))
