"""Sends netrev-go SIGQUIT, SIGHUP, SIGTERM and SIGKILL in turn, at random times during `run` and `test`, and counts the
runs that are lost. It needs Go and netrev.

    python3 python tests.trials.go_killed [--runs N] [--seed S] [RELEASE ..]    prints a line for each run, and the totals
"""

import argparse
import os
import random
import signal
import subprocess
import sys
import tempfile
import time
from collections import Counter
from dataclasses import dataclass
from pathlib import Path

from dev.recorder.fetching import commands_of
from netrev.system.program_path import netrev_program
from netrev_go.steps.analysis import check
from tests.real_go.go_programs import TOOL, program
from tests.support.go_stand_in import wait_until

SIGNALS = (signal.SIGQUIT, signal.SIGHUP, signal.SIGTERM, signal.SIGKILL)
MAIN = program(
    """\tos.WriteFile(os.Getenv("BEGAN"), nil, 0o600)
	for i := 0; i < 150; i++ {
		if _, err := os.Stat(os.Getenv("END")); err == nil {
			break
		}
		a.Write([]byte("x"))
		b.Read(make([]byte, 1))
		time.Sleep(20 * time.Millisecond)
	}""",
    "os", "time",
)  # fmt: skip
TEST = MAIN.replace("package main", "package p").replace('"net"', '"net"\n\t"testing"')
TEST = TEST.replace("func main()", "func TestServe(t *testing.T)")
WORDS = {"run": ["run", "main.go"], "test": ["--all", "test", "."]}  # with --all, tests that pass have recordings too
EARLIEST, LATEST = (
    -2.0,
    4.0,
)  # the signal's time in seconds after the program began, or, if negative, after netrev-go began


@dataclass
class Trial:
    """A folder with a program whose runs are killed."""

    folder: Path
    release: str
    netrev: str

    def __post_init__(self) -> None:
        for name, text in (("run/main.go", MAIN), ("test/p_test.go", TEST)):
            (self.folder / name).parent.mkdir()
            (self.folder / name).write_text(text)
        (self.folder / "logs").mkdir()

    def environment(self, number: int) -> dict[str, str]:
        path = f"{commands_of(self.release)}:{os.environ['PATH']}"
        files = {name.upper(): str(self.folder / f"{name} {number}") for name in ("began", "end")}
        settings = {"GO111MODULE": "off", "GOFLAGS": "", "GOTOOLCHAIN": "local", "NETREV": self.netrev, "PATH": path}
        return os.environ | settings | files | {"NETREV_LOGS": str(self.folder / "logs")}

    def called(self, number: int, *words: str) -> str:
        """What netrev-go prints on standard error."""
        run = subprocess.run(
            [TOOL, *words], cwd=self.folder, env=self.environment(number), capture_output=True, text=True, check=False
        )
        return run.stderr

    def run(self, number: int, command: str, sent: signal.Signals, seconds: float) -> str:
        """Makes one run, and sends a signal this many seconds after the program has begun, or, if the number is
        negative, after netrev-go has begun. Returns the run's status and outcome."""
        errors = self.folder / f"errors {number}"
        with errors.open("w") as file:
            running = subprocess.Popen(
                [TOOL, "-o", f"../out {number}", *WORDS[command]],
                cwd=self.folder / command, env=self.environment(number), stdin=subprocess.DEVNULL,
                stdout=subprocess.DEVNULL, stderr=file, start_new_session=True,
            )  # fmt: skip
        if seconds > 0:
            wait_until(lambda: running.poll() is not None or (self.folder / f"began {number}").exists())
        try:
            running.wait(abs(seconds))
        except subprocess.TimeoutExpired:
            running.send_signal(sent)
        running.wait()
        (self.folder / f"end {number}").touch()
        wait_until(lambda: is_empty(running.pid))
        return f"status {running.returncode}, {self.became(number, errors.read_text())}"

    def became(self, number: int, errors: str) -> str:
        """The outcome of a run that has ended: recorded, kept, not begun, recovered or LOST."""
        if self.recordings(f"out {number}"):
            self.called(
                number, "-o", f"again {number}", "recover"
            )  # netrev-go may have been killed before it removed the logs
            return "recorded"
        if "nothing is lost" in errors:
            return "kept"
        if not (self.folder / f"began {number}").exists():
            return "not begun"
        is_offered = "interrupted before" in self.called(number, "convert")
        self.called(number, "-o", f"out {number}", "recover")
        return "recovered" if is_offered and self.recordings(f"out {number}") else "LOST"

    def recordings(self, name: str) -> list[Path]:
        """The recordings of a run that netrev accepts."""
        found = [*self.folder.glob(f"{name}*.jsonl"), *(self.folder / name).glob("*.jsonl")]
        return [path for path in found if check(self.netrev, path)[0]]


def is_empty(group: int) -> bool:
    """Whether a process group has no process left."""
    try:
        os.killpg(group, 0)
    except ProcessLookupError:
        return True
    return False


def tried(release: str, runs: int, seed: int, netrev: str) -> Counter[str]:
    """The outcomes of this many runs with a release."""
    dice = random.Random(seed)
    sums: Counter[str] = Counter()
    with tempfile.TemporaryDirectory(prefix="killed-") as folder:
        trial = Trial(Path(folder), release, netrev)
        trial.called(0, "doctor")  # it makes the overlay
        for number in range(1, runs + 1):
            sent, command = SIGNALS[number % 4], ("run", "test")[number // 4 % 2]
            seconds = dice.uniform(EARLIEST, LATEST)
            outcome = trial.run(number, command, sent, seconds)
            print(f"{release}  {number:>3}  {command:<4}  {sent.name:<7} at {seconds:5.2f} s: {outcome}", flush=True)
            sums[outcome.rpartition(", ")[2]] += 1
    return sums


def main(words: list[str]) -> int:
    parser = argparse.ArgumentParser(prog="tests.trials.go_killed", description=__doc__)
    parser.add_argument("--runs", type=int, default=60)
    parser.add_argument("--seed", type=int, default=int(time.time()))
    parser.add_argument("releases", nargs="*", default=["1.27"], metavar="RELEASE")
    options = parser.parse_args(words)
    netrev = netrev_program()
    if netrev is None:
        print("netrev is missing: run `make netrev`, or set NETREV")
        return 3
    lost = 0
    for release in options.releases:
        sums = tried(release, options.runs, options.seed, netrev)
        lost += sums["LOST"]
        print(f"Go {release}, --seed {options.seed}: {', '.join(f'{sums[name]} {name}' for name in sorted(sums))}")
    return min(lost, 100)


if __name__ == "__main__":
    sys.exit(main(sys.argv[1:]))
