"""Makes snapshots of three programs at random moments while they run, on one processor and on four, and compares each
answer and each lock word with the machine's.

    python3 python tests.trials.go_snapshots [--each N] [--points N] [--seed S] [--netrev] [RELEASE ..]

It prints a line for each program and number of processors: the numbers of snapshots, steps and lock words, and what was
left out. The model in Python makes the comparison, or, with --netrev, netrev does. The exit status is 1 if a snapshot
isn't accepted or a lock word differs."""

import argparse
import gc
import os
import random
import shutil
import subprocess
import sys
import tempfile
import time
from collections import Counter
from collections.abc import Iterator
from contextlib import contextmanager, suppress
from dataclasses import dataclass, field
from pathlib import Path

from netrev.system.program_path import netrev_program
from netrev_go.go_command.running import places
from netrev_go.go_command.toolchain import Go, overlay, quiet_go
from netrev_go.log.logfile import NotALogError, copy_of, log_of
from netrev_go.steps.analysis import check
from netrev_go.steps.compare import by_the_model, differing
from netrev_go.steps.recording_builder import (
    NewRecording,
    NothingRecordedError,
    UnconvertibleError,
    make,
    write,
    write_words,
)

from .go_untouched import go_of

SAMPLES = Path(__file__).resolve().parents[3] / "tools/go/samples"
PROGRAMS = {
    "keep": (SAMPLES / "keep/main.go", ("20", "3600", "none", "1")),
    "load": (SAMPLES / "load/main.go", ("8", "1000000000", "5")),
    "streams": (Path(__file__).with_suffix(".go"), ("8",)),
}
PROCESSORS = (1, 4)
LONGEST = 0.3  # seconds between two snapshots
PATIENCE = 60.0  # seconds, within which the ring must be filled twice


@dataclass
class Came:
    """The result of a program's snapshots."""

    made: int = 0
    steps: int = 0
    words: int = 0
    prelude: int = 0
    left_out: Counter[str] = field(default_factory=Counter)
    wrong: list[str] = field(default_factory=list)

    def add(self, recording: NewRecording, wrong: str) -> None:
        self.made += 1
        self.steps += len(recording.lines)
        self.words += len(recording.words)
        self.prelude += recording.prelude
        for note in recording.notes:
            number, _, why = note.partition(" left out: ")
            if why and "socket" in number:
                self.left_out[why] += int(number.split()[0])
        if wrong:
            self.wrong.append(wrong)

    def line(self) -> str:
        """The line to print."""
        lacking = "".join(f"; {number} sockets left out: {why}" for why, number in self.left_out.items())
        return (
            f"{self.made} snapshots, {len(self.wrong)} wrong; {self.steps} steps, {self.prelude} of them lead to the begin; "
            f"{self.words} lock words{lacking}"
        )


def build(go: Go, source: Path, program: Path) -> None:
    run = quiet_go(go, program.parent, "build", "-overlay", str(overlay(go)), "-o", str(program), str(source))
    assert run.returncode == 0, run.stderr


@contextmanager
def running(program: Path, words: tuple[str, ...], processors: int, points: int) -> Iterator[Path]:
    """The log of a running program."""
    folder = Path(tempfile.mkdtemp(prefix="netrev-snapshots-", dir=places()[0]))
    settings = {"NETREV_LOG": str(folder / "log"), "NETREV_POINTS": str(points), "GOMAXPROCS": str(processors)}
    process = subprocess.Popen([program, *words], env=os.environ | settings, stdout=subprocess.DEVNULL)
    try:
        yield folder / f"log.{process.pid}"
    finally:
        process.kill()
        process.wait()
        shutil.rmtree(folder)


def copies(log: Path, count: int, points: int, chance: random.Random) -> Iterator[bytes]:
    """Copies of a log at random moments, after points have been overwritten."""
    end, copy, passed = time.monotonic() + PATIENCE, b"", 0
    while True:
        time.sleep(chance.random() * LONGEST)
        if log.exists():
            with log.open("rb", buffering=0) as file, suppress(NotALogError):  # (its header may not be written yet)
                copy = copy_of(file).read()
                passed = int.from_bytes(copy[8:16], "little")
            if passed > 2 * points:
                yield copy
                count -= 1
            if not count:
                return
        assert time.monotonic() < end or passed > 2 * points, "too few points were passed"


def compared(copy: bytes, name: Path, netrev: str) -> tuple[NewRecording | None, str]:
    """The recording of a copy, and its fault if it has one."""
    with (name.parent / "copy").open("w+b") as file:
        file.write(copy)
        file.seek(0)
        try:
            recording = make(log_of(file, True))
        except (NothingRecordedError, UnconvertibleError) as fault:
            return None, str(fault)
    if not recording.prelude:
        return recording, "it doesn't begin in the middle"
    write(recording, name)
    write_words(recording, name.with_suffix(".words"))
    if not netrev:
        good, output = by_the_model(name)
        return recording, "" if good else output
    good, output = check(netrev, name)
    differ = differing(netrev, name)[1] if good else []
    return recording, output if not good else "; ".join(differ[:1])


def tried(
    program: Path, words: tuple[str, ...], processors: int, points: int, count: int, chance: random.Random, netrev: str
) -> Came:
    """Snapshots of one program."""
    outcome = Came()
    with running(program, words, processors, points) as log:
        found = list(copies(log, count, points, chance))
    for copy in found:
        recording, wrong = compared(copy, program.parent / "snapshot.jsonl", netrev)
        if recording:
            outcome.add(recording, wrong)
        else:
            outcome.made += 1
            outcome.wrong.append(wrong)
    return outcome


def main(words: list[str]) -> int:
    parser = argparse.ArgumentParser(prog="tests.trials.go_snapshots")
    parser.add_argument(
        "--each", type=int, default=17, help="snapshots of a program, on so many processors, and release"
    )
    parser.add_argument("--points", type=int, default=2**14)
    parser.add_argument("--seed", type=int, default=1)
    parser.add_argument("--netrev", action="store_true")
    parser.add_argument("releases", nargs="*", default=["1.19", "1.27"])
    options = parser.parse_args(words)
    gc.disable()
    chance, status = random.Random(options.seed), 0
    netrev = (netrev_program() or "") if options.netrev else ""
    for release in options.releases:
        with tempfile.TemporaryDirectory() as folder:
            for name, (source, given) in PROGRAMS.items():
                program = Path(folder, name)
                build(go_of(release), source, program)
                for processors in PROCESSORS:
                    reply = tried(program, given, processors, options.points, options.each, chance, netrev)
                    print(f"{release} {name} GOMAXPROCS={processors}: {reply.line()}", flush=True)
                    for wrong in reply.wrong[:3]:
                        print(f"  {wrong}", flush=True)
                    status = status or bool(reply.wrong)
    return int(status)


if __name__ == "__main__":
    sys.exit(main(sys.argv[1:]))
