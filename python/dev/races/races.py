"""Prints the table of races:  python3 python dev.races.races [--schedules 10000] [--runs 1000] [--out FOLDER] [--only NAME]

Each race of tools/go/samples/races is recorded in a good run, on one processor and on four, and explored from that recording; it also runs
--runs times without the recorder. It needs Go, but not netrev. The output lines are rows of a Markdown table.
"""

import argparse
import gc
import re
import subprocess
import sys
from pathlib import Path

from netrev.recording.recording import Recording
from netrev_go.go_command.toolchain import Go, RecorderError, find_go, overlay

from .explored import environment, explored, is_good, read, recorded

ROOT = Path(__file__).resolve().parents[3]
RACES = ROOT / "tools/go/samples/races"
NAME = re.compile(r'"([a-z-]+)":')
TRIES = 5


def names() -> list[str]:
    """The names of the races."""
    return NAME.findall((RACES / "main.go").read_text(encoding="utf-8"))


def built(go: Go, out: Path, is_recording: bool) -> Path:
    """The program of the races."""
    program = out / ("recording" if is_recording else "plain")
    flags = ["-overlay", str(overlay(go)), "-gcflags=-l"] if is_recording else []
    subprocess.run([go.program, "build", *flags, "-o", str(program), "."], cwd=RACES, env=environment(), check=True)
    return program


def good_recording(go: Go, program: Path, name: str, processors: int) -> Recording | None:
    """A recording of a run that succeeded and in which no rule finds anything; None if no run did so."""
    path = program.with_name(f"{name}-{processors}.jsonl")
    for _ in range(TRIES):
        run = recorded(go, [str(program), name], RACES, processors, path)
        if run.printed.strip() == "0" and run.recording and is_good(recording := read(run.recording)):
            return recording
    return None


def gone_wrong(program: Path, name: str, runs: int, processors: int) -> str:
    """The number of runs in which the race occurs."""
    command = [str(program), name, str(runs)]
    run = subprocess.run(
        command, env=environment(GOMAXPROCS=str(processors)), capture_output=True, text=True, check=False
    )
    return run.stdout.strip() or "?"


def main() -> int:
    parser = argparse.ArgumentParser(description=__doc__, formatter_class=argparse.RawDescriptionHelpFormatter)
    parser.add_argument("--schedules", type=int, default=10_000)
    parser.add_argument("--runs", type=int, default=1_000)
    parser.add_argument("--out", type=Path, default=ROOT / "out/races", help="where the recordings are left")
    parser.add_argument("--only", default="")
    options = parser.parse_args()
    options.out = options.out.resolve()  # (Go builds in the races' own folder)
    options.out.mkdir(parents=True, exist_ok=True)
    gc.disable()
    try:
        go = find_go()
        recording_one, plain_one = built(go, options.out, True), built(go, options.out, False)
    except (RecorderError, subprocess.CalledProcessError) as trouble:
        print(trouble, file=sys.stderr)
        return 3
    print("| Race | on | steps | schedules | that end with | first | real runs that go wrong |")
    print("|---|--:|--:|--:|---|--:|--:|")
    for name in names():
        for processors in (1, 4) if options.only in name else ():
            row(go, recording_one, plain_one, name, processors, options)
    return 0


def row(go: Go, recording_one: Path, plain_one: Path, name: str, processors: int, options: argparse.Namespace) -> None:
    """Prints a race's row."""
    wrong = gone_wrong(plain_one, name, options.runs, processors)
    recording = good_recording(go, recording_one, name, processors)
    if recording is None:
        print(f"| `{name}` | {processors} | no good run in {TRIES} | | | | {wrong} |", flush=True)
        return
    outcome = explored(recording, options.schedules)
    ends = ", ".join(f"{what}: {count}" for what, count in sorted(outcome.times.items())) or "nothing"
    first = min(outcome.first.values(), default=0)
    print(
        f"| `{name}` | {processors} | {recording.length} | {outcome.played:,} | {ends} | {first or ''} | {wrong} |",
        flush=True,
    )


if __name__ == "__main__":
    sys.exit(main())
