"""Uses the `go` on the PATH to record the programs of tools/go/samples/causes, oversights, roots, turns, gone, skips,
joins, sizes, sources, hands and chains, each with and without its bug. Reports whether the first output names the line
of each bug:

    python3 python tests.trials.go_caused [FOLDER]    keeps the recordings in FOLDER, as in python/tests/caused
"""

import os
import pathlib
import subprocess
import sys
import tempfile

from dev.recorder.suites import SAMPLES
from netrev.findings.causes import first_words
from netrev.findings.suspects.ranking import all_suspects_of
from netrev.recording.recording import Recording
from netrev_go.go_command.toolchain import Go, find_go
from netrev_go.log.logfile import read_log
from netrev_go.log.tests_in_log import Tests
from netrev_go.release_check import ready
from netrev_go.steps.conversion import ReadLog, calls_of, everybody_of
from netrev_go.steps.recording_builder import make, write
from netrev_go.steps.where import write_where

SOURCE, OVERSIGHTS, ROOTS, TURNS, GONE, SKIPS, JOINS, SIZES, SOURCES, HANDS, CHAINS = (
    SAMPLES / name / "main.go"
    for name in (
        "causes",
        "oversights",
        "roots",
        "turns",
        "gone",
        "skips",
        "joins",
        "sizes",
        "sources",
        "hands",
        "chains",
    )
)
NAMES = {
    SOURCE: ("idleClose", "half", "stale", "left", "once", "pool", "piece", "both", "body"),
    OVERSIGHTS: (
        "forgotten", "earlier", "unread", "dead", "mutex", "waiting", "writers", "dialBack", "shutdown",
    ),
    ROOTS: ("hub", "bodies", "relay", "slots", "itself"),
    TURNS: (
        "doubled", "ring", "undone", "unflushed", "longer", "queued", "dropped", "limited", "cancelled", "expired", "stays",
        "uncounted", "overdue",
    ),
    GONE: (
        "unmatched", "missed", "quits", "skipped", "surplus", "stilled", "elsewhere", "nested", "readahead",
    ),
    SKIPS: ("kept", "opened", "timed", "swallowed"),
    JOINS: ("gaveup", "guarded", "rounds", "uncased", "pooled", "stuck", "polled"),
    SIZES: ("datagram",),
    SOURCES: (
        "ordered", "departed", "reentered", "unreturned", "unpushed", "turnedAway",
        "mixed", "spins", "seated", "partly",
    ),
    HANDS: ("severed", "dismissed", "deferred", "mingled"),
    CHAINS: (
        "probed", "looped", "callback", "abandoned", "readers", "copied", "withdrawn", "remembered", "refused", "shortened",
        "fanned", "latecomer", "handshake", "panicked", "lengthy", "duplicated", "shared",
    ),
}  # fmt: skip


def source_of(name: str) -> pathlib.Path:
    """The source of the program with this name."""
    return next(source for source, names in NAMES.items() if name in names)


def bug_line(name: str) -> str:
    """The place of a program's bug."""
    lines = source_of(name).read_text(encoding="utf-8").split("\n")
    number = next(number for number, line in enumerate(lines, 1) if f"// BUG {name}" in line)
    return f"main.go:{number}"


def build(go: Go, source: pathlib.Path, program: pathlib.Path) -> None:
    words = [go.program, "build", "-overlay", str(ready(go)), "-gcflags=-l", "-o", str(program), "main.go"]
    subprocess.run(words, cwd=source.parent, env=os.environ | {"GOFLAGS": "-p=2"}, check=True)


def recorded(go: Go, program: pathlib.Path, words: list[str], name: pathlib.Path) -> int:
    """Records a run as NAME.jsonl, with its lines, and returns the program's status. Must be called in the folder of
    the source."""
    with tempfile.TemporaryDirectory() as folder:
        settings = {"NETREV_LOG": f"{folder}/log", "NETREV_POINTS": "65536"}
        run = subprocess.run([program, *words], env=os.environ | settings, capture_output=True, check=False)
        log = next(path for path in pathlib.Path(folder).iterdir() if ".program" not in path.name)
        read = read_log(log)
        recording = make(read, all_bytes=False)
        used = set(recording.stacks) | recording.everybody.stacks()
        calls = calls_of(ReadLog(log, read, Tests()), used, go)
    write(recording, name)
    more = [{"bytes": recording.bytes}] if recording.bytes else []
    everybody = everybody_of(recording, recording.everybody, calls)
    write_where(
        name.with_suffix(".where"),
        recording.stacks,
        calls,
        recording.orders,
        recording.beside,
        more,
        recording.times,
        everybody,
    )
    return run.returncode


def of_one(go: Go, program: pathlib.Path, name: str, folder: pathlib.Path) -> tuple[bool, int]:
    """Records a program with and without its bug, and prints a line. Returns whether the bug is named, and the number
    of suspects in the good run."""
    bad, good = (folder / f"{name}-{kind}.jsonl" for kind in ("bad", "good"))
    ended = recorded(go, program, [name, "bad"], bad), recorded(go, program, [name, "good"], good)
    is_named = bug_line(name) in "\n".join(first_words(Recording.read(str(bad)), name))
    of_good = [suspect for suspect in all_suspects_of(Recording.read(str(good))).suspects if suspect.is_shown]
    print(
        f"{name}: ended with {ended}; {'named' if is_named else 'missing'}; good: {len(of_good)} suspects", flush=True
    )
    return is_named, len(of_good)


def main(folder: pathlib.Path) -> int:
    """Records all programs; returns 1 if a good run has a suspect, or if more than one bug of a source isn't named."""
    go, status = find_go(), 0
    with tempfile.TemporaryDirectory() as built:
        for source, names in NAMES.items():
            program = pathlib.Path(built) / source.parent.name
            build(go, source, program)
            os.chdir(source.parent)
            reply = [of_one(go, program, name, folder) for name in names]
            missing, suspected = (sum(not is_named for is_named, _ in reply), sum(count for _, count in reply))
            status |= suspected > 0 or missing > 1
    return status


if __name__ == "__main__":
    if sys.argv[1:]:
        sys.exit(main(pathlib.Path(sys.argv[1]).resolve()))
    with tempfile.TemporaryDirectory() as place:
        sys.exit(main(pathlib.Path(place)))
