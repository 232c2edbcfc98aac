"""Measures how fast the machine itself is, without commands:  python3 python dev.bench.pace [STEPS]

For recordings of each shape, with 1,000,000 steps or STEPS, prints the speed of each representation of a world in
thousands of steps a second. Four things are measured: replaying the steps, applying them so that they can be undone,
undoing them, and searching for a watch that never hits. The representations are the lists of `nr_plain`, the packed
world of `nr_machine`, and the same machine in plain Rust without proofs (`baseline`). Each figure is the best of three
runs. The last columns have the packed world's figures divided by those of the lists and of the baseline.

NETREV_PACE names the program to use instead of out/nr_pace, which is built from `bench/pace/crate`. NETREV_BASELINE names the program of
`bench/baseline`; by default it is built, and if that fails, its columns are empty. SHAPES names the shapes to measure. The
program prints the speeds and checks none of them.
"""

import os
import subprocess
import sys
import tempfile
from pathlib import Path

from .programs import ROOT, built_baseline, write_recording

PACE = Path(os.environ.get("NETREV_PACE", ROOT / "out/nr_pace"))
SHAPES = os.environ.get("SHAPES", "locks queues bytes waits timers armed mix").split()
STEPS = 1_000_000
MEASURES = ("advance", "apply", "undo", "search")


def figures(program, recording):
    """A program's figures by name, from `World advance 1 apply 2 undo 3 search 4`."""
    found = {}
    printed = subprocess.run([program, recording], stdout=subprocess.PIPE, check=True, text=True).stdout
    for line in printed.splitlines():
        name, *words = line.split()
        if tuple(words[::2]) != MEASURES:
            raise ValueError(f"{program}: {line}")
        found[name] = [int(word) for word in words[1::2]]
    return found


def times(figure, other):
    return f"{figure / other:.2f}" if other else ""


def row(shape, plain, packed, baseline):
    cells = [shape]
    for figures_of_one in (plain, packed, baseline):
        cells += [f"{figure:,}" for figure in figures_of_one] or [""] * len(MEASURES)
    cells += [times(figure, other) for figure, other in zip(packed, plain)]
    cells += [times(figure, other) for figure, other in zip(packed, baseline)] or [""] * len(MEASURES)
    return "| " + " | ".join(cells) + " |"


def head():
    groups = ("lists:", "packed:", "baseline:", "packed/lists:", "packed/baseline:")
    names = [f"{group} {name}" if name == MEASURES[0] else name for group in groups for name in MEASURES]
    return f"| k steps/s | {' | '.join(names)} |\n|---|{'--:|' * len(names)}"


def main(steps):
    baseline = built_baseline()
    with tempfile.TemporaryDirectory() as folder:
        recording = Path(folder) / "recording.jsonl"
        print(head())
        for shape in SHAPES:
            write_recording(shape, steps, recording)
            worlds = figures(PACE, recording)
            plain_rust = figures(baseline, recording)["baseline"] if baseline else []
            print(row(shape, worlds["PlainWorld"], worlds["World"], plain_rust), flush=True)


if __name__ == "__main__":
    try:
        main(int(sys.argv[1]) if sys.argv[1:] else STEPS)
    except (OSError, ValueError, subprocess.CalledProcessError) as error:
        sys.exit(f"pace.py: {error}")
