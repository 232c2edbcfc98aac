"""Measures how many schedules run in a second:  python3 python dev.races.exploring [--schedules N] [--processors 1,4] [RECORDING ..]

Without recordings, it explores the longest hunt of examples/hunts, and random traffic of 2,000 steps without a bug. The output lines are rows of a
Markdown table. Neither Go nor netrev is needed. With one processor, the seconds are processor time; with more, elapsed time. The time includes making
the script from the recording and ends when all schedules have run, as for `explore`.
"""

import argparse
import gc
import json
import sys
import time
from collections.abc import Iterator
from pathlib import Path

from dev.fuzz.generators.injections import Traffic
from netrev.explore.script import script_of
from netrev.explore.search import Search
from netrev.explore.workers import Share, run_all
from netrev.machine.machine import World
from netrev.machine.steps import apply
from netrev.recording.recording import Recording
from netrev.text.contents import Limits
from netrev.text.vocabulary import KINDS
from netrev.text.writer import line_of

from .explored import read

ROOT = Path(__file__).resolve().parents[3]
HUNT = ROOT / "examples/hunts/blocked-control.jsonl"
SEEDS, LENGTH = (720, 721, 722), 2_000


def answered(recording: Recording) -> Recording:
    """A recording with the model's answers."""
    if recording.has_answers:
        return recording
    world = World(Limits(*(recording.limits[key] for key in Limits._fields)))
    lines = [json.dumps({**recording.limits, "netrev": 2})]
    for kind, *rest in recording.arrays():
        forms = KINDS[kind].arguments
        step = (
            kind,
            *(bytes.fromhex(argument) if form == "bytes" else argument for form, argument in zip(forms, rest)),
        )
        world, answer = apply(world, step)
        lines.append(line_of(step, answer))
    result = Recording("".join(f"{line}\n" for line in lines).encode())
    result.lines = recording.lines
    return result


def recordings(paths: list[Path]) -> Iterator[tuple[str, Recording]]:
    """The recordings to explore, by name."""
    for path in paths or [HUNT]:
        yield path.stem, answered(read(path))
    for seed in () if paths else SEEDS:
        yield f"traffic, seed {seed}", answered(Recording(Traffic(seed, None, LENGTH).run().text()))


def pace(recording: Recording, most: int, processors: int) -> tuple[int, int, float]:
    """The number of schedules and of findings, and the seconds."""
    now = time.process_time if processors == 1 else time.perf_counter
    begun = now()
    script = script_of(recording)
    search = Search(script, recording.lines.words)
    run_all(search, Share(script, recording.lines, most, 0, processors), lambda: None)
    return search.tried, len(search.found), now() - begun


def main() -> int:
    parser = argparse.ArgumentParser(description=__doc__, formatter_class=argparse.RawDescriptionHelpFormatter)
    parser.add_argument("--schedules", type=int, default=3_000)
    parser.add_argument("--processors", default="1,4")
    parser.add_argument("recordings", nargs="*", type=Path, metavar="RECORDING")
    options = parser.parse_args()
    counts = [int(count) for count in options.processors.split(",")]
    gc.disable()
    print(f"| Recording | steps | schedules | findings | {' | '.join(f'a second on {count}' for count in counts)} |")
    print(f"|---|{'--:|' * (3 + len(counts))}")
    for name, recording in recordings(options.recordings):
        row = [pace(recording, options.schedules, count) for count in counts]
        schedules, found, _ = row[0]
        cells = " | ".join(f"{count / max(seconds, 0.001):,.0f}" for count, _, seconds in row)
        print(f"| {name} | {recording.length:,} | {schedules:,} | {found} | {cells} |", flush=True)
    return 0


if __name__ == "__main__":
    sys.exit(main())
