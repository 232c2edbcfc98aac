"""The command `mutants.py around`: chooses mutants, tries them and prints a table of the survivors."""

from __future__ import annotations

import argparse
import json
import os
import random
import sys
import tempfile
from collections import Counter
from pathlib import Path

from . import equivalent
from .changes import KINDS, Mutant
from .topics import MOST, note_calls, read_topics

from .trials import FOUND, PACKAGES, ROOT, UNBUILT, Verdict, all_mutants, drawn, python_with_pytest, tried  # fmt: skip

KEPT = ROOT / "out/mutants"
NOTES = KEPT / "called.jsonl"
USAGE = """scripts/mutants.py around [--seed N] [--count N] [--jobs N] [--seconds N] [--again] [--list] [FILE ..]

Tries mutants of nrdb, netrev.run.flow and netrev_go, or of the files and folders named: --count of them, drawn by --seed. Each is
tried in a copy of the repository against --seconds of the tests that call the function which it changes, the quickest first; what
each test calls is noted in out/mutants/called.jsonl, anew for a file of tests that has changed. What survives is printed as a table, and each
verdict is kept in out/mutants; with --again those that weren't found by a seed are tried again. scripts/mutating/equivalent.txt has mutants that change
nothing that a user sees, with the reasons; they aren't drawn.

NETREV names the netrev that tests run. The status is 0 if at least --least of 100 mutants are found."""


def arguments(words: list[str]) -> argparse.Namespace:
    parser = argparse.ArgumentParser(prog="mutants.py around", usage=USAGE)
    parser.add_argument("--seed", type=int, default=random.randrange(10**6))
    parser.add_argument("--count", type=int, default=200)
    parser.add_argument("--jobs", type=int, default=2)
    parser.add_argument("--seconds", type=float, default=MOST)
    parser.add_argument("--least", type=int, default=90)
    parser.add_argument("--again", action="store_true")
    parser.add_argument("--list", action="store_true")
    parser.add_argument("files", nargs="*", metavar="FILE")
    return parser.parse_args(words)


def table(verdicts: list[Verdict]) -> str:
    """The mutants that survived, and how many mutants of each kind were found."""
    lines = ["| Mutant | Kind | Change | Verdict |", "|---|---|---|---|"]
    for verdict in sorted(verdicts, key=lambda verdict: (verdict.mutant.file, verdict.mutant.line)):
        if verdict.answer not in (FOUND, UNBUILT):
            mutant = verdict.mutant
            change = f"`{' '.join(mutant.old.split())[:70]}` to `{' '.join(mutant.new.split())[:70]}`".replace(
                "|", "\\|"
            )
            lines.append(
                f"| {mutant.file}:{mutant.line} {mutant.function} | {mutant.kind} | {change} | {verdict.answer} |"
            )
    counts = Counter(
        (verdict.mutant.kind, verdict.answer == FOUND) for verdict in verdicts if verdict.answer != UNBUILT
    )
    lines += ["", "| Kind | Tried | Found |", "|---|---|---|"]
    for kind in KINDS:
        found = counts[kind, True]
        lines.append(f"| {kind} | {found + counts[kind, False]} | {found} |")
    return "\n".join(lines)


def not_found(mutants: list[Mutant], log: Path) -> list[Mutant]:
    """The mutants that weren't found when they were last tried."""
    answers = {name: answer for answer, name, *_ in map(json.loads, log.read_text(encoding="utf-8").splitlines())}
    return [mutant for mutant in mutants if answers.get(mutant.name(), FOUND) not in (FOUND, UNBUILT)]


def main(words: list[str]) -> int:
    given = arguments(words)
    known = equivalent.read()
    parts = [os.path.relpath(Path(file).absolute(), ROOT) for file in given.files] or PACKAGES
    mutants = [mutant for mutant in all_mutants(ROOT, parts) if mutant.name() not in known]
    log = KEPT / f"{given.seed}.jsonl"
    chosen = not_found(mutants, log) if given.again else drawn(mutants, given.count, given.seed)
    print(f"seed {given.seed}: {len(chosen)} of {len(mutants)} mutants", flush=True)
    if given.list:
        for mutant in chosen:
            print(f"{mutant.file}:{mutant.line}: {mutant.kind}: {mutant.name()}")
        return 0
    python = python_with_pytest()
    note_calls(ROOT, NOTES, python)
    topics = read_topics(NOTES, given.seconds)
    with tempfile.TemporaryDirectory(prefix="mutants-", ignore_cleanup_errors=True) as name:
        room = Path(name)
        verdicts = []
        KEPT.mkdir(parents=True, exist_ok=True)
        with open(log, "a", encoding="utf-8") as kept:
            for verdict in tried(chosen, topics, room, given.jobs, python):
                verdicts.append(verdict)
                row = (
                    verdict.answer,
                    verdict.mutant.name(),
                    verdict.mutant.line,
                    verdict.mutant.kind,
                    verdict.by,
                    round(verdict.seconds, 1),
                )
                print(json.dumps(row), file=kept, flush=True)
                print(
                    f"{verdict.answer}: {verdict.mutant.file}:{verdict.mutant.line} {verdict.by} ({verdict.seconds:.0f} s)",
                    flush=True,
                )
    print(table(verdicts))
    found = sum(verdict.answer == FOUND for verdict in verdicts)
    total = sum(verdict.answer != UNBUILT for verdict in verdicts)
    print(f"\nseed {given.seed}: {found} of {total} mutants found")
    return 0 if total and 100 * found >= given.least * total else 1


if __name__ == "__main__":
    sys.exit(main(sys.argv[1:]))
