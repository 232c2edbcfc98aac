"""Runs the fuzzer, as `make fuzz` does:  python3 python dev.fuzz [--minutes M] [--cases N] [--seed S] [--of nrdb]

Runs random cases until M minutes have passed or N cases have run. Half of the time goes to cases for netrev and half to
sessions of nrdb, except that `--cases` runs no sessions; `--of` runs only one kind. Each case has a seed: `S-1`, `S-2`
and so on, or `S-nrdb-1` and so on for nrdb; `--case S-7` runs only that case. If netrev's output differs from the
model's, the case is kept in `out/fuzz/S-7/`, reduced to the lines that still show the difference, with netrev's output
(`told`) and the model's (`wanted`); `--again out/fuzz/S-7` runs it again. The program is $NETREV, or else the built
netrev. The status is 1 if there was a difference.
"""

import argparse
import os
import sys
import tempfile
import time
from collections.abc import Iterator, Sequence
from pathlib import Path

from .cases import Case, make
from .counts import Met
from .kept_cases import keep, kept
from .nrdb_sessions import visit
from .runs import difference, first_difference

ROOT = Path(__file__).resolve().parents[3]
MOST_DIFFERENCES = 10
OF_NRDB = "-nrdb"


def arguments(words: Sequence[str] | None) -> argparse.Namespace:
    parser = argparse.ArgumentParser(
        prog="fuzz", description="runs random cases with netrev and its model, and compares the outputs"
    )
    parser.add_argument("--minutes", type=float, default=5)
    parser.add_argument("--cases", type=int, help="the greatest number of cases")
    parser.add_argument("--seed", default="")
    parser.add_argument("--of", choices=("netrev", "nrdb"), help="runs only cases for this program")
    parser.add_argument("--case", metavar="SEED", help="runs this case")
    parser.add_argument("--again", type=Path, metavar="FOLDER", help="runs the case in this folder again")
    return parser.parse_args(words)


def play_one(netrev: str, case: Case, counts: Met) -> bool:
    """Runs one case and prints the result. Returns whether netrev and the model differed."""
    with tempfile.TemporaryDirectory() as folder:
        differs = difference(netrev, case, Path(folder), counts)
    print(f"{case.seed} ({case.sort}): {first_difference(*differs) if differs else 'no difference'}")
    return bool(differs)


def seeds(seed: str, most: int | None) -> Iterator[str]:
    """The seeds of cases: this many, or an endless sequence."""
    number = 0
    while most is None or number < most:
        number += 1
        yield f"{seed}-{number}"


def case_of(seed: str) -> Case:
    """The case of a seed; for a seed such as `7-nrdb-1`, it is a session of nrdb."""
    return visit(seed) if seed.rpartition("-")[0].endswith(OF_NRDB) else make(seed)


def wanted_seeds(seed: str, cases: int | None, of: str) -> Iterator[str]:
    """The seeds to run, for the chosen program. If no program is chosen, a number of cases means netrev; without a
    number, the seeds never end, and both programs get the same time."""
    of_netrev, of_nrdb = seeds(seed, cases), seeds(f"{seed}{OF_NRDB}", cases)
    return of_nrdb if of == "nrdb" else of_netrev if of or cases else by_turns(of_netrev, of_nrdb)


def by_turns(*ways: Iterator[str]) -> Iterator[str]:
    """Endless seeds of several kinds; each kind gets the same time."""
    spent = dict.fromkeys(range(len(ways)), 0.0)
    while True:
        least = min(spent, key=lambda way: spent[way])
        begun = time.monotonic()
        yield next(ways[least])
        spent[least] += time.monotonic() - begun


def play(
    netrev: str,
    seed: str,
    counts: Met,
    minutes: float = 5,
    cases: int | None = None,
    out: Path = ROOT / "out/fuzz",
    of: str = "",
) -> int:
    """Runs cases, keeps each case that differs, and returns how many cases differed."""
    until, found = time.monotonic() + 60 * minutes, 0
    with tempfile.TemporaryDirectory() as name:
        for case in map(case_of, wanted_seeds(seed, cases, of)):
            if time.monotonic() > until or found == MOST_DIFFERENCES:
                break
            counts.cases[case.sort] += 1
            try:
                differs = difference(netrev, case, Path(name), counts)
            except Exception:
                print(f"{case.seed} ({case.sort}): the fuzzer itself failed", flush=True)
                raise
            if differs:
                found += 1
                where = out / case.seed
                print(f"{case.seed} ({case.sort}): {keep(netrev, case, differs, where)}")
                print(f"    again: python3 python dev.fuzz --again {where}", flush=True)
    return found


def main(words: Sequence[str] | None = None) -> int:
    options = arguments(words)
    netrev = os.environ.get("NETREV") or str(ROOT / "crates/netrev/out/netrev")
    if not Path(netrev).is_file():
        print(f"no program at {netrev}: `make netrev` builds it, or NETREV names another", file=sys.stderr)
        return 2
    counts = Met()
    if options.again or options.case:
        return int(play_one(netrev, kept(options.again) if options.again else case_of(options.case), counts))
    seed = options.seed or f"{time.time_ns() // 1_000_000}"
    print(f"seed {seed}, {options.minutes:g} minutes", flush=True)
    found = play(netrev, seed, counts, options.minutes, options.cases, of=options.of or "")
    print("\n".join(counts.lines()))
    commands, steps = sum(counts.commands.values()), sum(counts.answers.values())
    print(f"{sum(counts.cases.values())} cases, {steps} steps, {commands} lines that ask: {found} differences")
    return int(found > 0)


if __name__ == "__main__":
    sys.exit(main())
