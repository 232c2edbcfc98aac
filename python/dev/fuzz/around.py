"""Runs the fuzzer of the tools around netrev, as `make fuzz-around` does:  python3 python dev.fuzz.around [--of logs] [--minutes M]
[--cases N] [--seed S]

Runs random cases of each kind for the same time. The kinds are:

    logs       damaged logs of the recorder
    programs   logs of random programs, which must become complete recordings
    views      nrdb's views of recordings with any NAME.where
    editors    any request to the adapter
    browsers   any line for the page

A fault is a Python traceback (even if nrdb reports the error in a line), too much time or memory, an unexpected file, or
a terminal control. Each case has a seed, `S-logs-1` and so on; `--case S-logs-1` runs only that case. The program is
$NETREV, or else the built netrev. The status is 1 if there was a fault.
"""

import argparse
import io
import os
import shutil
import signal
import sys
import tempfile
import time
import traceback
from collections import Counter
from collections.abc import Callable, Iterator, Sequence
from contextlib import contextmanager, redirect_stderr
from pathlib import Path

from netrev.connection.errors import WANTED_BY

from . import browsers, damaged_logs, editors, side_files
from .generators import random_logs

ROOT = Path(__file__).resolve().parents[3]
PATIENCE = 120  # seconds for a case
MOST_FAULTS = 20

Judgement = Callable[[str, Path, str], str]
SORTS: dict[str, Judgement] = {
    "logs": lambda seed, folder, _: damaged_logs.wrong(seed, folder),
    "programs": random_logs.wrong_by,
    "views": side_files.wrong,
    "editors": editors.wrong,
    "browsers": browsers.wrong,
}


class CaseTimeoutError(BaseException):
    """Raised if a case takes too long. No exception handler of a case catches it."""


@contextmanager
def in_time() -> Iterator[None]:
    """In this context, CaseTimeoutError is raised after the time limit."""

    def end(*_: object) -> None:
        raise CaseTimeoutError

    before = signal.signal(signal.SIGALRM, end)
    signal.alarm(PATIENCE)
    try:
        yield
    finally:
        signal.alarm(0)
        signal.signal(signal.SIGALRM, before)


@contextmanager
def tracebacks() -> Iterator[io.StringIO]:
    """While this context lasts, nrdb prints its own errors to this stream, with their tracebacks. Otherwise it reports
    them in a line."""
    printed, before = io.StringIO(), os.environ.get(WANTED_BY)
    os.environ[WANTED_BY] = "1"
    try:
        with redirect_stderr(printed):
            yield printed
    finally:
        if before is None:
            del os.environ[WANTED_BY]
        else:
            os.environ[WANTED_BY] = before


def fault_of(seed: str, program: str) -> str:
    """The fault that a seed's case finds; empty if it finds none."""
    sort = seed.rsplit("-", 2)[1]
    folder = Path(tempfile.mkdtemp(prefix="netrev-fuzz-"))
    try:
        with in_time(), tracebacks() as printed:
            fault = SORTS[sort](seed, folder, program)
        return fault or (printed.getvalue() if "Traceback " in printed.getvalue() else "")
    except CaseTimeoutError:
        return f"it takes more than {PATIENCE} s"
    except Exception:
        return traceback.format_exc()
    finally:
        shutil.rmtree(folder, ignore_errors=True)


def seeds(seed: str, sorts: Sequence[str], cases: int | None, until: float) -> Iterator[str]:
    """The seeds to run: this many of each kind, or endless seeds until the time is up, with the same time for each
    kind."""
    spent, counts = dict.fromkeys(sorts, 0.0), Counter[str]()
    while time.monotonic() < until:
        left = [sort for sort in sorts if cases is None or counts[sort] < cases]
        if not left:
            return
        sort = min(left, key=lambda kind: spent[kind])
        counts[sort] += 1
        begun = time.monotonic()
        yield f"{seed}-{sort}-{counts[sort]}"
        spent[sort] += time.monotonic() - begun


def play(program: str, all_seeds: Iterator[str]) -> tuple[Counter[str], int]:
    """Runs cases and prints each fault; returns the number of cases of each kind, and the number of faults."""
    counts, found = Counter[str](), 0
    for seed in all_seeds:
        counts[seed.rsplit("-", 2)[1]] += 1
        if fault := fault_of(seed, program):
            found += 1
            print(f"{seed}: {fault.strip()}\n    again: python3 python dev.fuzz.around --case {seed}", flush=True)
        if found == MOST_FAULTS:
            break
    return counts, found


def main(words: Sequence[str] | None = None) -> int:
    parser = argparse.ArgumentParser(prog="fuzz around", description="runs random cases for the tools around netrev")
    parser.add_argument("--minutes", type=float, default=5)
    parser.add_argument("--cases", type=int, help="the greatest number of cases of each kind")
    parser.add_argument("--seed", default="")
    parser.add_argument("--of", choices=tuple(SORTS), action="append", help="runs only cases of this kind")
    parser.add_argument("--case", metavar="SEED", help="runs this case")
    options = parser.parse_args(words)
    program = os.environ.get("NETREV") or str(ROOT / "crates/netrev/out/netrev")
    if not Path(program).is_file():
        print(f"no program at {program}: `make netrev` builds it, or NETREV names another", file=sys.stderr)
        return 2
    seed = options.seed or f"{time.time_ns() // 1_000_000}"
    until = time.monotonic() + 60 * options.minutes
    print(f"seed {options.case or seed}", flush=True)
    counts, found = play(
        program, iter([options.case]) if options.case else seeds(seed, options.of or tuple(SORTS), options.cases, until)
    )
    print(f"{', '.join(f'{count} {sort}' for sort, count in sorted(counts.items()))}: {found} faults")
    return int(found > 0)


if __name__ == "__main__":
    sys.exit(main())
