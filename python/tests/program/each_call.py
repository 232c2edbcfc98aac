"""Tests each call that allocates memory, and refuses its requests for memory one after the other.

The program is crates/nr_refused, or the program that NR_REFUSED names. It makes the given call, and
then repeats it, with no request refused. scripts/refused.c, loaded before the C library, refuses requests. In the first
run, the first request of the first call is refused; in the next run, the second request is refused; and so on until no
request is left. Then each request is refused together with all later ones. The program compares the results of both
calls with the right answer and, after a refusal, compares the values that must stay unchanged. A call whose request is
refused must either report that or return the right result, and must return the right result when it is repeated. A call
that gets no memory at all must report that, unless it needs none.

Each test prints how many requests its call makes, and how many of them it could do without; `pytest -rP` shows this.
"""

import os
import subprocess
import tempfile
from dataclasses import dataclass
from pathlib import Path

import pytest

from .support.sharing import ROOT, WrongResultError, is_program, library_of

PROGRAM = os.path.abspath(os.environ.get("NR_REFUSED", ROOT / "crates/nr_refused/out/nr_refused"))
PATIENCE = 60  # seconds
RIGHT, REFUSED = "right", "refused, then right"

# calls that allocate no memory
WITHOUT = {"restored-in-place", "restored-in-place-plain", "goto-a-copy", "journal-split"}
# calls that themselves retry a refused line; they aren't tested with all later requests refused
LINES = {"six-lines"}
# calls with threads, whose number of requests varies
WITH_THREADS = {"search-forward-by-three", "search-backward-by-three", "serve-bytes"}
IN_A_ROW = 8

if not is_program(PROGRAM):
    UNBUILT = f"{PROGRAM} is no program: `make refused` builds it, and NR_REFUSED=FILE names another"
    pytest.skip(UNBUILT, allow_module_level=True)


@dataclass
class Tally:
    """The number of refused requests, and how many of these refusals the call reported."""

    refused: int = 0
    told: int = 0

    def add(self, other):
        self.refused += other.refused
        self.told += other.told


class Player:
    """Makes calls with a library that refuses memory."""

    def __init__(self, folder):
        self.library = library_of("refused", folder)
        self.told = folder / "told"

    def play(self, call, number, behind):
        """The result of a call, and whether one of its requests was refused."""
        words = {"LD_PRELOAD": str(self.library), "MARKED": "1", "REFUSED": str(number), "BEHIND": str(int(behind))}
        through = ["sh", "-c", 'exec "$@" 9> "$TOLD"', "sh", PROGRAM, call]
        process = subprocess.run(
            through,
            env={**os.environ, **words, "TOLD": str(self.told)},
            stdout=subprocess.PIPE,
            stderr=subprocess.PIPE,
            timeout=PATIENCE,
        )
        lines = process.stdout.decode().splitlines()
        last = lines[-1].removeprefix(f"{call}: ") if lines else ""
        if process.returncode or process.stderr or "grant" not in lines or last not in (RIGHT, REFUSED):
            raise WrongResultError(
                f"status {process.returncode}, {process.stdout.decode()!r} and {process.stderr.decode()!r}"
            )
        return last, self.told.stat().st_size > 0

    def refuse_each(self, call, behind):
        """Refuses each request of a call in turn, until none is left."""
        tally, number, clean = Tally(), 0, 0
        while clean < (IN_A_ROW if call in WITH_THREADS else 1):
            number += 1
            try:
                reply, was_refused = self.play(call, number, behind)
            except (WrongResultError, subprocess.TimeoutExpired) as wrong:
                kind = "and all behind it" if behind else "alone"
                raise WrongResultError(f"{call} with request {number} refused {kind}: {wrong}") from None
            if not was_refused and reply != RIGHT:
                raise WrongResultError(f"{call} said that it was refused, and nothing was")
            if behind and number == 1 and (reply == REFUSED) != (call not in WITHOUT):
                raise WrongResultError(f"{call} without any memory: {reply}")
            clean = 0 if was_refused else clean + 1
            tally.refused += was_refused
            tally.told += reply == REFUSED
        return tally


def calls():
    """The calls that the program has."""
    process = subprocess.run([PROGRAM], stdout=subprocess.PIPE, timeout=PATIENCE)
    names = process.stdout.decode().split()
    if process.returncode != 2 or not names:
        raise WrongResultError(f"{PROGRAM} says no calls")
    return names


@pytest.fixture(scope="module")
def player():
    with tempfile.TemporaryDirectory() as folder:
        yield Player(Path(folder))


@pytest.mark.parametrize("call", calls())
def test_each_request_refused(player, call):
    tally = player.refuse_each(call, behind=False)
    print(f"{call}: {tally.refused} requests")
    if call not in LINES:
        tally.add(player.refuse_each(call, behind=True))
    if (tally.told > 0) != (call not in WITHOUT):
        raise WrongResultError(f"{call} was refused memory {tally.told} times")
    print(f"refused {tally.refused} times, and said so {tally.told} times")
