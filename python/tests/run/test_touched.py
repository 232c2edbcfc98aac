"""The owners of the steps in a part of a recording, found from the part alone, equal those found from all steps."""

import random
from collections import Counter

from dev.fuzz.generators.injections import Bug, Traffic
from dev.fuzz.generators.random_steps import Author
from netrev.recording.recording import Recording
from netrev.run.changes import PlayedSteps
from netrev.run.index import run_of
from netrev.run.step_owners import NONE

SEEDS = range(40)
PARTS = 12


def recording_of(seed: int) -> Recording:
    """A random recording. Every fourth random recording has connections, whose goroutines wait for a long time."""
    if seed % 4 == 0:
        return Recording(Traffic(seed, list(Bug)[seed % len(Bug)], 600).run().text())
    return PlayedSteps(Author(random.Random(f"touched {seed}")).recording(300)[0].steps)


def test_a_part_alone_tells_whose_its_steps_are() -> None:
    seen = 0
    for seed in SEEDS:
        run, dice = run_of(recording_of(seed)), random.Random(seed)
        whose, length = run.owners, run.notes.step
        for _ in range(PARTS):
            first = dice.randint(0, length)
            last = dice.randint(first, length)
            steps = slice(max(first - 1, 0), last)
            pairs = Counter(zip(whose.goroutines[steps], whose.sockets[steps]))
            assert run.sockets_used(first, last) == {pair: many for pair, many in pairs.items() if pair[0] != NONE}
            seen += len(pairs)
    assert seen > 1_000
