"""The notes about cells equal the changes: a reader that examines only the cells that a step may have changed misses
none. The pauses equal those that are found by examining each step alone."""

import random
from collections import defaultdict
from collections.abc import Callable, Iterator, Sequence
from typing import Any

import pytest

from dev.fuzz.generators.random_steps import Author
from netrev.recording.notes import MANY
from netrev.run.calls import Book
from netrev.run.changes import PlayedSteps
from netrev.run.notes import Notes
from netrev.text.vocabulary import KINDS, OF_A_GOROUTINE

SEEDS = range(200)
STEPS = 400
NUMBERS = (("lock", "locks"), ("in", "inputs"), ("out", "outputs"))


def test_all_that_the_notes_keep_is_what_the_changes_say() -> None:
    compared = 0
    for seed in SEEDS:
        recording, worlds = Author(random.Random(f"notes {seed}")).recording(STEPS)
        notes = Book(PlayedSteps(recording.steps)).notes
        for cell, kept in kept_of(notes, len(worlds[-1].goroutines)):
            assert (cell, kept) == (cell, notes.changes.value(cell, len(recording.steps))), seed
            compared += 1
    assert compared > 2_500


def test_each_place_has_the_pauses_of_all_steps(monkeypatch: pytest.MonkeyPatch) -> None:
    many = few = 0
    for seed in SEEDS:
        recording, _ = Author(random.Random(f"pauses {seed}")).recording(STEPS)
        behind = Behind()
        with monkeypatch.context() as patch:
            patch.setattr("netrev.recording.step_changes.WINDOW", 2 ** (seed % 14))
            notes = Notes(PlayedSteps(recording.steps), {kind: behind.made for kind in KINDS})
            pauses = behind.pauses(recording.steps)
            found = {place: (known.count, known.longest) for place, known in notes.pauses.items() if known.count}
            assert found.keys() == pauses.keys(), seed
            for place, each in pauses.items():
                count, longest = found[place]
                assert (min(count, MANY), longest) == (min(len(each), MANY), max(each)), place
                many, few = many + (len(each) >= MANY), few + (len(each) < MANY)
    assert many > 200
    assert few > 100


class Behind:
    """For each goroutine, after each step: its place, the step that brought it there, and whether it has a
    reference."""

    def __init__(self) -> None:
        self.steps: list[dict[int, tuple[str, int, bool]]] = [{}]

    def made(self, notes: Notes, *_: Any) -> Callable[[int], None]:
        def look(step: int) -> None:
            self.steps.append({g: (item.status, item.since, item.held > 0) for g, item in notes.goroutines.items()})

        return look

    def pauses(self, steps: Sequence[tuple[Any, ...]]) -> dict[str, list[int]]:
        """The pauses that ended at each place and during which a goroutine could have continued."""
        found: dict[str, list[int]] = defaultdict(list)
        lasts: dict[int, int] = defaultdict(int)
        for number, (kind, *arguments) in enumerate(steps, 1):
            if kind not in OF_A_GOROUTINE:
                continue
            g = arguments[0]
            status, since, holds = self.steps[number - 1].get(g, ("idle", 0, False))
            if status != "idle" or holds:
                found[status.partition(" ")[0]].append(number - max(since, lasts[g]))
            lasts[g] = number
        return found


def kept_of(notes: Notes, goroutines: int) -> Iterator[tuple[str, str]]:
    """Each cell that the notes store, and its value according to them."""
    for g in range(goroutines):
        yield f"gor {g}", notes.goroutines[g].status
    for name, kept in NUMBERS:
        for number, value in getattr(notes, kept).items():
            yield f"{name} {number}", str(value)
    for d in notes.use_of:
        yield f"fdseq {d}", str(notes.tags[d])
        yield f"info {d}", str(notes.infos[d])
    yield "clock", str(notes.clock)
