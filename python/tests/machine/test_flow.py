"""The table of Go's control flow, compared with the machine: in random recordings, each step has the consequence that
its row names."""

import random
from collections.abc import Iterator

import pytest

from dev.fuzz.generators.random_steps import Author
from netrev.machine.machine import IDLE, StepRefusedError, World
from netrev.machine.steps import apply
from netrev.run.flow import (
    ANSWERS,
    ASLEEP,
    BY_STATUS,
    NAMES,
    SORTS,
    Consequence,
    OperationType,
    came,
    first_step,
    step_by_status,
)
from netrev.text.contents import Answer, Step
from netrev.text.vocabulary import KINDS, OF_A_GOROUTINE

NOT_THERE = 2  # the number of the reason that the goroutine isn't at that place
BEHIND = {  # the statuses that a goroutine may have after a step, by its answer
    Consequence.OVER: ("idle", "owing", "gone"),
    Consequence.FAILS: ("idle",),
    Consequence.READY: ("idle",),
    Consequence.STAYS: (*BY_STATUS, *ASLEEP),
    Consequence.WAITS: ("idle", "entering"),
}
Made = tuple[World, Step, Answer, World]


def made(seed: int) -> Iterator[Made]:
    """The steps of goroutines in a random recording: each with the state before it, its answer, and the state after
    it."""
    dice = random.Random(seed)
    recording, worlds = Author(dice, 0, 2).recording(400)
    for step, answer, before, behind in zip(recording.steps, recording.answers, worlds, worlds[1:]):
        if step[0] in OF_A_GOROUTINE and answer:
            yield before, step, answer, behind


@pytest.mark.parametrize("seed", range(40))
def test_each_answer_leads_to_what_its_row_says(seed: int) -> None:
    for _, (kind, g, *_), answer, behind in made(seed):
        assert behind.goroutines[g][0] in BEHIND[came(kind, answer)], (kind, answer)


@pytest.mark.parametrize("seed", range(20))
def test_who_is_in_an_operation_makes_the_step_of_its_status_and_no_other(seed: int) -> None:
    for world, (_, g, *_), _, _ in made(seed):
        status = world.goroutines[g]
        step = step_by_status(g, status)
        assert (step is None) == (status == IDLE)
        if step is not None:
            apply(world, step)
            others = [
                first_step(sort, g, 0, "r", ())
                for sort in OperationType
                if NAMES[sort].of == "d" and sort is not OperationType.SET
            ]
            for other in others:
                with pytest.raises(StepRefusedError) as refused:
                    apply(world, other)
                assert refused.value.reason == NOT_THERE


def test_all_rows_are_met() -> None:
    rows = {(kind, came(kind, answer)) for seed in range(60) for _, (kind, *_), answer, _ in made(seed)}
    assert {(kind, row) for kind, answers in ANSWERS.items() for row in answers.values()} <= rows
    assert {kind for kind, _ in rows} == {kind for kind in OF_A_GOROUTINE}


def test_rows_have_the_answers_that_their_kinds_can_have() -> None:
    for kind, answers in ANSWERS.items():
        assert {answer.removesuffix(" 0") for answer in answers} <= {*KINDS[kind].answers, "yes", "no", "wait"}
    assert set(SORTS) | set(BY_STATUS.values()) | {"spawn"} >= set(OF_A_GOROUTINE)


def test_a_first_step_names_what_its_kind_does() -> None:
    assert first_step(OperationType.SET, 3, 1, "rw", (5,)) == ("setdeadline", 3, 1, "rw", 5)
    assert first_step(OperationType.READ, 3, 1, "r", (16,)) == ("sysread", 3, 1, 16)
    assert first_step(OperationType.UNLOCK, 3, 1, "w", ()) == ("rwunlock", 3, 1, "w")
    assert first_step(OperationType.MAKE, 3, 1, "", (4, 4)) == ("sockopen", 4, 4) and first_step(
        OperationType.EXIT, 3, 1, "", ()
    ) == (
        "exit",
        3,
    )
    assert (
        step_by_status(2, ("relock", 1, "w")) == ("rwlock", 2, 1, "w") and step_by_status(2, ("parked", 0, "r")) is None
    )
