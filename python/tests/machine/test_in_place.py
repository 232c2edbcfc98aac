"""The in-place machine equals the model in random recordings: its states, answers and refusals, also when it undoes
each step, and the cells that each step changed."""

import random
from typing import Any

import pytest

from dev.fuzz.generators.random_steps import Author
from netrev.machine.cells import CELLS_OF_ALL, CELLS_OF_ONE, SHOWS_DESC, SHOWS_SOCKET, dumped, value
from netrev.machine.in_place import Machine
from netrev.machine.machine import GREATEST_SEQUENCE, StepRefusedError, World
from netrev.machine.steps import apply
from netrev.model.step_changes import SHOWS_QUEUES, changed_cells
from netrev.text.contents import Limits
from netrev.text.vocabulary import CELLS, KINDS

SEEDS, STEPS = range(60), 150
MOST_WILD = 0.3  # the fraction of wild steps; the machine refuses most of these


def shown(world: World) -> dict[str, object]:
    """The values of all cells and queues of a state."""
    cells: dict[str, object] = {name: value(world, name) for name in CELLS_OF_ALL}
    for name in CELLS_OF_ONE:
        made: tuple[Any, ...] = world.goroutines
        made = world.sockets if name in SHOWS_SOCKET else world.descs if name in SHOWS_DESC else made
        cells |= {f"{name} {at}": value(world, name, at) for at in range(len(made))}
    return cells | {
        f"{name} {at}": dumped(world, name, at) for name in SHOWS_QUEUES for at in range(len(world.sockets))
    }


def in_order(cells: set[str]) -> list[str]:
    """Cells in the order of docs/reference/COMMANDS.md, followed by the queues."""
    names = [*CELLS, *SHOWS_QUEUES]
    return sorted(cells, key=lambda cell: (names.index(cell.split()[0]), int(cell.partition(" ")[2] or 0)))


def made(machine: Machine, world: World, step: tuple[Any, ...]) -> World:
    """Checks that both machines make a step, or refuse it for the same reason, and are equal afterwards; returns the
    state after it."""
    try:
        after, answer = apply(world, step)
    except StepRefusedError as refused:
        with pytest.raises(StepRefusedError) as caught:
            machine.step(step)
        assert caught.value.reason == refused.reason
        after = world
    else:
        assert machine.step(step) == answer
    assert machine.world() == after
    return after


def test_steps_refusals_and_ways_back_are_the_models() -> None:
    coverage, refused = set(), set()
    for seed in SEEDS:
        author = Author(random.Random(f"in place {seed}"), wild=MOST_WILD if seed % 2 else 0.03)
        world, machine = World(author.limits), Machine(author.limits, None)
        way, steps = list[World](), list[tuple[Any, ...]]()
        for _ in range(STEPS):
            step = author.step(world)
            after = made(machine, world, step)
            if after is world and len(machine.steps) == len(way):
                refused.add(step[0])
                continue
            coverage.add(step[0])
            way.append(world)
            steps.append(step)
            world = after
        for before in reversed(way):
            assert machine.undo()
            assert machine.world() == before
        assert not machine.undo()
        for before, step in zip(way, steps):
            assert machine.world() == before
            machine.step(step)
        assert machine.world() == world
    assert coverage == set(KINDS)
    assert len(refused) > len(KINDS) - 2


def test_the_changed_cells_are_those_that_show_something_else() -> None:
    for seed in SEEDS:
        recording, worlds = Author(random.Random(f"changed {seed}")).recording(STEPS)
        machine = Machine(recording.limits)
        for step, old, new in zip(recording.steps, worlds, worlds[1:]):
            machine.step(step)
            was, now = shown(old), shown(new)
            changed = in_order({cell for cell in now if was.get(cell) != now[cell]})
            assert changed_cells(machine, with_queues=True) == changed, (seed, step)
            plain = [cell for cell in changed if cell.split()[0] in CELLS]
            assert changed_cells(machine) == plain


def test_a_step_that_is_refused_on_its_way_leaves_nothing() -> None:
    machine = Machine(Limits(1, 1, 1, 1))
    for step in (("sockopen", 1, 1), ("pollopen", 0, 0)):
        machine.step(step)
    machine.next_number = GREATEST_SEQUENCE
    before = machine.world()
    made(machine, before, ("setdeadline", 0, 0, "rw", 5))
    assert changed_cells(machine)[0] == "rg 0"


def test_so_many_steps_are_undone_as_are_remembered() -> None:
    machine = Machine(Limits(9, 1, 1, 1), remembers=2)
    for _ in range(4):
        machine.step(("spawn",))
    assert [machine.undo(), machine.undo(), machine.undo()] == [True, True, False]
    assert len(machine.goroutines) == 3


def test_a_refused_step_leaves_what_the_step_before_changed() -> None:
    machine = Machine(Limits(2, 1, 1, 1))
    machine.step(("spawn",))
    with pytest.raises(StepRefusedError):
        machine.step(("spawn",))
    assert changed_cells(machine) == ["gor 1"]
