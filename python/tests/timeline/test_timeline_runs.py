"""The timeline's values of each cell and queue equal the model's at each position, in random recordings."""

import random

from dev.fuzz.generators.random_steps import Author
from netrev.connection.scout import Scout
from netrev.machine.cells import CELLS_OF_ALL, SHOWS_DESC, SHOWS_GOROUTINE, SHOWS_SOCKET, dumped, value
from netrev.machine.machine import World
from netrev.machine.observer import Observer
from netrev.model.program import replay
from netrev.model.session import recording_of
from netrev.recording.recording import Recording
from netrev.system.interrupts import Interrupts
from netrev.text.writer import write_plain
from netrev.timeline.cell_runs import QUEUES, Window, runs_of, value_at
from tests.support.model_sessions import Modelled, changes_in

SEEDS, STEPS = range(12), 150


def shown(world: World) -> dict[str, str]:
    """The values of all cells and queues of a state."""
    cells = {name: str(value(world, name)) for name in CELLS_OF_ALL}
    for shows, objects in (
        (SHOWS_GOROUTINE, world.goroutines),
        (SHOWS_SOCKET, world.sockets),
        (SHOWS_DESC, world.descs),
    ):
        cells |= {f"{name} {at}": str(value(world, name, at)) for at in range(len(objects)) for name in shows}
    return cells | {f"{name} {at}": dumped(world, name, at) for at in range(len(world.sockets)) for name in QUEUES}


def test_runs_are_what_the_model_shows() -> None:
    queued = 0
    for seed in SEEDS:
        steps, _ = Author(random.Random(f"runs-{seed}")).recording(STEPS)
        text = write_plain(steps)
        replayed = replay(text, Observer())
        model = recording_of(replayed.text.steps, replayed.worlds)
        scout, changes = Scout(lambda: Modelled(model, Interrupts(), lambda _: None)), changes_in(text)
        length = len(replayed.worlds) - 1
        for window in (Window(0, length), Window(length // 3, length // 2), Window(length, length)):
            runs, _ = runs_of(Recording(text), scout, changes, window)
            for position in range(window.first, window.last + 1):
                right = dict.fromkeys(runs, "absent") | shown(replayed.worlds[position])
                assert {cell: value_at(run, position) for cell, run in runs.items()} == right
            assert all(left[1] != right[1] for run in runs.values() for left, right in zip(run, run[1:]))
            queued += sum(len(run) > 2 for cell, run in runs.items() if cell.startswith(QUEUES))
    assert queued > 5
