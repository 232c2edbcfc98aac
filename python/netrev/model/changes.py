"""The output of `netrev changes` for a recording, computed by the model: the cells that each step changed."""

from typing import cast

from netrev.machine.cells import value
from netrev.machine.in_place import Machine
from netrev.machine.machine import World
from netrev.machine.observer import Observer
from netrev.machine.replay import answers
from netrev.text.parser import FaultError, read_text

from .step_changes import changed_cells


def lines_of(machine: Machine, number: int) -> list[str]:
    """A line for each cell that the last step changed; the step has this number."""
    return [f"{number} {change}" for change in _of_last_step(machine)]


def undone(machine: Machine) -> list[list[str]]:
    """Undoes all steps that the machine stores, and returns the changes of each of them: `lock 0 = 8`."""
    changes: list[list[str]] = []
    while machine.steps:
        changes.append(_of_last_step(machine))
        machine.undo()
    return changes[::-1]


def _of_last_step(machine: Machine) -> list[str]:
    """The cells that the last step changed, with their new values."""
    return [f"{cell} = {_shown(machine, cell)}" for cell in changed_cells(machine)]


def _shown(machine: Machine, cell: str) -> object:
    name, *number = cell.split()
    return value(cast(World, machine), name, *map(int, number))  # (it can be read like a World)


def changes(recording: bytes, observer: Observer) -> tuple[list[str], bool]:
    """The lines of all steps and the final line, and whether the recording is free of faults. Raises
    DoubtfulNumberError if the model can't decide."""
    lines: list[str] = []
    try:
        text = read_text(recording)
        machine = Machine(text.limits)
        for number, _ in enumerate(answers(text, observer, machine.step), 1):
            lines += lines_of(machine, number)
    except FaultError as fault:
        observer.printed(str(fault))
        return [*lines, str(fault)], False
    return [*lines, f"ok {len(text.steps)} steps"], True
