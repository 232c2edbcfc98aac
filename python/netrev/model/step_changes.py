"""The cells that the last step of an in-place machine changed, found in the machine's record of the step."""

from typing import Any, NamedTuple

from netrev.machine.cells import SHOWS_ALL, SHOWS_DESC, SHOWS_GOROUTINE, SHOWS_SOCKET, Shows
from netrev.machine.in_place import WHOLE, Machine
from netrev.machine.machine import Timer

# the lists of queues, as `dump` prints them
SHOWS_QUEUES: Shows = {"rq": lambda socket: socket.queues[0], "wq": lambda socket: socket.queues[1]}
# (no step changes cells of both a socket and a descriptor, so `shut` comes last)
OF_MANY: dict[str, Shows] = {"goroutines": SHOWS_GOROUTINE, "sockets": SHOWS_SOCKET, "descs": SHOWS_DESC}


class MachineBefore(NamedTuple):
    """The values, before the step, of the cells of the whole machine."""

    clock: int
    waiters: int
    timers: tuple[Timer, ...]
    firings: tuple[Timer, ...]


def changed_cells(machine: Machine, with_queues: bool = False) -> list[str]:
    """The cells that the last step changed, in the order of docs/reference/COMMANDS.md, and by number within a name. If
    `with_queues` is true, the changed lists of `dump rq` and `dump wq` follow."""
    whole: dict[str, Any] = {}
    first: dict[str, dict[int, Any]] = {}  # the values before the step
    for of, place, old in machine.changes:
        if place == WHOLE:
            whole.setdefault(of, old)
        else:
            first.setdefault(of, {}).setdefault(place, old)
    cells = _of_all(machine, whole) if whole else []
    for of, shows in OF_MANY.items():
        if of in first:
            cells += _of_many(getattr(machine, of), first[of], shows)
    return cells + _of_many(machine.sockets, first.get("sockets", {}), SHOWS_QUEUES) if with_queues else cells


def _of_all(machine: Machine, whole: dict[str, Any]) -> list[str]:
    """The cells of the whole machine."""
    before = MachineBefore(*(whole.get(name, getattr(machine, name)) for name in MachineBefore._fields))
    return [name for name, shows in SHOWS_ALL.items() if shows(before) != shows(machine)]


def _of_many(now: list[Any], before: dict[int, Any], shows: Shows) -> list[str]:
    """The cells of the goroutines, sockets or descriptors that were changed or made."""
    return [
        f"{name} {place}"
        for name, show in shows.items()
        for place in sorted(before)
        if before[place] is None or show(before[place]) != show(now[place])
    ]
