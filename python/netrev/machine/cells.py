"""The output of `print` and `dump` for a state, as docs/reference/COMMANDS.md defines it."""

from collections.abc import Callable
from typing import Any

from .machine import Word, World, at
from .polling import summary

Shows = dict[str, Callable[[Any], object]]

SHOWS_ALL: Shows = {
    "clock": lambda world: world.clock,
    "waiters": lambda world: world.waiters,
    "timers": lambda world: len(world.timers),
    "firings": lambda world: len(world.firings),
    "least": lambda world: world.timers[0].when if world.timers else "absent",
}
SHOWS_GOROUTINE: Shows = {"gor": lambda status: " ".join(map(str, status))}
SHOWS_SOCKET: Shows = {
    "lock": lambda socket: socket.lock.number,
    "rsem": lambda socket: socket.counts[0],
    "wsem": lambda socket: socket.counts[1],
    "in": lambda socket: len(socket.buffers[0]),
    "out": lambda socket: len(socket.buffers[1]),
    "shut": lambda socket: int(socket.shut),
}
SHOWS_DESC: Shows = {
    "rg": lambda desc: word(desc.words[0]),
    "wg": lambda desc: word(desc.words[1]),
    "rd": lambda desc: desc.deadlines[0],
    "wd": lambda desc: desc.deadlines[1],
    "rseq": lambda desc: desc.sequences[0],
    "wseq": lambda desc: desc.sequences[1],
    "fdseq": lambda desc: desc.fdseq,
    "info": summary,
}
CELLS_OF_ALL = tuple(SHOWS_ALL)
CELLS_OF_ONE = (*SHOWS_GOROUTINE, *SHOWS_SOCKET, *SHOWS_DESC)


def word(held: Word) -> str:
    return f"g{held}" if isinstance(held, int) else held


def value(world: World, name: str, number: int | None = None) -> object:
    """The value of a cell, as it is printed."""
    if name in SHOWS_ALL:
        return SHOWS_ALL[name](world)
    assert number is not None
    objects: tuple[Any, ...]
    for shows, objects in (
        (SHOWS_GOROUTINE, world.goroutines),
        (SHOWS_SOCKET, world.sockets),
        (SHOWS_DESC, world.descs),
    ):
        if name in shows:
            return shows[name](objects[number]) if number < len(objects) else "absent"
    raise KeyError(name)


def dumped(world: World, name: str, s: int) -> str:
    """The contents for a dump: the bytes of a buffer, or the goroutines in a queue."""
    if s >= len(world.sockets):
        return "absent"
    socket = world.sockets[s]
    if name in ("in", "out"):
        return socket.buffers[name == "out"].hex() or "-"
    return " ".join(map(str, socket.queues[at(name[0])])) or "-"


def look(world: World, query: str) -> str:
    """The reply to a query: `print CELL` or `dump WHAT S`, with single spaces."""
    verb, name, *rest = query.split()
    numbers = [int(number) for number in rest]
    shown = value(world, name, *numbers) if verb == "print" else dumped(world, name, numbers[0])
    return f"{' '.join((name, *map(str, numbers)))} = {shown}"
