"""`info sockets`, `info descriptors`, `info timers` and `info holders`: the values of each."""

from collections.abc import Iterable

from netrev.connection.output import Row, Table, Values
from netrev.connection.world import PositionValues
from netrev.recording.cell_meanings import SIDES, LockWord, info_words, lock_words
from netrev.run.index import run_of
from netrev.run.searches import Reference
from netrev.text.plurals import counted
from netrev.text.vocabulary import ObjectKind

SOCKET_CELLS = ("lock", "rsem", "wsem", "in", "out", "shut")
DESCRIPTOR_CELLS = ("info", "rg", "wg", "rd", "wd", "fdseq")


def sockets_table(world: PositionValues, numbers: Iterable[int] | None = None, is_all: bool = False) -> Table:
    """The table of the sockets that aren't at rest, of all sockets, or of the sockets with these numbers."""
    every = list(range(world.count(ObjectKind.SOCKET)) if numbers is None else numbers)
    cells = world.of_each(every, *SOCKET_CELLS)
    owners = {socket: descriptor for descriptor, socket in world.sockets_of_open().items()}
    rows = []
    for number in every:
        queues = [world.queue(dump, number) for dump in ("rq", "wq")]
        if is_all or numbers is not None or _has_meaning(cells[number], queues):
            rows.append(_socket_row(number, cells[number], queues, owners.get(number)))
    left = len(every) - len(rows)
    return Table("sockets", rows, rest_words(every, left, "socket", "more at rest: info sockets all"))


def _has_meaning(values: list[str], queues: list[list[int]]) -> bool:
    """Whether a socket isn't at rest. A socket is at rest if no goroutine holds it or waits for it, and if it is closed
    or its input is empty."""
    if values[0] == "absent":
        return False
    word = LockWord.of(int(values[0]))
    return word.references > 0 or any(queues) or (not word.closed and values[3] != "0")


def _socket_row(number: int, values: list[str], queues: list[list[int]], descriptor: int | None) -> Row:
    named = dict(zip(SOCKET_CELLS, values))
    row_values = {"socket": number, **named, "rq": queues[0], "wq": queues[1], "descriptor": descriptor}
    if named["lock"] == "absent":
        return Row(row_values, f"sock {number:<3} doesn't exist yet")
    parts = [lock_words(named["lock"])]
    parts += [f"queued to {SIDES[side]}: {' '.join(map(str, queue))}" for side, queue in zip("rw", queues) if queue]
    parts += [f"{sem} {named[sem]}" for sem in ("rsem", "wsem") if named[sem] != "0"]
    parts.append(f"in {counted(int(named['in']), 'byte')}, out {counted(int(named['out']), 'byte')}")
    if named["shut"] == "1":
        parts.append("write side shut")
    parts.append("no descriptor" if descriptor is None else f"descriptor {descriptor}")
    return Row(row_values, f"sock {number:<3} {'; '.join(parts)}")


def descriptors_table(world: PositionValues, numbers: Iterable[int] | None = None, is_all: bool = False) -> Table:
    """The table of the open descriptors, of all descriptors, or of the descriptors with these numbers."""
    sockets = world.sockets_of_open()
    every = list(range(world.count(ObjectKind.DESCRIPTOR)) if numbers is None else numbers)
    shown = [number for number in every if is_all or numbers is not None or number in sockets]
    cells = world.of_each(shown, *DESCRIPTOR_CELLS)
    rows = [_descriptor_row(number, cells[number], sockets.get(number)) for number in shown]
    left = len(every) - len(shown)
    return Table("descriptors", rows, rest_words(every, left, "descriptor", "free: info descriptors all"))


def rest_words(every: list[int], left: int, name: str, all_of_them: str) -> str:
    """The message that says how many rows aren't shown, or that there are no rows; empty if all rows are shown."""
    if not every:
        return f"no {name} exists yet"
    return f"{left} {all_of_them}" if left else ""


def _descriptor_row(number: int, values: list[str], socket: int | None) -> Row:
    named = dict(zip(DESCRIPTOR_CELLS, values))
    row_values: Values = {"descriptor": number, "open": socket is not None, "socket": socket, **named}
    if named["info"] == "absent":
        return Row(row_values, f"desc {number:<3} doesn't exist yet")
    whose = "free" if socket is None else f"open for socket {socket}"
    parts = [
        whose,
        f"rg {named['rg']}, wg {named['wg']}",
        f"rd {named['rd']}, wd {named['wd']}",
        f"use {named['fdseq']}",
    ]
    if named["info"] != "0":
        parts.append(info_words(named["info"]))
    return Row(row_values, f"desc {number:<3} {'; '.join(parts)}")


def timers_table(world: PositionValues) -> Table:
    """The clock, and the deadlines of open descriptors that haven't passed yet, earliest first."""
    names = ("clock", "timers", "least", "firings")
    values = dict(zip(names, world.values(list(names))))
    clock = int(values["clock"])
    first = "none is due" if values["least"] == "absent" else f"the first is due at {values['least']}"
    text = f"clock {clock}; {values['timers']} armed, {first}; started and not run yet: {values['firings']}"
    rows = [Row(values, text)]
    due = [
        (int(deadline), descriptor, side)
        for descriptor, deadlines in world.of_each(world.sockets_of_open(), "rd", "wd").items()
        for side, deadline in zip("rw", deadlines)
        if int(deadline) > 0
    ]
    for deadline, descriptor, side in sorted(due):
        when = f"in {deadline - clock} ns" if deadline > clock else "due"
        row_values: Values = {"descriptor": descriptor, "side": side, "deadline": deadline}
        rows.append(Row(row_values, f"{deadline:>10}  the {SIDES[side]} deadline of descriptor {descriptor}, {when}"))
    return Table("timers", rows)


def holders_table(world: PositionValues, socket: int) -> Table:
    """The goroutines that hold references to the socket, with what each goroutine does now."""
    shown = world.value(f"lock {socket}")
    if shown == "absent":
        return Table("holders", [], f"socket {socket} doesn't exist yet")
    held = run_of(world.recording).holders(socket, world.position)
    rows = [_holder_row(world, reference) for reference in held]
    return Table("holders", rows, f"lock {socket} = {shown}: {lock_words(shown)}; {counted(len(rows), 'holder')}")


def _holder_row(world: PositionValues, held: Reference) -> Row:
    status = world.value(f"gor {held.goroutine}")
    step = held.step
    words = " ".join((step.kind, *(SIDES[side] for side in held.side)))
    values = {"goroutine": held.goroutine, "step": step.number, "line": step.line, "took": str(step), "status": status}
    return Row(values, f"gor {held.goroutine:<4} since step {step.number} ({words}), now {status}")
