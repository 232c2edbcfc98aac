"""Adds to a recording the steps that lead to a noted socket, with the recording's own numbers."""

from __future__ import annotations

import json
from typing import TYPE_CHECKING

from netrev.errors import NetrevError
from netrev.machine.deadlines import READING, WRITING
from netrev.machine.polling import deadline_of
from netrev_go.log.prelude import Lead, UnreachableStateError, relative, spelled
from netrev_go.log.sockets import BUFFER, LoggedSocket

from .zeros import Line, written

if TYPE_CHECKING:
    from .converter import Converter

of_json = json.JSONEncoder(separators=(",", ":")).encode


class LatePreludeError(NetrevError):
    """The clock is too late for a socket: its deadline has passed, and its timer hasn't run."""

    def __init__(self, socket: LoggedSocket, why: str) -> None:
        super().__init__(why)
        self.opening = socket.opening


def lead(converter: Converter, socket: LoggedSocket) -> None:
    """Makes the steps that lead to the noted state of a socket."""
    soon = converter.clock
    for step in socket.leads:
        g = converter.goroutine(step.goroutine)
        if step.kind == "sockopen":
            socket.number = converter.sockets
            converter.sockets += 1
            put(converter, socket, step, g, f'["sockopen",{BUFFER},{socket.capacity()},["number",{socket.number}]]')
        elif step.kind == "pollopen":
            converter.takes_descriptor(socket)
            put(converter, socket, step, g, f'["pollopen",{g},{socket.number},["number",{socket.descriptor}]]')
        elif step.kind in ("soon", "setdeadline"):
            soon = max(soon, set_deadline(converter, socket, step, g))
        elif step.kind == "passes":
            passes(converter, socket, step.arguments[0], soon)
        elif step.kind == "closewrite" and is_written_later(socket):
            assert socket.last_write
            converter.closings[socket.last_write.number] = step
        elif step.kind == "closewrite":
            close_write(converter, socket, step)
        elif step.kind == "syswrite":
            put(converter, socket, step, g, written(g, socket.number, step.arguments[0], of_json(answer_of(step))))
        else:
            if step.kind == "evict":
                converter.deadlines.evict(socket.descriptor)
            text = spelled(step, g, socket.number, socket.descriptor, socket.tag)
            put(converter, socket, step, g, of_json([*text, answer_of(step)]))
    assert socket.note
    reading, writing = converter.deadlines.descriptors[socket.descriptor].sequences
    socket.sequences = socket.note.sequences[READING] - reading, socket.note.sequences[WRITING] - writing


def is_written_later(socket: LoggedSocket) -> bool:
    """Whether the point of a write comes after the note although the write came before it. If the write side was closed
    by the time of the note, the write was made before that."""
    assert socket.note
    return socket.last_write is not None and socket.last_write.number > socket.note.number


def close_write(converter: Converter, socket: LoggedSocket, step: Lead) -> None:
    """Adds the step that closes the write side of a socket that was noted as shut."""
    socket.shut = True
    g = converter.goroutine(step.goroutine)
    put(converter, socket, step, g, of_json(["closewrite", g, socket.number, answer_of(step)]))


def answer_of(step: Lead) -> object:
    """The answer, in a recording's form."""
    return step.answer[0] if len(step.answer) == 1 else list(step.answer)


def put(converter: Converter, socket: LoggedSocket, step: Lead, g: int, line: Line) -> None:
    """Adds a step of a goroutine, with its stack. The step isn't used to order the program's steps."""
    converter.lines.append(line)
    converter.stacks.append(step.stack)
    converter.last_steps[g] = len(converter.lines)
    if step.stack:
        converter.call(step.goroutine, socket)[0] = step.stack


def set_deadline(converter: Converter, socket: LoggedSocket, step: Lead, g: int) -> int:
    """Sets a noted deadline, or a deadline that passes soon, and returns the time at which it passes."""
    mode, deadline = step.arguments
    if step.kind == "soon":
        time = deadline
    else:
        try:
            time = relative(deadline, converter.begin, converter.clock)
        except UnreachableStateError as why:
            raise LatePreludeError(socket, str(why)) from None
    ends = deadline_of(converter.clock, time)
    converter.deadlines.set(socket.descriptor, mode, ends)
    put(converter, socket, step, g, f'["setdeadline",{g},{socket.descriptor},"{mode}",{time},"done"]')
    return ends if step.kind == "soon" else 0


def passes(converter: Converter, socket: LoggedSocket, side: int, soon: int) -> None:
    """Lets a deadline pass and its timer's function run."""
    timer = converter.deadlines.armed(socket.descriptor, side)
    converter.go_on_to(soon)
    while timer and timer.armed:
        converter.pop()
    sequence = converter.deadlines.descriptors[socket.descriptor].sequences[side]
    place = converter.deadlines.place(socket.descriptor, side, sequence)
    assert place is not None
    converter.deadlines.fire(place)
    converter.step(f'["fire",{place},"done"]')
