"""The meaning of a point: its side or sides, and Go's answer."""

from __future__ import annotations

from netrev.errors import NetrevError
from netrev.messages import recorder as messages

from .points import Point, PointKind
from .sockets import AGAIN, LoggedSocket

BROKEN_PIPE = 2
MODES = {ord("r"): "r", ord("w"): "w", ord("r") + ord("w"): "rw"}
UNLOCKING = {int(PointKind.DECREF), int(PointKind.RW_UNLOCK)}


class UnconvertibleError(NetrevError):
    """The log contains something that a recording can't express."""


def parts(count: int, most: int) -> list[int]:
    """A number of bytes, split into parts that each fit into one step: usually just one part."""
    if 0 < count <= most:
        return [count]
    return [most] * (count // most) + ([count % most] if count % most else [])


def mode_of(point: Point) -> str:
    """Which side of its descriptor a point concerns, or both sides."""
    mode = MODES.get(point.a)
    if mode is None:
        raise UnconvertibleError(messages.BAD_MODE.format(point=point.number, mode=point.a))
    return mode


def side_of(point: Point) -> str:
    mode = mode_of(point)
    if len(mode) > 1:
        raise UnconvertibleError(messages.TWO_SIDES.format(point=point.number))
    return mode


def lock_answer(kind: int, was_closed: bool, bits: int) -> str:
    """The answer of Go's function: the logged value, or the answer for a closed word."""
    if kind in UNLOCKING:
        return "last" if bits & 2 else "notlast"
    if was_closed:
        return "no"
    return "yes" if bits & 2 else "wait"


def can_answer(socket: LoggedSocket, point: Point) -> bool:
    """Whether the machine has an answer for the result of a read or a write. The machine has no answer for most errors,
    for an EPIPE that the other end caused, and for an output that is full of unrecorded bytes."""
    if point.b > 0:
        return True
    if point.c == AGAIN:
        return point.kind == PointKind.READ or socket.held == socket.capacity()
    return point.c == BROKEN_PIPE and socket.shut if point.kind == PointKind.WRITE else point.c == 0
