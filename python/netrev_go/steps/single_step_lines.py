"""Lines for points that are exactly one step, which depends only on the goroutine, the point, the socket and the
answer. Three in four points are like this."""

from __future__ import annotations

from netrev_go.log.point_answers import lock_answer, side_of
from netrev_go.log.points import Point, PointKind
from netrev_go.log.sockets import BUFFER, LoggedSocket

LOCK_STEPS: dict[int, str] = {
    PointKind.INCREF: "incref",
    PointKind.INCREF_CLOSE: "increfclose",
    PointKind.DECREF: "decref",
    PointKind.RW_LOCK: "rwlock",
    PointKind.RW_UNLOCK: "rwunlock",
}
SIDED = {int(PointKind.RW_LOCK), int(PointKind.RW_UNLOCK)}
CHECKS: dict[int, str] = {
    PointKind.RESET: "pollreset",
    PointKind.WAIT_BEGIN: "waitbegin",
    PointKind.CHECK: "blockcheck",
    PointKind.WAIT_CHECK: "waitcheck",
}
OF_ONE_SIDE = {int(PointKind.RESET), int(PointKind.WAIT_BEGIN)}
REPEATED = frozenset(map(int, (*CHECKS, PointKind.ACQUIRE, PointKind.RELEASE, PointKind.ARM, PointKind.SWAP)))


def read_line(g: int, socket: int, requested: int, answer: str) -> str:
    """A read of this many bytes, with the answer as JSON."""
    return f'["sysread",{g},{socket},{min(max(requested, 1), BUFFER)},{answer}]'


def repeated_line(point: Point, g: int, socket: LoggedSocket) -> str:
    """The line for such a point, logged by the goroutine with this number for its socket."""
    kind = point.kind
    if kind in LOCK_STEPS:
        side = (',"r"' if point.c & 1 else ',"w"') if kind in SIDED else ""
        answer = lock_answer(kind, point.a == point.b, point.c)
        return f'["{LOCK_STEPS[kind]}",{g},{socket.number}{side},"{answer}"]'
    if kind in CHECKS:
        where = f',{socket.descriptor},"{side_of(point)}"' if kind in OF_ONE_SIDE else ""
        return f'["{CHECKS[kind]}",{g}{where},["code",{point.b}]]'
    if kind == PointKind.READ:
        return read_line(g, socket.number, point.a, f'["got",{point.b}]')
    if kind == PointKind.ACQUIRE:
        return f'["acquire",{g},"{"yes" if point.a else "wait"}"]'
    if kind == PointKind.RELEASE:
        return f'["release",{g},"done"]'
    if kind == PointKind.ARM:
        answer = '["code",0]' if point.b else '"wait"'
        return f'["blockarm",{g},{answer}]'
    return f'["blockswap",{g},"{"yes" if point.b else "no"}"]'
