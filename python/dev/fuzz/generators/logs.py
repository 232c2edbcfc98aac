"""Logs of the recorder as text, for reading and writing: JSON lines for the header, each stack, the source line of each
address, and each point, in the form of `netrev_go.log.points.Point`."""

import json
import struct
from collections.abc import Iterable, Sequence
from typing import NamedTuple

from netrev_go.log.logfile import HEADER_BYTES, HOLDER_BYTES, HOLDER_CALL, MAGIC
from netrev_go.log.points import Log, Point, PointStack

STACKS = 256
FULL = 2**64 - 1
Symbols = dict[int, tuple[str, str, int]]


class HolderRow(NamedTuple):
    """A row of the table of locked mutexes: the mutex (0 if the row is free), the goroutine that holds it, whether for
    reading, the number of earlier points, and the addresses of the calls that locked it."""

    address: int
    goroutine: int = 0
    is_reader: bool = False
    passed: int = 0
    calls: tuple[int, ...] = ()


def binary(
    points: Iterable[Point],
    stacks: dict[int, PointStack] | None = None,
    begin: int = 0,
    room: int = 0,
    passed: int | None = None,
    holders: Sequence[HolderRow] | None = None,
    holders_lost: int = 0,
    is_sparse: bool = False,
) -> bytes:
    """The log with these points. A point's number gives its place in the log; `room` is the number of places.
    `holders` is the table of locked mutexes, or None. `holders_lost` is how many times the table was full. In a sparse
    log, a point without a time has the previous point's time."""
    points = list(points)
    room = room or max((point.number for point in points), default=0) + 1
    last = max((point.number for point in points), default=-1) + 1
    words = (MAGIC, last if passed is None else passed, room, STACKS, begin, 1, 0, 0, 0, 0, 0)
    of_holders = (len(holders or ()), holders_lost, 0 if holders is None else 1)
    header = struct.pack("<19Q", *words, 0, *of_holders, 0, 0, 0, is_sparse)
    table = bytearray(STACKS * 256)
    for number, (creation, started, calls) in (stacks or {}).items():
        of_stack = (number, len(calls), creation, started, *calls)
        struct.pack_into(f"<{len(of_stack)}Q", table, (number - 1) * 256, *of_stack)
    ring = bytearray(room * 64)
    for point in points:
        ring[point.number % room * 64 : point.number % room * 64 + 64] = packed(point)
    held = b"".join(map(packed_holder, holders or ()))
    return header.ljust(HEADER_BYTES, b"\0") + bytes(table) + held + bytes(ring)


def packed_holder(row: HolderRow) -> bytes:
    """The bytes of a row of the table of locked mutexes."""
    words = (row.address, row.goroutine << 1 | row.is_reader, row.passed, len(row.calls), *row.calls)
    assert len(row.calls) <= HOLDER_BYTES // 8 - HOLDER_CALL
    return struct.pack(f"<{len(words)}Q", *words).ljust(HOLDER_BYTES, b"\0")


def packed(point: Point) -> bytes:
    """A point's 64 bytes."""
    number, kind, *seen, stack = point
    total = number
    for value in seen:
        total ^= value & FULL
    words = [
        (number + 1) << 8 | kind,
        *(value & FULL for value in seen),
        stack | ((total ^ total >> 32) & 2**32 - 1) << 32,
    ]
    return struct.pack("<8Q", *words)


def from_text(text: str) -> tuple[bytes, Symbols]:
    """The log that a text describes, and the lines of its addresses."""
    points, stacks, symbols, header = [], {}, {}, {}
    for line in map(json.loads, text.splitlines()):
        if isinstance(line, list):
            points.append(Point(*line))
        elif "stack" in line:
            stacks[line["stack"]] = PointStack(line["made"], line["started"], tuple(line["calls"]))
        elif "address" in line:
            symbols[line["address"]] = (line["function"], line["file"], line["line"])
        else:
            header = line
    return binary(points, stacks, header["begin"]), symbols


def to_text(log: Log, symbols: Symbols) -> str:
    """The text of a log, with its stacks renumbered."""
    used = sorted({point.stack for point in log.points if point.stack in log.stacks})
    numbers = {stack: number for number, stack in enumerate(used, 1)}
    lines: list[object] = [{"begin": log.begin}]
    lines += [{"stack": numbers[stack], **log.stacks[stack]._asdict()} for stack in used]
    lines += [
        {"address": at, "function": symbol[0], "file": symbol[1], "line": symbol[2]} for at, symbol in symbols.items()
    ]
    lines += [list(point._replace(stack=numbers.get(point.stack, 0))) for point in log.points]
    return "".join(json.dumps(line, separators=(",", ":")) + "\n" for line in lines)
