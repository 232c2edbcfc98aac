"""Lines of a recording with the bytes that were read or written: all zeros, because contents aren't recorded."""

from __future__ import annotations

from functools import lru_cache
from typing import NamedTuple

FEW = 64  # up to this many bytes, zeros are stored in full
LINES_KEPT = 4_096  # many lines are alike


class Zeros(NamedTuple):
    """A line with many zeros. The zeros are written out only with the recording, because the program may have moved
    gigabytes in a few points of the log."""

    before: str
    size: int  # bytes
    behind: str

    def __str__(self) -> str:
        return f"{self.before}{'00' * self.size}{self.behind}"


Line = str | Zeros


def line_with(before: str, size: int, behind: str) -> Line:
    """A line with this many bytes, all zeros."""
    return Zeros(before, size, behind) if size > FEW else f"{before}{'00' * size}{behind}"


def arrival(socket: int, count: int) -> Line:
    """A line for bytes that arrive at a socket."""
    return line_with(f'["arrive",{socket},"', count, '","done"]')


@lru_cache(LINES_KEPT)
def drained(socket: int, count: int) -> str:
    """A line for bytes that the other end takes."""
    return f'["drain",{socket},{count},"done"]'


@lru_cache(LINES_KEPT)
def put_line(g: int, socket: int, count: int) -> Line:
    """A line for a write that wrote this many bytes."""
    return written(g, socket, count, f'["put",{count}]')


@lru_cache(LINES_KEPT)
def written(g: int, socket: int, count: int, answer: str) -> Line:
    """A line for a write of this many bytes, with its answer as JSON."""
    return line_with(f'["syswrite",{g},{socket},"', count, f'",{answer}]')
