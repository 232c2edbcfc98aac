"""The contents of a recording: its limits, its steps, and their recorded answers."""

from __future__ import annotations

from collections.abc import Sequence
from typing import Any, NamedTuple

Step = tuple[Any, ...]  # the kind, then the arguments
Answer = tuple[Any, ...]  # the name, and for some answers a number

GREATEST_TIME = 2**63 - 1


class Limits(NamedTuple):
    """The header's keys except the version: the greatest numbers of goroutines, sockets and descriptors, and the bytes
    of a buffer."""

    gor: int
    sock: int
    desc: int
    buf: int


class Contents(NamedTuple):
    """A recording's contents: steps as tuples, and in version 2 the recorded answer of each, in the machine's form."""

    version: int
    limits: Limits
    steps: Sequence[Step]
    answers: Sequence[Answer | None]
