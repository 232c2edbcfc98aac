"""Consecutive queries, such as those of a script, which nrdb sends to netrev together and shows one by one."""

import codecs
import io
from collections.abc import Iterator, Sequence
from functools import lru_cache
from typing import Protocol, TextIO

from netrev.connection.netrev import AT_ONCE, Netrev
from netrev.connection.output import Printer

from .attached_commands import Attached
from .commands import AmbiguousWordError, parts_of, whole_words

MOST = 1_024  # the maximum number of lines sent together


class Answering(Protocol):
    """The part of a session that answers lines."""

    netrev: Netrev
    printer: Printer
    attached: Attached

    def echoed(self, line: str) -> bool:
        """Shows a line that wasn't typed, and answers the line. Returns False if the session has ended."""


@lru_cache(maxsize=1_024)
def query_of(line: str) -> str:
    """The form in which a line is sent to netrev, if the line is only a `print`; else empty."""
    try:
        parts = parts_of(line)
        words = whole_words(parts[0].split()) if len(parts) == 1 else [""]
    except AmbiguousWordError:
        return ""
    return " ".join(words) if words[0] == "print" else ""


def runs_of(session: Answering, lines: Sequence[str]) -> Iterator[Sequence[str]]:
    """Splits lines into runs. A run is a sequence of queries that may be sent together, or a single other line. Each
    run is determined after the lines before it have been answered."""
    first = 0
    while first < len(lines):
        end = first + 1
        if session.netrev.asks_ahead and session.attached.taking is None:
            end = max(end, end_of_queries(lines, first))
        yield lines[first:end]
        first = end


def end_of_queries(lines: Sequence[str], first: int) -> int:
    """The end of the run of queries that begins at a line. A run has at most as many queries as are sent together."""
    size = 0
    for at in range(first, min(first + MOST, len(lines))):
        query = query_of(lines[at])
        size += len(query) + 1
        if not query or size > AT_ONCE:
            return at
    return min(first + MOST, len(lines))


def answer_run(session: Answering, run: Sequence[str]) -> bool:
    """Answers a run of lines that weren't typed, and shows each line first. Returns False if the session has ended."""
    if len(run) == 1:
        return session.echoed(run[0])
    session.netrev.ask_ahead(list(map(query_of, run)))
    with session.printer.joined():
        return all(map(session.echoed, run))


def lines_together(stream: TextIO) -> Iterator[list[str]]:
    """The lines of a stream, without trailing blanks. Lines that arrived together are yielded as one list."""
    raw = getattr(stream, "buffer", None)
    if not isinstance(raw, io.BufferedReader) or stream.errors is None:
        yield from ([line.rstrip()] for line in stream)
        return
    decoder = io.IncrementalNewlineDecoder(codecs.getincrementaldecoder(stream.encoding)(stream.errors), True)
    begun: list[str] = []  # the beginning of a line whose end hasn't arrived
    is_open = True
    while is_open:
        data = raw.read1(AT_ONCE)
        is_open = bool(data)
        *lines, rest = decoder.decode(data, not is_open).split("\n")
        if lines:
            lines[0] = "".join((*begun, lines[0]))
            begun = []
            yield list(map(str.rstrip, lines))
        begun += [rest] if rest else []
    if begun:
        yield ["".join(begun).rstrip()]
