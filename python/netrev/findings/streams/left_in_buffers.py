"""Requests that are still in a buffer. A goroutine waits for an answer, has written nothing since the last answer, and
is in a function that writes into a bufio.Writer without flushing it. The program's source shows this."""

import re
from collections.abc import Iterator
from functools import lru_cache
from typing import NamedTuple

from netrev.findings.source.functions import Lines, range_of, source_of
from netrev.findings.source.package import HEAD, files_of, places_with
from netrev.recording.call import Call
from netrev.recording.recording import Recording
from netrev.recording.where import OF_THE_PROGRAM
from netrev.recording.where import SourceCall as LineCall
from netrev.run.index import MOVING, RunIndex

WRITER = re.compile(
    r"^\s+(\w+)\s+\*bufio\.(?:Writer|ReadWriter)\b|\b(\w+)\s*(?::?=|:)\s*bufio\.New(?:Writer\w*|ReadWriter)\(|\b(\w+) \*bufio\.(?:Writer|ReadWriter)\b"
)
FLUSHES = re.compile(r"\.Flush\(\)")
FLUSHED, MAKES = re.compile(r"\b(\w+)\.Flush\(\)"), re.compile(r"bufio\.New(?:Writer|ReadWriter)")
STARTS = re.compile(r"\b(?:go|defer)\b")


class Named(NamedTuple):
    """Names in a package: functions that write into a buffer, functions that flush a buffer, variables and fields that
    are buffers, and the buffers that are flushed."""

    writes: frozenset[str]
    flushes: frozenset[str]
    buffers: frozenset[str]
    flushed: frozenset[str]


def left_in_buffer(index: RunIndex, call: Call) -> list[str]:
    """Sentences about a Read that waits; none if something was written since the last answer, or if no buffer is
    known."""
    moved = [
        transfer
        for transfer in index.by_socket[call.socket]
        if transfer.name in MOVING and transfer.moved and transfer.first < call.first
    ]
    if moved and moved[-1].name == "Write":
        return []
    for frame in index.recording.lines.of(call.first).calls:
        if frame.of == OF_THE_PROGRAM and (place := unflushed_in(index.recording, frame)):
            return [f"Perhaps what {place} writes is still in a buffer: nothing flushes it before {frame.place()}."]
    return []


def unflushed_in(recording: Recording, frame: LineCall) -> str:
    """The last line that writes into a buffer, of the lines before the goroutine's line in its function. The result is
    empty if no such line exists, or if a line between the two flushes a buffer."""
    lines = source_of(recording, frame.file)
    within = range_of(lines, frame) if lines else None
    if not lines or not within:
        return ""
    named = names_near(recording, frame.file)
    writes = 0
    for number in range(within.start + 1, frame.line):
        text = lines[number - 1].partition("//")[0]
        if FLUSHES.search(text) or calls_any_of(text, named.flushes):
            writes = 0
        elif is_write(text, named.buffers) or (calls_any_of(text, named.writes) and not STARTS.search(text)):
            writes = number
    return f"{frame.file}:{writes}" if writes else ""


def never_flushed(recording: Recording, call: Call) -> str:
    """The line at which the package of a call makes a buffered writer, if no line of the package flushes a writer:
    `main.go:28`; else empty."""
    own = recording.lines.of(call.first).own()
    if own is None or own[0].of != OF_THE_PROGRAM:
        return ""
    places, named = places_with(recording, own[0].file, MAKES), names_near(recording, own[0].file)
    return places[0] if places and not named.flushed & named.buffers else ""


@lru_cache(maxsize=64)
def names_near(recording: Recording, file: str) -> Named:
    """The functions and variables of a file's package."""
    return names_of(tuple(lines for _, lines in files_of(recording, file)))


def names_of(files: tuple[Lines, ...]) -> Named:
    """The functions of a package that write into buffers or flush them, directly or by calling such a function."""
    buffers = frozenset(
        name
        for lines in files
        for text in lines
        for match in WRITER.finditer(text)
        if (name := next(filter(None, match.groups()), ""))
    )
    bodies = {name: body for lines in files for name, body in bodies_of(lines)}
    flushes = {name for name, body in bodies.items() if FLUSHES.search(body)}
    writes = {name for name, body in bodies.items() if name not in flushes and is_write(body, buffers)}
    flushes |= {name for name, body in bodies.items() if calls_any_of(body, frozenset(flushes))}
    flushed = {found[1] for lines in files for text in lines for found in FLUSHED.finditer(text.partition("//")[0])}
    return Named(frozenset(writes), frozenset(flushes), buffers, frozenset(flushed))


def bodies_of(lines: Lines) -> Iterator[tuple[str, str]]:
    """The functions of a file, each with its text."""
    for number, text in enumerate(lines, 1):
        if head := HEAD.match(text):
            within = range_of(lines, LineCall(head[3], "", number, OF_THE_PROGRAM))
            inside = (lines[at - 1].partition("//")[0] for at in (within or range(0))[1:])
            yield head[3], "\n".join([text.partition("{")[2], *inside])


def is_write(text: str, buffers: frozenset[str]) -> bool:
    """Whether a text writes into one of these buffers."""
    names = "|".join(map(re.escape, sorted(buffers)))
    pattern = rf"\b(?:{names})\.(?:Writer\.)?Write\w*\(|\bFprint\w*\((?:\w+\.)*(?:{names}),|\bio\.(?:WriteString|Copy)\((?:\w+\.)*(?:{names}),"
    return bool(names) and re.search(pattern, text) is not None


def calls_any_of(text: str, names: frozenset[str]) -> bool:
    """Whether a text calls one of these functions."""
    return any(found[1] in names for found in re.finditer(r"\b(\w+)\(", text))
