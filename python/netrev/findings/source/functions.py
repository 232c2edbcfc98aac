"""Functions of the program's source, if it is available and hasn't changed since the recording: their lines, and the
functions that they call."""

import os
import re
from functools import lru_cache
from pathlib import Path

from netrev.recording.recording import Recording
from netrev.recording.where import SourceCall
from netrev.text.text_files import lines_of

Lines = tuple[str, ...]
WRAPPED = ".gowrap"  # part of the names of functions that only start another
LITERAL = re.compile(r"\.(?:func|gowrap|deferwrap)\d+")


def source_of(recording: Recording, file: str) -> Lines | None:
    """The lines of a file of the program's source, if the file is available and hasn't changed since the recording."""
    return source(os.path.abspath(file), recording.lines.written)


@lru_cache(maxsize=64)
def source(file: str, written: float) -> Lines | None:
    """The lines of a file, if it exists and hasn't changed since the time `written`."""
    lines = lines_of(Path(file))
    return None if lines is None or os.stat(file).st_mtime > written else tuple(lines)


def function_of(recording: Recording, call: SourceCall) -> tuple[Lines, range]:
    """The lines of a call's file, and the line numbers of its function; both are empty if unknown."""
    lines = source_of(recording, call.file) or ()
    return lines, range_of(lines, call) or range(0)


def range_of(lines: Lines, call: SourceCall) -> range | None:
    """The line numbers of a call's function. For a function literal, only the literal's own lines."""
    if not 0 < call.line <= len(lines):
        return None
    if LITERAL.search(call.function) and is_literal_of_one_line(lines[call.line - 1]):
        return range(call.line, call.line + 1)
    begin = begin_of_literal(lines, call.line) if LITERAL.search(call.function) else 0
    begin = begin or next((number for number in range(call.line, 0, -1) if lines[number - 1].startswith("func ")), 0)
    if not begin:
        return None
    if is_of_one_line(lines[begin - 1]):
        return range(begin, begin + 1) if begin == call.line else None
    margin = indent_of(lines[begin - 1])
    ends = (number for number in range(begin + 1, len(lines) + 1) if is_end(lines[number - 1], margin))
    end = next(ends, None)
    return range(begin, end + 1) if end and end >= call.line else None


def is_inside(lines: Lines, call: SourceCall, within: range) -> bool:
    """Whether a call is in the function of these lines itself, rather than in a function literal inside it or in a
    wrapper of Go's for a `go` or `defer` statement."""
    return WRAPPED not in call.function and range_of(lines, call) == within


def is_last_line(recording: Recording, call: SourceCall, number: int) -> bool:
    """Whether a line is the last line in the function of a call, or the function's only line."""
    _, within = function_of(recording, call)
    return len(within) == 1 or number == within.stop - 2


def is_of_one_line(text: str) -> bool:
    """Whether a function begins and ends on the same line."""
    code = text.partition("//")[0].rstrip()
    return code.startswith("func ") and code.endswith("}") and code.count("{") == code.count("}")


def is_literal_of_one_line(text: str) -> bool:
    """Whether a function literal begins and ends on the same line."""
    code = text.partition("//")[0]
    return "func(" in code and code.count("{") == code.count("}") > 0


def begin_of_literal(lines: Lines, line: int) -> int:
    """The line at which the function literal around a line begins; 0 if no literal surrounds the line."""
    margin = indent_of(lines[line - 1])
    for number in range(line, 0, -1):
        text = lines[number - 1]
        if text.strip() and indent_of(text) < margin:
            margin, code = indent_of(text), text.partition("//")[0].rstrip()
            if "func(" in code and code.endswith("{"):
                return number
    return 0


def is_end(text: str, margin: int) -> bool:
    return indent_of(text) == margin and text.lstrip().startswith("}")


def indent_of(text: str) -> int:
    return len(text) - len(text.lstrip()) if text.strip() else 1_000


def found_in(recording: Recording, call: SourceCall, pattern: "re.Pattern[str]") -> list[tuple[int, "re.Match[str]"]]:
    """The lines of a call's function that match a pattern."""
    return _found_in(os.path.abspath(call.file), recording.lines.written, call, pattern)


@lru_cache(maxsize=4_096)
def _found_in(
    file: str, written: float, call: SourceCall, pattern: "re.Pattern[str]"
) -> list[tuple[int, "re.Match[str]"]]:
    lines = source(file, written)
    within = range_of(lines, call) if lines else None
    texts = [(number, lines[number - 1].partition("//")[0]) for number in within or () if lines]
    return [(number, found) for number, text in texts if (found := pattern.search(text))]


def text_at(recording: Recording, call: SourceCall) -> str:
    """The text of a call's line, without its comment; empty if the source isn't available."""
    lines = source_of(recording, call.file)
    return lines[call.line - 1].partition("//")[0] if lines and 0 < call.line <= len(lines) else ""


def is_same_variable(name: str, other_name: str, is_near: bool) -> bool:
    """Whether two expressions may name the same variable. They may if they differ only before the first dot, like
    `r.sessions` and `s.sessions`. Two equal expressions may too, if they are in the same function or its literals."""
    dot, other_dot = name.partition(".")[1:], other_name.partition(".")[1:]
    return bool(dot[1]) and dot == other_dot or (is_near and name == other_name)
