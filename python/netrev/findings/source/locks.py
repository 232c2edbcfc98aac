"""The mutexes that a goroutine perhaps holds in a call. The mutexes are found in the program's source, because locking
a free mutex leaves no step in a recording."""

import os
import re
from functools import lru_cache
from typing import NamedTuple

from netrev.recording.recording import Recording
from netrev.recording.where import SourceCall

from .functions import Lines, indent_of, range_of, source

LOCK = re.compile(r"([\w.\[\]]+)\.(R?Lock)\(\)")
UNLOCK = re.compile(r"([\w.\[\]]+)\.R?Unlock\(\)")
LEAVES = ("return", "continue", "break", "goto ", "panic(", "os.Exit(", "log.Fatal")
OF_A_TYPE = re.compile(r"(.*?\.\(\*?\w+\))\.")


class LockedMutex(NamedTuple):
    """A mutex as the source names it, and the line that locked it."""

    name: str
    line: int


def held_at(recording: Recording, call: SourceCall) -> list[LockedMutex]:
    """The mutexes that a function has locked and not unlocked before the goroutine's line; none if the source isn't
    available."""
    return _held_at(os.path.abspath(call.file), recording.lines.written, call)


@lru_cache(maxsize=4_096)
def _held_at(file: str, written: float, call: SourceCall) -> list[LockedMutex]:
    lines = source(file, written)
    if lines is None:
        return []
    within = range_of(lines, call)
    held: dict[str, LockedMutex] = {}
    number = within.start if within else call.line
    while number < call.line:
        text = lines[number - 1].partition("//")[0]
        if within and number > within.start and (end := end_of_literal(lines, number)) and end < call.line:
            number = end
        elif found := LOCK.search(text):
            held[found[1]] = LockedMutex(found[1], number)
        elif (found := UNLOCK.search(text)) and "defer " not in text and found[1] in held:
            if not is_left(lines, number, held[found[1]].line):
                del held[found[1]]
        number += 1
    return list(held.values())


def end_of_literal(lines: Lines, number: int) -> int:
    """The last line of the function literal that begins at a line; 0 if no literal begins there."""
    text = lines[number - 1].partition("//")[0].rstrip()
    if "func(" not in text or not text.endswith("{"):
        return 0
    margin = indent_of(text)
    return next((at for at in range(number + 1, len(lines) + 1) if indent_of(lines[at - 1]) == margin), 0)


def is_left(lines: Lines, number: int, lock: int) -> bool:
    """Whether an unlock is on a path that leaves the function or the loop: it is nested deeper than the line that
    locked, and a `return` or a similar statement follows."""
    if indent_of(lines[number - 1]) <= indent_of(lines[lock - 1]):
        return False
    rest = (lines[at - 1] for at in range(number + 1, len(lines) + 1))
    for text in rest:
        if indent_of(text) < indent_of(lines[number - 1]):
            return False
        if text.lstrip().startswith(LEAVES):
            return True
    return False


def owner(function: str) -> str:
    """The type of a method's receiver, or the package of a function."""
    found = OF_A_TYPE.match(function)
    path, slash, name = function.rpartition("/")
    return found[1] if found else path + slash + name.partition(".")[0]
