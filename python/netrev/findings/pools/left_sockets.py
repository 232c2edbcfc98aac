"""Connections that a function dialed or accepted and left open on one of its paths, so that the other end waits. The
module infers this from the goroutine's later stack and from the program's source."""

import re

from netrev.findings.source.functions import range_of, text_at
from netrev.findings.source.package import HEAD, files_of
from netrev.findings.source.skipping_paths import is_match, paths_are, paths_text
from netrev.findings.source.statements import code_at
from netrev.recording.call import Call
from netrev.recording.recording import Recording
from netrev.recording.waits import Name, waits_of
from netrev.recording.where import OF_THE_PROGRAM
from netrev.recording.where import SourceCall as LineCall
from netrev.recording.where import Stack
from netrev.run.index import RunIndex, back

from .leaking_paths import USES, closed_in_a_loop, paths_through, value_of

TAKEN = re.compile(r"(?:if )?(\w+)(?:, \w+)? :?= ")
CALL = re.compile(r"(?<![\w.])(\w+)\(([^()]*)\)")
TO_OTHERS = r"\breturn\b.*\b{name}\b|[=({{,:]\s*{name}\b\s*[,)}};]|[=:] *{name}$|\bgo\b.*\b{name}\b|<- *{name}\b"


def left_socket(index: RunIndex, socket: int, position: int) -> list[str]:
    """Sentences about a socket at whose other end a goroutine waits. The socket is open although the function that
    opened it has returned: the path that the function took doesn't close it. None if unknown."""
    opened = index.opening(socket)
    if opened is None or index.closing(socket, position, whole=True):
        return []
    now = stack_at(index, opened.goroutine, position)
    for call in index.recording.lines.of(opened.first).calls:
        if call.of == OF_THE_PROGRAM:
            return (
                []
                if now is None
                else kept_by(index, opened, call)
                if is_in(now, call)
                else left_by(index, opened, call)
            )
    return []


def kept_by(index: RunIndex, opened: Call, line: LineCall) -> list[str]:
    """A sentence about a function that opens a socket in each iteration of a loop and closes the sockets only when it
    returns. The function is still running."""
    taken = TAKEN.match(text_at(index.recording, line).strip())
    deferred = closed_in_a_loop(index.recording, line, taken[1]) if taken else ""
    return [f"Socket {opened.socket}, opened at {line.place()}, is still open. {deferred}"] if deferred else []


def left_by(index: RunIndex, opened: Call, line: LineCall) -> list[str]:
    """A sentence about a function that opened a socket at a line and left it open."""
    text = text_at(index.recording, line).strip()
    taken = TAKEN.match(text)
    if taken is None:
        return []
    name = taken[1]
    closes = rf"\b{re.escape(name)}\.Close\(\)"
    hands_on = value_of(text, TO_OTHERS)
    ways = paths_through(
        index.recording,
        line,
        text,
        is_match(closes),
        lambda statement: hands_on(without_users(index.recording, line.file, name, statement)),
    )
    if not ways:
        return []
    does = paths_text(line.file, ways)
    return [
        f"Socket {opened.socket}, opened at {line.place()}, is still open. Perhaps it was left open {paths_are(ways)}: {does} without a Close."
    ]


def without_users(recording: Recording, file: str, name: str, statement: str) -> str:
    """A statement, without the arguments of calls that only use a value. Such a call passes the value to a function of
    the package that doesn't close, keep or pass on the value."""

    def shortened(call: "re.Match[str]") -> str:
        arguments = [argument.strip() for argument in call[2].split(",")]
        is_used = name in arguments and only_uses(recording, file, call[1], arguments.index(name))
        return f"{call[1]}()" if is_used else call[0]

    return CALL.sub(shortened, statement)


def only_uses(recording: Recording, file: str, function: str, place: int) -> bool:
    """Whether the package's function of this name only uses the parameter at `place`: its source doesn't close, keep or
    pass on the parameter."""
    found = [
        (path, lines, number, head)
        for path, lines in files_of(recording, file)
        for number, text in enumerate(lines, 1)
        if (head := HEAD.match(text)) and head[3] == function and not head[1]
    ]
    if len(found) != 1:
        return False
    path, lines, number, head = found[0]
    parameters = [parameter.strip().partition(" ")[0] for parameter in head[4].split(",")]
    within = range_of(lines, LineCall(function, path, number, OF_THE_PROGRAM))
    if within is None or place >= len(parameters) or "(" in head[4]:  # (a parameter is a function)
        return False
    keeps = re.compile(rf"{TO_OTHERS.format(name=parameters[place])}|\b{parameters[place]}\.Close\b")
    return not any(keeps.search(USES.sub("(", code_at(lines, at))) for at in within[1:])


def stack_at(index: RunIndex, goroutine: int, position: int) -> Stack | None:
    """The stack of a goroutine's call or wait at a position. If it is in neither, the stack of its last call."""
    call, wait = index.call_at(goroutine, position), waits_of(index.recording).at(Name(goroutine), position)
    if wait:
        return wait.stack
    last = call or next(back(index.by_goroutine.get(goroutine, ()), position), None)
    return index.recording.lines.of(last.first) if last else None


def is_in(stack: Stack, line: LineCall) -> bool:
    """Whether a stack is in the function of a line."""
    return any(call.function == line.function for call in stack.calls)
