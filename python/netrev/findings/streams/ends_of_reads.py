"""What a waiting Read looks for, found from the functions that called it: the end of the stream, the end of a line, or
any bytes."""

import re

from netrev.findings.evidence.call_words import is_of_go, since_begin, text_of_call
from netrev.findings.evidence.responses import SERVE, contains
from netrev.findings.source.package import places_with
from netrev.recording.call import Call
from netrev.recording.waits import Name, waits_of
from netrev.recording.where import OF_THE_PROGRAM
from netrev.run.index import RunIndex

TO_THE_END = ("io.ReadAll", "io.copyBuffer", "io.Copy", "net.genericReadFrom", "internal/poll.Splice")
CLOSES_WRITE, MOST_CLOSES = re.compile(r"\.CloseWrite\(\)"), 2
OF_A_BODY = ("net/http.(*body).Read",)
OF_A_COUNT = ("io.CopyN", "io.(*LimitedReader).Read")
SPLICE = "internal/poll.Splice"  # an io.LimitedReader's limit may end it, and no stack shows that limit
OF_A_LINE = {
    "bufio.(*Reader).ReadString": "bufio.(*Reader).ReadString", "bufio.(*Reader).ReadBytes": "bufio.(*Reader).ReadBytes",
    "bufio.(*Reader).ReadLine": "bufio.(*Reader).ReadLine", "bufio.(*Scanner).Scan": "bufio.(*Scanner).Scan",
    "net/textproto.(*Reader).readLineSlice": "net/textproto.(*Reader).ReadLine",
}  # fmt: skip


def end_sentence(index: RunIndex, call: Call, other: int, position: int) -> list[str]:
    """Sentences about what a Read looks for; none if only Go's own code made the Read."""
    if call.name != "Read" or is_of_go(index.recording, call):
        return []
    functions = {frame.function for frame in index.recording.lines.of(call.first).calls}
    if functions.intersection(OF_A_BODY) and is_served(index, other, position):
        return []
    if says := bound_sentence(functions, other):
        return [says, *(half_closes(index, other, position) if "for writing" in says else [])]
    if not index.moved(call.socket, "Write", position) and not index.moved(other, "Write", position):
        since = since_begin(index.recording, index.by_socket[call.socket][0].first)
        return [f"Nobody has written anything on this connection{since}."]
    return []


def half_closes(index: RunIndex, socket: int, position: int) -> list[str]:
    """The lines of the program that close a connection for writing, if none of these lines has run on this socket."""
    used = index.last_use(socket, position, ("Write",)) or index.last_use(socket, position, ("Read",))
    own = index.recording.lines.of(used.first).own() if used else None
    if own is None or own[0].of != OF_THE_PROGRAM:
        return []
    found = places_with(index.recording, own[0].file, CLOSES_WRITE)
    if not 0 < len(found) <= MOST_CLOSES:
        return []
    last = f", where {text_of_call(index.recording, used)} was the last" if used else ""
    return [f"CloseWrite is called at {' and '.join(found)}, and that hasn't come to socket {socket}{last}."]


def is_served(index: RunIndex, socket: int, position: int) -> bool:
    """Whether the last goroutine that wrote to a socket is still in a handler of net/http, and so may write more."""
    write = index.last_use(socket, position, ("Write",))
    wait = waits_of(index.recording).at(Name(write.goroutine), position) if write else None
    return wait is not None and contains(wait.stack, SERVE)


def bound_sentence(functions: set[str], other: int) -> str:
    """Text that says how far a Read's callers read: to the end of a body, up to a number of bytes, or to the end of the
    stream."""
    if functions.intersection(OF_A_BODY):
        return "It reads a body of net/http: perhaps fewer bytes came than the header says."
    if "io.CopyN" in functions:
        return "io.CopyN reads a number of bytes, which haven't all come."
    if "io.ReadAll" in functions:
        limit = ", or up to a limit" if functions.intersection(OF_A_COUNT) else ""
        return f"io.ReadAll reads to the end of the stream{limit}: nobody has closed socket {other} for writing."
    if functions.intersection(OF_A_COUNT):
        return ""
    if functions.intersection(TO_THE_END):
        copies = "has met no end of the stream" if SPLICE in functions else "reads to the end of the stream"
        return f"io.Copy {copies}: nobody has closed socket {other} for writing."
    return ""


def line_reader_of(index: RunIndex, call: Call) -> str | None:
    """The function in which a Read looks for the end of a line."""
    functions = (frame.function for frame in index.recording.lines.of(call.first).calls)
    return next((OF_A_LINE[name] for name in functions if name in OF_A_LINE), None)
