"""Requests and answers on a connection, matched by the order of its Writes and Reads. The module finds a Read that
waits for an answer without a request, a request that was read and not answered, and a Read that asks for more bytes
than the other end wrote."""

from collections.abc import Iterator
from typing import NamedTuple

from netrev.findings.evidence.call_words import place_of, text_of_call
from netrev.findings.evidence.read_sizes import ReadSizes, read_sizes_of
from netrev.findings.evidence.sizes import are_known, moved_at, size_of
from netrev.recording.call import OPEN, Call
from netrev.recording.recording import Recording
from netrev.run.index import MOVING, RunIndex, back
from netrev.text.plurals import counted

from .ends_of_reads import line_reader_of
from .left_in_buffers import never_flushed
from .unaccepted_connections import is_dialed

MOST_ASKED = 65_536  # the most bytes that a Read counts
FEW_ASKED = 256  # bytes that a Read may ask for at once, as for a header
FEWEST = 2  # the fewest earlier exchanges that show a habit
READ_FULL = "io.ReadAtLeast"


class Exchange(NamedTuple):
    """Writes of a goroutine to a socket, and the Reads after them that got bytes."""

    writes: list[Call]
    reads: list[Call]


def exchanges_of(index: RunIndex, goroutine: int, socket: int, until: int) -> list[Exchange]:
    """The exchanges of a goroutine at a socket, up to a step."""
    found: list[Exchange] = []
    for call in index.by_socket.get(socket, ()):
        if (
            call.goroutine != goroutine
            or call.name not in MOVING
            or call.first > until
            or not call.moved
            or not call.last
        ):
            continue
        if call.name == "Write":
            if not found or found[-1].reads:
                found.append(Exchange([], []))
            found[-1].writes.append(call)
        elif found:
            found[-1].reads.append(call)
    return found


def is_client(index: RunIndex, goroutine: int, socket: int) -> bool:
    """Whether only this goroutine reads and writes on a socket, and the socket was dialed. If the recording doesn't
    show whether the socket was dialed, a goroutine that wrote before it got bytes counts as the dialer."""
    calls = index.by_socket.get(socket, [])
    moved = [call for call in calls if call.name in MOVING and call.moved]
    stack = index.recording.lines.of(calls[0].first) if calls else None
    is_known = stack is not None and calls[0].name == OPEN and bool(stack.calls)
    asks = is_dialed(index, socket) if is_known else bool(moved) and moved[0].name == "Write"
    return bool(moved) and asks and all(call.goroutine == goroutine for call in moved)


def unasked(index: RunIndex, call: Call) -> list[str]:
    """Sentences about a Read that waits for an answer without a request: its goroutine wrote a request before each
    earlier answer, but no request before this Read."""
    found = exchanges_of(index, call.goroutine, call.socket, call.first)
    *before, last = found or [Exchange([], [])]
    if not is_client(index, call.goroutine, call.socket):
        return []
    if len(before) < FEWEST or not last.reads or any(not exchange.reads for exchange in before):
        return []
    firsts = {index.recording.lines.of(exchange.reads[0].first).own() for exchange in found}
    if len(last.reads) < max(len(exchange.reads) for exchange in before):
        return []
    if index.recording.lines and index.recording.lines.of(call.first).own() not in firsts:
        return []  # the goroutine is in the middle of an answer
    write = last.writes[-1]
    return [
        f"Before each of its {len(found)} answers there goroutine {call.goroutine} wrote; since the last of them it has written nothing: its last "
        f"Write was{place_of(index.recording, write.first)} (step {write.first}). Perhaps the request is still in a "
        "buffer that wasn't flushed."
    ]


def unanswered(index: RunIndex, call: Call, other: int, position: int) -> list[str]:
    """Sentences about a Read whose request was read and not answered: the goroutine that read the request had answered
    earlier requests. After the last request, that goroutine read again or did something else, without a Write."""
    request = index.last_use(call.socket, call.first, ("Write",))
    if request is None or request.goroutine != call.goroutine or not request.moved:
        return []
    if not is_client(index, call.goroutine, call.socket):
        return []
    read = reader_of(index, other, request, position)
    if read is None:
        return []
    written = [
        write
        for write in index.by_goroutine[read.goroutine]
        if write.name == "Write" and read.first < write.first <= position
    ]
    answers = [
        write
        for write in index.by_socket[other]
        if write.goroutine == read.goroutine and write.name == "Write" and write.moved
    ]
    now = index.call_at(read.goroutine, position)
    if any(write.socket == other for write in written):
        return []
    if now is None or now.name != "Read" or now.socket != other or now.first <= read.first:
        return []
    if not answers:
        return unended(index, request, read, now)
    if len(answers) < FEWEST:
        return []
    return [
        f"The request, {text_of_call(index.recording, request)} in {request.steps()}, was read by "
        f"{text_of_call(index.recording, read)} in step {read.last}. "
        f"That goroutine has written there {counted(len(answers), 'time')} before; now it reads on since step {now.first}, without an answer."
        + perhaps_why(index, call, now)
    ]


def unended(index: RunIndex, request: Call, read: Call, now: Call) -> list[str]:
    """Sentences about a first request that was read but not answered: its reader still looks for the end of a line."""
    line = line_reader_of(index, now)
    if not line or line_reader_of(index, read) != line:
        return []
    recording, maker = index.recording, never_flushed(index.recording, now)
    kept = f"the answer is in the buffer that {maker} makes, and no line flushes it; or " if maker else ""
    return [
        f"The request, {text_of_call(recording, request)} in {request.steps()}, was read by "
        f"{text_of_call(recording, read)} "
        f"in step {read.last}, and nothing has been "
        f"written there yet. That goroutine reads on since step {now.first}: {line} looks for the end of a line. Perhaps {kept}the request lacks "
        "that."
    ]


def perhaps_why(index: RunIndex, call: Call, now: Call) -> str:
    """Why a goroutine that looks for the end of a line perhaps reads on: the answer is still in a buffer, or the
    request lacks its end. The text begins with the answer if an earlier request with the same number of Writes was
    answered."""
    line = line_reader_of(index, now)
    if not line:
        return ""
    *before, last = exchanges_of(index, call.goroutine, call.socket, call.first)
    is_whole = any(exchange.reads and len(exchange.writes) == len(last.writes) for exchange in before)
    lacks = f"the request lacks what ends it, for which {line} reads on"
    kept = "the answer is in a buffer that wasn't flushed"
    return f" Perhaps {kept}; or {lacks}." if is_whole else f" Perhaps {lacks}; or {kept}."


def reader_of(index: RunIndex, other: int, request: Call, position: int) -> Call | None:
    """The last Read at the other end that got bytes from a Write."""
    reads = (call for call in back(index.by_socket.get(other, ()), position) if call.name == "Read")
    read = next(
        (candidate for candidate in reads if candidate.moved and candidate.last and candidate.last > request.first),
        None,
    )
    return read if read and read.goroutine != request.goroutine else None


def lacking(index: RunIndex, call: Call, other: int) -> list[str]:
    """Sentences about a Read that waits in an io.ReadFull. The sentences say how many bytes the Read asked for, how
    many bytes came, and that the other end wrote no more."""
    recording = index.recording
    stack = recording.lines.of(call.first)
    if call.name != "Read" or not any(frame.function == READ_FULL for frame in stack.calls):
        return []
    sizes, write = read_sizes_of(recording), index.last_use(other, recording.length, ("Write",))
    rest, begin = sizes.of(call), begin_of_full(index, sizes, call)
    whole = sizes.of(begin)
    if (
        not rest
        or not whole
        or not write
        or not write.last
        or (begin is call and rest < MOST_ASKED and rest <= size_of(index, write))
    ):
        return []
    is_of_a_buffer = rest & (rest - 1) == 0 and any(frame.function.startswith("bufio.") for frame in stack.calls)
    if begin is call and (rest < FEW_ASKED or is_of_a_buffer):
        return []
    if is_cut(recording, index, (call.socket, other)) and not are_known(index):
        if begin is call:
            return []
        return [
            f"Perhaps fewer bytes were sent than it was told to read: it asked for {whole} and has {whole - rest}, so {rest} more must come. "
            f"{text_of_call(recording, write)}, the last there, ended in step {write.last}, and nobody writes there now."
        ]
    if moved_at(index, call.socket, "Read", recording.length) != moved_at(index, other, "Write", recording.length):
        return []
    if begin is call:
        return [
            f"It asks for {'at least ' if rest >= MOST_ASKED else ''}{counted(rest, 'byte')}: "
            f"{text_of_call(recording, write)}, the last there, put {counted(size_of(index, write), 'byte')}, and all "
            "of them are read."
        ]
    return [
        f"It asked for {counted(whole, 'byte')} and has {whole - rest}: {text_of_call(recording, write)}, the last "
        f"there, put {counted(size_of(index, write), 'byte')}, and all of them are read. "
        f"{counted(rest, 'byte')} more must come."
    ]


def begin_of_full(index: RunIndex, sizes: ReadSizes, call: Call) -> Call:
    """The first Read of the io.ReadFull that a Read belongs to. If a Read's bytes are counted only in part, the next
    Read shows how many bytes came, because it asks for the rest."""
    lines, most = index.recording.lines, index.recording.lines.bytes
    begin = sizes.begin_of(call)
    while (before := sizes.before(begin)) and lines.of(before.first) == lines.of(begin.first):
        whole, rest = sizes.of(before), sizes.of(begin)
        is_part = most is not None and (before.moved or 0) >= most and whole and rest and whole - rest >= most
        if not is_part:
            break
        begin = sizes.begin_of(before)
    return begin


def is_cut(recording: Recording, index: RunIndex, sockets: tuple[int, ...]) -> bool:
    """Whether the recording counts fewer bytes than the reads or writes at these sockets moved."""
    most = recording.lines.bytes
    calls: Iterator[Call] = (call for socket in sockets for call in index.by_socket.get(socket, ()))
    return most is not None and any((call.moved or 0) >= most for call in calls)
