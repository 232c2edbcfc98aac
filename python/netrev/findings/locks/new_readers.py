"""Functions that make a new buffered reader in each call, found in the program's source. Bytes that the previous reader
had read ahead are lost with that reader, and the other end waits for answers to them."""

import re

from netrev.findings.evidence.call_words import result_words, text_of_call
from netrev.findings.source.functions import range_of, source_of, text_at
from netrev.recording.call import Call
from netrev.recording.where import OF_THE_PROGRAM
from netrev.recording.where import SourceCall as LineCall
from netrev.recording.where import Stack
from netrev.run.index import RunIndex, back

from .groups import outermost

BUFFERED = ("bufio.", "encoding/json.(*Decoder)")
VARIABLE = re.compile(r"\b(\w+) :?= *(?:[\w.]+\()*(?:bufio|json)\.")
HANDED_ON = r"return\b[^()]*\b{name}\b|[({{,=] *&?{name}\b *[,)}}]|= *{name}\s*\Z|\bgo\b.*\b{name}\b"
AT_ONCE = re.compile(r"\b(?:bufio\.New(?:Reader|ReaderSize|Scanner)|json\.NewDecoder)\((?:[^()]|\([^()]*\))*\)\.\w+\(")
MAKES = re.compile(r"\b(bufio\.NewReader|bufio\.NewReaderSize|bufio\.NewScanner|json\.NewDecoder)\(")


def thrown_away(index: RunIndex, call: Call, other: int, position: int) -> list[str]:
    """Sentences about a waiting Read whose goroutine has left its function since the last Read. The function makes a
    new reader in each call, and the other end has got an answer and waits for more."""
    lines = index.recording.lines
    own = lines.of(call.first).own()
    line = maker_line(index, own[0]) if own else 0
    if not own or not line:
        return []
    calls = [
        earlier
        for earlier in index.by_goroutine[call.goroutine]
        if earlier.first < call.first and earlier.socket == call.socket
    ]
    reads = [read for read in calls if read.name == "Read" and read.moved]
    before = reads[-1] if reads else None
    if before is None or own[0].function not in functions_of(index, before):
        return []
    answers = [
        write for write in calls
        if write.name == "Write" and write.moved and write.first > before.last
        and own[0].function not in functions_of(index, write)
    ]  # fmt: skip
    if not answers or not waits_on(index, other, before, answers[-1], position):
        return []
    return [
        f"Perhaps bytes that it had read before are lost: {own[0].file}:{line} makes a new reader with a buffer in each "
        "call. The other end has "
        f"written nothing since step {before.last}, got an answer, and waits for more."
    ]


def left_reader(index: RunIndex, call: Call, other: int, position: int) -> list[str]:
    """Sentences about a waiting Read, if a buffered reader made an earlier Read. The function that made that reader has
    dropped it, and the other end has written nothing more."""
    stacks, calls = index.recording.lines, index.by_socket[call.socket]
    reads = [earlier for earlier in calls if earlier.name == "Read" and earlier.moved and 0 < earlier.last < call.first]
    write = index.last_use(other, position, ("Write",))
    if not reads or write is None or write.first > reads[-1].last:
        return []
    inside = functions_of(index, call)
    if raw := past_a_reader(index, call, other, reads[-1], position):
        return raw
    for read in since_an_answer(reads, calls):
        frames = stacks.of(read.first).calls if is_buffered(stacks.of(read.first)) else ()
        for frame in frames:
            if frame.of != OF_THE_PROGRAM:
                continue
            line = own_reader(index, frame) if frame.function not in inside else 0
            if line:
                return [lost_with(index, frame.file, line, read, reads[-1], "its function was left")]
            is_over = frame not in lines_in(index, call) and read.goroutine == call.goroutine
            if is_over and may_have_more(index, read, other) and is_of_one_statement(index, frame):
                return [lost_with(index, frame.file, frame.line, read, reads[-1], "no variable keeps it")]
    return []


def past_a_reader(index: RunIndex, call: Call, other: int, read: Call, position: int) -> list[str]:
    """Sentences about a Read without a buffer, if a buffered reader made the last Read there and the other end waits to
    read. The goroutine is still in the function that made the reader, or that function started the goroutine."""
    lines = index.recording.lines
    if is_buffered(lines.of(call.first)) or not is_buffered(lines.of(read.first)):
        return []
    now = index.last_use(other, position, ("Read",))
    if now is None or 0 < now.last <= position:
        return []
    inside = {outermost(frame.function) for frame in lines.of(call.first).calls if frame.of == OF_THE_PROGRAM}
    for frame in lines.of(read.first).calls:
        line = maker_line(index, frame) if frame.of == OF_THE_PROGRAM and outermost(frame.function) in inside else 0
        if line:
            return [
                lost_with(
                    index, frame.file, line, read, read, f"{text_of_call(index.recording, call)} doesn't read from that"
                )
            ]
    return []


def lines_in(index: RunIndex, call: Call) -> tuple[LineCall, ...]:
    """The lines of a call's stack."""
    return tuple(index.recording.lines.of(call.first).calls)


def since_an_answer(reads: list[Call], calls: list[Call]) -> list[Call]:
    """The last Read on a socket, followed by the earlier Reads after which nothing was written there, latest first."""
    last_write = max((write.first for write in calls if write.name == "Write" and write.moved), default=0)
    return [read for read in reversed(reads) if read is reads[-1] or read.last > last_write]


def lost_with(index: RunIndex, file: str, line: int, read: Call, last: Call, why: str) -> str:
    """A sentence that says that bytes in a reader's buffer may be lost."""
    since = "since" if read is last else f"since step {last.last}"
    return (
        f"Perhaps bytes that were read before are lost: {file}:{line} made a reader with a buffer, which got "
        f"{result_words(index.recording, read).removeprefix('got ')} in step {read.last}, and {why}. The other end has "
        f"written nothing {since}."
    )


def may_have_more(index: RunIndex, read: Call, other: int) -> bool:
    """Whether a Read may have got more than one message: it got the bytes of two Writes, or at least as many bytes as
    the recorder counts."""
    most, moved = index.recording.lines.bytes, read.moved or 0
    if most is not None and moved >= most:
        return True
    begin, offset, writes = index.moved(read.socket, "Read", read.first), 0, 0
    for write in index.by_socket.get(other, ()):
        if write.name == "Write" and write.moved:
            writes += offset < begin + moved and begin < offset + write.moved
            offset += write.moved
    return writes > 1


def is_of_one_statement(index: RunIndex, frame: LineCall) -> bool:
    """Whether one statement makes a reader and reads from it, so that nothing can read from it later."""
    return AT_ONCE.search(text_at(index.recording, frame)) is not None


def is_buffered(stack: Stack) -> bool:
    """Whether a buffered reader makes a read."""
    return any(frame.function.startswith(BUFFERED) for frame in stack.calls)


def own_reader(index: RunIndex, frame: LineCall) -> int:
    """The line at which a function makes a reader, if the function assigns the reader to a variable and doesn't pass it
    on; else 0."""
    source, line = source_of(index.recording, frame.file), maker_line(index, frame)
    within = range_of(source, frame) if source else None
    if not source or not line or not within:
        return 0
    name = VARIABLE.search(source[line - 1])
    rest = (source[number - 1].partition("//")[0] for number in within if number != line)
    return line if name and not any(re.search(HANDED_ON.format(name=name[1]), text) for text in rest) else 0


def maker_line(index: RunIndex, own: LineCall) -> int:
    """The line at which a function first makes a reader; 0 if it makes none before or at the line that reads."""
    source = source_of(index.recording, own.file) if own.of == OF_THE_PROGRAM else None
    within = range_of(source, own) if source else None
    numbers = range(within.start, own.line + 1) if within else range(0)
    return next((at for at in numbers if source and MAKES.search(source[at - 1].partition("//")[0])), 0)


def functions_of(index: RunIndex, call: Call) -> set[str]:
    return {frame.function for frame in index.recording.lines.of(call.first).calls}


def waits_on(index: RunIndex, other: int, read: Call, answer: Call, position: int) -> bool:
    """Whether a goroutine at the other end got the answer, waits to read more, and has written nothing since the
    Read."""
    calls = list(back(index.by_socket.get(other, ()), position))
    now: Call | None = next((call for call in calls if call.name == "Read"), None)
    write = next((call for call in calls if call.name == "Write" and call.moved), None)
    is_read = any(call.name == "Read" and call.moved and call.last > answer.first for call in calls)
    return bool(now and not 0 < now.last <= position and write and write.first < read.last and is_read)
