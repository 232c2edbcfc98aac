"""Answers that a goroutine read completely and passed to no other goroutine, while the goroutine that wrote the request
waits on a channel. Clients of many RPC protocols pass answers on through channels."""

import re
from collections import defaultdict
from collections.abc import Mapping
from typing import NamedTuple

from netrev.findings.evidence.call_words import text_of_call
from netrev.findings.evidence.need import Need
from netrev.findings.evidence.waiters import Waiter
from netrev.findings.pools.senders import PUTS, givings_of
from netrev.findings.source.functions import Lines, indent_of, range_of, source_of, text_at
from netrev.recording.call import Call
from netrev.recording.goroutines import FOR_VALUE, PUT, TOOK
from netrev.recording.recording import Recording
from netrev.recording.waits import Name, ObjectWait, name_of_goid
from netrev.recording.where import OF_THE_PROGRAM
from netrev.recording.where import SourceCall as LineCall
from netrev.recording.where import Stack
from netrev.run.index import MOVING, RunIndex
from netrev.text.plurals import counted

from .handed_over_requests import sockets_of_request, written_for

RECEIVE = re.compile(r"<-\s*([\w.]+)(?![\w.(])")
GOES_ON = re.compile(r"\s*(continue\b|default:)")
CONDITION = re.compile(r"\s*(?:\} else )?if\b")
MOST_WAYS = 2


class Hand(NamedTuple):
    """A goroutine that reads from a socket and passes on what it read, and the line at which it puts values into
    channels."""

    reader: Waiter
    call: Call
    line: LineCall


def is_for_values(wait: ObjectWait) -> bool:
    """Whether a goroutine waits only for values from channels."""
    return bool(wait.objects) and all(at.use == FOR_VALUE for at in wait.objects)


def dropped_answer(index: RunIndex, wait: ObjectWait, hands: Mapping[int, list[Hand]]) -> Need | None:
    """What a waiting goroutine needs: an answer that a goroutine in `hands` (keyed by socket) read and passed to no
    other goroutine. None if unknown."""
    sockets = sockets_of_request(index, wait) if hands else set()
    for hand in (hand for socket in sorted(sockets) for hand in hands.get(socket, ())):
        request = request_of(index, wait, hand.call.socket)
        read = read_since(index, hand, request) if request else None
        if request and read and not has_put(index.recording, wait, read) and is_answered(index, request):
            return Need(sentence_of(index, wait, hand, request, read), stopped=read.first, is_odd=True)
    return None


def hands_of(recording: Recording, wait: ObjectWait, waiters: Mapping[Name, Waiter]) -> list[Hand]:
    """The goroutines that wait to read and that pass on what they read. Each has put a value into a channel, and the
    waiter's line received from that channel. A goroutine that is in a function which put such a value counts too. If no
    goroutine has put such a value, these are the goroutines in functions with a line that can put one."""
    readers = {name: waiter for name, waiter in waiters.items() if waiter.call and waiter.call.name == "Read"}
    lines, own = recording.lines, wait.stack.own()
    taken = {
        number
        for number, uses in lines.uses.items()
        if any(use.what == TOOK and lines.stacks[use.stack].own() == own for use in uses)
    }
    found = dict[Name, Hand]()
    for number in taken:
        for use in lines.uses[number]:
            name, line = name_of_goid(lines, use.goid), lines.stacks[use.stack].own()
            if use.what == PUT and name in readers and line and line[0].of == OF_THE_PROGRAM:
                found.setdefault(name, hand_of(readers[name], line[0]))
    for hand in list(found.values()):
        for name, reader in readers.items():
            if any(call.function == hand.line.function for call in reader.stack.calls):
                found.setdefault(name, hand_of(reader, hand.line))
    return list(found.values()) or by_source(recording, wait, readers)


def by_socket(hands: list[Hand]) -> dict[int, list[Hand]]:
    """The goroutines, keyed by the sockets from which they read."""
    found: dict[int, list[Hand]] = defaultdict(list)
    for hand in hands:
        found[hand.call.socket].append(hand)
    return found


def hand_of(reader: Waiter, line: LineCall) -> Hand:
    assert reader.call is not None
    return Hand(reader, reader.call, line)


def by_source(recording: Recording, wait: ObjectWait, readers: Mapping[Name, Waiter]) -> list[Hand]:
    """The goroutines that read in a function and have not yet reached the line at which it puts a value into a channel.
    The waiter's line uses the same name for the channel."""
    own = wait.stack.own()
    name = RECEIVE.search(text_at(recording, own[0])) if own and own[0].of == OF_THE_PROGRAM else None
    source = source_of(recording, own[0].file) if own and name else None
    if not own or not name or not source:
        return []
    found = []
    for reader in readers.values():
        for call in reader.stack.calls:
            for giving in givings_of(source, own[0], name[1], PUTS):
                if call.file == own[0].file and call.line in giving.within and call.line < giving.number:
                    found.append(hand_of(reader, call._replace(line=giving.number)))
    return found


def request_of(index: RunIndex, wait: ObjectWait, socket: int) -> Call | None:
    """The last Write of a goroutine to a socket before it waits. If the waiter made no Write, the result is the first
    Write of a goroutine that got the request from the waiter."""
    calls = index.calls_of(wait.name)
    writes = [call for call in calls if call.name == "Write" and call.socket == socket and call.moved and call.last]
    own = next((write for write in reversed(writes) if write.first <= wait.first), None)
    return own or written_for(index, wait, socket)


def read_since(index: RunIndex, hand: Hand, request: Call) -> Call | None:
    """The last Read, after a Write, that got bytes for a goroutine; the Read in which the goroutine waits now doesn't
    count."""
    calls = [call for call in index.by_goroutine.get(hand.call.goroutine, []) if call.socket == hand.call.socket]
    reads = [call for call in calls if call.name == "Read" and call.moved and call.last]
    return next((read for read in reversed(reads) if request.first < read.last < hand.call.first), None)


def has_put(recording: Recording, wait: ObjectWait, read: Call) -> bool:
    """Whether a goroutine put a value into one of a wait's channels after a Read."""
    uses = (use for at in wait.objects for use in recording.lines.uses.get(at.object, ()))
    return any(use.what == PUT and use.last >= read.last for use in uses)


def is_answered(index: RunIndex, request: Call) -> bool:
    """Whether, as far as known, all requests at a socket were answered. Either a goroutine at the other end read after
    the request, wrote, and now reads again, or the other end made as many Writes as this end."""
    other = index.other_end(request.socket)
    if other is None:
        return False
    moved = [call for call in index.by_socket.get(other, ()) if call.name in MOVING and call.moved and call.last]
    read = next((call for call in moved if call.name == "Read" and call.last > request.first), None)
    answers = [call for call in moved if call.name == "Write" and read and call.first > read.last]
    if not answers:
        return False
    writers = {call.goroutine for call in moved if call.name == "Write"}
    requests = [write for write in index.by_socket[request.socket] if write.name == "Write" and write.moved]
    is_serial = len(writers) == 1 and moved[-1].name == "Write" and reads_on(index, moved[-1].goroutine, other)
    return is_serial or sum(call.name == "Write" for call in moved) >= len(requests)


def reads_on(index: RunIndex, goroutine: int, socket: int) -> bool:
    """Whether a goroutine is in a Read on a socket at the end of the recording."""
    now = index.call_at(goroutine, index.recording.length)
    return now is not None and now.name == "Read" and now.socket == socket


def sentence_of(index: RunIndex, wait: ObjectWait, hand: Hand, request: Call, read: Call) -> list[str]:
    """The sentences about the request, the goroutine that read the answer, and the lines at which that goroutine
    continues without passing the answer on."""
    recording, name = index.recording, hand.reader.name
    was = "was" if Name(request.goroutine) == wait.name else "was perhaps"
    says = [
        f"{text_of_call(recording, request)} in {request.steps()} {was} its request. {text_of_call(recording, read)} "
        "got "
        f"{counted(read.moved or 0, 'byte')} after "
        f"that, in step {read.last}, and reads on since step {hand.call.first}: it handed that to no goroutine that waits there."
    ]
    ways, place = paths_past(recording, hand.reader.stack, hand.line.file, hand.line.line), hand.line.place()
    by = paths_text(hand.line.file, ways)
    continuation = f"{by} without {place}, where it hands values on" if ways else f"it hands values on at {place}"
    return [*says, f"Perhaps {name} dropped the answer: {continuation}."]


def paths_text(file: str, ways: list[int]) -> str:
    """Text for the lines at which a goroutine continues: `a.go:3 goes on`."""
    return f"{' and '.join(f'{file}:{number}' for number in ways)} {'go' if len(ways) > 1 else 'goes'} on"


def paths_past(recording: Recording, stack: Stack, file: str, number: int) -> list[int]:
    """The lines at which a goroutine continues after its wait without reaching a line that puts a value into a channel:
    `continue`, `default:`, or the condition around that line."""
    lines = source_of(recording, file)
    calls = (
        [call for call in stack.calls if call.file == file and call.of == OF_THE_PROGRAM and call.line < number]
        if lines
        else []
    )
    within = next((range_of(lines, call) for call in calls if lines and number in (range_of(lines, call) or ())), None)
    if not lines or not within:
        return []
    begin = max((call.line for call in calls if call.line in within), default=within.start)
    found = [at for at in range(begin + 1, number) if GOES_ON.match(lines[at - 1])]
    found += conditions_around(lines, begin, number) + defaults_after(lines, number)
    return sorted(found)[-MOST_WAYS:]


def defaults_after(lines: Lines, number: int) -> list[int]:
    """The `default:` of the select that has this line as a case."""
    if not lines[number - 1].lstrip().startswith("case "):
        return []
    margin = indent_of(lines[number - 1])
    for at in range(number + 1, len(lines) + 1):
        if lines[at - 1].strip() and indent_of(lines[at - 1]) < margin:
            return []
        if lines[at - 1].strip() == "}" and indent_of(lines[at - 1]) == margin:
            return []
        if indent_of(lines[at - 1]) == margin and lines[at - 1].lstrip().startswith("default:"):
            return [at]
    return []


def conditions_around(lines: Lines, begin: int, number: int) -> list[int]:
    """The innermost condition around a line, if the condition comes after another line."""
    margin = indent_of(lines[number - 1])
    for at in range(number - 1, begin, -1):
        if lines[at - 1].strip() and indent_of(lines[at - 1]) < margin:
            margin = indent_of(lines[at - 1])
            if CONDITION.match(lines[at - 1]):
                return [at]
    return []
