"""Unbuffered channels whose maker has returned. A goroutine waits for a receiver, and the recording shows which
function made the channel. In the program's source, the module finds the lines at which that function returns."""

import re

from netrev.findings.evidence.call_words import short
from netrev.findings.source.functions import found_in, text_at
from netrev.recording.goroutines import A_RECEIVER, PUT, At
from netrev.recording.recording import Recording
from netrev.recording.waits import Name, ObjectWait, name_of_goid, waits_of
from netrev.recording.where import OF_THE_PROGRAM, SourceCall
from netrev.run.index import RunIndex

from .balances import has_ended
from .left_sockets import is_in, stack_at

MAKES = re.compile(r"\s*(\w+) := make\(chan\b")
RETURNS = re.compile(r"^\s*return\b")
MOST = 2


def without_receiver(index: RunIndex, wait: ObjectWait, position: int) -> list[str]:
    """Sentences about a goroutine that waits for a receiver; none if the function that made the channel is still
    running or isn't known."""
    lines = index.recording.lines
    creation = lines.made.get(wait.objects[0].object) if len(wait.objects) == 1 else None
    own = lines.stacks[creation.stack].own() if creation else None
    if creation is None or own is None or own[0].of != OF_THE_PROGRAM or wait.reason != A_RECEIVER:
        return []
    if not is_local(index, own[0]) or not has_returned(index, name_of_goid(lines, creation.goid), own[0], position):
        return []
    return [
        f"{own[0].place()} in {short(own[0].function)} made that channel, without room for a value, and has returned{returns_sentence(index, own[0])}."
    ]


def is_local(index: RunIndex, line: SourceCall) -> bool:
    """Whether a line makes a channel for a variable that its function neither returns nor stores elsewhere."""
    match = MAKES.match(text_at(index.recording, line))
    if match is None:
        return False
    name = re.escape(match[1])
    keeps = re.compile(rf"\breturn\b.*(?<!<-)\b{name}\b|[:=] *{name}\b *[,}}]?$|\w: *{name}\b|append\(.*\b{name}\b")
    return not found_in(index.recording, line, keeps)


def has_returned(index: RunIndex, maker: Name, line: SourceCall, position: int) -> bool:
    """Whether a goroutine has left the function of a line: it has ended, or its stack no longer contains the
    function."""
    if has_ended(index.recording, maker):
        return True
    wait = waits_of(index.recording).at(maker, position)
    now = wait.stack if wait else None if maker.is_goid else stack_at(index, maker.number, position)
    return now is not None and bool(now.calls) and not is_in(now, line)


def returns_sentence(index: RunIndex, line: SourceCall) -> str:
    """Text for the lines at which a function returns; empty if there are none or too many."""
    found = [number for number, _ in found_in(index.recording, line, RETURNS) if number > line.line]
    places = " or ".join(f"{line.file}:{number}" for number in found)
    return f", by {places}" if 0 < len(found) <= MOST else ""


def is_filled_by_maker(recording: Recording, at: At) -> bool:
    """Whether only the function that made a channel put values into it, as for a token bucket."""
    lines = recording.lines
    creation = lines.made.get(at.object)
    own = lines.stacks[creation.stack].own() if creation else None
    puts = [lines.stacks[use.stack].own() for use in lines.uses.get(at.object, ()) if use.what == PUT]
    return own is not None and bool(puts) and all(put and put[0].function == own[0].function for put in puts)
