"""Bytes that were written and that no goroutine reads: the socket that has them is open, and no Read on it is in
progress."""

from collections.abc import Iterable, Iterator
from typing import NamedTuple

from netrev.findings.evidence.call_words import is_of_go, text_of_call
from netrev.findings.evidence.sizes import are_known, moved_at
from netrev.recording.call import CLOSE, Call
from netrev.recording.waits import Name
from netrev.run.index import RunIndex
from netrev.text.plurals import counted

from .exchanges import is_cut


class Unread(NamedTuple):
    """The last Write of bytes that no goroutine reads, their number, and the socket that has them."""

    write: Call
    bytes: int
    socket: int


def unread(index: RunIndex, position: int) -> Iterator[Unread]:
    """The unread bytes at a position. The number of unread bytes is unknown if the recording counts fewer bytes than
    the reads or writes moved."""
    for socket, other in sorted(index.recording.lines.peers.items()):
        count = moved_at(index, socket, "Write", position) - moved_at(index, other, "Read", position)
        write = index.last_use(socket, position, ("Write",))
        calls = [
            call
            for call in (*index.by_socket.get(socket, ()), *index.by_socket.get(other, ()))
            if call.first <= position
        ]
        is_read = any(call.socket == other and call.name == "Read" and not 0 < call.last <= position for call in calls)
        if count > 0 and write and not is_read and not any(call.name == CLOSE for call in calls):
            if (
                write.last
                and not is_of_go(index.recording, write)
                and (are_known(index) or not is_cut(index.recording, index, (socket, other)))
            ):
                yield Unread(write, count, other)


def unread_sentence(index: RunIndex, names: Iterable[Name], position: int) -> list[str]:
    """Sentences about the first unread bytes that one of these goroutines wrote."""
    every = set(names)
    for found in unread(index, position):
        if Name(found.write.goroutine) in every:
            many, is_one = counted(found.bytes, "byte"), found.bytes == 1
            return [
                f"{many} of {text_of_call(index.recording, found.write)} {'is' if is_one else 'are'} unread: nobody "
                f"reads on socket {found.socket}."
            ]
    return []


def unread_answers(index: RunIndex, call: Call, other: int, position: int) -> list[str]:
    """Sentences about a Write that waits for room: its own goroutine hasn't read what was written at the other end."""
    count = moved_at(index, other, "Write", position) - moved_at(index, call.socket, "Read", position)
    write, calls = index.last_use(other, position, ("Write",)), index.by_socket.get(call.socket, ())
    readers = {read.goroutine for read in calls if read.name == "Read"}
    if count <= 0 or write is None or readers - {call.goroutine}:
        return []
    if not are_known(index) and is_cut(index.recording, index, (call.socket, other)):
        return []
    return [
        f"{counted(count, 'byte')} of {text_of_call(index.recording, write)} {'is' if count == 1 else 'are'} unread on "
        f"socket {call.socket}: goroutine "
        f"{call.goroutine}, which reads there, writes on."
    ]
