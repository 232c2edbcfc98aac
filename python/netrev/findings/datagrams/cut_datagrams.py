"""Datagrams that were longer than the buffer into which they were read: the system discards the rest without an
error."""

from collections import defaultdict
from collections.abc import Iterator
from functools import lru_cache
from operator import attrgetter
from typing import NamedTuple

from netrev.findings.evidence.call_words import text_of_call
from netrev.findings.evidence.read_sizes import read_sizes_of
from netrev.findings.evidence.sizes import size_of
from netrev.findings.finding import Cause
from netrev.findings.streams.unaccepted_connections import is_datagram
from netrev.recording.call import Call
from netrev.run.index import RunIndex
from netrev.text.plurals import counted

from .undelivered_datagrams import is_same, sent_at


class CutDatagram(NamedTuple):
    """The Write of a datagram, and the Read that got the first part of the datagram."""

    write: Call
    read: Call

    def says(self, index: RunIndex) -> list[str]:
        """The sentences about the datagram."""
        recording, length = index.recording, counted(size_of(index, self.read), "byte")
        sentence = (
            f"{text_of_call(recording, self.write)} sent a datagram of {counted(size_of(index, self.write), 'byte')} in "
            f"{self.write.steps()}"
        )
        read = f"{text_of_call(recording, self.read)} read it into a buffer of {length}, in step {self.read.last}"
        return [f"{sentence}; {read}: the rest was thrown away."]


@lru_cache(maxsize=2)
def cut_datagrams(index: RunIndex) -> tuple[CutDatagram, ...]:
    """The truncated datagrams of a recording, in the order of their Reads. The Reads of each socket are paired with the
    datagrams sent to its address, as long as the lengths fit."""
    found = [pair for socket in sorted(index.by_socket) for pair in cut_at(index, socket)]
    return tuple(sorted(found, key=lambda pair: pair.read.last))


def cut_at(index: RunIndex, socket: int) -> Iterator[CutDatagram]:
    """The datagrams that were longer than the buffers of the Reads on a socket."""
    sizes = read_sizes_of(index.recording)
    reads = [read for read in index.by_socket[socket] if read.name == "Read" and read.moved and read.last]
    sent = sent_to(index, socket) if reads and is_datagram(index, socket) else []
    for read, write in zip(sorted(reads, key=attrgetter("last")), sent):
        room, size = sizes.of(read), size_of(index, write)
        if room is None or write.first >= read.last or size_of(index, read) != min(size, room):
            return
        if size > room:
            yield CutDatagram(write, read)


def sent_to(index: RunIndex, socket: int) -> list[Call]:
    """The Writes of datagrams to a socket's address, in order."""
    own, peer = index.recording.lines.addresses.get(socket, ("", ""))
    if not own:
        return []
    found = (
        datagram
        for datagram in sent_at(index)
        if is_same(datagram.target, own) and (not peer or is_same(datagram.source, peer))
    )
    return sorted((datagram.write for datagram in found), key=attrgetter("first"))


def causes_of_cuts(index: RunIndex) -> list[Cause]:
    """Possible causes from truncated datagrams: for each line that read truncated datagrams, a cause about the first of
    them."""
    found: dict[object, list[CutDatagram]] = defaultdict(list)
    for pair in cut_datagrams(index):
        found[index.recording.lines.of(pair.read.first).own()].append(pair)
    return [cause_of(index, first, len(others)) for first, *others in found.values()]


def cause_of(index: RunIndex, pair: CutDatagram, others: int) -> Cause:
    """The cause for a truncated datagram, with the number of further truncated datagrams."""
    more = [f"{others} more like it."] if others else []
    looks = [f"goto {pair.read.last}", f"calls sock {pair.read.socket}"]
    return Cause(pair.read, [*pair.says(index), *more], [pair.write.first, pair.read.first], looks)


def cut_sentence(index: RunIndex, call: Call, position: int) -> list[str]:
    """Sentences about a Read that waits for a datagram. If the last datagram that the Read's goroutine sent was
    truncated, the sentences say so, and say what the receiver did next. Otherwise they say so if the last datagram that
    the goroutine received was truncated."""
    write = index.last_use(call.socket, call.first, ("Write",)) if is_datagram(index, call.socket) else None
    pair = next((cut for cut in cut_datagrams(index) if write and cut.write is write), None)
    if pair is None or pair.write.goroutine != call.goroutine or pair.read.last > position:
        return last_cut(index, call)
    own = index.by_goroutine[pair.read.goroutine]
    following = next((own_call for own_call in own if own_call.first > pair.read.last), None)
    says = pair.says(index)
    if following and following.name == "Read" and following.socket == pair.read.socket:
        says.append(f"That goroutine sent no answer: it read on in step {following.first}.")
    return says


def last_cut(index: RunIndex, call: Call) -> list[str]:
    """A sentence about the last datagram that was read on a socket before a call, if that datagram was truncated."""
    reads = [
        read for read in index.by_socket[call.socket] if read.name == "Read" and read.moved and read.first < call.first
    ]
    pair = next((cut for cut in cut_datagrams(index) if reads and cut.read is reads[-1]), None)
    return pair.says(index) if pair else []
