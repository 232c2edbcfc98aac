"""Datagrams that a connected socket never gets, because the socket is connected to an address other than their source
address."""

from collections.abc import Iterator
from typing import NamedTuple

from netrev.findings.evidence.call_words import place_in, text_of_call
from netrev.findings.evidence.need import Need
from netrev.recording.call import Call
from netrev.run.index import RunIndex

UNSPECIFIED = ("0.0.0.0:", "[::]:")


class Sent(NamedTuple):
    """A datagram: its Write, its source address and its destination address."""

    write: Call
    source: str
    target: str


def unheard(index: RunIndex, call: Call, position: int) -> Need | None:
    """What a Read on a connected socket needs, if a datagram came to the socket from another address; else None."""
    own, peer = index.recording.lines.addresses.get(call.socket, ("", ""))
    if not peer:
        return None
    since = max(
        (
            read.last
            for read in index.by_socket[call.socket]
            if read.name == "Read" and read.moved and read.last < call.first
        ),
        default=0,
    )
    found = (
        datagram
        for datagram in sent_at(index)
        if since < datagram.write.first <= position
        and is_same(datagram.target, own)
        and not is_same(datagram.source, peer)
    )
    sent = min(found, key=lambda datagram: datagram.write.first, default=None)
    if sent is None:
        return None
    says = [
        f"{text_of_call(index.recording, sent.write)} sent a datagram to its address, {own}, in {sent.write.steps()}, "
        f"from socket {sent.write.socket}, "
        f"{sent.source}{opened_at(index, sent.write.socket)}.",
        f"Socket {call.socket} is connected to {peer}: the system drops what comes from any other address.",
    ]
    return Need(says, is_odd=True)


def opened_at(index: RunIndex, socket: int) -> str:
    """The line that opened a socket: `, which was opened at a.go:41 in answer`; empty if unknown."""
    opened = index.opening(socket)
    stack = index.recording.lines.of(opened.first) if opened else None
    return f", which was opened{place_in(stack)}" if stack and stack.own() else ""


def is_same(address: str, other_address: str) -> bool:
    """Whether two addresses may be the same. If one address is unspecified, only the ports are compared."""
    if address.startswith(UNSPECIFIED) or other_address.startswith(UNSPECIFIED):
        return address.rpartition(":")[2] == other_address.rpartition(":")[2]
    return address == other_address


def sent_at(index: RunIndex) -> Iterator[Sent]:
    """The datagrams whose source and destination addresses are known: their socket is connected, or their Write names
    the address."""
    lines = index.recording.lines
    for socket, (own, peer) in lines.addresses.items():
        for call in index.by_socket.get(socket, ()) if peer else ():
            if call.name == "Write" and call.moved:
                yield Sent(call, own, peer)
    for step, target in lines.sent.items():
        write = index.call_of(step) if 0 < step <= index.recording.length else None
        if write and write.name == "Write" and write.moved and write.socket in lines.addresses:
            yield Sent(write, lines.addresses[write.socket][0], target)
