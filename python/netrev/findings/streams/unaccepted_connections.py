"""A Read or a Write on a connection that wasn't accepted: the goroutine that accepts on the listener is in another
call, or has ended."""

from collections.abc import Iterator
from typing import NamedTuple

from netrev.findings.evidence.call_words import place_of, text_of_call, waits_words
from netrev.findings.evidence.ended_goroutines import ended_where, left_by
from netrev.findings.evidence.need import Certainty, Need
from netrev.findings.pools.balances import has_ended
from netrev.recording.call import CLOSE, OPEN, Call
from netrev.recording.waits import Name, waits_of
from netrev.run.index import ACCEPTS, RunIndex, back

CONNECTS = "net.(*netFD).connect"
DATAGRAMS = ("dialUDP", "listenUDP", "DialUDP", "ListenUDP")


class Listener(NamedTuple):
    """A listener, its last Accept, and whether the connection was certainly made to this listener."""

    socket: int
    accept: Call | None
    is_sure: bool


def unaccepted(index: RunIndex, call: Call, position: int) -> Need | None:
    """What a call needs if its connection's other end isn't known: the goroutine that should accept the connection,
    with a sentence about what that goroutine does instead. The result is None if the connection may have been
    accepted."""
    if not is_dialed(index, call.socket):
        return None
    listener = listener_of(index, call.socket, position)
    accept = listener.accept if listener else None
    if listener is None or accept is None or not accept.last or accept.last > position:
        return None
    perhaps, at = "" if listener.is_sure else "perhaps ", place_of(index.recording, accept.first)
    how = f"{perhaps}{{by}}, which accepts{at}, hasn't accepted its connection"
    certainty = Certainty.KNOWN if listener.is_sure else Certainty.PERHAPS
    name, now = Name(accept.goroutine), index.call_at(accept.goroutine, position)
    wait = waits_of(index.recording).at(name, position)
    where = f"{name}, which accepts{at},"
    does = (
        f"is in {text_of_call(index.recording, now)} since step {now.first}"
        if now
        else f"{waits_words(wait)} since step {wait.first}"
        if wait
        else f"has ended{left_by(index, accept) or ended_where(index, name)}"
        if has_ended(index.recording, name)
        else "is in no call of a socket"
    )
    says = f"{perhaps}nobody has accepted its connection: {where} {does}."
    return Need([says[0].upper() + says[1:]], name, how, certainty)


def is_dialed(index: RunIndex, socket: int) -> bool:
    """Whether a socket was opened to connect a stream."""
    return has_opened(index, socket, CONNECTS) and not is_datagram(index, socket)


def is_datagram(index: RunIndex, socket: int) -> bool:
    return any(has_opened(index, socket, part) for part in DATAGRAMS)


def has_opened(index: RunIndex, socket: int, part: str) -> bool:
    """Whether a function with `part` in its name opened a socket."""
    opened = index.opening(socket)
    return opened is not None and any(part in frame.function for frame in index.recording.lines.of(opened.first).calls)


def listener_of(index: RunIndex, socket: int, position: int) -> Listener | None:
    """The listener to which a socket was connected: the listener with the address of the socket's other end, else the
    only open listener."""
    found = {listener: calls for listener in index.by_socket if (calls := accepts_at(index, listener))}
    ends = index.recording.lines.ends
    if socket in ends:
        own, other = ends[socket]
        if any(names == (other, own) for names in ends.values()):
            return None
        for listener, calls in found.items():
            accepted = list(accepted_at(index, calls))
            if any(ends.get(connection, (0, 0))[0] == other for connection in accepted):
                return Listener(listener, calls[-1], all(connection in ends for connection in accepted))
    listening = [candidate for candidate in found if not closed(index, candidate, position)]
    return Listener(listening[0], found[listening[0]][-1], False) if len(listening) == 1 else None


def accepts_at(index: RunIndex, socket: int) -> list[Call]:
    """The Accepts on a socket."""
    calls = index.by_socket[socket]
    return [call for call in calls if call.name == "Read" and index.is_listening(call)] if calls[0].name == OPEN else []


def accepted_at(index: RunIndex, accepts: list[Call]) -> Iterator[int]:
    """The sockets that the Accepts returned."""
    for accept in accepts:
        opened = (
            opening for opening in index.by_goroutine[accept.goroutine]
            if opening.name == OPEN and accept.last and opening.first > accept.last
            and any(
                call.function in ACCEPTS or call.function.endswith(".accept")
                for call in index.recording.lines.of(opening.first).calls
            )
        )  # fmt: skip
        first = next(opened, None)
        if first:
            yield first.socket


def closed(index: RunIndex, socket: int, position: int) -> bool:
    return any(call.name == CLOSE for call in back(index.by_socket[socket], position))
