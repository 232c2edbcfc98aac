"""An end of a stream that a relay didn't pass on. The relay is a goroutine that only read from one socket and only
wrote to another. The relay reached the end of its input, had written everything, and never closed the other socket for
writing, so the reader at that socket's other end hangs."""

from collections.abc import Iterator
from typing import NamedTuple

from netrev.findings.evidence.call_words import is_of_go, text_of_call
from netrev.findings.evidence.waiters import is_waiting
from netrev.findings.pools.balances import has_ended
from netrev.recording.call import Call, Outcome
from netrev.recording.recording import Recording
from netrev.recording.waits import Name
from netrev.run.index import MOVING, RunIndex

SETTLED = 16  # a relay would have closed the other socket within this many steps after the end of the stream


class UnpassedEnd(NamedTuple):
    """A relay's Read that reached the end of a stream, the relay's last Write, and the Read that hangs at the other end
    of that Write's socket."""

    met: Call
    write: Call
    waits: Call

    def says(self, recording: Recording) -> list[str]:
        """The sentences about the end of a stream that a relay didn't pass on."""
        socket, reader = self.write.socket, text_of_call(recording, self.waits)
        ended = " The goroutine has ended." if has_ended(recording, Name(self.met.goroutine)) else ""
        return [
            f"The end of a stream isn't passed on: {text_of_call(recording, self.met)} met it on socket "
            f"{self.met.socket} in step {self.met.last}, and "
            f"socket {socket}, to which that goroutine wrote, is never closed for writing.{ended}",
            f"{reader} waits for it at the other end, socket {self.waits.socket}, since step {self.waits.first}.",
        ]


def unpassed_ends(index: RunIndex) -> Iterator[UnpassedEnd]:
    """The ends of streams that relays didn't pass on."""
    for call in index.calls:
        if call.outcome is not Outcome.EOF or call.name != "Read" or is_of_go(index.recording, call):
            continue
        write = last_write_of_relay(index, call)
        if write is None or index.closing(write.socket, index.recording.length):
            continue
        if waits := reader_of(index, write.socket):
            yield UnpassedEnd(call, write, waits)


def last_write_of_relay(index: RunIndex, end: Call) -> Call | None:
    """A relay's last Write, if it came after the relay's last Read that got something. The relay's Reads are all on one
    socket, its Writes are all on another, and its last call is this Read. The result is None if the goroutine isn't
    such a relay."""
    calls = [call for call in index.by_goroutine[end.goroutine] if call.name in MOVING]
    reads, writes = ([call for call in calls if call.name == name] for name in MOVING)
    if not writes or calls[-1] is not end or len({read.socket for read in reads}) > 1 or not is_over(index, end):
        return None
    if len({write.socket for write in writes}) > 1 or writes[-1].socket == end.socket:
        return None
    data_reads = [read for read in reads if read.moved]
    return writes[-1] if not data_reads or data_reads[-1].first < writes[-1].first else None


def is_over(index: RunIndex, end: Call) -> bool:
    """Whether a goroutine has had a chance to close the other socket: it has ended, or enough steps have passed
    since."""
    return index.recording.length - end.last >= SETTLED or has_ended(index.recording, Name(end.goroutine))


def reader_of(index: RunIndex, socket: int) -> Call | None:
    """The Read at the other end of a socket, if it waits at the end of the recording."""
    other = index.other_end(socket)
    calls = () if other is None else index.by_socket.get(other, ())
    return next((call for call in calls if call.name == "Read" and not call.last and is_waiting(index, call)), None)
