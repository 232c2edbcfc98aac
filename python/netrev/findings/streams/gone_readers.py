"""Goroutines that were the only readers of a connection and have ended. The connection is still open, and more bytes
may have come."""

from collections.abc import Iterator
from typing import NamedTuple

from netrev.findings.evidence.call_words import is_of_go, result_words, text_of_call
from netrev.findings.evidence.ended_goroutines import left_by
from netrev.findings.evidence.long_lines import long_line_sentence
from netrev.findings.finding import Cause
from netrev.recording.call import CLOSE, Call, Outcome
from netrev.run.index import RunIndex


class GoneReader(NamedTuple):
    """The last Read on a socket, the step after which its goroutine ended, and the first Write at the other end after
    that step, if any."""

    read: Call
    ended: int
    write: Call | None

    def says(self, index: RunIndex) -> list[str]:
        """The sentences about the reader."""
        recording, read = index.recording, self.read
        says = [
            f"nobody reads on socket {read.socket} any more: goroutine {read.goroutine}, which alone had read there, ended after step {self.ended}.",
            f"Its last was {text_of_call(recording, read)}, {read.steps()}, {result_words(recording, read)}.",
        ]
        says += long_line_sentence(index, read)
        if self.write:
            says.append(
                f"{text_of_call(recording, self.write)} came after that, in {self.write.steps()}: nobody has read it."
            )
        return says


def gone_readers(index: RunIndex, position: int) -> Iterator[GoneReader]:
    """The readers that have ended at a position, except the readers of connections that were closed at this end."""
    for socket in sorted(index.recording.lines.peers):
        reader = gone_reader(index, socket, position)
        if reader is not None:
            yield reader


def gone_reader(index: RunIndex, socket: int, position: int) -> GoneReader | None:
    """The only goroutine that read from a socket, if it had ended by a position. The result is None if no such
    goroutine exists or if the socket was closed at this end."""
    other = index.recording.lines.peers.get(socket)
    if other is None:
        return None
    calls = [call for call in index.by_socket.get(socket, ()) if call.first <= position]
    reads = [call for call in calls if call.name == "Read"]
    if not reads or len({read.goroutine for read in reads}) > 1 or any(call.name == CLOSE for call in calls):
        return None
    last, ended = reads[-1], ended_after(index, reads[-1], position)
    if ended is None or is_of_go(index.recording, last):
        return None
    writes = (call for call in index.by_socket.get(other, ()) if call.name == "Write" and call.moved and call.last)
    return GoneReader(last, ended, next((write for write in writes if ended < write.first <= position), None))


def ended_after(index: RunIndex, call: Call, position: int) -> int | None:
    """The step after which a call's goroutine ended, if it had ended by a position; None if it hadn't, or if the step
    is unknown."""
    lines = index.recording.lines
    known = lines.goroutines.get(lines.goid_of(call.goroutine, call.first))
    return known.last if known is not None and 0 <= known.last <= position else None


def without_reader(index: RunIndex) -> Iterator[Cause]:
    """Possible causes at the end of the recording: readers that ended before more bytes came, although their last Read
    neither failed nor reached the end of the stream."""
    for reader in gone_readers(index, index.recording.length):
        if not reader.write or not reader.read.moved or reader.read.outcome is not Outcome.DONE:
            continue
        looks = [f"goto {reader.read.last}", f"calls sock {reader.read.socket}"]
        yield Cause(reader.read, reader.says(index), [reader.read.first, reader.write.first], looks, reader.read.last)


def ended_reader(index: RunIndex, call: Call, other: int, position: int) -> list[str]:
    """Sentences about a Read that waits for an answer: the only goroutine that had read at the other end has ended. The
    sentences name the lines at which it left its loop."""
    reader = gone_reader(index, other, position)
    write = index.last_use(call.socket, position, ("Write",))
    if reader is None or reader.read.outcome is not Outcome.DONE or write is None or write.goroutine != call.goroutine:
        return []
    read = reader.read
    return [
        f"Nobody reads at socket {other} any more: goroutine {read.goroutine}, whose last was "
        f"{text_of_call(index.recording, read)}, ended after step "
        f"{reader.ended}{left_by(index, read)}.",
        *long_line_sentence(index, read),
    ]
