"""What each waiting goroutine needs, and which goroutine could give it. The evidence is in the recording's steps, in
earlier uses, or in stacks alone."""

from operator import attrgetter

from netrev.findings.datagrams.cut_datagrams import cut_sentence
from netrev.findings.datagrams.datagrams import unanswered_datagram
from netrev.findings.datagrams.shared_sockets import shared_sentence
from netrev.findings.datagrams.undelivered_datagrams import unheard
from netrev.findings.evidence.call_words import place_of_step, result_words, since_begin, text_of_call, waits_words
from netrev.findings.evidence.need import Certainty, Need
from netrev.findings.evidence.waiters import Waiter
from netrev.findings.locks.new_readers import left_reader, thrown_away
from netrev.findings.pools.left_sockets import left_socket
from netrev.findings.streams.ends_of_reads import end_sentence
from netrev.findings.streams.exchanges import lacking, unanswered, unasked
from netrev.findings.streams.gone_readers import ended_reader
from netrev.findings.streams.idle_listeners import idle_listeners
from netrev.findings.streams.left_in_buffers import left_in_buffer
from netrev.findings.streams.unaccepted_connections import is_dialed, unaccepted
from netrev.findings.streams.unread_bytes import unread_answers
from netrev.recording.call import CLOSE, Call
from netrev.recording.cell_meanings import SIDES
from netrev.recording.waits import Name, Waits, name_of_goid, waits_of
from netrev.run.index import READING, RunIndex

from .needs_elsewhere import NeedsElsewhere

DID = {"Write": "wrote to", "Read": "read at"}


class Needs:
    """Finds what each waiting goroutine needs at a position."""

    def __init__(self, index: RunIndex, waiters: dict[Name, Waiter], position: int) -> None:
        self._index, self._recording, self._position = index, index.recording, position
        self._waits, self._waiters = waits_of(index.recording), waiters
        self._elsewhere = NeedsElsewhere(index, self._waits, waiters, position)

    def of(self, waiter: Waiter) -> Need:
        """What a waiting goroutine needs."""
        if waiter.call:
            return self.of_call(waiter.call)
        return self._elsewhere.of(waiter, waiter.wait) if waiter.wait else Need([])

    def of_call(self, call: Call) -> Need:
        """What a waiting call needs."""
        if call.is_asking:
            return self._of_lock(call)
        index, is_reading = self._index, call.name in READING
        other = index.other_end(call.socket)
        if other is None:
            need = unheard(index, call, self._position) if is_reading else None
            if is_dialed(index, call.socket) and (idle := idle_listeners(index, self._position)):
                return Need(idle, is_odd=True)
            need = need or unaccepted(index, call, self._position)
            of_datagram = cut_sentence(index, call, self._position) or unanswered_datagram(index, call, self._position)
            return need or Need([], more=[*of_datagram, *shared_sentence(index, call)])
        if by := index.closing(other, self._position, whole=not is_reading):
            how = "closed" if by.name == CLOSE else "closed for writing"
            where = place_of_step(self._recording, by.first, by.goroutine)
            return Need([f"Its other end, socket {other}, was {how}{where}."])
        need = self._of_other_end(call, other, is_reading)
        if not is_reading:
            return need._replace(more=[*need.more, *unread_answers(index, call, other, self._position)])
        lost = left_reader(index, call, other, self._position) or thrown_away(index, call, other, self._position)
        more = lost or self._of_exchange(call, other) or left_socket(index, other, self._position)
        more = more or ended_reader(index, call, other, self._position)
        ends = [] if more else end_sentence(index, call, other, self._position)
        return need._replace(more=more or ends, beside=tuple(lost), is_plain=bool(ends))

    def _of_exchange(self, call: Call, other: int) -> list[str]:
        """Sentences about what a waiting Read needs. The sentences are derived from the earlier Writes of the Read's
        goroutine, the Reads at the other end, and the counts of bytes."""
        index = self._index
        found = lacking(index, call, other) or left_in_buffer(index, call) or unasked(index, call)
        return found or unanswered(index, call, other, self._position)

    def _of_lock(self, call: Call) -> Need:
        """What a call needs while it waits for the lock of a socket's side: the end of the call that holds the lock."""
        holders = [
            candidate for candidate in self._index.by_socket[call.socket]
            if candidate.side == call.side and not candidate.is_asking and candidate.first <= self._position
            and self._is_under_way(candidate)
        ]  # fmt: skip
        if not holders or not call.side:
            return Need([])
        holder, lock = holders[-1], f"socket {call.socket}'s {SIDES[call.side]} lock"
        says = f"It waits for {lock}, which {text_of_call(self._recording, holder)} has since step {holder.first}."
        names = {Name(holder.goroutine), Name(call.goroutine)}
        return Need([says], Name(holder.goroutine), "{by} has the lock", more=self._elsewhere.excess_of(names))

    def _is_under_way(self, call: Call) -> bool:
        return not call.last or call.last > self._position

    def _of_other_end(self, call: Call, other: int, is_reading: bool) -> Need:
        """What a Read or a Write needs: bytes or room, from the goroutine that last used the other end."""
        index, wanted = self._index, "Write" if is_reading else "Read"
        did = index.last_use(other, self._position, (wanted,))
        last = did or index.last_use(other, self._position)
        says = self._needed(call, other, did)
        if last is None:
            opened = index.last_use(other, self._position, ("Open",))
            if opened and (since := since_begin(self._recording, opened.first)):
                return Need([*says, f"Nobody has read or written there{since}."])
            place = place_of_step(self._recording, opened.first, opened.goroutine) if opened else ""
            says.append(f"Nobody has read or written there since it was opened{place}.")
            if opened and (started := self._started_for(opened)):
                return Need(says, started, "perhaps {by} should use the other end", Certainty.PERHAPS)
            by = Name(opened.goroutine) if opened else None
            return Need(says, by, "perhaps {by} should use the other end, which it opened", Certainty.PERHAPS)
        if did and index.call_at(last.goroutine, self._position) is did and not did.is_asking:
            return Need(
                [*says, f"There {text_of_call(self._recording, last)} is itself under way since step {last.first}."]
            )
        if is_reading and not did and (relay := self._relay_back(last)):
            return Need(
                [*says, *self._since_then(last)],
                relay,
                "perhaps {by} writes what it reads to the other end",
                Certainty.PERHAPS,
            )
        if is_reading and not did and (worker := self._started_by(last)):
            how = "perhaps {by} answers what was read there last"
            return Need([*says, *self._since_then(last)], worker, how, Certainty.PERHAPS)
        if did and is_reading and (sibling := self._sibling_of(did)):
            how = f"perhaps {{by}} writes to the other end, as goroutine {did.goroutine} of the same go statement did"
            return Need([*says, *self._since_then(last)], sibling, how, Certainty.PERHAPS)
        how = f"{{by}} {DID[wanted] if did else 'used'} the other end last"
        return Need([*says, *self._since_then(last)], Name(last.goroutine), how, Certainty.LIKELY, self._stopped(last))

    def _sibling_of(self, write: Call) -> Name | None:
        """A waiting goroutine that perhaps writes the answer. A goroutine that has ended wrote an earlier answer, and
        the reader of the requests started both goroutines at the same `go` statement."""
        lines = self._recording.lines
        known = lines.goroutines.get(lines.goid_of(write.goroutine, write.first))
        if known is None or known.made is None or known.last < 0 or not known.maker:
            return None
        maker = name_of_goid(lines, known.maker)
        if not any(call.name == "Read" and call.socket == write.socket for call in self._index.calls_of(maker)):
            return None
        alike = (
            goroutine
            for goroutine in lines.goroutines.values()
            if (goroutine.made, goroutine.maker) == (known.made, known.maker)
        )
        waiters = [
            self._waiters[name] for goroutine in alike if (name := name_of_goid(lines, goroutine.goid)) in self._waiters
        ]
        first = min(waiters, key=attrgetter("since"), default=None)
        return first.name if first else None

    def _started_by(self, last: Call) -> Name | None:
        """The goroutine that was perhaps meant to write what a Read waits for, if nothing has been written at the other
        end. That goroutine waits elsewhere. The other end's reader started it after the last request, and now reads
        again."""
        lines, reads = self._recording.lines, self._index.by_socket[last.socket]
        requests = [
            read
            for read in reads
            if read.goroutine == last.goroutine and read.name == "Read" and read.moved and read.last
        ]
        maker = lines.goid_of(last.goroutine, last.first)
        if last.name != "Read" or not self._is_under_way(last) or not requests or not maker:
            return None
        started = [
            goroutine
            for goroutine in lines.goroutines.values()
            if goroutine.maker == maker and goroutine.first >= requests[-1].last
        ]
        waiters = [
            self._waiters[name]
            for goroutine in started
            if (name := name_of_goid(lines, goroutine.goid)) in self._waiters
        ]
        first = min(waiters, key=attrgetter("since"), default=None)
        return first.name if first else None

    def _relay_back(self, last: Call) -> Name | None:
        """The goroutine that should perhaps write what a Read waits for, if nothing has been written at the other end.
        The goroutine of `last` reads there and writes to a second socket, so it may be half of a relay. The result is
        the other half, which waits to read from the second socket."""
        if last.name != "Read" or Name(last.goroutine) in self._waiters:
            return None
        sockets = {
            write.socket for write in self._index.by_goroutine[last.goroutine] if write.name == "Write" and write.moved
        } - {last.socket}
        readers = (
            waiter
            for waiter in self._waiters.values()
            if waiter.call and waiter.call.name in READING and waiter.call.socket in sockets
        )
        found = next(readers, None)
        return found.name if found else None

    def _needed(self, call: Call, other: int, did: Call | None) -> list[str]:
        """Sentences about what a call needs from the other end. `did` is the last read or write at that end."""
        if call.name in READING:
            return [f"It needs bytes from its other end, socket {other}."]
        is_read = did and self._is_under_way(did) and not did.is_asking
        ended = "was never read" if not did else "is being read" if is_read else "isn't being read"
        return [f"Socket {call.socket} has no room: its other end, socket {other}, {ended}."]

    def _started_for(self, opened: Call) -> Name | None:
        """The goroutine that the opener of a socket started next, before it opened another socket. A server starts a
        goroutine for each connection."""
        lines, following = self._recording.lines, self._index.next_of(opened)
        until = following.first if following else self._recording.length + 1
        maker = lines.goid_of(opened.goroutine, opened.first)
        started = [
            goroutine
            for goroutine in lines.goroutines.values()
            if maker and goroutine.maker == maker and opened.first <= goroutine.first < until
        ]
        first = min(started, key=attrgetter("begin"), default=None)
        return name_of_goid(lines, first.goid) if first else None

    def _stopped(self, last: Call) -> int:
        """The first step of a goroutine's last call; 0 if the goroutine is in a call or waits elsewhere."""
        is_busy = self._index.call_at(last.goroutine, self._position) or self._waits.at(
            Name(last.goroutine), self._position
        )
        return 0 if is_busy else last.first

    def _since_then(self, last: Call) -> list[str]:
        """A sentence about the goroutine that last used the other end. It names the goroutine's last call there, and
        says what the goroutine does now."""
        recording, now = self._recording, self._index.call_at(last.goroutine, self._position)
        if now is last:
            return [f"There {text_of_call(recording, last)} is itself under way since step {last.first}."]
        result = f", {result_words(recording, last)}" if last.came() and last.last <= self._position else ""
        did = (
            f"There {text_of_call(recording, last)} was the last, "
            f"{last.steps() if last.last <= self._position else ''}{result}"
        )
        if now:
            return [f"{did}; it is now in {text_of_call(recording, now)}, since step {now.first}."]
        return [f"{did}; {doing(self._index, self._waits, last.goroutine, self._position)}."]


def doing(index: RunIndex, waits: Waits, goroutine: int, position: int) -> str:
    """What a goroutine that is in no call does: `it sleeps at a.go:63 in client since step 9`."""
    if wait := waits.at(Name(goroutine), position):
        return f"it {waits_words(wait)} since step {wait.first}"
    last = [call for call in index.by_goroutine[goroutine] if call.first <= position][-1]
    return f"since step {last.last} it is in no call of a socket"
