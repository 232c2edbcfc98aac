"""What each goroutine that waits outside the poller needs, and which goroutine could give it. Such a goroutine waits
for a mutex, a channel, a WaitGroup, a descriptor in use, or a connection of net/http."""

from collections.abc import Hashable, Iterator

from netrev.findings.evidence.call_words import text_of_call, waits_words
from netrev.findings.evidence.ended_goroutines import ended_where
from netrev.findings.evidence.ledger import Ledger
from netrev.findings.evidence.need import Certainty, Need
from netrev.findings.evidence.responses import SERVE, contains, server_of, socket_of
from netrev.findings.evidence.waiters import Waiter
from netrev.findings.handovers.dropped_answers import Hand, by_socket, dropped_answer, hands_of, is_for_values
from netrev.findings.handovers.ended_hands import ended_hand
from netrev.findings.handovers.needs_of_channels import NeedsOfChannels
from netrev.findings.handovers.own_readers import of_own_reader
from netrev.findings.http.bodies_left_open import open_bodies
from netrev.findings.locks.groups import Groups
from netrev.findings.locks.mutex_holders import MutexHolders
from netrev.findings.locks.needs_of_mutexes import NeedsOfMutexes
from netrev.findings.pools.made_channels import without_receiver
from netrev.findings.pools.stopped_timers import of_timers, timers_of_select
from netrev.findings.streams.unaccepted_connections import is_dialed
from netrev.recording.goroutines import A_CONDITION, A_WAIT_GROUP, MUTEXES
from netrev.recording.waits import A_CONNECTION, A_RESPONSE, ALL_REQUESTS, LAST_USE, Name, ObjectWait, Waits
from netrev.recording.where import OF_THE_PROGRAM, Stack
from netrev.run.index import READING, RunIndex, back


class NeedsElsewhere:
    """Finds what each goroutine needs while it waits outside the poller at a given position."""

    def __init__(self, index: RunIndex, waits: Waits, waiters: dict[Name, Waiter], position: int) -> None:
        self._index, self._recording, self._position = index, index.recording, position
        self._waiters, self._waits, self._ledger = waiters, waits, Ledger(index.recording, waits)
        stacks = list(self._stacks())
        self._groups = Groups(index, waits, stacks, position)
        self._channels = NeedsOfChannels(self._recording, waits, self._ledger, waiters, dict(stacks), self._does)
        # the goroutines that pass values on to the goroutines that wait at a line
        self._hands: dict[Hashable, dict[int, list[Hand]]] = {}
        self._mutexes = NeedsOfMutexes(self._recording, self._ledger, waiters, stacks, self._does)
        self._holders = MutexHolders(self._recording, waiters, position, self._does)

    def _stacks(self) -> Iterator[tuple[Name, Stack]]:
        """The goroutines that wait or sleep, with their stacks."""
        yield from ((name, waiter.stack) for name, waiter in self._waiters.items())
        for wait in self._waits.left(self._position):
            if wait.is_asleep and wait.name not in self._waiters:
                yield wait.name, wait.stack

    def of(self, waiter: Waiter, wait: ObjectWait) -> Need:
        """What a waiting goroutine needs."""
        need = self._of(waiter, wait)
        if need.certainty == Certainty.PERHAPS or not (need.by or need.says):
            need = of_own_reader(self._index, wait, self._position) or need
        more = [*timers_of_select(self._recording, wait), *self._channels.besides(wait)]
        more += without_receiver(self._index, wait, self._position)
        return need._replace(more=[*need.more, *more])

    def _of(self, waiter: Waiter, wait: ObjectWait) -> Need:
        kind = wait.kind
        if kind == LAST_USE:
            return self._of_close(waiter)
        if stopped := of_timers(self._recording, wait):
            return stopped._replace(is_odd=True)
        if certain := self._of_answer(wait):
            return certain
        if kind in MUTEXES and wait.objects and self._holders.are_known:
            return self._holders.need(wait)
        if kind in MUTEXES and (need := self._mutexes.of(waiter, wait)):
            return need
        if kind == A_CONNECTION and (bodies := open_bodies(self._recording, self._ledger, self._waits, self._position)):
            return Need(bodies)
        if kind == A_CONNECTION:
            return self._of_connection()
        if kind == ALL_REQUESTS:
            return self._of_requests(waiter)
        if kind == A_RESPONSE and (answer := self._of_response(wait)):
            return answer
        if len(wait.objects) == 1 and (balance := self._channels.of_balance(wait)):
            return balance
        if by := self._ended_before(wait):
            return Need([], by, "{by} ended its wait there before", Certainty.LIKELY)
        if kind == A_CONDITION:
            return Need([])
        if kind == A_WAIT_GROUP and (need := self._groups.of(waiter, self._waiters, self._does)):
            return need
        if left := self._channels.left_without(wait):
            return Need(left)
        if self._channels.is_new(wait) and (by := self._ended_before(wait, elsewhere=True)):
            how = "perhaps {by} ends it, as it ended a wait at that line before"
            return Need([], by, how, Certainty.PERHAPS)
        need = self._channels.of(wait)
        if need == Need([]) and (by := self._reader_for(wait)):
            how = "perhaps {by} reads the answer"
            return Need([], by, how, Certainty.PERHAPS)
        return need

    def _reader_for(self, wait: ObjectWait) -> Name | None:
        """The goroutine that could give a value to a waiter, if the waiter wrote a request and no value has been put
        into its channel yet. The result is the goroutine that waits to read from the waiter's connection, as a client's
        reader does."""
        if wait.name.is_goid or not self._channels.is_new(wait) or not is_for_values(wait):
            return None
        write = next(back(self._index.by_goroutine[wait.name.number], wait.first), None)
        if write is None or write.name != "Write" or not write.last or not is_dialed(self._index, write.socket):
            return None
        readers = (
            waiter.name
            for waiter in self._waiters.values()
            if waiter.call
            and waiter.call.name in READING
            and waiter.call.socket == write.socket
            and not waiter.call.is_asking
        )
        return next(readers, None)

    def _of_answer(self, wait: ObjectWait) -> Need | None:
        """What a goroutine needs while it waits for an answer. Another goroutine read the answer but didn't pass it on,
        or has ended."""
        if not is_for_values(wait):
            return None
        own = wait.stack.own()
        if own not in self._hands:
            self._hands[own] = by_socket(hands_of(self._recording, wait, self._waiters))
        return dropped_answer(self._index, wait, self._hands[own]) or ended_hand(self._index, wait)

    def excess_of(self, names: set[Name]) -> list[str]:
        """Sentences about these goroutines' calls, if they gave values back to a channel more often than they took
        values from it."""
        return self._channels.excess_of(names)

    def _of_close(self, waiter: Waiter) -> Need:
        """What a Close waits for: the call that still uses the descriptor."""
        closes = None if waiter.name.is_goid else self._index.call_at(waiter.name.number, self._position)
        if closes is None:
            return Need([])
        users = [
            call for call in self._index.by_socket[closes.socket]
            if call.goroutine != closes.goroutine and call.first <= self._position < (call.last or self._position + 1)
        ]  # fmt: skip
        if not users:
            return Need([])
        says = f"{text_of_call(self._recording, users[-1])} uses socket {closes.socket} since step {users[-1].first}."
        return Need([says], Name(users[-1].goroutine), "{by} uses the descriptor")

    def _of_connection(self) -> Need:
        """What a net/http request needs while it waits for a connection: the goroutine that perhaps has the
        connection."""
        asking = (name for name, waiter in self._waiters.items() if waiter.wait and waiter.wait.kind == A_RESPONSE)
        by = next(asking, None)
        how = "perhaps {by} has the connection, and waits for the response"
        return Need([], by, how, Certainty.PERHAPS) if by else Need([])

    def _of_requests(self, waiter: Waiter) -> Need:
        """What a Shutdown of net/http needs: the end of a request that its own goroutine serves, or that another
        goroutine perhaps serves."""
        if contains(waiter.stack, SERVE):
            return Need([], more=["It serves a request itself, for whose end Shutdown waits."])
        serving = [
            name
            for name, stack in self._stacks()
            if contains(stack, SERVE) and any(call.of == OF_THE_PROGRAM for call in stack.calls)
        ]
        by = next((name for name in serving if name in self._waiters), None)
        if by:
            return Need([], by, "perhaps for {by}, which serves a request", Certainty.PERHAPS)
        says = [
            f"Perhaps it waits for {name}, which serves a request, and which {self._does(name)}."
            for name in serving[:1]
        ]
        return Need(says)

    def _of_response(self, wait: ObjectWait) -> Need | None:
        """What a goroutine needs while it waits for a net/http response: the goroutine that serves the request, if it
        is in this recording."""
        socket = socket_of(self._index, wait, self._position)
        server = None if socket is None else server_of(self._index, socket, self._position)
        if socket is None or server is None or self._reads_on(server):
            return None
        does = "" if server in self._waiters else self._does(server)
        says = [f"{str(server).capitalize()} serves the request on socket {socket}; it {does}."] if does else []
        return Need(says, server, "{by} serves the request", Certainty.LIKELY)

    def _reads_on(self, server: Name) -> bool:
        """Whether a server's goroutine waits for the next request, and so serves no request now."""
        now = self._waiters.get(server)
        return now is not None and now.is_of_go and now.call is not None and now.call.name in READING

    def _ended_before(self, wait: ObjectWait, elsewhere: bool = False) -> Name | None:
        """The goroutine that ended this goroutine's last wait at the same line and now waits itself. Unless
        `elsewhere`, only waits on the same channels or mutex count."""
        earlier = (
            past_wait for past_wait in reversed(self._waits.of[wait.name])
            if past_wait.last is not None and past_wait.by is not None and past_wait.last <= wait.first
        )  # fmt: skip
        same = (
            past_wait.by
            for past_wait in earlier
            if past_wait.reason == wait.reason
            and past_wait.stack.own() == wait.stack.own()
            and (elsewhere or past_wait.objects == wait.objects)
        )
        return next((by for by in same if by in self._waiters), None)

    def _does(self, name: Name, stack: Stack | None = None) -> str:
        """Text for what a goroutine does now. If the goroutine has ended, the text says so and names its last place,
        unless that place is the known stack. Empty if unknown."""
        if wait := self._waits.at(name, self._position):
            return f"{waits_words(wait)} since step {wait.first}"
        lines = self._recording.lines
        known = lines.goroutines.get(name.number if name.is_goid else lines.goid_of(name.number))
        if known is None or not 0 <= known.last <= self._position:
            return ""
        return f"ended after step {known.last}{ended_where(self._index, name, stack)}"
