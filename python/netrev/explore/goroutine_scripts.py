"""Goroutines' scripts: divides the steps of each goroutine into operations, by the control flow of Go's calls."""

from typing import Any

from netrev.reduce.events import Event, Events
from netrev.run.flow import ENDS, LAST, SORTS, TRIES, Consequence, OperationType, came
from netrev.text.vocabulary import KINDS

from .control_flow import Operation

ROOM = 4_096  # the number of bytes that a read asks for if that number is unknown
OF_EACH = ("g", "s", "d", "side", "mode")  # the arguments of an operation other than its values


class GoroutineScript:
    """A goroutine's operations, built from its steps one after the other."""

    def __init__(self, events: Events, sizes: dict[int, int], last_events: dict[tuple[int, str], int]) -> None:
        self.events, self.sizes, self.last_events = events, sizes, last_events
        self.operations: list[Operation] = []
        self.answer: tuple[Any, ...] = ()  # the answer of its last step

    def add(self, event: Event) -> None:
        """Adds the goroutine's next step."""
        handler = getattr(self, f"_{event.kind}", self._begin if event.kind in SORTS else self._extend)
        handler(event)
        self.answer = event.answer

    @property
    def last(self) -> Operation | None:
        return self.operations[-1] if self.operations else None

    def _begin(self, event: Event) -> Operation:
        """Begins an operation with a step, which names its object."""
        arguments = dict(zip(KINDS[event.kind].arguments, event.arguments))
        socket, use = self.events.socket_of(event), arguments.get("d", -1)
        values = tuple(value for form, value in arguments.items() if form not in OF_EACH)
        side = arguments.get("side", arguments.get("mode", ""))
        return self._append(event, Operation(SORTS[event.kind], -1 if socket is None else socket, use, side, values))

    def _append(self, event: Event, operation: Operation) -> Operation:
        self.operations.append(operation)
        self._extend(event)
        return operation

    def _extend(self, event: Event) -> None:
        """Adds a step to the last operation."""
        assert self.last
        self.last.steps.append(event.number)
        self.last.kinds.append(event.kind)
        if event.kind in ("blockarm", "blockswap", "waitcheck"):
            self._end_wait(event)

    def _end_wait(self, event: Event) -> None:
        """Records the end of a wait, if this step ended it."""
        last = self.last
        assert last
        is_ready = came(event.kind, event.answer) is Consequence.READY
        if is_ready and last.sort is OperationType.WAIT:
            cause = self.last_events.get((last.use, last.side))
            last.is_brief = event.kind == "blockarm" and (cause is None or cause < last.steps[0])
            last.cause = None if last.is_brief else cause
        if is_ready and last.sort in (OperationType.READ, OperationType.WRITE):
            last.ends_unread = True  # until a try follows the wait

    def _suppose(self, sort: OperationType, socket: int, use: int = -1, side: str = "", *values: Any) -> None:
        """Adds an operation that the recording doesn't show because the call ended before the operation."""
        self.operations.append(Operation(sort, socket, use, side, values))

    def _suppose_try(self, socket: int, use: int, side: str) -> None:
        """Adds the tries that a call would have made. The recording doesn't show them, because the descriptor was
        closing or the deadline had passed."""
        if socket not in self.sizes:
            self._suppose(OperationType.WAIT, socket, use, side)
        elif side == "r":
            self._suppose(OperationType.READ, socket, use, side, self.sizes[socket])
        else:
            self._suppose(OperationType.WRITE, socket, use, side, b"\0")

    def _sockopen(self, event: Event) -> None:
        self._append(event, Operation(OperationType.MAKE, event.arguments[2], values=event.arguments[:2]))

    def _pollopen(self, event: Event) -> None:
        use = next(at for at, candidate in enumerate(self.events.uses) if candidate.opened == event.number)
        self._begin(event).use = use

    def _rwlock(self, event: Event) -> None:
        _, s, side = event.arguments
        if self.last and self.last.sort is OperationType.LOCK and self.last.kinds[-1] == "acquire":
            self._extend(event)
        else:
            self._begin(event)
        if came(event.kind, event.answer) is Consequence.FAILS:
            use = self._first_use(s)
            if use is not None:
                self._suppose(OperationType.RESET, s, use, side)
                self._suppose_try(s, use, side)
            self._suppose(OperationType.UNLOCK, s, -1, side)

    def _first_use(self, socket: int) -> int | None:
        return next((at for at, use in enumerate(self.events.uses) if use.socket == socket), None)

    def _incref(self, event: Event) -> None:
        self._begin(event)
        if came(event.kind, event.answer) is Consequence.FAILS:
            self._suppose(OperationType.GIVE_UP, event.arguments[1])

    def _increfclose(self, event: Event) -> None:
        s = event.arguments[1]
        self._begin(event)
        if came(event.kind, event.answer) is Consequence.FAILS:
            use = self._first_use(s)
            if use is not None:
                self._suppose(OperationType.EVICT, s, use)
            self._suppose(OperationType.GIVE_UP, s)

    def _socket_of(self, event: Event) -> int:
        socket = self.events.socket_of(event)
        assert socket is not None
        return socket

    def _pollclose(self, event: Event) -> None:
        if (
            self.last
            and self.last.sort in ENDS
            and self.answer in (LAST, ("done",))
            and "pollclose" not in self.last.kinds
        ):
            self._extend(event)
        else:
            self._begin(event)

    def _pollreset(self, event: Event) -> None:
        _, use, side = event.arguments
        self._begin(event)
        if came(event.kind, event.answer) is Consequence.FAILS:
            self._suppose_try(self._socket_of(event), use, side)

    def _waitbegin(self, event: Event) -> None:
        _, use, side = event.arguments
        if self.answer == ("again",) and self.last and self.last.side == side:
            self.last.use = use
            self._extend(event)
        else:
            self._begin(event)

    def _sysread(self, event: Event) -> None:
        self._try(OperationType.READ, "r", event)

    def _syswrite(self, event: Event) -> None:
        self._try(OperationType.WRITE, "w", event)

    def _try(self, sort: OperationType, side: str, event: Event) -> None:
        """Adds a try of a read or a write: the first try of a call, a try after a wait, or a further try if the call
        moves bytes in several steps."""
        last, (_, s, value) = self.last, event.arguments
        is_over = self.answer[:1] in (("eof",), ("pipe",))
        goes_on = last is not None and last.sort is sort and last.socket == s and last.steps and not is_over
        is_short = self.answer[:1] == ("got",) and last is not None and self.answer[1] < last.values[-1]
        if last is not None and goes_on and not is_short:
            is_again = sort is OperationType.READ and self.answer[:1] != ("got",)
            last.values = (*last.values[:-1], value) if is_again else (*last.values, value)
            last.ends_unread = False
            self._extend(event)
        else:
            last = self._append(event, Operation(sort, s, self._last_use(s, event), side, (value,)))
        if sort is OperationType.WRITE:
            last.moved.append(event.answer[1] if event.answer[0] == "put" else 0)

    def _last_use(self, socket: int, event: Event) -> int:
        found = [at for at, use in enumerate(self.events.uses) if use.socket == socket and use.opened < event.number]
        return found[-1] if found else -1


def goroutines_of(events: Events, count: int) -> list[list[Operation]]:
    """The operations of each goroutine."""
    sizes: dict[int, int] = {}
    for event in events.all:
        if event.kind == "sysread":
            sizes[event.arguments[1]] = event.arguments[2]
        elif event.kind == "syswrite":
            sizes.setdefault(event.arguments[1], ROOM)
    last_events: dict[tuple[int, str], int] = {}
    scripts = [GoroutineScript(events, sizes, last_events) for _ in range(count)]
    makers, sockets = {
        event.arguments[1]: event.arguments[0] for event in reversed(events.all) if event.kind == "pollopen"
    }, 0
    for event in events.all:
        if event.kind == "sockopen":
            if sockets in makers:
                scripts[makers[sockets]].add(event._replace(arguments=(*event.arguments, sockets)))
            sockets += 1
        elif event.named("g") is not None:
            scripts[event.arguments[0]].add(event)
        elif event.kind == "pollevent":
            last_events.update({(event.arguments[0], side): event.number for side in event.arguments[2]})
    for script, rest in zip(scripts, _rests(events, count)):
        _finish(script.operations, rest)
    return [script.operations for script in scripts]


def _rests(events: Events, count: int) -> list[bool]:
    """Whether each goroutine is at rest at the end."""
    rests = [True] * count
    for event, rest in zip(events.all, events.rests):
        if event.named("g") is not None:
            rests[event.arguments[0]] = rest.is_at_rest
    return rests


def _finish(operations: list[Operation], is_at_rest: bool) -> None:
    """Completes the call that a goroutine is in at the end, and sets where the goroutine continues if one of its
    operations fails."""
    open_places: list[int] = []
    for at, operation in enumerate(operations):
        if operation.sort in (OperationType.LOCK, OperationType.REFER, OperationType.CLOSE):
            open_places.append(at)
        elif operation.sort in ENDS:
            _end(operations, open_places, at)
    for at in reversed(open_places if not is_at_rest else []):
        begun = operations[at]
        if begun.sort is OperationType.LOCK:
            operations.append(Operation(OperationType.UNLOCK, begun.socket, -1, begun.side))
            _end(operations, [at], len(operations) - 1)
    for at, operation in enumerate(operations):
        operation.on_failure = operation.on_failure or at + 1


def _end(operations: list[Operation], open_places: list[int], at: int) -> None:
    """Sets where a goroutine continues after a failure. The operation at `at` ends an earlier operation. If that
    earlier operation fails, the goroutine continues after `at`. If a try between these two operations fails, the
    goroutine continues with `at`."""
    ending = operations[at]
    for begun in reversed(open_places):
        operation = operations[begun]
        if operation.sort in ENDS[ending.sort] and (operation.socket, operation.side) == (ending.socket, ending.side):
            open_places.remove(begun)
            operation.on_failure = at + 1
            for between in operations[begun + 1 : at]:
                if between.sort in TRIES and not between.on_failure:
                    between.on_failure = at
            return
