"""The requests of net/http's client, each with its line, goroutine and socket. The requests are found from the channels
of the client's connections. The module also finds the requests that ended because their contexts ended."""

from collections.abc import Iterator
from functools import lru_cache
from operator import attrgetter
from typing import NamedTuple

from netrev.findings.evidence.call_words import place_in
from netrev.findings.evidence.responses import WRITE_LOOP, contains
from netrev.recording.call import Call
from netrev.recording.cell_meanings import duration
from netrev.recording.goroutines import CLOSED, ENDED, PUT, TOOK, ObjectUse, Timer
from netrev.recording.recording import Recording
from netrev.recording.waits import Name, name_of_goid
from netrev.recording.where import Stack
from netrev.run.index import RunIndex

from .cancellations import is_of_a_rest

ROUND_TRIP, CAUSE_OF_END = "net/http.(*persistConn).roundTrip", "context.Cause"
BY_A_TIMER = "context.WithDeadlineCause.func"  # the function that a context's timer calls
WITH_DEADLINE, CLIENT_TIMEOUT = "context.WithDeadlineCause", "net/http.setRequestCancel"


class ClientRequests(NamedTuple):
    """Requests that goroutines made from one stack on a connection: their number, and the step and time at which the
    last request was handed over."""

    name: Name
    goid: int
    socket: int
    stack: Stack
    often: int
    last: int
    time: int


class CancelledRequest(NamedTuple):
    """A request that ended because its context ended. `closed` is the call that closed its connection, and `step` the
    step after which the context ended. `by` is the goroutine that ended the context, from `stack`. `timer` is the timer
    of the context's deadline, if certain."""

    request: ClientRequests
    closed: Call
    step: int
    by: Name
    stack: Stack
    timer: Timer | None

    @property
    def is_late(self) -> bool:
        """Whether a deadline ended the context."""
        return any(call.function.startswith(BY_A_TIMER) for call in self.stack.calls[-1:])

    def places(self, recording: Recording) -> tuple[str, ...]:
        """The line of the request, the line that cancelled it, and the line that set its deadline."""
        of_timer = [recording.lines.stacks[self.timer.stack]] if self.timer else []
        return tuple(map(place_in, (self.request.stack, self.stack, *of_timer)))

    def says(self, recording: Recording) -> list[str]:
        """The sentences about the request."""
        request = self.request
        begins = f"The request{place_in(request.stack)} ({request.name}), on socket {request.socket} since step {request.last}, ended because"
        if not self.is_late:
            return [f"{begins} its context was cancelled{place_in(self.stack)} ({self.by}, step {self.step})."]
        if self.timer is None:
            return [f"{begins} a deadline of its context passed (step {self.step})."]
        stack = recording.lines.stacks[self.timer.stack]
        step, time = f" (step {self.timer.step})", duration(self.timer.due - self.timer.time)
        is_rest = is_of_a_rest(recording, self.timer)
        if contains(stack, CLIENT_TIMEOUT):
            since = f"It counts from the call{place_in(stack)}{'' if is_rest else f'{step}, {time} earlier'}."
            return [f"{begins} its client's Timeout passed (step {self.step}).", since]
        set_at = f"That was set{place_in(stack)}{'' if is_rest else f'{step}, {time} ahead'}."
        return [f"{begins} the deadline of its context passed (step {self.step}).", set_at]


def requests_of(index: RunIndex) -> list[ClientRequests]:
    """The requests whose connection is certain. Each request was put into a channel from which only one connection's
    goroutine took values, and that goroutine wrote to only one socket."""
    lines, found = index.recording.lines, []
    for uses in lines.uses.values():
        puts = [use for use in uses if use.what == PUT and contains(lines.stacks[use.stack], ROUND_TRIP)]
        loops = {use.goid for use in uses if use.what == TOOK and contains(lines.stacks[use.stack], WRITE_LOOP)}
        socket = written_by(index, *loops) if puts and len(loops) == 1 else None
        if socket is not None:
            found += [request_of(index.recording, use, socket) for use in puts if lines.stacks[use.stack].own()]
    return sorted(found, key=attrgetter("time"))


def request_of(recording: Recording, use: ObjectUse, socket: int) -> ClientRequests:
    """The requests that a goroutine put into a channel from one stack."""
    lines = recording.lines
    return ClientRequests(
        name_of_goid(lines, use.goid), use.goid, socket, lines.stacks[use.stack], use.often, use.last, use.end
    )


def written_by(index: RunIndex, goid: int) -> int | None:
    """The only socket to which a goroutine has written; None if it has written to none or to several."""
    sockets = {call.socket for call in index.by_goid(goid) if call.name == "Write"}
    return sockets.pop() if len(sockets) == 1 else None


@lru_cache(maxsize=2)
def cancelled_requests(index: RunIndex) -> tuple[CancelledRequest, ...]:
    """The requests that ended because their contexts ended, and whose goroutines then closed the connections."""
    lines, every, found = index.recording.lines, requests_of(index), list[CancelledRequest]()
    for uses in lines.uses.values():
        closes = [use for use in uses if use.what == CLOSED]
        for use in uses if len(closes) == 1 else ():
            if use.what == ENDED and is_by_context(lines.stacks[use.stack]):
                found += cancelled(index, every, use, closes[0])
    return tuple(sorted(found, key=attrgetter("step")))


def is_by_context(stack: Stack) -> bool:
    """Whether a round trip asks why its context ended. A round trip asks this only after it has waited for the context
    to end."""
    functions = [call.function for call in stack.calls[:3]]
    return CAUSE_OF_END in functions and ROUND_TRIP in functions


def cancelled(
    index: RunIndex, every: list[ClientRequests], ended: ObjectUse, close: ObjectUse
) -> Iterator[CancelledRequest]:
    """The request that a cancelled context ended: the last request that its goroutine wrote before the context was
    cancelled. The result is empty unless that goroutine then closed the connection."""
    lines = index.recording.lines
    own = [request for request in every if request.goid == ended.goid and request.time < close.begin]
    if not own:
        return
    request = own[-1]
    closed = next(
        (
            call
            for call in index.calls_of(request.name)
            if call.name == "Close" and call.socket == request.socket and call.first > close.last
        ),
        None,
    )
    if closed is not None:
        timer = timer_of(index.recording, request, close)
        yield CancelledRequest(
            request, closed, close.last, name_of_goid(lines, close.goid), lines.stacks[close.stack], timer
        )


def timer_of(recording: Recording, request: ClientRequests, close: ObjectUse) -> Timer | None:
    """The timer of the deadline that ended a request's context; None if uncertain. If the client has a Timeout, the
    result is the timer of that Timeout: the last such timer that the request's goroutine made at the request's line
    before it handed the request over. Otherwise, the result is the only timer of the program's contexts that was due by
    then."""
    stacks = recording.lines.stacks
    timers = [
        timer for some in recording.lines.timers.values() for timer in some
        if timer.time < close.begin and contains(stacks[timer.stack], WITH_DEADLINE)
    ]  # fmt: skip
    of_client = [timer for timer in timers if contains(stacks[timer.stack], CLIENT_TIMEOUT)]
    own = [
        timer for timer in of_client
        if timer.goid == request.goid and timer.time <= request.time and stacks[timer.stack].own() == request.stack.own()
    ]  # fmt: skip
    if own and (last := max(own, key=attrgetter("time"))).due <= close.begin:
        return last
    others = [timer for timer in timers if timer not in of_client and timer.due <= close.begin]
    return others[0] if len(others) == 1 and stacks[others[0].stack].own() else None
