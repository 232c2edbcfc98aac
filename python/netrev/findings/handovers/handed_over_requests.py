"""Requests that a goroutine put into a channel and that another goroutine took. The taker is, for example, the
goroutine that writes all requests of a connection."""

from collections import defaultdict
from functools import lru_cache

from netrev.findings.evidence.ended_goroutines import goid_of
from netrev.findings.evidence.ledger import END
from netrev.recording.call import Call
from netrev.recording.goroutines import PUT, TOOK, ObjectUse
from netrev.recording.recording import Recording
from netrev.recording.waits import ObjectWait
from netrev.recording.where import OF_THE_PROGRAM, Stack
from netrev.run.index import RunIndex


def put_before(recording: Recording, wait: ObjectWait) -> ObjectUse | None:
    """The last value that a goroutine put into another channel before it waited, in a function that the goroutine is
    still in."""
    objects, inside = {at.object for at in wait.objects}, functions_of(wait.stack)
    found = (
        use for use in puts_of(recording).get(goid_of(recording, wait.name), ())
        if use.object not in objects and use.end <= wait.begin
        and functions_of(recording.lines.stacks[use.stack]) & inside
    )  # fmt: skip
    return max(found, key=END, default=None)


@lru_cache(maxsize=2)
def puts_of(recording: Recording) -> dict[int, list[ObjectUse]]:
    """The values that each goroutine put into channels, keyed by Go's own numbers."""
    found: dict[int, list[ObjectUse]] = defaultdict(list)
    for uses in recording.lines.uses.values():
        for use in uses:
            if use.what == PUT:
                found[use.goid].append(use)
    return found


def sockets_of_request(index: RunIndex, wait: ObjectWait) -> set[int]:
    """The sockets to which a goroutine wrote, and the sockets to which other goroutines wrote after they took its
    request from a channel."""
    lines, put = index.recording.lines, put_before(index.recording, wait)
    takers = {use.goid for use in lines.uses.get(put.object, ()) if use.what == TOOK} if put else set()
    calls = [*index.calls_of(wait.name), *(call for goid in takers for call in index.by_goid(goid))]
    return {call.socket for call in calls if call.name == "Write"}


def functions_of(stack: Stack) -> set[str]:
    return {call.function for call in stack.calls if call.of == OF_THE_PROGRAM}


def written_for(index: RunIndex, wait: ObjectWait, socket: int) -> Call | None:
    """The first Write on a socket by a goroutine that had taken what the waiter put into a channel."""
    put = put_before(index.recording, wait)
    if put is None:
        return None
    lines = index.recording.lines
    takers = {use.goid for use in lines.uses.get(put.object, ()) if use.what == TOOK}
    writes = (
        call
        for call in index.by_socket.get(socket, ())
        if call.name == "Write" and call.moved and call.last and call.first >= put.last
    )
    return next((call for call in writes if lines.goid_of(call.goroutine, call.first) in takers), None)
