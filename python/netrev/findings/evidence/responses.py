"""The goroutine that serves a net/http request while another goroutine waits for the response, if both are in the
recording."""


from netrev.recording.call import Call
from netrev.recording.goroutines import PUT, TOOK
from netrev.recording.waits import Name, ObjectWait
from netrev.recording.where import Stack
from netrev.run.index import MOVING, RunIndex, back

WRITE_LOOP, SERVE = "net/http.(*persistConn).writeLoop", "net/http.(*conn).serve"


def socket_of(index: RunIndex, wait: ObjectWait, position: int) -> int | None:
    """The socket to which the waiter's request was written. The socket belongs to the connection whose goroutine last
    took a request from the waiter. That goroutine may have taken requests from other goroutines since."""
    lines = index.recording.lines
    goid = wait.name.number if wait.name.is_goid else lines.goid_of(wait.name.number)
    puts = [
        (use.end, number) for number, uses in lines.uses.items() for use in uses if use.goid == goid and use.what == PUT
    ]
    taken = (
        use for _, number in sorted(puts, reverse=True)
        for use in lines.uses[number] if use.what == TOOK and contains(lines.stacks[use.stack], WRITE_LOOP)
    )  # fmt: skip
    last = next(taken, None)
    if last is None:
        return None
    writes = (call for call in back(index.by_goid(last.goid), position) if call.name == "Write")
    call = next(writes, None)
    return call.socket if call else None


def server_of(index: RunIndex, socket: int, position: int) -> Name | None:
    """The goroutine that serves the other end of a socket: the last goroutine that read a request there."""
    other = index.other_end(socket)
    used = back(index.by_socket.get(other, ()), position) if other is not None else iter(())
    fits = (call for call in used if call.name in MOVING and is_by_server(index, call))
    call = next(fits, None)
    return Name(call.goroutine) if call else None


def is_by_server(index: RunIndex, call: Call) -> bool:
    return contains(index.recording.lines.of(call.first), SERVE)


def contains(stack: Stack, function: str) -> bool:
    return any(call.function == function for call in stack.calls)
