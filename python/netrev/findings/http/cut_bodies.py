"""Bodies of net/http that end before their Content-Length: a Read of the remaining bytes reached the end of the
stream."""

from collections.abc import Iterator

from netrev.recording.call import Call, Outcome
from netrev.recording.recording import Recording
from netrev.run.index import RunIndex

OF_A_BODY, OF_A_LENGTH = "net/http.(*body).", "io.(*LimitedReader).Read"
OF_A_CLIENT = "net/http.(*persistConn)."


def cut_bodies(index: RunIndex) -> Iterator[Call]:
    """The Reads that reached the end of the stream inside a body of known length."""
    for call in index.calls:
        if call.outcome is Outcome.EOF and call.last and is_of_a_body(index.recording, call):
            yield call


def is_of_a_body(recording: Recording, call: Call) -> bool:
    functions = [frame.function for frame in recording.lines.of(call.first).calls]
    return OF_A_LENGTH in functions and any(function.startswith(OF_A_BODY) for function in functions)


def body_sentence(recording: Recording, closed: Call) -> list[str]:
    """A sentence about a body that is shorter than its Content-Length because the other end was closed."""
    if any(frame.function.startswith(OF_A_CLIENT) for frame in recording.lines.of(closed.first).calls):
        return ["The body of the request ended before its Content-Length: the client closed the connection."]
    return ["The body ended before its Content-Length: the server closed the connection."]
