"""Requests sent as datagrams that perhaps got no answer. If no address shows which socket got the request, the module
looks for the only Read on another socket that got as many bytes."""


from netrev.findings.evidence.call_words import text_of_call
from netrev.findings.evidence.read_sizes import read_sizes_of
from netrev.findings.streams.exchanges import FEWEST
from netrev.findings.streams.unaccepted_connections import is_datagram
from netrev.recording.call import Call
from netrev.run.index import RunIndex, back

DEADLINES = ("SetReadDeadline", "SetDeadline")


def unanswered_datagram(index: RunIndex, call: Call, position: int) -> list[str]:
    """Sentences about a Read that waits for a datagram. The sentences name the goroutine that perhaps read the request
    and sent no answer, and say so if no deadline was set."""
    if not is_datagram(index, call.socket):
        return []
    request = index.last_use(call.socket, call.first, ("Write",))
    read = reader_of(index, call, request, position) if request and request.goroutine == call.goroutine else None
    if request is None or read is None:
        return []
    recording, calls = index.recording, index.by_goroutine[read.goroutine]
    answers = [write for write in calls if write.name == "Write" and write.socket == read.socket and write.moved]
    now = index.call_at(read.goroutine, position)
    if len(answers) < FEWEST or answers[-1].first > read.last or now is None or now.socket != read.socket:
        return []
    says = [
        f"Perhaps its request, {text_of_call(recording, request)} in {request.steps()}, was read by "
        f"{text_of_call(recording, read)} in step {read.last}. That goroutine "
        f"has written there {len(answers)} times before; now it reads on since step {now.first}, without an answer."
    ]
    if not any(setting.name in DEADLINES for setting in back(index.by_socket[call.socket], position)):
        says.append(
            f"No deadline was set for reading at socket {call.socket}: a datagram that is lost is waited for without end."
        )
    return says


def dropped_datagram(index: RunIndex, call: Call) -> list[str]:
    """Sentences about a Read of a datagram that timed out. The sentences name the goroutine that perhaps read the
    request and sent no answer, and say so if the request filled the whole buffer."""
    request = index.last_use(call.socket, call.first, ("Write",)) if is_datagram(index, call.socket) else None
    read = reader_of(index, call, request, call.last) if request and request.goroutine == call.goroutine else None
    if request is None or read is None:
        return []
    recording, own = index.recording, index.by_goroutine[read.goroutine]
    answers = [write for write in own if write.name == "Write" and write.socket == read.socket and write.moved]
    following = next((own_call for own_call in own if own_call.first > read.last), None)
    if not any(answer.first < read.first for answer in answers) or any(
        read.last < answer.first <= call.last for answer in answers
    ):
        return []
    if following is None or following.name != "Read" or following.socket != read.socket or following.first > call.last:
        return []
    size = read_sizes_of(recording).of(read)
    whole = (
        f" It asked for {size} bytes and got as many: perhaps the datagram was longer, and cut."
        if size == read.moved
        else ""
    )
    return [
        f"Perhaps its request, {text_of_call(recording, request)} in {request.steps()}, was read by "
        f"{text_of_call(recording, read)} in step {read.last}. That goroutine, "
        f"which had answered there before, sent no answer to it: it read on in step {following.first}.{whole}"
    ]


def reader_of(index: RunIndex, call: Call, request: Call, position: int) -> Call | None:
    """The only Read on another datagram socket since a Write; None if several Reads got data, or if the Read and the
    Write have different lengths."""
    found = [
        candidate
        for socket, calls in index.by_socket.items()
        if socket != call.socket and is_datagram(index, socket)
        for candidate in calls
        if candidate.name == "Read" and request.first < candidate.last <= position and candidate.moved
    ]
    return found[0] if len(found) == 1 and found[0].moved == request.moved else None
