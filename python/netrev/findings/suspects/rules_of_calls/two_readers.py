"""Two readers: a goroutine's Read had to wait for the lock of another goroutine's Read on the same connection, and both
got bytes, so chance decides which goroutine gets which bytes. Listeners and datagram sockets are left out."""

from collections.abc import Iterator

from netrev.findings.evidence.call_words import is_of_go, text_of_call
from netrev.findings.suspects.run import Run
from netrev.findings.suspects.suspect import Evidence, Suspect, Weight
from netrev.recording.call import Call
from netrev.run.index import RunIndex, went_well


def rule(run: Run) -> Iterator[Suspect]:
    index = run.calls  # (other ends and names show which sockets are streams)
    for socket, calls in index.by_socket.items():
        if index.other_end(socket) is None:
            continue
        reads = [call for call in calls if call.name == "Read" and went_well(call)]
        for first, second in zip(reads, reads[1:]):
            overlap = first.goroutine != second.goroutine and second.first < first.last
            if overlap and not is_of_go(index.recording, first) and not is_of_go(index.recording, second):
                yield suspect_of(index, first, second)


def suspect_of(index: RunIndex, first: Call, second: Call) -> Suspect:
    says = [
        f"perhaps: two goroutines read socket {first.socket} at once, and each got bytes",
        f"{text_of_call(index.recording, first)}, {first.steps()}",
        f"{text_of_call(index.recording, second)}, {second.steps()}",
    ]
    return Suspect(
        second.first,
        Weight.SHOWN,
        says,
        socket=first.socket,
        evidence=[Evidence(second.first, f"lock {first.socket}")],
        looks=[f"goto {second.first}", f"calls sock {first.socket}"],
        steps=[first.first, second.first],
    )
