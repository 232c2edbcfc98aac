"""Causes for the requests of net/http's client that ended because their contexts ended."""

from collections import defaultdict
from collections.abc import Hashable

from netrev.findings.evidence.past_tense import in_the_past
from netrev.findings.finding import Cause, with_others
from netrev.findings.hangs.chains import chain_sentence
from netrev.findings.http.requests import CancelledRequest, cancelled_requests
from netrev.findings.streams.unaccepted_connections import unaccepted
from netrev.recording.recording import Recording
from netrev.run.index import RunIndex, run_of

from .failed_calls import served_sentence


def requests_that_ended(recording: Recording, is_late: bool) -> list[Cause]:
    """The requests of net/http's client that ended because a deadline of their context passed or a goroutine cancelled
    the context. Requests with the same lines are merged."""
    alike: dict[Hashable, list[CancelledRequest]] = defaultdict(list)
    for request in cancelled_requests(run_of(recording)):
        if request.is_late is is_late:
            alike[request.places(recording)].append(request)
    return [with_others(of_request(recording, first), len(others)) for first, *others in alike.values()]


def of_request(recording: Recording, ended: CancelledRequest) -> Cause:
    """The cause for a request that ended because its context ended."""
    steps, looks = [ended.request.last, ended.step], [f"goto {ended.step}", f"calls sock {ended.request.socket}"]
    index = run_of(recording)
    served = served_sentence(index, ended.closed, ended.closed.first) or unserved_sentence(index, ended)
    return Cause(ended.closed, [*ended.says(recording), *served], steps, looks)


def unserved_sentence(index: RunIndex, ended: CancelledRequest) -> list[str]:
    """Sentences about a request on a connection that no goroutine had accepted. The sentences say what the goroutine
    that should have accepted the connection did instead."""
    step = ended.closed.first
    reads = (call for call in index.by_socket[ended.request.socket] if call.name == "Read" and call.first < step)
    read = next((candidate for candidate in reads if not 0 < candidate.last < step), None)
    need = unaccepted(index, read, step) if read else None
    return (
        [in_the_past(line) for line in [*need.says, *chain_sentence(index, read, need, step)]] if read and need else []
    )
