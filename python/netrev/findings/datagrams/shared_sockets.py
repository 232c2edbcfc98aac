"""Datagram sockets on which several goroutines read. Each goroutine gets whatever datagram comes next, even if it was
meant for another goroutine."""

from netrev.findings.streams.unaccepted_connections import is_datagram
from netrev.recording.call import Call
from netrev.recording.waits import Name, of_names
from netrev.run.index import RunIndex

MOST = 6


def shared_sentence(index: RunIndex, call: Call) -> list[str]:
    """Sentences about a Read on a datagram socket, if several goroutines read and write there, so that each waits for
    an answer of its own."""
    if not is_datagram(index, call.socket):
        return []
    calls = index.by_socket[call.socket]
    readers, writers = (
        {transfer.goroutine for transfer in calls if transfer.name == name} for name in ("Read", "Write")
    )
    shared = sorted(readers & writers)
    if len(shared) < 2 or call.goroutine not in shared:
        return []
    more = f" and {len(shared) - MOST} more" if len(shared) > MOST else ""
    names = of_names([Name(number) for number in shared[:MOST]])
    return [
        f"{names[0].upper()}{names[1:]}{more} write and read at socket {call.socket}: each Read gets what comes next, perhaps the answer to another's "
        "request."
    ]
