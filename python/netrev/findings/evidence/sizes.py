"""The number of bytes that calls moved, even if the recording's count is smaller."""

from collections import defaultdict
from functools import lru_cache

from netrev.recording.call import Call
from netrev.run.index import RunIndex


def size_of(index: RunIndex, call: Call) -> int:
    """The number of bytes that a call read or wrote."""
    return (call.moved or 0) + sizes_of(index).get(call.first, 0)


def are_known(index: RunIndex) -> bool:
    """Whether a recording has the sizes of all its calls."""
    return index.recording.lines.bytes is None or bool(index.recording.lines.sizes)


def moved_at(index: RunIndex, socket: int, name: str, until: int) -> int:
    """The number of bytes that calls of a name moved on a socket. Calls that ended after the step `until` don't count."""
    calls = index.by_socket.get(socket, ())
    return sum(size_of(index, call) for call in calls if call.name == name and 0 < call.last <= until)


@lru_cache(maxsize=2)
def sizes_of(index: RunIndex) -> dict[int, int]:
    """For each call, keyed by its first step, the number of bytes that the call moved beyond those that the recording
    counts."""
    found: dict[int, int] = defaultdict(int)
    lines, length = index.recording.lines, index.recording.length
    for step, size in lines.sizes.items():
        call = index.call_of(step) if 0 < step <= length else None
        if call:
            found[call.first] += size - (lines.bytes or 0)
    return found
