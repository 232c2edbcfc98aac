"""Events of a trace, in the format of Chrome and Perfetto."""

import json
from typing import Any

Event = dict[str, Any]
of_json = json.JSONEncoder(separators=(",", ":")).encode
GOROUTINES, NETWORK, DEADLINES = 1, 2, 3  # processes of the trace


def event_of(phase: str, process: int, thread: int, time: int, **more: Any) -> Event:
    """An event of a thread of a process, at a time in microseconds."""
    return {"ph": phase, "pid": process, "tid": thread, "ts": time, **more}
