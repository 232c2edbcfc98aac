"""Future deadlines of waiting calls. A call with such a deadline ends by itself."""

from collections import defaultdict
from functools import lru_cache
from typing import NamedTuple

from netrev.recording.call import Call
from netrev.recording.cell_meanings import duration
from netrev.recording.recording import Recording
from netrev.run.index import READING, RunIndex

from .call_words import name_of, place_of_step


class DeadlineSetting(NamedTuple):
    """A `setdeadline` of a descriptor: its step, its goroutine, its sides, and the time until the deadline (0: no
    deadline, negative: in the past)."""

    step: int
    goroutine: int
    sides: str
    time: int


@lru_cache(maxsize=2)
def settings_of(recording: Recording) -> dict[int, list[DeadlineSetting]]:
    """The calls that set each descriptor's deadlines, in order."""
    found: dict[int, list[DeadlineSetting]] = defaultdict(list)
    for step in recording.steps_of(("setdeadline",), recording.length):
        named = (step.argument(name) for name in ("d", "g", "mode", "time"))
        descriptor, goroutine, sides, time = named
        found[descriptor].append(DeadlineSetting(step.number, goroutine, sides, time))
    return found


def deadline_ahead(index: RunIndex, call: Call, position: int) -> DeadlineSetting | None:
    """The deadline of a call that waits at a position; None if the call has no deadline."""
    side, begin = "r" if call.name in READING else "w", index.by_socket[call.socket][0].first
    settings = (
        setting
        for setting in reversed(settings_of(index.recording).get(call.descriptor, []))
        if begin <= setting.step <= position and side in setting.sides
    )
    last = next(settings, None)
    return last if last and last.time > 0 else None


def until_words(index: RunIndex, call: Call) -> str:
    """Text for the end of a wait with a deadline: `until the deadline of the Read at a.go:3 passes`."""
    place = index.recording.lines.of(call.first).place()
    at = f" at {place}" if place and not place.startswith("in ") else f" {place}".rstrip()
    return f"until the deadline of the {name_of(index.recording, call)}{at} passes"


def setting_sentence(index: RunIndex, setting: DeadlineSetting) -> str:
    """A sentence that names the line that set a deadline, and the time until the deadline."""
    at = place_of_step(index.recording, setting.step, setting.goroutine)
    return f"Its deadline was set{at}, {duration(setting.time)} ahead, and hasn't passed."
