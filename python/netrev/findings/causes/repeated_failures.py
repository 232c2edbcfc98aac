"""Calls that fail repeatedly in a loop. The module finds, in the program's source, a `break` that leaves a select or a
switch instead of the loop."""

from netrev.findings.evidence.ended_goroutines import body_of, is_inner_break, loop_at
from netrev.recording.call import Call
from netrev.recording.recording import Recording
from netrev.recording.where import OF_THE_PROGRAM

FEWEST = 3  # the fewest failed calls that count as repeated


def repeated_sentence(recording: Recording, calls: list[Call]) -> list[str]:
    """Sentences about failed calls that a goroutine made at one line; none if the calls are few."""
    own = recording.lines.of(calls[0].first).own()
    if len(calls) < FEWEST or not own or own[0].of != OF_THE_PROGRAM:
        return []
    lines, head = loop_at(recording, own[0])
    if not head:
        return []
    breaks = [number for number in body_of(lines, head) if number > own[0].line and is_inner_break(lines, head, number)]
    file = own[0].file
    continuation = f"Goroutine {calls[0].goroutine} goes on in the loop at {file}:{head} after that"
    return [
        f"{continuation}: the break at {file}:{breaks[0]} leaves a select or a switch alone."
        if breaks
        else f"{continuation}."
    ]
