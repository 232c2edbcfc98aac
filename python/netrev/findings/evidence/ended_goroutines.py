"""Goroutines that ended while others wait for them: the last known place of each goroutine, and the lines at which it
may have left its loop."""

import re
from collections.abc import Iterator
from functools import lru_cache
from typing import NamedTuple

from netrev.findings.source.functions import Lines, function_of, indent_of
from netrev.recording.call import Call as OneCall
from netrev.recording.recording import Recording
from netrev.recording.waits import Name
from netrev.recording.where import OF_THE_PROGRAM, SourceCall, Stack
from netrev.run.index import RunIndex

from .call_words import place_in, short

DEFERRED, WRAPPED = ".deferwrap", ".gowrap"
LOOP, LEAVES = re.compile(r"\s*for\b"), re.compile(r"\s*(return|break|panic\(|runtime\.Goexit\()")
MOST_LEAVES = 2


class Passed(NamedTuple):
    """A stack of a goroutine, and the step and time at which the goroutine had that stack."""

    step: int
    time: int
    stack: Stack


def goid_of(recording: Recording, name: Name) -> int:
    """Go's own number for a goroutine."""
    return name.number if name.is_goid else recording.lines.goid_of(name.number)


@lru_cache(maxsize=1024)
def last_stack(index: RunIndex, name: Name) -> Stack | None:
    """The last known stack of a goroutine that isn't in a deferred function."""
    last = max(passed_by(index, name), key=lambda passage: (passage.step, passage.time), default=None)
    return last.stack if last else None


def passed_by(index: RunIndex, name: Name) -> Iterator[Passed]:
    """The stacks of a goroutine that have a line of the program."""
    recording, goid = index.recording, goid_of(index.recording, name)
    lines, calls = recording.lines, index.calls_of(name)
    found = [Passed(call.first, time_of(recording, call.first), lines.of(call.first)) for call in calls[-3:]]
    found += [Passed(park.last, park.end, lines.stacks[park.stack]) for park in lines.parks.get(goid, ())[-3:]]
    found += [Passed(dial.step, dial.time, lines.stacks[dial.stack]) for dial in lines.failed_dials.get(goid, ())[-3:]]
    for uses in lines.uses.values():
        found += [Passed(use.last, use.end, lines.stacks[use.stack]) for use in uses if use.goid == goid]
    for passed in found:
        calls_of = [call for call in passed.stack.calls if call.of == OF_THE_PROGRAM]
        if calls_of and DEFERRED not in calls_of[0].function:
            yield passed


def time_of(recording: Recording, step: int) -> int:
    """The time of a step; 0 if unknown."""
    times = recording.lines.times
    return times[step - 1] if 0 < step <= len(times) else 0


def ended_where(index: RunIndex, name: Name, known: Stack | None = None) -> str:
    """Text for the last known place of a goroutine that ended, such as `, last known at a.go:15 in parse`, followed by
    the text of `paths_out` for its loop. The text is empty if the place is unknown, and omits the place if it is the
    known line."""
    stack = last_stack(index, name)
    own = [call for call in stack.calls if call.of == OF_THE_PROGRAM and WRAPPED not in call.function] if stack else []
    if not own:
        return ""
    is_known = known is not None and known.own() is not None and place_in(known) == place_in(stack or known)
    called = (
        f", called at {own[-1].place()} in {short(own[-1].function)}" if own[0].function != own[-1].function else ""
    )
    last = "" if is_known else f", last known at {own[0].place()} in {short(own[0].function)}{called}"
    failed = next(iter(index.recording.lines.failed_dials.get(goid_of(index.recording, name), ())[-1:]), None)
    is_refused = failed is not None and index.recording.lines.stacks[failed.stack] == stack
    why = f", where its Dial failed ({failed.why})" if failed and is_refused and failed.why else ""
    return f"{last}{why}{paths_out(index.recording, own[-1])}"


def loop_words(recording: Recording, stack: Stack) -> str:
    """The lines that leave the loop in which a goroutine did something, in the form of `paths_out`; empty if the
    stack has only one function of the program."""
    own = [call for call in stack.calls if call.of == OF_THE_PROGRAM and WRAPPED not in call.function]
    return paths_out(recording, own[0]) if len(own) > 1 else ""


def paths_out(recording: Recording, call: SourceCall) -> str:
    """The lines that leave the loop around a line, as text, such as `, from whose loop a.go:18 leads`; empty if no line
    or too many lines leave it. A function that the loop calls may end the goroutine too."""
    leaves, over = leaves_of(recording, call), ranged_over(recording, call)
    ways = " and ".join(f"{call.file}:{number}" for number in leaves)
    lead, end = f"lead{'s' if len(leaves) == 1 else ''}", f", or the end of its range over {over}" if over else ""
    return f", from whose loop {ways} {lead}{end}" if leaves else ""


def left_by(index: RunIndex, call: OneCall) -> str:
    """The line at which a goroutine left the loop around a call that it had made, in the form of `ended_where`. The
    goroutine has ended. If several lines are possible, the result is the first line after the goroutine's last line in
    that function."""
    own = index.recording.lines.of(call.first).own()
    leaves = every_leave(index.recording, own[0]) if own and own[0].of == OF_THE_PROGRAM else []
    if not own or not leaves:
        return ""
    passed = sorted(passed_by(index, Name(call.goroutine)), key=lambda passage: (passage.step, passage.time))
    inside = (frame for passage in passed for frame in passage.stack.calls if frame.function == own[0].function)
    last = max(
        (frame.line for frame in inside if frame.line in range(own[0].line, leaves[-1] + 1)), default=own[0].line
    )
    later = [number for number in leaves if number >= last] if last > own[0].line else []
    found = later[:1] or leaves
    ways = " and ".join(f"{own[0].file}:{number}" for number in found)
    return f", from whose loop {ways} lead{'' if found[1:] else 's'}" if len(found) <= MOST_LEAVES else ""


def ranged_over(recording: Recording, call: SourceCall) -> str:
    """What the innermost loop around a line ranges over; empty if the loop has no end of its own."""
    lines, head = loop_at(recording, call)
    found = re.search(r"\brange ([\w.]+) \{", lines[head - 1]) if head else None
    return found[1] if found else ""


def leaves_of(recording: Recording, call: SourceCall) -> list[int]:
    """The lines that leave the innermost loop around a line of a function; none if there are many."""
    found = every_leave(recording, call)
    return found if len(found) <= MOST_LEAVES else []


def every_leave(recording: Recording, call: SourceCall) -> list[int]:
    """The lines that leave the innermost loop around a line of a function, if the loop is over a channel or has no
    condition."""
    lines, head = loop_at(recording, call)
    if not head or not is_endless(lines[head - 1]):
        return []
    found = [number for number in body_of(lines, head) if LEAVES.match(lines[number - 1].partition("//")[0])]
    return [number for number in found if not is_inner_break(lines, head, number)]


def loop_at(recording: Recording, call: SourceCall) -> tuple[Lines, int]:
    """The lines of a call's file, and the line at which the innermost loop around the call begins; 0 if no loop
    surrounds it."""
    lines, within = function_of(recording, call)
    return lines, loop_around(lines, within, call.line) if within else 0


def loop_around(lines: Lines, within: range, line: int) -> int:
    """The line at which the innermost loop around a line begins; 0 if no loop surrounds the line."""
    margin = indent_of(lines[line - 1])
    if LOOP.match(lines[line - 1]):
        return line
    for number in range(line, within.start, -1):
        text = lines[number - 1]
        if text.strip() and indent_of(text) < margin:
            margin = indent_of(text)
            if "func(" in text:
                return 0
            if LOOP.match(text):
                return number
    return 0


def is_endless(text: str) -> bool:
    """Whether a loop has no condition, or may range over a channel."""
    head = text.partition("//")[0].strip()
    return head == "for {" or re.match(r"for (\w+ :?= )?range [\w.]+ \{\Z", head) is not None


def body_of(lines: Lines, head: int) -> Iterator[int]:
    """The lines of a loop's body, without function literals."""
    margin, number = indent_of(lines[head - 1]), head + 1
    while number <= len(lines) and (indent_of(lines[number - 1]) > margin or not lines[number - 1].strip()):
        text, inner = lines[number - 1].partition("//")[0].rstrip(), indent_of(lines[number - 1])
        if "func(" in text and text.endswith("{"):
            while number < len(lines) and not (indent_of(lines[number]) <= inner and lines[number].strip()):
                number += 1
        else:
            yield number
        number += 1


def is_inner_break(lines: Lines, head: int, number: int) -> bool:
    """Whether a `break` belongs to an inner loop, switch or select rather than to the loop itself."""
    margin = indent_of(lines[number - 1])
    if lines[number - 1].partition("//")[0].strip() != "break":
        return False
    for at in range(number - 1, head, -1):
        if lines[at - 1].strip() and indent_of(lines[at - 1]) < margin:
            margin = indent_of(lines[at - 1])
            if re.match(r"\s*(for|switch|select)\b", lines[at - 1]):
                return True
            margin += lines[at - 1].lstrip().startswith(("case ", "default:"))
    return False
