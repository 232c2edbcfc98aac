"""Goroutines that may later do what another goroutine waits for on a channel, found in the program's source. Such a
goroutine is in a function, before a line that puts a value into the channel or takes a value from it."""

import re
from collections.abc import Iterable
from typing import NamedTuple

from netrev.findings.evidence.need import Certainty, Need
from netrev.findings.source.functions import (
    Lines,
    begin_of_literal,
    is_inside,
    is_same_variable,
    range_of,
    source_of,
    text_at,
)
from netrev.findings.source.locks import owner
from netrev.recording.goroutines import FOR_ROOM, FOR_VALUE
from netrev.recording.recording import Recording
from netrev.recording.waits import Name, ObjectWait
from netrev.recording.where import OF_THE_PROGRAM, SourceCall, Stack

PUTS = re.compile(r"([\w.]+(?:\[[^\]]*\])?) ?<- ?(?=\S)")
TAKES = re.compile(r"(?:<- ?|\brange )([\w.]+)(?![\w.(])")
WORDS = {FOR_VALUE: ("puts a value there", "puts a value into"), FOR_ROOM: ("takes from it", "takes one from")}


class Giving(NamedTuple):
    """A line with the awaited operation on a channel, and the lines of its function."""

    number: int
    within: range


def later_giver(recording: Recording, wait: ObjectWait, stacks: Iterable[tuple[Name, Stack]]) -> Need | None:
    """What a waiting goroutine needs: another goroutine that may do the awaited operation later. If no line of the file
    does the operation, a sentence says so. The result is None if the source isn't available."""
    own = wait.stack.own()
    if not own or own[0].of != OF_THE_PROGRAM or len(wait.objects) != 1 or wait.objects[0].use not in WORDS:
        return None
    use = wait.objects[0].use
    mine, others = (TAKES, PUTS) if use == FOR_VALUE else (PUTS, TAKES)
    name, source = mine.search(text_at(recording, own[0])), source_of(recording, own[0].file)
    if not name or not source:
        return None
    givings = givings_of(source, own[0], name[1], others)
    does, nothing = WORDS[use]
    if not givings and "." in name[1]:
        return Need([], more=[f"No line of {own[0].file} {nothing} a channel named {name[1].rpartition('.')[2]}."])
    for goroutine, stack in stacks:
        for call in stack.calls if goroutine != wait.name else ():
            for giving in givings:
                is_before = call.line in giving.within and call.line < giving.number
                if call.file == own[0].file and is_before and is_inside(source, call, giving.within):
                    how = f"perhaps {{by}} {does} later, at {own[0].file}:{giving.number}"
                    return Need([], goroutine, how, Certainty.PERHAPS)
                if call.file == own[0].file and is_deferred_in(source, call, giving.number):
                    how = f"perhaps {{by}} {does} as it ends, at {own[0].file}:{giving.number}"
                    return Need([], goroutine, how, Certainty.PERHAPS)
    return None


def is_deferred_in(lines: Lines, call: SourceCall, number: int) -> bool:
    """Whether a line is in a function literal that the function of a call has deferred."""
    within = range_of(lines, call)
    return within is not None and number in within and number < call.line and is_deferred(lines, number)


def is_deferred(lines: Lines, number: int) -> bool:
    """Whether a line runs when its function ends."""
    begin = begin_of_literal(lines, number)
    return any(lines[at - 1].lstrip().startswith("defer ") for at in (number, begin) if at)


def givings_of(source: Lines, call: SourceCall, name: str, pattern: "re.Pattern[str]") -> list[Giving]:
    """The lines that do an operation on a channel that may have this name."""
    found = []
    for number, text in enumerate(source, 1):
        gives = pattern.search(text.partition("//")[0])
        if gives and number != call.line and is_same_variable(name, gives[1], True):
            within = range_of(source, SourceCall(f"{owner(call.function)}.func1", call.file, number, call.of))
            whole = range_of(source, SourceCall(owner(call.function), call.file, number, call.of))
            found.append(Giving(number, within or whole or range(0)))
    return found
