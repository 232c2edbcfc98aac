"""Differences between goroutines of the same `go` statement. For some of these goroutines, the module finds the lines
of the program that only they passed, or that only the other goroutines passed."""

from collections import Counter, defaultdict
from collections.abc import Collection, Iterable
from functools import cached_property, lru_cache
from typing import NamedTuple

from netrev.findings.source.functions import text_at
from netrev.recording.recording import Recording
from netrev.recording.waits import Name, name_of_goid, of_names
from netrev.recording.where import OF_THE_PROGRAM, SourceCall, Stack
from netrev.run.index import run_of
from netrev.text.plurals import counted

from .call_words import short

MOST_LINES = 2
DEFERRED = ".deferwrap"  # part of the names of Go's functions for `defer`, which run however a function ends


class Kind(NamedTuple):
    """The goroutines that one `go` statement started: those that did something, those that ended without doing it, and
    those that may still do it."""

    statement: SourceCall
    did: list[int]
    ended: list[int]
    alive: list[int]


class PassedLines:
    """The lines of the program that each goroutine is known to have passed, without the lines of deferred functions."""

    def __init__(self, recording: Recording) -> None:
        self._recording = recording

    @cached_property
    def _stacks(self) -> dict[Name, set[int]]:
        """The stacks of each goroutine at its steps, waits and uses of channels."""
        lines, found = self._recording.lines, defaultdict[Name, set[int]](set)
        for goroutine, stack in zip(run_of(self._recording).owners.goroutines, lines.steps):
            found[Name(goroutine)].add(stack)
        for goid, parks in lines.parks.items():
            found[name_of_goid(lines, goid)].update(park.stack for park in parks)
        for uses in lines.uses.values():
            for use in uses:
                found[name_of_goid(lines, use.goid)].add(use.stack)
        return found

    def of(self, goid: int) -> set[SourceCall]:
        """The lines of a goroutine."""
        stacks = self._recording.lines.stacks
        numbers = self._stacks.get(name_of_goid(self._recording.lines, goid), ())
        return {line for number in numbers for line in lines_in(stacks[number])}


def lines_in(stack: Stack) -> set[SourceCall]:
    return {call for call in stack.calls if call.of == OF_THE_PROGRAM and DEFERRED not in call.function}


@lru_cache(maxsize=2)
def lines_of(recording: Recording) -> PassedLines:
    """The lines that the goroutines of a recording have passed."""
    return PassedLines(recording)


def kinds_of(recording: Recording, did: Collection[int]) -> list[Kind]:
    """The `go` statements whose goroutines differ: some are in `did`, and others aren't. The statement with the most
    goroutines in `did` comes first."""
    found: dict[SourceCall, Kind] = {}
    for goid, known in recording.lines.goroutines.items():
        if known.made and known.made.of == OF_THE_PROGRAM:
            kind = found.setdefault(known.made, Kind(known.made, [], [], []))
            (kind.did if goid in did else kind.alive if known.last < 0 else kind.ended).append(goid)
    kinds = [kind for kind in found.values() if kind.did and (kind.ended or kind.alive)]
    return sorted(kinds, key=lambda kind: -len(kind.did))


def odd_goroutines(recording: Recording, goids: list[int]) -> tuple[list[int], SourceCall] | None:
    """The goroutines in `goids` that didn't pass a line, and the line. At least half of `goids` passed it."""
    passed = lines_of(recording)
    often = Counter(line for goid in goids for line in passed.of(goid))
    most = {line: count for line, count in often.items() if len(goids) <= 2 * count < 2 * len(goids)}
    if not most:
        return None
    line = max(most, key=lambda place: (most[place], -place.line))
    return [goid for goid in goids if line not in passed.of(goid)], line


def lines_words(
    recording: Recording, odd: Iterable[int], others: Iterable[int], known: Collection[SourceCall] = frozenset()
) -> str:
    """Text for the lines that only goroutines in `odd` passed, and for the lines that only those in `others` passed: `;
    only they passed a.go:3 in ask`. Lines in `known` are left out. The result is empty if no such line exists."""
    passed = lines_of(recording)
    its, theirs = ([passed.of(goid) for goid in some] for some in (odd, others))
    if not its or not theirs:
        return ""
    alone, lacking = union(its) - union(theirs), set.intersection(*theirs) - union(its)
    alone, lacking = (
        {line for line in some if line not in known and not is_end(recording, line)} for some in (alone, lacking)
    )
    they = "they" if len(its) > 1 else "it"
    words = [f"only {they} passed {places(alone)}"] if alone else []
    others_words = "the others" if len(theirs) > 1 else "the other one"
    words += [f"only {others_words} passed {places(lacking)}"] if lacking else []
    return "".join(f"; {some}" for some in words)


def union(some: list[set[SourceCall]]) -> set[SourceCall]:
    return set[SourceCall]().union(*some)


def is_end(recording: Recording, line: SourceCall) -> bool:
    """Whether a line is known to be nothing but the end of a function."""
    return text_at(recording, line).strip() == "}"


def places(lines: set[SourceCall]) -> str:
    """The first few of these lines as text, ordered by file and line."""
    shown = sorted(lines, key=lambda line: (line.file, line.line))[:MOST_LINES]
    return " and ".join(f"{line.place()} in {short(line.function)}" for line in shown)


def ended_words(recording: Recording, kind: Kind, did: str) -> str:
    """A sentence about goroutines that ended without doing what the others did: `goroutine 7, started at a.go:44, ended
    without ..`."""
    names = of_names(name_of_goid(recording.lines, goid) for goid in kind.ended)
    others = counted(len(kind.did), "other")
    does = "did" if len(kind.did) != 1 else "did so"
    start = f"{names}, started at {kind.statement.place()}, ended without {did}; {others} of that go statement {does}"
    return f"{start[0].upper()}{start[1:]}{lines_words(recording, kind.ended, kind.did)}."
