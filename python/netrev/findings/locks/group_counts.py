"""The counts that goroutines added to a WaitGroup, and the goroutines that called Done. The module finds how many calls
of Done are missing, and the goroutines that ended without calling it."""

from collections import Counter
from typing import NamedTuple

from netrev.findings.evidence.call_words import place_in
from netrev.findings.evidence.siblings import DEFERRED, Kind, lines_in, lines_words
from netrev.recording.goroutines import ADDED, DONE, ObjectUse
from netrev.recording.recording import Recording
from netrev.recording.waits import Name, name_of_goid, of_names
from netrev.recording.where import OF_THE_PROGRAM, SourceCall

MOST_PLACES, MOST_KINDS = 2, 2


class Count(NamedTuple):
    """The uses of a WaitGroup that added to its count, and the uses that subtracted from it."""

    added: list[ObjectUse]
    done: list[ObjectUse]

    @property
    def missing(self) -> int:
        """The number of missing calls of Done."""
        return total(self.added) - total(self.done)

    @property
    def done_by(self) -> set[int]:
        """The goroutines that called Done, by Go's own numbers."""
        return {use.goid for use in self.done}

    @property
    def is_once(self) -> bool:
        """Whether each goroutine called Done only once, as goroutines that run a single task do."""
        return total(self.done) == len(self.done_by)


def total(uses: list[ObjectUse]) -> int:
    return sum(use.often for use in uses)


def count_of(recording: Recording, number: int) -> Count | None:
    """The count of a WaitGroup that lacks calls of Done; None if unknown."""
    uses = recording.lines.uses.get(number, ())
    count = Count(*([use for use in uses if use.what == what] for what in (ADDED, DONE)))
    return count if count.added and count.missing > 0 else None


def count_sentence(recording: Recording, count: Count) -> str:
    """A sentence which says how many calls of Done are missing."""
    missing = f"{count.missing} calls of Done are" if count.missing > 1 else "1 call of Done is"
    done = f"{total(count.done)} done{places_of(recording, count.done)}" if count.done else "none done"
    were = "were" if total(count.added) > 1 else "was"
    return f"{missing} missing: {total(count.added)} {were} added{places_of(recording, count.added)}, and {done}."


def places_of(recording: Recording, uses: list[ObjectUse]) -> str:
    """The lines at which goroutines called Add or Done most often."""
    often = Counter[str]()
    for use in uses:
        if place := place_in(recording.lines.stacks[use.stack]).partition(", called")[0]:
            often[place.partition(DEFERRED)[0]] += use.often
    shown = [place for place, _ in often.most_common(MOST_PLACES)]
    return " and".join(shown) + (" and elsewhere" if len(often) > MOST_PLACES else "")


def started_by(recording: Recording, count: Count) -> set[int]:
    """The goroutines that the callers of Add started after the first Add."""
    adders, begin = {use.goid for use in count.added}, min(use.begin for use in count.added)
    goroutines = recording.lines.goroutines
    return {goid for goid, known in goroutines.items() if known.maker in adders and known.begin >= begin}


def kinds_at(recording: Recording, count: Count) -> list[Kind]:
    """The `go` statements whose goroutines should call Done, because at least one of their goroutines did. If no
    goroutine did, the result has the `go` statement after the line that called Add."""
    found, goroutines = dict[SourceCall, Kind](), recording.lines.goroutines
    for goid in sorted(started_by(recording, count)):
        statement = goroutines[goid].made
        if statement and statement.of == OF_THE_PROGRAM:
            kind = found.setdefault(statement, Kind(statement, [], [], []))
            has_ended = goroutines[goid].last >= 0
            (kind.did if goid in count.done_by else kind.ended if has_ended else kind.alive).append(goid)
    did = [kind for kind in found.values() if kind.did]
    return did if count.done else next_after(recording, count, list(found.values()))


def next_after(recording: Recording, count: Count, kinds: list[Kind]) -> list[Kind]:
    """The next `go` statement after the line that called Add, in the same function."""
    own = recording.lines.stacks[count.added[0].stack].own()
    near = [
        kind
        for kind in kinds
        if own and kind.statement.function == own[0].function and kind.statement.line >= own[0].line
    ]
    return sorted(near, key=lambda kind: kind.statement.line)[:1]


def ended_sentence(recording: Recording, count: Count) -> list[str]:
    """Sentences about the goroutines that should have called Done and ended without it, and the lines by which they
    differ from the others. If all goroutines have called Done, a sentence says so."""
    kinds = kinds_at(recording, count)
    says = [kind_sentence(recording, count, kind) for kind in kinds if kind.ended][:MOST_KINDS]
    if says or not kinds or not count.is_once or any(kind.alive for kind in kinds):
        return says
    number, places = sum(len(kind.did) for kind in kinds), " and ".join(
        kind.statement.place() for kind in kinds[:MOST_KINDS]
    )
    if number != total(count.done):
        return []
    every = (
        f"The goroutine started at {places} has" if number == 1 else f"All {number} goroutines started at {places} have"
    )
    return [f"{every} called Done: more was added than that."]


def ended_names(recording: Recording, count: Count) -> tuple[Name, ...]:
    """The goroutines that should have called Done and ended without it."""
    goids = (goid for kind in kinds_at(recording, count) for goid in kind.ended)
    return tuple(name_of_goid(recording.lines, goid) for goid in goids)


def kind_sentence(recording: Recording, count: Count, kind: Kind) -> str:
    """A sentence which says that goroutines of a `go` statement ended without calling Done."""
    lines, every = recording.lines, [*kind.did, *kind.ended, *kind.alive]
    names = of_names(name_of_goid(lines, goid) for goid in kind.ended)
    if len(every) == 1:
        return f"The goroutine started at {kind.statement.place()}, {names}, ended without Done."
    of_done = {call for use in count.done for call in lines_in(lines.stacks[use.stack])}
    differs = lines_words(recording, kind.ended, kind.did, of_done)
    did = f"{len(kind.did)} called Done" if kind.did else "none called Done"
    alive = f"{len(kind.alive)} may yet do so, " if kind.alive else ""
    return (
        f"Of the {len(every)} goroutines started at {kind.statement.place()} {did}, {alive}and {names} ended without "
        f"it{differs}."
    )
