"""Selects that gave up waiting for a channel, for example because a pool had no free slot. The channel was full, or
empty, and stays so until the end of the recording."""

from collections.abc import Iterator
from operator import attrgetter

from netrev.findings.evidence.call_words import place_in
from netrev.findings.finding import Cause
from netrev.recording.goroutines import A_SELECT, FOR_ROOM, FOR_VALUE, PUT, TOOK, At
from netrev.recording.recording import Recording
from netrev.recording.waits import ObjectWait, waits_of
from netrev.recording.where import OF_THE_PROGRAM
from netrev.run.index import RunIndex
from netrev.text.plurals import counted

from .balance_sentences import kept_sentence
from .balances import balances_of
from .leaking_paths import paths_with_an_error

A_WHILE = 20_000_000  # nanoseconds, the shortest wait that counts


def given_up_waits(index: RunIndex) -> Iterator[Cause]:
    """For each buffered channel, the first wait that ended in vain: the goroutine's select went on with another
    case."""
    recording, seen = index.recording, set[int]()
    every = [wait for some in waits_of(recording).of.values() for wait in some]
    for wait in sorted(every, key=attrgetter("first", "begin")):
        for at in wait.objects if is_given_up(recording, wait) else ():
            calls = [call for call in index.calls if call.first <= max(wait.last or 0, 1)]
            if at.object in seen or not is_stuck(recording, at) or not calls:
                continue
            seen.add(at.object)
            yield Cause(
                calls[-1], says(recording, wait, at), [calls[-1].first], [f"goto {wait.last}", "info goroutines"]
            )


def is_given_up(recording: Recording, wait: ObjectWait) -> bool:
    """Whether a goroutine of the program waited for a while in a select and then went on."""
    own, last = wait.stack.own(), wait.last
    ended = next(
        (
            park.end
            for parks in recording.lines.parks.values()
            for park in parks
            if park.begin == wait.begin and park.last == last
        ),
        0,
    )
    is_select = wait.kind == A_SELECT and own is not None and own[0].of == OF_THE_PROGRAM
    return is_select and last is not None and ended - wait.begin >= A_WHILE


def is_stuck(recording: Recording, at: At) -> bool:
    """Whether a buffered channel is full at the end of the recording (for a wait for room) or empty (for a wait for a
    value)."""
    known, uses = recording.lines.objects.get(at.object), recording.lines.uses.get(at.object, ())
    puts, takes = (sum(use.often for use in uses if use.what == what) for what in (PUT, TOOK))
    if known is None or known.room <= 0 or not puts or not recording.lines.made:
        return False
    return (
        puts - takes == known.room
        if at.use == FOR_ROOM
        else at.use == FOR_VALUE and puts == takes and takes >= known.room
    )


def says(recording: Recording, wait: ObjectWait, at: At) -> list[str]:
    """The sentences about an abandoned wait."""
    room = recording.lines.objects[at.object].room
    what = (
        f"for room in a channel that has {counted(room, 'value')}, as many as it has room for"
        if at.use == FOR_ROOM
        else "for a value from a channel that is empty"
    )
    kept = kept_sentence(recording, balances_of(recording, at.object, {})) or paths_with_an_error(
        recording, wait._replace(objects=(at,))
    )
    return [
        f"{str(wait.name).capitalize()} waited{place_in(wait.stack)} {what}, from step {wait.first} to {wait.last}, and went on without.",
        *kept,
    ]
