"""Connections that no goroutine uses: sockets that were dialed but never written, read or closed, and sockets of
goroutines whose results no goroutine took from a channel."""

from collections import defaultdict
from collections.abc import Iterator

from netrev.findings.evidence.call_words import place_in, short
from netrev.findings.finding import Cause
from netrev.findings.pools.made_channels import has_returned, is_local, returns_sentence
from netrev.recording.call import CLOSE, OPEN, Call
from netrev.recording.goroutines import PUT, TOOK
from netrev.recording.waits import listed, name_of_goid
from netrev.recording.where import OF_THE_PROGRAM
from netrev.recording.where import SourceCall as LineCall
from netrev.run.index import MOVING, RunIndex
from netrev.text.plurals import counted

from .unaccepted_connections import is_dialed


def unused_since(index: RunIndex, call: Call, step: int) -> list[str]:
    """Sentences about a call that failed on a connection whose other end was closed, if the call's goroutine has dialed
    since and never used the new connections."""
    opened: dict[str, list[int]] = defaultdict(list)
    for opening in index.by_goroutine[call.goroutine]:
        if (
            opening.name == OPEN
            and opening.first > step
            and is_dialed(index, opening.socket)
            and not is_used(index, opening.socket)
        ):
            opened[place_in(index.recording.lines.of(opening.first))].append(opening.socket)
    return [
        f"Goroutine {call.goroutine} has dialed since{place}, and never used socket{'s' if sockets[1:] else ''} {listed(sockets)}."
        for place, sockets in opened.items()
        if place
    ]


def is_used(index: RunIndex, socket: int) -> bool:
    """Whether a goroutine has read from, written to or closed a socket."""
    return any(call.name in MOVING or call.name == CLOSE for call in index.by_socket[socket])


def untaken_results(index: RunIndex) -> Iterator[Cause]:
    """Possible causes: channels with values that no goroutine took. The goroutines that put the values there left
    sockets open, and the function that made the channel has returned."""
    lines, found = index.recording.lines, dict[LineCall, list[Call]]()
    for number, creation in lines.made.items():
        own = lines.stacks[creation.stack].own()
        uses = lines.uses.get(number, ())
        puts, taken = [use for use in uses if use.what == PUT], sum(use.often for use in uses if use.what == TOOK)
        if not own or own[0].of != OF_THE_PROGRAM or not puts or sum(use.often for use in puts) <= taken:
            continue
        maker = name_of_goid(lines, creation.goid)
        opened = [opening for use in puts for opening in opened_by(index, use.goid)]
        if opened and is_local(index, own[0]) and has_returned(index, maker, own[0], index.recording.length):
            found.setdefault(own[0], []).extend(opened)
    for line, calls in found.items():
        sockets = listed(sorted({call.socket for call in calls}))
        many = counted(len(calls), "goroutine")
        says = [
            f"{many} put a result into a channel that {line.place()} in {short(line.function)} made, and nobody took it: {short(line.function)} had "
            f"returned{returns_sentence(index, line)}.",
            f"What {'it' if len(calls) == 1 else 'each'} opened{place_in(lines.of(calls[0].first))} is open yet: socket{'s' if len(calls) > 1 else ''} {sockets}.",
        ]
        yield Cause(calls[0], says, [calls[0].first], [f"goto {calls[0].first}", f"calls sock {calls[0].socket}"])


def opened_by(index: RunIndex, goid: int) -> list[Call]:
    """A goroutine's Opens of dialed sockets that no goroutine has closed."""
    opened = [opening for opening in index.by_goid(goid) if opening.name == OPEN and is_dialed(index, opening.socket)]
    return [opening for opening in opened if not any(call.name == CLOSE for call in index.by_socket[opening.socket])]
