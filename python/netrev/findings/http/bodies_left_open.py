"""Connections of net/http that wait until a response's body is read to its end or closed, and the lines that made those
requests."""

from collections import defaultdict
from operator import attrgetter

from netrev.findings.evidence.call_words import place_in
from netrev.findings.evidence.ledger import Ledger
from netrev.findings.pools.leaking_paths import paths_past_close
from netrev.recording.goroutines import FOR_VALUE, PUT
from netrev.recording.recording import Recording
from netrev.recording.waits import Name, ObjectWait, Waits, name_of_goid, of_names
from netrev.recording.where import Stack
from netrev.text.plurals import counted

READ_LOOP = "net/http.(*persistConn).readLoop"


def open_bodies(recording: Recording, ledger: Ledger, waits: Waits, position: int) -> list[str]:
    """Sentences about connections that wait for a body, and about the paths on which a body isn't closed; none if no
    connection waits."""
    kept = [wait for wait in waits.left(position) if is_kept(wait)]
    if not kept:
        return []
    by_line: dict[str, list[Name]] = defaultdict(list)
    stacks = dict[Stack, None]()
    for wait in kept:
        request = request_of(recording, wait)
        if request:
            by_line[place_in(request[1])].append(request[0])
            stacks[request[1]] = None
    many = f"{counted(len(kept), 'connection')} {'is' if len(kept) == 1 else 'are'} kept by responses"
    whose = "; ".join(f"of the request{place} ({of_names(names)})" for place, names in by_line.items())
    says = f"{many} whose body was neither read to its end nor closed{': ' if whose else ''}{whose}."
    return [says, *paths_past_close(recording, stacks)]


def is_kept(wait: ObjectWait) -> bool:
    """Whether a connection's goroutine waits until a body is read: the goroutine is in a select without a case that
    sends."""
    in_loop = bool(wait.stack.calls) and any(call.function == READ_LOOP for call in wait.stack.calls[:3])
    return in_loop and len(wait.objects) > 1 and all(at.use == FOR_VALUE for at in wait.objects)


def request_of(recording: Recording, wait: ObjectWait) -> tuple[Name, Stack] | None:
    """The goroutine that made the last request on a connection, and its stack when it passed the request to the
    connection's goroutine."""
    lines = recording.lines
    goid = wait.name.number if wait.name.is_goid else lines.goid_of(wait.name.number)
    found = []
    for uses in lines.uses.values():
        if any(use.goid == goid for use in uses):
            found += [use for use in uses if use.goid != goid and use.what == PUT and lines.stacks[use.stack].own()]
    last = max(found, key=attrgetter("end"), default=None)
    return (name_of_goid(lines, last.goid), lines.stacks[last.stack]) if last else None
