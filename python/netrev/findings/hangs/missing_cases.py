"""Selects in which a goroutine waits forever. A Shutdown waits until a goroutine has served its request, and that
goroutine waits in the select. Or the select lacks a case for a closed channel; another select of the same type has that
case."""

from operator import attrgetter
from typing import NamedTuple

from netrev.findings.evidence.call_words import place_in
from netrev.findings.evidence.responses import SERVE, contains
from netrev.findings.source.locks import owner
from netrev.recording.goroutines import A_SELECT, A_WAIT_GROUP, CLOSED, FOR_VALUE, PUT, ObjectUse
from netrev.recording.recording import Recording
from netrev.recording.waits import ALL_REQUESTS, Name, ObjectWait, name_of_goid, waits_of
from netrev.recording.where import OF_THE_PROGRAM, SourceCall, Stack

from .wait_graph import Hang, WaitBranch


class Lacking(NamedTuple):
    """A closed channel on which another goroutine waited: the use that closed the channel, and that wait."""

    closed: ObjectUse
    wait: ObjectWait


def missing_case_sentence(recording: Recording, hang: Hang) -> list[str]:
    """Sentences about a root that waits in a select. The sentences name the Shutdown that waits for the root, and the
    closed channel for which the select perhaps lacks a case. The list is empty if no Shutdown or WaitGroup waits."""
    wait = hang.root.wait
    if hang.is_deadlock or wait is None or wait.kind != A_SELECT or own_of(wait.stack) is None:
        return []
    shutdown = shutdown_of(recording, wait)
    ends = shutdown or next((group_wait for branch in hang.branches if (group_wait := group_wait_of(branch))), None)
    if ends is None:
        return []
    lacking = lacking_of(recording, wait, ends)
    return [
        *([shutdown_sentence(shutdown)] if shutdown else []),
        *([lacking_sentence(recording, lacking)] if lacking else []),
    ]


def own_of(stack: Stack) -> SourceCall | None:
    """The line of the program in a stack."""
    own = stack.own()
    return own[0] if own and own[0].of == OF_THE_PROGRAM else None


def group_wait_of(branch: WaitBranch) -> ObjectWait | None:
    """The wait of a branch's goroutine on a WaitGroup."""
    first = branch.waiters[0].wait
    return first if first and first.kind == A_WAIT_GROUP else None


def shutdown_of(recording: Recording, wait: ObjectWait) -> ObjectWait | None:
    """The first wait of a Shutdown, if a goroutine serves a request of net/http. A wait that doesn't end is preferred,
    because Shutdown polls."""
    if not contains(wait.stack, SERVE):
        return None
    every = (
        past_wait for waits in waits_of(recording).of.values() for past_wait in waits if past_wait.kind == ALL_REQUESTS
    )
    others = [past_wait for past_wait in every if past_wait.name != wait.name]
    yet = [past_wait for past_wait in others if past_wait.last is None]
    return min(yet or others, key=attrgetter("first", "begin"), default=None)


def shutdown_sentence(shutdown: ObjectWait) -> str:
    waits = "waits" if shutdown.last is None else "waited"
    return f"Shutdown{place_in(shutdown.stack)} ({shutdown.name}) {waits} for the ends of all requests, and cancels none of their contexts."


def lacking_of(recording: Recording, wait: ObjectWait, ends: ObjectWait) -> Lacking | None:
    """A channel that never had a value, and that was closed by the goroutine that now waits for other goroutines to
    end. Another function of the same type, or package, has waited on that channel."""
    own, closed = own_of(wait.stack), closed_by(recording, ends.name)
    for at in wait.objects:
        closed.pop(at.object, None)
    for waits in waits_of(recording).of.values() if closed and own else ():
        for past_wait in waits:
            use = next(
                (closed[at.object] for at in past_wait.objects if at.object in closed and at.use == FOR_VALUE), None
            )
            other = own_of(past_wait.stack) if use and past_wait.name not in (wait.name, ends.name) else None
            if (
                use
                and own
                and other
                and other.function != own.function
                and owner(other.function) == owner(own.function)
            ):
                return Lacking(use, past_wait)
    return None


def closed_by(recording: Recording, name: Name) -> dict[int, ObjectUse]:
    """The channels that a goroutine closed at a line of the program and into which no goroutine put a value."""
    lines = recording.lines
    return {
        number: use
        for number, uses in lines.uses.items()
        for use in uses
        if use.what == CLOSED and name_of_goid(lines, use.goid) == name and own_of(lines.stacks[use.stack])
        and not any(other.what == PUT for other in uses)
    }  # fmt: skip


def lacking_sentence(recording: Recording, lacking: Lacking) -> str:
    """The sentence about the missing case."""
    lines, closed, wait = recording.lines, lacking.closed, lacking.wait
    by = f"{name_of_goid(lines, closed.goid)}, step {closed.last}"
    return (
        f"Perhaps the select lacks a case: it has none for the channel that was closed{place_in(lines.stacks[closed.stack])} ({by}), for which "
        f"{wait.name} waited{place_in(wait.stack)}."
    )
