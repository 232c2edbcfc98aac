"""Hangs that explain a failed call or follow from it: hangs of the call's goroutine, of the goroutine at the other end,
or of goroutines that wait for the call's goroutine."""

from collections.abc import Iterator
from typing import NamedTuple

from netrev.findings.evidence.call_words import name_of
from netrev.findings.evidence.responses import server_of
from netrev.findings.evidence.waiters import Waiter
from netrev.findings.finding import Cause
from netrev.recording.call import CLOSE, Call
from netrev.recording.waits import Name
from netrev.run.index import READING, WRITING, run_of

from .wait_graph import Hang, WaitGraph, waiters_of


class Topic(NamedTuple):
    """One topic of the output: a failed call, a hang, or both, and the sentence that joins the hang to the call."""

    cause: Cause | None
    hang: Hang | None = None
    because: str = ""


def joined(graph: WaitGraph, order: list[Topic]) -> list[Topic]:
    """The topics, each hang joined to the first failed call to which it is related. A hang that explains a failed call
    is listed even if it isn't in `order`, as in a program that ended by itself."""
    hangs = [topic.hang for topic in order if topic.hang]
    left = [*hangs, *(hang for hang in graph.shown if not any(hang is known for known in hangs))]
    of_failures: dict[int, Topic] = {}
    for number, topic in enumerate(order):
        found = next(((hang, because) for hang in left if (because := because_of(graph, hang, topic.cause))), None)
        if found:
            of_failures[number] = Topic(topic.cause, *found)
            left = [hang for hang in left if hang is not found[0]]
    every = (of_failures.get(number, topic) for number, topic in enumerate(order))
    return [topic for topic in every if topic.cause or any(topic.hang is hang for hang in left)]


def because_of(graph: WaitGraph, hang: Hang, cause: Cause | None) -> str:
    """The sentence that joins a hang to a failed call; empty if the two are unrelated, or if the reason for the hang
    isn't known."""
    # (the first sentence of a hang at a write says which goroutine doesn't read)
    is_write = hang.root.call is not None and hang.root.call.name in WRITING
    if cause is None or hang.is_quiet or hang.is_of_go or not (hang.has_reason or hang.is_deadlock or is_write):
        return ""
    call, waiters = cause.call, {waiter.name: waiter for waiter in waiters_of(hang)}
    if named := next((waiter for waiter in waiters.values() if waiter.call and waiter.since in cause.steps), None):
        return f"{str(named.name).capitalize()} is still waiting."
    name = Name(call.goroutine)
    if name in waiters and has_stopped(graph, waiters[name], call):
        return f"{str(name).capitalize()} has been waiting since then."
    if any(name in (need.gone, *need.ended) for need in hang.needs):
        return f"{str(name).capitalize()} has ended since, and others wait for that."
    other = next((waiters[name] for name in others_of(graph, call) if name in waiters), None)
    if other and other.since <= call.last:
        return f"{str(other.name).capitalize()}, at the other end, was waiting then, and still is."
    twin = next((root for root in hang.roots if is_twin(graph, root, call)), None)
    return f"{str(twin.name).capitalize()} is still waiting in such a call." if twin and hang.has_reason else ""


def has_stopped(graph: WaitGraph, waiter: Waiter, call: Call) -> bool:
    """Whether the goroutine of a failed call began to wait outside the poller after that call, and has since then used
    no socket except to close it."""
    calls = run_of(graph.recording).by_goroutine[call.goroutine]
    later = [later_call for later_call in calls if later_call.first > call.last and later_call.name != CLOSE]
    return waiter.wait is not None and waiter.since >= call.last and not later


def others_of(graph: WaitGraph, call: Call) -> Iterator[Name]:
    """The goroutines at the other end of a call's connection: the goroutine that served a request there, and the
    goroutine that last used that end before the call ended."""
    index = run_of(graph.recording)
    if server := server_of(index, call.socket, call.first):
        yield server
    other = index.other_end(call.socket)
    last = index.last_use(other, call.last) if other is not None else None
    if last:
        yield Name(last.goroutine)


def is_twin(graph: WaitGraph, root: Waiter, call: Call) -> bool:
    """Whether a root waits in a call with the same name and line as a failed call."""
    recording, own = graph.recording, root.stack.own()
    if root.call is None or own is None or root.call.name not in READING:
        return False
    same = recording.lines.of(call.first).own()
    return same is not None and same[0] == own[0] and name_of(recording, root.call) == name_of(recording, call)
