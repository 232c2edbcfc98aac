"""Why a goroutine closed a connection after it found a channel closed, as net/http does if the context of a request
ended. The reason is the goroutine and line that cancelled the context, or the timeout that had passed."""

import re
from collections import defaultdict
from collections.abc import Iterator
from functools import lru_cache
from operator import attrgetter
from typing import NamedTuple

from netrev.findings.evidence.call_words import place_in, waits_words
from netrev.findings.evidence.responses import contains, server_of
from netrev.findings.source.functions import found_in, text_at
from netrev.recording.call import Call
from netrev.recording.cell_meanings import duration
from netrev.recording.goroutines import CLOSED, ENDED, ObjectUse, Timer
from netrev.recording.recording import Recording
from netrev.recording.waits import name_of_goid, waits_of
from netrev.recording.where import Stack
from netrev.run.index import RunIndex

OF_A_CONTEXT = "context.(*cancelCtx).cancel"
OF_CONTEXTS = ("context.", "runtime.")
OF_A_LIMIT = "context.WithDeadlineCause"
OF_A_CLIENT = "net/http.setRequestCancel"
DEFERRED = ".deferwrap"
AFTER_FUNC = "context.(*afterFuncCtx).cancel"
DEFERS, MAKES = re.compile(r"defer (\w+)\("), re.compile(r", (\w+) :?= context\.With\w+\(")
LATE = 1_000_000_000  # nanoseconds by which a timer may be late


class Found(NamedTuple):
    """A channel that a goroutine found closed, the time, and the function that tested the channel."""

    object: int
    time: int
    looker: str


class Cancel(NamedTuple):
    """A goroutine that found a channel closed, the use that closed the channel, and the timers that may have done
    so."""

    goroutine: int
    use: ObjectUse
    timers: list[Timer]


def cancel_before(index: RunIndex, step: int) -> Cancel | None:
    """Why a goroutine made a step: one of the functions on its stack found a channel closed, and the goroutine has used
    no socket since."""
    recording = index.recording
    lines, goroutine = recording.lines, recording.step(step).argument("g")
    goid = lines.goid_of(goroutine, step)
    since = last_step_before(index, goroutine, step)
    inside = {call.function for call in lines.of(step).calls}
    found = [finding for finding in found_closed(recording, goid, since, step) if finding.looker in inside]
    for finding in sorted(found, key=attrgetter("time"), reverse=True):
        closes = [use for use in lines.uses.get(finding.object, ()) if use.what == CLOSED and use.last < step]
        if closes and (contains(lines.stacks[closes[-1].stack], OF_A_CONTEXT) or lines.stacks[closes[-1].stack].own()):
            return Cancel(goroutine, closes[-1], limits_of(recording, closes[-1], goid))
    return None


def found_closed(recording: Recording, goid: int, since: int, until: int) -> Iterator[Found]:
    """The channels that a goroutine found closed between two steps: the goroutine tested the channel, or the close woke
    the goroutine."""
    lines = recording.lines
    for use in looks_of(recording).get(goid, ()):
        if any(since <= at < until for at in (use.first, use.last)):
            yield Found(use.object, use.begin, looker_of(lines.stacks[use.stack]))
    for park in lines.parks.get(goid, ()):
        if since <= park.last < until and park.by:
            for at in park.objects:
                if any(use.goid == park.by and use.what == CLOSED for use in lines.uses.get(at.object, ())):
                    yield Found(at.object, park.end, looker_of(lines.stacks[park.stack]))


@lru_cache(maxsize=2)
def looks_of(recording: Recording) -> dict[int, list[ObjectUse]]:
    """The channels that each goroutine tested and found closed."""
    found: dict[int, list[ObjectUse]] = defaultdict(list)
    for uses in recording.lines.uses.values():
        for use in uses:
            if use.what == ENDED:
                found[use.goid].append(use)
    return found


def looker_of(stack: Stack) -> str:
    """The function that tested a channel."""
    return next((call.function for call in stack.calls if not call.function.startswith(OF_CONTEXTS)), "")


def last_step_before(index: RunIndex, goroutine: int, step: int) -> int:
    """The last step of a goroutine's previous call, before the call that contains a step."""
    calls = [call for call in index.by_goroutine.get(goroutine, ()) if 0 < call.last < step]
    return max((call.last for call in calls), default=0)


def limits_of(recording: Recording, use: ObjectUse, goid: int) -> list[Timer]:
    """The timers of contexts that may have closed a channel; none if something else closed the channel. A timer of the
    goroutine that found the channel closed is preferred."""
    stack = recording.lines.stacks[use.stack]
    if stack.own() or not any(call.function.startswith(OF_A_LIMIT) for call in stack.calls):
        return []
    return limits_before(recording, use.begin, goid)


def limits_before(recording: Recording, time: int, goid: int) -> list[Timer]:
    """The timers of contexts that went off just before a time, latest first. If the goroutine made some of these
    timers, the result has only its own."""
    timers = [
        timer for timer in recording.lines.timers.get(0, ())
        if contains(recording.lines.stacks[timer.stack], OF_A_LIMIT) and timer.due <= time < timer.due + LATE
    ]  # fmt: skip
    mine = [timer for timer in timers if timer.goid == goid] or timers
    return sorted(mine, key=attrgetter("due"), reverse=True)


def cancel_sentence(index: RunIndex, cancel: Cancel) -> str:
    """A sentence that names the goroutine that cancelled, or the timeout that had passed."""
    lines, found = index.recording.lines, f"Goroutine {cancel.goroutine} had found"
    if not cancel.timers:
        stack, name = lines.stacks[cancel.use.stack], name_of_goid(lines, cancel.use.goid)
        what = "a context cancelled" if contains(stack, OF_A_CONTEXT) else "a channel closed"
        own = stack.own()
        leaves = (
            own
            and text_at(index.recording, own[0]).strip().startswith(("return", "}"))
            and DEFERRED not in own[0].function
        )
        where = f"{place_in(stack) if own else ''} ({name}, step {cancel.use.last})"
        return f"{found} {what}{where}{', as that function returned' if leaves else ''}."
    timer = cancel.timers[0]
    stack, name, perhaps = lines.stacks[timer.stack], name_of_goid(lines, timer.goid), perhaps_of(index, cancel.timers)
    if contains(stack, OF_A_CLIENT):
        earlier = f" ({name}, step {timer.step}), {duration(timer.due - timer.time)} earlier"
        when = f" ({name})" if is_of_a_rest(index.recording, timer) else earlier
        return (
            f"{found} that the Timeout of an http.Client had passed; {perhaps}the request began{place_in(stack)}{when}."
        )
    return f"{found} that {limit_sentence(index, cancel.timers)}"


def perhaps_of(index: RunIndex, timers: list[Timer]) -> str:
    """`perhaps ` if the timers were made at several places; else empty."""
    return "perhaps " if len({place_in(index.recording.lines.stacks[timer.stack]) for timer in timers}) > 1 else ""


def limit_sentence(index: RunIndex, timers: list[Timer]) -> str:
    """A sentence which says that a context's timeout had passed. One of the timers belonged to that context."""
    lines, timer = index.recording.lines, timers[0]
    return (
        f"the limit of a context, {perhaps_of(index, timers)}{duration(timer.due - timer.time)}, had passed since that was "
        f"made{place_in(lines.stacks[timer.stack])} ({name_of_goid(lines, timer.goid)}, step {timer.step})."
    )


def is_of_a_rest(recording: Recording, timer: Timer) -> bool:
    """Whether a timer may cover the rest of a timeout after a redirect: its goroutine made an earlier timer at the same
    place, and that timer is due at nearly the same time. If the timers belong to two separate requests, their due times
    differ as much as the times at which they were made."""
    return any(
        (earlier.goid, earlier.stack) == (timer.goid, timer.stack)
        and 2 * abs(earlier.due - timer.due) < timer.time - earlier.time
        for earlier in recording.lines.timers.get(0, ())
    )


def deferred_sentence(index: RunIndex, cancel: Cancel) -> list[str]:
    """Sentences about a context that was cancelled when a function returned: the line that defers the cancel, and the
    line that makes the context. The list is empty unless the source has exactly one such `defer`."""
    own = index.recording.lines.stacks[cancel.use.stack].own()
    if cancel.timers or not own or not text_at(index.recording, own[0]).strip().startswith(("return", "}")):
        return []
    makes = {found[1]: number for number, found in found_in(index.recording, own[0], MAKES)}
    defers = [(number, found[1]) for number, found in found_in(index.recording, own[0], DEFERS) if found[1] in makes]
    if len(defers) != 1:
        return []
    (number, name), file = defers[0], own[0].file
    return [f"{file}:{number} defers that, of the context that {file}:{makes[name]} makes."]


def under_way(index: RunIndex, call: Call, step: int) -> str:
    """What the goroutine that serves the other end of a net/http connection did at a step; empty if unknown."""
    server = server_of(index, call.socket, step)
    wait = waits_of(index.recording).at(server, step) if server else None
    return f"{str(server).capitalize()}, which serves the request, {waits_words(wait)}." if wait else ""


def after_sentence(index: RunIndex, step: int, goroutine: int) -> list[str]:
    """Sentences about a step of a goroutine that context.AfterFunc started. The sentences name the goroutine and line
    that had cancelled the context, or the timeout that had passed."""
    lines = index.recording.lines
    known = lines.goroutines.get(lines.goid_of(goroutine, step))
    if known is None or known.made is None or not known.made.function.startswith(AFTER_FUNC):
        return []
    closes = [
        use for uses in lines.uses.values() for use in uses
        if use.what == CLOSED and use.goid == known.maker and use.end <= known.begin
        and contains(lines.stacks[use.stack], OF_A_CONTEXT)
    ]  # fmt: skip
    last = max(closes, key=attrgetter("end"), default=None)
    if last is None and (limits := limits_before(index.recording, known.begin, 0)):
        return [f"context.AfterFunc called that as its context ended: {limit_sentence(index, limits)}"]
    place = place_in(lines.stacks[last.stack]) if last else ""
    name = name_of_goid(lines, known.maker)
    defers = deferred_sentence(index, Cancel(goroutine, last, [])) if last else []
    return [
        f"context.AfterFunc called that as its context ended: {name} had cancelled it{place} (step {known.first}).",
        *defers,
    ]
