"""Answers of an http.Server that its WriteTimeout cut off, and the handler that ran when the timeout passed. Only Go's
own code wrote these answers."""

from collections.abc import Iterator

from netrev.findings.evidence.call_words import duration, is_of_go, text_of_call, waits_words
from netrev.findings.finding import Cause
from netrev.recording.call import Call, Outcome
from netrev.recording.waits import Name, ObjectWait, waits_of
from netrev.run.index import RunIndex

READS_A_REQUEST = "net/http.(*conn).readRequest"  # on return, this function sets the deadline for the answer


def is_of_write_timeout(index: RunIndex, call: Call) -> bool:
    """Whether a Write failed because the WriteTimeout of an http.Server had passed."""
    if call.name != "Write" or call.outcome is not Outcome.TIMED_OUT or not call.cause:
        return False
    stack = index.recording.lines.of(call.cause)
    ahead = index.recording.step(call.cause).argument("time")
    return ahead > 0 and any(frame.function.startswith(READS_A_REQUEST) for frame in stack.calls)


def late_answers(index: RunIndex) -> Iterator[Cause]:
    """Causes for the answers that were cut off. Each says what the goroutine did when the timeout passed."""
    recording = index.recording
    for call in index.failed(recording.length):
        if not is_of_write_timeout(index, call) or not is_of_go(recording, call):
            continue
        limit = duration(recording.step(call.cause).argument("time"))
        says = [
            f"An http.Server's WriteTimeout, {limit}, had passed before an answer was written: "
            f"{text_of_call(recording, call)} ended with a timeout.",
            f"It counts from where the request was read, in step {call.cause}.",
            *at_work(index, call),
        ]
        yield Cause(call, says, [call.first, call.cause], [f"goto {call.cause}", f"calls sock {call.socket}"])


def at_work(index: RunIndex, call: Call) -> list[str]:
    """What the goroutine that served the request did when the timeout passed. If that isn't known, the result is what
    the goroutine last waited for; empty if that isn't known either."""
    passed, server = call.passed, f"goroutine {call.goroutine}, which serves the request,"
    if not call.cause < passed < call.first:
        return []
    inside, waits = index.call_at(call.goroutine, passed), waits_of(index.recording)
    if inside and not is_of_go(index.recording, inside):
        return [
            f"As it passed, in step {passed}, {server} was in {text_of_call(index.recording, inside)}, since step "
            f"{inside.first}."
        ]
    if wait := waits.at(Name(call.goroutine), passed):
        return [f"As it passed, in step {passed}, {server} {was(wait)}."]
    before = [
        wait for wait in waits.of.get(Name(call.goroutine), [])
        if wait.last is not None and call.cause <= wait.first and wait.last <= call.first
    ]  # fmt: skip
    return [f"Before that Write, {server} {was(before[-1])}."] if before else []


def was(wait: ObjectWait) -> str:
    """A wait as text, in the past tense: `slept at a.go:3 in serve for 9 ms`."""
    words = waits_words(wait)
    return words.replace("sleeps", "slept", 1) if wait.is_asleep else words.replace("waits", "waited", 1)
