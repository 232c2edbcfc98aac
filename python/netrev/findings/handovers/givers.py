"""Text about the goroutines that have already done what another goroutine waits for on a channel. Two functions find
out whether a goroutine is still in a function."""

from netrev.findings.evidence.call_words import place_in, since_begin
from netrev.findings.evidence.ledger import GIVES
from netrev.recording.goroutines import CLOSED, FOR_ROOM, FOR_VALUE, TOOK
from netrev.recording.recording import Recording
from netrev.recording.waits import ObjectWait, name_of_goid
from netrev.recording.where import SourceCall, Stack

MOST_GIVEN = 50  # the most uses to examine


def untouched(recording: Recording, wait: ObjectWait) -> list[str]:
    """A sentence which says that no goroutine has yet done the awaited operation on a channel."""
    uses = recording.lines.uses.get(wait.objects[0].object, ()) if len(wait.objects) == 1 else ()
    if wait.objects[0].use != FOR_ROOM or any(use.what == TOOK for use in uses):
        return []
    return [f"Nobody has taken a value from that channel{since_begin(recording) or ' so far'}."]


def have_ended(recording: Recording, wait: ObjectWait) -> list[str]:
    """A sentence about a channel that no goroutine closed, if all goroutines that did the awaited operation on it have
    ended."""
    at, lines = wait.objects[0], recording.lines
    uses, what = lines.uses.get(at.object, ()), GIVES.get(at.use, "")
    goids = {use.goid for use in uses if use.what == what}
    if (
        not goids
        or any(use.what == CLOSED for use in uses)
        or not all(goid in lines.goroutines and lines.goroutines[goid].last >= 0 for goid in goids)
    ):
        return []
    did, unclosed_too = ("put", ", and nobody has closed it") if at.use == FOR_VALUE else ("took", "")
    many = f"All {len(goids)} goroutines that {did}" if len(goids) > 1 else f"The goroutine that {did}"
    since = since_begin(recording)
    return [f"{many} values there{since} ha{'ve' if len(goids) > 1 else 's'} ended{unclosed_too}."]


def only_itself(recording: Recording, wait: ObjectWait) -> str:
    """A sentence which says that so far only the waiting goroutine itself did the awaited operation; else empty."""
    at, lines = wait.objects[0], recording.lines
    uses = [use for use in lines.uses.get(at.object, ())[:MOST_GIVEN] if use.what == GIVES.get(at.use, "")]
    if not uses or any(name_of_goid(lines, use.goid) != wait.name for use in uses):
        return ""
    did = "put" if at.use == FOR_VALUE else "taken"
    since = since_begin(recording) or " so far"
    return f"Only {wait.name} itself has {did} values there{since},{place_in(lines.stacks[uses[-1].stack])}."


def is_in(stack: Stack, call: SourceCall) -> bool:
    """Whether a goroutine is in the function that contains a call, at a later line."""
    return any(frame.function == call.function and frame.line > call.line for frame in stack.calls)


def has_left(stack: Stack, earlier: Stack) -> bool:
    """Whether a goroutine has returned from the innermost function of the program on its earlier stack."""
    own = earlier.own()
    return own is not None and all(call.function != own[0].function for call in stack.calls)
