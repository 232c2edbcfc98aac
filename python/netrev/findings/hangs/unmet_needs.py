"""What a failed call had waited for in vain, in addition to the cause of its error. The module covers three kinds of
calls: calls whose descriptor was closed; Reads and Writes whose deadline was set while they waited, or also covered
earlier calls; and Reads that didn't get the end of the stream."""

import re

from netrev.findings.evidence.call_words import is_of_go, place_of_step
from netrev.findings.evidence.past_tense import in_the_past
from netrev.findings.source.package import places_with
from netrev.recording.call import Call
from netrev.run.index import READING, RunIndex

from .chains import chain_sentence
from .needs import Needs

DUPLICATES = re.compile(r"\.File\(\)|\bsyscall\.Dup")


def given_up_sentence(index: RunIndex, call: Call, by: Call | None) -> list[str]:
    """Sentences about what a call waited for when Go's own code closed its descriptor, as Go does if a connection's
    context has ended."""
    if by is None or not call.first < call.cause or not is_of_go(index.recording, by) or by.goroutine == call.goroutine:
        return []
    need = Needs(index, {}, call.cause).of_call(call)
    return list(map(in_the_past, [*need.says, *need.more, *chain_sentence(index, call, need, call.cause)]))


def found_sentence(index: RunIndex, call: Call) -> list[str]:
    """Further sentences about a Read or a Write that timed out. Its deadline was set while it waited, or earlier calls
    had ended under the same deadline. The sentences say why the bytes, or the room, that the call waited for didn't
    come."""
    if index.is_listening(call) or not call.first < call.last:
        return []
    need = Needs(index, {}, call.last).of_call(call)
    return list(
        map(in_the_past, [*([] if need.is_plain else need.more), *chain_sentence(index, call, need, call.last)])
    )


def endless_sentence(index: RunIndex, call: Call) -> list[str]:
    """Sentences about a Read that didn't get the end of the stream, although its other end was closed before the Read
    ended. Perhaps another descriptor keeps the connection open."""
    other = index.other_end(call.socket)
    by = index.closing(other, call.last, whole=True) if other is not None and call.name in READING else None
    if by is None or by.last >= call.last:
        return []
    own = index.recording.lines.of(by.first).own()
    places = places_with(index.recording, own[0].file, DUPLICATES) if own else ()
    at = f", as {' and '.join(places[:2])} make{'' if places[1:] else 's'} it" if places else ""
    return [
        f"Its other end, socket {other}, was closed{place_of_step(index.recording, by.first, by.goroutine)}, and the end of the stream didn't come. "
        f"Perhaps a second descriptor of it is open{at}: the connection ends as the last one is closed."
    ]
