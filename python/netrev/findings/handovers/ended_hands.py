"""Goroutines that put values into channels of other goroutines and have ended, while another goroutine waits for such a
value. Clients of many RPC protocols pass answers on in this way, and workers of servers send their results in this
way."""

from collections.abc import Sequence
from functools import lru_cache
from typing import NamedTuple

from netrev.findings.evidence.call_words import ENDED, text_of_call
from netrev.findings.evidence.ended_goroutines import ended_where, paths_out
from netrev.findings.evidence.ledger import END
from netrev.findings.evidence.need import Need
from netrev.findings.pools.balances import has_ended
from netrev.recording.call import Call as OneCall
from netrev.recording.goroutines import FOR_VALUE, PUT, TOOK, ObjectUse
from netrev.recording.waits import Name, ObjectWait, name_of_goid, of_names
from netrev.recording.where import OF_THE_PROGRAM, SourceCall
from netrev.run.index import RunIndex

MOST_NAMED = 4


class EndedHand(NamedTuple):
    """A goroutine that ended, the last value that it put into another goroutine's channel, and the line at which it did
    so."""

    name: Name
    use: ObjectUse
    line: SourceCall


def ended_hand(index: RunIndex, wait: ObjectWait) -> Need | None:
    """What a goroutine needs if it waits for a value, and all goroutines that provided values for its line have ended.
    The result is None if one of these goroutines hasn't ended, or if no goroutine provided values."""
    lines, own = index.recording.lines, wait.stack.own()
    if not own or own[0].of != OF_THE_PROGRAM or len(wait.objects) != 1 or wait.objects[0].use != FOR_VALUE:
        return None
    if any(use.what == PUT for use in lines.uses.get(wait.objects[0].object, ())):
        return None
    hands = hands_at(index, own[0])
    names = tuple(hand.name for hand in hands)
    if not hands or not all(has_ended(index.recording, name) for name in names) or wait.name in names:
        return None
    return Need(sentence_of(index, hands), gone=names[0] if len(names) == 1 else None, is_odd=True, ended=names)


@lru_cache(maxsize=256)
def hands_at(index: RunIndex, line: SourceCall) -> tuple[EndedHand, ...]:
    """The goroutines that put values into the channels from which a line received, in the order of their last puts."""
    lines, found = index.recording.lines, dict[Name, EndedHand]()
    taken = [
        uses
        for uses in lines.uses.values()
        if any(use.what == TOOK and (own := lines.stacks[use.stack].own()) and own[0] == line for use in uses)
    ]
    for use in sorted((use for uses in taken for use in uses if use.what == PUT), key=END):
        own, name = lines.stacks[use.stack].own(), name_of_goid(lines, use.goid)
        if own and own[0].of == OF_THE_PROGRAM:
            found[name] = EndedHand(name, use, own[0])
    return tuple(found.values())


def sentence_of(index: RunIndex, hands: Sequence[EndedHand]) -> list[str]:
    """Sentences about the lines at which these goroutines put values for others, and about the last call of each."""
    last, recording = hands[-1], index.recording
    if len(hands) > 1:
        names = of_names([hand.name for hand in hands[:MOST_NAMED]])
        more = f" and {len(hands) - MOST_NAMED} more" if len(hands) > MOST_NAMED else ""
        says = f"{names}{more}, which put such values at {last.line.place()}, have all ended{paths_out(recording, last.line)}."
        return [says[0].upper() + says[1:]]
    known = recording.lines.goroutines.get(
        last.name.number if last.name.is_goid else recording.lines.goid_of(last.name.number)
    )
    step = f" after step {known.last}" if known else ""
    says = f"{last.name}, which put such values at {last.line.place()}, ended{step}{ended_where(index, last.name)}."
    failed = failed_last(index, last.name)
    how = (
        f"Before that, {text_of_call(recording, failed)} {ENDED.get(failed.outcome, f'ended with {failed.error}')} "
        f"(step {failed.last})."
        if failed
        else ""
    )
    return [says[0].upper() + says[1:], *([how] if how else [])]


def failed_last(index: RunIndex, name: Name) -> OneCall | None:
    """The last Read or Write of a goroutine, if it failed or reached the end of the stream."""
    moving = [call for call in index.calls_of(name) if call.name in ("Read", "Write") and call.last]
    return moving[-1] if moving and (moving[-1].outcome.is_error or moving[-1].outcome in ENDED) else None
