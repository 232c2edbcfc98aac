"""The chain of waits that led to a failed call, at the step at which the call failed. The call waited for a goroutine,
which itself waited for another, and so on."""

from netrev.findings.evidence.call_words import capital, place_in
from netrev.findings.evidence.ledger import GIVES
from netrev.findings.evidence.need import Need
from netrev.findings.evidence.waiters import Waiter, waiters_during
from netrev.recording.call import Call
from netrev.recording.waits import Name
from netrev.run.index import RunIndex

from .hang_words import waiter_words
from .needs import Needs

MOST_LINKS = 4


def chain_sentence(index: RunIndex, call: Call, need: Need, position: int) -> list[str]:
    """The sentences about the goroutines of the chain, starting with the goroutine that the failed call needed."""
    waiters = waiters_during(index, position)
    needs, known = Needs(index, waiters, position), list(need.says)
    says, seen, by = list[str](), {Name(call.goroutine)}, need.by
    while by is not None and by in waiters and by not in seen and len(seen) <= MOST_LINKS:
        seen.add(by)
        waiter = waiters[by]
        if is_elsewhere(index, call, waiter, need):
            break
        need = needs.of(waiter) if is_still_so(index, waiter, position) else Need([])
        found = link_sentence(index, waiter, need, need.by in seen, known + says)
        says += [line for line in found if line not in known + says]
        by = need.by
    return says


def is_elsewhere(index: RunIndex, call: Call, waiter: Waiter, need: Need) -> bool:
    """Whether a goroutine counts as needed only because it used the other end, although it is now in a call on another
    connection."""
    ends = (call.socket, index.other_end(call.socket))
    return waiter.call is not None and waiter.call.socket not in ends and need.how.endswith("the other end last")


def is_still_so(index: RunIndex, waiter: Waiter, position: int) -> bool:
    """Whether the waiter still needs the same goroutines: after `position`, no goroutine did the awaited operation on
    the waiter's channels."""
    lines, objects = index.recording.lines, waiter.wait.objects if waiter.wait else ()
    return not any(
        use.what == GIVES.get(at.use) and use.last > position for at in objects for use in lines.uses.get(at.object, ())
    )


def link_sentence(index: RunIndex, waiter: Waiter, need: Need, is_back: bool, known: list[str]) -> list[str]:
    """The sentences about one goroutine of the chain. `is_back` means that it waits for a goroutine that is already in
    the chain. The sentences then leave out `need.how`. If the goroutine waits in a call, they also leave out
    `need.says`."""
    more = [*need.says, *need.more] if not (is_back and waiter.call) else need.more
    place = place_in(waiter.stack)
    is_told = bool(place) and any(place in line for line in known)
    how = need.how.format(by=need.by) if need.how and not is_back else ""
    if is_told and waiter.call and more:
        more = [f"Of socket {waiter.call.socket}: {more[0]}", *more[1:]]
    if is_told:
        return [*([f"{capital(how)}."] if how else []), *more]
    return [f"{waiter_words(index.recording, waiter)}{f'; {how}' if how else ''}.", *more]
