"""What a goroutine that waits for a mutex needs: the goroutine that perhaps holds the mutex, found from stacks, from
earlier holders, and from the program's source."""

from collections.abc import Callable, Mapping
from typing import NamedTuple

from netrev.findings.evidence.ledger import Ledger
from netrev.findings.evidence.need import Certainty, Need
from netrev.findings.evidence.waiters import Waiter
from netrev.findings.source.functions import is_same_variable, source_of, text_at
from netrev.findings.source.locks import LOCK, LockedMutex, held_at, owner
from netrev.findings.source.package import place_of_variable
from netrev.recording.goroutines import MUTEXES
from netrev.recording.recording import Recording
from netrev.recording.waits import Name, ObjectWait, of_names
from netrev.recording.where import OF_THE_PROGRAM, SourceCall, Stack

DO = ("sync.(*Once).Do", "sync.(*Once).doSlow")
MOST_HOLDERS = 50  # the most mutexes to examine


class PossibleHolder(NamedTuple):
    """A goroutine that may hold a mutex, the line at which the goroutine locked it (0: unknown), and the strength of
    the evidence."""

    name: Name
    file: str
    line: int
    weight: int

    @property
    def locked(self) -> str:
        return f", locked at {self.file}:{self.line}" if self.line else ""


def of_once(stack: Stack) -> str:
    """A sentence about a goroutine that waits in a sync.Once's Do because it is already running that Do; else empty."""
    lines = [
        outer for inner, outer in zip(stack.calls, stack.calls[1:])
        if inner.function in DO and outer.function not in DO and outer.of == OF_THE_PROGRAM
    ]  # fmt: skip
    if len(lines) < 2:
        return ""
    perhaps = "It" if (lines[0].function, lines[0].line) == (lines[-1].function, lines[-1].line) else "Perhaps it"
    return f"{perhaps} waits for itself: it is in that sync.Once's Do already, called at {lines[-1].place()}, and Do waits for its end."


class NeedsOfMutexes:
    """Finds what goroutines need while they wait for mutexes. `stacks` has the stacks of all goroutines that wait or
    sleep."""

    def __init__(
        self, recording: Recording, ledger: Ledger, waiters: Mapping[Name, Waiter], stacks: list[tuple[Name, Stack]],
        does: Callable[[Name], str],
    ) -> None:  # fmt: skip
        self._recording, self._ledger, self._waiters, self._does = recording, ledger, waiters, does
        self._stacks = stacks
        self._found: dict[tuple[SourceCall, frozenset[int]], list[PossibleHolder]] = {}
        self._locks: dict[tuple[SourceCall, SourceCall, frozenset[SourceCall]], int | None] = {}

    def of(self, waiter: Waiter, wait: ObjectWait) -> Need | None:
        """What a goroutine needs while it waits for a mutex; None if no possible holder is found."""
        found = waiter.stack.own()
        if not found or found[0].of != OF_THE_PROGRAM:
            return None
        if itself := of_once(waiter.stack) or self._of_itself(waiter, found[0]):
            return Need([itself])
        holders = self._holders(waiter, wait, found[0])
        if not holders and (crossed := self._crossed(waiter, wait)):
            return crossed
        if not holders:
            return None
        first = holders[0]
        is_likely = first.name in self._last(wait)
        perhaps, certainty = ("", Certainty.LIKELY) if is_likely else ("perhaps ", Certainty.PERHAPS)
        if first.name in self._waiters:
            alike = {holder.name for holder in holders if holder.weight == first.weight} - {first.name}
            others = f" (or {of_names(alike)})" if alike and not is_likely else ""
            how = f"{perhaps}{{by}}{others} holds it{first.locked}"
            return Need([], first.name, how, certainty, others=tuple(sorted(alike)) if others else ())
        held = "It is held by" if is_likely else "Perhaps it is held by"
        return Need([f"{held} {first.name}, which {self._does(first.name)}."])

    def _crossed(self, waiter: Waiter, wait: ObjectWait) -> Need | None:
        """What a waiting goroutine needs if it and another goroutine are in the same function, hold a mutex there, and
        wait for different mutexes. This happens if they call the function with the same mutexes in different orders."""
        objects = {at.object for at in wait.objects}
        mine = {call.function for call in waiter.stack.calls if self._held(call)}
        for name, other in self._waiters.items():
            theirs = {at.object for at in other.wait.objects} if other.wait and other.wait.kind in MUTEXES else objects
            for call in other.stack.calls if not theirs & objects else ():
                if call.function in mine and (held := self._held(call)):
                    return Need(
                        [], name, f"perhaps {{by}} holds it, locked at {call.file}:{held[-1].line}", Certainty.PERHAPS
                    )
        return None

    def _last(self, wait: ObjectWait) -> set[Name]:
        """The last known holders of the mutexes that a goroutine waits for."""
        numbers = [at.object for at in wait.objects]
        return {holder.name for number in numbers if (holder := self._ledger.last_holder(number))}

    def _of_itself(self, waiter: Waiter, lock: SourceCall) -> str:
        """Says that a goroutine may have locked the mutex itself, in a call that hasn't returned; empty otherwise."""
        name = LOCK.search(text_at(self._recording, lock))
        for call in waiter.stack.calls if name else ():
            for held in self._held(call):
                if name and held.name == name[1] and owner(call.function) == owner(lock.function):
                    return f"Perhaps it holds that itself, locked at {call.file}:{held.line}."
        return ""

    def _held(self, call: SourceCall) -> list[LockedMutex]:
        return held_at(self._recording, call) if call.of == OF_THE_PROGRAM else []

    def _holders(self, waiter: Waiter, wait: ObjectWait, lock: SourceCall) -> list[PossibleHolder]:
        """The goroutines that may hold the mutex, strongest evidence first."""
        numbers = frozenset(at.object for at in wait.objects)
        if (lock, numbers) not in self._found:
            self._found[lock, numbers] = self._found_for(lock, numbers, self._last(wait))
        return [holder for holder in self._found[lock, numbers] if holder.name != waiter.name]

    def _found_for(self, lock: SourceCall, numbers: frozenset[int], last: set[Name]) -> list[PossibleHolder]:
        """The goroutines that may hold a mutex. Goroutines that wait for the same mutex are left out, unless they hold
        it themselves."""
        locks = {lock}.union(*map(self._ledger.lines_of, numbers))
        had = {name for number in numbers for name in self._ledger.had(number)}
        found = list[PossibleHolder]()
        for name, stack in self._stacks:
            calls = [call for call in stack.calls if call.of == OF_THE_PROGRAM]
            lines = (at for call in calls if (at := self._lock_of(call, lock, locks)) is not None)
            at = next(lines, None)
            other = self._waiters.get(name)
            if at is not None and not (
                numbers & self._waits_for(name) and not (other and self._of_itself(other, lock))
            ):
                found.append(PossibleHolder(name, calls[0].file, at, 2 * (name in last) + (name in had)))
        return sorted(found, key=lambda holder: -holder.weight)[:MOST_HOLDERS]

    def _is_same_field(self, call: SourceCall, name: str, other: SourceCall, other_name: str) -> bool:
        """Whether two expressions in functions of different types name the same field of a struct."""
        place = place_of_variable(self._recording, call, name)
        return place is not None and place == place_of_variable(self._recording, other, other_name)

    def _waits_for(self, name: Name) -> set[int]:
        """The mutexes that a goroutine waits for."""
        waiter = self._waiters.get(name)
        return {at.object for at in waiter.wait.objects} if waiter and waiter.wait else set()

    def _lock_of(self, call: SourceCall, lock: SourceCall, locks: set[SourceCall]) -> int | None:
        """The line at which a goroutine in the function of `call` locked a mutex that may be the awaited one.
        Goroutines wait for the awaited mutex in the call `lock` or in `locks`. The result is 0 if the line isn't
        certain, and None if the goroutine holds no such mutex there."""
        key = call, lock, frozenset(locks)
        if key not in self._locks:
            self._locks[key] = self._check_for_lock(call, lock, locks)
        return self._locks[key]

    def _check_for_lock(self, call: SourceCall, lock: SourceCall, locks: set[SourceCall]) -> int | None:
        name = LOCK.search(text_at(self._recording, lock))
        for held in self._held(call):
            is_alike = owner(call.function) == owner(lock.function)
            if any((place.file, place.line) == (call.file, held.line) for place in locks):
                return held.line
            if name and is_alike and is_same_variable(name[1], held.name, True):
                return held.line
            if name and not is_alike and self._is_same_field(call, held.name, lock, name[1]):
                return held.line
        is_after = any(place.function == call.function and place.line < call.line for place in locks)
        return 0 if is_after and source_of(self._recording, call.file) is None else None
