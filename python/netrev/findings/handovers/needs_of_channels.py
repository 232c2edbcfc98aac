"""What a goroutine that waits on a channel needs. The need is derived from how often goroutines took and gave back
values, from the last goroutine that did the awaited operation, and from goroutines that ended without it."""

from collections.abc import Callable, Hashable, Iterable, Iterator, Mapping
from itertools import islice
from typing import Any, TypeVar

from netrev.findings.evidence.call_words import place_in
from netrev.findings.evidence.ended_goroutines import loop_words
from netrev.findings.evidence.ledger import GAVE_BEFORE, GIVES, GIVES_WORDS, Ledger, Operation
from netrev.findings.evidence.need import Certainty, Need
from netrev.findings.evidence.siblings import Kind, ended_words, kinds_of
from netrev.findings.evidence.waiters import Waiter
from netrev.findings.locks.groups import outermost
from netrev.findings.pools.balance_sentences import excess_sentence, kept_sentence
from netrev.findings.pools.balances import Balance, balances_of, give_back, has_ended
from netrev.findings.pools.leaking_paths import gives_on_most_paths, paths_with_an_error
from netrev.findings.pools.made_channels import is_filled_by_maker
from netrev.findings.pools.senders import later_giver
from netrev.recording.goroutines import FOR_ROOM, FOR_VALUE, PUT, TOOK, At
from netrev.recording.recording import Recording
from netrev.recording.waits import Name, ObjectWait, Waits, name_of_goid
from netrev.recording.where import OF_THE_PROGRAM, Stack

from .givers import has_left, have_ended, is_in, only_itself, untouched

DID = {PUT: "putting a value there", TOOK: "taking one there"}
MOST_GIVEN = 50  # the most goroutines to examine for each waiter
NOBODY = Name(-1)
Found = TypeVar("Found")
Rule = Callable[[Recording, ObjectWait, Iterable[tuple[Name, Stack]]], Need | None]


class NeedsOfChannels:
    """Finds what goroutines need while they wait on channels. `stacks` has the stacks of all goroutines that wait or
    sleep."""

    def __init__(
        self, recording: Recording, waits: Waits, ledger: Ledger, waiters: Mapping[Name, Waiter],
        stacks: dict[Name, Stack], does: Callable[..., str],
    ) -> None:  # fmt: skip
        self._recording, self._waits, self._ledger = recording, waits, ledger
        self._waiters, self._stacks, self._does = waiters, stacks, does
        self._memo: dict[Hashable, Any] = {}  # results for a channel, at which many goroutines may wait

    def _once(self, key: Hashable, find: Callable[[], Found]) -> Found:
        if key not in self._memo:
            self._memo[key] = find()
        found: Found = self._memo[key]
        return found

    def _balances(self, number: int) -> list[Balance]:
        """The balances of a channel; none unless goroutines take its values and give them back, as with a pool."""

        def find() -> list[Balance]:
            found = balances_of(self._recording, number, self._stacks)
            return found if give_back(found) or gives_on_most_paths(self._recording, found) else []

        return self._once(("balances", number), find)

    def besides(self, wait: ObjectWait) -> list[str]:
        """Further sentences about a channel: values that were kept."""

        def find() -> list[str]:
            is_pool = any(self._balances(at.object) for at in wait.objects if self.is_buffered(at))
            kept = [] if is_pool else paths_with_an_error(self._recording, wait)
            return kept

        return self._once((wait.stack.own(), wait.objects, "besides"), find)

    def of_balance(self, wait: ObjectWait) -> Need | None:
        """What a goroutine needs from a channel that is used like a pool. The sentences name calls that kept a value or
        gave it back twice. `by` is a waiting goroutine that has a value. None if the channel isn't used this way."""
        at, wanted = wait.objects[0], GIVES.get(wait.objects[0].use, "")
        balances = self._balances(at.object) if self.is_buffered(at) else []
        if not balances:
            return self._of_nested(wait) if self.is_buffered(at) else None
        takes = balances[0].takes
        if takes == wanted and is_filled_by_maker(self._recording, at):
            return None
        if takes == wanted:  # the goroutine waits to give back: the channel has too many values
            return Need(excess_sentence(balances)) if any(balance.missing < 0 for balance in balances) else None
        by = next((balance.name for balance in balances if self._is_holder(balance, wait)), None)
        says = self._once(("kept", at.object), lambda: kept_sentence(self._recording, balances))
        if by is None:
            return Need(says, is_kept=True) if says else None
        return Need(
            says,
            by,
            f"{{by}} {'put a value there' if takes == PUT else 'took a value there'}, and has that yet",
            Certainty.LIKELY,
        )

    def _of_nested(self, wait: ObjectWait) -> Need | None:
        """What a goroutine needs while it waits on a channel that was filled only once. Another goroutine took a value
        and, still in the same call, waits for a second value."""
        at = wait.objects[0]
        found = self._once(("nested", at), lambda: list(islice(self._nested(at), MOST_GIVEN)))
        return next((need for need in found if need.by != wait.name), None)

    def _nested(self, at: At) -> Iterator[Need]:
        lines = self._recording.lines
        uses = lines.uses.get(at.object, ())
        put = sum(use.often for use in uses if use.what == PUT)
        takers, putters = ({use.goid for use in uses if use.what == what} for what in (TOOK, PUT))
        if at.use != FOR_VALUE or put > lines.objects[at.object].room or takers & putters:
            return
        for use in uses:
            name = name_of_goid(lines, use.goid)
            other = self._waiters.get(name)
            is_there = other is not None and other.wait is not None and at in other.wait.objects
            taken = lines.stacks[use.stack].own() if use.what == TOOK else None
            if other and is_there and taken and is_in(other.stack, taken[0]):
                how = f"{{by}} took a value there{place_in(lines.stacks[use.stack])}, hasn't put it back, and waits for another"
                yield Need([], name, f"perhaps {how}", Certainty.PERHAPS)

    def excess_of(self, names: set[Name]) -> list[str]:
        """Sentences about these goroutines' calls, if they gave values back to a channel more often than they took."""
        for number in self._recording.lines.objects:
            if self.is_buffered(At(number, "")) and (balances := self._balances(number)):
                mine = [balance for balance in balances if balance.name in names and balance.takes == TOOK]
                if says := excess_sentence(mine):
                    return [f"{says[0]} So perhaps two goroutines have the same."]
        return []

    def is_buffered(self, at: At) -> bool:
        known = self._recording.lines.objects.get(at.object)
        return known is not None and known.room > 0

    def _is_holder(self, balance: Balance, wait: ObjectWait) -> bool:
        """Whether the balance's goroutine has a value and waits, and isn't the goroutine of `wait`."""
        return balance.name in self._waiters and balance.name != wait.name and balance.has_value

    def is_new(self, wait: ObjectWait) -> bool:
        """Whether no goroutine has yet done what a goroutine waits for on its channels."""
        is_known = bool(wait.objects) and all(at.use for at in wait.objects)
        return is_known and not any(self._operations(at) for at in wait.objects)

    def of(self, wait: ObjectWait) -> Need:
        """What a goroutine needs from its channels, if possible from the last goroutine that did the awaited operation."""
        is_one = len(wait.objects) == 1
        operations = [
            candidate for at in wait.objects for candidate in self._operations(at) if candidate.name != wait.name
        ]
        if operation := next((candidate for candidate in operations if candidate.name in self._waiters), None):
            is_last = operation.last >= max(candidate.last for candidate in operations)
            words = f"{(GIVES_WORDS if is_last else GAVE_BEFORE)[operation.what]}{place_in(operation.stack)}"
            if not is_one:
                return Need([], operation.name, f"perhaps for {{by}}: it {words}", Certainty.PERHAPS)
            is_over = has_left(self._waiters[operation.name].stack, operation.stack)
            siblings = self._of_siblings(wait)
            ended = self._ended_siblings(wait)
            begins, certainty = ("perhaps for {by}: it", Certainty.PERHAPS) if is_over else ("{by}", Certainty.LIKELY)
            return Need(siblings, operation.name, f"{begins} {words}", certainty, is_odd=bool(siblings), ended=ended)
        if not is_one:
            return self._of_ended_takers(wait)
        if says := self._of_siblings(wait):
            return Need(says, is_odd=True, ended=self._ended_siblings(wait))
        return self._of_the_past(wait, operations[:1])

    def _of_ended_takers(self, wait: ObjectWait) -> Need:
        """What a goroutine in a select needs: room in a channel from which only ended goroutines took values."""
        for at in wait.objects:
            operations = self._operations(at) if at.use == FOR_ROOM else []
            if operations and all(has_ended(self._recording, operation.name) for operation in operations):
                latest, stack = operations[0], operations[0].stack
                did = (
                    f"{str(latest.name).capitalize()} {GIVES_WORDS[latest.what]}{place_in(stack)} (step {latest.last})"
                )
                ended = have_ended(self._recording, wait._replace(objects=(at,)))
                return Need([f"{did}; it {self._does(latest.name, stack)}.", *ended], is_odd=True)
        return Need([])

    def _of_the_past(self, wait: ObjectWait, operations: list[Operation]) -> Need:
        """What a goroutine needs if no waiting goroutine did the awaited operation. The need says which other goroutine
        did it last, if any."""
        for operation in operations:
            loop = loop_words(self._recording, operation.stack) if has_ended(self._recording, operation.name) else ""
            did = (
                f"{str(operation.name).capitalize()} {GIVES_WORDS[operation.what]}{place_in(operation.stack)} (step "
                f"{operation.last}{loop})"
            )
            ended = f"{did}; it {does}." if (does := self._does(operation.name, operation.stack)) else f"{did}."
            gone = operation.name if has_ended(self._recording, operation.name) else None
            return Need([ended, *have_ended(self._recording, wait)], gone=gone)
        is_filled = any(is_filled_by_maker(self._recording, at) for at in wait.objects)
        if not is_filled and (itself := only_itself(self._recording, wait)):
            return Need([itself])
        if left := self._once(("gone", wait.objects), lambda: self._gone(wait)):
            return Need(left)
        return self._by_source("later", later_giver, wait) or Need([], more=untouched(self._recording, wait))

    def _operations(self, at: At) -> list[Operation]:
        """Some goroutines that did the awaited operation on a channel. Waiting goroutines come first."""

        def find() -> list[Operation]:
            operations = list(self._ledger.operations(at))
            return sorted(operations, key=lambda operation: operation.name not in self._waiters)[:MOST_GIVEN]

        return self._once(("given", at), find)

    def _by_source(self, key: str, rule: Rule, wait: ObjectWait) -> Need | None:
        """The result of a rule that reads the source. The result is computed once for all waits at a line. If it names
        the waiting goroutine itself, it is computed again for that wait."""
        nobody = wait._replace(name=NOBODY)
        place = wait.stack.own(), wait.objects, key
        need = self._once(place, lambda: rule(self._recording, nobody, self._stacks.items()))
        return rule(self._recording, wait, self._stacks.items()) if need and need.by == wait.name else need

    def _of_siblings(self, wait: ObjectWait) -> list[str]:
        """Sentences about goroutines that ended without doing what others from the same `go` statement did."""
        what = GIVES.get(wait.objects[0].use, "")
        return [ended_words(self._recording, kind, DID[what]) for kind in self._kinds_of(wait)]

    def _ended_siblings(self, wait: ObjectWait) -> tuple[Name, ...]:
        """The goroutines that ended without the awaited operation, unlike others from the same `go` statement."""
        return tuple(name_of_goid(self._recording.lines, goid) for kind in self._kinds_of(wait) for goid in kind.ended)

    def _kinds_of(self, wait: ObjectWait) -> list[Kind]:
        """The first `go` statement in a function of the waiter, if some of its goroutines did the awaited operation
        and others ended without it."""
        what = GIVES.get(wait.objects[0].use, "")
        if len(wait.objects) != 1 or not what:
            return []
        kinds = self._once(("kinds", wait.objects), lambda: self._kinds(wait.objects[0], what))
        inside = {outermost(call.function) for call in wait.stack.calls if call.of == OF_THE_PROGRAM}
        return [kind for kind in kinds if kind.ended and outermost(kind.statement.function) in inside][:1]

    def _kinds(self, at: At, what: str) -> list[Kind]:
        did = {use.goid for use in self._recording.lines.uses.get(at.object, ()) if use.what == what}
        return kinds_of(self._recording, did)

    def left_without(self, wait: ObjectWait) -> list[str]:
        """A sentence about a goroutine that waited for a value from a channel, and went on without it."""
        if len(wait.objects) != 1 or not self.is_new(wait):
            return []
        return self._once(("gone", wait.objects), lambda: self._gone(wait))

    def _gone(self, wait: ObjectWait) -> list[str]:
        """A sentence about the goroutine that last waited for a value and went on without it."""
        at = wait.objects[0]
        if at.use != FOR_ROOM:
            return []
        left = [
            past_wait for waits in self._waits.of.values() for past_wait in waits
            if past_wait.last is not None
            and any(other.object == at.object and other.use != FOR_ROOM for other in past_wait.objects)
        ]  # fmt: skip
        if not left:
            return []
        last = max(left, key=lambda past_wait: (past_wait.first, past_wait.begin))
        name = str(last.name).capitalize()
        return [
            f"{name} waited for that{place_in(last.stack)} from step {last.first} to {last.last}, and went on without."
        ]
