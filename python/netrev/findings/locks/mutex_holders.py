"""The goroutine that holds a mutex for which another goroutine waits, found in the recorder's table of the mutexes that
were locked at the end."""

from collections.abc import Callable, Iterator, Mapping
from typing import NamedTuple

from netrev.findings.evidence.call_words import place_in
from netrev.findings.evidence.need import GOES_FIRST, Certainty, Need
from netrev.findings.evidence.responses import contains
from netrev.findings.evidence.waiters import Waiter
from netrev.recording.goroutines import READ, HeldMutex
from netrev.recording.recording import Recording
from netrev.recording.waits import Name, ObjectWait, name_of_goid
from netrev.recording.where import OF_THE_PROGRAM, SourceCall, Stack
from netrev.text.plurals import counted

MUTEX_OF_GO, READS, WRITES = "sync.(*Mutex).", "sync.(*RWMutex).RLock", "sync.(*RWMutex).Lock"
A_MOMENT = 50_000_000  # nanoseconds; a goroutine that got a mutex more recently may not have run since


class Holder(NamedTuple):
    """A goroutine that holds a mutex, the stack that locked the mutex, and the step after which the goroutine locked
    it."""

    name: Name
    stack: Stack
    step: int
    is_reader: bool

    @property
    def call(self) -> SourceCall | None:
        """The call of the program that locked the mutex."""
        found = self.stack.own()
        return found[0] if found and found[0].of == OF_THE_PROGRAM else None

    @property
    def locked(self) -> str:
        """Text for the line that locked the mutex: `, locked at a.go:12`; empty if no line of the program locked
        it."""
        call = self.call
        return f", locked at {call.place()}" if call else ""

    @property
    def how(self) -> str:
        return "holds it for reading" if self.is_reader else "holds it"


class MutexHolders:
    """The holders of mutexes at a position."""

    def __init__(
        self, recording: Recording, waiters: Mapping[Name, Waiter], position: int, does: Callable[[Name], str]
    ) -> None:
        self._recording, self._waiters, self._position, self._does = recording, waiters, position, does

    @property
    def are_known(self) -> bool:
        """Whether the recording says which goroutines hold mutexes at this position. A recording says so only for its
        end."""
        return self._recording.lines.held is not None and self._position == self._recording.length

    def need(self, wait: ObjectWait) -> Need:
        """What a goroutine needs while it waits for a mutex."""
        holders = list(self._holders(wait))
        mine = [holder for holder in holders if holder.name == wait.name]
        if mine and not self._is_pending(wait, mine[0]):
            return self._of_itself(mine[0])
        others = [holder for holder in holders if holder.name != wait.name]
        return self._of_holder(wait, others[0], others[1:]) if others else self._of_nobody(wait)

    def _holders(self, wait: ObjectWait) -> Iterator[Holder]:
        """The holders for which a goroutine waits: the writer; or the readers, if the goroutine is itself a writer that
        already has the mutex. The goroutine itself is among the holders if it also holds the mutex."""
        held = [entry for at in wait.objects for entry in (self._recording.lines.held or {}).get(at.object, ())]
        writers = [self._holder(entry) for entry in held if entry.how != READ]
        readers = [self._holder(entry) for entry in held if entry.how == READ]
        is_writer_to_be = any(writer.name == wait.name and self._is_pending(wait, writer) for writer in writers)
        if is_writer_to_be or not writers:
            yield from readers
        else:
            yield from writers
            yield from (reader for reader in readers if reader.name == wait.name and not contains(wait.stack, READS))

    def _holder(self, held: HeldMutex) -> Holder:
        lines = self._recording.lines
        return Holder(name_of_goid(lines, held.goid), lines.stacks[held.stack], held.step, held.how == READ)

    @staticmethod
    def _is_pending(wait: ObjectWait, holder: Holder) -> bool:
        """Whether a goroutine in RWMutex.Lock has the mutex already and waits only for its readers."""
        inside = [call.function for call in wait.stack.calls if call.of != OF_THE_PROGRAM]
        is_in_mutex = any(MUTEX_OF_GO in function for function in inside)
        return not holder.is_reader and not is_in_mutex and any(WRITES in function for function in inside)

    @staticmethod
    def _of_itself(holder: Holder) -> Need:
        """What a waiting goroutine needs if it has already locked the mutex itself."""
        return Need([f"It {holder.how} itself{holder.locked}: Lock waits for its own goroutine."], is_odd=True)

    def _of_holder(self, wait: ObjectWait, holder: Holder, more: list[Holder]) -> Need:
        """What a waiting goroutine needs if another goroutine holds the mutex."""
        does, waiter = self._does(holder.name), self._waiters.get(holder.name)
        if does.startswith("ended"):
            says = f"{locked_words(holder)} and {does}, without unlocking it."
            return Need([says], is_odd=True, gone=holder.name)
        do = "does" if len(more) == 1 else "do"
        others = f" (so {do} {counted(len(more), 'more reader')})" if more and holder.is_reader else ""
        if (
            waiter
            and waiter.wait
            and self._is_pending(waiter.wait, holder)
            and set(waiter.wait.objects) & set(wait.objects)
        ):
            return Need([], holder.name, GOES_FIRST, Certainty.KNOWN)
        if waiter:
            return Need([], holder.name, f"{{by}} {holder.how}{holder.locked}{others}", Certainty.KNOWN)
        doing = f", which {does}" if does else ""
        return Need([f"{str(holder.name).capitalize()} {holder.how}{holder.locked}{others}{doing}."], is_odd=True)

    def _of_nobody(self, wait: ObjectWait) -> Need:
        """What a goroutine needs if no goroutine holds the mutex. If the waiter has waited for more than a moment, the
        mutex may be a copy of a locked mutex."""
        times = self._recording.lines.times
        if not times or times[-1] - wait.begin < A_MOMENT:
            return Need([])
        says = "No goroutine has locked it. Perhaps it is a copy of a mutex that was locked as it was copied."
        return Need([says], is_odd=True)


def locked_words(holder: Holder) -> str:
    """Text for the goroutine that locked a mutex, and for the line at which it did so."""
    return f"{str(holder.name).capitalize()} locked it{place_in(holder.stack)} (step {holder.step})"
