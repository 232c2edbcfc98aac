"""What goroutines that wait for a mutex need, according to the recorder's table of locked mutexes: made-up holders and
waits."""


import pytest

from netrev.findings.evidence.need import Certainty, Need
from netrev.findings.evidence.waiters import Waiter, waiters_at
from netrev.findings.hangs.needs import Needs
from netrev.findings.locks.mutex_holders import A_MOMENT, MutexHolders
from netrev.recording.goroutines import A_MUTEX, READ, At, HeldMutex
from netrev.recording.recording import Recording
from netrev.recording.waits import Name, ObjectWait
from netrev.recording.where import OF_GO, SourceCall, Stack
from netrev.run.index import run_of
from tests.failed_calls.test_causes import TWO_ENDS, in_the_folder_of_the_source, with_lines
from tests.trials.go_caused import CHAINS

from .test_needs import line, stored

MUTEX, ANOTHER = 1, 2
LOCK, INNER = SourceCall("sync.(*Mutex).Lock", "sync/mutex.go", 9, OF_GO), SourceCall(
    "internal/sync.(*Mutex).lockSlow", "a.go", 9, OF_GO
)
READ_LOCK, WRITE_LOCK = (
    SourceCall(f"sync.(*RWMutex).{name}", "sync/rwmutex.go", 9, OF_GO) for name in ("RLock", "Lock")
)
UPDATES, LOGS, READS, CALLS = 1, 2, 3, 4  # stacks
AT_LOCK = At(MUTEX, "")


def goid(number: int) -> Name:
    return Name(number, is_goid=True)


class Book:
    """A recording in which some goroutines have locked a mutex, and others wait for it."""

    def __init__(self, *held: HeldMutex) -> None:
        self.recording = with_lines(TWO_ENDS)
        lines = self.recording.lines
        main = self.call(40, "main")
        calls = {
            UPDATES: self.call(4, "(*book).update"), LOGS: self.call(8, "(*book).update"), READS: self.call(14, "(*book).read"),
            CALLS: self.call(30, "serve"),
        }  # fmt: skip
        lines.stacks.update({number: Stack((call, main), None) for number, call in calls.items()})
        lines.held = {}
        for holder in held:
            lines.held.setdefault(holder.object, []).append(holder)
        self.waiters: dict[Name, Waiter] = {}
        self.does: dict[Name, str] = {}

    def call(self, number: int, function: str) -> SourceCall:
        return line(number, function, "book.go")

    def stack(self, number: int, *inner: SourceCall) -> Stack:
        """A stack of the recording, with these calls added at its inner end."""
        return Stack((*inner, *self.recording.lines.stacks[number].calls), None)

    def waits(self, number: int, stack: Stack, begin: int = 0, at: At = AT_LOCK) -> ObjectWait:
        """Makes a goroutine wait for a mutex, with this stack."""
        wait = ObjectWait(goid(number), 3, None, A_MUTEX, stack, None, (at,), begin)
        self.waiters[wait.name] = Waiter(wait.name, 3, stack, None, wait)
        return wait

    def holders(self, position: int | None = None) -> MutexHolders:
        position = self.recording.length if position is None else position
        return MutexHolders(self.recording, self.waiters, position, lambda name: self.does.get(name, ""))

    def need(self, wait: ObjectWait) -> Need:
        """What a goroutine needs."""
        return self.holders().need(wait)


def held(number: int, stack: int, how: str = "") -> HeldMutex:
    return HeldMutex(MUTEX, number, how, stack, 2)


def test_a_goroutine_that_has_locked_it_itself() -> None:
    book = Book(held(7, UPDATES))
    wait = book.waits(7, Stack((LOCK, *book.recording.lines.stacks[READS].calls[:1], *book.stack(LOGS).calls), None))
    says = ["It holds it itself, locked at book.go:4: Lock waits for its own goroutine."]
    assert book.need(wait) == Need(says, is_odd=True)


def test_a_reader_that_locks_for_writing() -> None:
    book = Book(held(7, READS, READ), held(7, UPDATES))
    need = book.need(book.waits(7, book.stack(READS, WRITE_LOCK)))
    assert need.says == ["It holds it for reading itself, locked at book.go:14: Lock waits for its own goroutine."]


def test_a_reader_that_locks_for_writing_behind_another_writer() -> None:
    book = Book(held(7, READS, READ), held(8, UPDATES))
    book.waits(8, book.stack(UPDATES, WRITE_LOCK))
    need = book.need(book.waits(7, book.stack(READS, INNER, WRITE_LOCK)))
    assert need.says == ["It holds it for reading itself, locked at book.go:14: Lock waits for its own goroutine."]


def test_a_writer_that_locks_again() -> None:
    book = Book(held(7, UPDATES))
    need = book.need(book.waits(7, book.stack(LOGS, INNER, WRITE_LOCK)))
    assert need.says == ["It holds it itself, locked at book.go:4: Lock waits for its own goroutine."]


def test_a_holder_that_waits_elsewhere() -> None:
    book = Book(held(7, UPDATES))
    book.waits(7, book.stack(LOGS), at=At(ANOTHER, ""))
    need = book.need(book.waits(8, book.stack(READS, LOCK)))
    assert need == Need([], goid(7), "{by} holds it, locked at book.go:4", Certainty.KNOWN)


def test_a_holder_that_has_returned_and_waits_elsewhere() -> None:
    book = Book(held(7, UPDATES))
    book.waits(7, book.stack(CALLS), at=At(ANOTHER, ""))
    need = book.need(book.waits(8, book.stack(READS, LOCK)))
    assert need == Need([], goid(7), "{by} holds it, locked at book.go:4", Certainty.KNOWN)


@pytest.mark.parametrize("does, more", [("sleeps at book.go:8", ", which sleeps at book.go:8"), ("", "")])
def test_a_holder_that_waits_for_nothing(does: str, more: str) -> None:
    book = Book(held(7, UPDATES))
    book.does[goid(7)] = does
    need = book.need(book.waits(8, book.stack(READS, LOCK)))
    assert need == Need([f"Goid 7 holds it, locked at book.go:4{more}."], is_odd=True)


def test_a_holder_that_has_ended() -> None:
    book = Book(held(7, UPDATES))
    book.does[goid(7)] = "ended after step 3"
    need = book.need(book.waits(8, book.stack(READS, LOCK)))
    says = "Goid 7 locked it at book.go:4 in (*book).update (step 2) and ended after step 3, without unlocking it."
    assert need == Need([says], is_odd=True, gone=goid(7))


def test_a_reader_behind_a_writer_that_waits() -> None:
    book = Book(held(7, READS, READ), held(8, UPDATES))
    book.waits(8, book.stack(UPDATES, WRITE_LOCK))
    need = book.need(book.waits(7, book.stack(READS, READ_LOCK)))
    assert need == Need([], goid(8), "{by} waits to lock it for writing, and goes first", Certainty.KNOWN)


def test_a_writer_that_waits_at_another_mutex_is_no_pending_one() -> None:
    book = Book(held(8, UPDATES))
    book.waits(8, book.stack(LOGS, WRITE_LOCK), at=At(ANOTHER, ""))
    need = book.need(book.waits(7, book.stack(READS, READ_LOCK)))
    assert need.how == "{by} holds it, locked at book.go:4"


@pytest.mark.parametrize(
    "readers, more", [((7,), ""), ((7, 9), " (so does 1 more reader)"), ((7, 9, 10), " (so do 2 more readers)")]
)
def test_a_pending_writer_waits_for_the_readers(readers: tuple[int, ...], more: str) -> None:
    book = Book(*(held(number, READS, READ) for number in readers), held(8, UPDATES))
    book.waits(7, book.stack(READS), at=At(ANOTHER, ""))
    need = book.need(book.waits(8, book.stack(UPDATES, WRITE_LOCK)))
    assert need == Need([], goid(7), f"{{by}} holds it for reading, locked at book.go:14{more}", Certainty.KNOWN)


def test_a_second_writer_waits_for_the_first_one() -> None:
    book = Book(held(7, READS, READ), held(8, UPDATES))
    book.waits(8, book.stack(UPDATES, WRITE_LOCK))
    need = book.need(book.waits(9, book.stack(UPDATES, INNER, WRITE_LOCK)))
    assert (need.by, need.how) == (goid(8), "{by} waits to lock it for writing, and goes first")


def times(recording: Recording, last: int) -> None:
    """Sets the time of the recording's last step."""
    recording.lines.times.extend([0] * (recording.length - 1) + [last])


@pytest.mark.parametrize("waited, is_said", [(A_MOMENT - 1, False), (A_MOMENT, True)])
def test_a_mutex_that_nobody_has_locked(waited: int, is_said: bool) -> None:
    book = Book()
    times(book.recording, 1_000 + waited)
    need = book.need(book.waits(8, book.stack(READS, LOCK), begin=1_000))
    says = ["No goroutine has locked it. Perhaps it is a copy of a mutex that was locked as it was copied."]
    assert need == (Need(says, is_odd=True) if is_said else Need([]))


def test_without_times_nothing_is_said_of_one_that_nobody_has_locked() -> None:
    book = Book()
    assert book.need(book.waits(8, book.stack(READS, LOCK))) == Need([])


def test_holders_of_another_mutex_have_nothing_to_do_with_it() -> None:
    book = Book(held(7, UPDATES)._replace(object=ANOTHER))
    assert book.need(book.waits(8, book.stack(READS, LOCK))) == Need([])


def test_they_are_known_at_the_end_alone() -> None:
    book = Book(held(7, UPDATES))
    assert book.holders().are_known
    assert not book.holders(book.recording.length - 1).are_known
    book.recording.lines.held = None
    assert not book.holders().are_known


def test_before_the_end_it_is_guessed() -> None:
    recording = stored("abandoned-bad")
    recording.lines.written = float("inf")
    words = dict[int, str]()
    with in_the_folder_of_the_source(CHAINS):
        for position in (recording.length - 1, recording.length):
            waiters = waiters_at(run_of(recording), position)
            waiter = next(waiter for waiter in waiters.values() if waiter.wait and waiter.wait.kind == A_MUTEX)
            need = Needs(run_of(recording), waiters, position).of(waiter)
            words[position] = " ".join([*need.says, *need.more])
    assert "without unlocking it" in words[recording.length]
    assert "without unlocking it" not in words[recording.length - 1]
