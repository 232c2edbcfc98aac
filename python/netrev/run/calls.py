"""Go's calls: the `Read`, `Write`, `SetDeadline` or `Close` to which each step belongs, how long the call waited, and
how it ended. nrdb finds the calls in one pass over the recording's steps."""

from collections import defaultdict
from collections.abc import Callable
from functools import partial
from typing import Any

from netrev.recording.call import CLOSE, CLOSE_WRITE, CONTROL, OPEN, Call, Outcome
from netrev.recording.notes import Goroutine
from netrev.recording.recording import Recording
from netrev.text.vocabulary import OF_A_GOROUTINE

from .flow import BY_STATUS
from .notes import CLOSED, Look, Looks, Notes
from .step_owners import NONE

# A Maker is called with the book, the notes and the step's arguments, the first of which is the step's goroutine.
Maker = Callable[..., Look]
SETTING = {"r": "SetReadDeadline", "w": "SetWriteDeadline", "rw": "SetDeadline"}
LOCKING = {"r": "Read", "w": "Write"}
WAITING = {"r": "WaitRead", "w": "WaitWrite"}
CODES = {1: Outcome.CLOSED, 2: Outcome.TIMED_OUT, 3: Outcome.EVENT_ERROR}


class Book:
    """All calls of a recording in the order of their first steps."""

    def __init__(self, recording: Recording) -> None:
        self.calls: list[Call] = []
        self._recording, self._errors = recording, recording.lines.errors
        self.error = ""  # the system's name for the step's error, until it is stored in a call
        self.open: dict[int, list[Call]] = defaultdict(list)  # the calls that each goroutine is in, the innermost last
        # for each sleeping goroutine, the step at which it fell asleep, and the clock at that step
        self.asleep: dict[int, tuple[int, int]] = {}
        self.descriptor_of: dict[int, int] = {}  # for each open socket, its descriptor
        self.notes = Notes(recording, self._looks())

    def sleeps_at_the_end(self, call: Call) -> bool:
        """Whether the recording ends while a call's goroutine sleeps in it."""
        inside = self.open.get(call.goroutine)
        return call.goroutine in self.asleep and bool(inside) and inside is not None and inside[-1] is call

    def _looks(self) -> Looks:
        """The functions that inspect the state after the steps of each kind."""
        if not self._errors:
            return {kind: partial(look, self) for kind, look in LOOKS.items()}
        return {kind: partial(self._seeing_errors, LOOKS.get(kind)) for kind in OF_A_GOROUTINE}

    def _seeing_errors(self, maker: Maker | None, notes: Notes, g: int, *arguments: Any) -> Look:
        """Stores the step's error in the innermost call. Only a recording with errors of system calls needs this. The
        call may end with this step."""
        inner, goroutine, calls = maker and maker(self, notes, g, *arguments), notes.goroutine(g), self.open[g]

        def look(step: int) -> None:
            self.error = self._errors.get(step, "")
            if inner:
                inner(step)
            if self.error:
                self.settle(step, goroutine, calls)

        return look

    def begin(self, step: int, g: int, name: str, socket: int, calls: list[Call]) -> Call:
        """Begins a call on a socket at this step."""
        call = Call(g, name, socket, self.descriptor_of.get(socket, NONE), step)
        calls.append(call)
        self.calls.append(call)
        return call

    def settle(self, step: int, goroutine: Goroutine, calls: list[Call]) -> None:
        """Updates the call after a step that may end it."""
        if self.error and calls:
            calls[-1].outcome, calls[-1].error = Outcome.SYSTEM_ERROR, self.error
            self.error = ""
        while calls and calls[-1].is_ending and goroutine.status.is_idle and not calls[-1].destroys:
            calls.pop().last = step


def fail(notes: Notes, call: Call, outcome: Outcome) -> None:
    """Ends a call with this result. For a timeout, a close or a shut write side, it also stores the step that caused
    the result."""
    call.outcome = outcome
    if outcome is Outcome.CLOSED and call.socket in notes.closer:
        call.cause = notes.closer[call.socket].step
    elif outcome is Outcome.BROKEN_PIPE and call.socket in notes.shut:
        call.cause = notes.shut[call.socket].step
    elif outcome is Outcome.TIMED_OUT:
        timeout = notes.timeouts[-1]
        call.cause = timeout.due.setting.step
        call.passed = timeout.passing.step


# One function for each kind of step. It takes the book, the notes and a step's arguments, and returns a function that
# runs after each step with the same line, as in `notes.py`. (`sysread`, `syswrite`, `setdeadline` and `closewrite`
# don't end a call.)


def goes_on(book: Book, notes: Notes, g: int, *_: object) -> Look:
    goroutine, calls, settle = notes.goroutine(g), book.open[g], book.settle

    def look(step: int) -> None:
        if calls and calls[-1].is_ending:
            settle(step, goroutine, calls)

    return look


def goes_on_or_sleeps(book: Book, notes: Notes, g: int) -> Look:
    """Handles `acquire`, `parkcommit` and `blockswap`: the goroutine may have slept before, and may sleep
    afterwards."""
    goroutine, calls, asleep, settle = notes.goroutine(g), book.open[g], book.asleep, book.settle

    def look(step: int) -> None:
        if g in asleep:
            since, clock = asleep.pop(g)
            if calls:
                calls[-1].waited += step - since - 1
                calls[-1].slept += notes.clock - clock
        if calls and calls[-1].is_ending:
            settle(step, goroutine, calls)
        if goroutine.status.is_asleep:
            asleep[g] = step, notes.clock

    return look


def opens(book: Book, notes: Notes, g: int, s: int) -> Look:
    goroutine, calls = notes.goroutine(g), book.open[g]

    def look(step: int) -> None:
        book.descriptor_of[s] = notes.uses[-1].descriptor
        book.begin(step, g, OPEN, s, calls).is_ending = True
        book.settle(step, goroutine, calls)

    return look


def locks(book: Book, notes: Notes, g: int, s: int, side: str) -> Look:
    goroutine, calls, name, locked, begin = notes.goroutine(g), book.open[g], LOCKING[side], notes.locks, book.begin

    def look(step: int) -> None:
        top = calls[-1] if calls else None
        if top is None or not top.is_asking:
            top = begin(step, g, name, s, calls)
            top.side = side
        if goroutine.status.is_acquiring:
            top.is_asking = True
            return
        top.is_asking = False
        if locked.get(s, 0) & CLOSED:
            top.is_ending = True
            fail(notes, top, Outcome.CLOSED)
            book.settle(step, goroutine, calls)

    return look


def gives(book: Book, notes: Notes, g: int, s: int, side: str = "") -> Look:
    """Handles a step by which a call gives up its reference, perhaps with the lock of a side."""
    goroutine, calls, locked, holds, settle = notes.goroutine(g), book.open[g], notes.locks, notes.holds[s], book.settle

    def look(step: int) -> None:
        for call in reversed(calls):
            if call.side == side and call.socket == s:
                call.is_ending = True
                if locked.get(s, 0) & CLOSED:
                    call.destroys = not holds
                break
        settle(step, goroutine, calls)

    return look


def begins(name: str, has_failed: Callable[[Notes, int, int, int], bool]) -> Maker:
    """Makes the function for a step that begins a call. If the socket was closed before, the call fails at once."""

    def of(book: Book, notes: Notes, g: int, s: int) -> Look:
        goroutine, calls = notes.goroutine(g), book.open[g]

        def look(step: int) -> None:
            call = book.begin(step, g, name, s, calls)
            if has_failed(notes, step, g, s):
                call.is_ending = True
                fail(notes, call, Outcome.CLOSED)
                book.settle(step, goroutine, calls)

        return look

    return of


def destroys(book: Book, notes: Notes, g: int, d: int) -> Look:
    goroutine, calls = notes.goroutine(g), book.open[g]

    def look(step: int) -> None:
        book.descriptor_of.pop(notes.use_of[d].socket, None)
        if calls:
            calls[-1].destroys = False
        book.settle(step, goroutine, calls)

    return look


def checks(book: Book, notes: Notes, g: int, d: int, side: str) -> Look:
    """Handles a step that checks a descriptor's side. Outside a call, as in `Dial`, the step is a call of its own."""
    goroutine, calls, names = notes.goroutine(g), book.open[g], tuple(WAITING.values())

    def look(step: int) -> None:
        if not calls:
            calls.append(Call(g, WAITING[side], notes.use_of[d].socket, d, step))
            book.calls.append(calls[-1])
        if notes.code:
            fail(notes, calls[-1], CODES[notes.code])
        if calls[-1].name in names:
            calls[-1].is_ending = True
            book.settle(step, goroutine, calls)

    return look


def checks_again(book: Book, notes: Notes, g: int) -> Look:
    """Handles `waitcheck`, which ends a wait on its side."""
    goroutine, calls = notes.goroutine(g), book.open[g]

    def look(step: int) -> None:
        if calls and goroutine.status.is_idle:
            fail(notes, calls[-1], CODES[notes.code])
        book.settle(step, goroutine, calls)

    return look


def reads(book: Book, notes: Notes, g: int, s: int, most: int) -> Look:
    calls, peer = book.open[g], notes.peer

    def look(step: int) -> None:
        if calls:
            calls[-1].moved = (calls[-1].moved or 0) + notes.moved
            if s in peer and not notes.moved:
                calls[-1].outcome = Outcome.EOF

    return look


def writes(book: Book, notes: Notes, g: int, s: int, digits: str) -> Look:
    calls, shut = book.open[g], notes.shut

    def look(step: int) -> None:
        if calls and s in shut:
            fail(notes, calls[-1], Outcome.BROKEN_PIPE)
        elif calls:
            calls[-1].moved = (calls[-1].moved or 0) + notes.moved

    return look


def names_control(name: Callable[[str], str]) -> Maker:
    """Makes the function for a step that names a call: `setdeadline`, by its mode, or `closewrite`. Since its `incref`,
    the call has had the name `Control`."""

    def of(book: Book, notes: Notes, g: int, which: int, mode: str = "", *_: object) -> Look:
        calls = book.open[g]

        def look(step: int) -> None:
            if calls and calls[-1].name == CONTROL:
                calls[-1].name = name(mode)

        return look

    return of


LOOKS: dict[str, Maker] = {
    **dict.fromkeys(BY_STATUS.values(), goes_on),
    **dict.fromkeys(("acquire", "parkcommit", "blockswap"), goes_on_or_sleeps),
    "pollopen": opens,
    "rwlock": locks,
    "rwunlock": gives,
    "incref": begins(CONTROL, lambda notes, step, g, s: notes.is_closed(s)),
    "decref": gives,
    "increfclose": begins(CLOSE, lambda notes, step, g, s: notes.closer[s] != (step, g)),
    "pollclose": destroys,
    "pollreset": checks,
    "waitbegin": checks,
    "waitcheck": checks_again,
    "sysread": reads,
    "syswrite": writes,
    "setdeadline": names_control(lambda mode: SETTING[mode]),
    "closewrite": names_control(lambda _: CLOSE_WRITE),
}
