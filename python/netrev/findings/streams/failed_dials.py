"""Connections that couldn't be opened: Go closed the socket because connecting failed."""

from collections.abc import Iterator
from typing import NamedTuple

from netrev.findings.evidence.call_words import place_in, place_of_step
from netrev.findings.finding import Cause
from netrev.recording.call import CLOSE, OPEN, Call
from netrev.recording.goroutines import CLOSED, FailedDial
from netrev.recording.recording import Recording
from netrev.recording.waits import name_of_goid
from netrev.run.index import RunIndex, run_of

from .unaccepted_connections import CONNECTS, accepts_at, closed, is_dialed

ONCE = "sync.(*Once).Do"
FAILED = "net.socket"  # closes a socket that it couldn't connect


class UnconnectedSocket(NamedTuple):
    """The Close of a socket that wasn't connected."""

    close: Call

    def words(self, recording: Recording) -> str:
        """The text for the failed Dial, without the goroutine: `Dial at a.go:3 in ask failed (step 9)`."""
        return f"Dial{place_in(recording.lines.of(self.close.first))} failed (step {self.close.first})"


def failed_dial(index: RunIndex, goroutine: int) -> UnconnectedSocket | None:
    """The last Dial of a goroutine, if that Dial failed; None if a later Dial succeeded."""
    lines, calls = index.recording.lines, index.by_goroutine.get(goroutine, ())
    failed = [
        closing for closing in calls
        if closing.name == CLOSE and any(call.function == FAILED for call in lines.of(closing.first).calls)
        and is_dialed(index, closing.socket)
    ]  # fmt: skip
    if not failed:
        return None
    is_later = any(opening.first > failed[-1].first for opening in connected_by(index, goroutine))
    return None if is_later else UnconnectedSocket(failed[-1])


def refused(recording: Recording, goid: int) -> FailedDial | None:
    """A goroutine's last failed connect: the system refused it, or the goroutine gave it up. The result is
    None if the steps show a later connect that succeeded."""
    failed = recording.lines.failed_dials.get(goid, ())
    number = recording.lines.goroutines[goid].number if goid in recording.lines.goroutines else -1
    index = run_of(recording)
    if not failed or any(call.first > failed[-1].step for call in connected_by(index, number)):
        return None
    return failed[-1]


def connected_by(index: RunIndex, goroutine: int) -> Iterator[Call]:
    """The Opens of the sockets that a goroutine connected."""
    for call in index.by_goroutine.get(goroutine, ()):
        if call.name == OPEN and any(
            CONNECTS in frame.function for frame in index.recording.lines.of(call.first).calls
        ):
            yield call


def reason_words(failed: FailedDial) -> str:
    """Why a connect failed, such as `ECONNREFUSED, 127.0.0.1:80`; empty if unknown."""
    return ", ".join(word for word in (failed.why, failed.address) if word)


def refused_words(recording: Recording, failed: FailedDial) -> str:
    """The text of a connect that failed: `Dial at a.go:3 in ask (goid 4, step 9) failed: ECONNREFUSED,
    127.0.0.1:80`."""
    name, stack = name_of_goid(recording.lines, failed.goid), recording.lines.stacks[failed.stack]
    why = reason_words(failed)
    return f"Dial{place_in(stack)} ({name}, step {failed.step}) failed" + (f": {why}" if why else "")


def ended_sentence(recording: Recording, failed: FailedDial) -> list[str]:
    """Sentences about a dial that failed. The sentences name the goroutine that had cancelled the dial's context, and
    the line; or they say that a sync.Once made the dial and doesn't run again."""
    lines = recording.lines
    closes = [use for use in lines.uses.get(failed.context, ()) if use.what == CLOSED and use.begin <= failed.time]
    stack = lines.stacks[closes[0].stack] if failed.context and closes else None
    if any(call.function == ONCE for call in lines.stacks[failed.stack].calls):
        return ["That was in a sync.Once, which calls its function once alone: no later call dials again."]
    if stack is None or not stack.own():
        return []
    name = name_of_goid(lines, closes[0].goid)
    return [f"Its context had been cancelled{place_in(stack)} ({name}, step {closes[0].last})."]


def refused_dials(recording: Recording) -> Iterator[FailedDial]:
    """The last refused connects of goroutines at a line of the program, one for each line and address."""
    lines, seen = recording.lines, set[tuple[str | None, str]]()
    for goid in sorted(lines.failed_dials):
        failed = refused(recording, goid)
        own = lines.stacks[failed.stack].own() if failed else None
        if failed and own and (own[0].place(), failed.address) not in seen:
            seen.add((own[0].place(), failed.address))
            yield failed


def failed_dials(index: RunIndex) -> Iterator[Cause]:
    """A cause for each goroutine whose last Dial failed. If exactly one listener was closed before, the cause names the
    listener."""
    recording = index.recording
    for goroutine in sorted(index.by_goroutine):
        dial = failed_dial(index, goroutine)
        if dial is None or not recording.lines.of(dial.close.first).own():
            continue
        failed = refusal_of(recording, dial, goroutine)
        why = f" ({reason_words(failed)})" if failed and reason_words(failed) else ""
        says = [
            f"Dial{place_of_step(recording, dial.close.first, goroutine)} failed: socket {dial.close.socket} was never connected{why}."
        ]
        listeners = [
            socket
            for socket in index.by_socket
            if is_listener(index, socket) and closed(index, socket, dial.close.first)
        ]
        if len(listeners) == 1:
            by = index.closing(listeners[0], dial.close.first, whole=True)
            says += (
                [
                    f"A listener, socket {listeners[0]}, had been closed{place_of_step(recording, by.first, by.goroutine)}."
                ]
                if by
                else []
            )
        says += ended_sentence(recording, failed) if failed else []
        yield Cause(
            dial.close, says, [dial.close.first], [f"goto {dial.close.first}", f"calls sock {dial.close.socket}"]
        )


def refusal_of(recording: Recording, dial: UnconnectedSocket, goroutine: int) -> FailedDial | None:
    """Why a socket wasn't connected, if the recorder saw it: the last failed connect of its goroutine at the same
    line."""
    lines = recording.lines
    failed = refused(recording, lines.goid_of(goroutine, dial.close.first))
    is_same = failed and lines.stacks[failed.stack].own() == lines.of(dial.close.first).own()
    return failed if is_same else None


def is_listener(index: RunIndex, socket: int) -> bool:
    """Whether a socket accepts connections, or may accept them."""
    opened = index.by_socket[socket][0]
    listens = any(
        call.function.startswith("net.(*netFD).listen") for call in index.recording.lines.of(opened.first).calls
    )
    return bool(opened.name == OPEN and listens) or bool(accepts_at(index, socket))
