"""The goroutines that wait at the end of a recording and don't go on. Each is in a call on a socket, or waits outside
the poller."""

from functools import lru_cache
from typing import NamedTuple

from netrev.recording.call import Call
from netrev.recording.recording import Recording
from netrev.recording.waits import ALL_REQUESTS, Name, ObjectWait, waits_of
from netrev.recording.where import OF_THE_PROGRAM, Stack
from netrev.run.index import READING, WRITING, RunIndex

from .call_words import is_of_a_lock, is_of_the_program

TICKERS = ("time.NewTicker", "time.Tick", "time.(*Ticker).Reset")


class Waiter(NamedTuple):
    """A goroutine that waits: the step at which its wait began, its stack, and its call on a socket or its wait outside
    the poller."""

    name: Name
    since: int
    stack: Stack
    call: Call | None = None
    wait: ObjectWait | None = None

    @property
    def is_of_go(self) -> bool:
        """Whether only Go's own code waits, as net/http does between two requests."""
        return bool(self.stack.calls) and not any(call.of == OF_THE_PROGRAM for call in self.stack.calls)


def is_waiting(index: RunIndex, call: Call) -> bool:
    """Whether a call, other than one on a listener, still waits for its peer or for a lock when the recording ends."""
    is_asleep = call.name in READING + WRITING and index.sleeps_at_the_end(call)
    return is_asleep and not index.is_listening(call)


def waiters_at(index: RunIndex, position: int) -> dict[Name, Waiter]:
    """The goroutines that wait at a position and don't go on in the recording. Listeners, sleepers, and goroutines
    outside the poller that run only Go's own code are left out."""
    recording, found = index.recording, dict[Name, Waiter]()
    for wait in waits_of(recording).left(position):
        if (
            is_of_the_program(wait.stack)
            and not is_of_a_lock(wait.stack)
            and not wait.is_asleep
            and not is_timed(recording, wait)
        ):
            found[wait.name] = Waiter(wait.name, wait.first, wait.stack, None, wait)
    for call in index.calls:
        if not call.last and call.first <= position and is_waiting(index, call):
            name = Name(call.goroutine)
            found[name] = Waiter(name, call.first, recording.lines.of(call.first), call)
    return found


def waiters_during(index: RunIndex, position: int) -> dict[Name, Waiter]:
    """The goroutines that wait at a position, whether or not they go on later. Listeners, sleepers, and goroutines
    outside the poller that run only Go's own code are left out."""
    recording, found = index.recording, dict[Name, Waiter]()
    for wait in waits_of(recording).all_at(position):
        if is_of_the_program(wait.stack) and not is_of_a_lock(wait.stack) and not wait.is_asleep:
            found[wait.name] = Waiter(wait.name, wait.first, wait.stack, None, wait)
    for goroutine in index.by_goroutine:
        call = index.call_at(goroutine, position)
        if call and call.name in READING + WRITING and not index.is_listening(call):
            found[Name(goroutine)] = Waiter(Name(goroutine), call.first, recording.lines.of(call.first), call)
    return found


def is_timed(recording: Recording, wait: ObjectWait) -> bool:
    """Whether a wait ends by itself: it is on the channel of a ticker, or of a timer that goes off after the end of the
    recording."""
    lines = recording.lines
    if wait.kind == ALL_REQUESTS:  # (Shutdown polls, so its timer doesn't end the wait)
        return False
    return any(
        timer.due > last_time_of(recording) or any(call.function in TICKERS for call in lines.stacks[timer.stack].calls)
        for at in wait.objects
        for timer in lines.timers.get(at.object, ())[-1:]
    )


@lru_cache(maxsize=2)
def last_time_of(recording: Recording) -> int:
    """The latest timestamp in a recording's NAME.where."""
    lines = recording.lines
    of_uses = max((use.end for uses in lines.uses.values() for use in uses), default=0)
    of_parks = max((max(park.begin, park.end) for parks in lines.parks.values() for park in parks), default=0)
    return max(of_uses, of_parks, lines.times[-1] if lines.times else 0)
