"""Timers and tickers that will send nothing more: a timer or ticker that was stopped and not reset, and a timer whose
only value was taken."""

from typing import NamedTuple

from netrev.findings.evidence.call_words import place_in
from netrev.findings.evidence.need import Need
from netrev.findings.evidence.waiters import TICKERS, last_time_of
from netrev.recording.goroutines import TOOK, Timer
from netrev.recording.recording import Recording
from netrev.recording.waits import ObjectWait, name_of_goid
from netrev.recording.where import OF_THE_PROGRAM, Stack

ONCE = ("time.NewTimer", "time.After", "time.(*Timer).Reset")

LATE = 20_000_000  # nanoseconds by which a timer may go off late


class Silent(NamedTuple):
    """A timer that will send nothing more: its name, where it was made, and where it was stopped (None: it went off).
    If `was_due`, the timer was due before the stop, so the stop had no effect."""

    name: str
    creation: Timer
    stopped: Timer | None
    was_due: bool = False


def is_by(stack: Stack, functions: tuple[str, ...]) -> bool:
    return any(call.function in functions for call in stack.calls)


def silent_at(recording: Recording, number: int, begin: int = 0) -> Silent | None:
    """The timer of a channel, if it will send nothing more; None if it may send, or if unknown. If the timer went off
    before `begin` and a goroutine has waited on the channel since `begin`, the channel was empty, so the value had been
    taken."""
    lines = recording.lines
    timers = lines.timers.get(number, [])
    if not timers:
        return None
    first, last = timers[0], timers[-1]
    name = "ticker" if is_by(lines.stacks[first.stack], TICKERS) else "timer"
    if last.is_stopped:
        settings = [timer for timer in timers if not timer.is_stopped]
        was_due = name == "timer" and bool(settings) and settings[-1].due <= last.time
        return Silent(name, first, last, was_due) if not first.is_stopped else None
    takes = [use for use in lines.uses.get(number, ()) if use.what == TOOK]
    has_gone_off = is_by(lines.stacks[last.stack], ONCE) and last.due < last_time_of(recording)
    is_taken = any(use.end >= last.due for use in takes) or last.due + LATE < begin
    return Silent(name, last, None) if has_gone_off and is_taken else None


def silent_sentence(recording: Recording, silent: Silent) -> str:
    """The sentence about a timer that will send nothing more."""
    lines, name = recording.lines, silent.name

    def at(timer: Timer) -> str:
        return f"{place_in(lines.stacks[timer.stack])} ({name_of_goid(lines, timer.goid)}, step {timer.step})"

    if silent.stopped and silent.was_due:
        return (
            f"Its {name} was due before the Stop{at(silent.stopped)}, and nobody has set it anew; it was "
            f"made{at(silent.creation)}."
        )
    if silent.stopped:
        return f"Its {name} was stopped{at(silent.stopped)}, and not set anew; it was made{at(silent.creation)}."
    return (
        f"Its {name} goes off once: it was set{at(silent.creation)}, its value has been taken, and nobody has set it "
        "anew."
    )


def of_timers(recording: Recording, wait: ObjectWait) -> Need | None:
    """What a goroutine needs while it waits only for a timer that will send nothing more."""
    own = wait.stack.own()
    silent = silent_at(recording, wait.objects[0].object, wait.begin) if len(wait.objects) == 1 else None
    if not silent or not own or own[0].of != OF_THE_PROGRAM:
        return None
    return Need([silent_sentence(recording, silent)])


def timers_of_select(recording: Recording, wait: ObjectWait) -> list[str]:
    """Sentences about stopped timers in a select, which will never send."""
    candidates = (silent_at(recording, at.object, wait.begin) for at in wait.objects) if len(wait.objects) > 1 else ()
    silent = next((candidate for candidate in candidates if candidate), None)
    return [f"One of its cases can't come: {lower(silent_sentence(recording, silent))}"] if silent else []


def lower(words: str) -> str:
    return words[0].lower() + words[1:]
