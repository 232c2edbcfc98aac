"""The facts of `netrev suspects`, computed from nrdb's own notes and without netrev's lines, for candidates of
`explore` and `reduce` and for an older netrev. (For references and withdrawn deadlines, the rules use the notes
directly.)"""

from collections.abc import Iterator

from netrev.recording.notes import AT, PARKED, By, Due
from netrev.recording.suspect_list import LostWakeUp, OfDeadline, SuspectEntries
from netrev.run.notes import Notes


def by_the_notes(notes: Notes) -> SuspectEntries:
    """All facts."""
    facts = SuspectEntries()
    facts.lost_wake_ups += lost_wake_ups(notes)
    facts.passed_deadlines += passed_deadlines(notes)
    for timeout in notes.timeouts:
        facts.timeouts[timeout.step] = of_deadline(
            timeout.step, timeout.goroutine, timeout.descriptor, timeout.side, timeout.due
        )
    return facts


def lost_wake_ups(notes: Notes) -> Iterator[LostWakeUp]:
    """Goroutines that are parked on a side although its last event was taken, and no try has returned EAGAIN since that
    event."""
    for g, goroutine in notes.goroutines.items():
        if notes.status(g) == PARKED:
            side, use = goroutine.status.side, notes.use_of[goroutine.status.number]
            event, taken = use.last_event(side), use.taken[AT[side]]
            if taken and event > notes.again[side].get(use.socket, 0):
                yield LostWakeUp("", g, use.descriptor, side, event, taken.step, taken.goroutine)


def passed_deadlines(notes: Notes) -> Iterator[OfDeadline]:
    """The deadlines that passed in a `fire` step."""
    for use in notes.uses:
        for side, passings in zip("rw", use.passings):
            for step, kind, due in passings:
                if kind == "fire":
                    yield of_deadline(step, None, use.descriptor, side, due)


def of_deadline(step: int, g: int | None, d: int, side: str, due: Due) -> OfDeadline:
    """The effect of a deadline at a step."""
    setting, moved = due.setting, due.moved and By(due.moved.step, due.moved.goroutine)
    return OfDeadline("", step, g, d, side, By(setting.step, setting.goroutine), setting.mode, moved)
