"""`steps` and `calls`: what a goroutine did, what happened to a socket or a descriptor, and all steps of a kind. The
module also finds the destinations of `next` and `finish`."""

from collections.abc import Callable, Iterator
from typing import NamedTuple

from netrev.connection.output import Row, Table
from netrev.errors import NetrevError
from netrev.messages import session as messages
from netrev.recording.answers import answer_text
from netrev.recording.call import Call
from netrev.recording.recording import Recording, Step
from netrev.run.index import run_of
from netrev.run.timers import timer_of, timer_words
from netrev.text.vocabulary import KINDS, ObjectKind, number_of

MOST = 40
SUBJECTS = {"gor": ObjectKind.GOROUTINE, "sock": ObjectKind.SOCKET, "desc": ObjectKind.DESCRIPTOR}


class Subject(NamedTuple):
    """The subject of `steps` or `calls`: a goroutine, a socket, a descriptor, a kind of step, or everything."""

    name: str = ""
    number: int = 0

    def __str__(self) -> str:
        return f"{SUBJECTS[self.name].value} {self.number}" if self.is_numbered else self.name

    @property
    def is_numbered(self) -> bool:
        """Whether the subject is a goroutine, a socket or a descriptor, which have numbers."""
        return self.name in SUBJECTS

    @classmethod
    def of(cls, words: list[str]) -> tuple["Subject", list[str]] | None:
        """The subject at the beginning of these words, and the words after it; None if the words don't begin with a
        subject."""
        number = number_of(words[1]) if len(words) > 1 else None
        if words[:1] and words[0] in SUBJECTS:
            return None if number is None else (cls(words[0], number), words[2:])
        return (cls(words[0]), words[1:]) if words[:1] and words[0] in KINDS else None

    def has(self, call: Call) -> bool:
        """Whether the subject has a call."""
        numbers = {"gor": call.goroutine, "sock": call.socket, "desc": call.descriptor}
        return not self.name or numbers[self.name] == self.number


def steps_table(recording: Recording, subject: Subject, position: int, most: int | None) -> Table:
    """The last steps of the subject up to the position: at most `most` steps, or all if `most` is None."""
    found = list(_numbers(recording, subject, position))
    shown = found if most is None else found[-most:]
    rows = [_step_row(recording, recording.step(number)) for number in shown]
    return Table("steps", rows, _rest(len(found), len(shown), "step", f"steps {_typed(subject)}", subject, position))


def _numbers(recording: Recording, subject: Subject, position: int) -> Iterator[int]:
    """The numbers of the subject's steps up to the position."""
    if subject.name in KINDS:
        return (step.number for step in recording.steps_of((subject.name,), position))
    return run_of(recording).steps_of(SUBJECTS[subject.name], subject.number, 0, position)


def _typed(subject: Subject) -> str:
    return f"{subject.name} {subject.number}" if subject.name in SUBJECTS else subject.name


def _step_row(recording: Recording, step: Step) -> Row:
    """The row of a step: the step, its answer (if any), and the program's line or else the owner of the step's
    timer."""
    timer, at = timer_of(recording, step), recording.lines.words(step.number)
    values = {"step": step.number, "line": step.line, "does": str(step), "timer": timer and timer._asdict()}
    answered = f", answered {answer_text(step.answer)}" if step.answer not in (None, "done") else ""
    text = f"{step.number:>7}  {step}{answered}"
    return Row(
        values | ({"at": at} if recording.lines else {}), f"{text:<56} {at or timer_words(recording, step)}".rstrip()
    )


def _rest(count: int, shown: int, name: str, line: str, subject: Subject, position: int) -> str:
    """The line that says how many rows are omitted, or that there are none."""
    if shown < count:
        return f"{count - shown} earlier ones: {line} all"
    owner = f" of {subject}" if subject.name else ""
    return "" if count else f"no {name}{owner} up to position {position}"


def calls_table(recording: Recording, subject: Subject, position: int, most: int | None) -> Table:
    """The subject's calls that began at or before the position. If there are more than `most`, only the last ones."""
    found = [call for call in run_of(recording).calls if call.first <= position and subject.has(call)]
    shown = found if most is None else found[-most:]
    rows = [call_row(recording, call, position) for call in shown]
    line = f"calls {_typed(subject)}" if subject.name else "calls"
    return Table("calls", rows, _rest(len(found), len(shown), "call", line, subject, position))


def call_row(recording: Recording, call: Call, position: int) -> Row:
    """The row of a call. If the call ends after the position, the row shows it as unfinished."""
    seen = call if call.last <= position else call.as_begun()
    at = recording.lines.words(call.first)
    values = {
        "goroutine": seen.goroutine,
        "call": seen.name,
        "socket": seen.socket,
        "descriptor": seen.descriptor if seen.descriptor >= 0 else None,
        "first": seen.first,
        "last": seen.last or None,
        "waited": seen.waited,
        "slept": seen.slept,
        "bytes": seen.moved,
        "outcome": seen.outcome.value if seen.last else None,
    }
    text = f"gor {seen.goroutine:<4} {seen.words()}"
    return Row(values | ({"at": at} if recording.lines else {}), f"{text:<72} {at}".rstrip())


class NoDestinationError(NetrevError):
    """Raised, with the reason, if no destination exists."""


class Goal(NamedTuple):
    """The position at which a move ends. If the move covers a whole call, `call` is that call."""

    position: int
    call: Call | None = None


def goroutine_at(recording: Recording, position: int) -> int:
    """The goroutine that made the last step up to the position. At the start, the goroutine that makes the next step.
    Steps that no goroutine made don't count."""
    goroutine = run_of(recording).goroutine_at(position)
    if goroutine < 0:
        raise NoDestinationError(messages.NO_GOROUTINE_MOVES)
    return goroutine


def next_goal(recording: Recording, goroutine: int, position: int) -> Goal:
    """The position after the goroutine's next step, or after the whole call that begins with it."""
    run = run_of(recording)
    step = run.next_step(goroutine, position)
    if not step:
        raise NoDestinationError(messages.NO_OTHER_STEP.format(goroutine=goroutine, way="later"))
    call = run.call_of(step)
    return Goal(call.last or recording.length, call) if call and call.first == step else Goal(step)


def previous_goal(recording: Recording, goroutine: int, position: int) -> Goal:
    """The position before the goroutine's last step, or before the whole call that it ended."""
    run = run_of(recording)
    step = run.last_step(goroutine, position)
    if not step:
        raise NoDestinationError(messages.NO_OTHER_STEP.format(goroutine=goroutine, way="earlier"))
    call = next((call for call in run.by_goroutine.get(goroutine, ()) if call.last == step), None)
    return Goal(call.first - 1, call) if call else Goal(step - 1)


def finish_goal(recording: Recording, goroutine: int, position: int) -> Goal:
    """The position after the call that the goroutine is in. Between two calls, the position before the goroutine's
    first step outside the program's function."""
    call = run_of(recording).call_at(goroutine, position)
    if not call:
        return return_goal(recording, goroutine, position)
    if not call.last:
        raise NoDestinationError(messages.CALL_HANGS.format(goroutine=goroutine, call=call.words()))
    return Goal(call.last, call)


def return_goal(recording: Recording, goroutine: int, position: int) -> Goal:
    """The position just before the goroutine's next step outside the function that it is in. Of the functions in its
    stack, that is the program's innermost one."""
    run = run_of(recording)
    found = run.position_of_return(goroutine, position)
    if found is not None:
        return Goal(found)
    if function := run.function_at(goroutine, position):
        raise NoDestinationError(messages.NO_RETURN.format(goroutine=goroutine, function=function))
    raise NoDestinationError(messages.IN_NO_CALL.format(goroutine=goroutine))


def start_goal(recording: Recording, goroutine: int, position: int) -> Goal:
    """The position before the call that the goroutine is in."""
    call = run_of(recording).call_at(goroutine, position)
    if not call:
        raise NoDestinationError(messages.IN_NO_CALL.format(goroutine=goroutine))
    return Goal(call.first - 1, call)


GOALS: dict[str, Callable[[Recording, int, int], Goal]] = {
    "next": next_goal,
    "reverse-next": previous_goal,
    "finish": finish_goal,
    "reverse-finish": start_goal,
}
