"""Answers about calls and about what happened at the position, one function for each command, as in `answers.py`."""


from netrev.connection.netrev import Reply
from netrev.connection.output import Table
from netrev.connection.shapes import MOVED, move_of
from netrev.messages import session as messages
from netrev.session.commands import COMMANDS, TOPICS
from netrev.session.mark_conditions import Condition
from netrev.session.session import Answering, Session, UsageError
from netrev.text.vocabulary import number_of
from netrev.views.calls import (
    GOALS,
    MOST,
    NoDestinationError,
    Subject,
    call_row,
    calls_table,
    goroutine_at,
    steps_table,
)


def usage(name: str) -> str:
    """The usage of a command."""
    return f"{COMMANDS[name].usage}: {COMMANDS[name].says}"


def taken_most(name: str, words: list[str]) -> int | None:
    """The most rows to show: the default, a number from 1, or None for all."""
    most = None if words == ["all"] else number_of(words[0]) if len(words) == 1 else MOST
    if len(words) > 1 or most == 0 or (most is None and words != ["all"]):
        is_topic = name not in COMMANDS
        usage_text = (
            messages.TOPIC.format(usage=TOPICS[name].usage, says=TOPICS[name].says) if is_topic else usage(name)
        )
        raise UsageError(messages.NUMBER_FROM_ONE.format(usage=usage_text))
    return most


def arrive(session: Session, line: str, reply: str) -> None:
    """Prints netrev's reply to a move, and the new position."""
    session.printer.reply(line, Reply(reply), "")
    if MOVED.fullmatch(reply):
        session.arrive(move_of(line, reply).position)


def answer_steps(session: Session, words: list[str]) -> None:
    found = Subject.of(words)
    if found is None:
        raise UsageError(usage("steps"))
    subject, rest = found
    most = taken_most("steps", rest)
    session.printer.table(steps_table(session.text(), subject, session.current_position().position, most))


def answer_calls(session: Session, words: list[str]) -> None:
    found = Subject.of(words)
    subject, rest = found if found and found[0].is_numbered else (Subject(), words)
    most = taken_most("calls", rest)
    session.printer.table(calls_table(session.text(), subject, session.current_position().position, most))


def answer_errors(session: Session, words: list[str]) -> None:
    from netrev.findings.causes import errors_table

    most = taken_most("errors", words)
    session.printer.table(errors_table(session.text(), session.current_position().position, most))


def moved_by_call(name: str) -> Answering:
    """The answer to a command that moves by calls."""

    def answer(session: Session, words: list[str]) -> None:
        number = number_of(words[0]) if len(words) == 1 else None
        if words and number is None:
            raise UsageError(messages.GOROUTINE_NUMBER.format(usage=usage(name)))
        text, position = session.text(), session.current_position().position
        try:
            goroutine = goroutine_at(text, position) if number is None else number
            goal = GOALS[name](text, goroutine, position)
        except NoDestinationError as stay:
            raise UsageError(str(stay)) from None
        arrive(session, f"{name} {goroutine}", session.go(goal.position))
        if goal.call:
            session.printer.table(Table("calls", [call_row(text, goal.call, max(goal.position, position))]))

    return answer


def answer_commands(session: Session, words: list[str]) -> None:
    marks = [mark.number for mark in session.netrev.marks()]
    number = words[0] if words else marks[-1] if marks else ""
    if len(words) > 1 or number not in marks:
        raise UsageError(messages.MARKS.format(usage=usage("commands"), marks=", ".join(marks) or "none"))
    session.attached.begin(number)
    session.printer.note(messages.LINES_OF_MARK.format(number=number))


def answer_condition(session: Session, words: list[str]) -> None:
    """Sets or removes the condition of a mark. A command without a number applies to the mark set last.
    `save breakpoints` writes such commands."""
    marks = {mark.number: mark.sort for mark in session.netrev.marks()}
    standing = [*marks, *session.breaks.standing]
    is_named = bool(words) and words[0] in standing
    number, rest = (words[0], words[1:]) if is_named else (session.latest, words)
    if number not in standing or not words or (not is_named and Condition.of(words) is None):
        raise UsageError(messages.MARKS.format(usage=usage("condition"), marks=", ".join(standing) or "none"))
    if marks.get(number) == "tbreak":
        raise UsageError(messages.TBREAK_IS_DELETED.format(number=number))
    if not rest:
        session.conditions.pop(number, None)
        return session.printer.note(messages.STOPS_ALWAYS.format(number=number))
    condition = Condition.of(rest)
    if condition is None:
        raise UsageError(messages.CONDITION.format(usage=usage("condition"), number=number))
    session.conditions[number] = condition
    session.printer.note(condition.says(number))


OF_CALLS: dict[str, Answering] = {
    "steps": answer_steps,
    "calls": answer_calls,
    "commands": answer_commands,
    "condition": answer_condition,
    **{name: moved_by_call(name) for name in GOALS},
}
