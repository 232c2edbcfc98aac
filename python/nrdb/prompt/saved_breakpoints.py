"""`save breakpoints FILE`: writes lines that set the current marks again when `source FILE` runs them."""

from collections.abc import Iterator

from netrev.session.attached_commands import END
from netrev.session.files import writing
from netrev.session.session import Session, UsageError
from netrev.text.plurals import counted

from .call_answers import usage


def answer_save(session: Session, words: list[str]) -> None:
    """Writes netrev's marks, the breaks at lines and functions, and the lines that run when a mark is hit."""
    if len(words) != 2 or words[0] != "breakpoints":
        raise UsageError(usage("save"))
    lines = list(lines_of_marks(session))
    with writing(words[1], session.path) as file:
        file.writelines(f"{line}\n" for line in lines)
    count = len(session.netrev.marks()) + len(session.breaks.standing)
    session.printer.note(f"{words[1]}: {counted(count, 'mark')}; source {words[1]} sets them")


def lines_of_marks(session: Session) -> Iterator[str]:
    """The lines that set the marks again."""
    for mark in session.netrev.marks():
        yield f"{mark.sort} {mark.what}"
        yield from condition_line(session, mark.number)
        if attached := session.attached.lines.get(mark.number):
            yield from ("commands", *(f"  {line}" for line in attached), END)
    for line_break in session.breaks.standing.values():
        yield f"{'tbreak' if line_break.is_temporary else 'break'} {line_break.place.spelled}"
        yield from condition_line(session, line_break.number)


def condition_line(session: Session, number: str) -> Iterator[str]:
    """The line that sets a mark's condition, for use after the line that sets the mark."""
    if condition := session.conditions.get(number):
        yield f"condition {condition.cell} {condition.value}"
