"""Commands about one goroutine at the session's position: `goroutine N` shows the goroutine's stack and its source, and
`where`, `frame`, `up` and `down` then use that stack."""


from netrev.messages import session as messages
from netrev.recording.waits import Name
from netrev.recording.where import stack_lines
from netrev.session.session import Answering, Session, UsageError
from netrev.text.vocabulary import number_of
from netrev.views.goroutine_stacks import GoroutineStack, stack_of

from .call_answers import usage
from .program_answers import show_frame, stack_at


def answer_where(session: Session, words: list[str]) -> None:
    position, length, direction = session.current_position()
    session.printer.note(f"at {position} of {length} {direction}")
    session.printer.place(session.place(position))
    if session.recording and session.goroutine and (found := stack_of(session.recording, session.goroutine, position)):
        show(session, found)
    elif session.recording and (lines := stack_lines(stack_at(session))):
        session.printer.note("\n".join(lines))
    if session.recording and (tests := session.recording.lines.tests_at(position)):
        session.printer.note(f"while these tests ran: {', '.join(tests)}")


def answer_goroutine(session: Session, words: list[str]) -> None:
    """Chooses a goroutine. Without an argument, shows the chosen goroutine, or else the goroutine of the last step."""
    recording, position = session.text(), session.current_position().position
    name = named(words) if words else session.goroutine or of_step(session, position)
    if name is None:
        raise UsageError(messages.NUMBER.format(usage=usage("goroutine")))
    found = stack_of(recording, name, position)
    if found is None:
        raise UsageError(messages.NO_STEP_OR_WAIT.format(goroutine=name, position=position))
    session.goroutine, session.frame, session.is_before = name, None, False
    show(session, found)
    if found.stack.calls:
        show_frame(session, found.stack, None)


def show(session: Session, found: GoroutineStack) -> None:
    """Prints the line about a goroutine, and its stack."""
    session.printer.note("\n".join([found.words(), *stack_lines(found.stack)]))


def named(words: list[str]) -> Name | None:
    """The goroutine that these words name: `12`, or `goid 34` for a goroutine without a step."""
    number = number_of(words[-1])
    is_goid = len(words) == 2 and words[0] == "goid"
    return None if number is None or len(words) > 1 + is_goid else Name(number, is_goid)


def of_step(session: Session, position: int) -> Name | None:
    """The goroutine that made the last step up to a position; None at the start, or if no goroutine made that step."""
    if not position:
        return None
    maker = session.text().step(position).argument("g")
    return None if maker is None else Name(maker)


OF_GOROUTINES: dict[str, Answering] = {"goroutine": answer_goroutine, "where": answer_where}
