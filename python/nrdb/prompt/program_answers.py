"""Commands that take a line or a function of the program, and commands about frames."""


from netrev.connection.output import Row, Table
from netrev.messages import session as messages
from netrev.recording.recording import Recording
from netrev.recording.where import OF_THE_PROGRAM, SourceCall, Stack
from netrev.session.line_index import OF_A_LINE, ProgramPlace, is_file, is_function, is_place, no_step_from, places_of
from netrev.session.session import Answering, Session, UsageError
from netrev.session.source import source_of, text_around
from netrev.views.goroutine_stacks import stack_of

from .call_answers import arrive

MOST = 40


def place_of(session: Session, spelled: str) -> ProgramPlace:
    """The place that a word names; raises UsageError if no step comes from that place."""
    recording = session.text()
    if not recording.lines:
        raise UsageError(messages.NO_LINES)
    places = places_of(recording)
    if place := places.place(spelled):
        return place
    raise UsageError(no_step_from(spelled, places.near(spelled)))


def of_place(name: str, otherwise: Answering) -> Answering:
    """The answer to a command that may have a place as its argument."""

    def answer(session: Session, words: list[str]) -> bool | None:
        return (OF_PLACES[name] if is_place(session.recording, words) else otherwise)(session, words)

    return answer


def break_at(is_temporary: bool) -> Answering:
    """The answer to `break` and `tbreak` with a place."""

    def answer(session: Session, words: list[str]) -> None:
        mark = session.breaks.add(place_of(session, words[0]), is_temporary)
        session.latest = mark.number
        session.printer.note(f"break {mark.words()}")

    return answer


def answer_delete(session: Session, words: list[str]) -> None:
    if not words:
        return delete_all(session)
    if session.breaks.standing.pop(words[0], None) is None:
        raise UsageError(messages.NO_BREAK.format(number=words[0]))


def delete_all(session: Session) -> None:
    """Deletes netrev's marks and the breaks at lines and functions, and prints what was deleted."""
    gone = []
    for mark in session.netrev.marks():
        if not session.ask(f"delete {mark.number}").startswith("fault"):
            session.attached.lines.pop(mark.number, None)
            gone.append(f"{mark.number} ({mark.sort} {mark.what})")
    gone += [f"{mark.number} (break {mark.place.spelled})" for mark in session.breaks.standing.values()]
    session.breaks.standing.clear()
    session.conditions.clear()
    session.printer.note(messages.DELETED.format(marks=", ".join(gone)) if gone else messages.NO_MARKS)


def go_to_place(name: str, forwards: bool) -> Answering:
    """The answer to `until`, `goto` and `reverse-until` with a place."""

    def answer(session: Session, words: list[str]) -> None:
        place, position = place_of(session, words[0]), session.current_position().position
        ahead = [visit for visit in place.positions if (visit > position if forwards else visit < position)]
        if not ahead:
            raise UsageError(messages.NOT_REACHED.format(place=words[0], way="later" if forwards else "earlier"))
        arrive(session, f"{name} {words[0]}", session.go(ahead[0] if forwards else ahead[-1]))
        session.is_before = True

    return answer


def answer_history(session: Session, words: list[str]) -> None:
    """Lists the positions, up to the session's, at which goroutines reached a place."""
    recording, place, position = session.text(), place_of(session, words[0]), session.current_position().position
    past = [visit for visit in place.positions if visit <= position]
    rows = [row_of(recording, visit) for visit in past[-MOST:]]
    rest = [f"{len(past) - len(rows)} earlier"] if len(rows) < len(past) else []
    rest += [f"{len(place.positions) - len(past)} later"] if len(past) < len(place.positions) else []
    session.printer.table(Table("history", rows, "; ".join(rest)))


def row_of(recording: Recording, position: int) -> Row:
    step = recording.step(position + 1)
    values = {"position": position, "goroutine": step.argument("g"), "step": step.number, "does": str(step)}
    return Row(values, f"{position:>7}  goroutine {step.argument('g')}, before step {step.number}: {step}")


def answer_list(session: Session, words: list[str]) -> None:
    """Shows the source around a line, or around the first recorded line of a function."""
    if found := OF_A_LINE.fullmatch(words[0]):
        return show_source(session, found[1], int(found[2]))
    calls = [call for call in calls_of(session.text()) if is_function(call, words[0])]
    first = min(calls, key=lambda call: (call.file, call.line))
    show_source(session, first.file, first.line)


def show_source(session: Session, file: str, line: int) -> None:
    recording = session.text()
    known = next((call.file for call in calls_of(recording) if is_file(call.file, file)), None)
    if known is None:
        raise UsageError(messages.NO_CALL_IN.format(file=file))
    path = source_of(known, session.path)
    lines = text_around(recording, path, line)
    session.printer.note("\n".join(lines) if lines else messages.NO_SOURCE.format(place=f"{known}:{line}"))


def calls_of(recording: Recording) -> list[SourceCall]:
    return [call for stack in recording.lines.stacks.values() for call in stack.calls]


def stack_at(session: Session) -> Stack:
    """The stack of the chosen goroutine. Without a chosen goroutine, the stack of the last step, or, if a move stopped
    at a line or function of the program, the stack of the next step."""
    if session.goroutine:
        found = stack_of(session.text(), session.goroutine, session.current_position().position)
        return found.stack if found else Stack((), None)
    return session.text().lines.of(session.current_position().position + session.is_before)


def frame_by(move: int) -> Answering:
    """The answer to `frame [N]`, `up` and `down`: it shows a call of the stack, and the source around that call."""

    def answer(session: Session, words: list[str]) -> None:
        stack = stack_at(session)
        if not stack.calls:
            raise UsageError(messages.NO_STACK)
        wanted: int | None = own_frame(stack) if session.frame is None else session.frame
        if not move and words:
            wanted = int(words[0]) if words[0].isdecimal() and len(words[0]) < 6 else None
        elif wanted is not None:
            wanted += move
        if wanted is None or not 0 <= wanted < len(stack.calls):
            raise UsageError(messages.FRAMES.format(last=len(stack.calls) - 1))
        show_frame(session, stack, wanted)

    return answer


def own_frame(stack: Stack) -> int:
    """The innermost frame of the program; 0 if the stack has no frame of the program."""
    return next((at for at, call in enumerate(stack.calls) if call.of == OF_THE_PROGRAM), 0)


def show_frame(session: Session, stack: Stack, wanted: int | None) -> None:
    """Chooses a frame, by default the program's own, and shows the frame with the source around it."""
    session.frame = own_frame(stack) if wanted is None else wanted
    call = stack.calls[session.frame]
    session.printer.note(f"frame {session.frame}: {call.function} at {call.place()}")
    show_source(session, call.file, call.line)


OF_PLACES: dict[str, Answering] = {
    "break": break_at(False),
    "tbreak": break_at(True),
    "delete": answer_delete,
    "until": go_to_place("until", True),
    "goto": go_to_place("goto", True),
    "reverse-until": go_to_place("reverse-until", False),
    "history": answer_history,
    "list": answer_list,
}
OF_FRAMES: dict[str, Answering] = {"frame": frame_by(0), "up": frame_by(1), "down": frame_by(-1)}
