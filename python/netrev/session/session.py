"""A session. A session answers a line itself, or sends it to netrev. Each move prints the new position."""

from collections.abc import Callable, Mapping, Sequence
from dataclasses import dataclass, field

from netrev.connection.beginnings import report_begin
from netrev.connection.errors import MismatchedRecordingError, UsageError, needed, unexpected
from netrev.connection.netrev import Netrev, NetrevEndedError, Reply, ServedSession
from netrev.connection.output import Printer, SessionPosition, displays_table
from netrev.connection.scout import Scout, ScoutUnavailableError
from netrev.connection.shapes import (
    MARK,
    MOVED,
    POSITION,
    VALUE,
    LineRefusedError,
    ListedMark,
    Position,
    StrangeReplyError,
    go_to,
    is_shaped,
    move_of,
    position_of,
)
from netrev.connection.world import PositionValues
from netrev.messages import session as messages
from netrev.recording.cell_meanings import absent_words, dump_words, in_words
from netrev.recording.recording import NotARecordingError, Recording
from netrev.recording.step_changes import RecordedChanges
from netrev.recording.waits import Name
from netrev.system.interrupts import Interrupts, SearchInterruptedError, SessionAbandonedError
from netrev.text.text_files import lines_of_script
from netrev.text.vocabulary import cell_of
from netrev.views.change_tables import tables_beside

from .attached_commands import Attached
from .commands import COMMANDS, AmbiguousWordError, is_answered_here, parts_of, whole_words
from .line_breaks import Breaks, names_a_place
from .line_hints import hint
from .mark_conditions import Condition
from .queries import answer_run, runs_of

STOPPING = ("continue", "reverse-continue", "resume")
NESTED = 8
Answering = Callable[["Session", list[str]], bool | None]  # False if the session has ended


@dataclass
class Session:
    """The state of a session."""

    netrev: Netrev
    recording: Recording | None
    scout: Scout | None
    printer: Printer
    interrupts: Interrupts
    answers: Mapping[str, Answering]
    displays: list[str] = field(default_factory=list)
    attached: Attached = field(default_factory=Attached)
    known_position: int = 0
    length: int = 0
    depth: int = 0
    program: str = ""  # netrev's program, and the recording's file, if known
    path: str = ""
    breaks: Breaks = field(default_factory=Breaks)  # breaks at lines and functions of the program
    frame: int | None = None  # the stack's frame, counted from the innermost; None for the program's own line
    is_before: bool = False  # whether the stack is that of the next step, because a break stopped the move
    goroutine: Name | None = None  # the chosen goroutine, until the session moves
    recorded: RecordedChanges | None = None  # None if the session has no recording
    errors: int = 0  # the number of nrdb's own errors
    conditions: dict[str, Condition] = field(default_factory=dict)  # conditions of marks, keyed by the marks' numbers
    latest: str = ""  # the number of the mark set last

    def __post_init__(self) -> None:
        self.breaks.is_met = lambda number, at: number not in self.conditions or self.holds(self.conditions[number], at)

    def begin(self, reply: str) -> None:
        """Prints the position that netrev's first reply gives; raises MismatchedRecordingError if the session has a
        different recording."""
        self.known_position, self.length, _ = position_of(reply)
        if self.recording and self.recording.length != self.length:
            raise MismatchedRecordingError(
                messages.OTHER_RECORDING.format(steps=self.recording.length, length=self.length)
            )
        report_begin(self, reply)

    def ask(self, line: str) -> str:
        """The first line of netrev's reply."""
        return self.netrev.ask(line).first

    def current_position(self) -> Position:
        """The position, the number of steps and the direction."""
        return position_of(self.ask("info position"))

    def place(self, position: int) -> SessionPosition:
        """The position, with the steps before and after it."""
        if self.recording is None:
            return SessionPosition(position, self.length, None, None)
        last, then = (self.recording.step_or_none(number) for number in (position, position + 1))
        return SessionPosition(position, self.length, last, then)

    def world(self) -> PositionValues:
        """The objects at the position."""
        return PositionValues(self.netrev, self.text(), self.current_position().position)

    def text(self) -> Recording:
        """The recording; raises UsageError if a session was joined without a recording."""
        return needed(self.recording)

    def looks(self) -> Scout:
        """The second netrev; raises UsageError if a session was joined without a recording."""
        return needed(self.scout)

    def changes(self) -> RecordedChanges:
        """The changes made by each step; raises UsageError if a session was joined without a recording."""
        return needed(self.recorded)

    def run(self, line: str) -> bool:
        """Answers a line. Returns False if the session has ended."""
        return self.guarded(self.attempt, line)

    def play(self, path: str) -> bool:
        """Answers the lines of a file; raises an OSError if the file can't be read. Returns False if the session has
        ended."""
        return self.guarded(self.source, path)

    def guarded(self, answer: Callable[[str], bool], what: str) -> bool:
        """Answers a line or a file, and stops at Ctrl-C. Returns False if the session has ended."""
        try:
            with self.interrupts.held():
                return answer(what)
        except SearchInterruptedError:
            self.attached.pending.clear()
            self.printer.note(messages.SESSION_GOES_ON.format(error=messages.INTERRUPTED))
            return True

    def attempt(self, line: str) -> bool:
        """Answers a line, which may have several commands separated by `;`, and runs the commands of marks that were
        hit. Returns False if the session has ended."""
        if not line.split() or line.lstrip().startswith("#"):
            return True
        for part in parts_of(line):
            if self.attached.takes(part):
                continue
            if not self.attempt_line(part):
                return False
            while self.attached.pending:
                self.interrupts.check()
                self.printer.echo(self.attached.pending[0])
                if not self.attempt_line(self.attached.pending.popleft()):
                    return False
        return True

    def attempt_line(self, line: str) -> bool:
        """Answers a command, or prints its error. Returns False if the session has ended."""
        try:
            self.report_others()
            return self.answer(line)
        except (AmbiguousWordError, ScoutUnavailableError, UsageError) as wrong:
            self.printer.note(str(wrong))
        except LineRefusedError as refused:
            self.printer.note(f"netrev answered: {refused}")
        except (
            NetrevEndedError,
            SessionAbandonedError,
            SearchInterruptedError,
            NotARecordingError,
            OSError,
            StrangeReplyError,
        ):
            raise
        except Exception as error:
            self.errors += 1
            self.printer.note(messages.SESSION_GOES_ON.format(error=unexpected(error)))
        return True

    def answer(self, line: str) -> bool:
        """Answers a line that isn't blank."""
        words = whole_words(line.split())
        if is_answered_here(words) or names_a_place(self.recording, words):
            return self.answers[words[0]](self, words[1:]) is not False
        return self.pass_on(line, words)

    def pass_on(self, line: str, words: list[str]) -> bool:
        """Sends a line to netrev, and shows netrev's reply. A line that netrev knows is sent as it was typed."""
        sent = " ".join(words) if words[0] in COMMANDS else line
        # (a stop deletes the temporary breaks that hit, so the marks are listed before the move)
        marks_before = self.netrev.marks() if words[0] in STOPPING and self.recorded else []
        reply = self.stop_of(sent) if words[0] in STOPPING else self.netrev.ask(sent)
        self.show(line, reply, words[0] == "dump")
        if MOVED.fullmatch(reply.first):
            move = move_of(sent, reply.first)
            self.arrive(move.position, self.holding(move.marks), marks_before)
            self.report_breaks(words[0], move.position)
        elif reply.first.startswith("fault"):
            self.printer.note(hint(words, reply.first))
        elif words == ["info", "breakpoints"]:
            self.note_marks(reply.entries)
        elif mark := MARK.fullmatch(reply.first):
            self.latest = mark[1]
        return reply.first != "bye"

    def note_marks(self, entries: Sequence[str]) -> None:
        """Prints what `info breakpoints` adds to netrev's marks: the lines that run when a mark is hit, the breaks at
        lines and functions of the program, and the conditions of marks."""
        standing = [*(entry.split()[0] for entry in entries), *self.breaks.standing]
        conditions = [condition.says(number) for number, condition in self.conditions.items() if number in standing]
        breaks = [mark.words() for mark in self.breaks.standing.values()]
        for line in (*self.attached.listed(entries), *breaks, *conditions):
            self.printer.note(line)

    def stop_of(self, sent: str) -> Reply:
        """The reply to a move that ends at a stop. The move continues past marks with conditions that aren't true."""
        while True:
            reply = self.back_to_a_break(sent, self.netrev.ask(sent))
            move = move_of(sent, reply.first) if MOVED.fullmatch(reply.first) and sent != "resume" else None
            if move is None or not move.marks or move.is_end:
                return reply
            if self.holding(move.marks) or self.breaks.at(move.position):
                return reply
            self.known_position = move.position
            self.interrupts.check()

    def holding(self, marks: Sequence[str]) -> list[str]:
        """The marks that were hit, except marks with a condition that isn't true at the session's position."""
        return [mark for mark in marks if mark not in self.conditions or self.holds(self.conditions[mark])]

    def holds(self, condition: Condition, position: int | None = None) -> bool:
        """Whether a condition is true at a position, by default at the session's."""
        cell = condition.cell
        value = self.netrev.values([cell])[0] if position is None else self.changes().value(cell, position)
        return condition.is_met(value, self.words_of(cell, value))

    def back_to_a_break(self, sent: str, reply: Reply) -> Reply:
        """The reply to a move. If the move passed a break at a line or function of the program, the session moves back
        to that break, and the result is the reply to this second move."""
        if not self.breaks.standing or not MOVED.fullmatch(reply.first):
            return reply
        position = move_of(sent, reply.first).position
        near = self.breaks.nearest(self.known_position, position > self.known_position)
        if near is None or (near - position) * (position - self.known_position) >= 0:
            return reply
        return Reply(self.go(near))

    def report_breaks(self, name: str, position: int) -> None:
        """Prints the breaks of the program that stop at a position, after a move to a break."""
        for hit in self.breaks.hit(position) if name in STOPPING else ():
            self.is_before = True
            self.printer.note(f"break {hit.number}: {hit.place.spelled}")

    def show(self, line: str, reply: Reply, is_dump: bool = False) -> None:
        """Prints a reply, and the meaning of a value."""
        value = None if reply.entries else VALUE.fullmatch(reply.first)
        words = self.words_of(value[1], value[2], is_dump) if value and is_shaped(value[1], value[2], is_dump) else ""
        self.printer.reply(line, reply, words)

    def words_of(self, cell: str, value: str, is_dump: bool = False) -> str:
        """A value's meaning, as text."""
        if value == "absent":
            return absent_words(cell, self.recording.limits if self.recording else {})
        return dump_words(cell, value) if is_dump else in_words(cell, value) if cell_of(cell.split()) else ""

    def arrive(self, position: int, numbers: Sequence[str] = (), marks_before: Sequence[ListedMark] = ()) -> None:
        """Prints the position after a move, the marks that were hit, and the changes made by the last step. `stood` are
        the marks listed before the move."""
        self.known_position, self.frame, self.is_before, self.goroutine = position, None, False, None
        self.attached.hits(numbers)
        self.printer.place(self.place(position))
        if self.recorded and self.recording:
            for table in tables_beside(self.recorded, self.recording, position, self.hit(numbers, marks_before)):
                self.printer.table(table)
        self.show_displays()

    def hit(self, numbers: Sequence[str], marks_before: Sequence[ListedMark]) -> list[ListedMark]:
        """The marks with these numbers, as they are listed now or were listed before the move."""
        listed = {mark.number: mark for mark in [*marks_before, *self.netrev.marks()]} if numbers else {}
        return [listed[number] for number in numbers if number in listed]

    def show_displays(self) -> None:
        """Shows the displayed cells."""
        if self.displays:
            self.printer.table(displays_table(self.displays, self.netrev.values(self.displays), self.words_of))

    def report_others(self) -> None:
        """In a shared session, prints the position if another user has moved it."""
        if not isinstance(self.netrev, ServedSession):
            return
        reply = self.ask("info position")
        if POSITION.fullmatch(reply) and (now := position_of(reply).position) != self.known_position:
            self.printer.note(messages.SOMEONE_MOVED.format(before=self.known_position, now=now))
            self.printer.place(self.place(now))
            self.known_position = now

    def go(self, position: int) -> str:
        """Goes to the position in either direction, and returns the reply to the last command."""
        return go_to(position, self.ask)

    def source(self, path: str) -> bool:
        """Prints and answers each line of a file; raises an OSError if the file can't be read. Returns False if the
        session has ended."""
        if self.depth == NESTED:
            raise UsageError(messages.NESTED.format(most=NESTED))
        lines = lines_of_script(path)
        self.depth += 1
        try:
            return all(answer_run(self, run) for run in runs_of(self, lines))
        finally:
            self.depth -= 1

    def echoed(self, line: str) -> bool:
        """Prints a line that wasn't typed, and answers the line. Returns False if the session has ended."""
        if line.split():
            self.printer.echo(line)
        return self.attempt(line)
