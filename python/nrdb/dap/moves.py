"""The editor's moves, their destinations, and the reasons for their stops. Each move sends one or more lines to
netrev."""

from collections.abc import Callable, Sequence
from typing import NamedTuple

from netrev.connection.netrev import Reply
from netrev.connection.shapes import MARK, ListedMark, Move, move_of
from netrev.findings.causes import root_sentence
from netrev.recording.recording import Recording
from netrev.system.interrupts import Interrupts, SearchInterruptedError
from netrev.views.calls import NoDestinationError, finish_goal

from .go_lines import GoLines
from .logpoints import LogPoints
from .marks import Marks
from .view.debuggee import Debuggee, Maker
from .view.filters import Failure, Filters
from .view.messages import UnanswerableError

PIECE = 100_000  # the maximum number of steps in one netrev command; a move checks for a pause after each command
AT_THE_END = "the recording's end"
MOST_STEPS = 20_000  # in a longer recording, a stop at the end doesn't say what all goroutines wait for


class Stop(NamedTuple):
    """The reason for a stop: the protocol's name, a sentence for the user, and the marks that were hit."""

    reason: str
    says: str
    marks: tuple[int, ...] = ()


def text_of(stop: Stop, recording: Recording) -> str:
    """The text of a stop. For an exception, it is the exception's description; at the end, the first failure, or what
    all goroutines wait for. The text is empty for a long recording, because an editor waits for the answer."""
    if stop.reason == "exception":
        return stop.says
    return root_sentence(recording) if stop.says == AT_THE_END and recording.length <= MOST_STEPS else ""


class Moves:
    """Moves of a session. A move doesn't stop at a mark whose condition is false. A pause stops a move at the position
    that netrev has reached. `tells` is called with the progress of a long move."""

    def __init__(
        self,
        debuggee: Debuggee,
        marks: Marks,
        filters: Filters,
        go_lines: GoLines,
        logpoints: LogPoints,
        interrupts: Interrupts,
    ):
        self._debuggee, self._session, self._interrupts = debuggee, debuggee.session, interrupts
        self._marks, self._filters, self._go_lines, self._logpoints = marks, filters, go_lines, logpoints
        self.tells: Callable[[int, int], None] = lambda position, length: None

    def step(self, line: str) -> Stop:
        """Makes one step in either direction: `stepi` or `reverse-stepi`."""
        self._face_forwards()
        reply = self._session.ask(line)
        move = move_of(line, reply)
        return self._arrived(line, reply, move, [], self._end_or("step", move))

    def goto(self, position: int, reason: str = "goto") -> Stop:
        """Goes to a position."""
        why = Stop(reason, AT_THE_END if position == self._debuggee.length else f"at {position}")
        if position == self._debuggee.position:
            return why
        try:
            reply = self._go(position)
        except SearchInterruptedError:
            return self._paused([])
        return self._arrived(f"goto {position}", reply, move_of("goto", reply), [], why)

    def next_of(self, maker: Maker) -> Stop:
        """Makes the step that a goroutine, or the network, is about to make, and goes on to the position just before
        its next step."""
        numbers = range(self._debuggee.position + 2, self._debuggee.length + 1)
        try:
            with self._interrupts.at_once():
                found = next((number for number in numbers if self._debuggee.maker(number) == maker), None)
        except SearchInterruptedError:
            return self._paused([])
        return self.run(True, self._debuggee.length if found is None else found - 1)

    def out_of(self, goroutine: int) -> Stop:
        """Runs until a goroutine's call has ended or, between calls, until the goroutine has left the program's
        function. Raises UnanswerableError if that doesn't happen."""
        try:
            with self._interrupts.at_once():
                goal = finish_goal(self._debuggee.recording, goroutine, self._debuggee.position)
        except NoDestinationError as why:
            raise UnanswerableError(str(why)) from None
        except SearchInterruptedError:
            return self._paused([])
        return self.run(True, goal.position)

    def run(self, forwards: bool, target: int | None = None) -> Stop:
        """Goes to the nearest later (or, backwards, earlier) position at which a mark is hit or a filter
        stops. The move goes no further than the target, if given, or the end."""
        begun = self._debuggee.position
        marks_before = self._session.netrev.marks()
        try:
            stop = self._run(forwards, target, marks_before)
        except SearchInterruptedError:
            stop = self._paused(marks_before)
        for message in self._logpoints.messages(begun, self._debuggee.position):
            self._session.printer.note(message)
        return stop

    def _run(self, forwards: bool, target: int | None, marks_before: Sequence[ListedMark]) -> Stop:
        with self._interrupts.at_once():
            bound = self._bound(forwards, target)
        line = "continue" if forwards else "reverse-continue"
        self._face_forwards()
        while True:
            reply, move = self._searched(line, forwards, bound)
            if bound is not None and (move.position - bound) * (1 if forwards else -1) > 0:
                return self._stop_at(bound, target)
            hit = self._marks.holding(move.marks)
            if hit or move.is_end or move.position == bound:
                why = self._why(hit, move, target)
                return self._arrived(line, reply, move._replace(marks=tuple(hit)), marks_before, why)

    def _searched(self, line: str, forwards: bool, bound: int | None) -> tuple[str, Move]:
        """netrev's reply to a search, and the move. The search is made in pieces, each up to a temporary mark that
        isn't reported. Raises SearchInterruptedError if a pause comes between two pieces."""
        here = self._session.current_position().position
        while True:
            self._interrupts.check()
            edge = here + (PIECE if forwards else -PIECE)
            is_last = not 0 < edge < self._debuggee.length or (
                bound is not None and (bound - edge) * (edge - here) <= 0
            )
            edge_mark = None if is_last else MARK.fullmatch(self._session.ask(f"tbreak @{edge + 1}"))
            reply = self._session.ask(line)
            move = move_of(line, reply)
            if edge_mark is None:  # (or 64 marks exist already)
                return reply, move
            if edge_mark[1] not in move.marks:
                self._session.ask(f"delete {edge_mark[1]}")
            if move.marks != (edge_mark[1],):
                return reply, move._replace(marks=tuple(mark for mark in move.marks if mark != edge_mark[1]))
            here = move.position
            self.tells(here, self._debuggee.length)

    def _go(self, position: int) -> str:
        """netrev's reply to the move to a position. Like a search, the move is made in pieces."""
        here = self._session.current_position().position
        while abs(position - here) > PIECE:
            self._interrupts.check()
            here += PIECE if position > here else -PIECE
            move_of("goto", self._session.go(here))
            self.tells(here, self._debuggee.length)
        self._interrupts.check()
        return self._session.go(position)

    def _paused(self, marks_before: Sequence[ListedMark]) -> Stop:
        """The stop at a pause."""
        position = self._session.current_position().position
        if position == self._debuggee.position:
            return Stop("pause", f"at {position}")
        reply = self._session.ask("info position")
        self._session.printer.reply("info position", Reply(reply), "")
        self._session.arrive(position, (), marks_before)
        return Stop("pause", f"at {position}")

    def _bound(self, forwards: bool, target: int | None) -> int | None:
        """The position at which a move stops if no mark stops it earlier; None if only a mark or the end stops it."""
        position = self._debuggee.position
        filtered = self._filters.nearest(position, forwards)
        places = self._go_lines.nearest(position, forwards), self._session.breaks.nearest(position, forwards)
        bounds = [bound for bound in (filtered, *places, target) if bound is not None]
        return (min if forwards else max)(bounds, default=None)

    def _stop_at(self, bound: int, target: int | None) -> Stop:
        """Goes back to the bound that a move has passed."""
        reply = self._session.go(bound)
        move = move_of("goto", reply)
        return self._arrived(f"goto {bound}", reply, move, [], self._why([], move, target))

    def _why(self, hit: Sequence[str], move: Move, target: int | None) -> Stop:
        """The reason for a move's stop."""
        if hit:
            return Stop(self._marks.reason(hit[0]), f"mark {', '.join(hit)}", tuple(map(int, hit)))
        numbers = self._go_lines.at(move.position)
        if numbers or self._session.breaks.hit(move.position):
            return Stop("breakpoint", f"at {move.position}", tuple(numbers))
        if wrong := self._filters.at(move.position):
            return Stop("exception", failure_text(wrong))
        if move.position == target:
            return Stop("step", f"at {move.position}")
        return self._end_or("step", move)

    def _end_or(self, reason: str, move: Move) -> Stop:
        """The stop at an end of the recording; elsewhere, the stop for this reason."""
        if not move.is_end:
            return Stop(reason, f"at {move.position}")
        return Stop("pause", AT_THE_END if move.position else "the recording's start")

    def _face_forwards(self) -> None:
        """Sets the session's direction to forwards, even if the user has reversed it in the console, because the editor
        has commands for both directions."""
        if self._session.current_position().direction == "reverse":
            self._session.ask("set exec-direction forward")

    def _arrived(self, line: str, reply: str, move: Move, marks_before: Sequence[ListedMark], why: Stop) -> Stop:
        """Reports the new position, and returns the reason for the stop."""
        self._session.printer.reply(line, Reply(reply), "")
        self._session.arrive(move.position, move.marks, marks_before)
        return why


def failure_text(wrong: Sequence[Failure]) -> str:
    """Text about the errors."""
    return "; ".join(f"{failure.sort}: {failure.says}" for failure in wrong)
