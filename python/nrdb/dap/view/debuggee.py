"""The recording that an editor debugs: its session, and the facts about a position."""

from collections.abc import Iterator
from contextlib import contextmanager
from pathlib import Path

from netrev.connection.arriving_changes import ArrivingChanges
from netrev.connection.collected_output import Collecting
from netrev.connection.errors import MismatchedRecordingError
from netrev.connection.netrev import Netrev, NetrevProcess, ServedSession
from netrev.connection.scout import Scout
from netrev.connection.shapes import POSITION
from netrev.messages import session as messages
from netrev.recording.recording import NotARecordingError, Recording, Step
from netrev.recording.suspect_list import SuspectList
from netrev.run.index import run_of
from netrev.session.refusals import explained, fault_of
from netrev.session.session import Session
from netrev.system.interrupts import Interrupts
from netrev.text.vocabulary import ObjectKind
from nrdb.prompt.answers import ANSWERS

from .messages import UnanswerableError

FAR = 10_000  # steps
Maker = int | None  # who makes a step: a goroutine's number, or None for the network and the clock


class Debuggee:
    """The session of a recording that an editor debugs, and the recording's text."""

    def __init__(self, session: Session, recording: Recording, printer: Collecting, path: str):
        self.session, self.recording, self.printer = session, recording, printer
        self.path = Path(path).resolve()

    @property
    def position(self) -> int:
        """The session's position."""
        return self.session.known_position

    @property
    def length(self) -> int:
        """The number of steps of the recording."""
        return self.recording.length

    def step(self, number: int) -> Step | None:
        """The step with that number; None if no such step exists."""
        return self.recording.step_or_none(number)

    def step_at(self, line: int) -> Step | None:
        """The step on a line, or else the first step after the line."""
        low, high = 1, self.length + 1
        while low < high:
            middle = (low + high) // 2
            low, high = (middle + 1, high) if self.recording.step(middle).line < line else (low, middle)
        return self.step(low)

    def maker(self, number: int) -> Maker:
        """The goroutine that makes a step; None if the network or the clock makes it."""
        step = self.step(number)
        return step.argument("g") if step else None

    def maker_here(self) -> Maker:
        """The goroutine that makes the next step; at the end of the recording, the goroutine that made the last step.
        None for the network and the clock."""
        return self.maker(min(self.position + 1, self.length))

    def last_step_of(self, maker: Maker) -> int:
        """The last step up to the position that this goroutine (None: the network or the clock) made; 0 if it has made
        no step, or if the step is far away."""
        if maker is not None:
            return run_of(self.recording).last_step(maker, self.position)
        numbers = range(self.position, max(self.position - FAR, 0), -1)
        return next((number for number in numbers if self.maker(number) is None), 0)

    def source(self) -> dict[str, str]:
        """The recording's text, as the protocol names it."""
        return {"name": self.path.name, "path": str(self.path)}

    def is_at(self, path: str) -> bool:
        """Whether a path leads to the recording."""
        try:
            return Path(path).resolve() == self.path
        except (OSError, RuntimeError, ValueError):  # (the text isn't a path, or the path's links form a loop)
            return False

    def numbers(self, of: ObjectKind) -> list[str]:
        """The numbers of the objects that exist at the position."""
        return [str(number) for number in range(self.session.world().count(of))]

    def say_nothing_yet(self) -> None:
        """Drops output that hasn't been shown."""
        self.printer.take()

    def others_moved(self) -> int | None:
        """The new position, if another user has moved a shared session; None otherwise."""
        if not isinstance(self.session.netrev, ServedSession):
            return None
        now = self.session.current_position().position
        if now == self.position:
            return None
        self.session.known_position = now
        return now


@contextmanager
def debuggee(
    program: str, path: str, interrupts: Interrupts, address: tuple[str, int] | None = None
) -> Iterator[Debuggee]:
    """Context with the session of the recording that is debugged: a session of its own, or the shared session at an
    address. Raises UnanswerableError if netrev or nrdb rejects the recording."""
    printer = Collecting()
    try:
        recording = Recording.read(path)
        if address and (fault := fault_of(program, path)):
            raise NotARecordingError(messages.NOT_A_RECORDING.format(path=path, fault=fault))
        netrev: Netrev = (
            ServedSession(address, interrupts, lambda: None) if address else NetrevProcess(program, path, interrupts)
        )
    except OSError as error:
        named = error.filename or (":".join(map(str, address)) if address else path)
        raise UnanswerableError(f"{named}: {error.strerror or error}") from None
    except NotARecordingError as wrong:
        raise UnanswerableError(str(wrong)) from None
    try:
        with begun(program, path, recording, netrev, printer, interrupts) as session:
            yield Debuggee(session, recording, printer, path)
    finally:
        netrev.drop()


@contextmanager
def begun(
    program: str, path: str, recording: Recording, netrev: Netrev, printer: Collecting, interrupts: Interrupts
) -> Iterator[Session]:
    """Context with a session that has begun. The session is closed when the context ends."""
    scout = Scout(lambda: NetrevProcess(program, path, interrupts))
    recording.changes = recorded = ArrivingChanges(program, path, interrupts, printer.note)
    recording.suspects = suspects = SuspectList(program, path, interrupts)
    try:
        session = Session(netrev, recording, scout, printer, interrupts, ANSWERS, recorded=recorded)
        session.program, session.path = program, path
        first = session.ask("info position")
        if not POSITION.fullmatch(first):
            raise UnanswerableError("\n".join([first, *explained(program, path, first)]))
        try:
            session.begin(first)
        except MismatchedRecordingError as wrong:
            raise UnanswerableError(str(wrong)) from None
        yield session
    finally:
        scout.drop()
        recorded.drop()
        suspects.drop()
