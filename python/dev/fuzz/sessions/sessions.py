"""A session of nrdb in this process, with a netrev process of its own."""

from collections.abc import Iterator
from contextlib import contextmanager
from pathlib import Path

from netrev.connection.arriving_changes import ArrivingChanges
from netrev.connection.netrev import NetrevProcess
from netrev.connection.output import Printer
from netrev.connection.scout import Scout
from netrev.recording.recording import Recording
from netrev.session.session import Session
from netrev.system.interrupts import Interrupts
from nrdb.prompt.answers import ANSWERS


@contextmanager
def session_over(program: str, path: Path, printer: Printer) -> Iterator[Session]:
    """A session over a recording that netrev accepts."""
    interrupts = Interrupts()

    def netrev() -> NetrevProcess:
        return NetrevProcess(program, str(path), interrupts)

    recorded = ArrivingChanges(program, str(path), interrupts, printer.note)
    session = Session(
        netrev(), Recording.read(str(path)), Scout(netrev), printer, interrupts, ANSWERS, recorded=recorded
    )
    session.program, session.path = program, str(path)
    try:
        session.begin(session.ask("info position"))
        yield session
    finally:
        session.looks().drop()
        recorded.drop()
        session.netrev.drop()
