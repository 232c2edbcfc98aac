"""Runs the page's session in the calling thread. It answers lines one after the other, checks whether other users have
moved the session, and reports when netrev is gone."""

import json
import queue
import secrets
import time
from collections.abc import Callable
from concurrent.futures import Future
from pathlib import Path

from netrev.connection.errors import MismatchedRecordingError, unexpected
from netrev.connection.netrev import Netrev, NetrevEndedError
from netrev.connection.output import Printer
from netrev.connection.shapes import LineRefusedError, StrangeReplyError
from netrev.messages import browsers as texts
from netrev.recording.recording import NotARecordingError
from netrev.session.session import Session
from netrev.system.interrupts import SearchInterruptedError, SessionAbandonedError
from netrev.timeline.cell_runs import Window
from netrev.timeline.page_contents import MOST
from nrdb.prompt.completion import completions

from .document import document
from .page_server import LOOPBACK, Server, UnavailableError, listening
from .painter import Painter, Wanted
from .requests import Gate
from .shared_session import Shared
from .streams import Streams

DONE, FAILED = 0, 3
MOST_WAITING = 32  # the maximum number of lines that wait for earlier ones
EVERY = 1.0  # seconds between two checks for other users' moves
LATEST = 30.0  # the maximum number of seconds between attempts to reconnect to netrev; the first intervals are shorter
GONE = "netrev has ended"
Opening = Callable[[Printer], Netrev]


def serve_page(session: Session, port: int, opened: Opening) -> int:
    """Serves the page of a session until Ctrl-C, and returns the exit status. `opened` opens another connection to the
    same netrev."""
    streams = Streams(Path(session.path).name if session.path else "")
    try:
        at = listening(port)
    except OSError as error:
        session.printer.note(f"port {port}: {error.strerror}")
        return FAILED
    token = secrets.token_urlsafe(32)
    number = at.getsockname()[1]
    painter = (
        Painter(session.program, session.path, lambda text: streams.tell("picture", says=text))
        if session.path
        else None
    )
    running = Running(Shared.over(session, streams), opened, streams, painter)
    server = Server(at, Gate(number, token), document(), streams, running)
    server.start()
    try:
        session.printer.note(texts.ADDRESS.format(address=f"http://{LOOPBACK}:{number}/?token={token}"))
        running.run()
    except KeyboardInterrupt:
        pass
    finally:
        server.stop()
        running.session.netrev.drop()
        if painter:
            painter.drop()
    return DONE


class Running:
    """The queued lines, and the session that answers them."""

    def __init__(self, session: Shared, opened: Opening, streams: Streams, painter: Painter | None):
        self.session, self._painter = session, painter
        self._opened, self._streams = opened, streams
        self._work: queue.Queue[Callable[[], None]] = queue.Queue(MOST_WAITING)
        self._gone = ""
        self._pause, self._next_try = EVERY, 0.0

    # --- for the server's thread

    def post(self, user: str, line: str) -> None:
        """Queues a line. The answer follows in events. Raises UnavailableError if netrev is gone or too many lines are
        waiting."""
        if self._gone:
            raise UnavailableError(self._gone)
        self._take(lambda: self._answer(user, line))

    def complete(self, line: str) -> "Future[bytes]":
        """The completions of the last word of a line, as JSON; raises UnavailableError if too many lines are waiting."""
        wanted: "Future[bytes]" = Future()

        def answer() -> None:
            found: list[str] = []
            if not self._gone:
                self._guarded(lambda: found.extend(completions(line, self.session)))
            if wanted.set_running_or_notify_cancel():
                wanted.set_result(json.dumps(found).encode("ascii"))

        self._take(answer)
        return wanted

    def timeline(self) -> "Future[bytes]":
        """The timeline's data, as JSON; raises UnavailableError if it can't be made."""
        return self._picture(None)

    def part(self, first: int, last: int) -> "Future[bytes]":
        """The timeline's data of these positions, as JSON; raises UnavailableError if they can't be made."""
        if not 0 <= first <= last <= min(self.session.length, first + MOST):
            raise UnavailableError(texts.PART_IS_LARGE.format(most=MOST, length=self.session.length))
        return self._picture(Window(first, last))

    def _picture(self, window: Wanted) -> "Future[bytes]":
        if self._painter is None:
            raise UnavailableError(texts.TIMELINE_NEEDS_RECORDING)
        return self._painter.ask(window)

    def _take(self, work: Callable[[], None]) -> None:
        try:
            self._work.put_nowait(work)
        except queue.Full:
            raise UnavailableError(texts.TOO_MANY_LINES.format(most=MOST_WAITING)) from None

    # --- for the session's thread

    def run(self) -> None:
        """Answers requests until Ctrl-C."""
        self._look()
        while True:
            self.turn()

    def turn(self) -> None:
        """Answers the next line. Checks for other users' moves if a browser listens and no line has come for a while."""
        try:
            work = self._work.get(timeout=EVERY)
        except queue.Empty:
            if self._streams.listening():
                self._look()
            return
        work()

    def _answer(self, user: str, line: str) -> None:
        """Answers a line, or reports that the line can't be answered."""
        self._streams.tell("line", who=user, line=line)
        if not self._gone:
            self._guarded(lambda: self.session.run_for(user, line))
        if self._gone:
            self._streams.tell("unanswered", who=user, line=line, why=self._gone)
        else:
            self._streams.tell("answered", who=user, line=line)

    def _look(self) -> None:
        """Checks for other users' moves. If netrev is gone, checks whether netrev is back."""
        if not self._gone:
            self._guarded(self.session.refresh)
        elif time.monotonic() >= self._next_try:
            self._try_again()

    def _guarded(self, does: Callable[[], None]) -> None:
        """Runs a function that uses netrev; netrev may end in the meantime."""
        try:
            does()
        except NotARecordingError as wrong:
            self.session.printer.note(str(wrong))
        except (NetrevEndedError, StrangeReplyError) as why:
            self._lose(str(why) if isinstance(why, StrangeReplyError) else GONE)
        except (SessionAbandonedError, SearchInterruptedError, OSError):
            raise
        except Exception as error:
            self.session.printer.note(unexpected(error))

    def _lose(self, why: str) -> None:
        """Records that netrev is gone."""
        self.session.netrev.drop()
        self._gone = texts.NETREV_IS_GONE.format(why=why)
        self._next_try = time.monotonic() + self._pause
        self._streams.tell("netrev", there=False, says=self._gone)

    def _try_again(self) -> None:
        """Continues with another netrev, if nrdb can start or reach one."""
        self._pause = min(2 * self._pause, LATEST)
        self._next_try = time.monotonic() + self._pause
        try:
            self.session.begin_anew(self._opened(self.session.printer))
        except OSError:
            return
        except (NetrevEndedError, MismatchedRecordingError, LineRefusedError, StrangeReplyError) as why:
            self._lose(GONE if isinstance(why, NetrevEndedError) else str(why))
            return
        self._gone, self._pause = "", EVERY
        self._streams.tell("netrev", there=True, says=texts.NETREV_IS_BACK)
