"""The work on a request. The adapter reports a long request to the editor. A move is answered before it ends, because
editors offer a pause only while the program runs. An editor that can show progress gets progress reports."""

from contextlib import suppress
from threading import Event, Lock, Thread

from netrev.messages import editors as texts

from .message_reader import MOVES, progress_of
from .view.messages import Body, EditorStreams, Request

LATE = 0.3  # the seconds after which a request counts as long
AGAIN = 0.5  # seconds between two progress reports
TITLES = {"launch": texts.READING, "attach": texts.JOINING, "evaluate": "nrdb answers"}


class Work:
    """The work on one request. If the work takes a long time, a thread tells the editor, because the main thread
    writes nothing until the work is done."""

    def __init__(self, wire: EditorStreams, request: Request, shows_progress: bool):
        self._wire, self._request, self._shows_progress = wire, request, shows_progress
        self._lock, self._done = Lock(), Event()
        self._is_answered = self._is_shown = False
        self._position, self._length = 0, 0  # the progress, if known
        Thread(target=self._tell, daemon=True).start()

    def tells(self, position: int, length: int) -> None:
        """Records the progress of the work. It does nothing else, because the work may be stopped anywhere."""
        self._position, self._length = position, length

    def responds(self, body: Body) -> None:
        """Answers a request that succeeded."""
        if not self._ends():
            self._wire.respond(self._request, body)

    def refuses(self, why: str) -> bool:
        """Answers a request that failed. Returns whether the request had been answered already, so that the failure
        must still be reported."""
        if self._ends():
            return True
        self._wire.refuse(self._request, why)
        return False

    def _ends(self) -> bool:
        """Stops the progress reports. Returns whether the request has been answered already."""
        with self._lock:
            self._done.set()
            if self._is_shown:
                self._event("progressEnd")
            return self._is_answered

    def _tell(self) -> None:
        """Runs in the thread. Tells the editor that the work takes a long time, and reports its progress."""
        if self._done.wait(LATE):
            return
        with self._lock, suppress(OSError, ValueError):  # (if the editor has gone, the reading thread notices)
            self._is_late()
        last_position = 0
        while self._is_shown and not self._done.wait(AGAIN):
            with self._lock, suppress(OSError, ValueError):
                if self._position != last_position and not self._done.is_set():
                    last_position = self._position
                    message, part = f"at {last_position} of {self._length}", 100 * last_position // max(self._length, 1)
                    self._event("progressUpdate", message=message, percentage=part)

    def _is_late(self) -> None:
        if self._done.is_set():
            return
        if self._shows_progress:
            self._is_shown = True
            title = TITLES.get(self._request.command, texts.SEARCHING)
            self._event("progressStart", title=title, requestId=self._request.number, cancellable=True)
        if self._request.command in MOVES:
            self._is_answered = True
            self._wire.respond(self._request, body_of_move(self._request.command))

    def _event(self, name: str, **body: object) -> None:
        self._wire.event(name, progressId=progress_of(self._request), **body)


def body_of_move(command: str) -> Body:
    """The body of the response to a move."""
    return {"allThreadsContinued": True} if command == "continue" else {}
