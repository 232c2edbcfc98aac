"""Draws the picture in a process of its own, with a netrev of its own, so that the session answers lines in the
meantime. The process first draws the whole run with one part, and then any part that a browser requests."""

import json
import subprocess
import sys
from collections import OrderedDict
from collections.abc import Callable
from concurrent.futures import Future
from contextlib import suppress
from queue import Full, Queue
from threading import Thread

from netrev.connection.arriving_changes import ArrivingChanges
from netrev.connection.netrev import NetrevProcess
from netrev.connection.scout import Scout, ScoutUnavailableError
from netrev.connection.shapes import LineRefusedError
from netrev.messages import browsers as texts
from netrev.recording.recording import NotARecordingError, Recording
from netrev.recording.suspect_list import SuspectList
from netrev.session.session import UsageError
from netrev.system.immediate_exit import heeded_signals
from netrev.system.interrupts import Interrupts
from netrev.timeline.cell_runs import Window
from netrev.timeline.page import plain_json
from netrev.timeline.page_contents import PageSources, collected, part_of

from .page_server import UnavailableError

CODE = f"import sys; sys.path[:0] = {sys.path!r}; from nrdb.web.painter import paint; paint(*sys.argv[1:])"
MOST_WAITING = 16
PATIENCE = 2  # seconds
MOST_KEPT = 6  # the maximum number of stored parts
TELLS, FAILS = b"T", b"F"  # the kinds of lines of the process that aren't pictures: progress, or an error

Wanted = Window | None  # None: the whole run, with the part that the page shows first


class Painter:
    """Makes pictures of a recording in another process. `tell` is called with the progress of the first picture."""

    def __init__(self, program: str, path: str, tell: Callable[[str], None]) -> None:
        self._words = [sys.executable, "-c", CODE, program, path]
        self._tell = tell
        self._wanted: "Queue[tuple[Wanted, Future[bytes]]]" = Queue(MOST_WAITING)
        self._pictures: "OrderedDict[Wanted, bytes]" = OrderedDict()
        self._process: "subprocess.Popen[bytes] | None" = None
        self._thread: Thread | None = None

    def ask(self, window: Wanted) -> "Future[bytes]":
        """The picture as JSON. The Future raises UnavailableError if the picture can't be made."""
        wanted: "Future[bytes]" = Future()
        try:
            self._wanted.put_nowait((window, wanted))
        except Full:
            raise UnavailableError(texts.TOO_MANY_PICTURES.format(most=MOST_WAITING)) from None
        if self._thread is None:
            self._thread = Thread(target=self._run, daemon=True)
            self._thread.start()
        return wanted

    def drop(self) -> None:
        """Ends the process, which first ends its own netrevs."""
        if self._process is not None:
            self._process.terminate()
            try:
                self._process.wait(PATIENCE)
            except subprocess.TimeoutExpired:
                self._process.kill()
                self._process.wait()

    def _run(self) -> None:
        while True:
            window, wanted = self._wanted.get()
            if not wanted.set_running_or_notify_cancel():  # (the browser that requested it has gone)
                continue
            try:
                wanted.set_result(self._picture(window))
            except UnavailableError as why:
                wanted.set_exception(why)

    def _picture(self, window: Wanted) -> bytes:
        """A picture from the cache or from the process."""
        if window in self._pictures:
            self._pictures.move_to_end(window)
            return self._pictures[window]
        picture = self._pictures[window] = self._request(window)
        parts = [part for part in self._pictures if part is not None]
        for part in parts[: max(len(parts) - MOST_KEPT, 0)]:
            del self._pictures[part]
        return picture

    def _request(self, window: Wanted) -> bytes:
        process = self._process
        if process is None or process.poll() is not None:
            process = self._process = subprocess.Popen(
                self._words, stdin=subprocess.PIPE, stdout=subprocess.PIPE, start_new_session=True
            )
        assert process.stdin and process.stdout
        with suppress(BrokenPipeError):
            positions = None if window is None else [window.first, window.last]
            process.stdin.write(f"{json.dumps(positions)}\n".encode("ascii"))
            process.stdin.flush()
        while (line := process.stdout.readline()).startswith(TELLS):
            self._tell(json.loads(line[1:]))
        if not line:
            raise UnavailableError(texts.TIMELINE_ENDED)
        if line.startswith(FAILS):
            raise UnavailableError(json.loads(line[1:]))
        return line


# ---- in the painter's process


def paint(program: str, path: str) -> None:
    """Makes pictures until the input ends. Each line of the input requests a picture, and each picture is written as a
    line of the output."""
    heeded_signals()
    interrupts = Interrupts()
    scout = Scout(lambda: NetrevProcess(program, path, interrupts))
    changes = ArrivingChanges(program, path, interrupts, lambda _: None)
    suspects = SuspectList(program, path, interrupts)
    try:
        changes.prepare()
        recording = Recording.read(path)
        recording.changes, recording.suspects = changes, suspects
        shown = PageSources(recording, path, scout, changes, 0, [], lambda text: say(TELLS, text))
        for line in sys.stdin:
            answer(shown, line)
    except (BrokenPipeError, KeyboardInterrupt):
        pass
    except (ScoutUnavailableError, NotARecordingError, OSError) as why:
        say(FAILS, str(why))
    finally:
        scout.drop()
        changes.drop()
        suspects.drop()


def answer(shown: PageSources, line: str) -> None:
    """Makes the picture that a line requests, or reports why it can't."""
    wanted = json.loads(line)
    try:
        data = collected(shown) if wanted is None else part_of(shown, Window(*wanted))
    except (ScoutUnavailableError, UsageError, LineRefusedError) as why:
        return say(FAILS, str(why))
    sys.stdout.write(plain_json(data) + "\n")
    sys.stdout.flush()


def say(sort: bytes, text: str) -> None:
    """Writes a line that isn't a picture."""
    sys.stdout.write(f"{sort.decode()}{json.dumps(text)}\n")
    sys.stdout.flush()
