"""The changes of a recording, which a thread reads from netrev while the session goes on. A caller waits if it needs
changes that haven't arrived."""

import subprocess
import time
from collections.abc import Callable, Iterator
from contextlib import contextmanager
from threading import Condition, Thread, current_thread

from netrev.messages import session as messages
from netrev.recording.step_changes import IncompleteChangesError, RecordedChanges, StepChanges
from netrev.system.interrupts import Interrupts

from .netrev import READ, SILENCE
from .scout import ScoutUnavailableError

LOOKS = 0.05  # seconds between two checks for Ctrl-C
PAUSE = 0.001  # seconds to wait for more output of netrev
PIPE = 2**20  # bytes


class ArrivingChanges(RecordedChanges):
    """The output of `netrev changes FILE`. The first request starts this command. If that run fails, the request raises
    Lost, and the next request starts another run."""

    def __init__(self, program: str, path: str, interrupts: Interrupts, tell: Callable[[str], None]) -> None:
        super().__init__()
        self._words, self._interrupts, self._tell = [program, "changes", path], interrupts, tell
        self._process: "subprocess.Popen[bytes] | None" = None
        self._reader: Thread | None = None
        self._arrival = Condition()
        self._wanted: int | None = 0  # the position up to which a caller waits for changes; None for all
        self._failure = ""

    def prepare(self) -> None:
        if self._is_begun():
            return
        try:
            process = subprocess.Popen(
                self._words,
                stdin=subprocess.DEVNULL,
                stdout=subprocess.PIPE,
                bufsize=0,
                pipesize=PIPE,
                start_new_session=True,
            )
        except OSError as error:
            raise ScoutUnavailableError(f"{error.filename}: {error.strerror}") from None
        self._process, self._reader = process, Thread(target=self._read, args=[process], daemon=True)
        self._reader.start()

    def drop(self) -> None:
        if self._process is not None:
            self._process.kill()
        if self._reader is not None and self._is_begun():
            self._reader.join(SILENCE)

    def _is_begun(self) -> bool:
        """Whether a thread has started to read. If Ctrl-C prevented it from starting, the next request starts another
        thread."""
        return self._reader is not None and self._reader.ident is not None

    def _wait(self, position: int | None) -> None:
        if self._is_settled(position) and not self._failure:
            return
        with self._interrupts.shielded():
            self.prepare()
        until, self._wanted = time.monotonic() + SILENCE, position
        while not self._is_settled(position):
            self._interrupts.check()
            with self._arrival:
                self._arrival.wait_for(lambda: self._is_settled(position), LOOKS)
            if until and time.monotonic() > until:
                self._tell(messages.COMPUTING_CHANGES)
                until = 0
        if why := self._failure:
            super().__init__()
            self._process, self._reader, self._failure = None, None, ""
            raise ScoutUnavailableError(f"{' '.join(self._words)}: {why}")

    def texts(self) -> Iterator[tuple[str, str, str]]:
        self._wait(None)
        with self._lost_where_wrong():
            for piece in range(len(self._lines.pieces)):
                self._interrupts.check()
                yield from self._lines.texts(piece, piece + 1)

    def between(self, first: int, last: int) -> Iterator[tuple[int, list[tuple[str, str]]]]:
        with self._lost_where_wrong():
            yield from super().between(first, last)

    def by_steps(self) -> Iterator[StepChanges]:
        for changes in super().by_steps():
            self._interrupts.check()
            yield changes

    def _hold(self) -> None:
        with self._lost_where_wrong():
            super()._hold()

    @contextmanager
    def _lost_where_wrong(self) -> Iterator[None]:
        """Context in which a line that isn't a change counts as a failure of netrev."""
        try:
            yield
        except IncompleteChangesError as wrong:
            raise ScoutUnavailableError(f"{' '.join(self._words)}: {wrong}") from None

    def _hold_piece(self) -> None:
        with self._interrupts.shielded():
            super()._hold_piece()
        self._interrupts.check()

    def _is_settled(self, position: int | None) -> bool:
        return bool(self._failure) or (self.has(position) and not self._fault)

    def _read(self, process: "subprocess.Popen[bytes]") -> None:
        """Reads netrev's output in this thread, until another thread takes its place."""
        assert process.stdout
        failure = ""
        try:
            while self._is_current() and (piece := process.stdout.read(READ)):
                self.take(piece)
                if self.has(self._wanted):
                    with self._arrival:
                        self._arrival.notify_all()
                if len(piece) < READ:
                    time.sleep(PAUSE)
        except IncompleteChangesError as wrong:
            failure = str(wrong)
        if failure or not self._is_current():
            process.kill()
        status = process.wait()
        process.stdout.close()
        if not self._is_current():
            return
        if not failure and (not self.is_whole or self._fault):
            failure = self._fault or messages.ENDED_WITH.format(status=status)
        with self._arrival:
            self._failure = failure
            self._arrival.notify_all()

    def _is_current(self) -> bool:
        return self._reader is current_thread()
