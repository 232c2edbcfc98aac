"""A slow netrev: events happen in the thread that waits for it."""

import signal
import threading
import time
from collections.abc import Callable

from netrev.connection.netrev import NetrevProcess
from netrev.system.interrupts import Interrupts

from .interrupts import MEANWHILE, undisturbed

MOMENT = 0.002  # seconds


class Slow(NetrevProcess):
    """A netrev that can be stopped while events happen. `happens` is called before lines are sent, and before each
    line that is read."""

    def __init__(self, program: str, path: str, interrupts: Interrupts, happens: Callable[["Slow"], None]):
        super().__init__(program, path, interrupts)
        self._happens = happens
        self._waits = False  # whether a reply is awaited and hasn't arrived
        self._meanwhile: threading.Thread | None = None

    def _send(self, text: bytes) -> None:
        self._waits = bool(text)
        self._happens(self)
        super()._send(text)

    def _next(self, sent: str) -> str | None:
        self._waits = not self._lines.has_one()
        self._happens(self)
        return super()._next(sent)

    def while_stopped(self, *happening: Callable[[], None]) -> None:
        """Stops netrev, lets these events happen one after another, and continues it. If no reply is awaited, or netrev
        is already stopped, they happen at once."""
        if not self._waits or (self._meanwhile and self._meanwhile.is_alive()):
            for happens in happening:
                happens()
            return
        with undisturbed():
            self._process.send_signal(signal.SIGSTOP)
            self._meanwhile = threading.Thread(target=self._go_on_behind, args=happening, name=MEANWHILE)
            self._meanwhile.start()

    def _go_on_behind(self, *happening: Callable[[], None]) -> None:
        for happens in happening:
            time.sleep(MOMENT)
            happens()
        time.sleep(MOMENT)
        self._process.send_signal(signal.SIGCONT)

    def kill(self) -> None:
        """Kills the process, and does nothing else."""
        with undisturbed():
            self._process.kill()

    def close(self) -> int | None:
        with undisturbed():
            if self._meanwhile:
                self._meanwhile.join()
        return super().close()
