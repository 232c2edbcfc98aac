"""Runs Go on the user's program with the overlay, waits for it to end or ends it, and finds the logs that it left."""

from __future__ import annotations

import argparse
import contextlib
import os
import pathlib
import re
import shutil
import signal
import subprocess
import tempfile
import time
from collections.abc import Callable
from dataclasses import dataclass
from typing import NamedTuple

from netrev.messages import recorder as messages

from .build_errors import CopiedErrors
from .toolchain import RecorderError

MOST_POINTS = 2**20
POINT_BYTES, STACK_BYTES, SPARE = 64, 4 * 2**20, 64 * 2**20
LOG = re.compile(r"log\.(\d+)(?:\.\d+)?\Z")
LOGS = "log.[0-9]*"  # the same for a shell
IN_MEMORY, PREFIX = "/dev/shm", "netrev-go-"
GRACE, SHORT_GRACE = 3.0, 0.5
LOOK = 0.05
CANCELLING = (signal.SIGINT, signal.SIGTERM, signal.SIGQUIT, signal.SIGHUP)
SIGNALS = (*CANCELLING, signal.SIGUSR1)
# A line of /proc/PID/maps: begin and end, the device, the inode and the path of a mapped file.
MAPPED = re.compile(r"^(\w+)-(\w+) \S+ \w+ (\w+):(\w+) (\d+) +(/.*)$", re.MULTILINE)
FROM_THE_TERMINAL = 0x80  # the si_code of signals from the kernel itself, SI_KERNEL


@dataclass(frozen=True)
class RunLimits:
    """The limits of a run."""

    seconds: float | None = None
    processors: int | None = None
    points: int = MOST_POINTS
    lines: bool = True
    orders: bool = True


def limits_of(options: argparse.Namespace) -> RunLimits:
    return RunLimits(options.n, options.procs, options.points, not options.no_lines, not options.no_orders)


def shell_status(status: int) -> int:
    """The exit status as a shell reports it: the command's own status, or a status for the signal that ended the
    command."""
    return status if status >= 0 else 128 - status


def relative_to_folder(words: list[str], more: list[str]) -> list[str]:
    """Go's command line with more flags at its beginning, but after -C DIR, which Go expects first."""
    name, is_set, _ = words[0].partition("=") if words else ("", "", "")
    length = (1 if is_set else 2) if name in ("-C", "--C") else 0
    return [*words[:length], *more, *words[length:]]


def places() -> list[str]:
    """The folders to try for logs: the folder that NETREV_LOGS names, or otherwise a folder in memory and a folder
    below TMPDIR."""
    given = os.environ.get("NETREV_LOGS")
    return [given] if given else [IN_MEMORY, tempfile.gettempdir()]


def logs_folder(points: int) -> pathlib.Path:
    """A new folder with room for a log, in memory if a file system for that exists."""
    wanted = points * POINT_BYTES + STACK_BYTES + SPARE
    for place in places():
        if os.access(place, os.W_OK) and shutil.disk_usage(place).free >= wanted:
            return pathlib.Path(tempfile.mkdtemp(prefix=PREFIX, dir=place))
    raise RecorderError(messages.NO_ROOM.format(places=" and ".join(places()), megabytes=wanted // 2**20))


def logs_in(folder: pathlib.Path) -> list[pathlib.Path]:
    """The logs of a folder, in the order in which their processes began; none if the folder is gone."""
    try:
        logs = [path for path in folder.iterdir() if LOG.match(path.name)]
        return sorted(logs, key=lambda path: path.lstat().st_ino)
    except FileNotFoundError:
        return []


def process_of(log: pathlib.Path) -> int:
    found = LOG.match(log.name)
    return int(found[1]) if found else 0


def heeded() -> tuple[signal.Signals, ...]:
    """The signals that a run waits for. Under nohup SIGHUP is ignored, and stays ignored."""
    return tuple(
        number for number in SIGNALS if number != signal.SIGHUP or signal.getsignal(number) is not signal.SIG_IGN
    )


def unblock_signals() -> None:
    signal.pthread_sigmask(signal.SIG_UNBLOCK, SIGNALS)


def stop_at_once() -> None:
    """From here on a signal would lose nothing, so every signal stops netrev-go, as Ctrl-C does."""
    for number in CANCELLING:
        if number in heeded():
            signal.signal(number, signal.default_int_handler)
    unblock_signals()


def environment(folder: pathlib.Path, limits: RunLimits, delays: int = 0) -> dict[str, str]:
    """The environment in which programs record. `delays` is the seed of the recorder's delays, 0 for none."""
    settings = {"NETREV_LOG": str(folder / "log"), "NETREV_POINTS": str(limits.points), "NETREV_KEEP": "all"}
    if limits.processors:
        settings["GOMAXPROCS"] = str(limits.processors)
    if not limits.lines:
        settings["NETREV_LINES"] = "0"
    if not limits.orders:
        settings["NETREV_ORDERS"] = "0"
    if delays:
        settings["NETREV_DELAYS"] = str(delays)
    return os.environ | settings


class Mapping(NamedTuple):
    """A part of a file that a process has mapped: its bytes, the file's device and inode, and the path, which ends in
    ` (deleted)` if the file was removed."""

    bytes: int
    file: tuple[int, int]
    path: str


def mappings(process: int) -> list[Mapping]:
    """The files that a process has mapped."""
    maps = pathlib.Path(f"/proc/{process}/maps").read_bytes().decode("utf-8", "surrogateescape")
    found = []
    for begin, end, major, minor, inode, path in MAPPED.findall(maps):
        device = os.makedev(int(major, 16), int(minor, 16))
        found.append(Mapping(int(end, 16) - int(begin, 16), (device, int(inode)), path))
    return found


def writes(process: int, log: pathlib.Path) -> bool:
    """Whether the process still writes that log: its number may have been reused."""
    path = os.path.realpath(log)
    try:
        return any(mapping.path == path for mapping in mappings(process))
    except OSError:
        return False


def still_written(folder: pathlib.Path) -> list[pathlib.Path]:
    """The logs of a folder whose processes are still running."""
    return [log for log in logs_in(folder) if writes(process_of(log), log)]


def send(log: pathlib.Path, number: signal.Signals) -> None:
    """Sends a signal to the process that writes a log, if the process is still running."""
    if writes(process_of(log), log):
        with contextlib.suppress(ProcessLookupError):
            os.kill(process_of(log), number)


class GoRunner:
    """Go's command, and the programs that it starts. Signals for netrev-go are queued until it checks them; signals for
    the command are not queued."""

    def __init__(
        self, command: list[str], folder: pathlib.Path, limits: RunLimits, delays: int = 0, errors: CopiedErrors | None = None
    ) -> None:  # fmt: skip
        self.folder, self.limits = folder, limits
        self.began: dict[pathlib.Path, float] = {}
        self.told: set[pathlib.Path] = set()  # to quit
        self.cancelled = False
        self._signals = heeded()
        signal.pthread_sigmask(signal.SIG_BLOCK, self._signals)
        self.process = subprocess.Popen(
            command, env=environment(folder, limits, delays), preexec_fn=unblock_signals,
            stderr=errors.to if errors else None,
        )  # fmt: skip
        if errors:
            errors.start()

    def wait(self, so_far: Callable[[], None]) -> int:
        """Go's exit status. `so_far` is called when a recording is requested while the program runs."""
        while self.process.poll() is None:
            seen = signal.sigtimedwait(self._signals, LOOK)
            if seen is not None:
                self.attend(seen, so_far)
            if self.limits.seconds is not None:
                self.end_the_old(time.monotonic(), self.limits.seconds)
        self.let_them_end(GRACE if self.cancelled else SHORT_GRACE)
        self.finish_first()
        return self.process.returncode

    def finish_first(self) -> None:
        """Prepares for the conversion of logs, which only Ctrl-C stops. The other signals stay blocked, also in the
        child processes that convert logs."""
        signal.signal(signal.SIGUSR1, signal.SIG_IGN)
        signal.signal(signal.SIGINT, signal.default_int_handler)
        signal.pthread_sigmask(signal.SIG_UNBLOCK, (signal.SIGINT, signal.SIGUSR1))

    def is_cancelled(self) -> bool:
        """Whether a signal ended the run, or has arrived since the run ended."""
        return self.cancelled or not signal.sigpending().isdisjoint(CANCELLING)

    def attend(self, seen: signal.struct_siginfo, so_far: Callable[[], None]) -> None:
        """Passes a signal on to the programs and to Go, unless the terminal has sent it to all of them."""
        number = signal.Signals(seen.si_signo)
        if number == signal.SIGUSR1:
            so_far()
            return
        self.cancelled = True
        if seen.si_code != FROM_THE_TERMINAL or number == signal.SIGHUP and is_leader():
            self.pass_on(number)

    def pass_on(self, number: signal.Signals) -> None:
        """Sends a signal to the programs, and to Go. SIGHUP would end Go while a program might keep running, so Go gets
        it only if no program runs."""
        programs = still_written(self.folder)
        for log in programs:
            send(log, number)
        if number != signal.SIGHUP or not programs:
            self.process.send_signal(number)

    def let_them_end(self, seconds: float) -> None:
        """Waits a while for programs that are still running after Go has exited."""
        end = time.monotonic() + seconds
        while still_written(self.folder) and time.monotonic() < end:
            time.sleep(LOOK)

    def end_the_old(self, now: float, seconds: float) -> None:
        """Ends each process whose log is older than the limit, first with SIGQUIT, which a program may handle."""
        for log in logs_in(self.folder):
            age = now - self.began.setdefault(log, now)
            if age >= seconds and log not in self.told:
                self.told.add(log)
                send(log, signal.SIGQUIT)
            elif age >= seconds + GRACE:
                send(log, signal.SIGKILL)


def is_leader() -> bool:
    """Whether this process leads its session: if a terminal closes, only the leader gets the signal."""
    return os.getsid(0) == os.getpid()
