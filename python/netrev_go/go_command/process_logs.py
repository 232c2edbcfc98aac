"""The log of a running process, which may be in a container, or the reason why the process writes none."""

from __future__ import annotations

import contextlib
import mmap
import os
import pathlib
import re
import time
from typing import NamedTuple, NoReturn

from netrev.messages import recorder as messages
from netrev.system.command_lines import command
from netrev.text.plain import plain

from .run_folders import WHY
from .running import Mapping, mappings
from .toolchain import RecorderError
from .trusted_files import opened_log

STARTING = 1.0  # seconds within which a program that was just started makes its log
REMOVED = " (deleted)"
# A page that a program maps if it writes no log (go/log/runtime.go): its name has the system's error.
UNWRITTEN = re.compile(r"/memfd:netrev-(?:unwritten\.(\d{1,4})|secure)" + re.escape(REMOVED))


class ProcessEndedError(RecorderError):
    """The process has ended."""


class ProcessLog(NamedTuple):
    """The log of a process: the path at which netrev-go can open it, and why recording has ended (empty if it hasn't)."""

    path: pathlib.Path
    fault: str = ""

    def head(self) -> list[str]:
        """The line that comes before a report on the log."""
        return [plain(f"netrev-go: {self.fault}")] if self.fault else []


def log_of_process(process: int) -> ProcessLog:
    """The log of a running process. A process that was just started may not have a log yet, so this waits for a
    second."""
    until = time.monotonic() + STARTING
    while True:
        log = mapped_log(process)
        if log and has_begun(log.path, process):
            return log
        if time.monotonic() > until:
            break
        time.sleep(STARTING / 50)
    if log and not log.fault:
        return log  # its reader reports what is wrong with it
    why = log.fault if log else messages.PROCESS_HAS_NO_LOG.format(process=process, netrev_go=command("netrev-go"))
    raise RecorderError(why)


def mapped_log(process: int) -> ProcessLog | None:
    """The log that a process has mapped; raises RecorderError if the process can't have one."""
    number = number_inside(process)
    try:
        mapped = mappings(process)
    except PermissionError:
        raise RecorderError(messages.PROCESS_IS_PROTECTED.format(process=process)) from None
    except OSError:
        raise ProcessEndedError(messages.NO_PROCESS.format(process=process)) from None
    is_log = re.compile(rf".*\.{number}(\.\d+)?({re.escape(REMOVED)})?")
    for mapping in mapped:
        if found := UNWRITTEN.fullmatch(mapping.path):
            refuse(process, number, found[1])
        if is_log.fullmatch(mapping.path):
            return log_at(process, mapping, sum(part.bytes for part in mapped if part.path == mapping.path))
    return None


def number_inside(process: int) -> int:
    """The number of a process in its own PID namespace, which its log has in its name."""
    try:
        status = pathlib.Path(f"/proc/{process}/status").read_text(errors="replace")
    except OSError:
        raise ProcessEndedError(messages.NO_PROCESS.format(process=process)) from None
    fields = dict(re.findall(r"^(\w+):\t(.*)$", status, re.MULTILINE))
    if fields["State"][0] in "XZ":
        raise ProcessEndedError(messages.PROCESS_HAS_ENDED.format(process=process))
    return int(fields.get("NStgid", fields["Tgid"]).split()[-1])


def start_of(process: int) -> str:
    """When a process was started, in clock ticks since the system was. Another process that has its number later was
    started later."""
    try:
        return pathlib.Path(f"/proc/{process}/stat").read_text(errors="replace").rpartition(")")[2].split()[19]
    except OSError:
        raise ProcessEndedError(messages.NO_PROCESS.format(process=process)) from None


def refuse(process: int, number: int, error: str | None) -> NoReturn:
    """Raises RecorderError with the reason why a process writes no log: this error, or none in secure mode."""
    if error is None:
        raise RecorderError(messages.PROCESS_IS_SECURE.format(process=process))
    path = ""
    with contextlib.suppress(OSError):
        settings = pathlib.Path(f"/proc/{process}/environ").read_bytes().decode("utf-8", "surrogateescape").split("\0")
        path = next((plain(f" {name[11:]}.{number}") for name in settings if name.startswith("NETREV_LOG=")), "")
    why = WHY.get(int(error)) or os.strerror(int(error))
    raise RecorderError(messages.LOG_UNWRITTEN.format(process=process, log=path, why=why))


def log_at(process: int, mapping: Mapping, size: int) -> ProcessLog:
    """The log of which a process has mapped this many bytes. If the program can't use the log any more, only the last
    page is still mapped, which comes after the log's own bytes and after the rest of their last page."""
    if mapping.path.endswith(REMOVED):
        log = mapping.path.removesuffix(REMOVED)
        raise RecorderError(messages.LOG_IS_REMOVED.format(process=process, log=log))
    path, length = place_of(process, mapping)
    if size <= mmap.PAGESIZE or length is not None and length + 2 * mmap.PAGESIZE < size:
        return ProcessLog(path, messages.LOG_HAS_ENDED.format(process=process, log=mapping.path))
    return ProcessLog(path)


def place_of(process: int, mapping: Mapping) -> tuple[pathlib.Path, int | None]:
    """Where netrev-go can open a mapped file, and the file's length. A process in another mount namespace has the file
    below /proc/PID/root; another file may have its path here."""
    places = (pathlib.Path(mapping.path), pathlib.Path(f"/proc/{process}/root{mapping.path}"))
    here, there = map(status_of, places)
    # (some file systems have another device in /proc/PID/maps)
    is_here = here and (
        (here.st_dev, here.st_ino) == mapping.file
        or (os.path.samestat(here, there) if there else here.st_ino == mapping.file[1])
    )
    status = here if is_here else there
    return places[0 if is_here or not (here or there) else 1], status.st_size if status else None


def status_of(path: pathlib.Path) -> os.stat_result | None:
    with contextlib.suppress(OSError):
        return path.stat()
    return None


def has_begun(log: pathlib.Path, process: int) -> bool:
    """Whether a log has its header. A log that can't be read counts as begun, and its reader reports the reason."""
    try:
        with opened_log(log, process) as file:
            return any(file.read(8))
    except OSError:
        return True
