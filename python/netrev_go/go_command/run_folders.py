"""The folder into which a run's programs write their logs: its owner, the processes that couldn't be recorded, and the
folders left by a netrev-go that was killed. Only root's programs may start processes as other users. Root's folder is
therefore below another, and has a secret name there: a process that leaves a mark in it was started in this run."""

from __future__ import annotations

import contextlib
import errno
import fcntl
import os
import pathlib
import re
import secrets
import shlex
import shutil
import stat
import sys
import time
from collections import defaultdict
from dataclasses import dataclass
from itertools import islice
from typing import IO, Any, BinaryIO

from netrev.messages import recorder as messages

from .running import PREFIX, logs_in, places, still_written
from .toolchain import RecorderError
from .trusted_files import check_owner, opened_own

OWNER = (
    "owner"  # a file that netrev-go keeps locked while it owns the folder; the kernel unlocks it however netrev-go ends
)
KEPT = "kept"  # the same file, if the logs are kept because recordings are missing
UNRECORDED = (
    "log.unrecorded"  # a folder in which each process that can't write a log leaves an empty file (go/log/runtime.go)
)
MARK = re.compile(r"process\.(\d{1,10})\.(\d{1,4})\Z")
MOST_MARKS, MOST_OF_COMMAND = 1_000, 4_096
SECRET = "[0-9a-f]" * 32  # the name of root's folder in the folder that was made for a run
WHY = {
    errno.EFBIG: messages.FILE_SIZE_IS_LIMITED,
    errno.EEXIST: messages.TOO_MANY_PROGRAMS,
    errno.ENOMEM: messages.MEMORY_IS_LIMITED,
}
HELD: dict[pathlib.Path, IO[Any]] = {}  # the lock files of this netrev-go's folders


def claim(folder: pathlib.Path) -> pathlib.Path:
    """Makes this netrev-go the owner of a new folder, and prepares it for the programs of a run. Returns the folder for
    the logs."""
    try:
        if os.geteuid() == 0:  # processes of other users may pass through, but list and read nothing
            folder.chmod(0o711)
            folder = folder / secrets.token_hex(16)
            folder.mkdir(0o700)
            folder.chmod(0o711)
        marks, new = folder / UNRECORDED, folder / f"{OWNER}.new"
        marks.mkdir(0o700)
        if os.geteuid() == 0:
            marks.chmod(0o1733)
        file = open(
            new, "x", encoding="utf-8", errors="surrogateescape", opener=lambda name, flags: os.open(name, flags, 0o600)
        )
        fcntl.flock(file, fcntl.LOCK_EX)
        file.write(f"{shlex.join(['netrev-go', *sys.argv[1:]])[:MOST_OF_COMMAND]}\n")
        file.flush()
        new.rename(folder / OWNER)  # a file of that name was locked from the beginning
    except OSError as fault:
        raise RecorderError(messages.NO_LOGS_IN.format(folder=folder, why=fault.strerror)) from None
    HELD[folder] = file
    return folder


def own_folder() -> pathlib.Path:
    """This user's folder for the logs of a shell."""
    folder = pathlib.Path(next(filter(os.path.isdir, places()), places()[-1]), f"netrev-{os.geteuid()}")
    try:
        folder.mkdir(0o700, exist_ok=True)
        check_owner(folder)
    except OSError as fault:
        raise RecorderError(messages.NO_LOGS_IN.format(folder=folder, why=fault.strerror)) from None
    return folder


def release(folder: pathlib.Path, is_named_again: bool = False) -> None:
    """Marks a folder as reported, so that it isn't offered again. Later runs may name its logs again."""
    with contextlib.suppress(OSError):
        (folder / OWNER).rename(folder / KEPT) if is_named_again else (folder / OWNER).unlink()
    if (file := HELD.pop(folder, None)) is not None:
        file.close()


def remove(folder: pathlib.Path) -> None:
    release(folder)
    shutil.rmtree(outermost(folder), ignore_errors=True)


def outermost(folder: pathlib.Path) -> pathlib.Path:
    """The folder that was made for a run."""
    return folder.parent if folder.match(SECRET) else folder


def unrecorded(folder: pathlib.Path) -> list[str]:
    """A line for each reason why processes of a run couldn't write a log."""
    processes: dict[int, list[int]] = defaultdict(list)
    with contextlib.suppress(OSError):
        for path in islice((folder / UNRECORDED).iterdir(), MOST_MARKS):
            if found := MARK.match(path.name):
                processes[int(found[2])].append(int(found[1]))
    return [line_of(sorted(numbers), WHY.get(why) or os.strerror(why)) for why, numbers in sorted(processes.items())]


def line_of(processes: list[int], why: str) -> str:
    if len(processes) == 1:
        return messages.PROCESS_UNRECORDED.format(process=processes[0], why=why)
    return messages.PROCESSES_UNRECORDED.format(count=len(processes), why=why)


@dataclass(frozen=True)
class LeftRun:
    """A run whose logs are left, because netrev-go was killed before it made recordings, or couldn't make all."""

    folder: pathlib.Path
    command: str
    began: float  # seconds since 1970

    def when(self) -> str:
        return time.strftime("%Y-%m-%d %H:%M", time.localtime(self.began))


def left_runs(name: str = OWNER) -> list[LeftRun]:
    """The runs that are left, oldest first: this user's runs that no netrev-go owns and whose logs no program still
    writes. With KEPT, the runs whose logs were kept. Folders without logs are removed."""
    folders = [folder for place in places() for folder in pathlib.Path(place).glob(PREFIX + "*") if is_own(folder)]
    found = [left_run(folder, name) for outer in folders for folder in (outer, *outer.glob(SECRET))]
    return sorted(filter(None, found), key=lambda run: run.began)


def left_run(folder: pathlib.Path, name: str) -> LeftRun | None:
    """The leftover run in a folder, if any."""
    file = locked(folder / name)
    if file is None:
        return None
    with file:
        command = file.readline(MOST_OF_COMMAND).decode("utf-8", "replace").rstrip("\n")
        began = os.fstat(file.fileno()).st_mtime
        if not logs_in(folder) and not is_in_use(folder):
            remove(folder)
    return LeftRun(folder, command, began) if logs_in(folder) and not still_written(folder) else None


def locked(path: pathlib.Path) -> BinaryIO | None:
    """This user's file, locked; None if a running netrev-go has the lock, or the file is gone."""
    try:
        file = opened_own(path)
    except OSError:
        return None
    try:
        fcntl.flock(file, fcntl.LOCK_EX | fcntl.LOCK_NB)
    except OSError:
        file.close()
        return None
    return file


def is_in_use(folder: pathlib.Path) -> bool:
    """Whether a program may still write a log there: Go runs on if only netrev-go was killed."""
    setting = f"{folder.name}/log\0".encode()
    for environment in pathlib.Path("/proc").glob("[0-9]*/environ"):
        with contextlib.suppress(OSError):
            if setting in environment.read_bytes():
                return True
    return False


def is_own(folder: pathlib.Path) -> bool:
    """Whether this is a folder of this user, and no link."""
    with contextlib.suppress(OSError):
        status = folder.lstat()
        return status.st_uid == os.geteuid() and stat.S_ISDIR(status.st_mode)
    return False


def take_over(run: LeftRun) -> bool:
    """Makes this netrev-go the owner of a leftover run, unless another netrev-go already is."""
    file = locked(run.folder / OWNER)
    if file is None:
        return False
    HELD[run.folder] = file
    return True
