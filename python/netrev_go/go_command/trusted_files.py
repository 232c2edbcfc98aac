"""Opens files whose names other users can work out: a log, the files beside it, and those of the cache. In /dev/shm and
/tmp any user can put a link, a pipe or a file at such a name, so a file counts only if it is regular, belongs to the right
user, and isn't too large."""

from __future__ import annotations

import errno
import os
import pathlib
import stat
from collections.abc import Container
from contextlib import suppress
from typing import BinaryIO

from netrev.errors import NetrevError
from netrev.messages import recorder as messages

from .terminal import complain

FLAGS = os.O_RDONLY | os.O_NOFOLLOW | os.O_NONBLOCK | os.O_CLOEXEC | os.O_NOCTTY
KINDS = {stat.S_IFLNK: "a link", stat.S_IFIFO: "a FIFO", stat.S_IFSOCK: "a socket", stat.S_IFDIR: "a folder"}
MOST_OF_LOG = 2**30 + 2**28  # a ring of 16,777,216 points, and the tables
MOST_OF_PROGRAM = 2**30
MOST_OF_OWN = 2**28
COMPLAINED: set[pathlib.Path] = set()


class UntrustedFileError(NetrevError, PermissionError):
    """The file isn't used. The system's text for the error is the reason."""

    def __init__(self, path: pathlib.Path, why: str) -> None:
        super().__init__(errno.EACCES, why, str(path))


def owners_of(process: int | None = None) -> set[int]:
    """The users whose log may be read: this user, and the owner of the process that writes the log."""
    owners = {os.geteuid()}
    with suppress(OSError):  # the process may have ended
        owners |= {os.stat(f"/proc/{process}").st_uid} if process is not None else set()
    return owners


def check(path: pathlib.Path, status: os.stat_result, owners: Container[int], most: int) -> None:
    """Raises UntrustedFileError unless the file with this status can be trusted. In a folder in which all users can write,
    another user may have given a further name to a file of the right owner."""
    kind = stat.S_IFMT(status.st_mode)
    if kind != stat.S_IFREG:
        raise UntrustedFileError(path, messages.OF_WRONG_KIND.format(kind=KINDS.get(kind, "a device")))
    if status.st_uid not in owners:
        raise UntrustedFileError(path, messages.OF_ANOTHER_USER.format(user=status.st_uid))
    if status.st_size > most:
        raise UntrustedFileError(path, messages.TOO_LARGE.format(bytes=status.st_size))
    if status.st_nlink > 1 and path.parent.stat().st_mode & stat.S_IWOTH:
        raise UntrustedFileError(path, messages.SEVERAL_NAMES.format(count=status.st_nlink))


def check_owner(folder: pathlib.Path) -> None:
    """Raises UntrustedFileError if a folder, or a link in its place, belongs to another user."""
    if os.path.lexists(folder):
        for user in {folder.lstat().st_uid, folder.stat().st_uid} - {os.geteuid()}:
            raise UntrustedFileError(folder, messages.OF_ANOTHER_USER.format(user=user))


def opened(path: pathlib.Path, owners: Container[int], most: int, buffering: int = -1) -> BinaryIO:
    """The file, opened without waiting and without following a link. Raises UntrustedFileError or another OSError."""
    check(path, path.lstat(), owners, most)
    handle = os.open(path, FLAGS)
    try:
        check(path, os.fstat(handle), owners, most)  # it may have been replaced meanwhile
        return os.fdopen(handle, "rb", buffering)
    except BaseException:
        os.close(handle)
        raise


def opened_own(path: pathlib.Path) -> BinaryIO:
    """A file that netrev-go made for this user."""
    return opened(path, owners_of(), MOST_OF_OWN)


def opened_log(path: pathlib.Path, process: int | None = None, buffering: int = -1) -> BinaryIO:
    """A log of this user, or of the owner of the process that writes it."""
    return opened(path, owners_of(process), MOST_OF_LOG, buffering)


def opened_beside(path: pathlib.Path, owner: int, most: int = MOST_OF_PROGRAM) -> BinaryIO | None:
    """A file beside a log of this owner; None if it is missing, or if it isn't used, for which one line gives the
    reason."""
    try:
        return opened(path, (owner,), most)
    except FileNotFoundError:
        return None
    except OSError as fault:
        if path not in COMPLAINED:
            COMPLAINED.add(path)
            complain(messages.NOT_USED.format(path=path, why=fault.strerror))
        return None
