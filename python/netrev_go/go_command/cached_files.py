"""Folders of the user's cache whose files netrev-go makes once. Checksums lie beside the files, so that damaged files, for
instance after a power cut, are made anew."""

from __future__ import annotations

import fcntl
import hashlib
import json
import os
import pathlib
from collections.abc import Callable

from .trusted_files import UntrustedFileError, check_owner, opened_own

SUMS = "sums.json"


def made_once(folder: pathlib.Path, make: Callable[[], list[str]]) -> None:
    """Makes the files of a folder unless they are whole; `make` returns their names. Raises UntrustedFileError if another
    user could have made them, or another OSError."""
    for path in (folder.parent, folder):
        check_owner(path)
    if is_whole(folder):
        return
    folder.mkdir(0o700, parents=True, exist_ok=True)
    lock = os.open(folder / "lock", os.O_RDWR | os.O_CREAT | os.O_NOFOLLOW | os.O_NONBLOCK | os.O_CLOEXEC, 0o600)
    with open(lock, "w", encoding="utf-8") as file:
        fcntl.flock(file, fcntl.LOCK_EX)
        if not is_whole(folder):  # no other process has made them meanwhile
            seal(folder, make())


def is_whole(folder: pathlib.Path) -> bool:
    """Whether the files of a folder are those that were made; raises UntrustedFileError if one isn't this user's."""
    try:
        sums = json.loads(content(folder / SUMS))
        return bool(sums) and sums == sums_of(folder, list(sums))
    except UntrustedFileError:
        raise
    except (OSError, ValueError, TypeError):
        return False


def content(path: pathlib.Path) -> bytes:
    with opened_own(path) as file:
        return file.read()


def sums_of(folder: pathlib.Path, names: list[str]) -> dict[str, str]:
    return {name: hashlib.sha256(content(folder / name)).hexdigest() for name in names}


def seal(folder: pathlib.Path, names: list[str]) -> None:
    """Stores the checksums of new files, after the files themselves are on the disk."""
    new = folder / f"{SUMS}.new"
    new.write_text(json.dumps(sums_of(folder, names)), encoding="utf-8")
    for name in (*names, new.name):
        sync(folder / name)
    new.replace(folder / SUMS)
    sync(folder)


def sync(path: pathlib.Path) -> None:
    handle = os.open(path, os.O_RDONLY)
    try:
        os.fsync(handle)
    finally:
        os.close(handle)
