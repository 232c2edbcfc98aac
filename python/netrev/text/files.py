"""Writes files atomically: if a write fails, the old file stays."""

import errno
import hashlib
import os
import re
import secrets
import stat
from collections.abc import Callable, Iterator, Mapping
from contextlib import ExitStack, contextmanager, suppress
from itertools import count
from pathlib import Path
from typing import IO, Any

STREAMS = tuple(map(Path, ("/dev", "/dev/fd", "/proc/self/fd")))
MOST_LINKS = 40  # the kernel follows at most this many links
# the beginnings of the files beside a recording (docs/reference/RECORDING.md)
BESIDE = {".where": re.compile(rb'\{"where":'), ".words": re.compile(rb'\[\d+, "lock ')}
LONGEST_BEGIN = 40

Owns = Callable[[Path], bool]  # whether a file may be replaced although nobody typed its name


def beside(path: Path) -> Path:
    """A new name in a file's folder. It is short even if the file's own name is long."""
    return path.with_name(f".netrev-{os.getpid()}-{secrets.token_hex(4)}")


@contextmanager
def whole(path: Path, mode: str = "w", permissions: int = 0o666) -> Iterator[IO[Any]]:
    """A file to write to, which replaces the old file at the end; raises an OSError that names the file if it can't be
    written. It keeps the permissions of this user's file, and has otherwise these permissions, as far as the umask
    allows. A path that isn't a regular file, such as a pipe or /dev/stdout, is written to directly. Links and pipes of
    another user aren't used."""
    try:
        with replacing(path, mode, permissions) as file:
            yield file
    except OSError as fault:
        raise named(fault, path) from None


def named(fault: OSError, path: Path) -> OSError:
    """An error, with the name of the file that the caller meant."""
    return OSError(fault.errno, fault.strerror or str(fault), str(path))


@contextmanager
def replacing(path: Path, mode: str, permissions: int) -> Iterator[IO[Any]]:
    """`whole`, with the errors as they come."""
    check_name(path)
    check_links(path)
    if path.exists() and (path.parent in STREAMS or not path.is_file()):
        if path.parent not in STREAMS and path.stat().st_uid not in (os.geteuid(), 0):
            raise OSError(errno.EACCES, "another user's, which isn't written to")
        with open_for(path, mode) as direct:
            yield direct
        return
    place = Path(os.path.realpath(path))
    if place.exists() and not os.access(place, os.W_OK):
        raise PermissionError(errno.EACCES, os.strerror(errno.EACCES))
    part = beside(place)
    try:
        with open_for(part, mode.replace("w", "x"), permissions) as file:
            if (own := permissions_of(place)) is not None:
                os.fchmod(file.fileno(), own)
            yield file
        os.replace(part, place)
    except BaseException:
        with suppress(OSError):
            part.unlink()
        raise


def check_name(path: str | Path) -> None:
    """Raises an OSError if no file can have this name."""
    try:
        is_name = b"\0" not in os.fsencode(path)
    except UnicodeEncodeError:
        is_name = False
    if not is_name:
        raise OSError(errno.EINVAL, "no file can have that name", str(path))


def check_links(path: Path) -> None:
    """Raises OSError if a path contains a link of another user, who could replace a file of this user with it. Links of
    root are allowed."""
    for _ in range(MOST_LINKS):
        if not path.is_symlink():
            return
        if path.lstat().st_uid not in (os.geteuid(), 0):
            raise OSError(errno.EACCES, "another user's link, which isn't followed", str(path))
        path = path.parent / os.readlink(path)
    raise OSError(errno.ELOOP, os.strerror(errno.ELOOP), str(path))


def permissions_of(path: Path) -> int | None:
    """The permissions of this user's file; None if it is missing, a link, or another user's."""
    with suppress(OSError):
        status = path.lstat()
        if stat.S_ISREG(status.st_mode) and status.st_uid == os.geteuid():
            return stat.S_IMODE(status.st_mode)
    return None


def open_for(path: Path, mode: str, permissions: int = 0o666) -> IO[Any]:
    """Opens a file for text in UTF-8, or for bytes."""

    def opener(name: str, flags: int) -> int:
        return os.open(name, flags, permissions)

    return open(path, mode, encoding=None if "b" in mode else "utf-8", opener=opener)


def unused(base: Path, endings: Mapping[str, Owns], number: int = 1) -> Path:
    """BASE, or the first of BASE-2, BASE-3 .. for which each name with one of these endings is free, or is a regular
    file that may be replaced. Each file whose name the user didn't type gets its name here; a link is never free."""
    for place in count(number):
        name = base.with_name(base.name + (f"-{place}" if place > 1 else ""))
        if all(is_free(name.with_name(name.name + ending), owns) for ending, owns in endings.items()):
            return name
    raise AssertionError


def is_free(path: Path, owns: Owns) -> bool:
    with suppress(OSError):
        return not os.path.lexists(path) or stat.S_ISREG(os.lstat(path).st_mode) and owns(path)
    return False


def has(data: bytes) -> Owns:
    """Whether a file contains exactly these bytes, and not none."""
    return lambda path: 0 < len(data) == os.path.getsize(path) and path.read_bytes() == data


def end_of_page(recording: bytes) -> str:
    """The last line of a page, which names its recording."""
    return f"<!-- netrev {hashlib.sha256(recording).hexdigest()} -->\n"


def is_page_of(recording: bytes) -> Owns:
    """Whether a file is the page of this recording."""
    return lambda path: path.read_bytes().endswith(end_of_page(recording).encode())


def is_beside(path: Path) -> bool:
    """Whether a file has the form of the files beside a recording with this ending."""
    if path.is_symlink() or not path.is_file():
        return False
    with open(path, "rb") as file:
        return bool(BESIDE[path.suffix].match(file.read(LONGEST_BEGIN)))


def check_beside(path: Path) -> None:
    """Raises an OSError if a file beside a recording would replace a file of another kind, or lead through a link."""
    if os.path.lexists(path) and not is_beside(path):
        raise OSError(errno.EEXIST, "this file isn't from netrev, so the recording needs another name", str(path))


def forget_where(path: Path) -> None:
    """Removes NAME.where if it belongs to an earlier recording of that name; any other file stays."""
    if is_beside(path):
        path.unlink()


def written_whole(path: Path, data: bytes, permissions: int = 0o666) -> None:
    """Writes these bytes; raises an OSError that names the file if that fails."""
    written_together({path: data}, permissions)


def written_together(contents: Mapping[Path, bytes], permissions: int = 0o666) -> None:
    """Writes several files: all or, if one can't be written, none. Raises an OSError that names that file."""
    path = Path()
    try:
        with ExitStack() as files:
            for path, data in contents.items():
                file = files.enter_context(replacing(path, "wb", permissions))
                file.write(data)
                file.flush()
    except OSError as fault:
        raise named(fault, path) from None
