"""Reads the lines of source files and of files with nrdb's commands."""

import os
import stat
from pathlib import Path

from .files import check_name

MOST_BYTES = 2**20


def lines_of_script(path: str) -> list[str]:
    """The lines of a file of commands; raises an OSError if the file can't be read. Bytes that aren't UTF-8 are kept
    unchanged."""
    check_name(path)
    return Path(path).read_text(encoding="utf-8", errors="surrogateescape").splitlines()


def lines_of(path: Path) -> list[str] | None:
    """The lines of a file; None if the file can't be read or isn't text."""
    try:
        status = os.stat(path)
        if not stat.S_ISREG(status.st_mode) or status.st_size > MOST_BYTES:
            return None
        return path.read_text(encoding="utf-8").split("\n")
    except (OSError, ValueError):
        return None
