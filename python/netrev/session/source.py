"""The program's source around a line, if the file is available."""

import os
from pathlib import Path

from netrev.messages import session as messages
from netrev.recording.recording import Recording
from netrev.text.text_files import lines_of

ROUND = 5


def source_of(file: str, beside: str) -> Path:
    """The path of a file that NAME.where names: relative to the folder in which nrdb was started, or else to the
    recording's folder."""
    return Path(file) if os.path.isfile(file) or os.path.isabs(file) else Path(beside).parent / file


def text_around(recording: Recording, path: Path, line: int) -> list[str]:
    """The source around a line, which is marked, and whether the file has changed since the recording."""
    lines = lines_of(path)
    if lines is None:
        return []
    rows = [
        f"{'=>' if number == line else '  '} {number:>5}  {lines[number - 1].expandtabs(4)}"
        for number in range(max(1, line - ROUND), min(len(lines), line + ROUND) + 1)
    ]
    changed = os.stat(path).st_mtime > recording.lines.written
    return [*rows, messages.SOURCE_CHANGED.format(file=path.name)] if changed and rows else rows
