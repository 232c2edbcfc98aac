"""The text of the program after the line at which a goroutine stopped using a connection, if the source file is
available and hasn't changed since the recording."""

import os
from pathlib import Path

from netrev.recording.recording import Recording
from netrev.recording.where import OF_THE_PROGRAM
from netrev.text.text_files import lines_of

SHOWN = 8


def text_after(recording: Recording, step: int) -> list[str]:
    """The lines from the goroutine's line at a step to the end of its function; none for step 0."""
    if not step:
        return []
    found = recording.lines.of(step).own()
    if not found or found[0].of != OF_THE_PROGRAM:
        return []
    file, line = found[0].file, found[0].line
    lines = lines_of(Path(file))
    if lines is None or os.stat(file).st_mtime > recording.lines.written:
        return []
    return [f"{file}:{number}  {text}" for number, text in behind(lines, line)]


def behind(lines: list[str], line: int) -> list[tuple[int, str]]:
    """The numbered lines from a line to the end of its function."""
    shown = []
    for number in range(line, min(line + SHOWN, len(lines) + 1)):
        if lines[number - 1].startswith("}"):
            break
        shown.append((number, lines[number - 1].expandtabs(4)))
    return shown
