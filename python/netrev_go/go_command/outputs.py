"""The names of recordings, checked before a program runs, so that nothing is lost if a file can't be written."""

from __future__ import annotations

import contextlib
import json
import os
import pathlib
from collections.abc import Iterable

from netrev.messages import recorder as messages
from netrev.text.files import Owns, beside, check_links, is_beside, is_page_of, unused

from .toolchain import RecorderError

RECORDING, LINES, WORDS, PAGE = ".jsonl", ".where", ".words", ".html"
LONGEST_ENDING = "-so-far-999.jsonl"
TRIED = 65_536  # bytes written to test whether the disk has room


def base_name(given: str | None, otherwise: str = "recording") -> pathlib.Path:
    """The base name of a recording; raises RecorderError if the given name can't be one."""
    name = otherwise if given is None else given
    base = pathlib.Path(name.removesuffix(RECORDING))
    is_other = os.path.exists(base) and not (os.path.isfile(base) or os.path.isdir(base))  # a device, a pipe
    if base.name in ("", "..") or name.endswith("/") or is_other:
        raise RecorderError(messages.NOT_A_NAME.format(name=name, ending=RECORDING))
    return base


def numbered(
    base: pathlib.Path, number: int, is_typed: bool = False, more: Iterable[str] = (), owns: Owns = lambda _: False
) -> pathlib.Path:
    """NAME.jsonl, NAME-2.jsonl, ..: the first from this number on that is free, as are NAME.where and the names with
    `more` endings. NAME.jsonl itself is replaced if the user typed NAME."""
    if number > 1 or not is_typed:
        base = unused(base, dict.fromkeys((RECORDING, LINES, *more), owns), number)
    return base.with_name(base.name + RECORDING)


def of_test(package: str, test: str) -> Owns:
    """Whether a file is of an earlier recording of this test: its NAME.where names the test."""
    names = ({"test": test} if test else {}) | {"package": package}
    key = json.dumps(names, separators=(",", ":"))[1:-1].encode()

    def owns(path: pathlib.Path) -> bool:
        recording, lines = path.with_suffix(RECORDING), path.with_suffix(LINES)
        if not is_beside(lines) or key not in lines.read_bytes():
            return False
        return path.suffix != PAGE or recording.is_file() and is_page_of(recording.read_bytes())(path)

    return owns


def look(base: pathlib.Path, is_typed: bool = True, more: str = messages.NOTHING_WAS_RUN) -> None:
    """Raises RecorderError if a recording can't be written there now; `more` ends the message."""
    try:
        try_folder(base)
        with contextlib.suppress(FileNotFoundError):
            os.lstat(base.with_name(base.name + LONGEST_ENDING))
        recording, lines = (base.with_name(base.name + ending) for ending in (RECORDING, LINES))
        if is_typed:
            check_links(recording)
    except OSError as fault:
        path, why = f"{base}{RECORDING}", fault.strerror
        raise RecorderError(messages.UNWRITABLE.format(path=path, why=why) + more) from None
    is_fit = {
        recording: recording.is_file() or not recording.exists(),
        lines: is_beside(lines) or not os.path.lexists(lines),
    }
    for name in is_fit if is_typed else ():
        if not is_fit[name] or name.exists() and not os.access(name, os.W_OK):
            raise RecorderError(messages.EXISTS.format(path=name) + more)


def try_folder(base: pathlib.Path) -> None:
    """Writes a file into the folder of the recording, and removes it."""
    tried = beside(base)
    with tried.open("xb") as file:
        try:
            file.write(bytes(TRIED))
            file.flush()
        finally:
            tried.unlink()


def check_folder(base: pathlib.Path) -> None:
    """Raises RecorderError if recordings can't be written into that folder, which may not exist yet."""
    try:
        if base.exists() and not base.is_dir():
            raise RecorderError(messages.NOT_A_FOLDER.format(path=base) + messages.NOTHING_WAS_RUN)
        there = next(folder for folder in (base, *base.absolute().parents) if folder.is_dir())
        try_folder(there / base.name)
    except OSError as fault:
        why = messages.UNWRITABLE.format(path=base, why=fault.strerror) + messages.NOTHING_WAS_RUN
        raise RecorderError(why) from None
