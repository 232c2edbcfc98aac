"""Writes nrdb's files atomically, and never over the recording that nrdb reads."""

import os
from collections.abc import Iterator, Mapping
from contextlib import contextmanager
from pathlib import Path
from typing import IO, Any

from netrev.connection.errors import UsageError
from netrev.messages import session as messages
from netrev.text.files import Owns, unused, whole, written_together


def is_own(path: str | Path, recording: str) -> bool:
    """Whether a file is the recording, or the recording's NAME.where."""
    files = (Path(recording), Path(recording).with_suffix(".where")) if recording else ()
    return any(os.path.exists(path) and own.exists() and own.samefile(path) for own in files)


def spare(path: str, recording: str) -> None:
    """Raises UsageError if a file to be written is the recording, or the recording's NAME.where."""
    if is_own(path, recording):
        raise UsageError(messages.OWN_FILE.format(path=path))


def derived(base: Path, recording: str, endings: Mapping[str, Owns]) -> str:
    """The name, without its ending, for files whose names the user didn't type (`unused`)."""

    def spared(owns: Owns) -> Owns:
        return lambda path: not is_own(path, recording) and owns(path)

    return str(unused(base, {ending: spared(owns) for ending, owns in endings.items()}))


@contextmanager
def writing(path: str, recording: str, mode: str = "w") -> Iterator[IO[Any]]:
    """Opens a file for writing; raises UsageError if that fails."""
    spare(path, recording)
    try:
        with whole(Path(path), mode) as file:
            yield file
    except OSError as error:
        raise UsageError(f"{path}: {error.strerror}") from None


def written(recording: str, contents: Mapping[str, bytes]) -> None:
    """Writes these files, all or none; raises UsageError if that fails."""
    for path in contents:
        spare(path, recording)
    try:
        written_together({Path(path): data for path, data in contents.items()})
    except OSError as error:
        raise UsageError(f"{error.filename}: {error.strerror}") from None
