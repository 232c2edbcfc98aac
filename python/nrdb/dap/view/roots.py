"""Finds the files that NAME.where names. The files are in the folder of the program's source or, if they are Go's own,
in Go's folder."""

import os
from pathlib import Path
from typing import NamedTuple

SOURCES_OF_GO = "src"  # the subfolder in the folder of a Go release


class Roots(NamedTuple):
    """The folder of the program's files, to which their names are relative, and Go's folder, if known."""

    program: Path
    go: Path | None = None

    def path_of(self, file: str) -> Path | None:
        """The path of a file that the recorder named; None if the file doesn't exist on this machine."""
        return next((path for path in self._places(file) if os.path.isfile(path)), None)

    def is_at(self, file: str, wanted: Path) -> bool:
        """Whether a file that the recorder named is the file at this path."""
        if any(whole(path) == wanted for path in self._places(file)):
            return True
        return self.go is None and str(wanted).endswith(f"/{SOURCES_OF_GO}/{file}")

    def _places(self, file: str) -> list[Path]:
        """The possible paths of a file."""
        return [self.program / file, *([self.go / SOURCES_OF_GO / file] if self.go else [])]


def whole(path: Path) -> Path | None:
    """A path with its links resolved; None if the path doesn't exist or its links form a loop."""
    try:
        return path.resolve()
    except (OSError, RuntimeError, ValueError):
        return None
