"""The packages that Go can't load, build or vet, from Go's standard error, which is passed on unchanged. Tests print to
Go's standard output, so this sees nothing of theirs."""

from __future__ import annotations

import contextlib
import os
import re
import select
import threading

MOST_BYTES, PIECE = 2**20, 2**16
STANDARD_ERROR = 2
# The line above the errors of a package: `# PACKAGE`, `# PACKAGE [TESTED.test]`, or go vet's `# [PACKAGE]`.
HEAD = re.compile(r"# \[?([^\s\]]+)\]?(?: \[([^\s\]]+)\.test\])?")
PLACE = re.compile(r"(?:\./)?(\S[^:]*\.go):(\d+):(?:\d+:)? (?!warning:|note:)")
HINT = re.compile(r"\b(warning|note): ")  # of a C compiler, also about a package that can be built
ERROR = re.compile(r"\berror: ")
NO_PACKAGE = "go test"  # instead of a package's name, if Go names none


class CopiedErrors:
    """A pipe for Go's standard error. A thread copies it to netrev-go's own, and keeps the first bytes."""

    def __init__(self) -> None:
        self._from, self.to = os.pipe()
        self._kept = bytearray()
        self._thread = threading.Thread(target=self._copy, daemon=True)

    def start(self) -> None:
        """Copies from now on, until Go has exited; Go has its own end of the pipe."""
        os.close(self.to)
        self._thread.start()

    def _copy(self) -> None:
        while piece := os.read(self._from, PIECE):
            self._kept += piece[: MOST_BYTES - len(self._kept)]
            with contextlib.suppress(OSError):
                while piece:
                    select.select([], [STANDARD_ERROR], [])
                    piece = piece[os.write(STANDARD_ERROR, piece) :]
        os.close(self._from)

    def text(self, seconds: float) -> str:
        """What Go printed. It waits for the end of the output, but not longer than this, since a process that Go
        started may still hold the pipe."""
        self._thread.join(seconds)
        return self._kept.decode("utf-8", "surrogateescape")


def unbuilt_in(text: str) -> dict[str, list[str]]:
    """The packages that Go couldn't load, build or vet, each with its errors."""
    found: dict[str, list[str]] = {NO_PACKAGE: []}
    lines = found[NO_PACKAGE]
    for line in text.splitlines():
        if head := HEAD.fullmatch(line):
            lines = found.setdefault(head[2] or head[1].removesuffix(".test"), [])
        elif lines is found[NO_PACKAGE] or not line.startswith("go: "):
            lines.append(line)
    if len(found) > 1:
        found.pop(NO_PACKAGE, None)
    return {package: lines for package, lines in found.items() if lines and not are_hints(lines)}


def are_hints(lines: list[str]) -> bool:
    """Whether these lines are only a C compiler's warnings."""
    return any(map(HINT.search, lines)) and not any(PLACE.match(line) or ERROR.search(line) for line in lines)


def place_in(lines: list[str]) -> tuple[str, int] | None:
    """The first file and line that an error names."""
    places = filter(None, map(PLACE.match, lines))
    return next(((place[1], int(place[2])) for place in places), None)
