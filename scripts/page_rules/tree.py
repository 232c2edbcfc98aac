"""The files of the repository, as the rules read them, and the rules' findings."""

import os
import re
from collections.abc import Iterator
from dataclasses import dataclass
from fnmatch import fnmatch
from functools import cached_property
from pathlib import Path

# folders for build results, and for files that aren't committed
LEFT_OUT = {".git", "out", "__pycache__", ".mypy_cache", "build", "dist"}


@dataclass(frozen=True, order=True)
class Finding:
    """A violation of a rule, and its place."""

    path: str
    line: int
    says: str

    def __str__(self) -> str:
        return f"{self.path}:{self.line}: {self.says}"


class Tree:
    """The files below a folder, by their paths from there."""

    def __init__(self, root: Path) -> None:
        self.root = root
        self._texts: dict[str, str] = {}
        self.notes: list[str] = []  # what a rule couldn't examine

    @cached_property
    def paths(self) -> list[str]:
        """All files, sorted."""
        found = []
        for folder, folders, files in os.walk(self.root):
            folders[:] = sorted(set(folders) - LEFT_OUT)
            below = os.path.relpath(folder, self.root)
            found += [os.path.normpath(os.path.join(below, file)) for file in files]
        return sorted(found)

    @cached_property
    def places(self) -> set[str]:
        """All files and folders."""
        folders = {str(parent) for path in self.paths for parent in Path(path).parents}
        return folders.union(self.paths)

    @cached_property
    def endings(self) -> set[str]:
        """The ends of all paths of files and folders, such as `src/kind.rt` and `src/kind` for
        `crates/nr_rev/src/kind.rt`."""
        places = self.places.union(os.path.splitext(path)[0] for path in self.paths if "/" in path)
        return {"/".join(place.split("/")[at:]) for place in places for at in range(place.count("/") + 1)}

    def matching(self, *patterns: str) -> list[str]:
        """The files whose paths match one of these patterns; `*` also matches folders."""
        return [path for path in self.paths if any(fnmatch(path, pattern) for pattern in patterns)]

    def has(self, path: str) -> bool:
        return path in self.places

    def text(self, path: str) -> str:
        """The text of a file."""
        if path not in self._texts:
            self._texts[path] = (self.root / path).read_text(encoding="utf-8")
        return self._texts[path]

    def lines(self, path: str) -> Iterator[tuple[int, str]]:
        """A file's lines, numbered from 1."""
        yield from enumerate(self.text(path).split("\n"), 1)

    @cached_property
    def pages(self) -> list[str]:
        """The pages for readers."""
        return self.matching("*.md")

    @cached_property
    def crates(self) -> dict[str, list[str]]:
        """The crates of crates.txt, lowest first, with the crates that each imports."""
        if not self.has("crates.txt"):
            return {}
        rows = [line.split(":") for line in self.text("crates.txt").splitlines() if line.strip()]
        names = [head.split()[0] for head, *_ in rows]
        return {name: [other for other in row[1].split() if other in names] for name, row in zip(names, rows)}


def line_at(text: str, offset: int) -> int:
    """The line number of an offset in a text."""
    return text.count("\n", 0, offset) + 1


def has_word(word: str, flags: int = 0) -> re.Pattern[str]:
    """Finds a word, or several words in a row, also across a line break."""
    return re.compile(r"(?<!\w)" + r"\s+".join(map(re.escape, word.split())) + r"(?!\w)", flags)
