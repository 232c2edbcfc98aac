"""Checks CONTRIBUTING.md's table of Python folders: each module but `__init__.py` has a row, and imports only modules
of its own row and of rows above it.

A row is a folder below python/ with the folders in it, or some files of such a folder. A module belongs to the row with
the longest matching path. So no two rows import each other. A folder has at most MOST modules.
"""

import ast
from collections import Counter
from collections.abc import Iterator
from dataclasses import dataclass
from pathlib import PurePosixPath

from page_rules.markdown import CODE, blocks
from page_rules.tree import Finding, Tree

PAGE = "CONTRIBUTING.md"
HEADING = "Python"
PYTHON = "python/"
MOST = 15


@dataclass(frozen=True)
class Row:
    """A row of the table: its places below python/, and its line in the page."""

    places: tuple[str, ...]
    line: int

    @property
    def name(self) -> str:
        return self.places[0]

    def fits(self, path: str) -> int:
        """The length of the row's longest path that contains the module; 0 if none contains it. `path` is relative to
        python/."""
        return max((len(place) for place in self.places if f"{path}/".startswith(f"{place}/")), default=0)


def rows_of(tree: Tree) -> list[Row]:
    """The table's rows, in order."""
    found = blocks(tree.text(PAGE)) if tree.has(PAGE) else ()
    cells = [block for block in found if block.kind == "cell" and block.heading == HEADING and block.column == 0]
    return [Row(tuple(codes), cell.line) for cell in cells if (codes := CODE.findall(cell.text))]


def imported(tree: Tree, path: str) -> Iterator[tuple[int, str]]:
    """The lines with imports of a module, and the paths of the modules below python/ that they name."""
    folder = path.split("/")[1:-1]
    for node in ast.walk(ast.parse(tree.text(path))):
        if isinstance(node, ast.Import):
            names = [alias.name.split(".") for alias in node.names]
        elif isinstance(node, ast.ImportFrom):
            above = folder[: len(folder) - node.level + 1] if node.level else []
            module = [*above, *(node.module.split(".") if node.module else [])]
            names = [[*module, alias.name] for alias in node.names]
        else:
            continue
        for name in names:
            if found := _path_of(tree, name):
                yield node.lineno, found


def _path_of(tree: Tree, name: list[str]) -> str:
    """The module for a dotted name, or for its beginning; empty if it isn't below python/."""
    for length in range(len(name), 0, -1):
        path = "/".join(name[:length])
        for file in (f"{path}.py", f"{path}/__init__.py"):
            if tree.has(f"{PYTHON}{file}"):
                return file
    return ""


def imports(tree: Tree) -> Iterator[Finding]:
    """Modules without a row, imports from a row below, rows without modules, and folders with too many modules."""
    rows = rows_of(tree)
    if not rows:
        yield Finding(PAGE, 1, f"no table under {HEADING!r}")
        return
    seen = set[Row]()
    for path in tree.matching("python/*/*.py"):
        own = _row_of(rows, path.removeprefix(PYTHON))
        if own is None:
            if not path.endswith("/__init__.py"):
                yield Finding(path, 1, f"the table of {PAGE} has no row for it")
            continue
        seen.add(own)
        for line, other in sorted(set(imported(tree, path))):
            row = _row_of(rows, other)
            if row is not None and rows.index(row) > rows.index(own):
                yield Finding(path, line, f"imports {other}, and {row.name} is below {own.name} in {PAGE}")
    for row in rows:
        if row not in seen:
            yield Finding(PAGE, row.line, f"{row.name} contains no module")
    folders = Counter(str(PurePosixPath(path).parent) for path in tree.matching("python/*.py", "scripts/*.py"))
    for folder, count in folders.items():
        if count > MOST:
            yield Finding(f"{folder}/__init__.py", 1, f"{count} modules in its folder, {MOST} at most")


def _row_of(rows: list[Row], path: str) -> Row | None:
    """The row of a module: the row with the longest path that contains the module."""
    longest = max(rows, key=lambda row: row.fits(path))
    return longest if longest.fits(path) else None
