"""Checks the lists in docs/internals/ARCHITECTURE.md: the files that name most kinds, cells or commands, all crates,
and the crates' imports.

A developer who adds a kind, a cell or a command changes the files that name all of them. The page has a list for kinds,
a list for cells and a list for commands. Each file that names most of them must be in that list, as a file to change or
as a file that needn't change.
"""

import re
from collections.abc import Iterator
from dataclasses import dataclass

from page_rules.markdown import codes
from page_rules.tree import Finding, Tree

ARCHITECTURE = "docs/internals/ARCHITECTURE.md"
CRATES = "Where things are"
PROGRAM = "netrev"
BEGIN, END = "```mermaid\n", "```"

KIND = re.compile(r"^\s+\(Kind::(\w+), \"(\w+)\"\)", re.MULTILINE)
CELL = re.compile(r"^cell_name \(?Cell\.(\w+).*codes \"(\w+)\"", re.MULTILINE)
VARIANT = re.compile(r"^    (\w+)(?:\(\w+\))?,$(?=(?:.*\n)*?/// What is looked at)", re.MULTILINE)
COMMAND = re.compile(r"\bcommand\(\s*\"([a-z]+(?:[ -][a-z]+)*)")

IN_CRATES, IN_TOOLS = (".rt", ".antt"), (".py", ".json")
IN_CODE = (*IN_CRATES, *IN_TOOLS, ".rs", ".go")
IN_ALL = (*IN_CODE, ".md")


@dataclass(frozen=True)
class Vocabulary:
    """Names, each in one of several spellings; some files contain most of them."""

    what: str
    heading: str  # the section of the page that lists those files
    least: int  # a file counts if it contains at least this many names
    names: tuple[tuple[str, ...], ...]
    files: tuple[str, ...]  # the endings of the files to examine

    def counted_in(self, text: str) -> int:
        """How many of the names occur in a text."""
        return sum(any(_has(spelling, text) for spelling in spellings) for spellings in self.names)


def _has(name: str, text: str) -> bool:
    return re.search(rf"(?<![\w-]){re.escape(name)}(?![\w-])", text) is not None if name in text else False


def _found(tree: Tree, path: str, pattern: re.Pattern[str]) -> list[tuple[str, ...]]:
    """The matches of a pattern in a file, each with the spellings of a name."""
    found = pattern.findall(tree.text(path)) if tree.has(path) else []
    return [(item,) if isinstance(item, str) else item for item in found]


def vocabularies(tree: Tree) -> list[Vocabulary]:
    """The kinds of steps, the cells and the commands, from the files that define them."""
    kinds = _found(tree, "crates/nr_rev/src/kind.rt", KIND)
    cells = [(name, f'"{typed}"') for name, typed in _found(tree, "crates/nr_rev/specs/CellName.antt", CELL)]
    commands = _found(tree, "crates/nr_command/src/command.rt", VARIANT)
    typed = _found(tree, "python/netrev/text/commands.py", COMMAND)
    return [
        Vocabulary("kinds", "How to add a kind of step", 20, tuple(kinds), IN_ALL),
        Vocabulary("cells", "How to add a cell", 16, tuple(cells), IN_CODE),
        Vocabulary("commands", "How to add a command", 10, tuple(commands), IN_CRATES),
        Vocabulary("commands", "How to add a command", 10, tuple(typed), IN_TOOLS),
    ]


def named_many(tree: Tree) -> Iterator[Finding]:
    """Files that name most kinds, cells or commands and are missing from the page's list."""
    page = list(codes(tree.text(ARCHITECTURE))) if tree.has(ARCHITECTURE) else []
    paths = tree.matching(
        "crates/*/src/*", "crates/*/specs/*", "crates/*/proofs/*", "python/*", "docs/*", "*.md", "bench/*"
    )
    for vocabulary in vocabularies(tree) if page else ():
        listed = tuple(f"/{code}" for block, code in page if block.heading == vocabulary.heading)
        for path in paths:
            if path == ARCHITECTURE or not path.endswith(vocabulary.files) or f"/{path}".endswith(listed):
                continue
            count = vocabulary.counted_in(tree.text(path))
            if count >= vocabulary.least:
                says = f"names {count} {vocabulary.what}, and {vocabulary.heading!r} of {ARCHITECTURE} leaves it out"
                yield Finding(path, 1, says)


def _below(tree: Tree, crate: str) -> set[str]:
    """The crates that a crate imports, directly or indirectly."""
    imports = tree.crates[crate]
    return set(imports).union(*(_below(tree, other) for other in imports))


def drawn(tree: Tree) -> str:
    """The program's crates, as a diagram. An arrow is left out if a longer path implies it."""
    rows = ["flowchart TD"]
    shown = {PROGRAM, *_below(tree, PROGRAM)} if PROGRAM in tree.crates else set(tree.crates)
    for crate, imports in reversed(tree.crates.items()):
        indirect: set[str] = set().union(*(_below(tree, other) for other in imports))
        nearest = [other for other in imports if other not in indirect]
        if crate in shown and nearest:
            rows.append(f"    {crate} --> {' & '.join(nearest)}")
    return "\n".join(rows) + "\n"


def diagram(tree: Tree) -> Iterator[Finding]:
    """Whether the page's diagram agrees with crates.txt, and the page's list has all crates."""
    if not tree.has(ARCHITECTURE) or not tree.crates:
        return
    text = tree.text(ARCHITECTURE)
    _, begin, rest = text.partition(BEGIN)
    if not begin or rest.partition(END)[0] != drawn(tree):
        yield Finding(ARCHITECTURE, 1, "the diagram isn't what `scripts/pages.py --diagram` prints of crates.txt")
    listed = {code.removeprefix("crates/") for block, code in codes(text) if block.heading == CRATES}
    for crate in tree.crates:
        if crate not in listed:
            yield Finding(ARCHITECTURE, 1, f"{CRATES!r} leaves {crate} out")
