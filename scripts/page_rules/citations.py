"""Checks that each function, clause and definition that docs/proof/PROMISES.md cites exists, and that names in other
pages exist.

The right column of PROMISES names functions and, after a colon, the labels of their clauses: `Snaps::load`: `film`,
`good`. Names after "against", "over", "with" and the like are definitions. "The same" refers to the names in the
previous row.
"""

import re
from collections.abc import Iterator

from page_rules.markdown import CODE, Block, blocks, codes, prose
from page_rules.sources import Crate, crates_of
from page_rules.tree import Finding, Tree

PROMISES = "docs/proof/PROMISES.md"
# words that end the labels in a cell: all code font before the first such word is a label
UP_TO = re.compile(r"\b(?:against|over|with|by|of|within|in|which|for|whatever)\b|\(")
NAME = re.compile(r"(?:\w+::)*[\w-]+")
QUALIFIED = re.compile(r"(?:\w+::)*?(?:(?P<owner>\w+)::)?(?P<name>[\w-]+)")
IMPL = re.compile(r"impl (\w+) for (\w+)")
SAME = re.compile(r"\b(?:the same|these calls)\b")
OUTSIDE_CODE = re.compile(r"([;:])(?=(?:[^`]*`[^`]*`)*[^`]*$)")


class Cited:
    """The names that a section may cite: the names in its crate and in the crates below it."""

    def __init__(self, crates: dict[str, Crate], own: list[str]) -> None:
        self.own = [crates[name] for name in own]
        self.all = self.own + [crate for name, crate in crates.items() if name not in own]

    def members_of(self, subject: str) -> set[str]:
        """The labels of a subject: a function's clauses, all clauses of an `impl`, or a definition."""
        if found := IMPL.fullmatch(subject):
            trait, owner = found.groups()
            functions = [
                function
                for crate in self.all
                for function in crate.functions
                if trait in (function.owner, function.trait)
            ]
            labels = {label for function in functions for label in function.labels} | {
                function.name for function in functions
            }
            return labels | {name for crate in self.all for name in crate.names | crate.definitions}
        parts = QUALIFIED.fullmatch(subject)
        if parts is None:
            return set()
        name, owner = parts["name"], parts["owner"] or ""
        for crates in (self.own, self.all):
            functions = [function for crate in crates for function in crate.called(name, owner)]
            members = [crate.members | crate.definitions for crate in crates if name in crate.definitions and not owner]
            if functions or members:
                return {label for function in functions for label in function.labels}.union(*members)
        return set()

    def is_definition(self, name: str) -> bool:
        return any(name in crate.definitions or name in crate.members for crate in self.all)

    def has(self, name: str) -> bool:
        """Whether a function, type, member, definition or text of this name exists."""
        *_, owner, last = ["", *name.split("::")] if NAME.fullmatch(name) else ["", name]
        for crate in self.all:
            if crate.called(last, owner) or name in crate.definitions or name in crate.names or name in crate.members:
                return True
            if owner and re.search(rf"\b{owner}\b", crate.text) and last in crate.names:
                return True
            if not owner and re.search(rf"(?<!\w){re.escape(name)}(?!\w)", crate.text):
                return True
        return any(name in function.labels for crate in self.own for function in crate.functions)


def _wrong_in(part: str, cited: Cited, before: list[str]) -> Iterator[str]:
    """The names that a part of a cell cites, but that don't exist. Adds the part's subjects to the list of earlier
    subjects."""
    left, colon, right = (OUTSIDE_CODE.split(part, maxsplit=1) + ["", ""])[:3]
    subjects = CODE.findall(left) if colon else CODE.findall(part)
    before.extend(subjects)
    yield from (f"there is no {name}" for name in subjects if "/" not in name and not cited.has(name))
    if not colon:
        return
    end = UP_TO.search(right)
    labels = CODE.findall(right[: end.start()] if end else right)
    cites = before if SAME.search(left) else subjects
    allowed = set().union(*map(cited.members_of, cites))
    for label in labels:
        if NAME.fullmatch(label) and label not in allowed and not cited.is_definition(label):
            yield f"{left.strip()}: there is no clause {label}"
    for name in CODE.findall(right[end.start() :] if end else ""):
        if NAME.fullmatch(name) and "/" not in name and not cited.has(name):
            yield f"there is no {name}"


def promises(tree: Tree) -> Iterator[Finding]:
    """Citations of names that don't exist, in the right column of PROMISES."""
    if not tree.has(PROMISES):
        return
    crates, before, cell = crates_of(tree), [], Block(0, "text", "")  # type: dict[str, Crate], list[str], Block
    for block in blocks(tree.text(PROMISES)):
        if block.kind != "cell" or block.column != 1 or block.text == "By":
            continue
        if block.heading != cell.heading:
            before = []
        cell = block
        cited = Cited(crates, [block.heading] if block.heading in crates else [])
        for part in re.split(r";(?=(?:[^`]*`[^`]*`)*[^`]*$)", block.text):
            for says in _wrong_in(part, cited, before):
                yield Finding(PROMISES, block.line, says)


# names of Go, Python and the system
ELSEWHERE = {"TestMain", "RuntimeError", "O_NONBLOCK", "ReadTimeout"}
# the history page, which may name things that no longer exist
HISTORY = "CHANGELOG.md"
# names on a page that must exist in the sources: qualified names, and names of several words
OURS = re.compile(r"[A-Za-z]\w*(?:::\w+)+|[a-z]+(?:_[a-z0-9]+)+|(?:[A-Z][a-z0-9]+){2,}|[A-Z]+(?:_[A-Z]+)+")


def names(tree: Tree) -> Iterator[Finding]:
    """Names in code font that don't exist anywhere here."""
    sources = tree.matching("crates/*.rt", "crates/*.antt", "*.py", "*.go", "*.sh")
    words = {*tree.crates, *ELSEWHERE, *re.findall(r"\w+", "".join(map(tree.text, sources)))}
    for page in tree.pages:
        for block, code in codes(tree.text(page)) if page != HISTORY else ():
            if OURS.fullmatch(code) and not words.issuperset(code.split("::")):
                yield Finding(page, block.line, f"nothing here has the name {code}")


# names, then "in" or "of", and then their file
IN_FILE = re.compile(r"((?:`[^`]+`(?:, | and )?)+) (?:in|of) `([\w./*-]+\.(?:rt|antt|py|sh|rs|go))`")


def in_files(tree: Tree) -> Iterator[Finding]:
    """Names that a page attributes to a file that doesn't contain them."""
    for page in tree.pages:
        for block in prose(tree.text(page)) if page != HISTORY else ():
            for cited, path in IN_FILE.findall(block.text):
                files = [file for file in tree.paths if f"/{file}".endswith(f"/{path}")]
                for name in CODE.findall(cited):
                    words = re.findall(r"\w+", name) if NAME.fullmatch(name) else []
                    if files and not any(set(words) <= set(re.findall(r"\w+", tree.text(file))) for file in files):
                        yield Finding(page, block.line, f"{path} doesn't have {name}")
