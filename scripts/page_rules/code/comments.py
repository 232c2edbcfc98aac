"""Rules for comments and lines: no comment depends on the one before it, and no line of a definition is too long."""

import re
from collections.abc import Iterator

from page_rules.tree import Finding, Tree

MOST_COLUMNS = 100

# the first line of a doc comment, of a definition's comment, or of a docstring
FIRST = re.compile(r"^(?P<indent>\s*)(?P<mark>///|--|\"\"\") ?(?P<text>\S.*)$")
# first words of a comment that mean something only together with another text
LEANS = re.compile(
    r"the same(?! \w)|the same (of|for|where|with|in|but|by)\b|so (are|is|do|does|did|has|have|can|may)\b"
    r"|those (who|that|which)\b|likewise\b|ditto\b"
    # a sentence that ends without its predicate, such as "The timers of both sides are."
    r"|the (?!.*\b(that|which|it|they)\b)\w[\w ]* (are|is|do|does|has|have)\.$",
    re.IGNORECASE,
)


def long_lines(tree: Tree) -> Iterator[Finding]:
    """Overlong lines in definitions."""
    for path in tree.matching("crates/*/specs/*.antt"):
        for number, line in tree.lines(path):
            if len(line) > MOST_COLUMNS and not line.startswith("use "):
                yield Finding(path, number, f"a line of {len(line)} columns")


def _leaning(tree: Tree, paths: list[str]) -> Iterator[Finding]:
    for path in paths:
        before = ""
        for number, line in tree.lines(path):
            first = FIRST.match(line)
            follows = before.lstrip().startswith(("///", "--")) and first is not None and first["mark"] != '"""'
            if first and not follows and LEANS.match(first["text"]):
                yield Finding(path, number, f"leans on the comment before it: {first['text'][:60]!r}")
            before = line


def leaning_docstrings(tree: Tree) -> Iterator[Finding]:
    """Python docstrings that mean nothing without the text before them."""
    return _leaning(tree, tree.matching("python/*.py", "scripts/*.py"))


def leaning_comments(tree: Tree) -> Iterator[Finding]:
    """In the crates, comments that mean nothing without the comment before them."""
    return _leaning(tree, tree.matching("crates/*/src/*.rt", "crates/*/specs/*.antt"))
