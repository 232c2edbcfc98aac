"""Checks that no page contains the marks of a merge conflict."""

import re
from collections.abc import Iterator

from page_rules.tree import Finding, Tree

MARKER = re.compile(r"(?:<{7}|>{7}|\|{7})(?: |$)|={7}$")


def markers(tree: Tree) -> Iterator[Finding]:
    """Lines in pages that mark a conflict."""
    for page in tree.pages:
        for number, line in enumerate(tree.text(page).split("\n"), 1):
            if MARKER.match(line):
                yield Finding(page, number, f"{line} marks a conflict of a merge")
