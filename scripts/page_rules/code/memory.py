"""Finds values whose memory is never freed, and places that report refused memory.

No contract says that undoing frees memory, so each place that forgets a value is checked. No contract says when an
allocation is refused, so only code that has the library's error may report a refusal.
"""

import re
from collections.abc import Iterator

from page_rules import verdict
from page_rules.sources import without_comments
from page_rules.tree import Finding, Tree

# calls that keep a value's memory from being freed
FORGETS = re.compile(r"\bmem::forget\b|\bManuallyDrop\b|\b(?:Box|Vec|String)::leak\b|\.leak\(\)|\binto_raw\b")
# the only file that may forget a value
MAY_FORGET = "crates/nr_rev/src/keeper.rt"


def forgotten(tree: Tree) -> Iterator[Finding]:
    """Places in the crates that forget a value, except in the only file that may do so."""
    for path in tree.matching("crates/*/src/*.rt"):
        for number, line in enumerate(without_comments(tree.text(path)).split("\n"), 1):
            if path != MAY_FORGET and (found := FORGETS.search(line)):
                yield Finding(path, number, f"{found[0]} leaks memory, and is allowed only in {MAY_FORGET}")


# places that only name the library's error type: a function's result, a conversion from the error, and an import
# without renaming
TYPE = re.compile(
    r", AllocError>|\bFrom<AllocError>|\bfn from\(\w+: AllocError\)|^use std::alloc::(?:AllocError|\{[\w, ]*\});$"
)
# the name of the error type; outside the places above, the line creates or renames a refusal
MADE = re.compile(r"\bAllocError\b")
# a library's own name for a refused allocation, without the type that carries the refusal
SAID = re.compile(r"\b(?:\w+::OutOfMemory|Category::Memory)\b.*=>")
# the line that reports a refusal
PRINTED = re.compile(r'"fault 108 memory')
MESSAGE = re.compile(r"\s*#\[error\(")
# CARRIES defines the type that carries a refusal; PRINTS defines the faults that contain a refusal and print the line
# above
CARRIES = "crates/nr_rev/src/memory.rt"
PRINTS = "crates/nr_recording/src/fault.rt"


def refused(tree: Tree) -> Iterator[Finding]:
    """Places in the program that report a lack of memory on their own: they create the refusal themselves instead of
    passing on the library's, or print the line themselves."""
    for crate in verdict.below(tree, verdict.PROGRAM):
        for path in tree.matching(f"crates/{crate}/src/*.rt"):
            for number, line in enumerate(without_comments(tree.text(path)).split("\n"), 1):
                if path != CARRIES and not SAID.search(line) and (found := MADE.search(TYPE.sub("", line))):
                    yield Finding(path, number, f"{found[0]}: nothing here says that memory was refused")
                if path != PRINTS and not MESSAGE.match(line) and (found := PRINTED.search(line)):
                    yield Finding(path, number, f"{found[0].strip(chr(34))} is allowed only in {PRINTS}")
