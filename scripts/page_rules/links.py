"""Checks that each path and each link in a page exists, and that each anchor belongs to a heading."""

import re
from collections.abc import Iterator
from fnmatch import fnmatch
from os.path import normpath
from pathlib import PurePosixPath

from page_rules.markdown import LINK, anchors, blocks, codes
from page_rules.tree import Finding, Tree

# the form of a path in code font: folders, or a file with one of these endings
PATH = re.compile(r"(?:[\w.*-]+/)+[\w.*-]*|[\w.*-]+\.(?:rt|antt|md|py|sh|edit|jsonl|script|replies|nrdb|session|where)")
# a part of a path that the reader fills in
FILLED_IN = re.compile(r"[A-Z][A-Z0-9_]*(?:-[\w-]+)?(?:\.\w+){0,2}|my\.\w+|\.\.\.")
# folders that a program makes, packages in Go's own sources, and media types
ELSEWHERE = re.compile(
    r"(?:.*/)?out/|recordings/|(?:internal|runtime|net|encoding|go/parser|go/ast|std|text|application)(?:/|$)"
)
# names in an archive, examples in a page, and a reader's own files
NAMED_ONLY = {"bin/nrdb", "src/m.rt", "bad.jsonl", "recording.jsonl", "recording.where", "now.jsonl", "bug.md", "./pkg"}
# the history page, which may name files that no longer exist
HISTORY = "CHANGELOG.md"


def _leads_nowhere(tree: Tree, page: str, target: str) -> str | None:
    """The reason why a link leads nowhere."""
    path, _, named = target.partition("#")
    place = normpath(str(PurePosixPath(page).parent / path)) if path else page
    if not tree.has(place):
        return f"the link {target} leads nowhere"
    if named and (not place.endswith(".md") or named not in anchors(tree.text(place))):
        return f"the link {target}: {place} has no such heading"
    return None


def links(tree: Tree) -> Iterator[Finding]:
    """Links of pages that lead nowhere."""
    for page in tree.pages:
        for block in blocks(tree.text(page)):
            for _, target in LINK.findall(block.text) if block.kind != "code" else ():
                says = None if "://" in target else _leads_nowhere(tree, page, target)
                if says:
                    yield Finding(page, block.line, says)


def is_there(tree: Tree, path: str) -> bool:
    """Whether a file or folder has this path, or a path that ends with it. A page may write `src/kind.rt`
    if it is clear which crate is meant."""
    wanted = path.rstrip("/")
    if "*" in wanted:
        return any(fnmatch(place, wanted) or fnmatch(place, "*/" + wanted) for place in tree.places)
    return wanted in tree.endings


def _is_path(word: str) -> bool:
    """Whether a word in code font is the path of a file or a folder that should be here."""
    is_elsewhere = word in NAMED_ONLY or ELSEWHERE.match(word)
    return bool(PATH.fullmatch(word)) and not is_elsewhere and not any(map(FILLED_IN.fullmatch, word.split("/")))


def paths(tree: Tree) -> Iterator[Finding]:
    """Paths in code font that are neither a file nor a folder."""
    for page in tree.pages:
        for block, code in codes(tree.text(page)) if page != HISTORY else ():
            for word in filter(_is_path, code.split()):
                if not is_there(tree, word.removeprefix("./")):
                    yield Finding(page, block.line, f"there is no {word}")
