"""Checks that docs/proof/TRUSTED.md says what the verdict on the program takes as given, and that no function that the
program calls may wait.

The last line of a crate's check is its verdict. The gate stores it (scripts/verdicts.py), with a checksum of the
crate's files. If `rt ci` reuses an earlier proof, it prints no verdict; then the stored verdict counts, as long as the
files are unchanged. If no verdict is stored, a note says so, and only the page, README.md and crates.txt are compared.
"""

import hashlib
import json
import re
from collections.abc import Iterator

from page_rules.tree import Finding, Tree

PAGE, README, CRATES = "docs/proof/TRUSTED.md", "README.md", "crates.txt"
KEPT = "out/verdicts.json"
PROGRAM = "netrev"
# by crate, functions that take `Wait` and that no program calls
WRAPPERS = {"nr_lines": 1}
# a crate's number of functions says nothing about what must be trusted
NOT_OF_TRUST = {"functions"}

SECTION = re.compile(r"^== (\w+)$")
# on the page, a line break may occur here
LINE = re.compile(r"^    (logic=proved .*(?:\n    \S.*)*)", re.MULTILINE)
# words in lines that aren't a verdict on a crate: the lines are about its tests, or come from a check that continued an
# earlier one
NO_VERDICT = re.compile(r" (?:tests|incremental)=")
KIT = re.compile(r"rattle-kit-\w+ logic (\w+)")
MAY_WAIT = re.compile(r"^(\w+)\b[^:\n]*\bmay_wait=(\d+)", re.MULTILINE)

Words = dict[str, str]


def words_of(line: str) -> Words:
    """The words of a verdict's line, by key."""
    pairs = (word.partition("=") for word in line.split())
    return {name: value for name, _, value in pairs if name not in NOT_OF_TRUST}


def verdicts_in(log: str) -> dict[str, str]:
    """The verdict on each crate of a log."""
    found, crate = {}, ""
    for line in log.split("\n"):
        if section := SECTION.match(line):
            crate = section.group(1)
        elif line.startswith("logic=proved ") and not NO_VERDICT.search(line) and crate:
            found[crate] = line
    return found


def below(tree: Tree, crate: str) -> list[str]:
    """A crate and all that it imports, in the order of crates.txt."""
    found = {crate}
    for name in reversed(tree.crates):
        if name in found:
            found.update(tree.crates[name])
    return [name for name in tree.crates if name in found]


def _own_sum(tree: Tree, crate: str) -> str:
    """A checksum of a crate's own files."""
    summed = hashlib.sha256()
    for path in tree.matching(f"crates/{crate}/src/*", f"crates/{crate}/specs/*", f"crates/{crate}/proofs/*"):
        summed.update(f"{path}\n{tree.text(path)}\n".encode())
    return summed.hexdigest()


def sums(tree: Tree) -> dict[str, str]:
    """For each crate, a checksum of the files that its verdict covers: its own, and those of all crates that it
    imports."""
    found: dict[str, str] = {}
    for name, imports in tree.crates.items():
        summed = [_own_sum(tree, name), *(found.get(other, "") for other in imports)]
        found[name] = hashlib.sha256(" ".join(summed).encode()).hexdigest()
    return found


def kept(tree: Tree) -> dict[str, str]:
    """The stored verdicts that are valid for the current files, by crate."""
    file = tree.root / KEPT
    records = json.loads(file.read_text(encoding="utf-8")) if file.exists() else {}
    now = sums(tree) if records else {}
    return {name: record["line"] for name, record in records.items() if now.get(name) == record["sum"]}


def _of_page(tree: Tree, page: Words) -> Iterator[str]:
    """Statements in the page that README.md and crates.txt contradict."""
    if found := KIT.search(tree.text(README) if tree.has(README) else ""):
        if found.group(1) != page.get("sum"):
            yield f"the verdict is of logic {page.get('sum')}, and {README} names {found.group(1)}"
    if "may-wait" in page or "Wait" in page.get("main", ""):
        yield "the verdict has leave to wait"
    waits = {name: int(count) for name, count in MAY_WAIT.findall(tree.text(CRATES))}
    for name in below(tree, PROGRAM):
        if waits.get(name, 0) != WRAPPERS.get(name, 0):
            yield f"{CRATES} has {waits.get(name, 0)} functions of {name} that may wait, and not {WRAPPERS.get(name, 0)}"


def _of_verdicts(tree: Tree, page: Words, lines: dict[str, str]) -> Iterator[str]:
    """Statements in the page that these verdicts contradict."""
    waits = dict(MAY_WAIT.findall(tree.text(CRATES)))
    for name, line in lines.items():
        words = words_of(line)
        if words.get("may-wait", "0") != waits.get(name, "0"):
            yield f"of {name} {words.get('may-wait', '0')} functions may wait, and {CRATES} has {waits.get(name, '0')}"
        if name == PROGRAM and words != page:
            differ = sorted(key for key in words.keys() | page.keys() if words.get(key) != page.get(key))
            yield f"the verdict on {name} differs in {', '.join(f'{key}={words.get(key)}' for key in differ)}"


def verdict(tree: Tree) -> Iterator[Finding]:
    """Wrong statements in the page about the verdict."""
    if not tree.has(PAGE):
        return
    lines = LINE.findall(tree.text(PAGE))
    if len(lines) != 1:
        yield Finding(PAGE, 1, f"the page has {len(lines)} lines of a verdict, and not one")
        return
    page = words_of(lines[0])
    at = tree.text(PAGE)[: tree.text(PAGE).index(lines[0])].count("\n") + 1
    here = kept(tree)
    for says in (*_of_page(tree, page), *_of_verdicts(tree, page, here)):
        yield Finding(PAGE, at, says)
    if PROGRAM not in here:
        tree.notes.append(f"no verdict on these files of {PROGRAM} is kept here, so {PAGE} isn't compared with one")
