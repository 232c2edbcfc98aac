"""Checks that the quotes in docs/proof/THEOREM.md and the computed sessions equal their sources, character by
character.

    quotes  each code block of the page occurs in the file that is named on the line above it
    texts   each file of examples/ equals its bytes in crates/nr_programs/specs/Examples.antt
    runs    each recording of examples/ and scripts/recordings/ equals its run there or in ShortRuns.antt, step by step
"""

import json
import re
from collections.abc import Iterator

from page_rules.tree import Finding, Tree, line_at

PAGE = "docs/proof/THEOREM.md"
EXAMPLES = "crates/nr_programs/specs/Examples.antt"
SHORT = "crates/nr_programs/specs/ShortRuns.antt"

# a line that names a file, and the block after it
QUOTE = re.compile(r"^`([^`\n]+)`:?\n\n```\w*\n(.*?)^```$", re.MULTILINE | re.DOTALL)
BLOCK = re.compile(r"^```", re.MULTILINE)
# a comment that names a file, the name of its bytes, and the bytes
BYTES = re.compile(r"^-- (examples/\S+)\nabbrev pub (\w+) : List ℕ\n\2 =(.*?)(?=\n\n|\Z)", re.MULTILINE | re.DOTALL)
TEXT = re.compile(r'codes "((?:[^"\\]|\\.)*)"')
# a comment that names a recording, its limits and its steps
RUN = re.compile(
    r"^-- the run of (\S+\.jsonl)\nabbrev pub (\w+) : Recording\n\2 = record \{\n"
    r"  limits = record \{ (.*?) \};\n  steps =\s(.*?);\n\}$",
    re.MULTILINE | re.DOTALL,
)
LIMITS = {"gor": "goroutines", "sock": "sockets", "desc": "descriptors", "buf": "buffer"}
# a word of a step, or something in parentheses
WORD = re.compile(r"\([^()]*\)|\[\]|[^\s()]+")
WORDS: dict[str, str | int] = {
    "sides.Read": "r",
    "sides.Write": "w",
    "modes.Read": "r",
    "modes.Write": "w",
    "modes.Both": "rw",
    "true": 1,
    "false": 0,
}
ESCAPES = {"n": "\n", "r": "\r", "t": "\t", '"': '"', "\\": "\\"}


def quotes(tree: Tree) -> Iterator[Finding]:
    """Quotes in the page that differ from their files."""
    page = tree.text(PAGE) if tree.has(PAGE) else ""
    found = list(QUOTE.finditer(page))
    if page and (2 * len(found) != len(BLOCK.findall(page)) or not found):
        yield Finding(PAGE, 1, "a block of code has no line above it that names its file, or there is none")
    for quote in found:
        name, text = quote.groups()
        if not tree.has(name) or text not in tree.text(name):
            yield Finding(PAGE, line_at(page, quote.start()), f"this is not in {name}: {text.splitlines()[0]}")


def bytes_of(text: str) -> bytes | None:
    """The bytes of a definition; None if it contains anything other than strings."""
    parts = TEXT.findall(text)
    if TEXT.sub("", text).replace("++", "").split():
        return None
    return "".join(re.sub(r"\\(.)", lambda escape: ESCAPES[str(escape.group(1))], part) for part in parts).encode()


def texts(tree: Tree) -> Iterator[Finding]:
    """Definitions whose bytes differ from the bytes of their files."""
    source = tree.text(EXAMPLES) if tree.has(EXAMPLES) else ""
    found = list(BYTES.finditer(source))
    if source and not found:
        yield Finding(EXAMPLES, 1, "there are no texts to compare")
    for match in found:
        name, definition, text = match.groups()
        if not tree.has(name) or bytes_of(text) != tree.text(name).encode():
            yield Finding(EXAMPLES, line_at(source, match.start()), f"{definition} has other bytes than {name}")


def argument(word: str) -> str | int:
    """The recording's form of a step's argument: a word, a number, a time, or bytes."""
    if word in WORDS:
        return WORDS[word]
    inside = word.strip("()")
    if inside.startswith("pos "):
        return int(inside.removeprefix("pos "))
    if inside.startswith("negsuc "):
        return -1 - int(inside.removeprefix("negsuc "))
    if word == "[]":
        return ""
    if word.startswith("("):
        return bytes(int(byte) for byte in inside.split(" ∷ ")[:-1]).hex()
    return int(word)


def steps_of(text: str) -> list[list[str | int]]:
    """The steps of a run, in the recording's form."""
    line = " ".join(text.split())
    *steps, end = re.split(r" ∷ (?![^()]*\))", line)
    words = [WORD.findall(step) for step in steps if end == "[]"]
    return [[name.lower(), *map(argument, arguments)] for name, *arguments in words]


def _is_run(tree: Tree, name: str, limits: str, steps: str) -> bool:
    """Whether these are the limits and the steps of a recording."""
    if not tree.has(name):
        return False
    header, *lines = [json.loads(line) for line in tree.text(name).splitlines() if line.strip()]
    wanted = "; ".join(f"{long} = {header[short]}" for short, long in LIMITS.items())
    if header["netrev"] == 2:
        lines = [line[:-1] for line in lines]
    return limits == wanted and steps_of(steps) == lines


def runs(tree: Tree) -> Iterator[Finding]:
    """Definitions whose limits or steps differ from those of the recording that they name."""
    for path in filter(tree.has, (EXAMPLES, SHORT)):
        source = tree.text(path)
        found = list(RUN.finditer(source))
        if not found:
            yield Finding(path, 1, "there are no runs to compare")
        for match in found:
            name, definition, limits, steps = match.groups()
            if not _is_run(tree, name, limits, steps):
                yield Finding(path, line_at(source, match.start()), f"{definition} isn't the run of {name}")
