"""The mutants of a file of the recorder's Go, found in its text; comments and strings stay as they are."""

from __future__ import annotations

import re
from collections.abc import Iterator
from pathlib import Path

from .changes import CASE, COMPARISON, FORGOTTEN, OFF_BY_ONE, SIDES, Mutant

LEFT_ALONE = re.compile(r'//[^\n]*|/\*.*?\*/|"(?:\\.|[^"\\\n])*"|`[^`]*`|\'(?:\\.|[^\'\\])+\'', re.S)
FUNCTION = re.compile(r"^func (?:\(\w+ \*?(\w+)\) )?(\w+)", re.M)
SPACED = {" < ": " <= ", " <= ": " < ", " > ": " >= ", " >= ": " > ", " == ": " != ", " != ": " == "}
REPLACED: tuple[tuple[str, re.Pattern[str], str], ...] = (
    *((COMPARISON, re.compile(re.escape(old)), new) for old, new in SPACED.items()),
    (COMPARISON, re.compile(r" && "), " || "),
    (COMPARISON, re.compile(r" \|\| "), " && "),
    (CASE, re.compile(r"(?<=\bif )(?!.*;)[^\n{]+(?= \{\n)"), "false"),
    (CASE, re.compile(r"(?<=\bif )(?!.*;)[^\n{]+(?= \{\n)"), "true"),
    (SIDES, re.compile(r" \+ "), " - "),
    (SIDES, re.compile(r" - "), " + "),
    (SIDES, re.compile(r"(?<=\w)\+\+"), "--"),
    (OFF_BY_ONE, re.compile(r"(?<= [-+] )1\b"), "2"),
    (OFF_BY_ONE, re.compile(r"(?<=[<>=] )(?:\d+)\b"), "{next}"),
    (FORGOTTEN, re.compile(r"(?<=^\t)(?:\t)*[\w.]+(?:\[[^\n]*\])? [-+|&]?= [^\n{]+(?=\n)", re.M), ""),
    (FORGOTTEN, re.compile(r"(?<=^\t)(?:\t)*[\w.]+\([^\n]*\)(?=\n)", re.M), ""),
    (FORGOTTEN, re.compile(r"(?<=\t)(?:break|continue)(?=\n)"), ""),
)


def go_mutants_of(root: Path, path: Path) -> Iterator[Mutant]:
    """The mutants in a file's functions. Mutants that don't compile are detected when they are tried."""
    text = path.read_text(encoding="utf-8")
    masked = LEFT_ALONE.sub(lambda found: re.sub(r"[^\n]", "\0", found[0]), text)
    functions = list(FUNCTION.finditer(masked))
    file = str(path.relative_to(root))
    for kind, pattern, new in REPLACED:
        for found in pattern.finditer(masked):
            before = [function for function in functions if function.start() < found.start()]
            if not before or re.search(r"^}$", masked[before[-1].start() : found.start()], re.M):
                continue
            old = text[found.start() : found.end()]
            function = ".".join(filter(None, before[-1].groups()))
            line = text.count("\n", 0, found.start()) + 1
            source = text.splitlines()[line - 1].strip()
            replaced = str(int(old) + 1) if new == "{next}" else new
            yield Mutant(file, line, function, function, True, kind, found.start(), found.end(), old, replaced, source)
