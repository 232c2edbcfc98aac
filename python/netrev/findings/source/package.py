"""The files of a package of the program, and the types of its simple expressions: receivers, parameters, and fields of
structs."""

import os
import re
from collections.abc import Iterator
from functools import lru_cache

from netrev.recording.recording import Recording
from netrev.recording.where import SourceCall

from .functions import Lines, source

STRUCT = re.compile(r"(?:type )?(\w+)(?:\[[^\]]*\])? struct \{$")
IN_A_LINE = re.compile(r"type (\w+) struct ?\{ ?(.+?) ?\}$")
FIELD = re.compile(r"\s+(\w+(?:, \w+)*)\s+\*?([\w.]+(?:\[[\w.]+\])?)\s*(?:`.*)?$")
EMBEDDED = re.compile(r"\s+\*?([\w.]+)\s*$")
HEAD = re.compile(r"func (?:\((\w+) \*?(\w+)(?:\[[^\]]*\])?\) )?(\w+)(?:\[[^\]]*\])?\(([^)]*)")
PARAMETER = re.compile(r"(\w+(?:, \w+)*) \*?([\w.]+)(?:,|$)")
ALIAS, MADE = re.compile(r"\s*(\w+) := ([\w.]+)$"), re.compile(r"\s*(\w+) := &?(\w+)\{")
MOST_FILES = 40


def files_of(recording: Recording, file: str) -> Iterator[tuple[str, Lines]]:
    """The files of a file's package, named as in a recording, starting with the file itself. Test files are left out
    unless the file is a test."""
    folder, name = os.path.split(file)
    for path in (file, *others_in(os.path.abspath(folder or "."), name)):
        lines = source(os.path.abspath(os.path.join(folder, os.path.basename(path))), recording.lines.written)
        if lines:
            yield os.path.join(folder, os.path.basename(path)), lines


@lru_cache(maxsize=256)
def places_with(recording: Recording, file: str, pattern: "re.Pattern[str]") -> tuple[str, ...]:
    """The lines of a file's package whose code matches a pattern."""
    return tuple(
        f"{path}:{number}"
        for path, lines in files_of(recording, file)
        for number, text in enumerate(lines, 1)
        if pattern.search(text.partition("//")[0])
    )


@lru_cache(maxsize=64)
def others_in(folder: str, name: str) -> tuple[str, ...]:
    """The other Go files of a folder."""
    try:
        found = sorted(file for file in os.listdir(folder) if file.endswith(".go") and file != name)
    except OSError:
        return ()
    is_test = name.endswith("_test.go")
    return tuple(file for file in found if is_test or not file.endswith("_test.go"))[:MOST_FILES]


def field_type(recording: Recording, file: str, of_type: str, field: str) -> str | None:
    """The type of a field of a struct of the package; None if the field isn't found."""
    for _, lines in files_of(recording, file):
        if of_type in (fields := fields_in(lines)):
            return fields[of_type].get(field)
    return None


@lru_cache(maxsize=128)
def fields_in(lines: Lines) -> dict[str, dict[str, str]]:
    """The fields of each struct that a file defines, with their types."""
    found: dict[str, dict[str, str]] = {}
    current: dict[str, str] | None = None
    for text in (line.partition("//")[0].rstrip() for line in lines):
        if whole := IN_A_LINE.match(text):
            fields = (field for part in whole[2].split(";") if (field := FIELD.match(f" {part.strip()}")))
            found[whole[1]] = {name: field[2] for field in fields for name in field[1].split(", ")}
        elif named := STRUCT.match(text.strip()):
            current = found.setdefault(named[1], {})
        elif text.strip() == "}":
            current = None
        elif current is not None and (field := FIELD.match(text)):
            current.update((name, field[2]) for name in field[1].split(", "))
        elif current is not None and (embedded := EMBEDDED.match(text)):
            current[embedded[1].rpartition(".")[2]] = embedded[1]
    return found


def variables_of(recording: Recording, lines: Lines, call: SourceCall) -> dict[str, str]:
    """The types of the receiver, the parameters, and simple variables in the function of a call."""
    heads = [(number, head) for number, text in enumerate(lines[: call.line]) if (head := HEAD.match(text))]
    if not heads:
        return {}
    begin, head = heads[-1]
    found = {name: kind for names, kind in PARAMETER.findall(head[4]) for name in names.split(", ")}
    found |= {head[1]: head[2]} if head[1] else {}
    for text in (line.partition("//")[0].rstrip() for line in lines[begin : call.line - 1]):
        if match := MADE.match(text):
            found[match[1]] = match[2]
        elif (alias := ALIAS.match(text)) and (kind := type_of(recording, call.file, found, alias[2].split("."))):
            found[alias[1]] = kind
    return found


def type_of(recording: Recording, file: str, variables: dict[str, str], path: list[str]) -> str | None:
    """The type of a variable's field, from the types of the variables."""
    first, *fields = path
    kind = variables.get(first)
    for field in fields:
        kind = field_type(recording, file, kind, field) if kind else None
    return kind


def place_of_variable(recording: Recording, call: SourceCall, expression: str) -> str | None:
    """The field and struct that an expression names in the function of a call: `Node.mu` for `s.node.mu`; None if
    unknown."""
    lines = source(os.path.abspath(call.file), recording.lines.written)
    *path, field = expression.split(".")
    if not lines or not path:
        return None
    kind = type_of(recording, call.file, variables_of(recording, lines, call), path)
    return f"{kind.partition('[')[0]}.{field}" if kind else None
