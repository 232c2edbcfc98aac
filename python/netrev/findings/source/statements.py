"""A function in gofmt's form as a tree of statements: which of them are blocks, and the end of each block."""

import re
from collections.abc import Iterator
from typing import NamedTuple

from .functions import Lines, indent_of

HEAD = re.compile(r"(?:\w+: *)?(if|for|switch|select)\b")
CLAUSE = re.compile(r"case\b|default:$")
LABEL = re.compile(r"\w+:$")


class Statement(NamedTuple):
    """A statement. `number` is its first line, `text` its text (of all lines, if it isn't a block), and `kind` is `if`,
    `for`, `switch`, `select` or empty. If `is_whole`, one of its branches always runs."""

    number: int
    text: str
    kind: str
    branches: "list[StatementBranch]"
    is_whole: bool


class StatementBranch(NamedTuple):
    """A branch of a block: its head, and its statements."""

    number: int
    text: str
    body: list[Statement]


def code_at(lines: Lines, number: int) -> str:
    """The text of a line without its comment."""
    return lines[number - 1].partition("//")[0].strip()


def statements_of(lines: Lines, within: range) -> list[Statement]:
    """The statements of a block. The first and the last of these lines are the block's head and end."""
    return list(read(lines, range(within.start + 1, within.stop - 1)))


def read(lines: Lines, within: range) -> Iterator[Statement]:
    """The statements of some lines."""
    number = within.start
    while number in within:
        text = code_at(lines, number)
        if not text or LABEL.fullmatch(text):
            number += 1
            continue
        end = end_of(lines, number, within.stop)
        kind = HEAD.match(text)
        if kind and lines[end - 1].strip().startswith("}") and end > number:
            yield block(lines, kind[1], range(number, end + 1))
        else:
            whole = " ".join(code_at(lines, at) for at in range(number, end + 1))
            yield Statement(number, whole, "", [], True)
        number = end + 1


def end_of(lines: Lines, number: int, stop: int) -> int:
    """The last line of the statement that begins at a line."""
    margin, end = indent_of(lines[number - 1]), number
    is_switch = re.match(r"(\w+: *)?(switch|select)\b", code_at(lines, number))
    for at in range(number + 1, stop):
        text = code_at(lines, at)
        indent = indent_of(lines[at - 1])
        if not text or indent > margin:
            continue
        if indent == margin and (text.startswith(("}", ")")) or (is_switch and CLAUSE.match(text))):
            end = at
            if not text.endswith(("{", "(", ":")):
                break
        else:
            break
    return end


def block(lines: Lines, kind: str, within: range) -> Statement:
    """The block that has the first of these lines as its head, and the last as its end."""
    number, margin = within.start, indent_of(lines[within.start - 1])
    heads = [at for at in within[:-1] if indent_of(lines[at - 1]) == margin and code_at(lines, at)]
    if kind in ("switch", "select"):
        heads = [at for at in heads[1:] if CLAUSE.match(code_at(lines, at))]
    branches = [
        StatementBranch(at, code_at(lines, at), list(read(lines, range(at + 1, end))))
        for at, end in zip(heads, [*heads[1:], within[-1]])
    ]
    last = branches[-1].text if branches else ""
    whole = kind == "select" or last == "} else {" or any(branch.text == "default:" for branch in branches)
    return Statement(number, code_at(lines, number), kind, branches, whole and kind != "for")
