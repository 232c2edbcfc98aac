"""The tables of messages: each message is used, each call fills in exactly the words in its braces, and no error is
written elsewhere."""

import ast
import re
import string
from collections.abc import Iterator
from functools import cache
from pathlib import Path
from typing import NamedTuple

import pytest

PYTHON = Path(__file__).resolve().parents[2]
FOLDER = "netrev/messages"
QUOTED = r"^    (?: +\((.+)\)|netrev-go: (.+))$"
TABLES = [
    f"{FOLDER}/{name}.py" for name in ("browsers", "editors", "lines", "recorder", "searches", "session", "texts")
]
PACKAGES = ("netrev", "nrdb", "netrev_go", "dev/recorder")
# The calls that take the text of an error, and which argument that is.
ERRORS = {
    **dict.fromkeys(
        (
            "RecorderError",
            "NotALogError",
            "NothingRecordedError",
            "NoSocketError",
            "UnconvertibleError",
            "LateError",
            "complain",
        ),
        0,
    ),
    **dict.fromkeys(
        (
            "UsageError",
            "NotARecordingError",
            "MismatchedRecordingError",
            "IncompleteChangesError",
            "ScoutUnavailableError",
            "NoDestinationError",
            "UnusableFileError",
        ),
        0,
    ),
    **dict.fromkeys(
        (
            "UnanswerableError",
            "MalformedMessageError",
            "BreakpointError",
            "InvalidTokenError",
            "StrangerError",
            "UnavailableError",
        ),
        0,
    ),
    "RejectedRequestError": 1,
}


class Use(NamedTuple):
    """A message that a module uses. `given` has the names of the arguments that the module fills in. It is None if the
    source doesn't show these."""

    table: str
    name: str
    place: str
    given: frozenset[str] | None


@cache
def table(path: str) -> dict[str, object]:
    """The messages of a table, and its rows of messages."""
    return {
        target.id: ast.literal_eval(node.value)
        for node in ast.parse((PYTHON / path).read_text()).body
        if isinstance(node, ast.Assign)
        for target in node.targets
        if isinstance(target, ast.Name)
    }


@cache
def modules() -> list[tuple[str, ast.Module]]:
    paths = sorted(path for package in PACKAGES for path in (PYTHON / package).rglob("*.py"))
    return [(str(path.relative_to(PYTHON)), ast.parse(path.read_text())) for path in paths]


def tables_in(tree: ast.Module) -> dict[str, str]:
    """The tables that a module imports, by the module's names for them."""
    tables = {Path(path).stem: path for path in TABLES}
    return {
        name.asname or name.name: tables[name.name]
        for node in ast.walk(tree)
        if isinstance(node, ast.ImportFrom) and node.module == "netrev.messages"
        for name in node.names
        if name.name in tables
    }


def message_of(node: ast.expr, known: dict[str, str]) -> tuple[str, str] | None:
    """The table and the name of a message, in an expression such as messages.NO_GO."""
    if isinstance(node, ast.Attribute) and isinstance(node.value, ast.Name) and node.value.id in known:
        return known[node.value.id], node.attr
    return None


def uses() -> Iterator[Use]:
    for module, tree in modules():
        known = tables_in(tree)
        for node in ast.walk(tree) if known else ():
            if isinstance(node, ast.expr) and (found := message_of(node, known)):
                yield Use(*found, f"{module}:{node.lineno}", None)
            if isinstance(node, ast.Call) and isinstance(node.func, ast.Attribute) and node.func.attr == "format":
                if found := message_of(node.func.value, known):
                    given = frozenset(word.arg or "" for word in node.keywords)
                    yield Use(*found, f"{module}:{node.lineno}", None if "" in given else given)


def literal(node: ast.expr) -> str:
    """The literal text of an expression, without the parts that an f-string fills in."""
    parts = node.values if isinstance(node, ast.JoinedStr) else [node]
    return "".join(part.value for part in parts if isinstance(part, ast.Constant) and isinstance(part.value, str))


@pytest.mark.parametrize("path", TABLES)
def test_each_message_is_used(path: str) -> None:
    assert set(table(path)) == {use.name for use in uses() if use.table == path}


def test_the_words_in_braces_are_filled_in() -> None:
    filled = [use for use in uses() if use.given is not None]
    wanted = {
        (path, name): {word for _, word, _, _ in string.Formatter().parse(text) if word is not None}
        for path in TABLES
        for name, text in table(path).items()
        if isinstance(text, str)
    }
    assert filled and [use for use in filled if use.given != wanted[use.table, use.name]] == []


def test_the_guides_quote_messages_as_they_are_printed() -> None:
    """Notes in parentheses, and lines that begin with `netrev-go: `."""
    texts = [text for text in table(f"{FOLDER}/recorder.py").values() if isinstance(text, str)]
    patterns = [re.sub(r"\\{\w+\\}", ".+", re.escape(text)) for text in texts]
    pages = sorted((PYTHON.parent / "docs/guide").glob("*.md"))
    quoted = [line for page in pages for line in re.findall(QUOTED, page.read_text(), re.MULTILINE)]
    assert quoted and [line for line in quoted if not any(re.fullmatch(text, "".join(line)) for text in patterns)] == []


def test_errors_are_in_the_tables() -> None:
    written = []
    for module, tree in modules():
        for node in ast.walk(tree):
            at = ERRORS.get(ast.unparse(node.func)) if isinstance(node, ast.Call) else None
            if isinstance(node, ast.Call) and at is not None and len(node.args) > at:
                written += [(module, node.lineno)] if literal(node.args[at]).strip(": \n") else []
    assert written == []
