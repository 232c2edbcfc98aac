"""The rule raw-calls of scripts/pages.py, applied to this repository with one file changed."""

from pathlib import Path

import pytest

from tests.support.small_tree import PAGES

ROOT = Path(__file__).resolve().parents[3]
TRUSTED = "docs/proof/TRUSTED.md"
LOGGED = "crates/nr_text/src/logged.rt"
SERVING = "crates/nr_serving/src/logged.rt"
LOOPBACK = "crates/netrev/src/loopback.rt"


def findings(path: str = "", old: str = "", new: str = "") -> list[str]:
    """The rule's findings in the tree, with one text of a file replaced. The text must occur once in the file."""
    tree = PAGES.Tree(ROOT)
    if path:
        assert tree.text(path).count(old) == 1, "the text is there once"
        tree._texts[path] = tree.text(path).replace(old, new)
    return [str(finding) for finding in PAGES.RULES["raw-calls"](tree)]


def test_the_tree_is_as_trusted_says() -> None:
    assert findings() == []


@pytest.mark.parametrize(
    "path, old, new, says",
    [
        (TRUSTED, "| `LoggedCallers::let_go` of", "| the last one, of", "LoggedCallers::let_go reaches a stream"),
        (TRUSTED, "| `LoggedReader::read` of", "| `LoggedReader::reads` of", "LoggedReader::reads is in the table"),
        (TRUSTED, f"| `{LOOPBACK}` |", "| the loopback |", f"{LOOPBACK} reaches a stream"),
        (
            LOGGED,
            "self.reader.read(buffer)",
            "self.reader.read(buffer).and(self.reader.read(buffer))",
            "stands 2 times",
        ),
        (
            LOGGED,
            "        self.moments = self.moments.and(&self.calls, writes);\n",
            "",
            "stands 0 times in LoggedReader",
        ),
        (
            SERVING,
            "connections.next(),",
            "{ let _ = connections.next(); connections.next() }",
            "connections.next( stands 2",
        ),
        (LOOPBACK, "    fn note(&mut self", "    fn jot(&mut self", ".arrived( stands 1 times in Callers::jot"),
    ],
)
def test_a_place_more_or_less_is_found(path: str, old: str, new: str, says: str) -> None:
    found = findings(path, old, new)
    assert any(says in finding for finding in found), found
