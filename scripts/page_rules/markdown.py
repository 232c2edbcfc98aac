"""The parts of a page: headings, paragraphs, items, cells of tables, links, and words in code font."""

import re
from collections.abc import Iterator
from dataclasses import dataclass

HEADING = re.compile(r"^#+ ")
ITEM = re.compile(r"^\s*(?:[-*]|\d+\.) ")
LINK = re.compile(r"!?\[((?:[^\]\[]|\[[^\]]*\])*)\]\(([^)\s]+)\)")
CODE = re.compile(r"`([^`]+)`")
CELLS = re.compile(r"(?<!\\)\|")


@dataclass(frozen=True)
class Block:
    """A part of a page, and its first line. Each cell of a table is a part of its own, with its column."""

    line: int
    kind: str  # "heading", "text", "cell" or "code"
    text: str
    heading: str = ""  # the heading above it
    column: int = 0


def _cells(line: int, row: str, heading: str) -> Iterator[Block]:
    """The cells of a table's row; a bar in code font doesn't end a cell."""
    hidden = CODE.sub(lambda code: code.group(0).replace("|", "\0"), row.strip().strip("|"))
    for column, cell in enumerate(CELLS.split(hidden)):
        text = cell.replace("\0", "|").strip()
        if text.strip("-: "):
            yield Block(line, "cell", text, heading, column)


def blocks(text: str) -> Iterator[Block]:
    """The parts of a page, in order."""
    heading, kept, began, fenced = "", [""], 0, False
    kept.clear()
    for number, line in enumerate(text.split("\n") + [""], 1):
        starts_code = line.lstrip().startswith("```")
        in_code = fenced or starts_code or (line.startswith("    ") and not kept)
        ends = in_code or not line.strip() or HEADING.match(line) or ITEM.match(line) or line.startswith("|")
        if ends and kept:
            yield Block(began, "text", " ".join(kept), heading)
            kept.clear()
        fenced = fenced != starts_code
        if in_code:
            yield Block(number, "code", line, heading)
        elif HEADING.match(line):
            heading = line.lstrip("#").strip()
            yield Block(number, "heading", heading, heading)
        elif line.startswith("|"):
            yield from _cells(number, line, heading)
        elif line.strip():
            began = began if kept else number
            kept.append(ITEM.sub("", line).lstrip("> ").strip())


def prose(text: str) -> Iterator[Block]:
    """All parts except blocks of code."""
    return (block for block in blocks(text) if block.kind != "code")


def codes(text: str) -> Iterator[tuple[Block, str]]:
    """All words in code font, each with its part."""
    for block in prose(text):
        for code in CODE.findall(block.text):
            yield block, code


def anchor(heading: str) -> str:
    """The anchor that GitHub gives a heading."""
    plain = LINK.sub(lambda link: link.group(1), heading).replace("`", "").lower()
    return re.sub(r"[^\w\- ]", "", plain).replace(" ", "-")


def anchors(text: str) -> set[str]:
    """The anchors of a page."""
    return {anchor(block.text) for block in blocks(text) if block.kind == "heading"}
