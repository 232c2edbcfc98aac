"""Lines of text for a terminal: broken between words, with continuation lines indented."""

import os
import textwrap
from typing import TextIO

from .vocabulary import number_of

LEAST = 20  # the narrowest terminal, in columns, on which lines are broken
INDENT = 4


def width_of(out: TextIO) -> int:
    """The width of a terminal, from COLUMNS or from the terminal itself; 0 if the width is unknown or the output isn't
    a terminal."""
    if not out.isatty():
        return 0
    if (named := number_of(os.environ.get("COLUMNS", ""))) is not None:
        return named
    try:
        return os.get_terminal_size(out.fileno()).columns
    except (OSError, ValueError):
        return 0


def wrapped(text: str, width: int) -> list[str]:
    """A line, broken between words into lines of at most that width; unbroken if it fits or if the width is too
    small."""
    if width < LEAST or len(text) <= width:
        return [text]
    begun = len(text) - len(text.lstrip())
    return textwrap.wrap(
        text, width, subsequent_indent=" " * min(begun + INDENT, width // 3), break_long_words=False, break_on_hyphens=False,
        replace_whitespace=False, expand_tabs=False,
    ) or [text]  # fmt: skip
