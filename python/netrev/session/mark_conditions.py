"""Conditions of marks: a cell, and the value that the cell must have when the mark is hit."""

from collections.abc import Sequence
from fnmatch import fnmatchcase
from typing import NamedTuple

from netrev.messages import session as messages
from netrev.text.vocabulary import cell_of


class Condition(NamedTuple):
    """A cell, and the value that it must have, as a printed value or as its meaning in words. `*` matches any text."""

    cell: str
    value: str

    @classmethod
    def of(cls, words: Sequence[str]) -> "Condition | None":
        """The condition that words form, as in `until gor 3 parked*` or `until rg 0 = ready`; None if they form no
        condition."""
        words = [word for word in words if word not in ("=", "==")]
        for length in (2, 1):
            if (cell := cell_of(words[:length])) and words[length:]:
                return cls(cell, " ".join(words[length:]))
        return None

    def is_met(self, value: str, words: str) -> bool:
        """Whether the cell has the required value. The condition is compared with both the cell's value and its
        words."""
        return fnmatchcase(value, self.value) or fnmatchcase(words, self.value)

    def says(self, number: str) -> str:
        """The message about a mark of this number."""
        return messages.STOPS_IF.format(number=number, cell=self.cell, value=self.value)
