"""The places at which the lines of a text begin. A text may have a million lines, so the lines are counted by block.
The places within a block are found only when a caller needs a line of the block."""

from bisect import bisect_left
from itertools import accumulate

BLOCK = 2**16  # bytes
KEPT = 4  # the number of blocks whose line feeds are kept


class LineStarts:
    """The place at which each line begins, from line 0, and the place after the last line."""

    def __init__(self, data: bytes) -> None:
        self._data = data
        counts = (data.count(b"\n", begin, begin + BLOCK) for begin in range(0, len(data), BLOCK))
        self._before = list(accumulate(counts, initial=0))  # how many line feeds precede each block
        # for the most recently used block: `_first` counts the line feeds before it, `_last` also those in it, and
        # `_behind` has the places after its line feeds; `_kept` has such places for a few blocks
        self._first = self._last = 0
        self._behind = [0]
        self._kept: dict[int, list[int]] = {}

    def __len__(self) -> int:
        return self._before[-1] + 2

    def __getitem__(self, line: int) -> int:
        if not self._first < line <= self._last:
            if not 0 < line <= self._before[-1]:
                return self._at_an_end(line)
            block = bisect_left(self._before, line) - 1
            self._first, self._last = self._before[block : block + 2]
            self._behind = self._found(block)
        return self._behind[line - self._first]

    def _found(self, block: int) -> list[int]:
        """The places after the line feeds of a block."""
        if block not in self._kept:
            if len(self._kept) == KEPT:
                del self._kept[next(iter(self._kept))]
            begin = block * BLOCK
            lines = self._data[begin : begin + BLOCK].split(b"\n")
            self._kept[block] = list(accumulate(map((1).__add__, map(len, lines)), initial=begin))
        return self._kept[block]

    def _at_an_end(self, line: int) -> int:
        """The place of the first line, or the place after the last line."""
        if line not in (0, self._before[-1] + 1):
            raise IndexError(line)
        return len(self._data) + 1 if line else 0

    def line_at(self, place: int) -> int:
        """The number of the line that contains a place in the text. Lines are numbered from 1."""
        block = place // BLOCK
        return self._before[block] + self._data.count(b"\n", block * BLOCK, place) + 1
