"""`commands N`: lines that nrdb runs each time a mark is hit, as GDB does."""

from collections import deque
from collections.abc import Iterator, Sequence
from dataclasses import dataclass, field

END = "end"


@dataclass
class Attached:
    """The lines attached to each mark, the mark whose lines are being typed, and the lines to run next."""

    lines: dict[str, list[str]] = field(default_factory=dict)
    taking: str | None = None
    pending: deque[str] = field(default_factory=deque)

    def begin(self, mark: str) -> None:
        """Replaces the lines of this mark with the lines typed next."""
        self.lines[mark], self.taking = [], mark

    def takes(self, line: str) -> bool:
        """Whether the line belongs to a mark. Such a line is kept, and runs when the mark is hit."""
        if self.taking is None:
            return False
        if line.strip() == END:
            self.taking = None
        else:
            self.lines[self.taking].append(line)
        return True

    def hits(self, marks: Sequence[str]) -> None:
        """Queues the lines of the marks that a move hit. Lines left from an earlier stop are dropped."""
        self.pending = deque(line for mark in marks for line in self.lines.get(mark, ()))

    def listed(self, entries: Sequence[str]) -> Iterator[str]:
        """The lines of each mark, for `info breakpoints`."""
        for mark in (entry.split()[0] for entry in entries):
            if lines := self.lines.get(mark):
                yield f"mark {mark} runs: {'; '.join(lines)}"
