"""A session's output, collected as text for an editor's console or a page."""

import io

from .output import TextPrinter


class Collecting(TextPrinter):
    """Collects the output until a caller takes it. The output is escaped as at a terminal."""

    def __init__(self) -> None:
        self.kept = io.StringIO()
        super().__init__(self.kept)

    def echo(self, line: str) -> None:
        """Does nothing, because the caller shows the typed line itself."""

    def take(self) -> str:
        """The output since the last call."""
        output = self.kept.getvalue()
        self.kept.seek(0)
        self.kept.truncate()
        return output
