"""Line numbers as the editor counts them: from 1, or from 0 if the editor requests it."""

from typing import NamedTuple

from netrev.messages import editors as texts

from .messages import Body, Request, UnanswerableError


class Numbering(NamedTuple):
    """The numbers from which the editor counts lines and columns. A recording's lines and columns are counted from
    1."""

    first: int = 1

    def to(self, line: int) -> int:
        """A line's number, as the editor counts lines."""
        return line - 1 + self.first

    def requested_line(self, request: Request, name: str) -> int:
        """The line that a request names."""
        return request.whole_number(name) + 1 - self.first

    def of(self, breakpoint_: Body) -> int:
        """The line of a breakpoint."""
        line = breakpoint_.get("line")
        if not isinstance(line, int):
            raise UnanswerableError(texts.LINE)
        return line + 1 - self.first
