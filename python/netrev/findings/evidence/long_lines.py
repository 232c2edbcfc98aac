"""Lines that are too long for a bufio.Scanner. When a Read has filled the Scanner's buffer of 65,536 bytes, Scan gives
up."""

from netrev.recording.call import Call
from netrev.run.index import RunIndex

from .read_sizes import read_sizes_of

SCAN, HALF = "bufio.(*Scanner).Scan", 32_768


def long_line_sentence(index: RunIndex, last: Call) -> list[str]:
    """Sentences about the last Read of a goroutine on a socket; none unless that Read was for a Scanner whose buffer
    had its greatest size."""
    functions = (call.function for call in index.recording.lines.of(last.first).calls)
    if not last.moved or SCAN not in functions or read_sizes_of(index.recording).of(last) != HALF:
        return []
    return [
        "Perhaps a line was too long: a bufio.Scanner gives up if one has more than 65,536 bytes, and its buffer was at its largest there."
    ]
