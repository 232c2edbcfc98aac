"""The timeline: one page without external files that shows a whole run on one screen and can be zoomed to single steps.
The same run can also be written as a trace for Perfetto."""

from .page import write_timeline
from .trace import write_trace

__all__ = ["write_timeline", "write_trace"]
