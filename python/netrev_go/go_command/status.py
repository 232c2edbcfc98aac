"""The exit statuses of `netrev-go`."""

from __future__ import annotations

from enum import IntEnum


class ExitStatus(IntEnum):
    """The exit status of netrev-go, unless it is Go's own."""

    DONE = 0
    REFUSED = 1  # a log could be read but gives no recording
    USAGE = 2
    SUSPECTED = 3  # with --fail-on
    TROUBLE = 4
    UNRECORDED = 5  # with --strict
    INTERRUPTED = 130
