"""Errors of commands, and unexpected errors, which are faults of nrdb: one line for the user, and the traceback on
request."""

import os
import sys
import traceback
from typing import TypeVar

from netrev.errors import NetrevError
from netrev.messages import session as messages
from netrev.text.plain import plain

WANTED_BY = "NRDB_TRACEBACK"  # the environment variable that turns tracebacks on
LONGEST = 200  # the maximum number of characters in an error's text


class UsageError(NetrevError):
    """Raised for a command of nrdb with wrong arguments; the message says what is wrong."""


Part = TypeVar("Part")


def needed(part: Part | None) -> Part:
    """Returns a part of a session that exists only with a recording; raises UsageError if a session was joined without
    a recording."""
    if part is None:
        raise UsageError(messages.NEEDS_RECORDING)
    return part


class MismatchedRecordingError(NetrevError):
    """Raised if the joined session has a different recording."""


def unexpected(error: Exception) -> str:
    """The line that reports an error. If NRDB_TRACEBACK is set, the error's traceback goes to standard error."""
    if isinstance(error, MemoryError):
        return messages.OUT_OF_MEMORY
    if os.environ.get(WANTED_BY):
        lines = "".join(traceback.format_exception(error)).splitlines()
        print("\n".join(map(plain, lines)), file=sys.stderr)
        how = messages.TRACEBACK_IS_SHOWN
    else:
        how = messages.TRACEBACK_IS_HIDDEN.format(variable=WANTED_BY)
    text = " ".join(str(error).split())[:LONGEST]
    return messages.ERROR_IN_NRDB.format(type=type(error).__name__, text=text, how=how)
