"""A Go call: its object, its beginning and end, and its result."""

from dataclasses import dataclass
from enum import Enum

from netrev.text.plurals import counted

OPEN, CLOSE, CLOSE_WRITE, CONTROL = "Open", "Close", "CloseWrite", "Control"


class Outcome(Enum):
    """How a call ended."""

    DONE = "done"
    EOF = "end of file"
    TIMED_OUT = "timed out"
    CLOSED = "closed"
    EVENT_ERROR = "event error"
    BROKEN_PIPE = "broken pipe"
    SYSTEM_ERROR = "system error"  # an error that NAME.where has and no step shows

    # whether the program gets an error. The end of a stream isn't an error, because every reader expects it.
    is_error: bool

    def __init__(self, words: str) -> None:
        self.is_error = words not in ("done", "end of file")


MOVING = {"Read": "got", "Write": "put"}


@dataclass(slots=True)
class Call:
    """A call: its first and its last step (0: it hasn't ended), and its result."""

    goroutine: int
    name: str
    socket: int
    descriptor: int
    first: int
    last: int = 0
    waited: int = 0  # the number of steps during which the call's goroutine slept
    slept: int = 0  # the nanoseconds that the clock advanced during these steps
    moved: int | None = None  # the number of bytes that it moved, if it tried to read or write any
    outcome: Outcome = Outcome.DONE
    side: str = ""  # the side of the lock that it holds
    is_asking: bool = False  # whether it waits for a lock that another goroutine holds
    is_ending: bool = False  # whether it has given up its reference and must still release or destroy
    destroys: bool = False
    # the step that caused the call's error: the setting of the deadline, or the close of the socket or of its write
    # side
    cause: int = 0
    passed: int = 0  # for a timeout, the step at which the deadline passed
    error: str = ""  # the system's name for the call's error, if any

    def steps(self) -> str:
        """The steps of the call, as text."""
        if not self.last:
            return f"since step {self.first}"
        return f"step {self.first}" if self.first == self.last else f"steps {self.first} to {self.last}"

    def came(self) -> str:
        """The result of the call, as text."""
        if not self.last:
            return "hasn't ended"
        moved = "" if self.moved is None else f"{MOVING.get(self.name, 'moved')} {counted(self.moved, 'byte')}"
        if self.outcome is Outcome.DONE:
            return moved
        ended = self.error or self.outcome.value
        return f"{moved}, {ended}" if self.moved else ended

    def as_begun(self) -> "Call":
        """The call as it is known before its end."""
        return Call(self.goroutine, self.name, self.socket, self.descriptor, self.first)

    def words(self) -> str:
        """The text for the call, without the goroutine: `Read on socket 40: steps 35420 to 35556, waited 94, timed
        out`."""
        clock = f" ({self.slept} ns)" if self.slept else ""
        waited = f"waited {self.waited}{clock}" if self.waited else ""
        return f"{self.name} on socket {self.socket}: " + ", ".join(filter(None, (self.steps(), waited, self.came())))
