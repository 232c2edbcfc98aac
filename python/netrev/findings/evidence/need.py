"""What a waiting goroutine needs."""

from enum import IntEnum
from typing import NamedTuple

from netrev.recording.waits import Name

GOES_FIRST = "{by} waits to lock it for writing, and goes first"  # of an RWMutex that readers hold


class Certainty(IntEnum):
    """The strength of the evidence that a goroutine could give what another goroutine needs."""

    PERHAPS = 1  # from stacks alone
    LIKELY = 2  # the goroutine has done the same before
    KNOWN = 3  # the goroutine has what is needed, as the recording's steps show


class Need(NamedTuple):
    """What a waiting goroutine needs. `says` has sentences about this need. `by` is the goroutine that could end the
    wait, `how` is a sentence about that goroutine (with `{by}` for its name), and `certainty` is the strength of the
    evidence. If a goroutine could have gone on but is in no call, `stopped` is a step of that goroutine's last call.
    `more` has sentences that are also shown for a deadlock. If `is_plain`, these sentences give no reason, but say what
    the Read looks for. `is_odd` means that something is wrong here, such as goroutines of one `go` statement that
    differ in what they did. `gone` is an ended goroutine that once did what is needed now, `ended` are goroutines that
    ended without doing it, and `others` are further candidates for `by`. `is_kept` means that calls took what is
    needed, ended, and never gave it back, so no waiter has it. `beside` has sentences to add if `by` itself waits for
    another goroutine."""

    says: list[str]
    by: Name | None = None
    how: str = ""
    certainty: Certainty = Certainty.KNOWN
    stopped: int = 0
    more: list[str] = []
    is_odd: bool = False
    gone: Name | None = None
    ended: tuple[Name, ...] = ()
    others: tuple[Name, ...] = ()
    is_kept: bool = False
    beside: tuple[str, ...] = ()
    is_plain: bool = False
