"""A second netrev on the same recording, for queries at other positions. The session's position, marks and checkpoints
stay as they are. Since an interrupted query may leave unread replies, the scout then ends that netrev, and the next
query starts another. If netrev ended by itself, the scout repeats the query once."""

from collections.abc import Callable, Sequence
from typing import TypeVar

from netrev.errors import NetrevError
from netrev.messages import session as messages

from .netrev import Netrev, NetrevEndedError
from .shapes import move_of

JOURNAL = 65_536  # the number of commands that fit into a session of `netrev run`
MOST_PLACED = 2  # a move to a position takes at most this many commands

Seen = TypeVar("Seen")


class ScoutUnavailableError(NetrevError):
    """Raised, with the reason, if the second netrev isn't available."""


class Scout:
    """Answers queries at any position. The first query starts netrev. A later query starts it again when its journal is
    nearly full. A session that never moves may pass its own netrev as `lent`, for the first queries. The session,
    not the scout, stops that netrev."""

    def __init__(self, opened: Callable[[], Netrev], lent: Netrev | None = None):
        self._opened = opened
        self._netrev = self._lent = lent
        self._placed = 0
        self._stands: int | None = None  # netrev's position, if known

    def prepare(self) -> None:
        """Starts netrev unless it is already running. Doesn't wait until netrev has read the recording."""
        if self._netrev is None:
            try:
                self._netrev, self._placed, self._stands = self._opened(), 0, None
            except OSError as error:
                raise ScoutUnavailableError(f"{error.filename}: {error.strerror}") from None

    def drop(self) -> None:
        """Stops netrev, even in the middle of a query. A netrev that the session lent keeps running."""
        dropped, self._netrev = self._netrev, None
        if dropped is not None and dropped is not self._lent:
            dropped.drop()

    def look(self, position: int, looks: Callable[[Netrev], Seen]) -> Seen:
        """The result of a query at the position, from the scout's netrev."""
        return self._anew(lambda: looks(self._at(position)))

    def values(self, position: int, cells: Sequence[str]) -> list[str]:
        """The values of the cells at the position."""
        return self.look(position, lambda netrev: netrev.values(cells))

    def _anew(self, look: Callable[[], Seen]) -> Seen:
        """The result of a query. If netrev ended during the query, the query is repeated on another netrev."""
        try:
            return self._whole(look)
        except NetrevEndedError:
            pass
        try:
            return self._whole(look)
        except NetrevEndedError:
            raise ScoutUnavailableError(messages.SECOND_NETREV_ENDED) from None

    def _whole(self, look: Callable[[], Seen]) -> Seen:
        """The complete result of a query. If anything interrupts the query, the scout drops its netrev."""
        try:
            return look()
        except BaseException:
            self.drop()
            raise

    def _walker(self) -> Netrev:
        """The netrev for queries. Its position counts as unknown, because netrev is about to move."""
        self.prepare()
        assert self._netrev
        self._stands = None
        return self._netrev

    def _at(self, position: int) -> Netrev:
        """netrev at the position, with room in the journal for the next query."""
        if self._placed + MOST_PLACED > JOURNAL:
            self.drop()
        if self._netrev is not None and self._stands == position:
            return self._netrev
        netrev = self._walker()
        lines = ["restart 0", f"stepi {position}"] if position else ["restart 0"]
        for line, reply in zip(lines, netrev.ask_all(lines)):
            move_of(line, reply)
        self._placed += len(lines)
        self._stands = position
        return netrev
