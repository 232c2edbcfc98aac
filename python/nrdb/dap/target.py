"""The recording that is debugged, with everything that an editor has set and may request."""

from dataclasses import dataclass
from pathlib import Path
from typing import Any

from netrev.connection.beginnings import begins_at
from netrev.messages import editors as texts
from netrev.system.interrupts import Interrupts

from .admission import TOKEN
from .go_lines import GoLines
from .logpoints import LogPoints
from .marks import Marks
from .moves import Moves, Stop
from .view.debuggee import Debuggee
from .view.filters import Filters
from .view.messages import Request, UnanswerableError
from .view.presentation import Looks
from .view.roots import Roots

SOURCES = ("recording", "go")
AT_END, AT_START = "end", "start"
PROPERTIES = ("program", "stopAt", "source", "sourceRoot", "goRoot", TOKEN)  # the arguments of a launch
OF_ATTACH = ("program", "address", "source", "sourceRoot", "goRoot", TOKEN)


@dataclass(frozen=True)
class Launch:
    """The arguments of a launch: the recording, the position of the first stop, and the folders of the program's source
    and of Go. If `goes_first`, the program's lines are shown before the recording's lines. For an attach request,
    `address` is the address of a shared session, and `stop_at` is None."""

    recording: str
    stop_at: int | str | None
    goes_first: bool
    root: str | None
    go_root: str | None
    address: tuple[str, int] | None = None

    @classmethod
    def of(cls, request: Request) -> "Launch":
        """The arguments of a launch; raises UnanswerableError if any argument is invalid."""
        given = request.arguments
        stop_at = given.get("stopAt", AT_END)
        if stop_at not in (AT_END, AT_START) and not (isinstance(stop_at, int) and stop_at >= 0):
            raise UnanswerableError(texts.STOP_AT)
        return cls(request.text("program"), stop_at, *cls._shown(given))

    @classmethod
    def of_attach(cls, request: Request) -> "Launch":
        """The arguments of an attach; raises UnanswerableError if any argument is invalid."""
        host, _, port = request.text("address").rpartition(":")
        if not (port.isascii() and port.isdigit() and len(port) < 6 and int(port) < 2**16):
            raise UnanswerableError(texts.ADDRESS)
        address = host.strip("[]") or "127.0.0.1", int(port)
        return cls(request.text("program"), None, *cls._shown(request.arguments), address)

    @staticmethod
    def _shown(given: dict[str, Any]) -> tuple[bool, str | None, str | None]:
        """The arguments that a launch and an attach share: whether the program's lines come first, and the two
        folders."""
        source = given.get("source", SOURCES[0])
        if source not in SOURCES:
            raise UnanswerableError(texts.SOURCE)
        if "netrev" in given:
            raise UnanswerableError(texts.OWN_PROGRAM)
        return source == "go", _text(given, "sourceRoot"), _text(given, "goRoot")

    def position(self, debuggee: Debuggee) -> int:
        """The position of the first stop; in a shared session, the session's position."""
        if self.stop_at is None:
            return debuggee.position
        if isinstance(self.stop_at, int):
            return min(self.stop_at, debuggee.length)
        return debuggee.length if self.stop_at == AT_END else begins_at(debuggee.recording)


def _text(given: dict[str, Any], name: str) -> str | None:
    value = given.get(name)
    if value is not None and not isinstance(value, str):
        raise UnanswerableError(texts.OPTION_STRING.format(name=name))
    return value


class DebugTarget:
    """A debuggee with its marks, filters, moves and displays, and the reason for the last stop."""

    def __init__(self, debuggee: Debuggee, launch: Launch, interrupts: Interrupts):
        self.debuggee = debuggee
        self.marks, self.filters = Marks(debuggee.session), Filters(debuggee.recording)
        self.logpoints = LogPoints(debuggee.session)
        self.roots = Roots(
            Path(launch.root) if launch.root else debuggee.path.parent, Path(launch.go_root) if launch.go_root else None
        )
        self.go_lines = GoLines(debuggee, self.roots, self.logpoints)
        self.moves = Moves(debuggee, self.marks, self.filters, self.go_lines, self.logpoints, interrupts)
        self.looks = Looks(debuggee, launch.goes_first, self.roots)
        self.stop = Stop("entry", "not begun")
