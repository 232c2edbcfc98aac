"""What netrev and the library find in a recording: whether netrev accepts it, the values at its end, the causes and the
suspects. The library works in this process, with the changes that one run of netrev lists. The modules with the rules
are imported on first use, because most runs need none."""

from __future__ import annotations

import pathlib
import signal
import subprocess
from collections.abc import Iterator
from contextlib import contextmanager

from netrev.findings.finding import FirstFindings, SuspectFindings
from netrev.messages import recorder as messages
from netrev.recording.recording import Recording
from netrev.recording.suspect_list import SuspectList
from netrev.run.changes import PrintedChanges
from netrev.system.command_lines import file_word
from netrev.system.interrupts import Interrupts
from netrev.system.time_limits import time_limit

# Seconds for the suspects and for the causes, enough for a busy machine.
PATIENCE, OF_CAUSES = 60, 600
REFUSED = 1  # netrev's status for a recording with a fault
AT_REST = ("idle", "gone", "absent")
Values = dict[str, str]  # by cell, such as `gor 3`


def check(netrev: str, recording: pathlib.Path) -> tuple[bool, str]:
    """Whether netrev accepts the recording, and its output."""
    ended = subprocess.run([netrev, "check", file_word(recording)], capture_output=True, check=False)
    return outcome_of(ended.returncode, ended.stdout, ended.stderr)


def outcome_of(status: int, printed: bytes, errors: bytes) -> tuple[bool, str]:
    """Whether netrev accepts the recording, and the last line of its output; raises an OSError if netrev was killed,
    for example for lack of memory, because that says nothing about the recording."""
    if status < 0:
        raise OSError(0, messages.ENDED_BY_A_SIGNAL.format(signal=signal.Signals(-status).name))
    text = errors if status > REFUSED and errors else printed.rstrip().rpartition(b"\n")[2] or errors
    return status == 0, text.decode("utf-8", "replace").strip()


class Analysis:
    """The library's findings about a recording. Netrev runs in the background, and is ended when the `with` block ends."""

    def __init__(self, netrev: str, name: pathlib.Path, stuck: int = 0) -> None:
        self._netrev, self._path, self._stuck = netrev, file_word(name), stuck
        self._printed = PrintedChanges(netrev, self._path)
        self.recording: Recording | None = None  # as it was read, with netrev's changes

    def __enter__(self) -> Analysis:
        self._printed.__enter__()
        return self

    def __exit__(self, *_: object) -> None:
        self._printed.__exit__()

    def outcome(self) -> tuple[bool, str]:
        """Whether netrev accepts the recording, and its last line; raises an OSError if netrev couldn't be started or
        was killed."""
        return outcome_of(*self._printed.ended())

    def causes(self) -> FirstFindings:
        """Why calls failed or hang. If netrev is slow, the library computes the changes. Raises LateError if that takes
        too long."""
        from netrev.findings.causes.first_output import first_findings

        with time_limit(OF_CAUSES, messages.LATE_CAUSES), self._read() as recording:
            return first_findings(recording, self._stuck)

    def values(self) -> Values:
        """The values of all cells at the end, if netrev lists the changes."""
        with self._read() as recording:
            return recording.changes.at_end() if recording.changes else {}

    def suspects(self) -> SuspectFindings:
        """The suspects, if netrev lists the changes. Raises LateError if they take too long."""
        from netrev.findings.suspects.table import suspect_findings

        with time_limit(PATIENCE, messages.LATE_SUSPECTS), self._read() as recording:
            if recording.changes is None:
                return SuspectFindings([], "")
            recording.suspects = SuspectList(self._netrev, self._path, Interrupts())
            try:
                return suspect_findings(recording.changes, recording)
            finally:
                recording.suspects.drop()

    @contextmanager
    def _read(self) -> Iterator[Recording]:
        """The recording with netrev's changes, if known. It is read again after an exception, because its tables may be
        incomplete, and after the library computed the changes."""
        recording, self.recording = self.recording, None
        if recording is None:
            recording = Recording.read(self._path)
            recording.changes = self._printed.of(recording)
        is_netrevs = recording.changes is not None
        yield recording
        self.recording = recording if is_netrevs else None


def hanging(values: Values) -> dict[int, str]:
    """The goroutines that aren't at rest, with their status."""
    return {number: status for number, status in numbered(values, "gor") if status not in AT_REST}


def never_closed(values: Values) -> dict[int, int]:
    """The closed sockets that still have references, with the number of references."""
    words = {number: int(word) for number, word in numbered(values, "lock") if word.isdigit()}
    return {number: word >> 3 & 2**20 - 1 for number, word in words.items() if word & 1 and word >> 3 & 2**20 - 1}


def numbered(values: Values, name: str) -> list[tuple[int, str]]:
    """The values of the cells with a name, by number."""
    return sorted((int(cell.split()[1]), value) for cell, value in values.items() if cell.startswith(f"{name} "))
