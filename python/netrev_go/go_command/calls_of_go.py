"""The table of calls of internal/poll.FD by other packages, and the steps of each call.

    python3 python netrev_go.go_command.calls_of_go            compares it with the calls in the installed Go
    python3 python netrev_go.go_command.calls_of_go --table    prints it
"""

from __future__ import annotations

import pathlib
import subprocess
import sys
import tempfile
from typing import NamedTuple

from netrev.messages import recorder as messages

from .toolchain import Go, RecorderError, find_go, points_program


class CallRow(NamedTuple):
    """Calls that make the same steps, those steps, and what the recording omits of the calls."""

    calls: str
    steps: str
    beside: str = ""


READING = "`rwlock`, `pollreset`, a `sysread` for each try, the steps of each wait, `rwunlock`"
WRITING = READING.replace("sysread", "syswrite")
HELD = "`incref`, `decref`"
UNSEEN = "addresses and control messages"
OPTIONS = (
    "FD.SetsockoptByte FD.SetsockoptInt FD.SetsockoptInet4Addr FD.SetsockoptLinger FD.SetsockoptIPMreq FD.SetsockoptIPMreqn "
    "FD.SetsockoptIPv6Mreq FD.GetsockoptInt FD.SetBlocking"
)
FILES = "FD.Fstat FD.Fstatat FD.Fchmod FD.Fchown FD.Fchdir FD.Fsync FD.Ftruncate FD.Seek FD.ReadDirent FD.Pread FD.Pwrite FD.Dup"
ROWS = (
    CallRow("FD.Init", "`sockopen`, `pollopen`", "files that the poller doesn't accept, and all calls on them"),
    CallRow(
        "FD.Close", "`increfclose`, a `release` for each waiter, `evict`, `decref`, `pollclose` with the last reference"
    ),
    CallRow("FD.Read", READING, "errors other than `EAGAIN`"),
    CallRow("FD.Write", WRITING, "errors other than `EAGAIN` and, after a `CloseWrite`, `EPIPE`"),
    CallRow("FD.Accept", READING, "the connection: it is recorded as one byte that arrives and is read"),
    CallRow(
        "FD.ReadFrom FD.ReadFromInet4 FD.ReadFromInet6 FD.ReadMsg FD.ReadMsgInet4 FD.ReadMsgInet6",
        READING,
        f"{UNSEEN}; the bytes cut off a datagram. An empty datagram is recorded as one byte",
    ),
    CallRow(
        "FD.WriteTo FD.WriteToInet4 FD.WriteToInet6 FD.WriteMsg FD.WriteMsgInet4 FD.WriteMsgInet6",
        WRITING,
        f"{UNSEEN}. An empty datagram is recorded as one byte",
    ),
    CallRow("FD.Writev", WRITING, "the borders between buffers; the length of a try that answered `again`"),
    CallRow("SendFile", WRITING, "the file; the length of a try that answered `again`"),
    CallRow(
        "Splice",
        "those of `Read` on one socket and of `Write` on the other",
        "the pipe between them; the length of a try that answered `again`",
    ),
    CallRow(
        "FD.RawRead", "`rwlock`, `pollreset`, the steps of each wait, `rwunlock`", "what the program's function does"
    ),
    CallRow(
        "FD.RawWrite", "`rwlock`, `pollreset`, the steps of each wait, `rwunlock`", "what the program's function does"
    ),
    CallRow("FD.RawControl", HELD, "what the program's function does"),
    CallRow("FD.WaitWrite", "the steps of a wait, without a lock", "`connect`, which waits with this call"),
    CallRow("FD.Shutdown", f"{HELD}, and a `closewrite` if the write side is closed", "closing the read side"),
    CallRow("FD.SetDeadline FD.SetReadDeadline FD.SetWriteDeadline", "`incref`, `setdeadline`, `decref`"),
    CallRow(OPTIONS, HELD, "the option"),
    CallRow(FILES, HELD, "the operation, in which the poller isn't involved"),
    CallRow("FD.WriteOnce", "`rwlock`, `rwunlock`", "the bytes: only Go's own tests call it"),
    CallRow("CopyFileRange", "`rwlock`, `rwunlock` on each of the two", "the copy: the poller has neither file"),
)


def known_calls() -> set[str]:
    return {call for row in ROWS for call in row.calls.split()}


def calls_of(go: Go) -> list[str]:
    """The calls that an installed Go has."""
    with tempfile.TemporaryDirectory() as folder:
        program = points_program(go, pathlib.Path(folder))
        run = subprocess.run([program, "calls", go.sources()], capture_output=True, text=True, check=False)
    if run.returncode != 0:
        raise RecorderError(messages.CALLS_UNREADABLE.format(version=go.version, why=run.stderr.strip()))
    return run.stdout.split()


def unknown_calls(go: Go) -> list[str]:
    """The calls of an installed Go that aren't in the table."""
    known = known_calls()
    return [call for call in calls_of(go) if call not in known]


def table() -> list[str]:
    """The table, line by line."""
    lines = ["| Calls | Steps | Not recorded |", "|---|---|---|"]
    for row in ROWS:
        calls = ", ".join(f"`{call}`" for call in row.calls.split())
        lines.append(f"| {calls} | {row.steps} | {row.beside} |")
    return lines


def main(arguments: list[str]) -> int:
    if arguments == ["--table"]:
        print("\n".join(table()))
        return 0
    try:
        go = find_go()
        unknown = unknown_calls(go)
    except RecorderError as trouble:
        print(trouble, file=sys.stderr)
        return 3
    for call in unknown:
        print(f"{go.version} has {call}, which isn't in the table")
    print(f"{go.version}: {len(unknown)} unknown calls")
    return 1 if unknown else 0


if __name__ == "__main__":
    sys.exit(main(sys.argv[1:]))
