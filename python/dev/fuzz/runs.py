"""Runs a case with netrev and with the model, and compares their outputs."""

import subprocess
from pathlib import Path

from netrev.model.program import Printed, printed

from . import nrdb_sessions
from .cases import Case
from .counts import Met

Difference = tuple[Printed, Printed]  # the outputs of the program and of the model

TIMEOUT = 120


def wanted(case: Case, counts: Met) -> Printed | None:
    """The model's output, or None if the model doesn't predict it."""
    want = printed(case.program, case.recording, case.script, counts)
    counts.doubted += want is None
    return want


def output_of(netrev: str, case: Case, folder: Path) -> Printed:
    """The program's output."""
    path = folder / "recording.jsonl"
    path.write_bytes(case.recording)
    try:
        ended = subprocess.run(
            [netrev, case.program, path], input=case.script, capture_output=True, timeout=TIMEOUT, check=False
        )
    except subprocess.TimeoutExpired as late:
        return Printed(-1, late.stdout or b"", f"no end within {TIMEOUT} seconds")
    wrong = f"standard error: {ended.stderr[:500]!r}" if ended.stderr else ""
    return Printed(ended.returncode, ended.stdout, wrong)


def difference(netrev: str, case: Case, folder: Path, counts: Met) -> Difference | None:
    """The outputs of netrev and the model for a case if they differ, or the fault of a session of nrdb; None if there
    is no difference or fault."""
    if case.program == "nrdb":
        wrong = nrdb_sessions.played(netrev, case, folder, counts)
        return (Printed(0, b"", wrong), Printed(0, b"")) if wrong else None
    want = wanted(case, counts)
    if want is None:
        return None
    tells = output_of(netrev, case, folder)
    return None if tells == want else (tells, want)


def first_difference(tells: Printed, want: Printed) -> str:
    """A short description of the first difference."""
    if tells.wrong or want.wrong:
        return tells.wrong or want.wrong
    lines = zip(tells.output.split(b"\n"), want.output.split(b"\n"))
    for number, (line, other) in enumerate(lines, 1):
        if line != other:
            return f"reply {number} is {shortened(line)}, the model's {shortened(other)}"
    return (
        f"status {tells.status}, the model's {want.status}; {len(tells.output)} bytes, the model's {len(want.output)}"
    )


def shortened(line: bytes) -> str:
    return repr(line.decode("latin-1"))[:120]
