"""The output about the cost of recording a server. The programs print fixed figures and leave a log with a given number
of points, so no Go is needed."""

import io
import subprocess
from contextlib import redirect_stdout
from pathlib import Path

import pytest

from dev.fuzz.generators.logs import binary
from dev.recorder.costs import CONNECTIONS, SERVED, Served, tell_served

# A server that prints the nanoseconds and bytes of a request: without a log, with runtime/trace, with the
# FlightRecorder, and with a log. The log is beside the program.
SERVER = """#!/bin/sh
[ -z "${NETREV_LOG-}" ] || cp "$0.log" "$NETREV_LOG.7"
[ -z "${NETREV_LOG-}" ] || : > "$NETREV_LOG.program.1.2"
case "$3${NETREV_LOG:+log}${NETREV_ORDERS-}" in
trace) echo 150000 257 ;;
flight) exit %d ;;
log) echo 160000 0 ;;
log0) echo 140000 0 ;;
*) echo 125000 0 ;;
esac
"""


def table(folder: Path, status: int = 3, passed: int = 44_000) -> str:
    """The output after three rounds of such a server."""
    folder = folder
    program, logs = folder / "server", folder / "logs"
    logs.mkdir()
    program.write_text(SERVER % status)
    program.chmod(0o755)
    Path(f"{program}.log").write_bytes(binary([], room=16, passed=passed))
    served = Served("1.27.3", (program, program), 1_000, list(SERVED))
    for _ in range(3):
        served.measure(logs)
    assert list(logs.iterdir()) == []
    out = io.StringIO()
    with redirect_stdout(out):
        tell_served([served])
    return out.getvalue()


def test_a_row_for_each_way(folder: Path) -> None:
    rows = table(folder).splitlines()[2:]
    assert rows[: len(rows) // 2] == [
        "| 1.27.3 | 20 | without the overlay | 125.0 (125.0 to 125.0) | +0.0 % |  |  |",
        "| 1.27.3 | 20 | with it, no log | 125.0 (125.0 to 125.0) | +0.0 % |  |  |",
        "| 1.27.3 | 20 | recording | 160.0 (160.0 to 160.0) | +28.0 % | 2,560 | 40.0 |",
        "| 1.27.3 | 20 | recording, no orders | 140.0 (140.0 to 140.0) | +12.0 % | 2,560 | 40.0 |",
        "| 1.27.3 | 20 | runtime/trace | 150.0 (150.0 to 150.0) | +20.0 % | 257 |  |",
    ]  # fmt: skip
    assert len(rows) == 5 * len(CONNECTIONS)


def test_a_way_is_compared_with_the_first_one_of_the_same_round() -> None:
    served = Served("1.27.3", (Path(), Path()), 1_000, list(SERVED))
    served.times[20, "without the overlay"] = [100_000, 200_000, 400_000]
    served.times[20, "recording"] = [110_000, 300_000, 440_000]
    for way in ("without the overlay", "recording"):
        served.kept[20, way] = [0]
    out = io.StringIO()
    with redirect_stdout(out):
        served.tell()
    assert out.getvalue().splitlines()[1] == "| 1.27.3 | 20 | recording | 300.0 (110.0 to 440.0) | +10.0 % |  |  |"


def test_a_program_that_fails_ends_the_measuring(folder: Path) -> None:
    with pytest.raises(subprocess.CalledProcessError):
        table(folder, status=1)


def test_nothing_is_printed_of_none() -> None:
    out = io.StringIO()
    with redirect_stdout(out):
        tell_served([])
    assert out.getvalue() == ""
