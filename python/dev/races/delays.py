"""Counts the runs in which each race occurs, with the recorder's delays and without:  python3 python dev.races.delays [--runs 100]
[--only NAME]

Each run of a race in tools/go/samples/races is a separate process on four processors, which writes a log; with delays, the seeds are 1, 2
and so on. Go is needed, netrev isn't. The output lines are rows of a Markdown table.
"""

import argparse
import shutil
import subprocess
import sys
import tempfile
from pathlib import Path

from netrev_go.go_command.running import logs_folder
from netrev_go.go_command.toolchain import RecorderError, find_go

from .explored import environment
from .races import RACES, built, names

POINTS = 2**16
PROCESSORS = 4
PATIENCE = 4  # seconds after which a run counts as hanging


def shows(program: Path, name: str, delays: int) -> bool:
    """Whether the race occurs in one run; it does if the run doesn't end in time."""
    logs = logs_folder(POINTS)
    settings = {
        "NETREV_LOG": str(logs / "log"), "NETREV_POINTS": str(POINTS), "NETREV_LINES": "0",
        "GOMAXPROCS": str(PROCESSORS), "NETREV_DELAYS": str(delays),
    }  # fmt: skip
    try:
        run = subprocess.run(
            [program, name], env=environment(**settings), capture_output=True, text=True, timeout=PATIENCE, check=False
        )
        return run.stdout.strip() != "0"
    except subprocess.TimeoutExpired:
        return True
    finally:
        shutil.rmtree(logs, ignore_errors=True)


def row(program: Path, name: str, runs: int) -> str:
    without = sum(shows(program, name, 0) for _ in range(runs))
    delayed = sum(shows(program, name, seed) for seed in range(1, runs + 1))
    return f"| `{name}` | {without} | {delayed} |"


def main() -> int:
    parser = argparse.ArgumentParser(description=__doc__, formatter_class=argparse.RawDescriptionHelpFormatter)
    parser.add_argument("--runs", type=int, default=100)
    parser.add_argument("--only", default="")
    options = parser.parse_args()
    with tempfile.TemporaryDirectory() as folder:
        try:
            program = built(find_go(), Path(folder), True)
        except (RecorderError, subprocess.CalledProcessError) as trouble:
            print(trouble, file=sys.stderr)
            return 3
        print(f"| Race | without delays, of {options.runs} | with delays, of {options.runs} |")
        print("|---|--:|--:|")
        for name in names():
            if options.only in name:
                print(row(program, name, options.runs), flush=True)
    return 0


if __name__ == "__main__":
    sys.exit(main())
