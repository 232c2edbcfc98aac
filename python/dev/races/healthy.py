"""Prints the table of healthy programs:  python3 python dev.races.healthy [--schedules 3000] [--out FOLDER] [--only TEXT]

Tests of Go's packages and of other projects, chosen at random by a seed, are recorded on four processors and explored; each finding is
printed with its place, for inspection. It needs Go and Debian's packages (python/dev/recorder/suites.py names them), but not netrev.
"""

import argparse
import gc
import random
import sys
from collections.abc import Iterator
from pathlib import Path
from typing import NamedTuple

from dev.recorder.building import built, source_folder, tests_of
from dev.recorder.suites import Suite
from netrev.recording.recording import Recording
from netrev_go.go_command.toolchain import Go, RecorderError, find_go

from .explored import explored, is_good, named, read, recorded

ROOT = Path(__file__).resolve().parents[3]
SEED = 55
LEAST, GREATEST = 60, 6_000  # steps
# the number of tests for each package
WANTED = {
    Suite("net"): 3,
    Suite("net/http"): 5,
    Suite("crypto/tls"): 3,
    Suite("net/rpc"): 2,
    Suite("net/http/httputil"): 1,
    Suite("net/smtp"): 1,
    Suite("golang.org/x/net/http2", "Server|Transport|Conn|Timeout|Stream"): 3,
    Suite("golang.org/x/net/websocket"): 1,
    Suite("golang.org/x/crypto/ssh"): 2,
    Suite("github.com/gorilla/websocket"): 2,
    Suite("github.com/miekg/dns", "Serv|Client|Dial|Conn|TCP|Timeout|Shutdown"): 2,
    Suite("github.com/valyala/fasthttp", "Client|Server|Conn|Timeout|Pipeline|Dial|Listen|Shutdown"): 2,
    Suite("net", "Deadline|Timeout|Cancel|Close"): 4,
    Suite("net/http", "Deadline|Timeout|Cancel|Abort|Hijack|Background|Close"): 6,
    Suite("crypto/tls", "Deadline|Timeout|Cancel|Close"): 2,
}


class Healthy(NamedTuple):
    """A test that passed, and its recording."""

    package: str
    test: str
    recording: Recording


def drawn(go: Go, suite: Suite, count: int, out: Path) -> Iterator[Healthy]:
    """`count` tests of a package. All of them passed, and none is too short or too long."""
    program = built(go, suite, out)
    folder = source_folder(go, suite)
    tests = tests_of(program, folder, suite) if program else []
    random.Random(SEED).shuffle(tests)
    for test in tests:
        if count and (
            recording := went_well(go, program, folder, test, out / f"{suite.package.replace('/', '_')}-{test}.jsonl")
        ):
            count -= 1
            yield Healthy(suite.package, test, recording)


def went_well(go: Go, program: Path | None, folder: Path, test: str, name: Path) -> Recording | None:
    """The recording of a test that passed, if it can be used."""
    command = [str(program), "-test.run", f"^{test}$", "-test.short", "-test.timeout=40s"]
    run = recorded(go, command, folder, 4, name)
    if run.status or not run.recording:
        return None
    recording = read(run.recording)
    return recording if LEAST <= recording.length <= GREATEST and is_good(recording) else None


def main() -> int:
    parser = argparse.ArgumentParser(description=__doc__, formatter_class=argparse.RawDescriptionHelpFormatter)
    parser.add_argument("--schedules", type=int, default=3_000)
    parser.add_argument("--out", type=Path, default=ROOT / "out/healthy", help="where the recordings are left")
    parser.add_argument("--only", default="")
    options = parser.parse_args()
    options.out.mkdir(parents=True, exist_ok=True)
    gc.disable()
    try:
        go = find_go()
    except RecorderError as trouble:
        print(trouble, file=sys.stderr)
        return 3
    print("| Test | steps | orders | schedules | findings | a second |")
    print("|---|--:|--:|--:|--:|--:|")
    for suite, count in WANTED.items():
        for case in drawn(go, suite, count, options.out) if options.only in suite.package else ():
            tell(case, options.schedules)
    return 0


def tell(case: Healthy, schedules: int) -> None:
    """Prints a test's row and findings."""
    recording = case.recording
    outcome = explored(recording, schedules)
    orders = len(recording.lines.orders or ())
    pace = f"{outcome.played / max(outcome.seconds, 0.001):.0f}"
    found = len(outcome.search.found)
    print(
        f"| {case.package} {case.test} | {recording.length} | {orders} | {outcome.played:,} | {found} | {pace} |",
        flush=True,
    )
    for key, finding in outcome.search.found.items():
        print(f"  {named(key[0])} {key[1:]}: {finding.schedule}, {outcome.search.times[key]} times", flush=True)


if __name__ == "__main__":
    sys.exit(main())
