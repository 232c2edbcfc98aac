"""Measures how fast a shared session searches with several workers:  python3 python dev.bench.searches [WORKERS ..]

For 1, 2 and 4 workers or WORKERS, prints how many positions a second `continue` and `reverse-continue` search in a
recording of 1,000,000 steps in which no mark hits. For comparison, the same number of separate sessions, with one
worker each, make the same searches at the same time; their positions are added up. Each figure is the best of RUNS. The
last column is the workers' figure for `continue` divided by the sessions' figure. If valgrind is installed, the
instructions per position follow; callgrind counts them over COUNTED positions in each direction. No figure is checked
against a limit. A wrong reply ends the run.
"""

import os
import re
import shutil
import subprocess
import sys
import tempfile
import threading
import time
from concurrent.futures import ThreadPoolExecutor
from pathlib import Path

from tests.program.support.sharing import ROOT, Server, WrongResultError, expect

STEPS = 1_000_000
COUNTED = 100_000
RUNS = int(os.environ.get("RUNS", "5"))
MARKS = {"break @4294967295": "mark 1", "watch lock 4294967295": "mark 2"}
WITHOUT_REP = "GLIBC_TUNABLES=glibc.cpu.x86_rep_stosb_threshold=1000000000:glibc.cpu.x86_rep_movsb_threshold=1000000000"


def ask(stream, line, right):
    """The seconds until a line is answered. Checks that the reply is the given reply."""
    began = time.perf_counter()
    stream.write(f"{line}\n")
    stream.flush()
    expect(f"the reply to {line}", right, stream.readline().removesuffix("\n"))
    return time.perf_counter() - began


def searches(steps):
    """Each search, and its reply."""
    return {"continue": f"at {steps} end", "reverse-continue": "at 0 start"}


def session(recording, steps, workers, runs, start=None, through=()):
    """The seconds of each search, by run. With `start`, each search begins when all sessions are ready."""
    with Server(recording, workers=workers, through=through) as server:
        with server.call(0) as caller, caller.makefile("rw", encoding="ascii", newline="\n") as stream:
            for line, right in MARKS.items():
                ask(stream, line, right)
            seconds = []
            for line, right in list(searches(steps).items()) * runs:
                if start:
                    start.wait()
                seconds.append(ask(stream, line, right))
            ask(stream, "quit", "bye")
        server.expect_end(0, f"placed {len(MARKS) + len(seconds)}\n")
    return seconds


def search(recording, workers, sessions):
    """The positions per second of each search, summed over all sessions; the best of all runs."""
    start = threading.Barrier(sessions)
    with ThreadPoolExecutor(sessions) as pool:
        begun = [pool.submit(session, recording, STEPS, workers, RUNS, start) for _ in range(sessions)]
        seconds = [it.result() for it in begun]
    rates = [sum(STEPS / duration for duration in run) for run in zip(*seconds)]
    return [max(rates[number::2]) for number in (0, 1)]


def instructions(recording, workers, folder):
    """The instructions per position for both searches together."""
    counts = []
    for runs in (0, 1):
        file = Path(folder) / "counted"
        through = ("env", WITHOUT_REP, "valgrind", "--quiet", "--tool=callgrind", f"--callgrind-out-file={file}")
        session(recording, COUNTED, workers, runs, through=through)
        found = re.search(r"^(?:totals|summary): (\d+)", file.read_text(), re.MULTILINE)
        assert found, "what callgrind counted"
        counts.append(int(found[1]))
    return (counts[1] - counts[0]) / (2 * COUNTED)


def recorded(folder, steps):
    """The file of a recording with this many steps."""
    recording = Path(folder) / f"{steps}.jsonl"
    words = ["awk", "-v", "shape=mix", "-v", f"n={steps}", "-f", str(ROOT / "bench/shapes.awk")]
    with open(recording, "wb") as out:
        subprocess.run(words, stdout=out, timeout=60, check=True)
    return recording


def main(counts):
    with tempfile.TemporaryDirectory() as folder:
        recording, short = recorded(folder, STEPS), recorded(folder, COUNTED)
        columns = (
            "Workers",
            "continue, k positions/s",
            "reverse-continue",
            "sessions apart: continue",
            "reverse-continue",
        )
        print(f"| {' | '.join(columns)} | ratio | instructions a position |")
        print("|" + "--:|" * (len(columns) + 2))
        for count in counts:
            together, apart = search(recording, count, 1), search(recording, 1, count)
            rates = [f"{rate / 1000:,.0f}" for rate in (*together, *apart)]
            counted = f"{instructions(short, count, folder):.1f}" if shutil.which("valgrind") else ""
            print(f"| {count} | {' | '.join(rates)} | {together[0] / apart[0]:.2f} | {counted} |")


if __name__ == "__main__":
    try:
        main([int(word) for word in sys.argv[1:]] or [1, 2, 4])
    except WrongResultError as wrong:
        sys.exit(f"searches.py: {wrong}")
