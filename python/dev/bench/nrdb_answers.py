"""Measures how long nrdb takes to answer, on recordings of the shape `mix`:  python3 python dev.bench.nrdb_answers [STEPS ..]

The first `goto` goes to three quarters of the recording, and waits until the changes of all earlier steps are read. The
other lines follow. A line's time is measured from sending it to its output. NETREV names the program.
"""

import json
import subprocess
import sys
import tempfile
import time
from pathlib import Path

from .programs import NETREV, ROOT, write_recording

NRDB = ROOT / "nrdb"
DONE = {"event": "note", "text": "cell clock: the time, in nanoseconds"}
LINES = (
    "info goroutines",
    "info sockets",
    "info descriptors",
    "info timers",
    "info holders 0",
    "history gor 1",
    "history lock 0",
    "history rg 0",
    "list",
    "watch lock 0",
    "continue",
    "reverse-continue",
    "goto 17",
)


class Companion:
    """An nrdb that reads lines and prints lines of JSON."""

    def __init__(self, recording):
        words = [NRDB, "--json", "--netrev", NETREV, recording]
        self.process = subprocess.Popen(words, stdin=subprocess.PIPE, stdout=subprocess.PIPE, text=True)
        assert self.process.stdin and self.process.stdout
        self.lines, self.events = self.process.stdin, self.process.stdout

    def ask(self, *lines):
        """The seconds until these lines are answered."""
        begun = time.monotonic()
        self.lines.write("".join(f"{line}\n" for line in (*lines, "help clock")))
        self.lines.flush()
        while json.loads(self.events.readline()) != DONE:
            pass
        return time.monotonic() - begun

    def end(self):
        """Ends the session."""
        self.lines.close()
        self.events.close()
        self.process.wait()


def measured(steps, folder):
    """The seconds that the start and each line take, with a recording of this many steps."""
    recording = Path(folder) / "mix.jsonl"
    write_recording("mix", steps, recording)
    companion = Companion(recording)
    times = {"begin": companion.ask()}
    times["the first goto"] = companion.ask(f"goto {steps * 3 // 4}")
    times.update((line, companion.ask(line)) for line in LINES)
    companion.end()
    return times


def main():
    """Prints a table with a row for each line and a column for each size."""
    sizes = [int(word) for word in sys.argv[1:]] or [10_000, 1_000_000]
    with tempfile.TemporaryDirectory() as folder:
        columns = [measured(size, folder) for size in sizes]
    print(f"| nrdb, ms | {' | '.join(f'{size:,} steps' for size in sizes)} |")
    print("|---|" + "--:|" * len(sizes))
    for line in columns[0]:
        print(f"| {line} | {' | '.join(f'{column[line] * 1000:,.0f}' for column in columns)} |")


if __name__ == "__main__":
    main()
