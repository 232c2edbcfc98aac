"""Measures how fast a session is shared:  python3 python dev.bench.sessions

Prints the commands and queries per second through one front, over a pipe (`netrev run`) and over the loopback
interface, with all lines sent at once. Then several fronts, each over its own connection, place 1,000 commands each at
the same time: it prints their total of commands per second, and how long the slowest front takes until a query shows
all commands. Finally it prints the round trips per second of one caller that waits for each reply. Each figure is the
best of three. No figure is checked against a limit. A wrong reply ends the run.
"""

import subprocess
import sys
import tempfile
import threading
import time
from pathlib import Path

from tests.program.support.sharing import NETREV, ROOT, Server, WrongResultError, expect

STEPS = 100_000
MANY = 50_000
EACH = 1_000
RUNS = 3


def run_piped(recording, lines, replies):
    """The seconds in which `netrev run` answers these lines, repeated up to MANY lines in total; loading isn't
    counted."""
    seconds = []
    for count in (0, MANY // len(lines)):
        queries = "".join(f"{line}\n" for line in lines) * count
        began = time.perf_counter()
        words = [NETREV, "run", recording]
        ended = subprocess.run(words, input=queries.encode(), capture_output=True, timeout=60, check=True)
        seconds.append(time.perf_counter() - began)
        expect("the last replies", replies(count), ended.stdout.decode().splitlines()[-len(lines) :])
    return seconds[1] - seconds[0]


def stepped(count):
    """The last reply to `count` steps."""
    return [f"at {count}"] if count else []


def clocks(count):
    """The last reply to this many queries of the clock."""
    return ["clock = 0"] if count else []


def stepped_with_clocks(count):
    """The last two replies to `count` steps, each followed by a query of the clock."""
    return stepped(count) + clocks(count)


def place(caller, count):
    """Sends `count` commands without waiting for replies, and returns the seconds until the last reply."""
    lines = b"stepi\n" * count
    sender = threading.Thread(target=caller.sendall, args=(lines,))
    began = time.perf_counter()
    sender.start()
    left = count
    while left:
        data = caller.recv(1 << 16)
        if not data:
            raise WrongResultError("a connection ended before all was answered")
        left -= data.count(b"\n")
    sender.join()
    return time.perf_counter() - began


def look(caller):
    """The seconds until a query is answered, and the reply."""
    began = time.perf_counter()
    caller.sendall(b"info position\n")
    reply = b""
    while not reply.endswith(b"\n"):
        reply += caller.recv(100)
    return time.perf_counter() - began, reply.decode()


def share(recording, fronts, each):
    """Callers at `fronts` fronts send `each` commands at the same time. Returns the seconds until all have their
    replies, and the seconds that the slowest front then needs to catch up."""
    with Server(recording, fronts, journal=1_000_000) as server:
        callers = [server.call(front) for front in range(fronts)]
        expect("the first replies", {f"at 0 of {STEPS} forward\n"}, {look(caller)[1] for caller in callers})
        workers = [threading.Thread(target=place, args=(caller, each)) for caller in callers]
        began = time.perf_counter()
        for worker in workers:
            worker.start()
        for worker in workers:
            worker.join()
        placed = time.perf_counter() - began
        looks = [look(caller) for caller in callers]
        expect("where all stand", {f"at {fronts * each} of {STEPS} forward\n"}, {reply for _, reply in looks})
        for caller in callers:
            caller.close()
        server.expect_end(0, f"placed {fronts * each}\n")
    return placed, max(seconds for seconds, _ in looks)


def wait_for_each(recording, count):
    """The seconds for this many round trips."""
    with Server(recording) as server:
        caller = server.call(0)
        began = time.perf_counter()
        for _ in range(count):
            look(caller)
        seconds = time.perf_counter() - began
        caller.close()
        server.expect_end(0, "placed 0\n")
    return seconds


def main():
    with tempfile.TemporaryDirectory() as folder:
        recording = Path(folder) / "recording.jsonl"
        words = ["awk", "-v", "shape=locks", "-v", f"n={STEPS}", "-f", str(ROOT / "bench/shapes.awk")]
        with open(recording, "wb") as out:
            subprocess.run(words, stdout=out, timeout=60, check=True)

        piped = min(run_piped(recording, ["stepi"], stepped) for _ in range(RUNS))
        seconds = min(run_piped(recording, ["print clock"], clocks) for _ in range(RUNS))
        both = min(run_piped(recording, ["stepi", "print clock"], stepped_with_clocks) for _ in range(RUNS))
        alone, _ = min(share(recording, 1, MANY) for _ in range(RUNS))
        trips = min(wait_for_each(recording, MANY // 5) for _ in range(RUNS))
        print("| One front | a second |")
        print("|---|--:|")
        print(f"| commands over a pipe, sent at once | {MANY / piped:,.0f} |")
        print(f"| queries over a pipe, sent at once | {MANY / seconds:,.0f} |")
        print(f"| steps and queries in turn over a pipe, sent at once | {MANY / both:,.0f} |")
        print(f"| commands over the loopback, sent at once | {MANY / alone:,.0f} |")
        print(f"| round trips over the loopback | {MANY // 5 / trips:,.0f} |")
        print()
        print(f"| Fronts, {EACH:,} commands each | commands a second in all | slowest query after them, ms |")
        print("|--:|--:|--:|")
        for fronts in (1, 2, 4, 8, 16, 64):
            placed, caught_up = min(share(recording, fronts, EACH) for _ in range(RUNS))
            print(f"| {fronts} | {fronts * EACH / placed:,.0f} | {caught_up * 1e3:.2f} |")


if __name__ == "__main__":
    try:
        main()
    except WrongResultError as wrong:
        sys.exit(f"sessions.py: {wrong}")
