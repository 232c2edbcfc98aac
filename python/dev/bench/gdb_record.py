"""Measures GDB's `record full`, the alternative without netrev, on a small C program:  python3 python dev.bench.gdb_record [ROUNDS]

The program (gdb_record.c) makes 1,000 rounds, or ROUNDS: it takes a lock, writes to a socket pair, reads from it and
releases the lock. Prints, per second:

    the rounds that the program makes without GDB
    the instructions, and the rounds, that GDB records
    the instructions that a `reverse-stepi 10000` goes back
    the instructions that a `reverse-continue` over the whole record examines

A watchpoint that never hits is set during both reverse commands. Each figure is the best of three runs, in elapsed
time. If gdb or a C compiler is missing, prints only a line that says so.
"""

import re
import subprocess
import sys
import tempfile
import time
from pathlib import Path

from .programs import ROOT

SOURCE = ROOT / "bench/gdb_record.c"
ROUNDS = 1_000
ALONE = 200_000
RUNS = 3
BACK = 10_000
WHOLE = re.compile(r"^Log contains (\d+) instructions\.$", re.MULTILINE)
TOOK = re.compile(r"^took (\w+) ([\d.]+)$", re.MULTILINE)
BEFORE = """\
set confirm off
set pagination off
set record full insn-number-max unlimited
python
import time
def tell(name, seconds):
    print(f"\\ntook {name} {seconds:.9f}")
end
break begin
break finish
run
record full
"""


def timed(name, command):
    """A command for GDB that runs another command and prints how long that takes."""
    return f"python began = time.perf_counter()\n{command}\npython tell('{name}', time.perf_counter() - began)\n"


SCRIPT = (
    BEFORE
    + timed("recorded", "continue")
    + "info record\ndelete\nwatch never\n"
    + timed("stepped", f"reverse-stepi {BACK}")
    + "continue\n"
    + timed("searched", "reverse-continue")
)


def built(folder):
    """Builds the program so that all its calls are bound at its start, because `record full` can't follow the loader."""
    program = folder / "rounds"
    subprocess.run(["cc", "-Og", "-g", "-fno-inline", "-Wl,-z,now", "-o", program, SOURCE, "-pthread"], check=True)
    return program


def measured(program, rounds, folder):
    """The number of recorded instructions, and the seconds of each command."""
    script = folder / "script"
    script.write_text(SCRIPT, encoding="ascii")
    words = ["gdb", "-nx", "-batch", "-x", script, "--args", program, str(rounds)]
    ended = subprocess.run(words, stdin=subprocess.DEVNULL, capture_output=True, text=True, check=True)
    whole, times = WHOLE.search(ended.stdout), dict(TOOK.findall(ended.stdout))
    if not whole or len(times) < 3:
        raise ValueError(f"gdb recorded nothing:\n{ended.stdout}{ended.stderr}")
    return int(whole[1]), {name: float(seconds) for name, seconds in times.items()}


def seconds_alone(program):
    """The seconds for many rounds without GDB."""
    began = time.perf_counter()
    subprocess.run([program, str(ALONE)], check=True)
    return time.perf_counter() - began


def main(rounds):
    with tempfile.TemporaryDirectory() as folder:
        program = built(Path(folder))
        alone = min(seconds_alone(program) for _ in range(RUNS))
        runs = [measured(program, rounds, Path(folder)) for _ in range(RUNS)]
    whole = runs[0][0]
    least = {name: min(times[name] for _, times in runs) for name in runs[0][1]}
    print("| GDB's `record full` | a second |")
    print("|---|--:|")
    print(f"| rounds without GDB | {ALONE / alone:,.0f} |")
    print(f"| instructions recorded | {whole / least['recorded']:,.0f} |")
    print(f"| rounds recorded, {whole / rounds:,.0f} instructions each | {rounds / least['recorded']:,.0f} |")
    print(f"| `reverse-stepi {BACK}`, instructions | {BACK / least['stepped']:,.0f} |")
    print(f"| `reverse-continue` that finds nothing, instructions | {whole / least['searched']:,.0f} |")


if __name__ == "__main__":
    try:
        main(int(sys.argv[1]) if sys.argv[1:] else ROUNDS)
    except FileNotFoundError as error:
        print(f"gdb_record.py: no {error.filename}", file=sys.stderr)
    except (ValueError, subprocess.CalledProcessError) as error:
        sys.exit(f"gdb_record.py: {error}")
