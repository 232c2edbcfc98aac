"""Measures the memory for copies of full buffers:  python3 python dev.bench.copies

Makes four recordings of a million steps. The first steps fill the inputs of sockets. The later steps differ:

    five, still  only the clock moves, so no buffer changes
    moving       the outputs change, but not the filled inputs
    turning      all filled inputs change between two copies of the world

For each recording, prints the greatest memory and the processor time of `netrev check` and of a
session that has loaded the recording, as a row of a Markdown table. NETREV names the program. Linux only.
"""

import os
import subprocess
import sys
import tempfile
from collections.abc import Iterator
from pathlib import Path

from .programs import NETREV

STEPS = 1_000_000
MEBIBYTE = 1 << 20
MEGABYTE = 1_000_000
ONE = '{"netrev":1,"gor":1,"sock":256,"desc":1,"buf":65536}'
TWO = '{"netrev":2,"gor":1,"sock":256,"desc":1,"buf":1048576}'


def filled(sockets: int, held: int, piece: int) -> Iterator[str]:
    """Opens sockets, and fills their inputs."""
    for socket in range(sockets):
        yield '["sockopen",65536,65536]'
        yield from [f'["arrive",{socket},"{"61" * piece}"]'] * (held // piece)


def five() -> Iterator[str]:
    """Fills five inputs with 5 MiB; then the clock moves."""
    for socket in range(5):
        yield f'["sockopen",{MEBIBYTE},{MEBIBYTE},["number",{socket}]]'
        yield from [f'["arrive",{socket},"{"61" * 65536}","done"]'] * 16
    yield from (f'["tick",{time},"done"]' for time in range(STEPS))


def still() -> Iterator[str]:
    """Puts 4,096 bytes into each of 256 inputs; then the clock moves."""
    yield from filled(256, 4096, 4096)
    yield from (f'["tick",{time}]' for time in range(STEPS))


def moving() -> Iterator[str]:
    """Puts 4,096 bytes into each of 256 inputs; then two bytes enter and leave each output repeatedly."""
    yield from filled(256, 4096, 4096)
    for turn in range(STEPS):
        yield f'["syswrite",0,{turn % 256},"{turn % 251:02x}{turn % 7:02x}"]'
        if turn >= 256:
            yield f'["drain",{turn % 256},2]'


def turning() -> Iterator[str]:
    """Puts 65,536 bytes into each of 16 inputs; then each input loses a byte and gets another byte every 1,000
    steps."""
    yield from filled(16, 65536, 65536)
    for time in range(STEPS):
        if time % 1_000 == 0:
            for socket in range(16):
                yield from (f'["sysread",0,{socket},1]', f'["arrive",{socket},"62"]')
        yield f'["tick",{time}]'


RECORDINGS = {
    "5 MiB in five": (TWO, five),
    "4,096 bytes in each of 256": (ONE, still),
    "the same, outputs move": (ONE, moving),
    "65,536 bytes in each of 16, which change": (ONE, turning),
}


def write(path: Path, head: str, lines: Iterator[str]) -> None:
    """Writes a header and a million of the lines."""
    with open(path, "w", encoding="ascii") as out:
        out.write(f"{head}\n")
        out.writelines(f"{line}\n" for line, _ in zip(lines, range(STEPS)))


def checked(path: Path) -> tuple[float, float]:
    """The megabytes and seconds of `netrev check`."""
    with subprocess.Popen([NETREV, "check", path], stdin=subprocess.DEVNULL, stdout=subprocess.PIPE, text=True) as run:
        assert run.stdout
        printed = run.stdout.read().strip()
        _, status, used = os.wait4(run.pid, 0)
        run.returncode = os.waitstatus_to_exitcode(status)
    if printed != f"ok {STEPS} steps":
        sys.exit(f"{path.name}: {printed}")
    return used.ru_maxrss * 1024 / MEGABYTE, used.ru_utime + used.ru_stime


def loaded(path: Path) -> tuple[float, float]:
    """The megabytes and seconds of a session that has loaded the recording."""
    with subprocess.Popen([NETREV, "run", path], stdin=subprocess.PIPE, stdout=subprocess.PIPE, text=True) as run:
        assert run.stdin and run.stdout
        run.stdin.write("info position\n")
        run.stdin.flush()
        run.stdout.readline()
        lines = Path(f"/proc/{run.pid}/status").read_text(encoding="ascii").splitlines()
        (peak,) = (int(line.split()[1]) for line in lines if line.startswith("VmHWM:"))
        times = Path(f"/proc/{run.pid}/stat").read_text(encoding="ascii").rpartition(")")[2].split()[11:13]
    return peak * 1024 / MEGABYTE, sum(map(int, times)) / os.sysconf("SC_CLK_TCK")


def main() -> int:
    print("| Held in the inputs | the file, MB | `run`, MB | s | `check`, MB | s |")
    print("|---|--:|--:|--:|--:|--:|")
    with tempfile.TemporaryDirectory() as folder:
        path = Path(folder) / "recording.jsonl"
        for name, (head, lines) in RECORDINGS.items():
            write(path, head, lines())
            (run, run_seconds), (check, check_seconds) = loaded(path), checked(path)
            size = path.stat().st_size / MEGABYTE
            print(f"| {name} | {size:.0f} | {run:.0f} | {run_seconds:.2f} | {check:.0f} | {check_seconds:.2f} |")
    return 0


if __name__ == "__main__":
    sys.exit(main())
