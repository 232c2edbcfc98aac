"""The programs and recordings of the benchmarks: netrev, the same machine in plain Rust without proofs (`baseline`),
and recordings of many shapes.

NETREV names the program. NETREV_BASELINE names the program of `bench/baseline`. By default it is built; CPU, if set,
names the processors that it is built for. NETREV_BEFORE names an older netrev to measure too.
"""

import os
import subprocess
import sys
from pathlib import Path

ROOT = Path(__file__).resolve().parents[3]
NETREV = os.environ.get("NETREV", str(ROOT / "crates/netrev/out/netrev"))
NETREV_BEFORE = os.environ.get("NETREV_BEFORE")
BASELINE = os.environ.get("NETREV_BASELINE")
CPU = os.environ.get("CPU", "")  # as in `make netrev`


def built_baseline() -> str | None:
    """The baseline's program; None if it can't be built."""
    if BASELINE:
        return BASELINE
    target = ROOT / "out" / f"baseline{CPU and '-'}{CPU}"
    words = ["cargo", "build", "--quiet", "--release", "--offline", "--target-dir", str(target)]
    flags = {"RUSTFLAGS": f"-C target-cpu={CPU}"} if CPU else {}
    try:
        subprocess.run(words, cwd=ROOT / "bench/baseline", env={**os.environ, **flags}, check=True)
    except (OSError, subprocess.CalledProcessError) as error:
        print(f"{Path(sys.argv[0]).name}: no baseline: {error}", file=sys.stderr)
        return None
    return str(target / "release/netrev-baseline")


def write_recording(shape: str, steps: int, file: Path) -> None:
    """Makes a recording of a shape with this many steps."""
    words = ["awk", "-v", f"shape={shape}", "-v", f"n={steps}", "-f", str(ROOT / "bench/shapes.awk")]
    with open(file, "wb") as out:
        subprocess.run(words, stdout=out, check=True)
