"""The path of netrev's program."""

import os
import shutil
import sys
from pathlib import Path

HERE = Path(__file__).resolve().parents
BUILT = HERE[3] / "crates/netrev/out/netrev"
INSTALLED = HERE[4] / "bin/netrev"  # set by `make install`, which puts this module into lib/netrev/netrev/system


LAUNCHER = b"netrev.system.launcher"  # a text in pip's script that looks for netrev itself


def is_launcher(path: Path) -> bool:
    """Whether a file is only pip's script that looks for netrev."""
    with path.open("rb") as file:
        return LAUNCHER in file.read(4096)


def on_the_path() -> str | None:
    """The first netrev on the PATH that isn't a launcher."""
    for folder in os.environ.get("PATH", os.defpath).split(os.pathsep):
        found = shutil.which("netrev", path=folder) if folder else None
        if found and not is_launcher(Path(found)):
            return found
    return None


def netrev_program() -> str | None:
    """The program that NETREV names. By default, it is the program that was built here, the program that is installed
    beside the running program, or another installed netrev, in this order."""
    beside = Path(sys.argv[0]).resolve().with_name("netrev")
    programs = [str(path) for path in (BUILT, beside, INSTALLED) if path.is_file() and not is_launcher(path)]
    return os.environ.get("NETREV") or next(iter(programs), None) or on_the_path()
