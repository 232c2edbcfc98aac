"""Fresh places in which to try netrev's commands: a clone without build results, and a toolchain that compiles in no
time."""

import os
import shutil
import subprocess
from pathlib import Path

from .sharing import NETREV, ROOT

UNCLONED = shutil.ignore_patterns(
    ".git", "out", "target", "__pycache__", "build", "*.egg-info", ".mypy_cache", ".pytest_cache"
)
SETTINGS = (
    "NETREV",
    "NETREV_PLAIN",
    "NR_REFUSED",
    "MAKEFLAGS",
    "MAKELEVEL",
    "MFLAGS",
    "PYTHONPATH",
    "PYTHONHOME",
    "NO_COLOR",
)

# A toolchain that has already compiled netrev. Like the real toolchain's, its `rt try` runs the program as a child in a
# temporary folder; when it is interrupted, it kills the child and removes the folder. The toolchain records each of its
# calls.
RT = """#!/bin/sh
echo "$*" >> "{calls}"
case $1 in
version) echo "no kit"; exit;;
try) ;;
*) exit 2;;
esac
while [ "$1" != -- ]; do shift; done
shift
room=$(mktemp -d "{temporary}/rt-XXXXXX")
trap 'rm -rf "$room"' EXIT
trap 'kill $program; exit 130' INT TERM
cp "{netrev}" "$room/program"
cd "$room"
./program "$@" &
program=$!
wait $program
"""


def environment(**settings: str) -> dict[str, str]:
    """The environment of a user who has set no variable of netrev except these."""
    return {name: value for name, value in os.environ.items() if name not in SETTINGS} | settings


def fresh_clone(folder: Path) -> Path:
    """A copy of the tree as it is, without anything that was built."""
    clone = folder / "netrev"
    shutil.copytree(ROOT, clone, ignore=UNCLONED, symlinks=True)
    return clone


class Toolchain:
    """A stand-in for the toolchain: `rt try` runs the built netrev."""

    def __init__(self, folder: Path, program: str = NETREV) -> None:
        self.commands, self.temporary, self.log = folder / "commands", folder / "temporary", folder / "calls"
        self.commands.mkdir(parents=True)
        self.temporary.mkdir()
        rt = self.commands / "rt"
        rt.write_text(RT.format(calls=self.log, temporary=self.temporary, netrev=program))
        rt.chmod(0o755)

    def path(self) -> str:
        """A PATH with this toolchain."""
        return f"{self.commands}{os.pathsep}{os.environ.get('PATH', os.defpath)}"

    def compiled(self) -> int:
        """How many times `rt try` was called."""
        return sum(line.startswith("try ") for line in self.log.read_text().splitlines()) if self.log.exists() else 0


def make(clone: Path, *words: str, lines: str = "", **settings: str) -> "subprocess.CompletedProcess[str]":
    """Runs make in a clone, with these lines as its input."""
    command = ["make", "--no-print-directory", *words]
    return subprocess.run(
        command,
        cwd=clone,
        env=environment(**settings),
        input=lines,
        capture_output=True,
        text=True,
        timeout=300,
        check=False,
    )
