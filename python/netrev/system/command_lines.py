"""Command lines to type: how this user can call nrdb and netrev-go from the current folder."""

from __future__ import annotations

import os
import shlex
import shutil
import sys
import sysconfig
from pathlib import Path

PACKAGES = Path(__file__).resolve().parents[2]
MODULES = {"nrdb": "nrdb", "netrev-go": "netrev_go"}
IN_A_CLONE = {"nrdb": "nrdb", "netrev-go": "tools/go/netrev-go"}


def command_line(name: str, *words: object) -> str:
    """A program's command line with these arguments, quoted for a shell."""
    return " ".join([command(name), *(shlex.quote(str(word)) for word in words)])


def command(name: str) -> str:
    """The command that calls `nrdb` or `netrev-go` in the current folder: its name if the PATH leads to this
    installation, else its path."""
    scripts = [path for path in scripts_of(name) if is_executable(path)]
    found = shutil.which(name)
    if found and Path(found).resolve() in [path.resolve() for path in scripts]:
        return name
    if scripts:
        return shlex.quote(path_from_here(scripts[0]))
    return shlex.join([sys.executable or "python3", path_from_here(PACKAGES), MODULES[name]])


def scripts_of(name: str) -> list[Path]:
    """The possible paths of a program's script in this installation: in a clone, after `make install` or in the
    archive, and after `pip install`."""
    if PACKAGES.name == "python":
        return [PACKAGES.parent / IN_A_CLONE[name]]
    if PACKAGES.parts[-2:] == ("lib", "netrev"):
        return [PACKAGES.parents[1] / "bin" / name]
    return [
        PACKAGES / "bin" / name,  # with --target
        *(Path(sysconfig.get_path("scripts", scheme)) / name for scheme in schemes()),
    ]


def schemes() -> list[str]:
    """The folders into which pip puts scripts: those of this Python's own packages, or the user's."""
    every = sysconfig.get_default_scheme(), sysconfig.get_preferred_scheme("user")
    return [scheme for scheme in every if Path(sysconfig.get_path("purelib", scheme)).resolve() == PACKAGES]


def is_executable(path: Path) -> bool:
    return path.is_file() and os.access(path, os.X_OK)


def path_from_here(path: Path) -> str:
    """A path for a shell in the current folder: the relative path unless it is longer."""
    try:
        relative = os.path.relpath(path, os.getcwd())
    except OSError:  # the current folder is gone
        return str(path)
    relative = relative if relative.startswith("..") else f"./{relative}"
    return min(relative, str(path), key=len)


def file_word(path: object) -> str:
    """A file's name as an argument of a command. A name that begins with `-` is changed, because it would be read as an
    option."""
    return f"./{path}" if str(path).startswith("-") else str(path)


def how_to_get_netrev(option: str = "NETREV") -> str:
    """A text that says what to do if netrev's program isn't found. `option` is the option that names another
    program."""
    build = make_command("netrev")
    get = f"`{build}` builds it" if build else "the Debian package and the archive contain it"
    return f"{get}; {option} names another one"


def make_command(target: str) -> str | None:
    """The `make` command for a target in this clone; None if this isn't a clone."""
    top = PACKAGES.parent
    if PACKAGES.name != "python" or not (top / "Makefile").is_file():
        return None
    is_here = path_from_here(top) == "./."
    return f"make {target}" if is_here else f"make -C {shlex.quote(path_from_here(top))} {target}"
