"""The installed Go, and the overlay that makes it record: changed copies of a few of its files, in a folder of the
user's cache."""

from __future__ import annotations

import hashlib
import json
import os
import pathlib
import re
import shutil
import subprocess
import tempfile
from dataclasses import dataclass

from netrev.errors import NetrevError
from netrev.messages import recorder as messages
from netrev.system.command_lines import command

from .cached_files import made_once

SOURCES = pathlib.Path(__file__).resolve().parents[1] / "go"
OVERLAY, NEW, LEFT_OUT = "overlay.json", "new.json", "without.txt"
CHANGED = ("runtime", "internal/poll", "testing")  # the packages of Go that the overlay changes
WITHOUT = "without "  # a line for an optional rule begins like this
# For each release, the patch with which the rules were tried.
TRIED = {"1.19": 8, "1.21": 13, "1.22": 12, "1.23": 5, "1.24": 4, "1.26": 10, "1.27": 3}


class RecorderError(NetrevError):
    """An error for the user that names its remedy."""


@dataclass(frozen=True)
class Go:
    """An installed Go."""

    program: str
    root: pathlib.Path
    version: str
    system: str
    flags: str

    def sources(self) -> pathlib.Path:
        return self.root / "src"

    def own_program(self) -> str:
        """The path of this release's own command. The `go` on the PATH may read go.mod and choose another release."""
        own = self.root / "bin/go"
        return str(own) if own.exists() else self.program


def find_go() -> Go:
    program = shutil.which("go")
    if not program:
        raise RecorderError(messages.NO_GO.format(how=messages.HOW_TO_INSTALL))
    run = subprocess.run([program, "env", "-json"], capture_output=True, text=True, check=False)
    if run.returncode != 0:
        raise RecorderError(messages.GO_ENV_FAILED.format(why=run.stderr.strip()))
    variables = json.loads(run.stdout)
    go = Go(
        program,
        pathlib.Path(variables["GOROOT"]),
        variables["GOVERSION"],
        f"{variables['GOOS']}/{variables['GOARCH']}",
        variables["GOFLAGS"],
    )
    if go.system != "linux/amd64":
        raise RecorderError(messages.OTHER_SYSTEM.format(system=go.system))
    if not (go.sources() / "runtime/netpoll.go").exists():
        raise RecorderError(messages.NO_SOURCES.format(folder=go.sources()))
    return go


def cache() -> pathlib.Path:
    """The folder of the overlays."""
    base = os.environ.get("XDG_CACHE_HOME") or os.path.expanduser("~/.cache")
    return pathlib.Path(base) / "netrev-go"


def key_of(go: Go) -> str:
    """A key for everything on which an overlay depends: Go's files below the two changed packages, and ours."""
    digest = hashlib.sha256(f"{go.version} {go.root}".encode())
    ours = sorted(SOURCES.glob("*/*.go"))
    theirs = [path for name in CHANGED for path in sorted((go.sources() / name).glob("*.go"))]
    for path in (*ours, *theirs):
        digest.update(path.read_bytes() if path in ours else f"{path} {path.stat().st_mtime_ns}".encode())
    return f"{re.sub(r'[^0-9A-Za-z.+-]', '_', go.version)}-{digest.hexdigest()[:12]}"


def quiet_go(go: Go, folder: pathlib.Path, *words: str) -> subprocess.CompletedProcess[str]:
    """Runs Go on our own program, regardless of the user's flags and modules."""
    environment = {name: value for name, value in os.environ.items() if name not in ("GOFLAGS", "NETREV_LOG")}
    environment |= {"GO111MODULE": "off", "CGO_ENABLED": "0", "GOTOOLCHAIN": "local"}
    return subprocess.run(
        [go.own_program(), *words], cwd=folder, env=environment, capture_output=True, text=True, check=False
    )


def release_of(version: str) -> tuple[str, str]:
    """The release and the patch of a version: 1.27 and 3 for go1.27.3."""
    found = re.match(r"go(1\.\d+)(?:\.(\d+))?(?:\s|\Z)", version)
    return (found[1], found[2] or "0") if found else (version, "")


def is_tried(version: str) -> bool:
    release, patch = release_of(version)
    return release in TRIED and patch == str(TRIED[release])


def tried(version: str) -> str:
    """A text that says whether a version was tried."""
    release, _ = release_of(version)
    if is_tried(version):
        return messages.TRIED
    if release in TRIED:
        return messages.PATCH_UNTRIED.format(tried=f"{release}.{TRIED[release]}")
    return messages.RELEASE_UNTRIED.format(tried=", ".join(TRIED))


def points_program(go: Go, folder: pathlib.Path) -> pathlib.Path:
    """The program that finds the points, built by the Go that it is meant for."""
    program = folder / "points"
    run = quiet_go(go, SOURCES / "points", "build", "-o", str(program), ".")
    if run.returncode != 0:
        raise RecorderError(messages.TOOL_NOT_BUILT.format(why=run.stderr.strip()))
    return program


def fit(go: Go) -> tuple[bool, list[str]]:
    """Whether all rules fit this Go, and a line for each rule."""
    with tempfile.TemporaryDirectory() as folder:
        program = points_program(go, pathlib.Path(folder))
        run = subprocess.run([program, "fit", go.sources()], capture_output=True, text=True, check=False)
    return run.returncode == 0, (run.stdout + run.stderr).splitlines()


def overlay(go: Go) -> pathlib.Path:
    """The overlay for this Go, which is made if it doesn't exist or is damaged. It exists only after Go has compiled
    it."""
    folder = cache() / key_of(go)
    try:
        made_once(folder, lambda: make_overlay(go, folder))
    except OSError as fault:
        raise RecorderError(
            messages.CACHE_UNUSABLE.format(folder=fault.filename or folder, why=fault.strerror)
        ) from None
    return folder / OVERLAY


def left_out(go: Go) -> list[str]:
    """What isn't recorded with this Go: a line for each optional rule that doesn't fit."""
    return (overlay(go).parent / LEFT_OUT).read_text().splitlines()


def make_overlay(go: Go, folder: pathlib.Path) -> list[str]:
    """Makes the overlay, and returns the names of its files."""
    program = points_program(go, folder)
    run = subprocess.run(
        [program, "overlay", go.sources(), SOURCES / "log", folder], capture_output=True, text=True, check=False
    )
    program.unlink()
    lines = run.stdout.splitlines()
    words = {"version": go.version, "tried": tried(go.version)}
    if run.returncode != 0:
        unfit = [line for line in lines if line.startswith("unfit ")]
        head = messages.RULES_DONT_FIT.format(**words, netrev_go=command("netrev-go"))
        raise RecorderError(head + "\n".join([*unfit, run.stderr]).strip())
    compiled = quiet_go(go, folder, "build", "-overlay", str(folder / NEW), *CHANGED)
    if compiled.returncode != 0:
        raise RecorderError(messages.DOES_NOT_COMPILE.format(**words, why=compiled.stderr.strip()))
    (folder / LEFT_OUT).write_text("".join(f"{line}\n" for line in lines if line.startswith(WITHOUT)))
    replaced = json.loads((folder / NEW).read_text())["Replace"].values()
    (folder / NEW).rename(folder / OVERLAY)
    return [OVERLAY, LEFT_OUT, *{path.name for path in map(pathlib.Path, replaced) if path.parent == folder}]
