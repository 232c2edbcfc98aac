"""What `make install` and `pip install` produce: the files of the packages, nrdb and netrev-go programs that find
netrev, and the man page."""

import os
import re
import shutil
import subprocess
import sys
from pathlib import Path

import pytest

from .common.support import EXAMPLES, NETREV, PATIENCE, ROOT, nrdb

ENVIRONMENT = {name: value for name, value in os.environ.items() if name not in ("NETREV", "MAKEFLAGS", "PYTHONPATH")}
ASKED = ("--batch", "-ex", "continue", "-ex", "info goroutines", EXAMPLES / "first.jsonl")
PROJECT = ("pyproject.toml", "python", "LICENSE", "README.md")
INCLUDED = re.findall(r"^include = \[(.*)\]$", (ROOT / "pyproject.toml").read_text(encoding="utf-8"), re.MULTILINE)
INSTALLED = tuple(re.findall(r'"(\w+)\*"', "".join(INCLUDED)))  # the packages to install, which are listed only there


def printed(*words: object, **settings: str) -> str:
    """The output of a program that is called in another folder and ends with status 0."""
    run = subprocess.run(
        [str(word) for word in words],
        env=ENVIRONMENT | settings,
        cwd="/",
        capture_output=True,
        text=True,
        timeout=8 * PATIENCE,
    )
    assert run.returncode == 0, (words, run.stdout, run.stderr)
    return run.stdout


def builder() -> str | None:
    """A Python that can build packages without a network."""
    for python in (sys.executable, "/usr/bin/python3"):
        can = [python, "-c", "import setuptools, wheel, pip"]
        if shutil.which(python) and subprocess.run(can, capture_output=True, check=False).returncode == 0:
            return python
    return None


def contents(folder: Path) -> dict[str, bytes]:
    """The files of the packages in a folder, with their contents."""
    found = (path for name in INSTALLED for path in (folder / name).rglob("*"))
    return {
        str(path.relative_to(folder)): path.read_bytes()
        for path in found
        if path.is_file() and path.parent.name != "__pycache__"
    }


def test_what_is_installed_needs_nothing_that_is_not() -> None:
    assert len(INCLUDED) == 1
    assert {"nrdb", "netrev_go"} <= set(INSTALLED)
    every = {path.name for path in (ROOT / "python").iterdir() if (path / "__init__.py").exists()}
    assert set(INSTALLED) < every
    named = re.compile(r"^\s*(?:from|import) (\w+)", re.MULTILINE)
    for name in INSTALLED:
        for path in (ROOT / "python" / name).rglob("*.py"):
            imported = set(named.findall(path.read_text(encoding="utf-8")))
            assert imported & every - set(INSTALLED) == set(), path


def test_what_make_installs_runs_by_itself(folder: Path) -> None:
    for prefix, settings in ((folder / "p", ()), (folder / "d/usr", (f"DESTDIR={folder}/d",))):
        given = "/usr" if settings else prefix
        printed("make", "-s", "-C", ROOT, "-o", "netrev", "install", f"PROGRAM={NETREV}", f"PREFIX={given}", *settings)
        lib = prefix / "lib/netrev"
        assert {file.parent.name for file in lib.glob("*/__init__.py")} == set(INSTALLED)
        assert contents(lib) == contents(ROOT / "python")
        assert printed(prefix / "bin/nrdb", *ASKED) == nrdb(*ASKED)
        assert "netrev-go records Go programs." in printed(prefix / "bin/netrev-go", "--help")
        found = "import sys; from netrev.system import program_path; print(program_path.netrev_program())"
        assert printed("python3", "-c", found, PYTHONPATH=str(prefix / "lib/netrev"), PATH=os.defpath).strip() == str(
            (prefix / "bin/netrev").resolve()
        )
        assert (prefix / "share/man/man1/netrev.1").read_text().startswith(".TH NETREV 1")


def test_what_make_installs_is_compiled_and_goes_by_the_source(folder: Path) -> None:
    printed("make", "-s", "-C", ROOT, "-o", "netrev", "install", f"PROGRAM={NETREV}", f"PREFIX={folder}")
    lib = folder / "lib/netrev"
    modules = {path.relative_to(lib) for path in lib.rglob("*.py")}
    compiled = list(lib.rglob("__pycache__/*.pyc"))
    of = {path.relative_to(lib).parents[1] / f"{path.name.partition('.')[0]}.py" for path in compiled}
    assert of == modules
    flags = {int.from_bytes(path.read_bytes()[4:8], "little") for path in compiled}
    assert flags == {0b11}  # (PEP 552: Python reads the source and compares its hash with the .pyc file's)
    times = {path: path.stat().st_mtime_ns for path in compiled}
    assert printed(folder / "bin/nrdb", *ASKED) == nrdb(*ASKED)
    assert {path: path.stat().st_mtime_ns for path in lib.rglob("*.pyc")} == times
    source = lib / "netrev/system/version.py"
    before = source.stat()
    text = source.read_text(encoding="utf-8")
    source.write_text(re.sub(r"\d(?=\"$)", "9", text, flags=re.MULTILINE), encoding="utf-8")
    os.utime(source, ns=(before.st_atime_ns, before.st_mtime_ns))
    assert source.stat().st_size == before.st_size
    assert ".9" in printed(folder / "bin/nrdb", "--version")


def test_pip_installs_the_same(folder: Path) -> None:
    python = builder()
    if python is None:
        pytest.skip("no Python here has pip, setuptools and wheel")
    project, there = folder / "project", folder / "there"
    project.mkdir()
    for name in PROJECT:  # (setuptools leaves files beside those that it builds)
        if (ROOT / name).is_dir():
            shutil.copytree(ROOT / name, project / name)
        else:
            shutil.copy(ROOT / name, project / name)
    words = ("install", "--quiet", "--no-index", "--no-build-isolation", "--no-deps", "--target", there, project)
    printed(python, "-m", "pip", *words, PIP_DISABLE_PIP_VERSION_CHECK="1", PIP_ROOT_USER_ACTION="ignore")
    assert {file.parent.name for file in there.glob("*/__init__.py")} == set(INSTALLED)
    assert contents(there) == contents(ROOT / "python")
    assert printed(there / "bin/nrdb", *ASKED, NETREV=NETREV, PYTHONPATH=str(there)) == nrdb(*ASKED)
    assert "netrev-go records Go programs." in printed(there / "bin/netrev-go", "--help", PYTHONPATH=str(there))
