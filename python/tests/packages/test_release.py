"""`make release` puts all published files into one folder. It packs nothing unless the gate has passed."""

import hashlib
import os
import re
import shutil
import subprocess
import sys
from pathlib import Path

import pytest

from netrev.system.version import VERSION

ROOT = Path(__file__).resolve().parents[3]
CHANGELOG = """# Changes

Text.

## Unreleased

### Fixed

- A new thing.

## [1.1.0] - 2026-11-29

- Of one.

## What it has

- More of one.

## 1.0.0

- Of none.
"""
SCRIPTS = ("scripts/release.sh", "scripts/notes.py", "scripts/package.sh", "scripts/unchanged.sh", "CHANGELOG.md")
PARTS = re.findall(r'^parts="([^"]*)"$', (ROOT / "scripts/unchanged.sh").read_text(), re.MULTILINE)[0].split()
ARCHIVE, DEB = f"netrev-{VERSION}-linux-x86_64.tar.gz", f"netrev_{VERSION}_amd64.deb"


@pytest.fixture
def tree(tmp_path: Path) -> Path:
    """A tree whose packages have been made, with every file and folder of a release."""
    for name in PARTS:
        (tmp_path / name).mkdir() if (ROOT / name).is_dir() else (tmp_path / name).touch()
    for name in SCRIPTS:
        shutil.copy(ROOT / name, tmp_path / name)
    (tmp_path / "scripts/archive.sh").write_text('echo "packs $*"\n')
    (tmp_path / "scripts/proved.sh").write_text('echo "proved $*"\n')
    for folder in ("out", "crates/netrev/src", "crates/netrev/out"):
        (tmp_path / folder).mkdir(parents=True)
    (tmp_path / "crates/netrev/src/main.rt").touch()
    (tmp_path / "out" / ARCHIVE).write_text("archive")
    (tmp_path / "out" / DEB).write_text("package")
    return tmp_path


def run(tree: Path, *command: str) -> "subprocess.CompletedProcess[str]":
    return subprocess.run(["sh", *command], cwd=tree, capture_output=True, text=True, check=False)


def pass_gate(tree: Path, program: bytes) -> Path:
    """Makes a program, and the files of a gate that it passed."""
    built = tree / "crates/netrev/out/netrev"
    built.write_bytes(program)
    built.chmod(0o755)
    (tree / "out/gate.log").write_text("1 passed, 0 failed\n")
    (tree / "out/gate.sum").write_text(f"{hashlib.sha256(program).hexdigest()}  -\n")
    return built


def test_a_release_is_packages_sums_and_notes(tree: Path) -> None:
    process = run(tree, "scripts/release.sh", VERSION)
    assert process.returncode == 0, process.stderr
    folder = tree / "out/release"
    assert sorted(path.name for path in folder.iterdir()) == sorted([ARCHIVE, DEB, "RELEASE-NOTES.md", "SHA256SUMS"])
    files = (ARCHIVE, DEB, "RELEASE-NOTES.md")
    sums = [f"{hashlib.sha256((folder / name).read_bytes()).hexdigest()}  {name}\n" for name in files]
    assert (folder / "SHA256SUMS").read_text() == "".join(sums)
    assert (folder / "RELEASE-NOTES.md").read_text().startswith(f"# netrev {VERSION}\n")


def test_a_later_release_takes_the_place_of_an_earlier_one(tree: Path) -> None:
    run(tree, "scripts/release.sh", VERSION)
    (tree / "out/release/old.deb").touch()
    assert run(tree, "scripts/release.sh", VERSION).returncode == 0
    assert not (tree / "out/release/old.deb").exists()
    assert list((tree / "out").glob("release-*")) == []


def test_without_a_package_there_is_no_release(tree: Path) -> None:
    (tree / "out" / DEB).unlink()
    assert run(tree, "scripts/release.sh", VERSION).returncode != 0
    assert sorted(path.name for path in (tree / "out").iterdir()) == [ARCHIVE]


def notes(folder: Path, version: str) -> "subprocess.CompletedProcess[str]":
    """The output of scripts/notes.py for CHANGELOG."""
    (folder / "changes").write_text(CHANGELOG)
    command = [sys.executable, str(ROOT / "scripts/notes.py"), version, str(folder / "changes")]
    return subprocess.run(command, capture_output=True, text=True, check=False)


def test_notes_are_those_of_the_version_and_of_what_is_unreleased(tmp_path: Path) -> None:
    process = notes(tmp_path, "1.1.0")
    assert process.returncode == 0, process.stderr
    assert (
        process.stdout
        == "# netrev 1.1.0\n\n### Fixed\n\n- A new thing.\n\n- Of one.\n\n## What it has\n\n- More of one.\n"
    )


def test_a_version_that_is_not_in_the_changelog_has_no_notes(tmp_path: Path) -> None:
    process = notes(tmp_path, "2.0.0")
    assert (process.returncode, process.stdout, process.stderr) == (
        1,
        "",
        "notes.py: CHANGELOG.md has no section 2.0.0\n",
    )


def test_what_passed_the_gate_is_packed(tree: Path) -> None:
    built = pass_gate(tree, b"#!/bin/sh\n")
    same = tree / "same"
    shutil.copy2(built, same)
    for words in ((), (str(same),)):
        process = run(tree, "scripts/package.sh", VERSION, *words)
        program = words[0] if words else "crates/netrev/out/netrev"
        assert process.stdout == f"packs {VERSION} {program} out/gate.log out out/proved.txt\n", process.stderr
        assert (tree / "out/proved.txt").read_text() == f"proved {program}\n"


def test_what_passed_no_gate_is_not_packed(tree: Path) -> None:
    process = run(tree, "scripts/package.sh", VERSION, "/bin/true")
    assert (process.returncode, process.stdout) == (1, "")
    assert (
        process.stderr
        == "package.sh: no gate has passed here (no out/gate.log or no out/gate.sum): run `make test` first.\n"
    )
    pass_gate(tree, b"#!/bin/sh\n")
    process = run(tree, "scripts/package.sh", VERSION, "/bin/true")
    assert (process.returncode, process.stdout) == (1, "")
    assert process.stderr.startswith("package.sh: /bin/true isn't the program that passed the gate")


def test_sources_that_changed_after_the_gate_are_not_packed(tree: Path) -> None:
    pass_gate(tree, b"#!/bin/sh\n")
    source = tree / "crates/netrev/src/main.rt"
    later = (tree / "out/gate.log").stat().st_mtime + 10
    source.touch()

    os.utime(source, (later, later))
    process = run(tree, "scripts/package.sh", VERSION)
    assert (process.returncode, process.stdout) == (1, "")
    assert "crates/netrev/src/main.rt is newer than out/gate.log" in process.stderr


def test_a_release_wants_a_gate_after_which_no_file_has_changed(tree: Path) -> None:
    process = run(tree, "scripts/unchanged.sh")
    assert process.returncode == 1 and process.stderr.startswith("no gate has passed here")
    pass_gate(tree, b"#!/bin/sh\n")
    now = (tree / "out/gate.log").stat().st_mtime
    for path in tree.rglob("*"):
        os.utime(path, (now - 10, now - 10))
    os.utime(tree / "out/gate.log", (now, now))
    os.utime(tree / "crates/netrev/out/netrev", (now + 10, now + 10))
    assert run(tree, "scripts/unchanged.sh").returncode == 0
    os.utime(tree / "scripts/notes.py", (now + 10, now + 10))
    process = run(tree, "scripts/unchanged.sh")
    assert (process.returncode, process.stderr) == (
        1,
        "scripts/notes.py has changed after the gate: run `make test` again.\n",
    )


def test_make_release_asks_before_it_packs() -> None:
    rules = (ROOT / "Makefile").read_text()
    recipe = rules[rules.index("\nrelease:") :].split("\n\n")[0].splitlines()
    assert [line.strip("\t@") for line in recipe[2:]] == [
        "sh scripts/unchanged.sh",
        "$(MAKE) --no-print-directory deb",
        "sh scripts/release.sh $(call quoted,$(VERSION))",
    ]
