"""`make test` begins with scripts/setup.sh, which installs what it can, names what it can't, and never stops the gate.
"""

import os
import re
import subprocess
from pathlib import Path

import pytest

ROOT = Path(__file__).resolve().parents[3]
SETUP = ROOT / "scripts/setup.sh"
PACKAGES = ("black", "mypy", "python3-pytest", "chromium", "emacs-nox", "elpa-dap-mode")
TOOLS = ("sh", "cd", "date", "dirname", "grep", "mkdir", "sed", "tr", "cat", "timeout")

# Stand-ins: a package counts as installed if a file in installed/ has its name.
STAND_INS = {
    "id": 'echo "$USER_NUMBER"',
    "dpkg-query": 'for name; do :; done; [ -e "$WORLD/installed/$name" ] && echo "install ok installed"',
    "apt-get": 'echo "apt-get $*" >> "$WORLD/calls"\n'
    'case "$1" in install) ;; *) exit 0;; esac\n'
    'for name; do case "$name" in -*|install) ;; $REFUSED) exit 100;; esac; done\n'
    'for name; do case "$name" in -*|install) ;; *) : > "$WORLD/installed/$name";; esac; done',
    "python3": 'echo "python3 $*" >> "$WORLD/calls"; [ "$3" != "$NO_GO" ] || { echo "no network"; exit 1; }',
}


class World:
    """A tree with scripts/setup.sh, and a simulated machine."""

    def __init__(self, top: Path) -> None:
        self.top, self.installed, self.commands = top, top / "installed", top / "commands"
        for folder in (self.installed, self.commands, top / "tree/scripts"):
            folder.mkdir(parents=True)
        (top / "tree/scripts/setup.sh").write_text(SETUP.read_text())
        for name, text in STAND_INS.items():
            self.add(name, text)
        for name in TOOLS:
            found = next((Path(folder, name) for folder in ("/usr/bin", "/bin") if Path(folder, name).exists()), None)
            if found:
                (self.commands / name).symlink_to(found)

    def add(self, name: str, text: str) -> None:
        """Adds a command to this machine."""
        (self.commands / name).write_text(f"#!/bin/sh\n{text}\n")
        (self.commands / name).chmod(0o755)

    def run(self, **settings: str) -> str:
        """The output of the script, whose status is always 0."""
        variables = {
            "PATH": str(self.commands),
            "WORLD": str(self.top),
            "USER_NUMBER": "0",
            "REFUSED": "-",
            "NO_GO": "-",
        }
        command = ["/bin/sh", "scripts/setup.sh"]
        process = subprocess.run(
            command, cwd=self.top / "tree", env=variables | settings, capture_output=True, text=True, check=False
        )
        assert (process.returncode, process.stderr) == (0, ""), process
        return process.stdout

    def calls(self) -> str:
        """The script's calls of apt-get and python3, one line each."""
        path = self.top / "calls"
        return path.read_text() if path.exists() else ""


@pytest.fixture
def world(tmp_path: Path) -> World:
    return World(tmp_path)


def test_root_has_what_is_missing_installed_and_both_releases_of_go_fetched(world: World) -> None:
    (world.installed / "black").touch()
    printed = world.run()
    assert re.fullmatch(r"setup: asked apt-get for these, \d+ s: mypy python3-pytest .*\n", printed)
    assert {path.name for path in world.installed.iterdir()} >= set(PACKAGES)
    assert "black" not in world.calls()
    for release in ("1.19", "1.27"):
        assert f"python3 python dev.recorder.fetching {release}\n" in world.calls()


def test_nothing_is_printed_nor_installed_if_all_is_there(world: World) -> None:
    world.run()
    before = world.calls().count("apt-get")
    assert world.run() == ""
    assert world.calls().count("apt-get") == before


def test_a_package_that_cannot_be_had_is_named_and_the_others_are_installed(world: World) -> None:
    printed = world.run(REFUSED="chromium")
    assert printed.endswith("\nsetup: not available here: chromium (out/setup.log)\n")
    assert not (world.installed / "chromium").exists() and (world.installed / "mypy").exists()
    assert "apt-get update\n" in world.calls()
    assert "chromium can't be installed\n" in (world.top / "tree/out/setup.log").read_text()


def test_who_is_not_root_is_told_the_command_and_nothing_is_installed(world: World) -> None:
    (world.installed / "black").touch()
    printed = world.run(USER_NUMBER="1000")
    missing = re.fullmatch(r"setup: not root, so not installed: (.+) \(sudo apt-get install (.+)\)\n", printed)
    assert missing and missing[1] == missing[2] and missing[1].startswith("mypy python3-pytest")
    assert "apt-get" not in world.calls() and "dev.recorder.fetching 1.27" in world.calls()


def test_without_apt_it_says_what_the_gate_uses(world: World) -> None:
    (world.commands / "apt-get").unlink()
    printed = world.run()
    assert printed.startswith("setup: without apt nothing is installed.")
    assert all(package in printed for package in PACKAGES)


def test_a_release_of_go_that_cannot_be_fetched_is_named(world: World) -> None:
    printed = world.run(NO_GO="1.19")
    assert "setup: Go 1.19 can't be fetched here (out/setup.log)\n" in printed and "Go 1.27" not in printed


def test_make_test_sets_up_before_the_gate_and_ci_only_calls_it() -> None:
    rules = (ROOT / "Makefile").read_text()
    assert "\ntest:\n\t@sh scripts/setup.sh\n\t@sh scripts/gate.sh\n" in rules
    lines = [line for line in (ROOT / ".ci/run").read_text().splitlines() if line and not line.startswith("#")]
    assert lines == ["set -eu", 'cd "$(dirname "$0")/.."', "exec make test"]
    assert os.access(ROOT / ".ci/run", os.X_OK)
