"""netrev.system.version has the version, and all programs print it."""

import json
import re
import subprocess
import sys
from pathlib import Path

from netrev.system.version import VERSION

ROOT = Path(__file__).resolve().parents[3]


def said(*command: str) -> str:
    """The output of a command that is run at the top of the repository."""
    return subprocess.run(command, cwd=ROOT, capture_output=True, text=True, check=True).stdout


def test_programs_say_it() -> None:
    for program in ("nrdb", "tools/go/netrev-go"):
        assert said(f"./{program}", "--version").splitlines()[0] == f"{Path(program).name} {VERSION}"


def test_the_man_page_says_it() -> None:
    first = said(sys.executable, "scripts/man.py").splitlines()[0]
    assert first == f'.TH NETREV 1 "" "netrev {VERSION}" "User commands"'


def test_packages_are_named_for_it() -> None:
    assert said("make", "-s", "--eval", "version: ; @echo $(VERSION)", "version") == f"{VERSION}\n"
    assert 'version = { attr = "netrev.system.version.VERSION" }\n' in (ROOT / "pyproject.toml").read_text()
    assert json.loads((ROOT / "editors/vscode/package.json").read_text())["version"] == VERSION


def test_the_newest_changes_are_of_it() -> None:
    headings = [line for line in (ROOT / "CHANGELOG.md").read_text().splitlines() if line.startswith("## ")]
    newest = next(line for line in headings if line != "## Unreleased")
    assert re.search(rf"^## {re.escape(VERSION)} - \d{{4}}-\d{{2}}-\d{{2}}$", newest)
