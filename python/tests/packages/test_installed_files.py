"""What is installed together with the programs: man pages, completions, and pip's command that looks for netrev."""

import os
import shutil
import subprocess
import sys
from pathlib import Path

import pytest

from netrev.system import launcher, program_path
from netrev_go import options
from nrdb import cli

ROOT = Path(__file__).resolve().parents[3]
PROGRAMS = {"nrdb": cli.parser(), "netrev-go": options.parser()}
ELF = b"\x7fELF"


def said(*words: object) -> str:
    run = subprocess.run([str(word) for word in words], cwd=ROOT, capture_output=True, text=True, check=False)
    assert run.returncode == 0, (words, run.stderr)
    return run.stdout


def test_each_option_has_an_entry() -> None:
    for name, parser in PROGRAMS.items():
        page = said(sys.executable, "scripts/man.py", name).replace("\\-", "-")
        for action in parser._actions:
            for option in action.option_strings:
                assert f"\\fB{option}\\fR" in page
                assert str(action.help) in page.replace("\\fB", "`").replace("\\fR", "`")


@pytest.mark.skipif(not shutil.which("man"), reason="no man is on this machine")
def test_man_has_nothing_to_say_of_them() -> None:
    for name in ("netrev", *PROGRAMS):
        page = said(sys.executable, "scripts/man.py", name)
        words = ["man", "--warnings", "-E", "UTF-8", "-l", "-"]
        run = subprocess.run(words, input=page, capture_output=True, text=True, check=False)
        assert (run.returncode, run.stderr) == (0, "")


def test_another_name_has_none() -> None:
    for script in ("man.py", "completion.py"):
        run = subprocess.run([sys.executable, f"scripts/{script}", "other"], cwd=ROOT, capture_output=True, check=False)
        assert run.returncode == 2


def completed(name: str, word: str, at: int) -> list[str]:
    """bash's completions of a word."""
    source = said(sys.executable, "scripts/completion.py", "bash", name)
    words = " ".join([name, *["x"] * (at - 1), word])
    ask = f'COMP_WORDS=({words}); COMP_CWORD={at}; _{name.replace("-", "_")}; printf "%s\\n" "${{COMPREPLY[@]}}"'
    return said("bash", "-c", f"{source}\n{ask}").split()


@pytest.mark.skipif(not shutil.which("bash"), reason="no bash is on this machine")
def test_bash_offers_commands_and_options() -> None:
    assert completed("netrev-go", "te", 1) == ["test"]
    assert completed("netrev-go", "--until", 3) == ["--until-failure"]
    assert completed("nrdb", "--sus", 1) == ["--suspects"]
    assert completed("netrev", "ch", 1) == ["check", "changes"]
    assert completed("netrev", "s", 1) == ["suspects", "serve"]
    assert completed("netrev", "x", 2) == []


@pytest.mark.skipif(not shutil.which("zsh"), reason="no zsh is on this machine")
def test_zsh_takes_them() -> None:
    for name in ("netrev", *PROGRAMS):
        source = said(sys.executable, "scripts/completion.py", "zsh", name)
        assert subprocess.run(["zsh", "-n"], input=source, text=True, check=False).returncode == 0


class Launching:
    """A program, and a launcher of pip's, in a folder."""

    def __init__(self, folder: Path) -> None:
        self.folder = folder
        self.program = self.folder / "mine/netrev"
        self.launcher = self.folder / "pip/netrev"
        for path, text in (
            (self.program, ELF),
            (self.launcher, b"#!/usr/bin/python3\nfrom netrev.system.launcher import main"),
        ):
            path.parent.mkdir()
            path.write_bytes(text)
            path.chmod(0o755)

    def found(self, *folders: Path) -> object:
        """The netrev that pip's nrdb finds with this PATH."""
        with pytest.MonkeyPatch.context() as patch:
            patch.setattr(program_path, "BUILT", self.folder / "none")
            patch.setattr(program_path, "INSTALLED", self.folder / "none")
            patch.setattr(sys, "argv", [str(self.folder / "pip/nrdb")])
            patch.setenv("PATH", os.pathsep.join(map(str, folders)))
            patch.delenv("NETREV", raising=False)
            return program_path.netrev_program()


@pytest.fixture
def programs(folder: Path) -> Launching:
    return Launching(folder)


def test_what_only_looks_for_netrev_is_none(programs: Launching) -> None:
    assert programs.found(programs.launcher.parent, programs.program.parent) == str(programs.program)
    assert programs.found(programs.launcher.parent) is None


def test_it_becomes_the_one_that_is_found_or_says_what_is_missing(
    monkeypatch: pytest.MonkeyPatch, capsys: pytest.CaptureFixture[str]
) -> None:
    monkeypatch.setattr(launcher, "netrev_program", lambda: None)
    assert launcher.main() == launcher.FAILED
    assert capsys.readouterr().err == f"{launcher.MISSING}\n"
    executed: list[tuple[str, list[str]]] = []
    monkeypatch.setattr("os.execv", lambda *call: executed.append(call))
    monkeypatch.setattr(launcher, "netrev_program", lambda: "/p")
    monkeypatch.setattr(sys, "argv", ["netrev", "check", "x"])
    launcher.main()
    assert executed == [("/p", ["/p", "check", "x"])]


def test_the_debian_package_can_be_removed_where_its_folder_is_gone(folder: Path) -> None:
    text = (ROOT / "scripts/deb.sh").read_text()
    script = text.partition('> "$root/DEBIAN/prerm" <<END\n')[2].partition("\nEND\n")[0]
    assert script.startswith("#!/bin/sh")
    installed = folder / "netrev"
    for has_folder in (True, False):
        if has_folder:
            (installed / "nrdb/__pycache__").mkdir(parents=True)
        ended = subprocess.run(["sh", "-c", script.replace("/usr/lib/netrev", str(installed))], check=False)
        assert (ended.returncode, installed.exists()) == (0, has_folder)
        assert not (installed / "nrdb/__pycache__").exists()
        shutil.rmtree(installed, ignore_errors=True)
