"""README.md leads to each page and names only what exists; `make help` lists each target; modules of nrdb are as short
as CONTRIBUTING.md says; and each crate's README says what a newcomer may change."""

import os
import re
import subprocess
import sys
from pathlib import Path

import pytest

from netrev_go.log.sockets import MOST_GOROUTINES, MOST_SOCKETS, MOST_STEPS
from netrev_go.options import COMMANDS, parser
from nrdb.options import parser as nrdb_parser

ROOT = Path(__file__).resolve().parents[3]
README = (ROOT / "README.md").read_text(encoding="utf-8")
OF_OTHERS = {"ready", "install-files"}  # targets that only other targets use
CODE = re.compile(r"`((?:make|nrdb|netrev-go) [^`]+)`")


def targets() -> set[str]:
    """The Makefile's targets for users."""
    phony = re.search(r"^\.PHONY: ((?:.*\\\n)*.*)$", (ROOT / "Makefile").read_text(encoding="utf-8"), re.MULTILINE)
    assert phony
    return set(phony[1].replace("\\\n", " ").split()) - OF_OTHERS


def printed(*command: str) -> str:
    """The output of a command that is run at the top of the repository."""
    return subprocess.run(command, cwd=ROOT, capture_output=True, text=True, check=True).stdout


def test_readme_leads_to_each_page() -> None:
    pages = {str(page.relative_to(ROOT)) for page in (ROOT / "docs").rglob("*.md")}
    assert len(pages) >= 15
    assert pages - set(re.findall(r"\]\(([\w/.-]+)", README)) == set()


def test_readme_has_the_limits() -> None:
    assert f"{MOST_SOCKETS:,} sockets, {MOST_GOROUTINES:,} goroutines and {MOST_STEPS:,} steps" in README.replace(
        "\n", " "
    )


def test_readme_names_targets_and_options_that_exist() -> None:
    """Checks the text in code font; tests/program/tools/test_readme_commands.py runs the code blocks. Options of
    netrev-go come before its command, because everything after the command belongs to Go."""
    named = [code.split() for code in CODE.findall(README)]
    assert {words[0] for words in named} == {"make", "nrdb", "netrev-go"} and len(named) >= 12
    for program, *words in named:
        if program == "make":
            assert words[0] in targets(), words
        elif words == ["--version"]:
            assert "--version" in printed(sys.executable, "python", program.replace("-", "_"), "--help")
        elif program == "netrev-go" and words[-1] == "--help":
            assert len(words) == 2 and words[0] in COMMANDS, words
        elif program == "netrev-go":
            wanted = parser().parse_args([word.replace("PID", "4711") for word in words])
            assert not [word for word in wanted.words_of_go if word.startswith("--")], words
        else:
            nrdb_parser().parse_args(words)


def test_make_help_lists_each_target() -> None:
    listed = dict(re.findall(r"^make ([\w-]+) +(.+)$", printed("make", "-s", "help"), re.MULTILINE))
    assert len(targets()) >= 25
    assert targets() == set(listed)


def test_a_term_of_the_glossary_has_one_row() -> None:
    lines = (ROOT / "docs/internals/GLOSSARY.md").read_text(encoding="utf-8").splitlines()
    rows = [line.strip("|").split("|") for line in lines if line.startswith("|")]
    terms = [row[0].strip() for row in rows if len(row) == 3 and row[0].strip("- ") not in ("", "Here")]
    assert len(terms) > 40
    assert sorted(term for term in set(terms) if terms.count(term) > 1) == []


def kept_calls() -> dict[str, set[str]]:
    """The stable types and functions of each crate, as listed in scripts/surface.txt."""
    found: dict[str, set[str]] = {}
    crate = ""
    for line in (ROOT / "scripts/surface.txt").read_text(encoding="utf-8").splitlines():
        if line.startswith("    "):
            found[crate].add(re.split(r"\W", line.strip())[0])
        elif line and not line.startswith("#"):
            found[crate:=line] = set()
    return found


def test_each_has_such_a_line() -> None:
    pages = sorted((ROOT / "crates").glob("*/README.md"))
    crates = {path.parent.name for path in (ROOT / "crates").glob("*/src")}
    assert {page.parent.name for page in pages} == crates
    for page in pages:
        title, blank, first, *_ = page.read_text(encoding="utf-8").split("\n")
        assert (title, blank) == (f"# {page.parent.name}", "")
        assert re.search(r"^\*\*(Stable API|Program|Tests|Internal):\*\* ", first), page.parent.name


def test_the_calls_that_stay_are_named() -> None:
    kept = kept_calls()
    assert len(kept) > 15
    for crate, names in kept.items():
        text = (ROOT / "crates" / crate / "README.md").read_text(encoding="utf-8").partition("\n\n")[2]
        line = text.partition("\n\n")[0]
        named = {name for name in re.findall(r"`(\w+)`", line)}
        assert named == names, crate


@pytest.mark.parametrize(
    "target, name",
    [("look", "FILE"), ("look", "SCRIPT"), ("hunt", "FILE"), ("fuzz", "SEED"), ("fuzz-around", "MINUTES"), ("mutants", "FILES")]
    + [("real", "ONLY"), ("real", "TESTS"), ("real", "GO"), ("bench", "STEPS"), ("trials", "GO"), ("pace", "STEPS")],
)  # fmt: skip
@pytest.mark.parametrize("way", ["command line", "environment"])
def test_make_hands_a_users_text_on_and_runs_nothing_in_it(target: str, name: str, way: str, tmp_path: Path) -> None:
    text = f"'a`touch${{IFS}}{tmp_path}/ran`$(touch${{IFS}}{tmp_path}/ran)$(shell touch {tmp_path}/ran);>{tmp_path}/ran"
    for program in ("python3", "sh"):
        (tmp_path / program).write_text('#!/bin/sh\nfor word; do echo "<$word>"; done\n')
        (tmp_path / program).chmod(0o755)
    environment = os.environ | {"PATH": f"{tmp_path}:{os.environ['PATH']}", "NETREV": "/bin/true"}
    words = [f"{name}={text}"] if way == "command line" else []
    more = {} if words else {name: text}
    ended = subprocess.run(["make", target, *words], cwd=ROOT, env=environment | more, capture_output=True, text=True)
    is_default = bool(more) and (target, name) in (("look", "FILE"), ("hunt", "FILE"), ("fuzz-around", "MINUTES"))
    is_list = name in ("FILES", "STEPS") or target == "trials"
    wanted = [f"<{word}>" for word in (text.split() if is_list else [text])]
    if target == "pace":
        wanted = wanted[-1:]
    assert [line for line in wanted if line not in ended.stdout.split("\n")] == (wanted if is_default else [])
    assert not (tmp_path / "ran").exists()
