"""Repeated tests aren't linked again. A stand-in for Go and a script for its linker are used. Neither Go nor netrev
is needed."""

import pathlib
import re
import shlex
import subprocess

import pytest

from netrev_go.go_command.linking import KEEP, kept
from netrev_go.go_command.toolchain import Go

from .test_go_tests import Tested

LINKER = """#!/bin/sh
echo "$*" >> {folder}/called
[ "$BROKEN" ] && exit 9
echo "$3 of $(wc -l < {folder}/called)" > "$2"
chmod 700 "$2"
"""
ID = "-buildid=ac_t-ion/ma/in/ac_t-ion"
GO = Go("go", pathlib.Path("/"), "go1", "linux/amd64", "")


class Keeping:
    """A folder with the script for the linker."""

    def __init__(self, folder: pathlib.Path) -> None:
        self.folder = folder / "with a blank"
        self.folder.mkdir()
        self.script = self.folder / "keep"
        self.script.write_text(KEEP)
        (self.folder / "kept").mkdir()
        for name in ("link", "compile"):
            tool = self.folder / name
            tool.write_text(LINKER.format(folder=shlex.quote(str(self.folder))))
            tool.chmod(0o700)

    def ran(self, tool: str, *words: str, room: int = 10**6, broken: str = "") -> int:
        """The status of a tool that is run as Go runs it."""
        command = ["sh", str(self.script), str(self.folder / "kept"), str(room), str(self.folder / tool), *words]
        return subprocess.run(
            command, cwd=self.folder, env={"BROKEN": broken, "PATH": "/usr/bin:/bin"}, check=False
        ).returncode

    def calls(self) -> int:
        """How often a tool was called."""
        called = self.folder / "called"
        return called.read_text().count("\n") if called.exists() else 0

    def text(self, name: str) -> str:
        return (self.folder / name).read_text()


@pytest.fixture
def linking(folder: pathlib.Path) -> Keeping:
    return Keeping(folder)


def test_what_has_the_same_id_is_linked_once(linking: Keeping) -> None:
    assert linking.ran("link", "-o", "a.test", ID) == 0
    (linking.folder / "a.test").write_text("Go writes its sum into it")
    assert linking.ran("link", "-o", "b.test", ID) == 0
    assert (linking.calls(), linking.text("b.test")) == (1, f"{ID} of 1\n")
    assert (linking.folder / "b.test").stat().st_mode & 0o100
    linking.ran("link", "-o", "c.test", f"{ID}x")
    assert (linking.calls(), linking.text("c.test")) == (2, f"{ID}x of 2\n")


def test_all_else_goes_to_the_tool(linking: Keeping) -> None:
    for words in (("link", "-V=full", "x"), ("compile", "-o", "x", ID), ("link", "-o", "x", "y")):
        before = linking.calls()
        linking.ran(*words)
        linking.ran(*words)
        assert linking.calls() == before + 2, words


def test_a_failure_is_the_linkers_and_nothing_is_kept(linking: Keeping) -> None:
    assert linking.ran("link", "-o", "a", ID, broken="yes") == 9
    assert list((linking.folder / "kept").iterdir()) == []
    assert (linking.ran("link", "-o", "a", ID), linking.calls()) == (0, 2)


def test_where_there_is_no_room_it_is_linked_again(linking: Keeping) -> None:
    for times in (1, 2):
        assert (linking.ran("link", "-o", "a", ID, room=0), linking.calls()) == (0, times)
    assert linking.text("a") == f"{ID} of 2\n"


def words_of(package: Tested, *options: str) -> list[str]:
    """The arguments with which Go is called in the first run."""
    seen = package.folder / "seen"
    package.told(*options, status=1, does=f'[ -e {seen} ] || printf "%s\\n" "$@" > {seen}')
    words = seen.read_text().splitlines()
    seen.unlink()
    return words


def test_who_runs_once_links_as_ever(package: Tested) -> None:
    assert words_of(package, "test", ".") == words_of(package, "--runs", "1", "test", ".")
    assert not any("toolexec" in word for word in words_of(package, "test", "."))


def test_more_runs_are_linked_once(package: Tested) -> None:
    for options in (["--runs", "2"], ["--until-failure"], ["--seconds", "0"]):
        words = words_of(package, *options, "test", ".")
        assert re.search(r"^-toolexec=sh '.*/keep' '.*' \d+$", words[1])
        assert [words[0], *words[2:]] == words_of(package, "test", ".")


def test_a_flag_that_it_would_change_leaves_it_out() -> None:
    for word in ("-toolexec=mine", "--toolexec", "-x", "-n", "-x=true"):
        with kept(GO, [word, "."], True) as more:
            assert more == []
    with kept(Go("go", GO.root, "go1", GO.system, "-v -toolexec=mine"), ["."], True) as more:
        assert more == []
    with kept(GO, ["-run", "x", "./n"], True) as more:
        folder = pathlib.Path(shlex.split(more[0])[2])
        assert folder.is_dir()
    assert not folder.exists()
