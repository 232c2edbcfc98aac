"""The README player (tests/program/support/readme.py and readme_rooms.py) finds each way in which README can be wrong.
"""

import os
from pathlib import Path

import pytest

from tests.program.support.readme import Command, ReadmeError, sections
from tests.program.support.readme_rooms import Room

PAGE = """# a

Text.

## Install

**Here,** with a shell:

    $ echo one
    one

**There.** Numbers differ from run to run:

    $ echo took 1.5 s on port 80
    took 0.7 s on port 8080

## Use

    $ cat
    ...
    (netrev) first
    reply
    (netrev) second

More:

    (netrev) third
    last
"""


@pytest.fixture
def room(tmp_path: Path) -> Room:
    return Room(tmp_path, {"PATH": os.defpath})


def command(page: str) -> Command:
    """The only command of a page."""
    ((only,),) = sections(f"## Use\n\n{page}").values()
    return only


def test_commands_are_found_below_their_headings_with_what_is_typed_in_later_blocks() -> None:
    found = sections(PAGE)
    assert {name: [each.text for each in commands] for name, commands in found.items()} == {
        "Here": ["echo one"],
        "There": ["echo took 1.5 s on port 80"],
        "Use": ["cat"],
    }
    assert [(typed.text, typed.line, typed.shown) for typed in found["Use"][0].prompts] == [
        ("first", 21, ["reply"]),
        ("second", 23, []),
        ("third", 27, ["last"]),
    ]


def test_numbers_may_differ_only_if_the_page_says_so(room: Room) -> None:
    (varying,) = sections(PAGE)["There"]
    assert room.play(varying) == "took 1.5 s on port 80\n"
    with pytest.raises(
        ReadmeError, match=r"README.md:3: echo took 1.5 s(?s:.)*shows:\ntook 0.7 s(?s:.)*came:\ntook 1.5 s"
    ):
        room.play(command("    $ echo took 1.5 s\n    took 0.7 s\n"))


@pytest.mark.parametrize(
    "shown", ["one\n    ...", "...\n    three", "one\n    ...\n    three", "one\n    two\n    three"]
)
def test_dots_stand_for_any_lines(room: Room, shown: str) -> None:
    room.play(command(f"    $ printf 'one\\ntwo\\nthree\\n'\n    {shown}\n"))


@pytest.mark.parametrize(
    "shown", ["two\n    ...", "...\n    two", "one\n    three", "one", "one\n    two\n    three\n    four"]
)
def test_other_lines_than_those_that_come_are_found(room: Room, shown: str) -> None:
    with pytest.raises(ReadmeError, match="what came:\none\ntwo\nthree\n"):
        room.play(command(f"    $ printf 'one\\ntwo\\nthree\\n'\n    {shown}\n"))


def test_a_command_that_fails_is_found_unless_its_failure_is_shown(room: Room) -> None:
    with pytest.raises(ReadmeError, match="false: status 1"):
        room.play(command("    $ false\n"))
    room.play(command("    $ echo --- FAIL; false\n    --- FAIL\n"))
    with pytest.raises(ReadmeError, match="status 0"):
        room.play(command("    $ echo --- FAIL\n    --- FAIL\n"))


def test_a_reply_at_the_prompt_that_differs_is_found(room: Room) -> None:
    session = "    $ sed 's/.*/(netrev) &\\nreply to &/'\n    (netrev) first\n    reply to first\n    (netrev) second\n"
    room.play(command(f"{session}    reply to second\n"))
    with pytest.raises(ReadmeError, match="README.md:6: second"):
        room.play(command(f"{session}    reply to first\n"))
    with pytest.raises(ReadmeError, match="first: the session had ended"):
        room.play(command("    $ true\n    (netrev) first\n"))


def test_a_command_that_is_printed_to_be_typed_next_has_to_run(room: Room) -> None:
    room.play(command("    $ echo 'next:  true'\n"))
    with pytest.raises(ReadmeError, match=r"says to type `./none -ex 1`, which ends with status 127"):
        room.play(command("    $ echo 'next:  ./none -ex 1'\n"))


def test_netrevs_answers_have_to_be_netrevs(tmp_path: Path) -> None:
    netrev = tmp_path / "netrev"
    listed = "[ $1 != suspects ] || { echo at 3 timeout; echo ok 3 steps; exit; }"
    netrev.write_text(f"#!/bin/sh\n{listed}\ncat > /dev/null\necho at 3 end\necho wd 2 = -1\n")
    netrev.chmod(0o755)
    room = Room(tmp_path, {"PATH": os.defpath}, netrev=str(netrev))
    room.play(command("    $ echo '| netrev: at 3 timeout; at 3 wd 2 = -1; at 4 wd 2 = -1' # a.jsonl\n"))
    for false in (
        "at 3 wd 2 = -1; at 4 wd 2 = 0",
        "at 4 timeout; at 3 wd 2 = -1",
        "ok 3 steps",
        "Read at a.go:1 ended with a timeout.",
    ):
        with pytest.raises(ReadmeError, match="gives this as netrev's answer, and it isn't: " + false):
            room.play(command(f"    $ echo '| netrev: {false}' # a.jsonl\n"))


def test_a_shell_goes_on_where_the_last_command_left_off(room: Room) -> None:
    (room.folder / "below").mkdir()
    assert room.run('cd below && PATH="$PWD:$PATH"') == (0, "")
    assert room.run('export NETREV="$PWD/a b"') == (0, "")
    printed = f"{room.folder}/below\n{room.folder}/below:{os.defpath}\n{room.folder}/below/a b\n"
    assert room.run('pwd; echo "$PATH"; echo "$NETREV"') == (0, printed)
