"""README's commands print what README shows: in a fresh clone, with only the archive, and with only the Debian
package."""

import re
import subprocess
from dataclasses import replace
from pathlib import Path

import pytest

from netrev.system.version import VERSION
from tests.program.support.fresh import environment
from tests.program.support.readme import README, sections
from tests.program.support.readme_rooms import (
    ARCHIVE,
    CLONE,
    DEBIAN,
    DEBUG,
    RECORD,
    RELEASE,
    Room,
    archive_room,
    clone_room,
    commands_of_go,
    deb_room,
    played,
)
from tests.program.support.sharing import NETREV, ROOT

pytestmark = pytest.mark.together

TEXT = README.read_text(encoding="utf-8")
LINK = re.compile(r"\]\((?!\w+:|#)([^)#]+)")
UNDER_ANOTHER_NAME = {"LICENSE"}  # has another name in the Debian package: /usr/share/doc/netrev/copyright
QUESTIONS = (
    "info suspects",
    "history wd 2",
    "calls gor 2",
    "until rg 1 ready",
    "info errors",
    "timeline hijacked.html",
)


def play(room: Room, *names: str) -> list[str]:
    """Runs these sections of README, and the section about recording if Go is installed. Returns the commands."""
    return list(played(room, *names, *([RECORD] if commands_of_go() else [])))


def skip_without_go() -> None:
    """Skips the test, with a reason that says that nothing was recorded."""
    if not commands_of_go():
        pytest.skip(
            f"Go {RELEASE} isn't here, so nothing was recorded: `python3 python dev.recorder.fetching {RELEASE}`"
        )


def by_their_paths(room: Room) -> None:
    """Records as README does, but calls netrev-go by its path; the command after `next:` must run in that case too."""
    if commands_of_go():
        assert room.run('export NETREV="$PWD/out/look/netrev"') == (0, "")
        command = "cp -r examples/toy other && cd other && ../tools/go/netrev-go test ./..."
        status, printed = room.run(command)
        assert status == 1 and "next:" in printed, printed
        room.check_next(command, printed)
        assert room.run("cd ..") == (0, "")


@pytest.mark.long
def test_in_a_fresh_clone(tmp_path: Path) -> None:
    room, toolchain = clone_room(tmp_path)
    debug = sections(TEXT)[DEBUG]
    look, path = sections(TEXT)[CLONE]
    room.play(replace(look, prompts=debug[0].prompts))
    assert toolchain.compiled() == 1
    by_their_paths(room)
    room.play(path)
    assert debug[0].text in play(room, DEBUG)
    skip_without_go()


def test_each_section_that_has_commands_is_played() -> None:
    assert set(sections(TEXT)) == {DEBIAN, ARCHIVE, CLONE, DEBUG, RECORD}


def test_the_questions_that_a_look_has_to_answer_are_shown() -> None:
    typed = {part.strip() for line in sections(TEXT)[DEBUG][0].prompts for part in line.text.split(";")}
    assert set(QUESTIONS) <= typed


@pytest.fixture(scope="module")
def packages(tmp_path_factory: pytest.TempPathFactory) -> Path:
    """A folder with the archive and the Debian package of the present tree, before the gate has passed."""
    folder = tmp_path_factory.mktemp("packages")
    log = folder / "log"
    log.write_text("no gate\n")
    for words in (("archive.sh", VERSION, NETREV, str(log), str(folder)), ("deb.sh", VERSION, str(folder))):
        command = ["sh", str(ROOT / "scripts" / words[0]), *words[1:]]
        settings = environment(COMPRESSION="gzip")
        process = subprocess.run(command, env=settings, capture_output=True, text=True, check=False)
        assert process.returncode == 0, process.stdout + process.stderr
    return folder


@pytest.fixture(scope="module")
def archive(packages: Path) -> Path:
    return packages / f"netrev-{VERSION}-linux-x86_64.tar.gz"


@pytest.fixture(scope="module")
def deb(packages: Path) -> Path:
    return packages / f"netrev_{VERSION}_amd64.deb"


def expect_links(pages: Path, missing: set[str]) -> None:
    """Expects that the README's links lead to files, but for these."""
    text = (pages / "README.md").read_text(encoding="utf-8")
    assert len(LINK.findall(text)) > 20
    assert {link for link in LINK.findall(text) if not (pages / link).exists()} == missing


@pytest.mark.long
def test_with_only_the_archive(folder: Path, archive: Path) -> None:
    play(archive_room(folder, archive), ARCHIVE, DEBUG)
    expect_links(folder / archive.name.removesuffix(".tar.gz"), set())
    skip_without_go()


@pytest.mark.long
def test_with_only_the_debian_package(folder: Path, deb: Path) -> None:
    play(deb_room(folder, deb), DEBIAN, DEBUG)
    expect_links(folder / "root/usr/share/doc/netrev", UNDER_ANOTHER_NAME)
    skip_without_go()
