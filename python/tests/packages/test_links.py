"""No file is written through another user's link, because the link could lead to a file of this user."""

import errno
import os
import subprocess
import sys
from pathlib import Path

import pytest

from netrev.text.files import written_whole
from netrev_go.go_command.outputs import look
from netrev_go.go_command.toolchain import RecorderError

OTHER = 12_345  # a user


@pytest.fixture
def link(folder: Path, monkeypatch: pytest.MonkeyPatch) -> Path:
    """Another user's link to a file of this user."""
    (folder / "own").write_text("own text")
    path = folder / "x.jsonl"
    path.symlink_to("own")
    if os.geteuid() == 0:
        os.chown(path, OTHER, OTHER, follow_symlinks=False)
    else:
        monkeypatch.setattr(os, "geteuid", lambda: OTHER)
    return path


def test_another_users_link_is_not_followed(link: Path) -> None:
    with pytest.raises(OSError, match="another user's link, which isn't followed") as raised:
        written_whole(link, b"new text")
    assert (raised.value.errno, raised.value.filename) == (errno.EACCES, str(link))
    assert ((link.parent / "own").read_text(), link.is_symlink()) == ("own text", True)


def test_a_link_to_another_users_link_is_not_followed(link: Path, folder: Path) -> None:
    (folder / "first").symlink_to(link)
    with pytest.raises(OSError, match="another user's link"):
        written_whole(folder / "first", b"new text")
    assert (folder / "own").read_text() == "own text"


def test_netrev_go_says_so_before_it_runs_the_program(link: Path) -> None:
    with pytest.raises(
        RecorderError, match=r"can't be written: another user's link, which isn't followed\. Nothing was run"
    ):
        look(link.with_suffix(""))


def test_an_own_link_is_followed(folder: Path) -> None:
    (folder / "below").mkdir()
    (folder / "x").symlink_to("below/y")
    written_whole(folder / "x", b"new text")
    assert ((folder / "below/y").read_text(), (folder / "x").is_symlink()) == ("new text", True)


def test_a_ring_of_links_is_an_error(folder: Path) -> None:
    (folder / "x").symlink_to("y")
    (folder / "y").symlink_to("x")
    with pytest.raises(OSError) as raised:
        written_whole(folder / "x", b"new text")
    assert raised.value.errno == errno.ELOOP


def test_a_standard_stream_is_written_to_by_its_name() -> None:
    script = "import pathlib, netrev.text.files as files; files.written_whole(pathlib.Path('/dev/stdout'), b'new text')"
    python = Path(__file__).resolve().parents[2]
    ended = subprocess.run([sys.executable, "-c", script], cwd=python, capture_output=True, check=True)
    assert ended.stdout == b"new text"
