"""The folder of the recorder's logs, and the messages if no folder has room for them."""

import shutil
import tempfile
from contextlib import ExitStack
from pathlib import Path
from typing import NamedTuple

import pytest

from netrev_go.go_command.running import MOST_POINTS, logs_folder, logs_in, process_of, relative_to_folder
from netrev_go.go_command.toolchain import RecorderError


class Usage(NamedTuple):
    """The free space of a file system."""

    free: int


class Room:
    """File systems, `shm` and `other`, with this many bytes free. Temporary files are in the test's own folder."""

    def __init__(self, folder: Path, monkeypatch: pytest.MonkeyPatch, cleanups: ExitStack) -> None:
        self.cleanups = cleanups
        self.free = {"shm": 2**30, "other": 2**30}
        monkeypatch.delenv("NETREV_LOGS", raising=False)
        monkeypatch.setattr(tempfile, "gettempdir", lambda: str(folder))
        monkeypatch.setattr(
            shutil, "disk_usage", lambda place: Usage(self.free["shm" if place == "/dev/shm" else "other"])
        )

    def chosen(self, **free: int) -> Path:
        """The folder that netrev-go makes for logs if each file system has the given room."""
        self.free = free
        chosen = logs_folder(MOST_POINTS)
        self.cleanups.callback(shutil.rmtree, chosen, ignore_errors=True)
        return chosen


@pytest.fixture
def room(folder: Path, monkeypatch: pytest.MonkeyPatch, cleanups: ExitStack) -> Room:
    return Room(folder, monkeypatch, cleanups)


def test_logs_go_into_memory_where_there_is_room(room: Room, folder: Path) -> None:
    if Path("/dev/shm").is_dir():
        assert room.chosen(shm=2**30, other=2**30).parent == Path("/dev/shm")
    assert room.chosen(shm=2**20, other=2**30).parent == folder


def test_no_room_is_said(room: Room, folder: Path) -> None:
    message = rf"no log can be made in /dev/shm and {folder}: it needs 132 MB of free space. NETREV_LOGS names"
    with pytest.raises(RecorderError, match=message):
        room.chosen(shm=2**27, other=2**27)


def test_netrev_logs_names_the_folder(room: Room, monkeypatch: pytest.MonkeyPatch, folder: Path) -> None:
    monkeypatch.setenv("NETREV_LOGS", str(folder))
    assert room.chosen(shm=2**30, other=2**30).parent == folder
    with pytest.raises(RecorderError, match=f"no log can be made in {folder}: it needs"):
        room.chosen(shm=2**30, other=2**20)


def test_gos_folder_comes_before_other_flags() -> None:
    cases: list[tuple[list[str], list[str]]] = [
        (["-C", "d", "-v", "."], ["-C", "d", "-x", "-v", "."]),
        (["-C=d", "."], ["-C=d", "-x", "."]),
        (["-v", "-C", "d"], ["-x", "-v", "-C", "d"]),
        ([], ["-x"]),
    ]
    for words, expected in cases:
        assert relative_to_folder(words, ["-x"]) == expected


def test_a_processes_logs_are_those_of_its_number(folder: Path) -> None:
    for name in ("log.12", "log.7.2", "log.program.5.6", "other.3"):
        (folder / name).touch()
    assert {log.name: process_of(log) for log in logs_in(folder)} == {"log.12": 12, "log.7.2": 7}
