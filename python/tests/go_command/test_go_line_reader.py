"""The program that reads source lines comes with Go, or is built once for each release. A shell script plays the part
of Go."""

import struct
import subprocess
from pathlib import Path

import pytest

from dev.fuzz.generators.logs import from_text
from netrev_go import doctor, release_check
from netrev_go.go_command import toolchain
from netrev_go.go_command.line_reader import build_line_reader, kept, line_reader, shipped
from netrev_go.go_command.toolchain import Go, RecorderError
from netrev_go.steps.conversion import RecordingOptions, convert
from tests.logs.test_go_logs import REAL

BUILDS = """echo "$@" >> {folder}/called
[ "$1" = build ] || exit 1
printf '#!/bin/sh\\ncat "$@" >> {folder}/read\\n' > "$3"
chmod 700 "$3"
"""


@pytest.fixture(autouse=True)
def cache(folder: Path, monkeypatch: pytest.MonkeyPatch) -> None:
    """The test has a cache of its own."""
    monkeypatch.setenv("XDG_CACHE_HOME", str(folder / "cache"))


def go_of(folder: Path, script: str, version: str = "go1.27.3") -> Go:
    """A Go whose command is a script."""
    program = folder / "go"
    program.write_text(f"#!/bin/sh\n{script.format(folder=folder)}")
    program.chmod(0o700)
    return Go(str(program), folder / "root", version, "linux/amd64", "")


def written(folder: Path, name: str) -> list[str]:
    path = folder / name
    return path.read_text().splitlines() if path.exists() else []


def test_it_is_built_once_for_each_release(folder: Path) -> None:
    go = go_of(folder, BUILDS)
    assert line_reader(go) == [str(folder / "go"), "tool", "addr2line"]
    for _ in range(2):
        assert build_line_reader(go) == kept(go)
    assert len(written(folder, "called")) == 1
    assert written(folder, "called")[0].endswith(" cmd/addr2line")
    assert line_reader(go) == [str(kept(go))]
    build_line_reader(go_of(folder, BUILDS, "go1.26.10"))
    assert len(written(folder, "called")) == 2


def test_the_one_that_comes_with_go_is_used(folder: Path) -> None:
    go = go_of(folder, BUILDS)
    shipped(go).parent.mkdir(parents=True)
    shipped(go).touch()
    assert (build_line_reader(go), line_reader(go)) == (shipped(go), [str(shipped(go))])
    assert written(folder, "called") == []


def test_before_the_first_recording_it_is_built_and_lines_are_read_by_it(
    monkeypatch: pytest.MonkeyPatch, folder: Path
) -> None:
    go = go_of(folder, BUILDS)
    with monkeypatch.context() as patch:
        patch.setattr(release_check, "overlay", lambda _: folder / "overlay.json")
        patch.setattr(release_check, "kept", lambda _: release_check.Trial(True, ""))
        patch.setattr(release_check, "left_out", lambda _: [])
        release_check.ready(go)
    assert len(written(folder, "called")) == 1
    log, name = folder / "log.1", folder / "made.jsonl"
    log.write_bytes(from_text((REAL / "past.log").read_text())[0])
    (folder / "log.program.0.0").write_bytes(elf())
    convert(log, name, go, RecordingOptions())
    assert ((folder / "read").read_bytes(), len(written(folder, "called"))) == (elf(), 1)


def test_where_go_can_not_build_it_that_is_said_and_go_is_asked_later(folder: Path) -> None:
    go = go_of(folder, "echo nothing to build with >&2; exit 1\n")
    with pytest.raises(RecorderError, match="couldn't build cmd/addr2line: nothing to build with"):
        build_line_reader(go)
    assert "nothing to build with" in doctor.reads_lines(go)
    assert line_reader(go)[1:] == ["tool", "addr2line"]
    assert doctor.reads_lines(go_of(folder, BUILDS)) == f"read by {kept(go)}"


@pytest.mark.parametrize("name", ["addr2line", "overlay.json", "without.txt", "a.go", "sums.json"])
@pytest.mark.parametrize(
    "damage",
    [": > {}", "rm {}", "echo x >> {}", "echo '{{\"Replace\":{{}}}}' > {}", "echo '[1]' > {}", "echo '{{}}' > {}"],
)
def test_what_is_damaged_in_the_cache_is_made_anew(
    name: str, damage: str, folder: Path, monkeypatch: pytest.MonkeyPatch
) -> None:
    def make(_: Go, place: Path) -> list[str]:
        calls.append("overlay")
        for file in names:
            (place / file).write_text(f"whole {file}")
        return names

    calls, names = list[str](), ["overlay.json", "without.txt", "a.go"]
    monkeypatch.setattr(toolchain, "make_overlay", make)
    go = go_of(folder, BUILDS)
    for _ in range(2):
        made = {
            path: path.read_bytes()
            for place in (toolchain.overlay(go), build_line_reader(go))
            for path in place.parent.iterdir()
        }
    assert calls == ["overlay"] and len(written(folder, "called")) == 1
    for path in [path for path in made if path.name == name]:
        subprocess.run(damage.format(path), shell=True, check=True)
    assert (line_reader(go)[1:] == []) is (name not in ("addr2line", "sums.json"))
    toolchain.overlay(go), build_line_reader(go)
    assert {path: path.read_bytes() for path in made} == made and line_reader(go) == [str(kept(go))]
    assert len(calls) + len(written(folder, "called")) == (4 if name == "sums.json" else 3)


def elf(entry: int = 64, address: int = 0) -> bytes:
    """The file of a program with one section, .text, at an address. Its header says that a section's entry has `entry`
    bytes."""
    header = b"\x7fELF".ljust(40, b"\0") + struct.pack("<Q10xHHH", 64, entry, 1, 0)
    section = struct.pack("<I12xQQ", 0, address, 128).ljust(64, b"\0")
    return header.ljust(64, b"\0") + section + b".text\0"
