"""The files for editors: the packed extension for VS Code, and the lines for Helix. Both name only what the adapter
accepts."""

import json
import re
import shutil
import sys
import zipfile
from collections.abc import Callable
from pathlib import Path
from typing import Any

import pytest

from netrev.system.version import VERSION
from nrdb.dap.target import OF_ATTACH, PROPERTIES

ROOT = Path(__file__).resolve().parents[3]
sys.path.append(str(ROOT / "scripts"))
import vsix  # noqa: E402

PAGE = next((ROOT / "docs").rglob("editors.md"))
TOML = re.compile(r"\n((?:    .*\n)*    \[\[language\]\]\n(?:    .*\n)*)")


@pytest.fixture
def copy(folder: Path) -> Path:
    """A private copy of the extension's folder."""
    return Path(shutil.copytree(vsix.FOLDER, folder / "vscode"))


def package() -> Any:
    return json.loads((vsix.FOLDER / "package.json").read_text(encoding="utf-8"))


def test_it_is_packed_and_nothing_is_wrong_with_it(folder: Path) -> None:
    vsix.pack(vsix.FOLDER, folder / "one.vsix")
    vsix.pack(vsix.FOLDER, folder / "two.vsix")
    assert (folder / "one.vsix").read_bytes() == (folder / "two.vsix").read_bytes()
    assert vsix.faults(folder / "one.vsix") == []
    with zipfile.ZipFile(folder / "one.vsix") as packed:
        inside = packed.read("extension/package.json")
        assert "extension/launch.json" not in packed.namelist()
        assert f'Version="{VERSION}"' in packed.read("extension.vsixmanifest").decode()
    assert inside == (vsix.FOLDER / "package.json").read_bytes()


def test_a_launch_and_an_attach_have_what_the_adapter_takes() -> None:
    (debugger,) = package()["contributes"]["debuggers"]
    attributes = debugger["configurationAttributes"]
    assert set(attributes["launch"]["properties"]) == set(PROPERTIES)
    assert set(attributes["attach"]["properties"]) == set(OF_ATTACH)
    for request in ("launch", "attach"):
        assert all("type" in row for row in attributes[request]["properties"].values())
        assert set(attributes[request]["required"]) <= set(attributes[request]["properties"])
    (launch,) = json.loads((vsix.FOLDER / "launch.json").read_text(encoding="utf-8"))["configurations"]
    assert set(launch) - {"type", "request", "name"} <= set(PROPERTIES)


def changed(change: Callable[[Any], None]) -> Callable[[Path], None]:
    """Changes package.json in a folder."""

    def made(where: Path) -> None:
        manifest = package()
        change(manifest)
        (where / "package.json").write_text(json.dumps(manifest))

    return made


def own_language(manifest: Any) -> None:
    manifest["contributes"]["languages"] = [{"id": "netrev", "extensions": [".jsonl"]}]


def other_program(manifest: Any) -> None:
    manifest["contributes"]["debuggers"][0]["runtime"] = "bash"


PLANTED: dict[str, tuple[Callable[[Path], None], str]] = {
    "a language of its own": (changed(own_language), "a language of its own"),
    "code": (changed(lambda manifest: manifest.update(main="./out.js")), "has main"),
    "another program": (changed(other_program), "isn't nrdb --dap"),
    "a file without a type": (lambda where: (where / "a.png").touch(), "a.png has no type"),
    "no page": (lambda where: (where / "README.md").unlink(), "README.md, which isn't there"),
}


@pytest.mark.parametrize("name", PLANTED)
def test_a_planted_mistake_is_found(name: str, copy: Path, folder: Path) -> None:
    plant, wanted = PLANTED[name]
    plant(copy)
    vsix.pack(copy, folder / "made.vsix")
    found = vsix.faults(folder / "made.vsix")
    assert len(found) == 1 and wanted in found[0], found


def test_what_is_no_extension_is_said_so(folder: Path) -> None:
    for name, data in (("text", b"hello"), ("empty", b"")):
        (folder / name).write_bytes(data)
        assert "it is no extension" in vsix.faults(folder / name)[0]
    vsix.pack(vsix.FOLDER, folder / "good")
    with zipfile.ZipFile(folder / "good") as good, zipfile.ZipFile(folder / "other", "w") as other:
        for name in good.namelist():
            other.writestr(name, good.read(name).replace(b'Version="1', b'Version="9'))
    assert any("another version" in fault for fault in vsix.faults(folder / "other"))
    assert "No such file" in vsix.faults(folder / "none")[0]


def test_the_lines_for_helix_are_read_and_ask_for_what_the_adapter_takes() -> None:
    tomllib = pytest.importorskip("tomllib", reason="this Python has no tomllib: 3.11 brings it")
    found = TOML.search(PAGE.read_text(encoding="utf-8"))
    assert found
    (language,) = tomllib.loads(re.sub("(?m)^    ", "", found[1]))["language"]
    debugger = language["debugger"]
    assert (debugger["command"], debugger["args"], language["file-types"]) == ("nrdb", ["--dap"], ["jsonl"])
    (template,) = debugger["templates"]
    assert template["request"] == "launch" and set(template["args"]) <= set(PROPERTIES)
