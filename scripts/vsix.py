"""Packs the extension for VS Code without node:  scripts/vsix.py OUT.vsix,  or  scripts/vsix.py --check FILE.vsix

editors/vscode is an extension without code. A .vsix is a zip file of the extension, with two XML files that describe
it. Packing the same folder again yields the same bytes. --check reads a packed file and reports its faults; the status
is 1 if it has any.
"""

import argparse
import json
import sys
import zipfile
from collections.abc import Iterator
from pathlib import Path
from typing import Any
from xml.etree import ElementTree
from xml.sax.saxutils import escape, quoteattr

ROOT = Path(__file__).resolve().parents[1]
FOLDER, LICENSES = ROOT / "editors/vscode", ("LICENSE-MIT", "LICENSE-APACHE")
LEFT_OUT = ("launch.json",)  # an example for a user's own folder
WITHIN, TYPES, MANIFEST = "extension/", "[Content_Types].xml", "extension.vsixmanifest"
SORTS = {".json": "application/json", ".md": "text/markdown", ".txt": "text/plain", ".vsixmanifest": "text/xml"}
OF_TYPES = "{http://schemas.openxmlformats.org/package/2006/content-types}"
OF_MANIFEST = "{http://schemas.microsoft.com/developer/vsx-schema/2011}"
CODE = ("main", "browser", "activationEvents", "scripts", "dependencies")  # keys that package.json must not have
WHEN = (2020, 1, 1, 0, 0, 0)


def types() -> str:
    """The XML file that has a type for each file extension."""
    rows = "".join(f'<Default Extension="{ending}" ContentType="{sort}"/>' for ending, sort in SORTS.items())
    return f'<?xml version="1.0" encoding="utf-8"?>\n<Types xmlns="{OF_TYPES[1:-1]}">{rows}</Types>\n'


def manifest(package: dict[str, Any]) -> str:
    """The file that describes the extension, from its package.json."""
    name, version, publisher = (quoteattr(package[key]) for key in ("name", "version", "publisher"))
    return f"""<?xml version="1.0" encoding="utf-8"?>
<PackageManifest Version="2.0.0" xmlns="{OF_MANIFEST[1:-1]}">
<Metadata><Identity Language="en-US" Id={name} Version={version} Publisher={publisher}/>
<DisplayName>{escape(package["displayName"])}</DisplayName>
<Description xml:space="preserve">{escape(package["description"])}</Description>
<Categories>{escape(",".join(package["categories"]))}</Categories>
<License>{WITHIN}LICENSE-MIT.txt</License>
<Properties><Property Id="Microsoft.VisualStudio.Code.Engine" Value={quoteattr(package["engines"]["vscode"])}/></Properties></Metadata>
<Installation><InstallationTarget Id="Microsoft.VisualStudio.Code"/></Installation><Dependencies/>
<Assets><Asset Type="Microsoft.VisualStudio.Code.Manifest" Path="{WITHIN}package.json" Addressable="true"/>
<Asset Type="Microsoft.VisualStudio.Services.Content.Details" Path="{WITHIN}README.md" Addressable="true"/></Assets>
</PackageManifest>
"""


def parts(folder: Path) -> dict[str, bytes]:
    """The parts of a folder's .vsix, by name."""
    package = json.loads((folder / "package.json").read_text(encoding="utf-8"))
    files = {f"{WITHIN}{path.name}": path for path in sorted(folder.iterdir()) if path.name not in LEFT_OUT}
    files |= {f"{WITHIN}{name}.txt": ROOT / name for name in LICENSES}
    return {
        TYPES: types().encode(),
        MANIFEST: manifest(package).encode(),
        **{name: path.read_bytes() for name, path in files.items()},
    }


def pack(folder: Path, out: Path) -> None:
    """Packs a folder."""
    with zipfile.ZipFile(out, "w") as packed:
        for name, data in parts(folder).items():
            part = zipfile.ZipInfo(name, WHEN)
            part.external_attr, part.compress_type = 0o644 << 16, zipfile.ZIP_DEFLATED
            packed.writestr(part, data)


def faults(file: Path) -> list[str]:
    """The faults of a packed extension."""
    try:
        with zipfile.ZipFile(file) as packed:
            if damaged := packed.testzip():
                return [f"{damaged} is damaged"]
            data = {name: packed.read(name) for name in packed.namelist()}
        package = json.loads(data[f"{WITHIN}package.json"])
        return [*faults_of_parts(data), *faults_of_manifest(data, package), *faults_of_package(package)]
    except (
        OSError,
        ValueError,
        KeyError,
        TypeError,
        AttributeError,
        zipfile.BadZipFile,
        ElementTree.ParseError,
    ) as wrong:
        return [f"it is no extension: {wrong}"]


def faults_of_parts(data: dict[str, bytes]) -> Iterator[str]:
    """The faults in the parts' names: each file extension needs a type, and each part must be in the folder that is
    unpacked."""
    known = {element.get("Extension") for element in ElementTree.fromstring(data[TYPES]).iter(f"{OF_TYPES}Default")}
    for name in data:
        if name != TYPES and Path(name).suffix not in known:
            yield f"{name} has no type in {TYPES}"
        if name not in (TYPES, MANIFEST) and (not name.startswith(WITHIN) or ".." in name):
            yield f"{name} isn't in {WITHIN}"


def faults_of_manifest(data: dict[str, bytes], package: dict[str, Any]) -> Iterator[str]:
    """The faults in the manifest: it must agree with package.json, and name only existing files."""
    top = ElementTree.fromstring(data[MANIFEST])
    identity = top.find(f"{OF_MANIFEST}Metadata/{OF_MANIFEST}Identity")
    for key, named in (("Id", "name"), ("Version", "version"), ("Publisher", "publisher")):
        if identity is None or identity.get(key) != package[named]:
            yield f"{MANIFEST} has another {named} than package.json"
    named_parts = [element.get("Path") for element in top.iter(f"{OF_MANIFEST}Asset")]
    named_parts += [element.text for element in top.iter(f"{OF_MANIFEST}License")]
    yield from (f"{MANIFEST} names {path}, which isn't there" for path in named_parts if path not in data)


def faults_of_package(package: dict[str, Any]) -> Iterator[str]:
    """The faults in package.json: it must have no keys for code and no language of its own, and each debugger must be
    `nrdb --dap`."""
    yield from (f"package.json has {name}, and the extension has no code" for name in CODE if name in package)
    if "languages" in package["contributes"]:
        yield "package.json has a language of its own, which would take files from another one"
    for debugger in package["contributes"]["debuggers"]:
        if (debugger["runtime"], debugger["args"]) != ("nrdb", ["--dap"]):
            yield f"the debugger {debugger['type']} isn't nrdb --dap"


def main() -> int:
    """Packs or checks a file; returns the exit status."""
    parser = argparse.ArgumentParser(
        prog="vsix.py", description="packs the extension for VS Code, or checks a packed one"
    )
    parser.add_argument("file", type=Path)
    parser.add_argument("--check", action="store_true", help="checks FILE instead of writing it")
    wanted = parser.parse_args()
    if not wanted.check:
        pack(FOLDER, wanted.file)
    found = faults(wanted.file)
    for fault in found:
        print(f"{wanted.file}: {fault}", file=sys.stderr)
    return 1 if found else 0


if __name__ == "__main__":
    sys.exit(main())
