"""`nrdb --version` says which netrev it runs: the program's path, whether it is the installed program, its checksum,
and its proofs."""

import hashlib
import os
import subprocess
from pathlib import Path

import pytest

from netrev.system import provenance
from netrev.system.version import VERSION
from nrdb.cli import main
from nrdb.options import parser

ROOT = Path(__file__).resolve().parents[3]
TEXT = b"\x7fELF a program"
SUM = hashlib.sha256(TEXT).hexdigest()
LOGIC = "rattle-kit-1 logic d0e1"


@pytest.fixture
def package(tmp_path: Path, monkeypatch: pytest.MonkeyPatch) -> Path:
    """Makes an installation: a package's program, and the file in which the package says that it is proved. Returns the
    program."""
    packages, program = tmp_path / "lib/netrev", tmp_path / "bin/netrev"
    packages.mkdir(parents=True)
    program.parent.mkdir()
    program.write_bytes(TEXT)
    (packages / "proved.txt").write_text(f"{SUM}\n{LOGIC}\n")
    for name, value in (("PACKAGES", packages), ("PROVED", packages / "proved.txt"), ("INSTALLED", program)):
        monkeypatch.setattr(provenance, name, value)
    monkeypatch.setattr(provenance, "BUILT", tmp_path / "none")
    monkeypatch.delenv("NETREV", raising=False)
    return program


def version(capsys: pytest.CaptureFixture[str], *words: str) -> list[str]:
    """The output of `nrdb --version`."""
    with pytest.raises(SystemExit) as ended:
        main([*words, "--version"])
    assert ended.value.code == 0
    return capsys.readouterr().out.splitlines()


def test_the_program_of_a_package_is_shown_with_its_proofs(package: Path, capsys: pytest.CaptureFixture[str]) -> None:
    assert version(capsys, "--netrev", str(package)) == [
        f"nrdb {VERSION}",
        f"program: {package} (installed with this nrdb)",
        f"sha256:  {SUM}",
        f"proofs:  {LOGIC}",
    ]


def test_another_program_is_not_said_to_be_proved(package: Path, monkeypatch: pytest.MonkeyPatch) -> None:
    other = package.with_name("other")
    other.write_bytes(TEXT + b"\n")
    monkeypatch.setenv("NETREV", str(other))
    first, second, third = provenance.program_lines(str(other))
    assert first == f"program: {other} (named by NETREV, not installed with this nrdb)"
    assert second.endswith(hashlib.sha256(TEXT + b"\n").hexdigest())
    assert third == "proofs:  not recorded for this program"
    package.write_bytes(TEXT + b"\n")  # replaced without the package's knowledge
    assert provenance.program_lines(str(package))[2] == "proofs:  not recorded for this program"


def test_a_program_that_is_missing_is_said_to_be(package: Path) -> None:
    (line,) = provenance.program_lines(str(package.with_name("none")))
    assert line.startswith("netrev's program is missing: ")
    assert provenance.program_lines(None) == [line]


def test_a_damaged_file_of_proofs_says_nothing(package: Path) -> None:
    for text in (b"", b"\xff\xfe", SUM.encode()):
        provenance.PROVED.write_bytes(text)
        assert provenance.program_lines(str(package))[2] == "proofs:  not recorded for this program"


def test_what_a_package_carries_is_the_sum_and_the_logic(package: Path) -> None:
    environment = {
        **os.environ,
        "PATH": "/usr/bin:/bin",
    }  # without the toolchain in PATH, proved.sh reads the logic from README.md
    run = subprocess.run(
        ["sh", str(ROOT / "scripts/proved.sh"), str(package)],
        env=environment,
        capture_output=True,
        text=True,
        check=True,
    )
    first, second = run.stdout.splitlines()
    assert first == SUM
    assert second.startswith("rattle-kit-")


def test_help_has_an_example_that_nrdb_takes() -> None:
    text = parser().format_help()
    example = next(line.split() for line in text.splitlines() if line.startswith("  nrdb "))
    assert parser().parse_args([word.strip("'") for word in (*example[1:3], "info suspects")]).file == example[1]
    for word in ("`help` lists the commands", "exit after -x and -ex instead of prompting", "OUT.html [FROM TO]"):
        assert word in text


def test_without_a_recording_the_message_says_what_to_do(capsys: pytest.CaptureFixture[str]) -> None:
    with pytest.raises(SystemExit):
        main([])
    assert "nrdb: error: no recording given (or use --join HOST:PORT)" in capsys.readouterr().err


def test_a_clone_knows_what_it_built(tmp_path: Path, monkeypatch: pytest.MonkeyPatch) -> None:
    program = tmp_path / "netrev"
    program.write_bytes(TEXT)
    monkeypatch.setattr(provenance, "BUILT", program)
    assert provenance.origin(str(program)) == "built in this clone"
