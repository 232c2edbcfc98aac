"""nrdb and netrev-go print commands for the user to type. Each must run in the folder in which it was printed: from a
clone, after `make install`, and from the archive's tree in a folder with a blank in its name."""

import os
import re
import shutil
import subprocess
import sys
from collections.abc import Iterator
from pathlib import Path
from typing import NamedTuple

import pytest

from dev.fuzz.generators.logs import from_text
from tests.program.support.sharing import NETREV, ROOT
from tests.support.examples import EXAMPLES

FAILED = ROOT / "python/tests/caused/pool-bad.jsonl"
PATIENCE = 120  # seconds
SYSTEM_PATH = "/usr/bin:/bin"


class Installation(NamedTuple):
    """The paths of netrev-go and nrdb, the Python packages beside them, and the PATH."""

    netrev_go: Path
    packages: Path
    path: str

    def environment(self) -> dict[str, str]:
        return {**os.environ, "PATH": self.path, "NETREV": NETREV, "PYTHONPATH": str(self.packages)}

    def printed(self, folder: Path, *words: object) -> str:
        """The output of a command that ends with status 0."""
        run = subprocess.run(
            list(map(str, words)), cwd=folder, env=self.environment(), stdin=subprocess.DEVNULL, capture_output=True,
            text=True, timeout=PATIENCE, check=False,
        )  # fmt: skip
        assert run.returncode == 0, (words, run.stdout, run.stderr)
        return run.stdout + run.stderr

    def typed(self, folder: Path, line: str) -> str:
        """The output of a shell for a line that is typed in a folder."""
        return self.printed(folder, "sh", "-c", line)


@pytest.fixture(scope="module")
def prefix(tmp_path_factory: pytest.TempPathFactory) -> Path:
    """The folder of a `make install`."""
    folder = tmp_path_factory.mktemp("installed") / "p"
    words = ["make", "-s", "-C", ROOT, "-o", "netrev", "install", f"PROGRAM={NETREV}", f"PREFIX={folder}"]
    environment = {name: value for name, value in os.environ.items() if name not in ("NETREV", "MAKEFLAGS")}
    subprocess.run(list(map(str, words)), env=environment, check=True, capture_output=True, timeout=PATIENCE)
    return folder


@pytest.fixture(scope="module")
def installations(prefix: Path, tmp_path_factory: pytest.TempPathFactory) -> list[Installation]:
    unpacked = tmp_path_factory.mktemp("an archive") / "netrev-1.0.0"
    shutil.copytree(prefix, unpacked)
    return [
        Installation(ROOT / "tools/go/netrev-go", ROOT / "python", SYSTEM_PATH),
        Installation(prefix / "bin/netrev-go", prefix / "lib/netrev", f"{prefix / 'bin'}:{SYSTEM_PATH}"),
        Installation(unpacked / "bin/netrev-go", unpacked / "lib/netrev", SYSTEM_PATH),
        Installation(unpacked / "bin/netrev-go", unpacked / "lib/netrev", f"{prefix / 'bin'}:{SYSTEM_PATH}"),
    ]


@pytest.fixture
def log(tmp_path: Path) -> Path:
    """A log in a folder whose name needs quoting in a shell."""
    file = tmp_path / "it's a log" / "log.17"
    file.parent.mkdir()
    file.write_bytes(from_text((EXAMPLES / "real/past.log").read_text())[0])
    return file


def commands_after_next(text: str) -> Iterator[str]:
    """The shell's command lines after `next:`."""
    for line in text.splitlines():
        if line.startswith("next:"):
            yield line.removeprefix("next:").strip()


def test_netrev_go_prints_commands_that_run(installations: list[Installation], log: Path, tmp_path: Path) -> None:
    for number, installation in enumerate(installations):
        folder = tmp_path / f"project {number}"
        folder.mkdir()
        output = installation.printed(folder, installation.netrev_go, "-o-mine", "convert", log)
        (command,) = commands_after_next(output)
        shown = installation.typed(folder, command)
        assert "(netrev) history info 1" in shown, (command, shown)
        assert command.startswith("nrdb ") == (number == 1), command


def test_causes_end_with_a_command_that_runs(installations: list[Installation], tmp_path: Path) -> None:
    shutil.copy(FAILED, tmp_path / "a b.jsonl")
    script = "import sys; from netrev.findings.causes import first_words; "
    script += "from netrev.recording.recording import Recording; "
    script += "print(*first_words(Recording.read(sys.argv[1]), sys.argv[1]), sep='\\n')"
    for installation in installations:
        output = installation.printed(tmp_path, sys.executable, "-c", script, "a b.jsonl")
        (command,) = commands_after_next(output)
        assert "(netrev) history rd 1" in installation.typed(tmp_path, command), command


def test_kept_logs_are_named_with_a_command_that_runs(installations: list[Installation], log: Path) -> None:
    script = "import sys; from pathlib import Path; from netrev_go.recordings import convert_hint; "
    script += "print(convert_hint(Path(sys.argv[1]).parent, list(map(Path, sys.argv[1:]))))"
    other = shutil.copy(log, log.with_name("log.18"))
    for number, (installation, logs) in enumerate(zip(installations[::2], ([log, other], [log]))):
        output = installation.printed(log.parent, sys.executable, "-c", script, *logs)
        command = output.partition("`")[2].rpartition("`")[0].replace(" NAME ", f" made-{number} ")
        installation.typed(log.parent, command)
        assert len(list(log.parent.glob(f"made-{number}*.jsonl"))) == len(logs), command


def test_a_report_for_others_names_the_programs_alone(installations: list[Installation], tmp_path: Path) -> None:
    shutil.copy(EXAMPLES / "real/hijacked.jsonl", tmp_path)
    clone, installed = installations[:2]
    line = "report my_bug.md"
    clone.printed(tmp_path, ROOT / "nrdb", "--batch", "-ex", line, "hijacked.jsonl")
    text = (tmp_path / "my_bug.md").read_text()
    (command,) = re.findall(r"^    (.*nrdb .*)$", text, re.MULTILINE)
    assert command.startswith("nrdb my_bug.jsonl "), command
    assert "deadline left behind" in installed.typed(tmp_path, command)
    (check, answer) = re.findall(r"`(netrev check .*?)` prints `(.*?)`", text)[0]
    assert installed.typed(tmp_path, check).strip() == answer


def test_without_netrev_a_clone_says_what_make_does(tmp_path: Path) -> None:
    shutil.copy(FAILED, tmp_path / "a b.jsonl")
    words = [ROOT / "nrdb", "--netrev", "/nowhere/netrev", "a b.jsonl"]
    run = subprocess.run(list(map(str, words)), cwd=tmp_path, capture_output=True, text=True, timeout=PATIENCE)
    build, look = re.findall(r"`(make .*?)`", run.stdout)
    for command, script in ((build, "scripts/prove.sh"), (look, f"scripts/look.py '{tmp_path}/a b.jsonl'")):
        dry = subprocess.run(
            ["sh", "-c", command.replace("make ", "make -n ")], cwd=tmp_path, capture_output=True, text=True, timeout=PATIENCE
        )  # fmt: skip
        assert dry.returncode == 0 and script in dry.stdout, (command, dry)


def test_an_installation_does_not_speak_of_make(installations: list[Installation], tmp_path: Path) -> None:
    shutil.copy(FAILED, tmp_path / "a.jsonl")
    nrdb = installations[2].netrev_go.with_name("nrdb")
    words = [nrdb, "--netrev", "/nowhere/netrev", "a.jsonl"]
    run = subprocess.run(list(map(str, words)), cwd=tmp_path, capture_output=True, text=True, timeout=PATIENCE)
    assert "NETREV or --netrev names another one" in run.stdout
    assert "make" not in run.stdout
