"""The places in which README's commands must work: a clone, the archive and the Debian package. Nothing else of netrev
is installed in any of them.

    python3 python tests.program.support.readme_rooms ROOT    runs README's commands in ROOT/root, for scripts/try_deb.sh; ROOT is the root of
                                                      a Debian system with the package and Go"""

import os
import re
import shutil
import subprocess
import sys
from collections.abc import Iterator, Sequence
from dataclasses import dataclass, field
from pathlib import Path
from shlex import quote

from dev.recorder.fetching import here as fetched_go
from netrev_go.go_command.toolchain import cache

from .fresh import Toolchain, fresh_clone
from .readme import README, Command, ReadmeError, Typed, replies, sections
from .sharing import NETREV

PATIENCE = 600  # seconds
RELEASE = "1.27"  # of Go
NEXT = re.compile(r"^ *next: +(.+)$", re.MULTILINE)
ANSWER = re.compile(r"netrev: (.*)")
VALUE = re.compile(r" *at (\d+) ([a-z]+(?: \d+)*) = (.+)")
RECORDING = re.compile(r"[\w./-]+\.jsonl")
SYSTEM = "/usr/bin:/bin:/usr/sbin:/sbin"
DEBIAN, ARCHIVE, CLONE = "Debian on amd64", "Other Linux on x86-64", "A clone"  # parts of README's Install
DEBUG, RECORD = "Find the bug", "Record a test"  # further sections of README


@dataclass
class Room:
    """A folder in which a shell runs commands one after another, each from the folder in which the last one ended."""

    folder: Path
    settings: dict[str, str]
    through: Sequence[str] = ()  # the command that starts the shell, such as chroot
    inside: str = ""  # the folder's name in the shell, if different
    renamed: dict[str, str] = field(default_factory=dict)  # the names of commands that differ here
    netrev: str = NETREV  # the program that confirms netrev's own answers; if empty, they aren't checked

    def __post_init__(self) -> None:
        self.inside = self.inside or str(self.folder)
        self.current = self.inside

    def run(self, command: str, lines: str = "") -> tuple[int, str]:
        """Runs a command; returns its status, and its output on a terminal."""
        for name, other in self.renamed.items():
            command = command.replace(name, other)
        before = f"[ ! -e {self.inside}/.exported ] || . {self.inside}/.exported\ncd {quote(self.current)} || exit"
        after = f"status=$?\nexport -p > {self.inside}/.exported\npwd > {self.inside}/.current\nexit $status"
        settings = [f"{name}={value}" for name, value in self.settings.items()]
        process = subprocess.run(
            [*self.through, "env", "-i", *settings, "sh", "-c", f"{before}\n{command}\n{after}"],
            input=lines,
            stdout=subprocess.PIPE,
            stderr=subprocess.STDOUT,
            text=True,
            timeout=PATIENCE,
            check=False,
        )
        self.current = (self.folder / ".current").read_text().rstrip("\n")
        return process.returncode, process.stdout

    def play(self, command: Command) -> str:
        """Runs a command of README, compares its output with README's, and returns it. Each command after `next:` must
        run, and each answer after `netrev:` must be netrev's."""
        status, printed = self.run(command.text, "".join(f"{typed.text}\n" for typed in command.prompts))
        if status != command.fails():
            raise ReadmeError(f"README.md:{command.line}: {command.text}: status {status}\n{printed}")
        typed: list[Typed] = [command, *command.prompts]
        for line, reply in zip(typed, replies(printed, command.prompts)):
            line.compare(reply)
        self.check_answers(command, printed)
        if not command.prompts:
            self.check_next(command.text, printed)
        return printed

    def check_next(self, command: str, printed: str) -> None:
        """Fails if a command that is printed to be typed next doesn't run."""
        for text in NEXT.findall(printed):
            status, output = self.run(text)
            if status:
                raise ReadmeError(f"`{command}` says to type `{text}`, which ends with status {status}:\n{output}")

    def check_answers(self, command: Command, printed: str) -> None:
        """Fails if a text printed after `netrev:` isn't netrev's answer."""
        recording = RECORDING.search(command.text)
        for answer in ANSWER.findall(printed):
            if not recording or not all(self.is_of_netrev(recording[0], part.strip()) for part in answer.split(";")):
                raise ReadmeError(f"`{command.text}` gives this as netrev's answer, and it isn't: {answer}")

    def is_of_netrev(self, recording: str, words: str) -> bool:
        """Whether netrev confirms a text for a recording: a cell's value, or a line about its suspects."""
        value = VALUE.fullmatch(words)
        return self.is_answered(recording, *value.groups()) if value else self.is_listed(recording, words)

    def is_listed(self, recording: str, line: str) -> bool:
        """Whether netrev lists this suspect; True if there is no netrev to ask."""
        if not self.netrev:
            return True
        command = [self.netrev, "suspects", str(Path(self.current) / recording)]
        return line in subprocess.run(command, capture_output=True, text=True, check=True).stdout.splitlines()[:-1]

    def is_answered(self, recording: str, position: str, cell: str, value: str) -> bool:
        """Whether netrev gives a cell this value at a position; True if there is no netrev to ask."""
        if not self.netrev:
            return True
        command = [self.netrev, "run", str(Path(self.current) / recording)]
        lines = f"restart 0\nstepi {position}\nprint {cell}\n"
        process = subprocess.run(command, input=lines, capture_output=True, text=True, check=True)
        return process.stdout.endswith(f"\n{cell} = {value}\n")


def commands_of_go() -> Path | None:
    """The folder of the `go` command for recording, if that release is on this machine."""
    return fetched_go(RELEASE)


def settings_of(home: Path, *folders: Path) -> dict[str, str]:
    """The environment of a user with this home folder and with these folders on the PATH. Go's caches are those of the
    user who runs the tests. Logs have a folder of their own, so that logs that an interrupted run left in memory aren't
    reported."""
    go = commands_of_go()
    logs = home / "logs"
    logs.mkdir(exist_ok=True)
    python = Path(shutil.which("python3") or "/usr/bin/python3").parent
    path = [*folders, *([go] if go else []), SYSTEM, python]
    caches = {"XDG_CACHE_HOME": cache().parent, "GOCACHE": os.environ.get("GOCACHE", cache().parent / "go-build")}
    settings = {
        "PATH": ":".join(map(str, path)),
        "HOME": str(home),
        "LANG": "C.UTF-8",
        "GOPROXY": "off",
        "NETREV_LOGS": str(logs),
    }
    return settings | {name: str(folder) for name, folder in caches.items()}


def clone_room(folder: Path) -> tuple[Room, Toolchain]:
    """A fresh clone, with a toolchain that has already compiled."""
    toolchain = Toolchain(folder / "toolchain")
    return Room(fresh_clone(folder), settings_of(folder, toolchain.commands)), toolchain


def archive_room(folder: Path, archive: Path) -> Room:
    """A folder with the contents of the archive."""
    shutil.copy(archive, folder)
    return Room(folder, settings_of(folder))


def deb_room(folder: Path, deb: Path) -> Room:
    """A folder with the Debian package, unpacked into it instead of the system's root."""
    shutil.copy(deb, folder)
    root = folder / "root"
    installed = {
        "sudo apt install": "dpkg-deb -x",
        deb.name: f"{deb.name} {root}",
        "/usr/share/doc": f"{root}/usr/share/doc",
    }
    return Room(folder, settings_of(folder, root / "usr/bin"), renamed=installed)


def played(room: Room, *names: str) -> Iterator[str]:
    """Runs the commands of these sections of README; yields each command after it has run."""
    found = sections(README.read_text(encoding="utf-8"))
    for name in names:
        for command in found[name]:
            room.play(command)
            yield command.text


def main(words: Sequence[str]) -> int:
    top = Path(words[0])
    path = f"/usr/lib/go-{RELEASE}/bin:{SYSTEM}"
    settings = {"PATH": path, "HOME": "/root", "LANG": "C.UTF-8", "GOPROXY": "off", "DEBIAN_FRONTEND": "noninteractive"}
    room = Room(top / "root", settings, ("chroot", str(top)), "/root", {"sudo ": ""}, netrev="")
    try:
        for command in played(room, DEBIAN, DEBUG, RECORD):
            print(f"README: {command}", flush=True)
    except ReadmeError as error:
        print(f"readme_rooms: {error}", file=sys.stderr)
        return 1
    return 0


if __name__ == "__main__":
    sys.exit(main(sys.argv[1:]))
