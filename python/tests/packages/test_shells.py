"""The shells' completions of netrev, nrdb and netrev-go, at the prompt of a real bash and a real zsh. If a shell is
missing, its tests are skipped with a message that names it."""

import contextlib
import os
import pty
import select
import shutil
import signal
import subprocess
import sys
import time
from contextlib import ExitStack
from pathlib import Path

import pytest

ROOT = Path(__file__).resolve().parents[3]
NAMES = ("netrev", "nrdb", "netrev-go")
PATIENCE = 60  # seconds
SHELLS = {
    "bash": (["bash", "--norc", "--noprofile", "-i"], "for file in of_bash/*; do . $file; done"),
    "zsh": (["zsh", "-f", "-i"], "fpath=($PWD/of_zsh $fpath); autoload -Uz compinit; compinit -u -D"),
}
# the text before the key is pressed, and after it
COMPLETED = (
    ("netrev che", "check"),
    ("netrev cha", "changes"),
    ("netrev check reco", "check recording.jsonl"),
    ("nrdb --timel", "--timeline"),
    ("nrdb reco", "recording.jsonl"),
    ("netrev-go doc", "doctor"),
    ("netrev-go --until-f", "--until-failure"),
    ("netrev-go --all --junit out --del", "--all --junit out --delays"),
    ("netrev-go --junit reco", "--junit recording.jsonl"),
)


class Typed:
    """A shell at a terminal, in a folder."""

    def __init__(self, command: list[str], folder: Path):
        self.screen = ""
        self.process, self.terminal = pty.fork()
        if self.process == 0:
            os.chdir(folder)
            settings = {"HOME": str(folder), "PATH": os.environ["PATH"], "TERM": "dumb", "INPUTRC": "/dev/null"}
            os.execvpe(command[0], command, settings)

    def close(self) -> None:
        os.close(self.terminal)
        with contextlib.suppress(ProcessLookupError):
            os.kill(self.process, signal.SIGKILL)
        os.waitpid(self.process, 0)

    def type(self, text: str) -> None:
        os.write(self.terminal, text.encode())

    def until(self, text: str) -> bool:
        """Reads until this text is on the screen; returns whether it appears in time."""
        limit = time.monotonic() + PATIENCE
        while text not in self.screen:
            left = limit - time.monotonic()
            if left < 0 or not select.select([self.terminal], [], [], left)[0]:
                return False
            try:
                self.screen += os.read(self.terminal, 65536).decode(errors="replace")
            except OSError:  # it has ended
                return False
        self.screen = self.screen.partition(text)[2]
        return True


@pytest.fixture
def shells(folder: Path) -> Path:
    """A folder with a recording and the completions for each shell."""
    (folder / "recording.jsonl").touch()
    for shell in SHELLS:
        (folder / f"of_{shell}").mkdir()
        for name in NAMES:
            words = [sys.executable, str(ROOT / "scripts/completion.py"), shell, name]
            completion = subprocess.run(words, capture_output=True, check=True).stdout
            (folder / f"of_{shell}" / f"_{name}").write_bytes(completion)
    return folder


@pytest.mark.parametrize("shell", SHELLS)
def test_a_shell_completes(cleanups: ExitStack, shells: Path, shell: str) -> None:
    """Shell functions that print their arguments stand in for the programs."""
    command, loads = SHELLS[shell]
    if not shutil.which(shell):
        pytest.skip(f"no {shell} is here (Debian: apt-get install {shell})")
    typed = Typed(command, shells)
    cleanups.callback(typed.close)
    for name in NAMES:
        typed.type(f'function {name} {{ echo "it was <$*>"; }}\n')
    typed.type(f"{loads}\necho is rea''dy\n")
    assert typed.until("is ready"), typed.screen
    for before, wanted in COMPLETED:
        typed.type(f"{before}\t\n")
        assert typed.until(f"it was <{wanted}>"), f"{before!r}: {typed.screen!r}"
