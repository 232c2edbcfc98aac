"""Programs for netrev-go with a real Go, and netrev-go called in their folder. The trials use this module too, so it
does without pytest, which isn't on each machine that runs them."""

import os
import re
import subprocess
from contextlib import ExitStack
from pathlib import Path

from netrev.system.program_path import netrev_program

TOOL = Path(__file__).resolve().parents[3] / "tools/go/netrev-go"

# the two ends of a connection
PAIR = """
func pair() (net.Conn, net.Conn) {
	l, err := net.Listen("tcp", "127.0.0.1:0")
	if err != nil {
		panic(err)
	}
	a, err := net.Dial("tcp", l.Addr().String())
	if err != nil {
		panic(err)
	}
	b, _ := l.Accept()
	return a, b
}
"""


def program(body: str, *imports: str) -> str:
    """A program whose main has this body. There, `a` and `b` are the two ends of a connection."""
    names = "".join(f'\t"{name}"\n' for name in sorted({"net", *imports}))
    return f"package main\n\nimport (\n{names})\n{PAIR}\nfunc main() {{\n\ta, b := pair()\n{body}\n\t_, _ = a, b\n}}\n"


# sends a byte, reads it, and ends
ENDS = program('\ta.Write([]byte("x"))\n\tb.Read(make([]byte, 1))')


class Tool:
    """A folder with a program, and netrev-go called in it. `cleanups` are called after the test."""

    def __init__(self, folder: Path, cleanups: ExitStack) -> None:
        self.folder, self.cleanups = folder, cleanups

    def write(self, text: str, name: str = "main.go") -> None:
        """Writes a file of the program."""
        (self.folder / name).write_text(text)

    def environment(self, **settings: str) -> dict[str, str]:
        """The environment of netrev-go and of the program, with these settings."""
        return os.environ | {"NETREV": netrev_program() or "", "GO111MODULE": "off", "GOFLAGS": ""} | settings

    def call(self, *words: str, **settings: str) -> tuple[int, str]:
        """Calls netrev-go, and returns its status, and its output with that of the program."""
        run = subprocess.run(
            [TOOL, *words], cwd=self.folder, env=self.environment(**settings), stdin=subprocess.DEVNULL,
            stdout=subprocess.PIPE, stderr=subprocess.STDOUT, text=True, errors="replace", timeout=300, check=False,
        )  # fmt: skip
        return run.returncode, run.stdout

    def check_recording(self, output: str, name: str = "recording") -> None:
        """Checks that the output names a recording."""
        assert re.search(rf"{name}\.jsonl: ok \d+ steps; \d+ goroutines?, \d+ sockets?", output), output
