"""`nrdb --web` in a separate process, and the other participants of its session."""

from __future__ import annotations

import signal
import subprocess

from tests.support.web_client import Address

from .support import NRDB, PATIENCE


class Web:
    """A running `nrdb --web`, which is stopped at the end of its `with` block."""

    def __init__(self, *words: object):
        called = [NRDB, "--web", "0", *map(str, words)]
        self.process = subprocess.Popen(called, stdout=subprocess.PIPE, stderr=subprocess.PIPE, text=True)
        assert self.process.stdout
        output = ""
        while "/?token=" not in output:
            line = self.process.stdout.readline()
            assert line, output
            output += line
        self.said, self.address = output, Address.printed(output)

    def __enter__(self) -> Web:
        return self

    def __exit__(self, *_: object) -> None:
        self.process.kill()
        self.process.communicate()

    def ends(self) -> tuple[int, str, str]:
        """Stops it by Ctrl-C; returns its exit status and its output on both streams."""
        self.process.send_signal(signal.SIGINT)
        output, wrong = self.process.communicate(timeout=PATIENCE)
        return self.process.returncode, output, wrong
