"""The program that reads source lines, Go's own `addr2line`. Up to Go 1.24 it comes with Go. Later releases build the
program on first use, so netrev-go builds it once for each release, before the first recording, and stores it."""

from __future__ import annotations

import contextlib
import hashlib
import pathlib
import re

from netrev.messages import recorder as messages

from .cached_files import is_whole, made_once
from .toolchain import Go, RecorderError, cache, quiet_go
from .trusted_files import UntrustedFileError

NAME = "addr2line"
PACKAGE = "cmd/addr2line"


def shipped(go: Go) -> pathlib.Path:
    """The path of the addr2line that some releases of Go contain."""
    return go.root / "pkg/tool" / go.system.replace("/", "_") / NAME


def kept(go: Go) -> pathlib.Path:
    """The path at which netrev-go keeps the program that it built."""
    digest = hashlib.sha256(f"{go.version} {go.root}".encode()).hexdigest()
    return cache() / f"{NAME}-{re.sub(r'[^0-9A-Za-z.+-]', '_', go.version)}-{digest[:12]}" / NAME


def line_reader(go: Go) -> list[str]:
    """The command that reads lines: Go's own program, or the program that netrev-go built; if neither exists, `go tool`
    builds it now."""
    if shipped(go).exists():
        return [str(shipped(go))]
    with contextlib.suppress(UntrustedFileError):
        if is_whole(kept(go).parent):
            return [str(kept(go))]
    return [go.program, "tool", NAME]


def build_line_reader(go: Go) -> pathlib.Path:
    """The program, built if it is missing; raises RecorderError if Go can't build it."""
    if shipped(go).exists():
        return shipped(go)
    program = kept(go)

    def build() -> list[str]:
        part = program.with_name("part")
        run = quiet_go(go, program.parent, "build", "-o", str(part), PACKAGE)
        if run.returncode != 0:
            raise RecorderError(messages.READER_NOT_BUILT.format(package=PACKAGE, why=run.stderr.strip()[-600:]))
        part.rename(program)
        return [NAME]

    try:
        made_once(program.parent, build)
    except OSError as fault:
        raise RecorderError(
            messages.READER_UNUSABLE.format(folder=fault.filename or program.parent, why=fault.strerror)
        ) from None
    return program


def prepare_line_reader(go: Go) -> None:
    """Builds the program if it is missing. Otherwise Go builds the program each time that lines are read."""
    with contextlib.suppress(RecorderError):
        build_line_reader(go)
