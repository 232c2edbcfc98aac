"""Source lines for the addresses of a program, by Go's `addr2line`, which finds lines even in a program without
symbols."""

from __future__ import annotations

import os
import pathlib
import struct
import subprocess
from collections.abc import Iterable
from typing import IO, NamedTuple

from .points import Log, PointStack

OF_GO, OF_A_LIBRARY, OF_THE_PROGRAM = "go", "library", "program"
ELF_HEADER = 64  # bytes
LIBRARIES = ("/pkg/mod/", "/vendor/", "/usr/share/gocode/")
LIBRARIES_BELOW = ("/vendor/",)


class LineCall(NamedTuple):
    """A call: its function, file and line, and whose code it is."""

    function: str
    file: str
    line: int
    of: str


class Calls(NamedTuple):
    """A stack's calls from the innermost, and the `go` statement that started the goroutine."""

    calls: tuple[LineCall, ...]
    made: LineCall | None


def read_at(program: IO[bytes], at: int, count: int) -> bytes:
    """Bytes of a program; zeros after its end."""
    found = os.pread(program.fileno(), count, at) if at < 2**62 else b""
    return found.ljust(count, b"\0")


def shift(program: IO[bytes], text: int) -> int | None:
    """The distance of the program's code from the addresses that `addr2line` expects: `addr2line` counts from the
    section .text, which may begin with C code, and a program may be loaded anywhere. None if the file has no such
    section."""
    header = read_at(program, 0, ELF_HEADER)
    sections, size, count, names = struct.unpack_from("<Q10xHHH", header, 40)
    if header[:4] != b"\x7fELF" or names >= count or size < 64:
        return None
    (strings,) = struct.unpack("<Q", read_at(program, sections + size * names + 24, 8))
    for at in range(sections, sections + size * count, size):
        name, address = struct.unpack("<I12xQ", read_at(program, at, 24))
        if read_at(program, strings + name, 6) == b".text\0":
            return text - int(address)
    return None


def looked_up(
    program: IO[bytes], reader: list[str], addresses: Iterable[int], moved: int
) -> dict[int, tuple[str, str, int]]:
    """The function, the file and the line at each address, by the command that reads lines. The command reads the open
    file, whatever has its name by now."""
    wanted = sorted(set(addresses))
    text = "".join(f"{address - moved:#x}\n" for address in wanted if address >= moved)
    run = subprocess.run(
        [*reader, f"/proc/self/fd/{program.fileno()}"], input=text, capture_output=True, text=True, check=False,
        errors="replace", pass_fds=[program.fileno()],
    )  # fmt: skip
    output = run.stdout.split("\n")
    found = {}
    for address, function, place in zip((a for a in wanted if a >= moved), output[0::2], output[1::2]):
        file, _, line = place.rpartition(":")
        if function != "?" and line.isdigit():
            found[address] = (function, file, int(line))
    return found


def replaced_file(file: str) -> str:
    """The real name of a Go file, which the overlay replaces with a file that has _ for / in its name."""
    name = file.rpartition("/")[2]
    for package in ("internal_poll_", "runtime_", "testing_"):
        if name.startswith(package):
            return package[:-1].replace("_", "/") + "/" + name.removeprefix(package)
    return name


class SourceRoots:
    """Decides to whom a file belongs: files below Go's own folders are Go's, and files below a library's folder are the
    library's."""

    def __init__(self, sources: pathlib.Path, here: pathlib.Path) -> None:
        self.sources = {str(sources) + "/", os.path.realpath(sources) + "/"}
        self.plain = sources
        self.here = str(here) + "/"

    def call(self, function: str, file: str, line: int) -> LineCall:
        """Makes a call. A file of Go's own is named by its package and file name, a file of the program by its path
        relative to the command's folder."""
        for root in self.sources:
            if file.startswith(root):
                return LineCall(function, file.removeprefix(root), line, OF_GO)
        if self.is_replaced(function):
            return LineCall(function, replaced_file(file), line, OF_GO)
        if not file.startswith("/") and os.path.exists(self.plain / file):  # built with -trimpath
            return LineCall(function, file, line, OF_GO)
        name = file.removeprefix(self.here)
        is_below = not name.startswith("/")  # the folder of the command, wherever that is
        parts = LIBRARIES_BELOW if is_below else LIBRARIES
        is_library = any(part in f"/{name}" for part in parts) or "@v" in name
        return LineCall(function, name, line, OF_A_LIBRARY if is_library else OF_THE_PROGRAM)

    @staticmethod
    def is_replaced(function: str) -> bool:
        return function.startswith(("runtime.", "internal/poll.", "testing."))


def is_ours(call: LineCall) -> bool:
    """Whether a function in Go's own files belongs to the recorder. Its function literals belong to the recorder too."""
    return call.of == OF_GO and "etrev" in call.function.rpartition("/")[2].partition(".")[2]


def outside_the_runtime(calls: list[LineCall]) -> tuple[LineCall, ...]:
    """A stack without the runtime's own calls at both ends, the recorder's calls, and the compiler's calls."""
    calls = [call for call in calls if call.file != "<autogenerated>" and not is_ours(call)]
    while calls and calls[0].function.startswith("runtime."):
        del calls[0]
    while calls and calls[-1].function in ("runtime.goexit", "runtime.main", "runtime.goexit.abi0"):
        del calls[-1]
    return tuple(calls)


def lines_of(
    log: Log, used: set[int], program: IO[bytes] | None, reader: list[str], roots: SourceRoots
) -> dict[int, Calls]:
    """The calls of the used stacks, found by the `reader` command; empty if the program is missing or has no line
    table."""
    stacks: dict[int, PointStack] = {number: log.stacks[number] for number in used if number in log.stacks}
    moved = shift(program, log.text) if program else None
    if program is None or moved is None:
        return {}
    behind = {address for stack in stacks.values() for address in (*stack.calls, stack.made) if address}
    found = looked_up(program, reader, (address - 1 for address in behind), moved)
    calls = {}
    for number, stack in stacks.items():
        chain = [roots.call(*found[address - 1]) for address in stack.calls if address - 1 in found]
        starter = roots.call(*found[stack.made - 1]) if stack.made - 1 in found else None
        if starter and starter.function.startswith("runtime."):
            starter = None  # the first goroutine
        calls[number] = Calls(outside_the_runtime(chain), starter)
    return calls
