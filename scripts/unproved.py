"""Compiles a netrev without its proofs, and keeps it in out/look as long as its sources stay the same.

`rt try` compiles netrev in a minute or two, runs it in a temporary folder, and keeps nothing. So the program is copied
while it runs: it is given a named pipe to check, and waits for a writer that never comes.
"""

from __future__ import annotations

import fcntl
import hashlib
import os
import shutil
import signal
import subprocess
import tempfile
import time
from collections.abc import Callable, Iterator
from contextlib import contextmanager
from pathlib import Path
from typing import IO

ROOT = Path(__file__).resolve().parent.parent
KEPT = ROOT / "out/look"
EXAMPLE = ROOT / "examples/first.jsonl"
PATIENCE = 3600  # seconds; on a busy machine, compiling took ten minutes
REMINDER = 30  # seconds between two lines that say how long compiling has taken
STOP_PATIENCE = 120  # seconds in which `rt try` may end its program and remove it
ELF = b"\x7fELF"
CHECK = "check"
NO_TOOLCHAIN = (
    "make look needs the toolchain, and there is no `rt` on the PATH. "
    "The archive and the Debian package work without the toolchain (README.md, Install)."
)
Say = Callable[[str], None]


class UnprovedError(Exception):
    """Raised if no unproved netrev can be made; the message is the reason."""


def unproved_netrev(say: Say) -> Path:
    """An unproved netrev of the current sources: the program that an earlier call kept, or a new program. A lock
    protects it from removal until this process, or the program that replaces this process, ends."""
    program = KEPT / f"netrev-{source_sum(kit_name())}"
    KEPT.mkdir(parents=True, exist_ok=True)
    with exclusive(KEPT / "lock", say):
        if is_intact(program):
            say("out/look/netrev is up to date, so nothing is compiled.")
        else:
            keep_copy(program, say)
        name_it(program)
        descriptor = os.open(program, os.O_RDONLY)
        fcntl.flock(descriptor, fcntl.LOCK_SH)
        os.set_inheritable(descriptor, True)
        remove_unused()
    return program


def kit_name() -> str:
    """The name that the toolchain gives itself."""
    if shutil.which("rt") is None:
        raise UnprovedError(NO_TOOLCHAIN)
    return subprocess.run(["rt", "version"], capture_output=True, text=True, check=False).stdout


def source_sum(kit: str) -> str:
    """A checksum of the toolchain's name, and of the names and contents of all files from which the program is
    compiled."""
    folders = [*ROOT.glob("crates/*/src"), *ROOT.glob("crates/*/specs")]
    files = [ROOT / "crates.txt", ROOT / "HANDLES", *(path for folder in folders for path in folder.rglob("*"))]
    total = hashlib.sha256(kit.encode())
    for path in sorted(filter(Path.is_file, files)):
        content = path.read_bytes()
        total.update(f"\n{path.relative_to(ROOT)} {len(content)}\n".encode())
        total.update(content)
    return total.hexdigest()[:16]


def sum_file(program: Path) -> Path:
    """The file with a kept program's own checksum."""
    return program.with_name(f"{program.name}.sha256")


def is_intact(program: Path) -> bool:
    """Whether a program was kept and is unchanged."""
    try:
        return sum_file(program).read_text() == hashlib.sha256(program.read_bytes()).hexdigest()
    except FileNotFoundError:
        return False


@contextmanager
def exclusive(path: Path, say: Say) -> Iterator[None]:
    """Holds a lock, for which other calls have to wait."""
    with open(path, "w", encoding="utf-8") as lock:
        try:
            fcntl.flock(lock, fcntl.LOCK_EX | fcntl.LOCK_NB)
        except BlockingIOError:
            say("Another `make look` is compiling here: this one waits for it.")
            fcntl.flock(lock, fcntl.LOCK_EX)
        yield


def name_it(program: Path) -> None:
    """Gives the program the additional name out/look/netrev, for users: NETREV=out/look/netrev. It is a hard link,
    because `rt ci` refuses a tree with symbolic links."""
    new = KEPT / "new"
    new.unlink(missing_ok=True)
    os.link(program, new)
    new.replace(KEPT / "netrev")
    new.unlink(missing_ok=True)  # (if both are already links to the same file, nothing is renamed)


def remove_unused() -> None:
    """Removes the kept programs that no session has locked, and the files that an interrupted call left."""
    for path in KEPT.glob("netrev-*"):
        if path.suffix == ".sha256":
            continue
        with open(path, "rb") as file:
            try:
                fcntl.flock(file, fcntl.LOCK_EX | fcntl.LOCK_NB)
            except BlockingIOError:
                continue
            sum_file(path).unlink(missing_ok=True)
            path.unlink()


def keep_copy(program: Path, say: Say) -> None:
    """Compiles netrev, and keeps a copy of it that has accepted an example."""
    say("Compiling netrev without its proofs, which takes a minute or two.")
    began = time.monotonic()
    with tempfile.TemporaryFile() as log, trying(log) as (process, pipe):
        running = await_program(process, pipe, log, say)
        copy = program.with_name(f"{program.name}.new")
        shutil.copyfile(running, copy)
    copy.chmod(0o755)
    check = subprocess.run([copy, CHECK, EXAMPLE], capture_output=True, text=True, check=False)
    if check.returncode:
        raise UnprovedError(f"the copy of netrev does not run: {check.stdout}{check.stderr}".strip())
    sum_file(program).write_text(hashlib.sha256(copy.read_bytes()).hexdigest())
    copy.rename(program)
    say(f"Compiled in {time.monotonic() - began:.0f} s, and kept as out/look/netrev for the next time.")


@contextmanager
def trying(log: IO[bytes]) -> Iterator[tuple[subprocess.Popen[bytes], str]]:
    """Runs `rt try`, which compiles netrev and lets it check a pipe; yields the process and the pipe."""
    with tempfile.TemporaryDirectory(prefix="netrev-look-") as folder:
        pipe = f"{folder}/pipe"
        os.mkfifo(pipe)
        with started(["rt", "try", "--seconds", str(PATIENCE), "--", CHECK, pipe], log) as process:
            yield process, pipe


@contextmanager
def started(command: list[str], log: IO[bytes]) -> Iterator[subprocess.Popen[bytes]]:
    """A process in netrev's crate, which is always stopped at the end."""
    ending = (signal.SIGINT, signal.SIGTERM, signal.SIGHUP)
    mask = signal.pthread_sigmask(signal.SIG_BLOCK, ending)  # until there is a process to stop
    process = subprocess.Popen(
        command,
        cwd=ROOT / "crates/netrev",
        stdin=subprocess.DEVNULL,
        stdout=log,
        stderr=subprocess.STDOUT,
        start_new_session=True,
        preexec_fn=lambda: signal.pthread_sigmask(signal.SIG_SETMASK, mask),
    )
    try:
        signal.pthread_sigmask(signal.SIG_SETMASK, mask)
        yield process
    finally:
        stop(process)


def stop(process: subprocess.Popen[bytes]) -> None:
    """Interrupts `rt try` as Ctrl-C does, so that `rt try` ends and removes its program. Kills both if that takes too
    long."""
    for number in (signal.SIGINT, signal.SIGKILL):
        try:
            os.killpg(process.pid, number)
            process.wait(STOP_PATIENCE)
            return
        except ProcessLookupError:
            return
        except subprocess.TimeoutExpired:
            pass


def await_program(process: subprocess.Popen[bytes], pipe: str, log: IO[bytes], say: Say) -> Path:
    """Waits until the compiled program runs, and returns its file. If `rt try` ends first, its output is the error."""
    began = reminded = time.monotonic()
    while (program := running_program(process.pid, pipe)) is None:
        now = time.monotonic()
        if process.poll() is not None or now - began > PATIENCE:
            log.seek(0)
            output = log.read().decode(errors="replace").strip()
            raise UnprovedError(output or f"netrev was not compiled within {PATIENCE} s")
        if now - reminded > REMINDER:
            say(f"Still compiling, after {now - began:.0f} s.")
            reminded = now
        time.sleep(0.2)
    return program


def running_program(ancestor: int, pipe: str) -> Path | None:
    """Finds the program that checks the pipe among the descendants of a process, and returns its file."""
    parents = {int(path.name): parent_of(path) for path in Path("/proc").iterdir() if path.name.isdigit()}
    for process in parents:
        if is_below(process, ancestor, parents):
            program = program_checking(Path("/proc") / str(process), pipe)
            if program:
                return program
    return None


def parent_of(folder: Path) -> int:
    """The parent of a process, given its folder in /proc; 0 if the process has ended."""
    try:
        return int((folder / "stat").read_text().rpartition(")")[2].split()[1])
    except (OSError, ValueError, IndexError):
        return 0


def is_below(process: int, ancestor: int, parents: dict[int, int]) -> bool:
    """Whether a process is the given ancestor, or a descendant of it."""
    while process and process != ancestor:
        process = parents.get(process, 0)
    return process == ancestor


def program_checking(folder: Path, pipe: str) -> Path | None:
    """The program of a process, if it is checking the pipe. The toolchain starts it with its own loader, so the program
    is the word before `check`."""
    try:
        *words, check, last = map(os.fsdecode, (folder / "cmdline").read_bytes().split(b"\0")[:-1])
        if not words or (check, last) != (CHECK, pipe):
            return None
        program = folder / "cwd" / words[-1]
        with open(program, "rb") as file:
            return program.resolve() if file.read(4) == ELF else None
    except (OSError, ValueError):  # it has ended, or has fewer words
        return None
