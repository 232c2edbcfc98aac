"""The recorder's rules still fit Go 1.19 and 1.27: each changed file has the stored checksum (this repository contains
no source of Go). For each of the tests' changes to Go's source, stored lines say what isn't recorded. This needs the Go
that dev.recorder.fetching fetches.

    /usr/bin/python3 python tests.releases.test_go_overlays    stores new checksums and lines"""

import hashlib
import json
import re
import subprocess
import tempfile
from collections.abc import Iterator
from contextlib import contextmanager
from pathlib import Path

import pytest

from dev.recorder.fetching import is_here
from netrev_go.go_command.toolchain import SOURCES, points_program
from tests.trials.go_untouched import go_of

RELEASES = ("1.19", "1.27")
STORED = Path(__file__).with_name("go_overlays.json")
USES = {"internal/runtime/sys": "func netrevFrame() uintptr { return sys.GetCallerSP() }\n"}
# Changes of Go 1.27: for each, a file, and a text that is replaced wherever it occurs; without a text, the file is
# removed.
PLANTED: dict[str, list[tuple[str, str, str]]] = {
    "nothing can be recorded": [
        ("internal/poll/fd_mutex.go", "incref() bool", "incref2() bool"),
        ("runtime/netpoll.go", "netpollcheckerr(pd, int32(mode))", "netpollcheckerr(pd, int32(mode)) + netpollcheckerr(pd, int32(mode))"),
        ("runtime/netpoll_epoll.go", "func netpollIsPollDescriptor(", "func other() {\n\tnetpollready(nil, nil, 0)\n}\n\nfunc netpollIsPollDescriptor("),
        (
            "internal/poll/fd_unix.go",
            "func (fd *FD) Fstat(",
            "func (fd *FD) other(p []byte) {\n\tatomic.StoreUint64(&fd.fdmu.state, 1)\n\truntime_pollReset(0, 1)\n\truntime_pollReset(0, 2)\n"
            "\tsyscall.Read(fd.Sysfd, p)\n\tatomic.StoreUint64(&other, 1)\n}\n\nfunc (fd *FD) Fstat(",
        ),
    ],
    "all but parts": [
        ("runtime/sema.go", "func notifyListWait(", "func notifyListWait2("),
        ("sync/rwmutex.go", "rw.readerCount.Add(1) < 0", "rw.readerCount.Add(1) < 0-0"),
        ("net/dial.go", "mapErr(ctx.Err())", "ctx.Err()"),
        ("runtime/time.go", "sleepWhen", "sleepsUntil"),
        ("internal/poll/splice_linux.go", "splice(pipefd, sock.Sysfd,", "splice2(pipefd, sock.Sysfd,"),
        ("internal/poll/sendfile_unix.go", "", ""),
        ("runtime/netpoll.go", "netpollIsPollDescriptor(fd)", "isPollDescriptor(fd)"),
        ("testing/testing.go", "func (c *common) SkipNow()", "func (c *common) SkipHere()"),
        ("runtime/signal_unix.go", "sigsend(sig)", "sigsend2(sig)"),
    ],
    "no orders": [("runtime/chan.go", "func closechan(", "func closechan2(")],
    "no mutexes": [("internal/sync/mutex.go", "", ""), ("sync/mutex.go", "", "")],
    "another unlock": [("internal/sync/mutex.go", "-mutexLocked)", "-mutexLocked-0)")],
}  # fmt: skip
needs_go = pytest.mark.skipif(
    not all(map(is_here, RELEASES)), reason=f"one of Go {', '.join(RELEASES)} isn't here (python3 python dev.recorder.fetching RELEASE)"
)  # fmt: skip


def stub(text: str) -> str:
    """One of our files without its functions, but with code that uses its imports."""
    imports = re.match(r".*?^package \w+\n(?:\nimport (?:\(.*?^\)|[^\n(]+)\n)?", text, re.M | re.S)
    assert imports
    return imports[0] + "".join(use for path, use in USES.items() if f'"{path}"' in imports[0])


@contextmanager
def points(release: str) -> Iterator[tuple[Path, Path, Path]]:
    """The program that fits the rules, a folder with our files, and a folder for its output."""
    with tempfile.TemporaryDirectory(prefix="overlays-") as name:
        folder = Path(name)
        ours, out = folder / "ours", folder / "out"
        ours.mkdir()
        out.mkdir()
        for path in (SOURCES / "log").glob("*.go"):
            (ours / path.name).write_text(stub(path.read_text()))
        yield points_program(go_of(release), folder), ours, out


def ran(*words: str | Path) -> tuple[int, list[str]]:
    run = subprocess.run(words, capture_output=True, text=True, check=False)
    return run.returncode, (run.stdout + run.stderr).splitlines()


def sums_of(release: str) -> dict[str, str]:
    """The checksums of each file in the overlay, of the lines about the rules, and of the list of Go's calls."""
    sources = go_of(release).sources()
    with points(release) as (program, ours, out):
        status, lines = ran(program, "overlay", sources, ours, out)
        assert status == 0, lines
        replaced = json.loads((out / "new.json").read_text())["Replace"]
        texts = {str(Path(theirs).relative_to(sources)): Path(name).read_text() for theirs, name in replaced.items()}
        texts |= {"rules": "\n".join(lines), "calls": "\n".join(ran(program, "calls", sources)[1])}
    return {name: hashlib.sha256(text.encode()).hexdigest()[:16] for name, text in sorted(texts.items())}


def plant(theirs: Path, mine: Path, changes: list[tuple[str, str, str]]) -> None:
    """Makes a folder of links to Go's sources, with these changes."""
    mine.mkdir()
    for path in theirs.iterdir():
        (mine / path.name).symlink_to(path)
    for file, old, new in changes:
        place = mine
        for part in Path(file).parts[:-1]:
            place /= part
            if place.is_symlink():
                real = place.resolve()
                place.unlink()
                place.mkdir()
                for path in real.iterdir():
                    (place / path.name).symlink_to(path)
        text = (mine / file).read_text()
        (mine / file).unlink()
        if old:
            assert old in text, (file, old)
            (mine / file).write_text(text.replace(old, new))


def differences() -> dict[str, list[str]]:
    """For each planted change, the status, the added lines, and how many lines are missing."""
    sources = go_of(RELEASES[-1]).sources()
    found = {}
    with points(RELEASES[-1]) as (program, _, out):
        _, before = ran(program, "fit", sources)
        for name, changes in PLANTED.items():
            plant(sources, out / name, changes)
            status, lines = ran(program, "fit", out / name)
            more = [f"+ {line}" for line in lines if lines.count(line) > before.count(line)]
            fewer = [line for line in before if before.count(line) > lines.count(line)]
            found[name] = [f"status {status}", *dict.fromkeys(more), f"{len(fewer)} lines fewer"]
        usages: list[list[str]] = [[], ["fit"], ["fit", "a", "b"], ["calls", str(out)], ["other", "a"]]
        found["bad usage"] = [f"status {ran(program, *words)[0]}" for words in usages]
    return found


@needs_go
@pytest.mark.parametrize("release", RELEASES)
def test_each_changed_file_is_as_it_was_tried(release: str) -> None:
    assert sums_of(release) == json.loads(STORED.read_text())[release]


@needs_go
def test_what_a_change_of_go_takes_away_is_told() -> None:
    assert differences() == json.loads(STORED.read_text())["planted"]


if __name__ == "__main__":
    stored = {release: sums_of(release) for release in RELEASES} | {"planted": differences()}
    STORED.write_text(json.dumps(stored, indent=1) + "\n")
