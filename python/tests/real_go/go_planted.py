"""Makes changes in a copy of Go 1.27, as a future release of Go may have them. doctor must name each change, and
nothing may be recorded. It needs netrev, and Go 1.27 or Debian's packages of it; `make real` runs it."""

import contextlib
import os
import pathlib
import shutil
import subprocess
import tempfile
from collections.abc import Iterator

import pytest

from dev.recorder.fetching import commands_of
from netrev.system.program_path import netrev_program

from .go_programs import ENDS, TOOL

pytestmark = pytest.mark.together  # they share the copy

POLL, MUTEX, SOCKETS = "runtime/netpoll.go", "internal/poll/fd_mutex.go", "internal/poll/fd_unix.go"
Change = tuple[str, dict[str, str]]  # a file, and the texts to replace in it

CHECKED = """		errcode = netpollcheckerr(pd, int32(mode))
		if errcode != pollNoError {
			return errcode
		}
"""
# for each change, the texts to replace in files, at all their occurrences, and doctor's message
PLANTED: dict[str, tuple[list[Change], str]] = {
    "a renamed call": (
        [(POLL, {"netpollcheckerr(": "netpollerror("})],
        "unfit runtime/netpoll.go netpollblock: netpollcheckerr(pd, mode) occurs there 0 times, not 1",
    ),
    "an argument more": (
        [
            (
                "runtime/sema.go",
                {
                    "handoff bool, skipframes int) {\n	root": "handoff bool, skipframes, why int) {\n	root",
                    "semrelease1(addr, handoff, skipframes)": "semrelease1(addr, handoff, skipframes, 0)",
                    "semrelease1(addr, false, 0)": "semrelease1(addr, false, 0, 0)",
                },
            ),
            ("runtime/proc.go", {"semrelease1(&worldsema, true, 0)": "semrelease1(&worldsema, true, 0, 0)"}),
            (
                "runtime/trace.go",
                {"semrelease1(&traceAdvanceSema, true, 0)": "semrelease1(&traceAdvanceSema, true, 0, 0)"},
            ),
        ],
        "compiled: go1.27.3 can't be recorded (tested with netrev-go). The rules fit, but the changed files don't compile",
    ),
    "a moved check": (
        [
            (
                POLL,
                {
                    "	for !netpollblock(pd, int32(mode), false) {\n"
                    + CHECKED: "	for {\n"
                    + CHECKED
                    + "		if netpollblock(pd, int32(mode), false) {\n			break\n		}\n"
                },
            )
        ],
        " the recording: step ",
    ),
    "bits of a lock word that changed places": (
        [(MUTEX, {"mutexRLock   = 1 << 1": "mutexRLock   = 1 << 2", "mutexWLock   = 1 << 2": "mutexWLock   = 1 << 1"})],
        "trial: this Go can't be recorded: GOMAXPROCS=1: a lock word differs: step ",
    ),
    "a swap of a lock word elsewhere": (
        [
            (
                SOCKETS,
                {
                    "func (fd *FD) Fstat(": "func (fd *FD) quick(old, new uint64) bool {\n"
                    "	return atomic.CompareAndSwapUint64(&fd.fdmu.state, old, new)\n}\n\nfunc (fd *FD) Fstat("
                },
            )
        ],
        "unfit internal/poll/fd_unix.go quick: atomic.CompareAndSwap..) occurs there too, and no rule covers it",
    ),
    "bytes that go another way": (
        [
            (
                SOCKETS,
                {
                    "	var nn int\n	for {\n		max := len(p)\n		if fd.IsStream && max-nn > maxRW {\n			max = nn + maxRW\n		}\n"
                    "		n, err := ignoringEINTRIO(": "	var nn int\n	if len(p) == 5 {\n		r, _, _ := syscall.Syscall("
                    "syscall.SYS_WRITE, uintptr(fd.Sysfd), uintptr(unsafe.Pointer(&p[0])), 5)\n		return int(r), nil\n	}\n"
                    "	for {\n		max := len(p)\n		if fd.IsStream && max-nn > maxRW {\n			max = nn + maxRW\n		}\n"
                    "		n, err := ignoringEINTRIO(",
                    '	"syscall"\n)': '	"syscall"\n	"unsafe"\n)',
                },
            )
        ],
        "trial: this Go can't be recorded: GOMAXPROCS=1: the program counted ",
    ),
}


class Planted:
    """A copy of Go 1.27 without the parts that no program needs."""

    def __init__(self, folder: pathlib.Path) -> None:
        self.folder, self.root = folder, folder / "go"
        original = commands_of("1.27").parent
        without = shutil.ignore_patterns("testdata", "*_test.go", "cmd")
        shutil.copytree(original / "src", self.root / "src", ignore=without)
        for path in original.iterdir():
            if path.name != "src":
                (self.root / path.name).symlink_to(path.resolve())
        (self.folder / "main.go").write_text(ENDS)

    @contextlib.contextmanager
    def planted(self, changes: list[Change]) -> Iterator[None]:
        """Replaces texts in some files of the copy, and puts the files back afterwards."""
        before = {name: (self.root / "src" / name).read_text() for name, _ in changes}
        try:
            for name, words in changes:
                path = self.root / "src" / name
                for old, new in words.items():
                    assert old in path.read_text()
                    path.write_text(path.read_text().replace(old, new))
            yield
        finally:
            for name, text in before.items():
                (self.root / "src" / name).write_text(text)

    def call(self, *words: str) -> tuple[int, str]:
        """Calls netrev-go with the copy, and returns its status, and its output with that of the program."""
        settings = {
            "PATH": f"{self.root / 'bin'}:{os.environ['PATH']}", "GOROOT": str(self.root), "NETREV": netrev_program() or "",
            "GO111MODULE": "off", "GOFLAGS": "", "GOTOOLCHAIN": "local", "XDG_CACHE_HOME": str(self.folder / "cache"),
            "GOCACHE": os.environ.get("GOCACHE", os.path.expanduser("~/.cache/go-build")),
        }  # fmt: skip
        run = subprocess.run(
            [TOOL, *words], cwd=self.folder, env=os.environ | settings, stdin=subprocess.DEVNULL,
            stdout=subprocess.PIPE, stderr=subprocess.STDOUT, text=True, timeout=600, check=False,
        )  # fmt: skip
        return run.returncode, run.stdout


@pytest.fixture(scope="module")
def release() -> Iterator[Planted]:
    """A copy of Go 1.27 for all tests of the module, which is removed after them."""
    with tempfile.TemporaryDirectory(prefix="netrev-planted-") as name:
        yield Planted(pathlib.Path(name))


def test_the_copy_is_recorded_as_it_is(release: Planted) -> None:
    status, output = release.call("doctor")
    assert status == 0, output
    status, output = release.call("-o", "whole", "run", "main.go")
    assert status == 0, output
    assert (release.folder / "whole.jsonl").exists()


@pytest.mark.parametrize("changes, message", PLANTED.values(), ids=PLANTED)
def test_each_planted_change_is_named_and_nothing_is_recorded(
    release: Planted, changes: list[Change], message: str
) -> None:
    with release.planted(changes):
        status, output = release.call("doctor")
        assert status == 1, output
        assert message in output
        status, output = release.call("-o", "planted", "run", "main.go")
        assert status == 4, output
        assert "netrev-go: go1.27.3 can't be recorded " in output
        assert list(release.folder.glob("planted*")) == []


def test_what_can_be_done_without_is_left_out_and_named(release: Planted) -> None:
    changes: list[Change] = [("internal/poll/sendfile_unix.go", {"sendFileChunk(": "sendFilePart("})]
    file = "internal/poll/sendfile_unix.go"
    without = f"without what SendFile writes: {file} sendFile: sendFileChunk(dst, src, ...) occurs there 0 times, not 1"
    elsewhere = f"without the bytes that go there: {file} sendFilePart: syscall.Send..) occurs there too"
    with release.planted(changes):
        status, output = release.call("-o", "partly", "run", "main.go")
        assert status == 0, output
        assert without in output
        assert elsewhere in output
        assert (release.folder / "partly.jsonl").exists()
        assert without not in release.call("-o", "partly", "run", "main.go")[1]
        status, output = release.call("doctor")
        assert status == 0, output
        assert f"  {without}\n" in output


def test_without_the_objects_of_waits_all_else_is_recorded(release: Planted) -> None:
    parks = "gopark(parkunlock_c, unsafe.Pointer(&root.lock), reason, traceBlockSync, 3+skipframes)"
    changes: list[Change] = [
        ("runtime/sema.go", {"goparkunlock(&root.lock, reason, traceBlockSync, 4+skipframes)": parks})
    ]
    without = (
        "without the objects at which goroutines wait: runtime/sema.go semacquire1: goparkunlock(&root.lock, ...) occurs there "
        "0 times, not 1"
    )
    with release.planted(changes):
        status, output = release.call("doctor")
        assert status == 0, output
        assert f"  {without}\n" in output
