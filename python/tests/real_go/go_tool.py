"""netrev-go with a real Go: programs of all kinds, and everything that can go wrong. It needs netrev, and a Go on
the PATH (Debian's golang-go, or a release that dev.recorder.fetching fetched); `make real` runs it."""

import dataclasses
import json
import os
import re
import signal
import subprocess
import sys
import time
from collections.abc import Callable
from pathlib import Path

import pytest

from dev.recorder.fetching import here
from netrev.recording.where import SourceLines
from netrev_go.go_command import calls_of_go
from netrev_go.go_command.toolchain import (
    CHANGED,
    SOURCES,
    TRIED,
    find_go,
    overlay,
    points_program,
    quiet_go,
    release_of,
)
from netrev_go.log.logfile import Header

from .go_programs import ENDS, TOOL, Tool, program


def begin_of_ring(text: bytes) -> int:
    """The offset at which a log's points begin, after its tables."""
    return Header(text).ring


# waits for a byte that nobody sends
HANGS = program("\tb.Read(make([]byte, 1))")
READ_LINE = HANGS[: HANGS.index("b.Read")].count("\n") + 1
TEST = HANGS.replace("package main", "package p").replace('"net"', '"net"\n\t"testing"')
TEST = TEST.replace("func main()", "func TestHang(t *testing.T)")
# starts itself as a child, which also opens a socket
CHILD = program(
    '\tif len(os.Args) == 1 {\n\t\texec.Command(os.Args[0], "child").Run()\n\t}', "os", "os/exec"
)  # fmt: skip
# opens a socket, execs itself with one more argument, and then reads
BECOMES = program(
    '\tif len(os.Args) > 1 {\n\t\ta.Write([]byte("x"))\n\t\tb.Read(make([]byte, 1))\n\t\treturn\n\t}\n'
    '\tsyscall.Exec("/proc/self/exe", []string{"again", "again"}, os.Environ())',
    "os", "syscall",
)  # fmt: skip
# waits in a generic function
GENERIC = HANGS.replace("b.Read(make([]byte, 1))", "wait(b)").replace(
    "func main()", "func wait[T net.Conn](end T) {\n\tend.Read(make([]byte, 1))\n}\n\nfunc main()"
)
# four goroutines write to one socket
RACING = program(
    "\tvar done sync.WaitGroup\n\tfor i := 0; i < 4; i++ {\n\t\tdone.Add(1)\n\t\tgo func() {\n\t\t\tdefer done.Done()\n"
    '\t\t\tfor j := 0; j < 50; j++ {\n\t\t\t\tv := net.Buffers{[]byte("a"), []byte("b")}\n\t\t\t\tv.WriteTo(a)\n\t\t\t}\n'
    "\t\t}()\n\t}\n\tdone.Wait()",
    "sync",
)


# ways in which a goroutine that has read something tells main, which then closes the socket: main's declaration, what the
# goroutine does after the read, how main awaits it, and the imports of all that
TELLS = (
    ("done := make(chan int)", "done <- 1", "<-done", ()),
    ("done := make(chan int, 1)", "done <- 1", "time.Sleep(5e6); <-done", ("time",)),
    ("done := make(chan int)", "close(done)", "time.Sleep(5e6); <-done", ("time",)),
    ("done := make(chan int)", "close(done)", "select { case <-done: case <-time.After(1e9): }", ("time",)),
    ("var done sync.WaitGroup; done.Add(1)", "time.Sleep(5e6); done.Done()", "done.Wait()", ("sync", "time")),
    ("var m sync.Mutex; m.Lock()", "time.Sleep(5e6); m.Unlock()", "m.Lock()", ("sync", "time")),
)


def test_a_program_that_hangs_ends_with_its_line(tool: Tool) -> None:
    tool.write(HANGS)
    status, output = tool.call("-n", "1", "run", "main.go")
    assert status == 1, output  # Go's own status: SIGQUIT ended the program
    tool.check_recording(output)
    assert re.search(
        rf"  main\.go:{READ_LINE}: net\.\(\*conn\)\.Read waits to read \(goroutine 0, since step \d+\)", output
    )
    assert re.search(r"next: .* recording\.jsonl -ex 'goto \d+' -ex 'calls sock 3'\n", output)


def test_a_test_that_hangs_ends_with_its_line(tool: Tool) -> None:
    tool.write(TEST, "p_test.go")
    status, output = tool.call("-o", "t", "test", ".", "-run", "Hang", "-timeout", "1s")
    assert status == 1
    tool.check_recording(output, r"t/\S+\.TestHang")
    assert re.search(rf"  p_test\.go:{READ_LINE + 1}: net\.\(\*conn\)\.Read waits to read", output)
    assert "vet:" not in output


@pytest.mark.parametrize("flag", ["-ldflags=-s -w", "-trimpath", "-race", "-gcflags=-N"])
def test_it_prints_lines_however_the_program_was_built(tool: Tool, flag: str) -> None:
    tool.write(HANGS)
    _, output = tool.call("-n", "1", "run", flag, "main.go")
    tool.check_recording(output)
    assert re.search(rf"main\.go:{READ_LINE}: ", output)


def test_a_program_that_may_lie_anywhere(tool: Tool) -> None:
    tool.write(HANGS)
    _, output = tool.call("-n", "1", "run", "-buildmode=pie", "main.go")
    tool.check_recording(output)
    release, _ = release_of(find_go().version)
    assert ("Go can't read lines from it (-buildmode=pie)" if release == "1.19" else f"main.go:{READ_LINE}: ") in output


def test_a_generic_function(tool: Tool) -> None:
    tool.write(GENERIC)
    _, output = tool.call("-n", "1", "run", "main.go")
    tool.check_recording(output)
    assert f"main.go:{GENERIC[: GENERIC.index('end.Read')].count(chr(10)) + 1}: " in output


def test_a_workspace(tool: Tool) -> None:
    for name in ("mine", "dep"):
        (tool.folder / name).mkdir()
        tool.write(f"module example.org/{name}\n\ngo 1.18\n", f"{name}/go.mod")
    tool.write("go 1.18\n\nuse (\n\t./mine\n\t./dep\n)\n", "go.work")
    tool.write("package dep\n", "dep/dep.go")
    tool.write(HANGS.replace('"net"\n', '"net"\n\t_ "example.org/dep"\n'), "mine/main.go")
    _, output = tool.call("-n", "1", "run", "./mine", GO111MODULE="on")
    tool.check_recording(output)
    assert f"mine/main.go:{READ_LINE + 1}: " in output


def test_a_release_that_a_module_asks_for(tool: Tool) -> None:
    wanted, other = here("1.27"), next(filter(None, map(here, ("1.26", "1.24", "1.23", "1.22", "1.21"))), None)
    if not wanted or not other:
        pytest.skip("neither 1.27 nor another release that looks into go.mod is here")
    tools = tool.folder / "tools"
    tools.mkdir()
    (tools / "go1.27.3").symlink_to(wanted / "go")
    tool.write("module example.org/mine\n\ngo 1.21\n\ntoolchain go1.27.3\n", "go.mod")
    tool.write(HANGS)
    settings = {"PATH": f"{other}:{tools}:{os.environ['PATH']}", "GOTOOLCHAIN": "auto", "GO111MODULE": "on"}
    assert "Go: go1.27.3, " in tool.call("doctor", **settings)[1]
    _, output = tool.call("-n", "1", "run", ".", **settings)
    tool.check_recording(output)
    assert f"main.go:{READ_LINE}: " in output


def test_a_cgo_program(tool: Tool) -> None:
    tool.write(HANGS.replace("import (\n", '// int one(void) { return 1; }\nimport "C"\n\nimport (\n'))
    _, output = tool.call("-n", "1", "run", "main.go")
    tool.check_recording(output)
    assert f"main.go:{READ_LINE + 3}: " in output


def test_a_vendored_module(tool: Tool) -> None:
    tool.write(HANGS.replace('"net"\n', '"net"\n\t_ "example.org/dep"\n'))
    tool.write("module example.org/mine\n\ngo 1.19\n\nrequire example.org/dep v1.0.0\n", "go.mod")
    (tool.folder / "vendor/example.org/dep").mkdir(parents=True)
    tool.write("package dep\n", "vendor/example.org/dep/dep.go")
    tool.write("# example.org/dep v1.0.0\n## explicit; go 1.19\nexample.org/dep\n", "vendor/modules.txt")
    _, output = tool.call("-n", "1", "run", ".", GO111MODULE="on")
    tool.check_recording(output)
    assert f"main.go:{READ_LINE + 1}: " in output


def test_the_race_detector_sees_no_race_of_ours(tool: Tool) -> None:
    tool.write(RACING)
    _, output = tool.call("run", "-race", "main.go")
    tool.check_recording(output)
    assert "DATA RACE" not in output


@pytest.mark.parametrize(
    "body, imports",
    [
        ("\tos.Exit(3)", ("os",)),
        ('\tpanic("now")', ()),
        ("\tsyscall.Kill(syscall.Getpid(), syscall.SIGKILL)", ("syscall",)),
        ("\tselect {}", ()),
    ],
)
def test_whatever_way_it_ends(tool: Tool, body: str, imports: tuple[str, ...]) -> None:
    tool.write(program(body, *imports))
    _, output = tool.call("-n", "2", "run", "main.go")
    tool.check_recording(output)


def test_children_have_recordings_of_their_own(tool: Tool) -> None:
    tool.write(CHILD)
    _, output = tool.call("-o", "c", "run", "main.go")
    tool.check_recording(output, "c")
    tool.check_recording(output, "c-2")


def test_a_program_that_becomes_another_has_two_recordings(tool: Tool) -> None:
    tool.write(BECOMES)
    _, output = tool.call("-o", "b", "run", "main.go")
    tool.check_recording(output, "b")
    tool.check_recording(output, "b-2")


def lines_of(tool: Tool, name: str) -> tuple[list[list[object]], SourceLines]:
    """The steps of a recording, and the lines beside it."""
    steps = [json.loads(line) for line in (tool.folder / f"{name}.jsonl").read_text().splitlines()[1:]]
    return steps, SourceLines.beside(str(tool.folder / f"{name}.jsonl"), len(steps))


@pytest.mark.parametrize("statement, tells, awaits, imports", TELLS)
def test_what_the_program_orders_is_recorded(
    tool: Tool, statement: str, tells: str, awaits: str, imports: tuple[str, ...]
) -> None:
    reads = f"\t{statement}\n\tgo func() {{ b.Read(make([]byte, 1)); {tells} }}()"
    tool.write(program(f'{reads}\n\ta.Write([]byte("x"))\n\t{awaits}\n\tb.Close()', *imports))
    _, output = tool.call("run", "main.go")
    tool.check_recording(output)
    steps, lines = lines_of(tool, "recording")
    read = max(at for at, step in enumerate(steps, 1) if step[0] == "rwunlock" and step[3] == "r" and step[1])
    closes = max(at for at, step in enumerate(steps, 1) if step[0] == "increfclose")
    assert (read, closes) in (lines.orders or [])


def test_a_machines_own_wake_up_is_no_order(tool: Tool) -> None:
    tool.write(program("\tgo b.Read(make([]byte, 1))\n\ttime.Sleep(5e6)\n\tb.Close()\n\ttime.Sleep(5e6)", "time"))
    _, output = tool.call("run", "main.go")
    tool.check_recording(output)
    steps, lines = lines_of(tool, "recording")
    evicts = max(at for at, step in enumerate(steps, 1) if step[0] == "evict")
    assert [pair for pair in lines.orders or [] if pair[0] == evicts] == []
    assert "waitcheck" in [step[0] for step in steps[evicts:]]


def test_orders_can_be_left_out(tool: Tool) -> None:
    tool.write(ENDS)
    _, output = tool.call("--no-orders", "run", "main.go")
    tool.check_recording(output)
    assert lines_of(tool, "recording")[1].orders is None


def start(tool: Tool, *words: str, **settings: str) -> subprocess.Popen[str]:
    """Starts a command in the tool's folder; after the test it is killed."""
    process = subprocess.Popen(
        words, cwd=tool.folder, env=tool.environment(**settings), text=True, stdin=subprocess.DEVNULL,
        stdout=subprocess.PIPE, stderr=subprocess.STDOUT,
    )  # fmt: skip
    tool.cleanups.callback(process.communicate)
    tool.cleanups.callback(process.kill)
    return process


def happens(is_so: Callable[[], bool], seconds: int = 10) -> bool:
    """Whether a condition holds within this time."""
    for _ in range(10 * seconds):
        if is_so():
            return True
        time.sleep(0.1)
    return False


def test_a_process_that_runs_on(tool: Tool) -> None:
    tool.write(HANGS)
    assert tool.call("build", "-o", "prog", "main.go")[0] == 0
    process = start(tool, "./prog", NETREV_LOG=str(tool.folder / "mine"))
    log = tool.folder / f"mine.{process.pid}"
    assert happens(log.exists)
    time.sleep(0.5)
    for words in (("--pid", str(process.pid), "convert"), ("convert", log.name)):
        status, output = tool.call("-o", "on", *words)
        tool.check_recording(output, "on")
        assert f"main.go:{READ_LINE}: " in output
    assert process.poll() is None
    text = log.read_bytes()
    log.write_bytes(text[: begin_of_ring(text) + 64 * 20 + 5])
    assert "the log is cut short or damaged" in tool.call("convert", log.name)[1]
    log.write_bytes(b"other")
    assert "too short for a log" in tool.call("convert", log.name)[1]


@pytest.mark.skipif(os.geteuid() != 0, reason="only root can make namespaces")
def test_a_process_in_a_container(tool: Tool) -> None:
    tool.write(HANGS)
    assert tool.call("build", "-o", "prog", "main.go")[0] == 0
    inside = tool.folder / "inside"
    inside.mkdir()
    words = [
        "--pid",
        "--mount",
        "--fork",
        "--kill-child",
        "--mount-proc",
        "sh",
        "-c",
        "mount -t tmpfs none inside && exec ./prog",
    ]
    outer = start(tool, "unshare", *words, NETREV_LOG=str(inside / "log"))
    children = Path(f"/proc/{outer.pid}/task/{outer.pid}/children")
    assert happens(lambda: Path(f"/proc/{children.read_text().strip()}/root{inside}/log.1").exists())
    time.sleep(0.5)
    _, output = tool.call("-o", "now", "snapshot", children.read_text().strip())
    tool.check_recording(output, "now")
    assert f"main.go:{READ_LINE}: " in output


def test_a_signal_makes_a_recording_of_what_is_there(tool: Tool) -> None:
    tool.write(program('\tos.WriteFile("here", nil, 0600)\n\tb.Read(make([]byte, 1))', "os"))
    process = start(tool, str(TOOL), "-o", "s", "-n", "9", "run", "main.go")
    assert happens((tool.folder / "here").exists, 120)
    os.kill(process.pid, signal.SIGUSR1)
    output, _ = process.communicate(timeout=120)
    tool.check_recording(output, "s-so-far-1")
    tool.check_recording(output, "s")


def test_two_variables_make_any_go_record(tool: Tool) -> None:
    tool.write(ENDS)
    script = f'eval "$({TOOL} env)"; export NETREV_LOG=$PWD/e; go run main.go; exec {TOOL} convert e.[0-9]*'
    run = start(tool, "sh", "-c", script)
    output, _ = run.communicate(timeout=120)
    assert re.search(r"e\.\d+\.jsonl: ok \d+ steps", output)


def tools_without_go(tool: Tool) -> str:
    """A folder with the tools that the launcher needs, without Go."""
    folder = tool.folder / "tools"
    folder.mkdir(exist_ok=True)
    for name in ("dirname", "readlink", "python3", "env", "sh"):
        path = subprocess.check_output(["which", name], text=True).strip()
        if not (folder / name).exists():
            (folder / name).symlink_to(path)
    return str(folder)


def fit(tool: Tool, changes: dict[str, dict[str, str]]) -> tuple[int, list[str]]:
    """The exit status and the lines of the rules' report on the installed Go, after some texts in its files have been
    replaced."""
    go = find_go()
    points = points_program(go, tool.folder)
    for name in CHANGED:
        (tool.folder / name).mkdir(parents=True, exist_ok=True)
        for path in (go.sources() / name).glob("*.go"):
            (tool.folder / name / path.name).write_bytes(path.read_bytes())
    for name in ("runtime/internal", "internal/runtime"):
        if (go.sources() / name).exists() and not (tool.folder / name).exists():
            (tool.folder / name).symlink_to(go.sources() / name)
    for name, words in changes.items():
        text = (tool.folder / name).read_text()
        for old, new in words.items():
            assert old in text
            text = text.replace(old, new)
        (tool.folder / name).write_text(text)
    run = subprocess.run([points, "fit", tool.folder], capture_output=True, text=True, check=False)
    return run.returncode, run.stdout.splitlines()


# netrev-go's words, its settings, and its message; {python}, {tools} and {folder} are folders
OBSTACLES: tuple[tuple[tuple[str, ...], dict[str, str], str], ...] = (
    (("run", "none.go"), {}, "no socket was opened"),
    (("run", "missing.go"), {}, "nothing was recorded: no program ran, or it opened no log"),
    (("run", "main.go"), {"PATH": "{python}:/nowhere:{tools}"}, "apt-get install golang-go"),
    (("run", "-overlay=x.json", "main.go"), {}, "remove yours"),
    (("run", "main.go"), {"GOFLAGS": "-overlay=x.json"}, "remove yours"),
    (("run", "main.go"), {"GOARCH": "arm64"}, "records only linux/amd64"),
    # (Go 1.21 reads its own cache first, which is below the same folder unless GOCACHE is set)
    (
        ("run", "main.go"),
        {"XDG_CACHE_HOME": "/proc/none", "GOCACHE": "{folder}/go-build"},
        "set XDG_CACHE_HOME to another folder",
    ),
    (("--points", "5", "run", "main.go"), {}, "--points must be from 16384 to 16777216"),
    (("--pid", "1", "convert"), {}, "process 1"),
    (("convert", "nothing.1"), {}, "nothing.1: can't be read: No such file or directory"),
)


@pytest.mark.parametrize("words, settings, message", OBSTACLES)
def test_it_names_what_stands_in_the_way(
    tool: Tool, words: tuple[str, ...], settings: dict[str, str], message: str
) -> None:
    tool.write(program("\t_ = a"))
    tool.write("package main\n\nfunc main() {}\n", "none.go")
    python, tools = Path(sys.executable).parent, tools_without_go(tool)
    filled = {name: text.format(python=python, tools=tools, folder=tool.folder) for name, text in settings.items()}
    status, output = tool.call(*words, **filled)
    assert (status == 0) == (message == "no socket was opened")
    assert message in output
    assert "Traceback" not in output


def test_another_release_is_named_by_function_and_call(tool: Tool) -> None:
    status, output = fit(tool, {"runtime/netpoll.go": {"gpp.Swap(": "gpp.Exchange("}})
    assert status == 1
    unfit = [line for line in output if line.startswith("unfit")]
    assert unfit == ["unfit runtime/netpoll.go netpollblock: gpp.Swap(...) occurs there 0 times, not 1"]


def test_where_the_orders_do_not_fit_all_else_does(tool: Tool) -> None:
    status, output = fit(
        tool, {"runtime/chan.go": {"c.recvq.dequeue()": "c.recvq.first()", "chanbuf(c, c.sendx)": "c.at(c.sendx)"}}
    )
    assert status == 0
    assert [line for line in output if not line.startswith("fits")] == [
        "without the program's orders: runtime/chan.go chansend: chanbuf(c, c.sendx) occurs there 0 times, not 1"
    ]
    points, folder = points_program(find_go(), tool.folder), tool.folder / "made"
    folder.mkdir()
    subprocess.run([points, "overlay", tool.folder, SOURCES / "log", folder], check=True, capture_output=True)
    replaced = sorted(path.name for path in folder.glob("*.go"))
    assert "runtime_chan.go" not in replaced
    assert "runtime_proc.go" not in replaced
    assert "runtime_sema.go" in replaced


def test_a_place_where_go_passes_and_no_rule_is_doesnt_fit(tool: Tool) -> None:
    more = "func (fd *FD) readUnlock() {"
    swap = (
        "func (mu *fdMutex) try(old, new uint64) bool { return atomic.CompareAndSwapUint64(&mu.state, old, new) }\n\n"
    )
    status, output = fit(tool, {"internal/poll/fd_mutex.go": {more: swap + more}})
    assert status == 1
    assert [line for line in output if line.startswith("unfit")] == [
        "unfit internal/poll/fd_mutex.go try: atomic.CompareAndSwap..) occurs there too, and no rule covers it"
    ]


def test_the_doctor_says_that_all_is_well(tool: Tool) -> None:
    status, output = tool.call("doctor")
    assert status == 0
    for line in ("rules: all fit\n", "compiled: ", "trial: the trial recording is correct: "):
        assert line in output
    assert "calls: " not in output


def test_it_was_tried() -> None:
    assert release_of(find_go().version)[0] in TRIED


def test_the_table_has_each_call_that_it_has() -> None:
    assert calls_of_go.unknown_calls(find_go()) == []
    assert {"FD.Read", "FD.Accept", "FD.Writev", "Splice", "SendFile"} <= set(calls_of_go.calls_of(find_go()))


def test_a_call_that_no_rule_knows_is_named(tool: Tool) -> None:
    go = find_go()
    folder = tool.folder / "src/internal/poll"
    folder.mkdir(parents=True)
    for path in (go.sources() / "internal/poll").glob("*.go"):
        (folder / path.name).write_bytes(path.read_bytes())
    with (folder / "fd_unix.go").open("a") as file:
        file.write("\nfunc (fd *FD) ReadTwice(p []byte) (int, error) { return fd.Read(p) }\n")
    assert calls_of_go.unknown_calls(dataclasses.replace(go, root=tool.folder)) == ["FD.ReadTwice"]


def test_what_is_changed_compiles_for_another_processor(monkeypatch: pytest.MonkeyPatch, tool: Tool) -> None:
    go = find_go()
    changes = str(overlay(go))
    monkeypatch.setenv("GOARCH", "arm64")
    run = quiet_go(go, tool.folder, "build", "-overlay", changes, *CHANGED)
    assert (run.returncode, run.stderr) == (0, "")
