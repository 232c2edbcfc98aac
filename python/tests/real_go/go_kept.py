"""Tests netrev-go with a real Go in situations in which a run could be lost: for example, a program execs another
program, or its children inherit its environment. It needs Go and netrev; `make real` runs it."""

import os
import pathlib
import shutil
import subprocess

import pytest

from netrev_go.go_command.running import logs_in
from netrev_go.log.logfile import read_log

from .go_programs import ENDS, Tool, program

# waits for a byte, which comes, and then becomes itself with another argument
BECOMES = program(
    '\tif len(os.Args) == 1 {\n\t\ta.Write([]byte("x"))\n\t\tb.Read(make([]byte, 1))\n'
    '\t\tpanic(syscall.Exec(os.Args[0], []string{os.Args[0], "again"}, os.Environ()))\n\t}',
    "os", "syscall",
)  # fmt: skip
# prints the descriptors of a program that it starts
INHERITS = program(
    '\tout, err := exec.Command("ls", "-l", "/proc/self/fd").CombinedOutput()\n\tfmt.Print(string(out), err)',
    "fmt", "os/exec",
)  # fmt: skip
# Goroutines lock nested mutexes while the number of processors changes, and other goroutines unlock some of them. In
# the end three mutexes are locked.
LOCKS = program(
    """
	var shared [40]sync.Mutex
	var reading [20]sync.RWMutex
	var locking, unlocking sync.WaitGroup
	handed := make(chan *sync.Mutex, 100)
	unlocking.Add(1)
	go func() {
		for mutex := range handed {
			mutex.Unlock()
		}
		unlocking.Done()
	}()
	for i := 0; i < 8; i++ {
		locking.Add(1)
		go func(i int) {
			var own [6]sync.Mutex
			for n := 0; n < 2000; n++ {
				for j := range own {
					own[j].Lock()
				}
				if n%50 == 0 {
					runtime.Gosched()
				}
				for j := range own {
					own[j].Unlock()
				}
				mutex, first, second := &shared[(i+n)%40], &reading[(i+n)%20], &reading[(i+n+1)%20]
				mutex.Lock()
				if n%7 == 0 {
					handed <- mutex
				} else {
					mutex.Unlock()
				}
				first.RLock()
				second.RLock()
				if n%64 == 0 {
					runtime.Gosched()
				}
				first.RUnlock()
				second.RUnlock()
				if i == 0 && n%100 == 0 {
					runtime.GOMAXPROCS(1 + n/100%6)
				}
			}
			locking.Done()
		}(i)
	}
	locking.Wait()
	close(handed)
	unlocking.Wait()
	shared[3].Lock()
	reading[2].RLock()
	reading[5].Lock()
	fmt.Println(uintptr(unsafe.Pointer(&shared[3])), uintptr(unsafe.Pointer(&reading[2])), uintptr(unsafe.Pointer(&reading[5])))
	os.Exit(0)
""",
    "fmt", "os", "runtime", "sync", "unsafe",
)  # fmt: skip
# makes many points
MANY = program("\tfor i := 0; i < 5000; i++ {\n\t\ta.SetDeadline(time.Now().Add(time.Hour))\n\t}", "time")


def mount(tool: Tool, size: str) -> pathlib.Path:
    """Mounts a file system of this size in the tool's folder, until the test ends, and returns its folder."""
    small = tool.folder / "small"
    small.mkdir()
    if os.geteuid() or os.system(f"mount -t tmpfs -o size={size} none {small} 2>/dev/null"):
        pytest.skip("only root can mount a small file system")
    tool.cleanups.callback(os.system, f"umount {small}")
    return small


def test_a_program_that_becomes_another_one_is_recorded_on(tool: Tool) -> None:
    tool.write(BECOMES)
    status, output = tool.call("-o", "x", "run", "main.go")
    assert status == 0, output
    tool.check_recording(output, "x")
    tool.check_recording(output, "x-2")
    assert "nothing is recorded" not in output


def test_a_log_that_cannot_be_made_changes_nothing_of_the_program(tool: Tool) -> None:
    tool.write(ENDS)
    assert tool.call("build", "-o", "prog", "main.go")[0] == 0
    for folder in ("nowhere", "main.go"):
        settings = tool.environment(NETREV_LOG=f"{folder}/log")
        ended = subprocess.run(["./prog"], cwd=tool.folder, env=settings, capture_output=True, check=True)
        assert (ended.stdout, ended.stderr) == (b"", b"")


def test_no_program_that_it_starts_has_the_log_open(tool: Tool) -> None:
    tool.write(INHERITS)
    _, output = tool.call("run", "main.go")
    tool.check_recording(output)
    assert "/proc/" in output
    assert "netrev-go-" not in output


def test_it_ends_with_gos_own_status(tool: Tool) -> None:
    tool.write(ENDS.replace("_, _ = a, b", "_, _ = a, b\n\tpanic(1)"))
    status, output = tool.call("run", "main.go")
    assert status == 1, output
    tool.check_recording(output)
    assert "recording.jsonl -ex continue -ex 'info errors'" in output
    assert "--explore" not in output


def test_the_log_has_just_the_mutexes_that_are_locked_in_the_end(tool: Tool) -> None:
    tool.write(LOCKS)
    assert tool.call("build", "-o", "prog", "main.go")[0] == 0
    for turn in range(3):
        settings = tool.environment(NETREV_LOG=str(tool.folder / f"log-{turn}"))
        run = subprocess.run(["./prog"], cwd=tool.folder, env=settings, capture_output=True, text=True, check=True)
        (log,) = (path for path in tool.folder.glob(f"log-{turn}.*") if ".program." not in path.name)
        assert len(list(tool.folder.glob(f"log-{turn}.program.*"))) == 1
        mutex, reading, writing = map(int, run.stdout.split())
        held = {(holder.address, holder.is_reader) for holder in read_log(log).holders or ()}
        assert held == {(mutex, False), (reading, True), (writing, False)}


def test_a_log_without_room_ends_and_the_program_goes_on(tool: Tool) -> None:
    tool.write(MANY.replace("5000", "100000"))
    assert tool.call("build", "-o", "prog", "main.go")[0] == 0
    small = mount(tool, "10m")
    settings = tool.environment(NETREV_LOG=f"{small}/log")
    ended = subprocess.run(["./prog"], cwd=tool.folder, env=settings, capture_output=True, check=True)
    assert (ended.stdout, ended.stderr) == (b"", b"")
    (log,) = logs_in(small)
    read = read_log(log)
    assert len(read.points) > 30_000
    assert read.notes[0] == "the log ran out of space and ends before the program did"
    assert list(small.glob("log.program.*")) == []


def test_a_full_disk_keeps_the_logs(tool: Tool) -> None:
    mount(tool, "128k")
    tool.write(MANY)
    status, output = tool.call("-o", "small/x", "--keep", "--strict", "run", "main.go")
    assert status == 5, output
    assert "netrev-go: small/x.jsonl: No space left on device" in output
    logs = output.rpartition("convert ")[2].partition("`")[0]
    tool.cleanups.callback(shutil.rmtree, os.path.dirname(logs))
    assert tool.call("-o", "again", "convert", logs)[0] == 0
