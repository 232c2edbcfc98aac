"""`netrev-go test` with a real Go: the known tests, the recordings that it keeps, and its exit status. It needs Go
and netrev; `make real` runs it."""

import json
import os
import re
import signal
import subprocess
import time
from contextlib import ExitStack
from pathlib import Path

import pytest

from .go_programs import PAIR, TOOL, Tool

HEAD = 'package p\n\nimport (\n\t"fmt"\n\t"net"\n\t"os"\n\t"testing"\n\t"time"\n)\n' + PAIR
WAITS = "b.SetReadDeadline(time.Now().Add(10 * time.Millisecond))"
TESTS = (
    HEAD
    + """
func TestGood(t *testing.T) {
	a, b := pair()
	a.Write([]byte("x"))
	b.Read(make([]byte, 1))
}

func TestRed(t *testing.T) {
	_, b := pair()
	@
	if _, err := b.Read(make([]byte, 1)); err != nil {
		t.Error(err)
	}
}

func TestParts(t *testing.T) {
	for i := 0; i < 3; i++ {
		i := i
		t.Run(fmt.Sprint("part ", i), func(t *testing.T) {
			t.Parallel()
			a, b := pair()
			@
			if i != 1 {
				a.Write([]byte("x"))
			}
			if _, err := b.Read(make([]byte, 1)); err != nil {
				t.Fatal(err)
			}
		})
	}
}

func TestEnds(t *testing.T) {
	_, b := pair()
	switch os.Getenv("HOW") {
	case "panic":
		panic("now")
	case "elsewhere":
		go func() { panic("elsewhere") }()
		time.Sleep(time.Second)
	case "exit":
		os.Exit(7)
	case "hang":
		os.WriteFile("here", nil, 0o600)
		b.Read(make([]byte, 1))
	}
}
""".replace(
        "@", WAITS
    )
)


# prints what netrev-go stores about the linked programs
LOOKS = """package p

import (
	"fmt"
	"os"
	"path/filepath"
	"testing"
)

func TestLooks(t *testing.T) {
	made, _ := filepath.Glob(filepath.Join(os.TempDir(), "netrev-link-*/made.*"))
	if len(made) == 0 {
		return
	}
	file, _ := os.OpenFile("seen", os.O_APPEND|os.O_CREATE|os.O_WRONLY, 0o600)
	for _, name := range made {
		at, _ := os.Stat(name)
		fmt.Fprint(file, name, " ", at.ModTime().UnixNano(), "\\n")
	}
}
"""


def timeless(output: str) -> list[str]:
    """The output without times."""
    return re.sub(r"\d+\.\d+s", "", output).splitlines()


class Tested(Tool):
    """A package in whose folder netrev-go is called."""

    def __init__(self, folder: Path, cleanups: ExitStack) -> None:
        super().__init__(folder, cleanups)
        self.write(TESTS, "p_test.go")
        self.write("module example.org/p\n\ngo 1.19\n", "go.mod")

    def environment(self, **settings: str) -> dict[str, str]:
        return super().environment() | {"GO111MODULE": "on"} | settings

    def recordings(self, folder: str = "recordings") -> list[str]:
        """The names of the recordings in a folder."""
        return sorted(path.name for path in (self.folder / folder).glob("*.jsonl"))

    def common_status(self, *words: str) -> int:
        """Checks that Go and netrev-go end with the same exit status, and returns it."""
        plainly = subprocess.run(
            ["go", "test", *words], cwd=self.folder, env=self.environment(), capture_output=True, check=False
        )
        assert self.call("test", *words)[0] == plainly.returncode
        return plainly.returncode


@pytest.fixture
def package(folder: Path, cleanups: ExitStack) -> Tested:
    """A folder with a package whose tests pass, fail and hang."""
    return Tested(folder, cleanups)


def test_of_those_that_fail_there_are_recordings(package: Tested) -> None:
    status, output = package.call("--json", "a.json", "test", ".")
    assert (status, package.recordings()) == (1, ["p.TestParts.part_1.jsonl", "p.TestRed.jsonl"]), output
    for name in ("TestRed", r"TestParts\.part_1"):
        package.check_recording(output, rf"recordings/p\.{name}")
    results = {line["test"]: line for line in map(json.loads, (package.folder / "a.json").read_text().splitlines())}
    assert results["TestGood"]["status"] == "passed"
    line = TESTS[: TESTS.index("t.Error(")].count("\n") + 1
    assert (results["TestRed"]["file"], results["TestRed"]["line"]) == ("p_test.go", line)
    assert results["TestParts/part_1"]["status"] == "failed"


@pytest.mark.parametrize("how", ["panic", "elsewhere", "exit", "hang"])
def test_however_it_ends_the_test_that_ran_is_kept(package: Tested, how: str) -> None:
    words = ("test", "-run", "Good|Ends", "-timeout", "2s", ".")
    status, output = package.call("-o", how, *words, HOW=how)
    assert (status, package.recordings(how)) == (1, ["p.TestEnds.jsonl"]), output


@pytest.mark.parametrize(
    "words",
    [
        ("-run", "Good", "."),
        ("-run", "None", "."),
        ("-list", ".", "."),
        ("-race", "-run", "Good", "-count=2", "-v", "."),
    ],
)
def test_it_succeeds_as_go_does(package: Tested, words: tuple[str, ...]) -> None:
    assert package.common_status(*words) == 0


@pytest.mark.parametrize("words", [("-run", "Red", "."), ("./nowhere",), ("-nonsense", ".")])
def test_it_fails_as_go_does(package: Tested, words: tuple[str, ...]) -> None:
    assert package.common_status(*words) != 0


def test_it_fails_as_go_does_if_the_package_does_not_compile(package: Tested) -> None:
    package.write("package p\n\nfunc f() { return 1 }\n", "other.go")
    assert package.common_status(".") != 0
    package.call("--json", "a.json", "test", ".")
    (result,) = map(json.loads, (package.folder / "a.json").read_text().splitlines())
    found = [result[key] for key in ("package", "status", "file", "line")]
    assert found == ["example.org/p", "unbuilt", "other.go", 3]


def test_the_script_for_any_ci(package: Tested) -> None:
    path = f"{TOOL.parent}:{os.environ['PATH']}"
    words = ["sh", str(TOOL.parents[2] / "examples/ci/test.sh"), "-run", "Red", "."]
    run = subprocess.run(
        words, cwd=package.folder, env=package.environment(PATH=path), capture_output=True, text=True, check=False
    )
    assert run.returncode == 1, run.stderr
    assert package.recordings("out/netrev") == ["p.TestRed.jsonl"]
    assert (package.folder / "out/netrev/tests.xml").exists()


def test_json_stays_json(package: Tested) -> None:
    run = subprocess.run(
        [TOOL, "test", "-json", "."],
        cwd=package.folder,
        env=package.environment(),
        capture_output=True,
        text=True,
        check=False,
    )
    events = [json.loads(line) for line in run.stdout.splitlines()]
    assert ("fail", "TestRed") in [(event["Action"], event.get("Test")) for event in events]
    assert "FAILED example.org/p TestRed" in run.stderr


def test_runs_that_are_the_same_are_linked_once_and_print_what_go_prints(package: Tested) -> None:
    package.write(LOOKS, "look_test.go")
    for more in ((), ("-race",)):
        words = ("test", *more, "-v", "-run", "Good|Looks", ".")
        plainly = timeless(package.call(*words)[1])
        (package.folder / "seen").unlink(missing_ok=True)
        status, output = package.call("--runs", "3", *words)
        assert status == 0, output
        assert timeless(output) == plainly * 3 + ["netrev-go: 2 tests, 3 runs; 0 failed"]
        seen = (package.folder / "seen").read_text().splitlines()
        assert (len(seen), len(set(seen))) == (3, 1)
        assert re.search(r"netrev-link-\w+/made\.\S+ \d+$", seen[0])


@pytest.mark.parametrize("number, status", [(signal.SIGTERM, 128 + signal.SIGTERM), (signal.SIGINT, 1)])
def test_cancelled_it_ends_as_go_does(package: Tested, number: signal.Signals, status: int) -> None:
    process = subprocess.Popen(
        [TOOL, "-o", number.name, "test", "-run", "Ends", "."], cwd=package.folder,
        env=package.environment(HOW="hang"), stdout=subprocess.PIPE, stderr=subprocess.STDOUT, text=True,
    )  # fmt: skip
    package.cleanups.callback(process.kill)
    here = package.folder / "here"
    while process.poll() is None and not here.exists():
        time.sleep(0.01)
    process.send_signal(number)
    output, _ = process.communicate(timeout=120)
    assert process.returncode == status, output
    assert package.recordings(number.name) == ["p.TestEnds.jsonl"], output
