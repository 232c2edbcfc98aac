"""The rules of causes that read the program's source, at their boundaries: a row for each side of a boundary, with a
source of a few lines and made-up waits."""

from pathlib import Path
from types import SimpleNamespace as Made
from typing import Any, cast

import pytest

from netrev.findings.causes import repeated_failures  # fmt: skip
from netrev.findings.pools import leaking_paths  # fmt: skip
from netrev.findings.source import package as package_source  # fmt: skip
from netrev.recording.waits import Name, ObjectWait
from netrev.recording.where import OF_A_LIBRARY, OF_THE_PROGRAM, SourceCall, Stack


def at(folder: Path, source: str, number: int, function: str = "(*queue).pop") -> tuple[Any, ObjectWait]:
    """A recording of a program with this source, and a wait at a line of it."""
    file = folder / "a.go"
    file.write_text(source, encoding="utf-8")
    stack = Stack((SourceCall(f"main.{function}", str(file), number, OF_THE_PROGRAM),), None)
    return Made(lines=Made(written=float("inf"))), ObjectWait(Name(1), 5, None, "a condition", stack)


def in_short(folder: Path, says: list[str]) -> list[str]:
    """The sentences without their common parts."""
    return [sentence.replace(f"{folder}/", "").removeprefix("Perhaps ") for sentence in says]


FETCH = """\
package main

func fetch() {
	for {
		resp, err := client.Get(url)
		if err != nil || short {
			continue
		}
		defer resp.Body.Close()
	}
}
"""
BODY = "a.go:7 goes on without a Close of the body."
LOOPED = "It is closed only as fetch returns: the defer at a.go:9 is in a loop."


@pytest.mark.parametrize(
    "old, new, expected",
    [("", "", [LOOPED]), ("defer resp.Body", "resp.Body", [f"it was left open on this way: {BODY}"]), ("defer resp.Body.Close()", "use(resp)", [])],
)  # fmt: skip
def test_a_body_that_stays_open(tmp_path: Path, old: str, new: str, expected: list[str]) -> None:
    recording, wait = at(tmp_path, FETCH.replace(old, new) if old else FETCH, 5, "fetch")
    assert in_short(tmp_path, leaking_paths.paths_past_close(recording, [wait.stack])) == expected


BREAK = """\
package main

func run() {
	for {
		_, err := conn.Read(b)
		select {
		case <-done:
			break // out
		default:
		}
	}
}
"""
GOES = "Goroutine 1 goes on in the loop at a.go:4 after that"
LEAVES = f"{GOES}: the break at a.go:8 leaves a select or a switch alone."


@pytest.mark.parametrize(
    "old, new, goroutines, line, of, expected",
    [
        ("", "", "111", 5, OF_THE_PROGRAM, [LEAVES]), ("", "", "11", 5, OF_THE_PROGRAM, []), ("", "", "1", 5, OF_THE_PROGRAM, []),
        ("", "", "1111", 5, OF_THE_PROGRAM, [LEAVES]), ("", "", "111", 5, OF_A_LIBRARY, []), ("", "", "111", 9, OF_THE_PROGRAM, [f"{GOES}."]),
        ("", "", "111", 3, OF_THE_PROGRAM, []), ("", "", "111", 2, OF_THE_PROGRAM, []), ("break", "return", "111", 5, OF_THE_PROGRAM, [f"{GOES}."]),
        ("select", "{", "111", 5, OF_THE_PROGRAM, [f"{GOES}."]), ("", "", "111", 8, OF_THE_PROGRAM, [f"{GOES}."]),
    ],
)  # fmt: skip
def test_calls_that_fail_in_a_loop(
    tmp_path: Path, old: str, new: str, goroutines: str, line: int, of: str, expected: list[str]
) -> None:
    recording, wait = at(tmp_path, BREAK.replace(old, new) if old else BREAK, line, "run")
    call = wait.stack.calls[0]._replace(of=of)
    recording.lines.of = lambda step: Stack((call,), None)
    calls = [Made(goroutine=int(goroutine), first=3) for goroutine in goroutines]
    says = repeated_failures.repeated_sentence(recording, cast(Any, calls))
    assert [goroutine.replace(f"{tmp_path}/", "") for goroutine in says] == expected


def test_a_variable_s_type_is_unknown_without_the_source() -> None:
    recording = cast(Any, Made(lines=Made(written=float("inf"))))
    place = package_source.place_of_variable(recording, SourceCall("main.f", "none.go", 3, OF_THE_PROGRAM), "s.mu")
    assert place is None


def test_the_types_of_a_function_without_a_receiver() -> None:
    lines = ("package main", "", "func run(c net.Conn) {", "\tuse(c)", "}")
    found = package_source.variables_of(cast(Any, None), lines, SourceCall("main.run", "a.go", 4, OF_THE_PROGRAM))
    assert found == {"c": "net.Conn"}
