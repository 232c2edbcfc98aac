"""Tests the rules about paths that skip a needed call, on functions of a few lines and on the recordings of
tools/go/samples/skips. In each of these recordings, a rule names its line in the first cause. It says nothing if the
recording doesn't agree."""

import re
from pathlib import Path

import pytest

from netrev.findings.causes import first_words
from netrev.findings.pools.leaking_paths import pattern_of
from netrev.findings.source.functions import is_last_line
from netrev.findings.source.skipping_paths import paths_text, skipped_paths
from netrev.recording.goroutines import TOOK
from netrev.recording.recording import Recording
from netrev.recording.where import OF_THE_PROGRAM, SourceCall
from tests.failed_calls.test_causes import in_the_folder_of_the_source
from tests.hangs.test_needs import stored
from tests.trials.go_caused import NAMES, SKIPS, bug_line

SAYS = {
    "kept": "Perhaps they kept it on this way: {bug} returns without main.go:",
    "opened": "Perhaps it was left open on this way: {bug} goes on without a Close of the body.",
    "timed": "its timer goes off once: it was set at main.go:215 in save",
    "swallowed": "Perhaps bytes that were read before are lost: {bug} made a reader with a buffer, which got at least 64 bytes",
}
SKIPPED = re.compile(r"on these ways|on this way|goes on without|go on without|are lost")

FUNCTION = "func f() error {\n\tc := take()\n%s\n}\n"
SKIP = [
    ("a return", "\tif bad {\n\t\treturn errBad\n\t}\n\tgive(c)\n\treturn nil", [(4, "returns")]),
    ("a case", "\tswitch {\n\tcase bad:\n\t\treturn nil\n\tdefault:\n\t\tgive(c)\n\t}\n\treturn nil", [(5, "returns")]),
    ("a condition round it", "\tif good {\n\t\tgive(c)\n\t}\n\treturn nil", [(3, "passes by")]),
    ("a switch without that case", "\tswitch x {\n\tcase 1:\n\t\tgive(c)\n\t}\n\treturn nil", [(3, "passes by")]),
    ("the other branch", "\tif good {\n\t\tgive(c)\n\t} else {\n\t\treturn nil\n\t}\n\treturn nil", [(6, "returns")]),
    ("its end", "\tif good {\n\t\tgive(c)\n\t\treturn nil\n\t}\n\tlog()", [(8, "ends")]),
    ("an error of another call", "\tif err := ask(c.end); err != nil {\n\t\treturn err\n\t}\n\tgive(c)\n\treturn nil", [(4, "returns")]),
    (
        "a loop after it", "\tfor x := range xs {\n\t\tif x == 0 {\n\t\t\treturn nil\n\t\t}\n\t}\n\tgive(c)\n\treturn nil", [(5, "returns")],
    ),
    ("a loop round it", "\tfor x := range xs {\n\t\tgive(c)\n\t}\n\treturn nil", [(3, "passes by")]),
    (
        "a loop that may have no round", "\tfor x := range xs {\n\t\tgive(c)\n\t\treturn nil\n\t}\n\treturn nil", [(7, "returns")],
    ),
    (
        "a loop's continue", "\tfor x := range xs {\n\t\tif x {\n\t\t\tcontinue\n\t\t}\n\t\tgive(c)\n\t\tbreak\n\t}\n\treturn nil", [(3, "passes by")],
    ),
    ("an endless loop's break", "\tfor {\n\t\tif x {\n\t\t\tbreak\n\t\t}\n\t\tgive(c)\n\t\treturn nil\n\t}\n\treturn nil", [(10, "returns")]),
    ("a switch's break", "\tswitch x {\n\tcase 1:\n\t\tbreak\n\tdefault:\n\t\tgive(c)\n\t}\n\treturn nil", [(3, "passes by")]),
    ("an if's break", "\tfor {\n\t\tif x {\n\t\t\tbreak\n\t\t} else {\n\t\t\tgive(c)\n\t\t\tbreak\n\t\t}\n\t}\n\treturn nil", [(3, "passes by")]),
    ("the case taken anew", "\tgive(c)\n\tswitch x {\n\tcase take():\n\t\treturn nil\n\t}\n\treturn nil", [(6, "returns")]),
    ("an else if", "\tif a {\n\t\tgive(c)\n\t} else if b {\n\t\treturn nil\n\t} else {\n\t\tgive(c)\n\t}\n\treturn nil", [(6, "returns")]),
    ("two conditions", "\tif a {\n\t\tif b {\n\t\t\tgive(c)\n\t\t}\n\t}\n\treturn nil", [(4, "passes by")]),
    ("taken anew and not given", "\tgive(c)\n\tc = take()\n\treturn nil", [(5, "returns")]),
    ("a literal that takes another", "\tgive(c)\n\tx := func() { take() }\n\tif bad {\n\t\tc = take()\n\t}\n\treturn nil", [(5, "passes by")]),
    ("two", "\tif a {\n\t\treturn nil\n\t}\n\tif b {\n\t\treturn nil\n\t}\n\tgive(c)\n\treturn nil", [(4, "returns"), (7, "returns")]),
]  # fmt: skip
GIVEN = {
    "before an endless loop is left": "\tfor {\n\t\tgive(c)\n\t\tbreak\n\t}\n\treturn nil",
    "in the last round of an endless loop": "\tfor {\n\t\tif good {\n\t\t\tgive(c)\n\t\t\tbreak\n\t\t}\n\t}\n\treturn nil",
    "an endless loop without an end": "\tgive(c)\n\tfor {\n\t\twork()\n\t}\n\tc = take()",
    "deferred before a loop takes more": "\tgive(c)\n\tdefer give(c)\n\tfor x := range take() {\n\t\tif x {\n\t\t\tcontinue\n\t\t}\n\t}\n\treturn nil",
    "in every case": "\tswitch x {\n\tcase 1:\n\t\tgive(c)\n\tdefault:\n\t\tgive(c)\n\t}\n\treturn nil",
    "in the head of a switch": "\tswitch give(c) {\n\tcase 1:\n\t\treturn errBad\n\t}\n\treturn nil",
    "in the head of a case": "\tswitch {\n\tcase give(c):\n\t\treturn errBad\n\tdefault:\n\t\tgive(c)\n\t}\n\treturn nil",
    "by a literal": "\tgive(c)\n\tx := func() { take() }\n\treturn x()",
    "handed on, if that is given back too": "\tgive(c)\n\tkeep(c)\n\treturn nil",
    "as it returns": "\treturn give(c)",
    "the program ends instead": "\tif good {\n\t\tgive(c)\n\t\treturn nil\n\t}\n\tlog.Fatal(1)",
    "goto leads elsewhere": "\tif bad {\n\t\tgoto end\n\t}\n\tgive(c)\n\treturn nil",
    "each way": "\tif bad {\n\t\tgive(c)\n\t\treturn errBad\n\t}\n\tgive(c)\n\treturn nil",
    "deferred": "\tdefer give(c)\n\tif bad {\n\t\treturn errBad\n\t}\n\treturn nil",
    "deferred in a literal": "\tdefer func() {\n\t\tlog()\n\t\tgive(c)\n\t}()\n\tif bad {\n\t\treturn errBad\n\t}\n\treturn nil",
    "deferred before it is taken anew": "\tdefer give(c)\n\tgive(c)\n\tc = take()\n\tif bad {\n\t\treturn errBad\n\t}\n\treturn nil",
    "by a goroutine": "\tgo func() {\n\t\tgive(c)\n\t}()\n\tif bad {\n\t\treturn errBad\n\t}\n\treturn nil",
    "nothing was taken": "\tif c == nil {\n\t\treturn errBad\n\t}\n\tgive(c)\n\treturn nil",
    "if it is there": "\tif c != nil {\n\t\tgive(c)\n\t}\n\treturn nil",
    "in the head": "\tif err := give(c); err != nil {\n\t\treturn err\n\t}\n\treturn nil",
    "in all branches": "\tif good {\n\t\tgive(c)\n\t} else {\n\t\tgive(c)\n\t}\n\treturn nil",
    "the program ends": "\tif bad {\n\t\tpanic(1)\n\t}\n\tgive(c)\n\treturn nil",
    "handed on": "\tif later {\n\t\tkeep(c)\n\t\treturn nil\n\t}\n\tgive(c)\n\treturn nil",
    "nowhere": "\tif bad {\n\t\treturn nil\n\t}\n\treturn nil",
    "a raw string": "\ts := `\n} `\n\tif bad {\n\t\treturn nil\n\t}\n\tgive(c, s)\n\treturn nil",
    "in an endless loop": "\tfor {\n\t\tif good {\n\t\t\tbreak\n\t\t}\n\t}\n\tgive(c)\n\treturn nil",
}
LOOPS = [
    ("\tgive(c)\n\tc := take()\n\tif bad {\n\t\treturn\n\t}", []),
    ("\tif a {\n\t\tc := take()\n\t} else {\n\t\tkeep(x)\n\t}\n\tif bad {\n\t\treturn\n\t}\n\tgive(c)", [(8, "returns")]),
    ("\tfor {\n\t\tc := take()\n\t\tgive(c)\n\t}", []),
    ("\tfor {\n\t\tc := take()\n\t\tif bad {\n\t\t\tcontinue\n\t\t}\n\t\tgive(c)\n\t}", [(5, "goes on")]),
    ("\tfor {\n\t\tc := take()\n\t\tif bad {\n\t\t\tbreak\n\t\t}\n\t\tgive(c)\n\t}", [(9, "ends")]),
    ("\tfor {\n\t\tc := take()\n\t\tif bad {\n\t\t\treturn\n\t\t}\n\t\tgive(c)\n\t}", [(5, "returns")]),
    ("\tfor {\n\t\tc := take()\n\t\tif good {\n\t\t\tgive(c)\n\t\t}\n\t}", [(4, "passes by")]),
    ("\tfor {\n\t\tc := take()\n\t\tif good {\n\t\t\tgive(c)\n\t\t\tcontinue\n\t\t}\n\t}", [(2, "ends")]),
    ("\tfor c := range take() {\n\t\tif bad {\n\t\t\tcontinue\n\t\t}\n\t\tgive(c)\n\t}", [(4, "goes on")]),
    ("\tfor c := range take() {\n\t\tgive(c)\n\t}\n\twork()", []),
    ("\tfor a {\n\t\tfor b {\n\t\t\tc := take()\n\t\t\tif bad {\n\t\t\t\tcontinue all\n\t\t\t}\n\t\t\tgive(c)\n\t\t}\n\t}", [(6, "goes on")]),
    ("\tfor a {\n\t\tfor b {\n\t\t\tc := take()\n\t\t\tif bad {\n\t\t\t\tbreak all\n\t\t\t}\n\t\t\tgive(c)\n\t\t}\n\t}", [(6, "breaks off")]),
    ("\tfor a {\n\t\tc := take()\n\t\tfor b {\n\t\t\tif bad {\n\t\t\t\tbreak\n\t\t\t}\n\t\t}\n\t\tgive(c)\n\t}", []),
    ("\tdefer give(1)\n\tfor a {\n\t\tc := take()\n\t\tif bad {\n\t\t\tcontinue\n\t\t}\n\t\tgive(c)\n\t}", []),
    ("\tfor c := range take() {\n\t\tdefer give(c)\n\t\tif bad {\n\t\t\tcontinue\n\t\t}\n\t}", []),
]  # fmt: skip
LOOP = "func f() {\n\tfor {\n\t\tselect {\n\t\tcase c, ok := <-in:\n%s\n\t\tcase <-quit:\n\t\t\treturn\n\t\t}\n\t}\n}\n"
ROUNDS = [
    ("\t\t\tif bad {\n\t\t\t\tcontinue\n\t\t\t}\n\t\t\tgive(c)", [(6, "goes on")]),
    ("\t\t\tif bad {\n\t\t\t\tbreak\n\t\t\t}\n\t\t\tgive(c)", [(3, "passes by")]),
    ("\t\t\tif !ok {\n\t\t\t\treturn\n\t\t\t}\n\t\t\tgive(c)", []),
    ("\t\t\tgive(c)\n\t\t\tif bad {\n\t\t\t\tcontinue\n\t\t\t}", []),
    ("\t\t\tfor bad {\n\t\t\t\tcontinue\n\t\t\t}\n\t\t\tgive(c)", []),
]
TRIES = [
    (
        "\tc, err := take()\n\tif err := log(); bad {\n\t\twork()\n\t}\n\tif err != nil {\n\t\treturn\n\t}\n\tgive(c)",
        [],
    ),
    ("\tc, err := take()\n\tif err := log(); err != nil {\n\t\treturn\n\t}\n\tgive(c)", [(4, "returns")]),
    ("\tif c, err := take(); err == nil {\n\t\tgive(c)\n\t}", []),
    ("\tif c := take(); c == nil {\n\t\treturn\n\t}\n\tgive(c)", []),
    ("\tif c, ok := take(); ok {\n\t\tgive(c)\n\t}", []),
    ("\tif c, ok := take(); !ok {\n\t\treturn\n\t}\n\tgive(c)", []),
    ("\tif c, ok := take(); other {\n\t\tgive(c)\n\t}", [(2, "passes by")]),
    ("\tc, ok := take()\n\tif !ok {\n\t\treturn\n\t}\n\tgive(c)", []),
    ("\tc, ok := take()\n\tif d := log(); !ok {\n\t\treturn\n\t}\n\tgive(c)", []),
    ("\tc, ok := take()\n\tswitch ok {\n\tcase true:\n\t\treturn\n\t}\n\tgive(c)", [(5, "returns")]),
    ("\tc = take()\n\tif it != nil {\n\t\tgive(c)\n\t}", []),
    ("\tc = take()\n\tif err != nil {\n\t\tgive(c)\n\t}", [(3, "passes by")]),
    ("\tswitch {\n\tcase c, ok := take():\n\t\tif !ok {\n\t\t\treturn\n\t\t}\n\t\tgive(c)\n\t}", []),
    ("\ttake()\n\tif bad {\n\t\treturn\n\t}\n\tgive()", [(4, "returns")]),
    ("\tif c, err := take(); err != nil {\n\t\treturn\n\t} else {\n\t\tgive(c)\n\t}", []),
    ("\tif !take() {\n\t\treturn\n\t}\n\tgive()", []),
    ("\tif take() {\n\t\tgive()\n\t}\n\treturn", []),
    ("\tif c := take(); c != nil {\n\t\tif bad {\n\t\t\treturn\n\t\t}\n\t\tgive(c)\n\t}\n\treturn", [(4, "returns")]),
    ("\tc, err := take()\n\tlog()\n\tif err != nil {\n\t\treturn\n\t}\n\tgive(c)", []),
    ("\tc, err := take()\n\terr = ask(c.end)\n\tif err != nil {\n\t\treturn\n\t}\n\tgive(c)", [(5, "returns")]),
]


def ways(source: str, begin: str = "take(") -> list[tuple[int, str]]:
    """The paths of a function that take something, at a line with this text, and don't give it back."""
    lines = tuple(source.split("\n"))
    found = skipped_paths(
        lines, range(1, len(lines)), lambda text: begin in text, lambda text: "give(" in text, lambda text: "keep(" in text
    )  # fmt: skip
    return [(path.number, path.does) for path in found]


@pytest.mark.parametrize("name, body, expected", SKIP)
def test_a_way_that_skips_it(name: str, body: str, expected: list[tuple[int, str]]) -> None:
    assert ways(FUNCTION % body) == expected


@pytest.mark.parametrize("name", GIVEN)
def test_no_way_skips_it(name: str) -> None:
    assert ways(FUNCTION % GIVEN[name]) == []


@pytest.mark.parametrize("body, expected", ROUNDS)
def test_the_rounds_of_a_loop(body: str, expected: list[tuple[int, str]]) -> None:
    assert ways(LOOP % body, "<-in") == expected


@pytest.mark.parametrize("body, expected", LOOPS)
def test_each_round_gives_back_what_it_took(body: str, expected: list[tuple[int, str]]) -> None:
    assert ways(f"func f() {{\n{body}\n}}\n") == expected


@pytest.mark.parametrize("body, expected", TRIES)
def test_what_may_not_have_been_taken(body: str, expected: list[tuple[int, str]]) -> None:
    assert ways(f"func f() {{\n{body}\n}}\n") == expected


def test_ways_in_words() -> None:
    source = FUNCTION % SKIP[-1][1]
    lines = tuple(source.split("\n"))
    found = skipped_paths(lines, range(1, len(lines)), lambda text: "take(" in text, lambda text: "give(" in text)
    assert paths_text("a.go", found) == "a.go:4 and a.go:7 return"
    assert paths_text("a.go", [found[0], found[1]._replace(does="goes on")]) == "a.go:4 returns and a.go:7 goes on"


@pytest.mark.parametrize(
    "text, pattern",
    [("\tp.put(c)", r"\bput\("), ("defer func() { <-p.slots }()", r"<-p\.slots(?![\w.])"), ("p.free <- c", r"p\.free <- "), ("x", "")],
)  # fmt: skip
def test_what_gives_something_back(text: str, pattern: str) -> None:
    assert pattern_of(text) == pattern


def first_cause(recording: Recording) -> str:
    """The first cause that nrdb shows for a recording, if the program's source exists and isn't newer than the
    recording."""
    recording.lines.written = float("inf")
    with in_the_folder_of_the_source(SKIPS):
        return "\n".join(first_words(recording, "skips")).split("\ncause:")[0]


@pytest.mark.parametrize("name", NAMES[SKIPS])
def test_the_first_cause_has_the_way(name: str) -> None:
    assert SAYS[name].format(bug=bug_line(name)) in first_cause(stored(f"{name}-bad"))


@pytest.mark.parametrize("name", NAMES[SKIPS])
def test_a_good_run_has_no_such_way(name: str) -> None:
    assert not SKIPPED.search(first_cause(stored(f"{name}-good")))


@pytest.mark.parametrize("name", NAMES[SKIPS])
def test_no_way_is_named_without_the_source(name: str) -> None:
    recording = stored(f"{name}-bad")
    recording.lines.written = 0
    assert not SKIPPED.search("\n".join(first_words(recording, "skips")))


def with_often(name: str, what: str, often: int) -> Recording:
    """A stored recording, with `often` added to the count of each use of the kind `what`."""
    recording = stored(f"{name}-bad")
    for uses in recording.lines.uses.values():
        uses[:] = [use._replace(often=use.often + often) if use.what == what else use for use in uses]
    return recording


def test_a_slot_that_was_given_back_isnt_kept() -> None:
    assert "on this way" not in first_cause(with_often("kept", TOOK, 9))


def test_a_timer_that_was_set_anew_isnt_silent() -> None:
    recording = stored("timed-bad")
    for timers in recording.lines.timers.values():
        timers.append(timers[-1]._replace(due=10**18))
    assert "set it anew" not in first_cause(recording)


def test_bytes_that_came_since_were_not_lost() -> None:
    recording = stored("swallowed-bad")
    recording.lines.peers.clear()
    assert "are lost" not in first_cause(recording)


def call_at(number: int, function: str, file: str) -> SourceCall:
    return SourceCall(f"main.{function}", file, number, OF_THE_PROGRAM)


WORKER = """\
package main

func (x *index) page(text string) {
	if text == "" {
		return
	}
	x.group.Done()
}

func (x *index) run() {
	for text := range x.pages {
		x.page(text)
	}
}
"""


def test_done_is_called_as_a_function_ends_at_its_last_line_alone(tmp_path: Path) -> None:
    file = str(tmp_path / "a.go")
    Path(file).write_text(WORKER, encoding="utf-8")
    recording = stored("kept-bad")
    recording.lines.written = float("inf")
    assert is_last_line(recording, call_at(4, "(*index).page", file), 7)
    assert not is_last_line(recording, call_at(11, "(*index).run", file), 12)
