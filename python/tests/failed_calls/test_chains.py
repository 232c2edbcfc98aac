"""Resources that were left open, locked or unflushed, in recordings of tools/go/samples/chains (made by
tests.trials.go_caused): the first cause names the line with the reason, and no cause of the good run does. Pieces of
source test the exceptions to the rules."""

import re
from pathlib import Path

import pytest

from netrev.findings.causes.first_output import first_words
from netrev.findings.evidence.need import Need
from netrev.findings.evidence.waiters import Waiter
from netrev.findings.hangs.chains import is_elsewhere, is_still_so
from netrev.findings.pools.left_sockets import only_uses
from netrev.findings.pools.made_channels import is_local
from netrev.recording.call import Outcome
from netrev.recording.goroutines import A_VALUE, FOR_VALUE, PUT, TOOK, At
from netrev.recording.recording import Recording
from netrev.recording.waits import Name, ObjectWait
from netrev.recording.where import OF_THE_PROGRAM, SourceCall, Stack
from netrev.run.index import run_of
from tests.hangs.test_needs import stored, use
from tests.trials.go_caused import CHAINS, NAMES, bug_line

from .test_causes import TWO_ENDS, in_the_folder_of_the_source, with_lines

# For each program: the text of the first cause, in which {bug} stands for the line of the bug, and the reason, which
# doesn't occur in good runs.
SAYS = {
    "probed": ("Perhaps it was left open on this way: {bug} returns without a Close.", "is still open"),
    "looped": ("It is closed only as pollAll returns: the defer at {bug} is in a loop.", "is still open"),
    "callback": ("It is still in (*peer).run, at {bug}.", "Perhaps it waits for itself: 14 bytes of Write at"),
    "abandoned": ("Goroutine 2 locked it at main.go:228 in (*meter).count", "in abandoned.func1, without unlocking it."),
    "readers": ("in (*table).row, called at {bug} for a mutex", "waits to lock it for writing, and goes first."),
    "copied": ("it is a copy of a mutex that was locked as it was copied.", "No goroutine has locked it."),
    "withdrawn": ("Its context had been cancelled at {bug} in withdrawn (goroutine 0,", "failed: cancelled."),
    "remembered": ("Dial at {bug} in (*lazy).conn.func1", "That was in a sync.Once, which calls its function once alone"),
    "refused": ("Dial at {bug} in refused (goroutine 0, step", "was never connected (ECONNREFUSED, 127.0.0.1:"),
    "shortened": ("Read at main.go:424 in shortened", "The body ended before its Content-Length: the server closed"),
    "fanned": ("{bug} in firstOf made that channel, without room for a value, and has returned, by", "for a receiver at a channel"),
    "latecomer": ("nobody took it: fastest had returned, by {bug}.", "1 goroutine put a result into a channel that"),
    "handshake": ("was in Read at {bug} in accept", "Nobody has accepted its connection: goroutine 1, which accepts at"),
    "panicked": ("left (*pages).show without the Done at {bug}, which isn't deferred", "a panic passes by it"),
    "lengthy": ("whose last was Read at {bug} in lines", "Perhaps a line was too long: a bufio.Scanner gives up"),
    "duplicated": ("Perhaps a second descriptor of it is open, as {bug} makes it", "and the end of the stream didn't come."),
    "shared": ("started at {bug}, all accept at the same one, socket 2.", "Nobody has called Accept at the listener, socket 1."),
}  # fmt: skip


def causes_of(recording: Recording) -> list[str]:
    """The causes in a recording of one of the programs, each with its tree."""
    recording.lines.written = float("inf")
    with in_the_folder_of_the_source(CHAINS):
        return "\n".join(first_words(recording, "chains")).split("\ncause:")


def test_each_program_has_its_words() -> None:
    assert tuple(SAYS) == NAMES[CHAINS]


@pytest.mark.parametrize("name", NAMES[CHAINS])
def test_the_first_cause_has_the_line_and_the_reason(name: str) -> None:
    line, reason = (says.format(bug=bug_line(name)) for says in SAYS[name])
    first = causes_of(stored(f"{name}-bad"))[0]
    assert line in first
    assert reason in first


@pytest.mark.parametrize("name", NAMES[CHAINS])
def test_no_cause_of_a_good_run_has_the_reason(name: str) -> None:
    _, reason = SAYS[name]
    assert not any(reason in cause for cause in causes_of(stored(f"{name}-good")))


def test_the_limit_of_a_context_had_passed() -> None:
    first = causes_of(stored("handshake-bad"))[0]
    sentence = r"the limit of a context, 200 ms, had passed since that was made at main\.go:\d+ in handshake \(goroutine 0, step \d+\)\."
    assert re.search(rf"context\.AfterFunc called that as its context ended: {sentence}", first)
    assert "had cancelled it" not in first


@pytest.mark.parametrize(
    "what, position, is_so", [(PUT, 0, False), (PUT, 1, True), (TOOK, 0, True)]
)  # fmt: skip
def test_what_was_put_into_a_channel_later_counts_not_yet(what: str, position: int, is_so: bool) -> None:
    recording = with_lines(TWO_ENDS)
    recording.lines.uses[1] = [use(7, what, 0)]  # after step 1
    wait = ObjectWait(Name(0), 0, None, A_VALUE, Stack((), None), None, (At(1, FOR_VALUE),))
    waiter = Waiter(wait.name, 0, wait.stack, None, wait)
    assert is_still_so(run_of(recording), waiter, position) is is_so


def test_a_goroutine_that_used_the_other_end_and_waits_at_another_connection_is_elsewhere() -> None:
    index = run_of(stored("probed-bad"))
    failed = next(call for call in index.calls if call.outcome is Outcome.TIMED_OUT)
    other = next(call for call in index.calls if call.socket not in (failed.socket, index.other_end(failed.socket)))
    used, opened = "{by} wrote to the other end last", "perhaps {by} should use the other end"
    for call, how, is_so in ((other, used, True), (failed, used, False), (other, opened, False)):
        waiter = Waiter(Name(call.goroutine), call.first, Stack((), None), call)
        assert is_elsewhere(index, failed, waiter, Need([], waiter.name, how)) is is_so


USERS = """\
package main

func ask(end net.Conn, line string) (string, error) {
	fmt.Fprintln(end, line)
	return bufio.NewReader(end).ReadString('\\n')
}

func finish(end net.Conn) {
	end.Close()
}

func keep(name string, end net.Conn) {
	kept[name] = end
}

func hand(end net.Conn) {
	go echo(end)
}

func pass(end net.Conn) {
	keep("it", end)
}

func run(each func(name, line string), end net.Conn) {
	kept["it"] = end
}
"""


@pytest.mark.parametrize(
    "function, place, is_so",
    [("ask", 0, True), ("finish", 0, False), ("keep", 1, False), ("hand", 0, False), ("pass", 0, False), ("run", 1, False), ("unknown", 0, False), ("ask", 2, False)],
)  # fmt: skip
def test_functions_that_only_use_a_connection(tmp_path: Path, function: str, place: int, is_so: bool) -> None:
    file = tmp_path / "a.go"
    file.write_text(USERS, encoding="utf-8")
    recording = stored("probed-bad")
    recording.lines.written = float("inf")
    assert only_uses(recording, str(file), function, place) is is_so


@pytest.mark.parametrize(
    "line, is_so",
    [("return <-answers", True), ("return answers", False), ("return first, answers", False), ("s.answers = answers", False),
     ("all = append(all, answers)", False), ("first := <-answers", True), ("hub{answers: answers}", False)],
)  # fmt: skip
def test_channels_of_a_function_alone(tmp_path: Path, line: str, is_so: bool) -> None:
    file = tmp_path / "a.go"
    file.write_text(f"func first() string {{\n\tanswers := make(chan string)\n\t{line}\n}}\n", encoding="utf-8")
    recording = stored("fanned-bad")
    recording.lines.written = float("inf")
    source_call = SourceCall("main.first", str(file), 2, OF_THE_PROGRAM)
    assert is_local(run_of(recording), source_call) is is_so


def edited(recording: Recording, folder: Path, line: str, new: str) -> str:
    """The first output for a recording with a changed line in its program's source."""
    source = CHAINS.read_text(encoding="utf-8")
    assert source.count(line) == 1
    folder.mkdir()
    (folder / "main.go").write_text(source.replace(line, new), encoding="utf-8")
    recording.lines.written = float("inf")
    with pytest.MonkeyPatch.context() as patch:
        patch.chdir(folder)
        return "\n".join(first_words(recording, "chains"))


@pytest.mark.parametrize(
    "name, line, new",
    [
        ("probed", 'text, err := ask(end, "ready")', 'text, err := keep(end, "ready")'),
        ("fanned", "return <-answers\n", "return take(answers)\n"),
        ("panicked", "p.requests.Done() // BUG panicked", "defer p.requests.Done()"),
    ],
)
def test_without_its_line_the_source_says_nothing(tmp_path: Path, name: str, line: str, new: str) -> None:
    says = SAYS[name][0].format(bug=bug_line(name))
    assert says in edited(stored(f"{name}-bad"), tmp_path / "whole", "package main\n", "package main\n")
    assert says not in edited(stored(f"{name}-bad"), tmp_path / "edited", line, new)
