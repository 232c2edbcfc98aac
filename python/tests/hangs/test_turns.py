"""Programs in which a goroutine doesn't do what another goroutine waits for, in recordings of tools/go/samples/turns
(made by tests.trials.go_caused): the output has the line of the bug with its reason, and nothing for runs without the
bug."""


import re

from netrev.findings.causes.first_output import first_words
from netrev.findings.causes.tables import hangs_table
from netrev.recording.recording import Recording
from tests.failed_calls.test_causes import CAUSED, in_the_folder_of_the_source
from tests.trials.go_caused import NAMES, TURNS, bug_line, source_of

# The expected text, by name; {} is the line of the bug.
REASONS = {
    "doubled": (
        r"^Calls gave back more than they took: goroutine 0 took 3 values there at main.go:\d+ in borrow and put 3 back \(2 at main.go:\d+ in "
        r"borrow.func1, 1 at {} in borrow\); it waits to give one more back\.$",
    ),
    "ring": (
        r"^Perhaps a deadlock: two goroutines each hold a mutex for which another of them waits, and 3 goroutines more wait for them\.$",
        r"^Goroutine \d+ waits at {} in move, .* for a mutex since step \d+; perhaps goroutine \d+ holds it, locked at main.go:\d+\.$",
    ),
    "undone": (
        r"^All 3 goroutines started at main.go:\d+ have ended\.$",
        r"^Perhaps goroutine \d+ ended without Done; only the others passed .* in ask.*; its Dial at {} in \(\*survey\).visit, .* failed",
    ),
    "unflushed": (
        r"^Read at main.go:\d+ in unflushed.func1, called at {} \(goroutine 0\) waits on socket \d+ since",
        r"^Before each of its 3 answers there goroutine 0 wrote; since the last of them it has written nothing: .*Perhaps the request is still in",
    ),
    "longer": (
        r"^It asked for 14 bytes and has 12: Write at main.go:\d+ in send, called at {} \(goroutine 0\), the last there, put 14 bytes, and all of "
        r"them are read\. 2 bytes more must come\.$",
    ),
    "queued": (
        r"^Read at main.go:\d+ in echo, called at {} \(goroutine 1\) waits",
        r"; goroutine 1, which accepts at main.go:\d+ in queued.func1, hasn't accepted its connection\.$",
    ),
    "dropped": (
        r"^Read at {} in dropped \(goroutine 0\) waits",
        r"^Perhaps its request, Write at .*, was read by Read at .* in dropped.func1 \(goroutine 1\) in step \d+\. That goroutine has written there "
        r"3 times before; now it reads on since step \d+, without an answer\.$",
        r"^No deadline was set for reading at socket 1",
    ),
    "limited": (
        r"^The request at {} in limited \(goroutine 0\), on socket \d+ since step \d+, ended because its client's Timeout passed \(step \d+\)\.$",
        r"^It counts from the call at {} in limited \(step \d+\), 80 ms earlier\.$",
        r"^Goroutine \d+, which serves the request, slept at main.go:\d+ in limited.func1 for 160 ms\.$",
    ),
    "cancelled": (
        r"^Goroutine \d+ had found a context cancelled at {} in open, called at main.go:\d+ \(goroutine 0, step \d+\), as that function returned\.$",
    ),
    "expired": (
        r"^Read at main.go:\d+ in ask, called at main.go:\d+ \(goroutine 0\) met the end of the stream\.$",
        r"^Its deadline was set at {} in expired.func1, .* 80 ms ahead\.$",
        r"^Write at main.go:\d+ in ask, .* came after the other end was closed, in step \d+: nobody read it\.$",
    ),
    "stays": (
        r"^Perhaps a deadlock: two goroutines wait for one another\.$",
        r"^Goroutine 0 waits at {} in \(\*relay\).stop, .*; perhaps for goroutine \d+, which calls Done at main.go:\d+ as it ends\.$",
    ),
    "uncounted": (
        r"^Goroutine \d+, started at main.go:\d+, ended without putting a value there; 2 others of that go statement did; only it passed {} in work",
    ),
    "overdue": (
        r"^Its deadline was set at {} in overdue.func1, ",
        r"^It had passed before the Write began\. Before that, its goroutine slept at main.go:\d+ in overdue.func1, .* for 160 ms\.$",
    ),
}


def output_of(name: str, kind: str) -> list[str]:
    """The first output, without the line that suggests a command."""
    recording = Recording.read(str(CAUSED / f"{name}-{kind}.jsonl"))
    recording.lines.written = float("inf")  # (a clone's files are newer than the recording)
    with in_the_folder_of_the_source(source_of(name)):
        lines = first_words(recording, name)
    return [line.removeprefix("cause:").strip() for line in lines if not line.startswith("next:")]


def test_each_bug_is_named_with_its_reason() -> None:
    assert set(REASONS) == set(NAMES[TURNS])
    for name, reasons in REASONS.items():
        text = output_of(name, "bad")
        for reason in reasons:
            assert re.search(f"(?m){reason.replace('{}', bug_line(name))}", "\n".join(text)), (name, reason)


def test_of_good_runs_nothing_is_said() -> None:
    """The first output of good runs is empty, except for the Dial that must fail."""
    for name in REASONS:
        assert len(output_of(name, "good")) == (2 if name == "undone" else 0), name
    assert re.search(r"^Dial at .* failed: socket \d+ was never connected\.$", output_of("undone", "good")[0])


def test_they_hang_only_as_long_as_that_is_so() -> None:
    """At an earlier position these hangs have no such reason."""
    for name in ("doubled", "undone", "uncounted", "stays"):
        recording = Recording.read(str(CAUSED / f"{name}-bad.jsonl"))
        words = "\n".join(row.text for row in hangs_table(recording, 10).rows)
        assert not re.search("gave back more|without Done|without putting|calls Done", words), name
