"""nrdb without a terminal: lines from -x, -ex and the input, lines of JSON, and the exit statuses, which are
netrev's."""

import json
import subprocess

from .common.support import EXAMPLES, NETREV, NRDB, events, netrev, nrdb, nrdb_process, recordings

FIRST = EXAMPLES / "first.jsonl"


def test_replies_are_those_of_netrev():
    for path in recordings():
        script = path.with_suffix(".script")
        if not script.exists():
            continue
        lines = script.read_text().splitlines()
        reports = [event for event in events(path, lines) if event["event"] == "reply"]
        assert [event["line"] for event in reports] == lines, path.stem
        assert [line for event in reports for line in event["reply"]] == netrev(path, lines), path.stem


def test_what_is_added_begins_with_a_bar():
    for path in recordings():
        script = path.with_suffix(".script")
        if script.exists():
            output = nrdb("--batch", "-x", script, path).splitlines()
            plain = [line.split("   | ")[0] for line in output if not line.startswith(("| ", "(netrev) "))]
            assert plain == [
                *netrev(path, ["info position"]),
                *netrev(path, script.read_text().splitlines()),
            ], path.stem


def test_what_cannot_be_printed_or_reached_is_a_sentence():
    for words in (["--batch", "-ex", "where"], ["--json"], ["--suspects"]):
        with open("/dev/full", "w", encoding="ascii") as full:
            ended = subprocess.run(
                [NRDB, "--netrev", NETREV, *words, FIRST],
                stdin=subprocess.DEVNULL,
                stdout=full,
                stderr=subprocess.PIPE,
                check=False,
            )
        assert (ended.returncode, ended.stderr) == (3, b"nrdb: standard output: No space left on device\n")
    for host, status in (
        ("127.0.0.1:\u00b2", 2),
        ("127.0.0.1:65536", 2),
        ("x" * 300 + ":80", 3),
        ("127.0.0.1:1", 3),
    ):
        output, errors, ended = nrdb_process("--join", host, FIRST)
        assert ended == status, host
        assert "Traceback" not in errors
    for option in ("--timeline", "--trace", "--reduce"):
        assert nrdb_process(option, "", FIRST)[2] == 3, option


def test_a_file_of_lines_that_cannot_be_used_is_told_and_left(folder):
    path = folder / "first.jsonl"
    path.write_bytes(FIRST.read_bytes())
    path.with_suffix(".where").write_text("[" * 200_000)
    output = nrdb("--batch", "-ex", "where", path).splitlines()
    assert output[2][:60] == "| first.where isn't used: line 1 is malformed. The recording works"[:60]
    assert output[3] == "(netrev) where"
    path.with_suffix(".where").unlink()
    assert nrdb("--batch", "-ex", "where", path).splitlines() == output[:2] + output[3:]


def test_files_and_lines_are_taken_in_order(folder):
    file = folder / "lines"
    file.write_text("stepi 2\n\n# not a command\nstepi\n")
    output = nrdb("--batch", "-ex", "stepi", "-x", file, "-ex", f"source {file}", FIRST)
    replies = [line for line in output.splitlines() if line.startswith("at ")]
    assert replies == ["at 0 of 10 forward", "at 1", "at 3", "at 4", "at 6", "at 7"]


def test_a_file_that_takes_itself_ends(folder):
    file = folder / "lines"
    file.write_text(f"source {file}\nstepi\n")
    output = nrdb("--batch", "-x", file, FIRST)
    assert "nested more than 8 deep" in output
    assert "at 8\n" in output


def test_quit_ends_it_wherever_it_stands(folder):
    file = folder / "lines"
    file.write_text("stepi\nquit\nstepi\n")
    output = nrdb("-x", file, "-ex", "stepi", FIRST, lines=["stepi"])
    assert [line for line in output.splitlines() if not line.startswith(("|", "(netrev)"))][1:] == ["at 1", "bye"]


def test_lines_of_json():
    output = [json.loads(line) for line in nrdb("--json", FIRST, lines=["si 4", "list 2", "nonsense"]).splitlines()]
    assert [event.get("topic", event["event"]) for event in output] == [
        "reply",
        "place",
        "reply",
        "place",
        "changed",
        "list",
        "reply",
        "note",
        "end",
    ]
    last = {"number": 4, "line": 5, "kind": "incref", "arguments": [0, 0], "answer": None}
    following = {"number": 5, "line": 6, "kind": "rwlock", "arguments": [0, 0, "r"], "answer": None}
    assert output[3] == {"event": "place", "position": 4, "steps": 10, "last": last, "next": following}
    assert output[4]["rows"] == [{"cell": "lock 0", "old": "0", "new": "8"}]
    assert output[5]["rows"][0] == {"step": 1, "line": 2, "does": "spawn", "next": False}
    assert output[-1] == {"event": "end", "status": 0}


def test_other_words_have_status_2():
    for words in ((), ("--nonsense",), (FIRST, FIRST), ("--join", "nonsense")):
        output, error, status = nrdb_process(*words)
        assert (output, status) == ("", 2), words
        assert "usage: nrdb" in error


def test_statuses_and_streams_of_the_process(folder):
    assert nrdb_process(FIRST, lines=["quit"])[1:] == ("", 0)
    bad = folder / "bad.jsonl"
    bad.write_text("[]\n")
    output, error, status = nrdb_process(bad)
    assert (output.splitlines()[0], error, status) == ("line 1: fault 101 header", "", 1)
    assert nrdb_process(f"{bad}.none")[1:] == ("", 3)


def test_bytes_that_are_no_text_are_written_out():
    words = [NRDB, "--netrev", NETREV, str(FIRST)]
    ended = subprocess.run(words, input=b"print \xff\n\xff\n", capture_output=True, timeout=60, check=True)
    assert ended.stderr == b""
    assert [line for line in ended.stdout.split(b"\n") if line.startswith(b"(")] == [
        rb"(netrev) print \xff",
        rb"(netrev) \xff",
    ]
    assert ended.stdout.count(b"fault 20") == 2


def test_an_output_that_nobody_reads_ends_it():
    words = [NRDB, "--netrev", NETREV, str(FIRST)]
    with subprocess.Popen(words, stdin=subprocess.PIPE, stdout=subprocess.PIPE, stderr=subprocess.PIPE) as process:
        assert process.stdin and process.stdout and process.stderr
        process.stdout.close()
        process.stdin.write(b"help\n" * 10)
        process.stdin.close()
        assert (process.wait(60), process.stderr.read()) == (3, b"")
