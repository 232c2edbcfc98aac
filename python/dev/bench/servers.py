"""Runs of servers, recorded when the benchmark runs: they are Go's own tests of a package, all in one process, so that
a recording has many open sockets. Go is the `go` on the PATH."""

import json
from pathlib import Path

from dev.races.explored import recorded
from dev.recorder.building import built, source_folder
from dev.recorder.suites import Suite
from netrev.errors import NetrevError
from netrev_go.go_command.toolchain import Go, RecorderError, find_go

from .recordings import BenchRecording

PROCESSORS = 4
SUITES = (Suite("net/rpc"), Suite("net/http", "^(TestServe|TestTransportKeepAlives|TestTransportMax|TestClient)"))
ONLY_IN_TWO = ("closewrite",)  # kinds of steps that version 1 doesn't have


class UnrecordedError(NetrevError):
    """Raised if a recording couldn't be made; the message is the reason."""


def plain_lines(text: str) -> list[str]:
    """A recording of version 2 rewritten as version 1, in the spelling of `bench/shapes.awk`, because the baseline
    reads no other spelling. Answers, and steps of kinds that version 1 doesn't have, are omitted."""
    header, *steps = map(json.loads, text.splitlines())
    kept = [step[:-1] for step in steps if step[0] not in ONLY_IN_TWO]
    return [json.dumps(line, separators=(",", ":")) for line in (header | {"netrev": 1}, *kept)]


def of_server(go: Go, suite: Suite, folder: Path) -> BenchRecording:
    """The recording of a package's tests."""
    program = built(go, suite, folder)
    if program is None:
        raise UnrecordedError(f"the tests of {suite.package} aren't built")
    name = folder.resolve() / f"{suite.package.replace('/', '_')}.jsonl"
    command = [str(program), "-test.run", suite.tests, "-test.short", "-test.timeout=60s"]
    run = recorded(go, command, source_folder(go, suite), PROCESSORS, name)
    program.unlink()
    if run.recording is None:
        raise UnrecordedError(f"the tests of {suite.package} left no recording")
    lines = plain_lines(run.recording.read_text(encoding="ascii"))
    sockets = json.loads(lines[0])["sock"]
    plain = run.recording.with_suffix(".1.jsonl")
    plain.write_text("".join(f"{line}\n" for line in lines), encoding="ascii")
    return BenchRecording(f"tests of {suite.package}, {sockets} sockets", plain, len(lines) - 1)


def of_servers(folder: Path) -> tuple[list[BenchRecording], list[str]]:
    """The recordings that could be made, and the reasons why the other recordings are missing."""
    try:
        go = find_go()
    except RecorderError as trouble:
        return [], [f"no runs of servers: {trouble}"]
    found, missing = [], []
    for suite in SUITES:
        try:
            found.append(of_server(go, suite, folder))
        except (OSError, RecorderError, UnrecordedError) as why:
            missing.append(f"no run of {suite.package}: {why}")
    return found, missing
