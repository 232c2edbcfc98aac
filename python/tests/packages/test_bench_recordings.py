"""The recordings of the benchmark: the same steps with different limits, and runs of servers in version 1; and the
counts of system calls."""

import json
from pathlib import Path

from dev.bench.measurements import WRITES
from dev.bench.programs import ROOT
from dev.bench.recordings import BenchRecording, of_shape
from dev.bench.servers import plain_lines
from netrev.text.parser import read_text

STEPS = 40
TABLE = """% time     seconds  usecs/call     calls    errors syscall
------ ----------- ----------- --------- --------- ----------------
 97.66    0.000543           3       157           read
  2.34    0.000013           0       127         2 write
------ ----------- ----------- --------- --------- ----------------
100.00    0.000556           1       284           total
"""


def lines(recording: BenchRecording) -> list[bytes]:
    return recording.file.read_bytes().splitlines()


def test_the_same_steps_behind_a_header_with_more_room(folder: Path) -> None:
    for shape, gor, desc in (("mix", 2, 239), ("waits", 64, 239), ("locks", 2, 239)):
        header, *steps = lines(of_shape(folder, shape, STEPS, 239))
        assert json.loads(header) == {"netrev": 1, "gor": gor, "sock": 239, "desc": desc, "buf": 65_536}, shape
        assert steps == lines(of_shape(folder, shape, STEPS))[1:], shape


def test_descriptors_of_the_shape_keep_their_room(folder: Path) -> None:
    header, *_ = lines(of_shape(folder, "waits", STEPS, 16))
    assert [json.loads(header)[key] for key in ("sock", "desc")] == [16, 64]


def test_a_recorded_run_without_answers_is_one_of_version_1() -> None:
    for name in ("hung", "half"):  # (the second has a CloseWrite)
        text = (ROOT / f"examples/real/{name}.jsonl").read_text(encoding="ascii")
        recorded, plain = read_text(text.encode()), read_text("\n".join(plain_lines(text)).encode())
        assert (plain.version, plain.limits) == (1, recorded.limits), name
        assert plain.steps == [step for step in recorded.steps if step[0] != "closewrite"], name


def test_a_walk_goes_there_and_back() -> None:
    lines = BenchRecording("mix", Path("mix.jsonl"), 250).parts["walk"]
    moves = [line for line, reply in lines if reply]
    assert moves[:3] == ["stepi 100", "stepi 100", "stepi 50"]
    assert moves[3:] == ["reverse-stepi 50", "reverse-stepi 100", "reverse-stepi 100"]
    assert lines.count(("print lock 0", None)) == len(moves)


def test_the_calls_of_strace_s_table() -> None:
    found = WRITES.search(TABLE)
    assert (found and found[1]) == "127"
