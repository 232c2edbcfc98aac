"""Tests nrdb's answers about what happened, with netrev. The changes of a move's last step equal plain `print`s. Other
tests are about the owners of timers, `next`, `finish`, `until` with two conditions, `commands`, several commands in a
line, and groups of waiting goroutines."""

import json
import random
import re

from netrev.machine.observer import Observer
from netrev.model.program import replay
from netrev.text.vocabulary import CELLS
from tests.program.nrdb.common.support import EXAMPLES, ROOT, events, nrdb, nrdb_process, recordings, shown

AT = 6  # how many positions of each recording are tested
SEED = 20261127
HIJACKED = EXAMPLES / "real/hijacked.jsonl"
LOST = EXAMPLES / "lost-wakeup.jsonl"


def said(path, *lines):
    """The output for these lines, without the text before the first line."""
    words = [word for line in lines for word in ("-ex", line)]
    return nrdb("--batch", *words, path).split(f"(netrev) {lines[0]}\n", 1)[1]


def test_what_changed_is_what_print_shows():
    dice = random.Random(SEED)
    for path in recordings():
        world = shown(path)
        places = sorted({1, world.length, *(dice.randint(1, world.length) for _ in range(AT))})
        reports = events(path, [f"goto {at}" for at in places], beside=True)
        tables = [event["rows"] for event in reports if event.get("topic") == "changed"]
        assert len(tables) == len(places)
        for at, rows in zip(places, tables):
            before, now = world.at(at - 1), world.at(at)
            cells = [cell for cell in world.cells if cell.split()[0] in CELLS]
            right = sorted((cell, before[cell], now[cell]) for cell in cells if before[cell] != now[cell])
            assert sorted((row["cell"], row["old"], row["new"]) for row in rows) == right, (path.stem, at)


def test_whose_timer_is_run_and_who_set_it():
    count = 0
    for path in recordings():
        recording = shown(path).recording
        steps = [step for kind in ("pop", "fire") for step in recording.steps_of((kind,), recording.length)]
        if not steps:
            continue
        worlds = replay(path.read_bytes(), Observer()).worlds
        for step in steps[:3] + steps[-3:]:
            reports = events(path, [f"goto {step.number}"], beside=True)
            rows = next(event["rows"] for event in reports if event.get("topic") == "timer")
            row = next(row for row in rows if row["step"] == step.number)
            if step.kind == "pop":
                timer = worlds[step.number].firings[-1]
            else:
                timer = worlds[step.number - 1].firings[step.argument("i")]
            setting = recording.step(row["set_at"])
            assert (row["sides"], row["descriptor"], row["due"]) == (timer.covers, timer.desc, timer.when), (
                path.stem,
                step.number,
            )
            assert setting.kind == "setdeadline", (path.stem, step.number)
            assert (setting.argument("g"), setting.argument("d")) == (row["set_by"], row["descriptor"]), (
                path.stem,
                step.number,
            )
            count += 1
    assert count > 12


def test_is_one_line_and_names_what_is_new():
    assert "\n| changed: descriptor 0 is made\n" in said(LOST, "stepi 2")
    result = said(LOST, "watch rg 0", "goto 10", "continue")
    assert "| mark 1: rg 0: ready -> nil\n" in result
    assert "| changed: gor 0: swapping 0 r -> idle\n" in result  # (the mark has reported the word already)
    stale = EXAMPLES / "reused-descriptor.jsonl"
    number = next(step.number for step in shown(stale).recording.steps_of(("pollevent",), 99))
    assert "| changed: " in said(stale, f"goto {number}")


def test_calls_steps_and_errors():
    result = said(HIJACKED, "continue", "calls gor 2 3", "steps desc 2 2", "steps fire", "info errors")
    assert "gor 2    Read on socket 3: steps 169 to 195, waited 16 (2163709 ns), got 7 bytes" in result
    assert "gor 2    Write on socket 3: steps 196 to 198, timed out" in result
    assert "main.go:39 net.(*conn).Write\n" in result
    assert "|     202  pollclose 2 2" in result
    assert "186  fire 0" in result
    assert "(the write timer of descriptor 2, set at step 107 by goroutine 2)" in result
    assert result.split("info errors\n")[1].count(", timed out ") == 1
    assert "1 more are waits of Go's own code" in result


def test_a_goroutine_is_chosen_until_the_session_moves():
    hub = ROOT / "python/tests/caused/hub-bad.jsonl"
    result = said(
        hub,
        "continue",
        "info goroutines",
        "goroutine goid 21",
        "up",
        "bt",
        "goto 266",
        "goroutine",
        "goroutine 999",
        "goroutine x",
    )
    table, chosen, up, where, moved, last, missing, misused = result.split("(netrev) ")[1:]
    assert re.search(
        r"\| goid 21 +waits for a mutex; main.go:54 sync.\(\*Mutex\).Lock since step \d+; started at main.go:\d+\n",
        table,
    )
    assert re.search(r"\| gor 2 +idle +sleeps; main.go:107 time.Sleep since step 88; started at main.go:91\n", table)
    assert "| goid 21: waits for a mutex since step" in chosen
    assert re.search(r"\* main.go:54 +main.\(\*room\).join\n\|   \* main.go:68 +main.\(\*room\).serve\n", chosen)
    assert re.search(r"\| frame \d: main.\(\*room\).join at main.go:54\n", chosen)
    assert re.search(r"\| frame \d: main.\(\*room\).serve at main.go:68\n", up)
    assert "| goid 21: waits for a mutex since step" in where
    assert "| goroutine 5: in Write on socket 3 since step 266, at main.go:63" in last
    assert "| goroutine 999 has no step and no wait up to position 266" in missing
    assert "N is a number" in misused


def test_next_and_finish_go_by_calls():
    lines = ["goto 186", "finish 2", "next", "reverse-next", "goto 171", "next", "reverse-finish"]
    stops = [event["position"] for event in events(HIJACKED, lines) if event["event"] == "place"]
    own = [step for step in range(172, 196) if shown(HIJACKED).recording.step(step).argument("g") == 2]
    assert stops == [186, 195, 198, 195, 171, own[0], 168]


def test_until_takes_two_conditions():
    values = shown(HIJACKED).series(["gor 2", "wd 2"])
    holds = [gor == "idle" and wd == "-1" for gor, wd in zip(values["gor 2"], values["wd 2"])]
    changes = [p for p in range(1, len(holds)) if any(item[p] != item[p - 1] for item in values.values()) and holds[p]]
    reports = events(HIJACKED, ["until gor 2 idle and wd 2 -1", "continue", "reverse-until wd 2 = -1 && gor 2 idle"])
    stops = [event["position"] for event in reports if event["event"] == "place"]
    assert stops == [changes[0], shown(HIJACKED).length, changes[-1]]
    assert "| no later step gives gor 2 the value owing* and wd 2 the value -1\n" in said(
        HIJACKED, "until gor 2 owing* and wd 2 -1"
    )


def test_commands_run_where_their_mark_hits():
    lines = [
        "watch wd 2",
        "commands",
        "print gor 2",
        "print wd 2",
        "end",
        "info breakpoints",
        "continue",
        "continue",
    ]
    result = said(HIJACKED, *lines)
    assert "1 watch wd 2\n| mark 1 runs: print gor 2; print wd 2\n" in result
    assert result.count("(netrev) print wd 2\nwd 2 = ") == 2
    assert "wd 2 = 45061869\n" in result
    again = said(HIJACKED, "watch wd 2", "commands 1; print wd 2; continue; end", "continue")
    assert again.count("(netrev) print wd 2\nwd 2 = ") == 3  # (each stop continues to the next one)
    assert "at 216 end\n" in again
    assert "| commands [N]: " in said(HIJACKED, "commands 7")


def test_several_commands_in_a_line():
    result = said(LOST, "goto 17; print rg 0", "stepi; quit; stepi")
    assert [line for line in result.splitlines() if line[0] not in "|("] == [
        "at 17",
        "rg 0 = ready   | an event came that nobody has taken",
        "at 18",
        "bye",
    ]


def test_words_that_are_wrong_are_told():
    for line in (
        "steps",
        "steps gor",
        "steps jump",
        "calls gor 1 0",
        "info errors no",
        "next x",
        "finish 0",
        "until rg 0 and",
    ):
        result = said(LOST, line)
        assert result.startswith("| "), (line, result)
        assert len(result.splitlines()) == 1, result


def test_many_that_wait_for_the_same_are_one_row(folder):
    steps = (
        [["spawn"]] * 29 + [["sockopen", 8, 8]] * 21 + [["pollopen", 0, s] for s in range(21)] + [["rwlock", 0, 0, "r"]]
    )
    steps += [step for g in range(1, 10) for step in (["rwlock", g, 0, "r"], ["acquire", g])]
    for s, g in enumerate(range(10, 30), 1):
        steps += [["waitbegin", g, s, "r"], ["blockarm", g], ["blockcheck", g], ["parkcommit", g]]
    steps += [["arrive", 3, "6869"]]
    header = {"netrev": 1, "gor": 30, "sock": 21, "desc": 21, "buf": 8}
    path = folder / "many.jsonl"
    path.write_text("".join(f"{json.dumps(line)}\n" for line in [header, *steps]))
    result = said(path, "continue", "info goroutines")
    every = events(path, ["continue", "info goroutines all"])[-1]["rows"]
    since = 29 + 21 + 21 + 1
    assert (
        f"| 9 queued for socket 0's read lock, which goroutine 0 has since step {since}: goroutines 1 to 9\n" in result
    )
    assert "| 19 parked for reading; no deadline: goroutines 10 to 11, 13 to 29\n" in result
    assert "| gor 12   parked 3 r " in result
    assert len(every) == 30


def test_no_colours_where_it_is_no_terminal():
    result, errors, status = nrdb_process("--batch", "-ex", "info suspects", LOST)
    assert (errors, status) == ("", 0)
    assert "\x1b" not in result
