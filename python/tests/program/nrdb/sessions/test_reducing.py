"""`reduce` and `report`: netrev accepts the result; it shows the same suspect or value, and doesn't grow when reduced
again; and NAME.where is written beside it."""

import re
from pathlib import Path
from typing import Any

import pytest

from dev.fuzz.generators.injections import Bug, Traffic
from netrev.findings.suspects.ranking import suspects_of
from netrev.findings.suspects.suspect import Suspect
from netrev.recording.recording import Recording
from netrev.timeline.page_contents import MOST as MOST_IN_A_PAGE
from tests.program.nrdb.common.support import EXAMPLES, HUNTS, ROOT, netrev, nrdb
from tests.program.nrdb.pages.test_timeline import data_in
from tests.program.nrdb.test_suspects import checked
from tests.support.examples import KNOWN

# a little more than the smallest sizes that were reached
MOST = {
    "hunts/blocked-control": 20,
    "hunts/extended-deadline": 24,
    "hunts/hijacked-deadline": 48,
    "hunts/missed-release": 48,
    "real/past": 21,
    "real/lost": 12,
    "real/leak": 22,
    "real/half": 20,
    "real/hijacked": 20,
}
LENGTH = 1_500
KINDS_LEFT_BEHIND = ["setdeadline", "setdeadline", "fire", "pollreset"]  # the suspect's steps in real/hijacked
# the seeds of runs of this length in which the planted bug occurs and is found
SEEDS = {
    Bug.RELEASE: 700,
    Bug.IDLE: 700,
    Bug.GONE: 700,
    Bug.NO_EVENT: 704,
    Bug.OLD_TAG: 704,
    Bug.TAKEN_BACK: 703,
    Bug.NO_TRY: 700,
    Bug.LEFT_BEHIND: 702,
    Bug.LOCK: 700,
    Bug.NOT_EVICTED: 701,
}


def first_of(recording: Recording) -> Suspect:
    """The first suspect of a recording."""
    return suspects_of(recording).suspects[0]


def reduced(folder: Path, path: Path, *words: str) -> Recording:
    """Reduces a recording, and checks that netrev accepts the result, which has the reported length."""
    out = folder / f"{path.stem}-less.jsonl"
    output = nrdb("--batch", "-ex", " ".join(("reduce", str(out), *words)), path)
    left = Recording.read(str(out))
    assert f"{out}: {left.length} of {Recording.read(str(path)).length} steps, accepted by netrev; " in output
    assert checked(out) == f"ok {left.length} steps\n"
    return left


@pytest.mark.parametrize("name, rule", KNOWN.items())
def test_the_suspect_of_each_example_is_still_the_first(folder: Path, name: Any, rule: Any) -> None:
    path = EXAMPLES / f"{name}.jsonl"
    whole, left = Recording.read(str(path)), reduced(folder, path)
    before, now = first_of(whole), first_of(left)
    assert (before.rule, now.rule) == (rule, rule)
    assert now.weight >= before.weight
    assert left.has_answers == whole.has_answers
    assert left.length <= min(MOST.get(name, whole.length), whole.length)


@pytest.mark.parametrize("name", ["hunts/missed-release", "real/past", "reused-descriptor"])
def test_reduced_again_it_does_not_grow(folder: Path, name: str) -> None:
    once = reduced(folder, EXAMPLES / f"{name}.jsonl")
    twice = reduced(folder, folder / f"{Path(name).name}-less.jsonl")
    assert twice.length <= once.length
    assert first_of(twice).rule == first_of(once).rule


def test_planted_bugs_are_kept_and_traffic_goes(folder: Path) -> None:
    assert set(SEEDS) == set(Bug)
    for bug, seed in SEEDS.items():
        path = folder / f"{bug.name}.jsonl"
        path.write_bytes(Traffic(seed, bug, LENGTH).run().text())
        before, left = first_of(Recording.read(str(path))), reduced(folder, path)
        assert first_of(left).rule == before.rule, bug.value
        assert left.length < 50, bug.value


@pytest.mark.parametrize("words, shown", [("gor 14 owing*", r"owing \d+ 0 1"), ("gor 3 parked*", r"parked \d+ [rw]")])
def test_a_cell_has_the_value_at_the_end(folder: Path, words: str, shown: str) -> None:
    left = reduced(folder, HUNTS / "missed-release.jsonl", *words.split())
    looks = [f"print gor {number}" for number in range(left.limits["gor"])]
    path = folder / "missed-release-less.jsonl"
    values = [reply.split(" = ")[1] for reply in netrev(path, ["continue", *looks])[1:]]
    assert any(re.fullmatch(shown, value) for value in values), values
    assert left.length < 60


def test_the_lines_of_the_program_go_with_their_steps(folder: Path) -> None:
    path = EXAMPLES / "real/hijacked.jsonl"
    nrdb("--batch", "-ex", f"report {folder / 'bug.md'}", path)
    text = (folder / "bug.md").read_text()
    whole, left = Recording.read(str(path)), Recording.read(str(folder / "bug.jsonl"))
    pairs = [(int(new), int(old)) for new, old in re.findall(r"^\| (\d+) \| (\d+) \|", text, re.MULTILINE)]
    assert [new for new, _ in pairs] == list(range(1, left.length + 1))
    for new, old in pairs:
        assert left.step(new).kind == whole.step(old).kind
        assert left.lines.of(new) == whole.lines.of(old)
    assert "main.go:34" in text
    assert "[bug.html](bug.html)" in text
    page = data_in((folder / "bug.html").read_text())
    assert (page["name"], page["first"], page["last"]) == ("bug.jsonl", 0, left.length)
    assert {"Write", "timed out"} <= set(page["calls"]["texts"])
    (suspect,) = page["suspects"]
    assert [whole.step(dict(pairs)[step]).kind for step in suspect["steps"]] == KINDS_LEFT_BEHIND
    (diagram,) = re.findall(r"```mermaid\n(.*?)```", text, re.DOTALL)
    assert len(re.findall("->>", diagram)) == left.length
    assert f"`ok {left.length} steps`" in text
    assert re.search(r"netrev: `at \d+ wd 0 = -1`", text)


def test_a_hang_is_reported_with_all_its_steps(folder: Path) -> None:
    path = ROOT / "python/tests/caused/both-bad.jsonl"
    output = nrdb("--batch", "-ex", f"report {folder / 'hang.md'}", path)
    assert "hang.md with hang.html: Deadlock: two calls wait for one another." in output
    text = (folder / "hang.md").read_text()
    assert text.startswith("# A deadlock\n\nDeadlock: two calls wait for one another.\n"), text
    for words in ("## Goroutine 2\n", "## Goroutine 3\n", "* main.go:223", "`ok 97 steps`", "-ex 'info hangs'"):
        assert words in text
    assert "[hang.html](hang.html)" in text
    assert data_in((folder / "hang.html").read_text())["length"] == 97
    assert not (folder / "hang.jsonl").exists()


def test_a_long_hang_is_reported_with_a_part_of_its_values(folder: Path) -> None:
    path, length = folder / "long.jsonl", MOST_IN_A_PAGE + 2_000
    header, *steps = (EXAMPLES / "real/hung.jsonl").read_text().splitlines()
    ticks = [f'["tick",{time},"done"]' for time in range(10**12, 10**12 + length - len(steps))]
    path.write_text("\n".join([header, *steps, *ticks, ""]))
    nrdb("--batch", "-ex", f"report {folder / 'hang.md'}", path)
    page = data_in((folder / "hang.html").read_text())
    assert page["length"] == length
    assert page["last"] - page["first"] < MOST_IN_A_PAGE


def test_a_report_never_overwrites_its_recording(folder: Path) -> None:
    path, data = folder / "bug.md", (EXAMPLES / "real/hijacked.jsonl").read_bytes()
    path.write_bytes(data)
    output = nrdb("--batch", "-ex", f"report {path}", path)
    assert f"{path} is the recording itself" in output
    assert (path.read_bytes(), [file.name for file in folder.iterdir()]) == (data, ["bug.md"])


@pytest.mark.parametrize("name", ["bug.html", "bug.jsonl", "bug.where"])
def test_a_report_replaces_no_file_whose_name_nobody_typed(folder: Path, name: str) -> None:
    example = EXAMPLES / "real/hijacked.jsonl"
    (folder / name).write_bytes(example.read_bytes())
    path = folder / name if name != "bug.where" else example
    written = {"bug.md", "bug-2.html", "bug-2.jsonl"} | ({"bug-2.where"} if path == example else set())
    for _ in range(2):  # (the second report replaces the first one's files)
        output = nrdb("--batch", "-ex", f"report {folder / 'bug.md'}", path)
        assert f"bug.md with bug-2.html, and {folder}/bug-2.jsonl: " in output
        assert {file.name for file in folder.iterdir()} == {name} | written
    assert (folder / name).read_bytes() == example.read_bytes()
    assert "[bug-2.html](bug-2.html)" in (folder / "bug.md").read_text()


def test_the_page_of_a_hang_replaces_no_other_page(folder: Path) -> None:
    (folder / "hang.html").write_text("mine")
    for name in ("both-bad", "queued-bad"):
        nrdb("--batch", "-ex", f"report {folder / 'hang.md'}", ROOT / f"python/tests/caused/{name}.jsonl")
    assert (folder / "hang.html").read_text() == "mine"
    assert {file.name for file in folder.iterdir()} == {"hang.md", "hang.html", "hang-2.html", "hang-3.html"}


def test_what_is_not_there_has_no_value(folder: Path) -> None:
    out, path = folder / "o.jsonl", EXAMPLES / "real/hijacked.jsonl"
    for cell in ("rg 9", "lock 99", "gor 4000"):
        output = nrdb("--batch", "-ex", f"reduce {out} {cell} absent", path)
        assert f"| no step gives {cell} the value absent" in output
        assert f"| no step gives {cell} the value *" in nrdb("--batch", "-ex", f"reduce {out} {cell} *", path)
    assert not out.exists()
    assert "accepted by netrev" in nrdb("--batch", "-ex", f"reduce {out} lock 0 *", path)


def test_the_page_says_what_is_left_of_recordings(folder: Path) -> None:
    text = " ".join((ROOT / "docs/reference/NRDB.md").read_text(encoding="utf-8").split())
    ranges = r"from ([\d,]+)–([\d,]+)(?: steps)? to (\d+)–(\d+)"
    found = re.search(
        rf"the four recordings of `examples/hunts` {ranges}, and five of `examples/real` {ranges}\.", text
    )
    assert found
    numbers = [int(number.replace(",", "")) for number in found.groups()]
    for place, (least, most, least_left, most_left) in (("hunts/", numbers[:4]), ("real/", numbers[4:])):
        names = [name for name in MOST if name.startswith(place)]
        lengths = [Recording.read(str(EXAMPLES / f"{name}.jsonl")).length for name in names]
        assert (min(lengths), max(lengths)) == (least, most)
        assert most_left <= max(MOST[name] for name in names)
        if place == "real/":
            left = [reduced(folder, EXAMPLES / f"{name}.jsonl").length for name in names]
            assert (len(left), min(left), max(left)) == (5, least_left, most_left)


def test_what_cannot_be_reduced_is_said(folder: Path) -> None:
    path = EXAMPLES / "first.jsonl"
    output = nrdb("--batch", "-ex", f"reduce {folder}/x.jsonl", "-ex", f"reduce {path}", path)
    assert "| there are no suspects" in output
    assert "is the recording itself" in output
    output = nrdb("--reduce", folder / "none/x.jsonl", EXAMPLES / "lost-wakeup.jsonl", status=3)
    assert "none/x.jsonl: No such file or directory" in output
    assert "no step gives gor 0 the value gone" in nrdb("--batch", "-ex", "reduce x.jsonl gor 0 gone", path)
