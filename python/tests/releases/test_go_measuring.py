"""The recorder's tools for developers: `make real` from its options to its tables, the cost of recording, and fetching
a release. Stand-ins replace Go, netrev and the measured programs. Nothing is built or fetched."""

import contextlib
import io
import re
import subprocess
from collections.abc import Callable, Iterator
from pathlib import Path

import pytest

from dev.fuzz.generators.logs import from_text
from dev.recorder import building, costs, fetching, real, suites
from dev.recorder.readiness import Readiness
from dev.recorder.results import read_results
from dev.recorder.suites import Sample, Suite
from netrev.findings.finding import Finding, Kind, Sentence, SuspectFindings
from netrev_go.go_command import toolchain
from netrev_go.go_command.toolchain import Go, RecorderError
from tests.support.stubs import raising, stub

ROOT = Path(__file__).resolve().parents[3]
RECORDED = """#!/bin/sh
[ "$1" = -test.run ] || [ "$1" = serve ] || exit 9
echo "$* $GOMAXPROCS $NETREV_LINES" >> {folder}/ran
cp {folder}/stored "$NETREV_LOG.1"
cp {folder}/stored "$NETREV_LOG.2"
: > "$NETREV_LOG.program.1.2"
case "$2" in ^TestRed*) exit 1 ;; ^TestSkip*) echo "--- SKIP: it" ;; esac
"""
# the nanoseconds of each call and round: they fall with each run of the program, and are greater with a log
COST = """#!/bin/sh
n=$(cat {folder}/n 2> /dev/null || echo 9); n=$((n - 1)); echo $n > {folder}/n
[ -z "${{NETREV_LOG-}}" ] || n=$((n + 800 * (1 + NETREV_LINES) + 80 * NETREV_ORDERS))
[ -z "${{NETREV_LOG-}}" ] || : > "$NETREV_LOG.3"
[ $# = 0 ] && echo $((1000 + n)) $((300 + n)) 1 2 3 4 5 6 7 8 9 10 $((11 + n))
[ $# = 0 ] || echo "$1 $2 $3" $((70000 - n)) 5 $GOMAXPROCS
"""


@contextlib.contextmanager
def printed() -> Iterator[io.StringIO]:
    out = io.StringIO()
    with contextlib.redirect_stdout(out), contextlib.redirect_stderr(out):
        yield out


class Tools:
    """A folder with scripts, and stand-ins for what a module calls."""

    def __init__(self, folder: Path, monkeypatch: pytest.MonkeyPatch) -> None:
        self.folder, self.monkeypatch = folder, monkeypatch
        self.go = Go("go", self.folder, "go1.27.3", "linux/amd64", "")

    def patch(self, module: object, **values: object) -> None:
        for name, value in values.items():
            self.monkeypatch.setattr(module, name, value)

    def script(self, name: str, text: str) -> Path:
        path = self.folder / name
        path.write_text(text.format(folder=self.folder))
        path.chmod(0o755)
        return path


@pytest.fixture
def tools(folder: Path, monkeypatch: pytest.MonkeyPatch) -> Tools:
    return Tools(folder, monkeypatch)


class Suspects:
    """Stands in for the analysis of each recording, and finds suspects with these sentences."""

    def __init__(self, *sentences: str) -> None:
        self.findings = [Finding(Kind.SUSPECT, (Sentence(sentence),)) for sentence in sentences]

    def __call__(self, netrev: str, name: Path) -> contextlib.nullcontext["Suspects"]:
        return contextlib.nullcontext(self)

    def outcome(self) -> tuple[bool, str]:
        return True, "ok 25 steps"

    def suspects(self) -> SuspectFindings:
        return SuspectFindings(self.findings, "")


class Real(Tools):
    """`make real` with one sample and one package."""

    def __init__(self, folder: Path, monkeypatch: pytest.MonkeyPatch) -> None:
        super().__init__(folder, monkeypatch)
        (self.folder / "stored").write_bytes(from_text((ROOT / "examples/real/half.log").read_text())[0])
        program = self.script("program", RECORDED)
        self.current_position = Readiness("go1.27.3", 90, 88, True, "correct: 952 steps, 952 steps", True)
        self.checked: Callable[[object, Path], tuple[bool, str]] = lambda _, name: (True, "ok 25 steps")
        samples = (Sample("served", "served", (("serve", "1"),), (1, 4), True),)
        self.patch(
            real, chosen=lambda _: self.go, standing_of=lambda _: self.current_position, built_sample=lambda *_: program, built=lambda *_: program,
            tests_of=lambda *_: ["TestGood", "TestRed", "TestSkip"], source_folder=lambda *_: self.folder, SAMPLES=self.folder,
            netrev_program=lambda: "netrev", check=lambda *reports: self.checked(*reports), differing=lambda _, name: (3, ["step 7: other"] * ("TestRed" in name.name)),
            Analysis=Suspects("late", "twice"), is_here=lambda name: name == "1.27",
        )  # fmt: skip
        self.patch(
            suites, OF_SAMPLES=samples, SMALL_SAMPLES=samples, OF_GO=(Suite("net"),), OF_OTHERS=(), SMALL_TESTS=()
        )

    def ran(self, *words: str) -> tuple[int, str]:
        with printed() as out:
            status = real.main([*words, "--out", str(self.folder / "out")])
        return status, out.getvalue()


@pytest.fixture
def trial(folder: Path, monkeypatch: pytest.MonkeyPatch) -> Real:
    return Real(folder, monkeypatch)


def test_each_is_recorded_on_one_processor_and_on_four_and_compared(trial: Real) -> None:
    status, text = trial.ran("--go", "1.27")
    assert status == 1, text
    words = (trial.folder / "ran").read_text().splitlines()
    flags = "-test.short -test.timeout=40s"
    tests = [f"-test.run ^{name}$ {flags} {on} 0" for on in (1, 4) for name in ("TestGood", "TestRed", "TestSkip")]
    assert words == ["serve 1 1 0", "serve 1 4 0", *tests]
    found = read_results(trial.folder / "out/1.27")
    assert len(found) == 16
    assert [item.went for item in found if item.processors == 4] == ["passed"] * 4 + ["failed"] * 2 + ["skipped"] * 2
    assert [(item.suspects, item.differ) for item in found[:2]] == [(["1. late", "2. twice"], 0)] * 2
    red = next(item for item in found if item.test == "TestRed")
    assert (red.said, red.differ, red.suspects) == ("ok 25 steps; step 7: other", 1, [])
    assert {item.steps for item in found} == {len((ROOT / "examples/real/half.jsonl").read_text().splitlines()) - 1}
    assert red.words > 5
    assert all(Path(item.recording).exists() for item in found)
    assert "(tested before): correct: 952 steps" in text
    assert "| 1.27 | 88 of 90 | yes | 952, 952 | 4 | 12 |" in text
    assert "Tests that failed themselves: 1.27 net TestRed (4)" in text


def test_recordings_are_compared_again_with_check(trial: Real) -> None:
    assert trial.ran("--go", "1.27", "--record", "--only", "samples")[0] == 0
    assert {result.said for result in read_results(trial.folder / "out/1.27")} == {""}
    trial.patch(real, Analysis=Suspects())
    assert trial.ran("--go", "1.27", "--check")[0] == 0
    trial.checked = lambda *_: (False, "step 3: no")
    status, text = trial.ran("--go", "1.27", "--check")
    assert status == 1
    assert "1.27 samples/served serve-1 on 1 (passed): step 3: no" in text

    def fails(*_: object) -> tuple[bool, str]:
        raise OSError(13, "Permission denied")

    trial.checked = fails
    assert "serve-1 on 4 (passed): Permission denied" in trial.ran("--go", "1.27", "--check")[1]


def test_what_is_recorded_by_the_options(monkeypatch: pytest.MonkeyPatch, trial: Real) -> None:
    assert real.names_for(real.options_of([])) == [""]
    assert real.names_for(real.options_of(["--go", "1.27"])) == ["1.27"]
    assert real.names_for(real.options_of(["--go", "all"])) == list(fetching.SUITES)
    gate = real.options_of(["--gate"])
    assert (real.names_for(gate), gate.small) == (["1.27"], True)
    trial.patch(real, is_here=lambda _: False)
    for path, names in (("/usr/bin/go", [""]), (None, list[str]())):
        with monkeypatch.context() as patch:
            patch.setattr(real.shutil, "which", lambda _, path=path: path)
            assert real.names_for(gate) == names


def test_without_what_it_needs_nothing_is_recorded(trial: Real) -> None:
    trial.current_position = Readiness("go1.27.3", 90, 88, True, "a lock word differs", False)
    status, text = trial.ran("--go", "1.27")
    assert (status, "a lock word differs" in text) == (3, True)
    trial.patch(real, netrev_program=lambda: None)
    assert trial.ran("--go", "1.27") == (3, "netrev is missing: run `make netrev`, or set NETREV\n")
    assert trial.ran("--go", "1.27", "--record", "--only", "nothing")[0] == 3
    trial.patch(real, names_for=lambda _: [], netrev_program=lambda: "netrev")
    status, text = trial.ran()
    assert (status, text.startswith("no Go is on this machine")) == (0, True)
    assert not (trial.folder / "ran").exists()


def test_a_log_that_cannot_be_converted_is_no_recording(trial: Real) -> None:
    (trial.folder / "stored").write_bytes(b"NR 3 1 7 4 0 0\n" * 400)
    status, text = trial.ran("--go", "1.27", "--only", "samples")
    assert status == 1
    assert "serve-1 on 1 (passed): not made: not a log of netrev-go" in text
    (trial.folder / "stored").write_bytes(bytes(5_000))
    assert trial.ran("--go", "1.27", "--only", "samples")[0] == 0


def test_a_test_that_hangs_is_ended(monkeypatch: pytest.MonkeyPatch, trial: Real) -> None:
    timeouts = []

    def late(*_: object, timeout: float, **__: object) -> None:
        timeouts.append(timeout)
        raise subprocess.TimeoutExpired("program", 1)

    monkeypatch.setattr(real.subprocess, "run", late)
    assert real.went(["program"], trial.folder, {}) == "timeout"
    assert timeouts == [60]


class Costs(Tools):
    """The cost of recording, measured three times."""

    def __init__(self, folder: Path, monkeypatch: pytest.MonkeyPatch) -> None:
        super().__init__(folder, monkeypatch)
        self.program = self.script("cost", COST)
        self.logs = self.folder / "logs"
        self.patch(
            costs, chosen=lambda _: self.go, logs_folder=lambda _: self.logs, overlay_by=lambda *_: "overlay",
            built_both=lambda *_: (self.program, self.program), loads=lambda: "0.5",
        )  # fmt: skip

    def ran(self, *words: str) -> tuple[int, list[str]]:
        self.logs.mkdir(exist_ok=True)
        with printed() as out:
            status = costs.main(list(words))
        return status, out.getvalue().splitlines()


@pytest.fixture
def measurement(folder: Path, monkeypatch: pytest.MonkeyPatch) -> Costs:
    return Costs(folder, monkeypatch)


def test_a_row_for_each_way_has_the_best_of_the_calls(measurement: Costs) -> None:
    status, lines = measurement.ran("1.27", "--times", "3")
    assert (status, lines[0]) == (0, "3 times by turns, each begun at a load of 0.5, 0.5, 0.5")
    assert len(lines) == 1 + 2 + len(costs.WAYS) + 1 + 2 + len(costs.WAYS)
    assert re.search(
        r"^\| 1\.27\.3 \| without the overlay \| 984 ns \| 0 ns \| 284 ns \| 0 ns \| 69,9\d\d|70,0\d\d", lines[3]
    )
    assert re.search(r"^\| 1\.27\.3 \| with a log \| 1,780 ns \| 100 ns \| 1080 ns \| 796 ns \|", lines[5])
    assert re.search(r"^\| 1\.27\.3 \| with all three \| 2,654 ns \| 209 ns \| 1954 ns \| 1670 ns \|", lines[8])
    assert re.search(
        r"^\| 1\.27\.3 \| with all three \| 1 \| 2 \| 3 \| 4 \| 5 \| 6 \| 7 \| 8 \| 9 \| 10 \| 1,665 \|$", lines[-1]
    )
    assert not measurement.logs.exists()


def test_another_recorder_is_measured_beside_this_one(measurement: Costs) -> None:
    _, lines = measurement.ran("1.27", "--times", "1", "--before", str(measurement.folder))
    names = {line.split(" | ")[0] for line in lines if line.startswith("| 1.")}
    assert names == {"| 1.27.3, before", "| 1.27.3, now"}
    (measurement.folder / "served").mkdir()
    measurement.patch(costs.Served, measure=lambda *_: None)
    _, lines = measurement.ran("1.27", "--times", "1", "--before", str(measurement.folder), "--requests")
    assert lines[1] == "| Go | connections | | µs of processor a request | more | bytes a request | points a request |"
    served = [
        costs.measured_by(measurement.folder, "it", measurement.go, measurement.folder / name, 9, name == "before")
        for name in ("before", "now")
    ]
    assert [list(item.ways) for item in served if isinstance(item, costs.Served)] == [
        ["without the overlay", "with it, no log", "recording", "recording, no orders"], list(costs.SERVED)
    ]  # fmt: skip


def test_without_go_nothing_is_measured(measurement: Costs) -> None:
    def none(_: str) -> Go:
        raise RecorderError("no Go")

    measurement.patch(costs, chosen=none)
    assert measurement.ran() == (3, ["no Go"])


def test_a_release_is_unpacked_under_its_name(monkeypatch: pytest.MonkeyPatch, tools: Tools) -> None:
    tools.patch(fetching, FETCHED=tools.folder)
    words = []

    def run(command: list[str], folder: Path, **settings: str) -> None:
        words.append((command[:2], settings.keys()))
        if command[1] == "download":
            for name in command[2:]:
                (folder / f"{name}.deb").touch()
        if command[0] == "dpkg-deb":
            (folder / "usr").mkdir(exist_ok=True)

    monkeypatch.setattr(fetching, "run", run)
    fetching.fetch("1.27")
    assert [command for command, _ in words][:2] == [["apt-get", "update"], ["apt-get", "download"]]
    assert [bool(settings) for _, settings in words] == [True, True, False, False]
    assert [path.name for path in (tools.folder / "1.27").iterdir()] == ["usr"]
    assert f"{fetching.SUITES['1.27']} main" in next(tools.folder.glob("apt/*/sources.list")).read_text()


def test_a_command_that_fails_is_told(tools: Tools) -> None:
    fetching.run(["true"], tools.folder)
    for command, why in ((["sh", "-c", "echo no >&2; exit 1"], "no"), (["/nowhere/apt"], "No such file")):
        with pytest.raises(RecorderError, match=why):
            fetching.run([*command], tools.folder)


def test_it_prints_where_the_commands_are(monkeypatch: pytest.MonkeyPatch) -> None:
    usage = "dev.recorder.fetching 1."
    cases: list[tuple[list[str], int, str]] = [
        (["1.27"], 0, "/there"),
        ([], 2, usage),
        (["1.27", "1.19"], 2, usage),
    ]
    for words, status, text in cases:
        with printed() as out, monkeypatch.context() as patch:
            patch.setattr(fetching, "commands_of", lambda _: "/there")
            assert fetching.main(words) == status
        assert out.getvalue().startswith(text)
    monkeypatch.setattr(fetching, "commands_of", raising(RecorderError("none")))
    with printed() as out:
        assert (fetching.main(["1.27"]), out.getvalue()) == (3, "none\n")


def test_what_the_tests_are_built_with() -> None:
    for is_of_others, modules in ((False, ""), (True, "off")):
        settings = building.environment(is_of_others, NETREV_LOG="log")
        assert (settings["NETREV_LOG"], settings.get("GO111MODULE", "") == "off" or not modules) == ("log", True)


def test_an_overlay_that_does_not_compile_is_none(tools: Tools) -> None:
    made = tools.folder / "made"
    made.mkdir()
    points = tools.script(
        "points",
        '#!/bin/sh\necho "fits it"; echo "without that"; [ -e {folder}/fits ] || echo "unfit this"; [ -e {folder}/fits ]\n',
    )

    def program(*_: object) -> Path:
        copy = made / "points"
        copy.write_bytes(points.read_bytes())
        copy.chmod(0o755)
        return copy

    compiled = stub(returncode=1, stderr="no such type")
    tools.patch(toolchain, points_program=program, quiet_go=lambda *_: compiled)
    with pytest.raises(RecorderError, match="unfit this") as unfit:
        toolchain.make_overlay(tools.go, made)
    assert "fits it" not in str(unfit.value).replace("unfit", "")
    (tools.folder / "fits").touch()
    with pytest.raises(RecorderError, match="no such type"):
        toolchain.make_overlay(tools.go, made)
    compiled.returncode = 0
    (made / toolchain.NEW).write_text('{"Replace": {}}')
    toolchain.make_overlay(tools.go, made)
    assert sorted(path.name for path in made.iterdir()) == sorted([toolchain.LEFT_OUT, toolchain.OVERLAY])
    assert (made / toolchain.LEFT_OUT).read_text() == "without that\n"
