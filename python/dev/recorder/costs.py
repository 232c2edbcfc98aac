"""Measures the cost of recording:  python3 python dev.recorder.costs [RELEASE ..] [--times N] [--before FOLDER] [--requests [N]]

It builds samples/cost and samples/load of tools/go without and with the overlay. It prints the cost of calls, channels, locks, goroutines
and timers, and the round trips a second, for each of six settings: without the overlay; with the overlay but no log; with a log; and with
a log and the program's orders, lines, or both. With --requests it builds samples/served instead. It then prints the processor time of an
HTTP request over 20 and over 200 keep-alive connections, and how many bytes a recording keeps of a request. It prints the same
two figures for runtime/trace and for its FlightRecorder.

RELEASE is one of Debian's (dev.recorder.fetching), such as 1.27; the default is the `go` on the PATH. FOLDER is another clone of the
repository, whose recorder is measured too. All are measured in turn, N times each, and the machine's load is printed.
"""

from __future__ import annotations

import argparse
import os
import pathlib
import statistics
import subprocess
import sys
import tempfile
from collections import defaultdict
from dataclasses import dataclass, field

from netrev.messages import recorder as messages
from netrev.text.plain import plain
from netrev_go.go_command.running import logs_folder
from netrev_go.go_command.toolchain import Go, RecorderError, release_of
from netrev_go.log.logfile import HEADER_BYTES, POINT_BYTES, Header
from netrev_go.release_check import ready

from .building import environment
from .fetching import chosen
from .suites import SAMPLES

HERE = pathlib.Path(__file__).resolve().parents[3]
OVERLAY = "from netrev_go.go_command.toolchain import find_go; from netrev_go.release_check import ready; print(ready(find_go()))"

# The environment for each setting; None means without the overlay.
WAYS: dict[str, dict[str, str] | None] = {
    "without the overlay": None,
    "with it, no log": {},
    "with a log": {"NETREV_LINES": "0", "NETREV_ORDERS": "0"},
    "with a log and orders": {"NETREV_LINES": "0", "NETREV_ORDERS": "1"},
    "with a log and lines": {"NETREV_LINES": "1", "NETREV_ORDERS": "0"},
    "with all three": {"NETREV_LINES": "1", "NETREV_ORDERS": "1"},
}
# The settings for a server: whether it has the overlay, the environment for its log (None: no log), and how it traces
# itself.
SERVED: dict[str, tuple[bool, dict[str, str] | None, str]] = {
    "without the overlay": (False, None, ""),
    "with it, no log": (True, None, ""),
    "recording": (True, {}, ""),
    "recording, no orders": (True, {"NETREV_ORDERS": "0"}, ""),
    "runtime/trace": (False, None, "trace"),
    "FlightRecorder": (False, None, "flight"),
}
FLIGHT_RECORDER = (1, 25)  # the first release that has it
CONNECTIONS = (20, 200)
REQUESTS, WARMING = 10_000, 10  # one warm-up request for every ten, as in samples/served
ROUND_POINTS, DEADLINE_POINTS = 8, 1
# The rounds that samples/cost measures after the calls of the poller:
ROUNDS = (
    "buffer",  # a value is put into a channel's buffer and taken out
    "no buffer",  # a value from one goroutine to another and back, through unbuffered channels: two waits
    "handed over",  # the same through channels with a buffer of one
    "select of 3",  # the same, with the other goroutine waiting in a select
    "of 5",
    "condition",  # two goroutines take turns with a sync.Cond
    "goroutine",  # a goroutine is started, and a WaitGroup waits for its end
    "timer",  # a timer is made and stopped
    "mutex",  # a free mutex is locked and unlocked
    "read lock",  # the same for an RWMutex, for reading
    "channel",  # a channel is made
)


def overlay_by(recorder: pathlib.Path, go: Go) -> str:
    """The overlay that a clone's recorder makes."""
    if recorder == HERE:
        return str(ready(go))
    words = [sys.executable, "-c", OVERLAY]
    settings = {"PYTHONPATH": str(recorder / "python")}
    run = subprocess.run(words, env=os.environ | settings, capture_output=True, text=True, check=False)
    if run.returncode != 0:
        raise RecorderError(messages.NO_OVERLAY.format(folder=recorder, why=run.stderr.strip()[-600:]))
    return run.stdout.strip()


def sources_of(go: Go, name: str) -> list[pathlib.Path]:
    """The files of a sample. Go builds all listed files, whatever their build constraints."""
    has_recorder = tuple(map(int, release_of(go.version)[0].split("."))) >= FLIGHT_RECORDER
    of_others = "before.go" if has_recorder else "flight.go"
    return sorted(path for path in (SAMPLES / name).glob("*.go") if path.name != of_others)


def built_both(go: Go, name: str, folder: pathlib.Path, overlay: str) -> tuple[pathlib.Path, pathlib.Path]:
    """A sample without and with the overlay."""
    programs = folder / name, folder / f"{name}-recording"
    for program, flags in zip(programs, ("", overlay)):
        subprocess.run(
            [go.program, "build", "-overlay", flags, "-o", program, *sources_of(go, name)],
            check=True,
            cwd=folder,
            env=environment(False),
        )
    return programs


def ran(programs: tuple[pathlib.Path, pathlib.Path], way: str, logs: pathlib.Path, *words: str) -> list[str]:
    """The output of a program run in one of the ways."""
    settings = {"GOMAXPROCS": "1" if not words else "4"} | (WAYS[way] or {})
    if WAYS[way]:
        settings["NETREV_LOG"] = str(logs / "log")
    clean = {name: value for name, value in os.environ.items() if not name.startswith("NETREV_")}
    run = subprocess.run(
        [programs[WAYS[way] is not None], *words], env=clean | settings, capture_output=True, text=True, check=True
    )
    for log in logs.iterdir():
        log.unlink()
    return run.stdout.split()


@dataclass
class Measured:
    """The programs of one Go with one recorder, and the measurements for each setting: the nanoseconds of each call,
    and the round trips a second."""

    name: str

    cost: tuple[pathlib.Path, pathlib.Path]
    load: tuple[pathlib.Path, pathlib.Path]
    calls: dict[str, list[list[int]]] = field(default_factory=lambda: {way: [] for way in WAYS})
    trips: dict[str, list[int]] = field(default_factory=lambda: {way: [] for way in WAYS})

    def measure(self, logs: pathlib.Path) -> None:
        """Measures each setting once more."""
        for way in WAYS:
            self.calls[way].append([int(word) for word in ran(self.cost, way, logs)])
            self.trips[way].append(int(ran(self.load, way, logs, "64", "20000", "0")[-3]))

    def best(self) -> dict[str, list[int]]:
        """The smallest figures for each setting."""
        return {way: [min(values) for values in zip(*calls)] for way, calls in self.calls.items()}

    def tell(self) -> None:
        """Prints a row for each setting: the best of the calls, and the median of the round trips."""
        base: list[int] = []
        for way, best in self.best().items():
            base = base or best
            more = [(cost - other) / points for cost, other, points in zip(best, base, (ROUND_POINTS, DEADLINE_POINTS))]
            trips = self.trips[way]
            print(
                f"| {self.name} | {way} | {best[0]:,} ns | {more[0]:.0f} ns | {best[1]} ns | {more[1]:.0f} ns "
                f"| {statistics.median(trips):,.0f} ({min(trips):,} to {max(trips):,}) |"
            )

    def tell_rounds(self) -> None:
        """Prints a row for each way: the best of the rounds."""
        for way, best in self.best().items():
            print(f"| {self.name} | {way} | " + " | ".join(f"{figure:,}" for figure in best[2:]) + " |")


@dataclass
class Served:
    """The server, built with one release of Go and one recorder. Its measurements are stored by number of connections
    and setting: the nanoseconds per request, and the bytes kept per request."""

    name: str
    programs: tuple[pathlib.Path, pathlib.Path]
    requests: int
    ways: list[str]
    times: dict[tuple[int, str], list[int]] = field(default_factory=lambda: defaultdict(list))
    kept: dict[tuple[int, str], list[float]] = field(default_factory=lambda: defaultdict(list))
    points: dict[tuple[int, str], list[float]] = field(default_factory=lambda: defaultdict(list))

    def measure(self, logs: pathlib.Path) -> None:
        """Measures each setting once more."""
        for connections in CONNECTIONS:
            for way in self.ways:
                self.measure_one(logs, connections, way)

    def measure_one(self, logs: pathlib.Path, connections: int, way: str) -> None:
        has_overlay, of_log, trace = SERVED[way]
        settings = {name: value for name, value in os.environ.items() if not name.startswith("NETREV_")}
        settings |= {"NETREV_LOG": str(logs / "log")} | of_log if of_log is not None else {}
        words: list[str | pathlib.Path] = [self.programs[has_overlay], str(connections), str(self.requests)]
        words += [trace] if trace else []
        run = subprocess.run(words, env=settings, capture_output=True, text=True, check=False)
        if trace == "flight" and run.returncode == 3:  # this Go has no FlightRecorder
            return
        run.check_returncode()
        spent, traced = map(int, run.stdout.split())
        self.times[connections, way].append(spent)
        self.kept[connections, way].append(traced)
        for log in logs.iterdir():
            if of_log is not None and ".program" not in log.name:
                with log.open("rb") as file:
                    passed = Header(file.read(HEADER_BYTES)).counted(file).passed
                self.points[connections, way].append(passed / (self.requests + self.requests // WARMING))
                self.kept[connections, way][-1] = self.points[connections, way][-1] * POINT_BYTES
            log.unlink()

    def tell(self) -> None:
        """Prints a row for each number of connections and setting: the median processor time, its increase over the
        first setting, and the other medians. The increase is the median over all rounds; in a round, both settings had
        the same load."""
        for (connections, way), times in self.times.items():
            base = self.times[connections, self.ways[0]]
            more = statistics.median(cost / other for cost, other in zip(times, base)) - 1
            median = statistics.median(times)
            kept = statistics.median(self.kept[connections, way])
            points = statistics.median(self.points.get((connections, way), [0]))
            print(
                f"| {self.name} | {connections} | {way} | {median / 1000:.1f} ({min(times) / 1000:.1f} to {max(times) / 1000:.1f}) "
                f"| {100 * more:+.1f} % | {f'{kept:,.0f}' if kept else ''} | {f'{points:.1f}' if points else ''} |"
            )


def loads() -> str:
    """The machine's load in the last minute."""
    return f"{os.getloadavg()[0]:.1f}"


def measured_by(
    recorder: pathlib.Path, name: str, go: Go, folder: pathlib.Path, requests: int, is_before: bool
) -> Measured | Served:
    """The samples, built with the overlay of a clone's recorder. For a server with the earlier recorder, only `without
    the overlay` and the settings with the overlay are measured."""
    folder.mkdir(parents=True)
    overlay = overlay_by(recorder, go)
    if requests:
        ways = [way for way, (has_overlay, _, _) in SERVED.items() if has_overlay or not is_before]
        ways = ["without the overlay", *ways] if is_before else ways
        return Served(name, built_both(go, "served", folder, overlay), requests, ways)
    return Measured(name, built_both(go, "cost", folder, overlay), built_both(go, "load", folder, overlay))


def all_measured(
    releases: list[str], before: pathlib.Path | None, folder: pathlib.Path, requests: int
) -> list[Measured | Served]:
    """The samples of each release, with this recorder and with the earlier one."""
    measured: list[Measured | Served] = []
    for release in releases or [""]:
        go = chosen(release)
        version = go.version.removeprefix("go")
        of_release = folder / (release or "own")
        if before is not None:
            name, place = f"{version}, before", of_release / "before"
            measured.append(measured_by(before.resolve(), name, go, place, requests, True))
        name = f"{version}{', now' if before else ''}"
        measured.append(measured_by(HERE, name, go, of_release / "now", requests, False))
    return measured


def tell_served(measured: list[Served]) -> None:
    """Prints the table of requests."""
    if not measured:
        return
    print("| Go | connections | | µs of processor a request | more | bytes a request | points a request |")
    print("|---|--:|---|--:|--:|--:|--:|")
    for measurement in measured:
        measurement.tell()


def tell_all(measured: list[Measured]) -> None:
    """Prints both tables."""
    if not measured:
        return
    print("| Go | | write and read | a point | SetReadDeadline | a point | round trips a second |")
    print("|---|---|--:|--:|--:|--:|--:|")
    for measurement in measured:
        measurement.tell()
    print(f"\n| Go | ns a round | {' | '.join(ROUNDS)} |")
    print("|---|---" + "|--:" * len(ROUNDS) + "|")
    for measurement in measured:
        measurement.tell_rounds()


def main(arguments: list[str]) -> int:
    parser = argparse.ArgumentParser(description=__doc__, formatter_class=argparse.RawDescriptionHelpFormatter)
    parser.add_argument("releases", nargs="*", metavar="RELEASE")
    parser.add_argument("--times", type=int, default=5)
    parser.add_argument("--before", type=pathlib.Path, metavar="FOLDER")
    parser.add_argument("--requests", type=int, nargs="?", const=REQUESTS, default=0, metavar="N")
    options = parser.parse_args(arguments)
    load = []
    with tempfile.TemporaryDirectory() as name:
        try:
            measured = all_measured(options.releases, options.before, pathlib.Path(name), options.requests)
            logs = logs_folder(2**20)
        except RecorderError as trouble:
            print(plain(str(trouble)), file=sys.stderr)
            return 3
        for _ in range(options.times):
            load.append(loads())
            for measurement in measured:
                measurement.measure(logs)
    logs.rmdir()
    print(f"{options.times} times by turns, each begun at a load of {', '.join(load)}")
    tell_served([measurement for measurement in measured if isinstance(measurement, Served)])
    tell_all([measurement for measurement in measured if isinstance(measurement, Measured)])
    return 0


if __name__ == "__main__":
    sys.exit(main(sys.argv[1:]))
