"""Runs servers until their ring has been overwritten many times; then a bug occurs. netrev must accept the recording
that `netrev-go watch` or `snapshot` makes. The recording must contain the connection with the bug, which is older than
the oldest point, and the output must name the bug's line.

    python3 python tests.trials.go_servers [--seconds N] [--points N] [--connections N] [--pause N] [--stuck T] [--gopath FOLDER] [--keep FOLDER] [NAME ..]

The servers are samples of tools/go: `keep` needs only Go; `stream` needs Debian's golang-google-grpc-dev below GOPATH;
`pool` needs PostgreSQL (postgresql), and Debian's golang-github-lib-pq-dev below GOPATH. The bug comes after N seconds.
It prints a line for each server. --keep keeps the recordings and the output about them. The exit status is 1 if a
server fails.
"""

import argparse
import json
import os
import pathlib
import pwd
import re
import shutil
import socket
import subprocess
import sys
import tempfile
import time
from collections.abc import Iterator
from contextlib import contextmanager
from dataclasses import dataclass

from dev.recorder.suites import DEBIAN, ROOT, SAMPLES
from netrev_go.go_command.running import places
from netrev_go.log.logfile import HEADER_BYTES, Header

TOOL = SAMPLES.parent / "netrev-go"
BEHIND = 3.0  # seconds from the bug to a snapshot
PATIENCE = 1_800.0  # seconds for a watch to end, because a busy machine is slow
POSTGRES = "/usr/lib/postgresql/*/bin"


@dataclass(frozen=True)
class Server:
    """A sample with a bug. `watch` has the options of the `watch` command that waits for the bug, or is None if a
    snapshot is made after the bug. `printed` is the expected output, in which {line} is the bug's place."""

    sample: str
    bug: str
    watch: tuple[str, ...] | None
    printed: tuple[str, ...]
    has_old_socket: bool = True  # the output names a socket that is older than the oldest point


SERVERS = {
    "keep-deadline": Server(
        "keep",
        "deadline",
        None,
        ("deadline left behind", "was set before the recording begins", "net.(*conn).Write"),
        False,
    ),  # (which names the descriptor)
    "keep-wakeup": Server("keep", "wakeup", (), ("lost wake-up", "{line}")),
    "keep-mutex": Server("keep", "mutex", ("--writes",), ("a mutex", "{line}")),
    "stream-mutex": Server("stream", "mutex", (), ("a mutex", "{line}"), False),
    "pool-mutex": Server("pool", "mutex", (), ("a mutex", "{line}")),
}


def bug_line(server: Server) -> str:
    """The place of a server's bug."""
    lines = (SAMPLES / server.sample / "main.go").read_text(encoding="utf-8").split("\n")
    return next(f"main.go:{number}" for number, line in enumerate(lines, 1) if line.endswith(f"// BUG {server.bug}"))


def built(sample: str, gopath: pathlib.Path, folder: pathlib.Path) -> pathlib.Path:
    """The sample's program, which records on request."""
    program = folder / sample
    settings = os.environ | ({"GO111MODULE": "off", "GOPATH": str(gopath)} if sample != "keep" else {})
    words = [str(TOOL), "build", "-o", str(program), "main.go"]
    run = subprocess.run(words, cwd=SAMPLES / sample, env=settings, capture_output=True, text=True, check=False)
    if run.returncode != 0:
        sys.exit(f"{sample} can't be built: {run.stderr.strip()}")
    return program


def free_port() -> int:
    with socket.socket() as free:
        free.bind(("127.0.0.1", 0))
        return int(free.getsockname()[1])


@contextmanager
def database(folder: pathlib.Path) -> Iterator[dict[str, str]]:
    """The environment for a PostgreSQL client. The server refuses to run as root, so root runs it as another user."""
    commands = max(pathlib.Path("/").glob(POSTGRES.lstrip("/")), default=None)
    if commands is None:
        sys.exit("PostgreSQL isn't here: apt-get install postgresql")
    data, port = folder / "data", free_port()
    data.mkdir()
    before: list[str] = []
    if os.geteuid() == 0:
        users = {entry.pw_name for entry in pwd.getpwall()}
        other = "postgres" if "postgres" in users else "nobody"
        shutil.chown(data, other)
        folder.chmod(0o755)
        before = ["runuser", "-u", other, "--"]
    initdb = [*before, str(commands / "initdb"), "-A", "trust", "-D", str(data), "-U", "postgres", "--no-sync"]
    subprocess.run(initdb, stdout=subprocess.DEVNULL, check=True, cwd="/")
    settings = [
        "-c",
        "listen_addresses=127.0.0.1",
        "-c",
        "unix_socket_directories=",
        "-c",
        "fsync=off",
        "-p",
        str(port),
    ]
    words = [*before, str(commands / "postgres"), "-D", str(data), *settings]
    with (folder / "postgres.log").open("wb") as log:
        process = subprocess.Popen(words, stdout=log, stderr=log, cwd="/")
        try:
            while subprocess.run(
                [commands / "pg_isready", "-q", "-h", "127.0.0.1", "-p", str(port)], check=False
            ).returncode:
                assert process.poll() is None, (folder / "postgres.log").read_text()
                time.sleep(0.5)
            yield {"PGHOST": "127.0.0.1", "PGPORT": str(port), "PGUSER": "postgres", "PGDATABASE": "postgres"}
        finally:
            process.terminate()
            process.wait()


def passed(log: pathlib.Path) -> int:
    """The number of points that a log has had so far."""
    with log.open("rb") as file:
        return Header(file.read(HEADER_BYTES)).passed


def resident(process: int) -> int:
    """The memory of a process in megabytes."""
    status = pathlib.Path(f"/proc/{process}/status").read_text()
    found = re.search(r"^VmRSS:\s+(\d+) kB", status, re.MULTILINE)
    return int(found[1]) // 1024 if found else 0


@dataclass
class Came:
    """The result of a server's run."""

    printed: str
    points: int
    megabytes: int


def ran(
    server: Server, program: pathlib.Path, options: argparse.Namespace, name: pathlib.Path, more: dict[str, str]
) -> Came:
    """Runs a server until its bug is recorded."""
    logs = pathlib.Path(tempfile.mkdtemp(prefix="netrev-servers-", dir=places()[0]))
    words = [str(program), str(options.connections), str(options.seconds), server.bug, str(options.pause)]
    settings = os.environ | more | {"NETREV_LOG": str(logs / "log"), "NETREV_POINTS": str(options.points)}
    process = subprocess.Popen(words, env=settings, stdout=subprocess.DEVNULL, stderr=subprocess.DEVNULL)
    log = logs / f"log.{process.pid}"
    try:
        command = ["watch", str(process.pid), "--stuck", options.stuck, *(server.watch or ())]
        if server.watch is None:
            time.sleep(options.seconds + BEHIND)
            command = ["snapshot", str(process.pid)]
        run = subprocess.run(
            [str(TOOL), "-o", str(name), *command], cwd=SAMPLES / server.sample, capture_output=True, text=True, errors="replace",
            timeout=options.seconds + PATIENCE, check=False,
        )  # fmt: skip
        printed = run.stdout + run.stderr
        return Came(printed + late_suspects(printed, name), passed(log), resident(process.pid))
    finally:
        process.kill()
        process.wait()
        shutil.rmtree(logs)


def late_suspects(printed: str, name: pathlib.Path) -> str:
    """nrdb's output about the suspects if netrev-go didn't wait for it, as happens with a slow, unproved netrev;
    otherwise empty."""
    if "for the suspects" not in printed:
        return ""
    words = [str(ROOT / "nrdb"), "--suspects", str(name.with_suffix(".jsonl"))]
    return subprocess.run(words, capture_output=True, text=True, check=False).stdout


def old_sockets(name: pathlib.Path) -> set[int]:
    """The sockets of a recording that were opened before the oldest point of its log."""
    prelude = 0
    with name.with_suffix(".where").open(encoding="utf-8") as lines:
        for line in lines:
            if line.startswith('{"prelude":'):
                prelude = json.loads(line)["prelude"]
    with name.with_suffix(".jsonl").open(encoding="utf-8") as steps:
        next(steps)
        opened = [line.startswith('["sockopen",') for line, _ in zip(steps, range(prelude))]
    return set(range(sum(opened)))


def faults(server: Server, reply: Came, name: pathlib.Path, options: argparse.Namespace) -> list[str]:
    """The differences from the expected result."""
    found = []
    if not re.search(r"\.jsonl: ok \d+ steps", reply.printed):
        return ["netrev doesn't accept the recording"]
    if reply.points <= options.points:
        found.append("no point was lost")
    wanted = [words.format(line=bug_line(server)) if "{" in words else words for words in server.printed]
    found += [f"{words!r} isn't printed" for words in wanted if words not in reply.printed]
    named = {int(number) for number in re.findall(r"socket (\d+)", reply.printed)}
    if server.has_old_socket and not named & old_sockets(name):
        found.append("no socket is named that was open before")
    return found


def main(words: list[str]) -> int:
    parser = argparse.ArgumentParser(prog="tests.trials.go_servers")
    parser.add_argument("--seconds", type=int, default=60)
    parser.add_argument("--points", type=int, default=2**16)
    parser.add_argument("--connections", type=int, default=50)
    parser.add_argument("--pause", type=int, default=2_000, help="milliseconds between two requests of a client")
    parser.add_argument("--stuck", default="5s", help="for how long a call waits that is recorded")
    parser.add_argument("--gopath", type=pathlib.Path, default=DEBIAN)
    parser.add_argument("--keep", type=pathlib.Path)
    parser.add_argument("names", nargs="*", metavar="NAME", default=list(SERVERS))
    options, status = parser.parse_args(words), 0
    with tempfile.TemporaryDirectory() as place:
        folder = pathlib.Path(place)
        kept = (options.keep or folder).resolve()
        for name in options.names:
            server = SERVERS[name]
            program = built(server.sample, options.gopath, folder)
            if server.sample == "pool":
                own = pathlib.Path(tempfile.mkdtemp(dir=place))
                folder.chmod(0o755)
                with database(own) as settings:
                    reply = ran(server, program, options, kept / name, settings)
            else:
                reply = ran(server, program, options, kept / name, {})
            (kept / f"{name}.txt").write_text(reply.printed)
            wrong = faults(server, reply, kept / name, options)
            steps = re.search(r"ok (\d+ steps; .*)", reply.printed)
            print(
                f"{name}: {'; '.join(wrong) or 'named'}; {options.seconds} s, {reply.points} points, {reply.megabytes} MB; "
                f"{steps[1] if steps else reply.printed}",
                flush=True,
            )
            status |= bool(wrong)
    return status


if __name__ == "__main__":
    sys.exit(main(sys.argv[1:]))
