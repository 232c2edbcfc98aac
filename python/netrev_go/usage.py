"""The help of `netrev-go` and of each of its commands."""

from __future__ import annotations

from dataclasses import dataclass

SUMMARY = """\
netrev-go records Go programs. It doesn't change their sources.

  netrev-go run . ARGS        runs a program as `go run` does, and records it
  netrev-go test ./...        runs tests as `go test` does, and keeps a recording of each test that fails
  netrev-go build -o prog .   builds a program that records when NETREV_LOG=PATH is set; its log is PATH.PID
  netrev-go convert LOG       makes a recording from a log, even while the program runs
  netrev-go snapshot PID      makes a recording of the present state of a program that runs on
  netrev-go watch PID         makes one when a call of the program has waited long
  netrev-go recover           makes recordings of runs that were interrupted, for instance when netrev-go was killed
  netrev-go env               prints two variables that make any `go run`, `go test` or Makefile record
  netrev-go doctor            checks whether the installed Go can be recorded, and lists what is missing

Options of netrev-go come before the command, options of Go after it. To record a server for at most ten seconds:

  netrev-go -o serve -n 10 run . -port 8080

This makes serve.jsonl, which `nrdb serve.jsonl` opens. `netrev-go COMMAND --help` describes a command."""


@dataclass(frozen=True)
class Usage:
    """The help of a command: its usage, what it does, an example, its options, and what to read next."""

    call: str
    does: str
    example: str
    options: tuple[str, ...] = ()  # groups of options.GROUPS
    more: str = ""


USAGES = {
    "run": Usage(
        "netrev-go [OPTIONS] run [GO'S FLAGS] PACKAGE [ARGS]",
        "Runs a program as `go run` does, and makes recording.jsonl when the program ends, even if it crashes. The exit status is\n"
        "that of `go run`. Ctrl-C, Ctrl-\\ and other signals reach the program as usual.",
        "Record a server for at most ten seconds, into serve.jsonl:\n\n  netrev-go -o serve -n 10 run . -port 8080",
        ("files", "logs", "status", "run", "recording"),
        "`go help run` and `go help build` describe Go's own flags.",
    ),
    "test": Usage(
        "netrev-go [OPTIONS] test [GO'S FLAGS] [PACKAGES] [GO'S FLAGS]",
        "Runs tests as `go test` does, and makes recordings/PACKAGE.TEST.jsonl for each test that fails. The exit status is that of\n"
        "`go test`.",
        "Run a flaky test until it fails, at most 100 times:\n\n  netrev-go --until-failure --runs 100 test -run TestCancel ./client",
        ("files", "logs", "status", "run", "recording", "test"),
        "`go help test` and `go help testflag` describe Go's own flags.",
    ),
    "build": Usage(
        "netrev-go build [GO'S FLAGS] [PACKAGES]",
        "Builds a program as `go build` does. The program records when NETREV_LOG=PATH is set; its log is PATH.PID.",
        "Build a server, record it, and make a recording while it runs:\n\n"
        "  netrev-go build -o serve .\n  mkdir -m 700 /dev/shm/serve\n  NETREV_LOG=/dev/shm/serve/log ./serve &\n"
        "  netrev-go -o serve --pid $! convert",
        (),
        "`go help build` describes Go's own flags.",
    ),
    "convert": Usage(
        "netrev-go [OPTIONS] convert LOG ..",
        "Makes a recording from each log, even while its program runs: LOG.jsonl, or NAME.jsonl with -o NAME. The exit status is 1\n"
        "if a log yields no recording that netrev accepts.",
        "Make serve.jsonl from what a running process has recorded so far:\n\n  netrev-go -o serve --pid 4711 convert",
        ("files", "convert", "recording"),
    ),
    "snapshot": Usage(
        "netrev-go [OPTIONS] snapshot PID",
        "Makes snapshot.jsonl of what a running process has recorded: its log keeps the newest points, and what was open before them is\n"
        "noted there. The process runs on. The exit status is 1 when the log gives no recording that netrev accepts.",
        "Make now.jsonl of process 4711:\n\n  netrev-go -o now snapshot 4711",
        ("files", "recording"),
    ),
    "watch": Usage(
        "netrev-go [OPTIONS] watch PID",
        "Waits until a call of the program's has waited at a socket for as long as --stuck says, then makes snapshot.jsonl as `snapshot`\n"
        "does, and ends. Calls that accept connections don't count, nor do reads in Go's own goroutines, as of idle connections. A read\n"
        "of the program's counts, also if it waits for a request that needn't come: --writes leaves out all reads. If the\n"
        "process executes another program, that program is watched.",
        "Record process 4711 when a call has waited for ten seconds:\n\n  netrev-go watch 4711 --stuck 10s",
        ("files", "watch", "recording"),
    ),
    "recover": Usage(
        "netrev-go [OPTIONS] recover",
        "Makes recordings of runs that were interrupted before netrev-go made them, for instance by `kill -9` of netrev-go:\n"
        "recovered.jsonl, recovered-2.jsonl and so on. Removes a log once netrev has accepted its recording. Leaves the logs of\n"
        "other users, of running netrev-gos and of running programs alone.",
        "Make lost.jsonl of the run that was interrupted:\n\n  netrev-go -o lost recover",
        ("files", "logs", "recording"),
    ),
    "env": Usage(
        "netrev-go env",
        "Prints values of GOFLAGS and NETREV_LOG that make any `go run`, `go test` or Makefile record.",
        "Record what a Makefile runs, and make recordings from the logs:\n\n"
        "  eval \"$(netrev-go env)\"\n  make check\n  netrev-go convert \"$NETREV_LOG\".[0-9]*",
    ),
    "doctor": Usage(
        "netrev-go doctor",
        "Checks whether the installed Go can be recorded: each rule must fit its sources, the changed files must compile, and the\n"
        "recording of a trial program must be correct. The exit status is 0 if all checks pass.",
        "Check whether Go 1.27 can be recorded:\n\n  PATH=/usr/lib/go-1.27/bin:$PATH netrev-go doctor",
    ),
}  # fmt: skip
