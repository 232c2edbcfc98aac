"""Builds the programs that `make real` records."""

from __future__ import annotations

import os
import pathlib
import subprocess

from netrev.text.plain import plain
from netrev_go.go_command.toolchain import Go
from netrev_go.release_check import ready

from .suites import DEBIAN, SAMPLES, Suite


def environment(is_of_others: bool, **settings: str) -> dict[str, str]:
    """The environment for building. Go finds other projects through GOPATH. Go's own tests are built in module mode,
    because newer releases fall back to old defaults outside it."""
    found = {"GO111MODULE": "off", "GOPATH": str(DEBIAN)} if is_of_others else {"GO111MODULE": "", "GOWORK": "off"}
    return os.environ | found | {"GOFLAGS": "", "GOTOOLCHAIN": "local"} | settings


def ran(go: Go, words: list[str], program: pathlib.Path, what: str, is_of_others: bool) -> bool:
    """Runs `go WORDS WHAT` to build a program that records. Returns whether that succeeded."""
    command = [go.program, *words, "-overlay", str(ready(go)), "-o", str(program), what]
    settings = environment(is_of_others)
    run = subprocess.run(command, cwd=program.parent, env=settings, capture_output=True, text=True, check=False)
    if run.returncode != 0 or not program.exists():
        print("\n".join(plain(line) for line in [f"{what}: not built:", *run.stderr[-600:].splitlines()]), flush=True)
        return False
    return True


def built(go: Go, suite: Suite, folder: pathlib.Path) -> pathlib.Path | None:
    """The suite's test program; None if it can't be built."""
    program = folder.resolve() / (suite.package.replace("/", "_") + ".test")
    return program if ran(go, ["test", "-c"], program, suite.package, suite.is_of_others) else None


def built_sample(go: Go, source: str, folder: pathlib.Path) -> pathlib.Path | None:
    """The program of a sample; None if it can't be built."""
    program = folder.resolve() / source.replace("/", "_").removesuffix(".go")
    return program if ran(go, ["build"], program, str(SAMPLES / source), False) else None


def source_folder(go: Go, suite: Suite) -> pathlib.Path:
    """The folder in which a suite's tests expect to run."""
    return (DEBIAN / "src" if suite.is_of_others else go.sources()) / suite.package


def tests_of(program: pathlib.Path, folder: pathlib.Path, suite: Suite) -> list[str]:
    """The names of a suite's tests."""
    command, settings = [str(program), "-test.list", suite.tests], environment(suite.is_of_others)
    run = subprocess.run(command, cwd=folder, env=settings, capture_output=True, text=True, check=False)
    return [line for line in run.stdout.splitlines() if line.startswith("Test")]
