"""Fetches Debian's packages of a Go release into the user's cache and unpacks them, without installing anything or
changing apt's own lists.

    python3 python dev.recorder.fetching 1.27    prints the folder of its `go`, and fetches the release if it is missing
"""

from __future__ import annotations

import os
import pathlib
import subprocess
import sys

from netrev.messages import recorder as messages
from netrev_go.go_command.toolchain import Go, RecorderError, cache, find_go

# Outside the repository, because a release contains links, which `rt ci` doesn't accept in a tree.
FETCHED = cache() / "releases"
KEYS = "/usr/share/keyrings/debian-archive-keyring.gpg"
MIRROR = "http://deb.debian.org/debian"
# The Debian suite that has each release.
SUITES = {
    "1.19": "bookworm",
    "1.21": "bookworm-backports",
    "1.22": "bookworm-backports",
    "1.23": "bookworm-backports",
    "1.24": "trixie",
    "1.26": "sid",
    "1.27": "sid",
}


def below(root: pathlib.Path, release: str) -> pathlib.Path:
    """The folder of the release's commands in a package."""
    return root / f"usr/lib/go-{release}/bin"


def is_whole(commands: pathlib.Path) -> bool:
    return (commands / "go").exists() and (commands.parent / "src/runtime/netpoll.go").exists()


def here(release: str) -> pathlib.Path | None:
    """The folder of a release's `go`: the installed release, if it has its sources, or else a fetched release."""
    folders = (below(pathlib.Path("/"), release), below(FETCHED / release, release))
    return next((commands for commands in folders if is_whole(commands)), None)


def is_here(release: str) -> bool:
    return here(release) is not None


def commands_of(release: str) -> pathlib.Path:
    """The folder of a release's `go`; fetches the release if it is missing."""
    if release not in SUITES:
        raise RecorderError(messages.UNKNOWN_RELEASE.format(release=release, releases=", ".join(SUITES)))
    if not is_here(release):
        fetch(release)
    commands = here(release)
    if commands is None:
        raise RecorderError(messages.PACKAGE_IS_INCOMPLETE.format(release=release, folder=FETCHED / release))
    return commands


def chosen(release: str) -> Go:
    """The Go of a release, which is then the first on the PATH; without a release, the `go` on the PATH."""
    if release:
        os.environ["PATH"] = f"{commands_of(release)}:{os.environ['PATH']}"
        os.environ["GOTOOLCHAIN"] = "local"
    return find_go()


def run(words: list[str | pathlib.Path], folder: pathlib.Path, **settings: str) -> None:
    """Runs a command that must succeed."""
    try:
        done = subprocess.run(
            words, cwd=folder, env=os.environ | settings, capture_output=True, text=True, errors="replace", check=False
        )
    except OSError as fault:
        raise RecorderError(messages.CANNOT_START.format(program=words[0], why=fault.strerror)) from None
    if done.returncode != 0:
        raise RecorderError(
            messages.COMMAND_FAILED.format(command=" ".join(map(str, words)), why=done.stderr.strip()[-600:])
        )


def own_apt(suite: str) -> pathlib.Path:
    """A configuration of apt with only one suite, and with its lists in this folder."""
    folder = FETCHED / "apt" / suite
    for name in ("lists/partial", "archives/partial"):
        (folder / name).mkdir(parents=True, exist_ok=True)
    (folder / "status").touch()
    (folder / "sources.list").write_text(f"deb [signed-by={KEYS}] {MIRROR} {suite} main\n")
    configuration = folder / "apt.conf"
    configuration.write_text(
        f'Dir::Etc::sourcelist "{folder}/sources.list";\nDir::Etc::sourceparts "-";\nDir::State::lists "{folder}/lists";\n'
        f'Dir::State::status "{folder}/status";\nDir::Cache "{folder}";\nAcquire::Languages "none";\nAPT::Sandbox::User "root";\n'
    )
    return configuration


def fetch(release: str) -> None:
    """Fetches the two packages of a release and unpacks them into a folder, which gets its name when it is complete."""
    settings = {"APT_CONFIG": str(own_apt(SUITES[release]))}
    part = FETCHED / f"{release}.part"
    part.mkdir(parents=True, exist_ok=True)
    packages = [f"golang-{release}-go", f"golang-{release}-src"]
    run(["apt-get", "update"], part, **settings)
    run(["apt-get", "download", *packages], part, **settings)
    for package in part.glob("*.deb"):
        run(["dpkg-deb", "-x", package, "."], part)
        package.unlink()
    part.rename(FETCHED / release)


def main(arguments: list[str]) -> int:
    if len(arguments) != 1:
        print(f"dev.recorder.fetching {' | '.join(SUITES)}", file=sys.stderr)
        return 2
    try:
        print(commands_of(arguments[0]))
    except (RecorderError, OSError) as trouble:
        print(trouble, file=sys.stderr)
        return 3
    return 0


if __name__ == "__main__":
    sys.exit(main(sys.argv[1:]))
