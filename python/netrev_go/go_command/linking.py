"""Lets repeated test runs skip the linker: its output is stored under Go's ID for it, which depends on all inputs, and
copied instead of linking again. Everything else, and the output, stays as Go makes it."""

from __future__ import annotations

import contextlib
import pathlib
import shutil
import tempfile
from collections.abc import Iterator

from .toolchain import Go

PART = 4  # the largest part of the free space that is used: a quarter
# flags with which every run links: the first is the user's own, the others print each command
FLAGS = ("toolexec", "x", "n")
# Go runs each tool through this script: sh keep FOLDER KILOBYTES TOOL WORDS
KEEP = r"""kept=$1 most=$2
shift 2
case ${1##*/} in link) ;; *) exec "$@" ;; esac
id= out= last=
for word; do
	case $word in -buildid=*) id=${word#*=} ;; esac
	[ "$last" = -o ] && out=$word
	last=$word
done
[ "$id" ] && [ "$out" ] || exec "$@"
name=$kept/made.$(printf %s "$id" | tr / .)
[ -f "$name" ] && cp "$name" "$out" && exit
"$@" || exit
[ "$(du -sk "$kept" | cut -f1)" -lt "$most" ] || exit 0
cp "$out" "$name-$$" && mv "$name-$$" "$name" || rm -f "$name-$$"
"""


def is_in_the_way(word: str) -> bool:
    """Whether this flag of Go turns the store off."""
    name = word.partition("=")[0]
    return name.startswith("-") and name.lstrip("-") in FLAGS


@contextlib.contextmanager
def kept(go: Go, words: list[str], is_again: bool) -> Iterator[list[str]]:
    """Flags that make Go run its linker only once; none if the tests run only once."""
    if not is_again or any(map(is_in_the_way, [*words, *go.flags.split()])):
        yield []
        return
    with tempfile.TemporaryDirectory(prefix="netrev-link-", ignore_cleanup_errors=True) as folder:
        script = pathlib.Path(folder, "keep")
        script.write_text(KEEP)
        room = shutil.disk_usage(folder).free // 1024 // PART
        yield [] if "'" in folder else [f"-toolexec=sh '{script}' '{folder}' {room}"]
