"""The sessions in docs/ are nrdb's output, and so are the explanations of refused recordings.
tests/program/tools/test_readme_commands.py runs README.md."""

import os
import re
import tempfile

from netrev.session.commands import OF_NRDB, TOPICS, Origin

from .common.support import ROOT, nrdb

PROMPT = "(netrev) "
RECORDING = re.compile(r"(?:examples|python/tests/caused)/[\w/-]+\.jsonl")


def sessions(text):
    """The blocks of a page that begin with a prompt, each with the recording that the page names last before the
    block."""
    for block in re.finditer(r"(?:^    .*\n)+", text, re.MULTILINE):
        lines = [line[4:] for line in block[0].splitlines()]
        if lines[0].startswith(PROMPT):
            yield RECORDING.findall(text[: block.start()])[-1], lines


def refusals(text):
    """The blocks of a page that begin by calling nrdb with only a recording of examples/: the recording, and the lines
    up to a final `...`, if any."""
    for block in re.finditer(r"^    \$ ./nrdb (examples/\S+)\n((?:    .*\n)+)", text, re.MULTILINE):
        yield block[1], [line[4:] for line in block[2].splitlines()]


def calls(text):
    """The blocks of a page that begin by calling nrdb with options and a recording of examples/: the arguments of the
    call, and the lines."""
    for block in re.finditer(r"^    \$ ./nrdb (-.* examples/\S+)\n((?:    .*\n)+)", text, re.MULTILINE):
        yield block[1].split(), [line[4:] for line in block[2].splitlines()]


def as_shown(lines):
    """A pattern for the output that some lines show: `..` matches any lines, and a duration matches any duration."""
    shown = "".join(r"(?:.*\n)+" if line == ".." else f"{re.escape(line)}\n" for line in lines)
    return re.sub(r"\d+\\\.\d\\ s\b", r"\\d+\\.\\d s", shown)


def test_calls_with_options_print_what_is_shown(cleanups):
    count, here = 0, os.getcwd()
    cleanups.callback(os.chdir, here)
    for page in sorted((ROOT / "docs").rglob("*.md")):
        for words, lines in calls(page.read_text(encoding="utf-8")):
            with tempfile.TemporaryDirectory() as folder:
                os.chdir(folder)
                status = 4 if "--explore" in words else 0
                output = nrdb(*words[:-1], ROOT / words[-1], status=status)
                os.chdir(here)
                assert re.search(f"\\A{as_shown(lines)}\\Z", output), (page.name, words)
            count += 1
    assert count >= 2


def test_sessions_are_what_is_printed():
    count = 0
    for page in sorted((ROOT / "docs").rglob("*.md")):
        for recording, lines in sessions(page.read_text(encoding="utf-8")):
            request = [line[len(PROMPT) :] for line in lines if line.startswith(PROMPT)]
            words = [word for line in request for word in ("-ex", line)]
            output = nrdb("--batch", *words, ROOT / recording).splitlines()
            assert output[2:] == lines, (page.name, recording)
            count += 1
    assert count >= 12


def test_each_command_and_topic_has_its_row():
    page = (ROOT / "docs/reference/NRDB.md").read_text(encoding="utf-8")
    for name in (
        *OF_NRDB,
        *(f"info {topic.usage.split()[0]}" for topic in TOPICS.values() if topic.origin is Origin.NRDB),
    ):
        assert re.search(rf"`{name}[ `]", page), name


def test_refused_recordings_are_explained_as_is_shown():
    count = 0
    for page in sorted((ROOT / "docs").rglob("*.md")):
        for recording, lines in refusals(page.read_text(encoding="utf-8")):
            output = nrdb("--batch", ROOT / recording, status=1).splitlines()
            shown = lines[:-1] if lines[-1] == "..." else lines
            assert output[: len(shown)] == shown, (page.name, recording)
            assert (len(output) == len(shown)) == (lines[-1] != "..."), (page.name, recording)
            count += 1
    assert count >= 1
