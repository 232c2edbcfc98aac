"""netrev-go's help, the help of each command, and usage errors."""

import pytest

from netrev.system.version import VERSION
from netrev_go import cli
from netrev_go.cli import ExitStatus
from netrev_go.options import COMMANDS, parser

GOS_OWN = {"run": "`go help run`", "test": "`go help test`", "build": "`go help build`"}


def printed(capsys: pytest.CaptureFixture[str], *words: str) -> tuple[object, str, str]:
    """The status of netrev-go with these arguments, and its output on standard output and on standard error."""
    try:
        status: object = cli.main(list(words))
    except SystemExit as ended:
        status = ended.code
    output, errors = capsys.readouterr()
    return status, output, errors


def test_the_help_has_each_command_and_each_option(capsys: pytest.CaptureFixture[str]) -> None:
    status, output, errors = printed(capsys, "--help")
    assert (status, errors) == (0, "")
    assert [command for command in COMMANDS if f"\n  netrev-go {command} " not in output] == []
    options = [name for action in parser()._actions for name in action.option_strings]
    assert len(options) > 20 and [name for name in options if name not in output] == []
    assert "\n  netrev-go -o serve -n 10 run . -port 8080\n" in output


@pytest.mark.parametrize("word", ("--help", "-h", "-help"))
@pytest.mark.parametrize("command", COMMANDS)
def test_a_commands_help_has_an_example_and_says_where_gos_own_is(
    capsys: pytest.CaptureFixture[str], command: str, word: str
) -> None:
    status, output, errors = printed(capsys, command, word)
    assert (status, errors) == (ExitStatus.DONE, "")
    assert output.startswith("usage: netrev-go ")
    assert [line for line in output.splitlines() if line.startswith("  ") and "netrev-go" in line] != []
    assert "Go wasn't" not in output and "nothing was recorded" not in output
    if command in GOS_OWN:
        assert GOS_OWN[command] in output.splitlines()[-1]


def test_options_of_tests_are_in_the_help_of_test_alone(capsys: pytest.CaptureFixture[str]) -> None:
    assert "--until-failure" in printed(capsys, "test", "--help")[1]
    assert "--until-failure" not in printed(capsys, "run", "--help")[1]


def test_the_version_is_printed(capsys: pytest.CaptureFixture[str]) -> None:
    assert printed(capsys, "--version") == (0, f"netrev-go {VERSION}\n", "")


@pytest.mark.parametrize(
    ("words", "what"),
    (
        ((), "no command"),
        (("fly",), "invalid choice: 'fly'"),
        (("--nosuch", "run"), "unrecognized arguments: --nosuch"),
    ),
)
def test_a_usage_error_points_to_the_help(
    capsys: pytest.CaptureFixture[str], words: tuple[str, ...], what: str
) -> None:
    status, output, errors = printed(capsys, *words)
    assert (status, output) == (2, "")
    assert what in errors and errors.endswith("`netrev-go --help` lists the commands and options\n")
