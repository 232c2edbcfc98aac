"""Prints a recorder's log as text; the program must be beside the log:

    python3 python tests.support.golog LOG"""

import pathlib
import sys

from dev.fuzz.generators.logs import to_text
from netrev_go.go_command.line_reader import line_reader
from netrev_go.go_command.toolchain import find_go
from netrev_go.log.logfile import read_log
from netrev_go.log.source_lines import looked_up
from netrev_go.steps.conversion import program_of


def main(path: pathlib.Path) -> None:
    log, go = read_log(path), find_go()
    stacks = [log.stacks[point.stack] for point in log.points if point.stack in log.stacks]
    addresses = {address - 1 for stack in stacks for address in (stack.made, *stack.calls) if address}
    with program_of(path, log).open("rb") as program:
        print(to_text(log, looked_up(program, line_reader(go), addresses, 0)), end="")


if __name__ == "__main__":
    main(pathlib.Path(sys.argv[1]))
