"""A model of netrev in Python: the machine with its 31 kinds of step, and the shared debugger.

It is written only from docs/internals/MACHINE.md, docs/reference/RECORDING.md and docs/reference/COMMANDS.md, and not
from crates/. If the model and the program differ, a page contradicts the program, and either the page or the program
has to change.

    machine, lockword, polling, steps   the machine and its steps
    in_place, changed                   the machine changed in place, with undo, and the cells that a step changed
    changing                            the output of `changes`
    suspects                            the output of `suspects`: deadlines, lost wake-ups, sleepers and held references
    replaying                           the replay of a recording's steps by the machine
    cells, wellformed                   the values of a state's cells, and the invariants of each state
    debugger, session                   the replies to lines of commands
    program, __main__                   the output of `run`, `check`, `upgrade`, `changes` and `suspects`
"""
