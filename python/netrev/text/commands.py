"""netrev's own commands, in one table with a row for each."""

from dataclasses import dataclass


@dataclass(frozen=True)
class Command:
    """A command: its name, its usage, what it does, and its short names. If the command steps, an empty line in nrdb
    repeats it."""

    name: str
    usage: str
    says: str
    short: tuple[str, ...] = ()
    steps: bool = False


def command(usage: str, says: str, short: str = "", steps: bool = False) -> Command:
    """The row of a command, whose usage begins with its name."""
    return Command(usage.split()[0], usage, says, tuple(short.split()), steps)


ROWS = (
    command("stepi [N]", "goes N steps forwards, 1 by default", "si", steps=True),
    command("reverse-stepi [N]", "goes N steps backwards", "rsi", steps=True),
    command("continue", "goes to the next position at which a mark hits, or to the end", "c", steps=True),
    command(
        "reverse-continue", "goes back to the last position at which a mark hits, or to the start", "rc", steps=True
    ),
    command("set exec-direction reverse|forward", "sets the direction of stepi and continue"),
    command("break KIND | @K", "stops before each step of a kind, or before step K", "b"),
    command("tbreak KIND | @K", "like break, but its first stop deletes it", "tb"),
    command("watch CELL", "stops after each change of a cell"),
    command("delete N | checkpoint N", "deletes mark N, or checkpoint N"),
    command("checkpoint", "saves the position"),
    command("restart N", "goes to checkpoint N; 0 is the start"),
    command("print CELL", "shows the value of a cell", "p"),
    command("dump in|out|rq|wq S", "shows a buffer's bytes, or the queued goroutines"),
    command("info TOPIC", "shows a topic: `help info` lists the topics"),
    command("resume", "prints the reply that is due after fault 302"),
    command("quit", "ends the session", "q"),
)
OF_NETREV = {row.name: row for row in ROWS}
SHORT = {short: row.name for row in ROWS for short in row.short}
