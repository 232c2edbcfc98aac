"""Random scripts of command lines: mostly good lines, in all possible spellings, and some bad lines."""

import random
from collections.abc import Sequence

from netrev.machine.cells import CELLS_OF_ALL, CELLS_OF_ONE, SHOWS_DESC, SHOWS_SOCKET
from netrev.text.contents import Limits, Step
from netrev.text.vocabulary import DUMPS, KINDS

NONSENSE = (
    b"frob|stepi 0|stepi -1|stepi +1|stepi 1.0|stepi 4294967296|stepi 1 2|Stepi|ste|break|break @0|break @|"
    b"tbreak|tb|tbreak @0|tbreak @|tbreak clock|tbreak rwlock 1|tbreak @4294967296|Tbreak pop|print shut|print shut x|"
    b"break @4294967296|break jump|break @1 @2|watch|watch clock 1|watch gor|watch gor -1|print|print lock|"
    b"print lock x|print rg 4294967296|p  rq 0|dump|dump in|dump clock|dump in 0 0|info|info marks|"
    b"info position now|delete|delete x|delete checkpoint|delete checkpoint 0|delete 0|restart|restart -1|set|"
    b"set exec-direction|set exec-direction back|checkpoint 1|continue 2|c c|quit now|q 1|resume|resume 1|\tstepi|"
    b"stepi\t1|stepi\r\r|step\xc3\xaf|\xff\xfe|\x00|stepi \x001||   |\r| \r|stepi \xd9\xa3"
).split(b"|")


def every_cell(limits: Limits, length: int, backwards: bool) -> bytes:
    """A script that prints all cells at each position of a recording, forwards or backwards."""
    counts = {"gor": limits.gor, **dict.fromkeys(SHOWS_SOCKET, limits.sock), **dict.fromkeys(SHOWS_DESC, limits.desc)}
    looks = [f"print {cell}" for cell in CELLS_OF_ALL]
    looks += [f"print {cell} {number}" for cell, most in counts.items() for number in range(min(most, 9))]
    looks += [f"dump {dump} {number}" for dump in DUMPS for number in range(min(limits.sock, 3))]
    begin, move = (f"stepi {length + 1}\n", "reverse-stepi\n") if backwards else ("", "stepi\n")
    return (begin + ("".join(f"{look}\n" for look in looks) + move) * (length + 1)).encode()


class Speaker:
    """Makes random lines for a recording, with frequencies that differ from script to script."""

    def __init__(self, dice: random.Random, steps: Sequence[Step]) -> None:
        self.dice = dice
        self.length = len(steps)
        self.kinds = sorted({step[0] for step in steps}) or ["spawn"]
        self.weights = [dice.random() ** 2 + 0.01 for _ in self.SAYINGS]

    def script(self, count: int) -> bytes:
        lines = [self.line() for _ in range(count)]
        if self.dice.random() < 0.05:
            lines.insert(self.dice.randint(0, count), self.dice.choice([b"quit", b"q", b" q "]))
        end = self.dice.choice([b"\n", b"\n", b"\n", b"\r\n"])
        text = end.join(lines)
        return text if self.dice.random() < 0.1 else text + end

    def line(self) -> bytes:
        roll = self.dice.random()
        if roll < 0.06:
            return self.dice.choice(NONSENSE)
        if roll < 0.07:
            return bytes(
                self.dice.choices(bytes(range(256)).replace(b"\n", b""), k=self.dice.choice([1, 5, 30, 256, 257]))
            )
        say = self.dice.choices(self.SAYINGS, self.weights)[0]
        line = say(self).encode()
        return line if self.dice.random() < 0.9 else self.spaced(line)

    def spaced(self, line: bytes) -> bytes:
        """The line with additional spaces, sometimes up to about the greatest length of a line."""
        line = line.replace(b" ", b" " * self.dice.randint(1, 4))
        line = b" " * self.dice.randint(0, 3) + line
        if self.dice.random() < 0.2:
            line = line.ljust(self.dice.choice([255, 256, 257]))
        return line

    def number(self, most: int) -> str:
        """A number of about this size, in one of its spellings."""
        number = self.dice.randint(0, most + 1)
        return f"{self.dice.choice(['', '', '', '0', '000'])}{number}"

    def few(self) -> str:
        return self.number(self.dice.choice([3, 8, 70]))

    def step(self) -> str:
        word = self.dice.choice(["stepi", "si", "reverse-stepi", "rsi"])
        most = self.dice.choice([2, 9, self.length, 2 * self.length])
        return word + self.dice.choice(["", f" {self.number(most)}", f" {self.number(most)}"])

    def far(self) -> str:
        return f"{self.dice.choice(['stepi', 'rsi'])} {self.dice.choice([self.length, self.length + 1, 4_294_967_295])}"

    def seek(self) -> str:
        return self.dice.choice(["continue", "c", "reverse-continue", "rc"])

    def turn(self) -> str:
        return f"set exec-direction {self.dice.choice(['forward', 'reverse'])}"

    def break_(self) -> str:
        kind = self.dice.choice(self.kinds if self.dice.random() < 0.8 else list(KINDS))
        at = f"@{self.number(self.length)}"
        return f"{self.dice.choice(['break', 'b', 'tbreak', 'tb'])} {self.dice.choice([kind, at])}"

    def cell(self) -> str:
        if self.dice.random() < 0.25:
            return self.dice.choice(CELLS_OF_ALL)
        return f"{self.dice.choice(CELLS_OF_ONE)} {self.number(self.dice.choice([0, 0, 1, 2, 8]))}"

    def watch(self) -> str:
        return f"watch {self.cell()}"

    def delete(self) -> str:
        return f"delete {self.few()}"

    def checkpoint(self) -> str:
        return "checkpoint"

    def restart(self) -> str:
        return f"restart {self.few()}"

    def forget(self) -> str:
        return f"delete checkpoint {self.few()}"

    def print_(self) -> str:
        return f"{self.dice.choice(['print', 'p'])} {self.cell()}"

    def dump(self) -> str:
        return f"dump {self.dice.choice(list(DUMPS))} {self.number(self.dice.choice([0, 0, 1, 2]))}"

    def info(self) -> str:
        return f"info {self.dice.choice(['position', 'position', 'breakpoints', 'checkpoints'])}"

    SAYINGS = (
        *(step, step, far, seek, seek, turn, break_, watch, watch, delete, checkpoint, restart, forget),
        *(print_, print_, print_, dump, info),
    )
