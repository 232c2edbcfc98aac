"""Makes a long random recording of one of two programs with a bug, from a seed:

    python3 -m dev.fuzz.generators.long_hunts keeper|refused STEPS OUT.jsonl [SEED]

`keeper`: each connection has a reader goroutine, and a keeper goroutine that extends the read deadline. From some step
on, one keeper extends the write deadline in place of the read deadline. So the old timer fires, and a reader gives up a
connection that was meant to stay alive.

`refused`: each request is a write with a deadline. If a write times out, the program checks the connection with
`RawConn.Control`. One such call never drops its reference, and a later Close hangs.
"""

import sys
from pathlib import Path

from netrev.text.contents import Limits

from .little_go import LittleProgram, Turns

SEEDS = {"keeper": 17, "refused": 29}


class Hunt(LittleProgram):
    """A program that opens connections until it has made this many steps."""

    limits_of = Limits(gor=4000, sock=250, desc=24, buf=64)
    most_live, most_connections = 18, 245

    def __init__(self, seed: int, length: int, has_bug: bool = True):
        super().__init__(seed, self.limits_of)
        self.length, self.has_bug = length, has_bug
        self.live: set[int] = set()
        self.connection_count = 0
        self.planted: tuple[int, int] | None = None  # the goroutine and the socket with the bug

    def run(self) -> "Hunt":
        """Adds steps until the recording has the requested length."""
        while len(self.steps) < self.length:
            self.move()
        return self

    def move(self) -> None:
        """Opens a connection, or lets a goroutine, the network or the clock make a step."""
        chance, ready = self.dice.random(), self.ready()
        if chance < 0.05 and self.has_room():
            self.connection_count += 1
            self.go(self.connection)
        elif chance < self.share_of_goroutines and ready:
            self.turn(self.dice.choice(ready))
        elif chance < 0.95 and self.live:
            self.use_network(self.dice.choice(sorted(self.live)))
        else:
            self.pass_time(self.longest_tick)

    share_of_goroutines, longest_tick = 0.8, 1_500

    def has_room(self) -> bool:
        """Whether another connection may be opened."""
        return (
            len(self.live) < self.most_live
            and self.connection_count < self.most_connections
            and len(self.steps) < self.length * 0.95
        )

    def opened(self, g: int, rooms: tuple[int, int]) -> Turns:
        """Opens a connection and returns its socket."""
        s: int = self.do("sockopen", *rooms)[1]
        yield
        while not (opened := self.may("pollopen", g, s)):
            yield
        self.descriptors[s] = opened[1]
        yield
        self.live.add(s)
        return s

    def closed(self, g: int, s: int) -> Turns:
        """Closes a connection."""
        if self.do("increfclose", g, s)[0] == "yes":
            yield
            yield from self.goes_on(g)
            self.do("evict", g, self.descriptors[s])
            yield
            yield from self.decref(g, s)
        self.live.discard(s)

    def is_open(self, s: int) -> bool:
        """Whether the socket isn't closed."""
        return not self.world.sockets[s].lock.closed

    def connection(self, g: int) -> Turns:
        """The actions of the goroutine of a connection."""
        raise NotImplementedError

    def use_network(self, s: int) -> None:
        """The network does something with a socket."""
        raise NotImplementedError


class Keeper(Hunt):
    """Keep-alives."""

    def connection(self, g: int) -> Turns:
        s: int = yield from self.opened(g, (64, 64))
        yield from self.set_deadline(g, s, "r", 400_000)
        is_done: list[bool] = []
        self.go(lambda keeper: self.keep(keeper, s, is_done))
        for _ in range(self.dice.randrange(40, 90)):
            if (yield from self.read(g, s, 16)) <= 0:
                break
            if self.dice.random() < 0.3:
                yield from self.write(g, s, b"ok")
        is_done.append(True)
        yield from self.closed(g, s)

    def keep(self, g: int, s: int, is_done: list[bool]) -> Turns:
        """Extends the deadline of a connection repeatedly. With the bug, it extends the deadline of the wrong side from
        some step on."""
        times = 0
        while not is_done:
            for _ in range(self.dice.randrange(10, 40)):
                yield
            if is_done:
                return
            times += 1
            if self.has_bug and not self.planted and times > 3 and len(self.steps) > self.length * 0.6:
                self.planted = g, s
            yield from self.set_deadline(g, s, "w" if self.planted == (g, s) else "r", 400_000)

    def use_network(self, s: int) -> None:
        if self.planted and self.planted[1] == s:
            return  # (its peer is silent)
        if self.dice.random() < 0.67:
            if self.is_open(s):
                self.arrive(s, b"ping")
        elif held := len(self.world.sockets[s].buffers[1]):
            self.drain(s, held)


class Refused(Hunt):
    """Requests with deadlines, some of which time out."""

    limits_of = Limits(gor=4000, sock=200, desc=16, buf=64)
    most_live, most_connections = 10, 195
    share_of_goroutines, longest_tick = 0.85, 900

    def run(self) -> "Hunt":
        super().run()
        self.let_all_end()
        return self

    def let_all_end(self) -> None:
        """Runs the program until the network has taken all written bytes and no goroutine can continue; no more bytes
        arrive."""
        while True:
            if ready := self.ready():
                self.turn(self.dice.choice(ready))
                continue
            held = [s for s in sorted(self.live) if self.is_open(s) and self.world.sockets[s].buffers[1]]
            if not held:
                return
            for s in held:
                self.drain(s, len(self.world.sockets[s].buffers[1]))

    def connection(self, g: int) -> Turns:
        s: int = yield from self.opened(g, (64, 32))
        self.go(lambda pump: self.pump(pump, s))
        for _ in range(self.dice.randrange(max(self.length // 1500, 4), max(self.length // 700, 8))):
            yield from self.set_deadline(g, s, "w", 40_000)
            if (yield from self.write(g, s, b"request" * self.dice.randrange(1, 4))) < 0:
                yield from self.control(g, s, may_leak=True)
                if self.dice.random() < 0.5:
                    break
            yield from self.set_deadline(g, s, "w", 0)
            if self.dice.random() < 0.2:
                yield from self.control(g, s, may_leak=False)
        yield from self.closed(g, s)

    def pump(self, g: int, s: int) -> Turns:
        """Reads the answers."""
        while (yield from self.read(g, s, 16)) > 0:
            pass

    def control(self, g: int, s: int, may_leak: bool) -> Turns:
        """`RawConn.Control`. With the bug, one call after a failed write doesn't drop its reference."""
        if self.do("incref", g, s)[0] != "yes":
            return (yield)
        for _ in range(4):
            yield
        if may_leak and self.has_bug and not self.planted and len(self.steps) > self.length * 0.55:
            self.planted = g, s
            return
        yield from self.decref(g, s)

    def use_network(self, s: int) -> None:
        if not self.is_open(s) or self.dice.random() < 0.1:
            return
        if self.dice.random() < 0.5:
            if len(self.world.sockets[s].buffers[0]) < 40:
                self.arrive(s, b"answer")
        elif self.dice.random() < 0.35 and (held := len(self.world.sockets[s].buffers[1])):
            self.drain(s, held)


HUNTS: dict[str, type[Hunt]] = {"keeper": Keeper, "refused": Refused}


def hunt_of(name: str, length: int, has_bug: bool = True) -> Hunt:
    """The hunt of that name, with this many steps or a few more."""
    return HUNTS[name](SEEDS[name], length, has_bug).run()


def main(words: list[str]) -> None:
    """Writes a recording, and prints the planted bug."""
    name, length, out, *seed = words
    hunt = HUNTS[name](int(seed[0]) if seed else SEEDS[name], int(length)).run()
    Path(out).write_bytes(hunt.text())
    print(f"{out}: {len(hunt.steps)} steps; the bug is of goroutine and socket {hunt.planted}")


if __name__ == "__main__":
    main(sys.argv[1:])
