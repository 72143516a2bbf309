"""64 clients of one server at once, over random calls, each of which keeps what it was told."""

import queue
import random
import threading
import time
from collections.abc import Callable, Iterator
from functools import partial
from pathlib import Path

from support import plain_model
from support.auditing import Frames
from support.counting import Case, Failure, require, same
from support.serving import ALL_RECORDS, SECONDS, Server, report
from support.sources import numbered, source

PAIRS = 31
FILES, FIFOS, BAD_NAMES = ["a", "b", "c", "d"], ["f", "g"], ["%", "a%2f", ".", "n" * 65]
# Each open of these names has nonblock, and each setfl, so none of these calls waits; they leave alone the ends of a
# pipe that are descriptors 0 and 1.
RANDOM_CALLS = (
    "open {n} {f}|open {n} {f}|open {n} {f}|close {d}|read {d} {c}|read {d} {c}|write {d} {x}|write {d} {x}"
    "|pread {e} {p} {c}|pread {e} {p} {c}|pwrite {e} {p} {x}|pwrite {e} {p} {x}|lseek {e} {o} {w}|lseek {e} {o} {w}"
    "|ftruncate {e} {p}|dup {d}|dup2 {d} {t}|mkfifo {m}|link {n} {n}|unlink {n}|fstat {e}|fstat {e}|fork"
    "|getfl {e}|setfl {d} {f}|rename {n} {n}"
).split("|")
ODDS = {"creat": 0.6, "excl": 0.1, "trunc": 0.15, "append": 0.25}

# What was told of an act: the place, the act, and what came of it.
Told = tuple[int, plain_model.Act, str]


def flags(pick: random.Random) -> str:
    """Flags that never let a call wait."""
    mode = pick.choice(["r", "w", "rw", "rw", "rw", "rw"] if pick.random() < 0.95 else ["-"])
    return ",".join([mode, *(word for word, odds in ODDS.items() if pick.random() < odds), "nonblock"])


def data(pick: random.Random) -> str:
    """Bytes to write."""
    some = pick.randbytes(pick.choice([0, 1, 5, 20, 200, 512]))
    return plain_model.data_text(some or bytes([pick.randrange(256)]) * pick.choice([0, 600, 2_000]))


FIELDS: dict[str, Callable[[random.Random], str]] = {
    "n": lambda pick: pick.choice(pick.choices((FILES, FIFOS, BAD_NAMES), (85, 10, 5))[0]),
    "m": lambda pick: pick.choice(pick.choices((FILES, FIFOS, BAD_NAMES), (10, 85, 5))[0]),
    "f": flags,
    "t": lambda pick: str(pick.choice([2, 3, 4, 5, 6, 31, 32])),
    "c": lambda pick: str(pick.choice([0, 1, 5, 100, 100, 1_024, 65_536, 65_537])),
    "x": data,
    "p": lambda pick: str(pick.choice([0, 0, 1, 3, 10, 100, -1, 5_000, 2**40 - 1, 2**40])),
    "o": lambda pick: str(pick.choice([0, 0, 0, 1, 3, 10, -1, -20, 2**40, 2**63 - 1])),
    "w": lambda pick: pick.choice(["set", "cur", "end"]),
}


class Player:
    """A client that counts for itself what it has moved, and keeps what it was told."""

    def __init__(self, server: Server, pick: random.Random) -> None:
        self.client = server.client()
        self.pick = pick
        self.pid: int | None = None
        self.fds: set[int] = set()
        self.told: list[Told] = []
        self.bytes_in = self.bytes_out = 0

    def open(self, request: str, pid: int | None = None) -> int:
        """Joins or attaches; gives the number of the process."""
        self.client.ask(request)
        place, outcome = self.next_answer()
        require(outcome == "ok" if pid is not None else outcome.isdigit(), f"{request}: {outcome}")
        self.pid = int(outcome) if pid is None else pid
        act = plain_model.Act(None, "join") if pid is None else plain_model.Act(pid, "attach")
        self.told.append((place, act, outcome))
        return self.pid

    def call(self, line: str) -> str:
        """Makes a call, waits where it waits, and gives what comes of it."""
        self.client.ask(line)
        act = plain_model.read_act(f"p{self.pid} {line}".encode())
        moved = 0
        while True:
            place, outcome = self.next_answer()
            self.told.append((place, act, outcome))
            if not outcome.startswith(("parked ", "part ")):
                break
            moved = int(outcome.split(" ")[1])
            act = plain_model.Act(self.pid, "resume")
        word = line.split(" ")[0]
        if word in ("write", "pwrite"):
            self.bytes_in += int(outcome) if outcome.isdigit() else moved
        elif word in ("read", "pread") and not outcome.startswith("error "):
            self.bytes_out += len(plain_model.read_data(outcome.encode()) or b"")
        elif word in ("open", "dup", "dup2") and outcome.isdigit():
            self.fds.add(int(outcome))
        elif word == "close" and outcome == "ok":
            self.fds.discard(int(line.split(" ")[1]))
        return outcome

    def next_answer(self) -> tuple[int, str]:
        """The place and the outcome of the next answer."""
        place, _, outcome = self.client.answer().partition(" ")
        require(place != "-", f"an answer without a place: {outcome}")
        return int(place), outcome

    def random_calls(self, count: int, between: Callable[[], object]) -> None:
        """Makes random calls, and now and then what else it has to do."""
        for _ in range(count):
            choice = self.pick.random()
            if choice < 0.25:
                between()
            elif choice < 0.32:
                self.uses_fifo()
            elif choice < 0.36:
                self.uses_own_pipe()
            else:
                self.call(self.random_call())

    def random_call(self) -> str:
        """A call that does not wait."""
        call = self.pick.choice(RANDOM_CALLS)
        return " ".join(self.field(word[1]) if word.startswith("{") else word for word in call.split(" "))

    def field(self, kind: str) -> str:
        """A field of a random call; a descriptor is mostly one that is open, `d` is none of those that are kept."""
        if kind in FIELDS:
            return FIELDS[kind](self.pick)
        some = sorted(self.fds - {0, 1}) if self.pick.random() < 0.9 else []
        return str(self.pick.choice(some or ([0, 1, -1, 7] if kind == "e" else [2, 7, -1, 32])))

    def uses_fifo(self) -> None:
        """Reads or writes the FIFO whose ends the keeper has open, and waits for it if need be."""
        end = self.pick.choice("rw")
        fd = self.call(f"open q {end}")
        if fd.isdigit():
            if end == "r":
                self.call(f"read {fd} {self.pick.choice([1, 50, 700])}")
            else:
                self.call(f"write {fd} 71*{self.pick.choice([1, 100, 512, 513, 1500])}")
            self.call(f"close {fd}")

    def uses_own_pipe(self) -> None:
        """Makes a pipe, writes into it and reads it out again."""
        ends = self.call("pipe").split(" ")
        if ends[0].isdigit():
            self.call(f"write {ends[1]} 70*{self.pick.choice([1, 512, 1024])}")
            self.call(f"read {ends[0]} 65536")
            self.call(f"close {ends[1]}")
            self.call(f"read {ends[0]} 1")
            self.call(f"close {ends[0]}")


# What a client does to the end, with a queue by which it is told of a child, or tells of one.
Born = queue.Queue[str]
Role = Callable[[Player, Born], None]


class Crowd:
    """64 clients: a keeper with a child, and pairs of a parent and a child with a pipe between them."""

    def __init__(self, server: Server, seed: str, calls: int) -> None:
        self.calls = calls
        self.players = [Player(server, source(seed, number)) for number in range(2 + 2 * PAIRS)]
        self.all_open = threading.Barrier(len(self.players), timeout=SECONDS)
        self.busy = len(self.players) - 1
        self.lock = threading.Lock()
        self.faults: list[str] = []

    def run(self) -> None:
        """Lets all clients play to their end."""
        keeper, helper, *others = self.players
        born: Born = queue.Queue()
        tasks: list[tuple[Role, Player, Born]] = [(self.keep, keeper, born), (self.help, helper, born)]
        for parent, child in zip(others[::2], others[1::2], strict=True):
            born = queue.Queue()
            tasks += [(self.parent, parent, born), (self.child, child, born)]
        threads = [threading.Thread(target=self.guarded, args=task, daemon=True) for task in tasks]
        for thread in threads:
            thread.start()
        until = time.monotonic() + SECONDS + self.calls / 4
        for thread in threads:
            thread.join(max(until - time.monotonic(), 0))
            require(not thread.is_alive(), self.faults[0] if self.faults else "the clients do not come to an end")
        require(not self.faults, self.faults[0] if self.faults else "")

    def guarded(self, role: Role, player: Player, born: Born) -> None:
        """Plays a role, and keeps what went wrong."""
        try:
            role(player, born)
        except (Failure, OSError, threading.BrokenBarrierError, queue.Empty) as fault:
            self.faults.append(f"process {player.pid}: {fault!r}")
        finally:
            with self.lock:
                self.busy -= role != self.keep

    def keep(self, player: Player, born: Born) -> None:
        """The keeper never waits. It reads and writes a FIFO without end, so that nobody waits there for ever."""
        player.open("join")
        opened = {"mkfifo q": "ok", "open q r,nonblock": "0", "open q w,nonblock": "1", "open s rw,creat": "2"}
        for line, wanted in opened.items():
            require(player.call(line) == wanted, line)
        born.put(player.call("fork"))
        self.all_open.wait()
        while self.busy:
            player.call("write 1 6b*300")
            time.sleep(0.003)
            player.call("read 0 1024")
            time.sleep(0.003)

    def help(self, player: Player, born: Born) -> None:
        """The child of the keeper, with which it shares an offset."""
        self.attach(player, born)
        player.random_calls(self.calls, lambda: player.call("write 2 x73"))

    def attach(self, player: Player, born: Born) -> None:
        """Attaches the child that it is told of."""
        child = int(born.get(timeout=SECONDS))
        player.open(f"attach {child}", child)
        self.all_open.wait()

    def parent(self, player: Player, born: Born) -> None:
        """Writes into the pipe, closes it, and waits for nobody."""
        player.open("join")
        require(player.call("pipe") == "0 1", "pipe")
        born.put(player.call("fork"))
        self.all_open.wait()
        player.random_calls(self.calls, partial(self.writes, player))
        require(player.call("close 1") == "ok", "close 1")

    def child(self, player: Player, born: Born) -> None:
        """Reads the pipe to its end."""
        self.attach(player, born)
        require(player.call("close 1") == "ok", "close 1")
        player.random_calls(self.calls, lambda: player.call(f"read 0 {player.pick.choice([1, 10, 300, 1024, 5000])}"))
        while player.call("read 0 65536") != "x":
            pass

    def writes(self, player: Player) -> None:
        """Writes into the pipe."""
        byte, count = player.pick.randrange(256), player.pick.choice([1, 100, 512, 513, 1024, 3000])
        player.call(f"write 1 {byte:02x}*{count}")

    def judged(self) -> tuple[int, int, int]:
        """What was told is all that there is, and what the model gives.

        It gives the records, and the bytes in and out, that the clients have counted.
        """
        told = sorted((row for player in self.players for row in player.told), key=lambda row: row[0])
        places = [place for place, _, _ in told]
        require(places == list(range(len(told))), "the places are not all that there are, each once")
        run = plain_model.Run(ALL_RECORDS)
        for place, act, outcome in told:
            run.take(act)
            line = run.lines[-1].rstrip("\n")
            is_right = line.startswith(f"{place} ") and line.endswith(f" = {outcome}")
            require(is_right, f"the model gives {line[:200]}, the server {place} {outcome[:100]}")
        bytes_in = sum(player.bytes_in for player in self.players)
        bytes_out = sum(player.bytes_out for player in self.players)
        require(
            (bytes_in, bytes_out) == (run.world.bytes_in, run.world.bytes_out),
            "the clients' counts are not the model's",
        )
        return len(told), bytes_in, bytes_out


    def are_traced(self, trace: bytes) -> None:
        """What was told is what the trace holds at these places; the exits and the closing come after it."""
        lines = Frames(trace).lines
        for place, act, outcome in (row for player in self.players for row in player.told):
            who = act._replace(actor=int(outcome)) if act.word == "join" else act
            same(f"{place} {plain_model.act_text(who)} = {outcome}", lines[place])


def crowd(program: str, seed: str, calls: int) -> None:
    """64 clients at once."""
    with Server(program, 2 + 2 * PAIRS, ALL_RECORDS) as server:
        clients = Crowd(server, seed, calls)
        clients.run()
        records, bytes_in, bytes_out = clients.judged()
        for player in clients.players:
            player.client.vanish()
        count = len(clients.players)
        server.ended(report(count, records + count + 1, bytes_in, bytes_out))
        clients.are_traced(Path(server.trace).read_bytes())


def cases(program: str, seed: str, count: int, calls: int) -> Iterator[Case]:
    """So many crowds, each with choices of its own."""
    for number in range(count):
        yield numbered("64 clients, run", seed, number), partial(crowd, program, f"{seed} {number}", calls)
