"""Histories that the plain model makes: calls of several processes in some order, each with times around its own."""

import random
from collections.abc import Callable, Sequence
from typing import NamedTuple, Self

from support import plain_model
from support.auditing import act_of
from support.histories import WAITS, Noted
from support.walks import Walk
from support.worlds import Stepper

# How far apart two acts of a run are.
TICK = 1_000


class Parts(NamedTuple):
    """What a race runs: lines that come first, one after another, and the lines of each process, all at once."""

    first: Sequence[str]
    lines: Sequence[Sequence[str]]


class Begun(NamedTuple):
    """A call of a run: when it began, when it ended, if it has, what it is, and what it gave."""

    at: int
    ended: int | None
    act: plain_model.Act
    outcome: str


class Made:
    """A run of the model, and the history that it makes. The times of a call lie around the acts by which it began and
    ended, up to `slack` acts away."""

    def __init__(self, pick: random.Random, slack: float) -> None:
        self.pick = pick
        self.slack = slack
        self.stepper = Stepper()
        self.now = 0
        self.calls: dict[int, list[Begun]] = {}

    def race(self, parts: Parts) -> Self:
        """Runs the first lines, and then those of all processes in a random order, until all wait or have ended."""
        for line in parts.first:
            self.act(act_of(line))
        left = {number: [act_of(f"p{number} {line}") for line in lines] for number, lines in enumerate(parts.lines)}
        while able := [number for number in left if self.is_able(number, left[number])]:
            number = self.pick.choice(able)
            self.act(plain_model.Act(number, "resume") if self.waits(number) else left[number].pop(0))
        return self

    def waits(self, number: int) -> bool:
        """Whether a process waits."""
        process = self.stepper.world.processes.get(number)
        return process is not None and process.waits is not None

    def is_able(self, number: int, left: Sequence[plain_model.Act]) -> bool:
        """Whether a process can go on."""
        process = self.stepper.world.processes.get(number)
        if not process:
            return False
        return process.waits.is_ready(self.stepper.world) if process.waits else bool(left)

    def act(self, act: plain_model.Act) -> None:
        """Lets an act take place, and notes it, if it leaves a record."""
        self.now += TICK
        number = self.stepper.world.next_number if act.word == "join" else act.actor
        self.stepper.take(act)
        if self.stepper.outcome is None:
            return
        assert isinstance(number, int)
        calls = self.calls.setdefault(number, [])
        begun = calls.pop() if act.word == "resume" else Begun(self.now, None, act._replace(actor=number), "")
        if self.waits(number):
            calls.append(begun._replace(outcome=WAITS))
        else:
            calls.append(begun._replace(ended=self.now, outcome=self.stepper.outcome))

    def history(self) -> list[Noted]:
        """The history, with random times that fit."""
        return sorted((noted for calls in self.calls.values() for noted in self.timed(calls)), key=lambda it: it.start)

    def timed(self, calls: Sequence[Begun]) -> list[Noted]:
        """The calls of a process, with random times."""
        found: list[Noted] = []
        free = 0
        for place, call in enumerate(calls):
            start = max(free, call.at - self.away())
            end = None if call.ended is None else call.ended + self.away()
            if end is not None and place + 1 < len(calls):
                end = min(end, calls[place + 1].at - 1)
            found.append(Noted(start, end, call.act, call.outcome))
            free = 0 if end is None else end + self.pick.choice([0, 1])
        return found

    def away(self) -> int:
        """How far a time lies from its act."""
        return self.pick.randrange(1 + int(TICK * self.slack * self.pick.random()))


def walked(pick: random.Random, count: int, slack: float) -> Made:
    """A random walk as a run, in which what has waited goes on at the end."""
    walk = Walk(pick, plain_model.Run())
    walk.walk(count)
    made = Made(pick, slack)
    for line in walk.lines:
        act = plain_model.read_act(line)
        if act.word == "close-run" or (act.word == "attach" and not is_child(made, act)):
            continue
        # in a history nothing comes after a call that waits
        if act.word == "exit" and isinstance(act.actor, int) and made.waits(act.actor):
            continue
        made.act(act)
    for number in list(made.stepper.world.processes):
        while made.waits(number) and made.is_able(number, ()):
            made.act(plain_model.Act(number, "resume"))
    return made


def is_child(made: Made, act: plain_model.Act) -> bool:
    """Whether an attach is that of a child."""
    process = made.stepper.world.processes.get(act.actor) if isinstance(act.actor, int) else None
    return process is not None and not process.attached


# ---- kinds of races

Race = Callable[[random.Random, int, int], Parts]
# The lines of which one is chosen for a call of a process, by the numbers of both.
Choice = Callable[[int, int], Sequence[str]]

LOOK = "pread 0 0 65536"
READS = [f"read 0 {count}" for count in (50, 500, 1_024)]


def data(process: int, number: int, count: int) -> str:
    """Bytes, an even number of them, that tell who wrote them and in which of its calls."""
    return plain_model.data_text(bytes([0x41 + process, 0x30 + number % 64]) * (count // 2))


def forked(lines: Sequence[str], processes: int) -> list[str]:
    """Lines of the first process, and forks of all others."""
    others = [line for number in range(1, processes) for line in ("p0 fork", f"p{number} attach")]
    return ["p0 join", *(f"p0 {line}" for line in lines), *others]


def many(pick: random.Random, processes: int, calls: int, choice: Choice) -> list[list[str]]:
    """So many lines for each process."""
    return [[pick.choice(choice(process, number)) for number in range(calls)] for process in range(processes)]


def shared_offset(pick: random.Random, processes: int, calls: int) -> Parts:
    """Reads, writes and moves of one offset."""

    def choice(process: int, number: int) -> Sequence[str]:
        moves = [f"lseek 0 {pick.randrange(20)} set", "lseek 0 0 cur"]
        return [f"write 0 {data(process, number, 4)}", "read 0 3", *moves]

    first = ["open a rw,creat", "write 0 x000102030405060708090a0b0c0d"]
    return Parts(forked(first, processes), many(pick, processes, calls, choice))


def shared_writes(pick: random.Random, processes: int, calls: int) -> Parts:
    """Writes at one offset, and a look at all of them by the first process."""
    lines = many(pick, processes, calls, lambda process, number: [f"write 0 {data(process, number, 4)}"])
    lines[0].append(LOOK)
    return Parts(forked(["open a rw,creat"], processes), lines)


def appends(pick: random.Random, processes: int, calls: int) -> Parts:
    """Appends by descriptions of their own, with a look now and then."""

    def choice(process: int, number: int) -> Sequence[str]:
        return [f"write 1 {data(process, number, 6)}"] * 9 + [LOOK]

    lines = [["open a w,append", *part] for part in many(pick, processes, calls - 1, choice)]
    return Parts(forked(["open a rw,creat"], processes), lines)


def blind_appends(pick: random.Random, processes: int, calls: int) -> Parts:
    """Appends that one looks at when it has made its own."""
    lines = many(pick, processes, calls - 1, lambda process, number: [f"write 1 {data(process, number, 6)}"])
    lines = [["open a w,append", *part] for part in lines]
    lines[0].append(LOOK)
    return Parts(forked(["open a rw,creat"], processes), lines)


def overlapping(pick: random.Random, processes: int, calls: int) -> Parts:
    """Preads and pwrites that overlap, and changes of the length."""

    def choice(process: int, number: int) -> Sequence[str]:
        at = pick.randrange(12)
        writes = [f"pwrite 0 {at} {data(process, number, 8)}"] * 3
        return [*writes, *["pread 0 0 30"] * 3, f"ftruncate 0 {at}", "fstat 0"]

    return Parts(forked(["open a rw,creat"], processes), many(pick, processes, calls, choice))


def names(pick: random.Random, processes: int, calls: int) -> Parts:
    """Names that come and go, with what is behind them."""

    def choice(process: int, number: int) -> Sequence[str]:
        one, other = pick.choice("ab"), pick.choice("ab")
        opens = [f"open {one} {flags}" for flags in ("rw,creat", "rw", "rw,creat,excl", "rw,trunc")]
        uses = ["fstat 0", "close 1", f"write 1 {data(process, number, 2)}", "pread 1 0 9"]
        return [*opens, f"unlink {one}", f"link {one} {other}", *uses]

    return Parts(forked(["open a rw,creat"], processes), many(pick, processes, calls, choice))


def renames(pick: random.Random, processes: int, calls: int) -> Parts:
    """Names that are renamed over others, with what is behind them."""

    def choice(process: int, number: int) -> Sequence[str]:
        one, other = pick.sample("abc", 2)
        opens = [f"open {one} r", f"open {one} rw,creat", f"open {one} rw,creat,excl"]
        return [*[f"rename {one} {other}"] * 3, *opens, f"unlink {one}", f"link {one} {other}", "fstat 0", "fstat 1"]

    first = ["open a rw,creat", "open b rw,creat", "write 1 x61"]
    return Parts(forked(first, processes), many(pick, processes, calls, choice))


def append_is_set(pick: random.Random, processes: int, calls: int) -> Parts:
    """Setfls of a file, with reads and writes of one description, and writes of another one."""

    def choice(process: int, number: int) -> Sequence[str]:
        sets = [f"setfl 0 {flags}" for flags in ("-", "rw,append", "-,append,nonblock")]
        writes = [f"write {fd} {data(process, number, 2)}" for fd in (0, 0, 1)]
        return [*sets, *writes, "read 0 3", "getfl 0", "lseek 0 0 cur", LOOK]

    first = ["open a rw,creat", "open a w,append", "write 0 x61626364", "lseek 0 0 set"]
    return Parts(forked(first, processes), many(pick, processes, calls, choice))


def nonblock_is_set(pick: random.Random, processes: int, calls: int) -> Parts:
    """Setfls of both ends of a pipe, with reads and writes."""

    def choice(process: int, number: int) -> Sequence[str]:
        sets = [f"setfl {fd} {flags}" for fd in (0, 1) for flags in ("-", "-,nonblock")]
        writes = [f"write 1 {data(process, number, count)}" for count in (2, 400, 600)]
        return [*sets, *writes, *READS, "getfl 0"]

    return Parts(forked(["pipe"], processes), many(pick, processes, calls, choice))


def descriptors(pick: random.Random, processes: int, calls: int) -> Parts:
    """Uses of two files, of which now one and now the other is behind a descriptor."""

    def choice(process: int, number: int) -> Sequence[str]:
        changes = ["dup2 0 2", "dup2 1 2", "close 2", "dup 0"]
        return [*changes, f"write 2 {data(process, number, 2)}", "lseek 0 0 cur", "lseek 1 0 cur", "read 2 1"]

    first = ["open a rw,creat", "open b rw,creat,append"]
    return Parts(forked(first, processes), many(pick, processes, calls, choice))


def writers(pick: random.Random, processes: int, calls: int, low: int, high: int) -> list[list[str]]:
    """Writes of each process into a pipe, of 2 * low bytes or more and less than 2 * high."""

    def choice(process: int, number: int) -> Sequence[str]:
        return [f"write 1 {data(process, number, 2 * pick.randrange(low, high))}"]

    return many(pick, processes, calls, choice)


def one_reader(pick: random.Random, processes: int, calls: int) -> Parts:
    """One reads a pipe into which the others write."""
    lines = writers(pick, processes, calls, 1, 60)
    lines[0] = [pick.choice(READS) for _ in range(calls)]
    return Parts(forked(["pipe"], processes), lines)


def two_readers(pick: random.Random, processes: int, calls: int) -> Parts:
    """Two read a pipe into which the others write, up to its end."""
    lines = [[*part, "exit"] for part in writers(pick, processes, calls, 1, 60)]
    lines[:2] = [["close 1", *(pick.choice(READS) for _ in range(calls))] for _ in range(2)]
    return Parts(forked(["pipe"], processes), lines)


def large_writes(pick: random.Random, processes: int, calls: int) -> Parts:
    """One reads a pipe into which the others write, also more than PIPE_BUF at once."""
    lines = writers(pick, processes, calls, 200, 500)
    lines[0] = [pick.choice(READS) for _ in range(calls)]
    return Parts(forked(["pipe"], processes), lines)


def fifos(pick: random.Random, processes: int, calls: int) -> Parts:
    """Openings of a FIFO, with a few bytes that go through it."""

    def choice(process: int, number: int) -> Sequence[str]:
        opens = [f"open f {flags}" for flags in ("r", "w", "r,nonblock", "w,nonblock")]
        return [*opens, "close 0", "close 1", f"write 0 {data(process, number, 2)}", "read 0 2"]

    return Parts(forked(["mkfifo f"], processes), many(pick, processes, calls, choice))


EVERY: list[Race] = [
    shared_offset,
    shared_writes,
    appends,
    blind_appends,
    overlapping,
    names,
    renames,
    append_is_set,
    nonblock_is_set,
    descriptors,
    one_reader,
    two_readers,
    large_writes,
    fifos,
]
RACES = {race.__name__: race for race in EVERY}
