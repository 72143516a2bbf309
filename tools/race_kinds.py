"""The kinds of races that tools/race.py makes: what several processes do at once that has to be one after another.

A kind makes a script of tools/race_kernel.c from a source of random choices: what is made before, the line `race`, and
the part of each process. Scripts are small, so that the order of a history is found soon, and each write has bytes of
its own, so that it is seen whence they came. What the profile decides, and no standard, does not occur: pipes are
never full, no fstat of a pipe is asked, and no name or count is refused.
"""

import random
from collections.abc import Callable, Sequence

# Bytes of small calls, and of those that take several pages.
SMALL = (1, 2, 3, 4, 7, 16)
LARGE = (4_096, 8_192, 8_192, 12_288, 12_288, 16_384, 16_384, 65_536)
PAGE = 4_096
# Sizes of writes to a pipe, of which the greatest is the profile's PIPE_BUF, and what all of them may come to.
PIPE_SIZES = (1, 2, 30, 100, 512)
PIPE_ROOM = 1_000

# A call, as a script has it after its process: what makes it has the script, whose bytes and choices it takes.
Way = Callable[["Script"], str]


class Script:
    """A script of a race that is being made."""

    def __init__(self, pick: random.Random, processes: int) -> None:
        self.pick = pick
        self.processes = processes
        self.lines: list[str] = []
        self.parts: list[str] = []
        self.written = 0

    def before(self, *lines: str) -> None:
        """Acts before the race."""
        self.lines += lines

    def forks(self) -> None:
        """All processes but the first are its children."""
        for child in range(1, self.processes):
            self.before("p0 fork", f"p{child} attach")

    def joins(self, *calls: str) -> None:
        """Each process joins by itself, and makes these calls."""
        self.before(*["join"] * self.processes)
        self.before(*(f"p{process} {call}" for process in range(self.processes) for call in calls))

    def own_bytes(self, count: int) -> str:
        """So many bytes that no other write of the script has."""
        self.written += 1
        return f"{0x60 + self.written:02x}*{count}"

    def small(self) -> int:
        """How many bytes a small call moves."""
        return self.pick.choice(SMALL)

    def part(self, process: int, ways: Sequence[Way], least: int = 2, most: int = 3) -> None:
        """Calls of one process in the race, each made in one of these ways."""
        for _ in range(self.pick.randint(least, most)):
            self.parts.append(f"p{process} {self.pick.choice(ways)(self)}")

    def all_parts(self, ways: Sequence[Way], least: int = 2, most: int = 3) -> None:
        """The parts of all processes."""
        for process in range(self.processes):
            self.part(process, ways, least, most)

    def opens_with_look(self, flags: str) -> None:
        """Each process opens f for itself, at descriptor 2. By a pipe the last one is told when others have ended."""
        self.before("join", "p0 pipe")
        self.forks()
        self.before(*(f"p{process} open f {flags}" for process in range(self.processes)))

    def parts_with_look(self, ways: Sequence[Way], least: int, most: int, *looks: str) -> None:
        """The parts of all processes; the last one looks at what there is when the others have ended theirs."""
        looker = self.processes - 1
        for process in range(looker):
            self.part(process, ways, least, most)
            self.parts.append(f"p{process} write 1 21*1")
        self.parts += [f"p{looker} read 0 1"] * looker + [f"p{looker} {look}" for look in looks]

    def text(self) -> str:
        """The script."""
        return "".join(f"{line}\n" for line in [*self.lines, "race", *self.parts])


# ---- ways to make a call


def read(fd: int) -> Way:
    """A read of a few bytes."""
    return lambda script: f"read {fd} {script.small()}"


def write(fd: int) -> Way:
    """A write of a few bytes."""
    return lambda script: f"write {fd} {script.own_bytes(script.small())}"


def pread(fd: int, end: int) -> Way:
    """A pread that begins below an end."""
    return lambda script: f"pread {fd} {script.pick.randrange(end)} {script.pick.choice([*SMALL, end])}"


def pwrite(fd: int, end: int) -> Way:
    """A pwrite that begins below an end."""
    return lambda script: f"pwrite {fd} {script.pick.randrange(end)} {script.own_bytes(script.small())}"


def lseek(fd: int) -> Way:
    """An lseek to one of three bases."""
    return lambda script: f"lseek {fd} {script.pick.choice(['0 set', '3 set', '0 cur', '2 cur', '0 end'])}"


def ftruncate(fd: int, most: int) -> Way:
    """An ftruncate to a length, which is often 0."""
    return lambda script: f"ftruncate {fd} {script.pick.choice([0, script.pick.randrange(most)])}"


def pipe_write() -> Way:
    """Writes of at most PIPE_BUF bytes into a pipe, which all together do not fill it."""
    room = PIPE_ROOM

    def one_write(script: Script) -> str:
        nonlocal room
        count = script.pick.choice([size for size in PIPE_SIZES if size <= max(room, 1)])
        room -= count
        return f"write 1 {script.own_bytes(count)}"

    return one_write


def pipe_read() -> Way:
    """A read of a pipe."""
    return lambda script: f"read 0 {script.pick.choice([*PIPE_SIZES, PIPE_ROOM])}"


def says(*calls: str) -> Way:
    """One of these calls."""
    return lambda script: script.pick.choice(calls)


# ---- kinds


def offsets(script: Script) -> None:
    """Calls on one description, whose offset all processes share."""
    script.before("join", "p0 open f rw,creat", "p0 write 0 x303132333435363738393a3b3c3d3e3f", "p0 lseek 0 0 set")
    script.forks()
    ways = [read(0), write(0), lseek(0), read(0), write(0)]
    script.all_parts(script.pick.choice([[read(0)], [write(0)], [read(0), write(0)], [read(0), lseek(0)], ways]))


def appends(script: Script) -> None:
    """Writes under O_APPEND by descriptions of their own, or by one that is shared."""
    is_shared = script.pick.random() < 0.5
    if is_shared:
        script.before("join", "p0 open f rw,creat,append", "p0 dup 0")
        script.forks()
    else:
        script.joins("open f rw,creat,append")
    script.all_parts([write(0), write(int(is_shared)), says("fstat 0", "lseek 0 0 cur"), read(0)])


def pieces(script: Script) -> None:
    """Preads and pwrites of a few bytes that overlap."""
    script.opens_with_look("rw,creat")
    script.before("p0 write 2 30*16")

    def same_place(it: Script) -> str:
        return f"pwrite 2 {it.pick.choice([0, 0, 1])} {it.own_bytes(it.pick.choice([15, 16]))}"

    script.parts_with_look([pread(2, 16), pwrite(2, 16), same_place, same_place], 2, 3, "pread 2 0 32")


def pages(script: Script) -> None:
    """Preads and pwrites of several pages that overlap."""
    size = script.pick.choice(LARGE)
    script.opens_with_look("rw,creat")
    script.before(f"p0 write 2 30*{size}")
    start = script.pick.choice([0, 0, 100, PAGE - 50])

    def large_write(it: Script) -> str:
        return f"pwrite 2 {start} {it.own_bytes(size)}"

    def large_read(_: Script) -> str:
        return f"pread 2 0 {size}"

    script.parts_with_look([large_write, large_write, large_read], 1, 2, f"pread 2 0 {size}")


def large_appends(script: Script) -> None:
    """Writes of several pages under O_APPEND, and calls that tell the length and the bytes at it."""
    size = script.pick.choice(LARGE[1:-1])
    script.opens_with_look("rw,creat,append")
    script.before("p0 write 2 30*100")

    def large_write(it: Script) -> str:
        return f"write 2 {it.own_bytes(size)}"

    def large_read(it: Script) -> str:
        return f"pread 2 {it.pick.choice([0, 100, size])} {size}"

    looks = says("fstat 2", "lseek 2 0 end")
    script.parts_with_look([large_write, large_read, looks], 1, 2, "fstat 2", f"pread 2 {size} {size}")


def lengths(script: Script) -> None:
    """Ftruncates, and the calls that tell or change a length."""
    script.opens_with_look("rw,creat")
    script.before("p0 write 2 30*12", "p0 lseek 2 0 set")
    ways = [ftruncate(2, 20), read(2), write(2), pread(2, 12), pwrite(2, 20), says("fstat 2", "lseek 2 0 end")]
    script.parts_with_look(ways, 2, 3, "fstat 2", "pread 2 0 64")


def duplicates(script: Script) -> None:
    """Dup2s and closes over ends of pipes and files that other processes write to."""
    script.before("join", "p0 pipe", "p0 open f rw,creat")
    script.forks()
    over = says("dup2 2 1", "dup2 2 0", "close 1", "close 0", "dup2 0 2")
    script.all_parts([over, write(1), write(2), read(2)])
    for process in range(script.processes):
        if script.pick.random() < 0.3:
            script.part(process, [read(0)], 1, 1)


def names(script: Script) -> None:
    """Names that are made, linked, taken away and opened."""
    script.joins()
    opens = says("open a rw,creat", "open a rw,creat,excl", "open b r", "open b rw,trunc", "open a rw,creat,trunc")
    looks = [says("fstat 0"), write(0), read(0)]
    script.all_parts([opens, says("unlink a", "unlink b"), says("link a b", "link b a"), *looks], 2, 4)


def renames(script: Script) -> None:
    """A name that is renamed over another one, while both are opened, linked and taken away, and both files looked at.

    They have one byte and two. In half of the scripts nothing takes `a` away, so that it is never missing.
    """
    script.joins()
    script.before("p0 open a rw,creat", "p0 write 0 61*1", "p0 open b rw,creat", "p0 write 1 62*2", "p0 link b c")
    script.before(*(f"p{process} open {name} rw" for process in range(1, script.processes) for name in "ab"))
    over = ["rename b a", "rename b a", "rename c a", "rename c b"]
    gone = ["unlink b", "unlink c"]
    if script.pick.random() < 0.5:
        over += ["rename a b", "rename a c"]
        gone += ["unlink a"]
    opens = says("open a r", "open a r", "open b r", "open a rw,creat,excl", "open b rw,creat")
    looks = says("fstat 0", "fstat 1", "fstat 2", "pread 2 0 3")
    links = says("link a b", "link b c", "link a c", "link c b")
    script.all_parts([says(*over), says(*over), opens, opens, looks, looks, links, says(*gone)], 2, 4)


def status_flags(script: Script) -> None:
    """O_APPEND or O_NONBLOCK of a description that all processes share, set while they write and read."""
    script.pick.choice([append_is_set, nonblock_is_set])(script)


def append_is_set(script: Script) -> None:
    """Setfls of a regular file, whose end is told too. Others write to it by descriptions of their own now and then."""
    script.before("join", "p0 open f rw,creat", "p0 write 0 30*8", "p0 lseek 0 0 set")
    script.forks()
    sets = says("setfl 0 -,append", "setfl 0 -", "setfl 0 -,append,nonblock")
    looks = ["getfl 0", "lseek 0 0 cur", "lseek 0 2 set", "fstat 0"]
    writes = [write(0), write(0)]
    if script.pick.random() < 0.3:
        script.before(*(f"p{process} open f rw,append" for process in range(script.processes)))
        writes.append(write(1))
    script.all_parts([sets, sets, *writes, read(0), says(*looks)], 2, 4)


def nonblock_is_set(script: Script) -> None:
    """Setfls of both ends of a pipe, whose reads wait or do not."""
    script.before("join", "p0 pipe")
    script.forks()
    sets = says("setfl 0 -,nonblock", "setfl 0 -,nonblock", "setfl 0 -", "setfl 1 -,nonblock", "setfl 0 -,append")
    one_write, one_read = pipe_write(), pipe_read()
    for process in range(script.processes):
        way = one_read if process % 2 else one_write
        script.part(process, [sets, way, way, says("getfl 0", "getfl 1"), one_read], 2, 4)


def pipe_writes(script: Script) -> None:
    """Writes of at most PIPE_BUF bytes by several processes on one pipe, and its readers."""
    script.before("join", "p0 pipe")
    script.forks()
    one_write, one_read = pipe_write(), pipe_read()
    readers = script.pick.randint(1, script.processes - 1)
    for process in range(script.processes):
        script.part(process, [one_read] if process < readers else [one_write, one_write, says("close 1", "exit")])
    script.parts = without_dead_calls(script.parts)


def fifos(script: Script) -> None:
    """Openings of a FIFO, which wait for each other, and what goes through it."""
    script.joins()
    script.before("p0 mkfifo f")
    openings = says("open f r", "open f w", "open f w", "open f r", "open f r,nonblock", "open f w,nonblock")
    for process in range(script.processes):
        script.part(process, [openings], 1, 1)
        script.part(process, [write(0), read(0), says("close 0"), openings], 1, 3)


def without_dead_calls(parts: Sequence[str]) -> list[str]:
    """Parts without the calls that would come after the exit of their process."""
    gone: set[str] = set()
    kept = []
    for line in parts:
        who, _, call = line.partition(" ")
        if who not in gone:
            kept.append(line)
        if call == "exit":
            gone.add(who)
    return kept


Kind = Callable[[Script], None]

KINDS: dict[str, Kind] = {
    "shared-offset": offsets,
    "append": appends,
    "small-pieces": pieces,
    "large-pieces": pages,
    "large-append": large_appends,
    "ftruncate": lengths,
    "dup2": duplicates,
    "names": names,
    "rename": renames,
    "setfl": status_flags,
    "pipe": pipe_writes,
    "fifo": fifos,
}


def script_of(kind: str, seed: str, number: int, processes: int | None = None) -> str:
    """The script of a kind with a number of a seed, for so many processes or for 3 to 5."""
    pick = random.Random(f"{seed} {kind} {number}")
    script = Script(pick, processes or pick.randint(3, 5))
    KINDS[kind](script)
    return script.text()
