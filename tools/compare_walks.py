"""Scripts for a system and fdref: random ones, and the acts that look at what a script has left."""

import random
from collections.abc import Callable, Collection, Iterator

from support import plain_model, walks
from support.contents import BLOCK
from support.plain_model import DEFAULTS, LINK_MAX, OPEN_MAX, TRANSFER_MAX, Limits
from support.runs import Settled, line_of

from compare_instead import Appending, is_large, is_transfer, parts, pieces_of
from compare_reasons import is_append, name_fault, names_of, process_of
from compare_runs import is_told_back

# More links than any file of a script has.
MANY_LINKS = 2**31

# ---- looks


def with_looks(lines: list[bytes], limits: Limits = DEFAULTS) -> list[bytes]:
    """A script with the acts that look."""
    return [line for line, _ in with_marks(lines, limits)]


def with_marks(
    lines: list[bytes], limits: Limits = DEFAULTS, link_max: int = LINK_MAX
) -> list[tuple[bytes, bool]]:
    """A script with acts that look at what a call has left that systems make otherwise, at calls that wait on from
    before a setfl, at each call that can go on because of an act and, at the end, at all that is there. With each act
    stands whether it is such a look."""
    beside, appending = Settled(limits), Settled(limits)
    appending.world = Appending(limits)
    beside.world.link_max = appending.world.link_max = link_max
    looked: list[tuple[bytes, bool]] = []
    for line in lines:
        act = plain_model.read_act(line)
        looks = [text.encode() for text in looks_at_left(act, beside.world, appending.world)]
        looked += [(line, False), *((look, True) for look in looks)]
        seen = len(beside.lines)
        for run in (beside, appending):
            for it in parts(act, run.world):
                run.take(it)
        looked_at = come_back(beside, seen)
        if act.word == "setfl":
            looked_at |= {number for number, it in beside.world.processes.items() if it.waits}
        looked += [(b"p%d resume" % number, True) for number in sorted(looked_at)]
    named = {name for line in lines for name in names_of(plain_model.read_act(line))}
    return looked + [(text.encode(), True) for text in last_looks(beside.world, named)]


def looks_at_left(act: plain_model.Act, *worlds: plain_model.World) -> Iterator[str]:
    """Acts that look at size, offset and bytes after a pwrite under append, or after a read or write of more bytes than
    the profile moves, which goes to a regular file: at each place where the bytes may be in one of these worlds."""
    process = process_of(worlds[0], act) if is_transfer(act) else None
    at = process.table.get(act.fields[0]) if process and not process.waits else None
    if not process or not at or at.pipe or not (is_append(act, at) or is_large(act)):
        return
    who, fd = f"p{process.number}", act.fields[0]
    yield from (f"{who} fstat {fd}", f"{who} lseek {fd} 0 cur")
    if "r" in at.mode and act.word in ("write", "pwrite"):
        starts = {start for world in worlds for start in starts_of(act, world)}
        pieces = [(start + begin, end - begin) for start in sorted(starts) for begin, end in pieces_of(act)]
        yield from (f"{who} pread {fd} {start} {count}" for start, count in pieces)


def starts_of(act: plain_model.Act, world: plain_model.World) -> Iterator[int]:
    """Where a write may begin in a world: at the end under append, and a pwrite where it is told as well."""
    process = process_of(world, act)
    at = process.table.get(act.fields[0]) if process else None
    if at and not at.pipe:
        if at.append:
            yield len(at.regular.data)
        elif act.word == "write":
            yield at.offset
        if act.word == "pwrite":
            yield max(act.fields[1], 0)


def come_back(beside: Settled, seen: int) -> set[int]:
    """The processes whose calls came back in the lines of a run after so many: where a system wakes one of them too
    late or never, it waits on there."""
    told = map(line_of, beside.lines[seen:])
    back = {line.number() for line in told if is_told_back(line)}
    return {number for number in back if not beside.world.processes[number].waits}


def last_looks(world: plain_model.World, named: Collection[bytes]) -> list[str]:
    """Acts that look at all that can be reached in a world, and at the names that were there or may be, at the contents
    of pipes last. Whether a process waits is asked of each, since one that does not wait in this world may wait on a
    system."""
    live = list(world.processes.values())
    awake = [it for it in live if not it.waits]
    looks = [f"p{it.number} attach" for it in live if not it.attached]
    looks += [f"p{it.number} resume" for it in live]
    for it in awake:
        for fd, at in sorted(it.table.items()):
            looks.append(f"p{it.number} getfl {fd}")
            # what fstat tells of a pipe without a name is the profile's own
            looks += [f"p{it.number} fstat {fd}"] if at.file.kind != "pipe" else []
            looks += [f"p{it.number} lseek {fd} 0 cur", *contents(it, fd, at.regular)] if not at.pipe else []
    able = [it for it in awake if len(it.table) < OPEN_MAX]
    looks += [look for it in able for look in by_name(world, it)][:200]
    looks += [look for it in able[:1] for look in at_other_names(world, it, named)][:200]
    # closed before those that wait are ended, so that readers come to the end
    looks += [
        f"p{it.number} close {fd}" for it in awake for fd, at in sorted(it.table.items()) if at.pipe and at.mode == "w"
    ]
    looks += [f"p{it.number} {word}" for word in ("resume", "exit") for it in live if it.waits]
    reads = [(it.number, fd) for it in awake for fd, at in sorted(it.table.items()) if at.pipe and at.mode == "r"]
    return looks + [f"p{number} read {fd} {count}" for number, fd in reads for count in (TRANSFER_MAX, 1)]


def contents(process: plain_model.Process, fd: int, file: plain_model.Regular) -> list[str]:
    """Acts that read a file through a descriptor, whatever its offset is: what was written, and the zeros before it and
    behind it; the beginning, the middle and the end."""
    size = len(file.data)
    blocks = {start for number in file.data.blocks for start in range(max(number - 1, 0) * BLOCK, size, BLOCK)[:3]}
    starts = sorted(blocks | {0, size // 2, max(size - TRANSFER_MAX, 0), size})
    return [f"p{process.number} pread {fd} {start} {TRANSFER_MAX}" for start in starts]


def by_name(world: plain_model.World, process: plain_model.Process) -> Iterator[str]:
    """Acts by which a process opens each file that has a name."""
    fd = plain_model.lowest_free(process)[0]
    for name, file in sorted(world.names.items()):
        if isinstance(file, plain_model.Regular):
            yield from [f"p{process.number} open {plain_model.name_text(name)} r", f"p{process.number} fstat {fd}"]
            yield from [*contents(process, fd, file), f"p{process.number} close {fd}"]


def at_other_names(world: plain_model.World, process: plain_model.Process, named: Collection[bytes]) -> Iterator[str]:
    """Acts by which a process finds a FIFO at each name of one, and nothing at a name that leads nowhere any more. A
    process that waits for a reader of such a FIFO has one then."""
    fd = plain_model.lowest_free(process)[0]
    for name in sorted({*world.names, *named}):
        file = world.names.get(name)
        if not isinstance(file, plain_model.Regular) and not name_fault(name):
            yield f"p{process.number} open {plain_model.name_text(name)} r,nonblock"
        if isinstance(file, plain_model.Fifo):
            yield from [f"p{process.number} fstat {fd}", f"p{process.number} close {fd}"]
            yield from (f"p{it.number} resume" for it in world.processes.values() if waits_for_reader(it, file))


def waits_for_reader(process: plain_model.Process, file: plain_model.Fifo) -> bool:
    """Whether a process waits in its open of a FIFO until somebody opens that for reading."""
    call = process.waits
    return isinstance(call, plain_model.WaitingOpen) and (call.fifo, call.other) == (file, "r")


# ---- random scripts


class Walk(walks.Walk):
    """A walk whose acts a system can follow: calls go on by themselves, and few acts reach a limit of the profile."""

    def __init__(self, pick: random.Random, processes: int, fills_pipes: bool, limits: Limits) -> None:
        self.fills_pipes = fills_pipes
        self.processes = processes
        super().__init__(pick, Settled(limits))

    def is_odd(self) -> bool:
        """Whether the next choice makes no sense on purpose, which is seldom."""
        return self.pick.random() < 0.01

    def walk(self, count: int) -> None:
        """So many acts, in moods that change."""
        self.most_live = self.processes
        while len(self.lines) < count:
            mood = self.pick.choice(["files", "files", "pipes", "fifos", *walks.MOODS])
            for _ in range(self.pick.randrange(5, 25)):
                self.act(walks.MOODS[mood])
                if len(self.lines) >= count or (self.world.is_closed and not self.world.processes):
                    return

    def first_words(self) -> list[str]:
        """As in each walk, and at times a setfl while somebody waits."""
        is_waited = any(it.waits for it in self.world.processes.values())
        return ["setfl"] if is_waited and self.pick.random() < 0.1 else super().first_words()

    def descriptor(self, who: plain_model.Process, word: str) -> int | None:
        """As in each walk, and more often one for which a call is refused.

        It is an end of a broken pipe, that of a dry one under nonblock, or for calls on files alone any. The flags that
        are set are those of a pipe at which somebody waits.
        """
        waited = [it.waits.pipe for it in self.world.processes.values() if it.waits]
        wishes: dict[str, Callable[[plain_model.Description], object]] = {
            "write": lambda at: at.pipe and at.mode == "w" and not self.world.has_end(at.pipe, "r"),
            "read": lambda at: at.pipe and at.mode == "r" and at.nonblock and not at.pipe.data,
            "setfl": lambda at: at.pipe in waited,
        }
        likely = 0.3 if word in wishes else 0.05
        fit = [fd for fd, at in who.table.items() if word not in wishes or wishes[word](at)]
        return self.pick.choice(fit) if fit and self.pick.random() < likely else super().descriptor(who, word)

    def begin(self) -> None:
        """The first acts."""
        if self.processes > 1 and self.pick.random() < 0.4:
            self.begin_with_two_ends()
        elif self.pick.random() < 0.05:
            self.begin_with_many_descriptors()
        self.most_live = self.processes
        for _ in range(self.pick.randrange(self.processes)):
            self.act(self.pick.choice(["fork 1 attach 2", "join 1"]))

    def begin_with_two_ends(self) -> None:
        """Two processes with both ends of a pipe, or with one each, or with a read that waits."""
        ends = ["p0 close 0", "p1 close 1"]
        ways: list[list[str]] = [[], ends, ["p1 read 0 9"], [*ends, "p1 read 0 9"]]
        self.say("p0 pipe", "p0 fork", "p1 attach", *self.pick.choice(ways))

    def count_into(self, at: plain_model.Description) -> int:
        """How many bytes to write: into a pipe no more than fit, unless pipes are to be filled."""
        if not at.pipe or self.fills_pipes:
            return super().count_into(at)
        room = max(at.pipe.room() - 8, 0)
        return self.pick.choice([0, *[min(count, room) for count in (1, 2, 3, 5, 8, 16, 17, 40, 100, 300)]])

    def place(self, at: plain_model.Description) -> int:
        """As in each walk, but seldom far from the beginning, since a file of many parts is slow to look at."""
        place = super().place(at)
        return place if place < 2**16 or self.pick.random() < 0.2 else self.pick.randrange(100)

    def move(self, at: plain_model.Description) -> list[walks.Field]:
        """A distance and what it counts from."""
        whence = self.pick.choice(["set", "cur", "end"])
        if self.pick.random() < 0.01:
            return [self.pick.choice(walks.ODD_PLACES), whence]
        base = {"set": 0, "cur": at.offset, "end": 0 if at.pipe else len(at.regular.data)}[whence]
        return [max(self.place(at) - base, -(2**63)), whence]


CLASSES = ["small", "full-pipes"]


def class_of(number: int, wanted: str) -> str:
    """The class of a random script: one of ten fills pipes, where nothing else is asked."""
    return wanted if wanted in CLASSES else CLASSES[number % 10 == 9]


def random_lines(seed: str, number: int, acts: int, which: str, limits: Limits = DEFAULTS) -> list[bytes]:
    """The random script with a number of a seed, of so many acts and of a class, for a run of these limits."""
    pick = random.Random(f"{seed} {number} {acts} {which}")
    walk = Walk(pick, pick.randrange(1, 7), which == "full-pipes", limits)
    walk.begin()
    walk.walk(acts)
    return walk.lines
