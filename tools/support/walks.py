"""Random scripts: each act is chosen beside a run of the plain model, with fields that mostly make sense there."""

import random
from collections.abc import Callable, Sequence

from support import plain_model
from support.plain_model import (
    DEFAULTS,
    FIELDS,
    FILE_SIZE_MAX,
    OFFSET_MAX,
    OPEN_MAX,
    TRANSFER_MAX,
    Limits,
    read_count,
    read_data,
    read_fd,
    read_flags,
    read_place,
    read_whence,
)

# A field of a line, before it is spelled.
Field = int | str

# how often a choice makes no sense on purpose
ODD = 0.05

# how often one of the words that are to come often is tried first: some have no sensible fields then, and a third stays
OFTEN = 0.4

# how often a walk takes each act; it changes its mood on the way
MOODS = {
    "files": (
        "open 8 close 3 read 8 write 12 pread 4 pwrite 6 lseek 7 ftruncate 4 fstat 3 dup 2 dup2 2 link 1 unlink 2 "
        "rename 2 getfl 1 setfl 3 fork 1 attach 2"
    ),
    "pipes": (
        "pipe 4 read 14 write 16 resume 12 fork 3 attach 6 close 9 dup 1 dup2 2 exit 3 fstat 3 pwrite 1 pread 1 "
        "lseek 1 getfl 1 setfl 4"
    ),
    "fifos": (
        "mkfifo 3 open 18 read 8 write 9 resume 12 close 8 join 3 fork 1 attach 2 exit 3 link 1 unlink 2 fstat 3 dup 1 "
        "lseek 1 rename 2 getfl 1 setfl 2"
    ),
    "names": "open 8 mkfifo 6 link 14 unlink 6 rename 10 fstat 4 close 5 write 2 read 2 fork 1 attach 1 exit 1",
    "processes": "join 8 fork 8 attach 10 exit 3 pipe 2 open 3 read 3 write 3 resume 3 close 2 dup2 1 fstat 1",
    "descriptors": (
        "open 10 pipe 4 dup 10 dup2 8 close 3 fstat 3 getfl 2 setfl 2 fork 1 attach 1 lseek 2 read 2 write 2"
    ),
}

FLAGS = ["creat", "excl", "trunc", "append", "nonblock"]
NAMES = [b"a", b"b", b"c", b"d", b"e.f", b"-", b"_", b"...", b"Z9", b"f", b"g", b"n" * 64]
ODD_NAMES = [
    b"",
    b".",
    b"..",
    b"n" * 65,
    b"/" * 65,
    b"z" * 255,
    b"a/b",
    b"%",
    b"~",
    b"\n",
    b" ",
    b"\0",
    b"\xff",
    b"a b",
]
ODD_FDS = [-(2**31), -1, 0, 1, 2, 30, 31, 32, 2**31 - 1]
ODD_COUNTS = [0, 65_536, 65_537, 2**31, 2**32 - 1]
ODD_PLACES = [-(2**63), -1, FILE_SIZE_MAX + 1, 2 * FILE_SIZE_MAX, 2**62, OFFSET_MAX - 1, OFFSET_MAX]
ODD_ACTORS = [0, 1, 63, 64, 2**31, 2**32 - 2, 2**32 - 1]
SMALL = [0, 1, 1, 2, 3, 4, 5, 7, 15, 16, 17, 24]
# of how many bytes the room of a pipe may be, in runs that are to differ in it
CAPACITIES = [512, 513, 600, 1_000, 1_023, 1_024, 1_025, 2_048, 4_095, 4_096, 5_000, 32_768, 65_535, 65_536]


# ---- spelling


def name_text(pick: random.Random, name: bytes) -> str:
    """A spelling of a name: now and then with more escapes than it needs."""
    if name and pick.random() < 0.1:
        return "".join(pick.choice([f"%{byte:02x}", plain_model.name_text(bytes([byte]))]) for byte in name)
    return plain_model.name_text(name)


def data_text(pick: random.Random, count: int) -> str:
    """DATA of at most so many bytes: all equal or, where they are few, of several values."""
    count = min(count, plain_model.DATA_MOST)
    if count <= 40 or (count <= 1_100 and pick.random() < 0.1):
        return "x" + bytes(pick.choice(b"abcdefgh\0\xff") for _ in range(count)).hex()
    return f"{pick.randrange(256):02x}*{count}"


def flags_text(pick: random.Random, mode: str, likely: dict[str, float]) -> str:
    """FLAGS of a mode, each flag with its likelihood."""
    return ",".join([mode, *(flag for flag in FLAGS if pick.random() < likely.get(flag, 0))])


# ---- walks


class Walk:
    """Writes a script act by act, beside a run of it on the model, so that most acts succeed."""

    def __init__(self, pick: random.Random, run: plain_model.Run) -> None:
        self.pick = pick
        self.run = run
        self.world = run.world
        self.limits = run.world.limits
        self.often: Sequence[str] = ()
        self.most_live = 70
        self.lines: list[bytes] = []
        self.say("join")

    def say(self, *lines: str) -> None:
        """Writes lines, and runs them."""
        for line in lines:
            self.lines.append(line.encode())
            self.run.take(plain_model.read_act(line.encode()))

    def is_odd(self) -> bool:
        """Whether the next choice makes no sense on purpose."""
        return self.pick.random() < ODD

    def walk(self, count: int) -> None:
        """So many acts, in moods that change, or fewer where nobody can come any more."""
        while count > 0:
            mood = self.pick.choice(["pipes", "pipes", "fifos", "fifos", *MOODS])
            self.most_live = 70 if mood == "processes" else 6
            for _ in range(min(count, self.pick.randrange(5, 80))):
                self.act(MOODS[mood])
                count -= 1
                if self.world.is_closed and not self.world.processes and not self.is_odd():
                    return

    def act(self, mood: str) -> None:
        """One act: the first word chosen for which there are sensible fields."""
        words = mood.split()
        chosen = self.pick.choices(words[::2], [int(weight) for weight in words[1::2]], k=4)
        if self.often and self.pick.random() < OFTEN:
            chosen[:0] = self.pick.sample(self.often, len(self.often))
        for word in [*self.first_words(), *chosen, "resume", "attach", "join"]:
            line = self.line(word)
            if line:
                self.say(line)
                return

    def first_words(self) -> list[str]:
        """What comes before the choice by mood: a resume that is ready, an end of waiting, rare acts."""
        if self.pick.random() < 0.003:
            return ["close-run"]
        live = self.world.processes.values()
        if self.pick.random() < 0.2 and any(it.waits and it.waits.is_ready(self.world) for it in live):
            return ["resume"]
        if not self.awake() and not self.is_odd():
            return self.pick.choice([["attach", "join", "exit"], ["join", "exit"], ["exit"]])
        return []

    def line(self, word: str) -> str | None:
        """A line with a word, or None where it would make no sense now."""
        is_crowd = self.world.is_full() or len(self.world.processes) >= self.most_live
        if word in ("join", "fork") and is_crowd and not self.is_odd():
            return None
        if word not in FIELDS:
            return word
        number = self.actor(word)
        if number is None:
            return None
        fields = self.fields(word, self.world.processes.get(number) or plain_model.Process(number))
        return None if None in fields else " ".join(map(str, [f"p{number}", word, *fields]))

    # -- who

    def awake(self) -> list[plain_model.Process]:
        """The processes that can make a call."""
        return [it for it in self.world.processes.values() if it.attached and not it.waits]

    def actor(self, word: str) -> int | None:
        """The number of a process for which a word makes sense, or None."""
        live = list(self.world.processes.values())
        if word == "resume":
            fit = [it for it in live if it.waits and (it.waits.is_ready(self.world) or self.pick.random() < 0.02)]
        elif word == "attach":
            fit = [it for it in live if not it.attached]
        elif word == "exit":
            fit = [it for it in live if it.attached and len(live) > 1]
        else:
            fit = self.awake()[: self.pick.choice([3, 3, 3, 70])]
        if self.is_odd() and (fit or self.is_odd()):
            numbers: list[int] = [self.pick.choice(ODD_ACTORS), *range(self.world.next_number + 1)]
            return self.pick.choice(numbers)
        return self.pick.choice(fit).number if fit else None

    def may_wait(self) -> bool:
        """Whether a call may wait: seldom where it would be of the last process awake."""
        return self.pick.random() < (0.6 if len(self.awake()) > 1 else 0.1)

    # -- fields

    def fields(self, word: str, who: plain_model.Process) -> list[Field | None]:
        """The fields of a line; None stands in place of one for which there is no sensible choice."""
        if plain_model.read_name in FIELDS[word]:
            return self.names(word)
        if not FIELDS[word]:
            return []
        fd = self.descriptor(who, word)
        at = (None if fd is None else who.table.get(fd)) or plain_model.Description(plain_model.Regular(), "rw")
        rest: dict[tuple[plain_model.Reader, ...], Callable[[], list[Field]]] = {
            (): list,
            (read_count,): lambda: [self.count_from(at)],
            (read_data,): lambda: [data_text(self.pick, self.count_into(at))],
            (read_place, read_count): lambda: [self.place(at), self.count(40, 300, 65_535)],
            (read_place, read_data): lambda: [self.place(at), data_text(self.pick, self.count(40, 300, 65_535))],
            (read_place, read_whence): lambda: self.move(at),
            (read_place,): lambda: [self.place(at)],
            (read_fd,): lambda: [self.target()],
            (read_flags,): lambda: [self.status_flags()],
        }
        return [fd, *rest[FIELDS[word][1:]]()]

    def target(self) -> int:
        """Where a dup2 leads."""
        return self.pick.choice([self.pick.randrange(OPEN_MAX), self.pick.randrange(4), self.pick.choice(ODD_FDS)])

    def descriptor(self, who: plain_model.Process, word: str) -> int | None:
        """A descriptor for which a call makes sense, often an end of a pipe that somebody waits at."""
        fit = list(who.table)
        if self.is_odd():
            return self.pick.choice(ODD_FDS + fit)
        may_wait = self.may_wait()
        wishes: dict[str, Callable[[plain_model.Description], object]] = {
            "read": lambda at: "r" in at.mode and (may_wait or not at.pipe or at.pipe.data),
            "write": lambda at: "w" in at.mode and (not at.pipe or self.world.has_end(at.pipe, "r")),
            "pread": lambda at: "r" in at.mode and not at.pipe,
            "pwrite": lambda at: "w" in at.mode and not at.pipe,
            "lseek": lambda at: not at.pipe,
            "ftruncate": lambda at: "w" in at.mode and not at.pipe,
        }
        fit = [fd for fd in fit if word not in wishes or wishes[word](who.table[fd])]
        if self.pick.random() < 0.5:
            waited = {it.waits.pipe for it in self.world.processes.values() if it.waits}
            fit = [fd for fd in fit if who.table[fd].pipe in waited] or fit
        return self.pick.choice(fit) if fit else None

    def count(self, *near: int) -> int:
        """A number of bytes: small, or about one of those given."""
        if self.is_odd():
            return self.pick.choice(ODD_COUNTS)
        return self.pick.choice(SMALL) if self.pick.random() < 0.5 else self.about(*near)

    def about(self, *near: int) -> int:
        """A number about one of those given."""
        return max(self.pick.choice(near) + self.pick.choice([-1, 0, 0, 1]), 0)

    def count_from(self, at: plain_model.Description) -> int:
        """How many bytes to read: often just what is there."""
        left = len(at.pipe.data) if at.pipe else max(len(at.regular.data) - at.offset, 0)
        left = min(left, self.pick.choice([TRANSFER_MAX - 1, TRANSFER_MAX - 1, 66_000]))
        return self.count(left, left, 512, 1_000)

    def count_into(self, at: plain_model.Description) -> int:
        """How many bytes to write: often just what fits, or does not."""
        if not at.pipe:
            return self.count(40, min(max(self.limits.size - at.offset, 0), 65_535), 65_536)
        room = at.pipe.room()
        if self.is_odd():
            return self.count(65_536)
        if not self.may_wait():
            return self.pick.choice([room, max(room - 24, 1), self.pick.randrange(room + 1)])
        return self.about(
            40, room, room, max(room - 24, 1), 512, 512, 512, 513, room + 513, 1_024, 1_500, 5_000, 65_535
        )

    def place(self, at: plain_model.Description) -> int:
        """A position in a file, or a length of one."""
        if self.is_odd():
            return self.pick.choice(ODD_PLACES)
        size = 0 if at.pipe else len(at.regular.data)
        most = self.limits.size
        near = self.pick.choice([0, 0, size, size, size + 20, at.offset, self.far(size), most - 8, most])
        return min(max(near + self.pick.choice([-2, -1, 0, 0, 0, 1, 2]), -1), OFFSET_MAX)

    def far(self, size: int) -> int:
        """A position that leaves a hole in a file of so many bytes: of any length, or one that ends where a block does;
        or that is as far before the greatest size."""
        length = self.pick.choice([2 ** self.pick.randrange(40), 4_096 * self.pick.randrange(1, 40), 65_536])
        return self.pick.choice([length, size + length, max(self.limits.size - length, 0)])

    def move(self, at: plain_model.Description) -> list[Field]:
        """A distance and what it counts from."""
        whence = self.pick.choice(["set", "cur", "end"])
        base = {"set": 0, "cur": at.offset, "end": 0 if at.pipe else len(at.regular.data)}[whence]
        move = self.pick.choice(ODD_PLACES) if self.pick.random() < 0.1 else self.place(at) - base
        return [min(max(move, -(2**63)), OFFSET_MAX), whence]

    # -- names

    def names(self, word: str) -> list[Field | None]:
        """The fields of a line that has names; None stands in place of one for which there is no sensible choice."""
        names: list[bytes | None]
        flags: list[str] = []
        if word == "open":
            ways: list[Callable[[], bytes | None]] = [
                self.old_name,
                self.new_name,
                lambda: self.old_name(is_fifo),
                lambda: self.old_name(self.is_half),
            ]
            name = self.pick.choice(ways)()
            names, flags = [name], [self.flags(None if name is None else self.world.names.get(name))]
        elif word == "link":
            names = [self.old_name(), self.new_name()]
        elif word == "rename":
            names = self.names_to_change()
        else:
            names = [self.new_name() if word == "mkfifo" else self.old_name()]
        return [*(None if name is None else name_text(self.pick, name) for name in names), *flags]

    def old_name(self, wish: Callable[[plain_model.Named], bool] = lambda file: True) -> bytes | None:
        """A name of a file that is as wished, now and then any name; None where there is none."""
        if self.is_odd():
            return self.pick.choice(NAMES + ODD_NAMES)
        fit = [name for name, file in self.world.names.items() if wish(file)]
        fit = fit[:1] if self.pick.random() < 0.3 else fit
        return self.pick.choice(fit) if fit else None

    def new_name(self) -> bytes | None:
        """A name that is not there yet, or now and then any."""
        if self.is_odd():
            return self.pick.choice(NAMES + ODD_NAMES)
        fit = [name for name in NAMES if name not in self.world.names]
        return self.pick.choice(fit) if fit else None

    def names_to_change(self) -> list[bytes | None]:
        """A name to change, and what it is to be: often a name that is there, at times of the same file."""
        old = self.old_name()
        file = None if old is None else self.world.names.get(old)
        ways: list[Callable[[], bytes | None]] = [
            self.new_name,
            self.old_name,
            lambda: self.old_name(self.is_half),
            lambda: self.old_name(lambda other: other is file),
        ]
        return [old, self.pick.choice(ways)()]

    def is_half(self, file: plain_model.Named) -> bool:
        """Whether it is a FIFO that is open at one end only."""
        if not isinstance(file, plain_model.Fifo):
            return False
        return self.world.has_end(file.pipe, "r") != self.world.has_end(file.pipe, "w")

    def flags(self, file: plain_model.Named | None) -> str:
        """FLAGS to open a file with, or to make one."""
        if self.is_odd():
            return flags_text(self.pick, self.pick.choice(["r", "w", "rw", "-"]), dict.fromkeys(FLAGS, 0.3))
        if isinstance(file, plain_model.Fifo):
            return self.fifo_flags(file)
        mode = self.pick.choice(["r", "w", "rw", "rw"])
        likely = {"creat": 0.2 if file else 0.95, "append": 0.2, "nonblock": 0.1, "trunc": 0.15 * ("w" in mode)}
        flags = flags_text(self.pick, mode, likely)
        return (
            flags
            if file or self.is_odd()
            else flags.replace("creat", self.pick.choice(["creat", "creat", "creat,excl"]))
        )

    def fifo_flags(self, fifo: plain_model.Fifo) -> str:
        """FLAGS to open a FIFO with."""
        lacking = [end for end in "rw" if not self.world.has_end(fifo.pipe, end)]
        mode = self.pick.choice(["r", "w", *lacking, *lacking])
        waits = ("w" if mode == "r" else "r") in lacking
        nonblock = 0.9 if waits and not self.may_wait() else 0.3
        likely = {"nonblock": nonblock, "append": 0.1, "creat": 0.1, "trunc": 0.1 * (mode == "w")}
        return flags_text(self.pick, mode, likely)

    def status_flags(self) -> str:
        """FLAGS for a description that is open, of which a call heeds append and nonblock."""
        likely = {"append": 0.4, "nonblock": 0.4, "creat": 0.05, "excl": 0.05, "trunc": 0.1}
        return flags_text(self.pick, self.pick.choice(["-", "-", "r", "w", "rw"]), likely)

    # -- beginnings that lead to a limit

    def begin_with_two_ends(self) -> None:
        """Two processes with both ends of a pipe, or with one each, or with a write that waits."""
        ends = ["p0 close 0", "p1 close 1"]
        room = self.limits.capacity
        waiting = [f"p0 write 1 61*{self.pick.randrange(max(room - 624, 0), min(room + 76, TRANSFER_MAX) + 1)}"]
        waiting += [f"p0 write 1 62*{self.pick.choice([100, 512, 513, 1_500])}"]
        ways: list[list[str]] = [[], ends, ends + waiting, ends + waiting]
        self.say("p0 pipe", "p0 fork", "p1 attach", *self.pick.choice(ways))

    def begin_with_many_descriptors(self) -> None:
        """A process at the end of its descriptors."""
        self.say("p0 mkfifo f", "p0 open a rw,creat", *["p0 dup 0"] * self.pick.randrange(26, 32))
        for _ in range(6):
            self.act("open 3 dup 1 pipe 1 close 1")

    def begin_with_a_large_file(self) -> None:
        """A file about as large as one may be, with a hole up to where its last writes are."""
        write = f"p0 write 0 {self.pick.randrange(256):02x}*65536"
        start = max(self.limits.size - 16 * TRANSFER_MAX - self.pick.choice([0, 0, 1, 100]), 0)
        self.say("p0 open a rw,creat", f"p0 ftruncate 0 {start}", "p0 lseek 0 0 end")
        self.say(*[write] * self.pick.randrange(15, 17))

    def begin_with_the_greatest_file(self) -> None:
        """A file that is made as large as one may be, written at its ends, across the limit and between, and cut."""
        most = self.limits.size
        self.say("p0 open a rw,creat", f"p0 ftruncate 0 {most}", "p0 open a rw,append")
        places = [0, 1, 4_096, 65_535, most // 2, most - 65_537, most - 4_096, most - 9, most - 1, most]
        for _ in range(self.pick.randrange(2, 8)):
            at, count = self.pick.choice(places), self.pick.choice([1, 9, 10, 4_096, 65_536])
            data = data_text(self.pick, count)
            length = self.pick.choice([most, most, most + 1, max(at - self.pick.choice([0, 1, 5_000]), 0)])
            calls = [f"pwrite 0 {at} {data}", f"pwrite 0 {at} {data}", f"pread 0 {at} {count}", f"lseek 0 {at} set"]
            calls += [f"write 0 {data}", f"write 1 {data}", f"ftruncate 0 {length}"]
            self.say(f"p0 {self.pick.choice(calls)}")

    def begin_with_many_processes(self) -> None:
        """As many processes as there may be, or fewer."""
        for _ in range(self.pick.randrange(20, 120)):
            self.act("join 8 fork 8 attach 6 pipe 2")

    def begin_with_many_names(self) -> None:
        """About as many names as there may be."""
        self.say(*(f"p0 mkfifo n{number}" for number in range(self.pick.randrange(1_018, 1_026))))

    def begin_with_many_descriptions(self) -> None:
        """About as many open file descriptions as there may be."""
        self.say("p0 mkfifo a")
        for number in range(1, 33):
            opens = OPEN_MAX if number < 32 else self.pick.randrange(28, 33)
            self.say("join", *[f"p{number} open a r,nonblock"] * opens)
        self.say(*(self.pick.choice(["p0 pipe", "p0 open a w", "p0 open b rw,creat"]) for _ in range(4)))


BEGINNINGS: dict[Callable[[Walk], None] | None, int] = {
    Walk.begin_with_two_ends: 350,
    Walk.begin_with_many_descriptors: 50,
    Walk.begin_with_a_large_file: 50,
    Walk.begin_with_the_greatest_file: 60,
    Walk.begin_with_many_processes: 40,
    Walk.begin_with_many_names: 8,
    Walk.begin_with_many_descriptions: 6,
    None: 500,
}


def is_fifo(file: object) -> bool:
    """Whether a file is a FIFO."""
    return isinstance(file, plain_model.Fifo)


def walked(
    pick: random.Random, records: int, length: int, often: Sequence[str] = (), limits: Limits = DEFAULTS
) -> list[bytes]:
    """The lines of a walk of about a length, in which some words come often."""
    walk = Walk(pick, plain_model.Run(records, limits))
    walk.often = often
    beginning = pick.choices(list(BEGINNINGS), list(BEGINNINGS.values()))[0]
    if beginning:
        beginning(walk)
    walk.walk(length)
    return walk.lines
