"""What each call of a history may touch, in whatever order the calls come.

Only a process itself changes its descriptors, and its calls come in their own order with the answers that were noted.
So it is known at each call what is behind its descriptors: an open file description, with the call that made it. Which
file a name leads to is not known, so all files that a name has are one, and so are names that a link may join.

Two calls of different processes that do not disturb each other give the same answers and lead to the same state in
either order, wherever in a history they stand side by side.
"""

from collections.abc import Callable, Iterable, Sequence
from typing import NamedTuple

from support import plain_model
from support.histories import UNKNOWN, Noted

# What may be touched: its kind, and which one.
Thing = tuple[str, object]
CHANGE_DESCRIPTORS = ("open", "close", "dup", "dup2", "pipe", "fork", "exit")


class Opened(NamedTuple):
    """An open file description: the call that made it and which of its ends it is, its file, and the flags that it was
    opened with."""

    made_by: tuple[int, int, int]
    file: object
    may_be_pipe: bool
    flags: str

    @property
    def mode(self) -> str:
        """Whether it is open for reading, as r, for writing, as w, or for both, as rw."""
        return self.flags.split(",")[0]

    @property
    def offset(self) -> Thing:
        """Its offset."""
        return "offset", self.made_by

    @property
    def status(self) -> Thing:
        """Whether it appends, and whether it waits."""
        return "status", self.made_by

    @property
    def data(self) -> Thing:
        """The bytes of its file."""
        return "data", self.file

    @property
    def ends(self) -> set[Thing]:
        """What tells which ends of its pipe are open, if it may be one."""
        return {("ends", self.file)} if self.may_be_pipe else set()


# The descriptors of a process; None where an answer that is not known has changed them.
Table = dict[int, Opened] | None


class Touch:
    """What a call looks at and what it changes; and the ends of pipes that it holds open from then on, though they are
    open already. Of a call on a descriptor also the description."""

    def __init__(self, looks: Iterable[Thing] = (), changes: Iterable[Thing] = ()) -> None:
        self.looks = set(looks)
        self.changes = set(changes)
        self.holds: set[Thing] = set()
        self.at: Opened | None = None
        self.is_known = True

    def both(self, *things: Thing) -> None:
        """The call looks at these, and changes them."""
        self.looks.update(things)
        self.changes.update(things)

    def disturbs(self, other: "Touch") -> bool:
        """Whether the order of two calls may matter."""
        if not (self.is_known and other.is_known):
            return True
        if not self.changes.isdisjoint(other.looks) or not self.changes.isdisjoint(other.changes):
            return True
        return not self.looks.isdisjoint(other.changes)


# ---- names


class Names:
    """Names, of which those that a link or a rename may join are one; and which of them may lead to a FIFO."""

    def __init__(self, history: Iterable[Noted]) -> None:
        self.same: dict[bytes, bytes] = {}
        acts = [noted.act for noted in history]
        for act in acts:
            if act.word in ("link", "rename"):
                one, other = map(self.first, act.fields)
                if one != other:
                    self.same[one] = other
        self.fifos = {self.first(act.fields[0]) for act in acts if act.word == "mkfifo"}

    def first(self, name: bytes) -> bytes:
        """The name that stands for all that are one with it."""
        while name in self.same:
            name = self.same[name]
        return name


# ---- what a call touches


class Asked(NamedTuple):
    """A call that is looked at: with the descriptors of its process before it, and all names."""

    noted: Noted
    table: dict[int, Opened]
    names: Names

    def opened(self, field: int = 0) -> Opened | None:
        """The description behind the descriptor in a field."""
        return self.table.get(self.noted.act.fields[field])

    def name(self, field: int = 0) -> Thing:
        """The name in a field."""
        return "names", self.names.first(self.noted.act.fields[field])


def touch_open(asked: Asked, touch: Touch) -> None:
    """An open finds a name, or makes one."""
    kind, name = asked.name()
    flags = asked.noted.act.fields[1]
    touch.looks.add((kind, name))
    if "creat" in flags:
        touch.changes.add((kind, name))
    if "trunc" in flags:
        touch.changes.add(("data", name))
    if name in asked.names.fifos:
        touch.both(("ends", name))
        touch.holds.add(("ends", name))


def touch_names(asked: Asked, touch: Touch) -> None:
    """A call on one name or two."""
    touch.both(*(asked.name(field) for field in range(len(asked.noted.act.fields))))


def touch_read(asked: Asked, touch: Touch) -> None:
    """A read moves the offset, or takes bytes out of a pipe, unless it gives none."""
    at = asked.opened()
    if at and asked.noted.outcome == "x":
        touch.looks |= {at.data, at.offset} | at.ends
    elif at:
        touch.both(at.offset)
        touch.looks |= {at.data} | at.ends
        touch.changes |= {at.data} if at.may_be_pipe else set()
    if at and at.may_be_pipe:
        touch.looks.add(at.status)


def touch_write(asked: Asked, touch: Touch) -> None:
    """A write changes bytes and the offset, unless it has none."""
    at = asked.opened()
    if at and asked.noted.act.fields[1]:
        touch.both(at.offset, at.data)
        touch.looks |= {at.status} | at.ends


def touch_pread(asked: Asked, touch: Touch) -> None:
    """A pread looks at bytes."""
    at = asked.opened()
    touch.looks |= {at.data} if at else set()


def touch_bytes(asked: Asked, touch: Touch) -> None:
    """A pwrite or an ftruncate changes bytes."""
    at = asked.opened()
    if at:
        touch.both(at.data)


def touch_lseek(asked: Asked, touch: Touch) -> None:
    """An lseek moves the offset, unless it only asks for it."""
    at = asked.opened()
    if not at:
        return
    move, whence = asked.noted.act.fields[1:]
    if whence == "cur" and move == 0:
        touch.looks.add(at.offset)
    else:
        touch.both(at.offset)
    touch.looks |= {at.data} if whence == "end" else set()


def touch_fstat(asked: Asked, touch: Touch) -> None:
    """An fstat looks at how long a file is, and at its names."""
    at = asked.opened()
    touch.looks |= {at.data, ("names", at.file)} if at else set()


def touch_getfl(asked: Asked, touch: Touch) -> None:
    """A getfl looks at flags."""
    at = asked.opened()
    touch.looks |= {at.status} if at else set()


def touch_setfl(asked: Asked, touch: Touch) -> None:
    """A setfl changes flags."""
    at = asked.opened()
    touch.changes |= {at.status} if at else set()


def touch_close(asked: Asked, touch: Touch) -> None:
    """A close may close the last end of its kind."""
    at = asked.opened()
    touch.changes |= at.ends if at else set()


def touch_dup(asked: Asked, touch: Touch) -> None:
    """A dup or dup2 holds an end that is open, and may close another one."""
    at = asked.opened()
    touch.holds |= at.ends if at else set()
    old = asked.opened(1) if asked.noted.act.word == "dup2" else None
    touch.changes |= old.ends if old and old is not at else set()


def made_number(noted: Noted) -> int | None:
    """The number of the process that a join or fork makes."""
    if noted.act.word == "join" and not noted.outcome.startswith("error "):
        return noted.process
    return int(noted.outcome) if noted.act.word == "fork" and noted.outcome.isdigit() else None


def touch_number(noted: Noted, touch: Touch) -> None:
    """A join or fork makes a process with the next number."""
    made = made_number(noted)
    if made is not None:
        touch.looks |= {("process", number) for number in range(made)}
        touch.changes.add(("process", made))


def touch_fork(asked: Asked, touch: Touch) -> None:
    """A fork makes a process, which holds all ends."""
    touch_number(asked.noted, touch)
    touch.holds |= {end for at in asked.table.values() for end in at.ends}


def touch_exit(asked: Asked, touch: Touch) -> None:
    """An exit closes all ends."""
    touch.changes |= {end for at in asked.table.values() for end in at.ends}


TOUCHES: dict[str, Callable[[Asked, Touch], None]] = {
    "open": touch_open,
    "close": touch_close,
    "read": touch_read,
    "write": touch_write,
    "pread": touch_pread,
    "pwrite": touch_bytes,
    "lseek": touch_lseek,
    "ftruncate": touch_bytes,
    "dup": touch_dup,
    "dup2": touch_dup,
    "mkfifo": touch_names,
    "link": touch_names,
    "unlink": touch_names,
    "rename": touch_names,
    "fstat": touch_fstat,
    "getfl": touch_getfl,
    "setfl": touch_setfl,
    "fork": touch_fork,
    "exit": touch_exit,
}


# ---- a whole history


class Footprints:
    """What each call of a history touches. A pwrite may heed whether its description appends."""

    def __init__(self, history: Sequence[Noted], heeds_append: bool = False) -> None:
        self.history = history
        self.heeds_append = heeds_append
        self.names = Names(history)
        self.born: dict[int, Table] = {}
        # the descriptors that each process has at the end
        self.last: dict[int, Table] = {}
        self.touches: list[Touch] = [Touch() for _ in history]
        places: dict[int, list[int]] = {}
        for place, noted in enumerate(history):
            places.setdefault(noted.process, []).append(place)
        # a parent has a lower number than its child
        for process in sorted(places):
            self.last[process] = self.walk(places[process])
        self.last = self.born | self.last

    def walk(self, places: Sequence[int]) -> Table:
        """Goes through the calls of a process in their order: the descriptors that it has after them."""
        first = self.history[places[0]]
        table: Table = {} if first.act.word == "join" else self.born.get(first.process)
        for number, place in enumerate(places):
            noted = self.history[place]
            self.touches[place] = self.touch(noted, table)
            table = self.after(noted, table, number)
        return table

    def touch(self, noted: Noted, table: Table) -> Touch:
        """What a call touches."""
        word, process = noted.act.word, noted.process
        touch = Touch([("process", process), ("attached", process)])
        if word == "join":
            touch_number(noted, touch)
        elif word == "attach":
            touch.changes.add(("attached", process))
        elif table is None or (word == "fork" and noted.outcome == UNKNOWN):
            touch.is_known = False
        else:
            touch.looks.add(("table", process))
            # a fork leaves the descriptors of its process as they are
            is_changed = word in CHANGE_DESCRIPTORS and word != "fork"
            touch.changes |= {("table", process)} if is_changed else set()
            asked = Asked(noted, table, self.names)
            touch.at = asked.opened() if plain_model.FIELDS[word][:1] == (plain_model.read_fd,) else None
            if word in TOUCHES:
                TOUCHES[word](asked, touch)
            if word == "pwrite" and touch.at and self.heeds_append:
                touch.looks.add(touch.at.status)
        if noted.outcome.startswith("error "):
            touch.changes, touch.holds = set(), set()
        return touch

    def after(self, noted: Noted, table: Table, number: int) -> Table:
        """The descriptors of a process after a call of it. Those of a child that it makes are kept."""
        act, outcome = noted.act, noted.outcome
        if table is None or outcome.startswith("error ") or act.word not in CHANGE_DESCRIPTORS:
            return table
        if noted.end is None or outcome == UNKNOWN:
            return None
        if act.word == "exit":
            return {}
        fds = [int(word) for word in outcome.split(" ") if word.isdigit()]
        if act.word == "fork":
            self.born |= {child: table for child in fds}
            return table
        gone = act.fields[:1] if act.word == "close" else ()
        made = {fd: self.behind(noted, table, number, at) for at, fd in enumerate(fds)}
        after = {fd: at for fd, at in table.items() if fd not in gone}
        after |= {fd: at for fd, at in made.items() if at}
        return after

    def behind(self, noted: Noted, table: dict[int, Opened], number: int, end: int) -> Opened | None:
        """What is behind a descriptor that a call gives: the first one, or the second of a pipe."""
        act, made_by = noted.act, (noted.process, number, end)
        if act.word == "pipe":
            return Opened(made_by, ("pipe", noted.process, number), True, "rw"[end])
        if act.word == "open":
            name = self.names.first(act.fields[0])
            return Opened(made_by, name, name in self.names.fifos, act.fields[1])
        return table.get(act.fields[0])


# ---- which calls may come before which


def comes_after(noted: Noted, number: int) -> bool:
    """Whether a call can only come after process `number` was made, since it is of that one or a later one, or makes a
    later one."""
    made = made_number(noted)
    return noted.process >= number or (made is not None and made > number)


def is_large(history: Sequence[Noted]) -> bool:
    """Whether so many things may be made that a limit of the model may be met."""
    words = [noted.act.word for noted in history]
    processes = sum(word in ("join", "fork") for word in words)
    names = sum(word in ("open", "mkfifo", "link") for word in words)
    descriptions = sum(word in ("open", "pipe") for word in words) * 2
    limits = (plain_model.PROCESSES_MAX, plain_model.NAMES_MAX, plain_model.DESCRIPTIONS_MAX)
    return any(count > most for count, most in zip((processes, names, descriptions), limits, strict=True))


def rivals(history: Sequence[Noted], touches: Sequence[Touch]) -> list[int]:
    """For each call, as bits: the calls of other processes that may come before it or after it, where that matters."""
    found = [0] * len(history)
    is_any = is_large(history)
    under_way: list[int] = []
    for place in sorted(range(len(history)), key=lambda at: history[at].start):
        noted = history[place]
        under_way = [at for at in under_way if not history[at].precedes(noted)]
        for other_place in under_way:
            other = history[other_place]
            if noted.process != other.process and (is_any or touches[place].disturbs(touches[other_place])):
                found[place] |= rival(noted, other, other_place)
                found[other_place] |= rival(other, noted, place)
        under_way.append(place)
    return found


def rival(noted: Noted, other: Noted, place: int) -> int:
    """The bit of another call, if it may come before one."""
    made = made_number(noted)
    return 0 if made is not None and comes_after(other, made) else 1 << place
