"""What later answers tell of the bytes that a write puts somewhere, so that a wrong order is known at once.

Two kinds of files are looked at. In a regular file that only grows no byte is changed once it is there: all writes
append, or all are made at one offset that nothing moves back, and nothing sets its flags. So each byte must be the one
that is read at its place, whenever that is; and the file is never longer than it is told to be later. From a pipe the
bytes come in the order in which they went in: so those that are in it must be what the processes that read from it are
given next.
"""

from collections.abc import Iterable, Iterator, Mapping, Sequence
from typing import NamedTuple, Protocol

from support import plain_model
from support.contents import Contents, Held
from support.footprints import Names, Opened, Touch
from support.histories import WAITS, Noted
from support.worlds import State, behind


class Grown:
    """The bytes of a file that only grows, as far as they are known."""

    def __init__(self) -> None:
        self.bytes = Contents()
        # of each byte, whether it is known
        self.known = Contents()
        self.is_sound = True
        # how long the file is told to be, with the bit of the call that tells it
        self.lengths: list[tuple[int, int]] = []

    def add(self, start: int, data: bytes) -> None:
        """Takes in what was read from a place on. Where that contradicts what is known, nothing can be told."""
        self.is_sound = self.is_sound and self.fits(start, data)
        self.bytes.write(start, data)
        self.known.write(start, b"\1" * len(data))

    def fits(self, start: int, data: bytes) -> bool:
        """Whether bytes can stand from a place on."""
        known, told = self.known.read(start, len(data)), self.bytes.read(start, len(data))
        if b"\0" not in known:
            return data.startswith(told)
        return all(not known[at] or told[at] == data[at] for at in range(len(known)))

    def may_be(self, length: int, bits: int) -> bool:
        """Whether the file may be so long after these calls."""
        return all(length <= told or bit & bits for told, bit in self.lengths)


class Reader(NamedTuple):
    """What a process is given of a pipe, read by read, and how many of these reads come before each of its calls. What
    is not known of a read is None."""

    process: int
    given: list[bytes | None]
    before: list[int]


class Stream(NamedTuple):
    """What all processes together are given of a pipe."""

    readers: list[Reader]

    def fits(self, data: bytes, ended: Mapping[int, int]) -> bool:
        """Whether bytes can be what is given next, where so many calls of each reader have ended."""
        return self.can_give(data, [reader.before[ended[reader.process]] for reader in self.readers])

    def can_give(self, data: bytes, nexts: list[int]) -> bool:
        """Whether bytes can be given by these reads and those after them, or left at the end."""
        if not data or all(at == len(reader.given) for at, reader in zip(nexts, self.readers, strict=True)):
            return True
        for number, reader in enumerate(self.readers):
            if nexts[number] == len(reader.given):
                continue
            given = reader.given[nexts[number]]
            if given is None or given.startswith(data):
                return True
            after = [at + (other == number) for other, at in enumerate(nexts)]
            if data.startswith(given) and self.can_give(data[len(given) :], after):
                return True
        return False


class Written(NamedTuple):
    """A write whose bytes can be looked at: its process, its descriptor, its size, and what is known of its file."""

    process: int
    fd: int
    size: int
    known: Grown | Stream


class Call(NamedTuple):
    """A call on a descriptor: its place in the history, what was noted, and the description."""

    place: int
    noted: Noted
    at: Opened


# ---- what is behind a descriptor in a state


def found(state: State, process: int, fd: int) -> tuple[Held | bytes, int]:
    """The bytes of the file or pipe behind a descriptor, and the offset."""
    at = behind(state, process, fd)
    told = state.files[at[0] if at[5] is None else at[5]]
    if isinstance(told, Held):
        return told, at[4]
    return (told[1] if isinstance(told[1], bytes) else b""), at[4]


# ---- a whole history


class Touches(Protocol):
    """What each call of a history touches, and which names are one."""

    names: Names
    touches: list[Touch]


class Foretold:
    """What the answers of a history tell of its writes."""

    def __init__(self, history: Sequence[Noted], footprints: Touches) -> None:
        self.history = history
        self.footprints = footprints
        calls: dict[object, list[Call]] = {}
        for place, (noted, touch) in enumerate(zip(history, footprints.touches, strict=True)):
            if touch.at:
                calls.setdefault(touch.at.file, []).append(Call(place, noted, touch.at))
        self.writes: dict[int, Written] = {}
        self.is_possible = True
        if all(touch.is_known for touch in footprints.touches):
            for file, some in calls.items():
                self.look(file, some)

    def look(self, file: object, calls: Sequence[Call]) -> None:
        """Finds out what is known of a file."""
        known = self.stream(file, calls) if calls[0].at.may_be_pipe else self.grown(file, calls)
        for call in calls:
            if known and call.noted.act.word == "write":
                fd, data = call.noted.act.fields
                self.writes[call.place] = Written(call.noted.process, fd, len(data), known)

    # -- files that only grow

    def grown(self, file: object, calls: Sequence[Call]) -> Grown | None:
        """What is known of the bytes of a file, if it only grows."""
        writes = [call for call in calls if call.noted.act.word == "write" and changes(call.noted)]
        is_appended = all("append" in call.at.flags for call in writes)
        if any(call.noted.act.word == "setfl" for call in calls):
            return None
        if not writes or not (is_appended or len({call.at.made_by for call in writes}) == 1):
            return None
        used = [call.noted for call in calls if call in writes or call.noted.act.word in ("pread", "read")]
        if not (self.keeps_bytes(calls, writes, is_appended, used) and self.keeps_name(file, used)):
            return None
        known = Grown()
        for call, start, data in read_at(calls):
            known.add(start, data)
            if len(data) < call.noted.act.fields[-1]:
                known.lengths.append((start + len(data), 1 << call.place))
        self.is_possible = self.is_possible and known.is_sound
        return known

    def keeps_bytes(
        self, calls: Sequence[Call], writes: Sequence[Call], is_appended: bool, used: Sequence[Noted]
    ) -> bool:
        """Whether nothing but writes changes bytes, unless it does so before all that is read and appended, or after
        it; and nothing moves the offset of writes that do not append."""
        for call in calls:
            word, is_moved = call.noted.act.word, call.at.made_by == writes[0].at.made_by
            is_changed = word in ("pwrite", "ftruncate") or (word == "lseek" and not is_appended and is_moved)
            if is_changed and changes(call.noted) and not is_after(call.noted, used):
                if not (is_appended and is_before(call.noted, used)):
                    return False
        return True

    def keeps_name(self, file: object, used: Sequence[Noted]) -> bool:
        """Whether a name leads to one file as long as that is used, which nothing makes empty after its first use."""
        first = self.footprints.names.first
        words = ("open", "link", "unlink", "rename")
        named = [noted for noted in self.history if noted.act.word in words and changes(noted)]
        named = [noted for noted in named if first(noted.act.fields[0]) == file]
        opens = [noted for noted in named if noted.act.word == "open"]
        for noted in named:
            is_opened = noted.act.word == "open"
            if is_opened and "trunc" not in noted.act.fields[1]:
                continue
            if not (is_before(noted, used if is_opened else [*used, *opens]) or is_after(noted, used)):
                return False
        return True

    # -- pipes with one reader

    def stream(self, file: object, calls: Sequence[Call]) -> Stream | None:
        """What those who read a pipe are given of it."""
        reads = {call.place for call in calls if call.noted.act.word == "read" and changes(call.noted)}
        readers = {self.history[place].process for place in reads}
        if not readers or not self.is_opened_once(file):
            return None
        return Stream([self.reader(process, reads) for process in sorted(readers)])

    def reader(self, process: int, reads: set[int]) -> Reader:
        """What a process is given of a pipe by some reads."""
        given: list[bytes | None] = []
        before = [0]
        for place, noted in enumerate(self.history):
            if noted.process == process:
                if place in reads and noted.outcome != WAITS:
                    given.append(plain_model.read_data(noted.outcome.encode()))
                before.append(len(given))
        return Reader(process, given, before)

    def is_opened_once(self, file: object) -> bool:
        """Whether there is one pipe, of which one description reads: so nothing in it is lost before it is read."""
        first = self.footprints.names.first
        acts = [noted.act for noted in self.history if not noted.outcome.startswith("error ")]
        named = [act for act in acts if act.word in ("open", "link", "unlink", "rename", "mkfifo")]
        words = [act.word for act in named if first(act.fields[0]) == file and is_reading(act)]
        return isinstance(file, tuple) or sorted(words) == ["mkfifo", "open"]


def fits(written: Written, state: State, ended: Mapping[int, int], bits: int) -> bool:
    """Whether what a write has put into a file may stay there, after these calls. `ended` counts those of each process
    that reads."""
    told, offset = found(state, written.process, written.fd)
    known = written.known
    if isinstance(known, Stream):
        return isinstance(told, Held) or known.fits(told, ended)
    if not isinstance(told, Held):
        return True
    start = max(offset - written.size, 0)
    return known.may_be(told.length, bits) and known.fits(start, told.read(start, offset - start))


def is_before(noted: Noted, others: Iterable[Noted]) -> bool:
    """Whether a call comes before all others."""
    return all(comes_before(noted, other) for other in others)


def is_after(noted: Noted, others: Iterable[Noted]) -> bool:
    """Whether a call comes after all others."""
    return all(comes_before(other, noted) for other in others)


def is_reading(act: plain_model.Act) -> bool:
    """Whether it is no open for writing alone."""
    return act.word != "open" or act.fields[1].split(",")[0] != "w"


def changes(noted: Noted) -> bool:
    """Whether a call may have an effect."""
    return not noted.outcome.startswith("error ") and not (
        noted.outcome == "x" or (noted.outcome == "0" and "write" in noted.act.word)
    )


def comes_before(noted: Noted, other: Noted) -> bool:
    """Whether a call comes before another one, in time or as one of the same process."""
    is_same = noted.process == other.process
    return noted.precedes(other) or (is_same and noted is not other and noted.start <= other.start)


# ---- what was read, and where


def read_at(calls: Iterable[Call]) -> Iterator[tuple[Call, int, bytes]]:
    """What was read of a file at places that are known, and by which call."""
    users: dict[tuple[int, int, int], set[int]] = {}
    for call in calls:
        users.setdefault(call.at.made_by, set()).add(call.noted.process)
    offsets: dict[tuple[int, int, int], int | None] = {}
    for call in calls:
        word, outcome = call.noted.act.word, call.noted.outcome
        data = plain_model.read_data(outcome.encode()) if word in ("read", "pread") else None
        key = call.at.made_by
        offset = offsets.get(key, 0) if len(users[key]) == 1 else None
        start = call.noted.act.fields[1] if word == "pread" else offset
        if data and start is not None:
            yield call, start, data
        offsets[key] = moved(call, offset, data)


def moved(call: Call, offset: int | None, data: bytes | None) -> int | None:
    """The offset of a description after a call, where it is known."""
    word, outcome = call.noted.act.word, call.noted.outcome
    if word == "lseek" and outcome.isdigit():
        return int(outcome)
    if offset is None or word not in ("read", "write", "lseek") or outcome.startswith("error "):
        return offset
    if word == "read" and data is not None:
        return offset + len(data)
    return offset + int(outcome) if word == "write" and outcome.isdigit() and "append" not in call.at.flags else None
