"""Traces of which one record is bent: its lengths, fields and kinds at their edges, or bytes too many and too few."""

import random
from collections.abc import Iterable, Iterator
from functools import cache, cached_property
from typing import NamedTuple

from parts.written_traces import Named, random_records
from support import plain_model
from support.auditing import Judge, act_of
from support.frames import (
    ACTS,
    CALLS,
    MOST,
    READERS,
    Malformed,
    Payload,
    framed,
    header_bytes,
    line_of,
    outcome_bytes,
    record_frame,
    u32,
)
from support.runs import line_of as run_line_of
from support.sources import numbered, source

# Edges of numbers of so many bytes, beside the value that is there and its neighbours.
EDGES: dict[int, tuple[int, ...]] = {
    1: (0, 1, 2, 3, 4, 8, 9, 15, 16, 17, 31, 32, 63, 64, 65, 127, 128, 254, 255),
    4: (
        *(0, 1, 31, 32, 63, 64, 512, 513, 1_024, 2**16 - 1, 2**16, 2**16 + 1, 65_700, 65_701, 66_048),
        *(2**31 - 1, 2**31, 2**32 - 2, 2**32 - 1),
    ),
    8: (0, 1, 2**16, 2**20 - 1, 2**20, 2**20 + 1, 2**31, 2**32 - 1, 2**32, 2**63 - 1, 2**63, 2**64 - 2, 2**64 - 1),
}
# Edges of the length of a frame, and of those in it that are told in so many bytes.
LENGTHS = (0, 1, 4, 5, 2**16 - 1, 2**16, 65_792, 66_048, 66_049, 2**24, 2**31 - 1, 2**31, 2**32 - 1)
INSIDES: dict[int, tuple[int, ...]] = {
    1: (0, 1, 64, 65, 127, 128, 254, 255),
    4: (0, 1, 2**16 - 1, 2**16, 2**16 + 1, 65_700, 65_701, 2**31 - 1, 2**31, 2**32 - 1),
}

# Where the kind of the act is, after the actor.
KIND = 4


# ---- records that are right, of which one is bent

# What comes before each sample.
BEGINNING = """join; p0 open a rw,creat; p0 write 0 x68656c6c6f; p0 pipe; p0 mkfifo f; p0 fork; p0 fork; p1 attach
p0 write 2 x6162"""
# The acts of the samples, the last of each being the one that is bent.
SAMPLES = """join|p2 attach|p9 attach|p0 exit|p1 exit|close-run|p0 open b w,creat,excl|p0 open a r|p0 open f w,nonblock
p0 open f r|p0 close 0|p0 close 3|p0 read 1 9|p0 read 0 9|p1 write 2 x63; p1 read 1 9; p1 read 1 5|p0 write 0 x2122
p0 write 2 61*1023|p0 write 2 61*512|p0 pread 0 1 3|p0 pwrite 0 3 x2122|p0 pwrite 0 1048575 x2122|p0 lseek 0 2 set
p0 lseek 0 -1 end|p0 ftruncate 0 3|p0 dup 0|p0 dup2 0 31|p0 pipe|p0 mkfifo g|p0 link a b|p0 unlink a|p0 fstat 0
p0 fstat 1|p0 open f r,nonblock; p0 fstat 3|p0 fork|p1 write 2 61*2000; p0 read 1 500; p1 resume
p1 write 2 61*2000; p0 read 1 999; p1 resume|p0 read 1 2; p1 read 1 5; p0 write 2 x6869; p1 resume
p0 open f w; p1 open f r; p0 resume|p0 getfl 0|p0 setfl 2 w,append,nonblock; p0 getfl 2|p0 setfl 0 rw,creat,append
p0 rename a f|p0 rename f g|p0 link a b; p0 rename a b
p1 close 1; p1 write 2 61*1000; p1 write 2 61*512; p0 close 1; p2 attach; p2 close 1; p1 resume"""
# What comes after it, as far as it can.
END = ["p1 fstat 0", "p0 close 0", "close-run"]

# Samples of which a byte takes every value, and where it stands in the payload: the kind of the act and of the outcome,
# the flags of an open, the base of an offset, what is told of a file, and an error.
EVERY_VALUE = {
    "p0 pipe": KIND,
    "p0 pread 0 1 3": 21,
    "p0 open b w,creat,excl": 5,
    "p0 lseek 0 2 set": 17,
    "p0 fstat 0": 10,
    "p0 close 3": 10,
    "p0 setfl 0 rw,creat,append": 9,
}


class Sample:
    """Records that are right, and the place of the one that is bent."""

    def __init__(self, name: str, records: list[str], place: int) -> None:
        self.name = name
        self.records = records
        self.place = place
        self.frames = list(map(record_frame, records))
        self.payload = self.frames[place][4:]

    def trace(self, frame: bytes, is_last: bool = False) -> bytes:
        """The trace with this frame in place of the record's, and with the records after it or without."""
        rest = [] if is_last else self.frames[self.place + 1 :]
        return header_bytes() + b"".join([*self.frames[: self.place], frame, *rest])

    @cached_property
    def acts(self) -> list[plain_model.Act]:
        """The acts before it."""
        return [act_of(run_line_of(text).act) for text in self.records[: self.place]]

    def right(self, act: plain_model.Act) -> str | None:
        """The outcome that an act has in the record's place."""
        judge = Judge()
        for before in self.acts:
            judge.outcome_of(before)
        return judge.outcome_of(act)


def words_of(text: str, mark: str) -> list[str]:
    """What stands in a text between marks and line ends."""
    return [word.strip() for line in text.split("\n") for word in line.split(mark)]


def recorded(acts: Iterable[str]) -> list[str]:
    """The records of these acts, as the model has them."""
    run = plain_model.Run(plain_model.RECORDS_DEFAULT)
    for act in acts:
        run.take(plain_model.read_act(act.encode()))
    return [line.rstrip("\n") for line in run.lines if not line.startswith("-")]


@cache
def samples() -> list[Sample]:
    """A record of every act, and with every kind of outcome, among others."""
    found = []
    for text in words_of(SAMPLES, "|"):
        acts = [*words_of(BEGINNING, ";"), *words_of(text, ";")]
        found.append(Sample(text, recorded([*acts, *END]), len(recorded(acts)) - 1))
    return found


def random_sample(pick: random.Random) -> Sample:
    """A random record of a random run."""
    records = random_records(pick)
    return Sample("a random record", records, pick.randrange(len(records)))


# ---- where the numbers of a record are


class Mark(NamedTuple):
    """Where some bytes of a payload are that are read at once."""

    at: int
    size: int


class Marked(Payload):
    """A payload that keeps where its fields are."""

    def __init__(self, payload: bytes) -> None:
        super().__init__(payload)
        self.length = len(payload)
        self.marks: list[Mark] = []

    def take(self, count: int) -> bytes:
        """So many bytes."""
        self.marks.append(Mark(self.length - len(self.rest), count))
        return super().take(count)


def marks_of(payload: bytes) -> list[Mark]:
    """The fields of a record."""
    marked = Marked(payload)
    READERS["records"](marked, 0)
    return marked.marks


def number_at(payload: bytes, mark: Mark) -> int:
    """The number that a field holds."""
    return int.from_bytes(payload[mark.at : mark.at + mark.size], "big")


def with_number(payload: bytes, mark: Mark, number: int) -> bytes:
    """A payload with another number in a field."""
    return payload[: mark.at] + number.to_bytes(mark.size, "big") + payload[mark.at + mark.size :]


def about(count: int, value: int, more: Iterable[int]) -> list[int]:
    """Numbers of so many bytes: a value, those beside it, and more."""
    return sorted(number for number in {value - 1, value, value + 1, *more} if 0 <= number < 256**count)


# ---- bends

# What is bent, and the frame.
Bent = tuple[str, bytes]


def bent_lengths(payload: bytes) -> Iterator[Bent]:
    """The length of the frame at its edges; its bytes are as they were."""
    for length in about(4, len(payload), LENGTHS):
        yield f"length {length}", u32(length) + payload


def bent_numbers(payload: bytes) -> Iterator[Bent]:
    """Each number at its edges, and as every kind of act that there is."""
    for mark in marks_of(payload):
        if mark.size in EDGES:
            more = [*ACTS, *CALLS] if mark.at == KIND else EDGES[mark.size]
            for number in about(mark.size, number_at(payload, mark), more):
                yield f"the {mark.size} bytes at {mark.at} as {number}", framed(with_number(payload, mark, number))


def bent_byte(payload: bytes, at: int) -> Iterator[Bent]:
    """A byte with every value."""
    for number in range(256):
        yield f"the byte at {at} as {number}", framed(with_number(payload, Mark(at, 1), number))


def bent_insides(payload: bytes) -> Iterator[Bent]:
    """Each length of a name or of data at its edges: with the bytes that it tells, and as if they were there."""
    marks = marks_of(payload)
    for mark, some in zip(marks, marks[1:], strict=False):
        if mark.size not in INSIDES or number_at(payload, mark) != some.size:
            continue
        data, rest = payload[some.at : some.at + some.size], payload[some.at + some.size :]
        for number in about(mark.size, some.size, INSIDES[mark.size]):
            told = with_number(payload, mark, number)
            if number <= MOST["records"]:
                grown = (data or b"a") * (number // max(len(data), 1) + 1)
                yield f"{number} bytes at {some.at}", framed(told[: some.at] + grown[:number] + rest)
            yield f"{number} bytes told at {mark.at}", framed(told)
            length = len(payload) + number - some.size
            if length < 2**32:
                yield f"{number} bytes told at {mark.at} and in the length", u32(length) + told


def bent_ends(payload: bytes) -> Iterator[Bent]:
    """A byte more or less at the end and between two fields, with the length of the frame or without."""
    length = u32(len(payload))
    for at in sorted({mark.at for mark in marks_of(payload)} | {len(payload)}):
        for byte in (b"\0", b"\xff"):
            more = payload[:at] + byte + payload[at:]
            yield f"a byte {byte.hex()} more at {at}", framed(more)
            yield f"a byte {byte.hex()} more at {at}, and not in the length", length + more
        if at:
            less = payload[: at - 1] + payload[at:]
            yield f"a byte less before {at}", framed(less)
            yield f"a byte less before {at}, and not in the length", length + less


def bent_spares(payload: bytes) -> Iterator[Bent]:
    """A byte too many at the end."""
    for byte in (b"\0", b"\x01", b"\xff"):
        yield f"a byte {byte.hex()} too many", framed(payload + byte)


def righted(sample: Sample, frame: bytes) -> bytes | None:
    """A bent frame with the outcome that the model gives, if it is a record and has another one."""
    if int.from_bytes(frame[:4], "big") != len(frame) - 4:
        return None
    try:
        line = run_line_of(line_of("records", frame[4:], 0))
    except Malformed:
        return None
    outcome = sample.right(act_of(line.act))
    if outcome is None or outcome == line.outcome:
        return None
    # the outcome comes last
    act = frame[4 : len(frame) - len(outcome_bytes(line.outcome))]
    return framed(act + outcome_bytes(outcome))


# ---- traces


def lengths(sample: Sample) -> Iterator[Named]:
    """A sample with its length at the edges, with and without records after it."""
    for what, frame in bent_lengths(sample.payload):
        yield f"{sample.name}: {what}", sample.trace(frame)
        yield f"{sample.name}: {what}, at the end", sample.trace(frame, True)


def bent(sample: Sample, bends: Iterable[Bent]) -> Iterator[Named]:
    """A sample with bends, each also with the outcome that is right then."""
    for what, frame in bends:
        yield f"{sample.name}: {what}", sample.trace(frame)
        right = righted(sample, frame)
        if right:
            yield f"{sample.name}: {what}, and the right outcome", sample.trace(right)


def all_bends(sample: Sample) -> list[Bent]:
    """All bends of a sample."""
    ways = (bent_lengths, bent_numbers, bent_insides, bent_ends)
    return [it for way in ways for it in way(sample.payload)]


def once(named: Iterable[Named]) -> list[Named]:
    """Each trace once."""
    return [(name, trace) for trace, name in {trace: name for name, trace in named}.items()]


@cache
def every_length_and_kind() -> list[Named]:
    """Every length about its bounds, records with a byte too many, and every value of the bytes that are a kind."""
    named: list[Named] = []
    for sample in samples():
        named += bent(sample, [*bent_insides(sample.payload), *bent_spares(sample.payload)])
        if sample.name in EVERY_VALUE:
            named += [*lengths(sample), *bent(sample, bent_byte(sample.payload, EVERY_VALUE[sample.name]))]
    return once(named)


@cache
def every_field() -> list[Named]:
    """All samples with all bends."""
    return once(it for sample in samples() for it in [*lengths(sample), *bent(sample, all_bends(sample))])


def random_ones(seed: str, use: str, count: int, each: int = 8) -> Iterator[Named]:
    """Random bends of samples and of records of random runs, about so many. A seed has others for each use."""
    for number in range(count // each):
        pick = source(f"{seed} {use}", number)
        sample = pick.choice(samples()) if number % 2 else random_sample(pick)
        bends = all_bends(sample)
        for name, trace in bent(sample, pick.sample(bends, min(each, len(bends)))):
            yield numbered(f"{name}, run", seed, number), trace
