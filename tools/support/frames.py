"""Requests, answers, records and the headers of traces, written and read. It is written from docs/FORMATS.md alone.

Each is told as a line: a request as `join`, or with `= still` after it; an answer as that of a fork of process 0; and a
record with the place that it has among those of its stream.
"""

from collections.abc import Callable, Iterable
from typing import Any, NamedTuple

from support import plain_model

# The greatest length of a payload.
MOST = {"requests": 65_792, "answers": 66_048, "records": 66_048}

# The actor of the closing.
HOUSE = 2**32 - 1

# The first bytes of a trace, by its version.
OLD_MAGIC = b"FDTRACE1"
MAGIC = b"FDTRACE2"
MAGICS = (OLD_MAGIC, MAGIC)
# How many bytes the headers of both versions have.
OLD_HEADER_LENGTH, HEADER_LENGTH = 8, 24
# What a header of version 2 may tell: how many records a run has at most, 0 where that is not told, and how many bytes
# a file.
RECORDS_MOST = 1_000_000
SIZES = (plain_model.OLD_LIMITS.size, plain_model.FILE_SIZE_MAX)

FLAG_WORDS = ("creat", "excl", "trunc", "append", "nonblock")
MODES = ("-", "r", "w", "rw")
BASES = ("set", "cur", "end")
TYPES = ("regular", "fifo", "pipe")
ERRORS = (
    "EBADF EINVAL ESPIPE EFBIG EOVERFLOW ENOENT EEXIST EMLINK "
    "ENAMETOOLONG EMFILE ENFILE ENOSPC EAGAIN EPIPE ENXIO ESRCH"
).split()
ACTS = {1: "join", 2: "attach", 3: "resume", 4: "exit", 5: "close-run"}
REFUSALS = {17: "NoMemory", 18: "RunFull", 19: "Waiting", 20: "NotHere", 21: "Foreign"}


class Malformed(Exception):
    """The payload is none of its kind."""


# ---- numbers and bytes


def framed(*payloads: bytes) -> bytes:
    """Payloads as frames."""
    return b"".join(len(payload).to_bytes(4, "big") + payload for payload in payloads)


def u32(number: int) -> bytes:
    """A number of 32 bits, with a sign or without."""
    return (number % 2**32).to_bytes(4, "big")


def u64(number: int) -> bytes:
    """A number of 64 bits, with a sign or without."""
    return (number % 2**64).to_bytes(8, "big")


def counted(some: bytes) -> bytes:
    """Bytes after their number, which has 32 bits."""
    return u32(len(some)) + some


def named(some: bytes) -> bytes:
    """Bytes after their number, which is one byte."""
    return bytes([len(some)]) + some


class Payload:
    """A payload, read from left to right."""

    def __init__(self, payload: bytes) -> None:
        self.rest = payload

    def take(self, count: int) -> bytes:
        """So many bytes."""
        if len(self.rest) < count:
            raise Malformed
        front, self.rest = self.rest[:count], self.rest[count:]
        return front

    def number(self, count: int, signed: bool = False) -> int:
        """A number of so many bytes."""
        return int.from_bytes(self.take(count), "big", signed=signed)

    def data(self, most: int) -> str:
        """Bytes after their number, as a line has them."""
        count = self.number(4)
        if count > most:
            raise Malformed
        return plain_model.data_text(self.take(count))

    def one_of(self, words: dict[int, str]) -> str:
        """The word of a byte."""
        byte = self.number(1)
        if byte not in words:
            raise Malformed
        return words[byte]


# ---- the fields of calls


class Field(NamedTuple):
    """A kind of field: how it is read, as a line has it, and how a value is written."""

    read: Callable[[Payload], str]
    write: Callable[[Any], bytes]


def flags_text(bits: int) -> str:
    """Flags, as a line has them."""
    words = [word for place, word in enumerate(FLAG_WORDS) if bits >> (place + 2) & 1]
    return ",".join([MODES[bits & 3], *words])


def read_flags(payload: Payload) -> str:
    """Flags, of which a byte has seven."""
    bits = payload.number(1)
    if bits > 127:
        raise Malformed
    return flags_text(bits)


def flags_byte(text: str) -> bytes:
    """Flags, as a frame has them."""
    mode, *others = text.split(",")
    return bytes([MODES.index(mode) + sum(4 << FLAG_WORDS.index(word) for word in others)])


FLAGS = Field(read_flags, flags_byte)
NAME = Field(lambda payload: plain_model.name_text(payload.take(payload.number(1))), named)
FD = Field(lambda payload: str(payload.number(4, signed=True)), u32)
COUNT = Field(lambda payload: str(payload.number(4)), u32)
PLACE = Field(lambda payload: str(payload.number(8, signed=True)), u64)
DATA = Field(lambda payload: payload.data(plain_model.DATA_MOST), counted)
WHENCE = Field(lambda payload: payload.one_of(dict(enumerate(BASES))), lambda base: bytes([BASES.index(base)]))


class Form(NamedTuple):
    """The form of a call: its word, and its fields in the order of frames."""

    word: str
    fields: tuple[Field, ...]


# The kind of field that a reader of a line reads.
KINDS = {
    plain_model.read_flags: FLAGS,
    plain_model.read_name: NAME,
    plain_model.read_fd: FD,
    plain_model.read_count: COUNT,
    plain_model.read_place: PLACE,
    plain_model.read_data: DATA,
    plain_model.read_whence: WHENCE,
}


def as_in_frames(word: str, fields: tuple[Any, ...]) -> tuple[Any, ...]:
    """The fields of a call in the order of frames: an open has its flags first. It is its own inverse."""
    return fields[::-1] if word == "open" else fields


# The byte of each call, and its form.
CALLS = {
    byte: Form(word, as_in_frames(word, tuple(KINDS[reader] for reader in form.fields)))
    for byte, (word, form) in enumerate(plain_model.CALLS.items(), 16)
}


# ---- requests and answers, written

JOIN = framed(b"\x01")


def attach_frame(number: int) -> bytes:
    """The frame of the request that attaches a child."""
    return framed(b"\x02" + u32(number))


def call_bytes(act: plain_model.Act) -> bytes:
    """A call, as requests and records have it."""
    byte = next(byte for byte, form in CALLS.items() if form.word == act.word)
    fields = zip(CALLS[byte].fields, as_in_frames(act.word, act.fields), strict=True)
    return bytes([byte]) + b"".join(field.write(value) for field, value in fields)


def call_frame(line: str) -> bytes:
    """The frame of a call that a line of a script spells."""
    return framed(call_bytes(plain_model.read_act(line.encode())))


def request_frame(request: str) -> bytes:
    """The frame of a request: `join`, `attach N`, or a call as in a script, without its actor."""
    word, *others = request.split(" ")
    if word == "join":
        return JOIN
    return attach_frame(int(others[0])) if word == "attach" else call_frame(f"p0 {request}")


def session_frames(lines: Iterable[str]) -> bytes:
    """The requests of a session that joins and makes these calls."""
    return JOIN + b"".join(call_frame(line) for line in lines)


def outcome_bytes(text: str) -> bytes:
    """An outcome that a line has, as an answer has it."""
    word, *others = text.split(" ")
    if word == "ok":
        return b"\x01"
    if word == "error":
        return bytes([6, ERRORS.index(others[0]) + 1])
    if word in ("parked", "part"):
        return bytes([7 if word == "parked" else 8]) + u32(int(others[0]))
    if word in TYPES:
        return bytes([5, TYPES.index(word)]) + u64(int(others[0])) + u32(int(others[1]))
    if others:
        return b"\x04" + u32(int(word)) + u32(int(others[0]))
    if word.isdigit():
        return b"\x02" + u64(int(word))
    data = plain_model.read_data(word.encode())
    if data is None:
        raise ValueError(f"{text} is no outcome")
    return b"\x03" + counted(data)


def recorded(place: int, outcome: str) -> bytes:
    """The payload of an answer that has a place."""
    return b"\x01" + u64(place) + outcome_bytes(outcome)


def refused(reason: str) -> bytes:
    """The payload of an answer that has none, for each reason but Foreign, which has two numbers more."""
    return bytes([2, next(byte for byte, word in REFUSALS.items() if word == reason)])


# ---- records and traces, written


def record_frame(line: str) -> bytes:
    """The frame of the record that a line of a run tells, with its place or without."""
    actor, word, rest = line.removeprefix(line[: line.index(" ") + 1] if line[0].isdigit() else "").split(" ", 2)
    number = HOUSE if actor == "house" else int(actor.removeprefix("p"))
    fields, _, outcome = f" {rest}".rpartition(" = ")
    byte = next((byte for byte, act in ACTS.items() if act == word), None)
    middle = bytes([byte]) if byte else call_bytes(plain_model.read_act(f"p0 {word}{fields}".encode()))
    return framed(u32(number) + middle + outcome_bytes(outcome))


def header_bytes(records: int = 0, limits: plain_model.Limits = plain_model.DEFAULTS) -> bytes:
    """The header of a trace of version 2: of a run of so many records at most, or 0, and of these limits."""
    return MAGIC + u32(records) + u32(limits.capacity) + u64(limits.size)


# The header of a trace that was migrated from version 1.
MIGRATED_HEADER = header_bytes(0, plain_model.OLD_LIMITS)


def trace_of(lines: Iterable[str], header: bytes | None = None) -> bytes:
    """The trace of the records that these lines tell; one of version 2 that tells no number of records where no header
    is given."""
    return (header_bytes() if header is None else header) + b"".join(map(record_frame, lines))


# ---- requests and answers, read


def read_call(payload: Payload, byte: int) -> str:
    """A call, as a line has it, of which the first byte was read."""
    if byte not in CALLS:
        raise Malformed
    word, kinds = CALLS[byte]
    fields = tuple(field.read(payload) for field in kinds)
    return " ".join([word, *as_in_frames(word, fields)])


def read_request(payload: Payload, _: int) -> str:
    """The line of a request."""
    byte = payload.number(1)
    if byte == 1:
        return "join"
    if byte == 2:
        process = payload.number(4)
        return f"- p{process} attach = still"
    return f"- p0 {read_call(payload, byte)} = still"


def read_outcome(payload: Payload) -> str:
    """An outcome, as a line has it."""
    byte = payload.number(1)
    if byte == 1:
        return "ok"
    if byte == 2:
        return str(payload.number(8))
    if byte == 3:
        return payload.data(plain_model.TRANSFER_MAX)
    if byte == 4:
        return f"{payload.number(4)} {payload.number(4)}"
    if byte == 5:
        kind = payload.one_of(dict(enumerate(TYPES)))
        return f"{kind} {payload.number(8)} {payload.number(4)}"
    if byte == 6:
        return "error " + payload.one_of(dict(enumerate(ERRORS, 1)))
    if byte in (7, 8):
        return f"{'parked' if byte == 7 else 'part'} {payload.number(4)}"
    raise Malformed


def read_answer(payload: Payload, _: int) -> str:
    """The line of an answer, for an act that is a fork of process 0."""
    if payload.one_of({1: "recorded", 2: "refused"}) == "recorded":
        at = payload.number(8)
        return f"{at} p0 fork = {read_outcome(payload)}"
    reason = payload.one_of(REFUSALS)
    if reason == "Foreign":
        payload.take(16)
    return f"- p0 fork = refused {reason}"


def read_record(payload: Payload, place: int) -> str:
    """The line of the record at a place."""
    actor, byte = payload.number(4), payload.number(1)
    act = ACTS[byte] if byte in ACTS else read_call(payload, byte)
    if act == "close-run" and actor != HOUSE:
        raise Malformed
    who = "house" if act == "close-run" else f"p{actor}"
    return f"{place} {who} {act} = {read_outcome(payload)}"


READERS = {"requests": read_request, "answers": read_answer, "records": read_record}


def line_of(kind: str, some: bytes, place: int) -> str:
    """The line of a payload's value, which comes after so many others."""
    payload = Payload(some)
    line = READERS[kind](payload, place)
    if payload.rest:
        raise Malformed
    return line


# ---- headers of traces, read


class Header(NamedTuple):
    """What the header of a trace tells: how many bytes it has, how many records the run has at most, 0 where that is
    not told, and the limits of the run."""

    length: int
    records: int
    limits: plain_model.Limits


def read_header(trace: bytes) -> Header | None:
    """The header of a trace, or None where the trace ends inside it."""
    magic = trace[: len(MAGIC)]
    if not any(it.startswith(magic) for it in MAGICS):
        raise Malformed
    if magic == OLD_MAGIC:
        return Header(OLD_HEADER_LENGTH, 0, plain_model.OLD_LIMITS)
    if len(trace) < HEADER_LENGTH:
        return None
    fields = Payload(trace[len(MAGIC) : HEADER_LENGTH])
    records, capacity, size = fields.number(4), fields.number(4), fields.number(8)
    is_capacity = plain_model.PIPE_CAPACITY_LEAST <= capacity <= plain_model.PIPE_CAPACITY_MOST
    if records > RECORDS_MOST or not is_capacity or size not in SIZES:
        raise Malformed
    return Header(HEADER_LENGTH, records, plain_model.Limits(size, capacity))


# ---- streams


class Stream:
    """The frames of a stream: where each ends and its line, and the stream's fault with where it is known, if any."""

    def __init__(self, kind: str, stream: bytes) -> None:
        self.kind = kind
        self.stream = stream
        self.frames: list[tuple[int, str]] = []
        self.fault: str | None = None
        self.known: int | None = None
        at = 0
        while len(stream) - at >= 4:
            length = int.from_bytes(stream[at : at + 4], "big")
            if length > MOST[kind]:
                self.fault, self.known = f"too long {at}", at + 4
                break
            end = at + 4 + length
            if end > len(stream):
                break
            try:
                self.frames.append((end, line_of(kind, stream[at + 4 : end], len(self.frames))))
            except Malformed:
                self.fault, self.known = f"malformed {at}", end
                break
            at = end
        self.whole = at

    def told(self, end: int) -> str:
        """What is known of the stream at an end: its fault, or that it goes on."""
        return self.fault if self.fault and self.known is not None and self.known <= end else "more"
