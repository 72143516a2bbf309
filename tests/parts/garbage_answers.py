"""Streams of answers that are bent, and what the calls of a client have to come to that is sent one."""

import random
from collections.abc import Sequence
from typing import NamedTuple

from support import plain_model
from support.frames import ERRORS, MOST, REFUSALS, TYPES, Malformed, framed, line_of, recorded, u32, u64
from support.sources import changed

# The calls that are made: of each form one, and some whose values may be large.
CALLS = [
    "open a rw,creat",
    "open f r",
    "close 3",
    "read 0 5",
    "read 0 65536",
    "read 0 0",
    "write 0 x6869",
    "write 0 61*2000",
    "write 0 61*65700",
    "pread 0 7 3",
    "pread 0 0 65536",
    "pwrite 0 7 x6162",
    "lseek 0 -1 end",
    "ftruncate 0 9",
    "dup 0",
    "dup2 0 9",
    "pipe",
    "mkfifo f",
    "link a b",
    "unlink a",
    "fstat 0",
    "fork",
    "getfl 0",
    "setfl 0 -,nonblock",
    "rename a b",
]
MAY_WAIT = ("open", "read", "write")
GIVES_NUMBER = ("open", "write", "pwrite", "lseek", "dup", "dup2", "fork", "join", "getfl")
# The greatest number that has flags.
FLAGS_MOST = 127
EDGES = [0, 1, 2, 2**31 - 1, 2**31, 2**32 - 1, 2**32, 2**63 - 1, 2**63, 2**64 - 1]
LENGTHS = [0, 1, 9, 10, 65_535, 65_536, 66_047, 66_048, 66_049, 2**31 - 1, 2**31, 2**32 - 1]


# ---- right answers


def word_of(request: str) -> str:
    """The word of a request."""
    return request.partition(" ")[0]


def most_of(request: str) -> int:
    """The greatest value that a request may give in C: how many bytes, or a number."""
    word, *fields = request.split(" ")
    if word in ("read", "pread"):
        return int(fields[-1])
    if word in ("write", "pwrite"):
        return len(plain_model.read_data(fields[-1].encode()) or b"")
    if word == "getfl":
        return FLAGS_MOST
    return 2**63 - 1 if word == "lseek" else 2**31 - 1


def outcome(pick: random.Random, request: str) -> str:
    """A right outcome of a request, or an error."""
    word, most = word_of(request), most_of(request)
    if pick.random() < 0.15:
        return f"error {pick.choice(ERRORS)}"
    if word in GIVES_NUMBER:
        return str(pick.choice([0, min(1, most), most, pick.randrange(most + 1)]))
    if word in ("read", "pread"):
        size = pick.choice([0, min(2, most), most])
        return plain_model.data_text(pick.choice([pick.randbytes(size), b"a" * size]))
    if word == "pipe":
        return f"{pick.choice([0, 5, 2**31 - 1])} {pick.choice([1, 31, 2**31 - 1])}"
    if word == "fstat":
        return f"{pick.choice(TYPES)} {pick.choice(EDGES)} {pick.choice(EDGES[:6])}"
    return "ok"


def refusal(pick: random.Random) -> bytes:
    """The payload of a refusal."""
    byte = pick.choice(list(REFUSALS))
    return bytes([2, byte]) + (pick.randbytes(16) if REFUSALS[byte] == "Foreign" else b"")


def payloads(pick: random.Random, request: str) -> list[bytes]:
    """The payloads of right answers to a request: those that it waits, and its reply."""
    waits = pick.choice([0, 0, 0, 1, 2, 5]) if word_of(request) in MAY_WAIT else 0
    place = pick.choice([3, 2**32, 2**64 - 9])
    words = [f"{'part' if at else 'parked'} {pick.choice([0, 7, 2**32 - 1])}" for at in range(waits)]
    some = [recorded(place + at, text) for at, text in enumerate(words)]
    return [*some, refusal(pick) if pick.random() < 0.05 else recorded(place + waits, outcome(pick, request))]


# ---- what is bent


def bent_payload(pick: random.Random, payload: bytes) -> bytes:
    """A payload with another kind, another field, or a byte more or fewer."""
    at = pick.randrange(len(payload) + 1)
    edge = pick.choice(EDGES)
    other = pick.choice(["ok", "3", "x6869", "61*65536", "3 4", "fifo 5 1", "error ESRCH", "parked 1", "part 1", "x"])
    return pick.choice(
        [
            changed(pick, payload),
            payload[:9] + bytes([pick.randrange(12)]) + payload[10:],
            bytes([pick.randrange(4)]) + payload[1:],
            payload[:10] + (pick.choice([u32(edge), u64(edge)]) + payload)[: max(len(payload) - 10, 0)],
            payload[:-1],
            payload + bytes([pick.randrange(256)]),
            payload[:9] + recorded(0, other)[9:],
            payload[:at] + u32(edge) + payload[at:],
            payload[:2] + pick.randbytes(pick.choice([0, 1, 15, 16, 17])),
            pick.randbytes(pick.choice([0, 1, 9, 40])),
            b"\1" + bytes(8) + b"\3" + u32(65_537) + bytes(65_537),
            bytes([2, pick.randrange(15, 24)]) + bytes(pick.choice([0, 0, 1, 16])),
        ]
    )


def bent_stream(pick: random.Random, some: Sequence[bytes]) -> bytes:
    """The frames of payloads, of which some are bent, left out, doubled, swapped, or have another length."""
    given = list(some)
    frames = []
    for _ in range(pick.choice([0, 1, 1, 1, 2, 3])):
        at = pick.randrange(len(given))
        how = pick.choice(["bend"] * 6 + ["drop", "double", "swap"])
        if how == "bend":
            given[at] = bent_payload(pick, given[at])
        elif how == "drop" and len(given) > 1:
            del given[at]
        elif how == "double":
            given.insert(at, given[at])
        elif how == "swap":
            given[at], given[-1] = given[-1], given[at]
    for payload in given:
        length = pick.choice([*LENGTHS, len(payload) + 1, len(payload) - 1]) if pick.random() < 0.03 else len(payload)
        frames.append(u32(length) + payload)
    stream = b"".join(frames)
    if pick.random() < 0.1:
        stream = changed(pick, stream)
    return stream[: pick.randrange(len(stream) + 1)] if pick.random() < 0.15 else stream


def pieces(pick: random.Random, stream: bytes) -> list[bytes]:
    """A stream in pieces."""
    size = pick.choice([1, 2, 7, 1_000, len(stream) or 1, len(stream) or 1])
    size = max(size, len(stream) // 500)
    return [stream[at : at + size] for at in range(0, len(stream), size)]


# ---- what calls have to come to


class Given(NamedTuple):
    """What a request comes to: `value`, `error`, `refused` or `lost`, and its value, name or errno. Each answer that it
    waits has a place, and how many bytes were moved."""

    how: str
    text: str
    place: int
    waits: tuple[tuple[int, int], ...] = ()


def kind_of(text: str) -> str:
    """The kind of an outcome that is a value."""
    first, *others = text.split(" ")
    if first in TYPES:
        return "stat"
    if others:
        return "descriptors"
    if text == "ok":
        return "done"
    return "number" if text.isdigit() else "data"


def wanted_kind(request: str) -> str:
    """The kind of the value of a request."""
    word = word_of(request)
    kinds = {"read": "data", "pread": "data", "pipe": "descriptors", "fstat": "stat"}
    return "number" if word in GIVES_NUMBER else kinds.get(word, "done")


def is_held(request: str, text: str) -> bool:
    """Whether a value is not greater than what a call in C may give, or flags in Python."""
    if kind_of(text) == "data":
        return len(plain_model.read_data(text.encode()) or b"") <= most_of(request)
    limits = {"number": most_of(request), "descriptors": 2**31 - 1}
    return all(int(word) <= limits[kind_of(text)] for word in text.split(" ") if kind_of(text) in limits)


class Hearing:
    """The answers of a stream, as a client must take them that is sent nothing else."""

    def __init__(self, stream: bytes, is_in_c: bool) -> None:
        self.rest = stream
        self.is_in_c = is_in_c
        self.is_lost = False
        self.place = 0

    def lost(self, why: str, waits: Sequence[tuple[int, int]] = ()) -> Given:
        """The connection is lost."""
        self.is_lost = True
        return Given("lost", why, self.place, tuple(waits))

    def payload(self) -> bytes | None:
        """The next payload; None where the stream ends before it does."""
        length = int.from_bytes(self.rest[:4], "big")
        if len(self.rest) >= 4 and length > MOST["answers"]:
            raise Malformed
        if len(self.rest) < 4 + length:
            return None
        payload, self.rest = self.rest[4 : 4 + length], self.rest[4 + length :]
        return payload

    def asked(self, request: str) -> Given:
        """What a request comes to."""
        waits: list[tuple[int, int]] = []
        if self.is_lost:
            return self.lost("ENOTCONN")
        while True:
            try:
                payload = self.payload()
                line = None if payload is None else line_of("answers", payload, 0)
            except Malformed:
                return self.lost("EPROTO", waits)
            if line is None:
                return self.lost("ECONNRESET", waits)
            place, _, text = line.partition(" p0 fork = ")
            given = self.taken(request, place, text, waits)
            if given:
                return given

    def taken(self, request: str, place: str, text: str, waits: list[tuple[int, int]]) -> Given | None:
        """What a request comes to by an answer; None where it waits on."""
        word, _, other = text.partition(" ")
        if word == "refused":
            return Given("refused", other, self.place, tuple(waits))
        self.place = int(place)
        if word == "error":
            return Given("error", other, self.place, tuple(waits))
        if word in ("parked", "part") and word_of(request) in MAY_WAIT:
            waits.append((self.place, int(other)))
            return None
        is_right = word not in ("parked", "part") and kind_of(text) == wanted_kind(request)
        is_limited = self.is_in_c or word_of(request) == "getfl"
        if not is_right or (is_limited and not is_held(request, text)):
            return self.lost("EPROTO", waits)
        return Given("value", text, self.place, tuple(waits))


class Exchange(NamedTuple):
    """What a client asks, and the stream that it is sent."""

    requests: list[str]
    stream: bytes


def exchange(pick: random.Random) -> Exchange:
    """An opening and a few calls, and a stream of answers to them that is bent."""
    requests = [pick.choice(["join", "join", "join", "attach 7"])]
    requests += [pick.choice(CALLS) for _ in range(pick.randrange(1, 6))]
    right = [payloads(pick, request) for request in requests]
    if pick.random() < 0.8:
        # the opening is right, so that calls are made
        opening = recorded(0, "0" if requests[0] == "join" else "ok")
        return Exchange(requests, framed(opening) + bent_stream(pick, sum(right[1:], [])))
    return Exchange(requests, bent_stream(pick, sum(right, [])))
