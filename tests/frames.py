#!/usr/bin/env python3
"""Are streams of frames decoded and encoded as docs/FORMATS.md says, wherever they are cut? (a minute)

usage: tests/frames.py [--trial PATH] [--seed WORD] [--streams N]

The trial is crates/frame_trial/out/frame_trial where no PATH is given. It is run

  - on streams that are written out here byte by byte, with what each of them has to give,
  - on conversations of requests, of answers and of records, with every call, every act, every reply
    and every refusal in them, cut in two at every byte, and byte by byte,
  - on frames of the greatest lengths, and of one byte more,
  - with each of its allocations refused in turn: it gives a piece again that the decoder refused for
    want of memory, and so must print the same lines, and say that one piece was given again, or end
    with status 5 where the stream was read or the lines were gathered,
  - on N streams (10,000 where no number is given) that are random bytes, or conversations in which a
    few bytes were changed, left out or put in, cut at random. Stream K of a seed is the same each time.

What it must print are the lines of the values whose frames each piece completes, whether the stream
goes on after it or where its fault is, and at the end the frames of all values, in hexadecimal.

A failure is told in one line. The last line is `N passed, M failed`, and the exit status is 1 where
M is above 0.
"""

import random
import sys
import tempfile
from collections.abc import Callable, Iterator, Sequence
from functools import partial

from support.counting import Case, Count, Failure
from support.frames import (
    ACTS,
    CALLS,
    COUNT,
    DATA,
    ERRORS,
    FD,
    FLAGS,
    HOUSE,
    JOIN,
    NAME,
    PLACE,
    REFUSALS,
    WHENCE,
    Field,
    Stream,
    attach_frame,
    counted,
    framed,
    named,
    u32,
    u64,
)
from support.options import SEED, asked, count_option, trial_option
from support.places import FRAME_TRIAL
from support.refusing import GIVEN_AGAIN, NO_MEMORY, Refuser, build
from support.running import Ran, run
from support.sources import changed, numbered, source
from support.texts import difference

TELL_MOST = 10
ALL = 2**40


# ---- comparing


def wanted_of(stream: Stream, first: int, size: int) -> bytes:
    """What the trial must print for a first piece and then pieces of a size."""
    begin, lines, frames = 0, [], iter(stream.frames)
    frame = next(frames, None)
    whole = len(stream.stream)
    ends = [min(first, whole)]
    ends += [min(end + size, whole) for end in range(ends[0], whole, size)]
    for end in ends:
        while frame and begin <= end and frame[0] <= end:
            lines.append(frame[1])
            frame = next(frames, None)
        lines.append(stream.told(end))
    return lines_text([*lines, stream.stream[: stream.whole].hex()])


def lines_text(lines: Sequence[str]) -> bytes:
    """Lines as a text."""
    return "".join(f"{line}\n" for line in lines).encode()


def words_of(stream: Stream, first: int, size: int) -> list[str]:
    """The words of the trial for a stream that is cut so."""
    return ["show", stream.kind, str(first), str(size)]


def check(trial: str, stream: Stream, first: int, size: int) -> None:
    """Runs the trial on a stream that is cut so."""
    ran = run([trial, *words_of(stream, first, size)], stream.stream)
    if (ran.status, ran.stderr) != (0, b""):
        raise Failure(f"status {ran.status}, {ran.stderr[:200]!r}")
    same_text(wanted_of(stream, first, size), ran.stdout)


def same_text(wanted: bytes, given: bytes) -> None:
    """Two outputs are the same."""
    if wanted != given:
        raise Failure(difference(wanted, given))


# ---- writing payloads

FDS = [0, 1, -1, 2**31 - 1, -(2**31), 3]
PLACES = [0, 1, -1, 2**63 - 1, -(2**63), 10]
COUNTS = [0, 1, 2**32 - 1, 65_536]
NAMES = [b"", b"a", b"a%b", b"n" * 64, b"/" * 255, bytes(range(256))[:255]]
DATAS = [b"", b"hi", b"x" * 16, b"x" * 17, bytes(range(256)), b"ab" * 300]

MAKERS: dict[Field, Callable[[random.Random], bytes]] = {
    FLAGS: lambda pick: bytes([pick.randrange(128)]),
    NAME: lambda pick: named(pick.choice(NAMES)),
    FD: lambda pick: u32(pick.choice(FDS)),
    COUNT: lambda pick: u32(pick.choice(COUNTS)),
    PLACE: lambda pick: u64(pick.choice(PLACES)),
    DATA: lambda pick: counted(pick.choice(DATAS)),
    WHENCE: lambda pick: bytes([pick.randrange(3)]),
}


def call_payload(pick: random.Random, byte: int) -> bytes:
    """The payload of a call."""
    return bytes([byte]) + b"".join(MAKERS[field](pick) for field in CALLS[byte].fields)


def request_payload(pick: random.Random) -> bytes:
    """The payload of a request."""
    byte = pick.choice([1, 2, *CALLS])
    if byte == 1:
        return b"\x01"
    if byte == 2:
        return b"\x02" + u32(pick.choice(COUNTS))
    return call_payload(pick, byte)


def outcome_payload(pick: random.Random, byte: int) -> bytes:
    """The bytes of an outcome."""
    fields: dict[int, Callable[[], bytes]] = {
        1: lambda: b"",
        2: lambda: u64(pick.choice([0, 5, 2**64 - 1])),
        3: lambda: counted(pick.choice(DATAS)),
        4: lambda: u32(pick.choice(COUNTS)) + u32(pick.choice(COUNTS)),
        5: lambda: (
            bytes([pick.randrange(3)]) + u64(pick.choice([0, 1_048_576, 2**64 - 1])) + u32(pick.choice(COUNTS))
        ),
        6: lambda: bytes([pick.randint(1, len(ERRORS))]),
        7: lambda: u32(pick.choice(COUNTS)),
        8: lambda: u32(pick.choice(COUNTS)),
    }
    return bytes([byte]) + fields[byte]()


def answer_payload(pick: random.Random) -> bytes:
    """The payload of an answer."""
    byte = pick.choice([*range(1, 9), *REFUSALS])
    if byte in REFUSALS:
        return bytes([2, byte]) + (u64(pick.choice([3, 2**64 - 1])) + u64(2) if byte == 21 else b"")
    return b"\x01" + u64(pick.choice([0, 1, 999_999, 2**64 - 1])) + outcome_payload(pick, byte)


def record_payload(pick: random.Random) -> bytes:
    """The payload of a record."""
    byte = pick.choice([*ACTS, *CALLS])
    act = bytes([byte]) if byte in ACTS else call_payload(pick, byte)
    actor = pick.choice([HOUSE, HOUSE, HOUSE, 1] if byte == 5 else [0, 1, 63, HOUSE])
    return u32(actor) + act + outcome_payload(pick, pick.randint(1, 8))


PAYLOADS = {"requests": request_payload, "answers": answer_payload, "records": record_payload}


def every_request(pick: random.Random) -> bytes:
    """A request of each kind."""
    return JOIN + attach_frame(7) + framed(*(call_payload(pick, byte) for byte in CALLS))


def every_answer(pick: random.Random) -> bytes:
    """An answer of each kind."""
    errors = [bytes([6, number]) for number in range(1, len(ERRORS) + 1)]
    outcomes = [outcome_payload(pick, byte) for byte in range(1, 9)] + errors
    refusals = [bytes([2, byte]) + (u64(3) + u64(2) if byte == 21 else b"") for byte in REFUSALS]
    return framed(*(b"\x01" + u64(number) + text for number, text in enumerate(outcomes)), *refusals)


def every_record(pick: random.Random) -> bytes:
    """A record of each act, and of each kind of outcome."""
    acts = [bytes([byte]) for byte in ACTS] + [call_payload(pick, byte) for byte in CALLS]
    outcomes = [outcome_payload(pick, byte) for byte in range(1, 9)]
    actors = [HOUSE if act == b"\x05" else number for number, act in enumerate(acts)]
    records = zip(actors, acts, strict=True)
    return framed(*(u32(actor) + act + outcomes[number % 8] for number, (actor, act) in enumerate(records)))


# ---- the streams that are written out


# a stream, and the lines that it gives as one piece but for the last
WRITTEN_OUT = [
    ("a write", "requests", "0000000b1300000001000000026869", ["- p0 write 1 x6869 = still", "more"]),
    ("the answer of place 5", "answers", "00000012010000000000000005020000000000000002", ["5 p0 fork = 2", "more"]),
    ("run full", "answers", "000000020212", ["- p0 fork = refused RunFull", "more"]),
    ("a byte too many", "requests", "0000000c130000000100000002686900", ["malformed 0"]),
    ("a length that is too great", "requests", "00010101", ["too long 0"]),
    ("an empty payload", "requests", "00000000", ["malformed 0"]),
    ("an empty payload of an answer", "answers", "00000000", ["malformed 0"]),
    ("all flags", "requests", "00000004107f0161", ["- p0 open a rw,creat,excl,trunc,append,nonblock = still", "more"]),
    ("a flag that is none", "requests", "0000000410800161", ["malformed 0"]),
    ("a base that is none", "requests", "0000000e1600000000000000000000000003", ["malformed 0"]),
    ("what asks for flags", "requests", "00000005 20 00000000", ["- p0 getfl 0 = still", "more"]),
    ("what sets append", "requests", "00000006 21 00000001 20", ["- p0 setfl 1 -,append = still", "more"]),
    (
        "what sets all flags",
        "requests",
        "00000006 21 ffffffff 7f",
        ["- p0 setfl -1 rw,creat,excl,trunc,append,nonblock = still", "more"],
    ),
    ("a flag to set that is none", "requests", "00000006 21 00000001 80", ["malformed 0"]),
    ("what sets no flags", "requests", "00000005 21 00000001", ["malformed 0"]),
    ("a rename", "requests", "00000005 22 01 61 01 62", ["- p0 rename a b = still", "more"]),
    ("a rename without a second name", "requests", "00000003 22 01 61", ["malformed 0"]),
    ("the byte after the last call", "requests", "00000001 23", ["malformed 0"]),
    ("a fault after a join", "requests", "00000001010000000103", ["join", "malformed 5"]),
    ("what a fault follows is not read", "requests", "000000000000000101", ["malformed 0"]),
    ("an error that is none", "answers", "0000000b01000000000000000006ff", ["malformed 0"]),
    ("error 0", "answers", "0000000b0100000000000000000600", ["malformed 0"]),
    ("a refusal that is none", "answers", "0000000202ff", ["malformed 0"]),
    (
        "what fstat tells",
        "answers",
        "000000170100000000000000000501000000000000000300000001",
        ["0 p0 fork = fifo 3 1", "more"],
    ),
    ("nothing", "requests", "", ["more"]),
    (
        "the records of a process that makes a pipe and exits",
        "records",
        "0000000e 00000000 01 02 0000000000000000 0000000e 00000000 1a 04 00000000 00000001 00000006 00000000 04 01",
        ["0 p0 join = 0", "1 p0 pipe = 0 1", "2 p0 exit = ok", "more"],
    ),
    ("a resume", "records", "0000000a 00000001 03 08 00000201", ["0 p1 resume = part 513", "more"]),
    (
        "flags that are told",
        "records",
        "00000012 00000000 20 00000000 02 0000000000000023",
        ["0 p0 getfl 0 = 35", "more"],
    ),
    ("the closing", "records", "00000006 ffffffff 05 01", ["0 house close-run = ok", "more"]),
    ("a closing by a process", "records", "00000006 00000000 05 01", ["malformed 0"]),
    (
        "an attach of the greatest number",
        "records",
        "00000007 ffffffff 02 06 10",
        ["0 p4294967295 attach = error ESRCH", "more"],
    ),
    ("an act that is none", "records", "00000006 00000000 06 01", ["malformed 0"]),
    ("a record without an outcome", "records", "00000005 00000000 04", ["malformed 0"]),
    ("a record and a byte more", "records", "00000007 00000000 04 01 00", ["malformed 0"]),
    ("a length that is too great for a record", "records", "00010201", ["too long 0"]),
    ("an empty payload of a record", "records", "00000000", ["malformed 0"]),
    (
        "a fault after two records",
        "records",
        "00000006 00000000 04 01 00000006 00000001 04 01 00000006 00000000 05 01",
        ["0 p0 exit = ok", "1 p1 exit = ok", "malformed 20"],
    ),
    (
        "the exchange of docs/FORMATS.md, what the client sends",
        "requests",
        "00000001 01 00000004 10 06 01 61 0000000b 13 00000000 00000002 6869 00000009 12 00000000 00000005",
        ["join", "- p0 open a w,creat = still", "- p0 write 0 x6869 = still", "- p0 read 0 5 = still", "more"],
    ),
    (
        "the exchange of docs/FORMATS.md, what it is sent",
        "answers",
        "00000012 01 0000000000000000 02 0000000000000000 00000012 01 0000000000000001 02 0000000000000000"
        "00000012 01 0000000000000002 02 0000000000000002 0000000b 01 0000000000000003 06 01",
        ["0 p0 fork = 0", "1 p0 fork = 0", "2 p0 fork = 2", "3 p0 fork = error EBADF", "more"],
    ),
]


def written_out(trial: str) -> Iterator[Case]:
    """Runs the streams that are written out."""
    for what, kind, text, lines in WRITTEN_OUT:
        stream = Stream(kind, bytes.fromhex(text))
        wanted = lines_text([*lines, stream.stream[: stream.whole].hex()])
        yield what, partial(same_text, wanted, wanted_of(stream, ALL, 1))
        for first in range(len(stream.stream) + 1):
            yield f"{what}, cut at {first}", partial(check, trial, stream, first, ALL)
        yield f"{what}, byte by byte", partial(check, trial, stream, 0, 1)


# ---- longer streams


def conversations() -> Iterator[tuple[str, Stream]]:
    """Streams with everything that there is in them."""
    yield "every request", Stream("requests", every_request(random.Random("requests")))
    yield "every answer", Stream("answers", every_answer(random.Random("answers")))
    yield "every record", Stream("records", every_record(random.Random("records")))


def cut_everywhere(trial: str) -> Iterator[Case]:
    """Runs conversations, cut at every byte."""
    for what, stream in conversations():
        if len(stream.frames) < 2 + len(CALLS) or stream.fault:
            raise SystemExit(f"{what} is not what it should be: {stream.fault}")
        for first in range(len(stream.stream) + 1):
            yield f"{what}, cut at {first}", partial(check, trial, stream, first, ALL)
        for size in (1, 2, 3, 5, 7, 64):
            yield f"{what}, in pieces of {size}", partial(check, trial, stream, 0, size)


def lengths(trial: str) -> Iterator[Case]:
    """Runs frames of the greatest lengths."""
    long_write = b"\x13" + u32(1) + counted(bytes(65_700))
    long_pwrite = b"\x15" + u32(1) + u64(0) + counted(b"ab" * 32_850)
    too_much = b"\x13" + u32(1) + counted(bytes(65_701))
    read = b"\x01" + u64(9) + b"\x03" + counted(b"ab" * 32_768)
    read_too_much = b"\x01" + u64(9) + b"\x03" + counted(bytes(65_537))
    long_read = u32(1) + b"\x12" + u32(0) + u32(65_536) + read[9:]
    pwrite_of = u32(1) + long_pwrite + b"\x06\x03"
    filled = u32(1) + long_write + b"\x03"
    exit_of = u32(1) + b"\x04\x01"
    streams = [
        ("the longest write and pwrite", "requests", framed(b"\x01", long_write, long_pwrite, b"\x1a")),
        ("a write of a byte too many", "requests", framed(b"\x01", too_much)),
        ("a payload of 65,792 bytes", "requests", framed(b"\x01", bytes([19]) + bytes(65_791))),
        ("a payload of 65,793 bytes", "requests", framed(b"\x01", bytes([19]) + bytes(65_792))),
        ("the longest read", "answers", framed(read, b"\x02\x12")),
        ("a read of a byte too many", "answers", framed(read_too_much)),
        ("a payload of 66,048 bytes", "answers", framed(bytes([1]) + bytes(66_047))),
        ("a payload of 66,049 bytes", "answers", framed(bytes([1]) + bytes(66_048))),
        ("the records of the longest pwrite and read", "records", framed(pwrite_of, long_read)),
        ("a record of 66,048 bytes", "records", framed(filled + counted(bytes(330)), exit_of)),
        ("a record of 66,049 bytes", "records", framed(filled + counted(bytes(331)), exit_of)),
    ]
    for what, kind, text in streams:
        stream = Stream(kind, text)
        for first, size in ((ALL, 1), (0, 1), (3, 4_096), (65_536, 7), (65_700, 65_536)):
            yield f"{what}, cut {first} {size}", partial(check, trial, stream, first, size)


# ---- want of memory


def refusals(refuser: Refuser, trial: str) -> Iterator[Case]:
    """Runs conversations with each allocation refused in turn."""
    for what, stream in conversations():
        for first, size in ((ALL, 1), (0, 11)):
            yield f"{what}, cut {first} {size}", partial(sweep, refuser, trial, stream, first, size)


def sweep(refuser: Refuser, trial: str, stream: Stream, first: int, size: int) -> None:
    """Refuses each allocation of a run in turn."""
    words = [trial, *words_of(stream, first, size)]
    whole, count = refuser.run(words, stream.stream)
    wanted = Ran(0, wanted_of(stream, first, size), b"")
    if whole != wanted or count == 0:
        raise Failure(f"nothing refused: {whole.said()}")
    again = 0
    for number in range(1, count + 1):
        end = refuser.run(words, stream.stream, number, number).ran
        if end == wanted._replace(stderr=GIVEN_AGAIN):
            again += 1
        elif end not in (NO_MEMORY, wanted):
            raise Failure(f"allocation {number} refused: {end.said()}")
    if again == 0:
        raise Failure("no piece was given again")


# ---- random streams


def random_stream(pick: random.Random) -> Stream:
    """A stream of any kind."""
    kind = pick.choice(list(PAYLOADS))
    if pick.random() < 0.15:
        payloads = [pick.randbytes(pick.choice([0, 1, 2, 5, 9, 17])) for _ in range(pick.randrange(4))]
        return Stream(kind, framed(*payloads) + pick.randbytes(pick.randrange(6)))
    text = framed(*(PAYLOADS[kind](pick) for _ in range(pick.choice([1, 1, 2, 3, 8]))))
    return Stream(kind, text if pick.random() < 0.1 else changed(pick, text))


def random_streams(trial: str, seed: str, streams: int) -> Iterator[Case]:
    """Runs random streams."""
    for number in range(streams):
        pick = source(seed, number)
        stream = random_stream(pick)
        first = pick.randrange(len(stream.stream) + 2)
        size = pick.choice([1, 2, 3, 4, 8, 33, ALL])
        yield numbered("stream", seed, number), partial(check, trial, stream, first, size)


# ---- the whole


def main(words: Sequence[str]) -> int:
    """Makes all checks: the exit status."""
    about = "Decodes streams of frames by the built trial and by a decoder of its own."
    streams = count_option("--streams", 10_000, "how many are random")
    args = asked(words, about, trial_option(FRAME_TRIAL), SEED, streams)
    trial = args.trial
    count = Count(TELL_MOST)
    with tempfile.TemporaryDirectory() as folder:
        refuser = Refuser(build(folder))
        count.part("streams that are written out", written_out(trial))
        count.part("conversations cut everywhere", cut_everywhere(trial))
        count.part("the greatest lengths", lengths(trial))
        count.part("each allocation refused", refusals(refuser, trial))
        count.part("random streams", random_streams(trial, args.seed, args.streams))
    return count.end()


if __name__ == "__main__":
    sys.exit(main(sys.argv[1:]))
