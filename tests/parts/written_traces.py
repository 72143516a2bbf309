"""Traces that are written out, with their verdicts, and traces of random scripts, of both versions."""

import random
from collections.abc import Iterator, Sequence
from typing import NamedTuple

from support import plain_model
from support.auditing import Judge, act_of
from support.frames import OLD_MAGIC, RECORDS_MOST, SIZES, header_bytes, trace_of, u32, u64
from support.plain_model import DEFAULTS, OLD_LIMITS, Limits
from support.running import Ran
from support.runs import line_of
from support.walks import CAPACITIES, walked

# What is judged: its name, and its bytes.
Named = tuple[str, bytes]


# ---- a trace of 54 bytes, the same records in version 2, and others that are written out

SHORT = bytes.fromhex(
    "4644545241434531 0000000e 00000000 01 02 0000000000000000"
    "0000000e 00000000 1a 04 00000000 00000001 00000006 00000000 04 01"
)

# The same three records in version 2: those of a run of at most a hundred.
NEW_SHORT = bytes.fromhex("4644545241434532 00000064 00000400 0000010000000000") + SHORT[8:]


def with_byte(trace: bytes, at: int, value: int) -> bytes:
    """A trace with another byte at a place."""
    return trace[:at] + bytes([value]) + trace[at + 1 :]


# What is said of a trace without records.
NOTHING = b"nothing to judge: the trace has no whole record\n"

WRITTEN_OUT: list[tuple[str, bytes, Ran]] = [
    ("all of it", SHORT, Ran(0, b"legal 3 rest 0\n", b"")),
    ("its first 50 bytes", SHORT[:50], Ran(0, b"legal 2 rest 6\n", b"")),
    ("its first 30 bytes", SHORT[:30], Ran(0, b"legal 1 rest 4\n", b"")),
    ("another writing end", with_byte(SHORT, 43, 2), Ran(7, b"illegal 1 expected 0 1\n", b"")),
    ("another first byte", with_byte(SHORT, 0, 0), Ran(8, b"malformed 0\n", b"")),
    ("its first 5 bytes", SHORT[:5], Ran(0, b"legal 0 rest 5\n", NOTHING)),
    ("nothing", b"", Ran(0, b"legal 0 rest 0\n", NOTHING)),
    ("its header", SHORT[:8], Ran(0, b"legal 0 rest 0\n", NOTHING)),
    ("a wrong byte in half a header", SHORT[:4] + b"X", Ran(8, b"malformed 0\n", b"")),
    ("a header of version 2 whose fields are frames", b"FDTRACE2" + SHORT[8:], Ran(8, b"malformed 0\n", b"")),
    ("a header of version 3", b"FDTRACE3" + SHORT[8:], Ran(8, b"malformed 0\n", b"")),
    ("a header of version 3 that is long", b"FDTRACE3" + NEW_SHORT[8:], Ran(8, b"malformed 0\n", b"")),
    ("a header of version 1 and fields of version 2", SHORT[:8] + NEW_SHORT[8:], Ran(0, b"legal 0 rest 62\n", NOTHING)),
    ("a byte more", SHORT + b"\0", Ran(0, b"legal 3 rest 1\n", b"")),
    ("a join of another process", with_byte(SHORT, 15, 1), Ran(7, b"illegal 0 expected none\n", b"")),
    ("an exit of another process", with_byte(SHORT, 51, 1), Ran(7, b"illegal 2 expected none\n", b"")),
    ("a resume in place of the exit", with_byte(SHORT, 52, 3), Ran(7, b"illegal 2 expected none\n", b"")),
    ("a closing by a process", with_byte(SHORT, 52, 5), Ran(8, b"malformed 44\n", b"")),
    ("a length that is too long", SHORT + u32(66_049), Ran(8, b"malformed 54\n", b"")),
    ("three bytes of it", SHORT + u32(66_049)[:3], Ran(0, b"legal 3 rest 3\n", b"")),
    ("the greatest length, not yet whole", SHORT + u32(66_048) + bytes(66_047), Ran(0, b"legal 3 rest 66051\n", b"")),
    ("the greatest length", SHORT + u32(66_048) + bytes(66_048), Ran(8, b"malformed 54\n", b"")),
    ("no length at all", SHORT + u32(0), Ran(8, b"malformed 54\n", b"")),
    (
        "what is wrong before what is malformed",
        with_byte(SHORT, 43, 2)[:52] + b"\x80\x80",
        Ran(7, b"illegal 1 expected 0 1\n", b""),
    ),
    (
        "what is malformed before what is wrong",
        with_byte(with_byte(SHORT, 34, 255), 51, 1),
        Ran(8, b"malformed 26\n", b""),
    ),
]



def of_version_2(records: int, capacity: int = 1_024, size: int = 2**40) -> bytes:
    """The short trace's records after a header with these fields."""
    return NEW_SHORT[:8] + u32(records) + u32(capacity) + u64(size) + SHORT[8:]


NEW_WRITTEN_OUT: list[tuple[str, bytes, str]] = [
    ("all of it", NEW_SHORT, "legal 3 rest 0"),
    ("its first 66 bytes", NEW_SHORT[:66], "legal 2 rest 6"),
    ("its first 42 bytes", NEW_SHORT[:42], "legal 1 rest 0"),
    ("its first 41 bytes", NEW_SHORT[:41], "legal 0 rest 17"),
    ("its header", NEW_SHORT[:24], "legal 0 rest 0"),
    ("its header but for a byte", NEW_SHORT[:23], "legal 0 rest 23"),
    ("nine bytes of its header", NEW_SHORT[:9], "legal 0 rest 9"),
    ("eight bytes of its header", NEW_SHORT[:8], "legal 0 rest 8"),
    ("seven bytes of its header", NEW_SHORT[:7], "legal 0 rest 7"),
    ("a wrong field in half a header", NEW_SHORT[:8] + b"\xff" * 15, "legal 0 rest 23"),
    ("a wrong byte before half a header", b"X" + NEW_SHORT[1:20], "malformed 0"),
    ("no number of records", of_version_2(0), "legal 3 rest 0"),
    ("one record", of_version_2(1), "illegal 0 expected none"),
    ("two records", of_version_2(2), "illegal 0 expected none"),
    ("three records", of_version_2(3), "illegal 1 expected none"),
    ("four records", of_version_2(4), "legal 3 rest 0"),
    ("1,000,000 records", of_version_2(1_000_000), "legal 3 rest 0"),
    ("1,000,001 records", of_version_2(1_000_001), "malformed 0"),
    ("2^31 records", of_version_2(2**31), "malformed 0"),
    ("pipes of 511 bytes", of_version_2(4, 511), "malformed 0"),
    ("pipes of 512 bytes", of_version_2(4, 512), "legal 3 rest 0"),
    ("pipes of 65,536 bytes", of_version_2(4, 65_536), "legal 3 rest 0"),
    ("pipes of 65,537 bytes", of_version_2(4, 65_537), "malformed 0"),
    ("pipes of no bytes", of_version_2(4, 0), "malformed 0"),
    ("files of 1,048,576 bytes", of_version_2(4, size=1_048_576), "legal 3 rest 0"),
    ("files of a byte less", of_version_2(4, size=1_048_575), "malformed 0"),
    ("files of a byte more", of_version_2(4, size=1_048_577), "malformed 0"),
    ("files of a byte less than the greatest", of_version_2(4, size=2**40 - 1), "malformed 0"),
    ("files of a byte more than the greatest", of_version_2(4, size=2**40 + 1), "malformed 0"),
    ("files of no bytes", of_version_2(4, size=0), "malformed 0"),
    ("another writing end", with_byte(NEW_SHORT, 59, 2), "illegal 1 expected 0 1"),
    ("another writing end in a run that is over", with_byte(of_version_2(3), 59, 2), "illegal 1 expected 0 1"),
    ("a closing by a process", with_byte(NEW_SHORT, 68, 5), "malformed 60"),
    ("a closing by a process in a run that is over", with_byte(of_version_2(3), 68, 5), "illegal 1 expected none"),
    ("a length that is too long", NEW_SHORT + u32(66_049), "malformed 70"),
]

# Records, of which all are right, and the verdict where others come after them.
LINES: list[tuple[str, str, str]] = [
    (
        "the closing while a child is left",
        "p0 join = 0; p0 fork = 1; house close-run = ok; p1 exit = ok",
        "legal 4 rest 0",
    ),
    ("an exit of a child before it", "p0 join = 0; p0 fork = 1; p1 exit = ok; house close-run = ok", "legal 4 rest 0"),
    ("a second closing", "house close-run = ok; house close-run = ok", "illegal 1 expected none"),
    ("a join after the closing", "house close-run = ok; p0 join = error EAGAIN", "legal 2 rest 0"),
    ("a call of a child without a connection", "p0 join = 0; p0 fork = 1; p1 pipe = 0 1", "illegal 2 expected none"),
    (
        "a call while another waits",
        "p0 join = 0; p0 pipe = 0 1; p0 read 0 1 = parked 0; p0 fork = 1",
        "illegal 3 expected none",
    ),
    (
        "an exit while a call waits",
        "p0 join = 0; p0 pipe = 0 1; p0 read 0 1 = parked 0; p0 exit = ok",
        "legal 4 rest 0",
    ),
    ("an attach of the greatest number", "p4294967295 attach = error ESRCH", "legal 1 rest 0"),
    ("a join of the greatest number", "p4294967295 join = 4294967295", "illegal 0 expected none"),
    ("a closing that fails", "house close-run = error EAGAIN", "illegal 0 expected ok"),
    ("bytes in place of a number", "p0 join = 0; p0 fork = x01", "illegal 1 expected 1"),
    (
        "an error in place of bytes",
        "p0 join = 0; p0 open a rw,creat = 0; p0 read 0 1 = error EBADF",
        "illegal 2 expected x",
    ),
    (
        "what fstat tells",
        "p0 join = 0; p0 open a rw,creat = 0; p0 fstat 0 = regular 0 2",
        "illegal 2 expected regular 0 1",
    ),
    (
        "a part that is too small",
        "p0 join = 0; p0 pipe = 0 1; p0 fork = 1; p1 attach = ok; p1 write 1 61*2000 = parked 1024; "
        "p0 read 0 500 = 61*500; p1 resume = part 1523",
        "illegal 6 expected part 1524",
    ),
    (
        "a resume that ends nothing",
        "p0 join = 0; p0 pipe = 0 1; p0 read 0 5 = parked 0; p0 resume = x",
        "illegal 3 expected none",
    ),
    (
        "bytes of one kind",
        "p0 join = 0; p0 open a rw,creat = 0; p0 write 0 61*17 = 17; p0 pread 0 0 99 = 62*17",
        "illegal 3 expected 61*17",
    ),
    (
        "a full table of processes",
        "; ".join([*(f"p{number} join = {number}" for number in range(64)), "p64 join = 64"]),
        "illegal 64 expected error EAGAIN",
    ),
]
STATUSES = {"legal": 0, "illegal": 7, "malformed": 8}

# Records of runs with some number of records, or with other limits: what the header tells, the records, the verdict.
LIMITED: list[tuple[str, int, Limits, str, str]] = [
    ("a fork for which there is no room", 4, DEFAULTS, "p0 join = 0; p0 fork = 1", "illegal 1 expected none"),
    ("a fork for which there is room", 5, DEFAULTS, "p0 join = 0; p0 fork = 1; p1 exit = ok", "legal 3 rest 0"),
    ("a refused fork in the last place", 3, DEFAULTS, "house close-run = ok; p0 join = error EAGAIN", "legal 2 rest 0"),
    ("one past the closing", 1, DEFAULTS, "house close-run = ok; p0 join = error EAGAIN", "illegal 1 expected none"),
    ("a closing in the only place", 1, DEFAULTS, "house close-run = ok", "legal 1 rest 0"),
    (
        "exits and the closing in the last places",
        5,
        DEFAULTS,
        "p0 join = 0; p0 fork = 1; p1 exit = ok; p0 exit = ok; house close-run = ok",
        "legal 5 rest 0",
    ),
    (
        "a wrong outcome in a place that is not there",
        4,
        DEFAULTS,
        "p0 join = 0; p0 fork = 2",
        "illegal 1 expected 1",
    ),
    (
        "a pipe of 512 bytes",
        0,
        Limits(capacity=512),
        "p0 join = 0; p0 pipe = 0 1; p0 write 1 61*513 = parked 513",
        "illegal 2 expected parked 512",
    ),
    (
        "a pipe of 65,536 bytes",
        0,
        Limits(capacity=65_536),
        "p0 join = 0; p0 pipe = 0 1; p0 write 1 61*65536 = 65536; p0 write 1 x61 = parked 0",
        "legal 4 rest 0",
    ),
    (
        "a file of 1,048,576 bytes",
        0,
        OLD_LIMITS,
        "p0 join = 0; p0 open a rw,creat = 0; p0 ftruncate 0 1048577 = ok",
        "illegal 2 expected error EFBIG",
    ),
    (
        "a file of 2^40 bytes",
        0,
        DEFAULTS,
        "p0 join = 0; p0 open a rw,creat = 0; p0 ftruncate 0 1099511627776 = ok; "
        "p0 ftruncate 0 1099511627777 = error EFBIG; p0 pwrite 0 1099511627775 x6162 = 2",
        "illegal 4 expected 1",
    ),
]


def verdict_of(text: str) -> Ran:
    """A verdict, as the program gives it."""
    told = NOTHING if text.startswith("legal 0 ") else b""
    return Ran(STATUSES[text.split(" ")[0]], f"{text}\n".encode(), told)


def written_out() -> Iterator[tuple[str, bytes, Ran]]:
    """The traces whose verdicts are written out here."""
    yield from WRITTEN_OUT
    for name, trace, verdict in NEW_WRITTEN_OUT:
        yield f"in version 2, {name}", trace, verdict_of(verdict)
    for name, lines, verdict in LINES:
        yield name, trace_of(lines.split("; "), OLD_MAGIC), verdict_of(verdict)
        yield f"in version 2, {name}", trace_of(lines.split("; ")), verdict_of(verdict)
    for name, records, limits, lines, verdict in LIMITED:
        yield name, trace_of(lines.split("; "), header_bytes(records, limits)), verdict_of(verdict)


def changed_bytes(trace: bytes) -> Iterator[Named]:
    """A short trace with each byte turned to every other value, and each front of it."""
    for at, byte in enumerate(trace):
        yield from ((f"byte {at} as {value:02x}", with_byte(trace, at, value)) for value in range(256) if value != byte)
    yield from fronts("it", trace)


def fronts(name: str, trace: bytes) -> Iterator[Named]:
    """Each front of a trace."""
    return ((f"the first {end} bytes of {name}", trace[:end]) for end in range(len(trace) + 1))


# ---- traces of random scripts


def random_records(pick: random.Random, limits: Limits = DEFAULTS) -> list[str]:
    """The records of a random script in a run of these limits, as the model has them."""
    run_of_model = plain_model.Run(plain_model.RECORDS_DEFAULT, limits)
    for line in walked(pick, plain_model.RECORDS_DEFAULT, pick.choice([5, 10, 20, 40]), limits=limits):
        run_of_model.take(plain_model.read_act(line))
    records = [line.rstrip("\n") for line in run_of_model.lines if not line.startswith("-")]
    return records[: pick.choice([len(records), len(records), 60])]


def enough(records: Sequence[str], limits: Limits) -> int:
    """The fewest records that a run may have in which these are right: after each there are some left for an exit of
    each process and for the closing."""
    judge, most = Judge(limits), 0
    for place, text in enumerate(records, 1):
        judge.outcome_of(act_of(line_of(text).act))
        most = max(most, place + len(judge.world.processes) + (not judge.world.is_closed))
    return most


class RandomRun(NamedTuple):
    """The records of a random script, and the header of its trace."""

    records: list[str]
    header: bytes

    def trace(self) -> bytes:
        """Its trace."""
        return trace_of(self.records, self.header)


def old_run(pick: random.Random) -> RandomRun:
    """A random run whose trace has version 1."""
    return RandomRun(random_records(pick, OLD_LIMITS), OLD_MAGIC)


def random_run(pick: random.Random) -> RandomRun:
    """A random run whose trace has either version, with any limits, and often with as many records as are enough."""
    if pick.random() < 0.4:
        return old_run(pick)
    limits = Limits(pick.choice(SIZES), pick.choice([plain_model.PIPE_CAPACITY, pick.choice(CAPACITIES)]))
    records = random_records(pick, limits)
    least = enough(records, limits)
    return RandomRun(records, header_bytes(pick.choice([0, 0, least, least, least + 1, RECORDS_MOST]), limits))
