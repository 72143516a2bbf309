#!/usr/bin/env python3
"""Are sessions served as a plain model serves them, whatever fails on the way? (a minute)

usage: tests/sessions.py [--trial PATH] [--seed WORD] [--sessions N]

The trial is crates/session_trial/out/session_trial where no PATH is given. A session is the bytes that
a client sends, how many records its run may have, how its reader and its writer answer, and the acts
of other processes that take place where a call of the session first waits. The trial is run

  - on sessions that are written out here byte by byte, with what each of them has to give,
  - on these and on one with every call, in pieces of each size, with each read and each write failing,
    and with interruptions,
  - with many requests behind a call that waits,
  - on frames of the greatest lengths, and as often as a session may read,
  - with each of its allocations refused in turn: then the answers are right so far, or the end says
    why, and the exit is recorded all the same,
  - on N sessions (3,000 where no number is given) of random requests, some of them damaged. Session K
    of a seed is the same each time.

What it must print is what the model gives (tests/support/session_model.py).

A failure is told in one line. The last line is `N passed, M failed`, and the exit status is 1 where
M is above 0.
"""

import collections
import itertools
import random
import sys
import tempfile
from collections.abc import Callable, Iterable, Iterator, Sequence
from functools import partial
from typing import Any

from support import plain_model
from support.counting import Case, Count, Failure, require, same
from support.frames import FLAG_WORDS, JOIN, attach_frame, call_frame, counted, framed, refused, session_frames, u32
from support.options import SEED, asked, count_option, trial_option
from support.places import SESSION_TRIAL
from support.refusing import NEVER, NO_MEMORY, Refuser, build
from support.running import Ran, run
from support.session_model import AHEAD_MOST, PLAIN, READS_MAX, Manner, Session
from support.sources import changed, numbered, source
from support.texts import difference

TELL_MOST = 10

# How long a session may take that is read as often as one may be.
OFTEN_SECONDS = 600


# ---- comparing


def ran(trial: str, session: Session) -> Ran:
    """What the trial gives."""
    return run([trial, *session.words], session.text)


def compare(wanted: Iterable[bytes], given: Ran) -> None:
    """Fails unless the trial gave just one of these."""
    if given.status != 0 or given.stderr:
        raise Failure(f"status {given.status}, {given.stderr[:200]!r}")
    first = None
    count = 0
    for one in wanted:
        if one == given.stdout:
            return
        first = first or one
        count += 1
    assert first
    raise Failure(f"{difference(first, given.stdout)}, and so it is with {count - 1} others")


def check(trial: str, text: bytes, records: int = 10_000, **more: Any) -> None:
    """Serves a session by the trial and by the model."""
    session = Session(text, records, **more)
    compare(session.wanted(), ran(trial, session))


# ---- sessions that are written out


OPENED = "00000012 01 0000000000000000 02 0000000000000000"
PIPED = "00000012 01 0000000000000001 04 00000000 00000001"
FORKED = "00000012 01 0000000000000002 02 0000000000000001"
WAITED = "0000000e 01 0000000000000003 07 00000000"
GOT = "00000013 01 0000000000000006 03 00000005 68656c6c6f"
PARKED = "0000000e 01 0000000000000002 07 00000000"

JOIN_PIPE = "00000001 01 00000001 1a 0000"
JOIN_PIPE_FORK_READ = "00000001 01 00000001 1a 00000001 1f 00000009 12 00000000 00000005"
JOIN_PIPE_READ = "00000001 01 00000001 1a 00000009 12 00000000 00000005"
WRITER = ("p1 attach", "p1 write 1 x68656c6c6f")

# An attach of a process that is not there, and a close of what is not open; and how they are answered.
ATTACH = "00000005 02 00000009"
UNATTACHED = "0000000b 01 0000000000000000 06 10"
CLOSE = "00000005 11 00000009"
UNCLOSED = [f"0000000b 01 {place:016x} 06 01" for place in range(24)]

# Of what comes of a session: what is written, the end, how many records, and the last receipt.
Row = tuple[list[str], str, int, str]

# What it is, what is sent, what takes place meanwhile, and what comes of it.
WRITTEN_OUT: list[tuple[str, str, Sequence[str], list[str], str, int, str]] = [
    ("a pipe, and half a request", JOIN_PIPE, (), [OPENED, PIPED], "Closed", 3, "2 p0 exit = ok"),
    (
        "a read that waits for a child's write",
        JOIN_PIPE_FORK_READ,
        WRITER,
        [OPENED, PIPED, FORKED, WAITED, GOT],
        "Closed",
        8,
        "7 p0 exit = ok",
    ),
    (
        "a read that waits for nobody",
        JOIN_PIPE_READ,
        (),
        [OPENED, PIPED, PARKED],
        "Closed",
        4,
        "3 p0 exit = ok",
    ),
    (
        "sixteen requests behind a read that waits",
        JOIN_PIPE_FORK_READ + CLOSE * 16,
        WRITER,
        [OPENED, PIPED, FORKED, WAITED, GOT, *UNCLOSED[7:23]],
        "Closed",
        24,
        "23 p0 exit = ok",
    ),
    (
        "requests behind a read that waits for nobody",
        JOIN_PIPE_READ + CLOSE * 40,
        (),
        [OPENED, PIPED, PARKED],
        "Ahead",
        4,
        "3 p0 exit = ok",
    ),
    (
        "a fault behind a read that waits for nobody",
        JOIN_PIPE_READ + "00000001 09",
        (),
        [OPENED, PIPED, PARKED],
        "Malformed",
        4,
        "3 p0 exit = ok",
    ),
    ("nothing", "", (), [], "Closed", 0, "no seat"),
    ("half a length", "0000", (), [], "Closed", 0, "no seat"),
    ("a call before an opening", "00000001 1a", (), [], "Malformed", 0, "no seat"),
    ("a second join", "00000001 01 00000001 01", (), [OPENED], "Malformed", 2, "1 p0 exit = ok"),
    (
        "an attach of nobody",
        f"{ATTACH} 00000001 1a",
        (),
        [UNATTACHED],
        "Closed",
        1,
        "0 p9 attach = error ESRCH",
    ),
    ("an empty payload", "00000001 01 00000000", (), [OPENED], "Malformed", 2, "1 p0 exit = ok"),
    ("a length of 65,793", "00000001 01 00010101", (), [OPENED], "Malformed", 2, "1 p0 exit = ok"),
    (
        "flags of 127",
        "00000001 01 00000004 10 7f 01 61",
        (),
        [OPENED, "00000012 01 0000000000000001 02 0000000000000000"],
        "Closed",
        3,
        "2 p0 exit = ok",
    ),
    ("flags of 128", "00000001 01 00000004 10 80 01 61", (), [OPENED], "Malformed", 2, "1 p0 exit = ok"),
]


def told(given: Ran) -> tuple[str, ...]:
    """What is written out of what the trial printed: what was written, the end, the records and the last receipt."""
    lines = given.stdout.decode().splitlines()
    return lines[0], lines[1], lines[-1].split(" ")[1], lines[-2]


def as_told(written: Iterable[str], end: str, records: int, last: str) -> tuple[str, ...]:
    """The same, as it has to be."""
    return f"written {''.join(written).replace(' ', '')}", f"end {end}", str(records), last


def written_as_told(
    trial: str,
    text: str,
    meanwhile: Sequence[str],
    written: list[str],
    end: str,
    records: int,
    last: str,
    calls: Sequence[str] = (),
    **more: Any,
) -> None:
    """What the trial prints is what is written out, with these lines of calls, and what the model gives."""
    session = Session(bytes.fromhex(text), meanwhile=meanwhile, **more)
    given = ran(trial, session)
    compare(session.wanted(), given)
    same(as_told(written, end, records, last), told(given))
    require(set(calls) <= set(given.stdout.decode().splitlines()), f"no {calls} in {given.said()}")


def written_out(trial: str) -> Iterator[Case]:
    """Sessions of which each has to give what is written here."""
    for what, text, *row in WRITTEN_OUT:
        yield what, partial(written_as_told, trial, text, *row)
        yield f"{what}, by one byte", partial(written_as_told, trial, text, *row, reads=Manner(1), writes=Manner(1))
    yield from faults(trial)
    yield "seventeen requests behind a read that waits", partial(ahead_or_not, trial)
    yield from left(trial)


def faults(trial: str) -> Iterator[Case]:
    """Two answers of 22 bytes each, of requests that are read by one byte, and each read or each write fails."""
    case = partial(written_as_told, trial, JOIN_PIPE, ())
    both = "".join([OPENED, PIPED]).replace(" ", "")
    for fails_at in range(1, 14):
        size = 0 if fails_at < 6 else 22 if fails_at < 11 else 44
        records = {0: 0, 22: 2, 44: 3}[size]
        last = f"{records - 1} p0 exit = ok" if records else "no seat"
        fault = partial(case, [both[: 2 * size]], "ReadFault", records, last, [f"reads {fails_at} 0 failed"])
        for most in (2**20, 1):
            name = f"a fault at read {fails_at}, written by {most}"
            yield name, partial(fault, reads=Manner(1, fails_at), writes=Manner(most))
    for fails_at in range(1, 45):
        records = 2 if fails_at <= 22 else 3
        fault = partial(case, [both[: 2 * fails_at - 2]], f"WriteFault {fails_at - 1}", records)
        calls = ["reads 13 0 whole", f"writes {fails_at} 0 failed", f"flushes {records - 2}"]
        fault = partial(fault, f"{records - 1} p0 exit = ok", calls)
        yield f"a fault at write {fails_at}", partial(fault, reads=Manner(1), writes=Manner(1, fails_at))
    some = partial(case, [both[:74]], "WriteFault 37", 3, "2 p0 exit = ok", ["writes 4 0 failed", "flushes 1"])
    yield "a writer that takes 15 bytes and fails", partial(some, reads=Manner(1), writes=Manner(15, 4))


def ahead_or_not(trial: str) -> None:
    """The last of the requests is answered, or there was no room for it."""
    session = Session(bytes.fromhex(JOIN_PIPE_FORK_READ + CLOSE * 17), meanwhile=WRITER)
    given = ran(trial, session)
    compare(session.wanted(), given)
    front = [OPENED, PIPED, FORKED, WAITED, GOT]
    all_answered = as_told([*front, *UNCLOSED[7:24]], "Closed", 25, "24 p0 exit = ok")
    one_dropped = as_told([*front, *UNCLOSED[7:23]], "Ahead", 24, "23 p0 exit = ok")
    require(told(given) in (all_answered, one_dropped), given.said())


# What a session is over with, how its writer answers, and what comes of it. Without an end it ends for what ends its reads.
LEFT: list[tuple[str, str, Manner, Row]] = [
    ("a refused opening", ATTACH, PLAIN, ([UNATTACHED], "Closed", 1, "0 p9 attach = error ESRCH")),
    ("a call before an opening", CLOSE, PLAIN, ([], "Malformed", 0, "no seat")),
    ("a second join", "00000001 01 00000001 01", PLAIN, ([OPENED], "Malformed", 2, "1 p0 exit = ok")),
    ("a wait for nobody", JOIN_PIPE_READ, PLAIN, ([OPENED, PIPED, PARKED], "", 4, "3 p0 exit = ok")),
    ("a write that fails", "00000001 01", Manner(fails_at=1), ([], "WriteFault 0", 2, "1 p0 exit = ok")),
    ("a flush that fails", "00000001 01", Manner(flush_fails_at=1), ([OPENED], "WriteFault 22", 2, "1 p0 exit = ok")),
]


def left(trial: str) -> Iterator[Case]:
    """Sessions that are over early: what comes behind that is read, up to the request for which there is no room."""
    for what, text, writes, row in LEFT:
        size = len(bytes.fromhex(text))
        for behind in (0, 15, 16, 17, 18, 40):
            is_room = behind <= AHEAD_MOST
            reads = size + 9 * behind + 1 if is_room else size + 9 * (AHEAD_MOST + 1)
            answers, end, *rest = row
            end = end or ("Closed" if is_room else "Ahead")
            told_of = [answers, end, *rest, [f"reads {reads} 0 whole"]]
            case = partial(written_as_told, trial, text + CLOSE * behind, (), *told_of)
            yield f"{behind} requests behind {what}", partial(case, reads=Manner(1), writes=writes)


# ---- streams that are cut, that fail and that are interrupted


def every_call() -> bytes:
    """A session with every call in it, and a few more."""
    lines = """p0 open a rw,creat|p0 write 0 x68656c6c6f|p0 lseek 0 1 set|p0 read 0 2|p0 pwrite 0 3 x21|p0 pread 0 0 9
        |p0 ftruncate 0 2|p0 fstat 0|p0 dup 0|p0 dup2 0 5|p0 close 5|p0 link a b|p0 unlink a|p0 mkfifo f|p0 open f rw
        |p0 open f r,nonblock|p0 pipe|p0 fork|p0 write 4 61*2000|p0 read 3 9|p0 close 9|p0 getfl 2
        |p0 setfl 2 r,append|p0 rename b f"""
    return session_frames(line.strip() for line in lines.split("|"))


def every_call_is_there() -> None:
    """The session with every call has each call of the table."""
    requests = Session(every_call()).pump.requests
    same(sorted(plain_model.CALLS), sorted({line.split(" ")[2] for line in requests[1:]}))


EVERY_CALL_MEANWHILE = ("p1 attach", "p1 read 3 700", "p1 read 3 1024", "p1 close 0", "p1 exit")


def long_ones() -> Iterator[tuple[str, bytes, tuple[str, ...]]]:
    """The sessions that are cut, that fail and that are interrupted."""
    yield "a read that waits", bytes.fromhex(JOIN_PIPE_FORK_READ), WRITER
    yield "every call", every_call(), EVERY_CALL_MEANWHILE


def troubled(trial: str) -> Iterator[Case]:
    """Sessions in pieces of each size, with each read, write and flush failing, interrupted, or with few records."""
    yield "every call is in the session that has every call", every_call_is_there
    for what, text, meanwhile in long_ones():
        case = partial(check, trial, text, meanwhile=meanwhile)
        for most in range(1, len(text) + 1):
            yield f"{what}, in pieces of {most}", partial(case, reads=Manner(most), writes=Manner(most))
        for most in (1, 7, 2**20):
            yield from failing(what, text, meanwhile, most, case)
        for reads, writes in ((15, 0), (0, 15), (15, 15), (16, 0), (0, 16), (17, 1), (1, 40)):
            manners = {"reads": Manner(9, 0, reads), "writes": Manner(11, 0, writes)}
            yield f"{what}, {reads} and {writes} interruptions", partial(case, **manners)
        sent = [outcome.sent for outcome in Session(text, meanwhile=meanwhile, reads=Manner(7)).outcomes()]
        for at in range(1, max(one.flushes for one in sent) + 2):
            manners = {"reads": Manner(7), "writes": Manner(flush_fails_at=at)}
            yield f"{what}, flush {at} fails", partial(case, **manners)
        for kernel in ("forgets-waiting", "forgets-all"):
            for most in (1, 7, 2**20):
                name = f"{what}, by {most}, a kernel that {kernel}"
                forgets = partial(case, kernel=kernel, reads=Manner(most))
                yield name, forgets
                yield f"{name}, write 3 fails", partial(forgets, writes=Manner(9, 3))
        yield f"{what}, a writer that takes no byte", partial(case, writes=Manner(0))
        for records in range(1, 40):
            few = partial(case, records=records)
            yield f"{what}, in {records} records", few
            yield f"{what}, in {records} records, by one byte", partial(few, reads=Manner(1), writes=Manner(1))


def failing(what: str, text: bytes, meanwhile: tuple[str, ...], most: int, case: Callable[..., None]) -> Iterator[Case]:
    """A session of which each read and each write fails in turn."""
    session = Session(text, meanwhile=meanwhile, reads=Manner(most), writes=Manner(most))
    for at in range(1, len(session.pump.reads) + 2):
        yield f"{what}, read {at} by {most} fails", partial(case, reads=Manner(most, at))
    for at in range(1, max(outcome.sent.calls for outcome in session.outcomes()) + 2):
        fails = partial(case, writes=Manner(most, at))
        yield f"{what}, write {at} by {most} fails", partial(fails, reads=Manner(most))
        yield f"{what}, read at once, write {at} by {most} fails", fails


# ---- many requests behind a call that waits


def behind(trial: str) -> Iterator[Case]:
    """Sessions with so many requests behind a call that waits, as it goes on and as the next such call is given up."""
    meanwhile = (*WRITER, *["p1 fstat 0"] * 200)
    for number, most in itertools.product((1, 15, 16, 17, 18, 33, 34, 40), (1, 9, 2**20)):
        calls = ["p0 pipe", "p0 fork", "p0 read 0 5", *["p0 close 9"] * number]
        for what, more in (("", ()), (", and of a read that waits", ("p0 read 0 5", *["p0 dup 9"] * 20))):
            case = partial(check, trial, session_frames([*calls, *more]), meanwhile=meanwhile, reads=Manner(most))
            name = f"{number} requests behind a read that waits{what}, by {most}"
            for writes in (PLAIN, Manner(7), Manner(2**20, 5), Manner(1, 200), Manner(flush_fails_at=4)):
                yield f"{name}, {writes}", partial(case, writes=writes)
            for records in (204, 215, 225):
                yield f"{name}, in {records} records", partial(case, records=records)


# ---- much


def much(trial: str) -> Iterator[Case]:
    """Sessions with much data, with many calls, and with many reads."""
    long_write = "p0 write 0 " + plain_model.data_text(bytes(range(250)) * 262)
    read_back = ["p0 open a rw,creat", long_write, "p0 lseek 0 0 set", *["p0 pread 0 0 65536"] * 5]
    too_much = framed(b"\x13" + u32(1) + counted(bytes(65_701)))
    texts = [
        ("long writes and reads", session_frames(read_back)),
        ("many calls", session_frames(["p0 pipe", *["p0 fstat 0"] * 3_000])),
        ("a payload of 65,792 bytes", JOIN + framed(bytes([19]) + bytes(65_791), b"\x1a")),
        ("a payload of 65,793 bytes", JOIN + framed(bytes([19]) + bytes(65_792), b"\x1a")),
        ("a write of a byte too many", JOIN + too_much),
    ]
    manners = [
        (PLAIN, PLAIN),
        (Manner(1_000), Manner(999)),
        (Manner(65_535), Manner(7_777)),
        (PLAIN, Manner(50_000, 3)),
    ]
    for what, text in texts:
        for reads, writes in manners:
            yield f"{what}, {reads.most} {writes.most}", partial(check, trial, text, reads=reads, writes=writes)
    for length in (READS_MAX - 1, READS_MAX):
        yield f"{length} bytes, one a read", partial(often_read, trial, length)


def often_read(trial: str, length: int) -> None:
    """A join, and the begin of a frame that goes on for ever, by one byte a read."""
    text = (JOIN + call_frame("p0 fstat 9") * (length // 9))[:length]
    words = ["1000000", "knows", "1,0,0,0", f"{2**20},0,0,0"]
    given = run([trial, *words], text, seconds=OFTEN_SECONDS)
    lines = given.stdout.decode().splitlines()
    calls = (length - 5) // 9
    end, reads = ("Closed", length + 1) if length < READS_MAX else ("ReadFault", READS_MAX)
    wanted = [f"end {end}", f"answers {calls + 1}", f"reads {reads} 0 whole"]
    wanted += [f"writes {calls + 1} 0 whole", f"flushes {calls + 1}"]
    if given.status != 0 or lines[1:6] != wanted or lines[-1] != f"records {calls + 2} in 0 out 0":
        raise Failure(f"wanted {wanted}, given {lines[1:6]} {lines[-1]}")


# ---- want of memory


def refusals(refuser: Refuser, trial: str) -> Iterator[Case]:
    """Sessions with each allocation refused in turn."""
    for what, text, meanwhile in long_ones():
        for most in (2**20, 13):
            for fails_at, last in ((0, "Closed"), (3, "WriteFault")):
                met = ("NoThread", "NoMemory", last)
                name = f"{what}, by {most}, write {fails_at} fails, each allocation refused"
                yield name, partial(sweep, refuser, trial, text, meanwhile, most, fails_at, met)


# What is printed of a session for which no thread can be started.
UNSTARTED = (
    b"written \nend NoThread\nanswers 0\nno reader\nwrites 0 0 whole\nflushes 0\nno seat\n"
    b"records 0 in 0 out 0\n"
)


class Lines:
    """What the trial printed, by its words."""

    def __init__(self, stdout: bytes) -> None:
        lines = stdout.decode().splitlines()
        self.written = bytes.fromhex(lines[0][len("written ") :])
        self.end = lines[1][len("end ") :]
        self.receipts = [line for line in lines[6:-1] if line != "no seat"]
        self.records = int(lines[-1].split(" ")[1])


def sweep(
    refuser: Refuser,
    trial: str,
    text: bytes,
    meanwhile: tuple[str, ...],
    most: int,
    fails_at: int,
    met: tuple[str, ...],
) -> None:
    """Refuses each allocation of a run in turn: its answers begin those of a right session, and these ends are met."""

    def session(acts: tuple[str, ...], fails_at: int) -> Session:
        return Session(text, meanwhile=acts, reads=Manner(most), writes=Manner(most, fails_at))

    words = [trial, *session(meanwhile, fails_at).words]
    whole, count = refuser.run(words, text)
    compare(session(meanwhile, fails_at).wanted(), whole)
    require(count, "no allocation is counted")
    right = Lines(next(session(meanwhile, 0).wanted()))
    # an act of the others may be refused too
    fewer = (meanwhile[:at] + meanwhile[at + 1 :] for at in range(len(meanwhile)))
    others = {text for acts in fewer for text in session(acts, fails_at).wanted()}
    ends: collections.Counter[str] = collections.Counter()
    for number in range(1, count + 1):
        for last in (number, NEVER):
            end = refuser.run(words, text, number, last).ran
            if end == NO_MEMORY:
                ends["none"] += 1
            elif end.status != 0 or end.stderr:
                raise Failure(f"allocation {number} refused: {end.said()}")
            elif end.stdout in others:
                ends["others"] += 1
            elif end.stdout == UNSTARTED:
                ends["NoThread"] += 1
            else:
                ends[judged(right, Lines(end.stdout), number)] += 1
    for wanted in met:
        if not ends[wanted]:
            raise Failure(f"no session ended as {wanted}")


def judged(right: Lines, given: Lines, number: int) -> str:
    """The end of a session to which an allocation was refused.

    It is as it would have been, or its end says why, and the exit is recorded.
    """
    if given.receipts and not given.receipts[-1].endswith(" exit = ok"):
        raise Failure(f"allocation {number} refused: no exit after {given.receipts[-1]}")
    end = given.end.split(" ")[0]
    if given.end == right.end and given.written == right.written and given.receipts == right.receipts:
        return end
    # the frames as they would have been, and then perhaps that a request was refused
    at = 0
    while at < len(right.written):
        next_at = at + 4 + int.from_bytes(right.written[at : at + 4], "big")
        if given.written[at:next_at] != right.written[at:next_at]:
            break
        at = next_at
    rest = given.written[at:]
    no_memory = framed(refused("NoMemory"))
    is_refused = rest.startswith(no_memory)
    if not (is_refused or no_memory.startswith(rest) or right.written[at:].startswith(rest)):
        raise Failure(f"allocation {number} refused: {given.end} after {given.written.hex()}")
    # a session whose call was refused goes on; any other says why it does not
    if end not in ("NoMemory", "WriteFault") and not is_refused:
        raise Failure(f"allocation {number} refused: {given.end}, and nothing was refused")
    return end


# ---- random sessions


# Those of which there are to be more come twice.
CALLS = [*plain_model.CALLS, "open", "read", "write", "pipe"]

OTHERS = "read write close resume open exit fork fstat setfl rename".split()


def random_flags(pick: random.Random) -> str:
    """Flags with any mode."""
    return ",".join([pick.choice(["r", "w", "rw", "-"]), *(word for word in FLAG_WORDS if pick.random() < 0.3)])


MAKERS: dict[plain_model.Reader, Callable[[random.Random], str]] = {
    plain_model.read_name: lambda pick: pick.choice(["a", "b", "f", "g", "%", "a%2f", "n" * 65]),
    plain_model.read_flags: random_flags,
    plain_model.read_fd: lambda pick: str(pick.choice([0, 0, 1, 1, 2, 3, 4, 5, -1, 31, 32])),
    plain_model.read_count: lambda pick: str(pick.choice([0, 1, 5, 100, 1_024, 65_536, 65_537])),
    plain_model.read_data: lambda pick: pick.choice(
        ["x", "x6162", "x68656c6c6f", "61*100", "62*512", "63*600", "64*1024", "65*2000"]
    ),
    plain_model.read_place: lambda pick: str(pick.choice([0, 1, 3, 10, -1, 2**40 - 1, 2**40, 2**63 - 1])),
    plain_model.read_whence: lambda pick: pick.choice(["set", "cur", "end"]),
}


def filled(pick: random.Random, word: str) -> str:
    """A call with its fields."""
    return " ".join([word, *(MAKERS[reader](pick) for reader in plain_model.FIELDS[word])])


def random_session(pick: random.Random) -> tuple[bytes, list[str]]:
    """A session of random requests, and what takes place meanwhile."""
    lines = [f"p0 {filled(pick, pick.choice(CALLS))}" for _ in range(pick.choice([0, 1, 3, 8, 20, 40]))]
    if pick.random() < 0.6:
        lines[0:0] = ["p0 pipe", "p0 fork"]
    meanwhile = [f"p1 {filled(pick, pick.choice(OTHERS))}" for _ in range(pick.randrange(6))]
    if pick.random() < 0.8:
        meanwhile.insert(0, "p1 attach")
    if pick.random() < 0.15:
        lines[0:0] = ["p0 pipe", "p0 fork", "p0 read 0 5"]
        lines += [f"p0 {filled(pick, pick.choice(CALLS))}" for _ in range(pick.randrange(40))]
        meanwhile[0:0] = WRITER
    text = session_frames(lines)
    if pick.random() < 0.1:
        text = attach_frame(pick.choice([0, 1])) + text[len(JOIN) :]
    if pick.random() < 0.3:
        text = changed(pick, text)
    return text, meanwhile


def random_manner(pick: random.Random) -> Manner:
    """A stream that often does as it should."""
    most = pick.choice([1, 2, 7, 64, 2**20, 2**20])
    fails_at = pick.choice([0, 0, 0, 0, 1, 2, 5, 20])
    return Manner(most, fails_at, pick.choice([0, 0, 0, 0, 1, 15, 16]))


def random_sessions(trial: str, seed: str, sessions: int) -> Iterator[Case]:
    """Random sessions, each with what takes place meanwhile, and with streams that may fail."""
    for number in range(sessions):
        pick = source(seed, number)
        text, meanwhile = random_session(pick)
        records = pick.choice([10_000, 10_000, 10_000, pick.randrange(1, 30)])
        manners = {"reads": random_manner(pick), "writes": random_manner(pick)}
        yield numbered("session", seed, number), partial(check, trial, text, records, meanwhile=meanwhile, **manners)


# ---- the whole


def main(words: Sequence[str]) -> int:
    """Makes all checks: the exit status."""
    about = "Serves sessions by the built trial and by a model of its own."
    how_many = count_option("--sessions", 3_000, "how many are random")
    args = asked(words, about, trial_option(SESSION_TRIAL), SEED, how_many)
    trial = args.trial
    count = Count(TELL_MOST)
    with tempfile.TemporaryDirectory() as folder:
        refuser = Refuser(build(folder))
        count.part("sessions that are written out", written_out(trial))
        count.part("cut, failing and interrupted", troubled(trial))
        count.part("behind a call that waits", behind(trial))
        count.part("much", much(trial))
        count.part("each allocation refused", refusals(refuser, trial))
        count.part("random sessions", random_sessions(trial, args.seed, args.sessions))
    return count.end()


if __name__ == "__main__":
    sys.exit(main(sys.argv[1:]))
