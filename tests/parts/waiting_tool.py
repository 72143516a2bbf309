"""What tools/waiting.py tells of a trace: who is there, who waits, in what and for whom."""

import contextlib
import errno
import fcntl
import io
import os
import random
import socket
import sys
import tempfile
import time
from collections.abc import Iterator, Sequence
from functools import partial
from pathlib import Path
from unittest import mock

from parts.written_traces import random_records
from support.auditing import Judge, act_of
from support.counting import Case, require, same
from support.frames import OLD_MAGIC, header_bytes, trace_of
from support.plain_model import Act
from support.places import TOOLS
from support.running import Ran, run
from support.sources import numbered, source

import waiting
import waits

TOOL = TOOLS / "waiting.py"

PAIR = ["0 p0 join = 0", "1 p0 pipe = 0 1", "2 p0 fork = 1"]
BOTH = [*PAIR, "3 p1 attach = ok"]
LONG = "6162" * 515
UNSEEN = "a connection that has sent nothing yet is not seen"
NOBODY = ": a server that goes on waits for connections"
STUCK = ": none goes on by itself"
WAKE = "its wake is lost, or its turn had not come"
HELD_UP = "its wake is lost, or the server is stopped or held up"
LOST = ": 1 call can go on, and no resume came"
NEVER = ": 1 call could go on, and no resume came before the exit"
GONE = "0 processes, 0 with a connection (2 so far), 0 of which wait"
PARKED = [*BOTH, "4 p1 close 1 = ok", "5 p1 read 0 5 = parked 0"]
WRITTEN = [*PARKED, "6 p0 write 1 x616263 = 3"]
LEFT = [*WRITTEN, "7 p0 close 0 = ok", "8 p0 exit = ok", "9 p1 exit = ok", "10 house close-run = ok"]
ENDED = "p1 ended at record 9 in read 0 5 of record 5, which could go on since record 6"
# Records, what is told of them, and the exit status.
BY_HAND: list[tuple[str, list[str], str, int]] = [
    ("nobody", [], f"0 processes, 0 with a connection (0 so far), 0 of which wait{NOBODY}", 0),
    (
        "a child without a connection",
        PAIR,
        "p0 waits in no call\np1 was forked and has no connection\n"
        "2 processes, 1 with a connection (1 so far), 0 of which wait",
        0,
    ),
    (
        "all wait",
        [*BOTH, "4 p0 read 0 5 = parked 0", "5 p1 close 1 = ok", "6 p1 read 0 7 = parked 0"],
        "p0 waits in read 0 5 since record 4, where the writing end is open in itself\n"
        "p1 waits in read 0 7 since record 6, where the writing end is open in p0\n"
        f"2 processes, 2 with a connection (2 so far), 2 of which wait{STUCK}",
        1,
    ),
    (
        "all wait, and one can go on",
        [*BOTH, "4 p0 pipe = 2 3", "5 p1 read 0 1 = parked 0", "6 p0 write 1 x78 = 1", "7 p0 read 2 1 = parked 0"],
        "p0 waits in read 2 1 since record 7, where the writing end is open in itself\n"
        f"p1 waits in read 0 1 since record 5, and can go on: {WAKE}\n"
        f"2 processes, 2 with a connection (2 so far), 2 of which wait{LOST}",
        1,
    ),
    (
        "a part of a write",
        [
            *BOTH,
            f"4 p0 write 1 x{LONG} = parked 1024",
            "5 p1 read 0 1 = x61",
            "6 p0 resume = part 1025",
        ],
        f"p0 waits in write 1 x{LONG[:51]}.. since record 4, with 1025 bytes moved, "
        "where the reading end is open in itself, p1\np1 waits in no call\n"
        "2 processes, 2 with a connection (2 so far), 1 of which wait",
        0,
    ),
    (
        "a wait that has ended in an error",
        [
            *PAIR,
            "3 p0 close 0 = ok",
            f"4 p0 write 1 x{'61' * 1024} = 1024",
            "5 p0 write 1 x61 = parked 0",
            "6 p1 exit = ok",
            "7 p0 resume = error EPIPE",
        ],
        "p0 waits in no call\n1 process, 1 with a connection (1 so far), 0 of which wait",
        0,
    ),
    (
        "an end of a FIFO",
        ["0 p0 join = 0", "1 p0 mkfifo f = ok", "2 p0 open f r = parked 0"],
        "p0 waits in open f r since record 2, until the other end is opened\n"
        f"1 process, 1 with a connection (1 so far), 1 of which wait{STUCK}",
        1,
    ),
    (
        "a closed run",
        ["0 p0 join = 0", "1 p0 exit = ok", "2 house close-run = ok"],
        "0 processes, 0 with a connection (1 so far), 0 of which wait",
        0,
    ),
    ("an end in a call that could go on", LEFT, f"{ENDED}: {WAKE}\n{GONE}{NEVER}", 1),
    (
        "a run that is ended before a call that could go on has its turn",
        [*WRITTEN, "7 p1 exit = ok", "8 p0 exit = ok", "9 house close-run = ok"],
        "p1 ended at record 7 in read 0 5 of record 5, which could go on since record 6: "
        f"its wake is lost, or the run was only ended\n{GONE}",
        0,
    ),
    (
        "a child that may begin",
        [*PAIR, "3 p0 read 0 1 = parked 0"],
        "p0 waits in read 0 1 since record 3, where the writing end is open in itself, p1\n"
        "p1 was forked and has no connection\n"
        f"2 processes, 1 with a connection (1 so far), 1 of which wait{STUCK}, but one that was forked may begin",
        1,
    ),
    (
        "an end after the exit of the last writer, and nothing else",
        [*PARKED, "6 p0 exit = ok", "7 p1 exit = ok", "8 house close-run = ok"],
        "p1 ended at record 7 in read 0 5 of record 5, which could go on since record 6: "
        f"its wake is lost, or the run was only ended\n{GONE}",
        0,
    ),
    (
        "an end after the exit of the last writer and a call",
        [*PARKED, "6 p0 fork = 2", "7 p2 attach = ok", "8 p2 close 1 = ok", "9 p0 exit = ok", "10 p2 close 0 = ok"]
        + ["11 p1 exit = ok", "12 p2 exit = ok", "13 house close-run = ok"],
        f"p1 ended at record 11 in read 0 5 of record 5, which could go on since record 9: {WAKE}\n"
        f"{GONE.replace('2 so', '3 so')}{NEVER}",
        1,
    ),
    (
        "a call that can go on where the trace ends",
        WRITTEN,
        "p0 waits in no call\np1 waits in read 0 5 since record 5, and can go on: the trace ends there\n"
        "2 processes, 2 with a connection (2 so far), 1 of which wait",
        0,
    ),
    (
        "an end just as the call could go on",
        [*WRITTEN, "7 p1 exit = ok", "8 p0 close 0 = ok", "9 p0 exit = ok", "10 house close-run = ok"],
        "p1 ended at record 7 in read 0 5 of record 5, which could go on since record 6: "
        f"its wake is lost, or it was only ended\n{GONE}",
        0,
    ),
    (
        "an end after the exit of another, while one that has ended neither goes on",
        [*BOTH, "4 p0 fork = 2", "5 p2 attach = ok", "6 p2 close 0 = ok", "7 p2 close 1 = ok", "8 p1 close 1 = ok"]
        + ["9 p0 fork = 3", "10 p3 attach = ok", "11 p3 close 1 = ok", "12 p1 read 0 5 = parked 0"]
        + ["13 p0 close 1 = ok", "14 p2 exit = ok", "15 p1 exit = ok", "16 p3 read 0 1 = x", "17 p3 exit = ok"]
        + ["18 p0 exit = ok", "19 house close-run = ok"],
        "p1 ended at record 15 in read 0 5 of record 12, which could go on since record 13: "
        f"its wake is lost, or it was only ended\n{GONE.replace('2 so', '4 so')}",
        0,
    ),
    (
        "an end in a call that can go on no more",
        [*WRITTEN, "7 p0 read 0 3 = x616263", "8 p1 exit = ok", "9 p0 exit = ok", "10 house close-run = ok"],
        GONE,
        0,
    ),
]
# What else is told where a server may have written the trace of such an end: a header, and what is told.
SERVED = [
    ("a number of records", header_bytes(12), ": its wake is lost, or its connection was"),
    ("no record for a resume but that of another call", header_bytes(11), ": its wake is lost, or its connection was"),
    ("version 1", OLD_MAGIC, ": its wake is lost, or its connection was"),
]
# The same where no other call comes, and there is no record for the resume.
FULL = [*WRITTEN, "7 p0 exit = ok", "8 p1 exit = ok", "9 house close-run = ok"]
FULL_TOLD = f"{ENDED.replace('record 9', 'record 8')}, and no record was free for its resume"


def told(trace: bytes, *options: str, is_locked: bool = False) -> Ran:
    """What the tool tells of a trace, which somebody has locked, or not."""
    with tempfile.NamedTemporaryFile(prefix="fdref-") as file:
        file.write(trace)
        file.flush()
        if is_locked:
            fcntl.flock(file, fcntl.LOCK_EX)
        return run([sys.executable, TOOL, *options, file.name])


def by_hand(records: list[str], text: str, status: int) -> None:
    """What is told of records that are written out."""
    *processes, last = text.split("\n")
    lines = [*processes, last] if records and "close-run" in records[-1] else [*processes, UNSEEN, last]
    same(Ran(status, "".join(f"{line}\n" for line in lines).encode(), b""), told(trace_of(records)))


def served(header: bytes, why: str) -> None:
    """What is told of the end in a call that could go on, where a server may have written the trace."""
    same(Ran(0, f"{ENDED}{why}\n{GONE}\n".encode(), b""), told(trace_of(LEFT, header)))


def unserved() -> None:
    """Where nobody has a connection, the number of records in a header says nothing of one that was lost."""
    gone = GONE.replace("with a connection", "that have begun")
    wanted = f"{ENDED}: {WAKE}\n{gone}{NEVER}\n"
    same(Ran(1, wanted.encode(), b""), told(trace_of(LEFT, header_bytes(12)), "--no-connections"))
    same(Ran(1, wanted.encode(), b""), told(trace_of(LEFT, header_bytes(11)), "--no-connections"))
    wanted = f"{FULL_TOLD}\n{gone}\n"
    same(Ran(0, wanted.encode(), b""), told(trace_of(FULL, header_bytes(10)), "--no-connections"))
    same(Ran(0, f"{FULL_TOLD}\n{GONE}\n".encode(), b""), told(trace_of(FULL, header_bytes(10))))
    wanted = "p0 waits in no call\np1 was forked and has made no call\n"
    wanted += "2 processes, 1 that have begun (1 so far), 0 of which wait\n"
    same(Ran(0, wanted.encode(), b""), told(trace_of(PAIR), "--no-connections"))


def left_off() -> None:
    """Of a server's trace that nobody writes any more, before the run was closed, that is told; while it is written,
    what is not seen."""
    last = "2 processes, 1 with a connection (1 so far), 0 of which wait"
    broken = "no server writes this trace any more: its run was broken off here"
    for is_locked, line in ((True, UNSEEN), (False, broken)):
        ran = told(trace_of(PAIR, header_bytes(99)), is_locked=is_locked)
        same((0, [line, last]), (ran.status, ran.stdout.decode().splitlines()[2:]))


def broken_off() -> None:
    """A call that can go on has lost its wake where a server still writes the trace, and else by what was recorded since
    alone, if no connection can have been lost."""
    more = [*WRITTEN, "7 p0 close 0 = ok"]
    for records, is_locked, options, text in (
        (WRITTEN, False, [], "the trace ends there"),
        (WRITTEN, True, [], HELD_UP),
        (more, False, [], "the trace ends there"),
        (more, False, ["--no-connections"], WAKE),
        (WRITTEN, False, ["--no-connections"], "the trace ends there"),
    ):
        ran = told(trace_of(records, header_bytes(99)), *options, is_locked=is_locked)
        wanted = f"p1 waits in read 0 5 since record 5, and can go on: {text}"
        same((text in (HELD_UP, WAKE), wanted), (ran.status == 1, ran.stdout.decode().splitlines()[1]))


def long_is_told() -> None:
    """What takes long is told, by the tool that does it, and once; what does not is not."""
    said = io.StringIO()
    with contextlib.redirect_stderr(said):
        with waits.Long("goes through a trace", "waiting.py", 0.01):
            time.sleep(0.2)
        with waits.Long("reads", "order.py"):
            pass
    same("waiting.py: goes through a trace\n", said.getvalue())


def looked_at(records: list[str], later: list[str]) -> waiting.Standing:
    """Where processes stand after records that a server writes, which has written others too as it is looked again."""
    with tempfile.NamedTemporaryFile(prefix="fdref-") as file:
        file.write(trace_of(records, header_bytes(99)))
        file.flush()
        fcntl.flock(file, fcntl.LOCK_EX)

        def write_on(_: float) -> None:
            Path(file.name).write_bytes(trace_of([*records, *later], header_bytes(99)))

        with mock.patch.object(waiting.time, "sleep", write_on):
            return waiting.standing_in(Path(file.name))


def later_is_looked_at() -> None:
    """A call that can go on, and is taken up a little later, has no wake that is lost: also one that has moved a part
    and can go on again, or whose bytes another has taken meanwhile. One that can all the time has."""
    records = [*BOTH, "4 p1 read 0 1 = parked 0", "5 p0 write 1 x78 = 1"]
    standing = looked_at(records, ["6 p1 resume = x78"])
    same((set(), "p1 waits in no call"), (standing.lost, standing.lines()[1]))
    standing = looked_at(records, ["6 p0 lseek 9 0 set = error EBADF"])
    same(({1}, f"p1 waits in read 0 1 since record 4, and can go on: {HELD_UP}"), (standing.lost, standing.lines()[1]))
    taken = ["6 p0 read 0 1 = x78", "7 p0 write 1 x78 = 1"]
    same(set(), looked_at(records, taken).lost)
    records = [*BOTH, f"4 p0 write 1 x{'61' * 2000} = parked 1024", "5 p1 read 0 1 = x61"]
    same(set(), looked_at(records, ["6 p0 resume = part 1025", "7 p1 read 0 1 = x61"]).lost)


def nothing_is_told() -> None:
    """Where nothing is seen of the processes that are waited for, that is told."""
    with mock.patch.object(waits, "doing", return_value=""):
        same("none of its processes is seen", waits.all_doing())


def cut_trace() -> None:
    """A record that is not whole yet is not looked at, as in a trace that is being written, and its bytes are told, also
    after a closing."""
    trace = trace_of(PAIR[:2])
    last = "1 process, 1 with a connection (1 so far), 0 of which wait"
    for cut, rest in ((3, "15 bytes"), (17, "1 byte")):
        text = f"p0 waits in no call\n{rest} left over after the last whole record\n{UNSEEN}\n{last}\n"
        same(Ran(0, text.encode(), b""), told(trace[:-cut]))
    closed = trace_of(["0 p0 join = 0", "1 p0 exit = ok", "2 house close-run = ok"]) + b"\0\0"
    last = "0 processes, 0 with a connection (1 so far), 0 of which wait"
    same(Ran(0, f"2 bytes left over after the last whole record\n{last}\n".encode(), b""), told(closed))


NO_HEADER = b"malformed 0: it does not begin with FDTRACE1 or FDTRACE2, as a trace does\n"


def no_trace() -> None:
    """What is no trace, or comes from no run, is told so."""
    for trace, fault in (
        (b"FDTRACE9", NO_HEADER),
        (b"join\n", NO_HEADER),
        (header_bytes(2**32 - 1), b"malformed 0\n"),
        (trace_of(["0 p0 resume = 0"]), b"illegal 0 expected none\n"),
    ):
        ran = told(trace)
        require(ran.status == 3 and not ran.stdout and ran.stderr.endswith(b": " + fault), ran.said())
    with tempfile.TemporaryDirectory(prefix="fdref-") as folder, socket.socket(socket.AF_UNIX) as server:
        os.mkfifo(f"{folder}/fifo")
        server.bind(f"{folder}/socket")
        for name, fault in (
            ("none", os.strerror(errno.ENOENT)),
            ("", os.strerror(errno.EISDIR)),
            ("fifo", "it is a FIFO, of which somebody else may want the bytes"),
            ("socket", "it is a socket; the trace of a server is the file of its --trace"),
        ):
            path = f"{folder}/{name}"
            same(Ran(3, b"", f"waiting: {path}: {fault}\n".encode()), run([sys.executable, TOOL, path]))


def act_in(line: str) -> Act:
    """The act of a record's line, with its place."""
    return act_of(line.split(" ", 1)[1].rpartition(" = ")[0])


def exits_after(pick: random.Random, records: list[str]) -> list[str]:
    """The records of some exits, in any order, of those who have a connection after records."""
    judge = Judge()
    for line in records:
        judge.outcome_of(act_in(line))
    there = [process.number for process in judge.world.processes.values() if process.attached]
    there = pick.sample(there, pick.randrange(len(there) + 1))
    return [f"{place} p{number} exit = ok" for place, number in enumerate(there, len(records))]


def random_case(seed: str, number: int) -> None:
    """After random acts those are there whom the model has, with what each does."""
    pick = source(f"{seed} waiting", number)
    records = random_records(pick)
    records = records[: pick.randrange(len(records) + 1)]
    if pick.random() < 0.5:
        records += exits_after(pick, records)
    judge = Judge()
    # since when which calls can go on, and who has ended in one that could
    ready: dict[int, int] = {}
    ended: list[str] = []
    is_lost = False
    acts = [act_in(line) for line in records]
    for place, act in enumerate(acts):
        if act.word == "exit" and isinstance(act.actor, int) and act.actor in ready:
            ended.append(f"p{act.actor} ended")
            since = ready[act.actor]
            is_lost = is_lost or not are_exits(acts[since + 1 : place])
        judge.outcome_of(act)
        can = [it.number for it in judge.world.processes.values() if it.waits and it.waits.is_ready(judge.world)]
        gone_on = {act.actor} if act.word == "resume" else set()
        ready = {number: place if number in gone_on else ready.get(number, place) for number in can}
    there = sorted(judge.world.processes.values(), key=lambda one: one.number)
    wanted = []
    for it in there:
        stuck = it.waits is not None and not it.waits.is_ready(judge.world)
        what = "alone" if not it.attached else "stuck" if stuck else "ready" if it.waits else "goes on"
        wanted.append(f"p{it.number} {what}")
    ran = told(trace_of(records))
    lines = ran.stdout.decode().splitlines()
    same([*wanted, *ended], [seen(line) for line in lines[:-1] if line != UNSEEN])
    same(not judge.world.is_closed, UNSEEN in lines)
    attached = [line for line in wanted if not line.endswith("alone")]
    is_lost = is_lost or any(it.attached and not are_exits(acts[ready.get(it.number, len(acts)) + 1 :]) for it in there)
    same(int(is_lost or (bool(attached) and all(line.endswith("stuck") for line in attached))), ran.status)


def are_exits(acts: Sequence[Act]) -> bool:
    """Whether these are exits and the closing of a run alone."""
    return all(act.word in ("exit", "close-run") for act in acts)


def seen(line: str) -> str:
    """What a line tells of a process."""
    if " ended at record " in line:
        return f"{line.split(' ')[0]} ended"
    ends = {"was forked and has no connection": "alone", "waits in no call": "goes on"}
    ends.update({f"and can go on: {why}": "ready" for why in (WAKE, HELD_UP, "the trace ends there")})
    return f"{line.split(' ')[0]} {next((what for end, what in ends.items() if line.endswith(end)), 'stuck')}"


def cases(seed: str, count: int) -> Iterator[Case]:
    """Traces by hand, and so many random ones."""
    for name, records, text, status in BY_HAND:
        yield name, partial(by_hand, records, text, status)
    for name, header, why in SERVED:
        yield f"an end in a call that could go on, {name}", partial(served, header, why)
    yield "a trace without connections", unserved
    yield "a trace that breaks off, or goes on", broken_off
    yield "a trace that no server writes any more", left_off
    yield "what takes long", long_is_told
    yield "what is not seen", nothing_is_told
    yield "a call that is taken up later", later_is_looked_at
    yield "a cut trace", cut_trace
    yield "no trace", no_trace
    for number in range(count):
        yield numbered("trace", seed, number), partial(random_case, seed, number)
