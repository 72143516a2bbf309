#!/usr/bin/env python3
"""Does the live server answer its clients rightly, many at once and hostile ones? (a minute)

usage: tests/serve.py [--program PATH] [--seed WORD] [--runs N] [--crowds N] [--calls N] [--only WORD]

The program is crates/fdref/out/fdref where no PATH is given. Each case starts `fdref serve` with a
socket in a fresh folder, and plays its clients:

  - conversations that are written out, with each answer's place: the worked example to the byte, calls
    that wait and what wakes them, refusals, and the numbers of the line that the server prints,
  - clients that send bytes of a conversation and vanish, that send half a frame, garbage, too much or
    nothing, or that do not read,
  - two clients that each need the other to be answered before they go on, in N runs (200 where no
    number is given),
  - 64 clients at once, with N random calls each (40 where no number is given), in N runs (3). What
    each client has counted must sum to the line. The places that they were told must be all that there
    are, and in the order of the places each answer must be that of the plain model. Run K
    of a seed makes the same choices each time, but the server may order the calls otherwise,
  - the client in clients/python and the example that uses it, also in children of os.fork and with signals,
  - command lines, sockets that cannot be made, connections that cannot be taken, threads that cannot
    be started, and output that fails.

After each case the server must end by itself, with the right line and status, and leave no process.
Every wait is bounded: what takes more than ten seconds is killed, and a failure.

A failure is told in one line. The last line is `N passed, M failed`, and the exit status is 1 where
M is above 0.
"""

import concurrent.futures
import contextlib
import errno
import os
import random
import re
import resource
import select
import stat
import sys
import tempfile
import threading
import time
from collections.abc import Callable, Iterator, Sequence
from functools import partial

from parts import crowds, python_children, python_client
from support.causes import SAID, names_cause, unaccepted
from support.counting import Case, Count, Failure, require, same
from support.frames import JOIN, attach_frame, call_frame, framed, recorded, u32
from support.options import ONLY, PROGRAM, SEED, asked, count_option
from support.refusing import build
from support.serving import A_WHILE, ALL_RECORDS, SECONDS, Client, Server, outcome_of, report, serve_words, started

TELL_MOST = 10
PATH_MOST = 107


# ---- conversations that are written out

# The exchange to the byte: which client, what it sends, and what it is sent.
WORKED: list[tuple[int, str, str]] = [
    (0, "00000001 01", "00000012 01 0000000000000000 02 0000000000000000"),
    (0, "00000001 1a", "00000012 01 0000000000000001 04 00000000 00000001"),
    (0, "00000001 1f", "00000012 01 0000000000000002 02 0000000000000001"),
    (0, "00000009 12 00000000 00000005", "0000000e 01 0000000000000003 07 00000000"),
    (1, "00000005 02 00000001", "0000000a 01 0000000000000004 01"),
    (1, "0000000e 13 00000001 00000005 68656c6c6f", "00000012 01 0000000000000005 02 0000000000000005"),
    (0, "", "00000013 01 0000000000000006 03 00000005 68656c6c6f"),
]


def worked(program: str, size: int) -> None:
    """The worked example, sent in pieces of a size."""
    with Server(program, 2, 100) as server:
        clients = [server.client(), server.client()]
        for which, text, given in WORKED:
            sent = bytes.fromhex(text)
            for at in range(0, len(sent), size):
                clients[which].send(sent[at : at + size])
            answer = clients[which].receive(len(bytes.fromhex(given)))
            require(answer == bytes.fromhex(given), f"wanted {given}, given {answer.hex()}")
        for client in clients:
            client.vanish()
        server.ended(report(2, 10, 5, 5))


def worked_at_once(program: str) -> None:
    """The worked example, where each client sends all its requests at once."""
    with Server(program, 2, 100) as server:
        clients = [server.client(), server.client()]
        sent, wanted = (
            [b"".join(bytes.fromhex(row[1:][at]) for row in WORKED if row[0] == which) for which in (0, 1)]
            for at in (0, 1)
        )
        first, second = clients
        first.send(sent[0])
        waiting = first.receive(22 * 3 + 18)
        second.send(sent[1])
        answers = [waiting + first.receive(23), second.receive(14 + 22)]
        # not before: a call that waits is given up where its client stops
        first.stop()
        second.stop()
        require(answers == wanted, f"given {[answer.hex() for answer in answers]}")
        server.ended(report(2, 10, 5, 5))


# What it is, the records of the run, the play, and the numbers of the line: records, bytes in, bytes out. In a play a
# line is a client, its request and, after a bar, the answer that it gets: the place and the outcome. A client without a
# request gets one more answer. `goes` is to vanish; the place of its exit is told to nobody, so somebody must wait for
# it before the next place is known. `waits` is to get no answer.
PLAYS = [
    (
        "a read that another's write wakes",
        100,
        """a join | 0 0; a pipe | 1 0 1; a fork | 2 1; b attach 1 | 3 ok; a read 0 5 | 4 parked 0; a waits
        b write 1 x68656c6c6f21 | 5 6; a | 6 x68656c6c6f; b read 0 5 | 7 x21""",
        (11, 6, 6),
    ),
    (
        "a read that another's close of the last writer wakes",
        100,
        """a join | 0 0; a pipe | 1 0 1; a fork | 2 1; a close 1 | 3 ok; b attach 1 | 4 ok; b dup 1 | 5 2
        a read 0 5 | 6 parked 0; b close 1 | 7 ok; a waits; b close 2 | 8 ok; a | 9 x; b fstat 0 | 10 pipe 0 0""",
        (14, 0, 0),
    ),
    (
        "a read that the vanishing of the last writer wakes",
        100,
        """a join | 0 0; a pipe | 1 0 1; a fork | 2 1; a close 1 | 3 ok; b attach 1 | 4 ok; a read 0 5 | 5 parked 0
        a waits; b goes; a | 7 x; a fstat 0 | 8 pipe 0 0""",
        (11, 0, 0),
    ),
    (
        "a read that a dup2 over the last writer wakes",
        100,
        """a join | 0 0; a pipe | 1 0 1; a fork | 2 1; a close 1 | 3 ok; b attach 1 | 4 ok; a read 0 5 | 5 parked 0
        b dup2 0 1 | 6 1; a | 7 x""",
        (11, 0, 0),
    ),
    (
        "a read that waits on while its end is made nonblocking",
        100,
        """a join | 0 0; a pipe | 1 0 1; a fork | 2 1; b attach 1 | 3 ok; a read 0 4 | 4 parked 0
        b setfl 0 -,nonblock | 5 ok; a waits; b read 0 4 | 6 error EAGAIN; b getfl 0 | 7 65; b write 1 x6869 | 8 2
        a | 9 x6869; a read 0 1 | 10 error EAGAIN; b setfl 0 - | 11 ok; a read 0 1 | 12 parked 0; a waits
        b write 1 x21 | 13 1; a | 14 x21""",
        (18, 3, 3),
    ),
    (
        "an open that waits on while its FIFO gets another name, and loses it",
        100,
        """a join | 0 0; a mkfifo f | 1 ok; b join | 2 1; b open f w | 3 parked 0; a rename f g | 4 ok; b waits
        a open a rw,creat | 5 0; a open g r,nonblock | 6 1; b | 7 0; a rename a g | 8 ok; b write 0 x6869 | 9 2
        a fstat 1 | 10 fifo 2 0; a open g r | 11 2; a fstat 2 | 12 regular 0 1; a read 1 9 | 13 x6869""",
        (17, 2, 2),
    ),
    (
        "a short write that a read wakes",
        100,
        """a join | 0 0; a pipe | 1 0 1; a fork | 2 1; b attach 1 | 3 ok; a write 1 61*1024 | 4 1024
        a write 1 62*512 | 5 parked 0; b read 0 511 | 6 61*511; a waits; b read 0 1 | 7 x61; a | 8 512
        b read 0 512 | 9 61*512""",
        (13, 1536, 1024),
    ),
    (
        "a long write that goes on in parts",
        100,
        """a join | 0 0; a pipe | 1 0 1; a fork | 2 1; b attach 1 | 3 ok; a write 1 61*2000 | 4 parked 1024
        b read 0 500 | 5 61*500; a | 6 part 1524; a waits; b read 0 1024 | 7 61*1024; a | 8 2000
        b read 0 9999 | 9 61*476""",
        (13, 2000, 2000),
    ),
    (
        "a long write whose reader vanishes",
        100,
        """a join | 0 0; a pipe | 1 0 1; a fork | 2 1; a close 0 | 3 ok; b attach 1 | 4 ok
        a write 1 61*2000 | 5 parked 1024; a waits; b goes; a | 7 1024; a write 1 x61 | 8 error EPIPE""",
        (11, 1024, 0),
    ),
    (
        "a short write whose reader vanishes",
        100,
        """a join | 0 0; a pipe | 1 0 1; a fork | 2 1; a close 0 | 3 ok; b attach 1 | 4 ok
        a write 1 61*1000 | 5 1000; a write 1 61*25 | 6 parked 0; a waits; b goes; a | 8 error EPIPE""",
        (11, 1000, 0),
    ),
    (
        "two opens of a FIFO that meet",
        100,
        """a join | 0 0; b join | 1 1; a mkfifo f | 2 ok; a open f r | 3 parked 0; a waits; b open f w | 4 0
        a | 5 0; b write 0 x6869 | 6 2; a read 0 5 | 7 x6869; a read 0 5 | 8 parked 0; b goes; a | 10 x""",
        (13, 2, 2),
    ),
    (
        "an open of a FIFO for writing that waits",
        100,
        """a join | 0 0; b join | 1 1; a mkfifo f | 2 ok; a open f w | 3 parked 0; a waits
        b open f r,nonblock | 4 0; a | 5 0; a write 0 x6869 | 6 2; b read 0 5 | 7 x6869
        b read 0 5 | 8 error EAGAIN""",
        (12, 2, 2),
    ),
    (
        "an offset that parent and child share, and a name",
        100,
        """a join | 0 0; a open s rw,creat | 1 0; a write 0 x61626364 | 2 4; a lseek 0 0 set | 3 0; a fork | 4 1
        b attach 1 | 5 ok; b read 0 2 | 6 x6162; a read 0 2 | 7 x6364; c join | 8 2; c open s r | 9 0
        c read 0 9 | 10 x61626364; c fstat 0 | 11 regular 4 1""",
        (16, 4, 8),
    ),
    ("an attach of nobody", 100, "a attach 9 | 0 error ESRCH; a goes; b join | 1 0; b attach 0", (4, 0, 0)),
    (
        "an attach of a child that is attached",
        100,
        "a join | 0 0; a fork | 1 1; b attach 1 | 2 ok; c attach 1 | 3 error ESRCH; b fork | 4 2; a fork | 5 3",
        (11, 0, 0),
    ),
    (
        "a run that is full",
        4,
        "a join | 0 0; a fstat 0 | 1 error EBADF; a fstat 0 | - refused RunFull; a pipe | - refused RunFull",
        (4, 0, 0),
    ),
    (
        "a run that is full before its end",
        5,
        "a join | 0 0; b join | 1 1; a fstat 0 | - refused RunFull; b goes; a fork | - refused RunFull",
        (5, 0, 0),
    ),
    ("a run without room for a process", 2, "a join | - refused RunFull; a is hung up", (1, 0, 0)),
    (
        "a run of one record",
        1,
        "a join | - refused RunFull; a is hung up; b join | - refused RunFull; b is hung up",
        (1, 0, 0),
    ),
    (
        "every call",
        100,
        """a join | 0 0; a open a rw,creat | 1 0; a write 0 x68656c6c6f | 2 5; a pread 0 1 3 | 3 x656c6c
        a pwrite 0 4 x2121 | 4 2; a lseek 0 0 cur | 5 5; a ftruncate 0 3 | 6 ok; a dup 0 | 7 1; a dup2 0 5 | 8 5
        a close 1 | 9 ok; a pipe | 10 1 2; a mkfifo f | 11 ok; a link a b | 12 ok; a unlink a | 13 ok
        a fstat 5 | 14 regular 3 1; a fork | 15 1; a read 0 9 | 16 x; a open f - | 17 error EINVAL
        a open f r,nonblock | 18 3; a fstat 3 | 19 fifo 0 1; a getfl 5 | 20 3; a setfl 0 w,creat,append | 21 ok
        a getfl 5 | 22 35; a getfl 3 | 23 65; a rename b f | 24 ok; a fstat 3 | 25 fifo 0 0
        a open b r | 26 error ENOENT; a fstat 0 | 27 regular 3 1""",
        (31, 7, 3),
    ),
]


def play(program: str, records: int, text: str, totals: tuple[int, int, int]) -> None:
    """A play: who gets which answer. The clients connect in the order in which they come in."""
    steps = [step.strip() for line in text.split("\n") for step in line.split(";")]
    names = list(dict.fromkeys(step.split(" ")[0] for step in steps))
    with Server(program, len(names), records) as server:
        clients = {name: server.client() for name in names}
        for step in steps:
            request, _, wanted = (part.strip() for part in step.partition("|"))
            name, _, request = request.partition(" ")
            try:
                take_step(clients[name], request, wanted)
            except (Failure, OSError) as failure:
                raise Failure(f"{step}: {failure}") from None
        for client in clients.values():
            client.vanish()
        server.ended(report(len(names), *totals))


def take_step(client: Client, request: str, wanted: str) -> None:
    """One step of a play."""
    if request == "goes":
        client.vanish()
    elif request == "waits":
        require(not client.has_answer(0.02), "it does not wait")
    elif request == "is hung up":
        require(client.is_hung_up(1), "it is not hung up")
    else:
        if request:
            client.ask(request)
        if wanted:
            client.gets(wanted)


def two_readers(program: str) -> None:
    """Two readers wait, and one write wakes both: whoever goes on first gets what was written first."""
    with Server(program, 3) as server:
        clients = [server.client() for _ in range(3)]
        clients[0].ask("join")
        clients[0].gets("0 0")
        for step, wanted in (("pipe", "1 0 1"), ("fork", "2 1"), ("fork", "3 2")):
            clients[0].ask(step)
            clients[0].gets(wanted)
        for number in (1, 2):
            clients[number].ask(f"attach {number}")
            clients[number].gets(f"{3 + number} ok")
        for number in (1, 2):
            clients[number].ask("read 0 2")
            clients[number].gets(f"{5 + number} parked 0")
        clients[0].ask("write 1 x616263")
        clients[0].gets("8 3")
        given = sorted(client.answer() for client in clients[1:])
        require(given == ["10 x63", "9 x6162"], f"given {given}")
        for client in clients:
            client.vanish()
        server.ended(report(3, 15, 3, 3))


def full_of_processes(program: str) -> None:
    """64 processes, of which 63 are never attached: a fork and a join are refused, and the closing ends them."""
    with Server(program, 2) as server:
        first, second = server.client(), server.client()
        first.ask("join")
        first.gets("0 0")
        for number in range(1, 64):
            first.ask("fork")
            first.gets(f"{number} {number}")
        first.ask("fork")
        first.gets("64 error EAGAIN")
        second.ask("join")
        second.gets("65 error EAGAIN")
        first.vanish()
        server.ended(report(2, 65 + 1 + 1 + 63 + 1))


def one_after_the_other(program: str) -> None:
    """Clients that come when the one before has gone share the names."""
    with Server(program, 4) as server:
        for number in range(4):
            client = server.client()
            client.ask("join")
            require(client.answer().endswith(f" {number}"), "not the next process")
            client.ask("open a w,creat,excl")
            require(client.answer().endswith(" error EEXIST" if number else " 0"), "not the names of the run")
            require(server.is_running(), "the server has ended")
            client.vanish()
        server.ended(report(4, 13))


def one_too_many(program: str) -> None:
    """A connection more than the run has sessions is never answered, and hung up at the end."""
    with Server(program, 1) as server:
        first, second = server.client(), server.client()
        second.ask("join")
        first.ask("join")
        first.gets("0 0")
        require(not second.has_answer(A_WHILE), "the second client is answered")
        first.vanish()
        server.ended(report(1, 3))
        require(second.is_hung_up(SECONDS), "the second client is not hung up")


def written_out(program: str) -> Iterator[Case]:
    """The conversations of which each answer is written here."""
    for size in (1, 3, 1_000):
        yield f"the worked example, in pieces of {size}", partial(worked, program, size)
    yield "the worked example, all at once", partial(worked_at_once, program)
    for what, records, text, totals in PLAYS:
        yield what, partial(play, program, records, text, totals)
    yield "two readers of one write", partial(two_readers, program)
    yield "64 processes", partial(full_of_processes, program)
    yield "one client after the other", partial(one_after_the_other, program)
    yield "a client too many", partial(one_too_many, program)


# ---- clients that vanish, and hostile ones

OPEN = call_frame("p0 open a w,creat")
TWO_REQUESTS = JOIN + OPEN


def vanishing(program: str, sent: int, how: str) -> None:
    """A client that sends the first bytes of a conversation and vanishes: whole requests and an exit are recorded."""
    whole = (sent >= len(JOIN)) + (sent == len(TWO_REQUESTS))
    with Server(program, 1) as server:
        client = server.client()
        if how == "byte by byte":
            for at in range(sent):
                client.send(TWO_REQUESTS[at : at + 1])
        else:
            client.send(TWO_REQUESTS[:sent])
        if how == "after it was answered":
            for place in range(whole):
                client.gets(f"{place} 0")
        elif how == "with an answer unread":
            require(not whole or client.has_answer(SECONDS), "no answer")
        elif how == "by a half":
            client.stop()
            client.receive(22 * whole)
            require(client.is_hung_up(SECONDS), "not hung up")
        client.vanish()
        server.ended(report(1, whole + bool(whole) + 1))


def stays(program: str, text: bytes, answers: Sequence[str], records: int) -> None:
    """A client that sends these bytes and stays: the server ends the session, and with it the run, by itself."""
    with Server(program, 1) as server:
        client = server.client()
        client.send(text)
        for answer in answers:
            client.gets(answer)
        server.ended(report(1, records))
        require(client.is_hung_up(SECONDS), "not hung up")


def leaves(program: str, text: bytes, answers: Sequence[str], records: int, bytes_in: int = 0) -> None:
    """A client that sends these bytes, is answered, stays for a while and leaves."""
    with Server(program, 1) as server:
        client = server.client()
        client.send(text)
        for answer in answers:
            client.gets(answer)
        require(not client.has_answer(A_WHILE), "one answer too many")
        require(server.is_running(), "the server has ended")
        client.vanish()
        server.ended(report(1, records, bytes_in))


def hung_up_beside_others(program: str, text: bytes, answers: Sequence[str]) -> None:
    """A client whose session is over is hung up at once, though another session goes on."""
    with Server(program, 2) as server:
        first, second = server.client(), server.client()
        second.ask("join")
        second.gets("0 0")
        first.send(text)
        for answer in answers:
            first.gets(answer)
        is_hung_up = first.is_hung_up(1)
        second.ask("fstat 0")
        second.answer()
        second.vanish()
        require(outcome_of(server.process).status == 0, "the status is not 0")
        require(is_hung_up, "it is not hung up while the other session goes on")


def one_bad_among_good(program: str) -> None:
    """Clients that send garbage or vanish do not disturb those beside them."""
    bad = [b"GET / HTTP/1.0\r\n\r\n", JOIN * 2, framed(b""), JOIN + b"\0\0", b"\xff" * 100_000, b""]
    bad.append(JOIN + framed(b"\x80"))
    with Server(program, len(bad) + 1) as server:
        good = server.client()
        good.ask("join")
        good.answer()
        for text in bad:
            client = server.client()
            with contextlib.suppress(ConnectionError):
                client.send(text)
            client.vanish()
            good.ask("fstat 0")
            require(good.answer().endswith(" error EBADF"), "the good client is disturbed")
        good.vanish()
        joined = 1 + sum(text.startswith(JOIN) for text in bad)
        server.ended(report(len(bad) + 1, 2 * joined + len(bad) + 1))


def flood(program: str, count: int, records: int, gone: Callable[[Client], object]) -> None:
    """A client that sends requests and reads nothing, until the server takes no more or all is sent, and vanishes."""
    each = call_frame("p0 fstat 0")
    with Server(program, 1, records) as server:
        client = server.client()
        client.ask("join")
        client.gets("0 0")
        client.ask("pipe")
        client.gets("1 0 1")
        client.socket.setblocking(False)
        left = each * count
        while left and select.select([], [client.socket], [], A_WHILE)[1]:
            left = left[client.socket.send(left[:65_536]) :]
        require(bool(left) == (count > 10_000), f"{len(left)} bytes were not taken")
        gone(client)
        status, stdout, stderr = outcome_of(server.process)
        given = re.fullmatch(rb"sessions 1 records (\d+) in 0 out 0 trace \1\n", stdout)
        if status != 0 or not given or stderr:
            raise Failure(f"status {status}, {stdout!r}, {stderr[:200]!r}")
        most = min(records, 2 + count + 2)
        if left:
            require(4 < int(given[1]) <= most, f"{int(given[1])} records, at most {most}")
        else:
            require(int(given[1]) == most, f"{int(given[1])} records, wanted {most}")


def flood_and_read(program: str, count: int) -> None:
    """A client that sends many requests while nobody reads the answers, and then reads them all."""
    each = call_frame("p0 fstat 0")
    with Server(program, 1, ALL_RECORDS) as server:
        client = server.client()
        client.send(JOIN + call_frame("p0 pipe"))
        sender = threading.Thread(target=lambda: client.send(each * count), daemon=True)
        sender.start()
        time.sleep(A_WHILE)
        client.gets("0 0")
        client.gets("1 0 1")
        wanted = framed(*(recorded(place, "pipe 0 0") for place in range(2, count + 2)))
        require(client.receive(len(wanted)) == wanted, "wrong answers")
        sender.join(SECONDS)
        client.stop()
        require(client.is_hung_up(SECONDS), "more answers than requests")
        server.ended(report(1, count + 4))


def hostile(program: str) -> Iterator[Case]:
    """Clients that vanish, that send what is no request, and that do not read."""
    for sent in range(len(TWO_REQUESTS) + 1):
        for how in ("at once", "byte by byte", "after it was answered", "with an answer unread", "by a half"):
            yield f"vanishing after {sent} bytes, {how}", partial(vanishing, program, sent, how)
    pick = random.Random("garbage")
    call = call_frame("p0 fstat 0")
    nothing: list[str] = []
    for what, text, answers, records in [
        ("a greeting of another kind", b"GET / HTTP/1.0\r\n\r\n", nothing, 1),
        ("garbage", b"\xff" + pick.randbytes(1_000), nothing, 1),
        ("garbage after a join", JOIN + b"\xff" + pick.randbytes(1_000), ["0 0"], 3),
        ("a frame that is too long", JOIN + u32(65_793), ["0 0"], 3),
        ("an empty frame", JOIN + u32(0), ["0 0"], 3),
        ("a request that is none", JOIN + framed(b"\xff"), ["0 0"], 3),
        ("a flag to set that is none", JOIN + framed(bytes.fromhex("210000000080")), ["0 0"], 3),
        ("a call before a join", call, nothing, 1),
        ("a second join", JOIN + call + JOIN, ["0 0", "1 error EBADF"], 4),
        ("a byte too many", JOIN + framed(call[4:] + b"\0"), ["0 0"], 3),
        ("an attach of nobody", attach_frame(0), ["0 error ESRCH"], 2),
    ]:
        yield what, partial(stays, program, text, answers, records)
    long_write, longest_write = call_frame("p0 write 0 61*65536"), call_frame("p0 write 0 61*65700")
    for what, text, answers, records, bytes_in in [
        ("nothing at all", b"", nothing, 1, 0),
        ("half a length", b"\0\0", nothing, 1, 0),
        ("half a frame", JOIN + longest_write[:30_000], ["0 0"], 3, 0),
        ("the longest frame, but for a byte", JOIN + (u32(65_792) + bytes(65_791)), ["0 0"], 3, 0),
        ("the longest write", TWO_REQUESTS + long_write, ["0 0", "1 0", "2 65536"], 5, 65_536),
        (
            "a write that is too long for a call",
            TWO_REQUESTS + longest_write,
            ["0 0", "1 0", "2 error EINVAL"],
            5,
            0,
        ),
    ]:
        yield what, partial(leaves, program, text, answers, records, bytes_in)
    for what, text, answers in [
        ("garbage", b"\xff" * 8, nothing),
        ("garbage after a join", JOIN + b"\xff" * 8, ["1 1"]),
        ("an attach of nobody", attach_frame(9), ["1 error ESRCH"]),
    ]:
        yield f"{what}, beside another session", partial(hung_up_beside_others, program, text, answers)
    yield "bad clients among good ones", partial(one_bad_among_good, program)
    ways: list[tuple[str, Callable[[Client], None]]] = [
        ("vanishes", Client.vanish),
        ("stops and vanishes", stops_and_vanishes),
    ]
    for what, gone in ways:
        yield f"a flood that {what}", partial(flood, program, 1_000_000, ALL_RECORDS, gone)
        yield f"a flood past the last record that {what}", partial(flood, program, 1_000_000, 100, gone)
    yield "a small flood that is never read", partial(flood, program, 500, ALL_RECORDS, stops_for_a_while)
    yield "a flood that is read late", partial(flood_and_read, program, 20_000)


def stops_and_vanishes(client: Client) -> None:
    """Sends nothing more, and hangs up."""
    client.stop()
    client.vanish()


def stops_for_a_while(client: Client) -> None:
    """Sends nothing more, and hangs up after a while."""
    client.stop()
    time.sleep(A_WHILE)
    client.vanish()


# ---- sessions at the same time


def in_turns(program: str, number: int) -> None:
    """Two clients that each send their second request only after the other got an answer."""
    with Server(program, 2) as server:
        clients = [server.client(), server.client()]
        if number % 2:
            clients.reverse()
        first, second = clients
        first.ask("join")
        first.gets("0 0")
        second.ask("join")
        second.gets("1 1")
        first.ask("pipe")
        if number % 4 < 2:
            first.gets("2 0 1")
            second.ask("fstat 0")
            second.gets("3 error EBADF")
        else:
            second.ask("fstat 0")
            given = sorted((first.answer(), second.answer()))
            require(given in (["2 0 1", "3 error EBADF"], ["2 error EBADF", "3 0 1"]), f"given {given}")
        first.vanish()
        second.vanish()
        server.ended(report(2, 7))


def at_the_same_time(program: str, runs: int) -> Iterator[Case]:
    """All runs of clients in turns, a few of them beside one another."""
    with concurrent.futures.ThreadPoolExecutor(4) as pool:
        tasks = [pool.submit(in_turns, program, number) for number in range(runs)]
        for number, task in enumerate(tasks):
            yield f"clients in turns, run {number}", task.result


# ---- command lines, and what the system refuses


def refused(program: str, words: Sequence[str], status: int, stderr: Callable[[bytes], None]) -> None:
    """A run that is over before anybody connects."""
    given = outcome_of(started([program, *words]))
    require(
        given[:2] == (status, b""),
        f"status {given.status}, wanted {status}; standard output {given.stdout[:200]!r}, wanted none",
    )
    stderr(given.stderr)


def names_fault(part: str) -> Callable[[bytes], None]:
    """A text of usage that names what is wrong, and how `serve` is used."""

    def check(text: bytes) -> None:
        require(part.encode() in text, f"standard error is {text!r}, wanted {part!r} in it")
        require(re.search(rb"(?m)^Usage: .*\bserve\b", text), f"standard error is {text!r}, wanted how serve is used")

    return check


def mistakes(program: str) -> Iterator[Case]:
    """Command lines that are refused."""
    with tempfile.TemporaryDirectory(prefix="fdref-") as folder:
        path = os.path.join(folder, "socket")
        right = {"--socket": path, "--trace": os.path.join(folder, "trace"), "--sessions": "1", "--records": "100"}
        for option in right:
            words = [word for pair in right.items() if pair[0] != option for word in pair]
            yield f"no {option}", partial(mistake, program, words, option, folder)
            words = [*(word for pair in right.items() for word in pair), option, right[option]]
            yield f"{option} twice", partial(mistake, program, words, option, folder)
        numbers = {
            "--sessions": ["0", "65", "", "x", "-1", "1.5", "18446744073709551617"],
            "--records": ["0", "1000001", "", "x", "-1"],
        }
        for option, values in numbers.items():
            for value in values:
                words = [f"{name}={value if name == option else given}" for name, given in right.items()]
                yield f"{option}={value}", partial(mistake, program, words, f"'{option} <N>'", folder)
        words = [word for pair in right.items() for word in pair]
        yield "a surplus word", partial(mistake, program, [*words, "more"], "more", folder)
        yield "an unknown option", partial(mistake, program, [*words, "--port", "7"], "--port", folder)


def mistake(program: str, words: Sequence[str], part: str, folder: str) -> None:
    """A command line that is refused with a text that names a part of it."""
    refused(program, ["serve", *words], 2, names_fault(part))
    require(not os.listdir(folder), "something was made")


# What is said of a path at which something is: perhaps a socket that a server has left.
TAKEN = "something is there already, be it the file of --trace; "
TAKEN += "a socket at which no server listens any more may be removed: "
TAKEN += f"{os.strerror(errno.EADDRINUSE)} (os error {errno.EADDRINUSE})"


def is_taken(program: str, path: str) -> None:
    """A path at which something is already."""
    cannot_listen(program, path, re.escape(TAKEN.encode()))


def cannot_listen(program: str, path: str, cause: bytes = SAID) -> None:
    """A path at which no socket can be made. The trace is made before, and what it held is gone."""
    with tempfile.NamedTemporaryFile(prefix="fdref-") as trace:
        trace.write(b"mine")
        trace.flush()
        words = serve_words(program, path, 1, 9, trace.name)
        cause = cause if path else b"an empty path"
        refused(program, words[1:], 4, lambda text: names_cause(text, b"cannot listen\n", path, cause))
        require(os.path.getsize(trace.name) == 0, "the trace is not empty")


def at_a_file(program: str) -> None:
    """A file that is there is left as it is."""
    with tempfile.NamedTemporaryFile(prefix="fdref-") as file:
        file.write(b"mine")
        file.flush()
        is_taken(program, file.name)
        with open(file.name, "rb") as again:
            require(again.read() == b"mine", "the file has changed")


def at_a_dangling_link(program: str, folder: str) -> None:
    """A link that leads nowhere is left as it is."""
    path = os.path.join(folder, "link")
    os.symlink(os.path.join(folder, "nowhere"), path)
    is_taken(program, path)
    require(os.listdir(folder) == ["link"], "something was made")


def at_a_server(program: str) -> None:
    """Where a server listens already, and where it has listened; the first server is not disturbed."""
    with Server(program, 1) as server:
        client = server.client()
        is_taken(program, server.path)
        client.ask("join")
        client.gets("0 0")
        client.vanish()
        server.ended(report(1, 3))
        is_taken(program, server.path)


def at_a_killed_server(program: str) -> None:
    """A killed server leaves its socket, which the next one leaves, too. Once it is removed that one serves."""
    with Server(program, 1) as server:
        server.client()
        server.process.kill()
        server.process.wait()
        is_taken(program, server.path)
        require(stat.S_ISSOCK(os.stat(server.path).st_mode), "the socket is gone")
        os.remove(server.path)
        process = started(serve_words(program, server.path, 1, 9, server.trace))
        Client(server.path, process).vanish()
        same((0, report(1, 1), b""), outcome_of(process))


def at_a_long_path(program: str, length: int, is_fit: bool) -> None:
    """A path of just so many bytes."""
    with tempfile.TemporaryDirectory(prefix="fdref-") as folder:
        path = os.path.join(folder, "").ljust(length, "s")
        if not is_fit:
            cannot_listen(program, path)
            require(not os.listdir(folder), "something was made")
            return
        process = started(serve_words(program, path, 1, 9, os.path.join(folder, "trace")))
        client = Client(path, process)
        client.vanish()
        require(outcome_of(process) == (0, report(1, 1), b""), "a path that fits is refused")


def few_descriptors(program: str, more: int, served: int) -> None:
    """The process may open so few files that it cannot take every connection: it serves those that it took."""
    with Server(program, 5) as server:
        clients = [server.client()]
        clients[0].ask("join")
        clients[0].gets("0 0")
        highest = max(int(fd) for fd in os.listdir(f"/proc/{server.process.pid}/fd"))
        resource.prlimit(server.process.pid, resource.RLIMIT_NOFILE, (highest + 1 + more,) * 2)
        for number in range(1, 3):
            clients.append(server.client())
            if number < served:
                clients[number].ask("join")
                clients[number].gets(f"{number} {number}")
        # with an odd number the connection itself is taken, though not its second descriptor
        require(
            more % 2 == 0 or clients[served].is_hung_up(SECONDS), "a connection that could not be served is not hung up"
        )
        clients[0].ask("pipe")
        clients[0].gets(f"{served} 0 1")
        for client in clients:
            client.vanish()
        server.ended(report(served, 2 * served + 2), 4, unaccepted(server.path))


def output_is_full(program: str) -> None:
    """An output that takes nothing."""
    with open("/dev/full", "wb", buffering=0) as full, Server(program, 1, stdout=full) as server:
        client = server.client()
        client.ask("join")
        client.gets("0 0")
        client.vanish()
        server.ended(b"", 4, b"cannot write\n")


def output_is_closed(program: str) -> None:
    """An output that nobody reads."""
    reading, writing = os.pipe()
    os.close(reading)
    with os.fdopen(writing, "wb", buffering=0) as closed, Server(program, 1, stdout=closed) as server:
        server.client().vanish()
        server.ended(b"", 4, b"cannot write\n")


# Refuses threads, from the REFUSE_FIRSTth that is started to the REFUSE_LASTth. It is built as the library that refuses
# allocations, without headers.
FEW_THREADS = r"""
extern void *dlsym(void *, const char *);
extern char *getenv(const char *);
extern unsigned long strtoul(const char *, char **, int);
static unsigned long started;
int pthread_create(void *thread, const void *how, void *(*run)(void *), void *with) {
    int (*create)(void *, const void *, void *(*)(void *), void *) = dlsym((void *)-1L, "pthread_create");
    ++started;
    if (started >= strtoul(getenv("REFUSE_FIRST"), 0, 10) && started <= strtoul(getenv("REFUSE_LAST"), 0, 10))
        return 11;
    return create(thread, how, run, with);
}
"""


def joined(server: Server) -> Client | None:
    """A client that has joined; None where it is hung up in place of an answer, or the server has ended."""
    try:
        client = server.client()
        client.ask("join")
        client.answer()
    except (Failure, OSError):
        return None
    return client


def refusing_threads(folder: str, first: int, last: int) -> dict[str, str]:
    """The environment of a program to which the threads from `first` to `last` are refused, counted from 1."""
    library = build(folder, FEW_THREADS)
    return {**os.environ, "LD_PRELOAD": library, "REFUSE_FIRST": str(first), "REFUSE_LAST": str(last)}


def ask_once(client: Client) -> None:
    """Asks about a descriptor, and goes away."""
    client.ask("fstat 0")
    client.answer()
    client.vanish()


def few_threads(program: str, number: int) -> None:
    """Thread N cannot be started, nor any later one: the sessions before are served to their end, and that is told."""
    with tempfile.TemporaryDirectory(prefix="fdref-") as folder:
        with Server(program, 5, env=refusing_threads(folder, number, 1_000)) as server:
            clients = []
            while client := joined(server):
                clients.append(client)
            # one thread writes the trace, and a session has two
            require(len(clients) == max(number - 2, 0) // 2, f"{len(clients)} sessions are served")
            if number > 1 and number % 2:
                # it was the thread that reads; the next session has no thread at all
                require(joined(server) is None, "a session without threads is served")
            for client in clients:
                ask_once(client)
            server.ended(b"", 5, b"no thread\n")


def no_reader(program: str, number: int) -> None:
    """The thread that reads of session N alone cannot be started: the others are served, and the line is written."""
    sessions, thread = 3, 2 * number + 1
    with tempfile.TemporaryDirectory(prefix="fdref-") as folder:
        with Server(program, sessions, env=refusing_threads(folder, thread, thread)) as server:
            clients = [joined(server) for _ in range(sessions)]
            same([number], [at for at, client in enumerate(clients, 1) if client is None])
            for client in clients:
                if client is not None:
                    ask_once(client)
            # a join, a call and an exit of two sessions, and the closing
            server.ended(report(sessions, 7, 0, 0), 5, b"no thread\n")


def system_cases(program: str) -> Iterator[Case]:
    """Command lines, and what the system refuses."""
    yield from mistakes(program)
    yield "a file at the path", partial(at_a_file, program)
    yield "a server at the path", partial(at_a_server, program)
    yield "the socket of a killed server at the path", partial(at_a_killed_server, program)
    with tempfile.TemporaryDirectory(prefix="fdref-") as folder:
        yield "a folder at the path", partial(is_taken, program, folder)
        yield "a folder that is not there", partial(cannot_listen, program, os.path.join(folder, "no", "socket"))
        yield "a file for a folder", partial(cannot_listen, program, os.path.join(program, "socket"))
        yield "a link to nowhere at the path", partial(at_a_dangling_link, program, folder)
    yield "the empty path", partial(cannot_listen, program, "")
    yield "the longest path", partial(at_a_long_path, program, PATH_MOST, True)
    yield "a path of a byte too many", partial(at_a_long_path, program, PATH_MOST + 1, False)
    yield "a path that is far too long", partial(at_a_long_path, program, 250, False)
    # a connection takes two, and the next one is there already while the server waits
    for more, served in ((0, 1), (1, 1), (2, 2), (3, 2)):
        yield f"{more} descriptors more", partial(few_descriptors, program, more, served)
    yield "a full device as output", partial(output_is_full, program)
    yield "nobody reads the output", partial(output_is_closed, program)
    for number in (1, 2, 3, 4, 7):
        yield f"no thread {number}", partial(few_threads, program, number)
    for number in (1, 2, 3):
        yield f"no thread that reads of session {number}", partial(no_reader, program, number)


# ---- the whole


def main(words: Sequence[str]) -> int:
    """Makes all checks: the exit status."""
    numbers = [
        count_option("--runs", 200, "runs of two clients in turns"),
        count_option("--crowds", 3, "runs of 64 clients"),
        count_option("--calls", 40, "random calls of each of the 64 clients"),
    ]
    args = asked(words, "Plays clients of the built server over real sockets.", PROGRAM, SEED, *numbers, ONLY)
    program = args.program
    parts = [
        ("conversations that are written out", written_out(program)),
        ("clients that vanish and hostile ones", hostile(program)),
        ("the client in Python", python_client.cases(program)),
        ("children and signals of the client in Python", python_children.cases(program)),
        ("command lines and the system", system_cases(program)),
        ("two clients in turns", at_the_same_time(program, args.runs)),
        ("64 clients", crowds.cases(program, args.seed, args.crowds, args.calls)),
    ]
    return Count(TELL_MOST).parts(parts, args.only)


if __name__ == "__main__":
    sys.exit(main(sys.argv[1:]))
