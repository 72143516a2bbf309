#!/usr/bin/env python3
"""What becomes of clients that go away, run ahead or are hung up on, and of those beside them? (half a minute)

usage: tests/lost.py [--program PATH] [--seed WORD] [--runs N] [--crowds N] [--only WORD]

The program is crates/fdref/out/fdref where no PATH is given. It serves clients

  - that go away while their process waits: they vanish, stop sending, end within a frame, send what is no request, or
    run ahead. The exit must be recorded before anything else takes place, and who waits for it must go on,
  - that send many requests at once and read late, or stop sending and read on: all are answered, in order,
  - that read nothing, while others are answered,
  - that send as many requests behind a call that waits as there is room for, or one more,
  - whose call is ready when they stop: it must go on before the exit,
  - whose opening is refused, that send what is out of place, or that read no more: they are hung up on at once,
  - that are 64 at once, of which half go away anywhere in their bytes, in N runs (4 where no number is given, and a
    tenth of `--runs` where that is more). Run K of a seed makes the same choices each time, but the server may order
    the calls otherwise.

What threads may do in several orders is repeated N times (10, or as `--runs` says; 200 is much). The trace must have
what is written here, to the last record, and `fdref audit` must find it legal.

A failure is told in one line. The last line is `N passed, M failed`, and the exit status is 1 where M is above 0.
"""

import contextlib
import socket
import sys
import time
from collections.abc import Callable, Iterable, Iterator, Sequence
from functools import partial

from parts import lost_crowds
from support.auditing import legal
from support.counting import Case, Count, Failure, require, same
from support.frames import framed, request_frame, session_frames
from support.options import ONLY, PROGRAM, SEED, Option, asked, count_option
from support.plain_model import data_text, read_data
from support.players import Player, are_told, traced, until_traced
from support.running import run
from support.serving import A_WHILE, ALL_RECORDS, Server, report

TELL_MOST = 10

# How many requests there is room for behind a call that waits.
ROOM = 16
LARGEST = 65_536
# A client that must be hung up on at once waits for that as long as this.
AT_ONCE = 3
A_MOMENT = 0.02


# ---- how a client goes away


def vanishes(player: Player) -> None:
    """Closes the connection."""
    player.client.vanish()


def stops(player: Player) -> None:
    """Sends nothing more, and is hung up on."""
    player.client.stop()
    player.is_hung_up_on()


def vanishes_in_a_frame(player: Player) -> None:
    """Sends a part of a frame, and closes the connection."""
    player.client.send(request_frame("fstat 0")[:7])
    player.client.vanish()


def stops_in_a_frame(player: Player) -> None:
    """Sends a part of a frame and nothing more, and is hung up on."""
    player.client.send(request_frame("fstat 0")[:3])
    stops(player)


def sends_garbage(player: Player) -> None:
    """Sends what is no request, and stays; it is hung up on."""
    player.client.send(framed(b"\xff"))
    player.is_hung_up_on()


def runs_ahead(player: Player) -> None:
    """Sends more requests than there is room for, and stays; it is hung up on."""
    player.client.send(request_frame("fstat 0") * (ROOM + 1))
    player.is_hung_up_on()


MANNERS: list[Callable[[Player], None]] = [
    vanishes,
    stops,
    vanishes_in_a_frame,
    stops_in_a_frame,
    sends_garbage,
    runs_ahead,
]


# ---- plays

# What it is, how many records the run may have, its lines, and the bytes in and out. In a play a step is a client and
# its request and, after a bar, the answer that it gets: the place and the outcome. A client without a request gets one
# more answer, and one with `&` between them sends several requests at once. `goes` is to go away: the record at this
# place must be its exit, and nothing is asked before that stands in the trace. `waits` is to get no answer. At the end
# the clients that are left go one after another.
PLAYS = [
    (
        "the last writer goes while it waits itself",
        100,
        """a join | 0 0; a pipe | 1 0 1; a fork | 2 1; a read 0 5 | 3 parked 0; b attach 1 | 4 ok; b close 1 | 5 ok
        b read 0 1 | 6 parked 0; a goes | 7; b | 8 x""",
        (0, 0),
    ),
    (
        "a read",
        100,
        """a join | 0 0; a pipe | 1 0 1; a fork | 2 1; b attach 1 | 3 ok; a read 0 5 | 4 parked 0; a waits; a goes | 5
        b fstat 0 | 6 pipe 0 0; b close 0 | 7 ok; b write 1 x61 | 8 error EPIPE""",
        (0, 0),
    ),
    (
        "a read with requests behind it",
        100,
        """a join | 0 0; a pipe | 1 0 1; a fork | 2 1; b attach 1 | 3 ok
        a read 0 5 & write 1 x61 & close 0 | 4 parked 0; a goes | 5; b write 1 x6263 | 6 2; b read 0 9 | 7 x6263""",
        (2, 2),
    ),
    (
        "a short write",
        100,
        """a join | 0 0; a pipe | 1 0 1; a fork | 2 1; b attach 1 | 3 ok; b close 1 | 4 ok; a write 1 61*1024 | 5 1024
        a write 1 62*512 | 6 parked 0; a waits; a goes | 7; b read 0 65536 | 8 61*1024; b read 0 1 | 9 x""",
        (1024, 1024),
    ),
    (
        "a long write",
        100,
        """a join | 0 0; a pipe | 1 0 1; a fork | 2 1; b attach 1 | 3 ok; b close 1 | 4 ok
        a write 1 61*2000 | 5 parked 1024; a waits; a goes | 6; b read 0 65536 | 7 61*1024; b read 0 1 | 8 x""",
        (1024, 1024),
    ),
    (
        "a long write that has gone on",
        100,
        """a join | 0 0; a pipe | 1 0 1; a fork | 2 1; b attach 1 | 3 ok; b close 1 | 4 ok
        a write 1 61*2000 | 5 parked 1024; b read 0 500 | 6 61*500; a | 7 part 1524; a goes | 8
        b read 0 65536 | 9 61*1024; b read 0 1 | 10 x""",
        (1524, 1524),
    ),
    (
        "an open of a FIFO for reading",
        100,
        """a join | 0 0; b join | 1 1; a mkfifo f | 2 ok; a open f r | 3 parked 0; a waits; a goes | 4
        b open f w,nonblock | 5 error ENXIO; b open f w | 6 parked 0; b waits; b goes | 7""",
        (0, 0),
    ),
    (
        "an open of a FIFO for writing",
        100,
        """a join | 0 0; b join | 1 1; a mkfifo f | 2 ok; a open f w | 3 parked 0; a waits; a goes | 4
        b open f r,nonblock | 5 0; b read 0 5 | 6 x; b open f r | 7 parked 0; b goes | 8""",
        (0, 0),
    ),
    (
        "an open that another one does not meet then",
        100,
        """a join | 0 0; b join | 1 1; c join | 2 2; a mkfifo f | 3 ok; a open f r | 4 parked 0; a goes | 5
        b open f w | 6 parked 0; b waits; c open f r | 7 0; b | 8 0; b write 0 x6869 | 9 2; c read 0 5 | 10 x6869""",
        (2, 2),
    ),
    (
        "the last writer goes in another call",
        100,
        """a join | 0 0; a pipe | 1 0 1; a fork | 2 1; b attach 1 | 3 ok; b close 1 | 4 ok; a mkfifo f | 5 ok
        b read 0 5 | 6 parked 0; a open f r | 7 parked 0; b waits; a goes | 8; b | 9 x; b read 0 5 | 10 x""",
        (0, 0),
    ),
    (
        "the reader of a short write goes in another call",
        100,
        """a join | 0 0; a pipe | 1 0 1; a fork | 2 1; b attach 1 | 3 ok; b close 0 | 4 ok; a mkfifo f | 5 ok
        b write 1 61*1024 | 6 1024; b write 1 x62 | 7 parked 0; a open f w | 8 parked 0; b waits; a goes | 9
        b | 10 error EPIPE; b write 1 x62 | 11 error EPIPE""",
        (1024, 0),
    ),
    (
        "the reader of a long write goes in another call",
        100,
        """a join | 0 0; a pipe | 1 0 1; a fork | 2 1; b attach 1 | 3 ok; b close 0 | 4 ok; a mkfifo f | 5 ok
        b write 1 61*2000 | 6 parked 1024; a open f w | 7 parked 0; b waits; a goes | 8; b | 9 1024
        b write 1 x62 | 10 error EPIPE""",
        (1024, 0),
    ),
    (
        "the writer of a FIFO goes in an open of another",
        100,
        """a join | 0 0; b join | 1 1; a mkfifo f | 2 ok; a mkfifo g | 3 ok; b open f r | 4 parked 0; a open f w | 5 0
        b | 6 0; b read 0 5 | 7 parked 0; a open g r | 8 parked 0; b waits; a goes | 9; b | 10 x""",
        (0, 0),
    ),
    (
        "two of three that wait",
        100,
        """a join | 0 0; a pipe | 1 0 1; a fork | 2 1; a fork | 3 2; b attach 1 | 4 ok; c attach 2 | 5 ok
        a read 0 5 | 6 parked 0; b read 0 5 | 7 parked 0; a goes | 8; c fstat 0 | 9 pipe 0 0; b waits; b goes | 10
        c write 1 x6869 | 11 2; c read 0 5 | 12 x6869""",
        (2, 2),
    ),
    (
        "all that there are, who wait for one another",
        100,
        """a join | 0 0; a pipe | 1 0 1; a fork | 2 1; b attach 1 | 3 ok; a read 0 5 | 4 parked 0
        b read 0 5 | 5 parked 0; a waits; b goes | 6; a waits; a goes | 7""",
        (0, 0),
    ),
    (
        "each wakes the next",
        100,
        """a join | 0 0; a pipe | 1 0 1; a fork | 2 1; a fork | 3 2; a close 0 | 4 ok; b attach 1 | 5 ok
        c attach 2 | 6 ok; b close 1 | 7 ok; c close 1 | 8 ok; b read 0 1 | 9 parked 0; b waits; a mkfifo f | 10 ok
        a open f r | 11 parked 0; a goes | 12; b | 13 x; c read 0 1 | 14 x; b open f w | 15 parked 0; b goes | 16
        c open f w,nonblock | 17 error ENXIO""",
        (0, 0),
    ),
    (
        "the last record but those of the exits",
        8,
        """a join | 0 0; a pipe | 1 0 1; a fork | 2 1; b attach 1 | 3 ok; a read 0 5 | 4 parked 0
        b fstat 0 | - refused RunFull; a waits; a goes | 5; b fstat 0 | - refused RunFull""",
        (0, 0),
    ),
]


def play(program: str, records: int, text: str, moved: tuple[int, int], goes: Callable[[Player], None]) -> None:
    """A play in which clients go away in this manner: who gets which answer, and what the trace has at each place."""
    steps = [step.strip() for line in text.split("\n") for step in line.split(";")]
    names = list(dict.fromkeys(step.split(" ")[0] for step in steps))
    with Server(program, len(names), records) as server:
        players = {name: Player(server.client()) for name in names}
        told: dict[int, str] = {}
        for step in steps:
            request, _, wanted = (part.strip() for part in step.partition("|"))
            name, _, request = request.partition(" ")
            try:
                if request == "goes":
                    leaves(server, players.pop(name), int(wanted), told, goes)
                else:
                    take_step(players[name], request, wanted)
            except (Failure, OSError) as failure:
                raise Failure(f"{step}: {failure}") from None
        all_leave(server, players.values(), told)
        is_right(program, server, len(names), told, moved)


def take_step(player: Player, request: str, wanted: str) -> None:
    """One step of a play, but for a leave."""
    if request == "waits":
        require(not player.client.has_answer(A_MOMENT), "it does not wait")
        return
    if request:
        player.ask(*request.split(" & "))
    player.gets(wanted)


def leaves(
    server: Server, player: Player, place: int, told: dict[int, str], goes: Callable[[Player], None] = vanishes
) -> None:
    """A client goes away, and the record at a place is its exit, before anything else is asked."""
    goes(player)
    told.update(player.told)
    told[place] = f"p{player.number} exit = ok"
    line = until_traced(server, place + 1)[place]
    same(f"{place} {told[place]}", line)


def all_leave(server: Server, players: Iterable[Player], told: dict[int, str]) -> None:
    """The clients that are left go, one after another, and so the run is closed."""
    left = list(players)
    for player in left:
        told.update(player.told)
    for player in left:
        leaves(server, player, len(told), told)


def is_right(
    program: str, server: Server, sessions: int, told: dict[int, str], moved: tuple[int, int] = (0, 0)
) -> None:
    """The server ends by itself. Its trace has what was told, and the closing behind it; by the program it is legal."""
    server.ended(report(sessions, len(told) + 1, *moved))
    lines = traced(server)
    are_told(lines, told)
    same(f"{len(told)} house close-run = ok", lines[-1])
    same(legal(len(lines)), run([program, "audit", server.trace]))


def going(program: str) -> Iterator[Case]:
    """Clients that go away while they wait, in each manner."""
    for what, *row in PLAYS:
        for goes in MANNERS:
            yield f"{what}: who waits {manner(goes)}", partial(play, program, *row, goes)
    for behind in (0, 5):
        yield f"a read with its answer unread, and {behind} requests", partial(unread, program, behind)
    yield "64 that wait for one another, and go one after another", partial(all_wait, program, False)
    yield "64 that wait for one another, and go at once", partial(all_wait, program, True)


def manner(goes: Callable[[Player], None]) -> str:
    """The name of a manner."""
    return goes.__name__.replace("_", " ")


def all_wait(program: str, at_once: bool) -> None:
    """64 processes wait in reads of a pipe of which each has a writing end: when all have gone, the run is over."""
    count = 64
    with Server(program, count, 1_000) as server:
        players = [Player(server.client()) for _ in range(count)]
        parent, *children = players
        parent.ask("join", "pipe", *["fork"] * len(children))
        parent.gets("0 0", "1 0 1", *(f"{1 + number} {number}" for number in range(1, count)))
        for number, child in enumerate(children, 1):
            child.ask(f"attach {number}", "read 0 5")
            child.gets(f"{count + 2 * number - 1} ok", f"{count + 2 * number} parked 0")
        parent.ask("read 0 5")
        parent.gets(f"{3 * count - 1} parked 0")
        told: dict[int, str] = {}
        if not at_once:
            all_leave(server, reversed(players), told)
            return is_right(program, server, count, told)
        for player in players:
            told.update(player.told)
            player.client.vanish()
        exits = [line.partition(" ")[2] for line in until_traced(server, 4 * count)[3 * count : 4 * count]]
        same(sorted(f"p{number} exit = ok" for number in range(count)), sorted(exits))
        told.update(enumerate(exits, 3 * count))
        is_right(program, server, count, told)


def unread(program: str, behind: int) -> None:
    """A client vanishes that has read no answer since its process waits."""
    with Server(program, 2, 100) as server:
        first, second = Player(server.client()), Player(server.client())
        first.client.send(session_frames(["p0 pipe", "p0 fork", "p0 read 0 5", *["p0 fstat 0"] * behind]))
        until_traced(server, 4)
        first.client.vanish()
        told = {0: "p0 join = 0", 1: "p0 pipe = 0 1", 2: "p0 fork = 1", 3: "p0 read 0 5 = parked 0", 4: "p0 exit = ok"}
        same(f"4 {told[4]}", until_traced(server, 5)[4])
        second.ask("attach 1", "close 1", "read 0 5")
        second.gets("5 ok", "6 ok", "7 x")
        all_leave(server, [second], told)
        is_right(program, server, 2, told)


# ---- many requests at once


def seeks(count: int, name: str = "a") -> list[str]:
    """The requests of a session that opens a file and moves its offset so often."""
    return ["join", f"open {name} rw,creat", *["lseek 0 1 cur"] * count]


def at_once(program: str, count: int, how: str) -> None:
    """A client sends many requests at once: all are answered, in order, and recorded before it reads."""
    with Server(program, 1, ALL_RECORDS) as server:
        player = Player(server.client())
        player.ask(*seeks(count), piece=1_001 if how == "in pieces" else 2**30)
        if how == "stops in a frame":
            player.client.send(request_frame("fstat 0")[:-1])
        if how in ("stops", "stops in a frame"):
            player.client.stop()
        until_traced(server, count + 2)
        if how == "late":
            time.sleep(A_WHILE)
        player.gets("0 0", "1 0", *(f"{place} {place - 1}" for place in range(2, count + 2)))
        if how in ("late", "in pieces"):
            require(not player.client.has_answer(A_MOMENT), "it is sent more than the answers")
            player.client.stop()
        player.is_hung_up_on()
        is_right(program, server, 1, {**player.told, count + 2: "p0 exit = ok"})


def several_at_once(program: str, clients: int, count: int) -> None:
    """Several clients that send many requests at once, and read only then, each what it asked for in order."""
    with Server(program, clients, ALL_RECORDS) as server:
        players = [Player(server.client()) for _ in range(clients)]
        for number, player in enumerate(players):
            player.ask(*seeks(count, f"a{number}"))
        until_traced(server, clients * (count + 2))
        told: dict[int, str] = {}
        for player in players:
            outcomes = [player.hear().split(" ")[1] for _ in range(count + 2)]
            same([str(player.number), "0", *map(str, range(1, count + 1))], outcomes)
            told.update(player.told)
        same(clients * (count + 2), len(told))
        all_leave(server, players, told)
        is_right(program, server, clients, told)


def many(program: str, runs: int) -> Iterator[Case]:
    """Clients that send many requests at once."""
    for count in (1, ROOM - 2, ROOM - 1, ROOM, 2 * ROOM, 100, 1_000):
        for how in ("late", "stops", "stops in a frame", "in pieces"):
            yield f"{count} requests at once, {how}", partial(at_once, program, count, how)
    for number in range(runs):
        yield f"1000 requests at once, run {number}", partial(at_once, program, 1_000, "stops")
        yield f"4 clients with 200 requests at once, run {number}", partial(several_at_once, program, 4, 200)


# ---- a client that reads nothing

# So many answers of the greatest length are more than a socket holds.
UNREAD = 60
# How much is asked meanwhile.
ASKED = 3


def until_it_rests(server: Server) -> None:
    """Waits until no more records are traced for a while."""
    before, count = -1, len(traced(server))
    while count > before:
        time.sleep(A_WHILE)
        before, count = count, len(traced(server))


def holds_up_nobody(program: str) -> None:
    """A client reads none of its answers, so the server waits in a write to it; meanwhile another one is answered."""
    with Server(program, 2, 100) as server:
        first, second = Player(server.client()), Player(server.client())
        first.ask("join", "open a rw,creat", f"pwrite 0 0 61*{LARGEST}")
        first.gets("0 0", "1 0", f"2 {LARGEST}")
        second.ask("join")
        second.gets("3 1")
        first.ask(*[f"pread 0 0 {LARGEST}"] * UNREAD)
        until_it_rests(server)
        second.ask(*["fstat 0"] * ASKED)
        for _ in range(ASKED):
            same("error EBADF", second.hear().partition(" ")[2])
        count = len(traced(server))
        require(count < 4 + ASKED + UNREAD, f"{count} records: the server did not wait in a write")
        for _ in range(UNREAD):
            same(f"61*{LARGEST}", first.hear().split(" ")[1])
        told: dict[int, str] = {}
        all_leave(server, [first, second], told)
        is_right(program, server, 2, told, (LARGEST, UNREAD * LARGEST))


def unread_answers(program: str) -> Iterator[Case]:
    """A client that reads nothing."""
    yield "it holds up nobody", partial(holds_up_nobody, program)


# ---- requests behind a call that waits

BEFORE = ["join", "pipe", "fork", "read 0 5"]
BEFORE_TOLD = ["0 0", "1 0 1", "2 1", "3 parked 0"]


def waiting(server: Server, behind: Sequence[str], how: str) -> Player:
    """A client whose process waits in a read, and that has sent these requests behind it."""
    player = Player(server.client())
    if how == "all at once":
        player.ask(*BEFORE, *behind)
        player.gets(*BEFORE_TOLD)
        return player
    player.ask(*BEFORE)
    player.gets(*BEFORE_TOLD)
    for request in [behind] if how == "at once" else [[it] for it in behind]:
        # it may be hung up on before it has sent the last one
        with contextlib.suppress(ConnectionError):
            player.ask(*request)
    return player


def has_room(program: str, count: int, how: str) -> None:
    """Requests behind a call that waits, for which there is room: all are answered once it goes on."""
    with Server(program, 2, 1_000) as server:
        first, second = waiting(server, ["fstat 0"] * count, how), Player(server.client())
        second.ask("attach 1")
        second.gets("4 ok")
        require(not first.client.has_answer(A_MOMENT), "it does not wait")
        second.ask("fstat 0")
        second.gets("5 pipe 0 0")
        second.ask("write 1 x6869")
        second.gets("6 2")
        first.gets("7 x6869", *(f"{place} pipe 0 0" for place in range(8, 8 + count)))
        # and there is room again
        first.ask("read 0 5", *["fstat 1"] * count)
        first.gets(f"{8 + count} parked 0")
        require(not first.client.has_answer(A_MOMENT), "it does not wait")
        second.ask("write 1 x21")
        second.gets(f"{9 + count} 1")
        first.gets(f"{10 + count} x21", *(f"{place} pipe 0 0" for place in range(11 + count, 11 + 2 * count)))
        told: dict[int, str] = {}
        all_leave(server, [first, second], told)
        is_right(program, server, 2, told, (3, 3))


def has_no_room(program: str, count: int, how: str) -> None:
    """More requests than there is room for: the call is given up, and nothing behind it is answered or recorded."""
    with Server(program, 2, 1_000) as server:
        first = waiting(server, ["fstat 0"] * count, how)
        first.is_hung_up_on()
        told = {**first.told, 4: "p0 exit = ok"}
        same("4 p0 exit = ok", until_traced(server, 5)[4])
        second = Player(server.client())
        second.ask("attach 1", "close 1", "read 0 5")
        second.gets("5 ok", "6 ok", "7 x")
        all_leave(server, [second], told)
        is_right(program, server, 2, told)


def large_ones(program: str, count: int) -> None:
    """The largest requests behind a call that waits: all are answered once it goes on, or it is given up."""
    with Server(program, 2, 1_000) as server:
        first, second = Player(server.client()), Player(server.client())
        first.ask("join", "pipe", "fork", "open a rw,creat", "read 0 5")
        first.gets("0 0", "1 0 1", "2 1", "3 2", "4 parked 0")
        # it may be hung up on before it has sent the last one
        with contextlib.suppress(ConnectionError):
            first.ask(*[f"pwrite 2 0 61*{LARGEST}"] * count)
        told: dict[int, str] = {}
        if count > ROOM:
            first.is_hung_up_on()
            until_traced(server, 6)
            told.update({**first.told, 5: "p0 exit = ok"})
            second.ask("attach 1", "write 1 x6869")
            second.gets("6 ok", "7 2")
            all_leave(server, [second], told)
            return is_right(program, server, 2, told, (2, 0))
        second.ask("attach 1", "write 1 x6869")
        second.gets("5 ok", "6 2")
        first.gets("7 x6869", *(f"{place} {LARGEST}" for place in range(8, 8 + count)))
        all_leave(server, [first, second], told)
        is_right(program, server, 2, told, (2 + count * LARGEST, 2))


def alone_ahead(program: str, count: int) -> None:
    """A single client that runs ahead: the server ends by itself, though the client stays."""
    with Server(program, 1, 1_000) as server:
        first = Player(server.client())
        first.ask("join", "pipe", "read 0 5", *["fstat 0"] * count)
        first.gets("0 0", "1 0 1", "2 parked 0")
        told = {**first.told, 3: "p0 exit = ok"}
        is_right(program, server, 1, told)
        first.is_hung_up_on()


def last_byte_too_many(program: str) -> None:
    """A request is one too many once its last byte is there."""
    one_more = request_frame("fstat 0")
    with Server(program, 2, 1_000) as server:
        first = waiting(server, ["fstat 0"] * ROOM, "at once")
        first.client.send(one_more[:-1])
        require(not first.client.has_answer(A_WHILE), "it is hung up on before the last byte")
        same(4, len(traced(server)))
        first.client.send(one_more[-1:])
        first.is_hung_up_on()
        told = {**first.told, 4: "p0 exit = ok"}
        second = Player(server.client())
        second.ask("attach 1")
        second.gets("5 ok")
        all_leave(server, [second], told)
        is_right(program, server, 2, told)


def goes_on_and_on(program: str, count: int) -> None:
    """A call with requests behind it goes on, and at once its client sends many more: all are answered."""
    with Server(program, 2, ALL_RECORDS) as server:
        first, second = waiting(server, ["fstat 0"] * ROOM, "at once"), Player(server.client())
        second.ask("attach 1")
        second.gets("4 ok")
        second.ask("write 1 x6869")
        first.gets("6 x6869")
        first.ask(*["fstat 1"] * count)
        first.gets(*(f"{place} pipe 0 0" for place in range(7, 7 + ROOM + count)))
        second.gets("5 2")
        told: dict[int, str] = {}
        all_leave(server, [first, second], told)
        is_right(program, server, 2, told, (2, 2))


def behind_a_call(program: str, runs: int) -> Iterator[Case]:
    """Requests behind a call that waits."""
    for how in ("one by one", "at once", "all at once"):
        for count in (1, ROOM - 1, ROOM):
            yield f"{count} behind a call, {how}", partial(has_room, program, count, how)
        for count in (ROOM + 1, ROOM + 2, 100, 1_000):
            yield f"{count} behind a call, {how}", partial(has_no_room, program, count, how)
    for count in (ROOM + 1, 500):
        yield f"{count} behind a call of the only client", partial(alone_ahead, program, count)
    for count in (1, ROOM, ROOM + 1):
        yield f"{count} of the largest behind a call", partial(large_ones, program, count)
    yield "the last byte of one too many", partial(last_byte_too_many, program)
    for number in range(runs):
        yield f"{ROOM} behind a call, run {number}", partial(has_room, program, ROOM, "all at once")
        yield f"{ROOM + 1} behind a call, run {number}", partial(has_no_room, program, ROOM + 1, "all at once")
        yield f"many more when it goes on, run {number}", partial(goes_on_and_on, program, 200)


# ---- clients that stop while a call waits, or is ready


def stops_at_once(program: str, behind: int) -> None:
    """A client sends all and stops: its call would wait, and is given up. It is answered that it waits."""
    with Server(program, 1, 1_000) as server:
        player = Player(server.client())
        player.ask("join", "pipe", "read 0 5", *["fstat 0"] * behind)
        player.client.stop()
        player.gets("0 0", "1 0 1", "2 parked 0")
        player.is_hung_up_on()
        told = {**player.told, 3: "p0 exit = ok"}
        is_right(program, server, 1, told)


def is_ready(program: str, behind: int) -> None:
    """A call is ready when its client stops: it goes on, and what is behind it is answered, before the exit."""
    with Server(program, 2, 1_000) as server:
        first, second = waiting(server, ["fstat 0"] * behind, "at once"), Player(server.client())
        second.ask("attach 1", "write 1 x6869")
        second.gets("4 ok", "5 2")
        first.client.stop()
        first.gets("6 x6869", *(f"{place} pipe 0 0" for place in range(7, 7 + behind)))
        first.is_hung_up_on()
        told = {**first.told, 7 + behind: "p0 exit = ok"}
        until_traced(server, 8 + behind)
        all_leave(server, [second], told)
        is_right(program, server, 2, told, (2, 2))


def at_the_same_time(program: str, goes: Callable[[Player], None], number: int) -> None:
    """A client goes while another makes its call ready. Either is first, but a call that is ready goes on."""
    behind = number % 3 if goes is stops else 0
    with Server(program, 2, 1_000) as server:
        first, second = waiting(server, ["fstat 0"] * behind, "at once"), Player(server.client())
        second.ask("attach 1")
        second.gets("4 ok")
        acts: list[Callable[[], None]] = [
            first.client.stop if goes is stops else first.client.vanish,
            partial(second.ask, "write 1 x6869"),
        ]
        for act in reversed(acts) if number % 2 else acts:
            act()
            time.sleep(0.00005 * (number % 7))
        is_given_up = until_traced(server, 7)[5] == "5 p0 exit = ok"
        told = dict(first.told)
        if is_given_up:
            told[5] = "p0 exit = ok"
            second.gets("6 2")
        else:
            second.gets("5 2")
            told[6] = "p0 resume = x6869"
            told.update({place: "p0 fstat 0 = pipe 0 0" for place in range(7, 7 + behind)})
            told[7 + behind] = "p0 exit = ok"
            until_traced(server, 8 + behind)
        if goes is stops:
            if not is_given_up:
                first.gets("6 x6869", *(f"{place} pipe 0 0" for place in range(7, 7 + behind)))
            first.is_hung_up_on()
        all_leave(server, [second], told)
        is_right(program, server, 2, told, (2, 0 if is_given_up else 2))


def cut_short(program: str, goes: Callable[[Player], None], number: int) -> None:
    """A client goes while another takes what it writes, part by part: who reads gets what was recorded, and an end."""
    text = bytes(range(256)) * 200
    with Server(program, 2, 10_000) as server:
        first, second = Player(server.client()), Player(server.client())
        first.ask("join", "pipe", "fork", f"write 1 {data_text(text)}")
        first.gets("0 0", "1 0 1", "2 1", "3 parked 1024")
        second.ask("attach 1", "close 1")
        second.gets("4 ok", "5 ok")
        got = b""
        while piece := read_some(second, 300 + number):
            got += piece
            if len(got) > 1_000 * (number % 9):
                (first.client.stop if goes is stops else first.client.vanish)()
                goes = still
        require(text.startswith(got), f"{len(got)} bytes were read, and not those that were written")
        told: dict[int, str] = {}
        if first.client.socket.fileno() >= 0:
            while not first.has_ended():
                first.hear()
        # the other one has read the end, which comes after the exit
        lines = until_traced(server, max(second.told) + 1)
        are_told(lines, first.told)
        ones = [(place, line.partition(" ")[2]) for place, line in enumerate(lines) if " p0 " in line]
        same("p0 exit = ok", ones[-1][1])
        require(all(line.startswith("p0 resume = part ") for _, line in ones[4:-1]), f"it is told {ones[4:]}")
        told.update(ones)
        all_leave(server, [second], told)
        is_right(program, server, 2, told, (len(got), len(got)))


def still(_player: Player) -> None:
    """Stays, or has gone."""


def read_some(player: Player, count: int) -> bytes:
    """What a read of descriptor 0 gives, however often it has to wait."""
    player.ask(f"read 0 {count}")
    while (outcome := player.hear().split(" ")[1]) == "parked":
        pass
    data = read_data(outcome.encode())
    require(data is not None, f"a read gives {outcome}")
    return data or b""


def stopping(program: str, runs: int) -> Iterator[Case]:
    """Clients that stop sending while a call waits or is ready."""
    for behind in (0, 1, ROOM, ROOM + 1, 100):
        yield f"all at once with {behind} behind a call, and stops", partial(stops_at_once, program, behind)
    for behind in (0, 1, ROOM):
        yield f"a call that is ready with {behind} behind it", partial(is_ready, program, behind)
    for goes in (stops, vanishes):
        for number in range(2 * runs):
            what = f"who waits {manner(goes)}, run {number}"
            yield f"a call that becomes ready meanwhile: {what}", partial(at_the_same_time, program, goes, number)
            yield f"a write that goes on meanwhile: {what}", partial(cut_short, program, goes, number)


# ---- clients that are hung up on

FULL = 4

# What it is, what the client sends at once, what it is answered, the records of its process with its exit, and how many
# records the run may have. Another client has joined before.
HUNG_UP: list[tuple[str, list[str], list[str], list[str], int]] = [
    ("an attach of nobody", ["attach 9"], ["1 error ESRCH"], ["p9 attach = error ESRCH"], 100),
    ("an attach of one that is attached", ["attach 0"], ["1 error ESRCH"], ["p0 attach = error ESRCH"], 100),
    (
        "an attach of nobody with calls behind it",
        ["attach 9", *["fstat 0"] * 40],
        ["1 error ESRCH"],
        ["p9 attach = error ESRCH"],
        100,
    ),
    ("a join of a run that is full", ["join"], ["- refused RunFull"], [], FULL),
    ("a call before a join", ["fstat 0"], [], [], 100),
    ("a call before a join with calls behind it", ["fstat 0"] * 40, [], [], 100),
    ("a second join", ["join", "join"], ["1 1"], ["p1 join = 1", "p1 exit = ok"], 100),
    (
        "a join after calls",
        ["join", "pipe", "fstat 0", "join", "fstat 0"],
        ["1 1", "2 0 1", "3 pipe 0 0"],
        ["p1 join = 1", "p1 pipe = 0 1", "p1 fstat 0 = pipe 0 0", "p1 exit = ok"],
        100,
    ),
    (
        "an attach after calls, with calls behind it",
        ["join", "fstat 0", "attach 0", *["fstat 0"] * 40],
        ["1 1", "2 error EBADF"],
        ["p1 join = 1", "p1 fstat 0 = error EBADF", "p1 exit = ok"],
        100,
    ),
]


def hung_up_on(
    program: str, requests: Sequence[str], answers: Sequence[str], records: Sequence[str], most: int
) -> None:
    """A client that stays is hung up on at once, in both directions, while another session goes on."""
    with Server(program, 2, most) as server:
        keeper, client = Player(server.client()), server.client()
        keeper.ask("join")
        keeper.gets("0 0")
        if most == FULL:
            keeper.ask("fstat 0")
            keeper.gets("1 error EBADF")
        client.send(b"".join(map(request_frame, requests)))
        for answer in answers:
            client.gets(answer)
        Player(client).is_hung_up_on(AT_ONCE)
        is_shut(client.socket)
        told = dict(keeper.told)
        told.update(enumerate(records, 1))
        if most != FULL:
            until_traced(server, len(told))
            keeper.ask("fstat 0")
            keeper.gets(f"{len(told)} error EBADF")
        all_leave(server, [keeper], told)
        is_right(program, server, 2, told)


def is_shut(connection: socket.socket) -> None:
    """Nothing can be sent either."""
    try:
        connection.send(b"\0")
    except (BrokenPipeError, ConnectionResetError):
        return
    raise Failure("it is hung up on, and can send still")


def out_of_place_behind_a_call(program: str) -> None:
    """What is out of place behind a call that waits is met when that goes on."""
    with Server(program, 2, 100) as server:
        first, second = waiting(server, ["fstat 0", "join", "fstat 0"], "at once"), Player(server.client())
        second.ask("attach 1")
        second.gets("4 ok")
        require(not first.client.has_answer(A_WHILE), "it does not wait")
        second.ask("write 1 x6869")
        second.gets("5 2")
        first.gets("6 x6869", "7 pipe 0 0")
        first.is_hung_up_on(AT_ONCE)
        told = {**first.told, 8: "p0 exit = ok"}
        until_traced(server, 9)
        all_leave(server, [second], told)
        is_right(program, server, 2, told, (2, 2))


def reads_no_more(program: str, is_parked: bool) -> None:
    """A client that reads no more: its next answer can't be written, so its process exits, though it sends nothing."""
    with Server(program, 2, 100) as server:
        first, keeper = Player(server.client()), Player(server.client())
        first.ask("join", "pipe")
        first.gets("0 0", "1 0 1")
        first.client.socket.shutdown(socket.SHUT_RD)
        first.ask("read 0 5" if is_parked else "fstat 0")
        unread = "p0 read 0 5 = parked 0" if is_parked else "p0 fstat 0 = pipe 0 0"
        told = {**first.told, 2: unread, 3: "p0 exit = ok"}
        same(f"3 {told[3]}", until_traced(server, 4)[3])
        is_shut(first.client.socket)
        keeper.ask("join")
        keeper.gets("4 1")
        all_leave(server, [keeper], told)
        is_right(program, server, 2, told)


def hung_up(program: str) -> Iterator[Case]:
    """Clients that are hung up on."""
    for what, *row in HUNG_UP:
        yield what, partial(hung_up_on, program, *row)
    yield "a join behind a call that waits", partial(out_of_place_behind_a_call, program)
    for is_parked in (False, True):
        yield f"reads no more, {'in a read' if is_parked else 'after an fstat'}", partial(
            reads_no_more, program, is_parked
        )


# ---- the whole


def main(words: Sequence[str]) -> int:
    """Makes all checks: the exit status."""
    runs = count_option("--runs", 10, "how often what may go several ways is tried")
    of_64 = Option("--crowds", {"metavar": "N", "type": int, "help": "runs of 64 clients; 4, or a tenth of --runs"})
    args = asked(words, "Plays clients of the built server that go away.", PROGRAM, SEED, runs, of_64, ONLY)
    program = args.program
    crowds = max(4, args.runs // 10) if args.crowds is None else args.crowds
    parts = [
        ("clients that go while they wait", going(program)),
        ("many requests at once", many(program, args.runs)),
        ("a client that reads nothing", unread_answers(program)),
        ("requests behind a call", behind_a_call(program, args.runs)),
        ("clients that stop", stopping(program, args.runs)),
        ("clients that are hung up on", hung_up(program)),
        (f"64 clients of which half go, seed {args.seed}", lost_crowds.cases(program, args.seed, crowds)),
    ]
    return Count(TELL_MOST).parts(parts, args.only)


if __name__ == "__main__":
    sys.exit(main(sys.argv[1:]))
