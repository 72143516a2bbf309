#!/usr/bin/env python3
"""Do the live server and a run of sessions end rightly where any allocation is refused? (a minute)

usage: tests/shortages.py [--program PATH] [--trial PATH] [--rounds N]

The program is crates/fdref/out/fdref where no PATH is given. A library that comes before the C library
(LD_PRELOAD) refuses allocations by their number. As a server of two sessions, with a trace, the program is run
for each N from 1 to the number of allocations that it asks for when nothing is refused,

  - with allocation N refused alone,
  - with N and all later ones refused.

Its clients open a file, write, read, and make a pipe and a child, which is the second client and waits for bytes
of the first. They give a request again that is refused for want of memory, and may be hung up on at any time.

Each of these runs must end by itself, while all clients are answered or hung up on, and in one of these ways:

  - with status 0 and a line that says what the trace holds, which has all that clients were told,
  - with status 4 and a line, where the trace is not whole or no connection could be taken,
  - with status 5, `no memory` or `no thread`, and nothing on standard output,
  - with status 5, `no thread` and a line, where the thread that reads of a session could not be started.

A trace that was begun is legal to its last whole record. Where one allocation is refused, one act is refused for
want of memory at most, and if nobody was hung up on, all requests were answered. Some acts are refused so and given
again.

The trial is crates/run_trial/out/run_trial where no PATH is given. It is a run of two sessions over memory, without
sockets, in which a gate holds the answer at place 0 back until an answer of the other session was let through. Each of
its allocations is refused in the same two ways, again and again (10 times, or as `--rounds` says), since its threads
take turns as they like. It must end by itself, with status 0 and its report, in which sessions may have ended for want
of memory or of a thread that reads, with a writer that failed, or with an answer that was held back to the end, and the
trace may have a fault; or with the status of `no memory` or of `no thread`. Where one allocation is refused, one thing
goes another way at most, besides what is held back for it.

A failure is told in one line. The last line is `N passed, M failed`, and the exit status is 1 where M is above 0.
"""

import collections
import contextlib
import os
import re
import sys
import tempfile
from collections.abc import Sequence
from functools import partial
from pathlib import Path
from typing import NamedTuple

from parts import run_shortages
from support.auditing import Audit, legal
from support.causes import without_cause
from support.counting import Count, Failure, require, same
from support.options import PROGRAM, asked, count_option, trial_option
from support.places import RUN_TRIAL, SCRATCH
from support.refusing import NEVER, Refuser, build
from support.running import Ran
from support.serving import SECONDS, Client, HungUp, Server, outcome_of, report

RECORDS = 50
SESSIONS = 2
TRIES = 3

# How often runs ended with a status and a text on standard error.
Ways = collections.Counter[tuple[int, bytes]]

REFUSED = "- refused NoMemory"
ENDS = [(0, b""), (4, b"trace fault\n"), (4, b"cannot listen\n"), (5, b"no memory\n"), (5, b"no thread\n")]
LINE = re.compile(rb"sessions [0-2] records (\d+) in \d+ out \d+ trace (\d+)\n")

OF_PARENT = ["join", "open f rw,creat", "write 0 x616263", "pread 0 0 3", "pipe", "fork"]
# Of its pipe the child keeps the reading end alone, so that it waits no longer than its parent is there.
OF_CHILD = ["attach", "close 2", "read 1 4"]
WAKES = "write 2 x7879"
WAITS = "parked 0"
# With the write and the end of the read.
ALL_TOLD = len(OF_PARENT) + len(OF_CHILD) + 2


class Asker:
    """A client that is one process, and gives a request again that is refused for want of memory."""

    def __init__(self, client: Client, number: str) -> None:
        self.client = client
        self.number = number
        self.is_answered = True
        self.told: list[str] = []
        self.refused = 0

    def hear(self, text: str) -> str:
        """The outcome in the next answer, which is that of an act with this text; nothing where the server hung up."""
        try:
            answer = self.client.answer()
        except (HungUp, ConnectionError):
            self.is_answered = False
            return ""
        place, _, outcome = answer.partition(" ")
        if place != "-":
            self.told.append(f"{place} p{self.number} {text} = {outcome}")
        self.refused += answer == REFUSED
        return outcome if place != "-" else answer

    def ask(self, text: str) -> str:
        """The outcome of a request, as above."""
        outcome = REFUSED
        for _ in range(TRIES):
            if self.is_answered and outcome == REFUSED:
                with contextlib.suppress(ConnectionError):
                    self.client.ask(f"attach {self.number}" if text == "attach" else text)
                outcome = self.hear(text)
        return outcome if self.is_answered else ""

    def leave(self) -> None:
        """Says that nothing more will be asked, and waits until the server hangs up."""
        if self.is_answered:
            self.client.stop()
        require(self.client.is_hung_up(SECONDS), f"the server does not hang up on p{self.number}")


def connected(server: Server) -> Client | None:
    """A client of a server, or none where it has ended."""
    try:
        return server.client()
    except Failure:
        if server.is_running():
            raise
        return None


def converse(server: Server) -> list[Asker]:
    """Two clients that ask what they can."""
    first = connected(server)
    if first is None:
        return []
    parent = Asker(first, "0")
    outcomes = [parent.ask(text) for text in OF_PARENT]
    second = connected(server)
    if second is None:
        return [parent]
    child = Asker(second, outcomes[-1])
    waits = outcomes[-1].isdigit() and [child.ask(text) for text in OF_CHILD][-1] == WAITS
    if waits:
        parent.ask(WAKES)
    parent.leave()
    if waits:
        # woken by the bytes, or else by the end of the parent; where a resume is refused the session ends
        child.is_answered = child.hear("resume") not in ("", REFUSED)
    child.leave()
    return [parent, child]


class Run(NamedTuple):
    """How a server ended, what it left of a trace, and its clients."""

    ran: Ran
    trace: bytes | None
    clients: list[Asker]


def served(program: str, refuser: Refuser, first: int, last: int) -> Run:
    """A server and its clients, with its allocations from `first` to `last` refused."""
    refuser.begin()
    environment = refuser.environment(first, last)
    with Server(program, SESSIONS, RECORDS, env=environment, files=[refuser.told.fileno()]) as server:
        clients = converse(server)
        ran = outcome_of(server.process)
        trace = Path(server.trace).read_bytes() if os.path.exists(server.trace) else None
    return Run(ran._replace(stderr=without_cause(ran.stderr)), trace, clients)


def is_right(run: Run) -> None:
    """A run ended in one of the ways that are allowed."""
    ran = run.ran
    require((ran.status, ran.stderr) in ENDS, ran.said())
    audit = Audit(run.trace or b"")
    lines = audit.frames.lines
    same(legal(len(lines), audit.frames.rest), audit.verdict)
    if ran.stderr == b"no memory\n" or (ran.status == 5 and not ran.stdout):
        same(b"", ran.stdout)
    elif ran.stderr == b"trace fault\n":
        told = LINE.fullmatch(ran.stdout)
        require(told and int(told[2]) == len(lines) <= int(told[1]), ran.said())
        are_told(run, lines, len(lines))
    else:
        is_whole(run, audit)


def is_whole(run: Run, audit: Audit) -> None:
    """The line tells what the trace holds, and of as many sessions as were served."""
    lines, world = audit.frames.lines, audit.judge.world
    told = LINE.fullmatch(run.ran.stdout)
    sessions = run.ran.stdout.split()[1] if told else b""
    require(sessions == b"%d" % SESSIONS or run.ran.status == 4, run.ran.said())
    same(report(int(sessions), len(lines), world.bytes_in, world.bytes_out), run.ran.stdout)
    same(0, audit.frames.rest)
    are_told(run, lines, len(lines) + 1)


def are_told(run: Run, lines: list[str], most: int) -> None:
    """What clients were told of the first places is in the trace."""
    told = [line for client in run.clients for line in client.told if int(line.split()[0]) < most]
    lost = [line for line in told if line not in lines]
    require(not lost, f"told and not in the trace: {lost[:3]}")


class Check:
    """The runs of a program, how they ended, and in how many an act was refused and given again."""

    def __init__(self, program: str, refuser: Refuser) -> None:
        self.program = program
        self.refuser = refuser
        self.ways: Ways = collections.Counter()
        self.given_again = 0
        self.without_reader = 0

    def run(self, first: int, last: int) -> None:
        """One run with refusals, or without."""
        run = served(self.program, self.refuser, first, last)
        is_right(run)
        if first == last:
            self.is_answered(run)
        self.ways[run.ran.status, run.ran.stderr] += 1
        self.without_reader += run.ran.stderr == b"no thread\n" and run.ran.stdout != b""

    def is_answered(self, run: Run) -> None:
        """Whoever was not hung up on was answered, where one allocation was refused at most."""
        refused = sum(client.refused for client in run.clients)
        require(refused <= 1, f"{refused} acts are refused for want of memory")
        if run.ran.status == 0 and all(client.is_answered for client in run.clients):
            same(ALL_TOLD, sum(len(client.told) for client in run.clients))
            self.given_again += refused

    def ended(self, end: tuple[int, bytes]) -> None:
        """Some runs ended so."""
        require(self.ways[end], "no run does")

    def lacked_a_reader(self) -> None:
        """Some session had no thread that reads, and the others were served."""
        require(self.without_reader, "no run does")

    def gave_again(self) -> None:
        """Some act was refused and given again, and the conversation went on to its end."""
        require(self.given_again, "no act is")


def check_server(count: Count, program: str, refuser: Refuser) -> None:
    """Serves without any refusal, and then with each."""
    check = Check(program, refuser)
    if count.check("nothing refused", partial(check.run, NEVER, NEVER)):
        for first in range(1, refuser.counted() + 1):
            count.check(f"allocation {first} refused", partial(check.run, first, first))
            count.check(f"allocation {first} refused and all later ones", partial(check.run, first, NEVER - 1))
    for (ended, stderr), runs in sorted(check.ways.items()):
        print(f"{runs} runs: status {ended} {stderr.decode()}".rstrip())
    print(f"{check.given_again} acts refused and given again")
    for end in ENDS:
        if end[0] in (0, 5):
            count.check(f"ending so: {end}", partial(check.ended, end))
    count.check("a session without a thread that reads", check.lacked_a_reader)
    count.check("an act given again", check.gave_again)


def main(words: Sequence[str]) -> int:
    """Refuses the server and the trial their allocations: the exit status."""
    about = "Refuses the live server and a run over memory their allocations."
    rounds = count_option("--rounds", 10, "how often each allocation of the trial is refused")
    args = asked(words, about, PROGRAM, trial_option(RUN_TRIAL), rounds)
    count = Count()
    with tempfile.TemporaryDirectory(prefix="fdref-", dir=SCRATCH) as folder:
        refuser = Refuser(build(folder))
        check_server(count, args.program, refuser)
        count.part("a run over memory", run_shortages.cases(args.trial, refuser, args.rounds))
    return count.end()


if __name__ == "__main__":
    sys.exit(main(sys.argv[1:]))
