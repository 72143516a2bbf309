"""64 clients of a server at full speed, each with a clock of its own: the places that the server gave explain them all.

No order is searched for. That of the places has to be one: no call ended before another one began that has a smaller
place, and what is recorded at each place is what the client was told there.
"""

import os
import select
import subprocess
import time
from collections.abc import Callable, Iterable, Iterator, Sequence
from functools import partial
from pathlib import Path
from typing import NamedTuple

from parts.c_programs import INCLUDES, WARNINGS, Build, compiles
from support.auditing import Audit, legal
from support.counting import Case, Failure, require, same
from support.places import C_TESTS
from support.running import run
from support.serving import ALL_RECORDS, SECONDS, Process, Server, outcome_of, report
from support.sources import numbered, source

PAIRS = 32
CLIENTS = 2 * PAIRS
# A run of a server has so many calls at most: those that wait have more records than one.
CALLS_OF_A_RUN = 250_000
# After so many seconds in which nothing is recorded the clients are told to hang.
STILL = 30
# How long a server may take to end behind its clients: it looks through all records then.
END = 120
# How many records an audit judges in a second at least: an unproved program is slow.
RECORDS_OF_A_SECOND = 500
SWAPS = 4


class Answer(NamedTuple):
    """What a client was told: the place, and the outcome."""

    place: int
    outcome: str


class Clocked(NamedTuple):
    """A call with the times before and after it, and all that it was answered."""

    start: int
    end: int
    act: str
    answers: tuple[Answer, ...]

    @property
    def first(self) -> int:
        """The first of its places."""
        return self.answers[0].place

    @property
    def last(self) -> int:
        """The last of its places."""
        return self.answers[-1].place

    def lines(self) -> Iterator[tuple[int, str]]:
        """The place of each of its records, and the line."""
        who = self.act.partition(" ")[0]
        for number, (place, outcome) in enumerate(self.answers):
            yield place, f"{place} {f'{who} resume' if number else self.act} = {outcome}"


def read_call(line: str) -> Clocked:
    """A line of a client."""
    start, end, rest = line.split(" ", 2)
    act, _, told = rest.rpartition(" = ")
    answers = (answer.partition(" ") for answer in told.split("; "))
    return Clocked(int(start), int(end), act, tuple(Answer(int(place), outcome) for place, _, outcome in answers))


# ---- what has to hold


def keeps_time(calls: Iterable[Clocked]) -> None:
    """No call ended before another one began that has a smaller place."""
    by_start = sorted(calls, key=lambda call: call.start)
    by_end = sorted(by_start, key=lambda call: call.end)
    at, latest = 0, by_end[0]
    for call in by_start:
        while at < len(by_end) and by_end[at].end < call.start:
            latest = max(latest, by_end[at], key=lambda ended: ended.last)
            at += 1
        is_kept = at == 0 or latest.last < call.first
        require(is_kept, f"{latest.act} at place {latest.last} had ended before {call.act} at place {call.first} began")


def is_recorded(calls: Iterable[Clocked], records: Sequence[str]) -> None:
    """At each place is what its client was told. The other records are exits, and the closing."""
    told = dict(line for call in calls for line in call.lines())
    for place, record in enumerate(records):
        is_end = record.endswith((" exit = ok", " close-run = ok"))
        require((place in told) != is_end, f"nobody, or somebody, was told of {record}")
        require(is_end or told[place] == record, f"recorded was {record}, and a client was told {told.get(place)}")
    require(max(told) < len(records), "a client was told of a place that is not there")


def overlapping(calls: Sequence[Clocked]) -> float:
    """How many other calls were under way when a call began, on an average."""
    events = sorted([(call.start, 1) for call in calls] + [(call.end, -1) for call in calls])
    running = total = 0
    for _, change in events:
        total += running if change > 0 else 0
        running += change
    return total / max(len(calls), 1)


# ---- clients


class Started:
    """Clients that are started, and what they print."""

    def __init__(self, client: str, path: str) -> None:
        self.words = [client, path]
        self.processes: list[Process] = []

    def start(self, *words: object) -> Process:
        """Starts a client."""
        pipe = subprocess.PIPE
        process = subprocess.Popen([*self.words, *map(str, words)], stdin=pipe, stdout=pipe, stderr=pipe, bufsize=0)
        self.processes.append(process)
        return process

    def notes(self, trace: str) -> list[Clocked]:
        """Lets all clients go, and gives their calls when they have ended. While a trace grows they may go on."""
        for process in self.processes:
            assert process.stdin
            process.stdin.close()
            process.stdin = None
        calls: list[Clocked] = []
        for process in self.processes:
            stdout, stderr = written(process, trace)
            require(process.returncode == 0 and not stderr, f"a client: {stderr[:300].decode('ascii', 'replace')}")
            calls += map(read_call, stdout.decode("ascii").splitlines())
        return calls

    def stop(self) -> None:
        """Ends those that have not ended."""
        for process in self.processes:
            if process.poll() is None:
                process.kill()
            process.communicate()


def written(process: Process, trace: str) -> tuple[bytes, bytes]:
    """What a client writes up to its end, which has to come unless a trace grows."""
    before = -1
    while before < os.path.getsize(trace):
        before = os.path.getsize(trace)
        try:
            return process.communicate(timeout=STILL)
        except subprocess.TimeoutExpired:
            continue
    raise Failure(f"the clients do not go on, with {before} bytes in the trace")


def said(process: Process) -> str:
    """The next line of a client."""
    assert process.stdout
    line = b""
    until = time.monotonic() + SECONDS
    while not line.endswith(b"\n"):
        is_there = select.select([process.stdout], [], [], max(until - time.monotonic(), 0))[0]
        require(is_there, f"a client says nothing in {SECONDS} seconds")
        byte = os.read(process.stdout.fileno(), 1)
        require(byte, "a client has ended")
        line += byte
    return line.decode("ascii").rstrip("\n")


class Crowd:
    """Runs of 64 clients, and what the last one has noted."""

    def __init__(self, program: str, build: Build, seed: str) -> None:
        self.program = program
        self.client = os.path.join(build.folder, "clocked")
        source_path = str(C_TESTS / "clocked.c")
        compiles([*build.words, *WARNINGS, *INCLUDES, source_path, "-o", self.client])
        self.seed = seed
        self.calls: list[Clocked] = []
        self.records: list[str] = []

    def noted(self, server: Server, number: int, calls: int) -> list[Clocked]:
        """What all clients note in a run, who make so many calls in all, or a few more."""
        each = -(-calls // CLIENTS)
        pick = source(self.seed, number)
        clients = Started(self.client, server.path)
        try:
            parents = [clients.start(each, pick.randrange(2**32)) for _ in range(PAIRS)]
            born = [said(parent).removeprefix("child ") for parent in parents]
            children = [clients.start(each, pick.randrange(2**32), child) for child in born]
            same(["ready"] * CLIENTS, [said(process) for process in [*parents, *children]])
            return clients.notes(server.trace)
        finally:
            clients.stop()

    def run(self, number: int, calls: int) -> None:
        """A run, which the places explain."""
        with Server(self.program, CLIENTS, ALL_RECORDS) as server:
            self.calls = self.noted(server, number, calls)
            server.process.wait(timeout=END)
            ended = outcome_of(server.process)
            audit = Audit(Path(server.trace).read_bytes())
            seconds = END + len(audit.frames.lines) / RECORDS_OF_A_SECOND
            judged = run([self.program, "audit", server.trace], seconds=seconds)
        self.records = audit.frames.lines
        count, world = len(self.records), audit.judge.world
        same((legal(count), legal(count)), (audit.verdict, judged))
        same((0, report(CLIENTS, count, world.bytes_in, world.bytes_out), b""), ended)
        keeps_time(self.calls)
        is_recorded(self.calls, self.records)
        self.tell()

    def tell(self) -> None:
        """Prints how much there was."""
        waited = sum(len(call.answers) > 1 for call in self.calls)
        seconds = (max(call.end for call in self.calls) - min(call.start for call in self.calls)) / 1e9
        around = f"{overlapping(self.calls):.0f} others under way at the start of each"
        print(f"{len(self.calls)} calls of {CLIENTS} clients in {seconds:.1f} s, {waited} waited, {around}", flush=True)

    # -- what must be found

    def is_found(self, number: int, check: Callable[[Sequence[Clocked]], None]) -> None:
        """Two calls that do not overlap, and have each other's places, do not pass a check."""
        require(len(self.calls) > 1, "there was no run")
        pick = source(f"{self.seed} swapped", number)
        one, other = pick.sample(range(len(self.calls)), 2)
        while is_overlapping(self.calls[one], self.calls[other]):
            one, other = pick.sample(range(len(self.calls)), 2)
        wrong = list(self.calls)
        wrong[one] = wrong[one]._replace(answers=self.calls[other].answers)
        wrong[other] = wrong[other]._replace(answers=self.calls[one].answers)
        try:
            check(wrong)
        except Failure:
            return
        raise Failure(f"not found: {self.calls[one]} and {self.calls[other]} have each other's places")

    def recorded(self, calls: Sequence[Clocked]) -> None:
        """At each place is what was told there."""
        is_recorded(calls, self.records)


def is_overlapping(one: Clocked, other: Clocked) -> bool:
    """Whether two calls overlap, or are the same for a record."""
    return not (one.end < other.start or other.end < one.start) or one.act == other.act


def cases(program: str, build: Build, seed: str, calls: int) -> Iterator[Case]:
    """Runs with so many calls in all, and answers in wrong places."""
    crowd = Crowd(program, build, seed)
    for number, before in enumerate(range(0, calls, CALLS_OF_A_RUN)):
        some = min(calls - before, CALLS_OF_A_RUN)
        yield numbered(f"{some} calls, run", seed, number), partial(crowd.run, number, some)
    for number in range(SWAPS):
        for against, check in (("the clock", keeps_time), ("the trace", crowd.recorded)):
            name = numbered(f"swapped places against {against}", seed, number)
            yield name, partial(crowd.is_found, number, check)
