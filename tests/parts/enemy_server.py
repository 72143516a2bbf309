"""Runs of a server of which most clients are enemies, and what must be true of each of them after it."""

import random
import threading
import time
from collections import Counter
from collections.abc import Callable, Iterator, Sequence
from functools import partial
from pathlib import Path
from typing import NamedTuple

from parts.enemy_clients import MARKS, ROOM, Scene, Talker, chosen, honest
from parts.lost_crowds import have_gone, is_told_to, ready_at_exit
from support.auditing import Audit, legal
from support.counting import Case, require, same
from support.frames import Stream
from support.players import Player, are_told
from support.running import run
from support.runs import line_of
from support.serving import ALL_RECORDS, SECONDS, Client, Server, outcome_of, report
from support.sources import numbered, source

SESSIONS = (32, 64)
# How long clients wait before they connect.
PAUSE_MOST = 0.1

# What is counted: connections by what they do, records, and sessions that were heard to their end.
Met = Counter[str]


# ---- what a session was


class Session:
    """What a connection was, by its bytes: its requests, and what it was told."""

    def __init__(self, it: Talker) -> None:
        self.it = it
        sent, heard = Stream("requests", bytes(it.sent)), Stream("answers", bytes(it.heard))
        require(heard.fault is None, f"its answers are {heard.fault}")
        self.is_malformed = sent.fault is not None
        self.requests = [request_of(line) for _, line in sent.frames]
        self.rest = len(it.heard) - heard.whole
        self.player = Player(it.client)
        self.player.asked.extend(self.requests)
        # whether a call was refused, and whether what came last was the refusal of an opening or of a resume
        self.is_call_refused = self.is_refused = False
        last = -1
        for _, line in heard.frames:
            place, _, outcome = line.partition(" p0 fork = ")
            require(self.player.asked, f"it is told {place} {outcome[:100]}, and has asked for nothing more")
            is_opening = len(self.player.asked) == len(self.requests)
            is_error = place == "-" or (is_opening and outcome.startswith("error "))
            self.is_refused = is_error and (is_opening or self.player.waits)
            self.is_call_refused |= place == "-" and not self.is_refused
            self.player.keep(f"{place} {outcome}")
            if place != "-":
                require(int(place) > last, f"it is told of place {place} after {last}")
                last = int(place)

    @property
    def told(self) -> dict[int, str]:
        """What it was told, by places."""
        return self.player.told

    def answered(self) -> int:
        """How many of its requests were answered to their end."""
        return len(self.requests) - len(self.player.asked)

    def due(self) -> int:
        """How many of its requests are due to be answered: those before the first one that is out of place."""
        openings = [request.startswith(("join", "attach ")) for request in self.requests]
        if openings[:1] != [True]:
            return 0
        return openings.index(True, 1) if True in openings[1:] else len(openings)

    def number(self, marked: dict[int, int]) -> int | None:
        """The number of its process, if its mark is in the trace or it was told it."""
        return marked.get(self.it.number, self.player.number)


def request_of(line: str) -> str:
    """A request as clients ask for it."""
    if line == "join":
        return line
    _, actor, request = line.removesuffix(" = still").split(" ", 2)
    return f"attach {actor[1:]}" if request == "attach" else request


def ended_rightly(session: Session) -> None:
    """The server has answered all that is due, and had a reason to hang up."""
    it, due, answered = session.it, session.due(), session.answered()
    require(session.rest == 0, f"{session.rest} bytes of an answer are the last")
    is_at_fault = session.is_malformed or due < len(session.requests)
    if session.is_refused:
        return
    if session.player.waits:
        behind = len(session.requests) - answered - 1
        reason = it.has_stopped or session.is_malformed or behind > ROOM
        require(reason, f"a call is given up with {behind} requests behind it")
        return
    require(it.has_stopped or is_at_fault, f"it is hung up on after {answered} requests of {len(session.requests)}")
    require(answered == due, f"{answered} requests are answered, and {due} are due")


# ---- the trace beside the sessions


class Written:
    """The records of a trace, by their processes."""

    def __init__(self, lines: Sequence[str]) -> None:
        self.lines = lines
        self.by_process: dict[int, list[int]] = {}
        self.marked: dict[int, int] = {}
        for place, line in enumerate(lines):
            actor = line.split(" ", 2)[1]
            if actor == "house" or line.endswith((" attach = error ESRCH", " join = error EAGAIN")):
                continue
            number = int(actor[1:])
            self.by_process.setdefault(number, []).append(place)
            _, _, call, *fields = line.split(" ", 4)
            if call == "fstat" and int(fields[0]) >= MARKS:
                self.marked[int(fields[0]) - MARKS] = number

    def calls(self, number: int) -> list[str]:
        """The calls of a process."""
        acts = [line_of(self.lines[place]).act.partition(" ")[2] for place in self.by_process.get(number, [])]
        return [act for act in acts if act.split(" ")[0] not in ("join", "attach", "resume", "exit")]

    def told_to(self, number: int) -> set[int]:
        """The places of which the client of a process is told."""
        return {place for place in self.by_process.get(number, []) if is_told_to(self.lines[place], number)}


def is_front(calls: Sequence[str], requests: Sequence[str], has_gaps: bool) -> bool:
    """Whether calls are the first requests, or some of them in their order where some may have left no record."""
    if not has_gaps:
        return list(calls) == list(requests[: len(calls)])
    left = iter(requests)
    return all(call in left for call in calls)


def is_served(session: Session, written: Written, is_limited: bool) -> int | None:
    """A session has the records that it asked for, and was told of them. It gives the number of its process."""
    are_told(written.lines, session.told)
    if session.it.has_ended:
        ended_rightly(session)
    number = session.number(written.marked)
    if number is None:
        return None
    require(session.player.number in (None, number), f"p{number} was told that it is p{session.player.number}")
    calls = written.calls(number)
    require(is_front(calls, session.requests[1:], is_limited), f"p{number} has other calls than it asked for")
    if session.it.has_ended:
        lost = sorted(written.told_to(number) - set(session.told))
        require(not lost, f"p{number} was not told of {[written.lines[place] for place in lost[:3]]}")
    return number


def is_right(program: str, server: Server, talkers: Sequence[Talker], most: int) -> Met:
    """The server ends by itself, and its line, its trace and all that clients have sent and were sent agree."""
    ran = outcome_of(server.process)
    audit = Audit(Path(server.trace).read_bytes())
    lines, world = audit.frames.lines, audit.judge.world
    same((0, report(len(talkers), len(lines), world.bytes_in, world.bytes_out), b""), tuple(ran))
    same(legal(len(lines)), audit.verdict)
    same(audit.verdict, run([program, "audit", server.trace]))
    have_gone(lines)
    sessions, written = list(map(Session, talkers)), Written(lines)
    numbers = [number for it in sessions if (number := is_served(it, written, most < ALL_RECORDS)) is not None]
    same(len(numbers), len(set(numbers)))
    strange = [number for number in written.by_process if number not in numbers and written.calls(number)]
    require(not strange, f"nobody has asked for the calls of {strange[:3]}")
    heard = {it.player.number for it in sessions if it.it.has_ended and not it.is_refused}
    given_up = sorted(number for number in ready_at_exit(lines) if number in heard)
    require(not given_up, f"calls of {given_up[:3]} were given up, and were ready")
    require(len(lines) <= most, f"{len(lines)} records, and {most} are the most")
    if any(it.is_call_refused for it in sessions):
        same(most, len(lines))
    return Counter(records=len(lines), heard=sum(it.it.has_ended for it in sessions))


# ---- a run


class Cast(NamedTuple):
    """Clients of a run that act together, and what they do."""

    name: str
    them: list[Talker]
    act: Callable[..., None]
    pause: float


def guarded(cast: Cast, server: Server) -> None:
    """Lets clients connect and act, and keeps what is wrong."""
    connected: list[Client] = []
    try:
        time.sleep(cast.pause)
        for it in cast.them:
            it.client = server.client()
            connected.append(it.client)
        cast.act(*cast.them)
    except Exception as fault:
        # of whatever kind: a thread tells nobody else
        cast.them[0].fault = f"{cast.name}: {fault!r}"
    finally:
        for client in connected:
            client.vanish()


def cast_of(pick: random.Random, seed: str, scene: Scene) -> list[Cast]:
    """The clients of a run."""
    talkers = [Talker(source(seed, 1 + number), number, scene) for number in range(pick.randint(*SESSIONS))]
    pairs, singles = pick.randrange(1, 4), pick.randrange(1, 5)
    casts = []
    for _ in range(pairs):
        casts.append(Cast("an honest pair", [talkers.pop(), talkers.pop()], honest, 0))
    for _ in range(singles):
        casts.append(Cast("an honest client", [talkers.pop()], honest, pause_of(pick)))
    for it, act in zip(talkers, chosen(pick, len(talkers)), strict=True):
        casts.append(Cast(act.__name__.replace("_", " "), [it], act, pause_of(pick)))
    return casts


def pause_of(pick: random.Random) -> float:
    """How long a client waits before it connects."""
    return pick.choice([0, pick.uniform(0, PAUSE_MOST)])


def joined(threads: Sequence[threading.Thread], what: str, seconds: float) -> None:
    """All of these come to an end in a time."""
    until = time.monotonic() + seconds
    for thread in threads:
        thread.join(max(until - time.monotonic(), 0))
        require(not thread.is_alive(), f"{what} do not come to an end")


def crowd(program: str, seed: str, met: Met) -> None:
    """Enemies beside honest clients, who come to their end first; then all others go."""
    pick = source(seed, 0)
    most = pick.choice([ALL_RECORDS] * 5 + [pick.randrange(40, 3_000)])
    scene = Scene(pick.random() < 0.2)
    casts = cast_of(pick, seed, scene)
    talkers = [it for cast in casts for it in cast.them]
    with Server(program, len(talkers), most) as server:
        threads = [threading.Thread(target=guarded, args=(cast, server), daemon=True) for cast in casts]
        good = [thread for thread, cast in zip(threads, casts, strict=True) if cast.act is honest]
        for thread in threads:
            thread.start()
        try:
            joined(good, "the honest ones", 3 * SECONDS)
        finally:
            scene.over.set()
        joined(threads, "the enemies", 3 * SECONDS)
        faults = [it.fault for it in talkers if it.fault]
        require(not faults, f"{len(faults)} of {len(talkers)}: {'; '.join(map(str, faults[:2]))}")
        met.update(cast.name for cast in casts for _ in cast.them)
        met.update(is_right(program, server, talkers, most))


def cases(program: str, seed: str, runs: int, met: Met) -> Iterator[Case]:
    """So many runs. What they have met is counted."""
    for number in range(runs):
        yield numbered("enemies, run", seed, number), partial(crowd, program, f"{seed} enemies {number}", met)
