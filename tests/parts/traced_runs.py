"""Random runs of a live server that writes a trace: what its clients are told is what the trace holds."""

import os
import re
import signal
import tempfile
import time
from pathlib import Path
from typing import NamedTuple

from support import plain_model
from support.auditing import Audit, legal, shown
from support.counting import require, same
from support.places import SCRATCH
from support.plain_model import DEFAULTS, PIPE_CAPACITY, RECORDS_DEFAULT, Limits
from support.running import Ran, run
from support.runs import Settled
from support.serving import SECONDS, Client, Server, outcome_of, report
from support.sources import source
from support.texts import difference
from support.walks import CAPACITIES, walked

SESSIONS_MOST = 64
A_WHILE = 0.3

# The actor of a join that is refused, who has no number.
ANYBODY = "p?"
# The records of which no client is told.
UNTOLD = re.compile(r"[0-9]+ (p[0-9]+ exit|house close-run) = ok")


# ---- a plan: the acts of a script that clients can make


class Plan:
    """The acts of a script that clients of a server can make, chosen beside a run of the model.

    The server itself resumes calls and closes the run, and a client that waits makes no call. At the end calls that
    still wait are waked as far as somebody can, and all processes exit that can.
    """

    def __init__(self, lines: list[bytes], limits: Limits = DEFAULTS) -> None:
        self.run = Settled(limits)
        self.world = self.run.world
        self.acts: list[plain_model.Act] = []
        self.sessions = 0
        for line in lines:
            self.take(plain_model.read_act(line))
        self.wake_all()
        while awake := self.awake():
            self.take(plain_model.Act(awake[0].number, "exit"))
        self.sessions = max(self.sessions, 1)

    def take(self, act: plain_model.Act) -> None:
        """Plans an act, if a client can make it."""
        if self.is_possible(act):
            self.sessions += act.word in ("join", "attach")
            self.acts.append(act)
            self.run.take(act)

    def is_possible(self, act: plain_model.Act) -> bool:
        """Whether a client can make an act now."""
        if act.word in ("join", "attach"):
            return self.sessions < SESSIONS_MOST
        return act.word not in ("resume", "close-run") and act.actor in [it.number for it in self.awake()]

    def awake(self) -> list[plain_model.Process]:
        """The processes that can make a call."""
        return [it for it in self.world.processes.values() if it.attached and not it.waits]

    def waiting(self) -> list[plain_model.Process]:
        """The processes whose call waits."""
        return [it for it in self.world.processes.values() if it.waits]

    def wake_all(self) -> None:
        """Wakes one process after another, as long as somebody can."""
        while any(self.wakes(act) for it in self.waiting() if (act := self.waker(it))):
            continue

    def wakes(self, act: plain_model.Act) -> bool:
        """Plans an act that may let a call go on: whether one did. An open for which there is no room lets none."""
        before = self.moved()
        self.take(act)
        return self.moved() != before

    def moved(self) -> dict[int, int]:
        """How many bytes each call has moved that waits."""
        return {it.number: it.waits.moved for it in self.waiting() if it.waits}

    def waker(self, sleeper: plain_model.Process) -> plain_model.Act | None:
        """An act of another process that lets the call of a process go on."""
        call = sleeper.waits
        for process in self.awake():
            for fd, at in process.table.items():
                if isinstance(call, plain_model.WaitingRead) and at.pipe is call.pipe and at.mode == "w":
                    return plain_model.Act(process.number, "write", (fd, b"!"))
                if isinstance(call, plain_model.WaitingWrite) and at.pipe is call.pipe and at.mode == "r":
                    return plain_model.Act(process.number, "read", (fd, plain_model.TRANSFER_MAX))
            if isinstance(call, plain_model.WaitingOpen) and len(process.table) < plain_model.OPEN_MAX:
                for name in (name for name, file in self.world.names.items() if file is call.fifo):
                    return plain_model.Act(process.number, "open", (name, f"{call.other},nonblock"))
        return None


# ---- a run of a plan


class Player:
    """A client that is a process, with the act for which it still waits to be told more, if any."""

    def __init__(self, client: Client, number: int) -> None:
        self.client = client
        self.number = number
        self.waits = False


class LiveRun:
    """A plan that clients carry out, and what they were told: for each place the line that a run has there."""

    def __init__(self, server: Server) -> None:
        self.server = server
        self.players: dict[int, Player] = {}
        self.told: dict[int, str] = {}

    def take(self, act: plain_model.Act) -> None:
        """Lets a client make an act and waits until that is done, or until its call waits."""
        if act.word in ("join", "attach"):
            return self.open(act)
        player = self.players.get(act.actor) if isinstance(act.actor, int) else None
        if player is None or not self.is_awake(player):
            # another one got what it waits for, or the run is full
            return
        if act.word == "exit":
            self.end(player)
        else:
            text = plain_model.act_text(act)
            player.client.ask(text.partition(" ")[2])
            self.hear(player, text)

    def open(self, act: plain_model.Act) -> None:
        """A client connects and joins, or attaches."""
        client = self.server.client()
        client.ask("join" if act.word == "join" else f"attach {act.actor}")
        place, _, outcome = client.answer().partition(" ")
        number = act.actor
        if act.word == "join":
            number = int(outcome) if outcome.isdigit() else None
        if place != "-":
            who = ANYBODY if number is None else f"p{number}"
            self.keep(place, f"{who} {act.word} = {outcome}")
        if isinstance(number, int) and (outcome == "ok" or outcome.isdigit()):
            self.players[number] = Player(client, number)
        else:
            client.vanish()

    def hear(self, player: Player, text: str) -> None:
        """Hears the next answer to a client, which is that of the act with this text."""
        place, _, outcome = player.client.answer().partition(" ")
        if place != "-":
            self.keep(place, f"{text} = {outcome}")
        elif player.waits:
            # the session ends where its resume is refused
            del self.players[player.number]
        player.waits = outcome.startswith(("parked ", "part "))

    def keep(self, place: str, line: str) -> None:
        """Keeps what was told of a place."""
        require(int(place) not in self.told, f"place {place} is told twice")
        self.told[int(place)] = line

    def is_awake(self, player: Player, seconds: float = A_WHILE) -> bool:
        """Whether a client need not wait, after it has waited for a while at most."""
        while player.waits and player.client.has_answer(seconds):
            self.hear(player, f"p{player.number} resume")
        return not player.waits and player.number in self.players

    def end(self, player: Player) -> None:
        """Ends a process, and waits until the server has hung up, which is when its exit is recorded."""
        del self.players[player.number]
        player.client.stop()
        require(player.client.is_hung_up(SECONDS), "the server does not hang up")

    def close(self, plan: Plan) -> bool:
        """Connects as often as the server awaits, and ends whoever can be ended: whether the server ends by itself."""
        for _ in range(plan.sessions - len(self.server.clients)):
            self.server.client().stop()
        until = time.monotonic() + SECONDS
        while self.players:
            awake = [player for player in self.left() if self.is_awake(player, 0)]
            if awake:
                # who exits may wake others
                self.end(awake[0])
                until = time.monotonic() + SECONDS
            elif self.is_settled(Audit(Path(self.server.trace).read_bytes())):
                return False
            else:
                require(time.monotonic() < until, f"for {SECONDS} seconds a call could go on, or its end was not told")
                time.sleep(0.005)
        return True

    def is_settled(self, audit: Audit) -> bool:
        """Whether a trace holds what was told, nothing else but exits, and by the model nobody left can go on."""
        lines, world = audit.frames.lines, audit.judge.world
        # with those whose exits the trace does not hold yet
        here = {process.number: process.waits for process in world.processes.values() if process.attached}
        return (
            all(place < len(lines) for place in self.told)
            and all(place in self.told or UNTOLD.fullmatch(line) for place, line in enumerate(lines))
            and set(self.players) == set(here)
            and all(call and not call.is_ready(world) for call in here.values())
        )

    def left(self) -> list[Player]:
        """The clients that are there still."""
        return list(self.players.values())


# ---- what a trace must be


class Checked(NamedTuple):
    """What a run was: the records of its trace, and whether the server ended by itself."""

    records: int
    has_ended: bool


def checked(program: str, seed: str, number: int) -> Checked:
    """Makes the run with a number of a seed, and checks its trace."""
    pick = source(seed, number)
    records = pick.choice([RECORDS_DEFAULT] * 7 + [pick.randrange(4, 80)])
    limits = pick.choice([DEFAULTS, Limits(capacity=pick.choice(CAPACITIES))])
    plan = Plan(walked(pick, RECORDS_DEFAULT, pick.choice([5, 10, 20, 40, 60, 100]), limits=limits), limits)
    with Server(program, plan.sessions, records, capacity=limits.capacity) as server:
        live = LiveRun(server)
        for act in plan.acts:
            live.take(act)
        has_ended = live.close(plan)
        said = ended(server, has_ended)
        with open(server.trace, "rb") as file:
            trace = file.read()
    same(server.header.hex(), trace[: len(server.header)].hex())
    audit = Audit(trace)
    lines = audit.frames.lines
    is_told(lines, live.told, has_ended)
    if has_ended:
        world = audit.judge.world
        same((0, report(plan.sessions, len(lines), world.bytes_in, world.bytes_out), b""), said)
    same(legal(len(lines), 0 if has_ended else audit.frames.rest), audit.verdict)
    is_read(program, trace, audit, limits.capacity)
    return Checked(len(lines), has_ended)


def ended(server: Server, by_itself: bool) -> Ran | None:
    """The end of a server: by itself, or by a signal."""
    if by_itself:
        return outcome_of(server.process)
    os.killpg(server.process.pid, signal.SIGKILL)
    server.process.wait()
    return None


def is_told(lines: list[str], told: dict[int, str], has_ended: bool) -> None:
    """Each record was told to a client as it is in the trace, but for exits and the closing."""
    for place, line in enumerate(lines):
        wanted = f"{place} {told.get(place, '')}"
        if place not in told:
            require(UNTOLD.fullmatch(line), f"nobody was told of {line}")
        else:
            is_it = line.endswith(told[place].removeprefix(ANYBODY)) if ANYBODY in told[place] else line == wanted
            require(is_it, f"a client was told {wanted}, the trace has {line}")
    lost = [f"{place} {text}" for place, text in told.items() if place >= len(lines)]
    require(not lost, f"clients were told what is not in the trace: {lost[:3]}")
    if has_ended:
        same(f"{len(lines) - 1} house close-run = ok", lines[-1])
        came = sum(re.search(r" (join|fork) = [0-9]+$", line) is not None for line in lines)
        same(came, sum(line.endswith(" exit = ok") for line in lines))


def is_read(program: str, trace: bytes, audit: Audit, capacity: int) -> None:
    """The program audits the trace as the plain auditor does, shows its lines, and replays its acts."""
    with tempfile.NamedTemporaryFile(prefix="fdref-", dir=SCRATCH) as file:
        file.write(trace)
        file.flush()
        same(audit.verdict, run([program, "audit", file.name]))
        is_shown(shown(trace), run([program, "show", file.name]))
        script = shown(trace, acts=True)
        is_shown(script, run([program, "show", "--acts", file.name]))
    words = [] if capacity == PIPE_CAPACITY else ["--pipe-capacity", str(capacity)]
    again = run([program, "replay", *words], script.stdout)
    world = audit.judge.world
    totals = f"records {len(audit.frames.lines)} in {world.bytes_in} out {world.bytes_out}"
    text = "".join(f"{line}\n" for line in [*audit.frames.lines, totals]).encode()
    is_shown(Ran(0, text, b""), again)


def is_shown(wanted: Ran, given: Ran) -> None:
    """Fails unless two runs are the same, and tells where they are not."""
    same((wanted.status, wanted.stderr), (given.status, given.stderr))
    require(wanted.stdout == given.stdout, difference(wanted.stdout, given.stdout))
