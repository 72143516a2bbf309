"""64 clients of one server at once, of which half vanish anywhere in their bytes; the others go in the end."""

import queue
import random
import re
import threading
import time
from collections.abc import Iterator, Sequence
from functools import partial
from pathlib import Path

from support import plain_model
from support.auditing import Audit, Judge, act_of, legal
from support.counting import Case, Failure, require, same
from support.frames import request_frame
from support.players import Player, are_told
from support.running import run
from support.runs import line_of
from support.serving import ALL_RECORDS, SECONDS, Client, Server, outcome_of, report
from support.sources import numbered, source

CLIENTS = 64
# Those who join; each of them has a pipe, which its children share.
FOUNDERS, CHILDREN = 14, 4

# How many calls a client makes that stays, how many of them at once at most, and how long its call waits before it
# goes, whatever that waits for.
CALLS, AHEAD_MOST, PATIENCE = 40, 4, 0.15

# How long one who does not join at once waits for a child.
A_CHILD = 1

RANDOM_CALLS = (
    "read 0 {c}|read 0 {c}|read 0 {c}|read {d} {c}|write 1 {x}|write 1 {x}|write 1 {x}|write {d} {x}|open {n} r"
    "|open {n} w|open {n} {f}|open {n} {f}|open s rw,creat|pread {d} 0 {c}|close {e}|dup2 {d} {e}|dup2 {d} {e}"
    "|fstat {d}|lseek {d} 1 cur|mkfifo {n}|unlink {n}|link {n} s|getfl {d}|setfl {d} {s}|rename {n} {n}"
).split("|")
FORKS = 0.01
FIELDS = {
    "c": "0 1 100 1024 65536".split(),
    "d": "0 1 2 2 3 3 4 7".split(),
    "e": "0 1 2 2 3 3 4 4 5".split(),
    "f": "r,nonblock w,nonblock".split(),
    "n": "f f g h".split(),
    "s": "- - r,nonblock -,append".split(),
}

# Numbers of children that nobody has attached yet.
Born = queue.Queue[int]

CAME = re.compile(r"\d+ p(\d+) (?:join = \d+|attach = ok)")
FORKED = re.compile(r"\d+ p\d+ fork = (\d+)")
WENT = re.compile(r"\d+ p(\d+) exit = ok")


class Goer:
    """A client that makes random calls, and goes: it vanishes within its bytes, or it runs out of patience or calls."""

    def __init__(self, client: Client, pick: random.Random, is_founder: bool, vanishes: bool, born: Born) -> None:
        self.player = Player(client)
        self.pick = pick
        self.is_founder = is_founder
        # how many whole requests it sends before it vanishes within the next one
        self.left = pick.randrange(CALLS) if vanishes else None
        self.born = born
        self.has_heard_all = False
        self.fault: str | None = None

    def run(self) -> None:
        """Does all that it does."""
        try:
            if self.plays():
                self.stops()
        except (Failure, OSError, ValueError) as fault:
            # who vanishes is told nothing, and may have been hung up on
            if self.left is None:
                self.fault = f"p{self.player.number}: {fault!r}"
        finally:
            self.player.client.vanish()

    def plays(self) -> bool:
        """Opens its process and makes its calls: whether it stops then, and has not vanished or been hung up on."""
        stays = self.left is None
        if not self.says(self.opening()):
            return False
        if not self.hears():
            return stays
        if self.player.number is None:
            self.player.is_hung_up_on()
            return False
        for request in ("pipe", "mkfifo f", *["fork"] * CHILDREN) if self.is_founder else ("pipe",):
            if not self.says([request]):
                return False
            if not self.hears():
                return stays
        count = CALLS
        while count > 0:
            requests = [self.request() for _ in range(self.pick.randrange(AHEAD_MOST) + 1)]
            count -= len(requests)
            if not self.says(requests):
                return False
            # who vanishes may send more without a look at the answers
            if (stays or self.pick.random() < 0.7) and not self.hears():
                return stays and self.pick.random() < 0.7
        return stays

    def opening(self) -> list[str]:
        """Its first request: it attaches a child, if there is one soon, or joins."""
        if not self.is_founder:
            try:
                return [f"attach {self.born.get(timeout=A_CHILD)}"]
            except queue.Empty:
                pass
        return ["join"] if self.pick.random() < 0.95 else [f"attach {self.pick.randrange(200)}"]

    def request(self) -> str:
        """A random call."""
        if self.pick.random() < FORKS:
            return "fork"
        words = self.pick.choice(RANDOM_CALLS).split(" ")
        return " ".join(self.field(word[1]) if word.startswith("{") else word for word in words)

    def field(self, kind: str) -> str:
        """A random field."""
        if kind == "x":
            count = self.pick.choice([1, 5, 300, 512, 513, 1_100, 3_000])
            return plain_model.data_text(bytes([self.pick.randrange(256)]) * count)
        return self.pick.choice(FIELDS[kind])

    def says(self, requests: Sequence[str]) -> bool:
        """Sends requests, all at once: whether it goes on, and has not vanished within them."""
        if self.left is None or self.left >= len(requests):
            self.left = None if self.left is None else self.left - len(requests)
            self.player.ask(*requests)
            return True
        whole, cut = requests[: self.left], request_frame(requests[self.left])
        self.player.ask(*whole)
        self.player.client.send(cut[: self.pick.randrange(len(cut))])
        time.sleep(self.pick.choice([0, 0, 0.001, 0.005]))
        return False

    def hears(self) -> bool:
        """Hears all answers that are due: whether there were all of them before its patience was at its end."""
        while self.player.asked:
            if not self.player.client.has_answer(PATIENCE if self.player.waits else SECONDS):
                require(self.player.waits, f"no answer in {SECONDS} seconds")
                return False
            request = self.player.asked[0]
            outcome = self.player.hear().split(" ")[1]
            if request == "fork" and outcome.isdigit():
                self.born.put(int(outcome))
            if self.left is not None and self.player.waits and self.pick.random() < 0.3:
                return False
        return True

    def stops(self) -> None:
        """Sends nothing more, and hears all that it is told still."""
        self.player.client.stop()
        while not self.player.has_ended():
            self.player.hear()
        self.has_heard_all = True


def crowd(program: str, seed: str) -> None:
    """64 clients at once."""
    pick = source(seed, 0)
    with Server(program, CLIENTS, ALL_RECORDS) as server:
        born: Born = queue.Queue()
        vanishing = set(pick.sample(range(CLIENTS), CLIENTS // 2))
        goers = [
            Goer(server.client(), source(seed, 1 + number), number < FOUNDERS, number in vanishing, born)
            for number in range(CLIENTS)
        ]
        threads = [threading.Thread(target=goer.run, daemon=True) for goer in goers]
        for thread in threads:
            thread.start()
        until = time.monotonic() + 2 * SECONDS
        for thread in threads:
            thread.join(max(until - time.monotonic(), 0))
            require(not thread.is_alive(), "the clients do not come to an end")
        faults = [goer.fault for goer in goers if goer.fault]
        require(not faults, faults[0] if faults else "")
        is_right(program, server, goers)


def is_right(program: str, server: Server, goers: Sequence[Goer]) -> None:
    """The server ends by itself, and what it says, its trace and what the clients were told agree."""
    ran = outcome_of(server.process)
    audit = Audit(Path(server.trace).read_bytes())
    lines, world = audit.frames.lines, audit.judge.world
    same((0, report(CLIENTS, len(lines), world.bytes_in, world.bytes_out), b""), tuple(ran))
    same(legal(len(lines)), audit.verdict)
    same(audit.verdict, run([program, "audit", server.trace]))
    have_gone(lines)
    ready = ready_at_exit(lines)
    for goer in goers:
        are_told(lines, goer.player.told)
        if goer.has_heard_all and goer.player.number is not None:
            number = goer.player.number
            mine = {place for place, line in enumerate(lines) if is_told_to(line, number)}
            lost = sorted(mine - set(goer.player.told))
            require(not lost, f"p{number} has heard all, and was not told of {[lines[place] for place in lost[:3]]}")
            require(number not in ready, f"p{number} was given up, and its call was ready")


def is_told_to(line: str, number: int) -> bool:
    """Whether the client of a process is told of a record: not of its exit, and of no opening that was refused."""
    is_refused = line.endswith((" attach = error ESRCH", " join = error EAGAIN"))
    return line.split(" ")[1] == f"p{number}" and not WENT.fullmatch(line) and not is_refused


def have_gone(lines: Sequence[str]) -> None:
    """Who has joined or was attached has exited, once. Only children that were not attached are left at the closing."""
    same(f"{len(lines) - 1} house close-run = ok", lines[-1])
    here: set[str] = set()
    children: set[str] = set()
    is_closing = False
    for line in lines[:-1]:
        came, forked, went = CAME.fullmatch(line), FORKED.fullmatch(line), WENT.fullmatch(line)
        require(not is_closing or went, f"{line} after the first exit of a child that was not attached")
        if came:
            children.discard(came[1])
            here.add(came[1])
        elif forked:
            children.add(forked[1])
        elif went:
            is_closing = is_closing or went[1] in children
            require(went[1] in (children if is_closing else here), f"{line}, though it was not here")
            (children if is_closing else here).remove(went[1])
    require(not here and not children, f"without an exit: {sorted(here | children)}")


def ready_at_exit(lines: Sequence[str]) -> set[int]:
    """The processes whose call was ready when they exited."""
    judge, ready = Judge(), set()
    for text in lines:
        act = act_of(line_of(text).act)
        process = judge.world.processes.get(act.actor) if isinstance(act.actor, int) else None
        if act.word == "exit" and process and process.waits and process.waits.is_ready(judge.world):
            ready.add(process.number)
        judge.outcome_of(act)
    return ready


def cases(program: str, seed: str, count: int) -> Iterator[Case]:
    """So many crowds, each with choices of its own."""
    for number in range(count):
        yield numbered("64 clients, run", seed, number), partial(crowd, program, f"{seed} {number}")
