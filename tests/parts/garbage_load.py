"""A server that answers bench/load.c rightly up to a moment, and what that must say of it."""

import itertools
import os
import random
import re
import selectors
import socket
import threading
import time
from collections import Counter
from collections.abc import Callable, Iterator, Sequence
from functools import partial
from typing import NamedTuple

from parts.c_programs import WARNINGS, Build, compiles
from support.counting import Case, require, same
from support.frames import ERRORS, framed, outcome_bytes, recorded, u32
from support.places import TOP
from support.running import Ran, run
from support.serving import SECONDS
from support.sources import numbered, source

# How long a server that has gone wrong waits for what the load says of it, and one that says no more.
PATIENCE, A_MOMENT = 5.0, 0.1

# How many connections each mode may have.
MODES = {"fstat": (1, 2, 3, 16), "pwrite": (1, 2, 3, 16), "pipe": (2, 4, 16), "sleepers": (0, 1, 3)}
JOIN, ATTACH, OPEN, CLOSE, READ, WRITE, PWRITE, PIPE, FSTAT, FORK = 1, 2, 16, 17, 18, 19, 21, 26, 30, 31

# The outcomes that answers may have, by the bytes of the requests. Those of a read and a write may wait before.
RIGHT = {
    JOIN: "7",
    ATTACH: "ok",
    OPEN: "0",
    CLOSE: "ok",
    READ: "x6664726566353637",
    WRITE: "8",
    PWRITE: "8",
    PIPE: "0 1",
    FSTAT: "pipe 0 0",
    FORK: "9",
}
# Outcomes of every kind, with other lengths of what is read.
OTHERS = ["ok", "3", "x", "x66647265663536", "61*9", "61*65536", "0 1", "regular 0 1", "parked 0", "part 1"]
REFUSALS = [b"\2\x11", b"\2\x12", b"\2\x15" + bytes(16)]


def payload_of(outcome: str) -> bytes:
    """The payload of an answer, whose place is never looked at."""
    return recorded(5, outcome)


def is_kind(request: int, outcome: str) -> bool:
    """Whether an outcome is of the kind and the length of an answer to a request, though it may wait."""
    if outcome.startswith(("parked", "part")):
        return request in (READ, WRITE)
    given, right = outcome_bytes(outcome), outcome_bytes(RIGHT[request])
    return (given[0], len(given)) == (right[0], len(right))


# ---- what goes wrong

# What a server sends in place of an answer to a request of this byte, and whether it hangs up then.
Wrong = Callable[[random.Random, int], tuple[bytes, bool]]


def garbage(pick: random.Random, request: int) -> tuple[bytes, bool]:
    """Random bytes, which begin with a length that no answer has."""
    return b"\xff" + pick.randbytes(pick.choice([3, 10, 300, 100_000])), True


def cut(pick: random.Random, request: int) -> tuple[bytes, bool]:
    """Less than an answer."""
    answer = framed(payload_of(RIGHT[request]))
    return answer[: pick.randrange(len(answer))], True


def huge_length(pick: random.Random, request: int) -> tuple[bytes, bool]:
    """A length that no answer has here, and less than that."""
    length = pick.choice([65, 65_535, 65_536, 65_537, 66_048, 66_049, 2**31 - 1, 2**31, 2**32 - 5, 2**32 - 1])
    return u32(length) + pick.randbytes(pick.choice([0, 1, 40, 64])), False


def empty_frame(pick: random.Random, request: int) -> tuple[bytes, bool]:
    """An answer without the first bytes of one."""
    return framed(pick.choice([b"", b"\1", b"\1" + bytes(8), b"\2"])), False


def other_kind(pick: random.Random, request: int) -> tuple[bytes, bool]:
    """An answer of another request."""
    return framed(payload_of(pick.choice([it for it in OTHERS if not is_kind(request, it)]))), False


def no_kind(pick: random.Random, request: int) -> tuple[bytes, bool]:
    """What is no outcome, or has a byte too many or too few."""
    right = payload_of(RIGHT[request])
    bent = [b"\3" + right[1:], b"\0" + right[1:], right + b"\0", right[:-1], right[:9] + bytes([0]) + right[10:]]
    return framed(pick.choice([*bent, right[:9] + bytes([pick.randrange(9, 256)]) + right[10:]])), False


def wrong_count(pick: random.Random, request: int) -> tuple[bytes, bool]:
    """Bytes read that are fewer or more than their number says."""
    if request != READ:
        return no_kind(pick, request)
    return framed(payload_of(RIGHT[READ])[:10] + u32(pick.choice([0, 7, 9, 2**32 - 1])) + b"fdref567"), False


def error(pick: random.Random, request: int) -> tuple[bytes, bool]:
    """An error."""
    return framed(payload_of(f"error {pick.choice(ERRORS)}")), False


def refusal(pick: random.Random, request: int) -> tuple[bytes, bool]:
    """A refusal."""
    return framed(pick.choice(REFUSALS)), False


def more(pick: random.Random, request: int) -> tuple[bytes, bool]:
    """The answer, and others that were not asked for."""
    answer = framed(payload_of(RIGHT[request]))
    return answer * pick.choice([2, 2, 3, 1_000]), False


def nothing(pick: random.Random, request: int) -> tuple[bytes, bool]:
    """No answer."""
    return b"", True


WRONG: dict[str, Wrong] = {
    "garbage": garbage,
    "cut off": cut,
    "huge lengths": huge_length,
    "too short": empty_frame,
    "another kind": other_kind,
    "no kind": no_kind,
    "wrong counts": wrong_count,
    "errors": error,
    "refusals": refusal,
    "too many": more,
    "none, and a hanging up": nothing,
}


# ---- the server


class Server:
    """A server in a thread, which answers rightly but for the request at a moment, or the first one of a byte."""

    def __init__(
        self, path: str, pick: random.Random, wrong: str | None, moment: int, byte: int | None = None
    ) -> None:
        self.pick, self.wrong, self.moment, self.byte = pick, wrong, moment, byte
        self.requests = 0
        self.is_wrong = self.is_sleeper = False
        # a server that is slow sends small pieces, and lets calls wait
        self.is_slow = pick.random() < 0.3
        self.held: dict[socket.socket, bytes] = {}
        self.listener = socket.socket(socket.AF_UNIX, socket.SOCK_STREAM)
        self.listener.bind(path)
        self.listener.listen()
        self.selector = selectors.DefaultSelector()
        self.selector.register(self.listener, selectors.EVENT_READ)
        self.wakes, self.stops = socket.socketpair()
        self.selector.register(self.stops, selectors.EVENT_READ)
        self.until: float | None = None
        self.was_patient = False
        self.thread = threading.Thread(target=self.serve, daemon=True)
        self.thread.start()

    def end(self) -> None:
        """Ends the thread, and closes all."""
        self.wakes.close()
        self.thread.join(SECONDS)
        for it in [*self.held, self.listener, self.stops]:
            it.close()
        self.selector.close()

    def serve(self) -> None:
        """Answers until it is ended."""
        while True:
            left = None if self.until is None else max(self.until - time.monotonic(), 0)
            ready = [key.fileobj for key, _ in self.selector.select(left)]
            if self.stops in ready:
                return
            if not ready:
                self.hang_up()
            for it in ready:
                assert isinstance(it, socket.socket)
                self.take(it)

    def take(self, it: socket.socket) -> None:
        """Takes a connection, or what one sends."""
        if it is self.listener:
            made, _ = it.accept()
            made.settimeout(SECONDS)
            self.held[made] = b""
            self.selector.register(made, selectors.EVENT_READ)
            return
        try:
            some = it.recv(65_536) if it in self.held else b""
            if some:
                self.answer(it, self.held[it] + some)
            elif it in self.held:
                self.close(it)
        except OSError:
            self.close(it)

    def answer(self, it: socket.socket, some: bytes) -> None:
        """Answers the whole requests of a connection."""
        self.held[it] = b""
        while len(some) >= 4 and len(some) >= 4 + int.from_bytes(some[:4], "big"):
            end = 4 + int.from_bytes(some[:4], "big")
            request, some = some[4], some[end:]
            self.requests += 1
            if self.wrong is not None and not self.is_wrong and self.is_due(request):
                self.go_wrong(it, request)
            else:
                self.send(it, self.right(request))
            if it not in self.held:
                return
        self.held[it] = some

    def is_due(self, request: int) -> bool:
        """Whether the last request, of this byte, is the one that is answered wrongly."""
        return self.requests - 1 == self.moment if self.byte is None else request == self.byte

    def right(self, request: int) -> bytes:
        """The right answer to a request."""
        answer = framed(payload_of(RIGHT[request]))
        if request == READ and self.is_sleeper:
            return framed(payload_of("parked 0"))
        waits = [f"parked {self.pick.randrange(3)}", "part 7"][: self.pick.randrange(3)] if self.is_slow else []
        return framed(*map(payload_of, waits if request in (READ, WRITE) else [])) + answer

    def go_wrong(self, it: socket.socket, request: int) -> None:
        """Answers wrongly, and says no more after a while."""
        assert self.wrong is not None
        self.is_wrong = True
        answer, hangs_up = WRONG[self.wrong](self.pick, request)
        self.until = time.monotonic() + (A_MOMENT if hangs_up else PATIENCE)
        self.send(it, answer)
        if hangs_up:
            for held in self.pick.choice([[it], list(self.held)]):
                self.close(held)

    def send(self, it: socket.socket, some: bytes) -> None:
        """Sends bytes, in small pieces where it is slow."""
        size = self.pick.choice([1, 3, 10]) if self.is_slow and len(some) < 200 else len(some) or 1
        for at in range(0, len(some), size):
            it.sendall(some[at : at + size])

    def close(self, it: socket.socket) -> None:
        """Closes a connection."""
        if self.held.pop(it, None) is not None:
            self.selector.unregister(it)
        it.close()

    def hang_up(self) -> None:
        """Closes all connections, after it has waited for what the load says."""
        self.was_patient = True
        self.until = None
        for it in list(self.held):
            self.close(it)


# ---- the load


class Load:
    """The load generator as a build makes it."""

    def __init__(self, build: Build) -> None:
        self.path = os.path.join(build.folder, f"{build.name.replace(' ', '-')}-load")
        self.socket = f"{self.path}.socket"
        # it is no part of the client, and in C11
        words = ["-std=c11" if word == "-std=c99" else word for word in build.words]
        compiles([*words, *WARNINGS, "-pthread", str(TOP / "bench" / "load.c"), "-o", self.path])

    def run(self, words: Sequence[str], server: str = "fdref") -> Ran:
        """Puts load on what listens at its socket."""
        return run([self.path, server, self.socket, *words], seconds=2 * SECONDS)


class Words(NamedTuple):
    """What a load is asked to do."""

    mode: str
    connections: int
    depth: int
    requests: int

    def spelled(self) -> list[str]:
        """The words of the command."""
        return [str(word) for word in self]

    def requests_in_all(self) -> int:
        """How many requests all its connections make."""
        if self.mode == "sleepers":
            return 2 + 4 * self.connections + self.requests
        return (2 + self.requests) * self.connections


def is_judged(load: Load, pick: random.Random, met: Counter[str]) -> None:
    """The load ends well with a server that is right, and with one that is not it says so in one line."""
    mode = pick.choice(list(MODES))
    words = Words(mode, pick.choice(MODES[mode]), pick.choice([1, 2, 16, 256]), pick.choice([1, 3, 30, 300]))
    wrong = None if pick.random() < 0.1 else pick.choice(list(WRONG))
    moment = pick.randrange(words.requests_in_all())
    is_told(load, Server(load.socket, pick, wrong, moment), words, met)


def is_told(load: Load, server: Server, words: Words, met: Counter[str]) -> None:
    """What a load says that a server goes wrong with, or does not."""
    mode, wrong, pick = words.mode, server.wrong, server.pick
    server.is_sleeper = mode == "sleepers"
    try:
        done = load.run(words.spelled())
    finally:
        server.end()
        os.unlink(load.socket)
    kind = wrong or "right answers"
    met[kind] += 1
    how = f"{kind} in {' '.join(words.spelled())}, at request {server.moment}"
    if wrong is None:
        is_right = done.status == 0 and re.fullmatch(rb"(\d+|inf) requests a second\n", done.stdout) and not done.stderr
        require(is_right, f"{how}: {done.said()}")
        return
    same(True, server.is_wrong)
    has_said = done.status == 1 and not done.stdout and re.fullmatch(rb"load: [^\n]{1,200}\n", done.stderr)
    # a sleeper that was told too much hears nothing more
    is_unheard = mode == "sleepers" and wrong == "too many"
    require(has_said or is_unheard, f"{how}: {done.said()}")
    # where the server has not hung up, what it sent is what was wrong
    is_said_first = not server.was_patient or WRONG[wrong](pick, FSTAT)[1]
    require(is_said_first, f"{how}: it says nothing before the server hangs up")


def with_echo(load: Load, mode: str) -> None:
    """The load ends well with its own echo."""
    done = load.run([mode, "2", "16", "200"], "echo")
    require(done.status == 0 and re.fullmatch(rb"\d+ requests a second\n", done.stdout), done.said())
    require(not os.path.exists(load.socket), "the socket of the echo is left")


def finds_nobody(load: Load) -> None:
    """A load without a server says so."""
    done = load.run(["fstat", "1", "1", "1"])
    same((1, b"", b"load: connect: No such file or directory\n"), tuple(done))


def cases(loads: Sequence[Load], seed: str, first: int, met: Counter[str]) -> Iterator[Case]:
    """Servers of a seed."""
    for number in itertools.count(first):
        load, pick = loads[number % len(loads)], source(f"{seed} load", number)
        yield numbered("server", seed, number), partial(is_judged, load, pick, met)


# The words of a load that makes a request of each kind.
WORDS = {
    **dict.fromkeys((JOIN, PIPE, FSTAT), Words("fstat", 2, 4, 20)),
    **dict.fromkeys((OPEN, PWRITE), Words("pwrite", 1, 1, 5)),
    **dict.fromkeys((FORK, ATTACH, READ, WRITE), Words("pipe", 2, 2, 9)),
    CLOSE: Words("sleepers", 2, 1, 5),
}


def each_wrong(load: Load, wrong: str | None, byte: int) -> None:
    """A server goes wrong with the first request of a kind."""
    pick = source(f"{wrong} {byte}", 0)
    is_told(load, Server(load.socket, pick, wrong, 0, byte), WORDS[byte], Counter())


def plain_cases(loads: Sequence[Load]) -> Iterator[Case]:
    """What is the same each time."""
    for number, (wrong, byte) in enumerate(itertools.product([None, *WRONG], WORDS)):
        yield f"{wrong} of request {byte}", partial(each_wrong, loads[number % len(loads)], wrong, byte)
    for load in loads:
        name = os.path.basename(load.path)
        yield f"{name} without a server", partial(finds_nobody, load)
        for mode in MODES:
            yield f"{name} with its echo, {mode}", partial(with_echo, load, mode)
