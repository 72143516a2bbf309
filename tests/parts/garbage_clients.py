"""The clients in Python and in C with a server whose answers are bent."""

import itertools
import random
import socket
import threading
import time
from collections import Counter
from collections.abc import Iterator, Sequence
from functools import partial

from parts.c_calls import NUMBERS, Told
from parts.c_programs import Build, called, outcome_text
from parts.garbage_answers import Exchange, Given, Hearing, exchange, pieces
from support.counting import Case, Failure, require, same
from support.frames import framed, recorded, u32
from support.serving import SECONDS, Listener
from support.sources import numbered, source

import fdref

# Of the pieces of a stream one in so many comes late. How many streams one driver in C is sent.
LATE, STREAMS = 20, 8


# ---- the server


def pour(listener: socket.socket, parts: Sequence[bytes], pick: random.Random) -> None:
    """Takes a connection, sends these bytes and no more, and takes what it is sent until the client hangs up."""
    connection, _ = listener.accept()
    connection.settimeout(SECONDS)
    with connection:
        taking = threading.Thread(target=take_all, args=(connection,), daemon=True)
        taking.start()
        try:
            for some in parts:
                if pick.random() < 1 / LATE:
                    time.sleep(0.001)
                connection.sendall(some)
            connection.shutdown(socket.SHUT_WR)
        except OSError:
            # the client has hung up
            pass
        taking.join(SECONDS)


def take_all(connection: socket.socket) -> None:
    """Takes what a client sends, until it hangs up."""
    try:
        while connection.recv(65_536):
            pass
    except OSError:
        pass


class Pouring(Listener):
    """A socket whose clients are sent streams, one after another."""

    def pouring(self, stream: bytes, pick: random.Random) -> threading.Thread:
        """A thread that sends the next client a stream."""
        thread = threading.Thread(target=pour, args=(self.socket, pieces(pick, stream), pick), daemon=True)
        thread.start()
        return thread


# ---- the client in Python


class Caller:
    """A client in Python, which makes calls until it is lost."""

    def __init__(self, path: str, is_to_tell: bool) -> None:
        self.path = path
        self.process: fdref.Process | None = None
        self.told: list[tuple[int, int]] = []
        self.is_to_tell = is_to_tell

    def asked(self, request: str) -> Given:
        """What a request comes to."""
        self.told.clear()
        try:
            text = self.called(request)
        except fdref.CallError as error:
            same(fdref.CallError, type(error))
            return Given("error", error.name, error.place, self.waits())
        except fdref.Refused as refused:
            return Given("refused", refused.reason, self.place(), self.waits())
        except ConnectionError:
            return Given("lost", "", 0)
        return Given("value", text, self.place(), self.waits())

    def called(self, request: str) -> str:
        """The value of a request, as lines have it."""
        word, _, number = request.partition(" ")
        if word in ("join", "attach"):
            self.process = fdref.join(self.path) if word == "join" else fdref.attach(self.path, int(number))
            if self.is_to_tell:
                self.process.on_wait = lambda place, moved: self.told.append((place, moved))
            return outcome_text(self.process.pid if word == "join" else None)
        assert self.process
        return called(self.process, request)

    def place(self) -> int:
        """The place of the last answer, where there is a process."""
        return self.process.place if self.process else 0

    def waits(self) -> tuple[tuple[int, int], ...]:
        """How the last call waited, of which it was told each time."""
        waits = self.process.waits if self.process else []
        require(not self.is_to_tell or self.told == waits, f"it was told {self.told} of {waits}")
        return tuple(waits)


def by_python(pouring: Pouring, pick: random.Random, given: Exchange, met: Counter[str]) -> None:
    """The client in Python takes a stream as it must."""
    caller = Caller(pouring.path, pick.random() < 0.5)
    hearing = Hearing(given.stream, is_in_c=False)
    thread = pouring.pouring(given.stream, pick)
    # a client that waits for ever is told by an exception that is not documented
    socket.setdefaulttimeout(SECONDS)
    try:
        for request in given.requests:
            wanted, got = hearing.asked(request), took(caller, request)
            met[f"{wanted.how} in Python"] += 1
            if wanted.how == "lost":
                same("lost", got.how)
            else:
                require(wanted == got, f"{request}: wanted {wanted!r:.300}, given {got!r:.300}")
            if caller.process is None:
                break
    finally:
        socket.setdefaulttimeout(None)
        if caller.process:
            caller.process.exit()
        thread.join(SECONDS)
    same(False, thread.is_alive())


def took(caller: Caller, request: str) -> Given:
    """What a request of a client in Python comes to, whose exceptions are only those that are documented."""
    try:
        return caller.asked(request)
    except Failure:
        raise
    except Exception as raised:
        raise Failure(f"{request} raises {raised!r}") from None


def in_python(seed: str, first: int, met: Counter[str]) -> Iterator[Case]:
    """Streams for the client in Python."""
    pouring = Pouring()
    try:
        for number in itertools.count(first):
            pick = source(f"{seed} client", number)
            yield numbered("stream", seed, number), partial(by_python, pouring, pick, exchange(pick), met)
    finally:
        pouring.close()


# ---- the client in C


class Bent(Told):
    """A driver whose processes are sent streams."""

    def heard(self, pick: random.Random, given: Exchange, returns: bool) -> list[list[str]]:
        """What the requests come to, up to an opening that fails."""
        parts = pieces(pick, given.stream)
        thread = threading.Thread(target=pour, args=(self.socket, parts, pick), daemon=True)
        thread.start()
        self.returns(returns)
        answers = []
        for request in given.requests:
            answers.append(self.answers(request))
            if len(answers) == 1 and answers[0][-1].startswith("- "):
                break
        self.exit()
        thread.join(SECONDS)
        return answers


def lines_of(wanted: Given, is_opening: bool, returns: bool) -> list[str]:
    """The lines of the driver for what a request comes to."""
    waits = [f"{place} {'part' if at else 'parked'} {moved}" for at, (place, moved) in enumerate(wanted.waits)]
    after = f" after {len(waits)} {wanted.waits[-1][1]}" if waits and not returns else ""
    if wanted.how == "lost":
        last = f"- {wanted.text}" if is_opening else f"- lost {wanted.text}"
    elif wanted.how == "refused":
        why = NUMBERS[wanted.text]
        last = f"- {why}" if is_opening else f"- refused {wanted.text} {why}"
    elif is_opening and wanted.how == "error":
        last = f"- {wanted.text}"
    else:
        last = f"{wanted.place} {'error ' if wanted.how == 'error' else ''}{wanted.text}{after}"
    return [*(waits if returns else []), last]


def opening_text(request: str, wanted: Given) -> Given:
    """What an opening comes to. A child has the number by which it was attached."""
    return wanted._replace(text="ok") if wanted.how == "value" and request.startswith("attach") else wanted


def by_c(build: Build, pick: random.Random, met: Counter[str]) -> None:
    """The client in C takes streams as it must, and its driver ends well."""
    told = Bent(build, pick.choice([0, 7, pick.randrange(2**32)]))
    try:
        for _ in range(STREAMS):
            given, returns = exchange(pick), pick.random() < 0.4
            hearing = Hearing(given.stream, is_in_c=True)
            answers = told.heard(pick, given, returns)
            for at, lines in enumerate(answers):
                wanted = hearing.asked(given.requests[at])
                met[f"{wanted.how} in C"] += 1
                text = lines_of(opening_text(given.requests[at], wanted), at == 0, returns)
                require(text == lines, f"{given.requests[at]}: wanted {text!r:.300}, given {lines!r:.300}")
            is_begun = hearing_of_opening(given) == "value"
            same(len(given.requests) if is_begun else 1, len(answers))
        told.ends()
    finally:
        told.vanish()


def hearing_of_opening(given: Exchange) -> str:
    """How the opening of an exchange comes out."""
    return Hearing(given.stream, is_in_c=True).asked(given.requests[0]).how


def in_c(builds: Sequence[Build], seed: str, first: int, met: Counter[str]) -> Iterator[Case]:
    """Streams for the client in C."""
    for number in itertools.count(first):
        pick = source(f"{seed} client in C", number)
        yield numbered("streams", seed, number), partial(by_c, builds[number % len(builds)], pick, met)


# ---- what is always sent

JOINED = framed(recorded(0, "0"))
# Requests, and answers to them that a client has to give up on.
GIVEN_UP: list[tuple[str, bytes]] = [
    ("close 3", recorded(1, "5")),
    ("close 3", recorded(1, "parked 0")),
    ("read 0 5", recorded(1, "5")),
    ("write 0 x6869", recorded(1, "x6869")),
    ("fork", recorded(1, "ok")),
    ("pipe", recorded(1, "3")),
    ("fstat 0", recorded(1, "ok")),
    ("getfl 0", recorded(1, "ok")),
    ("getfl 0", recorded(1, "128")),
    ("setfl 0 -,nonblock", recorded(1, "0")),
    ("rename a b", recorded(1, "parked 0")),
    ("dup 0", recorded(1, "regular 5 1")),
    ("close 3", b"\2\x11\0"),
    ("close 3", b"\2\x15"),
    ("close 3", b"\2\x15" + bytes(15)),
    ("close 3", b"\2\x15" + bytes(17)),
    ("close 3", b"\2\x10"),
    ("fstat 0", b"\1" + bytes(8) + b"\5\3" + bytes(12)),
    ("read 0 65536", b"\1" + bytes(8) + b"\3" + u32(5) + b"abcd"),
    ("read 0 65536", b"\1" + bytes(8) + b"\3" + u32(65_537) + bytes(65_537)),
]
# What only the client in C has to give up on.
GIVEN_UP_IN_C: list[tuple[str, bytes]] = [
    ("read 0 5", recorded(1, "x616263646566")),
    ("write 0 x6869", recorded(1, "3")),
    ("dup 0", recorded(1, f"{2**31}")),
    ("pipe", recorded(1, f"{2**31} 0")),
    ("lseek 0 0 end", recorded(1, f"{2**63}")),
]


def plain_exchanges() -> Iterator[tuple[str, Exchange]]:
    """Exchanges that are always made."""
    for request, payload in GIVEN_UP + GIVEN_UP_IN_C:
        stream = JOINED + framed(payload, recorded(2, "ok"))
        yield f"{request} told {payload.hex()[:40]}", Exchange(["join", request, "close 3"], stream)
    for opening, payload in (("join", recorded(0, "ok")), ("attach 7", recorded(0, "7")), ("join", b"\2\x12\0")):
        yield f"{opening} told {payload.hex()[:40]}", Exchange([opening, "close 3"], framed(payload))


def plain_in_python() -> Iterator[Case]:
    """What the client in Python is always sent."""
    pouring = Pouring()
    try:
        for name, given in plain_exchanges():
            yield name, partial(by_python, pouring, source(name, 0), given, Counter())
    finally:
        pouring.close()


def plain_in_c(builds: Sequence[Build]) -> Iterator[Case]:
    """What the client in C is always sent."""
    for build in builds:
        for name, given in plain_exchanges():
            yield f"{name}, {build.name}", partial(takes_one, build, name, given)


def takes_one(build: Build, name: str, given: Exchange) -> None:
    """The client in C takes a stream as it must."""
    told, hearing = Bent(build, 0), Hearing(given.stream, is_in_c=True)
    try:
        answers = told.heard(source(name, 0), given, returns=False)
        wanted = [hearing.asked(request) for request in given.requests[: len(answers)]]
        same([lines_of(it, at == 0, returns=False) for at, it in enumerate(wanted)], answers)
        told.ends()
    finally:
        told.vanish()
