"""Clients of a server: enemies that do all that a client should not, and honest ones that work beside them."""

import contextlib
import random
import socket
import threading
import time
from collections.abc import Callable, Sequence

from support import plain_model
from support.counting import Failure, require
from support.frames import JOIN, Stream, attach_frame, framed, line_of, request_frame, u32
from support.serving import SECONDS, Client

# How long an enemy that sends much waits until the server takes more of it, and an honest client thinks.
PATIENCE = 0.1
WHILE_MOST = 0.01
# The descriptors that enemies ask for first, by which the trace tells who they are: this one and those after it.
MARKS = 1_000_000
LARGEST = 65_536
ROOM = 16

LENGTHS = (0, 5, 65_535, 65_536, 65_792, 65_793, 66_048, 2**24, 2**31 - 1, 2**31, 2**32 - 1)
GREETINGS = (b"GET / HTTP/1.0\r\n\r\n", b"FDTRACE1", b"\0" * 64, b"\xff" * 64, b"join\np0 pipe\n", u32(1) * 9)


class Full(Exception):
    """An honest client is refused for want of room."""


class Scene:
    """What the clients of a run share: whether the honest ones are done, and the children of enemies."""

    def __init__(self, may_hog: bool) -> None:
        self.over = threading.Event()
        self.born: list[int] = []
        # whether enemies take all processes and names
        self.may_hog = may_hog


class Talker:
    """A client that keeps all bytes that it has sent and was sent."""

    # there is one once it has connected
    client: Client

    def __init__(self, pick: random.Random, number: int, scene: Scene) -> None:
        self.pick = pick
        self.number = number
        self.scene = scene
        self.sent = bytearray()
        self.heard = bytearray()
        self.read = 0
        # whether it said that it sends nothing more, and whether it has heard all that there was
        self.has_stopped = False
        self.has_ended = False
        self.fault: str | None = None

    # -- bytes

    def send(self, some: bytes, seconds: float = SECONDS) -> bool:
        """Sends bytes: whether the server took all of them, each within a time."""
        left = memoryview(some)
        self.client.socket.settimeout(seconds)
        try:
            while left:
                count = self.client.socket.send(left)
                self.sent += left[:count]
                left = left[count:]
        except (BrokenPipeError, ConnectionResetError, TimeoutError):
            return False
        return True

    def send_somehow(self, some: bytes) -> None:
        """Sends bytes at once, or in small pieces."""
        sizes = self.pick.choice([[LARGEST], [1, 1, 2, 5, 40]])
        at = 0
        while at < len(some):
            piece = some[at : at + self.pick.choice(sizes)]
            if not self.send(piece, PATIENCE):
                break
            at += len(piece)

    def hear_some(self, seconds: float = SECONDS, most: int = LARGEST) -> bool:
        """Hears bytes that come within a time: whether there were any. It keeps whether that is the end."""
        self.client.socket.settimeout(seconds)
        try:
            some = self.client.socket.recv(most)
        except TimeoutError:
            return False
        except ConnectionResetError:
            some = b""
        self.heard += some
        self.has_ended = not some
        return bool(some)

    def hear_all(self) -> None:
        """Hears all that comes until the server hangs up, which it must do."""
        while self.hear_some():
            pass
        require(self.has_ended, f"it is not hung up on in {SECONDS} seconds")

    def hear(self) -> str | None:
        """The next answer, as `PLACE OUTCOME`, or None at the end."""
        while (end := self.next_end()) is None:
            if not self.hear_some():
                require(self.has_ended, f"no answer in {SECONDS} seconds")
                return None
        payload = bytes(self.heard[self.read + 4 : end])
        self.read = end
        place, _, outcome = line_of("answers", payload, 0).partition(" p0 fork = ")
        return f"{place} {outcome}"

    def next_end(self) -> int | None:
        """Where the next answer ends in what was heard, if all of it was."""
        start = self.read + 4
        if len(self.heard) < start:
            return None
        end = start + int.from_bytes(self.heard[self.read : start], "big")
        return end if len(self.heard) >= end else None

    def stop(self) -> None:
        """Says that it sends nothing more."""
        with contextlib.suppress(OSError):
            self.client.socket.shutdown(socket.SHUT_WR)
            self.has_stopped = True

    # -- requests

    def mark(self) -> str:
        """The call by which the trace tells who it is."""
        return f"fstat {MARKS + self.number}"

    def opening(self, *requests: str) -> bytes:
        """The bytes of a session that joins, and makes these calls."""
        return frames_of("join", self.mark(), *requests)

    def ask(self, request: str) -> str:
        """Sends a request, now and then after a while, and gives the outcome of its first answer."""
        if self.pick.random() < 0.3:
            time.sleep(self.pick.uniform(0, WHILE_MOST))
        self.send(request_frame(request))
        return self.outcome()

    def outcome(self) -> str:
        """The outcome of the next answer."""
        answer = self.hear()
        if answer is None:
            raise Failure("it is hung up on")
        outcome = answer.partition(" ")[2]
        if outcome == "refused RunFull":
            raise Full
        return outcome


def frames_of(*requests: str) -> bytes:
    """Requests as bytes."""
    return b"".join(map(request_frame, requests))


def is_opening(line: str) -> bool:
    """Whether a request is a join or an attach."""
    return line == "join" or " attach = " in line


def has_fault(sent: bytes) -> bool:
    """Whether the server has to hang up because of these bytes: a frame is at fault, or a request is out of place and
    no call before it can wait."""
    stream = Stream("requests", bytes(sent))
    for place, (_, line) in enumerate(stream.frames):
        if is_opening(line) != (place == 0):
            return True
        if any(f" {word} " in line for word in ("read", "write", "open")):
            break
    return stream.fault is not None


# What a client does, from its connection to its end.
Act = Callable[[Talker], None]


# ---- how enemies end


def vanishes(_: Talker) -> None:
    """Closes the connection at once."""


def stops(it: Talker) -> None:
    """Sends nothing more, and hears all."""
    it.stop()
    it.hear_all()


def stops_and_vanishes(it: Talker) -> None:
    """Sends nothing more, and closes the connection."""
    it.stop()


def stays(it: Talker) -> None:
    """Does nothing until the honest clients are done."""
    it.scene.over.wait(6 * SECONDS)


def stops_and_stays(it: Talker) -> None:
    """Sends nothing more, and reads nothing until the honest clients are done."""
    it.stop()
    stays(it)


def listens(it: Talker) -> None:
    """Hears all that it is told, until the honest clients are done."""
    while not it.has_ended and not it.scene.over.is_set():
        it.hear_some(PATIENCE)


def sips(it: Talker) -> None:
    """Hears a few bytes now and then, until the honest clients are done."""
    while not it.has_ended and not it.scene.over.wait(it.pick.choice([0, 0.001, 0.005])):
        it.hear_some(PATIENCE, it.pick.choice([1, 1, 7, 1_000]))


ENDS: list[Act] = [vanishes, stops, stops, stops_and_vanishes, stays, stops_and_stays, listens, sips]


def ends(it: Talker) -> None:
    """Ends in any way. After a fault it may wait to be hung up on."""
    if has_fault(it.sent) and it.pick.random() < 0.6:
        return it.hear_all()
    it.pick.choice(ENDS)(it)


# ---- enemies

CALLS = (
    "pipe|open e rw,creat|open e r|write 0 x6869|write 1 61*700|read 0 5|lseek 0 1 cur|fstat 0|dup 0|close 1|close 0"
    "|mkfifo e|unlink e|open e w,nonblock|pwrite 0 5 61*9000|pread 0 0 70000|ftruncate 0 9|dup2 0 9|fork"
    "|getfl 0|setfl 0 -,nonblock|setfl 1 w,append|rename e e2|rename e2 e"
).split("|")


def some_calls(pick: random.Random, most: int) -> list[str]:
    """Random calls."""
    return [pick.choice(CALLS) for _ in range(pick.randrange(most + 1))]


def garbage(it: Talker) -> None:
    """Sends garbage, at once or after some calls."""
    pick = it.pick
    front = it.opening(*some_calls(pick, 8)) if pick.random() < 0.5 else b""
    some = pick.choice([pick.randbytes(pick.choice([1, 4, 5, 64, 3_000, 70_000])), pick.choice(GREETINGS)])
    it.send(front + some, PATIENCE)
    ends(it)


def half_frames(it: Talker) -> None:
    """Sends the first bytes of a request, and no more."""
    whole = request_frame(it.pick.choice(["pipe", "open e rw,creat", "write 0 61*3000", "write 0 61*65700"]))
    it.send(it.opening(*some_calls(it.pick, 4)) + whole[: it.pick.randrange(len(whole))])
    ends(it)


def floods(it: Talker) -> None:
    """Sends thousands of requests, and reads no answer before."""
    pick = it.pick
    first = ["pipe", "open e rw,creat"]
    each = pick.choice(["fstat 1", "fstat 0", "fstat 9", "lseek 2 1 cur", "dup2 1 5", "open % r", "write 2 x61"])
    some = it.opening(*first) + request_frame(each) * pick.choice([500, 1_000, 2_000, 3_000])
    if it.send(some, PATIENCE) and pick.random() < 0.4:
        time.sleep(pick.choice([0, 0.05]))
    ends(it)


def slow_bytes(it: Talker) -> None:
    """Sends one byte every few milliseconds."""
    some = it.opening(*some_calls(it.pick, 3))
    for at in range(min(len(some), 70)):
        if not it.send(some[at : at + 1]):
            break
        time.sleep(it.pick.choice([0.001, 0.002, 0.004]))
    ends(it)


def huge_lengths(it: Talker) -> None:
    """Tells a length that is huge, and sends few bytes of it."""
    front = it.opening(*some_calls(it.pick, 4)) if it.pick.random() < 0.7 else b""
    it.send(front + u32(it.pick.choice(LENGTHS)) + it.pick.randbytes(it.pick.choice([0, 1, 9, 2_000])), PATIENCE)
    ends(it)


def out_of_place(it: Talker) -> None:
    """Opens where it may not, or calls before it has opened."""
    calls = some_calls(it.pick, 5)
    ways = [
        frames_of(it.mark(), "join"),
        frames_of("pipe") * 30,
        it.opening(*calls, "join", "pipe"),
        it.opening(*calls) + attach_frame(it.pick.randrange(9)) + frames_of("pipe"),
        JOIN * 5,
        framed(b"\x03", b"\x01"),
    ]
    it.send(it.pick.choice(ways))
    ends(it)


def attaches(it: Talker) -> None:
    """Attaches a child of others, or a process that is gone or was never there. It does not stay with a child."""
    numbers = [it.pick.randrange(80), it.pick.randrange(2**32), 2**32 - 1, *it.scene.born[-8:]]
    it.send(attach_frame(it.pick.choice(numbers)) + frames_of(it.mark(), *some_calls(it.pick, 3)))
    it.pick.choice([vanishes, stops, stops_and_vanishes])(it)


def cut_anywhere(it: Talker) -> None:
    """Closes its connection anywhere in its bytes."""
    some = it.opening(*some_calls(it.pick, 12))
    it.send_somehow(some[: it.pick.randrange(len(some))])
    if it.pick.random() < 0.3:
        it.hear_some(PATIENCE)


def half_closed(it: Talker) -> None:
    """Closes one half of its connection anywhere in its bytes."""
    some = it.opening(*some_calls(it.pick, 12))
    at = it.pick.randrange(len(some))
    it.send_somehow(some[:at])
    if it.pick.random() < 0.5:
        return stops(it)
    it.client.socket.shutdown(socket.SHUT_RD)
    it.send(some[at:], PATIENCE)
    it.pick.choice([vanishes, stays])(it)


def never_reads(it: Talker) -> None:
    """Fills its socket with answers, stays, and reads none."""
    it.send(it.opening("open e rw,creat", "pwrite 0 0 61*65536", *["pread 0 0 65536"] * 12), PATIENCE)
    it.send(frames_of(*["pread 0 0 65536"] * it.pick.choice([0, 2_000])), PATIENCE)
    it.pick.choice([stays, stays, stops_and_stays])(it)


def waits(it: Talker) -> None:
    """Waits for ever, with as many requests behind its call as there is room for, or more."""
    behind = it.pick.choice([0, 1, ROOM, ROOM + 1, 300])
    call = it.pick.choice(["read 0 5", "write 1 61*3000", f"open w{it.number} r"])
    it.send(it.opening("pipe", f"mkfifo w{it.number}", call, *["fstat 0"] * behind), PATIENCE)
    if behind > ROOM:
        answers = [it.hear() for _ in range(5)]
        return it.hear_all() if " parked " in (answers[-1] or "") else listens(it)
    if it.pick.random() < 0.3:
        it.send(framed(b"\xff"), PATIENCE)
        return it.hear_all()
    it.pick.choice([stays, stays, listens, stops, vanishes])(it)


def forks(it: Talker) -> None:
    """Makes children that nobody attaches, or somebody whose they are not."""
    count = it.pick.choice([70, 20]) if it.scene.may_hog else it.pick.choice([1, 2, 3])
    it.send(it.opening("pipe", *["fork"] * count))
    for _ in range(3 + count):
        answer = it.hear()
        if answer is None:
            break
        if " error" not in answer and answer.split(" ")[-1].isdigit():
            it.scene.born.append(int(answer.split(" ")[-1]))
    it.pick.choice([vanishes, stays, listens])(it)


def hogs(it: Talker) -> None:
    """Takes all names, or as many descriptions as it may."""
    if it.scene.may_hog and it.pick.random() < 0.5:
        it.send(it.opening(*(f"mkfifo h{it.number}.{number}" for number in range(1_030))), PATIENCE)
    else:
        it.send(it.opening(f"mkfifo h{it.number}", *[f"open h{it.number} r,nonblock"] * 33), PATIENCE)
    it.pick.choice([stays, listens])(it)


def largest(it: Talker) -> None:
    """Sends the largest requests."""
    each = it.pick.choice(["pwrite 0 0 61*65536", "write 0 61*65700", "write 9 61*65536", "write 0 61*65536"])
    it.send(it.opening("open e rw,creat", *[each] * it.pick.choice([3, 20])), PATIENCE)
    ends(it)


def hands_over(it: Talker) -> None:
    """Hands open files over with its bytes."""
    some = it.opening(*some_calls(it.pick, 8))
    for at in range(0, len(some), 20):
        with contextlib.suppress(OSError):
            count = socket.send_fds(it.client.socket, [some[at : at + 20]], [it.client.socket.fileno()] * 9)
            it.sent += some[at : at + count]
    ends(it)


def silent(it: Talker) -> None:
    """Sends nothing, or a byte."""
    it.send(it.pick.choice([b"", b"\0"]))
    it.pick.choice([vanishes, stays, stops])(it)


# Each enemy, and how often it comes.
ENEMIES: dict[Act, int] = {
    garbage: 8,
    half_frames: 6,
    floods: 7,
    slow_bytes: 3,
    huge_lengths: 7,
    out_of_place: 8,
    attaches: 10,
    cut_anywhere: 10,
    half_closed: 8,
    never_reads: 5,
    waits: 8,
    forks: 6,
    hogs: 3,
    largest: 3,
    hands_over: 2,
    silent: 4,
}


def chosen(pick: random.Random, count: int) -> list[Act]:
    """So many enemies of a run: of all kinds, or mostly of one or two."""
    weights = dict(ENEMIES)
    if pick.random() < 0.3:
        weights.update(dict.fromkeys(pick.sample(list(ENEMIES), pick.choice([1, 2])), sum(ENEMIES.values())))
    return pick.choices(list(weights), list(weights.values()), k=count)


# ---- honest clients

OWN_CALLS = (
    "open {n} {f}|open {n} {f}|open {n} {f}|write {d} {x}|write {d} {x}|write {d} {x}|read {d} {c}|read {d} {c}"
    "|pread {d} {p} {c}|pread {d} {p} {c}|pwrite {d} {p} {x}|lseek {d} {p} {w}|lseek {d} 0 set|ftruncate {d} {p}"
    "|fstat {d}|dup {d}|dup2 {d} {d}|close {d}|link {n} {n}|unlink {n}|rename {n} {n}|getfl {d}|setfl {d} {f}"
).split("|")


def own_call(it: Talker, fds: Sequence[int]) -> str:
    """A random call on files of its own names, which never waits."""
    pick = it.pick
    fields: dict[str, Callable[[], object]] = {
        "n": lambda: f"own{it.number}.{pick.randrange(3)}",
        "f": lambda: pick.choice(["rw,creat", "rw,creat", "rw,creat,append", "r", "w,creat,trunc", "rw,creat,excl"]),
        "d": lambda: pick.choice([*fds, *fds, pick.randrange(34)]),
        "x": lambda: plain_model.data_text(pick.randbytes(pick.choice([0, 1, 5, 60, 900]))),
        "c": lambda: pick.choice([0, 1, 9, 300, 65_536, 65_537]),
        "p": lambda: pick.choice([0, 0, 1, 50, 5_000, -1, 2**40 - 1, 2**40]),
        "w": lambda: pick.choice(["set", "cur", "end"]),
    }
    words = pick.choice(OWN_CALLS).split(" ")
    return " ".join(str(fields[word[1]]()) if word.startswith("{") else word for word in words)


def works(it: Talker) -> None:
    """A process opens, writes and reads files of its own, and uses pipes and FIFOs."""
    if not it.ask("join").isdigit():
        raise Full
    fds: set[int] = set()
    for _ in range(it.pick.randrange(10, 40)):
        choice = it.pick.random()
        if choice < 0.12:
            uses_pipe(it)
        elif choice < 0.2:
            uses_fifo(it)
        elif choice < 0.3:
            asks_ahead(it, fds)
        else:
            call = own_call(it, sorted(fds))
            keeps(fds, call, it.ask(call))


def keeps(fds: set[int], call: str, outcome: str) -> None:
    """Keeps which descriptors are open."""
    word = call.split(" ")[0]
    if word in ("open", "dup", "dup2") and outcome.isdigit():
        fds.add(int(outcome))
    elif word == "close" and outcome == "ok":
        fds.discard(int(call.split(" ")[1]))


def asks_ahead(it: Talker, fds: set[int]) -> None:
    """Sends several calls at once, and hears their answers."""
    calls = [own_call(it, sorted(fds)) for _ in range(it.pick.randrange(2, 9))]
    it.send(frames_of(*calls))
    for call in calls:
        keeps(fds, call, it.outcome())


def uses_pipe(it: Talker) -> None:
    """Makes a pipe, writes into it what it has room for, and reads it to its end."""
    pair = it.ask("pipe").split(" ")
    if not pair[0].isdigit():
        return
    reading, writing = pair
    for call in (f"write {writing} 70*{it.pick.choice([1, 512, 1_024])}", f"read {reading} 65536", f"fstat {reading}"):
        it.ask(call)
    for call in (f"close {writing}", f"read {reading} 1", f"close {reading}"):
        it.ask(call)


def uses_fifo(it: Talker) -> None:
    """Makes a FIFO, opens both ends, and takes it away."""
    name = f"fifo{it.number}"
    if it.ask(f"mkfifo {name}") == "ok":
        reading, writing = it.ask(f"open {name} r,nonblock"), it.ask(f"open {name} w,nonblock")
        if writing.isdigit():
            it.ask(f"write {writing} x{it.pick.randbytes(20).hex()}")
            it.ask(f"read {reading} 30")
            it.ask(f"close {writing}")
        if reading.isdigit():
            it.ask(f"close {reading}")
        it.ask(f"unlink {name}")


# What the first descriptors of an honest pair are.
SHARED = {0: "pipe", 1: "pipe", 2: "regular"}


def work_together(parent: Talker, child: Talker) -> None:
    """A process and its child share a pipe and an offset, and wait for each other."""
    name = f"pair{parent.number}"
    if not parent.ask("join").isdigit():
        raise Full
    for request in ("pipe", f"open {name} rw,creat", f"mkfifo {name}.f"):
        parent.ask(request)
    kinds = {fd: parent.ask(f"fstat {fd}").split(" ")[0] for fd in SHARED}
    number = parent.ask("fork")
    # an enemy may have taken all that there is, or the child
    if kinds != SHARED or not number.isdigit() or child.ask(f"attach {number}") != "ok":
        raise Full
    for _ in range(parent.pick.randrange(2, 6)):
        exchange(parent, child)
        exchange(child, parent)
        shares_offset(parent, child)
        meets(parent, child, f"{name}.f")


def exchange(reader: Talker, writer: Talker) -> None:
    """One waits for the other's bytes, and then the other waits until more is read than the pipe holds."""
    pick = reader.pick
    some, much = pick.randbytes(pick.choice([1, 100, 512])), pick.randbytes(pick.choice([1_025, 2_000, 4_000]))
    is_told("parked 0", reader.ask("read 0 600"))
    is_told(str(len(some)), writer.ask(f"write 1 x{some.hex()}"))
    is_told(plain_model.data_text(some), reader.outcome())
    is_told("parked 1024", writer.ask(f"write 1 x{much.hex()}"))
    given = b""
    while len(given) < len(much):
        outcome = reader.ask(f"read 0 {pick.choice([100, 700, 65_536])}")
        if outcome == "parked 0":
            outcome = reader.outcome()
        data = plain_model.read_data(outcome.encode())
        is_told("data", outcome if not data else "data")
        given += data or b""
    is_told(plain_model.data_text(much), plain_model.data_text(given))
    while (outcome := writer.outcome()).startswith("part "):
        pass
    is_told(str(len(much)), outcome)


def is_told(wanted: str, outcome: str) -> None:
    """Fails unless an honest client is told this."""
    require(outcome == wanted, f"an honest client wants {wanted[:100]}, and is told {outcome[:100]}")


def shares_offset(parent: Talker, child: Talker) -> None:
    """What one writes moves the offset of both."""
    before = int(parent.ask("lseek 2 0 cur"))
    is_told("3", child.ask("write 2 x616263"))
    is_told(str(before + 3), parent.ask("lseek 2 0 cur"))


def meets(parent: Talker, child: Talker, name: str) -> None:
    """They open a FIFO, where one waits for the other. There may have been no room for its name."""
    reading = child.ask(f"open {name} r")
    if reading != "parked 0":
        return
    writing = parent.ask(f"open {name} w")
    if not writing.isdigit():
        raise Full
    reading = child.outcome()
    for it, fd in ((parent, writing), (child, reading)):
        is_told("ok", it.ask(f"close {fd}"))


def honest(*them: Talker) -> None:
    """One honest process, or two that work together, to their end."""
    with contextlib.suppress(Full):
        if len(them) == 1:
            works(*them)
        else:
            work_together(*them)
    for it in them:
        stops(it)
