"""The client in C against servers: real ones, and such as answer what they are told."""

import contextlib
import os
import re
import select
import socket
import tempfile
import threading
import time
from collections.abc import Callable, Iterator, Sequence
from functools import partial
from itertools import product
from pathlib import Path

from parts import crowds, python_client
from parts.c_programs import Build, Called, Driven
from support import frames, plain_model
from support.counting import Case, require, same
from support.frames import ERRORS, REFUSALS, framed, outcome_bytes, recorded, u32, u64
from support.places import C_CLIENT
from support.players import until_traced
from support.runs import line_of
from support.serving import A_WHILE, ALL_RECORDS, SECONDS, Client, Server, report

# Where the system calls of a driver are odd.
ODD = 7


def named(build: Build, odd: int) -> str:
    """The name of a build whose system calls may be odd."""
    return f"{build.name}, odd" if odd else build.name


# ---- what needs no compiler


def header() -> str:
    """The text of fdref.h."""
    return (C_CLIENT / "fdref.h").read_text(encoding="utf-8")


def functions_declared() -> list[str]:
    """The names of the functions that it declares, without their beginning."""
    declarations = header().partition("#if defined FDREF_IMPLEMENTATION")[0]
    return re.findall(r"^\w.*?\bfdref_(\w+)\(.*\);$", declarations, re.MULTILINE)


def names_are_the_tests() -> None:
    """The errors and refusals of the header are those of the tests, in their order."""
    same(ERRORS, re.findall(r"FDREF_NAMED\((E\w+)\)", header()))
    table = re.search(r"fdref_refusals\[\] = \{(.*?)\};", header(), re.DOTALL)
    same(list(REFUSALS.values()), re.findall(r'"(\w+)"', table[1] if table else ""))


def calls_are_the_tests() -> None:
    """Each call of the tests is a function of the header, and each act of theirs can be recorded."""
    calls = [form.word for form in frames.CALLS.values()]
    declared = functions_declared()
    missing = {"join", "attach", "exit", "forget", *calls}.difference(declared)
    require(not missing, f"no functions: {missing}")
    acts = [word.replace("-", "_") for word in [*frames.ACTS.values(), *calls]]
    same(acts, [name.removeprefix("act_") for name in declared if name.startswith("act_")])


def without_compiler() -> Iterator[Case]:
    """What can be seen of the header as a text."""
    yield "the errors and refusals of the header", names_are_the_tests
    yield "the calls and acts of the header", calls_are_the_tests


# ---- the bytes of the client, and those of the tests


class Told(Driven):
    """A driver, and a server that answers what it is told."""

    def __init__(self, build: Build, odd: int) -> None:
        self.folder = tempfile.TemporaryDirectory(prefix="fdref-")
        self.path = os.path.join(self.folder.name, "socket")
        self.socket = self.listening()
        super().__init__(build, self.path, odd)

    def listening(self) -> socket.socket:
        """A socket that listens."""
        made = socket.socket(socket.AF_UNIX, socket.SOCK_STREAM)
        made.bind(self.path)
        made.listen()
        made.settimeout(SECONDS)
        return made

    def serve(self, answers: Sequence[bytes], sent: list[bytes]) -> None:
        """Takes a connection, answers so many requests by these bytes, keeps what was sent, and hangs up."""
        connection, _ = self.socket.accept()
        connection.settimeout(SECONDS)
        with connection, connection.makefile("rb") as stream:
            for some in answers:
                length = stream.read(4)
                sent.append(length + stream.read(int.from_bytes(length, "big")))
                connection.sendall(some)

    def asked(
        self, *exchanges: tuple[str, bytes], after: Sequence[str] = (), returns: bool = False
    ) -> tuple[bytes, list[list[str]]]:
        """Makes requests, of which each is answered by these bytes, and calls after the server has hung up: all that
        was sent, and the answers. Where none is an attach, it joins first."""
        steps = list(exchanges)
        if not steps[0][0].startswith("attach"):
            steps.insert(0, ("join", answer(0, "0")))
        sent: list[bytes] = []
        server = threading.Thread(target=self.serve, args=([some for _, some in steps], sent), daemon=True)
        server.start()
        self.returns(returns)
        given = [self.answers(request) for request in [*(request for request, _ in steps), *after]]
        self.exit()
        server.join(SECONDS)
        return b"".join(sent), given[len(steps) - len(exchanges) :]

    def vanish(self) -> None:
        """Ends the driver and the server."""
        super().vanish()
        self.socket.close()
        self.folder.cleanup()


def answer(place: int, outcome: str) -> bytes:
    """The frame of an answer."""
    return framed(recorded(place, outcome))


def sends_requests(told: Told) -> None:
    """The client sends each request as the tests write it."""
    lines = [line for line, _ in python_client.REQUESTS]
    sent, given = told.asked(*((line, answer(5, "error EBADF")) for line in lines))
    same((frames.JOIN + b"".join(map(frames.request_frame, lines))).hex(), sent.hex())
    same([["5 error EBADF"]] * len(lines), given)
    same((frames.attach_frame(7), [["6 ok"]]), told.asked(("attach 7", answer(6, "ok"))))


# Calls, and outcomes that they may have.
REPLIES = [
    ("open a r", "2147483647"),
    ("close 0", "ok"),
    ("read 0 65536", "61*65536"),
    ("read 0 65536", "x616263"),
    ("read 0 0", "x"),
    ("write 0 61*65536", "65536"),
    ("write 0 61*5", "0"),
    ("lseek 0 0 set", "9223372036854775807"),
    ("pipe", "3 4"),
    ("pipe", "2147483647 0"),
    ("fstat 0", "regular 5 1"),
    ("fstat 0", "fifo 0 2"),
    ("fstat 0", "pipe 18446744073709551615 4294967295"),
    ("fork", "2147483647"),
    ("getfl 0", "1"),
    ("getfl 0", "98"),
    ("getfl 0", "35"),
    ("setfl 0 -,append", "ok"),
    ("rename a b", "ok"),
    *(("fork", f"error {name}") for name in ERRORS),
]
NUMBERS = {"NoMemory": "ENOMEM", "RunFull": "EDQUOT", "Waiting": "EBUSY", "NotHere": "ECHILD", "Foreign": "ESTALE"}


def reads_answers(told: Told) -> None:
    """The client reads each answer as the tests write it."""
    place = 2**64 - 1
    _, given = told.asked(*((line, answer(place, outcome)) for line, outcome in REPLIES))
    same([[f"{place} {outcome}"] for _, outcome in REPLIES], given)
    refusals = [bytes([2, byte]) + bytes(16 if name == "Foreign" else 0) for byte, name in REFUSALS.items()]
    _, given = told.asked(*(("fork", framed(refusal)) for refusal in refusals))
    same([[f"- refused {name} {NUMBERS[name]}"] for name in REFUSALS.values()], given)


def tells_of_waiting(told: Told) -> None:
    """A call returns with its reply, and tells how it waited; or it returns each time that it is told to wait."""
    write, waits = "write 0 61*9", answer(3, "parked 7") + answer(4, "part 8")
    same([["5 9 after 2 8"]], told.asked((write, waits + answer(5, "9")))[1])
    same([["3 parked 7", "4 part 8", "5 9"]], told.asked((write, waits + answer(5, "9")), returns=True)[1])
    full = framed(frames.refused("RunFull"))
    same([["3 parked 7", "4 part 8", "- refused RunFull EDQUOT"]], told.asked((write, waits + full), returns=True)[1])


def no_answers() -> Iterator[tuple[str, bytes]]:
    """A call, and a payload that is no answer, or none of this call."""
    start, foreign = recorded(1, "ok")[:-1], b"\2\x15"
    for payload in (b"", b"\1", b"\2", b"\3", bytes(40), b"\3" + start[1:] + b"\1", start):
        yield "close 0", payload
    for payload in (b"\2\x10", b"\2\x16", b"\2\x11\0", foreign, foreign + bytes(15), foreign + bytes(17)):
        yield "close 0", payload
    for outcome in (b"\0", b"\x09", b"\1\0", b"\2" + u64(0), b"\7" + u32(0), b"\x08" + u32(1)):
        yield "close 0", start + outcome
    for outcome in (b"\6", b"\6\0", b"\6\x11", b"\6\xff", b"\6\1\0"):
        yield "close 0", start + outcome
    for line in ("fork", "pipe", "fstat 0", "lseek 0 0 set", "pread 0 0 5", "pwrite 0 0 x61", "getfl 0"):
        yield line, start + b"\1"
        yield line, start + outcome_bytes("parked 0")
    for line in ("open a r", "fork", "dup 0", "write 0 x", "lseek 0 0 set", "getfl 0"):
        yield line, start + b"\2" + u64(2**63)
        yield line, start + b"\2" + u64(2**64 - 1)
        yield line, start + b"\2" + bytes(7)
        yield line, start + b"\2" + bytes(9)
    yield "open a r", start + outcome_bytes(f"{2**31}")
    yield "fork", start + outcome_bytes(f"{2**31}")
    yield "getfl 0", start + outcome_bytes("128")
    for line in ("setfl 0 -", "rename a b"):
        yield line, start + outcome_bytes("0")
        yield line, start + outcome_bytes("parked 0")
    yield "write 0 x6869", start + outcome_bytes("3")
    yield "read 0 2", start + outcome_bytes("x616263")
    yield "read 0 5", start + outcome_bytes("parked 0") + b"\0"
    for count, some in ((3, b"ab"), (3, b"abcd"), (2**32 - 1, b"abcd"), (65_537, bytes(65_537))):
        yield "read 0 70000", start + b"\3" + u32(count) + some
    yield "pipe", start + b"\4" + u32(2**31) + u32(0)
    yield "pipe", start + b"\4" + u32(0) + u32(2**32 - 1)
    yield "pipe", start + b"\4" + u32(0)
    yield "fstat 0", start + b"\5\3" + u64(0) + u32(0)
    yield "fstat 0", start + b"\5\0" + u64(0)


def gives_up(told: Told) -> None:
    """Where what comes is no answer, the connection is given up."""
    some = [(line, framed(payload)) for line, payload in no_answers()]
    some += [("close 0", u32(length) + bytes(10)) for length in (66_049, 2**32 - 1)]
    for line, given in some:
        answers = told.asked((line, given), after=["close 0"])[1]
        require(answers == [["- lost EPROTO"], ["- lost ENOTCONN"]], f"{line}, told {given[:60].hex()}: {answers}")


def is_cut_off(told: Told) -> None:
    """Where the server hangs up within an answer, the connection is lost."""
    first, second = answer(3, "parked 0"), answer(4, "x6162")
    for end in range(len(first + second)):
        waited = ["3 parked 0"] if end >= len(first) else []
        answers = told.asked(("read 0 5", (first + second)[:end]), returns=True)[1]
        same([[*waited, "- lost ECONNRESET"]], answers)


def waits_for_a_server(told: Told) -> None:
    """A join waits for a server that is only starting: nobody listens, then there is no socket, then it answers."""
    told.socket.close()
    told.ask("join")
    time.sleep(A_WHILE)
    os.remove(told.path)
    time.sleep(A_WHILE)
    told.socket = told.listening()
    told.serve([answer(3, "5")], [])
    same("3 5", told.answer())
    told.exit()


def told_cases(builds: Sequence[Build]) -> Iterator[Case]:
    """The client with servers that answer what they are told."""
    cases = {
        "the requests of the client are those of the tests": sends_requests,
        "the answers of the client are those of the tests": reads_answers,
        "how a call has waited": tells_of_waiting,
        "what is no answer": gives_up,
        "answers that are cut off": is_cut_off,
        "a server that is only starting": waits_for_a_server,
    }
    for build in builds:
        for name, case in cases.items():
            for odd in (0, ODD):
                yield f"{name}, {named(build, odd)}", partial(with_told, case, build, odd)


def with_told(case: Callable[[Told], None], build: Build, odd: int) -> None:
    """Makes a check with a driver, which must end well."""
    told = Told(build, odd)
    try:
        case(told)
        told.ends()
    finally:
        told.vanish()


# ---- servers


class Driving(Server):
    """A server whose clients are drivers."""

    def __init__(self, program: str, count: int, records: int, build: Build) -> None:
        super().__init__(program, count, records)
        self.build = build

    def client(self, odd: int = 0) -> Driven:
        """A driver, which has not joined."""
        client = Driven(self.build, self.path, odd)
        self.clients.append(client)
        return client


def functions(program: str, build: Build) -> None:
    """What each function gives to a program in C."""
    with Server(program, 5, 69) as server:
        same(b"", build.prints("api", server.path))
        server.ended(report(5, 69, 67_548, 67_547))


# Each call, and then the errors that want only a few calls.
EVERY = """
open a rw,creat,excl; write 0 x68656c6c6f; pread 0 1 3; pwrite 0 4 x2121; lseek 0 0 cur; lseek 0 -1 end; lseek 0 2 set
read 0 9; ftruncate 0 3; fstat 0; dup 0; dup2 0 9; close 1; pipe; fstat 1; mkfifo f; link a b; unlink a
open f r,nonblock; open f w; fstat 3; fork; write 2 x616263; read 1 2; open b w,trunc,append; write 5 x7a; pread 0 0 9
close 7; open a -; open a r,excl; lseek 1 0 set; pwrite 0 1099511627776 x61; ftruncate 0 1099511627777; open none r; open % r
lseek 0 9223372036854775807 set; lseek 0 1 cur; lseek 0 -9223372036854775808 cur; lseek 0 0 set; open b rw,creat,excl
link b c; link b d; link b e; link b g; link b h; link b i; link b j; link b k; read 3 5; mkfifo f; mkfifo %ff
mkfifo nnnnnnnnnnnnnnnnnnnnnnnnnnnnnnnnnnnnnnnnnnnnnnnnnnnnnnnnnnnnnnnnn; mkfifo l; open l w,nonblock; close 1
close 3; pipe; close 1; write 3 x61; close 3; close -2147483648; dup2 0 2147483647; pread 0 -1 1; read 0 4294967295
write 0 61*65536; pread 0 0 65536; pread 0 1 65536; lseek 0 0 set; read 0 65536; read 0 1; write 0 61*65537
write 0 61*65700; pwrite 0 1099511562241 62*65536; pread 0 1099511562240 65536; read 0 65537; pread 0 9223372036854775807 65536
getfl 0; setfl 0 w,creat,excl,trunc,append,nonblock; getfl 9; setfl 9 -; getfl 0; getfl 2; setfl 2 r,nonblock; getfl 2
getfl -1; setfl 7 -; rename b j; rename f n; open f r; rename n f; rename c f; open f r; open c r; rename b b
rename o b; rename % b; rename b %ff; rename f .
rename f nnnnnnnnnnnnnnnnnnnnnnnnnnnnnnnnnnnnnnnnnnnnnnnnnnnnnnnnnnnnnnnnn
"""


def few_calls() -> list[str]:
    """Each call and these errors, of one process, which never waits."""
    return [line.strip() for line in re.split("[;\n]", EVERY.strip())]


def many_calls() -> list[str]:
    """Those, and each error but ESRCH."""
    closes = [f"close {fd}" for fd in range(32)]
    names = [f"mkfifo n{number}" for number in range(1_024)]
    # each child keeps the descriptions of its parent open
    opens = [*["open b r"] * 32, "fork", *closes] * 32
    lines = [*["dup 0"] * 32, "pipe", *closes, *names, "open m rw,creat", *opens, "open b r", "pipe", *["fork"] * 31]
    return [*few_calls(), *lines]


def makes_calls(program: str, build: Build, odd: int, lines: Sequence[str]) -> None:
    """A process that makes these calls: all answers are the model's."""
    run = plain_model.Run(ALL_RECORDS)
    run.take(plain_model.read_act(b"join"))
    with Driving(program, 2, ALL_RECORDS, build) as server:
        client, other = server.client(odd), server.client(odd)
        client.tells("join", "0 0")
        for line in lines:
            run.take(plain_model.read_act(f"p0 {line}".encode()))
            place, _, outcome = line_of(run.lines[-1].rstrip("\n"))
            given = client.answers(line)
            require(given == [f"{place} {outcome}"], f"{line}: the model gives {place} {outcome}, the server {given}")
        other.tells("attach 77", "- ESRCH")
        for it in (client, other):
            it.ends()
        # and the attach, an exit of each process, and the closing
        records = run.records + 1 + len(run.world.processes) + 1
        server.ended(report(2, records, run.world.bytes_in, run.world.bytes_out))


def every_error_is_met() -> None:
    """The calls have each error."""
    run = plain_model.Run(ALL_RECORDS)
    for line in ["join", *(f"p0 {call}" for call in many_calls())]:
        run.take(plain_model.read_act(line.encode()))
    met = {line_of(line.rstrip("\n")).outcome for line in run.lines}
    same({"error ESRCH"}, {f"error {name}" for name in ERRORS} - met)


def is_full_of_processes(program: str, build: Build) -> None:
    """A join that is refused, with a record."""
    with Driving(program, 2, 200, build) as server:
        client, other = server.client(), server.client()
        client.tells("join", "0 0")
        for number in range(1, 64):
            client.tells("fork", f"{number} {number}")
        other.tells("join", "- EAGAIN")
        client.ends()
        other.ends()
        server.ended(report(2, 64 + 1 + 1 + 63 + 1))


def is_full_of_records(program: str, build: Build) -> None:
    """A read whose resume is refused, since the run is full: the server hangs up then."""
    with Driving(program, 3, 9, build) as server:
        reader, writer, other = server.client(), server.client(ODD), server.client()
        reader.returns(True)
        reader.tells("join", "0 0")
        reader.tells("pipe", "1 0 1")
        reader.tells("fork", "2 1")
        writer.tells("attach 1", "3 ok")
        reader.ask("read 0 5")
        same("4 parked 0", reader.answer())
        writer.tells("write 1 x6869", "5 2")
        same("- refused RunFull EDQUOT", reader.answer())
        reader.tells("close 0", "- lost ECONNRESET")
        reader.tells("close 0", "- lost ENOTCONN")
        other.tells("join", "- EDQUOT")
        for client in (reader, writer, other):
            client.ends()
        server.ended(report(3, 9, 2, 0))


def server_is_gone(program: str, build: Build, odd: int) -> None:
    """The server ends in the middle: no call goes on, and no client is ended by a signal."""
    with Driving(program, 4, 100, build) as server:
        idle, reader, late = server.client(odd), server.client(odd), server.client(odd)
        idle.tells("join", "0 0")
        reader.returns(True)
        reader.tells("join", "1 1")
        reader.tells("pipe", "2 0 1")
        reader.ask("read 0 5")
        same("3 parked 0", reader.answer())
        server.process.kill()
        server.process.wait(SECONDS)
        same("- lost ECONNRESET", reader.answer())
        reader.tells("write 1 x61", "- lost ENOTCONN")
        idle.tells("write 0 61*65536", "- lost ECONNRESET")
        idle.tells("write 0 61*65536", "- lost ENOTCONN")
        late.tells("attach 1", "- ECONNREFUSED")
        os.remove(server.path)
        late.tells("attach 1", "- ENOENT")
        for client in (idle, reader, late):
            client.ends()


# What a driver tells of each process that has no place.
NO_PLACE = (
    b"no answer: all sessions are taken, the server can take no further connection or is late, or no fdref listens "
    b"there\n"
)


def without_a_place(program: str, build: Build, odd: int) -> None:
    """A process more than the server has sessions is told so within its limit, though it is connected."""
    with Driving(program, 1, 9, build) as server:
        client, late = server.client(odd), server.client(odd)
        client.tells("join", "0 0")
        client.tells("fork", "1 1")
        begun = time.monotonic()
        late.tells("join 1", "- ETIMEDOUT")
        late.say("attach 1 1")
        same("- ETIMEDOUT", late.answer())
        took = time.monotonic() - begun
        require(2 <= took < SECONDS, f"told after {took} seconds, and 2 were given")
        client.tells("close 0", "2 error EBADF")
        client.ends()
        late.ends(2 * NO_PLACE)
        server.ended(report(1, 6))


def with_a_full_queue(build: Build) -> None:
    """So is one for which the system has not even a place in the queue of a socket."""
    told = Told(build, 0)
    told.socket.listen(0)
    try:
        with socket.socket(socket.AF_UNIX, socket.SOCK_STREAM) as waiting:
            waiting.connect(told.path)
            told.tells("join 1", "- ETIMEDOUT")
        told.ends(NO_PLACE)
    finally:
        told.vanish()


def limited(program: str, build: Build, odd: int) -> None:
    """An answer that does not come within the limit ends the process; one that comes does not."""
    with Driving(program, 2, 20, build) as server:
        reader, writer = server.client(odd), server.client(odd)
        reader.returns(True)
        reader.tells("join", "0 0")
        reader.tells("pipe", "1 0 1")
        reader.tells("fork", "2 1")
        writer.returns(True)
        writer.tells("attach 1", "3 ok")
        writer.say("within 1")
        reader.say("within 1")
        reader.ask("read 0 5")
        same("4 parked 0", reader.answer())
        writer.tells("write 1 x61", "5 1")
        same("6 x61", reader.answer())
        reader.ask("read 0 5")
        same("7 parked 0", reader.answer())
        same("- lost ETIMEDOUT", reader.answer())
        reader.tells("close 0", "- lost ENOTCONN")
        reader.ends()
        same("8 p0 exit = ok", until_traced(server, 9)[8])
        writer.say("within 0")
        writer.ask("read 0 5")
        same("9 parked 0", writer.answer())
        require(not select.select([writer.process.stdout], [], [], 1.5)[0], "an answer though there is no limit")
        server.process.kill()
        same("- lost ECONNRESET", writer.answer())
        writer.ends()


def with_a_server_that_stays(build: Build) -> None:
    """An exit for which the server does not close the connection within a limit tells that."""
    told = Told(build, 0)
    with contextlib.ExitStack() as stack:
        stack.callback(told.vanish)

        def stays() -> None:
            stack.enter_context(told.socket.accept()[0]).sendall(answer(0, "0"))

        answering = threading.Thread(target=stays, daemon=True)
        answering.start()
        told.tells("join", "0 0")
        told.say("within 1")
        begun = time.monotonic()
        told.say("exit")
        told.ends(b"no end of the connection\n")
        took = time.monotonic() - begun
        require(1 <= took < SECONDS, f"told after {took} seconds, and 1 was given")
        answering.join(SECONDS)


def interrupted(program: str, build: Build, name: str, restarts: int) -> None:
    """Each limit holds though a timer interrupts all system calls, whether its handler has SA_RESTART or not."""
    with Server(program, 2, 20) as server:
        same(b"", build.prints(name, server.path, str(server.process.pid), str(restarts)))
        # two joins, a pipe, a read that waits, two exits and the closing
        server.ended(report(2, 7))


def served_cases(program: str, builds: Sequence[Build]) -> Iterator[Case]:
    """The client with the server."""
    for build in builds:
        yield f"the functions, {build.name}", partial(functions, program, build)
        yield f"a server full of processes, {build.name}", partial(is_full_of_processes, program, build)
        yield f"a server full of records, {build.name}", partial(is_full_of_records, program, build)
        yield f"a queue without a place, {build.name}", partial(with_a_full_queue, build)
        yield f"a server that stays, {build.name}", partial(with_a_server_that_stays, build)
        for odd in (0, ODD):
            yield f"a server that ends, {named(build, odd)}", partial(server_is_gone, program, build, odd)
            yield f"a server without a place, {named(build, odd)}", partial(without_a_place, program, build, odd)
            yield f"answers with a limit, {named(build, odd)}", partial(limited, program, build, odd)
            yield f"each call, {named(build, odd)}", partial(makes_calls, program, build, odd, few_calls())
    for name, restarts, build in product(("interrupted", "interrupted_coarsely"), (0, 1), (builds[0], builds[-1])):
        yield f"{name} {restarts}, {build.name}", partial(interrupted, program, build, name, restarts)
    yield "there is a call with each error", every_error_is_met
    yield "each error", partial(makes_calls, program, builds[0], 0, many_calls())
    yield "each error, odd", partial(makes_calls, program, builds[-1], ODD, many_calls())


# ---- random calls


class Mixed(Server):
    """A server whose clients are, in turns, drivers and processes of the client in Python."""

    def __init__(self, program: str, builds: Sequence[Build]) -> None:
        super().__init__(program, CLIENTS, ALL_RECORDS)
        self.builds = builds
        self.drivers: list[Driven] = []

    def client(self) -> Client:
        """The next client. Of each parent and its child one is in C, and of four drivers one is odd."""
        client: Client
        if len(self.clients) % 4 in (1, 2):
            number = len(self.drivers)
            client = Driven(self.builds[number % len(self.builds)], self.path, number * (number % 4 == 3))
            client.returns(True)
            self.drivers.append(client)
        else:
            client = Called(self.path)
        self.clients.append(client)
        return client


CLIENTS = 2 + 2 * crowds.PAIRS
# How many of them are in C.
IN_C = CLIENTS // 2


def random_calls(program: str, builds: Sequence[Build], seed: str, calls: int) -> None:
    """64 clients at once, of which those in C make so many random calls, or a few more. What each was told must be what
    the model gives, in the order of the places."""
    with Mixed(program, builds) as server:
        # a choice of theirs makes more calls than one
        crowd = crowds.Crowd(server, seed, -(-calls * 3 // 4 // IN_C))
        crowd.run()
        records, bytes_in, bytes_out = crowd.judged()
        in_c = [act for player in crowd.players if isinstance(player.client, Driven) for _, act, _ in player.told]
        made = sum(act.word != "resume" for act in in_c)
        require(made >= calls, f"the clients in C made only {made} calls")
        for driver in server.drivers:
            driver.ends()
        for player in crowd.players:
            player.client.vanish()
        server.ended(report(CLIENTS, records + CLIENTS + 1, bytes_in, bytes_out))
        crowd.are_traced(Path(server.trace).read_bytes())


def random_cases(program: str, builds: Sequence[Build], seed: str, calls: int) -> Iterator[Case]:
    """Random calls of clients in C and in Python."""
    yield f"random calls of seed {seed}", partial(random_calls, program, builds, seed, calls)
