"""The client in clients/python and its example, against a server."""

import contextlib
import errno
import math
import os
import queue
import shlex
import socket
import stat
import sys
import threading
import time
import warnings
from collections.abc import Callable, Iterator, Sequence
from functools import partial
from typing import Any, NoReturn, TypeVar
from unittest import mock

from support import frames
from support.counting import Case, Failure, require, same
from support.places import EXAMPLES
from support.players import until_traced
from support.serving import A_WHILE, SECONDS, Listener, Server, is_listening, outcome_of, report, started

import fdref

Kind = TypeVar("Kind", bound=Exception)

# How many processes exit, one after another.
EXITS = 20

# How many calls are broken off, one after another.
BREAKS = 8

# At most so many bytes of a client are read at once.
PIECE = 64


def joined(server: Server) -> fdref.Process:
    """A process of the client in Python, as soon as the server listens."""
    return fdref.join(server.path, within=SECONDS)


def raises(kind: type[Kind], call: Callable[..., object], *values: object) -> Kind:
    """What a call raises, of just this kind."""
    raised = raised_by(call, *values)
    if type(raised) is not kind:
        raise Failure(f"wanted {kind.__name__}, raised {raised!r}")
    return raised


def raised_by(call: Callable[..., object], *values: object) -> Exception | None:
    """What a call raises."""
    try:
        call(*values)
    except Exception as raised:
        return raised
    return None


def calls(program: str) -> None:
    """Each call once, with the value that it has in `os`."""
    with Server(program, 2, 60) as server, joined(server) as process:
        same((0, 0, []), (process.pid, process.place, process.waits))
        same(0, process.open("a", os.O_RDWR | os.O_CREAT | os.O_EXCL))
        same(5, process.write(0, b"hello"))
        same(2, process.lseek(0, -3, os.SEEK_END))
        same(b"ll", process.read(0, 2))
        same(4, process.lseek(0, 0, os.SEEK_CUR))
        same(b"ell", process.pread(0, 3, 1))
        same(2, process.pwrite(0, bytearray(b"!!"), 4))
        same(None, process.ftruncate(0, 3))
        same(("regular", stat.S_IFREG, 3, 1), tuple(process.fstat(0)))
        same(1, process.dup(0))
        same(9, process.dup2(0, 9))
        same(None, process.close(1))
        same((1, 2), process.pipe())
        same(("pipe", stat.S_IFIFO, 0, 0), tuple(process.fstat(1)))
        same(None, process.mkfifo("f"))
        same(None, process.link("a", b"b"))
        same(None, process.unlink("a"))
        same(3, process.open("f", os.O_RDONLY | os.O_NONBLOCK))
        same(("fifo", stat.S_IFIFO, 0, 1), tuple(process.fstat(3)))
        same(4, process.open("b", os.O_WRONLY | os.O_TRUNC | os.O_APPEND))
        same(b"", process.pread(0, 3, 0))
        child = process.fork()
        same((1, 22), (child, process.place))
        with fdref.attach(server.path, child) as other:
            same((1, 23), (other.pid, other.place))
            waits: queue.Queue[tuple[int, int]] = queue.Queue()
            process.on_wait = lambda place, moved: waits.put((place, moved))
            waited = []

            def read_in_parts() -> None:
                for count in (500, 1_024):
                    waited.append(waits.get(timeout=SECONDS))
                    other.read(1, count)

            reader = threading.Thread(target=read_in_parts, daemon=True)
            reader.start()
            same((2_000, 28), (process.write(2, b"x" * 2_000), process.place))
            reader.join(SECONDS)
            same([(24, 1_024), (26, 1_524)], waited)
            same(waited, process.waits)
            same(b"x" * 476, process.read(1, 9_999))
            same([], process.waits)
        flags_and_rename(process)
        process.exit()
        server.ended(report(2, 42, 2_007, 2_005))


def flags_and_rename(process: fdref.Process) -> None:
    """Flags of the descriptions behind 0, which is also behind 9, and behind 3 and 4; and b becomes f."""
    same(os.O_RDWR, process.getfl(0))
    creation = os.O_CREAT | os.O_EXCL | os.O_TRUNC
    same(None, process.setfl(0, os.O_WRONLY | creation | os.O_APPEND | os.O_NONBLOCK))
    same(os.O_RDWR | os.O_APPEND | os.O_NONBLOCK, process.getfl(9))
    same(None, process.setfl(4, fdref.O_NEITHER))
    same(os.O_WRONLY, process.getfl(4))
    same(os.O_RDONLY | os.O_NONBLOCK, process.getfl(3))
    same(None, process.rename("b", b"f"))
    same(("fifo", stat.S_IFIFO, 0, 0), tuple(process.fstat(3)))
    same(errno.ENOENT, raises(fdref.CallError, process.open, "b", os.O_RDONLY).errno)


# What is told where the run has no record for a call, where the server closes the connection, and of each later call.
FULL = "RunFull: no record of --records is free for it, since one is kept for each exit and one for the end of the run"
CLOSED = "the server has closed the connection"
ENDED = "the process has ended"


def faults(program: str) -> None:
    """What a call raises: an error number, a refusal, and a connection that is lost."""
    with Server(program, 4, 60) as server, joined(server) as process:
        refused: list[tuple[int, Callable[..., object], tuple[object, ...]]] = [
            (errno.EBADF, process.close, (0,)),
            (errno.EINVAL, process.open, ("a", fdref.O_NEITHER)),
            (errno.ENOENT, process.open, ("", os.O_RDONLY)),
            (errno.ENAMETOOLONG, process.mkfifo, ("n" * 65,)),
            (errno.EBADF, process.dup2, (-1, 2)),
            (errno.EBADF, process.getfl, (0,)),
            (errno.EBADF, process.setfl, (0, os.O_APPEND)),
            (errno.ENOENT, process.rename, ("a", "b")),
        ]
        for number, call, values in refused:
            raised = raises(fdref.CallError, call, *values)
            same((number, process.place), (raised.errno, raised.place))
        same(8, process.place)
        same((0, 1), process.pipe())
        process.close(0)
        same(errno.EPIPE, raises(fdref.CallError, process.write, 1, b"x").errno)
        same(11, process.place)
        raises(ValueError, process.mkfifo, "n" * 256)
        raises(ValueError, process.write, 1, bytes(65_701))
        raises(ValueError, process.open, "a", os.O_RDONLY | os.O_SYNC)
        raises(ValueError, process.setfl, 1, os.O_SYNC)
        out_of_range: list[tuple[str, Callable[..., object], tuple[object, ...]]] = [
            (f"{2**31} is not from {-(2**31)} to {2**31 - 1}", process.close, (2**31,)),
            (f"{-(2**31) - 1} is not from {-(2**31)} to {2**31 - 1}", process.close, (-(2**31) - 1,)),
            (f"-1 is not from 0 to {2**32 - 1}", process.read, (0, -1)),
            (f"{2**32} is not from 0 to {2**32 - 1}", process.read, (0, 2**32)),
            (f"{2**63} is not from {-(2**63)} to {2**63 - 1}", process.lseek, (0, 2**63, os.SEEK_SET)),
            (f"-1 is not from 0 to {2**32 - 1}", fdref.attach, (server.path, -1)),
        ]
        for told, call, values in out_of_range:
            same(told, str(raises(OverflowError, call, *values)))
        raises(TypeError, process.read, 0, 2.5)
        raises(TypeError, process.close, "0")
        raises(ValueError, fdref.join, server.path, -1)
        raises(ValueError, fdref.attach, server.path, 7, math.nan)
        raised = raises(fdref.CallError, fdref.attach, server.path, 7)
        same((errno.ESRCH, 12), (raised.errno, raised.place))
        for _ in range(45):
            raises(fdref.CallError, process.close, 7)
        refusal = raises(fdref.Refused, process.close, 7)
        same(("RunFull", FULL), (refusal.reason, str(refusal)))
        same(57, process.place)
        same("RunFull", raises(fdref.Refused, fdref.join, server.path).reason)
        server.process.kill()
        server.process.wait()
        # it has not the number of an answer about a pipe
        lost = raises(ConnectionResetError, process.close, 7)
        same((errno.ECONNRESET, CLOSED, server.path), (lost.errno, lost.strerror, lost.filename))
        for path in (server.path, "/no/such/socket"):
            same(path, getattr(raised_by(fdref.join, path), "filename", None))
        raised = raises(OSError, fdref.join, "a" * 200)
        same((errno.ENAMETOOLONG, "a" * 200), (raised.errno, raised.filename))
        raises(ConnectionError, process.close, 7)


def exits(program: str) -> None:
    """An exit is recorded when it returns: the next call of another process finds no reader."""
    with Server(program, 1 + EXITS) as server, joined(server) as process:
        for _ in range(EXITS):
            reading, writing = process.pipe()
            other = fdref.attach(server.path, process.fork())
            process.close(reading)
            other.exit()
            same(errno.EPIPE, raises(fdref.CallError, process.write, writing, b"x").errno)
            process.close(writing)
        process.exit()
        server.ended(report(1 + EXITS, 3 + 7 * EXITS))


def full_while_waiting(program: str) -> None:
    """Where the run is full when a call could go on, the call is refused, and the process has ended."""
    with Server(program, 2, 9) as server, joined(server) as process:
        same((0, 1), process.pipe())
        with fdref.attach(server.path, process.fork()) as other:
            process.on_wait = lambda place, moved: other.write(1, b"hello")
            same("RunFull", raises(fdref.Refused, process.read, 0, 5).reason)
            same((4, [(4, 0)]), (process.place, process.waits))
            same("6 p0 exit = ok", until_traced(server, 7)[6])
            # of either kind: the server may still read the request, or not
            require(isinstance(raised_by(process.close, 0), ConnectionError), "the process goes on")
        server.ended(report(2, 9, 5, 0))


def as_told(met: Sequence[Exception | None]) -> list[tuple[type, str]]:
    """The types and the texts of exceptions."""
    return [(type(it), str(it)) for it in met]


def waiting_elsewhere(process: fdref.Process) -> tuple[threading.Thread, list[Exception | None]]:
    """A thread in which a call of a process waits, and what that will raise."""
    met: list[Exception | None] = []
    waits = threading.Event()
    process.on_wait = lambda place, moved: waits.set()
    thread = threading.Thread(target=lambda: met.append(raised_by(process.read, 0, 5)), daemon=True)
    thread.start()
    require(waits.wait(SECONDS), "the call does not wait")
    return thread, met


def lost_while_waiting(program: str) -> None:
    """Where the server ends while a call waits, it is told that it did, and which server."""
    with Server(program, 1) as server:
        process = joined(server)
        same((0, 1), process.pipe())
        thread, met = waiting_elsewhere(process)
        server.process.kill()
        server.process.wait()
        thread.join(SECONDS)
        same([(ConnectionResetError, str(OSError(errno.ECONNRESET, CLOSED, server.path)))], as_told(met))
        same([(ConnectionError, ENDED)], as_told([raised_by(process.close, 0)]))
        process.exit()


def exited_by_another(program: str) -> None:
    """An exit that another thread makes ends a call that waits, and is recorded when it returns."""
    with Server(program, EXITS) as server:
        for number in range(EXITS):
            process = joined(server)
            same((0, 1), process.pipe())
            thread, met = waiting_elsewhere(process)
            process.exit()
            thread.join(SECONDS)
            same([(ConnectionError, ENDED)], as_told(met))
            same(4 * number + 2, process.place)
        server.ended(report(EXITS, 4 * EXITS + 1))


def exited_at_a_server_that_stays() -> None:
    """So does an exit that the server leaves alone, once its limit has passed."""
    listener = Listener()
    listener.socket.listen(1)
    with contextlib.closing(listener), contextlib.ExitStack() as stack:
        answering = threading.Thread(target=lambda: stays(listener, stack, "parked 0"), daemon=True)
        answering.start()
        process = fdref.join(listener.path, within=SECONDS)
        thread, met = waiting_elsewhere(process)
        with mock.patch("fdref.EXIT_WITHIN", A_WHILE), warnings.catch_warnings(record=True) as caught:
            warnings.simplefilter("always")
            process.exit()
        thread.join(SECONDS)
        same([(ConnectionError, ENDED)], as_told(met))
        same([STAYS.format(listener.path, A_WHILE)], [str(it.message) for it in caught])
        answering.join(SECONDS)


class BrokenOff(Exception):
    """What breaks off a call."""


def broken_off(program: str) -> None:
    """A call that is broken off while it waits ends the process, and gets nothing."""

    def breaks(place: int, moved: int) -> NoReturn:
        raise BrokenOff

    with Server(program, 2) as server, joined(server) as process:
        same((0, 1), process.pipe())
        with fdref.attach(server.path, process.fork()) as other:
            process.on_wait = breaks
            raises(BrokenOff, process.read, 0, 5)
            same([(4, 0)], process.waits)
            raises(ConnectionError, process.close, 0)
            same("5 p0 exit = ok", until_traced(server, 6)[5])
            same(5, other.write(1, b"hello"))
        server.ended(report(2, 9, 5, 0))


def is_late(process: fdref.Process) -> None:
    """A read has no answer within its limit."""
    process.timeout = A_WHILE
    raises(fdref.NoAnswer, process.read, 0, 5)


def is_left(process: fdref.Process) -> None:
    """What is called while a read waits raises."""

    def breaks(place: int, moved: int) -> NoReturn:
        raise BrokenOff

    process.on_wait = breaks
    raises(BrokenOff, process.read, 0, 5)


def has_no_answer(process: fdref.Process) -> None:
    """What comes is no answer of a read."""
    raises(ConnectionError, process.read, 0, 5)


def exits_after(program: str, breaks: Callable[[fdref.Process], None]) -> None:
    """An exit after a call that was broken off is recorded when it returns, too: a read finds no writer."""
    with Server(program, 1 + BREAKS) as server, joined(server) as process, warnings.catch_warnings():
        warnings.simplefilter("error")
        process.pipe()
        for _ in range(BREAKS):
            reading, writing = process.pipe()
            process.setfl(reading, os.O_NONBLOCK)
            other = fdref.attach(server.path, process.fork())
            process.close(writing)
            breaks(other)
            other.timeout = None
            other.exit()
            same(b"", process.read(reading, 1))
            process.close(reading)
        process.exit()
        server.ended(report(1 + BREAKS, 4 + 9 * BREAKS))


def broken_off_at_a_server_that_stays(outcome: str, breaks: Callable[[fdref.Process], None]) -> None:
    """A server is told at once that a call was broken off, and an exit tells that the server stays all the same."""
    listener = Listener()
    listener.socket.listen(1)
    with contextlib.closing(listener), contextlib.ExitStack() as stack:
        is_told = threading.Event()
        answering = threading.Thread(target=lambda: is_told_of_the_end(listener, stack, outcome, is_told), daemon=True)
        answering.start()
        process = fdref.join(listener.path, within=SECONDS)
        breaks(process)
        require(is_told.wait(SECONDS), "the server is not told")
        for _ in range(2):
            same([(ConnectionError, ENDED)], as_told([raised_by(process.close, 0)]))
        same([STAYS.format(listener.path, A_WHILE)], warned_in_an_exit(process))
        same([], warned_in_an_exit(process))
        same([(ConnectionError, ENDED)], as_told([raised_by(process.close, 0)]))


def is_told_of_the_end(listener: Listener, stack: contextlib.ExitStack, outcome: str, told: threading.Event) -> None:
    """Takes a connection, answers a join and one call, and sees the end of the requests."""
    taken = stack.enter_context(listener.socket.accept()[0])
    for place, text in enumerate(("5", outcome), 3):
        taken.recv(PIECE)
        taken.sendall(answer_of(place, text))
    if taken.recv(PIECE) == b"":
        told.set()


def warned_in_an_exit(process: fdref.Process) -> list[str]:
    """What an exit warns of that may take a while."""
    begun = time.monotonic()
    with mock.patch("fdref.EXIT_WITHIN", A_WHILE), warnings.catch_warnings(record=True) as caught:
        warnings.simplefilter("always")
        process.exit()
    took = time.monotonic() - begun
    require(took < SECONDS, f"it took {took} seconds, and {A_WHILE} were given")
    return [str(it.message) for it in caught]


def exits_while_all_comes() -> None:
    """An exit ends after its limit though a server that is none never stops to send."""
    listener = Listener()
    listener.socket.listen(1)

    def pours() -> None:
        taken, _ = listener.socket.accept()
        with taken, contextlib.suppress(OSError):
            taken.settimeout(SECONDS)
            taken.sendall(answer_of(3, "5"))
            while True:
                taken.sendall(b"x" * PIECE)

    with contextlib.closing(listener):
        pouring = threading.Thread(target=pours, daemon=True)
        pouring.start()
        process = fdref.join(listener.path, within=SECONDS)
        has_no_answer(process)
        same([STAYS.format(listener.path, A_WHILE)], warned_in_an_exit(process))
        pouring.join(SECONDS)
        require(not pouring.is_alive(), "the connection stays open")


def called_while_another_exits() -> None:
    """A call while another thread exits is none, and ends no exit before its time."""
    listener = Listener()
    listener.socket.listen(1)
    with contextlib.closing(listener), contextlib.ExitStack() as stack:
        is_told = threading.Event()
        answering = threading.Thread(target=lambda: is_told_of_the_end(listener, stack, "ok", is_told), daemon=True)
        answering.start()
        process = fdref.join(listener.path, within=SECONDS)
        process.close(0)
        warned: list[str] = []
        leaving = threading.Thread(target=lambda: warned.extend(warned_in_an_exit(process)), daemon=True)
        leaving.start()
        require(is_told.wait(SECONDS), "the server is not told")
        same([(ConnectionError, ENDED)], as_told([raised_by(process.close, 0)]))
        leaving.join(SECONDS)
        same([STAYS.format(listener.path, A_WHILE)], warned)


# What is told where the connection is made and no answer comes, whoever listens.
NO_PLACE = (
    "no answer: all sessions are taken, the server can take no further connection or is late, or no fdref listens "
    "there"
)


def without_a_place(program: str) -> None:
    """A process more than the server has sessions is told so, though it is connected."""
    with Server(program, 1) as server, joined(server) as process:
        child = process.fork()
        late: list[Callable[[], object]] = [
            lambda: fdref.join(server.path, within=A_WHILE),
            lambda: fdref.attach(server.path, child, within=A_WHILE),
        ]
        for call in late:
            begun = time.monotonic()
            raised = raises(fdref.NoPlace, call)
            took = time.monotonic() - begun
            wanted = (errno.ETIMEDOUT, NO_PLACE, server.path)
            same(wanted, (raised.errno, raised.strerror, raised.filename))
            require(A_WHILE <= took < SECONDS, f"told after {took} seconds, and {A_WHILE} were given")
        same((None, None), (process.timeout, process.close(process.open("a", os.O_WRONLY | os.O_CREAT))))
        process.exit()
        server.ended(report(1, 7))


def with_a_full_queue() -> None:
    """So is one for which the system has not even a place in the queue of a socket."""
    listener = Listener()
    listener.socket.listen(0)
    with contextlib.ExitStack() as stack:
        stack.callback(listener.close)
        waiting = stack.enter_context(socket.socket(socket.AF_UNIX, socket.SOCK_STREAM))
        waiting.connect(listener.path)
        raised = raises(fdref.NoPlace, lambda: fdref.join(listener.path, within=A_WHILE))
        same(NO_PLACE, raised.strerror)
        # as soon as there is a place, it is taken
        taken: list[socket.socket] = []

        def accept() -> None:
            time.sleep(A_WHILE)
            for answer in (b"", answer_of(3, "5")):
                taken.append(stack.enter_context(listener.socket.accept()[0]))
                taken[-1].sendall(answer)
            while taken[-1].recv(PIECE):
                pass
            taken[-1].close()

        thread = threading.Thread(target=accept, daemon=True)
        thread.start()
        with fdref.join(listener.path, within=SECONDS) as process:
            same((5, 3), (process.pid, process.place))
        thread.join(SECONDS)


# What is told of an exit after its limit: the path, and the limit in seconds.
STAYS = "{}: the server has not closed the connection in {} seconds: the exit may not be recorded yet"


def with_a_server_that_stays() -> None:
    """An exit does not wait for long for a server that never closes the connection, nor longer than was allowed, and
    tells that."""
    listener = Listener()
    listener.socket.listen(2)
    with contextlib.closing(listener), contextlib.ExitStack() as stack:
        for within, limit in ((A_WHILE, None), (SECONDS, A_WHILE), (A_WHILE, SECONDS)):
            answering = threading.Thread(target=lambda: stays(listener, stack), daemon=True)
            answering.start()
            process = fdref.join(listener.path, within=SECONDS)
            process.timeout = limit
            begun = time.monotonic()
            with mock.patch("fdref.EXIT_WITHIN", within), warnings.catch_warnings(record=True) as caught:
                warnings.simplefilter("always")
                process.exit()
            took = time.monotonic() - begun
            require(A_WHILE <= took < SECONDS, f"it took {took} seconds, and {A_WHILE} were given")
            same([STAYS.format(listener.path, A_WHILE)], [str(it.message) for it in caught])
            answering.join(SECONDS)


def stays(listener: Listener, stack: contextlib.ExitStack, *later: str) -> None:
    """Takes a connection, answers a join, and perhaps what is asked later, and keeps it open."""
    taken = stack.enter_context(listener.socket.accept()[0])
    for place, outcome in enumerate(("5", *later), 3):
        taken.recv(PIECE)
        taken.sendall(answer_of(place, outcome))


def with_another_server() -> None:
    """Where what listens is no fdref, and says nothing, the same is told, which is true of it too."""
    listener = Listener()
    listener.socket.listen(1)
    with contextlib.closing(listener):
        raised = raises(fdref.NoPlace, lambda: fdref.join(listener.path, within=A_WHILE))
        same((NO_PLACE, listener.path), (raised.strerror, raised.filename))


def with_an_ended_server(is_taken: bool) -> None:
    """Where a server ends before it answers, the path is told, whether it had taken the connection or not."""
    listener = Listener()
    taken: list[socket.socket] = []

    def end() -> None:
        time.sleep(A_WHILE)
        if is_taken:
            taken.append(listener.socket.accept()[0])
            taken[-1].recv(99)
            taken[-1].close()
        listener.socket.close()

    with contextlib.closing(listener):
        thread = threading.Thread(target=end, daemon=True)
        thread.start()
        raised = raises(ConnectionResetError, lambda: fdref.join(listener.path, within=SECONDS))
        thread.join(SECONDS)
        wanted = (errno.ECONNRESET, "the server ended, or had no memory, descriptor or thread for this process", listener.path)
        same(wanted, (raised.errno, raised.strerror, raised.filename))


def limited(program: str) -> None:
    """An answer that does not come within the limit ends the process; one that comes does not."""
    with Server(program, 2) as server, joined(server) as process:
        same((0, 1), process.pipe())
        with fdref.attach(server.path, process.fork()) as other:
            process.timeout = SECONDS
            same((SECONDS, None), (process.timeout, other.timeout))
            process.on_wait = lambda place, moved: other.write(1, b"hello")
            same(b"hello", process.read(0, 9))
            process.on_wait = None
            process.timeout = A_WHILE
            raised = raises(fdref.NoAnswer, process.read, 0, 9)
            wanted = (errno.ETIMEDOUT, f"no answer in {A_WHILE} seconds", server.path, [(7, 0)])
            same(wanted, (raised.errno, raised.strerror, raised.filename, process.waits))
            raises(ConnectionError, process.close, 0)
            same("8 p0 exit = ok", until_traced(server, 9)[8])
            for limit in (0, -1.0):
                raises(ValueError, setattr, other, "timeout", limit)
            same(5, other.write(1, b"hello"))
        server.ended(report(2, 12, 10, 5))


def one_call_at_a_time(program: str) -> None:
    """A call that is made while one of the process waits is refused, and that one goes on."""
    with Server(program, 2) as server:
        with joined(server) as process:
            same((0, 1), process.pipe())
            with fdref.attach(server.path, process.fork()) as other:
                met: list[Exception | None] = []

                def waits(place: int, moved: int) -> None:
                    met.append(raised_by(process.read, 0, 1))
                    thread = threading.Thread(target=lambda: met.append(raised_by(process.fstat, 0)))
                    thread.start()
                    thread.join(SECONDS)
                    other.write(1, b"hello")

                process.on_wait = waits
                same(b"hello", process.read(0, 9))
                same([RuntimeError, RuntimeError], [type(it) for it in met])
                same(0, process.fstat(0).st_size)
        server.ended(report(2, 11, 5, 5))


EXAMPLE = b"""\
0 the parent is process 0
1 the parent makes a pipe: it reads from 0 and writes to 1
2 the parent forks process 1
3 the child is process 1
4 the child reads 5 bytes and waits
5 the parent writes 11 bytes
6 the child gets b'hello'
7 the parent gets b' world'
"""


def until_listening(server: Server) -> None:
    """Waits until a server listens."""
    while not is_listening(server.path):
        require(server.is_running(), "the server has ended")
        time.sleep(0.01)


def example(program: str, has_own_server: bool) -> None:
    """The example gives its lines, with a server that it starts itself or with one that is there."""
    words = [sys.executable, str(EXAMPLES / "shared_pipe.py")]
    if has_own_server:
        words += ["--program", shlex.quote(program)]
        same((0, EXAMPLE + report(2, 11, 11, 11), b""), outcome_of(started(words)))
        return
    with Server(program, 2) as server:
        until_listening(server)
        same((0, EXAMPLE, b""), outcome_of(started([*words, "--socket", server.path])))
        server.ended(report(2, 11, 11, 11))


# Where the example has no server, and why.
NO_SERVER = [
    (["--program", "false"], "false ended with status 1 before it served"),
    (["--program", "/no/such"], "/no/such: No such file or directory"),
    (["--socket", "/no/such"], "/no/such: No such file or directory"),
]


def example_has_no_server(words: Sequence[str], why: str) -> None:
    """Where the example has no server it says why in one line, and ends with 3."""
    ran = outcome_of(started([sys.executable, str(EXAMPLES / "shared_pipe.py"), *words]))
    same((3, b"", f"shared_pipe.py: {why}\n".encode()), ran)


def example_is_refused(program: str) -> None:
    """Where the run has no record for a call, the example says that, too."""
    with Server(program, 2, 4) as server:
        until_listening(server)
        ran = outcome_of(started([sys.executable, str(EXAMPLES / "shared_pipe.py"), "--socket", server.path]))
        same((3, b"", f"shared_pipe.py: {FULL}\n".encode()), ran)


# ---- the bytes of the client, and those of the tests

# Each call of the client, and the line of a script that asks the same.
REQUESTS: list[tuple[str, Callable[[fdref.Process], object]]] = [
    ("open a rw,creat,excl", lambda it: it.open("a", os.O_RDWR | os.O_CREAT | os.O_EXCL)),
    ("open % r,nonblock", lambda it: it.open(b"", os.O_RDONLY | os.O_NONBLOCK)),
    ("open %ff w,trunc,append", lambda it: it.open(b"\xff", os.O_WRONLY | os.O_TRUNC | os.O_APPEND)),
    ("open a -", lambda it: it.open("a", fdref.O_NEITHER)),
    ("close -1", lambda it: it.close(-1)),
    ("read 2147483647 4294967295", lambda it: it.read(2**31 - 1, 2**32 - 1)),
    ("write 0 x6869", lambda it: it.write(0, b"hi")),
    ("write 0 61*65700", lambda it: it.write(0, b"a" * 65_700)),
    ("pread 0 -9223372036854775808 5", lambda it: it.pread(0, 5, -(2**63))),
    ("pwrite 0 9223372036854775807 x", lambda it: it.pwrite(0, b"", 2**63 - 1)),
    ("lseek 0 1 set", lambda it: it.lseek(0, 1, os.SEEK_SET)),
    ("lseek 0 -1 cur", lambda it: it.lseek(0, -1, os.SEEK_CUR)),
    ("lseek 0 0 end", lambda it: it.lseek(0, 0, os.SEEK_END)),
    ("ftruncate 0 3", lambda it: it.ftruncate(0, 3)),
    ("dup 0", lambda it: it.dup(0)),
    ("dup2 0 9", lambda it: it.dup2(0, 9)),
    ("pipe", lambda it: it.pipe()),
    ("mkfifo f", lambda it: it.mkfifo("f")),
    ("link a b", lambda it: it.link("a", "b")),
    ("unlink a", lambda it: it.unlink("a")),
    ("fstat 0", lambda it: it.fstat(0)),
    ("fork", lambda it: it.fork()),
    ("getfl 0", lambda it: it.getfl(0)),
    ("setfl -1 -,nonblock", lambda it: it.setfl(-1, fdref.O_NEITHER | os.O_NONBLOCK)),
    (
        "setfl 0 rw,creat,excl,trunc,append",
        lambda it: it.setfl(0, os.O_RDWR | os.O_CREAT | os.O_EXCL | os.O_TRUNC | os.O_APPEND),
    ),
    ("rename a %ff", lambda it: it.rename("a", b"\xff")),
]

# A call of each outcome of a reply, and the value that the client has of it.
REPLIES: list[tuple[Callable[[fdref.Process], object], str, object]] = [
    (lambda it: it.close(0), "ok", None),
    (lambda it: it.lseek(0, 0, os.SEEK_CUR), "18446744073709551615", 2**64 - 1),
    (lambda it: it.read(0, 65_536), "x", b""),
    (lambda it: it.pread(0, 65_536, 0), "61*65536", b"a" * 65_536),
    (lambda it: it.pipe(), "3 4", (3, 4)),
    (lambda it: it.fstat(0), "regular 5 1", ("regular", stat.S_IFREG, 5, 1)),
    (lambda it: it.fstat(0), "fifo 0 2", ("fifo", stat.S_IFIFO, 0, 2)),
    (lambda it: it.fstat(0), "pipe 18446744073709551615 0", ("pipe", stat.S_IFIFO, 2**64 - 1, 0)),
    (lambda it: it.getfl(0), "1", os.O_RDONLY),
    (lambda it: it.getfl(0), "66", os.O_WRONLY | os.O_NONBLOCK),
    (lambda it: it.getfl(0), "35", os.O_RDWR | os.O_APPEND),
]


class Answering(Listener):
    """A socket that answers each request of a client with what it is told, and keeps the request."""

    def asked(self, *exchanges: tuple[Callable[[Any], Any], bytes]) -> tuple[list[bytes], list[Any]]:
        """Makes calls, of which each is given what the one before it gave, and answers each with these bytes."""
        requests: list[bytes] = []

        def answer() -> None:
            connection, _ = self.socket.accept()
            connection.settimeout(SECONDS)
            with connection, connection.makefile("rb") as stream:
                for _, answers in exchanges:
                    length = stream.read(4)
                    requests.append(length + stream.read(int.from_bytes(length, "big")))
                    connection.sendall(answers)

        thread = threading.Thread(target=answer, daemon=True)
        thread.start()
        values: list[Any] = [None]
        try:
            for call, _ in exchanges:
                values.append(call(values[1] if len(values) > 1 else self.path))
        finally:
            thread.join(SECONDS)
            if len(values) > 1:
                values[1].exit()
        return requests, values[1:]


def answer_of(place: int, outcome: str) -> bytes:
    """The frame of an answer."""
    return frames.framed(frames.recorded(place, outcome))


def agrees_on_requests() -> None:
    """The client sends each request as the tests write it."""
    listener = Answering()
    try:
        words = {line.split(" ")[0] for line, _ in REQUESTS}
        same({form.word for form in frames.CALLS.values()}, words)
        for line, call in REQUESTS:
            refused = partial(raised_by, call)
            given, _ = listener.asked((fdref.join, answer_of(0, "0")), (refused, answer_of(1, "error EBADF")))
            same(frames.JOIN + frames.request_frame(line), b"".join(given))
        given, _ = listener.asked((lambda path: fdref.attach(path, 7), answer_of(0, "ok")))
        same([frames.attach_frame(7)], given)
    finally:
        listener.close()


def agrees_on_answers() -> None:
    """The client reads each answer as the tests write it."""
    listener = Answering()
    join = (fdref.join, answer_of(0, "0"))

    def error(process: fdref.Process) -> object:
        raised = raises(fdref.CallError, process.fork)
        return raised.name, raised.errno, raised.place

    def reason(process: fdref.Process) -> object:
        return raises(fdref.Refused, process.fork).reason

    try:
        for call, outcome, value in REPLIES:
            same(value, listener.asked(join, (call, answer_of(2**64 - 1, outcome)))[1][1])
        for name in frames.ERRORS:
            given = listener.asked(join, (error, answer_of(5, f"error {name}")))[1][1]
            same((name, getattr(errno, name), 5), given)
        for byte, name in frames.REFUSALS.items():
            payload = bytes([2, byte]) + bytes(16 if name == "Foreign" else 0)
            same(name, listener.asked(join, (reason, frames.framed(payload)))[1][1])
        waits = answer_of(3, "parked 7") + answer_of(4, "part 8") + answer_of(5, "9")
        process, value = listener.asked(join, (lambda it: it.write(0, bytes(9)), waits))[1]
        same(([(3, 7), (4, 8)], 9, 5), (process.waits, value, process.place))
    finally:
        listener.close()


def cases(program: str) -> Iterator[Case]:
    """What is asked of the client in Python."""
    yield "each call of the client", partial(calls, program)
    yield "what the client raises", partial(faults, program)
    yield "an exit of the client", partial(exits, program)
    yield "a run that is full while the client waits", partial(full_while_waiting, program)
    yield "a call of the client that is broken off", partial(broken_off, program)
    for name, breaks in (("late", is_late), ("left", is_left)):
        yield f"an exit after a call that is {name}", partial(exits_after, program, breaks)
    for outcome, breaks in (("parked 0", is_late), ("parked 0", is_left), ("7", has_no_answer)):
        what = f"a call at a server that stays, {breaks.__name__}"
        yield what, partial(broken_off_at_a_server_that_stays, outcome, breaks)
    yield "an exit at what never stops to send", exits_while_all_comes
    yield "a call while another thread exits", called_while_another_exits
    yield "a server that ends while the client waits", partial(lost_while_waiting, program)
    yield "an exit while another thread waits", partial(exited_by_another, program)
    yield "an exit while another thread waits, at a server that stays", exited_at_a_server_that_stays
    yield "a server without a place", partial(without_a_place, program)
    yield "a queue without a place", with_a_full_queue
    yield "a server that stays", with_a_server_that_stays
    yield "another server", with_another_server
    for is_taken in (False, True):
        yield f"a server that ends, connection taken: {is_taken}", partial(with_an_ended_server, is_taken)
    yield "answers with a limit", partial(limited, program)
    yield "a call within a call", partial(one_call_at_a_time, program)
    yield "the example with a server of its own", partial(example, program, True)
    yield "the example with a server that is there", partial(example, program, False)
    yield "the example in a run that is full", partial(example_is_refused, program)
    for words, why in NO_SERVER:
        yield f"the example with {' '.join(words)}", partial(example_has_no_server, words, why)
    yield "the requests of the client are those of the tests", agrees_on_requests
    yield "the answers of the client are those of the tests", agrees_on_answers
