"""The client in Python in children of os.fork, and where the handler of a signal raises or returns."""

import contextlib
import errno
import os
import select
import signal
import socket
import threading
import time
import traceback
import warnings
from collections.abc import Callable, Iterator
from functools import partial
from types import FrameType
from typing import NoReturn
from unittest import mock

from parts.python_client import BrokenOff, joined, raised_by, raises, stays
from support.counting import Case, require, same
from support.players import until_traced
from support.serving import A_WHILE, SECONDS, Listener, Server, report

import fdref

# How often a signal comes whose handler returns.
OFTEN = 0.02


# ---- children of os.fork


def forked(act: Callable[[], object]) -> int:
    """A child of os.fork that does this, and ends with 0 where nothing was raised. It is ended when it takes long."""
    child = os.fork()
    if child:
        return child
    status = 1
    try:
        signal.alarm(SECONDS)
        act()
        status = 0
    except BaseException:
        traceback.print_exc()
    finally:
        os._exit(status)


def is_done(child: int) -> None:
    """A child has ended with 0."""
    same(0, os.waitstatus_to_exitcode(os.waitpid(child, 0)[1]))


def sees_the_end(program: str) -> None:
    """A read of a child that has forgotten the process of its parent ends when that is killed."""
    with Server(program, 2) as server, contextlib.ExitStack() as stack:
        told, telling = os.pipe()
        stack.callback(os.close, told)
        parent = forked(lambda: is_parent(server, telling))
        os.close(telling)
        same("5 p1 read 0 5 = parked 0", until_traced(server, 6)[5])
        os.kill(parent, signal.SIGKILL)
        os.waitpid(parent, 0)
        require(select.select([told], [], [], SECONDS)[0], "the read waits on")
        same(b"it read b''", os.read(told, 99))
        server.ended(report(2, 10))


def is_parent(server: Server, telling: int) -> NoReturn:
    """Has a pipe and a child, and waits to be killed."""
    process = joined(server)
    process.pipe()
    number = process.fork()

    def is_child() -> None:
        process.forget()
        with fdref.attach(server.path, number) as other:
            other.close(1)
            os.write(telling, b"it read %r" % other.read(0, 5))

    forked(is_child)
    while True:
        signal.pause()


def leaves_a_block(program: str) -> None:
    """A child that leaves the block which its parent entered does not end the process, and one that exits ends it."""
    with Server(program, 1) as server, contextlib.ExitStack() as stack:
        process = stack.enter_context(joined(server))

        def leaves() -> None:
            stack.close()
            same("the process has ended", str(raises(ConnectionError, process.pipe)))

        is_done(forked(leaves))
        same(((0, 1), 1), (process.pipe(), process.place))
        stack.close()
        raises(ConnectionError, process.pipe)
        server.ended(report(1, 4))


def enters_a_block(program: str) -> None:
    """A child that enters the block itself exits there."""
    with Server(program, 1) as server:
        process = joined(server)

        def enters() -> None:
            with process:
                same((0, 1), process.pipe())

        is_done(forked(enters))
        raises(ConnectionResetError, process.pipe)
        server.ended(report(1, 4))


def forgets(program: str) -> None:
    """After a forget calls raise, and an exit does nothing; the process goes on at its parent."""
    with Server(program, 1) as server, joined(server) as process:
        held = set(os.listdir("/proc/self/fd"))

        def forgets_it() -> None:
            process.forget()
            left = set(os.listdir("/proc/self/fd"))
            same((1, set()), (len(held - left), left - held))
            for _ in range(2):
                same("the process has ended", str(raises(ConnectionError, process.pipe)))
                process.exit()
                process.forget()
            with process:
                pass

        is_done(forked(forgets_it))
        same(((0, 1), 1), (process.pipe(), process.place))
        # nobody else has the connection
        process.forget()
        raises(ConnectionError, process.pipe)
        server.ended(report(1, 4))


def breaks_off(program: str) -> None:
    """A child that is forked while a call waits, and breaks it off, lets go of it; the call goes on at its parent."""
    with Server(program, 2) as server, joined(server) as process:
        same((0, 1), process.pipe())
        with fdref.attach(server.path, process.fork()) as other:
            parent = os.getpid()

            def forks(place: int, moved: int) -> None:
                child = os.fork()
                if child == 0:
                    raise BrokenOff
                is_done(child)
                other.write(1, b"hello")

            process.on_wait = forks
            try:
                given = process.read(0, 9)
            except BaseException as raised:
                if os.getpid() != parent:
                    os._exit(0 if isinstance(raised, BrokenOff) else 1)
                raise
            same(b"hello", given)
        process.exit()
        server.ended(report(2, 10, 5, 5))


# ---- the handlers of signals

TEXT = "the test took longer"


def interrupts(number: int, frame: FrameType | None) -> NoReturn:
    """The handler of a user who limits a test."""
    raise TimeoutError(errno.ETIMEDOUT, TEXT)


def returns(number: int, frame: FrameType | None) -> None:
    """One that has nothing to do."""


@contextlib.contextmanager
def alarmed(handler: Callable[[int, FrameType | None], None], first: float, then: float = 0) -> Iterator[None]:
    """With a signal after a while, and perhaps more."""
    before = signal.signal(signal.SIGALRM, handler)
    signal.setitimer(signal.ITIMER_REAL, first, then)
    try:
        yield
    finally:
        signal.setitimer(signal.ITIMER_REAL, 0)
        signal.signal(signal.SIGALRM, before)


def is_interrupted(call: Callable[[], object]) -> None:
    """The exception of the handler comes out of a call as it was raised."""
    with alarmed(interrupts, A_WHILE):
        raised = raises(TimeoutError, call)
    same((errno.ETIMEDOUT, TEXT, None), (raised.errno, raised.strerror, getattr(raised, "filename", None)))


# Calls that wait, and how many bytes they move before.
WAITING: list[tuple[Callable[[fdref.Process], object], int]] = [
    (lambda it: it.read(0, 5), 0),
    (lambda it: it.write(1, bytes(2_000)), 1_024),
]


def interrupted(program: str, limit: float | None) -> None:
    """So it is in calls that wait, with and without a limit; and the process has ended."""
    for call, moved in WAITING:
        with Server(program, 1) as server:
            process = joined(server)
            same((0, 1), process.pipe())
            process.timeout = limit
            is_interrupted(partial(call, process))
            same([(2, moved)], process.waits)
            same("the process has ended", str(raises(ConnectionError, process.close, 0)))
            server.ended(report(1, 5, moved))


def interrupted_joins() -> None:
    """So it is in a join and an attach, while they wait for a server, for a place in its queue, and for an answer."""
    listener = Listener()
    with contextlib.closing(listener), contextlib.ExitStack() as stack:
        ways: list[Callable[[str], fdref.Process]] = [
            lambda path: fdref.join(path, within=SECONDS),
            lambda path: fdref.attach(path, 1, within=SECONDS),
        ]
        for way in ways:
            is_interrupted(partial(way, f"{listener.path}.none"))
            is_interrupted(partial(way, listener.path))
        listener.socket.listen(0)
        for way in ways:
            with contextlib.suppress(BlockingIOError):
                while True:
                    waiting = stack.enter_context(socket.socket(socket.AF_UNIX, socket.SOCK_STREAM))
                    waiting.setblocking(False)
                    waiting.connect(listener.path)
            is_interrupted(partial(way, listener.path))


def interrupted_exit() -> None:
    """So it is in an exit, which has closed the connection then, and warns of nothing."""
    with staying() as process:
        with warnings.catch_warnings(record=True) as caught:
            warnings.simplefilter("always")
            is_interrupted(process.exit)
        same([], caught)
        same("the process has ended", str(raises(ConnectionError, process.pipe)))


@contextlib.contextmanager
def staying() -> Iterator[fdref.Process]:
    """A process of a server that never closes the connection."""
    listener = Listener()
    with contextlib.closing(listener), contextlib.ExitStack() as stack:
        answering = threading.Thread(target=stays, args=(listener, stack), daemon=True)
        answering.start()
        process = fdref.join(listener.path, within=SECONDS)
        answering.join(SECONDS)
        yield process


def in_time(call: Callable[[], object]) -> None:
    """A call ends after its limit, though signals come all the time."""
    begun = time.monotonic()
    with alarmed(returns, OFTEN, OFTEN):
        call()
    took = time.monotonic() - begun
    require(A_WHILE <= took < SECONDS, f"it took {took} seconds, and {A_WHILE} were given")


def limits_hold(program: str) -> None:
    """Limits hold where handlers return."""
    with Server(program, 1) as server:
        process = joined(server)
        process.pipe()
        process.timeout = A_WHILE
        in_time(partial(raises, fdref.NoAnswer, process.read, 0, 5))
        server.ended(report(1, 5))
    listener = Listener()
    with contextlib.closing(listener):
        in_time(partial(raises, fdref.NoPlace, lambda: fdref.join(listener.path, within=A_WHILE)))
    with staying() as process, mock.patch("fdref.EXIT_WITHIN", A_WHILE):
        with warnings.catch_warnings(record=True) as caught:
            warnings.simplefilter("always")
            in_time(process.exit)
        same(1, len(caught))


def waits_on(program: str) -> None:
    """A call without a limit waits on where a handler returns."""
    with Server(program, 2) as server, joined(server) as process:
        process.pipe()
        with fdref.attach(server.path, process.fork()) as other:

            def writes() -> None:
                time.sleep(A_WHILE)
                other.write(1, b"hello")

            writing = threading.Thread(target=writes, daemon=True)
            writing.start()
            with alarmed(returns, OFTEN, OFTEN):
                same(b"hello", process.read(0, 9))
            writing.join(SECONDS)
        process.exit()
        server.ended(report(2, 10, 5, 5))


def limits(program: str) -> None:
    """What a limit may be."""
    with Server(program, 1) as server, joined(server) as process:
        for limit in (0, -1.0, float("nan")):
            raises(ValueError, setattr, process, "timeout", limit)
            same(None, process.timeout)
        for limit in (1, 1e9, float("inf")):
            process.timeout = limit
            same(limit, process.timeout)
            require(isinstance(raised_by(process.close, 0), fdref.CallError), "the call has no answer")
        process.exit()
        server.ended(report(1, 6))


def cases(program: str) -> Iterator[Case]:
    """What is asked of the client in Python in children of os.fork, and with signals."""
    yield "a child that has forgotten sees the end of its parent", partial(sees_the_end, program)
    yield "a child that leaves a block", partial(leaves_a_block, program)
    yield "a child that enters a block", partial(enters_a_block, program)
    yield "a child that forgets", partial(forgets, program)
    yield "a child that breaks a call off", partial(breaks_off, program)
    for limit in (None, SECONDS):
        yield f"a handler that raises in calls with the limit {limit}", partial(interrupted, program, limit)
    yield "a handler that raises in joins", interrupted_joins
    yield "a handler that raises in an exit", interrupted_exit
    yield "handlers that return, and limits", partial(limits_hold, program)
    yield "handlers that return, and no limit", partial(waits_on, program)
    yield "limits of the client", partial(limits, program)
