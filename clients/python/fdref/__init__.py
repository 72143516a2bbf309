"""A client of `fdref serve`: each connection is one process.

    import fdref, os

    with fdref.join("/tmp/fdref.socket") as process:
        fd = process.open("a", os.O_RDWR | os.O_CREAT)
        process.write(fd, b"hello")
        print(process.pread(fd, 5, 0), "at place", process.place)

`join` opens a connection as a new process, `attach` as a child that a process has forked. The calls
are methods that have the names, the arguments and the values of the functions in the module `os`;
`getfl` and `setfl` are F_GETFL and F_SETFL of `fcntl`. A process makes one call at a time, so only
one thread at a time may use it; give each process a thread of its own. `exit` alone may come from
another thread: it ends a call that waits.

A server takes as many connections as its `--sessions` says, or its descriptors allow. One more connects, but nothing
ever answers it; `join` and `attach` then raise NoPlace. Other answers are waited for without a limit, unless
`process.timeout` is set. `tools/waiting.py` (installed: `fdref-waiting`) tells of the trace of a run, also while the
server runs, which processes wait, and for whom.

A child of `os.fork`, and of multiprocessing where that forks, has each connection that its parent had open, and should
call `forget` for each process of its parent's: else a parent that is killed leaves that process there as long as the
child lives.

Each answer has a place in the record of the run, and `process.place` is that of the last one. A call
that has to wait is answered more than once: first that it waits, and at last its reply. Its method
returns with the reply. `process.waits` tells when it began to wait and how it went on, and
`process.on_wait`, if it is set, is called while the call still waits.

What a call can end in:

  - its value;
  - `CallError`, an OSError whose `errno` is that of the answer (EBADF and so on) and which has the
    answer's `place`. It is never a ConnectionError, so that EPIPE and a lost server are told apart;
  - `Refused`, where the run could not record the call; its `reason` is RunFull, NoMemory, Waiting,
    NotHere or Foreign. The process may go on, but not after RunFull in a call that waits: its session ends then, and
    the next call is a ConnectionError, nearly always ConnectionResetError;
  - ConnectionError, where the connection is lost, as a ConnectionResetError that names the server, or where what came
    is no answer of the call, or another thread has called `exit`. The process has ended then, as it has after a call
    that is broken off in any other way, by KeyboardInterrupt or by what `on_wait` or the handler of a signal raises,
    which comes out of the call as it is. `exit` then waits until that is recorded;
  - `NoAnswer`, a TimeoutError, where no answer came within `process.timeout`. The process has ended then, too;
  - OverflowError, ValueError or TypeError, where an argument has no place in a request. Nothing was sent;
  - RuntimeError, where a call of the process is under way, in another thread, or where `on_wait` or the handler of a
    signal makes one. Nothing was sent, and that call goes on.

`write_trace` and `read_trace` need no server. An emulator that has run calls of its own writes them as a
trace, which `fdref audit FILE` judges:

    records = [
        fdref.Record(0, "join", (), 0),
        fdref.Record(0, "mkfifo", ("f",)),
        fdref.Record(0, "fork", (), 1),
        fdref.Record(1, "attach"),
        fdref.Record(0, "open", ("f", os.O_RDONLY), fdref.Parked(0)),
        fdref.Record(1, "open", ("f", os.O_WRONLY), 0),
        fdref.Record(0, "resume", (), 0),
        fdref.Record(1, "write", (0, b"hello"), 5),
        fdref.Record(0, "read", (0, 9), b"hello"),
        fdref.Record(0, "read", (7, 5), fdref.Error("EBADF")),
        fdref.Record(1, "exit"),
        fdref.Record(0, "exit"),
        fdref.CLOSE_RUN,
    ]
    fdref.write_trace("trace", records)

The records stand in the order in which the calls took effect. Processes have the numbers 0, 1, 2 and so on, in the
order of their joins and forks, and the first begins with no descriptor open. A number as an outcome is a value, and
never an errno. `Record` tells how all else is noted. An emulator that was told how many records its run may have
passes that on, as `most_records`, and a run that went on for longer is found.

docs/FORMATS.md has the bytes of requests, answers and traces, and docs/PROFILE.md what each call does.
"""

from __future__ import annotations

import contextlib
import errno
import math
import operator
import os
import select
import socket
import stat
import struct
import threading
import time
import warnings
from collections.abc import Callable, Iterable, Sequence
from dataclasses import dataclass
from functools import partial
from typing import Any, NamedTuple, NoReturn

# The flags of an open that reads neither nor writes, which is EINVAL. (O_RDONLY is 0, so no flag at
# all asks to read.)
O_NEITHER = os.O_WRONLY | os.O_RDWR

# The greatest lengths in bytes: of the data of a call, of what a read gives, of a name, and of the payload of an answer
# or a record.
DATA_MOST = 65_700
TRANSFER_MOST = 65_536
NAME_MOST = 255
ANSWER_MOST = RECORD_MOST = 66_048

# The first bytes of a trace by its version, and how many bytes its header has in all.
TRACE_HEADERS = {1: (b"FDTRACE1", 8), 2: (b"FDTRACE2", 24)}
# What the header of version 2 may tell.
RECORDS_MOST = 1_000_000
PIPE_CAPACITIES = range(512, 65_536 + 1)
# What a pipe holds where a run is given no number. In traces of version 1 pipes hold 1,024 bytes, whatever stands here.
PIPE_CAPACITY = 1_024
FILE_SIZES = (1_048_576, 2**40)
# The `pid` of the record that closes a run, which no process makes.
HOUSE = 2**32 - 1

# How many seconds the first answer is waited for where no limit is given. A server that has a place answers at once.
FIRST_ANSWER = 10.0

# How many seconds an exit waits at most for the server to close the connection. One that runs does so at once.
EXIT_WITHIN = 10.0

# What is told where the connection is at its end, where it was so before the first answer, and of each later call.
CLOSED = "the server has closed the connection"
UNPLACED = "the server ended, or had no memory, descriptor or thread for this process"
ENDED = "the process has ended"

# How a connection tells that it is lost.
LOST = (errno.ECONNRESET, errno.ENOTCONN, errno.EPIPE)

# The longest single wait that the system takes, in milliseconds.
WAIT_MOST = 2**31 - 1

ERRORS = (
    "EBADF EINVAL ESPIPE EFBIG EOVERFLOW ENOENT EEXIST EMLINK "
    "ENAMETOOLONG EMFILE ENFILE ENOSPC EAGAIN EPIPE ENXIO ESRCH"
).split()
# What an emulator may call one of them.
OTHER_NAMES = {"EWOULDBLOCK": "EAGAIN"}
REFUSALS = {17: "NoMemory", 18: "RunFull", 19: "Waiting", 20: "NotHere", 21: "Foreign"}
# Each of these in words.
WHY_REFUSED = {
    "NoMemory": "the server has no memory for it",
    "RunFull": "no record of --records is free for it, since one is kept for each exit and one for the end of the run",
    "Waiting": "the process waits in a call",
    "NotHere": "the process is not there, or not attached",
    "Foreign": "the process is one of another run",
}
KINDS = ("regular", "fifo", "pipe")
BASES = (os.SEEK_SET, os.SEEK_CUR, os.SEEK_END)
MODES = {os.O_RDONLY: 1, os.O_WRONLY: 2, os.O_RDWR: 3, O_NEITHER: 0}
FLAGS = {os.O_CREAT: 4, os.O_EXCL: 8, os.O_TRUNC: 16, os.O_APPEND: 32, os.O_NONBLOCK: 64}


class CallError(OSError):
    """A call that was answered by an error number, and the place of that answer."""

    def __init__(self, name: str, place: int) -> None:
        number = getattr(errno, name)
        super().__init__(number, f"{os.strerror(number)} ({name} at place {place})")
        self.name = name
        self.place = place


class Refused(Exception):
    """A call, a join or an attach that the run did not record. `reason` is its name, and `str` has it in words:

      - "RunFull": no record is free for it. Of as many as `--records` of the server says, one is kept for the exit of
        each process and one for the end of the run, so that a process alone has two fewer for its join and its calls;
      - "NoMemory": the server has no memory for it;
      - "Waiting", "NotHere" or "Foreign": the process waits in a call, is not there or not attached, or is one of
        another run.

    The process may go on, but not after RunFull in a call that waits: its session ends then, and the next call is a
    ConnectionError, nearly always ConnectionResetError."""

    def __init__(self, reason: str) -> None:
        super().__init__(f"{reason}: {WHY_REFUSED[reason]}")
        self.reason = reason


class NoAnswer(TimeoutError):
    """No answer came in time; `filename` is the path of the server."""

    def __init__(self, why: str, path: str) -> None:
        super().__init__(errno.ETIMEDOUT, why, path)


class NoPlace(NoAnswer):
    """The connection was made and no first answer came: the server serves as many processes as it was told to, has no
    descriptors for one more, is late, or is no fdref."""

    def __init__(self, path: str) -> None:
        why = "all sessions are taken, the server can take no further connection or is late, or no fdref listens there"
        super().__init__(f"no answer: {why}", path)


class Stat(NamedTuple):
    """What fstat tells. A pipe and a FIFO have the same `st_mode`, as in `os`; `kind` tells them apart. A trace has no
    `st_mode`: any will do for a record."""

    kind: str
    st_mode: int
    st_size: int
    st_nlink: int


def join(path: str | os.PathLike[str], within: float = 0) -> Process:
    """Connects to the server at a path as a new process, without open descriptors.

    `within` is in seconds. A server that is only starting is waited for so long, and its first answer no longer than
    that from the call on; where it is 0 the server has to be there, and its first answer is waited for FIRST_ANSWER
    seconds. Less than 0 is a ValueError.

    NoPlace: the connection was made, and no answer came. ConnectionResetError: the server ended before that, or had no
    memory, descriptor or thread for the process. CallError: EAGAIN, since the run has as many processes as it may, 64. Refused:
    the run has no record free for a process, or no memory. FileNotFoundError or ConnectionRefusedError: no server
    listens there, or has listened within that time; another OSError, as ENAMETOOLONG, is that of the path. A connection
    that was made is one of the sessions of the server, also where the run takes no process.
    """
    return Process(path, b"\x01", within=within)


def attach(path: str | os.PathLike[str], pid: int, within: float = 0) -> Process:
    """Connects to the server at a path as process `pid`, which a `fork` has returned and nobody has attached yet.
    `within` is that of `join`, and so is what it raises, but a CallError is ESRCH here: there is no such child. A
    number below 0 or over 2^32 - 1 is an OverflowError."""
    return Process(path, b"\x02" + _number(pid, 4), pid, within)


class Process:
    """A process, and the connection that it lives as long as. `join` and `attach` make one.

    Its calls answer as docs/PROFILE.md says. Only `open`, `read` and `write` ever wait, at pipes and FIFOs, for as long
    as `timeout` allows. Sizes and offsets are in bytes. A process has 32 descriptors, 0 to 31; EMFILE is that none is
    free. There are no folders: a name has 1 to 64 letters, digits, `.`, `_` and `-`. Another name is ENOENT where it is
    empty, ENAMETOOLONG or EINVAL, and one of more than 255 bytes a ValueError.

    At the end of a `with` block it exits. Another Python process than the one that entered the block, a child of
    `os.fork`, only forgets it there."""

    def __init__(
        self, path: str | os.PathLike[str], opening: bytes, pid: int | None = None, within: float = 0
    ) -> None:
        self.place: int
        """The place of the last answer; it stays where a call is refused."""
        self.waits: list[tuple[int, int]] = []
        """The last call's waiting: for each answer that it waits, the place, and how many bytes it had moved."""
        self.on_wait: Callable[[int, int], Any] | None = None
        """Called with a place and a number of bytes when an answer tells that the call waits."""
        if not within >= 0:
            raise ValueError(f"a limit of {within} seconds leaves no time for a server")
        self._path = os.fspath(path)
        self._timeout: float | None = None
        self._entered_by = os.getpid()
        # whether `exit` or `forget` was called
        self._is_left = False
        # whether a call was broken off; the connection is kept for `exit`
        self._is_broken_off = False
        # held while a call is under way
        self._turn = threading.Lock()
        self._received = bytearray()
        self._socket = socket.socket(socket.AF_UNIX, socket.SOCK_STREAM)
        # whatever waits does so by `_wait`
        self._socket.setblocking(False)
        try:
            number = self._begin(opening, within)
        except BaseException:
            self._close()
            raise
        self.pid: int = number if pid is None else pid
        """The number of the process."""

    @property
    def timeout(self) -> float | None:
        """How many seconds may pass in which nothing comes of an answer that is waited for, or in which the server
        takes nothing of a request; None, at the beginning, where there is no limit. After that the call ends in
        NoAnswer. Each answer that a call waits begins a new wait. A limit of 0 or less is a ValueError."""
        return self._timeout

    @timeout.setter
    def timeout(self, seconds: float | None) -> None:
        if seconds is not None and not seconds > 0:
            raise ValueError(f"a limit of {seconds} seconds leaves no time for an answer")
        self._timeout = None if seconds is None else float(seconds)

    def _begin(self, opening: bytes, within: float) -> Any:
        """Connects, and returns the value of the first answer."""
        began = time.monotonic()
        until = began + (within or FIRST_ANSWER)
        self._connect(began + within, until)
        self.timeout = max(until - time.monotonic(), 0.001)
        try:
            number = self._ask(opening)
        except NoAnswer:
            raise NoPlace(self._path) from None
        except ConnectionError as fault:
            if fault.errno != errno.ECONNRESET:
                raise
            raise ConnectionResetError(errno.ECONNRESET, UNPLACED, self._path) from None
        self.timeout = None
        return number

    def _connect(self, until: float, until_placed: float) -> None:
        """Connects; until the first time also where nobody listens there yet, and until the second one also where so
        many others wait to be taken that the system has no room for one more."""
        while number := self._tried():
            if number == errno.EAGAIN:
                # the queue is full
                if time.monotonic() >= until_placed:
                    raise NoPlace(self._path)
            elif number not in (errno.ENOENT, errno.ECONNREFUSED) or time.monotonic() >= until:
                raise OSError(number, os.strerror(number), self._path)
            time.sleep(0.01)

    def _tried(self) -> int:
        """Tries to connect once: 0, or the error number."""
        try:
            return self._socket.connect_ex(self._path)
        except OSError as fault:
            # a path that is too long for a socket is told without a number
            if fault.errno is not None:
                raise
            return errno.ENAMETOOLONG

    def __enter__(self) -> Process:
        self._entered_by = os.getpid()
        return self

    def __exit__(self, *_: object) -> None:
        if os.getpid() == self._entered_by:
            self.exit()
        else:
            self.forget()

    def forget(self) -> None:
        """Lets go of the connection in this Python process, and tells the server nothing: the process goes on where
        another Python process has the connection. Later calls raise ConnectionError, as after `exit`; a later `exit`,
        and the end of a `with` block, does nothing.

        It is wanted in a child of `os.fork`, and of multiprocessing where that forks, for each process of the parent's.
        Else a parent that is killed, or ends without an `exit`, leaves its process there as long as the child lives,
        and a read of a pipe of which that has the other end waits on; and an `exit` in the child ends the process of
        the parent."""
        self._is_left = True
        self._close()

    def exit(self) -> None:
        """Ends the process, as `os._exit` does: the server closes its descriptors. Its exit is recorded when this
        returns, also after a call that was broken off, unless the connection was lost, or the server did not close it
        within EXIT_WITHIN seconds, or `timeout` if that is less: that is told by a RuntimeWarning. After an `exit` or
        `forget` it does nothing. A call that another thread waits in ends with a ConnectionError."""
        self._is_left = True
        if self._socket.fileno() < 0:
            return
        within = EXIT_WITHIN if self.timeout is None else min(EXIT_WITHIN, self.timeout)
        try:
            self._shut_down(time.monotonic() + within)
        except NoAnswer:
            # so that a call of another thread ends, too
            _unless_lost(partial(self._socket.shutdown, socket.SHUT_RD))
            told = f"{self._path}: the server has not closed the connection in {within} seconds"
            warnings.warn(f"{told}: the exit may not be recorded yet", RuntimeWarning, stacklevel=2)
        except OSError:
            # a call of another thread came to the end first, and has closed the connection
            if self._socket.fileno() >= 0:
                raise
        finally:
            self._close()

    def _shut_down(self, until: float) -> None:
        """Says that no request comes any more, and waits until the server closes the connection, as it does once it has
        recorded the exit."""
        _unless_lost(partial(self._socket.shutdown, socket.SHUT_WR))
        receive = partial(_unless_lost, partial(self._socket.recv, ANSWER_MOST))
        while self._move(select.POLLIN, receive, until):
            if time.monotonic() >= until:
                raise NoAnswer("what comes has no end", self._path)

    def _close(self) -> None:
        """Closes the connection, by which the process ends, perhaps later."""
        self._socket.close()

    def _break_off(self) -> None:
        """Says that no request comes any more, so that the server ends the process, and keeps the connection: by that
        `exit` finds out when it has."""
        self._is_broken_off = True
        # another thread may have closed it, or the server
        with contextlib.suppress(OSError):
            self._socket.shutdown(socket.SHUT_WR)

    # -- names

    def open(self, name: str | bytes, flags: int) -> int:
        """Opens a name, and returns the descriptor.

        `flags` are O_RDONLY, O_WRONLY, O_RDWR or O_NEITHER, with any of O_CREAT, O_EXCL, O_TRUNC, O_APPEND and
        O_NONBLOCK; others are a ValueError. There is no mode. An open of a FIFO waits until its other end is opened.
        With O_NONBLOCK it does not: for writing that is ENXIO then.
        """
        return self._call("open", name, flags)

    def mkfifo(self, name: str | bytes) -> None:
        """Makes a FIFO."""
        return self._call("mkfifo", name)

    def link(self, src: str | bytes, dst: str | bytes) -> None:
        """Gives the file of the name `src` the name `dst`, too."""
        return self._call("link", src, dst)

    def unlink(self, name: str | bytes) -> None:
        """Takes a name away; its file stays while it is open or has another name."""
        return self._call("unlink", name)

    def rename(self, src: str | bytes, dst: str | bytes) -> None:
        """Gives the file of the name `src` the name `dst` instead; a file that had this name loses it."""
        return self._call("rename", src, dst)

    # -- bytes and offsets

    def read(self, fd: int, n: int) -> bytes:
        """Reads at most n bytes, and none at the end; an n over TRANSFER_MOST is EINVAL. From an empty pipe that
        somebody can write to it waits, or is EAGAIN where O_NONBLOCK is set."""
        return self._call("read", fd, n)

    def write(self, fd: int, data: bytes) -> int:
        """Writes, and returns how many bytes. More than TRANSFER_MOST is EINVAL, and more than DATA_MOST a ValueError.
        Where a pipe has no room it waits until all is written, or nobody can read it any more. Where O_NONBLOCK is set
        it writes what goes in at once, or is EAGAIN."""
        return self._call("write", fd, data)

    def pread(self, fd: int, n: int, offset: int) -> bytes:
        """Reads at most n bytes from an offset on, as `read`, and leaves the offset of fd; of a pipe it is ESPIPE."""
        return self._call("pread", fd, n, offset)

    def pwrite(self, fd: int, data: bytes, offset: int) -> int:
        """Writes from an offset on, also under O_APPEND, and leaves the offset of fd; of a pipe it is ESPIPE."""
        return self._call("pwrite", fd, data, offset)

    def lseek(self, fd: int, pos: int, how: int) -> int:
        """Moves the offset, and returns it; `how` is SEEK_SET, SEEK_CUR or SEEK_END of `os`, and else a ValueError."""
        return self._call("lseek", fd, pos, how)

    def ftruncate(self, fd: int, length: int) -> None:
        """Sets the length of a file."""
        return self._call("ftruncate", fd, length)

    # -- descriptors and processes

    def close(self, fd: int) -> None:
        """Closes a descriptor (`exit` closes the connection)."""
        return self._call("close", fd)

    def dup(self, fd: int) -> int:
        """Duplicates a descriptor to the lowest free one, and returns that."""
        return self._call("dup", fd)

    def dup2(self, fd: int, fd2: int) -> int:
        """Duplicates fd to fd2, which is closed if it is open, and returns fd2."""
        return self._call("dup2", fd, fd2)

    def pipe(self) -> tuple[int, int]:
        """Makes a pipe, and returns the descriptors of its reading and its writing end."""
        return self._call("pipe")

    def fstat(self, fd: int) -> Stat:
        """Tells kind, size and links."""
        return self._call("fstat", fd)

    def getfl(self, fd: int) -> int:
        """Returns O_RDONLY, O_WRONLY or O_RDWR, with O_APPEND and O_NONBLOCK where these are set."""
        return self._call("getfl", fd)

    def setfl(self, fd: int, flags: int) -> None:
        """Sets O_APPEND and O_NONBLOCK as they are in `flags`, of all descriptors that share the open file description.
        What else an open may have is ignored, and other flags are a ValueError."""
        return self._call("setfl", fd, flags)

    def fork(self) -> int:
        """Makes a child that has the same open descriptors, and returns its number; `attach` lets it make calls. It has
        them open before that, too: while it has the writing end of a pipe, no read comes to the end. EAGAIN: there are
        64 processes already."""
        return self._call("fork")

    # -- requests and answers

    def _call(self, name: str, *values: Any) -> Any:
        """Asks a call by its name."""
        return self._ask(_call_bytes(name, values))

    def _ask(self, request: bytes) -> Any:
        """Asks. A call that is broken off ends the process, since the next call would be given its answers."""
        asked_by = os.getpid()
        if not self._turn.acquire(blocking=False):
            raise RuntimeError("a call of this process is under way; another thread needs a process of its own")
        try:
            if self._is_left or self._is_broken_off or self._socket.fileno() < 0:
                raise ConnectionError(ENDED)
            return self._exchange(request)
        except (CallError, Refused):
            raise
        except BaseException:
            # a child that was forked meanwhile only lets go of what is its parent's
            if os.getpid() == asked_by:
                self._break_off()
            else:
                self._close()
            raise
        finally:
            self._turn.release()

    def _exchange(self, request: bytes) -> Any:
        """Sends a request and returns the value of its reply, which is its last answer."""
        self.waits = []
        rest = memoryview(_number(len(request), 4) + request)
        while rest:
            rest = rest[self._move(select.POLLOUT, partial(self._send, rest), self._until()) :]
        while True:
            answer = self._receive()
            try:
                waits, value = self._read_answer(answer, request[0])
            except (struct.error, IndexError, KeyError):
                raise ConnectionError(f"the server sent what is no answer: {answer[:40].hex()}") from None
            if not waits:
                return value
            self.waits.append((self.place, value))
            if self.on_wait:
                self.on_wait(self.place, value)

    def _receive(self) -> bytes:
        """The payload of the next frame."""
        length = int.from_bytes(self._receive_exactly(4), "big")
        if length > ANSWER_MOST:
            raise ConnectionError(f"the server sent a frame of {length} bytes")
        return self._receive_exactly(length)

    def _receive_exactly(self, count: int) -> bytes:
        while len(self._received) < count:
            self._received += self._move(select.POLLIN, self._recv, self._until())
        taken = bytes(self._received[:count])
        del self._received[:count]
        return taken

    def _recv(self) -> bytes:
        try:
            some = self._socket.recv(ANSWER_MOST)
        except ConnectionResetError:
            some = b""
        return some or self._lose()

    def _send(self, some: memoryview) -> int:
        try:
            return self._socket.send(some)
        except (BrokenPipeError, ConnectionResetError):
            # the number of the first is that of an answer about a pipe
            return self._lose()

    def _lose(self) -> NoReturn:
        """Tells who has ended the connection: an `exit` of another thread, which closes it then, or which server."""
        if self._is_left:
            raise ConnectionError(ENDED) from None
        self._close()
        raise ConnectionResetError(errno.ECONNRESET, CLOSED, self._path) from None

    def _until(self) -> float:
        """When a wait that begins now has to end."""
        return time.monotonic() + (math.inf if self.timeout is None else self.timeout)

    def _move(self, event: int, move: Callable[[], Any], until: float) -> Any:
        """What a receive or a send gives, which waits until then for its event."""
        while True:
            try:
                return move()
            except BlockingIOError:
                pass
            except OSError as fault:
                # this is no answer about a descriptor: another thread has closed the connection
                if fault.errno == errno.EBADF and self._socket.fileno() < 0:
                    self._lose()
                raise
            self._wait(event, until)

    def _wait(self, event: int, until: float) -> None:
        """Waits for an event of the connection. NoAnswer: it is late. Nothing else is taken for that, since the handler
        of a signal may raise a TimeoutError, too; where one returns the wait goes on, no longer than until then."""
        poll = select.poll()
        try:
            poll.register(self._socket, event)
        except ValueError:
            # another thread has closed the connection
            self._lose()
        while not poll.poll(min(max(until - time.monotonic(), 0) * 1_000, WAIT_MOST)):
            if time.monotonic() >= until:
                raise NoAnswer(f"no answer in {self.timeout} seconds", self._path)

    def _read_answer(self, answer: bytes, asked: int) -> tuple[bool, Any]:
        """Whether an answer to a request of this byte tells that the call waits, and its value."""
        if answer[0] == 2:
            reason = REFUSALS[answer[1]]
            if len(answer) != (18 if reason == "Foreign" else 2):
                raise KeyError(len(answer))
            raise Refused(reason)
        record, place = struct.unpack(">BQ", answer[:9])
        if record != 1:
            raise KeyError(record)
        outcome = _read_outcome(answer[9:])
        if isinstance(outcome, Error):
            self.place = place
            raise CallError(outcome.name, place)
        waits = isinstance(outcome, Parked | Part)
        if asked not in _MAY_WAIT if waits else type(outcome) is not _GIVES[asked]:
            raise KeyError(asked)
        if asked == _GETFL:
            outcome = _os_flags(outcome)
        self.place = place
        return waits, outcome.moved if waits else outcome


def _unless_lost(move: Callable[[], Any]) -> Any:
    """What a connection gives that is at its end anyway, or None where it is lost."""
    try:
        return move()
    except OSError as fault:
        if fault.errno not in LOST:
            raise
        return None


# -- outcomes


@dataclass(frozen=True)
class Error:
    """An error number as the outcome of a record, by its name, such as "EBADF"; "EWOULDBLOCK" is taken as "EAGAIN"."""

    name: str


@dataclass(frozen=True)
class Parked:
    """The outcome of a call that has to wait, and how many bytes it has moved before."""

    moved: int = 0


@dataclass(frozen=True)
class Part:
    """The outcome of a resume after which a write still waits, and how many bytes it has moved in all."""

    moved: int


def _outcome(value: Any) -> bytes:
    """An outcome, as a record has it."""
    if value is None:
        return b"\x01"
    if isinstance(value, int):
        if value < 0:
            raise ValueError(f"{value} is no value of a call; an error is Error('EBADF') or so")
        return b"\x02" + _number(value, 8)
    if isinstance(value, bytes | bytearray | memoryview):
        return b"\x03" + _data(value, TRANSFER_MOST)
    if isinstance(value, Stat):
        numbers = _number(value.st_size, 8) + _number(value.st_nlink, 4)
        return bytes([5, _place_in(KINDS, value.kind, "kind of file")]) + numbers
    if isinstance(value, Error | OSError):
        name = value.name if isinstance(value, Error) else errno.errorcode.get(value.errno or 0)
        name = OTHER_NAMES.get(name or "", name)
        return bytes([6, _place_in(ERRORS, name, "error of the profile") + 1])
    if isinstance(value, Parked | Part):
        return (b"\x07" if isinstance(value, Parked) else b"\x08") + _number(value.moved, 4)
    if isinstance(value, tuple) and len(value) == 2:
        return b"\x04" + _number(value[0], 4) + _number(value[1], 4)
    raise ValueError(f"no call has the outcome {value!r}")


def _read_outcome(some: bytes) -> Any:
    """The value of an outcome, which is all of these bytes. A fault is struct.error, IndexError or KeyError."""
    kind, rest = some[0], some[1:]
    if kind == 1 and not rest:
        return None
    if kind == 2:
        return struct.unpack(">Q", rest)[0]
    if kind == 3:
        count, data = struct.unpack(f">I{len(rest) - 4}s", rest)
        if count != len(data) or count > TRANSFER_MOST:
            raise KeyError(count)
        return data
    if kind == 4:
        return struct.unpack(">II", rest)
    if kind == 5:
        number, size, links = struct.unpack(">BQI", rest)
        return Stat(KINDS[number], stat.S_IFIFO if number else stat.S_IFREG, size, links)
    if kind == 6:
        (number,) = struct.unpack(">B", rest)
        return Error(dict(enumerate(ERRORS, 1))[number])
    if kind in (7, 8):
        (moved,) = struct.unpack(">I", rest)
        return Parked(moved) if kind == 7 else Part(moved)
    raise KeyError(kind)


# -- the fields of calls


def _number(value: int, size: int, signed: bool = False) -> bytes:
    number = operator.index(value)
    try:
        return number.to_bytes(size, "big", signed=signed)
    except OverflowError:
        least, most = (-(1 << 8 * size - 1), (1 << 8 * size - 1) - 1) if signed else (0, (1 << 8 * size) - 1)
        raise OverflowError(f"{number} is not from {least} to {most}") from None


def _fd(fd: int) -> bytes:
    return _number(fd, 4, signed=True)


def _count(count: int) -> bytes:
    return _number(count, 4)


def _offset(offset: int) -> bytes:
    return _number(offset, 8, signed=True)


def _how(how: int) -> bytes:
    return bytes([_place_in(BASES, how, "place to seek from")])


def _name(name: str | bytes) -> bytes:
    name = os.fsencode(name)
    if len(name) > NAME_MOST:
        raise ValueError(f"a name of {len(name)} bytes, and a request holds {NAME_MOST}")
    return bytes([len(name)]) + name


def _data(data: bytes | bytearray | memoryview, most: int = DATA_MOST) -> bytes:
    # not bytes(data), which makes zeros of a number
    data = bytes(memoryview(data))
    if len(data) > most:
        raise ValueError(f"{len(data)} bytes, and at most {most} have a place here")
    return _number(len(data), 4) + data


def flag_bits(flags: int) -> int:
    """Flags of `os` as requests and records have them. So it is the outcome of a getfl in a record."""
    bits = MODES[flags & O_NEITHER]
    flags &= ~O_NEITHER
    for flag, bit in FLAGS.items():
        if flags & flag:
            bits |= bit
            flags &= ~flag
    if flags:
        raise ValueError(f"flags that no request holds: {_flag_names(flags)}")
    return bits


def _os_flags(bits: int) -> int:
    """The flags of `os` that requests and records have as this number. One that has none is a KeyError."""
    if bits > 127:
        raise KeyError(bits)
    mode = next(flag for flag, number in MODES.items() if number == bits & 3)
    return mode | sum(flag for flag, bit in FLAGS.items() if bits & bit)


def _flags(flags: int) -> bytes:
    return bytes([flag_bits(flags)])


def _flag_names(flags: int) -> str:
    """Flags by the names that `os` has for them, those of the most bits first, and what is left over as a number."""
    known = {name: value for name, value in vars(os).items() if name.startswith("O_") and value}
    names = []
    for name, value in sorted(known.items(), key=lambda it: (-it[1].bit_count(), len(it[0]))):
        if flags & value == value:
            names.append(name)
            flags &= ~value
    return ", ".join([*names, f"{flags:#o}"] if flags else names)


def _place_in(values: Sequence[Any], value: Any, what: str) -> int:
    """The place of a value among those that there are."""
    if value not in values:
        raise ValueError(f"{value!r} is no {what}")
    return values.index(value)


class _Reader:
    """Bytes that are read from left to right. A fault is IndexError or KeyError."""

    def __init__(self, some: bytes, at: int = 0) -> None:
        self.some = some
        self.at = at

    def take(self, count: int) -> bytes:
        """So many bytes."""
        start, self.at = self.at, self.at + count
        if self.at > len(self.some):
            raise IndexError(count)
        return self.some[start : self.at]

    def number(self, size: int, signed: bool = False) -> int:
        """A number of so many bytes."""
        return int.from_bytes(self.take(size), "big", signed=signed)

    def fd(self) -> int:
        return self.number(4, signed=True)

    def count(self) -> int:
        return self.number(4)

    def offset(self) -> int:
        return self.number(8, signed=True)

    def how(self) -> int:
        return BASES[self.number(1)]

    def name(self) -> str:
        return os.fsdecode(self.take(self.number(1)))

    def data(self) -> bytes:
        count = self.number(4)
        if count > DATA_MOST:
            raise IndexError(count)
        return self.take(count)

    def flags(self) -> int:
        return _os_flags(self.number(1))


class _Field(NamedTuple):
    """How a field is written and read."""

    write: Callable[[Any], bytes]
    read: Callable[[_Reader], Any]


_FD = _Field(_fd, _Reader.fd)
_COUNT = _Field(_count, _Reader.count)
_OFFSET = _Field(_offset, _Reader.offset)
_HOW = _Field(_how, _Reader.how)
_NAME = _Field(_name, _Reader.name)
_DATA = _Field(_data, _Reader.data)
_FLAGS = _Field(_flags, _Reader.flags)


class _Form(NamedTuple):
    """The byte of a call, its fields in the order of a frame, where each stands among its arguments, and the type of
    its value."""

    byte: int
    fields: tuple[_Field, ...] = ()
    places: tuple[int, ...] = ()
    gives: type = type(None)


_CALLS = {
    "open": _Form(16, (_FLAGS, _NAME), (1, 0), int),
    "close": _Form(17, (_FD,), (0,)),
    "read": _Form(18, (_FD, _COUNT), (0, 1), bytes),
    "write": _Form(19, (_FD, _DATA), (0, 1), int),
    "pread": _Form(20, (_FD, _OFFSET, _COUNT), (0, 2, 1), bytes),
    "pwrite": _Form(21, (_FD, _OFFSET, _DATA), (0, 2, 1), int),
    "lseek": _Form(22, (_FD, _OFFSET, _HOW), (0, 1, 2), int),
    "ftruncate": _Form(23, (_FD, _OFFSET), (0, 1)),
    "dup": _Form(24, (_FD,), (0,), int),
    "dup2": _Form(25, (_FD, _FD), (0, 1), int),
    "pipe": _Form(26, gives=tuple),
    "mkfifo": _Form(27, (_NAME,), (0,)),
    "link": _Form(28, (_NAME, _NAME), (0, 1)),
    "unlink": _Form(29, (_NAME,), (0,)),
    "fstat": _Form(30, (_FD,), (0,), Stat),
    "fork": _Form(31, gives=int),
    "getfl": _Form(32, (_FD,), (0,), int),
    "setfl": _Form(33, (_FD, _FLAGS), (0, 1)),
    "rename": _Form(34, (_NAME, _NAME), (0, 1)),
}
_CALLS_BY_BYTE = {form.byte: name for name, form in _CALLS.items()}
# The type of the value of each request, by its byte, and the requests that may have to wait: open, read and write.
_GIVES = {1: int, 2: type(None)} | {form.byte: form.gives for form in _CALLS.values()}
_MAY_WAIT = (16, 18, 19)
# The request of which the value is flags.
_GETFL = 32


def _call_bytes(name: str, values: Sequence[Any]) -> bytes:
    """A call, as requests and records have it."""
    form = _CALLS[name]
    if len(values) != len(form.places):
        raise ValueError(f"{name} takes {len(form.places)} arguments, and {len(values)} are given")
    fields = (field.write(values[place]) for field, place in zip(form.fields, form.places, strict=True))
    return bytes([form.byte]) + b"".join(fields)


def _read_call(byte: int, reader: _Reader) -> tuple[str, tuple[Any, ...]]:
    """The name of a call, of which the first byte was read, and its arguments."""
    name = _CALLS_BY_BYTE[byte]
    form = _CALLS[name]
    values = dict(zip(form.places, (field.read(reader) for field in form.fields), strict=True))
    return name, tuple(values[place] for place in range(len(values)))


# -- traces


class Record(NamedTuple):
    """What a process has done, and what came of it.

    `pid` is the number of the process. `act` is "join", "attach", "resume", "exit", "close-run", or the name of a call,
    whose arguments `args` are those of its method, in their order. `outcome` is

      - what the method returns: None (`ok`), a number, bytes, a pair of descriptors, or a Stat; of a getfl, `flag_bits`
        of that;
      - Error, or an OSError with an `errno`, where the call failed;
      - Parked where it has to wait; its reply is then the outcome of a later "resume";
      - Part where it waits on after a resume.

    A join has the number of the new process as its outcome and as its `pid`. An attach has the number of the child as
    its `pid`, and the outcome None, as an exit and a close-run have. A trace holds any of these, right or wrong, and so
    may a record that no run can have.
    """

    pid: int
    act: str
    args: tuple[Any, ...] = ()
    outcome: Any = None


CLOSE_RUN = Record(HOUSE, "close-run")
"""The record with which a run is closed. After it there are only calls and exits of processes that are still there."""


class Header(NamedTuple):
    """What the header of a trace tells of its run: how many records it may have, from 1 to 1,000,000, or 0 where that
    is not told; how many bytes a pipe holds; and how many a file may have. One of version 1 tells nothing: its run has
    pipes of 1,024 bytes and files of at most 1,048,576."""

    version: int = 2
    most_records: int = 0
    pipe_capacity: int = PIPE_CAPACITY
    file_size: int = 2**40


class Trace(NamedTuple):
    """What a file holds: its whole records, and the bytes after them, which are fewer than a record needs; and its
    header, or None where the file ends inside that."""

    records: list[Record]
    rest: bytes
    header: Header | None = Header()


class Malformed(ValueError):
    """A file that is no trace. `at` is where its fault is, in bytes from its start, as `fdref audit` tells it, and
    `records` are those before it."""

    def __init__(self, at: int, records: Sequence[Record] = ()) -> None:
        super().__init__(f"no record at byte {at}" if at else "the first bytes are not those of a trace")
        self.at = at
        self.records = list(records)


def write_trace(
    path: str | os.PathLike[str],
    records: Iterable[Record],
    most_records: int = 0,
    pipe_capacity: int = PIPE_CAPACITY,
    file_size: int = 2**40,
) -> int:
    """Writes records as a trace of version 2, over what is at the path, and returns how many they are.

    The header tells what the run was to keep to. `most_records` is how many records it may have, from 1 to 1,000,000,
    with those of the exit of each process and of the closing; it is 0 where nobody knows. `pipe_capacity` is how many
    bytes a pipe holds, from 512 to 65,536, and `file_size` how many a file may have, 1,048,576 or 2^40. Another number
    is a ValueError, and nothing is written.

    It holds no record back, so `records` may be of any length and may still come while it writes. A record that has no
    place in a trace is a ValueError which tells the place of the record, counted from 0, and why: an unknown act, too
    many or too few arguments, a number out of its range, a name of more than 255 bytes, data of more than 65,700 bytes
    in a call or 65,536 in an outcome, or of both together more than 66,048 with all else, flags that fdref does not
    know, an error that is none of fdref's, or a close-run of another `pid` than HOUSE. The file then has the records
    before it.
    """
    head = _header_bytes(most_records, pipe_capacity, file_size)
    count = 0
    with open(path, "wb") as file:
        file.write(head)
        for record in records:
            file.write(_record_frame(record, count))
            count += 1
    return count


def read_trace(path: str | os.PathLike[str]) -> Trace:
    """Reads a trace of either version: its whole records, what is left over, which a writer that was stopped may leave
    behind, and its header.

    Names come as `os.fsdecode` gives them. Whether the records are right is not asked: `fdref audit` tells that. A file
    that is no trace is a ValueError, Malformed.
    """
    with open(path, "rb") as file:
        some = file.read()
    header = _read_header(some)
    if header is None:
        return Trace([], some, None)
    records: list[Record] = []
    _, at = TRACE_HEADERS[header.version]
    while len(some) - at >= 4:
        length = int.from_bytes(some[at : at + 4], "big")
        end = at + 4 + length
        if end > len(some) and length <= RECORD_MOST:
            break
        try:
            records.append(_read_record(some[at + 4 : end], length))
        except (struct.error, IndexError, KeyError):
            raise Malformed(at, records) from None
        at = end
    return Trace(records, some[at:], header)


def _header_bytes(most_records: int, pipe_capacity: int, file_size: int) -> bytes:
    """A header of version 2."""
    numbers = most_records, pipe_capacity, file_size
    if not all(isinstance(number, int) for number in numbers):
        raise ValueError(f"{numbers!r} are no numbers")
    if not 0 <= most_records <= RECORDS_MOST:
        raise ValueError(f"{most_records} is no number of records: 0, or from 1 to {RECORDS_MOST}")
    if pipe_capacity not in PIPE_CAPACITIES:
        raise ValueError(f"a pipe has room for 512 to 65536 bytes, and not {pipe_capacity}")
    if file_size not in FILE_SIZES:
        raise ValueError(f"a file has at most {FILE_SIZES[0]} or {FILE_SIZES[1]} bytes, and not {file_size}")
    magic, _ = TRACE_HEADERS[2]
    return magic + struct.pack(">IIQ", *numbers)


def _read_header(some: bytes) -> Header | None:
    """The header at the beginning of a trace, or None where that ends inside it."""
    fit = [version for version, (magic, _) in TRACE_HEADERS.items() if magic.startswith(some[: len(magic)])]
    if not fit:
        raise Malformed(0)
    version = fit[0]
    magic, length = TRACE_HEADERS[version]
    if len(some) < length:
        return None
    if version == 1:
        return Header(1, 0, 1_024, 1_048_576)
    numbers = struct.unpack(">IIQ", some[len(magic) : length])
    try:
        _header_bytes(*numbers)
    except ValueError:
        raise Malformed(0) from None
    return Header(version, *numbers)


# The acts of a record that are no calls.
_ACTS = {"join": 1, "attach": 2, "resume": 3, "exit": 4, "close-run": 5}
_ACTS_BY_BYTE = {byte: act for act, byte in _ACTS.items()}


def _record_frame(record: Record, place: int) -> bytes:
    """The frame of the record at a place."""
    try:
        payload = _record_bytes(*record)
    except OverflowError:
        why = "a number is out of its range"
    except (TypeError, AttributeError):
        why = "a value is of the wrong kind"
    except ValueError as fault:
        why = str(fault)
    else:
        if len(payload) <= RECORD_MOST:
            return _number(len(payload), 4) + payload
        why = f"{len(payload)} bytes are more than a record has"
    raise ValueError(f"record {place}: {why}")


def _record_bytes(pid: int, act: str, args: Sequence[Any] = (), outcome: Any = None) -> bytes:
    """The payload of a record."""
    if act in _CALLS:
        middle = _call_bytes(act, args)
    elif act not in _ACTS:
        raise ValueError(f"{act!r} is no act")
    elif args:
        raise ValueError(f"{act} takes no arguments")
    elif act == "close-run" and pid != HOUSE:
        raise ValueError(f"a close-run has the pid {HOUSE}")
    else:
        middle = bytes([_ACTS[act]])
    return _number(pid, 4) + middle + _outcome(outcome)


def _read_record(some: bytes, length: int) -> Record:
    """The record of a payload. A fault is struct.error, IndexError or KeyError."""
    if length > RECORD_MOST:
        raise IndexError(length)
    reader = _Reader(some)
    pid, byte = reader.number(4), reader.number(1)
    act, args = (_ACTS_BY_BYTE[byte], ()) if byte in _ACTS_BY_BYTE else _read_call(byte, reader)
    if act == "close-run" and pid != HOUSE:
        raise KeyError(pid)
    return Record(pid, act, args, _read_outcome(some[reader.at :]))
