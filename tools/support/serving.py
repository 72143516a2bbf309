"""A server as the tests run it, a socket for what stands in for one, and clients, whose waits are all bounded."""

import os
import re
import select
import signal
import socket
import subprocess
import tempfile
import time
from collections.abc import Callable, Mapping, Sequence
from pathlib import Path
from types import TracebackType
from typing import IO, Self

from support import frames
from support.auditing import Audit, legal
from support.counting import Failure, require, same
from support.places import SCRATCH
from support.plain_model import PIPE_CAPACITY, Limits
from support.running import Ran, StillRunning
from support.trees import rest_of

SECONDS = 10
A_WHILE = 0.3
ALL_RECORDS = 1_000_000

Process = subprocess.Popen[bytes]


# ---- the server


class Server:
    """The program as it serves, at a socket in a folder of its own, where its trace is too unless another is named."""

    def __init__(
        self,
        program: str,
        count: int,
        records: int = 10_000,
        stdout: int | IO[bytes] = subprocess.PIPE,
        env: Mapping[str, str] | None = None,
        trace: str | None = None,
        before: Callable[[], None] | None = None,
        files: Sequence[int] = (),
        capacity: int = PIPE_CAPACITY,
    ) -> None:
        self.header = frames.header_bytes(records, Limits(capacity=capacity))
        self.folder = tempfile.TemporaryDirectory(prefix="fdref-", dir=SCRATCH)
        self.path = os.path.join(self.folder.name, "socket")
        self.trace = trace or os.path.join(self.folder.name, "trace")
        self.clients: list[Client] = []
        words = serve_words(program, self.path, count, records, self.trace)
        words += [] if capacity == PIPE_CAPACITY else ["--pipe-capacity", str(capacity)]
        self.process = started(words, stdout, env, before, files)

    def __enter__(self) -> Self:
        return self

    def __exit__(
        self, kind: type[BaseException] | None, raised: BaseException | None, trace: TracebackType | None
    ) -> None:
        for client in self.clients:
            client.vanish()
        if self.is_running():
            os.killpg(self.process.pid, signal.SIGKILL)
        self.process.communicate()
        self.folder.cleanup()

    def client(self) -> "Client":
        """A client that has connected."""
        client = Client(self.path, self.process)
        self.clients.append(client)
        return client

    def is_running(self) -> bool:
        """Whether it has not ended."""
        return self.process.poll() is None

    def ended(self, line: bytes, status: int = 0, stderr: bytes = b"") -> None:
        """The server ends by itself, prints the line, leaves no process, and the socket is where it was. Its trace
        tells how many records and how much room the run had, and has as many records as the line says, which are
        right."""
        given = outcome_of(self.process)
        require(given == (status, line, stderr), f"wanted {(status, line, stderr)}, given {tuple(given)}")
        require(os.path.exists(self.path), "the socket is gone")
        told = re.search(rb" trace (\d+)\n", line)
        if told and os.path.isfile(self.trace):
            trace = Path(self.trace).read_bytes()
            require(self.header.startswith(trace[: frames.HEADER_LENGTH]), f"the trace begins with {trace[:24].hex()}")
            audit = Audit(trace)
            same(legal(int(told[1]), audit.frames.rest), audit.verdict)
            require(audit.frames.rest == 0 or stderr.startswith(b"trace fault\n"), "the trace ends in half a record")


def started(
    words: Sequence[str],
    stdout: int | IO[bytes] = subprocess.PIPE,
    env: Mapping[str, str] | None = None,
    before: Callable[[], None] | None = None,
    files: Sequence[int] = (),
) -> Process:
    """A process in a group of its own, so that what it leaves can be seen. `before` is called in it at its start, and
    it has these open files."""
    return subprocess.Popen(
        words,
        stdin=subprocess.DEVNULL,
        stdout=stdout,
        stderr=subprocess.PIPE,
        cwd="/",
        env=env,
        start_new_session=True,
        preexec_fn=before,
        pass_fds=files,
    )


def serve_words(program: str, path: str, count: int, records: int, trace: str) -> list[str]:
    """The command that serves so many sessions at a path, and writes a trace."""
    options = {"--socket": path, "--trace": trace, "--sessions": str(count), "--records": str(records)}
    return [program, "serve", *(word for option in options.items() for word in option)]


def outcome_of(process: Process) -> Ran:
    """How a process ends by itself, and what it wrote. No process that it started is left."""
    try:
        stdout, stderr = process.communicate(timeout=SECONDS)
    except subprocess.TimeoutExpired:
        os.killpg(process.pid, signal.SIGKILL)
        rest_of(process)
        raise StillRunning(SECONDS) from None
    try:
        os.killpg(process.pid, signal.SIGKILL)
    except ProcessLookupError:
        return Ran(process.returncode, stdout or b"", stderr)
    raise Failure("a process is left")


def is_listening(path: str) -> bool:
    """Whether a socket listens at a path, as the kernel lists it: no connection is made."""
    with open("/proc/net/unix", encoding="utf-8", errors="replace") as listed:
        # the fourth word has the flag of a socket that listens
        return any(line.endswith(f" {path}\n") and int(line.split()[3], 16) & 0x10000 for line in listed)


def report(
    count: int, records: int, bytes_in: int = 0, bytes_out: int = 0, traced: int | None = None
) -> bytes:
    """The line that the server prints; all records are in the trace where it is not told how many."""
    whole = records if traced is None else traced
    return f"sessions {count} records {records} in {bytes_in} out {bytes_out} trace {whole}\n".encode()


# ---- what stands in for a server


class Listener:
    """A socket that listens in a folder of its own, for clients that no server is to answer."""

    def __init__(self) -> None:
        self.folder = tempfile.TemporaryDirectory(prefix="fdref-")
        self.path = os.path.join(self.folder.name, "socket")
        self.socket = socket.socket(socket.AF_UNIX, socket.SOCK_STREAM)
        self.socket.bind(self.path)
        self.socket.listen()
        self.socket.settimeout(SECONDS)

    def close(self) -> None:
        """Ends it."""
        self.socket.close()
        self.folder.cleanup()


# ---- clients


class HungUp(Failure):
    """The server hung up in place of an answer."""


class Client:
    """A connection, whose waits are all bounded."""

    def __init__(self, path: str, process: Process) -> None:
        until = time.monotonic() + SECONDS
        while True:
            self.socket = socket.socket(socket.AF_UNIX, socket.SOCK_STREAM)
            self.socket.settimeout(SECONDS)
            try:
                self.socket.connect(path)
                return
            except (FileNotFoundError, ConnectionRefusedError, BlockingIOError):
                self.socket.close()
            require(process.poll() is None, f"the server ended with status {process.returncode} before it was reached")
            require(time.monotonic() < until, "nobody listens")
            time.sleep(0.002)

    def send(self, some: bytes) -> None:
        """Sends bytes."""
        self.socket.sendall(some)

    def receive(self, count: int) -> bytes:
        """So many bytes."""
        some = b""
        while len(some) < count:
            try:
                piece = self.socket.recv(count - len(some))
            except TimeoutError:
                raise Failure(f"no answer in {SECONDS} seconds") from None
            if not piece:
                raise HungUp(f"hung up after {some.hex() or 'nothing'}")
            some += piece
        return some

    def answer(self) -> str:
        """The next answer, as lines have it: `PLACE OUTCOME`, or `- refused WHY`."""
        payload = self.receive(int.from_bytes(self.receive(4), "big"))
        place, _, outcome = frames.line_of("answers", payload, 0).partition(" p0 fork = ")
        return f"{place} {outcome}"

    def gets(self, wanted: str) -> None:
        """The next answer is this one."""
        given = self.answer()
        require(given == wanted, f"wanted {wanted}, given {given}")

    def ask(self, request: str) -> None:
        """Sends a request: `join`, `attach N`, or a call as in a script."""
        self.send(frames.request_frame(request))

    def has_answer(self, seconds: float) -> bool:
        """Whether an answer, or the end, comes within a time."""
        return bool(select.select([self.socket], [], [], seconds)[0])

    def is_hung_up(self, seconds: float) -> bool:
        """Whether the server hangs up within a time, after all that it sent."""
        self.socket.settimeout(seconds)
        try:
            while self.socket.recv(65_536):
                pass
        except TimeoutError:
            return False
        except ConnectionResetError:
            pass
        return True

    def stop(self) -> None:
        """Says that nothing more will be sent, and reads on."""
        self.socket.shutdown(socket.SHUT_WR)

    def vanish(self) -> None:
        """Hangs up."""
        self.socket.close()
