"""Running a program with all the processes that come of it, of which none is left."""

import contextlib
import ctypes
import os
import signal
import subprocess
import time
from collections.abc import Callable, Mapping, Sequence
from typing import IO, NamedTuple

PR_SET_CHILD_SUBREAPER = 36
PAUSE = 0.005
# How long a program runs between two questions whether it is to be killed.
LOOK = 0.2
# How long it may take until what was killed is gone.
GOING = 10.0
# How long what has ended is read, of which another one that is not to be reached may keep the outputs open.
READ_ON = 1.0
# How long others of a program may go on after it has ended until that is told.
TOLD_AFTER = 1.0


class Ended(NamedTuple):
    """How a program ended, or None where it was still running and was killed; and what it wrote. Where only others of
    it were still running, how itself had ended."""

    status: int | None
    stdout: bytes
    stderr: bytes
    first: int | None = None


def takes_over(is_on: int) -> None:
    """Says by 1 or 0 whether this process takes over the processes whose parents end, where the system can do that."""
    with contextlib.suppress(AttributeError, OSError):
        ctypes.CDLL(None).prctl(PR_SET_CHILD_SUBREAPER, is_on, 0, 0, 0)


def parents() -> dict[int, int]:
    """The parent of each process, or nothing where the system does not list them."""
    found: dict[int, int] = {}
    with contextlib.suppress(OSError):
        for number in filter(str.isdigit, os.listdir("/proc")):
            with contextlib.suppress(OSError), open(f"/proc/{number}/stat", "rb") as file:
                # a name in brackets comes first, which may hold anything
                found[int(number)] = int(file.read().rpartition(b")")[2].split()[1])
    return found


def rest_of(process: subprocess.Popen[bytes]) -> tuple[bytes, bytes]:
    """What a process that has ended, or was killed, has written. Another one may keep its outputs open without an
    end."""
    try:
        return process.communicate(timeout=READ_ON)
    except subprocess.TimeoutExpired as late:
        return late.stdout or b"", late.stderr or b""


def children_of(numbers: set[int], by_parent: dict[int, int]) -> set[int]:
    """The children of some processes, and the children of these, and so on."""
    found: set[int] = set()
    while True:
        more = {number for number, parent in by_parent.items() if parent in numbers | found} - found
        if not more:
            return found
        found |= more


class Tree:
    """A program that runs, in a session of its own, and all that comes of it."""

    def __init__(
        self,
        words: Sequence[str],
        folder: str,
        env: Mapping[str, str],
        stdin: int | IO[bytes],
        before: Callable[[], None] | None,
    ) -> None:
        # when the program itself was seen to have ended, and whether it was told that others go on
        self.gone = 0.0
        self.has_told = False
        self.others = {number for number, parent in parents().items() if parent == os.getpid()}
        takes_over(1)
        pipe = subprocess.PIPE
        self.process = subprocess.Popen(
            words,
            stdin=stdin,
            stdout=pipe,
            stderr=pipe,
            cwd=folder,
            env=env,
            start_new_session=True,
            preexec_fn=before,
        )

    def left(self) -> set[int]:
        """The processes that are left of it. Those that have ended and were taken over are waited for."""
        by_parent = parents()
        mine = {number for number, parent in by_parent.items() if parent == os.getpid()} - self.others
        for number in mine - {self.process.pid}:
            with contextlib.suppress(ChildProcessError):
                if os.waitpid(number, os.WNOHANG)[0]:
                    mine.discard(number)
        if self.process.poll() is not None:
            mine.discard(self.process.pid)
        return mine | children_of(mine, by_parent)

    def kill(self) -> None:
        """Kills all of it."""
        until = time.monotonic() + GOING
        with contextlib.suppress(ProcessLookupError):
            os.killpg(self.process.pid, signal.SIGKILL)
        while (left := self.left()) and time.monotonic() < until:
            for number in left:
                with contextlib.suppress(ProcessLookupError):
                    os.kill(number, signal.SIGKILL)
            time.sleep(PAUSE)

    def ended(self, seconds: float, is_over: Callable[[], bool], goes_on: Callable[[int], None]) -> Ended:
        """How it ends by itself, with all that comes of it, or that it was killed: after so many seconds, or once it is
        over. `goes_on` is told its status where others go on for longer than it."""
        until = time.monotonic() + seconds
        while True:
            try:
                stdout, stderr = self.process.communicate(timeout=min(LOOK, max(until - time.monotonic(), 0)))
                break
            except subprocess.TimeoutExpired:
                is_late = time.monotonic() >= until
                status = self.status(goes_on, is_late)
                if is_late or is_over():
                    self.kill()
                    return Ended(None, *rest_of(self.process), status)
        while (left := self.left()) and time.monotonic() < until and not is_over():
            self.status(goes_on)
            time.sleep(PAUSE)
        if left:
            return Ended(None, stdout, stderr, self.status(goes_on, time.monotonic() >= until))
        return Ended(self.process.returncode, stdout, stderr)

    def status(self, goes_on: Callable[[int], None], is_late: bool = False) -> int | None:
        """How the program itself has ended, if it has. That others go on is told once, after a while or late."""
        status, now = self.process.poll(), time.monotonic()
        if status is None:
            return None
        self.gone = self.gone or now
        if not self.has_told and (is_late or now - self.gone > TOLD_AFTER):
            self.has_told = True
            goes_on(status)
        return status


def never() -> bool:
    """Nothing is over."""
    return False


def untold(_: int) -> None:
    """Nobody asks."""


def run_tree(
    words: Sequence[str],
    folder: str,
    env: Mapping[str, str],
    stdin: int | IO[bytes],
    seconds: float,
    before: Callable[[], None] | None = None,
    is_over: Callable[[], bool] = never,
    goes_on: Callable[[int], None] = untold,
) -> Ended:
    """Runs a program in a folder, at most so many seconds, and leaves no process of it. `before` is called in it at its
    start; `is_over` tells at times whether it is to be killed sooner; `goes_on` is told its status where others of it
    go on for longer."""
    try:
        tree = Tree(words, folder, env, stdin, before)
        try:
            return tree.ended(seconds, is_over, goes_on)
        finally:
            tree.kill()
    finally:
        takes_over(0)
