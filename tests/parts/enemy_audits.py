"""Many traces, whole, cut and by pipes, given to the program and to the plain auditor beside it."""

import fcntl
import os
import subprocess
import tempfile
import termios
import time
from collections.abc import Callable, Iterable, Iterator
from functools import partial
from pathlib import Path

from parts.written_traces import Named
from support.auditing import audited, completed, shown
from support.counting import Case, Failure, require
from support.places import SCRATCH
from support.running import Ran, ran_all, run
from support.serving import SECONDS
from support.sources import numbered, source
from support.texts import difference

# How many traces one shell has judged.
PIECE = 250

# What the plain auditor gives where the program has these words.
WANTED: dict[str, Callable[[bytes], Ran]] = {
    "audit": audited,
    "audit --complete": completed,
    "show": shown,
    "show --acts": partial(shown, acts=True),
}

# A trace that is no longer is told with a failure.
TOLD_MOST = 300

# How many bytes a pipe hands over at a time.
SIZES = (1, 3, 54)


# ---- as files


def is_right(words: str, trace: bytes, given: Ran) -> None:
    """Fails unless this is what the plain auditor gives for a trace, and tells in one line what it is."""
    wanted = WANTED[words](trace)
    if wanted != given:
        told = f"; the trace is {trace.hex()}" if len(trace) <= TOLD_MOST else ""
        if wanted.stdout != given.stdout:
            told = f"; {difference(wanted.stdout, given.stdout)}{told}"
        raise Failure(f"wanted {wanted.said()[:160]}, given {given.said()[:160]}{told}")


def judged(program: str, named: Iterable[Named], words: str = "audit") -> Iterator[Case]:
    """The program says of each trace what the plain auditor says. Many are judged at once."""
    left = iter(named)
    while piece := [it for _, it in zip(range(PIECE), left, strict=False)]:
        try:
            given = ran_all(program, [trace for _, trace in piece], words)
        except Failure as failure:
            yield f"{words} of {len(piece)} traces from {piece[0][0]} on", partial(fails, failure)
            continue
        for (name, trace), ran in zip(piece, given, strict=True):
            yield f"{words} of {name}", partial(is_right, words, trace, ran)


def fails(failure: Failure) -> None:
    """Fails so."""
    raise failure


def fronts(named: Iterable[Named]) -> Iterator[Named]:
    """Traces, cut at every byte."""
    for name, trace in named:
        yield from ((f"the first {end} bytes of {name}", trace[:end]) for end in range(len(trace) + 1))


# ---- by pipes


def pieces_of(trace: bytes, size: int) -> list[bytes]:
    """A trace in pieces of so many bytes."""
    return [trace[at : at + size] for at in range(0, len(trace), size)]


def fed(program: str, words: str, pieces: Iterable[bytes], is_held_open: bool = False) -> Ran:
    """What the program gives for a named pipe into which pieces are written, each once the one before was read.

    It may be held open after them, until the program has ended.
    """
    with tempfile.TemporaryDirectory(prefix="fdref-", dir=SCRATCH) as folder:
        path, out, error = (os.path.join(folder, name) for name in ("pipe", "out", "error"))
        os.mkfifo(path)
        with open(out, "wb") as stdout, open(error, "wb") as stderr:
            command = [program, *words.split(" "), path]
            with subprocess.Popen(command, stdin=subprocess.DEVNULL, stdout=stdout, stderr=stderr) as process:
                try:
                    feed(process, path, pieces, is_held_open)
                    process.wait(SECONDS)
                finally:
                    process.kill()
        return Ran(process.returncode, Path(out).read_bytes(), Path(error).read_bytes())


def feed(process: subprocess.Popen[bytes], path: str, pieces: Iterable[bytes], is_held_open: bool) -> None:
    """Writes pieces into a named pipe that a process reads, as long as it does."""
    until = time.monotonic() + SECONDS
    writing = opened_by(process, path, until)
    try:
        for piece in pieces:
            left = memoryview(piece)
            while left:
                left = left[os.write(writing, left) :]
            while unread(writing) and process.poll() is None:
                require(time.monotonic() < until, f"a pipe is not read in {SECONDS} seconds")
                time.sleep(0.00002)
        if is_held_open:
            process.wait(SECONDS)
    except BrokenPipeError:
        # it has its verdict
        pass
    finally:
        os.close(writing)


def opened_by(process: subprocess.Popen[bytes], path: str, until: float) -> int:
    """The writing end of a named pipe, once a process has opened the other one."""
    while True:
        try:
            writing = os.open(path, os.O_WRONLY | os.O_NONBLOCK)
        except OSError:
            require(process.poll() is None, "it ended before it opened its file")
            require(time.monotonic() < until, f"it does not open its file in {SECONDS} seconds")
            time.sleep(0.0002)
            continue
        os.set_blocking(writing, True)
        return writing


def unread(writing: int) -> int:
    """How many bytes stand in a pipe."""
    count = fcntl.ioctl(writing, termios.FIONREAD, bytes(4))
    return int.from_bytes(count, "little")


def by_pipe(program: str, words: str, trace: bytes, pieces: Iterable[bytes]) -> None:
    """The program says of a trace that comes by a pipe what the plain auditor says of it."""
    is_right(words, trace, fed(program, words, pieces))


def while_open(program: str, words: str, trace: bytes) -> None:
    """The program says what is wrong with a trace while more may come."""
    is_right(words, trace, fed(program, words, [trace], is_held_open=True))


def without_end(program: str, words: str, path: str) -> None:
    """A file without an end that is no trace."""
    is_right(words, b"no trace", run([program, *words.split(" "), path], seconds=SECONDS))


def faults_at_once(program: str, wrong: bytes, malformed: bytes) -> Iterator[Case]:
    """What is wrong is told without a look at what comes after it."""
    yield "audit of an illegal trace in a pipe that is held open", partial(while_open, program, "audit", wrong)
    for words in WANTED:
        yield f"{words} of a malformed trace in such a pipe", partial(while_open, program, words, malformed)
        for path in ("/dev/zero", "/dev/urandom"):
            yield f"{words} of {path}", partial(without_end, program, words, path)


def by_pipes(program: str, named: Iterable[Named], words: Iterable[str] = ("audit",)) -> Iterator[Case]:
    """Traces in pieces of several sizes."""
    for name, trace in named:
        for word in words:
            for size in SIZES:
                what = f"{word} of {name}, by a pipe in pieces of {size}"
                yield what, partial(by_pipe, program, word, trace, pieces_of(trace, size))


def in_two(program: str, name: str, trace: bytes) -> Iterator[Case]:
    """A trace by a pipe in two pieces, cut at every byte, and what is before each cut alone."""
    for end in range(len(trace) + 1):
        what = f"audit of {name}, by a pipe and cut at {end}"
        yield what, partial(by_pipe, program, "audit", trace, [trace[:end], trace[end:]])
        yield f"{what}, without the rest", partial(by_pipe, program, "audit", trace[:end], [trace[:end]])


def in_random_pieces(program: str, seed: str, number: int, trace: bytes) -> Iterator[Case]:
    """A trace by a pipe in random pieces."""
    pick = source(f"{seed} pieces", number)
    cuts = sorted({0, len(trace), *(pick.randrange(len(trace) + 1) for _ in range(pick.choice([1, 3, 30])))})
    pieces = [trace[at:end] for at, end in zip(cuts, cuts[1:], strict=False)]
    words = pick.choice(list(WANTED))
    yield numbered(f"{words} by a pipe, trace", seed, number), partial(by_pipe, program, words, trace, pieces)
