"""The library of clients/preload as it is built, and programs that run with it: natively, or asking a server."""

import os
import re
import tempfile
import time
from collections.abc import Iterator, Sequence
from contextlib import contextmanager
from pathlib import Path
from typing import NamedTuple

from parts.c_programs import WARNINGS, can, compilers, compiles
from support.auditing import Audit, Frames, act_of, legal
from support.counting import require, same
from support.places import C_CLIENT, C_TESTS, SCRATCH
from support.running import Ran, run
from support.runs import line_of
from support.serving import SECONDS, Server, is_listening, outcome_of, report

SOURCE = C_CLIENT.parent / "preload" / "fdref_preload.c"
NO_ANSWER, LEFT_OUT = 124, 125
# Undefined behaviour ends the program by a signal, so that the library needs no other one.
TRAPS = ["-O1", "-fsanitize=undefined", "-fsanitize-undefined-trap-on-error"]


class Library(NamedTuple):
    """The library as one compiler builds it, and the programs of the tests beside it."""

    name: str
    compiler: str
    options: list[str]
    folder: str

    def built(self) -> str:
        """The path of the library, which is built where it is not there yet, with every warning as an error."""
        path = os.path.join(self.folder, f"{self.name.replace(' ', '-')}.so")
        if not os.path.exists(path):
            shared = ["-shared", "-fPIC", "-o", path, str(SOURCE), "-ldl"]
            compiles([self.compiler, *self.options, *WARNINGS, *shared])
        return path

    def program(self, name: str) -> str:
        """The path of a program of tests/c, which is built where it is not there yet."""
        path = os.path.join(self.folder, f"{self.compiler}-{name}")
        if not os.path.exists(path):
            compiles([self.compiler, "-std=c99", "-O1", *WARNINGS, str(C_TESTS / f"{name}.c"), "-o", path, "-pthread", "-ldl"])
        return path


def libraries(folder: str) -> list[Library]:
    """The library by each compiler that is there, by the last one also so that undefined behaviour ends the program."""
    found = [Library(compiler, compiler, ["-O2"], folder) for compiler in compilers()]
    if found and can([found[-1].compiler, *TRAPS], folder):
        found.append(Library(f"{found[-1].compiler} with traps", found[-1].compiler, TRAPS, folder))
    return found


def documented_command() -> list[str]:
    """The command by which the source says that it is built."""
    text = SOURCE.read_text(encoding="utf-8")
    found = re.search(r"^ +(cc .*)$", text, re.MULTILINE)
    require(found, "no command")
    assert found
    return found[1].split(" ")


# ---- runs


def environment(library: Library, settings: Sequence[str]) -> list[str]:
    """The words before a command that has the library and these settings."""
    return ["env", f"LD_PRELOAD={library.built()}", *settings]


class Given(NamedTuple):
    """How a program ended, and the lines of its log."""

    ran: Ran
    log: list[str]

    def of_processes(self) -> dict[str, list[str]]:
        """The calls of each process, without their places."""
        calls: dict[str, list[str]] = {}
        for text in self.log:
            actor, _, call = text.split(" ", 1)[1].partition(" ")
            calls.setdefault(actor, []).append(call)
        return calls


@contextmanager
def empty_folder() -> Iterator[str]:
    """A folder of its own."""
    with tempfile.TemporaryDirectory(prefix="fdref-", dir=SCRATCH) as folder:
        yield folder


def started(
    library: Library, words: Sequence[str], settings: Sequence[str], before: str = "", folder: str | None = None
) -> Given:
    """A program that runs with the library and these settings in a folder, or an empty one. A shell first does what is
    told to be before."""
    with empty_folder() as own, empty_folder() as other:
        log = os.path.join(other, "log")
        command = [*environment(library, [f"FDREF_LOG={log}", *settings]), *words]
        if before:
            command = ["sh", "-c", f'{before}; exec "$@"', "sh", *command]
        ran = run(command, seconds=SECONDS, folder=folder or own)
        text = Path(log).read_text(encoding="ascii") if os.path.exists(log) else ""
    require(not text or text.endswith("\n"), "the log ends within a line")
    return Given(ran, text.splitlines())


def natively(library: Library, words: Sequence[str], before: str = "") -> Given:
    """A program in a native run."""
    given = started(library, words, (), before)
    require(all(re.match(r"-\d* p", line) for line in given.log), "a native run has places")
    return given


def asking(
    library: Library, server: Server, words: Sequence[str], settings: Sequence[str] = (), before: str = ""
) -> Given:
    """A program that asks a server."""
    listens(server)
    return started(library, words, [f"FDREF_SOCKET={server.path}", *settings], before)


def listens(server: Server) -> None:
    """Waits until a server listens, no longer than SECONDS."""
    until = time.monotonic() + SECONDS
    while not is_listening(server.path):
        require(server.is_running() and time.monotonic() < until, "nobody listens")
        time.sleep(0.002)


def agree(native: Given, asked: Given) -> None:
    """Both ended alike, wrote the same, and the calls of each process had the same answers."""
    require(native.ran.status == asked.ran.status, f"natively {native.ran.said()}, else {asked.ran.said()}")
    same(native.ran, asked.ran)
    one, other = native.of_processes(), asked.of_processes()
    same(sorted(one), sorted(other))
    for actor, calls in one.items():
        for at, (call, answered) in enumerate(zip(calls, other[actor], strict=False)):
            require(call == answered, f"call {at} of {actor}: natively {call[:100]}, else {answered[:100]}")
        same((actor, len(calls)), (actor, len(other[actor])))


# ---- traces

# What the library does by itself: it holds numbers, looks at files by their names, and at what an fsync is of.
BY_ITSELF = {"join", "attach", "exit", "close-run", "open", "unlink", "dup", "dup2", "close", "fstat", "ftruncate"}
BY_ITSELF |= {"lseek"}


def answered_calls(lines: Sequence[str]) -> dict[str, str]:
    """The lines of a trace by their places, where a call that waited is one line, at the place that ended it."""
    waits: dict[str, str] = {}
    calls = {}
    for text in lines:
        line = line_of(text)
        actor, _, word = line.act.partition(" ")
        if line.outcome.startswith("parked "):
            waits[actor] = line.act
        elif word != "resume":
            calls[str(line.place)] = text
        elif not line.outcome.startswith("part "):
            calls[str(line.place)] = f"{line.place} {waits.pop(actor)} = {line.outcome}"
    return calls


def are_recorded(log: Sequence[str], lines: Sequence[str]) -> None:
    """Each line of a log with a place is in the trace, and what else is there the library does by itself."""
    calls = answered_calls(lines)
    for text in log:
        place = text.split(" ", 1)[0]
        if place != "-":
            recorded = calls.pop(place, "nothing")
            require(recorded == text, f"logged {text[:100]}, recorded {recorded[:100]}")
    words = {act_of(line_of(text).act).word for text in calls.values()}
    require(words <= BY_ITSELF, f"not logged: {words - BY_ITSELF}")


def ended(server: Server, count: int, log: Sequence[str]) -> None:
    """A server ends by itself after so many sessions, its trace is legal, and has what was logged."""
    ran = outcome_of(server.process)
    trace = Path(server.trace).read_bytes()
    audit, lines = Audit(trace), Frames(trace).lines
    same(legal(len(lines)), audit.verdict)
    world = audit.judge.world
    same((0, report(count, len(lines), world.bytes_in, world.bytes_out), b""), tuple(ran))
    are_recorded(log, lines)
