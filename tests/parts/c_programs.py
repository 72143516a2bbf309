"""The compilers of C that are there, the programs that they build of the client in C, and the driver as a client."""

import errno
import os
import select
import shutil
import subprocess
import time
from collections import deque
from collections.abc import Sequence
from typing import Any, NamedTuple

from support import plain_model
from support.counting import Failure, require, same
from support.frames import REFUSALS
from support.places import C_CLIENT, C_TESTS, EXAMPLES
from support.running import run
from support.serving import SECONDS, Client

import fdref

COMPILERS = ("gcc", "clang")
# What is tried where none of these is there.
OTHER = os.environ.get("CC", "cc")
WARNINGS = ["-Wall", "-Wextra", "-pedantic", "-Werror", "-Wconversion", "-Wshadow"]
SANITIZERS = ["-O1", "-g", "-fsanitize=address,undefined", "-fno-sanitize-recover=all"]
INCLUDES = ["-I", str(C_CLIENT)]

# Where the sources of the programs are.
SOURCES = {
    "api": C_TESTS,
    "driver": C_TESTS,
    "interrupted": C_TESTS,
    "interrupted_coarsely": C_TESTS,
    "records": C_TESTS,
    "two_readers": EXAMPLES / "c",
    "trace": EXAMPLES / "c",
}


# ---- compilers


def can(words: Sequence[str], folder: str) -> bool:
    """Whether an empty program can be built by a command, and ends well."""
    source, program = os.path.join(folder, "empty.c"), os.path.join(folder, "empty")
    with open(source, "w", encoding="utf-8") as file:
        file.write("int main(void) { return 0; }\n")
    is_built = run([*words, source, "-o", program]).status == 0
    return is_built and run([program]).status == 0


def compiles(words: Sequence[str]) -> None:
    """A command of a compiler ends well, and says nothing."""
    ran = run(words)
    require(ran == (0, b"", b""), f"{' '.join(words)}: {ran.said()}")


class Build(NamedTuple):
    """One way to build the programs: its name, the folder in which it puts them, and the command."""

    name: str
    folder: str
    words: list[str]

    def program(self, name: str) -> str:
        """The path of a program, which is built where it is not there yet."""
        path = os.path.join(self.folder, f"{self.name.replace(' ', '-')}-{name}")
        if not os.path.exists(path):
            compiles([*self.words, *WARNINGS, *INCLUDES, str(SOURCES[name] / f"{name}.c"), "-o", path])
        return path

    def prints(self, name: str, *words: str) -> bytes:
        """What a program prints, which has to end with status 0 and to say nothing on standard error."""
        ran = run([self.program(name), *words], seconds=SECONDS)
        require(ran.status == 0 and not ran.stderr, ran.said())
        return ran.stdout


def compilers() -> list[str]:
    """The names of the compilers that are there."""
    return [name for name in COMPILERS if shutil.which(name)] or [name for name in [OTHER] if shutil.which(name)]


def builds(folder: str) -> list[Build]:
    """All ways to build that there are: with each compiler, and with its sanitizers where they link."""
    found = []
    for compiler in compilers():
        plain = [compiler, "-std=c99"]
        found.append(Build(compiler, folder, [*plain, "-O2"]))
        if can([*plain, *SANITIZERS], folder):
            found.append(Build(f"{compiler} with sanitizers", folder, [*plain, *SANITIZERS]))
    return found


# ---- calls as lines, and as functions have them

FLAGS = {
    "r": os.O_RDONLY,
    "w": os.O_WRONLY,
    "rw": os.O_RDWR,
    "-": fdref.O_NEITHER,
    "creat": os.O_CREAT,
    "excl": os.O_EXCL,
    "trunc": os.O_TRUNC,
    "append": os.O_APPEND,
    "nonblock": os.O_NONBLOCK,
}
BASES = {"set": os.SEEK_SET, "cur": os.SEEK_CUR, "end": os.SEEK_END}


def call_of(line: str) -> tuple[str, list[Any]]:
    """The name of the call of a line, and its arguments as the functions in C and in Python have them."""
    act = plain_model.read_act(f"p0 {line}".encode())
    values = list(act.fields)
    if act.word in ("open", "setfl"):
        values[1] = sum(FLAGS[word] for word in values[1].split(","))
    elif act.word == "lseek":
        values[2] = BASES[values[2]]
    elif act.word in ("pread", "pwrite"):
        values[1:] = values[:0:-1]
    return act.word, values


def driver_line(line: str) -> str:
    """The line of the driver that makes the call of a line."""
    word, values = call_of(line)
    spelled = (plain_model.data_text(value) if isinstance(value, bytes) else str(value) for value in values)
    return " ".join([word, *spelled])


def outcome_text(value: Any) -> str:
    """The outcome of a call of the client in Python, as lines have it."""
    if value is None:
        return "ok"
    if isinstance(value, bytes):
        return plain_model.data_text(value)
    if isinstance(value, fdref.Stat):
        return f"{value.kind} {value.st_size} {value.st_nlink}"
    return " ".join(map(str, value)) if isinstance(value, tuple) else str(value)


def called(process: fdref.Process, line: str) -> str:
    """What the call of a line comes to, made by the client in Python."""
    word, values = call_of(line)
    value = getattr(process, word)(*values)
    return outcome_text(fdref.flag_bits(value) if word == "getfl" else value)


# ---- clients


class Driven(Client):
    """The driver as a client: its process makes the calls by fdref.h."""

    def __init__(self, build: Build, path: str, odd: int = 0) -> None:
        self.process = subprocess.Popen(
            [build.program("driver"), path, str(odd)],
            stdin=subprocess.PIPE,
            stdout=subprocess.PIPE,
            stderr=subprocess.PIPE,
            bufsize=0,
        )
        self.rest = b""

    def ask(self, request: str) -> None:
        """Sends a request: `join`, `attach N`, or a call as in a script."""
        self.say(request if request.split(" ")[0] in ("join", "attach") else driver_line(request))

    def say(self, line: str) -> None:
        """Gives the driver a line."""
        assert self.process.stdin
        text = f"{line}\n".encode()
        while text:
            text = text[self.process.stdin.write(text) :]

    def line(self) -> str:
        """The next line of the driver."""
        assert self.process.stdout
        until = time.monotonic() + SECONDS
        while b"\n" not in self.rest:
            is_ready = select.select([self.process.stdout], [], [], max(until - time.monotonic(), 0))[0]
            require(is_ready, f"the driver says nothing in {SECONDS} seconds")
            some = os.read(self.process.stdout.fileno(), 2**20)
            require(some, "the driver has ended")
            self.rest += some
        line, _, self.rest = self.rest.partition(b"\n")
        return line.decode()

    def answer(self) -> str:
        """The next answer, as lines have it. A failure without a record tells why and by which number: `- lost EPROTO`,
        or `- EPROTO` of a join or attach."""
        place, _, outcome = self.line().partition(" ")
        if place != "-":
            return f"{place} {outcome}"
        *why, number = (int(word) for word in outcome.split(" "))
        known = {1: "unsent", 2: "lost"} | {byte: f"refused {name}" for byte, name in REFUSALS.items()}
        return " ".join(["-", *(known[byte] for byte in why), errno.errorcode[number]])

    def answers(self, request: str) -> list[str]:
        """Sends a request, and gives all its answers."""
        self.ask(request)
        given = [self.answer()]
        while given[-1].split(" ")[1] in ("parked", "part"):
            given.append(self.answer())
        return given

    def tells(self, request: str, *wanted: str) -> None:
        """Sends a request, to which these are all answers."""
        same(list(wanted), self.answers(request))

    def returns(self, is_to_return: bool) -> None:
        """Whether the calls of the next process return when they are parked."""
        self.say(f"returns {is_to_return:d}")

    def exit(self) -> None:
        """Ends the process that the driver plays, which may begin another one."""
        self.say("exit")

    def ends(self, told: bytes = b"") -> None:
        """The driver ends well, with its process, and has told this on standard error."""
        stdout, stderr = self.process.communicate(timeout=SECONDS)
        same((0, b"", told), (self.process.returncode, self.rest + stdout, stderr))

    def vanish(self) -> None:
        """Ends the driver, however it is."""
        if self.process.poll() is None:
            self.process.kill()
            self.process.communicate()


class Called(Client):
    """The client in Python as a client. A call is made when it is asked, and so only returns with its last answer."""

    def __init__(self, path: str) -> None:
        self.path = path
        self.made: fdref.Process | None = None
        self.given: deque[str] = deque()

    def ask(self, request: str) -> None:
        """Sends a request: `join`, `attach N`, or a call as in a script."""
        word, _, number = request.partition(" ")
        if word == "join":
            self.made = fdref.join(self.path, within=SECONDS)
            self.given.append(f"{self.made.place} {self.made.pid}")
        elif word == "attach":
            self.made = fdref.attach(self.path, int(number))
            self.given.append(f"{self.made.place} ok")
        else:
            self.call(request)

    def call(self, line: str) -> None:
        """Makes a call, and keeps its answers."""
        assert self.made
        try:
            outcome = called(self.made, line)
        except fdref.CallError as error:
            outcome = f"error {error.name}"
        except fdref.Refused as refused:
            raise Failure(f"{line}: {refused}") from None
        for number, (place, moved) in enumerate(self.made.waits):
            self.given.append(f"{place} {'part' if number else 'parked'} {moved}")
        self.given.append(f"{self.made.place} {outcome}")

    def answer(self) -> str:
        """The next answer, as lines have it."""
        return self.given.popleft()

    def vanish(self) -> None:
        """Hangs up."""
        if self.made:
            self.made.exit()
