"""Scripts that are garbage up to a word or a byte, and what tools/ask_kernel.c makes of them."""

import itertools
import os
import random
import shutil
import sys
import time
from collections import Counter
from collections.abc import Callable, Iterator, Sequence
from functools import partial
from pathlib import Path
from typing import NamedTuple

from parts.c_programs import WARNINGS, Build, compiles
from support import plain_model
from support.counting import Case, Failure, require, same
from support.drivers import NOT_AN_ACT
from support.places import TOOLS
from support.plain_model import DATA_MOST, NAME_MOST, Act, NotAnAct
from support.running import Ran, run
from support.serving import SECONDS
from support.sources import changed, numbered, source
from support.texts import difference

from compare_walks import random_lines

# The acts of a script with processes, and the most lines of one without.
ACTS, LINES_MOST = 30, 40
# How often a field that is no right one is taken.
WRONG = 0.01

NUMBERS = """
    0 1 -1 -0 00 01 +1 - 2147483647 2147483648 -2147483648 -2147483649 4294967295 4294967296 9223372036854775807
    9223372036854775808 -9223372036854775808 -9223372036854775809 18446744073709551616 0x1 1e3 1_0 1.0
    99999999999999999999999999999999999999999999999999
""".split()
NAMES = ["a", "b", "%61", "%25", "%", "", "%%", "%6", "%6E", "a%", "a%6", "%00", "%2f", "%2e", ".", ".."]
NAMES += ["%ff", "a%20b", "/", *(text * count for text in ("n", "%6e") for count in (64, NAME_MOST, NAME_MOST + 1))]
NAMES += ["%6e" * NAME_MOST + "n", "n" * NAME_MOST + "%6"]
DATA = ["x", "x61", "", "x6", "X61", "xAB", "x6g", "6*3", "61*", "61*3", "61*03", "61*-1", "61**3", "61*0", "6G*3"]
DATA += ["*3", *(f"61*{count}" for count in (DATA_MOST, DATA_MOST + 1, 2**32, 2**64))]
DATA += ["x" + "61" * count for count in (17, DATA_MOST, DATA_MOST + 1)]
DATA += ["x" + "61" * DATA_MOST + "6", "x" + "6162" * 200_000]
FLAGS = ["r", "w", "rw", "-", "rw,creat", "w,trunc", "r,excl", "w,append", "r,nonblock", "rw,creat,excl,trunc,append"]
FLAGS += ["", "r,", ",r", "r,,creat", "r,creat,creat", "r,excl,creat", "wr", "R"]
FLAGS += ["rw,creat,excl,trunc,append,nonblock", "rw,creat,excl,trunc,append,nonblock,"]
BASES = ["set", "cur", "end", "", "SET", "sett", "se"]
ENDS = [b"\0", b"\r", b"\t", b" ", b"\xa0", b"#"]

# How a field of each kind is chosen.
CHOICES: dict[plain_model.Reader, list[str]] = {
    plain_model.read_name: NAMES,
    plain_model.read_data: DATA,
    plain_model.read_flags: FLAGS,
    plain_model.read_whence: BASES,
}
WORDS = [*plain_model.FIELDS, "close-run"]


# ---- lines


def field(pick: random.Random, reader: plain_model.Reader) -> str:
    """A field of a kind, which is most often a right one."""
    while True:
        word = pick.choice(CHOICES.get(reader, NUMBERS))
        if reader(word.encode()) is not None or pick.random() < WRONG:
            return word


def plain_line(pick: random.Random) -> bytes:
    """A line whose words are in their places; most of its fields are right ones."""
    word = pick.choice(WORDS)
    if word == "close-run":
        return word.encode()
    fields = [field(pick, reader) for reader in plain_model.FIELDS[word]]
    actor = pick.choice([*"000123", field(pick, plain_model.read_process)])
    return " ".join([f"p{actor}", word, *fields]).encode()


def with_another_word(pick: random.Random, line: bytes) -> bytes:
    """A line with a word in place of another, one more, or one fewer."""
    words = line.split(b" ")
    at = pick.randrange(len(words))
    other = pick.choice([*NUMBERS, *NAMES, *DATA, *FLAGS, *BASES, *WORDS, "", "join"]).encode()
    how = pick.choice(["put", "put", "leave", "double", "swap", "insert"])
    if how == "put":
        words[at] = other
    elif how == "leave":
        del words[at]
    elif how == "double":
        words.insert(at, words[at])
    elif how == "insert":
        words.insert(at, other)
    else:
        words[at], words[0] = words[0], words[at]
    return b" ".join(words)


def bent_line(pick: random.Random, line: bytes) -> bytes:
    """A line that is bent, so that it may be no act any more."""
    how = pick.choice(["byte", "byte", "word", "word", "word", "end", "front", "garbage", "long"])
    if how == "byte":
        return changed(pick, line).replace(b"\n", b"")
    if how == "word":
        return with_another_word(pick, line)
    if how == "end":
        return line + pick.choice(ENDS)
    if how == "front":
        return pick.choice(ENDS) + line
    if how == "garbage":
        return pick.randbytes(pick.choice([1, 3, 40])).replace(b"\n", b"")
    return line + pick.choice([b" ", b"", b"\0"]) + pick.choice([b"7", b"a", b" "]) * pick.choice([300, 70_000, 10**6])


def is_act(line: bytes) -> bool:
    """Whether a line is an act, or empty."""
    try:
        return not line or bool(plain_model.read_act(line))
    except NotAnAct:
        return False


def is_join(line: bytes) -> bool:
    """Whether a line is the act that begins a process."""
    return line == b"join"


class Script(NamedTuple):
    """A script, and its lines before the first one that is no act, if there is one."""

    text: bytes
    acts: list[bytes]
    has_fault: bool


def script_of(pick: random.Random, lines: Sequence[bytes]) -> Script:
    """The script of some lines, whose last one may have no end."""
    text = b"\n".join(lines) + pick.choice([b"\n", b"\n", b""])
    found = text.split(b"\n")
    acts = list(itertools.takewhile(is_act, found))
    return Script(text, acts, len(acts) < len(found))


def without_processes(pick: random.Random) -> Script:
    """A script in which no process joins, so that all is refused: it only has to be read and spelled."""
    lines = [plain_line(pick) for _ in range(pick.randrange(1, LINES_MOST))]
    for _ in range(pick.choice([0, 1, 1, 2])):
        at = pick.randrange(len(lines) + 1)
        lines[at : at + 1] = [bent_line(pick, line) for line in lines[at : at + 1]]
    return script_of(pick, [line for line in lines if not is_join(line)])


def with_processes(pick: random.Random, seed: str, number: int) -> Script:
    """A random script that runs, bent in a few places; or only garbage."""
    if pick.random() < 0.1:
        return script_of(pick, [b"join", pick.randbytes(pick.choice([10, 1_000, 100_000]))])
    lines = random_lines(f"{seed} garbage", number, ACTS, "small")
    for _ in range(pick.choice([1, 2, 3, 8])):
        at = pick.randrange(len(lines))
        how = pick.choice(["bend", "plain", "double", "leave", "swap"])
        if how == "bend":
            lines[at] = with_another_word(pick, lines[at])
        elif how == "plain":
            lines[at] = plain_line(pick)
        elif how == "double" and not is_join(lines[at]):
            lines.insert(at, lines[at])
        elif how == "leave" and len(lines) > 1:
            del lines[at]
        elif how == "swap":
            other = pick.randrange(len(lines))
            lines[at], lines[other] = lines[other], lines[at]
    # half of them run to their end
    is_whole = pick.random() < 0.5
    return script_of(pick, [line for line in lines if is_act(line)] if is_whole else lines)


# ---- the driver


class Driver:
    """The driver as a build makes it, and the folders where its own and what sanitizers write are."""

    def __init__(self, build: Build) -> None:
        self.path = os.path.join(build.folder, f"{build.name.replace(' ', '-')}-ask_kernel")
        self.names, self.reports = f"{self.path}.names", f"{self.path}.reports"
        compiles([*build.words, *WARNINGS, str(TOOLS / "ask_kernel.c"), "-o", self.path])
        os.mkdir(self.names)
        os.mkdir(self.reports)

    def run(self, script: bytes) -> Ran:
        """Runs a script. Nothing may be left, and no sanitizer may have told of anything in any process."""
        log = f"log_path={self.reports}/report"
        # the processes of a script have no standard error, so reports go to files
        done = run(["env", f"ASAN_OPTIONS={log}", f"UBSAN_OPTIONS={log}", self.path, "--dir", self.names], script)
        reports = sorted(Path(self.reports).iterdir())
        if reports:
            text = reports[0].read_text(encoding="utf-8", errors="replace")
            for report in reports:
                report.unlink()
            require(False, f"a sanitizer tells: {text[:600]}")
        self.is_clean()
        return done

    def processes(self) -> list[str]:
        """The processes that run the driver's program."""
        if not sys.platform.startswith("linux"):
            return []
        return [number for number in filter(str.isdigit, os.listdir("/proc")) if program_of(number) == self.path]

    def is_clean(self) -> None:
        """No folder and no process is left, or they go by themselves in a moment."""
        until = time.monotonic() + SECONDS
        while (left := os.listdir(self.names)) or self.processes():
            if time.monotonic() > until:
                # so that the next script is asked for its own alone
                shutil.rmtree(self.names)
                os.mkdir(self.names)
                raise Failure(f"left: {left} {self.processes()}")
            time.sleep(0.01)


def program_of(number: str) -> str:
    """The program that a process runs, or nothing."""
    try:
        return os.readlink(f"/proc/{number}/exe")
    except OSError:
        return ""


def ended(script: Script, done: Ran) -> None:
    """The driver has told the first line that is no act, or ended well."""
    fault = b"ask_kernel: line %d: %s\n" % (len(script.acts) + 1, NOT_AN_ACT)
    same((3, fault) if script.has_fault else (0, b""), (done.status, done.stderr))


def prints(wanted: bytes, given: bytes) -> None:
    """What a program printed is this."""
    require(wanted == given, f"it prints something else: {difference(wanted, given)}")


def is_spelled(driver: Driver, script: Script, met: Counter[str]) -> None:
    """The driver reads a script without processes up to what is no act, and spells it as the plain model does."""
    done = driver.run(script.text)
    ended(script, done)
    wanted = plain_model.replay(b"\n".join(script.acts)).stdout
    totals = wanted.rindex(b"records ")
    prints(wanted[:totals] if script.has_fault else wanted, done.stdout)
    met["acts"] += sum(map(bool, script.acts))
    met["lines that are none"] += script.has_fault


def is_read(driver: Driver, program: str, script: Script, met: Counter[str]) -> None:
    """The driver and fdref read the same acts in a script without processes, and spell them alike."""
    is_spelled(driver, script, met)
    asked, given = plain_model.replay(script.text), run([program, "replay"], script.text)
    # where the fault is, and not what else is told of it
    where, told = (it.stderr.partition(b"\n")[0] for it in (asked, given))
    same((asked.status, where), (given.status, told))
    prints(asked.stdout, given.stdout)


def is_run(driver: Driver, script: Script, met: Counter[str]) -> None:
    """The driver runs a script to its end, or to the first line that is no act."""
    done = driver.run(script.text)
    ended(script, done)
    has_totals = done.stdout.rpartition(b"\n")[0].rpartition(b"\n")[2].startswith(b"records ")
    same(not script.has_fault, has_totals)
    # its own lines of resumes come between them
    words = [b" " + spelled(act) + b" = " for act in map(plain_model.read_act, filter(None, script.acts))]
    lines = iter(done.stdout.split(b"\n"))
    for word in words:
        require(any(word in line for line in lines), f"no line has{word.decode()[:100]}in its place")
    met["acts that are run"] += len(words)
    met["scripts that are run to their end"] += not script.has_fault
    met["calls that are not asked"] += done.stdout.count(b" = not asked\n")


def spelled(act: Act) -> bytes:
    """An act as it stands in a line, without its actor."""
    return plain_model.act_text(act).partition(" ")[2].encode()


def lines(drivers: Sequence[Driver], program: str, seed: str, first: int, met: Counter[str]) -> Iterator[Case]:
    """Lines that are read, and that call nothing."""
    for number in itertools.count(first):
        script = without_processes(source(f"{seed} lines", number))
        check = partial(is_read, drivers[number % len(drivers)], program, script, met)
        yield numbered("lines", seed, number), check


def scripts(drivers: Sequence[Driver], seed: str, first: int, met: Counter[str]) -> Iterator[Case]:
    """Scripts that are run."""
    for number in itertools.count(first):
        script = with_processes(source(f"{seed} scripts", number), seed, number)
        yield numbered("script", seed, number), partial(is_run, drivers[number % len(drivers)], script, met)


# Lines that have a field of each kind, or the number of a process, in the place of a zero byte.
FIELDS = {
    plain_model.read_name: b"p0 link a \0",
    plain_model.read_data: b"p0 write 0 \0",
    plain_model.read_flags: b"p0 open a \0",
    plain_model.read_whence: b"p0 lseek 0 0 \0",
    plain_model.read_fd: b"p0 dup2 0 \0",
    plain_model.read_count: b"p0 read 0 \0",
    plain_model.read_place: b"p0 ftruncate 0 \0",
    plain_model.read_process: b"p\0 pipe",
}


def every_word(drivers: Sequence[Driver], met: Counter[str]) -> Iterator[Case]:
    """Each word of each kind: those that are right ones in one script, and each other one in its own."""
    lines = [
        line.replace(b"\0", word.encode()) for reader, line in FIELDS.items() for word in CHOICES.get(reader, NUMBERS)
    ]
    pick = random.Random(0)
    for driver in drivers:
        right = script_of(pick, list(filter(is_act, lines)))
        yield f"each right word, {os.path.basename(driver.path)}", partial(is_spelled, driver, right, met)
    for number, line in enumerate(itertools.filterfalse(is_act, lines)):
        script = script_of(pick, [b"close-run", line, b"close-run"])
        yield f"the line {line!r:.80}", partial(is_spelled, drivers[number % len(drivers)], script, met)


# What the driver is given besides.
ODD_SCRIPTS: list[tuple[str, Callable[[], bytes]]] = [
    ("no script", lambda: b""),
    ("only ends of lines", lambda: b"\n" * 10_000),
    ("a zero byte", lambda: b"\0"),
    ("zero bytes for an act", lambda: b"join\n" + bytes(10_000)),
    ("an act and a zero byte", lambda: b"p0 pipe\0\n"),
    ("an act after a zero byte", lambda: b"\0p0 pipe\n"),
    ("a line of a million bytes", lambda: b"p0 write 0 x" + b"61" * 500_000 + b"\n"),
    ("a million spaces", lambda: b" " * 1_000_000),
    ("bytes past ASCII", lambda: b"join\np0 open \xc3\xa4 r\n"),
    ("a name that is cut in an escape", lambda: b"p0 mkfifo %6"),
    ("no last end of line", lambda: b"join\np0 pipe"),
]


def odd_scripts(drivers: Sequence[Driver]) -> Iterator[Case]:
    """Scripts that are written out here."""
    for driver in drivers:
        for name, text in ODD_SCRIPTS:
            script = script_of(random.Random(0), [text()])
            yield f"{name}, {os.path.basename(driver.path)}", partial(is_run, driver, script, Counter())
