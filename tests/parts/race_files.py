"""Races of files on the system at hand, and what tools/race.py tells of them."""

import shlex
import sys
from collections.abc import Iterator, Sequence
from functools import partial
from pathlib import Path
from typing import NamedTuple

from support.counting import Case, Failure, require, same
from support.histories import read_histories
from support.outcomes import read_race
from support.places import EXAMPLES, STAND_INS, TOOLS
from support.running import Ran, run
from support.searching import FOREVER

import apart
import race
import race_table

RACES = EXAMPLES / "races"
SECONDS = 60
# How long each example is raced.
EXAMPLE_SECONDS = 0.3

# Ways of a wrong system, with the example that shows each.
WRONG = {
    "gap": "rename-over-open",
    "stale": "two-appenders",
    "interleave": "512-and-513-bytes",
    "lost": "read-beside-last-writer",
    "tear": "pwrite-beside-append",
}


class Tools(NamedTuple):
    """fdref, the command that runs the driver, and a folder for files."""

    program: str
    driver: list[str]
    folder: str

    def race(self, *words: str) -> Ran:
        """Runs the tool."""
        command = [sys.executable, str(TOOLS / "race.py"), "--program", self.program, *words]
        return run(command, seconds=SECONDS)


# ---- a system that is made up

SCRIPT = "join\np0 pipe\np0 fork\np1 attach\nrace\n"
SCRIPT += "p0 read 0 1\np1 setfl 0 -,nonblock = ok\np1 read 0 1\np1 write 1 x61\n"
SETUP = "0 1 p0 join = 0\n2 3 p0 pipe = 0 1\n4 5 p0 fork = 1\n6 7 p1 attach = ok\n"
READ, SET, NONE = "p0 read 0 1 =", "p1 setfl 0 -,nonblock = ok", "p1 read 0 1 = error EAGAIN"
WRITE = "p1 write 1 x61 = 1"
# Of each history the calls that race; the second stands there twice.
MADE_UP = [
    f"20 21 {SET}\n22 23 {NONE}\n24 25 {WRITE}\n26 27 {READ} x61\n",
    f"20 21 {SET}\n22 23 {READ} error EAGAIN\n24 25 {NONE}\n26 27 {WRITE}\n",
    f"20 21 {SET}\n22 23 {READ} error EAGAIN\n24 25 {NONE}\n26 27 {WRITE}\n",
    f"20 - {READ} parked ?\n22 23 {SET}\n24 - p1 read 0 1 = parked ?\n",
]
# What is told of them.
TABLE = """seen, and not allowed
       1    - waits ?, ok, waits ?, -
              no reason is known
allowed, and seen
       2    0 error EAGAIN, ok, error EAGAIN, 1
       1    1 x61, ok, error EAGAIN, 1
"""
LAST = "4 rounds; outcomes: 2 allowed, 2 of them seen; 1 seen and not allowed, 1 of them without a reason\n"


def made_up(tools: Tools, name: str, found: Sequence[str], setup: str = SETUP) -> list[str]:
    """The words for a driver that tells these histories, whatever it is asked for, and for a file of the script."""
    driver, file = Path(tools.folder, f"{name}-driver"), Path(tools.folder, f"{name}.race")
    driver.write_text("#!/bin/sh\ncat <<END\n" + "".join(f"{setup}{text}\n" for text in found) + "END\n")
    driver.chmod(0o755)
    file.write_text(SCRIPT)
    return [str(file), "--seconds", "0", "--driver", str(driver)]


def table_is_told(tools: Tools) -> None:
    """What was seen and is not allowed is told, shown and kept, and is status 1."""
    words = made_up(tools, "odd", MADE_UP)
    done = tools.race(*words, "--keep", tools.folder)
    told = done.stdout.decode()
    require(done.status == 1 and told.startswith(TABLE) and told.endswith(LAST), told + done.said())
    require(f"{words[0]}: no order explains\n" in told, told)
    kept = Path(tools.folder, "odd.histories").read_text()
    same(f"{SETUP}{MADE_UP[3]}\n", kept)
    same(SCRIPT.replace(" = ok", ""), Path(tools.folder, "odd.script").read_text())


def unseen_is_told(tools: Tools) -> None:
    """What is allowed and was not seen is told; without what is not allowed the status is 0."""
    wanted = "allowed, and not seen\n       0    1 x61, ok, error EAGAIN, 1\n"
    wanted += "allowed, and seen\n       1    0 error EAGAIN, ok, error EAGAIN, 1\n"
    wanted += "1 round; outcomes: 2 allowed, 1 of them seen; 0 seen and not allowed, 0 of them without a reason\n"
    same(Ran(0, wanted.encode(), b""), tools.race(*made_up(tools, "seen", MADE_UP[1:2])))


# Races of two processes in which a system answers otherwise by a choice of fdref's own: what is before, the calls, a
# history of each, the status and what is told of it.
JOINS = "join\njoin\np0 open a rw,creat\n"
JOINED = "0 1 p0 join = 0\n2 3 p1 join = 1\n4 5 p0 open a rw,creat = 0\n"
ENDS = "join\np0 pipe\np0 fork\np1 attach\n"
FLAGS = "flags that the standard leaves undefined (own) (page of open)"
STAT = "size and links of a pipe in fstat (own) (page of fstat)"
REFUSALS = "order of refusals, where several are due (own) (XSH 2.3)"
APPEND = "pwrite under O_APPEND appends (the system departs) (page of write (pwrite))"
PROCESSES = "no room for a child (own) (page of fork)"
BARE = "no reason is known"
APPENDING = "p0 open a rw,creat,append\np0 pwrite 2 0 x61\np0 pwrite 2 0 x62\n"
APPENDED = f"{SETUP}10 11 p0 open a rw,creat,append = 2\n12 13 p0 pwrite 2 0 x61 = 1\n14 15 p0 pwrite 2 0 x62 = 1\n"
NOT_WOKEN = ["20 - p0 read 0 4 = parked ?", "25 - p1 write 1 61*8000 = parked ?"]
LONE, ALONE = "p0 close 0\np1 close 1\n", f"{SETUP}8 9 p0 close 0 = ok\n10 11 p1 close 1 = ok\n"
BROKEN = ["20 90 p0 write 1 61*3000 = error EPIPE", "30 40 p1 read 0 600 = 61*600", "50 60 p1 close 0 = ok"]
CUT_OFF = ["15 16 p0 write 1 62*100 = 100", "20 90 p0 write 1 61*65536 = 61440", "50 60 p1 close 0 = ok"]
LARGE = ["20 90 p0 write 1 61*65700 = 65536", "30 40 p1 read 0 10 = 61*10", "50 60 p1 close 0 = ok"]
BOTH_OPEN = "join\np0 open a rw,creat,append\np0 fork\np1 attach\n"
BOTH_APPEND = "0 1 p0 join = 0\n2 3 p0 open a rw,creat,append = 0\n4 5 p0 fork = 1\n6 7 p1 attach = ok\n"
APPENDS = ["10 30 p0 write 0 x62 = 1", "12 20 p1 pwrite 0 0 x6161 = 2"]
FOUR = "15 16 p0 write 1 x61626364 = 4"
READ_FIRST = ["20 40 p0 read 0 1 = x61", "30 90 p1 write 1 x61 = 1"]
SHARES = "how reads of a pipe at once share its bytes (own) (page of read)"
SEEN = ["20 50 p0 write 1 61*400 = 400", "22 24 p1 read 0 400 = 61*200", "30 60 p1 read 0 400 = 61*200"]
CHOICES = [
    (JOINS, JOINED, ["20 30 p0 open a r,trunc = 1", "21 31 p1 open b rw,creat = 0"], 0, FLAGS),
    (ENDS, SETUP, ["20 30 p0 fstat 0 = pipe 0 1", "21 31 p1 getfl 0 = 1"], 0, STAT),
    (ENDS, SETUP, ["20 30 p0 pread 1 0 1 = error ESPIPE", "21 31 p1 getfl 0 = 1"], 0, REFUSALS),
    # in the order in which they came back the flags are set too late
    (
        ENDS,
        SETUP,
        ["20 24 p0 fstat 0 = pipe 0 1", "25 28 p0 getfl 1 = 66", "23 35 p1 setfl 1 -,nonblock = ok"],
        0,
        STAT,
    ),
    # where all else is not explained it may be the reason, and where what comes before it differs it is none
    (JOINS, JOINED, ["20 30 p0 open a r,trunc = 1", "31 41 p0 fstat 1 = regular 0 1"], 1, f"perhaps: {FLAGS}"),
    (JOINS, JOINED, ["20 30 p0 fstat 0 = regular 7 1", "31 41 p0 open a r,trunc = 1"], 1, BARE),
    (ENDS, SETUP, ["20 30 p0 fstat 0 = pipe 0 1", "31 41 p0 read 0 1 = x61"], 1, f"perhaps: {STAT}"),
    # a write that is EPIPE after a part, and one that has a reader
    (f"{ENDS}{LONE}", ALONE, BROKEN, 0, "EPIPE of a write that has moved a part (own) (page of write)"),
    (f"{ENDS}{LONE}", ALONE, [*BROKEN[:2], "50 60 p1 getfl 0 = 1"], 1, BARE),
    # one that ends early, one that moved more than there is room for, and one of more bytes than fdref takes
    (f"{ENDS}{LONE}", ALONE, CUT_OFF, 0, "how much a write has moved that ends early (own) (page of write)"),
    (f"{ENDS}{LONE}", ALONE, [CUT_OFF[0], CUT_OFF[1].replace("= 61440", "= 65500"), CUT_OFF[2]], 1, BARE),
    (f"{ENDS}{LONE}", ALONE, LARGE, 0, "more than 65,536 bytes in a call (own) (pages of read and write)"),
    (f"{ENDS}{LONE}", ALONE, [*LARGE[:2], "50 60 p1 getfl 0 = 1"], 1, BARE),
    # reads of a pipe at once that share its bytes, and one after another
    (ENDS, SETUP, [FOUR, "20 40 p0 read 0 2 = x6163", "21 41 p1 read 0 2 = x6264"], 0, SHARES),
    (ENDS, SETUP, [FOUR, "20 40 p0 read 0 2 = x6163", "41 42 p1 read 0 2 = x6264"], 1, BARE),
    (ENDS, SETUP, [FOUR, "20 40 p0 read 0 2 = x6163", "21 41 p1 read 0 2 = x6265"], 1, BARE),
    # a small write that is seen in part, and one that is over
    (ENDS, SETUP, SEEN, 0, "a small write goes in by parts (own) (page of write)"),
    (ENDS, SETUP, [SEEN[0].replace("50", "21"), *SEEN[1:]], 1, BARE),
    # a write that is not woken has nothing to do with room
    (ENDS, SETUP, ["20 - p0 write 1 61*600 = parked ?", "30 31 p1 read 0 600 = 61*600"], 1, BARE),
    # a read that is not woken has nothing to do with appending
    (ENDS, SETUP, NOT_WOKEN, 1, BARE),
    (f"{ENDS}{APPENDING}", APPENDED, NOT_WOKEN, 1, BARE),
    (f"{ENDS}{APPENDING}", APPENDED, ["20 30 p0 pread 2 0 9 = x6162", "25 31 p1 getfl 0 = 1"], 0, APPEND),
    # in the order in which they came back the pwrite comes too early to append
    (BOTH_OPEN, BOTH_APPEND, [*APPENDS, "40 41 p0 lseek 0 0 cur = 1", "42 43 p0 lseek 0 0 end = 3"], 0, APPEND),
    (BOTH_OPEN, BOTH_APPEND, [*APPENDS, "40 41 p0 lseek 0 0 cur = 1", "42 43 p0 lseek 0 0 end = 4"], 1, BARE),
    # in the order in which they came back the read waits, and keeps its process from what comes later
    (ENDS, SETUP, [*READ_FIRST, "42 43 p0 fstat 0 = pipe 0 1"], 0, STAT),
    (ENDS, SETUP, [*READ_FIRST, "42 43 p0 pread 1 0 1 = error ESPIPE"], 0, REFUSALS),
    (ENDS, SETUP, [*READ_FIRST, "42 43 p0 pread 1 0 1 = error EINVAL"], 1, BARE),
    (ENDS, SETUP, ["20 40 p0 read 0 1 = x62", READ_FIRST[1], "42 43 p0 fstat 0 = pipe 0 1"], 1, BARE),
    # a limit of the system
    (JOINS, JOINED, ["20 30 p0 fork = error EAGAIN", "25 31 p1 open a r = 0"], 0, PROCESSES),
]


def choice_is_told(tools: Tools, before: str, setup: str, calls: Sequence[str], status: int, told: str) -> None:
    """What was seen and is not allowed by a choice of fdref's own is told with the reason of tools/compare.py."""
    words = made_up(tools, "choice", ["".join(f"{call}\n" for call in calls)], setup)
    acts = [call.split(" ", 2)[2].partition(" = ")[0] for call in calls]
    Path(words[0]).write_text("".join(f"{line}\n" for line in [f"{before}race", *acts]))
    done = tools.race(*words)
    lines = done.stdout.decode().splitlines()
    require(done.status == status and lines[2].strip() == told, done.said() + f" {lines}")
    text = setup + "".join(f"{call}\n" for call in calls)
    if apart.is_one_by_one(read_histories(text)[0]):
        return
    # of calls that overlap order.py says the same, but that a departure of the system is status 1
    history = Path(tools.folder, "choice.history")
    history.write_text(text)
    words = [sys.executable, str(TOOLS / "order.py"), "--program", tools.program, str(history)]
    ordered = run(words, seconds=SECONDS)
    last = ordered.stdout.decode().splitlines()[-1]
    reason = told.replace(") (", "; ", 1) if told.startswith("perhaps: ") else "reason: " + told.replace(") (", "; ", 1)
    same(1 if "the system departs" in told else status, ordered.status)
    require(last == reason if told != BARE else not last.startswith(("reason", "perhaps")), ordered.said())


def turned_is_not_compared(tools: Tools) -> None:
    """Where the ends of a pipe cannot change places nothing is compared, which is told."""
    turned = [f"20 21 p0 pipe = {ends}\n22 23 p1 read 0 1 = error EBADF\n" for ends in ("1 0", "0 1")]
    words = made_up(tools, "turned", turned, "0 1 p0 join = 0\n2 3 p1 join = 1\n")
    Path(words[0]).write_text("join\njoin\nrace\np0 pipe\np1 read 0 1\n")
    done = tools.race(*words)
    told = b"not compared: race_kernel has no descriptor for the ends of a pipe, of which the writing one has the lower "
    same((3, b"", b"race.py: " + told + b"number, to change places\n"), (done.status, done.stdout, done.stderr))


def setup_is_told(tools: Tools) -> None:
    """What the system answers otherwise before the race is told first, and is status 1 without a reason."""
    done = tools.race(*made_up(tools, "setup", MADE_UP[:1], SETUP.replace("= 0 1", "= 3 4")))
    first = b"before the race: p0 pipe = 3 4, and fdref says 0 1\n              no reason is known\n"
    require(done.status == 1 and done.stdout.startswith(first), done.said())
    words = made_up(tools, "setup", MADE_UP[:1], f"{SETUP}8 9 p0 fstat 0 = pipe 0 1\n")
    Path(words[0]).write_text(SCRIPT.replace("race\n", "p0 fstat 0\nrace\n"))
    done = tools.race(*words)
    first = b"before the race: p0 fstat 0 = pipe 0 1, and fdref says pipe 0 0\n"
    first += b"              size and links of a pipe in fstat (own) (page of fstat)\n"
    require(done.status == 0 and done.stdout.startswith(first), done.said())


# Of calls one after another: a read that ends before the flag is set, and a write before there is room.
EARLY = f"20 21 {READ} error EAGAIN\n22 23 {SET}\n24 25 {NONE}\n26 27 {WRITE}\n"
UNTIMELY = """seen, and not allowed at these times
       1    0 error EAGAIN, ok, error EAGAIN, 1
              no reason is known
allowed, and not seen
       0    1 x61, ok, error EAGAIN, 1
allowed, and seen
       3    0 error EAGAIN, ok, error EAGAIN, 1
"""
FULL = f"{SETUP}8 9 p0 write 1 61*1000 = 1000\n"
ROOMY = ["20 30 p0 write 1 62*1000 = 1000", "31 40 p1 read 0 1000 = 61*1000"]


def times_are_judged(tools: Tools) -> None:
    """What is allowed, but not at the times of the calls, is told, shown and kept, and is status 1."""
    words = made_up(tools, "early", [EARLY, *MADE_UP[1:3]])
    done = tools.race(*words, "--keep", tools.folder)
    told = done.stdout.decode()
    require(done.status == 1 and told.startswith(UNTIMELY), told + done.said())
    require("\n1 outcome not allowed at some times, 1 of them without a reason\n3 rounds; " in told, told)
    require(f"{words[0]}: no order explains\n" in told, told)
    same(f"{SETUP}{EARLY}\n", Path(tools.folder, "early.histories").read_text())


def room_is_a_reason_of_times(tools: Tools) -> None:
    """What is not allowed at the times of the calls has a reason where larger pipes explain it."""
    words = made_up(tools, "roomy", ["".join(f"{call}\n" for call in ROOMY)], FULL)
    Path(words[0]).write_text(f"{ENDS}p0 write 1 61*1000\nrace\np0 write 1 62*1000\np1 read 0 1000\n")
    done = tools.race(*words)
    lines = done.stdout.decode().splitlines()
    room = "room of a pipe (own) (page of write; --pipe-capacity tells how many bytes a pipe of the system holds)"
    wanted = ["seen, and not allowed at these times", room]
    same((0, wanted), (done.status, [lines[0], lines[2].strip()]))
    other = "a pipe of the system may hold more or fewer bytes than --pipe-capacity says"
    done = tools.race(*words, "--pipe-capacity", "1999")
    same((1, True), (done.status, other in done.stdout.decode().splitlines()))


def unjudged_are_counted() -> None:
    """One history of each outcome is judged in any case. How many rounds have others is told."""
    script = read_race(SCRIPT.encode())
    table = race_table.Table(script, {"error EAGAIN, ok, error EAGAIN, 1": 0})
    table.add(read_histories("\n".join(SETUP + text for text in [*MADE_UP[1:3], EARLY])))
    all_judged = table.untimely(lambda history: race_table.Judged(True), FOREVER)
    some_judged = table.untimely(lambda history: race_table.Judged(True), 0)
    none_judged = table.untimely(lambda history: race_table.Judged(None), FOREVER)
    same(((0, 1, 3), []), ((all_judged.unjudged, some_judged.unjudged, none_judged.unjudged), none_judged.odd))
    same("the times of 1 round were not judged", table.last_lines([], some_judged)[0])


def other_times_are_judged() -> None:
    """An answer that is not allowed has no reason where it has none at some times of the calls."""
    script = read_race(SCRIPT.encode())
    table = race_table.Table(script, {})
    rest = "20 22 p1 setfl 0 -,nonblock = ok\n24 26 p1 read 0 1 = error EAGAIN\n28 30 p1 write 1 x61 = 1\n"
    table.add(read_histories("\n".join(f"{SETUP}10 {end} p0 read 0 1 = x62\n{rest}" for end in (15, 23, 27, 31))))
    known = race.Choice("a reason", "a page")
    reasons = [
        table.odd(lambda history: None if history[len(script.setup)].end == 31 else known, until)[0].reason
        for until in (0, FOREVER)
    ]
    same([known, None], reasons)


# Histories that are not those of the race, and what is told of each.
OTHER_RACES = [
    (SETUP, MADE_UP[0].replace(f"24 25 {WRITE}\n", ""), "did not run `p1 write 1 x61`"),
    (SETUP, MADE_UP[0].replace("x61 = 1", "x62 = 1"), "ran `p1 write 1 x62` in place of `p1 write 1 x61`"),
    (SETUP, f"{MADE_UP[1]}30 31 p0 close 0 = ok\n", "ran `p0 close 0`, which is not in the race"),
    (SETUP.replace("6 7 p1 attach = ok\n", ""), "6 7 p0 close 0 = ok\n", "ran `p0 close 0` in place of `p1 attach`"),
]


def other_race_is_told(tools: Tools, setup: str, calls: str, told: str) -> None:
    """A history that is not one of the race is not counted, and it is told why."""
    done = tools.race(*made_up(tools, "other", [calls], setup))
    require(done.status == 3 and done.stderr.decode().endswith(f"race_kernel {told}\n"), done.said())


def last_words_are_told(tools: Tools) -> None:
    """Of all that a driver says before it ends with a fault the end is told."""
    words = made_up(tools, "last", MADE_UP)
    Path(words[-1]).write_text("#!/bin/sh\nseq 1000 >&2\necho 'KeyError: 7' >&2\nexit 1\n")
    done = tools.race(*words)
    require(done.status == 3 and b"ends with status 1: .." in done.stderr, done.said())
    require(done.stderr.endswith(b"; 1000; KeyError: 7\n"), done.said())


def states_are_passed_on(tools: Tools) -> None:
    """With too few states fdref gives up, and with enough it tells what is allowed."""
    words = made_up(tools, "states", MADE_UP[1:2])
    few = tools.race(*words, "--states", "2")
    require(few.status == 3 and b"too many states: more than 2" in few.stderr, few.said())
    same(tools.race(*words), tools.race(*words, "--states", "100"))


def wrong_fdref_is_told(tools: Tools) -> None:
    """An outcome that an order explains, and fdref does not tell, is a fault of fdref."""
    program = f"{sys.executable} {STAND_INS / 'wrong_outcomes.py'} last-never-first"
    done = tools.race(*made_up(tools, "wrong", MADE_UP[1:2]), "--program", program)
    require(done.status == 3 and b"fdref outcomes does not tell what an order explains" in done.stderr, done.said())


def fault_is_told(tools: Tools, text: str, told: str) -> None:
    """A file that is no race is status 3, and what is wrong with it is told."""
    file = Path(tools.folder, "bad.race")
    file.write_text(text)
    done = tools.race(str(file), "--seconds", "0", "--driver", "/bin/false")
    require(done.status == 3 and not done.stdout and told in done.stderr.decode(), done.said())


def tool_cases(tools: Tools) -> Iterator[Case]:
    """What is told of a file."""
    yield "the table", partial(table_is_told, tools)
    yield "what was not seen", partial(unseen_is_told, tools)
    for choice in CHOICES:
        yield f"a choice: {choice[2][0]}", partial(choice_is_told, tools, *choice)
    yield "before the race", partial(setup_is_told, tools)
    yield "ends of a pipe that cannot change places", partial(turned_is_not_compared, tools)
    yield "times", partial(times_are_judged, tools)
    yield "times and room", partial(room_is_a_reason_of_times, tools)
    yield "other times of an answer that is not allowed", other_times_are_judged
    yield "times that are not judged", unjudged_are_counted
    for setup, calls, told in OTHER_RACES:
        yield f"another race: {told}", partial(other_race_is_told, tools, setup, calls, told)
    yield "the last words of a driver", partial(last_words_are_told, tools)
    yield "too many states", partial(states_are_passed_on, tools)
    yield "a wrong fdref", partial(wrong_fdref_is_told, tools)
    for text, told in (
        ("join\n", "no race"),
        ("join\nrace\np0 exit\n", "line 3: not a call"),
        ("join\nrace\np1 pipe\n", "line 3: not attached"),
        ("join\np0 pipe\np0 read 0 1\nrace\n", "line 3: waits"),
        ("join\nrace\np0 pipe\n", "race_kernel ends with"),
    ):
        yield f"file {text!r}", partial(fault_is_told, tools, text, told)


# ---- this system, and wrong ones


def table_of(tools: Tools, name: str, driver: Sequence[str], seconds: float) -> Iterator[list[race_table.Odd]]:
    """What is seen of an example and is not allowed, after each run of the driver."""
    script = read_race((RACES / f"{name}.race").read_bytes())
    asked = race.Asked([tools.program], list(driver))
    table = race_table.Table(script, race_table.allowed_by([tools.program], script, []))
    for found in race.raced(asked, script.text(), name, seconds):
        table.add(found)
        yield table.odd(lambda history: race.reason_without_order(asked, script.text(), history))


def system_is_allowed(tools: Tools, name: str) -> None:
    """What this system is seen to do in an example is allowed, or has a reason."""
    *_, odd = table_of(tools, name, tools.driver, EXAMPLE_SECONDS)
    require(all(it.reason for it in odd), f"{[it.text for it in odd]}")


def system_keeps_time(tools: Tools, name: str) -> None:
    """What this system is seen to do in an example is allowed at the times of the calls, or has a reason."""
    script = read_race((RACES / f"{name}.race").read_bytes())
    asked = race.Asked([tools.program], tools.driver)
    table = race_table.Table(script, race_table.allowed_by([tools.program], script, []))
    for found in race.raced(asked, script.text(), name, EXAMPLE_SECONDS):
        table.add(found)
    untimely = table.untimely(lambda history: race.judged_by_times(asked, script.text(), history), FOREVER)
    require(all(it.reason for it in untimely.odd), f"{[(it.text, it.history) for it in untimely.odd]}")


def is_found(tools: Tools, way: str, name: str, library: str) -> None:
    """An example finds a system that is wrong in a way."""
    driver = ["env", f"WRONG_SYSTEM={way}", f"LD_PRELOAD={library}", *tools.driver]
    if not any(not it.reason for odd in table_of(tools, name, driver, SECONDS) for it in odd):
        raise Failure(f"{name} does not find it")


# Two processes of a race that each make pipes, the second of them one in place of its first file, what is allowed, and
# what is told.
PIPES = """join
join
p1 open f rw,creat
race
p0 pipe
p0 write 1 x61
p0 read 0 9
p0 pipe
p0 write 3 x63
p0 read 2 9
p1 close 0
p1 pipe
p1 write 1 x62
p1 read 0 9
"""
PIPES_TOLD = """allowed, and seen
      10    0 0 1, 1, x61, 2 3, 1, x63, ok, 0 1, 1, x62
"""
PIPES_LAST = "10 rounds; outcomes: 1 allowed, 1 of them seen; 0 seen and not allowed, 0 of them without a reason\n"


def turned_in_race(tools: Tools, library: str, way: str, told: str) -> None:
    """Pipes that are made within a race are compared, whichever end has the lower number."""
    driver, file = Path(tools.folder, f"{way}-pipes-driver"), Path(tools.folder, f"{way}-pipes.race")
    words = ["env", f"WRONG_SYSTEM={way}", f"LD_PRELOAD={library}", *tools.driver]
    driver.write_text(f'#!/bin/sh\nexec {shlex.join(words)} "$@"\n')
    driver.chmod(0o755)
    file.write_text(PIPES)
    done = tools.race(str(file), "--seconds", "0", "--driver", str(driver))
    same(Ran(0, f"{PIPES_TOLD}{told}{PIPES_LAST}".encode(), b""), done)


def example_cases(tools: Tools) -> Iterator[Case]:
    """Each example on the system at hand."""
    for file in sorted(RACES.glob("*.race")):
        yield file.stem, partial(system_is_allowed, tools, file.stem)
        yield f"times of {file.stem}", partial(system_keeps_time, tools, file.stem)


def wrong_cases(tools: Tools, library: str) -> Iterator[Case]:
    """Wrong systems, each of which an example finds, and a right one whose pipes are the other way round."""
    for way, told in ("none", ""), ("turned", f"{race.TURNED}\n"):
        yield f"pipes within a race: {way}", partial(turned_in_race, tools, library, way, told)
    yield from ((f"{way} by {name}", partial(is_found, tools, way, name, library)) for way, name in WRONG.items())
