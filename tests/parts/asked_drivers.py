"""What tools/compare.py tells of wrong systems, and of drivers that are wrong themselves: scripts stand in for them."""

import shlex
import stat
import sys
from collections.abc import Iterator, Sequence
from functools import partial
from pathlib import Path

from stand_ins import wrong_driver
from support import ordering
from support.counting import Case, Failure, require, same
from support.places import STAND_INS, TOOLS
from support.running import CannotRun, Ran, run

import compare_lines
import compare_runs

SECONDS = 120


def compared(program: str, folder: str, way: str, script: str, words: Sequence[str] = (), end: str = "") -> Ran:
    """Runs tools/compare.py on a script, which a driver runs that is wrong in a way, and in what its lines go into."""
    path = Path(folder, "asked.script")
    path.write_text(script)
    driver = shlex.join([sys.executable, str(STAND_INS / "wrong_driver.py"), way])
    driver = shlex.join(["sh", "-c", driver + end]) if end else driver
    command = [sys.executable, str(TOOLS / "compare.py"), "--program", program, "--ask", driver]
    return run([*command, *words, str(path)], seconds=SECONDS)


# ---- calls that are not woken

FORKED = "join\np0 pipe\np0 fork\np1 attach\n"
# Scripts in which a call can go on at last, and the page that says when it does. After the first one all are awake.
SLEEPS = {
    "write-wakes-nobody": (
        f"{FORKED}p0 read 0 1\np1 write 1 x61\np0 open a w,creat\np0 write 2 x6162\np0 fstat 2\n",
        "p0 is not woken; page of read: it waits until there are data, or no writer",
    ),
    "last-writer-wakes-nobody": (
        f"{FORKED}p1 close 1\np1 read 0 1\np0 close 1\n",
        "p1 is not woken; page of read: it waits until there are data, or no writer",
    ),
    "read-wakes-nobody": (
        f"{FORKED}p0 write 1 61*1024\np0 write 1 x61\np1 read 0 1024\np1 read 0 1\n",
        "p0 is not woken; page of write: it waits until there is room, or no reader",
    ),
    "last-reader-wakes-nobody": (
        f"{FORKED}p0 close 0\np0 write 1 61*1024\np0 write 1 x61\np1 close 0\n",
        "p0 is not woken; page of write: it waits until there is room, or no reader",
    ),
    "open-wakes-nobody": (
        "join\njoin\np0 mkfifo f\np0 open f r\np1 open f w\np1 close 0\n",
        "p0 is not woken; page of open: it waits until the other end is opened",
    ),
}


def sleep_is_told(program: str, folder: str, way: str, script: str, page: str) -> None:
    """A process that is never woken is a difference without a reason, at the act that should wake it."""
    same(0, compared(program, folder, "none", script).status)
    done = compared(program, folder, way, script)
    require(done.status == 1, done.said())
    lines = done.stdout.decode().splitlines()
    place = next(place for place, line in enumerate(lines) if line.startswith("system: "))
    require(lines[place].endswith(" resume = still"), f"{lines}")
    same(["reason: none", page], lines[place + 2 : place + 4])


# a reader that the closing of the last writer does not wake is seen in the looks at the end, too
ENDED = f"{FORKED}p1 close 1\np1 read 0 1\n"


# Scripts in which a call has to wait on, and what it answers too early.
WAKES = {
    "wakes-readers-early": (f"{FORKED}p0 read 0 1\n", "x"),
    "wakes-openers-early": ("join\np0 mkfifo f\np0 open f r\n", "0"),
    "wakes-writers-early": (f"{FORKED}p0 write 1 61*1024\np0 write 1 x6162\n", "2"),
}


def early_is_told(program: str, folder: str, way: str, script: str, answer: str) -> None:
    """A call that comes back too early is a difference without a reason."""
    same(0, compared(program, folder, "none", script).status)
    done = compared(program, folder, way, script)
    lines = done.stdout.decode().splitlines()
    place = next((place for place, line in enumerate(lines) if line.startswith("system: ")), len(lines))
    require(done.status == 1 and lines[place].endswith(f" p0 resume = {answer}"), done.said())
    require(lines[place + 1].endswith(" p0 resume = still") and lines[place + 2] == "reason: none", f"{lines}")


# Writes of which it is not seen how much went in, which can come back at last.
LARGE_SLEEPS = {
    "read-wakes-nobody": f"{FORKED}p0 write 1 61*1024\np0 write 1 62*600\np1 read 0 1024\n",
    "last-reader-wakes-nobody": f"{FORKED}p0 close 0\np0 write 1 61*1024\np0 write 1 62*600\np1 close 0\n",
}


def large_sleep_is_told(program: str, folder: str, way: str, script: str) -> None:
    """A large write that can come back, and waits on, is a difference without a reason."""
    same(0, compared(program, folder, "none", script).status)
    done = compared(program, folder, way, script)
    lines = done.stdout.decode().splitlines()
    place = next((place for place, line in enumerate(lines) if line.startswith("system: ")), len(lines))
    require(done.status == 1 and lines[place].endswith(" p0 resume = ?"), done.said())
    same(["reason: none", SLEEPS[way][1]], lines[place + 2 : place + 4])


# Two large writes that wait, and a read that leaves room for some of what they have left.
THREE = f"{FORKED}p0 fork\np2 attach\np0 write 1 61*1024\np0 write 1 62*600\np1 write 1 63*900\n"


def other_is_served(program: str, folder: str) -> None:
    """Whoever of two writes gets the room, nothing differs; where none gets any, that is told."""
    script = f"{THREE}p2 read 0 600\np2 read 0 65536\n"
    for way in ("none", "serves-the-last-first"):
        done = compared(program, folder, way, script)
        require(done.status == 0 and b" 0 differences\n" in done.stdout, done.said())
    done = compared(program, folder, "read-wakes-nobody", f"{THREE}p2 read 0 1024\n")
    require(done.status == 1 and b" p0 resume = ?\nfdref:  10 p0 resume = 600\n" in done.stdout, done.said())


# ---- right systems

# What a system does otherwise, with a script that shows it, the line of fdref, and the reason.
OTHERWISE = [
    (
        "no-part-without-a-reader",
        f"{FORKED}p0 close 0\np0 write 1 61*1500\np1 close 0\n",
        "p0 resume = 1024",
        "EPIPE of a write that has moved a part (own; page of write)",
    ),
    (
        "nonblock-ends-a-read",
        f"{FORKED}p0 read 0 1\np1 setfl 0 -,nonblock\n",
        "p0 resume = still",
        "nonblock set while a read waits (own; pages of fcntl and read)",
    ),
]


# What comes after a pipe whose ends are turned is compared, and what is wrong in it is told.
TURNED = f"{FORKED}p0 close 0\np1 close 1\np0 write 1 x6162\np1 read 0 1\np1 pipe\np1 write 2 x63\np1 read 1 9\n"
WRONG_AFTER = "sed 's/^\\([0-9]* p1 read 1 9\\) = x63$/\\1 = x64/'"


def turned_is_compared(program: str, folder: str) -> None:
    """Nothing is struck, and a wrong answer is found."""
    done = compared(program, folder, "turns-pipes", TURNED)
    require(done.status == 0 and b"struck" not in done.stdout and b"not compared" not in done.stdout, done.said())
    require(b"\n       2 which end of a pipe has the lower number" in done.stdout, done.said())
    done = compared(program, folder, "turns-pipes", TURNED, end=f" | {WRONG_AFTER}")
    wrong = b"system: 10 p1 read 1 9 = x64\nfdref:  10 p1 read 1 9 = x63"
    require(done.status == 1 and wrong in done.stdout, done.said())


# What is beside a pipe that goes both ways is compared, and what is wrong in it is told.
BOTH_WAYS = f"{FORKED}p0 write 0 x61\np1 read 1 9\np0 write 1 x6263\np1 read 0 9\n"
WRONG_BESIDE = "sed 's/^\\([0-9]* p1 read 0 9\\) = x6263$/\\1 = x61/'"


def both_ways_are_compared(program: str, folder: str) -> None:
    """What went the other way is struck, and the rest compared: the room of such a pipe is that of one way."""
    done = compared(program, folder, "has-pipes-both-ways", BOTH_WAYS)
    require(done.status == 0 and b"how much room" not in done.stdout, done.said())
    struck = b"\n       2 acts were struck and not compared: p0 write 0 x61; p1 read 1 9\n"
    require(struck in done.stdout and b" a pipe that goes both ways (own; page of pipe)\n" in done.stdout, done.said())
    done = compared(program, folder, "has-pipes-both-ways", BOTH_WAYS, end=f" | {WRONG_BESIDE}")
    require(done.status == 1 and b" p1 read 0 9 = x61\nfdref:  5 p1 read 0 9 = x6263\n" in done.stdout, done.said())


# ---- names that lead elsewhere

# Ways of a wrong system, a script that shows each, the last line of the system, and what fdref gives.
LED_ASTRAY = [
    ("mkfifo-makes-a-file", "join\np0 mkfifo f\n", "p0 fstat 0 = regular 0 1", "fifo 0 1"),
    ("unlink-leaves-the-name", "join\np0 mkfifo f\np0 unlink f\n", "p0 open f r,nonblock = 0", "error ENOENT"),
    ("rename-leaves-the-name", "join\np0 mkfifo f\np0 rename f g\n", "p0 open f r,nonblock = 0", "error ENOENT"),
]


def name_is_told(program: str, folder: str, way: str, script: str, line: str, wanted: str) -> None:
    """A name that leads elsewhere is a difference without a reason."""
    same(0, compared(program, folder, "none", script).status)
    done = compared(program, folder, way, script)
    lines = done.stdout.decode().splitlines()
    place = next((place for place, line in enumerate(lines) if line.startswith("system: ")), 0)
    require(done.status == 1 and lines[place].endswith(f" {line}"), done.said())
    require(lines[place + 1].endswith(f" = {wanted}") and lines[place + 2] == "reason: none", f"{lines}")


def reason_is_told(program: str, folder: str, way: str, script: str, line: str, reason: str) -> None:
    """What a right system does otherwise has a reason."""
    done = compared(program, folder, way, script)
    lines = done.stdout.decode().splitlines()
    place = next((place for place, line in enumerate(lines) if line.startswith("fdref: ")), 0)
    require(done.status == 0 and lines[place].endswith(f" {line}"), done.said())
    same(f"reason: {reason}", lines[place + 1])


# ---- what is left by calls that have a reason

FILED = "join\np0 open a rw,creat\np0 write 0 x616263646566\np0 lseek 0 1 set\n"
APPENDS = f"{FILED}p0 setfl 0 -,append\np0 pwrite 0 2 x7879\n"
LATER = f"{FILED}p0 open a w,append\np0 pwrite 1 2 x7879\np0 ftruncate 1 7\n"
LARGE = f"{FILED}p0 write 0 61*65537\n"
LARGE_APPENDED = f"{FILED}p0 open a w,append\np0 write 1 61*65600\np0 pwrite 1 3 62*65600\n"
READS = f"{FILED}p0 ftruncate 0 70000\np0 read 0 80000\np0 pread 0 1 80000\np0 write 0 x7a\n"
NO_WAIT = "join\np0 pipe\np0 setfl 1 -,nonblock\np0 write 1 61*65600\np0 write 1 61*65600\np0 read 0 70000\n"
FAR = f"{FILED}p0 lseek 0 2199023255552 set\np0 write 0 x7a\n"
LITTLE_ROOM = """join
p0 pipe
p0 setfl 1 -,nonblock
p0 write 1 61*508
p0 write 1 62*600
p0 write 1 63*600
p0 read 0 508
p0 read 0 9
"""
# A small write that waits at a pipe with more room than fdref's.
WAITS_AT_ROOM = f"{FORKED}p0 write 1 61*16300\np0 write 1 62*200\np1 read 0 65536\n"
LATE = "join\njoin\np0 mkfifo f\np1 open f r\np0 open f w,nonblock\np0 open f r,nonblock\np0 open f w,nonblock\n"
MANY_OPEN = f"{FILED}" + "".join(f"p0 dup2 0 {fd}\n" for fd in range(1, 20))
FEW = f"{MANY_OPEN}p0 open a r\np0 dup 0\np0 pipe\np0 dup2 0 25\np0 close 25\np0 close 3\np0 open a r\n"
LINKED = FILED + "".join(f"p0 link a {name}\n" for name in "bcdefgh")
LINKS = f"{LINKED}p0 link a i\np0 link b j\n"
UNLINKED = f"{LINKS}p0 rename i k\np0 unlink a\np0 unlink b\np0 link j l\np0 link c m\n"
STILL = "join\np0 open a rw,creat,append,nonblock\np0 getfl 0\np0 dup 0\np0 setfl 1 -,nonblock\np0 getfl 0\n"
BY_OPEN = "nonblock of a regular file in getfl (own; page of open)"
BY_LINKS = "more than 8 links (own; page of link)"
BY_OPEN_MAX = "fewer than 32 descriptors (own; XBD limits.h, _POSIX_OPEN_MAX)"
BY_FILES = "lseek past the greatest file of the file system is EINVAL (the system departs; page of lseek)"
BY_READER = "a FIFO whose reader waits in its open (own; page of open)"
LOOKS = "the script does not ask for this: compare.py looks at what it has left"
BY_APPEND = "pwrite under O_APPEND appends (the system departs; page of write (pwrite))"
BY_ROOM = "room of a pipe (own; page of write)"
BY_COUNT = "more than 65,536 bytes in a call (own; pages of read and write)"
# Right systems: what they do otherwise has this reason, and nothing is left out of the comparison.
ALL_COMPARED = [
    ("appends-pwrite", APPENDS, [BY_APPEND]),
    ("appends-pwrite", LATER, [BY_APPEND]),
    ("appends-pwrite", LARGE_APPENDED, [BY_APPEND, BY_COUNT]),
    ("takes-many-bytes", LARGE, [BY_COUNT]),
    ("takes-many-bytes", LARGE_APPENDED, [BY_COUNT]),
    ("takes-many-bytes", READS, [BY_COUNT]),
    ("takes-many-bytes", NO_WAIT, [BY_COUNT]),
    ("refuses-far-lseek", FAR, [BY_FILES]),
    ("opens-after-the-reader", LATE, [BY_READER]),
    ("opens-without-nonblock", STILL, [BY_OPEN]),
    ("has-20-descriptors", FEW, [BY_OPEN_MAX]),
    ("has-smaller-pipes", LITTLE_ROOM, [BY_ROOM]),
    ("has-larger-pipes", WAITS_AT_ROOM, [BY_ROOM]),
]
# Wrong ones: the same call leaves something else than the reason says.
LEFT = [
    ("appends-pwrite-and-moves", APPENDS, "p0 lseek 0 0 cur = 8", "1"),
    ("appends-pwrite-and-moves", LATER, "p0 lseek 1 0 cur = 8", "0"),
    ("appends-pwrite-twice", APPENDS, "p0 pread 0 2 2 = x7879", "x6364"),
    ("appends-pwrite-twice", LATER, "p0 pread 0 0 65536 = x61627879656678", "x61626364656678"),
    ("appends-other-bytes", APPENDS, "p0 pread 0 6 2 = x7978", "x7879"),
    ("appends-other-bytes", LATER, "p0 pread 0 0 65536 = x61626364656679", "x61626364656678"),
    ("many-bytes-but-one", LARGE, "p0 fstat 0 = regular 65537 1", "regular 65538 1"),
    ("many-bytes-and-another", LARGE, "p0 pread 0 65537 1 = x21", "x61"),
    ("refuses-far-lseek-and-moves", FAR, "p0 write 0 x7a = error EFBIG", "1"),
    ("opens-after-the-reader-and-before", LATE, "p1 resume = 0", "still"),
    ("has-20-descriptors-and-25", FEW, "p0 open a r = error EMFILE", "20"),
    ("spoils-parts", LITTLE_ROOM, "p0 read 0 9 = x00000000", "x62626262"),
    ("reads-many-in-place", READS, "p0 lseek 0 0 cur = 1", "70000"),
]


# Systems whose files have more links than fdref's, and what is told last of the scripts that make them.
MORE_LINKS = [
    ("has-many-links", LINKS),
    ("has-many-links", UNLINKED),
    ("has-10-links", f"{LINKS}p0 link a k\np0 unlink i\np0 link a l\np0 link a k\n"),
]
WRONG_LINKS = [
    ("links-another-name", LINKS, "p0 open i r = error ENOENT", "1"),
    ("counts-few-links", LINKS, "p0 fstat 0 = regular 6 8", "regular 6 10"),
    ("counts-few-links", f"{UNLINKED}p0 link d n\n", "p0 fstat 0 = regular 6 8", "regular 6 11"),
]


def links_are_compared(program: str, folder: str, way: str, script: str) -> None:
    """What more links than fdref's leave is compared with its model."""
    done = compared(program, folder, way, script)
    require(done.status == 0 and BY_LINKS.encode() in done.stdout, done.said())


def links_are_told(program: str, folder: str, way: str, script: str, line: str, wanted: str) -> None:
    """More links than fdref's that leave something else are told, beside what its model answers."""
    done = compared(program, folder, way, script)
    lines = done.stdout.decode().splitlines()
    place = next((place for place, text in enumerate(lines) if text.startswith("system: ")), 0)
    require(done.status == 1 and lines[place].endswith(f" {line}"), done.said())
    require(lines[place + 1].startswith("model: ") and lines[place + 1].endswith(f" = {wanted}"), f"{lines}")
    same("the model is fdref's, but for more links of a file than 8", lines[place + 2])
    same(["reason: none", LOOKS], lines[place + 3 : place + 5])


def all_is_compared(program: str, folder: str, way: str, script: str, reasons: Sequence[str]) -> None:
    """What a call with such a reason leaves is compared, and so is all that comes after it."""
    done = compared(program, folder, way, script)
    require(done.status == 0 and b"compared" not in done.stdout, done.said())
    counted = [line.lstrip(" 0123456789") for line in done.stdout.decode().splitlines() if line.endswith(")")]
    same(sorted(reasons), sorted(line for line in counted if not line.startswith("reason: ")))


def left_is_told(program: str, folder: str, way: str, script: str, line: str, wanted: str) -> None:
    """A call that leaves something else than its reason says is told as the difference that it makes."""
    done = compared(program, folder, way, script)
    lines = done.stdout.decode().splitlines()
    place = next((place for place, text in enumerate(lines) if text.startswith("system: ")), 0)
    require(done.status == 1 and lines[place].endswith(f" {line}"), done.said())
    require(lines[place + 1].endswith(f" = {wanted}") and lines[place + 2] == "reason: none", f"{lines}")
    act = line.partition(" = ")[0]
    # what came back the driver tells unasked
    is_look = act not in script.splitlines() and not act.endswith(" resume")
    same(is_look, LOOKS in lines)


def tear_is_told(program: str, folder: str) -> None:
    """A part of a small write is found in a pipe that has other room than fdref's by default."""
    done = compared(program, folder, "tears-small-writes", WAITS_AT_ROOM)
    lines = done.stdout.decode().splitlines()
    place = next((place for place, text in enumerate(lines) if text.startswith("system: ")), 0)
    require(done.status == 1 and lines[place].startswith("system: 6 p1 read 0 65536 = x6161"), done.said())
    same(["fdref:  6 p1 read 0 65536 = 61*16300", "reason: none"], lines[place + 1 : place + 3])


# ---- pipes that take less than they have room for

TAKE_LESS = {
    "takes-half": "join\np0 pipe\np0 setfl 1 -,nonblock\np0 write 1 61*1000\n",
    "waits-at-an-empty-pipe": "join\np0 pipe\np0 write 1 61*600\n",
}


def less_is_told(program: str, folder: str, way: str, script: str) -> None:
    """A pipe that was seen to have as much room as fdref's has no reason to take less."""
    done = compared(program, folder, way, script)
    reasons = [line for line in done.stdout.decode().splitlines() if line.startswith("reason: ")]
    same((1, ["reason: none"]), (done.status, reasons))


# Scripts in which a writer waits, or is refused, beside the bytes of another one, and the last line that is told.
BESIDE = [
    (f"{FORKED}p0 write 1 61*600\np1 write 1 62*100\n", "p1 write 1 62*100 = parked 0", "100"),
    (f"{FORKED}p0 write 1 61*600\np1 setfl 1 -,nonblock\np1 write 1 x62\n", "p1 write 1 x62 = error EAGAIN", "1"),
]


def beside_is_told(program: str, folder: str, script: str, line: str, wanted: str) -> None:
    """A pipe that was seen to have room for the bytes of a write has no reason to let it wait, or to refuse it."""
    same(0, compared(program, folder, "has-larger-pipes", script).status)
    done = compared(program, folder, "waits-beside-room", script)
    lines = done.stdout.decode().splitlines()
    place = next((place for place, text in enumerate(lines) if text.startswith("system: ")), 0)
    require(done.status == 1 and lines[place].endswith(f" {line}"), done.said())
    require(lines[place + 1].endswith(f" = {wanted}") and lines[place + 2] == "reason: none", f"{lines}")


# Systems that move less than there is room for, as a later write shows.
ONE_BYTE = "join\np0 pipe\np0 setfl 1 -,nonblock\np0 write 1 61*{}\n" + "p0 write 1 62*600\n" * 3
REFUSED = "join\np0 pipe\np0 setfl 1 -,nonblock\n{}p0 write 1 62*5000\n{}p0 write 1 63*5000\n"
TORN = "join\np0 pipe\np0 setfl 1 -,nonblock\np0 write 1 61*65300\np0 write 1 62*300\n"
# 40,000 bytes that take sixteen pages, and ten.
MANY_PAGES, FEW_PAGES = "p0 write 1 61*2500\n" * 16, "p0 write 1 61*40000\n"
LARGE_BESIDE = "join\np0 pipe\np0 setfl 1 -,nonblock\np0 write 1 61*{}\np0 write 1 62*65500\n"
PAGED = ["--pipe-capacity", "65536"]
LESS = [
    ("writes-one-byte", ONE_BYTE.format(100), [], "p0 write 1 62*600 = 1", ""),
    ("writes-one-byte", ONE_BYTE.format(512), [], "p0 write 1 62*600 = 1", "2 bytes"),
    ("has-pages-once", REFUSED.format(MANY_PAGES, ""), PAGED, "p0 write 1 62*5000 = error EAGAIN", "5000 bytes"),
    ("has-pages", REFUSED.format(FEW_PAGES, "p0 read 0 1\n"), PAGED, "p0 write 1 62*5000 = error EAGAIN", ""),
    ("has-pages", REFUSED.format(FEW_PAGES, "p0 read 0 1\n"), [], "p0 write 1 62*5000 = error EAGAIN", ""),
    ("tears-beside-pages", REFUSED.format(FEW_PAGES, "p0 read 0 1\n"), [], "p0 write 1 62*5000 = 4096", ""),
    ("tears-beside-pages", TORN, [], "p0 write 1 62*300 = 236", ""),
    ("refuses-beside-pages", LARGE_BESIDE.format(100), PAGED, "p0 write 1 62*65500 = error EAGAIN", ""),
]
NOT_LESS = [
    ("has-pages", REFUSED.format(MANY_PAGES, "p0 read 0 1\n"), PAGED),
    ("refuses-beside-pages", LARGE_BESIDE.format(61_441), PAGED),
]


def less_is_seen(
    program: str, folder: str, way: str, script: str, words: Sequence[str], line: str, more: str
) -> None:
    """A write that moves less than there is room for has no reason, and it is told how that is seen."""
    done = compared(program, folder, way, script, words)
    lines = done.stdout.decode().splitlines()
    place = next((place for place, text in enumerate(lines) if text.startswith("system: ")), 0)
    require(done.status == 1 and lines[place].endswith(f" {line}"), done.said())
    same("reason: none", lines[place + 2])
    told = f"it moves less than there is room for: later writes put in {more} before the next read"
    same(bool(more), told in lines)


def pages_are_a_reason(program: str, folder: str, way: str, script: str, words: Sequence[str]) -> None:
    """Where a read comes between, the pages may be why."""
    done = compared(program, folder, way, script, words)
    require(done.status == 0 and b"room of a pipe that is counted in pages" in done.stdout, done.said())


# Four writes that take a large page each, and a fifth.
LARGE_PAGES = "join\np0 pipe\np0 setfl 1 -,nonblock\n" + "p0 write 1 61*9000\n" * 5


def large_pages_are_measured(program: str, folder: str) -> None:
    """How large the pages of a system are is measured, and a write that finds none free is told with that reason."""
    done = compared(program, folder, "has-large-pages", LARGE_PAGES, PAGED)
    wanted = b" p0 write 1 61*9000 = error EAGAIN\nfdref:  7 p0 write 1 61*9000 = 9000\n"
    require(done.status == 0 and wanted in done.stdout, done.said())
    require(b"       1 room of a pipe that is counted in pages (own; page of write)\n" in done.stdout, done.said())
    driver = [sys.executable, str(STAND_INS / "wrong_driver.py"), "has-large-pages"]
    same(16_384, compare_lines.Asked([program], driver, ordering.ROOMY).page)


# ---- reads that wait at one pipe

READERS = f"{FORKED}p0 fork\np2 attach\np0 read 0 {{0}}\np1 read 0 {{0}}\np2 write 1 x61626364\n"
SHARES = "how reads of a pipe at once share its bytes"
# What two reads of two bytes give that come back after one act, and the reason.
SHARED_READS = [
    ("x6162", "x6364", None),
    ("x6364", "x6162", None),
    ("x6163", "x6264", SHARES),
    ("x6264", "x6163", SHARES),
    ("x6163", "x6265", "none"),
    ("x6162", "x6162", "none"),
    ("x6361", "x6264", "none"),
]


def shared_reads_are_told(program: str, folder: str, one: str, other: str, reason: str | None) -> None:
    """Reads that waited together may have taken the bytes by turns, but each byte once and in order."""
    end = f" | sed 's/ p0 resume = x6162$/ p0 resume = {one}/; s/ p1 resume = x6364$/ p1 resume = {other}/'"
    done = compared(program, folder, "none", READERS.format(2), end=end)
    told = [line for line in done.stdout.decode().splitlines() if line.startswith("reason: ")]
    wanted = {None: [], "none": ["reason: none"], SHARES: [f"reason: {SHARES} (own; page of read)"]}[reason]
    same((int(reason == "none"), wanted), (done.status, told))


def halves_are_told(program: str, folder: str) -> None:
    """A read may leave some bytes to another one that waits; what comes after that is not compared."""
    done = compared(program, folder, "shares-reads", READERS.format(9))
    require(done.status == 0 and f"       1 {SHARES} (own; page of read)\n".encode() in done.stdout, done.said())
    require(b" time the rest was not compared, after: p0 resume\n" in done.stdout, done.said())


# A large write into an empty pipe of two pages, what is read then, and what a wrong system gives for that.
TWO_PAGES = f"{FORKED}p1 write 1 61*20000\np0 read 0 30000\n"
READS_OTHER = "sed 's/^\\([0-9]* p0 read 0 30000\\) = 61\\*8192$/\\1 = 62*8192/'"


def filled_pages_fit(program: str, folder: str) -> None:
    """An empty pipe with pages takes as many bytes as one without, though that is not seen; one that gives others is
    told."""
    words = ["--pipe-capacity", "8192"]
    done = compared(program, folder, "has-two-pages", TWO_PAGES, words)
    require(done.status == 0 and b" 0 differences\n" in done.stdout, done.said())
    done = compared(program, folder, "has-two-pages", TWO_PAGES, words, end=f" | {READS_OTHER}")
    wrong = b" p0 read 0 30000 = 62*8192\nfdref:  5 p0 read 0 30000 = 61*8192\nreason: none\n"
    require(done.status == 1 and wrong in done.stdout, done.said())


# A large write to a pipe of a system whose FIFOs have more room.
SMALL_PIPE = "join\np0 pipe\np0 setfl 1 -,nonblock\np0 write 1 61*8000\np0 read 0 65536\n"
WRITES_LESS = "sed 's/^\\([0-9]* p0 write 1 61\\*8000\\) = 4096$/\\1 = 511/'"
TWO_ROOMS = b"how much room there is is not compared: a FIFO has room for 65,536 bytes, a pipe for 4,096\n"


def rooms_are_told(program: str, folder: str) -> None:
    """Where pipes have other room than FIFOs that is told, and is a reason; what no room explains is none."""
    for words in ([], ["--pipe-capacity", "4096"], ["--pipe-capacity", "65536"]):
        done = compared(program, folder, "has-smaller-pipes-than-fifos", SMALL_PIPE, words)
        require(done.status == 0 and done.stdout.startswith(TWO_ROOMS), done.said())
        done = compared(program, folder, "has-smaller-pipes-than-fifos", SMALL_PIPE, words, end=f" | {WRITES_LESS}")
        require(done.status == 1 and b" p0 write 1 61*8000 = 511\n" in done.stdout, done.said())
    done = compared(program, folder, "has-smaller-pipes", SMALL_PIPE)
    require(done.status == 0 and b"how much room" not in done.stdout, done.said())


# ---- a larger PIPE_BUF

# What a system with pipes of 4,096 bytes and such a PIPE_BUF does otherwise, and is right in.
AT_ONCE = {
    f"{FORKED}p0 write 1 61*4000\np0 write 1 62*600\np1 read 0 65536\np1 read 0 65536\n": "write 1 62*600",
    f"{FORKED}p0 write 1 61*4096\np0 write 1 62*600\np1 read 0 100\n": "resume",
    "join\np0 pipe\np0 setfl 1 -,nonblock\np0 write 1 61*4000\np0 write 1 62*600\n": "write 1 62*600",
}


def is_by_pipe_buf(program: str, folder: str, way: str, script: str, act: str) -> None:
    """A write that goes in at once or not at all is told with its reason."""
    done = compared(program, folder, way, script, ["--pipe-capacity", "4096"])
    lines = done.stdout.decode().splitlines()
    reasons = [line for line in lines if line.startswith("reason: ")]
    same((0, ["reason: PIPE_BUF is more than 512 bytes (own; pages of limits.h and write)"]), (done.status, reasons))
    require(any(line.startswith("system: ") and f" p0 {act} = " in line for line in lines), f"{lines}")


# ---- what is no run of the script

ACTS = "join\np0 open Z9 rw,creat\np0 write 0 x6162\np0 pread 0 0 9\np0 unlink Z9\np0 close 0\n"
PIPED = f"{FORKED}p0 write 1 61*1024\np0 write 1 x61\np1 read 0 1024\np0 close 0\n"
CLOSED = "join\np0 fork\nclose-run\n"
# Ways in which what a driver prints is not the run of a script, and what is told of it.
NO_RUNS = {
    "runs-nothing": (ACTS, "ask_kernel did not run `join`, nor 5 acts after it"),
    "runs-six-lines": (PIPED, "ask_kernel did not run `p1 read 0 1024`, nor 1 act after it"),
    "runs-no-unlink": (ACTS, "ask_kernel did not run `p0 unlink Z9`: line 5 has `p0 close 0`"),
    "runs-more": (ACTS, "ask_kernel: line 7 is no act of the script: `p0 close 0`"),
    "prints-nothing": (ACTS, "ask_kernel does not print `records R in I out O` in the end; its last line is ''"),
    "prints-no-totals": (ACTS, "ask_kernel does not print `records R in I out O` in the end; its last line is '# rec"),
    "prints-a-line-more": (ACTS, "line 7 has the totals, and 1 line after it"),
    "prints-a-check-mark": (ACTS, "ask_kernel: line 1 is no line of a run: '\\xe2\\x9c\\x93 up'"),
    "prints-a-panic": (ACTS, "its last line is 'panic: page fault'"),
    "prints-another-word": (
        ACTS,
        "ask_kernel: line 4 has no act: `p0 pread64 0 0 9`, where the script has `p0 pread 0 0 9`",
    ),
    "prints-another-name": (
        ACTS,
        "line 2 spells an act otherwise than docs/FORMATS.md: `p0 open Z%39 rw,creat`, not `p0 open Z9 rw,creat`",
    ),
    "sees-nothing": (ACTS, "ask_kernel: line 1 gives `?` for `p0 join`; expected the number of a process, an error"),
    "sees-no-read": (ACTS, "line 4 gives `?` for `p0 pread 0 0 9`; expected data, as x6869 or 61*512, an error"),
    "sees-no-small-write": (PIPED, "line 6 gives `parked ?` for `p0 write 1 x61`; expected parked 0, since it has no"),
    "sees-no-totals": (ACTS, "ask_kernel does not print `records R in I out O` in the end"),
    "sees-no-bytes-in": (ACTS, "does not tell the bytes that went in, and no write of more than 512 bytes waits"),
    "sees-no-return": (PIPED, "gives `?` for `p0 resume`; expected how many bytes, part N with N bytes moved so far"),
    "says-no-part": (f"{THREE}p2 read 0 100\n", "expected how many bytes, part N with N bytes moved so far, ?, or"),
    "says-no-number": (LARGE_SLEEPS["read-wakes-nobody"], "expected parked N, with N bytes moved, or parked ?"),
    "asks-no-pipe": (PIPED, "line 2 gives `not asked` for `p0 pipe`; expected two descriptors"),
    "says-waiting": (PIPED, "gives `parked 0` for `p0 close 0`; expected ok, an error"),
    "says-a-number": (ACTS, "gives `0` for `p0 close 0`; expected ok, an error, as error EBADF"),
    "says-it-at-length": (ACTS, "gives `x6162 (ab)` for `p0 pread 0 0 9`; expected data"),
    "says-it-otherwise": (ACTS, "gives `61*1` for `p0 pread 0 0 9`; expected data"),
    "says-back-twice": (PIPED, "gives `1` for `p0 resume`; expected it at place 8"),
    "says-no-place": (ACTS, "gives `ok` for `p0 unlink Z9`; expected still, refused with a name, or a place"),
    "loses-a-record": (PIPED, "gives `ok` for `p0 close 0`; expected it at place 7"),
    "loses-its-place": (ACTS, "; expected it at place 4"),
}
# Some of them, and one that only fdref's run tells, as the tool tells them.
NOT_COMPARED = [
    ("runs-no-unlink", ACTS, "did not run `p0 unlink Z9`"),
    ("prints-a-check-mark", ACTS, "line 1 is no line of a run"),
    ("sees-nothing", ACTS, "gives `?` for `p0 join`"),
    ("prints-no-closing", CLOSED, "line 3 has `house close-run`, where closing the run gives `p1 exit`"),
]


# An attach of a process that waits is refused, and it waits on.
ATTACHED_WAITING = """join
p0 pipe
p0 fork
p1 attach
p1 read 0 9
p1 attach
p0 write 1 x61
p1 resume
"""


def is_taken(script: str) -> None:
    """What a driver prints is taken for the run of the script."""
    text = script.encode()
    compare_runs.run_of(text.splitlines(), wrong_driver.printed("none", text))


def is_no_run(way: str, script: str, told: str) -> None:
    """What a driver prints that is not the run of the script is not taken, and it is told why."""
    lines, text = script.encode().splitlines(), script.encode()
    compare_runs.run_of(lines, wrong_driver.printed("none", text))
    try:
        compare_runs.run_of(lines, wrong_driver.printed(way, text))
    except CannotRun as fault:
        require(told in str(fault), str(fault))
    else:
        raise Failure("it is taken for the run")


def is_not_compared(program: str, folder: str, way: str, script: str, told: str) -> None:
    """It is not compared, and the tool tells why."""
    done = compared(program, folder, way, script)
    require(done.status == 3 and told in (done.stdout + done.stderr).decode(), done.said())
    require(b"Traceback" not in done.stderr, done.said())


def silence_is_told(program: str) -> None:
    """A driver that fails without a word is told so, in a line that does not end at a colon."""
    words = [sys.executable, str(TOOLS / "compare.py"), "--program", program, "--ask", "false", "--random", "1"]
    done = run(words, seconds=SECONDS)
    same((3, b"compare.py: false ends with status 1\n"), (done.status, done.stderr))


def hanging_is_told(program: str) -> None:
    """A driver that does not answer is told by its name after five seconds, and ended after as many as are given."""
    words = ["--program", program, "--ask", "sleep 100", "--seconds", "7", "--random", "1"]
    done = run([sys.executable, str(TOOLS / "compare.py"), *words], seconds=SECONDS)
    said = done.stderr.decode().splitlines()
    waits = "compare.py: waits for sleep 100, which is given a script, for 7 seconds at most"
    require(done.status == 3 and waits in said, done.said())
    same("compare.py: sleep 100: still running after 7.0 seconds", said[-1])


def driver_is_named(program: str, folder: str) -> None:
    """What is told of a driver names the command that was given."""
    driver, script = Path(folder, "my-kernel"), Path(folder, "named.script")
    driver.write_text(f'#!/bin/sh\nexec {sys.executable} {STAND_INS / "wrong_driver.py"} "$1"\n')
    driver.chmod(stat.S_IRWXU)
    faults = [
        ("runs-no-unlink", ACTS, "did not run `p0 unlink Z9`"),
        ("prints-no-closing", CLOSED, "line 3 has `house close-run`"),
    ]
    for way, text, told in faults:
        script.write_text(text)
        words = ["--program", program, "--ask", f"{driver} {way}", str(script)]
        done = run([sys.executable, str(TOOLS / "compare.py"), *words], seconds=SECONDS)
        line = done.stdout.decode().splitlines()[0]
        require(done.status == 3 and f": {driver} {way}" in line and told in line, done.said())


def is_run(program: str, folder: str, script: str) -> None:
    """What the driver prints that is not wrong is compared."""
    same(0, compared(program, folder, "none", script).status)


def cases(program: str, folder: str) -> Iterator[Case]:
    """All of them."""
    for way, (script, page) in SLEEPS.items():
        yield way, partial(sleep_is_told, program, folder, way, script, page)
    way = "last-writer-wakes-nobody"
    yield f"{way}, in the end", partial(sleep_is_told, program, folder, way, ENDED, SLEEPS[way][1])
    for way, (script, answer) in WAKES.items():
        yield way, partial(early_is_told, program, folder, way, script, answer)
    for way, script in LARGE_SLEEPS.items():
        yield f"{way}, of a large write", partial(large_sleep_is_told, program, folder, way, script)
    yield "two large writes", partial(other_is_served, program, folder)
    for way, script, line, reason in OTHERWISE:
        yield way, partial(reason_is_told, program, folder, way, script, line, reason)
    yield "turned pipes", partial(turned_is_compared, program, folder)
    yield "pipes that go both ways", partial(both_ways_are_compared, program, folder)
    for row in LED_ASTRAY:
        yield row[0], partial(name_is_told, program, folder, *row)
    for way, script, reasons in ALL_COMPARED:
        yield f"{way}, {script!r}", partial(all_is_compared, program, folder, way, script, reasons)
    for left in LEFT:
        yield f"{left[0]}, {left[1]!r}", partial(left_is_told, program, folder, *left)
    yield "tears-small-writes", partial(tear_is_told, program, folder)
    for way, script in MORE_LINKS:
        yield f"{way}, {script!r}", partial(links_are_compared, program, folder, way, script)
    for links in WRONG_LINKS:
        yield f"{links[0]}, {links[1]!r}", partial(links_are_told, program, folder, *links)
    for way, script in TAKE_LESS.items():
        yield way, partial(less_is_told, program, folder, way, script)
    for less in LESS:
        yield f"{less[0]} {less[1]!r}", partial(less_is_seen, program, folder, *less)
    yield "has-smaller-pipes-than-fifos", partial(rooms_are_told, program, folder)
    yield "has-two-pages", partial(filled_pages_fit, program, folder)
    yield "has-large-pages", partial(large_pages_are_measured, program, folder)
    for one, other, reason in SHARED_READS:
        yield f"reads of {one} and {other}", partial(shared_reads_are_told, program, folder, one, other, reason)
    yield "shares-reads", partial(halves_are_told, program, folder)
    for paged in NOT_LESS:
        yield f"{paged[0]} {paged[1]!r}, by pages", partial(pages_are_a_reason, program, folder, *paged)
    for beside in BESIDE:
        yield f"waits-beside-room {beside[0]!r}", partial(beside_is_told, program, folder, *beside)
    for way in ("larger-pipe-buf", "larger-pipe-buf-unseen"):
        for script, act in AT_ONCE.items():
            yield f"{way} {script!r}", partial(is_by_pipe_buf, program, folder, way, script, act)
    for way, (script, text) in NO_RUNS.items():
        yield way, partial(is_no_run, way, script, text)
    yield "an attach of a process that waits", partial(is_taken, ATTACHED_WAITING)
    yield "a driver that says nothing", partial(silence_is_told, program)
    yield "a driver that hangs", partial(hanging_is_told, program)
    yield "a driver that is named", partial(driver_is_named, program, folder)
    yield "no wrong way", partial(is_run, program, folder, CLOSED)
    for way, script, text in NOT_COMPARED:
        yield f"{way}, as it is told", partial(is_not_compared, program, folder, way, script, text)
