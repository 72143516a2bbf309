"""Histories by hand, each with what is known of it: that an order explains it, or which call makes it impossible."""

from collections.abc import Iterator, Sequence
from functools import partial
from typing import NamedTuple

from parts.all_orders import has_order
from support import plain_model
from support.counting import Case, require, same
from support.footprints import Footprints
from support.histories import Noted, history_text, read_histories
from support.ordering import Explained, Unexplained, explain
from support.replaying import verified
from support.shortening import influencing, is_silent, up_to, without, without_answers

# What comes first: one call after another, before all that a history is about.
FORKED = "p0 fork = 1; p1 attach = ok"
TWO = f"p0 join = 0; p0 open a rw,creat = 0; {FORKED}"
TWO_APPENDING = f"p0 join = 0; p0 open a rw,creat,append = 0; {FORKED}"
SIX_BYTES = f"p0 join = 0; p0 open a rw,creat = 0; p0 write 0 x616263646566 = 6; p0 lseek 0 0 set = 0; {FORKED}"
PIPE = f"p0 join = 0; p0 pipe = 0 1; {FORKED}"
THREE_AT_A_PIPE = f"{PIPE}; p0 fork = 2; p2 attach = ok"
FIFO = f"p0 join = 0; p0 mkfifo f = ok; {FORKED}"
# Here `a` is empty, and `b` has a byte.
TWO_NAMES = f"p0 join = 0; p0 open a rw,creat = 0; p0 open b rw,creat = 1; p0 write 1 x61 = 1; {FORKED}"
# The first calls end before this.
BEGIN = 1_000

ATOMIC = "XSH 2.9.7: calls on regular files are atomic to each other; page of "
REPLACED = "page of rename: a name that is replaced is never missing"
NUMBERED = "docs/PROFILE.md: processes are numbered 0, 1, 2 .. in the order of joins and forks (own)"
SMALL = "page of write: at most PIPE_BUF bytes are not interleaved; page of read"
IN_PART = "page of write: that a part of at most PIPE_BUF bytes is seen is open (own), and does not explain all"
IN_PART += "; page of read"


class Told(NamedTuple):
    """A history: its name, what comes first, its calls with their times, and the call that makes it impossible with the
    page of the standard; or None where an order explains it."""

    name: str
    first: str
    calls: str
    impossible: tuple[str, str] | None = None

    def history(self) -> list[Noted]:
        """The history."""
        first = [f"{10 * at} {10 * at + 5} {line}" for at, line in enumerate(self.first.split("; "))]
        calls = [line for line in self.calls.split("; ") if line]
        return read_histories("\n".join([*first, *map(later, calls)]))[0]


def later(line: str) -> str:
    """A line with its times after all that comes first."""
    start, end, rest = line.split(" ", 2)
    return f"{BEGIN + int(start)} {end if end == '-' else BEGIN + int(end)} {rest}"


EXPLAINED = [
    # where one call must wait for another one that ends later
    Told("a read that ends with a late close", PIPE, "1 2 p0 close 1 = ok; 3 6 p0 read 0 9 = x; 5 9 p1 close 1 = ok"),
    Told("a read that ends with a late exit", PIPE, "1 2 p0 close 1 = ok; 3 6 p0 read 0 9 = x; 5 9 p1 exit = ok"),
    Told("a pread after a late O_TRUNC", SIX_BYTES, "1 5 p0 pread 0 0 9 = x; 2 9 p1 open a rw,trunc = 1"),
    Told("an lseek after a late write", TWO, "1 5 p0 lseek 0 0 cur = 1; 2 9 p1 write 0 x61 = 1"),
    Told("an fstat after a late write", TWO, "1 5 p0 fstat 0 = regular 1 1; 2 9 p1 write 0 x61 = 1"),
    Told("an fstat after a late link", TWO, "1 5 p0 fstat 0 = regular 0 2; 2 9 p1 link a b = ok"),
    Told(
        "a pread by another name",
        f"{TWO}; p0 link a b = ok; p0 open b rw = 1",
        "1 9 p0 write 1 x61 = 1; 2 5 p1 pread 0 0 9 = x61",
    ),
    # where bytes that were read are lost or changed
    Told(
        "a file that grows anew",
        TWO_APPENDING,
        "1 2 p0 write 0 x61 = 1; 3 4 p1 pread 0 0 9 = x61; 5 6 p1 ftruncate 0 0 = ok; "
        "7 8 p0 write 0 x62 = 1; 9 10 p1 pread 0 0 9 = x62",
    ),
    Told(
        "a name of two files",
        TWO,
        "1 2 p0 open b rw,creat,append = 1; 3 4 p0 write 1 x61 = 1; 5 6 p0 pread 1 0 9 = x61; "
        "7 8 p1 unlink b = ok; 9 10 p1 open b rw,creat,append = 1; 11 12 p1 write 1 x62 = 1; "
        "13 14 p1 pread 1 0 9 = x62",
    ),
    Told(
        "bytes that a FIFO loses",
        FIFO,
        "1 2 p0 open f r,nonblock = 0; 3 4 p1 open f w = 0; 5 6 p1 write 0 x61 = 1; 7 8 p0 close 0 = ok; "
        "7 8 p1 close 0 = ok; 9 10 p0 open f r,nonblock = 0; 11 12 p1 open f w = 0; "
        "13 14 p1 write 0 x62 = 1; 15 16 p0 read 0 9 = x62",
    ),
    Told(
        "a name of two files, one of which is renamed",
        TWO,
        "1 2 p0 open b rw,creat,append = 1; 3 4 p0 write 1 x61 = 1; 5 6 p0 pread 1 0 9 = x61; "
        "7 8 p1 rename b c = ok; 9 10 p1 open b rw,creat,append = 1; 11 12 p1 write 1 x62 = 1; "
        "13 14 p1 pread 1 0 9 = x62",
    ),
    Told(
        "a file that is renamed over a FIFO",
        FIFO,
        "1 2 p0 open h w,creat = 0; 3 4 p0 write 0 x61 = 1; 5 6 p0 lseek 0 0 set = 0; 7 8 p0 write 0 x62 = 1; "
        "9 10 p1 rename h f = ok; 11 12 p1 open f r = 0; 13 14 p1 read 0 9 = x62",
    ),
    Told(
        "a file that does not only grow any more",
        TWO_APPENDING,
        "1 2 p0 write 0 x6162 = 2; 3 4 p1 pread 0 0 9 = x6162; 5 6 p1 setfl 0 - = ok; 7 8 p1 lseek 0 0 set = 0; "
        "9 10 p0 write 0 x63 = 1; 11 12 p1 pread 0 0 9 = x6362",
    ),
    Told("nothing at once", TWO, ""),
    Told(
        "two appends, one way",
        TWO_APPENDING,
        "1 9 p0 write 0 x61 = 1; 2 8 p1 write 0 x62 = 1; 10 11 p1 pread 0 0 9 = x6162",
    ),
    Told(
        "two appends, the other way",
        TWO_APPENDING,
        "1 9 p0 write 0 x61 = 1; 2 8 p1 write 0 x62 = 1; 10 11 p1 pread 0 0 9 = x6261",
    ),
    Told("a pread in the middle of a write sees nothing", TWO, "1 9 p0 write 0 x6162 = 2; 2 3 p1 pread 0 0 9 = x"),
    Told("a pread in the middle of a write sees all", TWO, "1 9 p0 write 0 x6162 = 2; 2 3 p1 pread 0 0 9 = x6162"),
    Told("times that touch do not order", TWO, "1 5 p0 pread 0 0 9 = x61; 5 6 p1 write 0 x61 = 1"),
    Told("an offset that moves", SIX_BYTES, "1 9 p0 read 0 2 = x6364; 1 9 p1 read 0 2 = x6162"),
    Told("lseek before read", SIX_BYTES, "1 9 p0 read 0 2 = x6566; 1 9 p1 lseek 0 4 set = 4"),
    Told("lseek after read", SIX_BYTES, "1 9 p0 read 0 2 = x6162; 1 9 p1 lseek 0 4 set = 4"),
    Told("ftruncate before read", SIX_BYTES, "1 9 p0 read 0 9 = x6162; 2 8 p1 ftruncate 0 2 = ok"),
    Told("a read that waited", PIPE, "1 9 p0 read 0 9 = x6162; 5 6 p1 write 1 x6162 = 2"),
    Told("a read that did not have to wait", PIPE, "1 9 p1 write 1 x6162 = 2; 5 6 p0 read 0 9 = x6162"),
    Told(
        "a read that ends with the last writer",
        PIPE,
        "1 2 p0 close 1 = ok; 3 9 p0 read 0 9 = x; 5 6 p1 close 1 = ok",
    ),
    Told("an exit closes", PIPE, "1 2 p0 close 1 = ok; 3 9 p0 read 0 9 = x; 5 6 p1 exit = ok"),
    Told("a read that waits for ever", PIPE, "1 - p0 read 0 9 = parked ?; 2 - p1 read 0 9 = parked ?"),
    Told("a child that holds an end", PIPE, "1 2 p0 close 1 = ok; 3 - p0 read 0 9 = parked ?"),
    Told("another one was faster", PIPE, "1 - p0 read 0 9 = parked ?; 2 3 p1 write 1 x61 = 1; 4 5 p1 read 0 9 = x61"),
    Told("a call of which nothing is known", PIPE, "1 - p0 read 0 9 = ?; 2 3 p1 write 1 x61 = 1; 4 - p1 fstat 0 = ?"),
    Told("any answer fits", SIX_BYTES, "1 2 p0 read 0 2 = ?; 3 4 p1 read 0 2 = x6364"),
    Told("a large write that moved a part", PIPE, "1 - p0 write 1 61*1500 = parked ?; 2 9 p1 read 0 100 = 61*100"),
    Told(
        "a large write in parts",
        PIPE,
        "1 9 p0 write 1 61*1500 = 1500; 2 4 p1 read 0 1024 = 61*1024; 5 8 p1 read 0 1024 = 61*476",
    ),
    Told(
        "large writes that interleave",
        THREE_AT_A_PIPE,
        "1 9 p0 write 1 61*1100 = 1100; 1 9 p1 write 1 62*600 = 600; 2 3 p2 read 0 1024 = 61*1024; "
        "4 8 p2 read 0 524 = 62*524; 10 11 p2 read 0 999 = " + plain_model.data_text(b"b" * 76 + b"a" * 76),
    ),
    Told(
        "a small write that waits for room",
        PIPE,
        "0 1 p0 write 1 61*600 = 600; 2 9 p0 write 1 62*500 = 500; 3 8 p1 read 0 600 = 61*600",
    ),
    Told("a FIFO whose openings meet", FIFO, "1 9 p0 open f r = 0; 2 8 p1 open f w = 0"),
    Told("a FIFO that nobody reads", FIFO, "1 9 p0 open f w,nonblock = error ENXIO; 2 8 p1 open f r,nonblock = 0"),
    Told("a FIFO that somebody reads", FIFO, "1 9 p0 open f w,nonblock = 0; 2 8 p1 open f r,nonblock = 0"),
    Told("an opening that waits for ever", FIFO, "1 - p0 open f r = parked ?; 2 3 p1 fstat 0 = error EBADF"),
    Told(
        "dup2 closes the last reader after a write",
        PIPE,
        "0 1 p0 close 0 = ok; 0 1 p1 open a rw,creat = 2; 2 9 p0 write 1 x61 = 1; 3 8 p1 dup2 2 0 = 0",
    ),
    Told(
        "dup2 closes the last reader before a write",
        PIPE,
        "0 1 p0 close 0 = ok; 0 1 p1 open a rw,creat = 2; 2 9 p0 write 1 x61 = error EPIPE; "
        "3 8 p1 dup2 2 0 = 0",
    ),
    Told("unlink after open", TWO, "1 9 p0 unlink a = ok; 2 8 p1 open a rw = 1; 10 11 p1 fstat 1 = regular 0 0"),
    Told("unlink before open", TWO, "1 9 p0 unlink a = ok; 2 8 p1 open a rw = error ENOENT"),
    Told(
        "one of two opens makes the file",
        TWO,
        "1 9 p0 open b rw,creat,excl = error EEXIST; 1 9 p1 open b rw,creat,excl = 1",
    ),
    Told(
        "an open of a name before it is replaced",
        TWO_NAMES,
        "1 9 p0 rename b a = ok; 2 8 p1 open a r = 2; 10 11 p1 fstat 2 = regular 0 0",
    ),
    Told(
        "an open of a name after it is replaced",
        TWO_NAMES,
        "1 9 p0 rename b a = ok; 2 8 p1 open a r = 2; 10 11 p1 fstat 2 = regular 1 1",
    ),
    Told("an fstat after a late rename", TWO_NAMES, "1 5 p0 fstat 0 = regular 0 0; 2 9 p1 rename b a = ok"),
    Told("one of two renames finds the name", TWO, "1 9 p0 rename a b = ok; 1 9 p1 rename a c = error ENOENT"),
    Told(
        "a rename of two names of one file",
        f"{TWO}; p0 link a b = ok",
        "1 9 p0 rename a b = ok; 2 8 p1 open a r = 1; 10 11 p1 fstat 0 = regular 0 2",
    ),
    Told("flags after a late setfl", TWO, "1 5 p0 getfl 0 = 99; 2 9 p1 setfl 0 r,append,nonblock = ok"),
    Told(
        "a write before setfl",
        SIX_BYTES,
        "1 9 p0 write 0 x41 = 1; 2 8 p1 setfl 0 -,append = ok; 10 11 p1 lseek 0 0 cur = 1",
    ),
    Told(
        "a write after setfl",
        SIX_BYTES,
        "1 9 p0 write 0 x41 = 1; 2 8 p1 setfl 0 -,append = ok; 10 11 p1 lseek 0 0 cur = 7",
    ),
    Told("a read after setfl", PIPE, "1 9 p0 read 0 9 = error EAGAIN; 2 8 p1 setfl 0 -,nonblock = ok"),
    Told("a read that waits from before setfl", PIPE, "1 - p0 read 0 9 = parked ?; 2 3 p1 setfl 0 -,nonblock = ok"),
    Told("two joins at once", "p0 join = 0", "1 8 p2 join = 2; 1 9 p1 join = 1"),
    Told("a child is faster than its fork", "p0 join = 0", "1 9 p0 fork = 1; 2 3 p1 attach = ok; 4 5 p1 mkfifo f = ok"),
]

IMPOSSIBLE = [
    Told(
        "two appends against time, beside a third",
        f"{TWO_APPENDING}; p0 fork = 2; p2 attach = ok",
        "1 3 p0 write 0 x61 = 1; 4 8 p1 write 0 x62 = 1; 0 10 p2 write 0 x63 = 1; "
        "11 12 p2 pread 0 0 9 = x626163",
        ("p2 pread 0 0 9", ATOMIC + "pread"),
    ),
    Told(
        "two appends against time",
        TWO_APPENDING,
        "1 3 p0 write 0 x61 = 1; 4 8 p1 write 0 x62 = 1; 10 11 p1 pread 0 0 9 = x6261",
        ("p1 pread 0 0 9", "page of pread"),
    ),
    Told(
        "an append at a stale end",
        TWO_APPENDING,
        "1 9 p0 write 0 x61 = 1; 2 8 p1 write 0 x62 = 1; 10 11 p1 pread 0 0 9 = x62",
        ("p1 pread 0 0 9", ATOMIC + "pread"),
    ),
    Told(
        "a torn write",
        TWO,
        "1 9 p0 write 0 x6162 = 2; 2 3 p1 pread 0 0 9 = x61",
        ("p1 pread 0 0 9", ATOMIC + "pread"),
    ),
    Told(
        "a torn pwrite",
        SIX_BYTES,
        "1 9 p0 pwrite 0 0 x414243 = 3; 2 3 p1 pread 0 0 3 = x416263; 12 13 p0 fstat 0 = regular 6 1",
        ("p1 pread 0 0 3", ATOMIC + "pread"),
    ),
    Told(
        "a stale offset",
        SIX_BYTES,
        "1 9 p0 read 0 2 = x6162; 2 8 p1 read 0 2 = x6162",
        ("p0 read 0 2", ATOMIC + "read"),
    ),
    Told(
        "an lseek that is lost",
        SIX_BYTES,
        "1 9 p0 read 0 2 = x6162; 2 8 p1 lseek 0 4 set = 4; 10 11 p1 lseek 0 0 cur = 3",
        ("p1 lseek 0 0 cur", ATOMIC + "lseek"),
    ),
    Told(
        "a read before the write",
        PIPE,
        "1 3 p0 read 0 9 = x61; 4 5 p1 write 1 x61 = 1",
        ("p0 read 0 9", "page of read: a pipe or FIFO"),
    ),
    Told(
        "what was written is not there",
        TWO,
        "1 3 p0 write 0 x61 = 1; 4 5 p1 pread 0 0 9 = x",
        ("p1 pread 0 0 9", "page of pread"),
    ),
    Told(
        "a wake-up that is lost",
        PIPE,
        "1 - p0 read 0 9 = parked ?; 2 3 p1 write 1 x61 = 1",
        ("p0 read 0 9", "page of read: it waits until there are data, or no writer"),
    ),
    Told(
        "an end that is not told",
        PIPE,
        "0 1 p0 close 1 = ok; 2 - p0 read 0 9 = parked ?; 3 4 p1 close 1 = ok",
        ("p0 read 0 9", "page of read: it waits until there are data, or no writer"),
    ),
    Told(
        "a write that waits though there is room",
        PIPE,
        "1 - p0 write 1 61*500 = parked ?; 2 3 p1 fstat 0 = pipe 0 0",
        ("p0 write 1 61*500", "page of write: it waits until there is room, or no reader"),
    ),
    Told(
        "an opening that is not noticed",
        FIFO,
        "1 - p0 open f r = parked ?; 2 3 p1 open f w,nonblock = 0",
        ("p0 open f r", "page of open: it waits until the other end is opened"),
    ),
    Told(
        "an opening that is not noticed before the close",
        FIFO,
        "1 - p0 open f r = parked ?; 2 3 p1 open f w,nonblock = 0; 4 5 p1 close 0 = ok",
        ("p0 open f r", "page of open: it waits until the other end is opened"),
    ),
    Told(
        "small writes that interleave",
        THREE_AT_A_PIPE,
        "1 9 p0 write 1 61*300 = 300; 1 9 p1 write 1 62*300 = 300; "
        "10 11 p2 read 0 1024 = " + plain_model.data_text(b"a" * 200 + b"b" * 300 + b"a" * 100),
        ("p2 read 0 1024", SMALL),
    ),
    Told(
        "small writes that interleave, of which one is longer than the other",
        THREE_AT_A_PIPE,
        "1 9 p0 write 1 61*512 = 512; 1 9 p1 write 1 x62 = 1; 10 11 p2 read 0 1024 = "
        + plain_model.data_text(b"a" * 200 + b"b" + b"a" * 312),
        ("p2 read 0 1024", SMALL),
    ),
    Told(
        "a small write that is seen in part",
        PIPE,
        "1 9 p0 write 1 61*300 = 300; 2 3 p1 read 0 1024 = 61*100; 10 11 p1 read 0 1024 = 61*200",
        ("p1 read 0 1024", IN_PART),
    ),
    Told(
        "one of two small writes that is seen in part",
        THREE_AT_A_PIPE,
        "1 9 p0 write 1 61*300 = 300; 10 19 p0 write 1 62*300 = 300; 2 3 p2 read 0 1024 = ?; "
        "12 13 p2 read 0 1024 = 62*200; 20 21 p1 read 0 1024 = 62*100",
        ("p2 read 0 1024", IN_PART),
    ),
    Told(
        "small writes of equal bytes, of which one is seen in part",
        THREE_AT_A_PIPE,
        "1 9 p0 write 1 61*300 = 300; 1 9 p1 write 1 61*300 = 300; 2 3 p2 read 0 1024 = 61*100; "
        "10 11 p2 read 0 1024 = 61*500",
        ("p2 read 0 1024", IN_PART),
    ),
    Told(
        "a small write that a large one is between",
        THREE_AT_A_PIPE,
        "1 9 p0 write 1 61*300 = 300; 1 9 p1 write 1 62*600 = 600; 10 11 p2 read 0 1024 = "
        + plain_model.data_text(b"a" * 200 + b"b" * 600 + b"a" * 100),
        ("p2 read 0 1024", SMALL),
    ),
    Told(
        "a byte that nobody wrote",
        THREE_AT_A_PIPE,
        "1 9 p0 write 1 61*300 = 300; 1 9 p1 write 1 62*300 = 300; "
        "10 11 p2 read 0 1024 = " + plain_model.data_text(b"a" * 300 + b"b" * 299 + b"c"),
        ("p2 read 0 1024", "page of read: a pipe or FIFO"),
    ),
    Told(
        "a count of a small write",
        THREE_AT_A_PIPE,
        "1 9 p0 write 1 61*300 = 299; 1 9 p1 write 1 62*300 = 300; 10 11 p2 read 0 1024 = ?",
        ("p0 write 1 61*300", "page of write: a pipe or FIFO"),
    ),
    Told(
        "EPIPE while a reader is there",
        THREE_AT_A_PIPE,
        "1 9 p0 write 1 x61 = error EPIPE; 2 8 p1 write 1 x62 = 1; 10 11 p2 read 0 9 = x62",
        ("p0 write 1 x61", "page of write: a pipe or FIFO"),
    ),
    Told(
        "flags that nobody has set",
        TWO,
        "1 9 p1 getfl 0 = 35; 2 8 p0 fstat 0 = regular 0 1",
        ("p1 getfl 0", "page of fcntl"),
    ),
    Told(
        "a read of a file that waits",
        TWO,
        "1 - p0 read 0 9 = parked ?; 2 8 p1 fstat 0 = regular 0 1",
        ("p0 read 0 9", "page of read: on a regular file no call waits"),
    ),
    Told(
        "an open of a file that waits",
        TWO,
        "1 - p0 open a r = parked ?; 2 8 p1 fstat 0 = regular 0 1",
        ("p0 open a r", "page of open: on a regular file no call waits"),
    ),
    Told(
        "a FIFO that opens by itself",
        FIFO,
        "1 3 p0 open f r = 0; 4 8 p1 open f w = 0",
        ("p0 open f r", "page of open: a FIFO"),
    ),
    Told(
        "a write after the last reader",
        PIPE,
        "0 1 p0 close 0 = ok; 0 1 p1 open a rw,creat = 2; 3 4 p1 dup2 2 0 = 0; 5 6 p0 write 1 x61 = 1",
        ("p0 write 1 x61", "page of write: a pipe or FIFO"),
    ),
    Told(
        "an open after the unlink",
        TWO,
        "1 3 p0 unlink a = ok; 4 8 p1 open a rw = 1",
        ("p1 open a rw", "page of open"),
    ),
    Told(
        "both opens make the file",
        TWO,
        "1 9 p0 open b rw,creat,excl = 1; 2 8 p1 open b rw,creat,excl = 1",
        ("p0 open b rw,creat,excl", ATOMIC + "open"),
    ),
    Told(
        "a name that is missing while it is replaced",
        TWO_NAMES,
        "1 9 p0 rename b a = ok; 2 8 p1 open a r = error ENOENT",
        ("p1 open a r", REPLACED),
    ),
    Told(
        "a link of a name that is missing while it is replaced",
        TWO_NAMES,
        "1 9 p0 rename b a = ok; 2 8 p1 link a c = error ENOENT",
        ("p1 link a c", REPLACED),
    ),
    Told(
        "a name that is missing",
        TWO_NAMES,
        "1 3 p0 rename b a = ok; 4 8 p1 open a r = error ENOENT",
        ("p1 open a r", "page of open"),
    ),
    Told(
        "an old name after the rename",
        TWO_NAMES,
        "1 3 p0 rename b a = ok; 4 8 p1 open b r = 2",
        ("p1 open b r", "page of open"),
    ),
    Told(
        "an old file after the rename",
        TWO_NAMES,
        "1 3 p0 rename b a = ok; 4 5 p1 open a r = 2; 6 7 p1 fstat 2 = regular 0 0",
        ("p1 fstat 2", "page of fstat"),
    ),
    Told(
        "both renames find the name",
        TWO,
        "1 9 p0 rename a b = ok; 1 8 p1 rename a c = ok",
        ("p0 rename a b", ATOMIC + "rename"),
    ),
    Told(
        "flags of one descriptor alone",
        TWO,
        "1 3 p0 setfl 0 -,append = ok; 4 5 p1 getfl 0 = 3",
        ("p1 getfl 0", "page of fcntl"),
    ),
    Told(
        "half of the flags",
        TWO,
        "1 9 p0 setfl 0 -,append,nonblock = ok; 2 8 p1 getfl 0 = 35",
        ("p1 getfl 0", ATOMIC + "fcntl"),
    ),
    Told(
        "flags of one end alone",
        PIPE,
        "1 3 p0 setfl 0 -,nonblock = ok; 4 5 p1 getfl 0 = 1",
        ("p1 getfl 0", "page of fcntl: a pipe or FIFO"),
    ),
    Told(
        "a write at the offset after setfl",
        SIX_BYTES,
        "1 3 p0 setfl 0 -,append = ok; 4 5 p1 write 0 x41 = 1; 6 7 p0 lseek 0 0 cur = 1",
        ("p0 lseek 0 0 cur", "page of lseek"),
    ),
    Told(
        "a read that waits after setfl",
        PIPE,
        "1 3 p0 setfl 0 -,nonblock = ok; 4 - p1 read 0 9 = parked ?",
        ("p1 read 0 9", "page of read: it waits until there are data, or no writer"),
    ),
    Told(
        "a read that does not wait after setfl",
        PIPE,
        "1 2 p0 setfl 0 -,nonblock = ok; 3 4 p0 setfl 0 - = ok; 5 6 p1 read 0 9 = error EAGAIN",
        ("p1 read 0 9", "page of read: a pipe or FIFO"),
    ),
    Told(
        "an error that the profile does not know",
        TWO,
        "1 9 p0 pread 0 0 9 = error EINTR",
        ("p0 pread 0 0 9", "page of pread"),
    ),
    Told(
        "a number that was given already",
        "p0 join = 0",
        "1 9 p0 fork = 1; 2 3 p1 attach = ok; 12 13 p0 fork = 1",
        ("p0 fork", NUMBERED),
    ),
]


# ---- checks


def is_explained(told: Told, program: str) -> None:
    """An order explains it, and so does the program."""
    history = told.history()
    result = explain(history)
    require(isinstance(result, Explained), "no order was found")
    assert isinstance(result, Explained)
    verified(program, history, result.steps)
    require(has_order(history), "to go through all orders finds none")


def leaves_orders(told: Told) -> None:
    """All that may be left out of it leaves an order to the rest."""
    history = told.history()
    touches = Footprints(history).touches
    silent = {noted for noted, touch in zip(history, touches, strict=True) if is_silent(touch)}
    parts = [up_to(history, noted.end) for noted in history if noted.end is not None]
    parts += [[history[at] for at in sorted(influencing(touches, place))] for place in range(len(history))]
    parts += [without(history, {noted}) for noted in silent] + [without(history, silent)]
    parts += [without_answers(history, {noted}) for noted in history] + [without_answers(history, set(history))]
    for part in parts:
        require(isinstance(explain(part), Explained), f"there is no order of\n{history_text(part)}")


def is_impossible(told: Told) -> None:
    """No order explains it, nor the part that is told, which has the call that is to blame."""
    history = told.history()
    result = explain(history)
    require(isinstance(result, Unexplained), "an order was found, or it was given up")
    assert isinstance(result, Unexplained) and told.impossible
    act, page = told.impossible
    same((act, page), (plain_model.act_text(result.blamed[0].act), result.page))
    for part in (history, result.shrunk):
        require(not has_order(part), f"an order explains\n{history_text(part)}")


def cases(program: str) -> Iterator[Case]:
    """All of them."""
    for told in EXPLAINED:
        yield told.name, partial(is_explained, told, program)
        yield f"{told.name}, in part", partial(leaves_orders, told)
    for told in IMPOSSIBLE:
        yield told.name, partial(is_impossible, told)


# ---- short parts

# Histories, and the short part that is told of each, without what comes first.
SHORT: Sequence[tuple[Told, str]] = [
    (
        Told(
            "what comes later",
            TWO,
            "1 9 p0 write 0 x6162 = 2; 2 3 p1 pread 0 0 9 = x61; 4 5 p1 lseek 0 0 set = 0; "
            "20 30 p0 read 0 9 = x61",
        ),
        "1 - p0 write 0 x6162 = ?; 2 3 p1 pread 0 0 9 = x61",
    ),
    (
        Told(
            "what looks on",
            SIX_BYTES,
            "1 9 p0 read 0 2 = x6162; 2 3 p1 fstat 0 = regular 6 1; 4 8 p1 read 0 2 = x6162; "
            "10 11 p1 lseek 0 0 cur = 2",
        ),
        "1 9 p0 read 0 2 = x6162; 4 8 p1 read 0 2 = x6162",
    ),
    (
        Told(
            "what is apart",
            f"{PIPE}; p0 fork = 2; p2 attach = ok",
            "1 9 p0 write 1 x61 = 1; 1 9 p2 mkfifo f = ok; 2 8 p1 read 0 9 = x62; 20 21 p2 unlink f = ok",
        ),
        "1 - p0 write 1 x61 = ?; 2 8 p1 read 0 9 = x62",
    ),
]


def is_short(told: Told, wanted: str) -> None:
    """The part that is told is this one."""
    result = explain(told.history())
    assert isinstance(result, Unexplained)
    calls = [noted for noted in result.shrunk if noted.start >= BEGIN]
    shifted = [noted._replace(start=noted.start - BEGIN, end=noted.end and noted.end - BEGIN) for noted in calls]
    same(wanted.split("; "), [noted.text() for noted in shifted])


def short_cases() -> Iterator[Case]:
    """All short parts."""
    return ((told.name, partial(is_short, told, wanted)) for told, wanted in SHORT)
