"""What tools/order.py prints for histories, and its exit status."""

import contextlib
import io
import os
import shlex
import stat
import sys
import tempfile
from collections.abc import Iterator
from functools import partial
from pathlib import Path

from support import commands
from support.counting import Case, require, same
from support.places import EXAMPLES, TOOLS
from support.running import CannotRun, Ran, run

# A history that has an order, what is printed of it, and the same one at other times.
GOOD = """10 20 p0 join = 0
30 40 p0 pipe = 0 1
50 60 p0 fork = 1
55 70 p1 attach = ok
80 99 p0 read 0 4 = x61
90 95 p1 write 1 x61 = 1
"""
GOOD_LINES = """an order explains it
0 p0 join = 0
1 p0 pipe = 0 1
2 p0 fork = 1
3 p1 attach = ok
4 p1 write 1 x61 = 1
5 p0 read 0 4 = x61
"""
LATER = GOOD.replace("80 99", "1080 1099").replace("90 95", "1081 1082")
# The same calls with other times: here the write comes first.
EARLY = GOOD.replace("90 95", "72 75")
EARLY_LINES = GOOD_LINES
# One that has none, and what is printed of it.
BAD = GOOD.replace("= x61", "= x62")
BAD_LINES = """no order explains it, nor this part of it:
  10 20 p0 join = 0
  30 40 p0 pipe = 0 1
  50 60 p0 fork = 1
  55 70 p1 attach = ok
  80 99 p0 read 0 4 = x62
  90 95 p1 write 1 x61 = ?
which this call makes impossible, with those that overlap it:
  80 99 p0 read 0 4 = x62
  90 95 p1 write 1 x61 = ?
page of read: a pipe or FIFO
"""
# One with flags that are set and a name that is replaced.
RENAMED = """10 20 p0 join = 0
30 40 p1 join = 1
50 60 p0 open a rw,creat = 0
70 75 p0 open b rw,creat = 1
80 85 p0 write 1 x61 = 1
90 120 p0 rename b a = ok
95 100 p1 open a r,nonblock = 0
105 110 p1 setfl 0 -,append = ok
115 130 p1 fstat 0 = regular 0 1
140 150 p1 getfl 0 = 33
"""
RENAMED_LINES = """an order explains it
0 p0 join = 0
1 p1 join = 1
2 p0 open a rw,creat = 0
3 p0 open b rw,creat = 1
4 p0 write 1 x61 = 1
5 p1 open a r,nonblock = 0
6 p1 setfl 0 -,append = ok
7 p1 fstat 0 = regular 0 1
8 p0 rename b a = ok
9 p1 getfl 0 = 33
"""
WAITING = GOOD.replace("80 99 p0 read 0 4 = x61\n90 95 p1 write 1 x61 = 1", "80 - p0 read 0 9 = parked ?")


# One that only a larger pipe explains, and what is printed of it.
ROOMY = """10 20 p0 join = 0
30 40 p0 pipe = 0 1
50 60 p0 write 1 61*600 = 600
70 80 p0 write 1 61*600 = 600
"""
ROOMY_LINES = """an order explains it where a pipe has room for 65,536 bytes
  p0 join = 0
  p0 pipe = 0 1
  p0 write 1 61*600 = 600
  p0 write 1 61*600 = 600
reason: room of a pipe (own; page of write)
"""


# Reads at once that give the same byte, of which each may be the wrong one, with what is told; and others of which one
# is wrong whatever the other is.
SAME_BYTE = """0 1 p0 join = 0
2 3 p0 pipe = 0 1
4 5 p0 fork = 1
6 7 p1 attach = ok
12 13 p0 write 1 x616263 = 3
20 30 p0 read 0 1 = x62
22 32 p1 read 0 1 = x62
40 41 p0 read 0 9 = x63
"""
SAME_BYTE_LINES = """no order explains it, nor this part of it:
  0 1 p0 join = 0
  2 3 p0 pipe = 0 1
  4 5 p0 fork = 1
  6 7 p1 attach = ok
  12 13 p0 write 1 x616263 = ?
  20 30 p0 read 0 1 = x62
  22 32 p1 read 0 1 = x62
which this call makes impossible, with those that overlap it:
  22 32 p1 read 0 1 = x62
  20 30 p0 read 0 1 = x62
or one of these does, as an order explains all others up to there without its answer, too:
  20 30 p0 read 0 1 = x62
page of read: a pipe or FIFO
"""
ONE_WRONG = SAME_BYTE.replace("32 p1 read 0 1 = x62", "32 p1 read 0 1 = x64")
JOINED = "0 1 p0 join = 0\n"
FILED = f"{JOINED}2 3 p0 open a rw,creat = 0\n"
PIPED = f"{JOINED}2 3 p0 pipe = 0 1\n"
ENDS = f"{JOINED}2 3 p1 join = 1\n4 5 p0 mkfifo f = ok\n6 7 p0 open f r,nonblock = 0\n8 9 p1 open f w = 0\n"
NONBLOCK = f"{PIPED}4 5 p0 setfl 1 -,nonblock = ok\n6 7 p0 write 1 61*65000 = 65000\n"
HINT = "; --pipe-capacity tells how many bytes a pipe of the system holds"
COUNT = "more than 65,536 bytes in a call (own; pages of read and write)"
FLAGS = "flags that the standard leaves undefined (own; page of open)"
REFUSALS = "order of refusals, where several are due (own; XSH 2.3)"
STAT = "size and links of a pipe in fstat (own; page of fstat)"
# Histories of one call after another: what is before, a call that fdref answers otherwise by its own choice, what fdref
# answers, and the reason.
CHOICES = [
    (FILED, "4 5 p0 read 0 70000 = x", "error EINVAL", COUNT),
    (ENDS, "50 - p1 write 0 61*65537 = parked ?", "error EINVAL", COUNT),
    (FILED, "4 5 p0 open a r,trunc = 1", "error EINVAL", FLAGS),
    (PIPED, "4 5 p0 fstat 0 = pipe 0 1", "pipe 0 0", STAT),
    (ENDS, "50 60 p0 open f rw = 1", "error EINVAL", "a FIFO opened for both (own; page of open)"),
    (PIPED, "4 5 p0 pread 1 0 1 = error ESPIPE", "error EBADF", REFUSALS),
    (
        f"{PIPED}4 5 p0 close 0 = ok\n",
        "6 7 p0 write 1 x = error EPIPE",
        "0",
        "a write of no bytes to a pipe (own; page of write)",
    ),
    (
        NONBLOCK,
        "8 9 p0 write 1 62*1000 = error EAGAIN",
        "536, where a pipe has room for 65,536 bytes",
        f"room of a pipe that is counted in pages (own; page of write){HINT}",
    ),
]
BOTH_WAYS = "a pipe that goes both ways (own; page of pipe)"
LEFT_OUT = "nonblock of a regular file in getfl (own; page of open)"
STILL = f"{JOINED}2 3 p0 open a rw,creat,nonblock = 0\n"
CHOICES += [
    (PIPED, "4 5 p0 write 0 x61 = 1", "error EBADF", BOTH_WAYS),
    (PIPED, "4 5 p0 getfl 1 = 3", "2", BOTH_WAYS),
    (STILL, "4 5 p0 getfl 0 = 3", "67", LEFT_OUT),
]
CLOSED = f"{PIPED}4 5 p0 close 0 = ok\n"
CHOICES += [
    (PIPED, "6 7 p0 write 1 61*65537 = 65537", "error EINVAL", COUNT),
    (CLOSED, "6 7 p0 write 1 61*65537 = error EPIPE", "error EINVAL", COUNT),
    (f"{JOINED}2 3 p0 mkfifo f = ok\n", "4 - p0 open f r,trunc = parked ?", "error EINVAL", FLAGS),
]
LENGTH = "ftruncate past the size limit is EINVAL, not EFBIG (own; page of ftruncate)"
CHOICES += [
    (FILED, f"4 5 p0 ftruncate 0 {2**40 + 1} = error EINVAL", "error EFBIG", LENGTH),
    (FILED, f"4 5 p0 ftruncate 7 {2**40 + 1} = error EINVAL", "error EBADF", REFUSALS),
]
UNWRITABLE = "ftruncate without writing is EBADF, not EINVAL (own; page of ftruncate)"
CHOICES += [
    (f"{JOINED}2 3 p0 open a r,creat = 0\n", "4 5 p0 ftruncate 0 9 = error EBADF", "error EINVAL", UNWRITABLE),
    (f"{JOINED}2 3 p0 open a r,creat = 0\n", "4 5 p0 ftruncate 0 -1 = error EBADF", "error EINVAL", REFUSALS),
]
# What differs of one call after another without being such a choice, what fdref answers, and what is told of it.
APPENDED = f"{JOINED}2 3 p0 open a rw,creat,append = 0\n4 5 p0 pwrite 0 0 x61 = 1\n6 7 p0 pwrite 0 0 x62 = 1\n"
LARGE_APPENDED = APPENDED.replace("x62 = 1", "62*65537 = 65537")
APPEND = "pwrite under O_APPEND appends (the system departs; page of write (pwrite))"
NUMBERED = "docs/PROFILE.md: processes are numbered 0, 1, 2 .. in the order of joins and forks (own)"
UNCHOSEN = [
    (f"{FILED}4 5 p0 write 0 x61 = 1\n", "6 7 p0 pread 0 0 9 = x62", "x61", "page of pread"),
    (APPENDED, "8 9 p0 pread 0 0 9 = x6162", "x62", f"reason: {APPEND}"),
    (APPENDED, "8 9 p0 fstat 0 = regular 2 1", "regular 1 1", f"reason: {APPEND}"),
    (LARGE_APPENDED, "8 9 p0 pread 0 0 1 = x61", "x62", f"reason: {APPEND}"),
    (APPENDED, "8 9 p0 pread 0 0 9 = x6163", "x62", "page of pread"),
    (APPENDED, "8 9 p0 fstat 0 = regular 3 1", "regular 1 1", "page of fstat"),
    (f"{APPENDED}7 7 p0 pwrite 0 0 x63 = 1\n", "8 9 p0 fstat 0 = regular 2 1", "regular 1 1", "page of fstat"),
    (APPENDED, "8 9 p0 fstat 0 = regular 2 2", "regular 1 1", "page of fstat"),
    (APPENDED, "8 9 p0 pwrite 0 0 x63 = error EBADF", "1", "page of pwrite"),
    (APPENDED, "8 9 p0 pwrite 0 0 x6363 = 1", "2", "page of pwrite"),
    (APPENDED, "8 9 p0 pwrite 0 -1 x63 = 1", "error EINVAL", "page of pwrite"),
    (FILED, f"4 5 p0 ftruncate 0 {2**31 - 1} = error EINVAL", "ok", "page of ftruncate"),
    (FILED, f"4 5 p0 ftruncate 0 {2**40 + 1} = error EBADF", "error EFBIG", "page of ftruncate"),
    (JOINED, "2 3 p0 close 7 = error EINVAL", "error EBADF", "page of close"),
    (JOINED, "2 3 p0 fork = 2", "1", NUMBERED),
    # a reason of an earlier call excuses none of a later one
    (f"{PIPED}4 5 p0 fstat 0 = pipe 0 1\n", "6 7 p0 getfl 0 = 2", "1", "page of fcntl: a pipe or FIFO"),
    (
        ROOMY,
        "90 95 p0 read 0 9 = x",
        "x616161616161616161, where a pipe has room for 65,536 bytes",
        "page of read: a pipe or FIFO",
    ),
]
# Writes to a pipe that no room explains: a part of a small one, one that is EAGAIN without nonblock, one that came back
# too early, one that waits under nonblock, more than was asked for, and a large one into an empty pipe.
WRITE = "page of write: a pipe or FIFO"
HELD = f"{PIPED}4 5 p0 write 1 61*1000 = 1000\n"
HELD_NONBLOCK = f"{PIPED}4 5 p0 setfl 1 -,nonblock = ok\n6 7 p0 write 1 61*1000 = 1000\n"
HELD_100 = HELD_NONBLOCK.replace("61*1000 = 1000", "61*100 = 100")
ONE_LEFT = f"{NONBLOCK}8 9 p0 write 1 61*535 = 535\n"
NONE_LEFT = f"{ONE_LEFT}10 11 p0 write 1 x61 = 1\n"
FULL = "error EAGAIN, where a pipe has room for 65,536 bytes"
UNROOMY = [
    (ONE_LEFT, "20 21 p0 write 1 x6262 = 1", FULL),
    (NONE_LEFT, "20 21 p0 write 1 x62 = 0", FULL),
    (f"{NONE_LEFT}12 13 p0 read 0 300 = 61*300\n", "20 21 p0 write 1 61*512 = 300", FULL),
    (HELD_NONBLOCK, "20 21 p0 write 1 61*100 = 50", "error EAGAIN"),
    (HELD_NONBLOCK, "20 21 p0 write 1 61*512 = 24", "error EAGAIN"),
    (HELD_NONBLOCK, "20 21 p0 write 1 61*600 = 601", "24"),
    (HELD_NONBLOCK, "20 21 p0 write 1 61*600 = 0", "24"),
    (HELD, "20 21 p0 write 1 61*100 = error EAGAIN", "parked 0"),
    (HELD, "20 21 p0 write 1 61*600 = error EAGAIN", "parked 24"),
    (HELD, "20 21 p0 write 1 61*600 = 24", "parked 24"),
    (f"{PIPED}4 5 p0 setfl 1 -,nonblock = ok\n", "20 21 p0 write 1 61*2000 = 511", "1024"),
    # what was seen to have room for as many bytes
    (f"{HELD_NONBLOCK}8 9 p0 read 0 450 = 61*450\n", "20 21 p0 write 1 61*100 = error EAGAIN", "100"),
    (f"{HELD_NONBLOCK}8 9 p0 read 0 700 = 61*700\n", "20 21 p0 write 1 61*600 = 1", "600"),
    # a pipe that would hold less than PIPE_BUF bytes
    (HELD_100, "20 21 p0 write 1 61*600 = 411", "600"),
]
# Writes to a pipe with less room than in fdref, which is asked with more.
LESS_ROOM = [
    (HELD_NONBLOCK, "20 21 p0 write 1 61*20 = error EAGAIN", "20"),
    (HELD_NONBLOCK, "20 21 p0 write 1 61*600 = 1", "600"),
    (HELD_100, "20 21 p0 write 1 61*600 = 412", "600"),
    (f"{PIPED}4 5 p0 setfl 1 -,nonblock = ok\n", "20 21 p0 write 1 61*2000 = 512", "2000"),
    (HELD, "20 - p0 write 1 61*20 = parked ?", "20"),
]
# Limits of a system that the standard leaves open.
TWENTY = FILED + "".join(f"{fd + 4} {fd + 4} p0 dup2 0 {fd} = {fd}\n" for fd in range(1, 20))
ALL = FILED + "".join(f"{fd + 4} {fd + 4} p0 dup2 0 {fd} = {fd}\n" for fd in range(1, 32))
FAR = f"{FILED}4 5 p0 lseek 0 {2**40} set = {2**40}\n"
MORE = "more than 32 descriptors (own; XBD limits.h, OPEN_MAX)"
FEWER = "fewer than 32 descriptors (own; XBD limits.h, _POSIX_OPEN_MAX)"
LARGER = "more than 1,099,511,627,776 bytes in a file (own; page of write)"
SMALLER = "fewer than 1,099,511,627,776 bytes in a file (own; XBD limits.h, FILESIZEBITS)"
NO_SPACE = "no space in the file system (own; pages of open, mkfifo, link, rename and write)"
MANY = "too many files open in the system (own; pages of open and pipe)"
CHILD = "no room for a child (own; page of fork)"
LONG = "names of at most 64 bytes that are too long (own; XBD limits.h, _POSIX_NAME_MAX)"
LIMITS = [
    (FILED, "40 41 p0 dup2 0 40 = 40", "error EBADF", MORE),
    (ALL, "40 41 p0 open a r = 32", "error EMFILE", MORE),
    (ALL, "40 41 p0 open b rw,creat = 32", "error EMFILE", MORE),
    (ALL, "40 41 p0 pipe = 32 33", "error EMFILE", MORE),
    (TWENTY, "40 41 p0 open a r = error EMFILE", "20", FEWER),
    (TWENTY.rpartition("23 23")[0], "40 41 p0 pipe = error EMFILE", "19 20", FEWER),
    (FILED, "40 41 p0 dup2 0 20 = error EBADF", "20", FEWER),
    (FAR, "40 41 p0 write 0 x61 = 1", "error EFBIG", LARGER),
    (FILED, f"40 41 p0 pwrite 0 {2**40 - 1} x6161 = 2", "1", LARGER),
    (FILED, f"40 41 p0 ftruncate 0 {2**40 + 1} = ok", "error EFBIG", LARGER),
    (FILED, f"40 41 p0 pwrite 0 {2**32} x61 = error EFBIG", "1", SMALLER),
    (FILED, f"40 41 p0 pwrite 0 {2**32 - 2} x616161 = 2", "3", SMALLER),
    (FILED, f"40 41 p0 ftruncate 0 {2**31} = error EINVAL", "ok", SMALLER),
    (FILED, "40 41 p0 open b rw,creat = error ENOSPC", "1", NO_SPACE),
    (FILED, "40 41 p0 mkfifo b = error ENOSPC", "ok", NO_SPACE),
    (FILED, "40 41 p0 rename a b = error ENOSPC", "ok", NO_SPACE),
    (FILED, "40 41 p0 write 0 x61 = error ENOSPC", "1", NO_SPACE),
    (FILED, "40 41 p0 open a r = error ENFILE", "1", MANY),
    (FILED, "40 41 p0 fork = error EAGAIN", "1", CHILD),
    (FILED, "40 41 p0 unlink abcdefghijklmno = error ENAMETOOLONG", "error ENOENT", LONG),
]
# The nearest answers that it does not.
NO_LIMITS = [
    (FILED, "40 41 p0 dup2 0 19 = error EBADF", "19"),
    (FILED, "40 41 p0 dup2 0 40 = 41", "error EBADF"),
    (FILED, "40 41 p0 dup2 1 40 = 40", "error EBADF"),
    (ALL, "40 41 p0 open a r = 33", "error EMFILE"),
    (ALL, "40 41 p0 pipe = 33 34", "error EMFILE"),
    (TWENTY.rpartition("23 23")[0], "40 41 p0 open a r = error EMFILE", "19"),
    (FAR, "40 41 p0 write 0 x6161 = 1", "error EFBIG"),
    (FILED, f"40 41 p0 ftruncate 0 {2**31 - 1} = error EFBIG", "ok"),
    (FILED, f"40 41 p0 pwrite 0 {2**31 - 2} x61 = error EFBIG", "1"),
    (FILED, "40 41 p0 pwrite 0 0 x6161 = 1", "2"),
    (FILED, "40 41 p0 open a rw,creat = error ENOSPC", "1"),
    (FILED, "40 41 p0 ftruncate 0 9 = error ENOSPC", "ok"),
    (PIPED, "40 41 p0 write 1 x61 = error ENOSPC", "1"),
    (FILED, "40 41 p0 dup2 0 1 = error ENFILE", "1"),
    (FILED, "40 41 p0 mkfifo b = error EAGAIN", "ok"),
    (FILED, "40 41 p0 unlink abcdefghijklmn = error ENAMETOOLONG", "error ENOENT"),
]
# Calls that a limit refuses, after which all is compared: what comes before, the call, what fdref answers, the reason,
# what comes after, and what fdref answers to the last of these where it is wrong instead.
GOES_ON = [
    (FILED, "40 41 p0 write 0 x61 = error ENOSPC", "1", NO_SPACE, "42 43 p0 pread 0 0 9 = x", "x61", "x"),
    (FILED, "40 41 p0 open b rw,creat = error ENOSPC", "1", NO_SPACE, "42 43 p0 open a r = 1", "2", "1"),
    (FILED, "40 41 p0 mkfifo b = error ENOSPC", "ok", NO_SPACE, "42 43 p0 mkfifo b = ok", "error EEXIST", "ok"),
    (FILED, "40 41 p0 fork = error EAGAIN", "1", CHILD, "42 43 p0 fork = 1", "2", "1"),
    (FILED, "40 41 p0 open a r = error ENFILE", "1", MANY, "42 43 p0 open a r = 1", "2", "1"),
    (TWENTY, "40 41 p0 open a r = error EMFILE", "20", FEWER, "42 43 p0 getfl 0 = 3", "1", "3"),
    (
        FILED,
        f"40 41 p0 pwrite 0 {2**32 - 2} x616161 = 2",
        "3",
        SMALLER,
        f"42 43 p0 fstat 0 = regular {2**32} 1",
        f"regular {2**32 - 1} 1",
        f"regular {2**32} 1",
    ),
]
# Limits that the same history contradicts: what comes before, the call, what fdref answers, and what comes after.
FAR_SIZE = f"regular {2**33} 1"
CONTRADICTED = [
    (TWENTY, "40 41 p0 open a r = error EMFILE", "20", "42 43 p0 open a r = 20"),
    (TWENTY, "40 41 p0 open a r = error EMFILE", "20", "42 43 p0 dup2 0 25 = 25"),
    (f"{TWENTY}35 36 p0 dup2 0 25 = 25\n", "40 41 p0 open a r = error EMFILE", "20", ""),
    (FILED, "40 41 p0 dup2 0 20 = error EBADF", "20", "42 43 p0 dup2 0 21 = 21"),
    (ALL, "40 41 p0 open a r = 32", "error EMFILE", "42 43 p0 close 32 = ok\n44 45 p0 open a r = error EMFILE"),
    (FILED, "40 41 p0 dup2 0 40 = 40", "error EBADF", "42 43 p0 dup2 0 39 = error EBADF"),
    (FILED, f"40 41 p0 pwrite 0 {2**32} x61 = error EFBIG", "1", f"42 43 p0 pwrite 0 {2**32} x61 = 1"),
    (FILED, f"40 41 p0 pwrite 0 {2**32} x61 = error EFBIG", "1", f"42 43 p0 ftruncate 0 {2**33} = ok"),
    (FILED, f"40 41 p0 pwrite 0 {2**32 - 2} x616161 = 2", "3", f"42 43 p0 fstat 0 = {FAR_SIZE}"),
    (FILED, f"40 41 p0 ftruncate 0 {2**32} = error EFBIG", "ok", f"42 43 p0 pwrite 0 {2**32 - 1} x61 = 1"),
    (
        FILED,
        "40 41 p0 unlink abcdefghijklmno = error ENAMETOOLONG",
        "error ENOENT",
        "42 43 p0 mkfifo abcdefghijklmno = ok",
    ),
]
# Writes for which there is said to be no room, which a later one contradicts that comes before a read.
AGAIN = "22 23 p0 write 1 61*600 = 1"
CONTRADICTED += [
    (HELD_NONBLOCK, "20 21 p0 write 1 61*600 = 1", "24", AGAIN),
    (HELD_NONBLOCK, "20 21 p0 write 1 61*600 = 1", "24", "22 23 p0 dup2 1 2 = 2\n24 25 p0 write 2 x61 = 1"),
    (HELD_NONBLOCK, "20 21 p0 write 1 61*20 = error EAGAIN", "20", "22 23 p0 write 1 61*20 = 20"),
    # a large write takes what there is
    (HELD_100, "20 21 p0 write 1 61*600 = error EAGAIN", "600", "22 23 p0 write 1 61*500 = 500"),
    (HELD_100, "20 21 p0 write 1 61*600 = error EAGAIN", "600", "22 23 p0 write 1 x61 = 1"),
]
# The nearest that it does not contradict, and the reason.
CONSISTENT = [
    (TWENTY, "40 41 p0 open a r = error EMFILE", "20", FEWER, "42 43 p0 close 3 = ok\n44 45 p0 open a r = 3"),
    (FILED, "40 41 p0 dup2 0 21 = error EBADF", "21", FEWER, "42 43 p0 dup2 0 20 = 20"),
    (ALL, "40 41 p0 open a r = 32", "error EMFILE", MORE, "42 43 p0 open a r = error EMFILE"),
    (FILED, f"40 41 p0 pwrite 0 {2**32} x61 = error EFBIG", "1", SMALLER, f"42 43 p0 ftruncate 0 {2**32} = ok"),
    (FILED, "40 41 p0 unlink abcdefghijklmno = error ENAMETOOLONG", "error ENOENT", LONG, "42 43 p0 mkfifo b = ok"),
]
ROOM = f"room of a pipe (own; page of write){HINT}"
WHERE_ROOMY = "where a pipe has room for 65,536 bytes"
CONSISTENT += [
    (HELD_NONBLOCK, "20 21 p0 write 1 61*600 = 1", f"600, {WHERE_ROOMY}", ROOM, f"21 21 p0 read 0 1 = x61\n{AGAIN}"),
    (HELD_NONBLOCK, "20 21 p0 write 1 61*20 = error EAGAIN", f"20, {WHERE_ROOMY}", ROOM, "22 23 p0 write 1 61*19 = 19"),
    # nothing more goes in, or only what fits into a page that has been filled further
    (HELD_100, "20 21 p0 write 1 61*600 = error EAGAIN", f"600, {WHERE_ROOMY}", ROOM, "22 23 p0 read 0 100 = 61*100"),
    (
        HELD_100 + "10 10 p0 write 1 61*400 = 400\n10 10 p0 read 0 400 = 61*400\n" * 9,
        "20 21 p0 write 1 61*600 = error EAGAIN",
        f"600, {WHERE_ROOMY}",
        ROOM,
        "22 23 p0 write 1 61*300 = 300",
    ),
]
# Writes of more bytes than a call of the profile moves, to a pipe: what no room explains.
MANY_BYTES = [
    (HELD, "20 21 p0 write 1 61*65537 = 65536", "error EINVAL"),
    (HELD, "20 21 p0 write 1 61*65537 = error EAGAIN", "error EINVAL"),
    (HELD, "20 21 p0 write 1 61*65537 = error EPIPE", "error EINVAL"),
    (HELD_NONBLOCK, "20 21 p0 write 1 61*65537 = 0", "error EINVAL"),
    (CLOSED, "20 21 p0 write 1 61*65537 = 65537", "error EINVAL"),
    (PIPED, "20 21 p0 read 0 70000 = x", "error EINVAL"),
    (FILED, "20 - p0 read 0 70000 = parked ?", "error EINVAL"),
]
# Calls of no bytes: errors that are not looked for, EAGAIN of an empty pipe, and a write to a pipe, after which nothing
# is known.
READ_ONLY, WRITE_ONLY = (f"{JOINED}2 3 p0 open a {mode},creat = 0\n" for mode in "rw")
DRY = f"{PIPED}4 5 p0 setfl 0 -,nonblock = ok\n"
NOTHING = "errors of a call of no bytes (own; pages of read and write)"
NO_BYTES = [
    (JOINED, "20 21 p0 read 7 0 = x", "error EBADF", NOTHING),
    (WRITE_ONLY, "20 21 p0 read 0 0 = x", "error EBADF", NOTHING),
    (PIPED, "20 21 p0 pread 0 -1 0 = x", "error ESPIPE", NOTHING),
    (JOINED, "20 21 p0 write 7 x = 0", "error EBADF", NOTHING),
    (READ_ONLY, "20 21 p0 write 0 x = 0", "error EBADF", NOTHING),
    (FILED, "20 21 p0 pwrite 0 -1 x = 0", "error EINVAL", NOTHING),
    (DRY, "20 21 p0 read 0 0 = error EAGAIN", "x", NOTHING),
    (PIPED, "20 21 p0 write 0 x = 0", "error EBADF", "a write of no bytes to a pipe (own; page of write)"),
    (HELD, "20 - p0 write 1 x = parked ?", "0", "a write of no bytes to a pipe (own; page of write)"),
]
# The nearest of them that no page leaves open.
SOME_BYTES = [
    (JOINED, "20 21 p0 read 7 0 = x61", "error EBADF"),
    (WRITE_ONLY, "20 21 p0 read 0 1 = x", "error EBADF"),
    (WRITE_ONLY, "20 21 p0 write 0 x = error EAGAIN", "0"),
    (JOINED, "20 21 p0 write 7 x = 1", "error EBADF"),
    (READ_ONLY, "20 21 p0 write 0 x61 = 0", "error EBADF"),
    (FILED, "20 21 p0 pwrite 0 -1 x = error ESPIPE", "error EINVAL"),
    (FILED, "20 21 p0 read 0 0 = error EAGAIN", "x"),
    (DRY, "20 21 p0 pread 0 0 0 = error EAGAIN", "error ESPIPE"),
    (PIPED, "20 21 p0 read 0 0 = error EAGAIN", "x"),
    (f"{DRY}6 7 p0 write 1 x61 = 1\n", "20 21 p0 read 0 0 = error EAGAIN", "x"),
    (f"{DRY}6 7 p0 close 1 = ok\n", "20 21 p0 read 0 0 = error EAGAIN", "x"),
    (HELD, "20 21 p0 write 1 x = 1", "0"),
]
# Calls that overlap, and what is told last of them.
FORKED = f"{FILED}4 5 p0 fork = 1\n6 7 p1 attach = ok\n"
OVERLAPPING = [
    (FORKED, "10 20 p0 read 0 70000 = x\n15 18 p1 fstat 0 = regular 0 7", f"perhaps: {COUNT}"),
    (FORKED, "10 20 p0 read 0 9 = x61\n15 18 p1 open a r,trunc = 1", f"perhaps: {FLAGS}"),
    (FORKED, "10 12 p0 read 0 9 = x61\n15 20 p1 open a r,trunc = 1\n18 19 p0 fstat 0 = regular 0 1", "page of read"),
    (FORKED, "10 20 p0 read 0 9 = x61\n15 18 p1 fstat 0 = regular 0 1", "page of read"),
]
# Calls that wait though they are woken, with no pwrite under append, and with one that has no part in it; and what one
# that has a part in it excuses.
TWO = f"{PIPED}4 5 p0 fork = 1\n6 7 p1 attach = ok\n"
BESIDE_APPEND = f"{TWO}10 11 p0 open a rw,creat,append = 2\n12 13 p0 pwrite 2 0 x61 = 1\n14 15 p0 pwrite 2 0 x62 = 1\n"
NOT_WOKEN = "20 - p0 read 0 4 = parked ?\n30 - p1 write 1 61*3000 = parked ?"
WAITS_ON = "page of read: it waits until there are data, or no writer"
OVERLAPPING += [
    (TWO, NOT_WOKEN, WAITS_ON),
    (BESIDE_APPEND, NOT_WOKEN, WAITS_ON),
    (
        f"{JOINED}2 3 p0 mkfifo f = ok\n4 5 p0 fork = 1\n6 7 p1 attach = ok\n",
        "10 - p0 open f r = parked ?\n20 - p1 open f w = parked ?",
        "page of open: it waits until the other end is opened",
    ),
    (BESIDE_APPEND, "20 22 p0 pread 2 0 9 = x6162\n21 30 p1 read 7 1 = x61", f"perhaps: {APPEND}"),
    (BESIDE_APPEND, "20 22 p0 pread 2 0 9 = x6162\n21 30 p1 read 0 1 = error EBADF", f"perhaps: {APPEND}"),
    (BESIDE_APPEND, "20 22 p0 pread 2 0 9 = x6162\n21 30 p1 getfl 0 = 1", f"reason: {APPEND}"),
]
# A pwrite under append that overlaps an append, in an order that is not that of their ends, and what shows it.
BOTH_APPEND = f"{JOINED}2 3 p0 open a rw,creat,append = 0\n4 5 p0 fork = 1\n6 7 p1 attach = ok\n"
BOTH_APPEND += "10 30 p0 write 0 x62 = 1\n12 20 p1 pwrite 0 0 x6161 = 2\n"
OFFSET, LENGTH_3 = "40 41 p0 lseek 0 0 cur = 1\n", "42 43 p0 lseek 0 0 end = 3\n"
BY_APPEND = [
    f"{BOTH_APPEND}{OFFSET}{LENGTH_3}",
    f"{BOTH_APPEND}38 39 p0 fstat 0 = regular 3 1\n{OFFSET}",
    f"{BOTH_APPEND}{OFFSET}42 43 p0 pread 0 0 9 = x626161\n",
    f"{BOTH_APPEND}31 32 p0 write 0 x63 = 1\n40 41 p0 pread 0 0 9 = x62616163\n",
    # what is wrong later has nothing to do with it
    f"{BOTH_APPEND}{OFFSET}{LENGTH_3}50 51 p0 close 7 = error EINVAL\n",
    # the flag is set meanwhile
    f"{BOTH_APPEND.replace('creat,append', 'creat')}13 25 p0 setfl 0 -,append = ok\n{OFFSET}{LENGTH_3}".replace(
        "10 30 p0 write", "10 11 p0 write"
    ),
]
# The nearest that it does not explain: another length, other bytes, an offset of no order, and a description that does
# not append.
NOT_BY_APPEND = [
    f"{BOTH_APPEND}{OFFSET}{LENGTH_3.replace('= 3', '= 4')}",
    f"{BOTH_APPEND}{OFFSET}42 43 p0 pread 0 0 9 = x616261\n",
    f"{BOTH_APPEND}{OFFSET.replace('= 1', '= 2')}{LENGTH_3}",
    f"{BOTH_APPEND}{OFFSET}{LENGTH_3}".replace("4 5 p0 fork", "4 4 p0 open a rw = 1\n5 5 p0 fork").replace(
        "pwrite 0 0", "pwrite 1 0"
    ),
]
# Calls that overlap, of which each that is answered otherwise has a reason that is fdref's own choice: what fdref answers.
OVERLAPPING_CHOICES = [
    (FORKED, "10 20 p0 read 0 70000 = x\n15 18 p1 fstat 0 = regular 0 1", "error EINVAL", COUNT),
    (TWO, "10 20 p0 fstat 0 = pipe 0 1\n11 19 p1 write 1 x61 = 1", "pipe 1 0", STAT),
]

# The same where the order of their ends tells nothing: a call that waits comes back before the one that makes it go on,
# or a call has its reason only before one that came back sooner. Then such with answers that nothing explains.
JOINED_TWO = f"{JOINED}2 3 p1 join = 1\n"
READ_FIRST = f"{TWO}20 40 p0 read 0 1 = x61\n30 90 p1 write 1 x61 = 1\n"
OPEN_FIRST = f"{JOINED_TWO}4 5 p0 mkfifo q = ok\n20 90 p0 open q r = 0\n30 40 p1 open q w = 0\n"
LINKED = f"{JOINED_TWO}4 5 p0 open b w,creat = 0\n20 60 p0 link a b = error EEXIST\n25 30 p1 unlink b = ok\n"
FILLED = f"{TWO}8 9 p0 setfl 1 -,nonblock = ok\n10 11 p0 write 1 61*4096 = 4096\n"
FILLED += "20 60 p0 write 1 62*100 = error EAGAIN\n30 31 p1 read 0 4096 = 61*4096\n"
SET = f"{JOINED}4 5 p0 open f rw,creat,nonblock = 0\n6 7 p0 fork = 1\n8 9 p1 attach = ok\n"
SET += "20 60 p0 getfl 0 = 3\n25 30 p1 setfl 0 -,append = ok\n"
WITHOUT_SPACE = f"{JOINED_TWO}20 60 p0 open f w,creat = error ENOSPC\n25 30 p1 open f w,creat = 0\n"
PIECES = f"{TWO}10 11 p0 write 1 61*1024 = 1024\n20 90 p0 write 1 62*2000 = 2000\n30 31 p1 read 0 1024 = 61*1024\n"
PIECES += "32 33 p1 read 0 1024 = 62*1024\n34 35 p1 fstat 0 = pipe 0 1\n95 96 p1 read 0 1024 = 62*976\n"
IN_ANOTHER_ORDER = [
    (f"{READ_FIRST}42 43 p0 fstat 0 = pipe 0 1\n", "pipe 0 0", STAT),
    (f"{READ_FIRST}42 43 p0 pread 1 0 1 = error ESPIPE\n", "error EBADF", REFUSALS),
    (f"{OPEN_FIRST}42 43 p1 write 0 x616263 = 3\n44 45 p1 fstat 0 = fifo 0 1\n", "fifo 3 1", STAT),
    (LINKED, "error ENOENT", REFUSALS),
    (FILLED, "100, where a pipe has room for 65,536 bytes", ROOM),
    (SET, "67", LEFT_OUT),
    (WITHOUT_SPACE, "0", "no space in the file system (own; pages of open, mkfifo, link, rename and write)"),
]
IN_NO_ORDER = [
    f"{READ_FIRST}42 43 p0 fstat 0 = pipe 0 1\n".replace("= x61", "= x62"),
    f"{READ_FIRST}42 43 p0 fstat 0 = pipe 0 1\n44 45 p0 lseek 0 0 cur = 0\n",
    f"{READ_FIRST}42 43 p0 fstat 0 = pipe 0 1\n50 - p0 read 0 1 = parked ?\n92 93 p1 write 1 x62 = 1\n",
    f"{READ_FIRST}42 43 p0 pread 1 0 1 = error EINVAL\n",
    f"{OPEN_FIRST}42 43 p1 write 0 x616263 = 3\n44 45 p1 fstat 0 = fifo 0 1\n95 96 p0 read 0 9 = x6162\n",
    LINKED.replace("25 30 p1", "15 16 p1"),
    LINKED.replace("25 30 p1", "65 66 p1").replace("EEXIST", "EBADF"),
    f"{FILLED}70 71 p1 read 0 100 = 62*100\n",
    FILLED.replace("30 31 p1", "12 13 p1"),
    SET.replace("25 30 p1", "15 16 p1"),
    f"{WITHOUT_SPACE}70 71 p1 close 0 = error EBADF\n",
    WITHOUT_SPACE.replace("p1 open f w,creat = 0", "p1 open f w,creat,excl = error EEXIST"),
    WITHOUT_SPACE.replace("25 30 p1", "15 16 p1"),
    PIECES.replace("62*976", "62*975"),
]


# FIFOs that are opened for both, after which all else is compared: what is told last of each, and with calls that are
# wrong, the call that is to blame.
BOTH = f"{JOINED_TWO}4 5 p0 mkfifo q = ok\n6 7 p0 open q rw = 0\n8 9 p1 open q r = 0\n20 30 p1 read 0 2 = x6162\n"
BOTH += "21 25 p0 write 0 x616263 = 3\n"
BY_BOTH = "reason: a FIFO opened for both (own; page of open)"
NOT_COMPARED = f"{BY_BOTH}\nwhat is read and written there is not compared, "
WRONG_BEFORE = BOTH.replace("x6162\n", "x6163\n").replace("6 7 p0 open q rw", "6 9 p0 open q w")
PAST_END = "40 41 p1 open a rw,creat = 1\n42 43 p1 write 1 x61 = 1\n44 45 p1 read 1 1 = x61\n"
FOR_BOTH = [
    (BOTH, BY_BOTH),
    (BOTH.replace("6 7", "6 12").replace("8 9", "7 10"), BY_BOTH),
    (f"{BOTH}40 50 p0 read 0 9 = x63\n60 - p0 read 0 1 = parked ?\n", BY_BOTH),
    (f"{BOTH}40 41 p0 fstat 0 = fifo 0 1\n", f"{BY_BOTH}\nreason: {STAT}"),
    (BOTH.replace("= x6162", "= x6163"), f"{NOT_COMPARED}2 calls"),
    (f"{BOTH}40 41 p0 exit = ok\n42 43 p1 read 0 2 = x63\n44 45 p1 read 0 2 = x\n", BY_BOTH),
]
NOT_FOR_BOTH = [
    (f"{WRONG_BEFORE}40 41 p0 open q rw = 1\n", "20 30 p1 read 0 2 = x6163"),
    (f"{BOTH}{PAST_END}", "44 45 p1 read 1 1 = x61"),
    (f"{BOTH}40 41 p0 open q rw = 2\n", "40 41 p0 open q rw = 2"),
    (f"{BOTH}40 50 p0 open a w,creat = 1\n42 43 p1 open a r = 2\n", "42 43 p1 open a r = 2"),
]


# Histories that are wrong as their descriptors begin at 3, with what is told of that, and such whose do not.
AT_0 = "its descriptors begin at 3, and those of fdref at 0: let p0 open a file first, and dup it twice"
FROM_3 = [
    f"{JOINED}2 3 p0 open a rw,creat = 3\n4 5 p0 write 3 x61 = 1\n",
    f"{JOINED}2 3 p0 pipe = 3 4\n4 5 p0 close 4 = ok\n",
    f"{JOINED_TWO}4 9 p0 open a rw,creat = 3\n5 8 p1 open a rw,creat = 3\n",
    f"{JOINED}4 5 p0 close 3 = ok\n",
]
FROM_0 = [
    f"{JOINED}2 3 p0 open a rw,creat = 1\n",
    f"{FILED}4 5 p0 dup 0 = 3\n",
    f"{JOINED}2 3 p0 close 3 = error EINVAL\n",
]


# Pipes whose writing end has the lower number: what is told of one, and histories with their status and what is told
# last.
TURNED = f"{JOINED}2 3 p0 pipe = 1 0\n"
TURNED_LINES = """an order explains it where the ends of a pipe change places, by dup2 and close
  p0 join = 0
  p0 pipe = 0 1
  p0 dup2 0 2 = 2
  p0 dup2 1 0 = 0
  p0 dup2 2 1 = 1
  p0 close 2 = ok
reason: which end of a pipe has the lower number (own; page of pipe)
"""
BY_TURN = TURNED_LINES.splitlines()[-1]
NOT_BY_TURN = "that is told where the ends of a pipe change places, by dup2 and close"
PASSED_ON = f"{TURNED}4 5 p0 fork = 1\n6 7 p1 attach = ok\n8 15 p1 read 1 5 = x61\n10 11 p0 write 0 x61 = 1\n"
TURNS = [
    (f"{PASSED_ON}16 17 p1 close 0 = ok\n18 19 p1 pipe = 2 0\n20 21 p1 write 0 x62 = 1\n", 0, BY_TURN),
    (f"{PASSED_ON}16 17 p0 write 1 x61 = error EBADF\n", 0, BY_TURN),
    (f"{TURNED}4 5 p0 read 1 70000 = error EBADF\n", 1, f"page of read: a pipe or FIFO\n{NOT_BY_TURN}"),
    (f"{PASSED_ON}16 17 p0 write 1 x61 = 1\n", 0, f"reason: a pipe that goes both ways (own; page of pipe)\n{BY_TURN}"),
    (f"{PASSED_ON}16 17 p0 write 1 x61 = error EAGAIN\n", 1, NOT_BY_TURN),
    (f"{PASSED_ON}16 17 p0 close 1 = ok\n18 19 p0 pipe = 1 2\n20 21 p0 read 2 1 = x\n", 1, NOT_BY_TURN),
    (f"{JOINED}2 3 p0 pipe = 2 1\n", 1, f"page of pipe\n{NOT_BY_TURN}"),
    (f"{JOINED}2 3 p0 pipe = 0 0\n", 1, "page of pipe"),
    (ALL.rpartition("34 34")[0] + "40 41 p0 pipe = 31 30\n", 0, BY_TURN),
]


# Calls that a signal has ended, which changed nothing: a read and a write that wait or do not, an open, a close that has
# closed its descriptor or not, and beside another choice. The nearest that are wrong: a byte is lost or written, a
# descriptor is taken, a call whose page has no EINTR, and another wrong call.
BY_SIGNAL = "reason: a signal ends a call (EINTR) (own; XSH 2.4.4)"
ENDED = f"{TWO}20 30 p0 read 0 4 = error EINTR\n25 28 p1 write 1 x61 = 1\n40 41 p0 read 0 4 = x61\n"
ENDED_WRITE = f"{HELD_100}20 21 p0 write 1 x62 = error EINTR\n22 23 p0 read 0 512 = 61*100\n"
ENDED_CLOSE = f"{PIPED}4 5 p0 close 0 = error EINTR\n"
ENDED_LINES = f"""an order explains it without the calls that a signal has ended
  p0 join = 0
  p0 pipe = 0 1
  p0 fork = 1
  p1 attach = ok
  p1 write 1 x61 = 1
  p0 read 0 4 = x61
left out, 1 call:
  20 30 p0 read 0 4 = error EINTR
{BY_SIGNAL}
"""
BY_ENDED = [
    ENDED,
    ENDED_WRITE,
    f"{JOINED}2 3 p0 mkfifo f = ok\n4 5 p0 open f r = error EINTR\n6 7 p0 open f r,nonblock = 0\n",
    f"{ENDED_CLOSE}6 7 p0 getfl 0 = error EBADF\n",
    f"{ENDED_CLOSE}6 7 p0 close 0 = ok\n8 9 p0 dup2 1 2 = error EINTR\n10 11 p0 dup 1 = 0\n",
    f"{ROOMY}80 81 p0 read 0 9 = error EINTR\n",
    f"{FILED}4 5 p0 pwrite 0 0 x61 = error EINTR\n6 7 p0 ftruncate 0 9 = error EINTR\n8 9 p0 fstat 0 = regular 0 1\n",
    f"{PIPED}4 5 p0 fstat 0 = pipe 0 1\n6 7 p0 read 0 1 = error EINTR\n",
]
NOT_BY_ENDED = [
    (ENDED.replace("40 41 p0 read 0 4 = x61", "40 - p0 read 0 4 = parked ?"), "p0 read 0 4 = parked ?"),
    (ENDED_WRITE.replace("= 61*100\n", f"= x{'61' * 100}62\n"), f"p0 read 0 512 = x{'61' * 100}62"),
    (f"{ENDED_CLOSE}6 7 p0 dup 1 = 2\n8 9 p0 close 0 = error EBADF\n", "p0 close 0 = error EBADF"),
    (ENDED.replace("40 41 p0 read 0 4 = x61", "40 41 p0 read 0 4 = x62"), "p0 read 0 4 = x62"),
]
NO_EINTR = [
    f"{PIPED}4 5 p0 getfl 0 = error EINTR\n",
    f"{JOINED}2 3 p0 pipe = error EINTR\n",
    f"{FILED}4 5 p0 lseek 0 0 cur = error EINTR\n",
    f"{FILED}4 5 p0 link a b = error EINTR\n",
]


def chosen(call: str, answer: str, reason: str) -> str:
    """What is told of a call that fdref answers otherwise by its own choice."""
    return f"no order explains it, by a choice of fdref's own\n  {call}\nfdref answers {answer}\nreason: {reason}\n"


def ends_with(program: str, text: str, status: int, end: str, *options: str) -> None:
    """What the tool prints of a history ends with these lines, and it ends with this status."""
    ran = told(program, text, *options)
    same((status, ""), (ran.status, ran.stderr.decode()))
    require(ran.stdout.decode().endswith(f"\n{end}\n"), ran.said())


def blames_pwrite(program: str, text: str) -> None:
    """The tool blames the pwrite under append, and not the call that shows what it did."""
    ran = told(program, text)
    lines = ran.stdout.decode().splitlines()
    blamed = lines[lines.index("which this call makes impossible, with those that overlap it:") + 1]
    require(blamed.startswith("  12 ") and " p1 pwrite 0 0 x6161 = " in blamed, ran.said())
    same((1, f"reason: {APPEND}"), (ran.status, lines[-1]))


def blames_another(program: str, text: str) -> None:
    """The tool finds no order, and gives no pwrite as the reason."""
    ran = told(program, text)
    require(ran.status == 1 and b"O_APPEND" not in ran.stdout, ran.said())


def has_told(program: str, text: str, lines: str) -> None:
    """The tool tells this of a history, and ends with status 0."""
    ran = told(program, text)
    require(ran.status == 0 and f"\n{lines}\n" in ran.stdout.decode(), ran.said())


def blames_page(program: str, text: str) -> None:
    """The tool ends with the page of what is wrong."""
    ran = told(program, text)
    require(ran.status == 1 and ran.stdout.decode().splitlines()[-1].startswith("page of"), ran.said())


def is_bare(program: str, text: str, answer: str) -> None:
    """The tool tells what fdref answers to a call, and no reason."""
    ran = told(program, text)
    lines = ran.stdout.decode().splitlines()
    require(ran.status == 1 and lines[-2] == f"fdref answers {answer}", ran.said())
    require(not lines[-1].startswith("reason"), ran.said())


def reason_cases(program: str) -> Iterator[Case]:
    """Histories that no order explains, each with its reason, or with what fdref answers."""
    roomy = "where a pipe has room for 65,536 bytes"
    less = [(before, call, f"{answer}, {roomy}", ROOM) for before, call, answer in LESS_ROOM]
    for before, call, answer, reason in [*CHOICES, *less, *NO_BYTES, *LIMITS]:
        yield f"a choice: {call}", partial(prints, program, f"{before}{call}\n", 0, chosen(call, answer, reason))
    for before, call, answer, end in [*UNCHOSEN, *((*it, WRITE) for it in UNROOMY)]:
        lines = f"  {call}\nfdref answers {answer}\n{end}"
        yield f"no choice: {call}", partial(ends_with, program, f"{before}{call}\n", 1, lines)
    for before, call, answer in [*SOME_BYTES, *NO_LIMITS, *MANY_BYTES]:
        yield f"no choice: {call}", partial(is_bare, program, f"{before}{call}\n", answer)
    for before, call, answer, after in CONTRADICTED:
        yield f"no limit: {call}; {after}", partial(is_bare, program, f"{before}{call}\n{after}\n", answer)
    for before, call, answer, reason, after in CONSISTENT:
        end = f"fdref answers {answer}\nreason: {reason}"
        yield f"a limit: {call}; {after}", partial(has_told, program, f"{before}{call}\n{after}\n", end)
    for before, call, answer, reason, after, wrong, right in GOES_ON:
        text = f"{before}{call}\n{after}\n"
        yield f"goes on: {call}; {after}", partial(prints, program, text, 0, chosen(call, answer, reason))
        text = text.replace(f"{after}\n", f"{after.rpartition(' = ')[0]} = {wrong}\n")
        yield f"goes on: {call}; {after}, not {wrong}", partial(is_bare, program, text, right)
    further = f"{JOINED}2 3 p0 read 7 0 = x\n4 5 p0 close 7 = error EINVAL\n"
    yield "after a call of no bytes", partial(is_bare, program, further, "error EBADF")
    for before, calls, end in OVERLAPPING:
        yield f"at once: {calls}", partial(ends_with, program, f"{before}{calls}\n", 1, end)
    yield "a call that a signal has ended", partial(prints, program, ENDED, 0, ENDED_LINES)
    for text in BY_ENDED:
        yield f"ended by a signal: {text}", partial(ends_with, program, text, 0, BY_SIGNAL)
    for text, call in NOT_BY_ENDED:
        yield f"not ended by a signal: {text}", partial(fails, program, text, 1, f"{call}\n")
        end = "that is told without the calls that a signal has ended"
        yield f"not ended by a signal, which is told: {text}", partial(ends_with, program, text, 1, end)
    for text in NO_EINTR:
        yield f"no EINTR: {text}", partial(fails, program, text, 1, "= error EINTR\n")
    for text in BY_APPEND:
        yield f"to blame: {text}", partial(blames_pwrite, program, text)
    for text in NOT_BY_APPEND:
        yield f"no pwrite to blame: {text}", partial(blames_another, program, text)
    for before, calls, answer, reason in OVERLAPPING_CHOICES:
        end = f"fdref answers {answer}, in an order that explains the others\nreason: {reason}"
        yield f"choices at once: {calls}", partial(ends_with, program, f"{before}{calls}\n", 0, end)
    for text, answer, reason in IN_ANOTHER_ORDER:
        end = f"fdref answers {answer}, in an order that explains the others\nreason: {reason}"
        yield f"choices in another order: {text}", partial(ends_with, program, text, 0, end)
    end = f"fdref answers pipe 976 0, in an order that explains the others\nreason: {STAT}"
    yield "while a write waits", partial(ends_with, program, PIECES, 0, end, "--pipe-capacity", "1024")
    for text in IN_NO_ORDER:
        yield f"choices in no order: {text}", partial(fails, program, text, 1, "no order explains it")
    for text, end in FOR_BOTH:
        yield f"a FIFO for both: {text}", partial(ends_with, program, text, 0, end)
    for text in FROM_3:
        yield f"descriptors from 3 on: {text}", partial(ends_with, program, text, 1, AT_0)
    for text in FROM_0:
        yield f"no descriptors from 3 on: {text}", partial(blames_page, program, text)
    for call in ("join = error EAGAIN", "attach = error ESRCH"):
        text = f"{JOINED}2 3 p0 fork = 1\n4 5 p1 {call}\n"
        end = "docs/PROFILE.md: the other acts (own)"
        yield f"no page: {call}", partial(ends_with, program, text.replace("p1 join", "p2 join"), 1, end)
    for text, call in NOT_FOR_BOTH:
        case = partial(fails, program, text, 1, f"overlap it:\n  {call}\n")
        yield f"a FIFO for both, and what is wrong: {text}", case
    yield "a pipe with its ends the other way round", partial(prints, program, TURNED, 0, TURNED_LINES)
    for text, status, end in TURNS:
        yield f"turned: {text}", partial(ends_with, program, text, status, end)
    flags = f"{FILED}4 5 p0 open a r,trunc = 1\n6 7 p0 fstat 1 = regular 0 1\n"
    one = chosen("4 5 p0 open a r,trunc = 1", *CHOICES[2][2:])
    rest = f"{one}the rest is not compared, 1 call\n"
    yield "what is not compared", partial(prints, program, flags, 0, rest)
    two = f"{PIPED}4 5 p0 fstat 0 = pipe 0 1\n6 7 p0 fstat 1 = pipe 0 1\n8 - p0 read 0 70000 = parked ?\n"
    wanted = chosen("4 5 p0 fstat 0 = pipe 0 1", "pipe 0 0", STAT)
    wanted += "".join(chosen("8 - p0 read 0 70000 = parked ?", "error EINVAL", COUNT).splitlines(True)[1:])
    yield "two choices", partial(prints, program, two, 0, wanted)
    counts = "histories 2 explained 1 unexplained 0 given up 0 other choices 1\n"
    yield "a choice, counted", partial(prints, program, f"{GOOD}\n{flags}", 0, counts, "--quiet")
    yield "a choice of a wrong program", partial(finds_another_choice, program)


def finds_another_choice(program: str) -> None:
    """No reason excuses a program that does not answer as the model does."""
    with tempfile.TemporaryDirectory(prefix="fdref-") as folder:
        path = Path(folder, "wrong")
        path.write_text(f'#!/bin/sh\n"{program}" "$@" | sed "s/error EINVAL/error EBADF/"\n', encoding="utf-8")
        path.chmod(stat.S_IRWXU)
        fails(str(path), f"{FILED}4 5 p0 read 0 70000 = x\n", 3, "the program differs from the plain model")


def told(program: str, text: str, *options: str) -> Ran:
    """What the tool prints of histories."""
    words = ["python3", str(TOOLS / "order.py"), "-", "--program", program, *options]
    return run(words, text.encode())


def prints(program: str, text: str, status: int, wanted: str, *options: str) -> None:
    """The tool prints this of histories, and ends with this status."""
    ran = told(program, text, *options)
    same((status, wanted, ""), (ran.status, ran.stdout.decode(), ran.stderr.decode()))


def fails(program: str, text: str, status: int, why: str, *options: str) -> None:
    """The tool ends with a status, and says why."""
    ran = told(program, text, *options)
    same(status, ran.status)
    require(why in (ran.stderr + ran.stdout).decode(), ran.said())


def says_no_others(program: str, text: str) -> None:
    """The tool blames one call, and no other in its place."""
    ran = told(program, text)
    require(ran.status == 1 and b"\nor " not in ran.stdout, ran.said())


def reads_a_file(program: str) -> None:
    """A history may be in a file."""
    with tempfile.TemporaryDirectory(prefix="fdref-") as folder:
        path = Path(folder, "history")
        path.write_text(GOOD, encoding="utf-8")
        ran = run(["python3", str(TOOLS / "order.py"), str(path), "--program", program])
        same((0, GOOD_LINES), (ran.status, ran.stdout.decode()))


def answers_the_example(program: str) -> None:
    """The example asks what a write may give: that, and what had gone in before the read, and by a choice of fdref's own
    what else there was room for, but no more than fits where it is known how much does, nor less than was read."""
    text = Path(EXAMPLES, "may-it.history").read_text(encoding="ascii")
    require(told(program, text).stdout.endswith(b" p0 resume = 1624\n"), told(program, text).said())
    for other in ("1024", "?"):
        done = told(program, text.replace("= 1624", f"= {other}"))
        require(done.status == 0 and b"an order explains it\n" in done.stdout and b"own" not in done.stdout, done.said())
    done = told(program, text.replace("= 1624", "= 1025"))
    require(done.status == 0 and done.stdout.endswith(f"\n{BY_EARLY_END}\n".encode()), done.said())
    same(1, told(program, text.replace("= 1624", "= 1625"), "--pipe-capacity", "1024").status)
    same(1, told(program, text.replace("= 1624", "= 599").replace("600 = ?", "600 = 61*600")).status)


def says_of_nothing(program: str) -> None:
    """Where there is no history that is told, and counted."""
    counts = b"histories 0 explained 0 unexplained 0 given up 0\n"
    for text in ("", "\n"):
        same(Ran(0, counts, b"order.py: nothing to explain\n"), told(program, text))


def fails_without_file(program: str) -> None:
    """A history that cannot be read is a wrong word."""
    ran = run(["python3", str(TOOLS / "order.py"), "/no/history", "--program", program])
    same((2, b""), (ran.status, ran.stdout))
    require(b"/no/history" in ran.stderr, ran.said())


def takes_what_is_built() -> None:
    """Where no command is given the proved program is taken, else the unproved one, which is told, as is that there is
    neither."""
    with tempfile.TemporaryDirectory(prefix="fdref-") as folder:
        proved, unproved = Path(folder, "proved"), Path(folder, "unproved")
        before = commands.FDREF, commands.UNPROVED
        commands.FDREF, commands.UNPROVED = proved, unproved
        told = io.StringIO()
        try:
            with contextlib.redirect_stderr(told):
                require("./fdref build --unproved" in not_built(), not_built())
                unproved.touch()
                same([str(unproved)], commands.program_of(None))
                require(told.getvalue().count("\n") == 1 and "not proved" in told.getvalue(), told.getvalue())
                proved.touch()
                same([str(proved)], commands.program_of(None))
            same(1, told.getvalue().count("\n"))
        finally:
            commands.FDREF, commands.UNPROVED = before


def not_built() -> str:
    """What is told where nothing is built."""
    try:
        return f"{commands.program_of(None)} is taken"
    except CannotRun as fault:
        return str(fault)


# Two writes at once of which one goes in by two parts, and one that goes in while it is read; what is told of them.
THREE = f"{PIPED}4 5 p0 fork = 1\n6 7 p1 attach = ok\n8 9 p0 fork = 2\n10 11 p2 attach = ok\n"
TORN = f"{THREE}20 40 p0 write 1 61*600 = 600\n20 40 p1 write 1 62*513 = 513\n"
TORN_READS = "50 51 p2 read 0 400 = 61*400\n52 53 p2 read 0 600 = x" + "62" * 513 + "61" * 87 + "\n"
SLOW = f"{THREE}10 80 p0 write 1 61*600 = 600\n20 21 p1 read 0 600 = 61*300\n30 31 p1 read 0 600 = 61*300\n"
BY_PARTS = "reason: a write of more than 512 bytes in parts (own; page of write)"
IN_PARTS = [
    (f"{TORN}{TORN_READS}54 55 p2 read 0 600 = 61*113\n", f"  p2 read 0 600 = 61*113\n{BY_PARTS}"),
    (SLOW.replace("10 80 p0", "12 80 p0"), f"  p1 resume = 61*300\n{BY_PARTS}"),
    (
        f"{THREE}12 13 p0 setfl 1 -,nonblock = ok\n{TORN[len(THREE) :]}{TORN_READS}",
        f"  p2 read 0 600 = x{'62' * 513}{'61' * 87}\n{BY_PARTS}",
    ),
]
# The nearest of them that no parts explain: a byte is lost, small writes are torn, and a write to a file is.
NOT_IN_PARTS = [
    f"{TORN}{TORN_READS}54 55 p2 read 0 600 = 61*112\n56 - p2 read 0 1 = parked ?\n",
    f"{THREE}20 40 p0 write 1 61*512 = 512\n20 40 p1 write 1 62*500 = 500\n50 51 p2 read 0 400 = 61*400\n"
    "52 53 p2 read 0 500 = 62*500\n",
    f"{FILED}4 5 p0 fork = 1\n6 7 p1 attach = ok\n20 40 p0 write 0 61*600 = 600\n20 40 p1 write 0 62*600 = 600\n"
    "50 51 p0 lseek 0 0 set = 0\n52 53 p0 read 0 400 = 61*400\n54 55 p0 read 0 600 = 62*600\n",
]


# Large writes of which a part is read, and that wait at the end, or whose answers are not known; and reads beside parts
# whose answers are not known. The nearest that are wrong whatever these are: a byte is lost, doubled, or nobody's, more
# is read than was written, or than the pipe holds, the rest has room, the write is small, is not to wait, or goes to a
# file.
MIXED = bytes(at * at % 251 for at in range(2000)).hex()
PARKED = f"{TWO}20 - p0 write 1 x{MIXED} = parked ?\n30 40 p1 read 0 600 = x{MIXED[:1000]}\n"
PARKED_TWICE = f"{PARKED}42 50 p1 read 0 200 = x{MIXED[1000:1200]}\n"
PARKED_SAME = f"{TWO}20 - p0 write 1 61*3000 = parked ?\n30 40 p1 read 0 1500 = 61*500\n"
TWO_PARKED = f"{THREE}20 - p0 write 1 61*3000 = parked ?\n21 - p1 write 1 62*3000 = parked ?\n"
TWO_PARKED += f"30 40 p2 read 0 1000 = x{'61' * 500}{'62' * 500}\n"
ONE_PARKED = f"{THREE}20 - p0 write 1 61*3000 = parked ?\n21 50 p1 write 1 x626262 = 3\n"
ONE_PARKED += f"30 60 p2 read 0 1000 = x{'61' * 500}626262{'61' * 497}\n"
SMALL_BETWEEN = f"{THREE}20 40 p0 write 1 61*600 = 600\n20 40 p1 write 1 x62 = 1\n"
SMALL_BETWEEN += "50 51 p2 read 0 300 = 61*300\n52 53 p2 read 0 1 = x62\n"
WRITE_UNKNOWN = SMALL_BETWEEN.replace("= 600", "= ?")
READ_UNKNOWN = SMALL_BETWEEN.replace("= 61*300", "= ?")
PARTLY_KNOWN = [
    PARKED,
    PARKED_TWICE,
    PARKED.replace("parked ?", "?"),
    PARKED_SAME,
    TWO_PARKED,
    ONE_PARKED,
    WRITE_UNKNOWN,
    f"{WRITE_UNKNOWN}54 55 p2 read 0 300 = 61*300\n",
    WRITE_UNKNOWN.replace("20 40 p0 write", "20 - p0 write"),
    READ_UNKNOWN,
    READ_UNKNOWN.replace("= 600", "= ?"),
    f"{READ_UNKNOWN}54 55 p2 read 0 301 = 61*300\n",
    f"{SMALL_BETWEEN.replace('= x62', '= ?')}54 55 p2 read 0 300 = 61*300\n",
    f"{SMALL_BETWEEN.replace('= x62', '= ?').replace('read 0 1', 'read 0 2')}54 55 p2 read 0 300 = 61*299\n",
]
MORE_THAN_HELD = READ_UNKNOWN.replace("61*600 = 600", "61*2000 = 2000").replace("read 0 300", "read 0 1500")
NOT_PARTLY_KNOWN = [
    PARKED.replace(f"= x{MIXED[:1000]}", f"= x{MIXED[2:1002]}"),
    PARKED.replace(f"= x{MIXED[:1000]}", f"= x{MIXED[:998]}ff"),
    PARKED.replace("x" + MIXED, "x" + MIXED[:3000]),
    PARKED.replace("20 - p0", "12 13 p0 setfl 1 -,nonblock = ok\n20 - p0"),
    PARKED_TWICE.replace(f"x{MIXED[1000:1200]}", f"x{MIXED[1002:1202]}"),
    PARKED_TWICE.replace(f"x{MIXED[1000:1200]}", f"x{MIXED[998:1198]}"),
    PARKED_TWICE.replace(f"x{MIXED[1000:1200]}", f"x{MIXED[:200]}"),
    PARKED_SAME.replace("= 61*500", "= 61*1025"),
    PARKED_SAME.replace("61*3000", "61*1024"),
    PARKED_SAME.replace("61*3000", "61*499"),
    PARKED_SAME.replace("61*3000", "61*512"),
    PARKED_SAME.replace("61*3000 = parked ?", "61*499 = ?"),
    f"{FILED}4 5 p0 fork = 1\n6 7 p1 attach = ok\n"
    "20 - p0 write 0 61*3000 = parked ?\n30 40 p1 pread 0 0 999 = 61*500\n",
    TWO_PARKED.replace("62*3000", "62*499"),
    ONE_PARKED.replace("626262 = 3", "62626262 = 4"),
    ONE_PARKED.replace(f"626262{'61' * 497}", f"62{'61' * 497}6262"),
    WRITE_UNKNOWN.replace("61*600", "61*512"),
    WRITE_UNKNOWN.replace("= x62", "= x63"),
    WRITE_UNKNOWN.replace("61*300", f"x{'61' * 299}63"),
    f"{WRITE_UNKNOWN}54 55 p2 read 0 301 = 61*301\n",
    f"{WRITE_UNKNOWN}54 55 p2 read 0 300 = x62\n",
    READ_UNKNOWN.replace("61*600 = 600", "61*512 = 512"),
    READ_UNKNOWN.replace("= x62", "= x63"),
    f"{READ_UNKNOWN}54 55 p2 read 0 301 = 61*301\n",
    f"{READ_UNKNOWN}54 55 p2 read 0 300 = 61*299\n56 - p2 read 0 1 = parked ?\n",
    f"{READ_UNKNOWN}54 55 p2 read 0 300 = x62\n",
]


# A write that has moved a part when the last reader goes, and is EPIPE; the nearest that are wrong: a reader is left,
# what it moved is lost, it goes in at once or not at all, it is not to wait, and another error.
LONE = f"{TWO}8 9 p0 close 0 = ok\n10 11 p1 close 1 = ok\n"
BROKEN = f"{LONE}20 90 p0 write 1 61*3000 = error EPIPE\n30 40 p1 read 0 600 = 61*600\n50 60 p1 close 0 = ok\n"
BY_EPIPE = "reason: EPIPE of a write that has moved a part (own; page of write)"
NOT_BROKEN = [
    BROKEN.replace("50 60 p1 close 0", "50 60 p1 getfl 0").replace("getfl 0 = ok", "getfl 0 = 1"),
    BROKEN.replace("= 61*600\n", "= 62*600\n"),
    BROKEN.replace("61*3000", "61*512").replace("61*600", "61*512"),
    BROKEN.replace("20 90", "12 13 p0 setfl 1 -,nonblock = ok\n20 90").replace("61*3000", "61*1000"),
    BROKEN.replace("error EPIPE", "error EIO"),
    BROKEN.replace("error EPIPE", "error EPIPE\n95 96 p0 write 1 x61 = 1"),
]


# A write whose last reader goes, and that gives less than fdref would have moved: what pages left free, in a pipe of
# less room, by parts. The nearest that are wrong: more than there is room for, or than was read, a reader is left or
# goes later, it goes in at once or is not to wait, and another byte is read.
HELD_BEFORE = f"{LONE}12 13 p0 write 1 62*100 = 100\n"
CUT_OFF = f"{LONE}20 90 p0 write 1 61*3000 = 900\n30 40 p1 read 0 600 = 61*600\n50 60 p1 close 0 = ok\n"
BY_EARLY_END = "reason: how much a write has moved that ends early (own; page of write)"
CUT_BY_PARTS = f"{THREE}12 13 p0 close 0 = ok\n14 15 p1 close 0 = ok\n16 17 p2 close 1 = ok\n"
CUT_BY_PARTS += "20 90 p0 write 1 61*3000 = 900\n20 90 p1 write 1 62*600 = 600\n30 40 p2 read 0 300 = 61*300\n"
CUT_BY_PARTS += f"42 43 p2 read 0 1000 = x{'62' * 600}{'61' * 100}\n50 60 p2 close 0 = ok\n"
EARLY_ENDS = [
    (f"{HELD_BEFORE}20 90 p0 write 1 61*65536 = 61440\n30 40 p1 close 0 = ok\n", "  p0 write 1 61*4096 = error EPIPE"),
    (CUT_OFF, "  p0 write 1 61*2100 = error EPIPE"),
    (CUT_OFF.replace("50 60 p1 close 0 = ok", "50 60 p1 exit = ok"), "  p0 write 1 61*2100 = error EPIPE"),
    (CUT_BY_PARTS, "  p0 write 1 61*2100 = error EPIPE"),
]
NO_EARLY_ENDS = [
    f"{HELD_BEFORE}20 90 p0 write 1 61*65536 = 65500\n30 40 p1 close 0 = ok\n",
    f"{HELD_BEFORE}20 90 p0 write 1 61*65536 = 65487\n30 40 p1 read 0 50 = 62*50\n50 60 p1 close 0 = ok\n",
    CUT_OFF.replace("= 900", "= 599"),
    CUT_OFF.replace("50 60 p1 close 0 = ok", "50 60 p1 getfl 0 = 1"),
    CUT_OFF.replace("50 60 p1 close", "44 45 p1 dup2 0 1 = 1\n50 60 p1 close"),
    CUT_OFF.replace("50 60", "91 92"),
    CUT_OFF.replace("61*3000 = 900", "61*512 = 300").replace("600 = 61*600", "300 = 61*300"),
    f"{LONE}12 13 p0 setfl 1 -,nonblock = ok\n20 90 p0 write 1 61*1600 = 100\n30 40 p1 close 0 = ok\n",
    CUT_OFF.replace("600 = 61*600", f"600 = x{'61' * 599}62"),
    CUT_OFF.replace("= 900", "= 0"),
    CUT_OFF.replace("= 900", "= 3001"),
]


# A write that ends with what it has moved, as nonblock is set while it waits, in a pipe of 1,024 bytes; and the nearest
# that are wrong: that is set later, or of the other end, more than there was room for, one that goes in at once, and
# one that never was to wait.
SET_MEANWHILE = f"{TWO}20 60 p0 write 1 61*3000 = 1500\n30 31 p1 setfl 1 -,nonblock = ok\n"
SET_MEANWHILE += "40 41 p1 read 0 476 = 61*476\n"
BY_UNBLOCKED = "reason: nonblock set while a write waits (own; pages of fcntl and write)"
NOT_SET_MEANWHILE = [
    SET_MEANWHILE.replace("30 31", "70 71"),
    SET_MEANWHILE.replace("setfl 1", "setfl 0"),
    SET_MEANWHILE.replace("= 1500", "= 1501"),
    SET_MEANWHILE.replace("61*3000 = 1500", "61*500 = 100"),
    SET_MEANWHILE.replace("30 31", "8 9").replace("= 1500", "= 100"),
]


# Writes that are not to wait, and take what reads free while they go on, in a pipe of 1,024 bytes: some of it, all, of
# two reads, and where the pipe was full. The nearest that are wrong: fewer bytes than there was room for, more than went
# in, the read comes later or before, of another pipe, or gives nothing, the write is to wait, and a byte is lost.
FREED = f"{TWO}8 9 p0 setfl 1 -,nonblock = ok\n10 11 p0 write 1 61*1000 = 1000\n20 60 p0 write 1 62*2000 = 300\n"
FREED += "30 40 p1 read 0 500 = 61*500\n"
FULL_FREED = FREED.replace("20 60", "12 13 p0 write 1 61*24 = 24\n20 60")
TWO_FREED = f"{FREED.replace('= 300', '= 600')}42 43 p1 read 0 510 = x{'61' * 500}{'62' * 10}\n"
OWN_FREED = FREED.replace("= 300", "= 1048").replace("read 0 500 = 61*500", f"read 0 1024 = x{'61' * 1000}{'62' * 24}")
REST_FREED = FREED.replace("61*1000 = 1000", "61*500 = 500").replace("62*2000 = 300", "62*600 = 400")
REST_FREED = REST_FREED.replace("500 = 61*500\n", f"600 = x{'61' * 500}{'62' * 100}\n")
FREEINGS = [
    FREED,
    REST_FREED.replace("= 400", "= 530").replace("600 = x", "700 = x").replace("6262\n", f"6262{'62' * 100}\n"),
    FREED.replace("= 300", "= 523"),
    FULL_FREED,
    TWO_FREED,
    OWN_FREED,
    f"{FREED}62 63 p1 read 0 1024 = x{'61' * 500}{'62' * 300}\n",
]
NO_FREEINGS = [
    REST_FREED,
    FREED.replace("= 300", "= 23"),
    FREED.replace("= 300", "= 525"),
    FULL_FREED.replace("= 300", "= 501"),
    OWN_FREED.replace("= 1048", "= 1049"),
    FREED.replace("30 40", "61 62"),
    FREED.replace("30 40", "14 15"),
    FREED.replace("30 40 p1 read 0", "16 17 p1 pipe = 2 3\n18 19 p1 write 3 61*500 = 500\n30 40 p1 read 2"),
    FREED.replace("read 0 500 = 61*500", "read 1 500 = error EBADF"),
    FREED.replace("-,nonblock", "-"),
    f"{FREED}62 63 p1 read 0 1024 = x{'61' * 500}{'62' * 299}\n64 - p1 read 0 1 = parked ?\n",
]


# Calls on pipes of more bytes than fdref takes, which overlap others. The nearest that are wrong: more moved than there
# is room for, with a reader left and without, one that waits for no reason or not, and another byte is read.
OVER = f"{LONE}20 90 p0 write 1 61*65700 = 65536\n30 40 p1 read 0 10 = 61*10\n50 60 p1 close 0 = ok\n"
OVER_READ = f"{LONE}20 90 p0 write 1 61*5000 = 5000\n30 99 p1 read 0 66000 = 61*5000\n"
AT_ONCE = f"{LONE}12 13 p0 setfl 1 -,nonblock = ok\n20 90 p0 write 1 61*65700 = 65536\n30 40 p1 getfl 0 = 1\n"
SLEEPING = f"{LONE}20 - p0 write 1 61*65700 = parked ?\n30 40 p1 read 0 100 = 61*100\n"
BY_TRANSFER = "reason: more than 65,536 bytes in a call (own; pages of read and write)"
PAST_MOST = [
    OVER,
    OVER.replace("= 65536", "= 65546"),
    OVER.replace("= 65536", "= 1000"),
    OVER_READ,
    AT_ONCE,
    SLEEPING,
    f"{LONE}20 90 p0 write 1 61*65700 = error EPIPE\n30 40 p1 close 0 = ok\n",
]
NOT_PAST_MOST = [
    OVER.replace("= 65536", "= 65547"),
    OVER.replace("50 60 p1 close 0 = ok", "50 60 p1 getfl 0 = 1"),
    OVER.replace("10 = 61*10", f"10 = x{'61' * 9}62"),
    OVER.replace("= 65536", "= 9"),
    OVER_READ.replace("= 61*5000\n", "= 61*5001\n"),
    AT_ONCE.replace("12 13 p0 setfl 1 -,nonblock", "12 13 p0 setfl 1 -"),
    SLEEPING.replace("30 40 p1 read 0 100 = 61*100", "30 40 p1 close 0 = ok"),
    f"{FILED}4 5 p0 fork = 1\n6 7 p1 attach = ok\n20 90 p0 write 0 61*65700 = 65536\n30 40 p1 getfl 0 = 66\n",
]


# Reads of one pipe at once that take its bytes by turns, or leave some to another; with what is told of them. The
# nearest that are wrong: they do not overlap, a byte is lost, doubled, from nowhere or out of its order, one reads
# alone or beside a read that gives nothing, and they are at two pipes.
FOUR = f"{THREE}12 13 p0 write 1 x61626364 = 4\n"
AT_TURNS = f"{FOUR}20 40 p1 read 0 2 = x6163\n20 40 p2 read 0 2 = x6264\n"
BY_SHARES = "reason: how reads of a pipe at once share its bytes (own; page of read)"
SHARED_LINES = """\
an order explains it where reads of a pipe at once take its bytes by turns, each byte once and in order
  p0 join = 0
  p0 pipe = 0 1
  p0 fork = 1
  p1 attach = ok
  p0 fork = 2
  p2 attach = ok
  p0 write 1 x61626364 = 4
  p1 read 0 1 = x61
  p2 read 0 1 = x62
  p1 read 0 1 = x63
  p2 read 0 1 = x64
"""
FIFOS = f"{JOINED}2 2 p0 mkfifo f = ok\n3 3 p0 open f r,nonblock = 0\n3 3 p0 open f w = 1\n"
TWO_FIFOS = f"{FIFOS}3 3 p0 unlink f = ok\n3 3 p0 mkfifo f = ok\n3 3 p0 open f r,nonblock = 2\n3 3 p0 open f w = 3\n"
HALF_SHARED = "20 40 p1 read 0 9 = x61\n20 40 p2 read 0 9 = x62\n50 51 p0 read 0 9 = x6364\n"
SHARES = [
    f"{FOUR}20 40 p1 read 0 9 = x6163\n20 40 p2 read 0 9 = x6264\n",
    f"{FOUR}20 40 p1 read 0 9 = x6164\n30 50 p2 read 0 9 = x6263\n",
    f"{FOUR}{HALF_SHARED}",
    f"{FIFOS}{AT_TURNS[len(PIPED) :]}",
    f"{THREE}12 60 p0 write 1 x{'61' * 300}{'62' * 300} = 600\n20 40 p1 read 0 400 = x{'61' * 150}{'62' * 250}\n"
    f"20 40 p2 read 0 400 = x{'61' * 150}{'62' * 50}\n",
    # of a pipe that is larger, and with a writer beside them
    f"{THREE}12 13 p0 write 1 61*1500 = 1500\n14 15 p0 write 1 62*2 = 2\n20 40 p1 read 0 1001 = x{'61' * 1000}62\n"
    f"20 40 p2 read 0 501 = x{'61' * 500}62\n",
    f"{FOUR}20 40 p0 write 1 x6566 = 2\n20 40 p1 read 0 3 = x616365\n20 40 p2 read 0 3 = x626466\n",
]
NOT_SHARES = [
    AT_TURNS.replace("20 40 p2", "41 42 p2"),
    f"{FOUR}20 40 p1 read 0 2 = x61\n20 40 p2 read 0 2 = x6264\n",
    f"{AT_TURNS.replace('x6163', 'x61')}50 51 p0 setfl 0 -,nonblock = ok\n52 53 p0 read 0 1 = error EAGAIN\n",
    AT_TURNS.replace("x6264", "x6163"),
    AT_TURNS.replace("x6264", "x6265"),
    AT_TURNS.replace("x6264", "x6462"),
    f"{AT_TURNS}50 51 p0 read 0 9 = x64\n",
    f"{FOUR}20 40 p1 read 0 9 = x61\n50 51 p0 read 0 9 = x626364\n",
    f"{FOUR}20 40 p1 read 0 9 = x61\n20 - p2 read 0 9 = parked ?\n50 51 p0 read 0 9 = x626364\n",
    f"{FOUR}20 40 p1 read 0 9 = x61\n20 40 p2 read 0 9 = x\n50 51 p0 read 0 9 = x626364\n",
    f"{FOUR}14 15 p0 pipe = 2 3\n16 17 p0 fork = 3\n18 19 p3 attach = ok\n19 19 p0 write 3 x65 = 1\n"
    "20 40 p1 read 0 9 = x61\n20 40 p3 read 2 9 = x65\n50 51 p0 read 0 9 = x626364\n",
    f"{TWO_FIFOS}{THREE[len(PIPED) :]}12 13 p0 write 1 x6162 = 2\n14 15 p0 write 3 x6364 = 2\n"
    "20 40 p1 read 0 9 = x61\n20 40 p2 read 2 9 = x6364\n50 51 p0 read 0 9 = x62\n",
]


# Reads that share beside one whose answer is not known. The nearest that are wrong whatever that is: it is not at once
# with them, a byte is nobody's, doubled or lost, or comes out of its order.
HIDDEN = f"{FOUR}20 40 p1 read 0 2 = x6163\n20 40 p2 read 0 1 = ?\n"
HIDDEN_SHARES = [
    HIDDEN,
    HIDDEN.replace("p2 read 0 1", "p2 read 0 9"),
    f"{HIDDEN}50 51 p0 read 0 9 = x64\n",
    HIDDEN.replace("12 13 p0 write 1 x61626364 = 4", "12 40 p0 write 1 x61626364 = ?"),
]
NOT_HIDDEN_SHARES = [
    HIDDEN.replace("20 40 p2", "41 42 p2"),
    HIDDEN.replace("x6163", "x6165"),
    HIDDEN.replace("x6163", "x6161"),
    HIDDEN.replace("x6163", "x6361"),
    HIDDEN.replace("x6163", "x6164"),
    f"{HIDDEN}50 51 p0 read 0 9 = x6264\n",
    f"{HIDDEN}50 51 p0 read 0 9 = x6465\n",
    f"{HIDDEN}50 - p0 read 0 9 = parked ?\n",
]


# Exits that hold the last ends of two pipes, and close one of them before the other; also of larger pipes, and where an
# exit is not known to have come back. The nearest that are wrong: a closed end is open again, the exit is over, or has
# not begun, an end is open in another process, and a byte is lost.
TWO_ENDS = f"{PIPED}4 5 p0 pipe = 2 3\n6 7 p0 setfl 2 r,nonblock = ok\n8 9 p0 fork = 1\n10 11 p1 attach = ok\n"
TWO_ENDS += "12 13 p0 close 0 = ok\n14 15 p0 close 3 = ok\n"
READER_FIRST = f"{TWO_ENDS}20 50 p1 exit = ok\n25 30 p0 write 1 x61 = error EPIPE\n"
READER_FIRST += "35 40 p0 read 2 1 = error EAGAIN\n52 53 p0 read 2 1 = x\n"
WRITER_FIRST = f"{TWO_ENDS}20 50 p1 exit = ok\n25 30 p0 read 2 1 = x\n"
WRITER_FIRST += "35 40 p0 write 1 x61 = 1\n52 53 p0 write 1 x61 = error EPIPE\n"
BY_EXITS = "reason: an exit closes its descriptors one by one (own; page of _exit)"
EXITS_APART = [
    READER_FIRST,
    WRITER_FIRST,
    READER_FIRST.replace("20 50 p1 exit = ok", "20 - p1 exit = ?").partition("52 53")[0],
    READER_FIRST.replace("20 50", "16 17 p1 dup 0 = 4\n20 50"),
    WRITER_FIRST.replace("20 50", "16 17 p0 write 1 61*1100 = 1100\n20 50"),
]
NOT_EXITS_APART = [
    READER_FIRST.replace("read 2 1 = error EAGAIN", "write 1 x61 = 1"),
    READER_FIRST.replace("20 50", "20 24"),
    READER_FIRST.replace("20 50", "41 50"),
    READER_FIRST.replace("20 50", "16 17 p1 fork = 2\n20 50"),
    WRITER_FIRST.replace("20 50", "16 17 p1 write 3 x62 = 1\n20 50"),
    WRITER_FIRST.replace("52 53 p0 write 1 x61 = error EPIPE", "52 53 p0 write 1 x61 = 1"),
]


# Small writes of which a part is read while they go on: where the rest is not there yet, where others come after them
# or put no bytes between, where an answer is not known, in a larger pipe, and where the rest waits for room. The
# nearest that are wrong: bytes of a small write or a large one stand between the parts, fewer are told, a byte is lost,
# the write is over or has not begun, and a file.
SEEN = f"{TWO}20 50 p0 write 1 61*400 = 400\n22 24 p1 read 0 400 = 61*200\n30 60 p1 read 0 400 = 61*200\n"
OF_TWO = f"{THREE}20 50 p0 write 1 61*400 = 400\n20 60 p1 write 1 62*100 = 100\n22 24 p2 read 0 400 = 61*200\n"
AFTER_SEEN = f"{OF_TWO}62 63 p2 read 0 400 = x{'61' * 200}{'62' * 100}\n"
BY_SMALL_PARTS = "reason: a small write goes in by parts (own; page of write)"
IN_SMALL_PARTS = [
    SEEN,
    f"{TWO}12 13 p1 setfl 0 r,nonblock = ok\n{SEEN[len(TWO) :]}".replace("30", "25 26 p1 read 0 1 = error EAGAIN\n30"),
    AFTER_SEEN,
    SEEN.replace("= 61*200", "= ?", 1).replace("= 61*200", "= 61*300"),
    SEEN.replace("20 50", "14 15 p0 write 1 61*1500 = 1500\n16 17 p1 read 0 1500 = 61*1500\n20 50"),
    f"{THREE}12 13 p0 setfl 0 r,nonblock = ok\n20 50 p0 write 1 61*400 = 400\n22 24 p2 read 0 400 = 61*200\n"
    "26 27 p1 write 0 x62 = error EBADF\n28 29 p2 read 0 1 = error EAGAIN\n62 63 p2 read 0 400 = 61*200\n",
]
FULL_SEEN = f"{THREE}12 13 p0 write 1 63*1000 = 1000\n20 50 p0 write 1 61*400 = 400\n21 60 p1 write 1 62*400 = 400\n"
FULL_SEEN += f"30 31 p2 read 0 1024 = x{'63' * 1000}{'61' * 24}\n"
NOT_IN_SMALL_PARTS = [
    f"{OF_TWO}62 63 p2 read 0 100 = 62*100\n64 65 p2 read 0 400 = 61*200\n",
    f"{OF_TWO.replace('62*100 = 100', '62*600 = 600')}62 63 p2 read 0 600 = 62*600\n64 65 p2 read 0 400 = 61*200\n",
    SEEN.replace("61*400 = 400", "61*400 = 200").replace("30 60", "55 60"),
    SEEN.replace("30 60 p1 read 0 400 = 61*200", "30 60 p1 read 0 400 = 61*199\n62 - p1 read 0 1 = parked ?"),
    SEEN.replace("20 50", "20 21"),
    SEEN.replace("20 50", "25 50"),
    SEEN.replace(PIPED, f"{JOINED}2 3 p0 open a rw,creat = 0\n3 3 p0 dup 0 = 1\n"),
]


# The size of a pipe beside writes in parts, and beside reads that share; the nearest that are wrong in another answer.
BESIDE = [
    (f"{TORN}45 46 p0 fstat 0 = pipe 0 1\n{TORN_READS}54 55 p2 read 0 600 = 61*113\n", BY_PARTS),
    (f"{FOUR}14 15 p0 fstat 1 = pipe 0 1\n{AT_TURNS[len(FOUR) :]}", BY_SHARES),
    (READER_FIRST.replace("20 50", "16 17 p1 fstat 0 = pipe 0 1\n20 50"), BY_EXITS),
]
NOT_BESIDE = [
    BESIDE[0][0].replace("54 55 p2 read 0 600 = 61*113", "54 55 p2 read 0 600 = 61*112\n56 - p2 read 0 1 = parked ?"),
    BESIDE[0][0].replace("fstat 0 = pipe 0 1", "getfl 0 = 2"),
    BESIDE[1][0].replace("x6264", "x6265"),
    BESIDE[1][0].replace("14 15 p0 fstat 1 = pipe 0 1", "14 15 p0 fstat 1 = fifo 0 1"),
]


# Small writes that are torn: for want of room in fdref's pipes, too, which is not what is wrong.
TORN_SMALL = f"{THREE}12 13 p0 write 1 63*100 = 100\n20 40 p0 write 1 61*512 = 512\n20 40 p1 write 1 62*512 = 512\n"
TORN_SMALL += f"50 51 p2 read 0 400 = x{'63' * 100}{'61' * 300}\n52 53 p2 read 0 512 = 62*512\n"
NOT_BY_ROOM = f"page of write: at most PIPE_BUF bytes are not interleaved; page of read, {WHERE_ROOMY}{HINT}"


def part_cases(program: str) -> Iterator[Case]:
    """What is told of writes of more than PIPE_BUF bytes that go in by parts."""
    for text, end in IN_PARTS:
        yield f"in parts: {text}", partial(ends_with, program, text, 0, end)
    for text in NOT_IN_PARTS:
        yield f"in no parts: {text}", partial(fails, program, text, 1, "no order explains it")
    for text in PARTLY_KNOWN:
        yield f"in parts, partly known: {text}", partial(ends_with, program, text, 0, BY_PARTS)
    for text in NOT_PARTLY_KNOWN:
        yield f"in no parts, partly known: {text}", partial(fails, program, text, 1, "no order explains it")
    yield "no more than a larger pipe holds, partly known", partial(ends_with, program, MORE_THAN_HELD, 0, BY_PARTS)
    held = "no order explains it", "--pipe-capacity", "1024"
    yield "more than the pipe holds, partly known", partial(fails, program, MORE_THAN_HELD, 1, *held)
    yield "EPIPE of a part", partial(ends_with, program, BROKEN, 0, f"  p0 resume = 1024\n{BY_EPIPE}")
    for text in NOT_BROKEN:
        yield f"no EPIPE of a part: {text}", partial(fails, program, text, 1, "no order explains it")
    counted = "histories 2 explained 1 unexplained 0 given up 0 EPIPE after a part 1"
    yield "EPIPE of a part, counted", partial(ends_with, program, f"{BROKEN}\n{GOOD}", 0, counted)
    for text, line in EARLY_ENDS:
        yield f"ends early: {text}", partial(ends_with, program, text, 0, f"{line}\n{BY_EARLY_END}")
    for text in NO_EARLY_ENDS:
        yield f"does not end early: {text}", partial(fails, program, text, 1, "no order explains it")
    counted = "histories 2 explained 1 unexplained 0 given up 0 writes that end early 1"
    yield "ends early, counted", partial(ends_with, program, f"{CUT_OFF}\n{GOOD}", 0, counted)
    known = ("--pipe-capacity", "1024")
    yield "ends as nonblock is set", partial(ends_with, program, SET_MEANWHILE, 0, BY_UNBLOCKED, *known)
    for text in NOT_SET_MEANWHILE:
        case = partial(fails, program, text, 1, "no order explains it", *known)
        yield f"ends though nonblock is not set: {text}", case
    counted = "histories 2 explained 1 unexplained 0 given up 0 nonblock set while a write waits 1"
    both = f"{SET_MEANWHILE}\n{GOOD}"
    yield "ends as nonblock is set, counted", partial(ends_with, program, both, 0, counted, *known)
    for text in FREEINGS:
        yield f"takes what is freed: {text}", partial(ends_with, program, text, 0, BY_PARTS, *known)
    for text in NO_FREEINGS:
        yield f"does not take what is freed: {text}", partial(fails, program, text, 1, "no order explains it", *known)
    for text in PAST_MOST:
        yield f"more than fdref takes: {text}", partial(ends_with, program, text, 0, BY_TRANSFER)
    for text in NOT_PAST_MOST:
        yield f"not more than fdref takes: {text}", partial(fails, program, text, 1, "no order explains it")
    counted = "histories 2 explained 1 unexplained 0 given up 0 more than 65,536 bytes 1"
    yield "more than fdref takes, counted", partial(ends_with, program, f"{OVER}\n{GOOD}", 0, counted)
    lines = f"{SHARED_LINES}{BY_SHARES}\n"
    yield "reads that share", partial(prints, program, AT_TURNS, 0, lines)
    for text in SHARES:
        yield f"reads that share: {text}", partial(ends_with, program, text, 0, BY_SHARES)
    for text in NOT_SHARES:
        yield f"reads that do not share: {text}", partial(fails, program, text, 1, "no order explains it")
    for text in HIDDEN_SHARES:
        yield f"reads that share, partly known: {text}", partial(ends_with, program, text, 0, BY_SHARES)
    for text in NOT_HIDDEN_SHARES:
        yield f"reads that do not share, partly known: {text}", partial(fails, program, text, 1, "no order explains it")
    for text, reason in BESIDE:
        yield f"two reasons: {text}", partial(ends_with, program, text, 0, f"reason: {STAT}\n{reason}")
    for text in NOT_BESIDE:
        yield f"not two reasons: {text}", partial(fails, program, text, 1, "no order explains it")
    counted = "histories 2 explained 1 unexplained 0 given up 0 reads that share 1"
    yield "reads that share, counted", partial(ends_with, program, f"{AT_TURNS}\n{GOOD}", 0, counted)
    for text in EXITS_APART:
        yield f"an exit by closes: {text}", partial(ends_with, program, text, 0, BY_EXITS)
    for text in NOT_EXITS_APART:
        yield f"an exit by no closes: {text}", partial(fails, program, text, 1, "no order explains it")
    counted = "histories 2 explained 1 unexplained 0 given up 0 exits that close one by one 1"
    yield "an exit by closes, counted", partial(ends_with, program, f"{WRITER_FIRST}\n{GOOD}", 0, counted)
    for text in IN_SMALL_PARTS:
        yield f"in small parts: {text}", partial(ends_with, program, text, 0, BY_SMALL_PARTS)
    yield "small parts as room comes", partial(ends_with, program, FULL_SEEN, 0, BY_SMALL_PARTS, *known)
    for text in NOT_IN_SMALL_PARTS:
        yield f"in no small parts: {text}", partial(fails, program, text, 1, "no order explains it")
    counted = "histories 2 explained 1 unexplained 0 given up 0 small writes in parts 1"
    yield "in small parts, counted", partial(ends_with, program, f"{SEEN}\n{GOOD}", 0, counted)
    yield "torn, and out of room", partial(ends_with, program, TORN_SMALL, 1, NOT_BY_ROOM)
    counted = "histories 2 explained 1 unexplained 0 given up 0 writes in parts 1"
    yield "in parts, counted", partial(ends_with, program, f"{IN_PARTS[1][0]}\n{GOOD}", 0, counted)


def finds_a_wrong_program(program: str) -> None:
    """A program that is not what the plain model is, in an answer or where a call waits, is told."""
    with tempfile.TemporaryDirectory(prefix="fdref-") as folder:
        for wrong, text in (("s/= x61$/= x63/", GOOD), ("s/resume = still/resume = x61/", WAITING)):
            path = os.path.join(folder, "wrong")
            Path(path).write_text(f'#!/bin/sh\n"{program}" "$@" | sed "{wrong}"\n', encoding="utf-8")
            os.chmod(path, stat.S_IRWXU)
            fails(path, text, 3, "the program differs from the plain model")


# Pipes of 65,536 bytes with pages of 16,384. Four writes of 9,000 bytes take one each; 7,768 bytes of the last page are
# free after 49,152 bytes, 5,000 and a part of 20,000. The nearest that no size of a page explains.
WET = f"{PIPED}4 5 p0 setfl 1 -,nonblock = ok\n"
PAGES_OF_16K = [
    (f"{WET}" + "8 8 p0 write 1 61*9000 = 9000\n" * 4, "20 21 p0 write 1 62*9000 = error EAGAIN", "9000", ""),
    (
        f"{WET}8 8 p0 write 1 61*49152 = 49152\n9 9 p0 write 1 61*5000 = 5000\n",
        "20 21 p0 write 1 62*20000 = 3616",
        "11384",
        "30 31 p0 write 1 63*7000 = 7000\n",
    ),
]
NO_PAGES = [
    (f"{WET}" + "8 8 p0 write 1 61*9000 = 9000\n" * 3, "20 21 p0 write 1 62*9000 = error EAGAIN", "9000", ""),
    (f"{WET}8 8 p0 write 1 61*100 = 100\n", "20 21 p0 write 1 62*40000 = error EAGAIN", "40000", ""),
    (
        f"{WET}8 8 p0 write 1 61*16384 = 16384\n9 9 p0 write 1 61*5000 = 5000\n",
        "20 21 p0 write 1 62*20000 = 3616",
        "20000",
        "30 31 p0 write 1 63*20000 = 20000\n",
    ),
]


# Pipes of sixteen pages, of which the last is not full. It takes of a large write what that has beside whole pages, if
# all of that fits: 500 bytes of 33,268, and 904 of 5,000. The nearest that are in no such pages: it would have had room
# for that, as a later write shows, or takes more or less of it, or is not full after a whole page.
SIXTEENTH = f"{WET}6 7 p0 write 1 61*61440 = 61440\n8 9 p0 write 1 61*100 = 100\n"
NEARLY_FULL = SIXTEENTH.replace("61*100 = 100", "61*3597 = 3597")
FIFTEENTH = f"{WET}6 7 p0 write 1 61*61000 = 61000\n"
BESIDE_PAGES = [
    (NEARLY_FULL, "20 21 p0 write 1 62*33268 = error EAGAIN", "499", "22 23 p0 write 1 63*499 = 499\n"),
    (SIXTEENTH, "20 21 p0 write 1 62*5000 = 904", "3996", "22 23 p0 write 1 63*3092 = 3092\n"),
    (FIFTEENTH, "20 21 p0 write 1 62*5000 = 4096", "4536", "22 23 p0 write 1 63*400 = error EAGAIN\n"),
]
NOT_BESIDE_PAGES = [
    (SIXTEENTH, "20 21 p0 write 1 62*33268 = error EAGAIN", "22 23 p0 write 1 63*1000 = 1000\n"),
    (SIXTEENTH, "20 21 p0 write 1 62*5000 = 905", ""),
    (SIXTEENTH, "20 21 p0 write 1 62*5000 = 903", ""),
    (FIFTEENTH, "20 21 p0 write 1 62*5000 = 4096", "22 23 p0 write 1 x63 = 1\n"),
]
# An empty pipe takes all that it holds, whatever its pages.
EMPTY_TAKES = [(f"{WET}20 21 p0 write 1 62*9000 = 8192\n", capacity) for capacity in ("12288", "16384", "65536")]


def page_cases(program: str) -> Iterator[Case]:
    """What is told where the pages of a system may be larger."""
    for before, call, answer, after in BESIDE_PAGES:
        end = f"\n  {call}\nfdref answers {answer}\nreason: room of a pipe that is counted in pages (own; page of write)"
        case = partial(fails, program, f"{before}{call}\n{after}", 0, end, "--pipe-capacity", "65536")
        yield f"beside whole pages: {call}; {after}", case
    for before, call, after in NOT_BESIDE_PAGES:
        case = partial(fails, program, f"{before}{call}\n{after}", 1, f"\n  {call}\n", "--pipe-capacity", "65536")
        yield f"not beside whole pages: {call}; {after}", case
    whole, end = f"{WET}20 21 p0 write 1 62*9000 = 8192\n", "3 p0 write 1 62*9000 = 8192"
    whole = f"{whole}22 23 p0 write 1 x62 = error EAGAIN\n"
    yield "a pipe of two pages", partial(fails, program, whole, 0, end, "--pipe-capacity", "8192")
    for text, capacity in EMPTY_TAKES:
        case = partial(ends_with, program, text, 1, f"fdref answers 9000\n{WRITE}", "--pipe-capacity", capacity)
        yield f"an empty pipe of {capacity} bytes that takes less", case
    known = ("--pipe-capacity", "65536")
    paged = "room of a pipe that is counted in pages (own; page of write)"
    for before, call, answer, after in PAGES_OF_16K:
        text = f"{before}{call}\n{after}"
        yield f"larger pages: {call}", partial(prints, program, text, 0, chosen(call, answer, paged), *known)
    for before, call, answer, after in NO_PAGES:
        text = f"{before}{call}\n{after}"
        yield f"no pages: {call}", partial(fails, program, text, 1, f"{call}\nfdref answers {answer}\npage of", *known)


def capacity_cases(program: str) -> Iterator[Case]:
    """What is told where it is said how many bytes a pipe of the system holds."""
    asked = ROOMY_LINES.splitlines()[1:-1]
    larger = "".join([GOOD_LINES.splitlines(True)[0], *(f"{at} {line.strip()}\n" for at, line in enumerate(asked))])
    yield "a pipe of 1,200 bytes", partial(prints, program, ROOMY, 0, larger, "--pipe-capacity", "1200")
    known = ("--pipe-capacity", "1199")
    small = "  70 80 p0 write 1 61*600 = 600\nfdref answers parked 599\npage of write: a pipe or FIFO"
    yield "a pipe of 1,199 bytes", partial(ends_with, program, ROOMY, 1, small, *known)
    least = ROOMY.replace("= 600\n70", "= 600\n60 65 p0 read 0 1 = x61\n70")
    yield "a pipe that has room then", partial(ends_with, program, least, 0, "4 p0 write 1 61*600 = 600", *known)
    yield "a pipe of 511 bytes", partial(fails, program, ROOMY, 2, "from 512 to 65536", "--pipe-capacity", "511")
    free = f"{HELD_100}20 21 p0 write 1 62*65500 = error EAGAIN\n"
    blamed = "fdref answers 65436\npage of write: a pipe or FIFO"
    yield "fifteen pages that are free", partial(ends_with, program, free, 1, blamed, "--pipe-capacity", "65536")
    full = f"{HELD_NONBLOCK}" + "".join(f"{at} {at} p0 write 1 61*3100 = 3100\n" for at in range(8, 23))
    full += "40 41 p0 write 1 62*5000 = error EAGAIN\n"
    paged = "fdref answers 5000\nreason: room of a pipe that is counted in pages (own; page of write)"
    yield "no page that is free", partial(ends_with, program, full, 0, paged, "--pipe-capacity", "65536")
    for text, call in NO_PIECES:
        yield f"no larger PIPE_BUF: {text}", partial(fails, program, text, 1, f"{call}\n", "--pipe-capacity", "1024")
    for text in PIECES_WHOLE:
        yield f"a larger PIPE_BUF: {text}", partial(ends_with, program, text, 0, PIECE, "--pipe-capacity", "1024")
    yield from page_cases(program)
    page = f"{PIPED}4 5 p0 fork = 1\n6 7 p1 attach = ok\n8 9 p0 setfl 1 -,nonblock = ok\n"
    page += "10 11 p0 write 1 61*9000 = 4096\n12 20 p0 write 1 x61 = error EAGAIN\n"
    page += "15 18 p1 write 1 x61 = error EAGAIN\n"
    own = "fdref answers 9000, where a pipe has room for 65,536 bytes, in an order that explains the others\n"
    own += f"reason: {ROOM}"
    yield "a pipe of 4,096 bytes", partial(ends_with, program, page, 0, own)
    bare = f"{page}21 22 p1 read 7 1 = x61\n"
    yield "a pipe of 4,096 bytes, which may be a reason", partial(ends_with, program, bare, 1, f"perhaps: {ROOM}")
    room, end = ("--pipe-capacity", "4096"), "p0 write 1 x61 = error EAGAIN"
    yield "a pipe of 4,096 bytes, as is told", partial(ends_with, program, page, 0, f"7 {end}", *room)
    last = f"reason: {ROOM}"
    yield "a write that waits at a pipe of 4,096 bytes", partial(ends_with, program, PAST_PAGE, 0, last)
    paged = "reason: room of a pipe that is counted in pages (own; page of write)"
    yield "a write that waits at a page", partial(ends_with, program, PAST_PAGE, 0, paged, *room)
    for text, capacity in NOT_PAST_PAGE:
        case = partial(fails, program, text, 1, "page of write", "--pipe-capacity", capacity)
        yield f"a write that does not wait at a page: {text}", case
    bare = f"{PAST_PAGE}40 41 p1 read 0 4000 = 61*1000\n"
    yield "a write that waits in vain", partial(fails, program, bare, 1, WOKEN)


# A write that waits, of which a part is read, as it does at a pipe of one page of 4,096 bytes; and where it does not,
# at a pipe of so many bytes.
PAST_PAGE = f"{TWO}20 - p0 write 1 61*5000 = parked ?\n30 31 p1 read 0 4000 = 61*4000\n"
NOT_PAST_PAGE = [(PAST_PAGE, "8192"), (PAST_PAGE.replace("4000", "4096"), "4096")]
WOKEN = "page of write: it waits until there is room, or no reader"


# Writes to a pipe of 1,024 bytes that go in whole or not at all, though they are of more than 512 bytes, with calls
# that overlap and without; and the nearest that are wrong, with the call that is to blame: a part is read, it is more
# than the pipe holds, one of fewer bytes was cut, there is room, and without nonblock.
PIECE = "reason: PIPE_BUF is more than 512 bytes (own; pages of limits.h and write)"
WHOLE = f"{TWO}8 9 p0 setfl 1 -,nonblock = ok\n10 11 p0 write 1 61*724 = 724\n"
WHOLE += "20 30 p0 write 1 62*600 = error EAGAIN\n"
PIECES_WHOLE = [
    f"{WHOLE}40 41 p1 read 0 1024 = 61*724\n",
    f"{WHOLE}22 29 p1 getfl 0 = 1\n40 41 p1 read 0 1024 = 61*724\n",
    f"{WHOLE}40 41 p0 write 1 63*601 = 300\n",
]
NO_PIECES = [
    (f"{WHOLE}40 41 p1 read 0 1024 = x{'61' * 724}{'62' * 300}\n", "x" + "61" * 724 + "62" * 300),
    (WHOLE.replace("62*600", "62*1025"), "62*1025 = error EAGAIN"),
    (f"{WHOLE}40 41 p0 write 1 63*599 = 300\n", "62*600 = error EAGAIN"),
    (WHOLE.replace("724", "424"), "62*600 = error EAGAIN"),
    (WHOLE.replace("-,nonblock", "-"), "62*600 = error EAGAIN"),
]


# Writes that wait though there is room for the rest in each pipe, as the reads tell: with the nearest that may wait, of
# which one byte fewer is read, or that is not known to be read of it.
SMALL_LOST = f"{TWO}20 - p0 write 1 61*600 = parked ?\n30 31 p1 read 0 88 = 61*88\n"
HELD_LOST = f"{TWO}12 13 p0 write 1 61*500 = 500\n20 - p0 write 1 62*400 = parked ?\n30 31 p1 read 0 388 = 61*388\n"
PAGE_LOST = f"{TWO}12 13 p0 write 1 61*8192 = 8192\n20 - p0 write 1 62*100 = parked ?\n30 31 p1 read 0 8191 = 61*8191\n"
BOTH_LOST = f"{TWO}8 9 p0 fork = 2\n10 11 p2 attach = ok\n20 - p0 write 1 61*600 = parked ?\n"
BOTH_LOST += "21 - p1 write 1 62*600 = parked ?\n30 31 p2 read 0 600 = 61*600\n"
OTHER_READ = f"{TWO}12 13 p1 pipe = 2 3\n14 15 p1 write 3 61*600 = 600\n20 - p0 write 1 61*600 = parked ?\n"
ONE_PAGE = PAGE_LOST.replace("8192", "4096").replace("8191", "4095")
READ_AGAIN = f"{TWO}20 - p0 write 1 61*600 = parked ?\n30 31 p1 read 0 600 = "
LOST = [
    SMALL_LOST,
    HELD_LOST,
    BOTH_LOST,
    f"{READ_AGAIN}61*600\n32 33 p1 exit = ok\n".replace("30 31", "8 9 p0 fork = 2\n10 11 p2 attach = ok\n30 31"),
    f"{BOTH_LOST}32 33 p2 read 0 600 = 62*600\n",
    f"{READ_AGAIN}61*600\n32 33 p1 read 0 600 = error EAGAIN\n".replace("20 -", "8 9 p1 setfl 0 -,nonblock = ok\n20 -"),
    f"{TWO}20 - p0 write 1 61*2000 = parked ?\n30 31 p1 read 0 1024 = 61*1024\n40 41 p1 read 0 900 = 61*900\n",
]
MAY_WAIT = [
    SMALL_LOST.replace("88", "87"),
    HELD_LOST.replace("388", "387"),
    BOTH_LOST.replace("read 0 600 = 61*600", "read 0 599 = 61*599"),
    BOTH_LOST.replace("62*600", "61*600"),
    f"{READ_AGAIN}?\n",
    f"{OTHER_READ}30 31 p1 read 2 600 = 61*600\n",
]
# Writes to a pipe of so many bytes that have no room, though reads have emptied a page, whatever order calls at once
# take and whichever size a page has; and the nearest that have a reason: no page was emptied, or perhaps none.
EMPTIED = f"{TWO}10 11 p0 write 1 61*4096 = 4096\n12 13 p0 write 1 61*4096 = 4096\n"
EMPTIED += "20 - p0 write 1 62*600 = parked ?\n30 31 p1 read 0 4096 = 61*4096\n"
BOTH_FILL = f"{TWO}8 9 p0 fork = 2\n10 11 p2 attach = ok\n12 15 p0 write 1 61*100 = 100\n"
BOTH_FILL += "12 15 p1 write 1 61*4096 = 4096\n20 - p0 write 1 61*4096 = parked ?\n30 31 p2 read 0 4096 = 61*4096\n"
SIXTEEN = "".join(f"{at} {at} p0 write 1 61*4096 = 4096\n" for at in range(10, 26))
SIXTEEN = f"{TWO}{SIXTEEN}40 - p0 write 1 62*600 = parked ?\n50 51 p1 read 0 32768 = 61*32768\n"
PART_WAITS = EMPTIED.replace("62*600", "62*4097")
DRY_PAGE = EMPTIED.replace("10 11", "8 9 p0 setfl 1 -,nonblock = ok\n10 11").replace("20 -", "40 50")
DRY_PAGE = f"{DRY_PAGE.replace('parked ?', 'error EAGAIN')}42 43 p1 getfl 0 = 1\n"
EMPTIED_LOST = [
    (EMPTIED, 8192),
    (BOTH_FILL, 8192),
    (SIXTEEN, 65536),
    (f"{PART_WAITS}40 41 p1 read 0 4096 = 61*4096\n", 8192),
    (DRY_PAGE, 8192),
]
EMPTIED_WAITS = [
    (EMPTIED.replace("4096 = 61*4096\n", "4095 = 61*4095\n"), 8192),
    (BOTH_FILL.replace("4096 = 61*4096\n", "100 = 61*100\n"), 8192),
    (SIXTEEN.replace("32768", "4096"), 65536),
    (DRY_PAGE.replace("4096 = 61*4096\n", "4095 = 61*4095\n"), 8192),
]


# Writes that wait where no process has the reading end open at the end, so that no room excuses them: the last reader
# has gone by an exit or a close, its pipe may be full, be a FIFO, or have another writer that is told. The nearest that
# may wait: the reading end is open in a child of which nothing is known, by another descriptor or name, or perhaps.
READERLESS = f"{LONE}20 - p0 write 1 61*600 = parked ?\n30 40 p1 exit = ok\n"
FULL_FIFO = f"{JOINED_TWO}4 5 p0 mkfifo q = ok\n6 7 p0 open q r,nonblock = 0\n8 9 p1 open q w = 0\n"
FULL_FIFO += "10 11 p1 write 0 61*4096 = 4096\n20 - p1 write 0 x61 = parked ?\n30 40 p0 close 0 = ok\n"
NO_READER = [
    READERLESS,
    READERLESS.replace("61*600", "61*65500"),
    READERLESS.replace("10 11 p1 close 1 = ok", "10 11 p0 write 1 61*4096 = 4096").replace("exit = ok", "dup2 1 0 = 0"),
    f"{READERLESS.replace('exit', 'close 0')}50 51 p1 open f r,creat = 0\n",
    READERLESS.replace("20 -", "12 13 p0 fork = 2\n14 15 p2 attach = ok\n21 45 p2 write 1 x62 = error EPIPE\n20 -"),
    FULL_FIFO,
]
A_READER = [
    READERLESS.replace("20 -", "12 13 p1 fork = 2\n20 -"),
    READERLESS.replace("20 -", "12 13 p1 dup 0 = 1\n20 -").replace("exit", "close 0"),
    READERLESS.replace("30 40 p1 exit = ok", "30 - p1 exit = ?"),
    FULL_FIFO.replace("20 -", "12 13 p0 link q s = ok\n20 -") + "35 36 p2 join = 2\n37 45 p2 open s r,nonblock = 0\n",
    f"{FULL_FIFO}50 - p0 open q r,nonblock = ?\n",
]


# A write that waits for a page, and after it another one that is not to wait and finds none either, as nonblock is set
# meanwhile.
SET_AFTER = f"{TWO}8 9 p0 write 1 61*65536 = 65536\n20 - p0 write 1 62*5000 = parked ?\n"
SET_AFTER += "30 31 p1 read 0 5000 = 61*5000\n32 33 p1 read 0 3000 = 61*3000\n"
SET_AFTER += "34 35 p1 setfl 1 -,nonblock = ok\n36 37 p1 write 1 63*700 = error EAGAIN\n"


# Writes that wait for a page to the end, with nonblock set meanwhile, while others go on at the pipe: one that began
# before that was set, and ends after a read; and one that is not to wait, and gets the page that a read has freed. The
# nearest that are wrong: it is set before they begin, more pages are free, and another count.
LATE_WAITS = f"{THREE}12 13 p0 write 1 61*65000 = 65000\n"
LATE_WAITS += "20 48 p0 write 1 62*5000 = 5000\n22 - p2 write 1 63*5000 = parked ?\n30 32 p1 setfl 1 w,nonblock = ok\n"
LATE_WAITS += "34 50 p1 read 0 8192 = 61*8192\n52 53 p1 read 0 3000 = 61*3000\n"
LATE_GETS = f"{THREE}12 13 p0 write 1 61*65000 = 65000\n20 - p0 write 1 62*9000 = parked ?\n"
LATE_GETS += "22 28 p1 setfl 1 w,nonblock = ok\n30 31 p1 read 0 5000 = 61*5000\n34 40 p2 write 1 63*5000 = 4096\n"
LATES = [
    LATE_WAITS,
    LATE_WAITS.replace("30 32", "21 32"),
    LATE_GETS,
]
NO_LATES = [
    LATE_WAITS.replace("30 32", "17 18"),
    LATE_WAITS.replace("3000 = 61*3000", "56808 = 61*56808"),
    LATE_WAITS.replace("62*5000 = 5000", "62*5000 = 5001"),
    LATE_WAITS.replace("0 3000 = 61*3000", "0 3000 = 62*3000"),
    LATE_GETS.replace("22 28", "17 18"),
    # a pipe that is empty meanwhile has room
    f"{THREE}12 13 p1 setfl 0 -,nonblock = ok\n{LATE_WAITS[len(THREE) :].replace('12 13', '14 15')}"
    "54 55 p1 read 0 65536 = x" + "61" * 53808 + "62" * 5000 + "\n56 57 p1 read 0 1 = error EAGAIN\n",
    LATE_GETS.replace("= 4096", "= 4095"),
    LATE_GETS.replace("0 5000 = 61*5000", "0 65000 = 61*65000"),
]


def lost_cases(program: str) -> Iterator[Case]:
    """What is told of writes that are not woken."""
    for text in LATES:
        end = "reason: room of a pipe that is counted in pages (own; page of write)"
        yield f"waits on for a page: {text}", partial(ends_with, program, text, 0, end, "--pipe-capacity", "65536")
    for text in NO_LATES:
        case = partial(fails, program, text, 1, "no order explains it", "--pipe-capacity", "65536")
        yield f"does not wait on for a page: {text}", case
    woken, known = "page of write: it waits until there is room", ("--pipe-capacity", "4096")
    for text in LOST:
        yield f"a write not woken: {text}", partial(fails, program, text, 1, woken)
    for text in MAY_WAIT:
        yield f"a write that may wait: {text}", partial(ends_with, program, text, 0, f"reason: {ROOM}")
    for text in NO_READER:
        yield f"a write without a reader: {text}", partial(fails, program, text, 1, woken)
    for text in A_READER:
        yield f"a write that may have a reader: {text}", partial(ends_with, program, text, 0, f"reason: {ROOM}")
    paged = "reason: room of a pipe that is counted in pages (own; page of write)"
    yield "a write beside a page", partial(fails, program, PAGE_LOST, 1, woken, "--pipe-capacity", "8192")
    yield "a write beside the end of one page", partial(ends_with, program, ONE_PAGE, 0, paged, *known)
    for text, room in EMPTIED_LOST:
        case = partial(fails, program, text, 1, "page of write", "--pipe-capacity", str(room))
        yield f"no room beside a page that is free: {text}", case
    for more, status, end in (("", 0, paged), ("40 41 p1 read 0 57536 = 61*57536\n", 1, "no order explains it")):
        case = partial(fails, program, f"{SET_AFTER}{more}", status, end, "--pipe-capacity", "65536")
        yield f"a write that waits for a page, and one that does not wait; {more}", case
    for text, room in EMPTIED_WAITS:
        case = partial(ends_with, program, text, 0, paged, "--pipe-capacity", str(room))
        yield f"no page that is free: {text}", case
    emptied = ONE_PAGE.replace("20 -", "14 15 p1 read 0 4096 = 61*4096\n16 17 p0 write 1 61*300 = 300\n20 -")
    emptied = emptied.replace("30 31 p1 read 0 4095 = 61*4095", "30 31 p1 read 0 299 = 61*299")
    yield "a write beside a page that was empty", partial(fails, program, emptied, 1, woken, *known)


def long_history(count: int = 10_000) -> str:
    """A history of many calls, of which few overlap: it takes seconds, where all pairs of them would take minutes."""
    calls = [f"{10 * at} {10 * at + 11} p{at % 2} pwrite 0 {at % 100} x61 = 1\n" for at in range(1, count)]
    return f"{FORKED}{''.join(calls)}"


def is_searched(program: str, text: str) -> None:
    """An order of a history is found in a minute."""
    ran = told(program, text, "--quiet")
    same((0, b""), (ran.status, ran.stdout))


def tells_bounds(program: str) -> None:
    """Of a search that takes long it is told how long it may take, and the help tells what it takes else."""
    with tempfile.TemporaryDirectory(prefix="fdref-") as folder:
        file = Path(folder, "history")
        file.write_text(GOOD)
        # what takes a second is long here
        code = "import functools, time, sys, order, waits\norder.Long = functools.partial(waits.Long, seconds=0.1)\n"
        code += "found = order.Orders.answer\norder.Orders.answer = lambda *words: (time.sleep(1), found(*words))\n"
        code += "sys.exit(order.main(sys.argv[1:]))"
        words = ["env", f"PYTHONPATH={TOOLS}", sys.executable, "-c", code, str(file), "--program", program]
        ran = run([*words, "--seconds", "7", "--states", "8000"])
    bound = "each search ends after 7 seconds (--seconds) or 8,000 states (--states)"
    told_of = f"order.py: looks for an order of history 1 of 1, 6 calls, and has fdref run it; {bound}\n"
    same((0, GOOD_LINES, told_of), (ran.status, ran.stdout.decode(), ran.stderr.decode()))
    help_text = run([sys.executable, str(TOOLS / "order.py"), "--help"]).stdout.decode()
    require("so long (60)" in help_text and "states (1,000,000)" in help_text, help_text)


def tells_what_it_waits_for(program: str) -> None:
    """Where no history comes for long it is told from where one is waited for."""
    with tempfile.TemporaryDirectory(prefix="fdref-") as folder:
        file = Path(folder, "history")
        file.write_text(GOOD)
        # what takes a second is long here
        code = "import functools, sys, order, waits\norder.Long = functools.partial(waits.Long, seconds=0.1)\n"
        code += "sys.exit(order.main(sys.argv[1:]))"
        words = ["env", f"PYTHONPATH={TOOLS}", sys.executable, "-c", code, "-", "--program", program]
        ran = run(["sh", "-c", f"{{ sleep 3; cat {file}; }} | {shlex.join(words)}"])
    same((0, GOOD_LINES), (ran.status, ran.stdout.decode()))
    require(ran.stderr.decode().startswith("order.py: waits for histories from the standard input\n"), ran.said())


def cases(program: str) -> Iterator[Case]:
    """What is printed, and each status."""
    totals = "histories 4 explained 3 unexplained 1 given up 0\n"
    several = f"history 1: {GOOD_LINES}history 2: {BAD_LINES}history 3: as history 1\nhistory 4: {EARLY_LINES}{totals}"
    four = "\n".join([GOOD, BAD, LATER, EARLY])
    yield "an order", partial(prints, program, GOOD, 0, GOOD_LINES)
    yield "an order with flags and names", partial(prints, program, RENAMED, 0, RENAMED_LINES)
    yield "no order", partial(prints, program, BAD, 1, BAD_LINES)
    yield "two that may be wrong", partial(prints, program, SAME_BYTE, 1, SAME_BYTE_LINES)
    yield "one that is wrong", partial(says_no_others, program, ONE_WRONG)
    yield "several histories", partial(prints, program, four, 1, several)
    yield "a larger pipe", partial(prints, program, ROOMY, 0, ROOMY_LINES)
    both = f"history 1: {ROOMY_LINES}history 2: {GOOD_LINES}"
    both += "histories 2 explained 1 unexplained 0 given up 0 room of a pipe 1\n"
    yield "a larger pipe, counted", partial(prints, program, f"{ROOMY}\n{GOOD}", 0, both)
    yield from capacity_cases(program)
    yield from lost_cases(program)
    yield from part_cases(program)
    wrong = ROOMY.replace("70 80 p0 write 1 61*600 = 600", "70 80 p0 read 0 9 = x")
    yield "a larger pipe, in vain", partial(fails, program, wrong, 1, "no order explains it")
    yield "a long history", partial(is_searched, program, long_history())
    wrong = f"{long_history(4_000)}50000 50001 p0 pread 0 0 1 = x62\n"
    yield "a long history with a wrong answer", partial(fails, program, wrong, 1, "page of pread")
    yield "quiet", partial(prints, program, four, 1, f"history 2: {BAD_LINES}{totals}", "--quiet")
    yield from reason_cases(program)
    yield "no history", partial(says_of_nothing, program)
    yield "how long a search takes", partial(tells_bounds, program)
    yield "what it waits for", partial(tells_what_it_waits_for, program)
    yield "given up after states", partial(prints, program, GOOD, 5, "given up after 2 states\n", "--states", "1")
    yield "wrong words", partial(fails, program, GOOD, 2, "unrecognized", "--no")
    yield "no program", partial(fails, "/no/program", GOOD, 3, "no program at /no/program")
    yield "a command of several words", partial(prints, f"env {program}", GOOD, 0, GOOD_LINES)
    yield "a program that ends badly", partial(fails, "/bin/false", GOOD, 3, "status 1")
    yield "a line that is no call", partial(fails, program, f"{GOOD}\n1 2 p0 jion = 0\n", 4, "line 8: ")
    no_answer = "line 2: pipe does not give 0; expected two descriptors, as 0 1, an error, as error EBADF, or ?\n"
    yield "a line without an answer", partial(fails, program, GOOD.replace("= 0 1", "= 0"), 4, f"order.py: {no_answer}")
    long = "line 2: not an act, from byte 16 on; expected data of at most 65700 bytes, as x6869 or 61*512\n"
    yield "data too long", partial(fails, program, f"{JOINED}2 3 p0 write 0 61*65701 = 1\n", 4, f"order.py: {long}")
    yield "what is built", takes_what_is_built
    yield "the example", partial(answers_the_example, program)
    yield "a file", partial(reads_a_file, program)
    yield "no file", partial(fails_without_file, program)
    yield "a program that differs", partial(finds_a_wrong_program, program)
