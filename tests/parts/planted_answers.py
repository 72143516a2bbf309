"""What tools/compare.py says of a single answer of a system that does all else as the profile says: of a wrong one that
it is a difference without a reason, and of a right one that fdref does not give, which reason it has."""

import re
from collections.abc import Iterator, Sequence
from functools import partial
from typing import NamedTuple

from stand_ins import settled_driver
from support import plain_model
from support.counting import Case, require, same
from support.plain_model import DEFAULTS, Limits

import compare
from compare_lines import Asked


class Planted(Asked):
    """A system that gives one answer otherwise, in the line with an act, and fdref."""

    def __init__(self, program: str, act: str, answer: str, limits: Limits) -> None:
        self.planted = act, answer
        super().__init__([program] if program else [], [], limits)

    def run(self, words: list[str], script: bytes, who: str) -> bytes:
        """What one of the two prints on a script."""
        if who == "fdref":
            return super().run(words, script, who) if self.program else model_of(script, self.limits)
        act, answer = self.planted
        text = "\n".join(settled_driver.lines_of(script, self.limits)) + "\n"
        return re.sub(rf"(?m)^(\d+ {re.escape(act)} = ).*$", rf"\g<1>{answer}", text, count=1).encode()


def model_of(script: bytes, limits: Limits) -> bytes:
    """What the model gives for a script."""
    return plain_model.replay(script, plain_model.RECORDS_DEFAULT, limits).stdout


class Row(NamedTuple):
    """A script, the act whose answer is another on the system, that answer, and the reason, if there is one."""

    script: str
    act: str
    answer: str
    reason: str | None = None
    limits: Limits = DEFAULTS

FILED = "join; p0 open a rw,creat; p0 write 0 x616263"
PIPED = "join; p0 pipe"
PIPED_NONBLOCK = f"{PIPED}; p0 setfl 1 -,nonblock"
DRY = f"{PIPED}; p0 setfl 0 -,nonblock"
FULL = "join; p0 open a rw,creat; " + "; ".join(f"p0 dup2 0 {fd}" for fd in range(1, 32))
FIFO = "join; p0 mkfifo f"
READ_ONLY, WRITE_ONLY = (f"join; p0 open a {mode},creat" for mode in "rw")
LIMIT = 2**40
LONG = "n" * 65
MANY = "61*65537"
LINKED = FILED + "".join(f"; p0 link a {name}" for name in "bcdefgh")

# Regular files and FIFOs with nonblock from their open, and the same set by a setfl.
STILL = "join; p0 open a rw,creat,nonblock"
STILL_APPEND = "join; p0 open a rw,creat,append,nonblock"
FIFO_DRY = f"{FIFO}; p0 open f r,nonblock"
FIFO_ENDS = f"{FIFO_DRY}; p0 open f w"

PAST_FILES = "lseek past the greatest file of the file system is EINVAL"
COUNT = "more than 65,536 bytes in a call"
NAMES = "names that the profile does not take"
ORDER = "order of refusals, where several are due"
FLAGS = "flags that the standard leaves undefined"
BOTH = "a FIFO opened for both"
ROOM = "room of a pipe"
PAGED = "room of a pipe that is counted in pages"
BOTH_WAYS = "a pipe that goes both ways"
LEFT_OUT = "nonblock of a regular file in getfl"

# Wrong answers, of which no reason excuses any.
WRONG = [
    # more bytes than a call of the profile moves
    Row(f"{FILED}; p0 pread 0 0 70000", "p0 pread 0 0 70000", "x616264"),
    Row(f"{FILED}; p0 pread 0 0 70000", "p0 pread 0 0 70000", "x6162"),
    Row(f"{FILED}; p0 pread 0 0 70000", "p0 pread 0 0 70000", "error EPIPE"),
    Row(f"{FILED}; p0 read 0 70000", "p0 read 0 70000", "x616263"),
    Row(f"{FILED}; p0 read 0 70000", "p0 read 0 70000", "error EAGAIN"),
    Row(f"{FILED}; p0 read 0 70000", "p0 read 0 70000", "parked 0"),
    Row(f"{FILED}; p0 write 0 {MANY}", f"p0 write 0 {MANY}", "65536"),
    Row(f"{FILED}; p0 write 0 {MANY}", f"p0 write 0 {MANY}", "0"),
    Row(f"{FILED}; p0 write 0 {MANY}", f"p0 write 0 {MANY}", "error EPIPE"),
    Row(f"{FILED}; p0 write 0 {MANY}", f"p0 write 0 {MANY}", "error EFBIG"),
    Row(f"{FILED}; p0 pwrite 0 {LIMIT - 9} {MANY}", f"p0 pwrite 0 {LIMIT - 9} {MANY}", "65537"),
    Row(f"{FILED}; p0 pwrite 0 -1 {MANY}", f"p0 pwrite 0 -1 {MANY}", "65537"),
    Row(f"{FILED}; p0 pread 0 -1 70000", "p0 pread 0 -1 70000", "x616263"),
    Row(f"{PIPED}; p0 write 1 x6162; p0 read 0 70000", "p0 read 0 70000", "x61"),
    Row(f"{PIPED}; p0 write 1 x6162; p0 read 0 70000", "p0 read 0 70000", "parked 0"),
    Row(f"{PIPED}; p0 read 0 70000", "p0 read 0 70000", "x"),
    Row(f"{PIPED}; p0 read 0 70000", "p0 read 0 70000", "error EAGAIN"),
    Row(f"{DRY}; p0 read 0 70000", "p0 read 0 70000", "parked 0"),
    Row(f"{PIPED}; p0 close 1; p0 read 0 70000", "p0 read 0 70000", "parked 0"),
    # names that the profile does not take, and that are not there
    Row("join; p0 open a%20b r", "p0 open a%20b r", "0"),
    Row("join; p0 open a%20b rw,creat", "p0 open a%20b rw,creat", "5"),
    Row("join; p0 open a%20b rw,creat,excl", "p0 open a%20b rw,creat,excl", "error EEXIST"),
    Row("join; p0 open a%20b r", "p0 open a%20b r", "error EBADF"),
    Row("join; p0 open a%20b r", "p0 open a%20b r", "error ENAMETOOLONG"),
    Row("join; p0 open a%20b r", "p0 open a%20b r", "parked 0"),
    Row(f"join; p0 open {LONG} w", f"p0 open {LONG} w", "error ENXIO"),
    Row("join; p0 mkfifo a%20b", "p0 mkfifo a%20b", "error EEXIST"),
    Row("join; p0 unlink a%20b", "p0 unlink a%20b", "ok"),
    Row(f"{FILED}; p0 link a%20b c", "p0 link a%20b c", "ok"),
    Row(f"{FILED}; p0 link a c%20d", "p0 link a c%20d", "error EEXIST"),
    Row(f"{FILED}; p0 link a c%20d", "p0 link a c%20d", "error ENOENT"),
    Row(f"{FILED}; p0 rename a b%20c", "p0 rename a b%20c", "error ENOENT"),
    Row(f"{FILED}; p0 rename a%20b a", "p0 rename a%20b a", "ok"),
    # errors of which one is not due
    Row(f"{FILED}; p0 pread 7 0 65700", "p0 pread 7 0 65700", "error EINVAL"),
    Row(f"{FILED}; p0 pwrite 7 0 {MANY}", f"p0 pwrite 7 0 {MANY}", "error EINVAL"),
    Row(f"{READ_ONLY}; p0 pwrite 0 {LIMIT} x61", f"p0 pwrite 0 {LIMIT} x61", "error EFBIG"),
    Row(f"{FILED}; p0 pwrite 7 {LIMIT} x61", f"p0 pwrite 7 {LIMIT} x61", "error EFBIG"),
    Row(f"{READ_ONLY}; p0 lseek 0 {LIMIT} set; p0 write 0 x61", "p0 write 0 x61", "error EFBIG"),
    Row(f"{WRITE_ONLY}; p0 pread 0 {2**63 - 2} 9", f"p0 pread 0 {2**63 - 2} 9", "error EINVAL"),
    Row("join; p0 open b r", "p0 open b r", "error EEXIST"),
    Row(f"{FIFO}; p0 open f w,nonblock", "p0 open f w,nonblock", "error ENOENT"),
    Row(f"{FULL}; p0 open b r", "p0 open b r", "error EEXIST"),
    Row(f"{FILED}; p0 link b a", "p0 link b a", "error EINVAL"),
    Row(f"{FILED}; p0 link a a", "p0 link a a", "error ENOENT"),
    Row(f"{FILED}; p0 ftruncate 0 -1", "p0 ftruncate 0 -1", "error EBADF"),
    Row(f"{FILED}; p0 ftruncate 7 0", "p0 ftruncate 7 0", "error EINVAL"),
    Row(f"{FILED}; p0 rename b c", "p0 rename b c", "error EEXIST"),
    Row(f"{FIFO}; p0 mkfifo f", "p0 mkfifo f", "error ENOENT"),
    # descriptors that are not the lowest, or not there
    Row("join; p0 open a r,creat; p0 open a r", "p0 open a r", "2"),
    Row("join; p0 open a r,creat; p0 open a r,trunc", "p0 open a r,trunc", "2"),
    Row("join; p0 open a r,creat; p0 open a r,excl", "p0 open a r,excl", "2"),
    Row(f"{FIFO}; p0 open f rw", "p0 open f rw", "1"),
    Row(f"{FIFO}; p0 open f rw", "p0 open f rw", "error ENOENT"),
    Row(f"{FILED}; p0 open a rw,creat,excl", "p0 open a rw,creat,excl", "1"),
    Row(f"{FILED}; p0 dup2 0 3", "p0 dup2 0 3", "1"),
    Row(f"{FILED}; p0 dup2 0 32", "p0 dup2 0 32", "32"),
    Row(PIPED, "p0 pipe", "0 2"),
    Row(f"{FULL}; p0 pipe", "p0 pipe", "32 33"),
    Row(f"{FILED}; p0 close 0", "p0 close 0", "error EBADF"),
    Row(f"{FILED}; p0 close 7", "p0 close 7", "ok"),
    # counts, bytes and offsets
    Row(f"{FILED}; p0 write 0 x6162", "p0 write 0 x6162", "1"),
    Row(f"{FILED}; p0 pwrite 0 0 x6162", "p0 pwrite 0 0 x6162", "1"),
    Row(f"{FILED}; p0 pwrite 0 {LIMIT - 1} x6162", f"p0 pwrite 0 {LIMIT - 1} x6162", "2"),
    Row(f"{FILED}; p0 pwrite 0 {LIMIT} x61", f"p0 pwrite 0 {LIMIT} x61", "0"),
    Row(f"{FILED}; p0 pwrite 0 9 x61; p0 pread 0 0 10", "p0 pread 0 0 10", "x61626361616161616161"),
    Row(f"{FILED}; p0 pread 0 0 2", "p0 pread 0 0 2", "x616263"),
    Row(f"{FILED}; p0 read 0 9", "p0 read 0 9", "x61"),
    Row(f"{FILED}; p0 lseek 0 1 cur", "p0 lseek 0 1 cur", "3"),
    Row(f"{FILED}; p0 lseek 0 -1 set", "p0 lseek 0 -1 set", "0"),
    Row(f"{FILED}; p0 lseek 0 {LIMIT - 1} set", f"p0 lseek 0 {LIMIT - 1} set", "error EINVAL"),
    Row(f"{PIPED}; p0 lseek 0 0 cur", "p0 lseek 0 0 cur", "0"),
    Row(f"{READ_ONLY}; p0 ftruncate 0 0", "p0 ftruncate 0 0", "ok"),
    Row(f"{FILED}; p0 ftruncate 0 {LIMIT + 1}", f"p0 ftruncate 0 {LIMIT + 1}", "ok"),
    # pipes
    Row(f"{PIPED}; p0 close 0; p0 write 1 x61", "p0 write 1 x61", "1"),
    Row(f"{PIPED}; p0 close 1; p0 read 0 1", "p0 read 0 1", "error EAGAIN"),
    Row(f"{PIPED}; p0 write 1 x6162; p0 read 0 2", "p0 read 0 2", "x61"),
    Row(f"{PIPED}; p0 read 0 1", "p0 read 0 1", "x"),
    Row(f"{DRY}; p0 read 0 1", "p0 read 0 1", "x"),
    Row(f"{PIPED}; p0 pread 0 0 1", "p0 pread 0 0 1", "x"),
    # names, links, kinds and flags
    Row(f"{FILED}; p0 fstat 0", "p0 fstat 0", "regular 3 2"),
    Row(f"{FILED}; p0 fstat 0", "p0 fstat 0", "regular 4 1"),
    Row(f"{FIFO}; p0 open f r,nonblock; p0 fstat 0", "p0 fstat 0", "fifo 0 2"),
    Row(f"{FIFO}; p0 open f r,nonblock; p0 fstat 0", "p0 fstat 0", "regular 0 1"),
    Row(f"{PIPED}; p0 fstat 0", "p0 fstat 0", "fifo 0 1"),
    Row(f"{FILED}; p0 getfl 0", "p0 getfl 0", "35"),
    Row(f"{FILED}; p0 setfl 0 -,append", "p0 setfl 0 -,append", "error EINVAL"),
    Row(f"{FILED}; p0 unlink b", "p0 unlink b", "ok"),
    Row(f"{FILED}; p0 link a b", "p0 link a b", "error ENOSPC"),
    Row(f"{FILED}; p0 rename a b", "p0 rename a b", "error EEXIST"),
    Row(f"{LINKED}; p0 link a i", "p0 link a i", "error ENOENT"),
    Row(f"{FILED}; p0 unlink a", "p0 unlink a", "error ENOENT"),
    Row("join; p0 fork", "p0 fork", "error EAGAIN"),
]

# Wrong ones of a system that appends a pwrite under append, and one that contradicts what is a limit there.
FAR_SEEK = f"{FILED}; p0 lseek 0 {2**41} set; p0 lseek 0 {2**42} set"
APPENDED = f"{FILED}; p0 setfl 0 -,append; p0 pwrite 0 9 x6162"
WRONG += [
    Row(APPENDED, "p0 fstat 0", "regular 6 1"),
    Row(APPENDED, "p0 fstat 0", "regular 9 1"),
    Row(f"{FILED}; p0 setfl 0 -,append; p0 pwrite 0 0 x6162", "p0 fstat 0", "regular 4 1"),
    Row(FAR_SEEK, f"p0 lseek 0 {2**41} set", "error EINVAL"),
]

# Wrong ones beside a pipe that goes both ways, and beside a getfl that leaves out nonblock of a regular file.
WRONG += [
    Row(f"{PIPED}; p0 write 0 x6162", "p0 write 0 x6162", "1"),
    Row(f"{PIPED}; p0 write 0 x6162", "p0 write 0 x6162", "3"),
    Row(f"{PIPED}; p0 write 0 x61", "p0 write 0 x61", "0"),
    Row(f"{PIPED}; p0 write 0 x61", "p0 write 0 x61", "error EAGAIN"),
    Row(f"{PIPED}; p0 write 0 x61", "p0 write 0 x61", "error EPIPE"),
    Row(f"{PIPED}; p0 write 0 61*600", "p0 write 0 61*600", "512"),
    Row(f"{DRY}; p0 write 0 61*512", "p0 write 0 61*512", "100"),
    Row(f"{DRY}; p0 write 0 x61", "p0 write 0 x61", "parked 0"),
    Row(f"{PIPED}; p0 pwrite 0 0 x61", "p0 pwrite 0 0 x61", "1"),
    Row(f"{PIPED}; p0 pread 1 0 1", "p0 pread 1 0 1", "x61"),
    Row(f"{PIPED}; p0 read 1 1", "p0 read 1 1", "x"),
    Row(f"{PIPED}; p0 read 1 1", "p0 read 1 1", "x6162"),
    Row(f"{PIPED}; p0 read 1 1", "p0 read 1 1", "error EAGAIN"),
    Row(f"{PIPED}; p0 close 0; p0 read 1 1", "p0 read 1 1", "parked 0"),
    Row(f"{PIPED_NONBLOCK}; p0 read 1 1", "p0 read 1 1", "parked 0"),
    Row(f"{PIPED}; p0 close 0; p0 write 0 x61", "p0 write 0 x61", "1"),
    Row(f"{PIPED}; p0 write 1 x61", "p0 write 1 x61", "error EBADF"),
    Row(f"{PIPED}; p0 write 1 x61; p0 read 0 1", "p0 read 0 1", "error EBADF"),
    Row(f"{PIPED}; p0 getfl 0", "p0 getfl 0", "2"),
    Row(f"{PIPED}; p0 getfl 1", "p0 getfl 1", "1"),
    Row(f"{DRY}; p0 getfl 0", "p0 getfl 0", "3"),
    Row(f"{FIFO_ENDS}; p0 write 0 x61", "p0 write 0 x61", "1"),
    Row(f"{FIFO_ENDS}; p0 write 0 x61", "p0 write 0 x61", "parked 0"),
    Row(f"{FIFO_ENDS}; p0 read 1 1", "p0 read 1 1", "x61"),
    Row(f"{FIFO_ENDS}; p0 getfl 0", "p0 getfl 0", "67"),
    Row(f"{FIFO_ENDS}; p0 getfl 1", "p0 getfl 1", "3"),
    Row(f"{READ_ONLY}; p0 write 0 x61", "p0 write 0 x61", "1"),
    Row(f"{READ_ONLY}; p0 getfl 0", "p0 getfl 0", "3"),
    Row(f"{FIFO_DRY}; p0 getfl 0", "p0 getfl 0", "1"),
    Row(f"{STILL_APPEND}; p0 getfl 0", "p0 getfl 0", "67"),
    Row(f"{STILL_APPEND}; p0 getfl 0", "p0 getfl 0", "3"),
    Row(f"{STILL}; p0 getfl 0", "p0 getfl 0", "2"),
    Row(f"{STILL}; p0 getfl 0", "p0 getfl 0", "35"),
    Row(f"{STILL}; p0 setfl 0 -,nonblock; p0 getfl 0", "p0 getfl 0", "3"),
    Row(f"{STILL}; p0 setfl 0 -; p0 getfl 0", "p0 getfl 0", "67"),
    Row(f"{FILED}; p0 setfl 0 -,nonblock; p0 getfl 0", "p0 getfl 0", "3"),
    Row(f"{DRY}; p0 getfl 0", "p0 getfl 0", "1"),
]

# Right answers that fdref does not give, each with its reason.
RIGHT = [
    Row(f"{FILED}; p0 pread 0 0 70000", "p0 pread 0 0 70000", "x616263", COUNT),
    Row(f"{FILED}; p0 pread 0 1 70000", "p0 pread 0 1 70000", "x6263", COUNT),
    Row(f"{FILED}; p0 read 0 70000", "p0 read 0 70000", "x", COUNT),
    Row(f"{FILED}; p0 write 0 {MANY}", f"p0 write 0 {MANY}", "65537", COUNT),
    Row(f"{FILED}; p0 pwrite 0 9 {MANY}", f"p0 pwrite 0 9 {MANY}", "65537", COUNT),
    Row(f"{FILED}; p0 pwrite 0 {LIMIT - 9} {MANY}", f"p0 pwrite 0 {LIMIT - 9} {MANY}", "9", COUNT),
    Row(f"{FILED}; p0 pwrite 0 {LIMIT} {MANY}", f"p0 pwrite 0 {LIMIT} {MANY}", "error EFBIG", COUNT),
    Row(f"{FILED}; p0 setfl 0 -,append; p0 pwrite 0 {LIMIT} {MANY}", f"p0 pwrite 0 {LIMIT} {MANY}", "65537", COUNT),
    Row(f"{PIPED}; p0 write 1 x6162; p0 read 0 70000", "p0 read 0 70000", "x6162", COUNT),
    Row(f"{PIPED}; p0 read 0 70000", "p0 read 0 70000", "parked 0", COUNT),
    Row(f"{DRY}; p0 read 0 70000", "p0 read 0 70000", "error EAGAIN", COUNT),
    Row(f"{PIPED}; p0 close 1; p0 read 0 70000", "p0 read 0 70000", "x", COUNT),
    Row(f"{PIPED}; p0 close 0; p0 write 1 {MANY}", f"p0 write 1 {MANY}", "error EPIPE", COUNT),
    Row(f"{PIPED_NONBLOCK}; p0 write 1 {MANY}", f"p0 write 1 {MANY}", "1024", COUNT),
    Row(f"{PIPED_NONBLOCK}; p0 write 1 61*1024; p0 write 1 {MANY}", f"p0 write 1 {MANY}", "error EAGAIN", COUNT),
    Row("join; p0 open a%20b r", "p0 open a%20b r", "error ENOENT", NAMES),
    Row("join; p0 open a%20b rw,creat,excl", "p0 open a%20b rw,creat,excl", "0", NAMES),
    Row("join; p0 open a%ffb rw,creat", "p0 open a%ffb rw,creat", "error EILSEQ", NAMES),
    Row(f"join; p0 open {LONG} w,creat", f"p0 open {LONG} w,creat", "0", NAMES),
    Row(f"{FULL}; p0 open a%20b r", "p0 open a%20b r", "error EMFILE", NAMES),
    Row(f"{FULL}; p0 open {LONG} w,creat", f"p0 open {LONG} w,creat", "error EMFILE", NAMES),
    Row("join; p0 mkfifo a%20b", "p0 mkfifo a%20b", "ok", NAMES),
    Row("join; p0 unlink a%20b", "p0 unlink a%20b", "error ENOENT", NAMES),
    Row(f"{FILED}; p0 link a%20b a", "p0 link a%20b a", "error ENOENT", NAMES),
    Row(f"{FILED}; p0 link a%20b a", "p0 link a%20b a", "error EEXIST", NAMES),
    Row(f"{FILED}; p0 link a c%20d", "p0 link a c%20d", "ok", NAMES),
    Row(f"{FILED}; p0 rename a b%20c", "p0 rename a b%20c", "ok", NAMES),
    Row(f"{FILED}; p0 rename b b%20c", "p0 rename b b%20c", "error ENOENT", NAMES),
    Row("join; p0 open a/b r", "p0 open a/b r", "not asked", NAMES),
    Row("join; p0 open a/b r", "p0 open a/b r", "error ENOTDIR", NAMES),
    Row("join; p0 open a -", "p0 open a -", "not asked", FLAGS),
    Row(f"{FILED}; p0 link b a", "p0 link b a", "error EEXIST", ORDER),
    Row(f"{FULL}; p0 open b r", "p0 open b r", "error EMFILE", ORDER),
    Row(f"{FULL}; p0 open a rw,creat,excl", "p0 open a rw,creat,excl", "error EMFILE", ORDER),
    Row(f"{FULL}; p0 mkfifo f; p0 open f w,nonblock", "p0 open f w,nonblock", "error EMFILE", ORDER),
    Row(f"{FILED}; p0 pread 7 -1 9", "p0 pread 7 -1 9", "error EINVAL", ORDER),
    Row(f"{READ_ONLY}; p0 pwrite 0 -1 x61", "p0 pwrite 0 -1 x61", "error EINVAL", ORDER),
    Row(f"{PIPED}; p0 pread 1 0 1", "p0 pread 1 0 1", "error ESPIPE", ORDER),
    Row(f"{PIPED}; p0 pwrite 1 -1 x61", "p0 pwrite 1 -1 x61", "error EINVAL", ORDER),
    Row(f"{READ_ONLY}; p0 ftruncate 0 0", "p0 ftruncate 0 0", "error EBADF",
        "ftruncate without writing is EBADF, not EINVAL"),
    Row(f"{READ_ONLY}; p0 ftruncate 0 -1", "p0 ftruncate 0 -1", "error EBADF", ORDER),
    Row(f"{FILED}; p0 ftruncate 7 -1", "p0 ftruncate 7 -1", "error EINVAL", ORDER),
    Row(f"{FILED}; p0 link % {LONG}", f"p0 link % {LONG}", "error ENAMETOOLONG", ORDER),
    Row("join; p0 open a r,creat; p0 open a r,trunc", "p0 open a r,trunc", "1", FLAGS),
    Row("join; p0 open a r,creat; p0 open a r,excl", "p0 open a r,excl", "error EEXIST", FLAGS),
    Row(f"{FIFO}; p0 open f rw", "p0 open f rw", "0", BOTH),
    Row(f"{FULL}; p0 mkfifo f; p0 open f rw", "p0 open f rw", "error EMFILE", BOTH),
    Row(f"{LINKED}; p0 link a i", "p0 link a i", "ok", "more than 8 links"),
    Row(f"{FILED}; p0 lseek 0 {2**63 - 1} end", f"p0 lseek 0 {2**63 - 1} end", "error EINVAL",
        "lseek past the greatest offset is EINVAL, not EOVERFLOW"),
    Row(f"{FILED}; p0 ftruncate 0 {LIMIT + 1}", f"p0 ftruncate 0 {LIMIT + 1}", "error EINVAL",
        "ftruncate past the size limit is EINVAL, not EFBIG"),
    Row(APPENDED, "p0 fstat 0", "regular 5 1", "pwrite under O_APPEND appends"),
    Row(f"{FAR_SEEK}; p0 close 0", f"p0 lseek 0 {2**42} set", "error EINVAL", PAST_FILES),
    Row(f"{PIPED}; p0 ftruncate 1 0", "p0 ftruncate 1 0", "ok", "ftruncate of a pipe"),
    Row(f"{PIPED}; p0 ftruncate 1 0", "p0 ftruncate 1 0", "error ESPIPE", "ftruncate of a pipe"),
    Row(f"{PIPED}; p0 ftruncate 1 0", "p0 ftruncate 1 0", "error EBADF", "ftruncate of a pipe"),
    Row(f"{PIPED}; p0 ftruncate 0 0", "p0 ftruncate 0 0", "error EBADF", "ftruncate of a pipe"),
    Row(f"join; join; {FIFO[6:]}; p1 open f r; p0 open f w,nonblock", "p0 open f w,nonblock", "error ENXIO",
        "a FIFO whose reader waits in its open"),
    Row(f"{STILL}; p0 getfl 0", "p0 getfl 0", "3", LEFT_OUT),
    Row(f"{STILL_APPEND}; p0 getfl 0", "p0 getfl 0", "35", LEFT_OUT),
    Row(f"{STILL}; p0 fork; p1 attach; p1 getfl 0", "p1 getfl 0", "3", LEFT_OUT),
    Row(f"{PIPED}; p0 write 0 x61", "p0 write 0 x61", "1", BOTH_WAYS),
    Row(f"{PIPED}; p0 write 0 x61", "p0 write 0 x61", "parked 0", BOTH_WAYS),
    Row(f"{PIPED}; p0 write 0 61*600", "p0 write 0 61*600", "parked ?", BOTH_WAYS),
    Row(f"{PIPED}; p0 close 1; p0 write 0 x61", "p0 write 0 x61", "error EPIPE", BOTH_WAYS),
    Row(f"{PIPED}; p0 fork; p1 attach; p1 write 0 x61", "p1 write 0 x61", "1", BOTH_WAYS),
    Row(f"{DRY}; p0 write 0 61*2000", "p0 write 0 61*2000", "1024", BOTH_WAYS),
    Row(f"{DRY}; p0 write 0 x61", "p0 write 0 x61", "error EAGAIN", BOTH_WAYS),
    Row(f"{PIPED}; p0 read 1 9", "p0 read 1 9", "x61", BOTH_WAYS),
    Row(f"{PIPED}; p0 read 1 9", "p0 read 1 9", "parked 0", BOTH_WAYS),
    Row(f"{PIPED}; p0 close 0; p0 read 1 9", "p0 read 1 9", "x", BOTH_WAYS),
    Row(f"{PIPED_NONBLOCK}; p0 read 1 9", "p0 read 1 9", "error EAGAIN", BOTH_WAYS),
    Row(f"{PIPED}; p0 getfl 0", "p0 getfl 0", "3", BOTH_WAYS),
    Row(f"{PIPED}; p0 getfl 1", "p0 getfl 1", "3", BOTH_WAYS),
    Row(f"{DRY}; p0 getfl 0", "p0 getfl 0", "67", BOTH_WAYS),
    Row(f"{PIPED}; p0 fstat 0", "p0 fstat 0", "pipe 0 1", "size and links of a pipe in fstat"),
    Row(f"{PIPED}; p0 write 1 x; p0 write 1 x6162", "p0 write 1 x", "error EAGAIN", "a write of no bytes to a pipe"),
    Row(f"{WRITE_ONLY}; p0 read 0 0", "p0 read 0 0", "x", "errors of a call of no bytes"),
]


def is_judged(row: Row, program: str) -> None:
    """The answer is a difference with its reason, or without one."""
    lines = [line.encode() for line in row.script.split("; ")]
    result = compare.checked(Planted(program, row.act, row.answer, row.limits), lines)
    found = [it for it in result.differences if it.lines[it.place].act == row.act and it.system == row.answer]
    require(found, f"it is no difference: {[compare.told(it) for it in result.differences]}")
    same(row.reason, found[0].reason and found[0].reason.name)


def cases(program: str, more: Sequence[Row]) -> Iterator[Case]:
    """All of them, and more."""
    for row in [*WRONG, *RIGHT, *more]:
        yield f"{row.act} = {row.answer}, after {row.script}", partial(is_judged, row, program)
