"""Logs that are compared as tools/judge.py does: where two runs part, and for which reason."""

import contextlib
import io
from collections.abc import Iterator, Sequence
from functools import partial
from typing import NamedTuple
from unittest import mock

from support.counting import Case, Failure, require, same
from support.frames import header_bytes, trace_of
from support.plain_model import DEFAULTS, Limits
from support.trees import Ended

import causes
import judge
import past
import some_order
import standstill

WELL = Ended(0, b"", b"")
KILLED = Ended(None, b"", b"")


class Logs(NamedTuple):
    """Two logs and what is found in them: for each parting its process, what the system and fdref answered, and the
    reason, `none`, or `follows`. The trace of fdref has all lines of the second log, and its log those of calls."""

    name: str
    system: str
    fdref: str
    found: list[str]
    system_ends: Ended = WELL
    fdref_ends: Ended = WELL
    # what a finding without a reason is perhaps by
    cause: str = ""
    # what was noted of the run on the system
    noted: str = ""
    capacity: int = DEFAULTS.capacity


A_FILE = "0 p0 join = 0; 1 p0 open a rw,creat,append = 0; 2 p0 write 0 x6162 = 2; "
A_PIPE = "0 p0 join = 0; 1 p0 pipe = 0 1; 2 p0 fork = 1; 3 p1 attach = ok; "
OF_TIME = "what is read of a pipe depends on who comes first"
TOO_LARGE = "more than 1,099,511,627,776 bytes in a file"
APPENDS = "pwrite under O_APPEND appends"
NAMES = "names that the profile does not take"
LINKS = "size and links of a pipe in fstat"
ROOM = "room of a pipe"
TURNS = "which end of a pipe has the lower number"
EINTR = "a signal ends a call (EINTR): signal 14 (SIGALRM) has a handler"
CUT = "a signal cuts a write short: signal 14 (SIGALRM) has a handler"
TURNED = "O_NONBLOCK is set while a call waits"
# The line of the read begins in its log, as the call itself, after 18 bytes.
A_READ_ENDS = (
    "-@0 p0 pipe = 0 1; -@18 p0 read 0 1 = error EINTR",
    "0 p0 join = 0; 1 p0 pipe = 0 1; 2 p0 read 0 1 = parked 0",
)
IS_EINTR, IS_NONE = (["p0 read 0 1: error EINTR, parked 0: " + it] for it in (EINTR, "none"))
# What is noted of handlers before, in and after the read, and whether that may be why it ended.
HANDLERS = (
    ("that is set before", "- 0 p0 handler 14\tends", True),
    ("that is set while it waits", "- 18 p0 handler 14\tends", True),
    ("that is set after it", "- 49 p0 handler 14\tends", False),
    ("that restarts it", "- 0 p0 handler 14\trestarts", False),
    ("that is taken away before", "- 0 p0 handler 14\tends; - 5 p0 handler 14\tnone", False),
    ("that is taken away while it waits", "- 0 p0 handler 14\tends; - 18 p0 handler 14\tnone", True),
    ("of the program before an exec", "- 0 p0 handler 14\tends; - 18 p0 handler 0\tnone", False),
    ("of another process", "- 0 p1 handler 14\tends", False),
    ("that did not run", "- 0 p0 handler 14\tends heard", False),
    ("that ran while it waits", "- 0 p0 handler 14\tends heard; - 18 p0 ran 14", True),
    ("that ran before", "- 0 p0 handler 14\tends heard; - 5 p0 ran 14", False),
    ("that ran after it", "- 0 p0 handler 14\tends heard; - 49 p0 ran 14", False),
    ("beside one that ran", "- 0 p0 handler 14\tends heard; - 0 p0 handler 15\tends heard; - 18 p0 ran 15", None),
    ("that ran in another process", "- 0 p0 handler 14\tends heard; - 18 p1 ran 14", False),
    ("that ran and restarts it", "- 0 p0 handler 14\trestarts heard; - 18 p0 ran 14", False),
)
A_WRITE_IS_CUT = (
    "p0 pipe = 0 1; p0 write 1 61*65000 = 40000",
    "0 p0 join = 0; 1 p0 pipe = 0 1; 2 p0 write 1 61*65000 = parked 1024",
)
# The write begins after 35 bytes.
WAITS_NO_MORE = (
    "-@0 p0 pipe = 0 1; -@18 p0 fork = 1; {}; p1 read 0 1 = x61",
    A_PIPE + "4 p0 write 1 61*9000 = parked 1024; 5 p1 setfl 1 w,nonblock = ok; 6 p1 read 0 1 = x61",
)
FULL = "0 p0 join = 0; 1 p0 pipe = 0 1; 2 p0 setfl 1 r,nonblock = ok; 3 p0 write 1 61*2000 = 1024; "

LOGS = [
    Logs("the same calls", "p0 open a w,creat = 0", "0 p0 join = 0; 1 p0 open a w,creat = 0", []),
    Logs(
        "children that have other numbers",
        "p0 fork = 2; p2 close 7 = error EBADF; p0 fork = 1; p1 close 8 = error EBADF",
        "0 p0 join = 0; 1 p0 fork = 1; 2 p0 fork = 2; 3 p2 attach = ok; 4 p2 close 8 = error EBADF; "
        "5 p1 attach = ok; 6 p1 close 7 = error EBADF",
        [],
    ),
    Logs(
        "programs that it starts, with other descriptors, which have children",
        "p0 close 7 = error EBADF; p5000 open a r = 4; p5000 fork = 5001; p9000 open b r = 4; p5001 close 4 = ok; "
        "p0 close 8 = error EBADF",
        "0 p0 join = 0; 1 p0 close 7 = error EBADF; 2 p1 join = 1; 3 p2 join = 2; 4 p2 open b r,creat = 0; "
        "5 p1 fork = 3; 6 p0 close 8 = error EBADF",
        [],
    ),
    Logs(
        "a child whose line comes before its parent's",
        "p1 close 7 = ok; p0 fork = 1",
        "0 p0 join = 0; 1 p0 fork = 1; 2 p1 attach = ok; 3 p1 close 7 = error EBADF",
        ["p1 close 7: ok, error EBADF: none"],
    ),
    Logs(
        "an answer without a reason, and those that are not looked at after it",
        "p0 close 7 = ok; p0 close 8 = error EBADF; p0 close 9 = ok",
        "0 p0 join = 0; 1 p0 close 7 = error EBADF; 2 p0 close 8 = error EBADF; 3 p0 close 9 = error EBADF",
        ["p0 close 7: ok, error EBADF: none", "p0 close 9: ok, error EBADF: none"],
    ),
    Logs(
        "another call",
        "p0 close 7 = error EBADF; p0 close 8 = error EBADF",
        "0 p0 join = 0; 1 p0 close 7 = error EBADF; 2 p0 close 9 = error EBADF; 3 p0 close 9 = error EBADF",
        ["p0 close 9: close 8, error EBADF: none"],
        cause=causes.NUMBERS,
    ),
    Logs(
        "a call more",
        "p0 close 7 = error EBADF",
        "0 p0 join = 0; 1 p0 close 7 = error EBADF; 2 p0 close 9 = error EBADF",
        ["p0 close 9: no call, error EBADF: none"],
        cause=causes.NUMBERS,
    ),
    Logs(
        "a call more, in which the system may have been when it was killed",
        "p0 close 7 = error EBADF",
        "0 p0 join = 0; 1 p0 close 7 = error EBADF; 2 p0 close 9 = error EBADF",
        ["p0 close 9: no call, error EBADF: none"],
        system_ends=KILLED,
    ),
    Logs(
        "a call less",
        "p0 close 7 = error EBADF; p0 close 9 = error EBADF",
        "0 p0 join = 0; 1 p0 close 7 = error EBADF",
        ["p0 close 9: error EBADF, None: none"],
        cause=causes.NUMBERS,
    ),
    Logs(
        "a call less, where a timer has ended the run with fdref",
        "p0 close 7 = error EBADF; p0 close 9 = error EBADF",
        "0 p0 join = 0; 1 p0 close 7 = error EBADF",
        ["p0 close 9: error EBADF, None: none"],
        fdref_ends=Ended(-14, b"", b""),
        cause=causes.TIMERS,
    ),
    Logs(
        "data of another length, as of a time",
        "p0 pipe = 0 1; p0 write 1 x6161 = 2; p0 read 0 9 = x6161",
        "0 p0 join = 0; 1 p0 pipe = 0 1; 2 p0 write 1 x61 = 1; 3 p0 read 0 9 = x61",
        ["p0 write 1 x61: write 1 x6161, 1: none"],
        cause=causes.NUMBERS,
    ),
    Logs(
        "data that hold the variables of judge.py",
        "p0 pipe = 0 1; p0 close 7 = error EBADF",
        f"0 p0 join = 0; 1 p0 pipe = 0 1; 2 p0 write 1 x{b'FDREF_SOCKET=s'.hex()} = 14",
        [f"p0 write 1 x{b'FDREF_SOCKET=s'.hex()}: close 7, 14: none"],
        cause=causes.VARIABLES,
    ),
    Logs(
        "another call after an answer that differs",
        "p0 pipe = 0 1; p0 close 7 = ok; p0 write 1 x6161 = 2",
        "0 p0 join = 0; 1 p0 pipe = 0 1; 2 p0 close 7 = error EBADF; 3 p0 write 1 x61 = 1",
        ["p0 close 7: ok, error EBADF: none", "p0 write 1 x61: write 1 x6161, 1: none"],
    ),
    Logs(
        "a call less, after which a signal ends the run with fdref, as at a bad address",
        "p0 close 7 = error EBADF; p0 close 8 = error EBADF",
        "0 p0 join = 0; 1 p0 close 7 = error EBADF",
        ["p0 close 8: error EBADF, None: none"],
        fdref_ends=Ended(-11, b"", b""),
        cause=judge.BAD_ADDRESS,
    ),
    Logs(
        "what follows from a pwrite under append",
        "p0 open a rw,creat,append = 0; p0 write 0 x6162 = 2; p0 pwrite 0 0 x63 = 1; p0 pread 0 0 9 = x616263; "
        "p0 fstat 0 = regular 3 1; p0 close 3 = ok",
        A_FILE + "3 p0 pwrite 0 0 x63 = 1; 4 p0 pread 0 0 9 = x6362; 5 p0 fstat 0 = regular 2 1; "
        "6 p0 close 3 = error EBADF",
        [
            f"p0 pread 0 0 9: x616263, x6362: {APPENDS}",
            f"p0 fstat 0: regular 3 1, regular 2 1: {APPENDS}",
            "p0 close 3: ok, error EBADF: none",
        ],
    ),
    Logs(
        "what a reason cannot have reached: another file",
        "p0 pipe = 0 1; p0 setfl 1 r,nonblock = ok; p0 write 1 61*2000 = 2000; p0 read 0 2000 = 61*2000; "
        "p0 open f rw,creat = 2; p0 lseek 2 0 cur = 3",
        f"{FULL}4 p0 read 0 2000 = 61*1024; 5 p0 open f rw,creat = 2; 6 p0 lseek 2 0 cur = 0",
        [
            f"p0 write 1 61*2000: 2000, 1024: {ROOM}",
            "p0 read 0 2000: 61*2000, 61*1024: follows",
            "p0 lseek 2 0 cur: 3, 0: none",
        ],
    ),
    Logs(
        "what a reason has reached: the same file by another name and another descriptor",
        "p0 open a rw,creat = 0; p0 link a b%20c = ok; p0 link a d = ok; p0 open d r = 1; p0 fstat 1 = regular 0 3; "
        "p0 open e r,creat = 2; p0 fstat 2 = regular 0 2",
        "0 p0 join = 0; 1 p0 open a rw,creat = 0; 2 p0 link a b%20c = error EINVAL; 3 p0 link a d = ok; "
        "4 p0 open d r = 1; 5 p0 fstat 1 = regular 0 2; 6 p0 open e r,creat = 2; 7 p0 fstat 2 = regular 0 1",
        [
            f"p0 link a b%20c: ok, error EINVAL: {NAMES}",
            "p0 fstat 1: regular 0 3, regular 0 2: follows",
            "p0 fstat 2: regular 0 2, regular 0 1: none",
        ],
    ),
    Logs(
        "what a reason has reached: the descriptors of a process and its child",
        "p0 open a%20b r,creat = 0; p0 fork = 1; p1 close 0 = ok; p0 open c r,creat = 1",
        "0 p0 join = 0; 1 p0 open a%20b r,creat = error EINVAL; 2 p0 fork = 1; 3 p1 attach = ok; "
        "4 p1 close 0 = error EBADF; 5 p0 open c r,creat = 0",
        [
            f"p0 open a%20b r,creat: 0, error EINVAL: {NAMES}",
            "p1 close 0: ok, error EBADF: follows",
            "p0 open c r,creat: 1, 0: follows",
        ],
    ),
    *[
        Logs(
            f"an EINTR, and a handler {when}",
            *A_READ_ENDS,
            [it.replace("14 (SIGALRM)", "15 (SIGTERM)") for it in IS_EINTR] if is_why is None else IS_EINTR
            if is_why
            else IS_NONE,
            fdref_ends=KILLED,
            noted=noted,
        )
        for when, noted, is_why in HANDLERS
    ],
    Logs("an EINTR without a handler", *A_READ_ENDS, IS_NONE, fdref_ends=KILLED),
    Logs(
        "a signal that no page lets end a call",
        "p0 open a rw,creat = 0; p0 lseek 0 0 set = error EINTR; p0 unlink a = error EINTR; "
        "p0 ftruncate 0 1 = error EINTR",
        "0 p0 join = 0; 1 p0 open a rw,creat = 0; 2 p0 lseek 0 0 set = 0; 3 p0 unlink a = ok; 4 p0 ftruncate 0 1 = ok",
        [
            "p0 lseek 0 0 set: error EINTR, 0: none",
            "p0 unlink a: error EINTR, ok: none",
            f"p0 ftruncate 0 1: error EINTR, ok: {EINTR}",
        ],
        noted="- 0 p0 handler 14\tends",
    ),
    *[
        Logs(
            f"a write that waits, of which the system takes a part: {noted}",
            *A_WRITE_IS_CUT,
            [f"p0 write 1 61*65000: 40000, parked 1024: {CUT if noted.endswith('s') else 'none'}"],
            fdref_ends=KILLED,
            noted=noted,
        )
        for noted in ("- 0 p0 handler 14\tends", "- 0 p0 handler 14\trestarts", "- 0 p1 handler 14\tnone", "")
    ],
    *[
        Logs(
            f"nothing of the rest of a large write, or of a write: {place}, {noted}",
            f"-@0 p0 pipe = 0 1; -@18 p0 write 1 61*65536 = 65536; {place} p0 write 1 61*99 = 0",
            "0 p0 join = 0; 1 p0 pipe = 0 1; 2 p0 write 1 61*65536 = 65536; 3 p0 write 1 61*99 = parked 0",
            [f"p0 write 1 61*99: 0, parked 0: {CUT if place == '-@18' and noted else 'none'}"],
            fdref_ends=KILLED,
            noted=noted,
            capacity=65_536,
        )
        for place, noted in (
            ("-@18", "- 0 p0 handler 14\trestarts"),
            ("-@18", ""),
            ("-@56", "- 0 p0 handler 14\trestarts"),
        )
    ],
    Logs(
        "a short write that goes in whole or not at all, by its page",
        "p0 pipe = 0 1; p0 write 1 61*512 = 511",
        "0 p0 join = 0; 1 p0 pipe = 0 1; 2 p0 write 1 61*512 = 512",
        ["p0 write 1 61*512: 511, 512: none"],
        noted="- 0 p0 handler 14\tends",
    ),
    *[
        Logs(
            f"a write that waits, of which the system takes a part: O_NONBLOCK is set {when}",
            WAITS_NO_MORE[0].format("; ".join(lines)),
            WAITS_NO_MORE[1],
            [f"p0 write 1 61*9000: 1024, parked 1024: {reason}"],
            fdref_ends=KILLED,
        )
        for when, lines, reason in (
            ("meanwhile", ("-@35 p1 setfl 1 w,nonblock = ok", "-@35 p0 write 1 61*9000 = 1024"), TURNED),
            ("before", ("-@35 p1 setfl 1 w,nonblock = ok", "-@67 p0 write 1 61*9000 = 1024"), "none"),
            ("after it", ("-@35 p0 write 1 61*9000 = 1024", "-@66 p1 setfl 1 w,nonblock = ok"), "none"),
        )
    ],
    Logs(
        "flags and names that are the same",
        "p0 open a rw,creat = 0; p0 setfl 0 rw,append = ok; p0 getfl 0 = 35; p0 rename a b = ok; "
        "p0 rename a b = error ENOENT; p0 setfl 7 r,nonblock = error EBADF; p0 getfl -1 = error EBADF",
        "0 p0 join = 0; 1 p0 open a rw,creat = 0; 2 p0 setfl 0 rw,append = ok; 3 p0 getfl 0 = 35; "
        "4 p0 rename a b = ok; 5 p0 rename a b = error ENOENT; 6 p0 setfl 7 r,nonblock = error EBADF; "
        "7 p0 getfl -1 = error EBADF",
        [],
    ),
    Logs(
        "a flag that the system does not set, and flags that are another call",
        "p0 pipe = 0 1; p0 setfl 0 r,nonblock = ok; p0 getfl 0 = 1; p0 setfl 1 w = ok",
        "0 p0 join = 0; 1 p0 pipe = 0 1; 2 p0 setfl 0 r,nonblock = ok; 3 p0 getfl 0 = 65; 4 p0 setfl 1 w,nonblock = ok",
        ["p0 getfl 0: 1, 65: none", "p0 setfl 1 w,nonblock: setfl 1 w, ok: none"],
    ),
    Logs(
        "a name that is still there after a rename",
        "p0 open a w,creat = 0; p0 rename a b = ok; p0 open a r = 1",
        "0 p0 join = 0; 1 p0 open a w,creat = 0; 2 p0 rename a b = ok; 3 p0 open a r = error ENOENT",
        ["p0 open a r: 1, error ENOENT: none"],
    ),
    Logs(
        "a rename to a name that the profile does not take, and what follows from it",
        "p0 open a w,creat = 0; p0 rename a b%20c = ok; p0 open a r = error ENOENT",
        "0 p0 join = 0; 1 p0 open a w,creat = 0; 2 p0 rename a b%20c = error EINVAL; 3 p0 open a r = 1",
        [f"p0 rename a b%20c: ok, error EINVAL: {NAMES}", "p0 open a r: error ENOENT, 1: follows"],
    ),
    Logs(
        "a pwrite under append that F_SETFL has set",
        "p0 open a rw,creat = 0; p0 write 0 x6162 = 2; p0 setfl 0 r,append = ok; p0 pwrite 0 0 x63 = 1; "
        "p0 fstat 0 = regular 3 1",
        "0 p0 join = 0; 1 p0 open a rw,creat = 0; 2 p0 write 0 x6162 = 2; 3 p0 setfl 0 r,append = ok; "
        "4 p0 pwrite 0 0 x63 = 1; 5 p0 fstat 0 = regular 2 1",
        [f"p0 fstat 0: regular 3 1, regular 2 1: {APPENDS}"],
    ),
    Logs(
        "a pwrite after F_SETFL has taken append away",
        "p0 open a rw,creat,append = 0; p0 write 0 x6162 = 2; p0 setfl 0 r = ok; p0 pwrite 0 0 x63 = 1; "
        "p0 fstat 0 = regular 3 1",
        A_FILE + "3 p0 setfl 0 r = ok; 4 p0 pwrite 0 0 x63 = 1; 5 p0 fstat 0 = regular 2 1",
        ["p0 fstat 0: regular 3 1, regular 2 1: none"],
    ),
    *[
        Logs(
            f"a pwrite under append that {what}",
            f"p0 open a rw,creat,append = 0; p0 write 0 x6162 = 2; p0 pwrite 0 0 x63 = 1; p0 pread 0 0 9 = {data}; "
            f"p0 fstat 0 = {told}",
            A_FILE + "3 p0 pwrite 0 0 x63 = 1; 4 p0 pread 0 0 9 = x6362; 5 p0 fstat 0 = regular 2 1",
            found,
        )
        for what, data, told, found in (
            ("writes nothing", "x6162", "regular 2 1", ["p0 pread 0 0 9: x6162, x6362: none"]),
            (
                "writes twice",
                "x61626363",
                "regular 4 1",
                ["p0 pread 0 0 9: x61626363, x6362: none", "p0 fstat 0: regular 4 1, regular 2 1: none"],
            ),
            (
                "appends, and a wrong size after it",
                "x616263",
                "regular 4 1",
                [f"p0 pread 0 0 9: x616263, x6362: {APPENDS}", "p0 fstat 0: regular 4 1, regular 2 1: none"],
            ),
        )
    ],
    Logs(
        "a pwrite under append whose size is wrong at once",
        "p0 open a rw,creat,append = 0; p0 write 0 x6162 = 2; p0 pwrite 0 0 x63 = 1; p0 fstat 0 = regular 4 1",
        A_FILE + "3 p0 pwrite 0 0 x63 = 1; 4 p0 fstat 0 = regular 2 1",
        ["p0 fstat 0: regular 4 1, regular 2 1: none"],
    ),
    Logs(
        "another file than the one with a pwrite under append",
        "p0 open a rw,creat,append = 0; p0 write 0 x6162 = 2; p0 pwrite 0 0 x63 = 1; p0 open b r,creat = 1; "
        "p0 fstat 1 = regular 1 1",
        A_FILE + "3 p0 pwrite 0 0 x63 = 1; 4 p0 open b r,creat = 1; 5 p0 fstat 1 = regular 0 1",
        ["p0 fstat 1: regular 1 1, regular 0 1: none"],
    ),
    Logs(
        "an answer that is judged although a reason stands before it, since both go on alike",
        "p0 pipe = 0 1; p0 fstat 0 = pipe 0 1; p0 close 7 = ok",
        "0 p0 join = 0; 1 p0 pipe = 0 1; 2 p0 fstat 0 = pipe 0 0; 3 p0 close 7 = error EBADF",
        [f"p0 fstat 0: pipe 0 1, pipe 0 0: {LINKS}", "p0 close 7: ok, error EBADF: none"],
    ),
    Logs(
        "a read that waits, and that is told once",
        "p0 pipe = 0 1; p0 fork = 1; p1 write 1 x61 = 1; p0 read 0 5 = x61",
        A_PIPE + "4 p0 read 0 5 = parked 0; 5 p1 write 1 x61 = 1; 6 p0 resume = x61",
        [],
    ),
    Logs(
        "a read of what is there so far",
        "p0 pipe = 0 1; p0 fork = 1; p1 write 1 x61 = 1; p1 write 1 x62 = 1; p0 read 0 5 = x6162",
        A_PIPE + "4 p0 read 0 5 = parked 0; 5 p1 write 1 x61 = 1; 6 p0 resume = x61; 7 p1 write 1 x62 = 1",
        [f"p0 read 0 5: x6162, x61: {OF_TIME}"],
    ),
    Logs(
        "a read of what is there so far, which nobody else can have written",
        "p0 pipe = 0 1; p0 write 1 x61 = 1; p0 read 0 5 = x6162",
        "0 p0 join = 0; 1 p0 pipe = 0 1; 2 p0 write 1 x61 = 1; 3 p0 read 0 5 = x61",
        ["p0 read 0 5: x6162, x61: none"],
    ),
    Logs(
        "a file that is too large",
        f"p0 open a w,creat = 0; p0 lseek 0 {2**40 - 1} set = {2**40 - 1}; p0 write 0 x6161 = 2; p0 write 0 x61 = 1; "
        "p0 ftruncate 0 2000000000000 = ok; p0 pwrite 0 5 x6161 = 1",
        f"0 p0 join = 0; 1 p0 open a w,creat = 0; 2 p0 lseek 0 {2**40 - 1} set = {2**40 - 1}; 3 p0 write 0 x6161 = 1; "
        "4 p0 write 0 x61 = error EFBIG; 5 p0 ftruncate 0 2000000000000 = error EFBIG; 6 p0 pwrite 0 5 x6161 = 2",
        [
            f"p0 write 0 x6161: 2, 1: {TOO_LARGE}",
            f"p0 write 0 x61: 1, error EFBIG: {TOO_LARGE}",
            f"p0 ftruncate 0 2000000000000: ok, error EFBIG: {TOO_LARGE}",
            "p0 pwrite 0 5 x6161: 1, 2: follows",
        ],
    ),
    Logs(
        "a read that does not wait, before another process has written and after it",
        "p0 mkfifo f = ok; p0 open f r,nonblock = 0; p0 open f w = 1; p0 fork = 1; p0 read 0 1 = x61; "
        "p0 read 0 1 = error EAGAIN",
        "0 p0 join = 0; 1 p0 mkfifo f = ok; 2 p0 open f r,nonblock = 0; 3 p0 open f w = 1; 4 p0 fork = 1; "
        "5 p0 read 0 1 = error EAGAIN; 6 p1 attach = ok; 7 p1 write 1 x61 = 1; 8 p0 read 0 1 = x61",
        [
            f"p0 read 0 1: x61, error EAGAIN: {OF_TIME}",
            "p1 write 1 x61: no call, 1: follows",
            f"p0 read 0 1: error EAGAIN, x61: {OF_TIME}",
        ],
    ),
    Logs(
        "a read that F_SETFL keeps from waiting, before another process has written and after it",
        "p0 pipe = 0 1; p0 fork = 1; p0 setfl 0 r,nonblock = ok; p0 read 0 1 = error EAGAIN; p1 write 1 x61 = 1",
        A_PIPE + "4 p1 write 1 x61 = 1; 5 p0 setfl 0 r,nonblock = ok; 6 p0 read 0 1 = x61",
        [f"p0 read 0 1: error EAGAIN, x61: {OF_TIME}"],
    ),
    Logs(
        "a write that is short although the file is small",
        "p0 open a w,creat = 0; p0 write 0 x616161 = 3",
        "0 p0 join = 0; 1 p0 open a w,creat = 0; 2 p0 write 0 x616161 = 2",
        ["p0 write 0 x616161: 3, 2: none"],
    ),
    Logs(
        "a pipe that two processes read",
        "p0 pipe = 0 1; p0 fork = 1; p0 write 1 x6162 = 2; p0 read 0 1 = x62; p1 read 0 1 = x61",
        A_PIPE + "4 p0 write 1 x6162 = 2; 5 p0 read 0 1 = x61; 6 p1 read 0 1 = x62",
        [f"p0 read 0 1: x62, x61: {OF_TIME}", f"p1 read 0 1: x61, x62: {OF_TIME}"],
    ),
    Logs(
        "a pipe that two processes write",
        "p0 pipe = 0 1; p0 fork = 1; p0 write 1 x61 = 1; p1 write 1 x62 = 1; p0 read 0 1 = x62",
        A_PIPE + "4 p0 write 1 x61 = 1; 5 p1 write 1 x62 = 1; 6 p0 read 0 1 = x61",
        [f"p0 read 0 1: x62, x61: {OF_TIME}"],
    ),
    Logs(
        "a pipe that two processes read, and an error",
        "p0 pipe = 0 1; p0 fork = 1; p0 write 1 x6162 = 2; p0 read 0 1 = error EBADF; p1 read 0 1 = x62",
        A_PIPE + "4 p0 write 1 x6162 = 2; 5 p0 read 0 1 = x61; 6 p1 read 0 1 = x62",
        ["p0 read 0 1: error EBADF, x61: none"],
    ),
    Logs(
        "a read of other bytes",
        "p0 pipe = 0 1; p0 fork = 1; p1 write 1 x61 = 1; p0 read 0 5 = x6261",
        A_PIPE + "4 p1 write 1 x61 = 1; 5 p0 read 0 5 = x61",
        ["p0 read 0 5: x6261, x61: none"],
    ),
    Logs(
        "a write that waits to the end, for which the system has room",
        "p0 pipe = 0 1; p0 write 1 61*2000 = 2000",
        "0 p0 join = 0; 1 p0 pipe = 0 1; 2 p0 write 1 61*2000 = parked 1024",
        ["p0 write 1 61*2000: 2000, parked 1024: room of a pipe"],
        fdref_ends=KILLED,
    ),
    Logs(
        "a read that waits to the end on both",
        "p0 pipe = 0 1",
        "0 p0 join = 0; 1 p0 pipe = 0 1; 2 p0 read 0 1 = parked 0",
        [],
        system_ends=KILLED,
        fdref_ends=KILLED,
    ),
    Logs(
        "a child that a signal ends while it reads",
        "p0 pipe = 0 1; p0 fork = 1; p0 close 0 = ok",
        A_PIPE + "4 p1 read 0 1 = parked 0; 5 p1 exit = ok; 6 p0 close 0 = ok; 7 p0 exit = ok; 8 house close-run = ok",
        [],
    ),
    Logs(
        "a child that a signal ends while it reads, before all are killed",
        "p0 pipe = 0 1; p0 fork = 1; p0 close 0 = ok",
        A_PIPE + "4 p1 read 0 1 = parked 0; 5 p1 exit = ok; 6 p0 close 0 = ok; 7 p0 exit = ok; 8 house close-run = ok",
        [],
        fdref_ends=KILLED,
    ),
    Logs(
        "a child that a signal ends while it writes, for which the system has room",
        "p0 pipe = 0 1; p0 fork = 1; p1 write 1 61*2000 = 2000",
        A_PIPE + "4 p1 write 1 61*2000 = parked 1024; 5 p1 exit = ok; 6 p0 exit = ok; 7 house close-run = ok",
        ["p1 write 1 61*2000: 2000, parked 1024: room of a pipe"],
    ),
    Logs(
        "a call more that waits until all are killed",
        "p0 pipe = 0 1",
        "0 p0 join = 0; 1 p0 pipe = 0 1; 2 p0 read 0 1 = parked 0; 3 p0 exit = ok; 4 house close-run = ok",
        ["p0 read 0 1: no call, parked 0: none"],
        fdref_ends=KILLED,
        cause=causes.NUMBERS,
    ),
    Logs(
        "a pipe whose first end has the higher number, and is the one to read",
        "p0 pipe = 1 0; p0 write 0 x61 = 1; p0 read 1 1 = x61",
        "0 p0 join = 0; 1 p0 pipe = 0 1; 2 p0 write 1 x61 = 1; 3 p0 read 0 1 = x61",
        [f"p0 pipe: 1 0, 0 1: {TURNS}", "p0 write 1 x61: write 0 x61, 1: follows"],
    ),
    *[
        Logs(
            f"a pipe whose first end is the one to write: {system}",
            f"p0 pipe = 1 0; {system}",
            f"0 p0 join = 0; 1 p0 pipe = 0 1; 2 p0 {fdref}",
            ["p0 pipe: 1 0, 0 1: none", f"p0 {found}: none"],
        )
        for system, fdref, found in (
            ("p0 write 0 x61 = error EBADF", "write 1 x61 = 1", "write 1 x61: write 0 x61, 1"),
            ("p0 read 1 1 = error EBADF", "read 0 0 = x", "read 0 0: read 1 1, x"),
            ("p0 getfl 1 = 2", "getfl 0 = 1", "getfl 0: getfl 1, 1"),
        )
    ],
    Logs(
        "a pipe whose first end is the one to write, as a child finds",
        "p0 pipe = 1 0; p0 fork = 1; p1 read 1 1 = error EBADF",
        "0 p0 join = 0; 1 p0 pipe = 0 1; 2 p0 fork = 1; 3 p1 attach = ok; 4 p1 read 0 0 = x",
        ["p0 pipe: 1 0, 0 1: none", "p1 read 0 0: read 1 1, x: none"],
    ),
    Logs(
        "a pipe whose ends change places, of which a child does not have the first one",
        "p0 pipe = 1 0; p0 close 1 = ok; p0 fork = 1; p1 read 1 1 = error EBADF",
        "0 p0 join = 0; 1 p0 pipe = 0 1; 2 p0 close 0 = ok; 3 p0 fork = 1; 4 p1 attach = ok; "
        "5 p1 read 0 1 = error EBADF",
        [
            f"p0 pipe: 1 0, 0 1: {TURNS}",
            "p0 close 0: close 1, ok: follows",
            "p1 read 0 1: read 1 1, error EBADF: follows",
        ],
    ),
    Logs(
        "a call that the profile does not have the number for, and one that is no act",
        "p0 close 7 = error EIO; p0 open a/b r = 3",
        "0 p0 join = 0; 1 p0 close 7 = error EBADF; 2 p0 open a/b r = error EINVAL",
        ["p0 close 7: error EIO, error EBADF: none", f"p0 open a/b r: 3, error EINVAL: {NAMES}"],
    ),
]


def lines_of(text: str) -> list[str]:
    """Lines that stand in one, with `; ` between them."""
    return [line for line in text.split("; ") if line]


def logged(lines: list[str]) -> list[str]:
    """The log of fdref for the lines of a trace."""
    told: list[str] = []
    calls: dict[str, str] = {}
    for line in lines:
        place, who, rest = line.split(" ", 2)
        act, _, outcome = rest.rpartition(" = ")
        if outcome.startswith("parked "):
            calls[who] = act
        elif act == "resume":
            told.append(f"{place} {who} {calls[who]} = {outcome}")
        elif act.split(" ")[0] not in ("join", "attach", "exit", "close-run"):
            told.append(line)
    return told


def native_lines(text: str) -> list[str]:
    """The lines of a log of the system, which may have their place."""
    return [line if line[:1] == "-" else f"- {line}" for line in lines_of(text)]


def as_bytes(lines: list[str]) -> bytes:
    """Lines as a log has them."""
    return "".join(f"{line}\n" for line in lines).encode()


def found_in(verdict: judge.Verdict) -> list[str]:
    """What is found, as the table has it."""
    told = []
    for finding in verdict.findings:
        at = finding.parting
        line = at.fdref or at.system
        assert line
        answer = "no call" if not at.system else at.system.outcome
        if at.system and at.fdref and not at.is_same_call():
            answer = at.system.act.partition(" ")[2]
        reason = finding.reason.name if finding.reason else "follows" if finding.follows else "none"
        told.append(f"p{at.number} {line.act.partition(' ')[2]}: {answer}, {at.fdref and at.fdref.outcome}: {reason}")
    return told


def are_found(logs: Logs) -> None:
    """Just what the table says is found in two logs."""
    trace = lines_of(logs.fdref)
    system = as_bytes(native_lines(logs.system))
    noted, fdref = as_bytes(lines_of(logs.noted)), as_bytes(logged(trace))
    ends = logs.system_ends, logs.fdref_ends
    frames = trace_of(trace, header_bytes(limits=Limits(capacity=logs.capacity)))
    verdict = judge.Verdict(judge.Both(*ends, system, fdref, frames, system_past=noted), f"legal {len(trace)} rest 0")
    same(logs.found, found_in(verdict))
    unexplained = any(text.endswith(": none") for text in logs.found)
    wanted = 1 if unexplained and not logs.cause else 3 if logs.found or logs.system_ends != logs.fdref_ends else 0
    has_ended = logs.system_ends.status is not None or logs.fdref_ends.status is not None
    same(3 if logs.cause or not has_ended else wanted, verdict.status())
    require(judge.told_verdict(verdict).endswith(f", perhaps by {logs.cause}" if logs.cause else ""), str(logs.cause))


class Orders(NamedTuple):
    """Two logs of several processes: how the line begins that tells whether an order explains the first one, the last
    line, and the status. The lines of the second that have these places are in the trace alone."""

    name: str
    system: str
    fdref: str
    order: str
    verdict: str
    status: int
    past: str = ""
    cuts: str = ""
    asides: tuple[int, ...] = ()


AN_ORDER = "an order of these calls gives all answers of the system"
OTHERS = AN_ORDER.replace("all answers", "all other answers")
NO_ORDER = "no order of these calls gives all answers of the system"
OPEN_ORDER = f"not decided whether {AN_ORDER}: "
KEPT = "signal 15, by which a child ended that fdref may have kept for longer"
NOT_DECIDED = "not decided is whether the order of the calls explains it"
SMALL_ROOM = f"{ROOM}, of which fdref's has 1,024 bytes (--pipe-capacity 65536)"
TWO = "p0 pipe = 0 1; p0 fork = 1; p0 fork = 2; "
TWO_HERE = "0 p0 join = 0; 1 p0 pipe = 0 1; 2 p0 fork = 1; 3 p1 attach = ok; 4 p0 fork = 2; 5 p2 attach = ok; "
WRITES_HERE = "6 p1 write 1 x6161 = 2; 7 p2 write 1 x6262 = 2; 8 p0 read 0 9 = x61616262"
READS_HERE = "5 p1 write 1 x61 = 1; 6 p0 read 0 9 = x61; 7 p0 read 0 9 = error EAGAIN"
EXCL_HERE = "6 p1 open l w,creat,excl = 2; 7 p2 open l w,creat,excl = error EEXIST"
EXCL = "p1 open l w,creat,excl = error EEXIST; p2 open l w,creat,excl = {}"


def in_step(order: Sequence[str], more: str = "") -> tuple[str, str]:
    """Logs of three threads that write at once by one offset, again and again, and of a read of that by one of them:
    on the system it gives the bytes of each round in an order, and more."""
    lanes = dict(zip("xyz", ("", "-1 ", "-2 "), strict=True))
    writes = [(lane, f"{who}{number}".encode().hex()) for number in range(10) for who, lane in lanes.items()]
    found = "".join(f"{who}{number}".encode().hex() for number in range(10) for who in order)
    system = ["p0 open a rw,creat = 0", *(f"{lane}p0 write 0 x{data} = 2" for lane, data in writes)]
    fdref = ["p0 join = 0", *(line.removeprefix("-1 ").removeprefix("-2 ") for line in system)]
    fdref.append(f"p0 pread 0 0 99 = x{''.join(data for _, data in writes)}")
    system.append(f"p0 pread 0 0 99 = x{found}{more}")
    return "; ".join(system), "; ".join(f"{at} {line}" for at, line in enumerate(fdref))


def one_by_one(text: str) -> str:
    """The lines of a native log, each of a call that began when the one before it had its line."""
    size, found = 0, []
    for line in lines_of(text):
        found.append(f"-@{size} {line}")
        size += len(found[-1]) + 1
    return "; ".join(found)


def one_after_another(acts: Sequence[str]) -> str:
    """The lines of a trace."""
    return "; ".join(f"{at} {act}" for at, act in enumerate(acts))


# A child has the writing end of a pipe until it exits, which its parent waits for, before it reads.
A_LAST_WRITER = "p0 pipe = 0 1; p0 fork = 1; p0 setfl 0 r,nonblock = ok; p0 close 1 = ok; p1 close 0 = ok"
EXITS_HERE = (
    A_PIPE + "4 p0 setfl 0 r,nonblock = ok; 5 p0 close 1 = ok; 6 p1 close 0 = ok; 7 p1 exit = ok; 8 p0 read 0 1 = x"
)

# A child writes 5,000 bytes, one by one as its parent reads them in the run with fdref.
MANY = "p0 pipe = 0 1; p0 fork = 1; p0 close 1 = ok; " + 5 * "p1 write 1 61*1000 = 1000; " + "p1 close 1 = ok; "
MANY += 4 * "p0 read 0 1000 = 61*1000; "
MANY_HERE = one_after_another(
    ["p0 join = 0", "p0 pipe = 0 1", "p0 fork = 1", "p1 attach = ok", "p0 close 1 = ok"]
    + 5 * ["p1 write 1 61*1000 = 1000", "p0 read 0 1000 = 61*1000"]
    + ["p1 close 1 = ok", "p0 read 0 9 = x"]
)

# The line of the wait has bytes 127 to 144.
READS_BESIDE = (
    "-@0 p0 pipe = 0 1; -@18 p0 fork = 1; -@35 p0 fork = 2; -@52 p0 setfl 0 r,nonblock = ok; -@84 p0 close 1 = ok; "
    "-@105 p2 close 1 = ok; -@127 p0 wait = 1;"
)

PRINTS = "p0 pipe = 0 1; p0 fork = 1; p0 close 1 = ok; p1 dup2 1 2 = 2; p1 write 2 x6869 = 2; "
PRINTED = f"{OPEN_ORDER}none was found, but stdio on descriptor {{}}, which went past fdref, may be why"
NOT_PRINTED = (
    "not judged: 1 answer differs without a reason, perhaps by stdio on descriptor {}, which went past fdref; "
    f"{NOT_DECIDED}"
)

OWN = "p0 pipe = 0 1; p0 fork = 1; p1 open a rw,creat = 2; p1 write 2 x6162 = 2; "
OWN_HERE = "0 p0 join = 0; 1 p0 pipe = 0 1; 2 p0 fork = 1; 3 p1 attach = ok; 4 p1 open a rw,creat = 2; "
OWN_HERE += "5 p1 write 2 x6162 = 2; 6 "
ITS = OWN.replace("p1 write", "p0 unlink b = error ENOENT; p0 link a b = ok; p0 unlink b = ok; p1 write")
ITS_HERE = OWN_HERE.replace("5 p1", "5 p0 unlink b = error ENOENT; 6 p0 link a b = ok; 7 p0 unlink b = ok; 8 p1").replace(
    "= 2; 6 ", "= 2; 9 "
)

# Two processes write more than a page in all, and a third one reads it, of which the writes are whole, or torn.
SIX_WRITES = [f"p{number} write 1 6{number}*400 = 400" for _ in range(6) for number in (1, 2)]
SIX_TORN = ["p0 read 0 200 = 61*200", "p0 read 0 200 = 62*200"] * 12
SIX_WHOLE = ["p0 read 0 200 = 62*200"] * 2 + ["p0 read 0 200 = 61*200"] * 2
SIX_HERE = [it for one in SIX_WRITES for it in (one, *[f"p0 read 0 200 = {one.split(' ')[3][:2]}*200"] * 2)]
ALL_TORN, MOST_TORN, ALL_WHOLE = SIX_WRITES + SIX_TORN, SIX_WRITES + SIX_TORN[:-1], SIX_WRITES + SIX_WHOLE * 6
LARGE, GOES_ON = "p1 write 1 61*600 = 600", "p1 setfl 1 w,nonblock = ok"
BY_ROOM = f"{OPEN_ORDER}none was found, but {ROOM} may be why"
NOT_BY_TIME = f"not judged: 12 answers differ with a reason: {OF_TIME}; {NOT_DECIDED}"
IN_LARGER = f"{AN_ORDER}, where a pipe holds 65,536 bytes: {ROOM} (own; page of write)"
IN_SHARES = f"{AN_ORDER}, where reads of a pipe at once share its bytes (own; page of read)"
NOT_ROOMY = f"not judged: {IN_LARGER}; fdref's has 1,024 (--pipe-capacity 65536)"
NO_OTHERS = NO_ORDER.replace("all answers", "all other answers")
FULL_AT_ONCE = [*SIX_WRITES[:2], "p1 write 1 61*400 = parked 0"]


def placed_after(before: str, lines: Sequence[str]) -> str:
    """Lines that stand at the places after others."""
    return before + "; ".join(f"{6 + at} {line}" for at, line in enumerate(lines))


ORDERS = [
    Orders(
        "two processes and a name that one of them makes",
        TWO + EXCL.format(2),
        TWO_HERE + EXCL_HERE,
        f"reason: {AN_ORDER}",
        f"agreement: {AN_ORDER}",
        0,
    ),
    Orders(
        "two processes and a name that nobody makes",
        TWO + EXCL.format("error EEXIST"),
        TWO_HERE + EXCL_HERE,
        NO_ORDER,
        f"a difference: {NO_ORDER}",
        1,
    ),
    Orders(
        "two writers of a pipe",
        TWO + "p2 write 1 x6262 = 2; p1 write 1 x6161 = 2; p0 read 0 9 = x62626161",
        TWO_HERE + WRITES_HERE,
        f"reason: {AN_ORDER}",
        f"agreement: {AN_ORDER}",
        0,
    ),
    Orders(
        "a write that is torn",
        TWO + "p1 write 1 x6161 = 2; p2 write 1 x6262 = 2; p0 read 0 9 = x61626261",
        TWO_HERE + WRITES_HERE,
        NO_ORDER,
        f"a difference: {NO_ORDER}",
        1,
    ),
    Orders(
        "bytes that nobody has written",
        TWO + "p1 write 1 x6161 = 2; p2 write 1 x6262 = 2; p0 read 0 9 = x61616262; p0 read 0 9 = x3f",
        TWO_HERE + WRITES_HERE + "; 9 p1 write 1 x63 = 1; 10 p0 read 0 9 = x63",
        NO_ORDER,
        f"a difference: {NO_ORDER}",
        1,
    ),
    *[
        Orders(
            f"a pipe of one reader, through which more than a page goes, and of which it gets {what}",
            f"{MANY}p0 read 0 1000 = {last}; p0 read 0 9 = x",
            MANY_HERE,
            NO_ORDER,
            f"a difference: {NO_ORDER}",
            1,
        )
        for what, last in (("a byte less", "61*999"), ("other bytes", "62*1000"))
    ],
    Orders(
        "a pipe of one reader, to which a process writes by two descriptors",
        "p0 pipe = 0 1; p0 fork = 1; p1 dup 1 = 2; p1 write 2 x62 = 1; p1 write 1 x61 = 1; p0 read 0 9 = x6261",
        A_PIPE + "4 p1 dup 1 = 2; 5 p1 write 2 x62 = 1; 6 p0 read 0 9 = x62; 7 p1 write 1 x61 = 1",
        f"reason: {AN_ORDER}",
        f"agreement: {AN_ORDER}",
        0,
    ),
    *[
        Orders(
            f"reads of a pipe at once that share its bytes, of which they give {what}",
            TWO + f"p1 read 0 2 = x61; p2 read 0 9 = {rest}; p0 write 1 x61626364 = 4",
            TWO_HERE + "6 p1 read 0 2 = parked 0; 7 p2 read 0 9 = parked 0; 8 p0 write 1 x61626364 = 4; "
            "9 p1 resume = x6162; 10 p2 resume = x6364",
            f"reason: {IN_SHARES}" if is_right else NO_ORDER,
            f"agreement: {IN_SHARES}" if is_right else f"a difference: {NO_ORDER}",
            0 if is_right else 1,
        )
        for what, rest, is_right in (("each", "x626364", True), ("one twice", "x616263", False))
    ],
    Orders(
        "writes whose order is known by their lines",
        TWO + "p2 write 1 x6262 = 2; p2 close 0 = ok; p1 close 0 = ok; p1 write 1 x6161 = 2; p0 read 0 9 = x61616262",
        TWO_HERE + "6 p2 write 1 x6262 = 2; 7 p2 close 0 = ok; 8 p1 close 0 = ok; 9 p1 write 1 x6161 = 2; "
        "10 p0 read 0 9 = x62626161",
        NO_ORDER,
        f"a difference: {NO_ORDER}",
        1,
    ),
    Orders(
        "a reader and a writer of more than a pipe of fdref holds",
        "p0 pipe = 0 1; p0 fork = 1; p1 write 1 61*2000 = 2000; p0 read 0 9000 = 61*2000",
        A_PIPE + "4 p1 write 1 61*2000 = parked 1024; 5 p0 read 0 9000 = 61*1024; 6 p1 resume = 2000",
        f"reason: {AN_ORDER}, where a pipe holds 65,536 bytes: room of a pipe",
        f"not judged: {AN_ORDER}, where a pipe holds 65,536 bytes: room of a pipe (own; page of write); "
        "fdref's has 1,024 (--pipe-capacity 65536)",
        3,
    ),
    Orders(
        "a child whose lines come before that of its fork",
        "p0 pipe = 0 1; p1 write 1 x61 = 1; p1 write 1 x62 = 1; p0 fork = 1; p0 write 1 x63 = 1; "
        "p0 read 0 9 = x616263",
        A_PIPE + "4 p0 write 1 x63 = 1; 5 p0 read 0 9 = x63; 6 p1 write 1 x61 = 1; 7 p1 write 1 x62 = 1",
        f"reason: {AN_ORDER}",
        f"agreement: {AN_ORDER}",
        0,
    ),
    Orders(
        "a child whose lines come before that of its fork, and bytes in another order",
        "p0 pipe = 0 1; p1 write 1 x61 = 1; p1 write 1 x62 = 1; p0 fork = 1; p0 write 1 x63 = 1; "
        "p0 read 0 9 = x636162",
        A_PIPE + "4 p0 write 1 x63 = 1; 5 p0 read 0 9 = x63; 6 p1 write 1 x61 = 1; 7 p1 write 1 x62 = 1",
        NO_ORDER,
        f"a difference: {NO_ORDER}",
        1,
    ),
    Orders(
        "a read that began when the byte was there, as its line tells",
        "-@0 p0 pipe = 0 1; -@20 p0 fork = 1; -@40 p0 setfl 0 r,nonblock = ok; -@20 p1 write 1 x61 = 1; "
        "-@9999 p0 read 0 9 = error EAGAIN; -@9999 p0 read 0 9 = x61",
        A_PIPE + "4 p0 setfl 0 r,nonblock = ok; " + READS_HERE,
        NO_ORDER,
        f"a difference: {NO_ORDER}",
        1,
    ),
    Orders(
        "a read that may have begun before, as its line tells",
        "-@0 p0 pipe = 0 1; -@20 p0 fork = 1; -@40 p0 setfl 0 r,nonblock = ok; -@20 p1 write 1 x61 = 1; "
        "-@78 p0 read 0 9 = error EAGAIN; -@9999 p0 read 0 9 = x61",
        A_PIPE + "4 p0 setfl 0 r,nonblock = ok; " + READS_HERE,
        f"reason: {AN_ORDER}",
        f"agreement: {AN_ORDER}",
        0,
    ),
    Orders(
        "a call within another one",
        "-@0 p0 pipe = 0 1; -@20 p0 fork = 1; -@40 p0 setfl 0 r,nonblock = ok; -@20 p1 write 1 x61 = 1; "
        "-@78 p0 read 0 9 = error EAGAIN; -@77 p0 read 0 9 = x61",
        A_PIPE + "4 p0 setfl 0 r,nonblock = ok; " + READS_HERE,
        f"{OPEN_ORDER}a call was made within another one, as by a handler of a signal: p0 read 0 9 = x61",
        f"not judged: 2 answers differ with a reason: {OF_TIME}; {NOT_DECIDED}",
        3,
    ),
    Orders(
        "another difference that has a reason",
        TWO + "p0 open a%20b r,creat = 2; " + EXCL.format(2),
        "0 p0 join = 0; 1 p0 pipe = 0 1; 2 p0 fork = 1; 3 p1 attach = ok; 4 p0 fork = 2; 5 p2 attach = ok; "
        "6 p0 open a%20b r,creat = error EINVAL; 7 p1 open l w,creat,excl = 2; "
        "8 p2 open l w,creat,excl = error EEXIST",
        f"reason: {OTHERS}",
        f"not judged: 1 answer differs with a reason: {NAMES}; {OTHERS}",
        3,
    ),
    Orders(
        "what went past fdref may be why there is no order",
        TWO + EXCL.format("error EEXIST"),
        TWO_HERE + EXCL_HERE,
        f"{OPEN_ORDER}none was found, but fopen of l, which went past fdref, may be why",
        f"not judged: 1 answer differs without a reason, perhaps by fopen of l, which went past fdref; {NOT_DECIDED}",
        3,
        "! 1 p0 stream fopen\tl",
    ),
    Orders(
        "a call that has no line on the system may be why there is no order",
        TWO + EXCL.format("error EEXIST"),
        TWO_HERE + "6 p1 close 0 = ok; 7 p1 open l w,creat,excl = 0; 8 p2 open l w,creat,excl = error EEXIST",
        f"{OPEN_ORDER}none was found, but what has no line, as a call with a path or a stream, truncate or fsync, may be "
        "why: p1 close 0, before p1 open l w,creat,excl",
        f"not judged: 1 answer differs without a reason; {NOT_DECIDED}",
        3,
        asides=(6,),
    ),
    Orders(
        "a call that has no line on the system, after other calls than there",
        TWO + "p1 close 9 = error EBADF; " + EXCL.format("error EEXIST"),
        TWO_HERE + "6 p1 close 8 = error EBADF; 7 p1 close 0 = ok; 8 p2 open l w,creat,excl = error EEXIST",
        f"{OPEN_ORDER}p1 makes other calls with fdref after 0 calls, and one of them has no line on the system (p1 close 0)",
        f"not judged: 1 answer differs without a reason, perhaps by {causes.NUMBERS}; {NOT_DECIDED}",
        3,
        asides=(7,),
    ),
    Orders(
        "a read that has a reason where no order was decided on",
        TWO + "p1 write 1 x6161 = 2; p2 write 1 x6262 = 2; p0 read 0 9 = x61626261",
        TWO_HERE + WRITES_HERE,
        f"{OPEN_ORDER}none was found, but a process that was killed may be why: a child of p0, by signal 9 (SIGKILL)",
        f"not judged: 1 answer differs with a reason: {OF_TIME}; {NOT_DECIDED}",
        3,
        "- 8 p0 signal 9",
    ),
    Orders(
        "an answer before the first fork, where a child was killed later",
        "p0 open a rw,creat = 0; p0 write 0 x6162 = 1; p0 fork = 1",
        "0 p0 join = 0; 1 p0 open a rw,creat = 0; 2 p0 write 0 x6162 = 2; 3 p0 fork = 1; 4 p1 attach = ok",
        NO_ORDER,
        f"a difference: {NO_ORDER}",
        1,
        cuts="- 70 p0 signal 9",
    ),
    Orders(
        "an answer after the first fork, which a child that was killed may have changed",
        "p0 open a rw,creat = 0; p0 fork = 1; p0 lseek 0 0 end = 1",
        "0 p0 join = 0; 1 p0 open a rw,creat = 0; 2 p0 fork = 1; 3 p1 attach = ok; 4 p0 lseek 0 0 end = 0",
        f"{OPEN_ORDER}none was found, but a process that was killed may be why: a child of p0, by signal 9 (SIGKILL)",
        f"not judged: 1 answer differs without a reason; {NOT_DECIDED}",
        3,
        cuts="- 70 p0 signal 9",
    ),
    Orders(
        "an answer before the first fork, by what went past fdref, where a child was killed later",
        "p0 open a rw,creat = 0; p0 lseek 0 0 end = 1; p0 fork = 1",
        "0 p0 join = 0; 1 p0 open a rw,creat = 0; 2 p0 lseek 0 0 end = 0; 3 p0 fork = 1; 4 p1 attach = ok",
        f"{OPEN_ORDER}none was found, but a process that was killed may be why: a child of p0, by signal 9 (SIGKILL)",
        "not judged: 1 answer differs without a reason, perhaps by posix_fallocate on descriptor 0, which went past "
        f"fdref; {NOT_DECIDED}",
        3,
        "! 1 p0 call posix_fallocate\t0",
        "- 70 p0 signal 9",
    ),
    Orders(
        "a small write that moves a part, where a child was killed",
        "p0 pipe = 0 1; p0 fork = 1; p0 write 1 x6162 = 1",
        A_PIPE + "4 p0 write 1 x6162 = 2",
        NO_ORDER,
        f"a difference: {NO_ORDER}",
        1,
        cuts="- 70 p0 signal 9",
    ),
    *[
        Orders(
            f"a wrong answer after a fork, where another process was killed: {name}",
            f"{before}{call} = {given}",
            f"{before_here}{call} = {wanted}",
            NO_ORDER if status == 1 else OPEN_ORDER,
            f"a difference: {NO_ORDER}" if status == 1 else f"not judged: 1 answer differs without a reason; {NOT_DECIDED}",
            status,
            cuts="- 70 p0 signal 9",
        )
        for name, before, before_here, call, given, wanted, status in (
            ("of its own file", OWN, OWN_HERE, "p1 pread 2 9 0", "x6163", "x6162", 1),
            ("of its own descriptors", OWN, OWN_HERE, "p1 dup 2", "4", "3", 1),
            ("of a name of its own", OWN, OWN_HERE, "p1 open c r", "3", "error ENOENT", 1),
            ("of a name that another one has", ITS, ITS_HERE, "p1 pread 2 9 0", "x6163", "x6162", 3),
            ("of a pipe that another one has", OWN, OWN_HERE, "p1 write 1 x6162", "error EPIPE", "2", 3),
        )
    ],
    *[
        Orders(
            f"stdio on what may be a pipe, of which the reader gets {given}",
            f"{PRINTS}p0 read 0 9 = {given}",
            f"{A_PIPE}4 p0 close 1 = ok; 5 p1 dup2 1 2 = 2; 6 p1 write 2 x6869 = 2; 7 p1 exit = ok; 8 p0 read 0 9 = x6869",
            order,
            verdict,
            status,
            f"- 5 p{number} stdio {descriptor}",
        )
        for given, number, descriptor, order, verdict, status in (
            ("x", 1, 2, NO_ORDER, f"a difference: {NO_ORDER}", 1),
            ("x", 0, 0, PRINTED.format(0), NOT_PRINTED.format(0), 3),
            ("x696968", 1, 2, PRINTED.format(2), NOT_PRINTED.format(2), 3),
        )
    ],
    Orders(
        "rights that fdref has not",
        TWO + "p1 open l w,creat,excl = 2; p2 open l w = error EACCES",
        TWO_HERE + "6 p1 open l w,creat,excl = 2; 7 p2 open l w = 2",
        f"{OPEN_ORDER}none was found, but {causes.MODES} may be why",
        f"not judged: 1 answer differs without a reason, perhaps by {causes.MODES}; {NOT_DECIDED}",
        3,
    ),
    Orders(
        "two threads, each of which gets what the other one has with fdref",
        "p0 open a rw,creat = 0; p0 write 0 x61 = 1; -1 p0 write 0 x62 = 1; p0 pread 0 0 9 = x6261",
        "0 p0 join = 0; 1 p0 open a rw,creat = 0; 2 p0 write 0 x61 = 1; 3 p0 write 0 x62 = 1; "
        "4 p0 pread 0 0 9 = x6162",
        f"reason: {AN_ORDER}",
        f"agreement: {AN_ORDER}",
        0,
    ),
    Orders(
        "two threads, and bytes that nobody has written",
        "p0 open a rw,creat = 0; p0 write 0 x61 = 1; -1 p0 write 0 x62 = 1; p0 pread 0 0 9 = x6361",
        "0 p0 join = 0; 1 p0 open a rw,creat = 0; 2 p0 write 0 x61 = 1; 3 p0 write 0 x62 = 1; "
        "4 p0 pread 0 0 9 = x6162",
        NO_ORDER,
        f"a difference: {NO_ORDER}",
        1,
    ),
    Orders(
        "two threads, and bytes that one of them may have written at the end of its process",
        "p0 open a rw,creat = 0; p0 write 0 x61 = 1; -1 p0 write 0 x62 = 1; p0 pread 0 0 9 = x6361",
        "0 p0 join = 0; 1 p0 open a rw,creat = 0; 2 p0 write 0 x61 = 1; 3 p0 write 0 x62 = 1; "
        "4 p0 pread 0 0 9 = x6162",
        f"{OPEN_ORDER}none was found, but a call of a thread that the end of its process cut off may be why",
        f"not judged: 1 answer differs without a reason; {NOT_DECIDED}",
        3,
        cuts="- 0 p0 cut exit",
    ),
    Orders(
        "threads that act in step, in another order than that of their lines",
        *in_step("zyx"),
        f"reason: {AN_ORDER}",
        f"agreement: {AN_ORDER}",
        0,
    ),
    Orders(
        "threads that act in step, and a byte that nobody has written",
        *in_step("zyx", "61"),
        NO_ORDER,
        f"a difference: {NO_ORDER}",
        1,
    ),
    Orders(
        "two threads, of which one may have waited",
        "p0 mkfifo f = ok; p0 open f r = 0; -1 p0 open f w = 1; p0 close 7 = ok",
        "0 p0 join = 0; 1 p0 mkfifo f = ok; 2 p0 open f r,nonblock = 0; 3 p0 open f w = 1; 4 p0 close 7 = error EBADF",
        f"{OPEN_ORDER}a thread may have waited in a call, beside which others make theirs: p0 open f r",
        f"not judged: 1 answer differs without a reason, perhaps by {causes.NUMBERS}; {NOT_DECIDED}",
        3,
    ),
    Orders(
        "a thread of which a signal ended the only call",
        "p0 pipe = 0 1; -1 p0 read 0 1 = error EINTR",
        "0 p0 join = 0; 1 p0 pipe = 0 1; 2 p0 read 0 1 = parked 0",
        OTHERS,
        f"not judged: 1 answer differs with a reason: {EINTR}; {OTHERS}",
        3,
        cuts="- 0 p0 handler 14\tends",
    ),
    Orders(
        "a thread whose only call ends without a signal",
        "p0 pipe = 0 1; -1 p0 read 0 1 = error EINTR",
        "0 p0 join = 0; 1 p0 pipe = 0 1; 2 p0 read 0 1 = parked 0",
        NO_ORDER,
        f"a difference: {NO_ORDER}",
        1,
    ),
    *[
        Orders(
            f"a child that has exited {when}",
            one_by_one(f"{A_LAST_WRITER}; {rest}"),
            EXITS_HERE,
            f"reason: {AN_ORDER}" if is_found else NO_ORDER,
            f"agreement: {AN_ORDER}" if is_found else f"a difference: {NO_ORDER}",
            0 if is_found else 1,
        )
        for when, rest, is_found in (
            ("before a read, as its parent's wait told", "p0 wait = 1; p0 read 0 1 = error EAGAIN", False),
            ("perhaps after a read", "p0 read 0 1 = error EAGAIN; p0 wait = 1", True),
            ("perhaps after a read, which nobody waits for", "p0 read 0 1 = error EAGAIN", True),
        )
    ],
    *[
        Orders(
            f"a child that has exited, and another process whose read had begun {when} its parent's wait told it",
            f"{READS_BESIDE} -@{size} p2 read 0 1 = error EAGAIN",
            TWO_HERE + "6 p0 setfl 0 r,nonblock = ok; 7 p0 close 1 = ok; 8 p2 close 1 = ok; 9 p1 exit = ok; "
            "10 p2 read 0 1 = x",
            f"reason: {AN_ORDER}" if is_found else NO_ORDER,
            f"agreement: {AN_ORDER}" if is_found else f"a difference: {NO_ORDER}",
            0 if is_found else 1,
        )
        for when, size, is_found in (("before", 127, True), ("after", 145, False))
    ],
    Orders(
        "what the shim asks aside at the end of a child, before its parent's wait and another fork",
        one_by_one("p0 pipe = 0 1; p0 fork = 1; p1 fstat 0 = pipe 0 1; p0 wait = 1; p0 fork = 2; p2 close 0 = ok"),
        A_PIPE + "4 p1 fstat 0 = pipe 0 2; 5 p1 close 0 = ok; 6 p1 exit = ok; 7 p0 fork = 2; 8 p2 attach = ok; "
        "9 p2 close 0 = ok",
        OTHERS,
        f"not judged: 1 answer differs with a reason: {LINKS}; {OTHERS}",
        3,
        asides=(5,),
    ),
    Orders(
        "one process",
        "p0 pipe = 0 1; p0 setfl 1 r,nonblock = ok; p0 write 1 61*2000 = 2000; p0 read 0 2000 = 61*2000",
        f"{FULL}4 p0 read 0 2000 = 61*1024",
        "",
        f"not judged: 1 answer differs with a reason: {SMALL_ROOM}, 1 later answer was not judged",
        3,
    ),
    *[
        Orders(
            f"writes to a pipe that are {name}",
            TWO + "; ".join(system),
            placed_after(TWO_HERE, fdref),
            order,
            verdict,
            status,
        )
        for name, system, fdref, order, verdict, status in (
            ("torn", ALL_TORN, SIX_HERE, NO_ORDER, f"a difference: {NO_ORDER}", 1),
            ("torn, where fdref's is full", ALL_TORN, FULL_AT_ONCE, NO_OTHERS, f"a difference: {NO_OTHERS}", 1),
            ("torn, and not all read", MOST_TORN, SIX_HERE[:-1], NO_ORDER, f"a difference: {NO_ORDER}", 1),
            ("torn, beside a large one", [LARGE, *MOST_TORN], [LARGE, *SIX_HERE[:-1]], BY_ROOM, NOT_BY_TIME, 3),
            ("torn, where some do not wait", [GOES_ON, *MOST_TORN], [GOES_ON, *SIX_HERE[:-1]], BY_ROOM, NOT_BY_TIME, 3),
            ("whole", ALL_WHOLE, SIX_HERE, f"reason: {IN_LARGER}", NOT_ROOMY, 3),
            ("whole, where fdref's is full", ALL_WHOLE, FULL_AT_ONCE, f"reason: {IN_LARGER}", NOT_ROOMY, 3),
        )
    ],
]


def is_ordered(program: str, orders: Orders) -> None:
    """Just this is said of the order of the calls, and as the last line."""
    trace = lines_of(orders.fdref)
    fdref = as_bytes(logged([line for at, line in enumerate(trace) if at not in orders.asides]))
    system = as_bytes(native_lines(orders.system))
    noted, cuts = as_bytes(lines_of(orders.past)), as_bytes(lines_of(orders.cuts))
    both = judge.Both(WELL, WELL, system, fdref, trace_of(trace), noted, system_past=cuts)
    verdict = judge.Verdict(both, f"legal {len(trace)} rest 0", program=[program])
    said = judge.told(verdict, 60, 0).splitlines()
    lines = [line for line in said if "order of these calls" in line]
    require(all(line.startswith(orders.order) for line in lines) and bool(lines) == bool(orders.order), "\n".join(said))
    is_open = orders.order.startswith(OPEN_ORDER)
    said = f": {lines[0].removeprefix(OPEN_ORDER)}" if is_open else ""
    same((f"verdict: {orders.verdict}{said}", orders.status), ending(verdict))


def order_cases(program: str) -> Iterator[Case]:
    """Each entry of the table of orders, and what is told of answers that are not judged."""
    for orders in ORDERS:
        yield orders.name, partial(is_ordered, program, orders)
    for exited, status in ((0, 3), (1, 1)):
        yield f"a read that hangs at an end, and {exited} exits", partial(hangs_at_the_end, program, exited, status)
    yield "another read than fdref's that hangs", partial(hangs_at_the_end, program, 1, 1, "read 2 5")
    yield "the first answer that is not judged", tells_hidden
    yield "a child that a signal ended", tells_signals
    yield "a search that is given up", gives_up
    for shown in SHOWN:
        yield f"threads whose calls are shown: {shown.name}", partial(shows_one_thread, program, shown)
    yield "stdio on what is no output", blames_outputs
    yield "a child that was kept", tells_kept
    yield "who comes first where no answer differs", names_first
    for began, other, status in ((0, "r", 0), (20, "r", 0), (90, "r", 1), (90, "w", 0), (90, "r,nonblock", 1)):
        name = f"an open of a FIFO, and one by {other} that began at {began}"
        yield name, partial(is_opened_early, began, other, status)
    yield "an answer without a cause after one that has one", first_without
    yield "what a run stands still at", stands_still


def is_opened_early(began: int, other: str, status: int) -> None:
    """That an open of one end of a FIFO came back before one of the other end began is a difference, and else none."""
    trace = "0 p0 join = 0; 1 p0 mkfifo f = ok; 2 p0 fork = 1; 3 p1 attach = ok; "
    trace += f"4 p1 open f {other} = 0; 5 p0 open f w = 0"
    own = ["-@0 p0 mkfifo f = ok", "-@21 p0 fork = 1", "-@39 p0 open f w = 0"]
    system = as_bytes([*own, f"-@{began} p1 open f {other} = 0"])
    fdref = as_bytes(logged(lines_of(trace)))
    verdict = judge.Verdict(judge.Both(WELL, WELL, system, fdref, trace_of(lines_of(trace))), "legal 6 rest 0")
    told = ["system: p0 open f w: has come back before another one began to open the other end"]
    same(told if status == 1 else [], verdict.signals)
    same(status, verdict.status())


def tells_hidden() -> None:
    """Of the answers that may follow from others the first is told, on both sides."""
    trace = lines_of(f"{FULL}4 p0 read 0 2000 = 61*1024; 5 p0 read 0 1 = error EAGAIN")
    lines = ["- p0 pipe = 0 1", "- p0 setfl 1 r,nonblock = ok", "- p0 write 1 61*2000 = 2000"]
    system = as_bytes([*lines, "- p0 read 0 2000 = 61*2000", "- p0 read 0 1 = x"])
    verdict = judge.Verdict(judge.Both(WELL, WELL, system, as_bytes(logged(trace)), trace_of(trace)), "legal 6 rest 0")
    wanted = [
        "       2 may follow from these, of which the first is",
        "           system: p0 read 0 2000 = 61*2000",
        "           fdref:  4 p0 read 0 2000 = 61*1024",
    ]
    said = judge.told(verdict, 60, 0).splitlines()
    require(any(said[at : at + 3] == wanted for at in range(len(said))), "\n".join(said))


def tells_signals() -> None:
    """That a child which a signal ended may be there for longer is told where an answer differs, and else not."""
    trace = lines_of("0 p0 join = 0; 1 p0 close 7 = error EBADF")
    for answer, is_told in (("error EBADF", False), ("ok", True)):
        system, noted = as_bytes([f"- p0 close 7 = {answer}"]), as_bytes(["- 1 p0 signal 9"])
        both = judge.Both(WELL, WELL, system, as_bytes(logged(trace)), trace_of(trace), noted)
        said = judge.told(judge.Verdict(both, "legal 2 rest 0"), 60, 0).splitlines()
        told = "signal 9: fdref may record the exit of a child that it ended after its parent's wait"
        same(is_told, told in said)


GIVEN_UP = (
    "given up after 4 states, or 20 seconds: fewer processes, threads or calls at once may decide it, or --search N "
    "seconds"
)


class Shown(NamedTuple):
    """Logs of a process with threads, and what is shown of where they part; of fdref also which lines are in its log,
    with their threads."""

    name: str
    system: str
    trace: str
    log: str
    shown: list[str]


TWO_WRITES = "0 p0 join = 0; 1 p0 open a rw,creat = 0; 2 p0 write 0 x61 = 1; 3 p0 write 0 x62 = 1; 4 p0 pread 0 0 9 = x6162"
SHOWN = [
    Shown(
        "the answer of one thread, after lines of others",
        "- p0 open a rw,creat = 0; -1 p0 write 0 x62 = 1; - p0 write 0 x61 = 1; - p0 pread 0 0 9 = x6361",
        TWO_WRITES,
        "1 p0 open a rw,creat = 0; 2 p0 write 0 x61 = 1; 3-1 p0 write 0 x62 = 1; 4 p0 pread 0 0 9 = x6162",
        ["system: p0 pread 0 0 9 = x6361 (thread 1)", "fdref:  4 p0 pread 0 0 9 = x6162 (thread 1)"],
    ),
    Shown(
        "a thread that has another number there",
        "- p0 open a rw,creat = 0; -1 p0 write 0 x62 = 1; -2 p0 write 0 x61 = 0; - p0 pread 0 0 9 = x62",
        TWO_WRITES,
        "1 p0 open a rw,creat = 0; 2-1 p0 write 0 x61 = 1; 3-2 p0 write 0 x62 = 1; 4 p0 pread 0 0 9 = x6162",
        ["system: p0 write 0 x61 = 0 (thread 3)", "fdref:  2 p0 write 0 x61 = 1 (thread 3)"],
    ),
    Shown(
        "lines of different threads, where each has the same answers",
        "- p0 open a rw,creat = 0; -1 p0 write 0 x62 = 1; - p0 write 0 x61 = 1; - p0 pread 0 0 9 = x6162",
        TWO_WRITES,
        "1 p0 open a rw,creat = 0; 2 p0 write 0 x61 = 1; 3-1 p0 write 0 x62 = 1; 4 p0 pread 0 0 9 = x6162",
        ["system: p0 write 0 x62 = 1 (thread 2)", "fdref:  2 p0 write 0 x61 = 1 (thread 1)"],
    ),
    Shown(
        "a thread that waits, beside another one that makes a call",
        "- p0 pipe = 0 1; - p0 write 1 x7a = 1; -1 p0 read 0 1 = x7a",
        "0 p0 join = 0; 1 p0 pipe = 0 1; 2 p0 read 0 1 = parked 0",
        "1 p0 pipe = 0 1",
        ["system: p0 read 0 1 = x7a (thread 2)", "fdref:  2 p0 read 0 1 = parked 0 (thread 2)"],
    ),
    Shown(
        "one thread",
        "- p0 open a rw,creat = 0; - p0 write 0 x61 = 0",
        "0 p0 join = 0; 1 p0 open a rw,creat = 0; 2 p0 write 0 x61 = 1",
        "1 p0 open a rw,creat = 0; 2 p0 write 0 x61 = 1",
        ["system: p0 write 0 x61 = 0", "fdref:  2 p0 write 0 x61 = 1"],
    ),
]


def shows_one_thread(program: str, shown: Shown) -> None:
    """Both lines of what is shown are of one thread, or each is told with its thread."""
    system, fdref = as_bytes(lines_of(shown.system)), as_bytes(lines_of(shown.log))
    both = judge.Both(WELL, WELL, system, fdref, trace_of(lines_of(shown.trace)))
    said = judge.told(judge.Verdict(both, "legal 5 rest 0", program=[program]), 60, 0).splitlines()
    same(shown.shown, [line for line in said if line.startswith(("system: ", "fdref: "))])
    require(not any(line.startswith("the calls differ") for line in said if "no order of these" in "".join(said)), "")


def gives_up() -> None:
    """A search for an order that takes too many states is given up, which decides nothing."""
    orders = ORDERS[1]
    trace = lines_of(orders.fdref)
    system = as_bytes([f"- {line}" for line in lines_of(orders.system)])
    before = some_order.STATES_MOST, some_order.STATES_LEAST
    some_order.STATES_MOST = some_order.STATES_LEAST = 3
    try:
        both = judge.Both(WELL, WELL, system, as_bytes(logged(trace)), trace_of(trace))
        verdict = judge.Verdict(both, f"legal {len(trace)} rest 0", program=["false"])
    finally:
        some_order.STATES_MOST, some_order.STATES_LEAST = before
    require(f"{OPEN_ORDER}{GIVEN_UP}" in judge.told(verdict, 60, 0), judge.told(verdict, 60, 0))
    same((f"verdict: not judged: 1 answer differs without a reason; {NOT_DECIDED}: {GIVEN_UP}", 3), ending(verdict))


def ending(verdict: judge.Verdict) -> tuple[str, int]:
    """The last line and the status."""
    return judge.told_verdict(verdict), verdict.status()


def tells_kept() -> None:
    """That a child which a signal ended was kept may be why an answer differs, where it exits after a later call of its
    parent."""
    lines = "p0 pipe = 0 1; p0 fork = 1; p0 write 1 x79 = 1"
    trace = lines_of(
        f"{A_PIPE}4 p1 read 0 1 = parked 0; 5 p0 write 1 x79 = 1; 6 p1 resume = x79; 7 p1 exit = ok; "
        "8 p0 read 0 1 = parked 0; 9 p0 exit = ok; 10 house close-run = ok"
    )
    log = ["1 p0 pipe = 0 1", "2 p0 fork = 1", "5 p0 write 1 x79 = 1"]
    system = as_bytes([f"- {line}" for line in lines_of(f"{lines}; p0 read 0 1 = x79")])
    for place, cause in ((2, f", perhaps by {KEPT}"), (8, "")):
        noted = as_bytes([f"- {place} p0 signal 15"])
        both = judge.Both(WELL, KILLED, system, as_bytes(log), trace_of(trace), noted)
        verdict = judge.Verdict(both, "legal 11 rest 0")
        what, status = ("not judged", 3) if cause else ("a difference", 1)
        same((f"verdict: {what}: 1 answer differs without a reason{cause}", status), ending(verdict))


def names_first() -> None:
    """Where several processes write otherwise, and no answer differs, that may be by who comes first."""
    lines = "p0 fork = 1; p1 close 7 = error EBADF"
    trace = lines_of(f"0 p0 join = 0; 1 p0 fork = 1; 2 p1 attach = ok; 3 {lines.partition('; ')[2]}")
    one, other = Ended(0, b"ab", b""), Ended(0, b"ba", b"")
    system = as_bytes([f"- {line}" for line in lines_of(lines)])
    verdict = judge.Verdict(judge.Both(one, other, system, as_bytes(logged(trace)), trace_of(trace)), "legal 4 rest 0")
    ends = "the two runs end otherwise, or write something else, perhaps by which process came first, "
    same((f"verdict: not judged: {ends}{judge.UNTOLD}", 3), ending(verdict))


def first_without() -> None:
    """An answer that no call past fdref may be why of is a difference, and told, also after one that has such a cause;
    one that this may have reached is none."""
    lines = "p0 open a rw,creat = 0; p0 unlink h = {}; p0 unlink h = {}; p0 lseek 0 0 cur = {}"
    none, calls = "error ENOENT", lines_of(lines)
    trace = ["0 p0 join = 0", *(f"{at} {line}" for at, line in enumerate(calls, 1))]
    trace = lines_of("; ".join(trace).format(none, none, 0))
    noted = as_bytes(["! 1 p0 stream fopen\th"])
    for offset, status, first in ((5, 1, "lseek"), (0, 3, "unlink")):
        system = as_bytes([f"- {line}" for line in lines_of(lines.format("ok", "ok", offset))])
        both = judge.Both(WELL, WELL, system, as_bytes(logged(trace)), trace_of(trace), noted)
        verdict = judge.Verdict(both, "legal 5 rest 0")
        parting = verdict.first().parting
        same((status, first), (verdict.status(), parting.fdref and parting.fdref.act.split(" ")[1]))


def stands_still() -> None:
    """A run stands still where all wait and a thread, a signal or a child that was kept is noted."""
    here = "0 p0 join = 0; 1 p0 pipe = 0 1; 2 p0 fork = 1; 3 p1 attach = ok; "
    gone = here + "4 p1 exit = ok; 5 p0 read 0 1 = parked 0"
    kept = here + "4 p1 read 0 1 = parked 0; 5 p0 write 1 x79 = 1; 6 p1 resume = x79; 7 p1 exit = ok; "
    signal = past.Past(False, 2, 0, past.SIGNAL, "15", "")
    for text, beside, wanted in (
        (gone, standstill.Beside(), ""),
        (gone, standstill.Beside(held={0: 5}), "p0 read 0 1, in which a thread waits and holds its process"),
        (gone, standstill.Beside(held={0: 2}), ""),
        (gone, standstill.Beside({0: 5}), "p0 read 0 1, which a signal ends in the system alone"),
        (gone, standstill.Beside(ended=(signal,)), ""),
        (kept + "8 p0 read 0 1 = parked 0", standstill.Beside(ended=(signal,)), f"p0 read 0 1, perhaps by {KEPT}"),
        (kept + "8 p0 close 0 = ok", standstill.Beside(ended=(signal,)), ""),
    ):
        said = standstill.told(trace_of(lines_of(text)), lambda: standstill.Seen(0, 0), beside)
        same(f"stood still, and was killed: {wanted}" if wanted else "", said)


def blames_outputs() -> None:
    """What is written differs because of stdio on a file of fdref only where that is one of the outputs."""
    for descriptor, is_blamed_for_it in (("0", False), ("1", True), ("2", True)):
        every = past.past_of(as_bytes([f"- 2 p0 stdio {descriptor}"]))
        same(is_blamed_for_it, causes.Causes(every, [], [], DEFAULTS).of_output("1") is not None)


class Causes(NamedTuple):
    """What went past fdref before an answer that differs, and what is told that it may follow from, and may be by."""

    name: str
    past: str
    told: str
    lines: str = "p0 open a rw,creat = 0; p0 dup 0 = 1; p0 open b rw,creat = 2; p0 fstat 0 = {}"
    # the answers of the system and of fdref
    answers: tuple[str, str] = ("regular 5 1", "regular 0 1")
    by: str = ""
    # what is noted in the native run
    made: str = ""


A_NUMBER = "p0 open a rw,creat = {}"
TWO_NUMBERS = ("5", "0")
NEXT = "p0 open a rw,creat = 0; p0 dup 0 = {}"
CLOSED = "p0 open a rw,creat = 0; p0 close 0 = ok; p0 close 7 = error EBADF; p0 read 0 1 = {}"
OPEN = ("x61", "error EBADF")
A_COPY = "p0 open a rw,creat = 0; p0 dup2 0 7 = {}"
NOFILE = "! 0 p0 limit RLIMIT_NOFILE"
HELLO = ("x6869", "x")
A_READ = "p0 pipe = 0 1; p0 close 1 = ok; p0 read 0 9 = {}"
TWO_PIPES = "p0 pipe = 0 1; p0 pipe = 2 3; p0 close 3 = ok; p0 read 2 9 = {}"
NO_NAME = "p0 open a rw,creat = 0; p0 unlink a = ok; p0 dup 0 = 1; p0 read 1 9 = {}"
MOVED = "p0 open log rw,creat = 0; p0 rename log b = ok; p0 open b r = 1; p0 read 1 9 = {}"
OTHER_NAME = "p0 open a rw,creat = 0; p0 rename a b = ok; p0 open b r = 1; p0 read 1 9 = {}"
TWO_MADE = "! 0 p0 made 3; ! 0 p0 made 4"
MADE = "descriptor 3, which is open, and no call that fdref knows made it"
MADE_0 = MADE.replace("3", "0")
MAKES = "socket, whose descriptor has a low number natively"
OF_HANDLER = causes.HANDLED.format("signal 10 (SIGUSR1)")

IS_READ = "stdio on descriptor 0"
ABCD = "p0 open a rw,creat = 0; p0 write 0 x61626364 = 4; p0 lseek 0 0 set = 0; p0 dup 0 = 1; p0 dup2 1 0 = 0; "
READ_ON, AN_OFFSET, A_PLACE = (f"{ABCD}p0 {it} = {{}}" for it in ("read 1 2", "lseek 1 0 cur", "pread 1 1 0"))
WRITTEN_ON = f"{ABCD}p0 write 1 x78 = 1; p0 pread 1 1 0 = {{}}"

CAUSES = [
    Causes("the same path", "! 1 p0 path truncate\td/a; ! 1 p0 path unlink\td/b", "truncate of d/a"),
    Causes("another path", "! 1 p0 path truncate\td/b; - 1 p0 stream fopen\t/tmp/x", ""),
    Causes("the same descriptor", "! 1 p0 call fallocate\t0; ! 1 p0 call fallocate\t5", "fallocate on descriptor 0"),
    Causes("another descriptor of the same file", "! 2 p0 call mmap\t1", "mmap on descriptor 1"),
    Causes("another descriptor", "! 1 p0 call fallocate\t5", ""),
    Causes("a path that is looked at", "! 1 p0 path stat\td/a", ""),
    Causes("what only looks", "! 1 p0 call posix_fadvise\t0; ! 1 p0 call syscall of fstat\t0", ""),
    Causes("what only asks, or lists", "! 1 p0 call poll\t0; - 1 p0 path opendir\t/", ""),
    Causes("stdio on the same file", "- 2 p0 stdio 1; ! 2 p0 call posix_fadvise\t0", "stdio on descriptor 1"),
    Causes("stdio on another file", "- 3 p0 stdio 2", ""),
    Causes("stdio that has read a file, and its size", "- 2 p0 stdio 0", ""),
    *[
        Causes(f"stdio that has read a file, and {given} of it", "- 5 p0 stdio 0", told, READ_ON, (given, "x6162"))
        for given, told in (("x6263", IS_READ), ("x", IS_READ), ("x6364", IS_READ), ("x6361", ""), ("error EIO", ""))
    ],
    Causes("stdio that has read a file, and its offset", "- 5 p0 stdio 0", IS_READ, AN_OFFSET, ("3", "0")),
    Causes("stdio that has read a file, and an offset before", "- 5 p0 stdio 0", "", AN_OFFSET, ("0", "3")),
    Causes("stdio that has read a file, and a place of it", "- 5 p0 stdio 0", "", A_PLACE, ("x63", "x61")),
    Causes("stdio that has read a file before a write", "- 5 p0 stdio 0", IS_READ, WRITTEN_ON, ("x63", "x61")),
    Causes("a file at descriptor 0 that stdio does not read", "- 5 p0 idle 0", "", READ_ON, ("x6263", "x6162")),
    Causes("stdio that has read a pipe", "- 2 p0 stdio 0", IS_READ, A_READ, ("x", "x6869")),
    Causes("stdio that has read a pipe, and an error", "- 2 p0 stdio 0", "", A_READ, ("error EIO", "x6869")),
    Causes("a program", "! 1 p0 program system\tb; ! 1 p0 path stat\td/a", "system of b"),
    Causes("the other end of a pipe", "! 1 p0 call vmsplice\t1", "vmsplice on descriptor 1", A_READ, HELLO),
    Causes("an end of another pipe", "! 2 p0 call vmsplice\t1", "", TWO_PIPES, HELLO),
    Causes("a call with two descriptors", "! 2 p0 call tee\t0", "tee on descriptor 0", TWO_PIPES, HELLO),
    Causes("a file without a name", "! 3 p0 call pwritev\t0", "pwritev on descriptor 0", NO_NAME, HELLO),
    Causes("a name that moved on", "! 0 p0 stream fopen\tlog", "fopen of log", MOVED, HELLO),
    Causes("a name that did not", "! 0 p0 stream fopen\tlog", "", OTHER_NAME, HELLO),
    Causes("what came later", "! 4 p0 call sendfile\t0", ""),
    Causes("a limit", "! 1 p0 limit RLIMIT_FSIZE", "setrlimit of RLIMIT_FSIZE"),
    Causes("setrlimit", "! 1 p0 call setrlimit of RLIMIT_FSIZE", "setrlimit of RLIMIT_FSIZE"),
    Causes("a kind that is not known", "- 1 p0 strange thing", "thing"),
    Causes("what leads a program at most", "- 1 p0 timer alarm; - 1 p0 vfork fork; - 1 p0 interrupt read", ""),
    *[
        Causes(f"a path to fdref's files: {path}", f"! 1 p0 path open\t{path}", f"open of {path}")
        for path in ("/dev/fd/3", "/dev/stdin", "/proc/self/fd/3", "/proc/7/cwd/b", "../run/b", "d/../b", ".")
    ],
    Causes("paths that lead elsewhere", "! 1 p0 path open\t/etc/passwd; ! 1 p0 path open\td/e/../x", ""),
    Causes("a rename from a path", "! 1 p0 path rename\td/x", "rename of d/x"),
    Causes("a symbolic link", "! 1 p0 path symlink\tc", "symlink of c"),
    Causes("a number, and a stream", "- 0 p0 stream fopen\t/x", "fopen of /x", A_NUMBER, TWO_NUMBERS),
    Causes("no number free, and a stream", "- 0 p0 stream fopen\t/x", "fopen of /x", NEXT, ("error EMFILE", "1")),
    Causes("the number that dup2 is asked for", "- 0 p0 stream fopen\t/x", "", A_COPY, ("0", "7")),
    Causes("dup2 of a number, and a stream", "- 0 p0 stream fopen\t/x", "fopen of /x", A_COPY, ("7", "error EBADF")),
    Causes("dup2 of a number that is there, and a stream", "- 0 p0 stream fopen\t/x", "", A_COPY, ("error EBADF", "7")),
    *[
        Causes(f"a closed number, and a stream after record {at}", f"- {at} p0 stream fopen\t/x", told, CLOSED, OPEN)
        for at, told in ((1, ""), (2, "fopen of /x"), (3, "fopen of /x"))
    ],
    Causes("a closed number that is made otherwise", "", MADE_0, CLOSED, OPEN, MADE_0, "! 0 p0 made 0"),
    Causes("a closed number, and another one that is made otherwise", "", "", CLOSED, OPEN, made="! 0 p0 made 3"),
    Causes("a limit of numbers", "! 1 p0 limit RLIMIT_NOFILE", ""),
    Causes("a number, and a limit of numbers", NOFILE, "setrlimit of RLIMIT_NOFILE", NEXT, ("error EMFILE", "1")),
    Causes("F_DUPFD past a limit of numbers", NOFILE, "setrlimit of RLIMIT_NOFILE", A_COPY, ("error EINVAL", "7")),
    Causes("another EINVAL, and a limit of numbers", NOFILE, "", A_READ, ("error EINVAL", "x")),
    Causes("a number, and a socket", "- 0 p0 makes socket", MAKES, A_NUMBER, TWO_NUMBERS, MAKES),
    Causes("no number, and a socket", "- 0 p0 makes socket", ""),
    Causes("a number, and a file that both open", "! 0 p0 path open\t/x", "", A_NUMBER, TWO_NUMBERS),
    Causes("a number that is made otherwise", "", MADE, A_NUMBER, TWO_NUMBERS, MADE, TWO_MADE),
    Causes("a number of a stream", "- 0 p0 stream fopen\t/x", "fopen of /x", A_NUMBER, TWO_NUMBERS, made=TWO_MADE),
    Causes("a number that another process has made", "", "", A_NUMBER, TWO_NUMBERS, made="! 0 p7 made 3"),
    Causes("no number, and one that is made otherwise", "", "", made="! 0 p0 made 3"),
]


def is_blamed(causes: Causes) -> None:
    """Just what can change the answer is told to be what it may follow from."""
    trace = ["0 p0 join = 0", *(f"{at} {line}" for at, line in enumerate(lines_of(causes.lines), 1))]
    trace = lines_of("; ".join(trace).format(causes.answers[1]))
    both = judge.Both(
        WELL,
        WELL,
        as_bytes([f"- {line}" for line in lines_of(causes.lines.format(causes.answers[0]))]),
        as_bytes(logged(trace)),
        trace_of(trace),
        as_bytes(lines_of(causes.past)),
        system_past=as_bytes(lines_of(causes.made)),
    )
    verdict = judge.Verdict(both, f"legal {len(trace)} rest 0")
    said = judge.told(verdict, 60, 0).splitlines()
    told = [line.partition(" from ")[2] for line in said if line.startswith("may follow ")]
    told = [line.partition(" (past")[0].partition(" (before")[0] for line in told]
    same([causes.told] if causes.told else [], told)
    differs = "1 answer differs without a reason"
    by_it = f"verdict: not judged: {differs}, perhaps by {causes.by or f'{causes.told}, which went past fdref'}"
    same((by_it, 3) if causes.told else (f"verdict: a difference: {differs}", 1), ending(verdict))


A_FULL_PIPE = "p0 pipe = 0 1; p0 setfl 1 w,nonblock = ok; p0 write 1 {} = {}; p0 write 1 {} = {}"
AGAIN = "error EAGAIN"
# Two writes to a pipe that does not wait, what the system answers, what fdref does, how many bytes its pipes hold and
# those of the system, and the status.
ROOMS = [
    ("61*600", ("600", "61*600", "600"), ("600", "61*600", AGAIN), 1_024, 65_536, 3),
    ("61*600", ("600", "61*600", AGAIN), ("600", "61*600", AGAIN), 1_024, 65_536, 0),
    ("61*600", ("600", "61*400", AGAIN), ("600", "61*400", "400"), 1_024, 65_536, 1),
    ("61*600", ("600", "61*400", AGAIN), ("600", "61*400", "400"), 1_024, None, 3),
    ("61*600", ("600", "61*400", AGAIN), ("600", "61*400", "400"), 65_536, 65_536, 1),
    ("61*40000", ("40000", "61*9000", AGAIN), ("40000", "61*9000", "9000"), 65_536, 65_536, 3),
    ("61*40000", ("40000", "61*30000", "30000"), ("40000", "61*30000", "25536"), 65_536, 65_536, 1),
    ("61*40000", ("40000", "61*30000", "30000"), ("40000", "61*30000", "25536"), 65_536, None, 3),
]


def is_of_room(
    first: str, system: Sequence[str], fdref: Sequence[str], capacity: int, room: int | None, status: int
) -> None:
    """That a pipe of the system has another room is a reason only where that can be, as far as it is known."""
    calls = lines_of(A_FULL_PIPE.format(first, *fdref))
    trace = ["0 p0 join = 0", *(f"{at} {line}" for at, line in enumerate(calls, 1))]
    lines = as_bytes([f"- {line}" for line in lines_of(A_FULL_PIPE.format(first, *system))])
    frames = trace_of(trace, header_bytes(limits=Limits(capacity=capacity)))
    verdict = judge.Verdict(judge.Both(WELL, WELL, lines, as_bytes(logged(trace)), frames), "legal 5 rest 0", room=room)
    same(status, verdict.status())
    sizes = f"fdref's has {capacity:,} bytes and the system's 65,536 (--pipe-capacity 65536)"
    is_told = f": {ROOM}, of which {sizes}" in judge.told_verdict(verdict)
    same(status == 3 and room is not None and room != capacity, is_told)


READS_LATER = "p1 read 0 65536 = 61*65536; p1 read 0 65536 = 61*{}"
# The last piece of a write, what of it the system moved, what it has done before and after, what was noted of it, and
# whether no order gives that.
LAST_PIECES = [
    (4464, 4463, "", READS_LATER.format(4463), "", True),
    (4464, 4463, READS_LATER.format(4463), "", "", False),
    (4464, 4463, "", f"{READS_LATER.format(4463)}; p1 setfl 1 w,nonblock = ok", "", False),
    (4464, 4463, "", READS_LATER.format(4463), "- 0 p0 handler 14\tends", False),
    (4464, 4096, "", READS_LATER.format(4096), "", False),
    (4464, 368, "", READS_LATER.format(368), "", False),
    (65536, 65535, "", READS_LATER.format(65535), "", False),
    (100, 99, READS_LATER.format(99), "", "", False),
    (100, 99, "", READS_LATER.format(99), "", True),
    (4464, 0, "", READS_LATER.format(1), "", False),
]


def is_in_no_order(size: int, moved: int, before: str, after: str, noted: str, is_told: bool) -> None:
    """A part of a write that waits is in no order where a reader is there later, and nothing may have ended it."""
    whole = "p0 write 1 61*65536 = 65536"
    system = [*lines_of(f"p0 pipe = 0 1; p0 fork = 1; {whole}; {before}"), f"p0 write 1 61*{size} = {moved}"]
    first, last = lines_of(READS_LATER.format(size))
    calls = ["p0 pipe = 0 1", "p0 fork = 1", "p1 attach = ok", whole, first, f"p0 write 1 61*{size} = {size}", last]
    calls += ["p1 setfl 1 w,nonblock = ok"] if "setfl" in after else []
    trace = lines_of(one_after_another(["p0 join = 0", *calls]))
    frames = trace_of(trace, header_bytes(limits=Limits(capacity=65_536)))
    logs = as_bytes([f"- {line}" for line in [*system, *lines_of(after)]]), as_bytes(logged(trace))
    verdict = judge.Verdict(judge.Both(WELL, WELL, *logs, frames, system_past=as_bytes(lines_of(noted))), "legal 9 rest 0")
    finding = next(it for it in verdict.findings if it.parting.number == 0)
    same(is_told, some_order.is_in_none(verdict.compared, finding))


MORE_CALLS = "p0 fork = 1; p1 close 7 = error EBADF"
MORE_HERE = "0 p0 join = 0; 1 p0 fork = 1; 2 p1 attach = ok; 3 p1 close 7 = error EBADF; 4 p1 close 8 = error EBADF"
OTHER_CALL = "p0 close 7 = error EBADF; p0 close 8 = error EBADF"
OTHER_HERE = "0 p0 join = 0; 1 p0 close 7 = error EBADF; 2 p0 close 9 = error EBADF"
LOOKED_HERE = "0 p0 join = 0; 1 p0 close 7 = error EBADF; 2 p0 open a rw = error ENOENT; 3 p0 close 9 = error EBADF"
KILLED_BY_9 = causes.KILLED.format("signal 9 (SIGKILL)")
# Two logs in which a process makes other calls, what was noted of both runs, and what that is perhaps by.
WAYS = [
    (MORE_CALLS, MORE_HERE, "- 1 p0 signal 9\tp1", "", KILLED_BY_9),
    (MORE_CALLS.replace("1", "3"), MORE_HERE, "", "- 17 p0 signal 9\tp3", KILLED_BY_9),
    (MORE_CALLS, MORE_HERE, "- 1 p0 signal 9\tp2", "- 17 p0 signal 9\tp3", causes.NUMBERS),
    (OTHER_CALL, OTHER_HERE, "- 1 p0 signal 9\tp0", "", causes.NUMBERS),
    (OTHER_CALL, OTHER_HERE, "- 1 p0 handler 10\tends", "", f"{OF_HANDLER} or {causes.NUMBERS}"),
    (OTHER_CALL, OTHER_HERE, "- 1 p0 handler 10\tnone", "", causes.NUMBERS),
    (OTHER_CALL, OTHER_HERE, "- 2 p0 handler 10\tends", "", causes.NUMBERS),
    (OTHER_CALL, OTHER_HERE, "- 1 p0 makes socket", "", MAKES),
    (OTHER_CALL, LOOKED_HERE, "", "", f"{causes.NUMBERS}, or {causes.LOOKED}"),
    (OTHER_CALL.replace("close 8", "getfl 8"), LOOKED_HERE, "", "", causes.LOOKED),
]


def goes_another_way(system: str, fdref: str, noted: str, native: str, cause: str) -> None:
    """Where a process makes other calls, it is said what that is perhaps by."""
    trace, lines = lines_of(fdref), as_bytes(native_lines(system))
    log = as_bytes([line for line in logged(trace) if " open " not in line])
    notes = [as_bytes(lines_of(text)) for text in (noted, native)]
    both = judge.Both(WELL, WELL, lines, log, trace_of(trace), notes[0], system_past=notes[1])
    said = f"verdict: not judged: 1 answer differs without a reason, perhaps by {cause}"
    same((said, 3), ending(judge.Verdict(both, "legal 5 rest 0")))


def tells_looks() -> None:
    """That the answers of stat and access have no line, and so are not compared, is told."""
    trace = lines_of(LOOKED_HERE)
    system = as_bytes([f"- {line}" for line in lines_of("p0 close 7 = error EBADF; p0 close 9 = error EBADF")])
    log = as_bytes([line for line in logged(trace) if " open " not in line])
    verdict = judge.Verdict(judge.Both(WELL, WELL, system, log, trace_of(trace)), "legal 4 rest 0")
    told = "not compared: 1 look at names, as by stat or access, which have no line"
    require(told in judge.told(verdict, 60, 0).splitlines(), judge.told(verdict, 60, 0))
    agreement = "verdict: agreement in what was compared, which is not all: no answer differs"
    same((f"{agreement}; not compared: looks at names", 0), ending(verdict))


FLAGS = "1 answer about FD_CLOEXEC differs from what was set: system: p0 fcntl F_GETFD 3 = 0"
# What went past fdref, and what is said of a native F_GETFD that does not give what was set.
FLAGS_BY = {
    "": f"a difference: {FLAGS}",
    "! 1 p0 call poll\t4": f"a difference: {FLAGS}",
    "! 1 p0 call fdopen\t3": f"not judged: {FLAGS}, perhaps by fdopen on descriptor 3, which went past fdref",
    "! 1 p0 call syscall of dup3": f"not judged: {FLAGS}, perhaps by syscall of dup3, which went past fdref",
}


def tells_flags(noted: str, said: str) -> None:
    """A native F_GETFD that does not give what was set is a difference, unless what went past fdref may be why."""
    trace = lines_of("0 p0 join = 0; 1 p0 pipe = 0 1")
    native = as_bytes(["! 16 p0 cloexec F_GETFD\t3 = 0"])
    past_fdref = as_bytes([noted] if noted else [])
    both = judge.Both(WELL, WELL, as_bytes(["- p0 pipe = 0 1"]), as_bytes(logged(trace)), trace_of(trace), past_fdref)
    verdict = judge.Verdict(both._replace(system_past=native), "legal 2 rest 0")
    same((f"verdict: {said}", 1 if said.startswith("a difference") else 3), ending(verdict))
    require(FLAGS in judge.told(verdict, 60, 0).splitlines(), judge.told(verdict, 60, 0))


# What stat told of names natively and with fdref, what else is noted, a call more, and what is said, if anything is.
LOOKED = [
    ("a = regular 1 1", "a = regular 0 1", "", "", "a = regular 1 1, fdref: a = regular 0 1"),
    ("a = error 2", "a = regular 0 1", "", "", "a = error 2, fdref: a = regular 0 1"),
    ("a = regular 0 1", "a = regular 0 1", "", "", ""),
    ("b = regular 1 1", "a = regular 0 1", "", "", ""),
    ("a = error 2", "a = error 24", "", "", ""),
    ("a = regular 1 1", "a = regular 0 1", "! 1 p0 stream fopen\ta", "", ""),
    ("a = regular 1 1", "a = regular 0 1", "! 1 p0 path access\td/a", "", "a = regular 1 1, fdref: a = regular 0 1"),
    ("a = regular 1 1", "a = regular 0 1", "", "; {}p0 setfl 0 rw,append = ok; {}p0 pwrite 0 0 x61 = 1", ""),
    ("a = regular 1 1", "a = regular 0 1", "", "; {}p0 fork = 1; {}p1 close 0 = ok", ""),
]


def tells_looked(system: str, fdref: str, noted: str, more: str, said: str) -> None:
    """A stat that tells something else is a difference where nothing that is seen may be why."""
    calls = lines_of(f"p0 open a rw,creat = 0{more}".replace("{}", ""))
    attached = [line for call in calls for line in (call, *["p1 attach = ok"] * call.startswith("p0 fork"))]
    trace = [f"{at} {line}" for at, line in enumerate(["p0 join = 0", *attached])]
    native = as_bytes([f"- 30 p0 look stat\t{system}"])
    past_fdref = as_bytes([*([noted] if noted else []), f"- 1 p0 look stat\t{fdref}"])
    logs = as_bytes([f"- {call}" for call in calls]), as_bytes(logged(trace))
    both = judge.Both(WELL, WELL, *logs, trace_of(trace), past_fdref, system_past=native)
    verdict = judge.Verdict(both, f"legal {len(trace)} rest 0")
    told, status = ending(verdict)
    same(1 if said else 0, status)
    require(not said or told == f"verdict: a difference: stat tells otherwise: system: {said}", told)


TOO_FEW = "after it too few records are left for the run to end"
# Traces of which the audit expects no outcome, how many records they may have, what it says, and why.
NO_OUTCOME = [
    ("0 p0 join = 0; 1 p1 exit = ok", 9, "illegal 1 expected none", "the model records nothing for `p1 exit` there"),
    ("0 p0 join = 0; 1 p0 pipe = 0 1", 3, "illegal 1 expected none", TOO_FEW),
    ("0 p0 join = 0; 1 p0 pipe = 0 1", 9, "illegal 1 expected none", "but by the plain model it is legal 2 rest 0"),
]


def tells_why_none(trace: str, records: int, said: str, why: str) -> None:
    """Why the audit expects no outcome is told; where it does expect one, nothing is."""
    frames = trace_of(lines_of(trace), header_bytes(records=records))
    same(f"audit: {said}: {why}", judge.told_audit(said, frames))
    same("audit: illegal 1 expected 3", judge.told_audit("illegal 1 expected 3", frames))


REFUSED = "p0 open a rw,creat = 0; p0 open a r = error {}"
REFUSED_HERE = "0 p0 join = 0; 1 p0 open a rw,creat = 0; 2 p0 open a r = 1"


def is_refused(error: str, noted: str, is_superuser: bool, status: int) -> None:
    """That a file has not the rights is why the superuser is refused only where he may have lost some, or set them."""
    trace = lines_of(REFUSED_HERE)
    logs = as_bytes(native_lines(REFUSED.format(error))), as_bytes(logged(trace))
    both = judge.Both(WELL, WELL, *logs, trace_of(trace), as_bytes([noted] if noted else []))
    verdict = judge.Verdict(both, "legal 3 rest 0", is_superuser=is_superuser)
    same(status, verdict.status())
    require(status == 1 or judge.told_verdict(verdict).endswith(f"perhaps by {causes.MODES}"), str(status))


BROKEN = "p0 pipe = 0 1; p0 close 0 = ok; p0 write 1 x61 = error EPIPE"
BROKEN_HERE = "0 p0 join = 0; 1 p0 pipe = 0 1; 2 p0 close 0 = ok; 3 p0 write 1 x61 = error EPIPE"
IGNORED = "signal 13 (SIGPIPE) has ended p0 on the system, which ignores it"
BY_PIPE = Ended(-13, b"", b"")
# The ends of both runs, of which one may have a call more, what was noted natively, and the last line if it is 1.
ENDS = [
    (BY_PIPE, WELL, "", "; 4 p0 close 1 = ok", "- 0 p0 handler 13\tignored", f"a difference: {IGNORED}"),
    (BY_PIPE, WELL, "", "; 4 p0 close 1 = ok", "- 0 p0 handler 13\tignored; - 9 p0 handler 13\tnone", ""),
    (BY_PIPE, WELL, "", "; 4 p0 close 1 = ok", "- 0 p0 handler 13\tignored; - 9 p0 handler 0\tnone", ""),
    (BY_PIPE, WELL, "", "; 4 p0 close 1 = ok", "- 0 p1 handler 13\tignored", ""),
    (WELL, BY_PIPE, "; p0 close 1 = ok", "", "", "a difference: no signal 13 (SIGPIPE) has come on the system with EPIPE"),
    (WELL, BY_PIPE, "", "", "", "a difference: no signal 13 (SIGPIPE) has come on the system with EPIPE"),
    (WELL, Ended(-15, b"", b""), "; p0 close 1 = ok", "", "", ""),
]


def ends_by_signal(system: Ended, fdref: Ended, more: str, more_here: str, noted: str, said: str) -> None:
    """A signal that ends a process natively which ignores it is a difference, and so is one that does not come."""
    trace = lines_of(BROKEN_HERE + more_here)
    logs = as_bytes(native_lines(BROKEN + more)), as_bytes(logged(trace))
    both = judge.Both(system, fdref, *logs, trace_of(trace), system_past=as_bytes(lines_of(noted)))
    verdict = judge.Verdict(both, f"legal {len(trace)} rest 0")
    same(1 if said else 3, verdict.status())
    require(not said or judge.told_verdict(verdict) == f"verdict: {said}", judge.told_verdict(verdict))


def is_left(noted: str, status: int) -> None:
    """A call that fdref answers, and in which the system may have been when it was killed, is a difference unless what
    is noted may be why."""
    trace = lines_of("0 p0 join = 0; 1 p0 open a rw,creat = 0; 2 p0 read 0 9 = x")
    system = as_bytes(["- p0 open a rw,creat = 0"])
    both = judge.Both(KILLED, WELL, system, as_bytes(logged(trace)), trace_of(trace), as_bytes([noted]))
    same(status, judge.Verdict(both, "legal 3 rest 0").status())


STUCK = "a difference: p0 read 0 1 has not come back on the system, which was killed in it"


def hangs_at_the_end(program: str, exited: int, status: int, inside: str = "read") -> None:
    """A read that has not come back at the end of a pipe is a difference where its only writer has exited, though nobody
    waited for that; else who comes first may be why."""
    trace = lines_of(f"{A_PIPE}4 p0 close 1 = ok; 5 p1 exit = ok; 6 p0 read 0 1 = x")
    system = as_bytes(native_lines("p0 pipe = 0 1; p0 fork = 1; p0 close 1 = ok"))
    logs = system, as_bytes(logged(trace))
    both = judge.Both(KILLED, WELL, *logs, trace_of(trace), inside={0: inside}, exited=exited)
    verdict = judge.Verdict(both, "legal 7 rest 0", program=[program])
    same(status, verdict.status())
    stuck = STUCK.replace("read 0 1", inside if " " in inside else "read 0 1")
    require(status == 3 or judge.told_verdict(verdict) == f"verdict: {stuck}", judge.told_verdict(verdict))


def counts_exits() -> None:
    """Exits are counted in what native processes share, beside the calls in which they are."""
    exits = [0, 5 << 32, 0, 6 << 32 | 7] + 1020 * [0]
    shared = b"\1" * 64 + b"".join(map(judge.EXIT.pack, exits)) + judge.INSIDE.pack(1, b"read", -1, 0)
    shared += judge.INSIDE.pack(2, b"readv", 3, 5) + bytes(judge.INSIDE.size * 1022)
    same((2, {0: "read", 1: "readv 3 5"}, 0), (judge.exited_in(shared), judge.inside_of(shared), judge.exited_in(b"")))


def is_unlike(log: str) -> None:
    """A log of fdref that is not that of the trace is compared with nothing."""
    trace = lines_of("0 p0 join = 0; 1 p0 pipe = 0 1; 2 p0 read 0 1 = parked 0")
    both = judge.Both(WELL, WELL, b"", as_bytes(lines_of(log)), trace_of(trace))
    try:
        judge.Verdict(both, "legal 3 rest 0")
    except judge.CannotJudge as fault:
        require("and the trace has not" in str(fault), str(fault))
        return
    raise Failure("they are compared")


def is_torn() -> None:
    """A log whose lines a system has mixed up is compared with nothing. A process may have been killed at its line."""
    killed = "; a process that a signal ended may have been writing its line"
    for log in ("- p0 pipe = 3 4\n p0 = 3 4\n", "- p0 pipe\n", "p0 pipe = 3 4\n"):
        noted = as_bytes(["- 0 p0 signal 9"] if log == "- p0 pipe\n" else [])
        both = judge.Both(WELL, WELL, log.encode(), b"", trace_of([]), system_past=noted)
        try:
            judge.Verdict(both, "legal 0 rest 0")
        except judge.CannotJudge as fault:
            require("of the log on the system is no call, but" in str(fault), str(fault))
            same(bool(noted), str(fault).endswith(killed))
            continue
        raise Failure(f"{log!r} is compared")


def is_own_fault() -> None:
    """A fault of judge.py itself is no difference."""
    with mock.patch.object(judge, "main", side_effect=IndexError), contextlib.redirect_stderr(io.StringIO()) as told:
        same(3, judge.main_or_fault([]))
    require("this is a fault of judge.py" in told.getvalue(), told.getvalue())


def is_circular() -> None:
    """A log in which two processes are children of each other is compared with nothing."""
    both = judge.Both(WELL, WELL, as_bytes(["- p0 fork = 1", "- p1 fork = 0"]), b"", trace_of([]))
    try:
        judge.Verdict(both, "legal 0 rest 0")
    except judge.CannotJudge as fault:
        same("p0 fork = 1 comes from itself", str(fault))
        return
    raise Failure("it is compared")


def cases() -> Iterator[Case]:
    """Each pair of logs."""
    for logs in LOGS:
        yield logs.name, partial(are_found, logs)
    for log in ("3 p0 pipe = 2 3", "1 p0 pipe = 1 2", "1 p0 dup 0 = 0 1", "2 p0 read 0 1 = x"):
        yield f"a log with {log}", partial(is_unlike, log)
    for noted, status in (
        ("! 1 p0 path open\t/etc/passwd", 1),
        ("- 1 p0 stream fopen\t/x", 1),
        ("! 1 p0 call poll\t0", 3),
        ("! 1 p0 call mmap\t0", 3),
        ("! 1 p0 path chdir\t/", 3),
    ):
        yield f"a call that the system did not answer, after {noted}", partial(is_left, noted, status)
    yield "exits that are counted", counts_exits
    for noted, said in FLAGS_BY.items():
        yield f"a flag that is not as it was set, after {noted}", partial(tells_flags, noted, said)
    for looked in LOOKED:
        yield f"what stat told: {looked}", partial(tells_looked, *looked)
    for why in NO_OUTCOME:
        yield f"why the audit expects no outcome: {why}", partial(tells_why_none, *why)
    for error in ("EACCES", "EPERM"):
        for noted, is_superuser, status in (
            ("", True, 1),
            ("", False, 3),
            ("- 1 p0 rights seteuid", True, 3),
            ("- 1 p0 rights umask", True, 3),
            ("! 1 p0 path chmod\td/b", True, 3),
            ("- 1 p0 timer alarm", True, 1),
        ):
            name = f"{error} of the superuser: {is_superuser}, {noted}"
            yield name, partial(is_refused, error, noted, is_superuser, status)
    for ends in ENDS:
        yield f"a signal of a broken pipe: {ends}", partial(ends_by_signal, *ends)
    for ways in WAYS:
        yield f"another way: {ways}", partial(goes_another_way, *ways)
    for rooms in ROOMS:
        yield f"room of a pipe: {rooms}", partial(is_of_room, *rooms)
    for piece in LAST_PIECES:
        yield f"the last piece of a write: {piece}", partial(is_in_no_order, *piece)
    yield "a circle of forks", is_circular
    yield "a log that is torn", is_torn
    yield "looks at names", tells_looks
    yield "a fault of judge.py", is_own_fault
    for causes in CAUSES:
        yield f"blamed: {causes.name}", partial(is_blamed, causes)
