"""What may be why the two runs of a program part that is no answer of fdref.

The rule. A difference is an answer that differs to the same call, where nothing that is told beside the calls may be
why. Where a process makes another call, its program went another way: by an answer that differed before, which is told
then, else by what no answer tells, as the time. That is no difference, and what it may be by is named. Where the call
is the same, all that is told before it, of any process, may be why, but for what is known to be harmless:

- What changes nothing looks at a file, lists a folder, or asks for readiness (LOOKS and LISTS of past.py, and ASKS): no
  later answer tells it. A timer and a signal in a call lead a program another way at most, and a vfork is a fork in
  both runs.
- What changes one file, by its descriptor (OF_A_DESCRIPTOR), is harmless to a call that has another file, pipe and
  description behind it. What stdio reads on descriptor 0 is harmless where more that was read explains no answer.
- What changes one name, by its path (OF_A_PATH), is harmless to other names, and to what is behind these. It may not
  lead to files of fdref by another spelling, or by a descriptor (leads_to_files). What makes such a path is not here.
- What takes a number, as a stream, which has a low one natively, is harmless where no answer tells a number, that it is
  open natively alone, or that none is free there. A limit of numbers is harmless but where one or a new one is refused.
- A child that a signal ended is kept for a while at most, and holds the ends of pipes (OF_PIPES of past.py).

What is told and not listed here, as a new kind of it, may be why any answer differs.
"""

import os
import re
from collections.abc import Sequence

from support import plain_model
from support.auditing import Judge, act_of
from support.call_logs import Log, word_of
from support.footprints import CHANGE_DESCRIPTORS
from support.plain_model import Limits
from support.runs import Line

import past
from handlers import IGNORED, NONE, signal_named
from partings import Finding, Parting, names_behind
from past import Past
from reach import Reach, behind

# What asks for readiness, or for what fdref does not tell: natively it changes no file.
ASKS = re.compile(
    r"_*p?(?:poll|select)(?:_chk)?|epoll_(?:ctl|p?wait2?)|f?statv?fs(?:64)?|_*statfs|ttyname(?:_r)?|tcgetattr"
    r"|tcget(?:sid|pgrp)|getsockname|getpeername|getsockopt|sockatmark"
)
# What changes no other file than the one behind its descriptor, and no number.
OF_A_DESCRIPTOR = re.compile(
    r"(?:syscall of )?(?:p?(?:read|write)v?(?:64)?(?:v?2)?|lseek|ftruncate(?:64)?)|lseek by SEEK_DATA and its kin"
    r"|mmap(?:64)?|(?:posix_)?fallocate(?:64)?|flock|lockf(?:64)?|aio_(?:read|write|fsync)(?:64)?|vmsplice"
    r"|fchmod|fchown|futimens|futimes|fsetxattr|fremovexattr|fcntl with .*|ioctl"
)
# What changes no other file than the one that its path leads to, and makes no other path to one.
OF_A_PATH = re.compile(
    r"(?:open(?:at)?|creat|fopen|truncate|mko?stemps?)(?:64)?|mkdtemp|mktemp|tempnam|unlink(?:at)?|remove|rmdir"
    r"|mkdir(?:at)?|mkfifo(?:at)?|mknod(?:at)?|l?chmod|l?chown|fch(?:mod|own)at|l?utimes?|utimensat|futimesat"
    r"|l?(?:set|remove)xattr"
)
# Kinds that lead a program another way at most.
ASIDE = (past.IDLE, past.VFORK, past.INTERRUPT, past.CUT, past.TIMER, past.HANDLER, past.MAKES, past.RIGHTS, past.LOOK, past.OWN)
# Kinds by which a program may go another way, beside what tells it something else.
LEADS = (past.SIGNAL, past.LIMIT, past.INTERRUPT, past.MAKES)
# What makes a name that is another one in each run.
MAKES_A_NAME = re.compile(r"mko?stemps?(?:64)?|mkdtemp|mktemp|tempnam")
# What makes a name of the system alone, of which looks tell.
MAKES_A_LINK = re.compile(r"symlink(?:at)?|mknod(?:at)?")
# Paths by which a descriptor, or a folder of a process, has another name.
BY_DESCRIPTOR = re.compile(
    r"/dev/(?:fd|stdin|stdout|stderr)\b.*|/proc/[^/]+/(?:task/[^/]+/)?(?:fd|cwd|root|map_files)\b.*"
)

# How much may differ because of something: nothing, what it has to do with, the numbers of descriptors, or all.
NOTHING, ITS_OWN, ALL = "nothing", "its own", "all"

# What calls may differ by that no call tells.
MODES = "modes, owners, times and st_ino, which are fdref's own"
NUMBERS = "the number of a process, an address, the time or a random number"
TIMERS = "a timer, since calls take longer with fdref"
HANDLED = "a handler of {}, which comes at another time with fdref,"
KILLED = "{}, which ended this process, perhaps before or after more of its calls in the other run"
LOOKED = f"an answer of stat, access or truncate, of which no line tells, or {MODES}"
VARIABLES = "the environment, in which judge.py sets variables of its own (FDREF_..)"
OF_RIGHTS = ("error EACCES", "error EPERM")
# What is noted of a signal that has no handler any more.
UNHEARD = (NONE, IGNORED)
# The name of the variables, as data of a write may have it.
VARIABLE = b"FDREF_"


# ---- what one of them may change


def leads_to_files(path: str, folder: str) -> bool:
    """Whether a path with a slash may lead to files of fdref, which have plain names in a folder, or to a descriptor.
    What the system has links to from outside is known; a link that the program makes is told by itself."""
    if is_plain(path):
        return False
    if not path.startswith("/"):
        return os.path.normpath(path).startswith("..") or "/" not in os.path.normpath(path)
    spelled = {os.path.normpath(path), os.path.realpath(path)} if folder else set()
    own = {os.path.normpath(folder), os.path.realpath(folder)} if folder else set()
    return bool(BY_DESCRIPTOR.fullmatch(path)) or any(f"{it}/".startswith(f"{one}/") for it in spelled for one in own)


def is_plain(path: str) -> bool:
    """Whether it is a name that fdref may have, which is that of the file also in the system."""
    return bool(path) and "/" not in path.removeprefix("./").lstrip("/") and path[:1] != "/" and path not in (".", "..")


def extent(one: Past, folder: str) -> str:
    """How much of what fdref has may be another one because of it, but for numbers."""
    is_path = one.kind in (past.PATH, past.STREAM)
    if one.kind in (*ASIDE, past.MADE) or is_limit_of_numbers(one) or ((is_path or one.kind == past.CALL) and changes_nothing(one)):
        return NOTHING
    if one.kind == past.STDIO or (one.descriptor() and OF_A_DESCRIPTOR.fullmatch(one.call)):
        return ITS_OWN
    if is_path and OF_A_PATH.fullmatch(one.call) and not leads_to_files(one.name, folder):
        return ITS_OWN
    return ALL


def changes_nothing(one: Past) -> bool:
    """Whether a call looks, lists or asks, and changes no file of the system."""
    return any(kind.fullmatch(one.call) for kind in (past.LOOKS, past.LISTS, ASKS))


def is_limit_of_numbers(one: Past) -> bool:
    """Whether a program has set how many descriptors it may have."""
    return one.kind == past.LIMIT and one.call == "RLIMIT_NOFILE"


def takes_number(one: Past) -> bool:
    """Whether it may natively take a number that is free with fdref."""
    return one.kind in (past.STREAM, past.MADE, past.MAKES) or bool(past.TAKES.fullmatch(one.call))


def tells_number(parting: Parting) -> bool:
    """Whether an answer tells a number of a descriptor that the system has chosen, that there is one which fdref does
    not have, or that none is free."""
    both = [line for line in (parting.system, parting.fdref) if line]
    outcomes = [line.outcome for line in both]
    is_taken = parting.system is not None and parting.system.outcome == "error EMFILE"
    if is_taken or (parting.fdref is not None and parting.fdref.outcome == "error EBADF"):
        return True
    is_told = len(both) == 2 and word_of(both[0]) in CHANGE_DESCRIPTORS and word_of(both[0]) != "dup2"
    return is_told and "".join(outcomes).replace(" ", "").isdigit()


def refuses_number(parting: Parting) -> bool:
    """Whether an answer tells that a number may not be, or that no other one may. An F_DUPFD, which is a dup2 in the logs,
    is EINVAL then."""
    lines = [line for line in (parting.system, parting.fdref) if line]
    is_past = any(word_of(line) == "dup2" and line.outcome == "error EINVAL" for line in lines)
    return is_past or any(line.outcome in ("error EBADF", "error EMFILE") for line in lines)


# ---- what differences have to do with


def act_in(line: Line | None) -> plain_model.Act | None:
    """The call of a line, where it can be read."""
    try:
        return act_of(line.act) if line else None
    except plain_model.NotAnAct:
        return None


def tells_variables(line: Line | None) -> bool:
    """Whether a call writes what is in the environment by this tool."""
    act = act_in(line)
    return act is not None and any(isinstance(field, bytes) and VARIABLE in field for field in act.fields)


def ends_early(parting: Parting, things: frozenset[object]) -> bool:
    """Whether a read of a pipe is told the end of it, where with fdref there were bytes: none too many were written."""
    system, fdref = parting.system, parting.fdref
    is_end = system is not None and fdref is not None and system.outcome == "x" and word_of(system) == "read"
    is_given = is_end and fdref is not None and bool(plain_model.read_data(fdref.outcome.encode()))
    return is_given and any(isinstance(it, plain_model.Pipe) for it in things)


def described(act: plain_model.Act, world: plain_model.World, *words: str) -> plain_model.Description | None:
    """What the descriptor of a call leads to, where it is one of these and the descriptor is open."""
    process = world.processes.get(act.actor) if isinstance(act.actor, int) and act.word in words else None
    return process.table.get(act.fields[0]) if process else None


def read_on(parting: Parting, act: plain_model.Act, world: plain_model.World) -> object:
    """The pipe, or the open file, of which more was read natively where that explains an answer, or None: bytes that
    come later, or fewer, an offset that is greater, and of a pipe that nothing is there, or room for more."""
    at = described(act, world, "read", "write", "lseek")
    if not at or not parting.system or not parting.fdref:
        return None
    system, fdref = parting.system.outcome, parting.fdref.outcome
    given = plain_model.read_data(system.encode())
    if at.pipe:
        return at.pipe if given is not None or system == "error EAGAIN" or system.isdigit() else None
    if act.word == "lseek":
        is_greater = system.isdigit() and fdref.isdigit() and int(system) > int(fdref)
        return at if act.fields[2] == "cur" and is_greater else None
    data = at.regular.data
    is_later = given is not None and given in bytes(data.read(at.offset, max(len(data) - at.offset, 0)))
    return at if act.word == "read" and is_later else None


def answered(parting: Parting, records: Sequence[Line]) -> int:
    """The place in the trace at which fdref answered, or where its process exited while it waited, or the end."""
    line = parting.fdref
    if line and line.place.isdigit() and not line.outcome.startswith(("parked ", "part ")):
        return int(line.place)
    ends = (place for place in range(parting.place, len(records)) if records[place].act == f"p{parting.number} exit")
    return next(ends, len(records))


class Causes:
    """What is told beside the calls, of which some may be why an answer differs. What was noted natively is of the
    processes that have these numbers there. At some places the library looked at names, of which no line tells."""

    def __init__(
        self,
        every: list[Past],
        partings: Sequence[Parting],
        records: list[Line],
        limits: Limits,
        folder: str = "",
        native: Sequence[Past] = (),
        system: Log | None = None,
        is_killed: bool = False,
        noted: Sequence[Past] = (),
        looks: Sequence[int] = (),
        is_superuser: bool = False,
    ) -> None:
        self.may_be_refused = past.may_be_refused(every, is_superuser)
        self.every = every
        self.records = records
        self.folder = folder
        self.is_killed = is_killed
        self.native, self.noted, self.looks = native, noted, looks
        self.numbers = system.numbers if system else {}
        numbers = {number: way for way, number in self.numbers.items()}
        self.made = [(numbers[it.number], it) for it in native if it.kind == past.MADE and it.number in numbers]
        self.places = {id(it): answered(it, records) for it in partings}
        self.reached: set[int] = set()
        self.things: dict[int, frozenset[object]] = {}
        # what was read on, as some calls tell that part; and what was written to then where it is another place
        self.read_on: dict[int, object] = {}
        self.astray: dict[int, frozenset[object]] = {}
        self.inputs: set[object] = set()
        self.moved: set[object] = set()
        self.follow(partings, limits)
        self.extents = {id(it): extent(it, folder) for it in self.every}

    def follow(self, partings: Sequence[Parting], limits: Limits) -> None:
        """Goes through the records, and finds what each cause has to do with, what each call that parts has, and
        whether something of that has come to it."""
        judge, reach, done = Judge(limits), Reach(), 0
        causes = [(it.place + 1, 0, at) for at, it in enumerate(self.every)]
        calls = [(self.places[id(it)], 1, at) for at, it in enumerate(partings)]
        for until, is_call, at in sorted(causes + calls):
            for line in self.records[done:until]:
                act = act_of(line.act)
                passes = reach.passes(judge.world, act)
                to = described(act, judge.world, "write")
                self.moved |= behind(to) if to and to in self.inputs else set()
                outcome = judge.outcome_of(act)
                if passes:
                    reach.has_passed(judge.world, act, outcome)
            done = max(done, until)
            if is_call:
                self.meet(partings[at], judge.world, reach)
            else:
                self.begin(at, judge.world, reach)

    def begin(self, at: int, world: plain_model.World, reach: Reach) -> None:
        """What a cause has to do with, when it is there."""
        one = self.every[at]
        process = world.processes.get(one.number)
        fd = one.descriptor()
        description = process.table.get(int(fd)) if process and fd else None
        has_name = one.kind not in (past.SIGNAL, past.HANDLER)
        names = names_behind(world, one.number, fd) if fd else {one.name.rpartition("/")[2] * has_name} - {""}
        known = [world.names[name] for name in map(str.encode, names) if name in world.names]
        things = frozenset(behind(description) if description else known)
        self.every[at] = one._replace(names=frozenset(names), things=things)
        self.inputs |= things if past.is_of_input(one) else set()
        if extent(one, self.folder) == ITS_OWN:
            reach.things |= things | {("name", name.encode()) for name in ({*names} if not fd else ())}

    def meet(self, parting: Parting, world: plain_model.World, reach: Reach) -> None:
        """What a call has to do with, as it parts."""
        act = act_in(parting.fdref) if parting.is_same_call() or self.is_left(parting) else None
        if act:
            self.read_on[id(parting)] = read_on(parting, act, world)
            self.astray[id(parting)] = frozenset(self.moved)
            self.things[id(parting)] = frozenset(reach.of(world, act))
            if reach.reaches(world, act):
                self.reached.add(id(parting))

    def is_left(self, parting: Parting) -> bool:
        """Whether the system was killed while it may have been in the call that fdref answers: it made no other one.
        That is as the same call, which it did not answer."""
        return self.is_killed and not parting.system

    def of(self, finding: Finding) -> Past | None:
        """The one that a finding may follow from that has most to do with it, and of these the last."""
        parting = finding.parting
        acts = [line.act.split(" ") for line in (parting.system, parting.fdref) if line]
        descriptor = acts[0][2] if acts[0][2:] and acts[0][2].isdigit() else ""
        is_same = parting.is_same_call()
        likely = self.of_call(finding) if is_same or self.is_left(parting) else []
        likely += self.of_way(parting) if not is_same else []
        return past.last_of(likely, finding.names, descriptor, self.things.get(id(parting), frozenset()))

    def of_call(self, finding: Finding) -> list[Past]:
        """Those by which an answer to the same call may differ."""
        parting = finding.parting
        place, things = self.places[id(parting)], self.things.get(id(parting), frozenset())
        before = [it for it in self.every if it.place < place or it.kind == past.THREAD]
        known = [it for it in before if self.extents[id(it)] == ITS_OWN]
        near = [it for it in known if it.names & finding.names or it.things & things]
        if ends_early(parting, things):
            near, known = ([it for it in some if not past.is_of_output(it)] for some in (near, known))
        found = [it for it in near or (known if id(parting) in self.reached else []) if self.can_have_read(it, parting)]
        found += [it for it in before if self.extents[id(it)] == ALL and self.can_be(it, parting)]
        found += [it for it in before if is_limit_of_numbers(it) and refuses_number(parting)]
        return found + (self.of_number(parting, before) if tells_number(parting) else [])

    def can_have_read(self, one: Past, parting: Parting) -> bool:
        """Whether a call may differ by what stdio has read, if that is it: it has been read on, or was written to where
        the offset was another one."""
        if not past.is_of_input(one):
            return True
        return self.read_on.get(id(parting)) in one.things or bool(one.things & self.astray.get(id(parting), frozenset()))

    def of_number(self, parting: Parting, before: list[Past]) -> list[Past]:
        """Those that may have taken a number that an answer tells. One that is refused with fdref can have been taken
        since it was closed there."""
        made = [it for way, it in self.made if parting.way[: len(way)] == way]
        since = -1
        if parting.fdref and parting.fdref.outcome == "error EBADF":
            number = parting.fdref.act.split(" ")[2]
            made = [it for it in made if it.call == number]
            act = f"p{parting.number} close {number}"
            closed = (place for place in reversed(range(self.places[id(parting)])) if self.records[place].act == act)
            since = next(closed, -1)
        # the first is the lowest, where no stream may have made it
        return [it for it in before if takes_number(it) and (it.number != parting.number or it.place >= since)] or made[:1]

    @staticmethod
    def can_be(one: Past, parting: Parting) -> bool:
        """Whether a call may differ by what may change all: a child that was kept changes what is told of pipes."""
        return one.kind != past.SIGNAL or not parting.fdref or word_of(parting.fdref) in past.OF_PIPES

    def of_way(self, parting: Parting) -> list[Past]:
        """Those by which a program may have gone another way."""
        before = [it for it in self.every if it.place < parting.place or it.kind == past.THREAD or not parting.fdref]
        return [it for it in before if self.tells_otherwise(it) or it.kind in LEADS]

    def of_output(self, descriptor: str) -> Past | None:
        """What it may follow from that something else was written to a descriptor: of what has most to do with that
        the first, since the first line that differs is told. Stdio on a file that is none of the outputs changes
        neither."""
        likely = [it for it in self.every if self.tells_otherwise(it)]
        likely = [it for it in likely if it.kind != past.STDIO or it.call in ("1", "2")]
        return past.last_of(likely[::-1], frozenset(), descriptor)

    def tells_otherwise(self, one: Past) -> bool:
        """Whether a program may be told something else than natively: also by a call with a path that fails since fdref
        has the file, or by one that leads to it natively."""
        if one.tells_otherwise():
            return True
        is_path = one.kind in (past.PATH, past.STREAM)
        is_file = is_plain(one.name) and bool(one.things)
        # the folder itself is the system's in both runs
        is_led = os.path.normpath(one.name) != "." and leads_to_files(one.name, self.folder)
        return is_path and (is_file or is_led or bool(MAKES_A_NAME.fullmatch(one.call)) or self.is_looked_at(one))

    def is_looked_at(self, one: Past) -> bool:
        """Whether it made a name of the system alone at which a process has looked after it."""
        if not MAKES_A_LINK.fullmatch(one.call) or not is_plain(one.name):
            return False
        looks = (it.name for it in self.noted if it.kind == past.LOOK and it.place >= one.place)
        return any(name.startswith(f"{one.name.rpartition('/')[2]} = ") for name in looks)

    def killed(self, parting: Parting) -> str:
        """The signal that ended a process which made more calls in one run, or nothing."""
        if parting.system and parting.fdref:
            return ""
        number = self.numbers.get(parting.way, -1)
        found = past.killed(self.noted, parting.number) or past.killed(self.native, number)
        return KILLED.format(signal_named(int(found))) if found else ""

    def handled(self, place: int) -> str:
        """The handlers that were set before a place, which may run at other times, or nothing."""
        before = [it for it in self.every if it.kind == past.HANDLER and it.place < place and it.name not in UNHEARD]
        numbers = {int(it.call) for it in before}
        return HANDLED.format(" or ".join(map(signal_named, sorted(numbers)))) if numbers else ""

    def other(self, parting: Parting, is_timed: bool) -> str:
        """What a parting may be by that is no call past fdref, or nothing: an owner's right, or what a program was told
        that fdref has no part in, after which it makes another call. Whether a timer ended a run is told."""
        answer = parting.system.outcome if parting.system else ""
        if answer in OF_RIGHTS and self.may_be_refused:
            return MODES
        if parting.is_same_call() or self.is_left(parting):
            return ""
        if tells_variables(parting.system) or tells_variables(parting.fdref):
            return VARIABLES
        before = [it for it in self.every if it.place < parting.place]
        if is_timed or any(it.kind == past.TIMER for it in before):
            return TIMERS
        handled = self.handled(parting.place)
        told = [handled, past.told_errno(self.native), past.given(self.native), self.told_to(parting, before)]
        return " or ".join(filter(None, told))

    def told_to(self, parting: Parting, before: list[Past]) -> str:
        """What a program may have been told by which it makes another call."""
        is_asked, has_looked = parting.is_asked_otherwise(), any(place < parting.place for place in self.looks)
        if has_looked:
            return f"{NUMBERS}, or {LOOKED}" if is_asked else LOOKED
        return MODES if not is_asked and past.has_looked(before, self.records[: parting.place]) else NUMBERS
