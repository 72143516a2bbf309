"""What went past fdref, as the shim notes it, and how it is told. What a difference may follow from says causes.py.

A line is `! 6 p0 stream fopen`, and after a tab the name that the call has, if any, or the descriptor of fdref of a
`call`. `!` stands where --strict would tell it, else `-`. The place is that of the last record of its process before.
"""

import errno
import re
from collections.abc import Container, Sequence
from typing import NamedTuple

from support.runs import Line
from support.texts import several

# The kinds that are counted, and what is said of one.
CALL, STDIO, THREAD, PROGRAM, STREAM, PATH = "call", "stdio", "thread", "program", "stream", "path"
# A child that a signal ended, whose number stands in the place of the call.
SIGNAL = "signal"
# A vfork, which the shim makes a fork of in both runs.
VFORK = "vfork"
# The end of a native process beside threads of it that may have been in a call, which has no line then.
CUT = "cut"
# A signal in a call that waits, which it would have ended in the system.
INTERRUPT = "interrupt"
# A timer that the program starts; a limit that it sets; and a descriptor that is open in the native run, though no call
# that fdref knows made it, whose number stands in the place of the call.
TIMER, LIMIT, MADE = "timer", "limit", "made"
# How a signal is handled from now on, whose number stands in the place of the call.
HANDLER = "handler"
# That a handler ran natively, of a signal whose number stands in the place of the call.
RAN = "ran"
# A call that makes a descriptor of the system, which natively has a low number.
MAKES = "makes"
# What stat has told of a name of fdref, or would have.
LOOK = "look"
# A call by which a program may lose rights of the superuser.
RIGHTS = "rights"
# A native F_GETFD or F_SETFD that has answered otherwise than by the flag as it was set, or an exec that goes by another.
CLOEXEC = "cloexec"
# A call that the library answers by itself in both runs.
OWN = "own"
# What a native call has done beside its answer that it may not do.
WRONG = "wrong"
# A native call that a signal may have ended, whose number stands after the call, and that has not ended by it.
UNENDED = "unended"
# A native wait that has told how a child has ended, which nothing else tells.
UNLOOKED = "unlooked"
# A native wait before which the library itself has waited, so that it is not seen whether the wait does.
UNWAITED = "unwaited"
# A file of fdref at descriptor 0, which stdio does not read.
IDLE = "idle"
# A native call that has not failed, and has set errno.
ERRNO = "errno"
# A native fsync that has failed as a disk may, or has told of a pipe what each system may, or an isatty beside threads
# that tells a terminal, or a wait that tells of a child that has stopped or goes on: what it gave.
GIVEN = "given"
# What stands after the call of an exec whose environment is without the library.
BARE = " in another environment"
COUNTED = {
    PATH: "path",
    STREAM: "stream",
    PROGRAM: "program",
    CALL: "other call",
    LIMIT: "limit",
    MAKES: "descriptor of the system",
}
MANY = {MAKES: "descriptors of the system"}

# Kinds that have changed nothing in the native run which has no line, or are asked for by themselves.
UNDOUBTED = (
    *(THREAD, SIGNAL, VFORK, CUT, INTERRUPT, TIMER, MADE, HANDLER, MAKES, RIGHTS, LOOK, OWN, WRONG, UNENDED),
    *(UNLOOKED, UNWAITED, ERRNO, IDLE, GIVEN),
)

# Calls that look, or hasten what comes anyway: they change no file, but may tell something else than natively.
LOOKS = re.compile(
    r"(?:syscall of )?_*(?:[lf]?stat\w*|newfstatat|f?access(?:at)?|eaccess|euidaccess|f?pathconf.*|realpath\w*"
    r"|readlink\w*|canonicalize_file_name|[lf]?getxattr|f?l?listxattr|ftok|name_to_handle_at|isfdtype"
    r"|posix_fadvise(?:64)?|readahead|sync_file_range|syncfs|fsync|fdatasync)"
)
# Calls that list a folder, in which the files of fdref are missing; that set modes and times, or ask for rights; and that
# take a descriptor which natively is one of a low number.
LISTS = re.compile(r"opendir|scandir\w*|glob(?:64)?|n?ftw(?:64)?|fts\w*_open|getdents64|getdirentries\w*")
SETS = re.compile(r"[lf]?chmod\w*|[lf]?chown\w*|umask|(?:f|l)?utime\w*|e?u?i?d?access")
TAKES = re.compile(r"opendir|mko?stemps?(?:64)?|fts\w*_open|syscall of pipe2?")
# Calls with two names, which fail where one of them is fdref's and the other one is not.
BETWEEN = re.compile(r"link(?:at)?|rename(?:at2?)?")
# What fdref answers to a look for want of a descriptor, and to names that it does not take.
OWN_ERRORS = (errno.EMFILE, errno.EINVAL, errno.ENAMETOOLONG)
# What a child that is still there with fdref may answer otherwise: it holds the ends of pipes, or reads them.
OF_PIPES = ("open", "read", "write", "fstat")


class Past(NamedTuple):
    """What went past fdref: whether --strict tells it, after which record of which process, its kind, and the call."""

    is_strict: bool
    place: int
    number: int
    kind: str
    call: str
    name: str
    # those of its path, or of the file behind its descriptor then, and what is behind these
    names: frozenset[str] = frozenset()
    things: frozenset[object] = frozenset()

    def said(self, between: str = " ") -> str:
        """The call with its name or descriptor, or what it is where it is none."""
        said = {
            STDIO: f"stdio on descriptor {self.call}",
            THREAD: f"a thread that waits in {self.call} and holds its process",
            SIGNAL: f"signal {self.call}, by which a child ended that fdref may have kept for longer",
            MADE: f"descriptor {self.call}, which is open, and no call that fdref knows made it",
            LIMIT: f"setrlimit of {self.call}",
            INTERRUPT: f"a signal in {self.call}, which ends no call of fdref",
            MAKES: f"{self.call}, whose descriptor has a low number natively",
        }
        if self.kind == CALL and self.name.isdigit():
            return f"{self.call} on descriptor {self.name}"
        if self.is_bare():
            return f"{self.call.removesuffix(BARE)}{between}{self.name}, whose environment is without fdref's library"
        return said.get(self.kind) or (f"{self.call}{between}{self.name}" if self.name else self.call)

    def is_bare(self) -> bool:
        """Whether it is an exec whose environment is without the library."""
        return self.kind == PROGRAM and self.call.endswith(BARE)

    def is_past(self) -> bool:
        """Whether it is a call that went past fdref, and not what holds one of fdref."""
        kinds = (THREAD, SIGNAL, MADE, INTERRUPT, HANDLER, MAKES, RIGHTS, LOOK, OWN, WRONG, UNENDED)
        return self.kind not in (*kinds, UNLOOKED, UNWAITED, ERRNO, IDLE, GIVEN)

    def why(self) -> str:
        """The same as what a difference may be by."""
        said = self.said(" of ")
        return f"{said}, which went past fdref" if self.is_past() and not self.is_bare() else said

    def descriptor(self) -> str:
        """The descriptor of fdref that it is with, or nothing."""
        return self.call if self.kind == STDIO else self.name if self.kind == CALL and self.name.isdigit() else ""

    def tells_otherwise(self) -> bool:
        """Whether a program may be told something else than natively: it fails with fdref, or lists what is there."""
        is_plain = self.kind == STREAM and self.is_strict
        is_other = bool(LISTS.fullmatch(self.call) or BETWEEN.fullmatch(self.call))
        return self.kind in (STDIO, CALL, THREAD, PROGRAM) or is_plain or is_other

    def weight(self, names: frozenset[str], descriptor: str, things: frozenset[object]) -> tuple[bool, ...]:
        """The greater the likelier it is that something follows from it that has to do with these names, with a
        descriptor, and with these things."""
        is_same = bool(self.names & names), bool(descriptor) and self.descriptor() == descriptor
        is_look = bool(LOOKS.fullmatch(self.call))
        is_near = *is_same, bool(self.things & things), self.kind == MADE, self.kind == STDIO and not names
        return *is_near, not is_look, self.is_strict, self.kind != PATH, self.name[:1] != "/"


def past_of(text: bytes) -> list[Past]:
    """All that went past fdref, in its order."""
    found = []
    for line in text.decode("ascii", "replace").splitlines():
        mark, place, actor, kind, rest = line.split(" ", 4)
        call, _, name = rest.partition("\t")
        found.append(Past(mark == "!", int(place), int(actor.removeprefix("p")), kind, call, name))
    return found


def told_place(one: Past, lines: list[Line]) -> str:
    """Where it was: before the next line of its process in the log of fdref, or after the last one."""
    own = [int(line.place) for line in lines if line.number() == one.number and line.place.isdigit()]
    later = [place for place in own if place > one.place]
    return f"before line {min(later)}" if later else f"after line {max(own)}" if own else "without a line"


def told_cause(one: Past, lines: list[Line]) -> str:
    """That a difference may follow from it."""
    past, said = "past fdref, " if one.is_past() else "", one.said(" of ")
    if one.kind == MADE:
        # the native run has no places
        return f"may follow from {said}"
    why = ": EXDEV where just one of its names is fdref's" if BETWEEN.fullmatch(one.call) else ""
    return f"may follow from {said} ({past}{told_place(one, lines)}){why}"


def last_of(
    every: list[Past], names: frozenset[str], descriptor: str, things: frozenset[object] = frozenset()
) -> Past | None:
    """The one that has most to do with these names, this descriptor and these things, and of these the last."""
    return max(enumerate(every), key=lambda it: (it[1].weight(names, descriptor, things), it[0]))[1] if every else None


def told_past(every: list[Past]) -> list[str]:
    """How much of each kind went past fdref, with the first of it; where stdio did, and that a thread waited."""
    told = []
    for kind, one in COUNTED.items():
        said = [it.call if kind == MAKES else it.said() for it in every if it.kind == kind]
        more = MANY.get(kind, f"{one}s")
        told += [f"{len(said)} {more} (first {said[0]})" if said[1:] else f"1 {one} ({said[0]})"] if said else []
    lines = [f"past fdref: {', '.join(told)}"] if told else []
    for number in sorted({it.call for it in every if it.kind in (STDIO, IDLE)}):
        lines.append(f"past fdref: stdio on descriptor {number}, which is a file of fdref, where it would fail")
    lines += told_threads(every)
    has_forked = any(it.kind == VFORK for it in every)
    return [*lines, "vfork is fork in both runs: its child shares no memory with it"] if has_forked else lines


def told_own(every: list[Past]) -> list[str]:
    """Which calls of the program were not judged, since the library answers them by itself."""
    calls = dict.fromkeys(it.call for it in every if it.kind == OWN)
    return [f"not compared: {', '.join(calls)}, which fdref's library answers by itself in both runs"] if calls else []


def told_unlooked(native: list[Past]) -> list[str]:
    """Which native waits have told how a child has ended, with which nothing could be compared."""
    calls, causes = calls_of(UNLOOKED, native)
    return [f"not compared: how a child ended, of which the system told by {calls}{causes}"] if calls else []


def told_unwaited(native: list[Past]) -> list[str]:
    """Of which native waits it is not seen whether they wait for a child."""
    calls, causes = calls_of(UNWAITED, native)
    return [f"not compared: whether a wait for a child waits, as {calls}{causes}"] if calls else []


def calls_of(kind: str, native: list[Past]) -> tuple[str, str]:
    """The calls of a kind, and why it was noted of them."""
    found = [it for it in native if it.kind == kind]
    calls, why = dict.fromkeys(it.call for it in found), dict.fromkeys(it.name for it in found if it.name)
    return ", ".join(calls), f" ({'; '.join(why)})" if why else ""


def given(native: Sequence[Past]) -> str:
    """What the first native fsync, isatty or wait gave which is not compared, or nothing."""
    found = next((it for it in native if it.kind == GIVEN), None)
    if not found:
        return ""
    number = found.name.removeprefix("error ")
    told = f"error {errno.errorcode.get(int(number), number)}" if number != found.name else number
    return f"what {found.call} gave on the system ({told})"


def told_signals(every: list[Past]) -> list[str]:
    """That a child which a signal ended may be there in fdref for longer than its parent knows."""
    told = "signal {}: fdref may record the exit of a child that it ended after its parent's wait"
    return [told.format(", ".join(map(str, signals(every))))] if signals(every) else []


def is_late(one: Past, records: list[Line]) -> bool:
    """Whether a child that a signal ended may have been there with fdref after its parent knew of its end: a process
    exits after a later call of that parent."""
    later = (place for place, line in enumerate(records) if place > one.place and line.number() == one.number)
    first = next(later, len(records))
    return any(line.act.endswith(" exit") for line in records[first + 1 :])


def without_early(every: list[Past], records: list[Line]) -> list[Past]:
    """The same without the children that a signal ended and that were gone in time."""
    return [it for it in every if it.kind != SIGNAL or is_late(it, records)]


def may_be_refused(every: list[Past], is_superuser: bool) -> bool:
    """Whether a program may be refused what it asks for by the rights that a file has: the superuser is not, unless he
    loses rights, or has set some."""
    return not is_superuser or any(it.kind in (RIGHTS, PROGRAM) or SETS.fullmatch(it.call) for it in every)


def has_looked(every: list[Past], records: list[Line]) -> bool:
    """Whether a program asked for modes or times, or set them."""
    is_asked = any(line.act.split(" ")[1] == "fstat" for line in records)
    return is_asked or any(SETS.fullmatch(it.call) for it in every)


def told_looks(every: list[Past], records: list[Line]) -> list[str]:
    """That what is written may tell of modes or times, where the program asked for them."""
    told = "may follow from a stat, fstat, access or chmod: modes, owners, times, blocks and st_ino are fdref's own"
    return [told] if has_looked(every, records) else []


def likely(every: list[Past]) -> list[Past]:
    """What may have changed what fdref does not see."""
    return [it for it in every if it.kind not in UNDOUBTED and not LOOKS.fullmatch(it.call)]


def doubt(every: list[Past]) -> str:
    """The first thing that may have changed what fdref does not see, or nothing."""
    found = likely(every)
    return f"{found[0].said(' of ')}, which went past fdref," if found else ""


def is_of_output(one: Past) -> bool:
    """Whether it is stdio on a file of fdref at an output: natively it may have written there, and has read nothing."""
    return one.kind == STDIO and one.call in ("1", "2")


def is_of_input(one: Past) -> bool:
    """Whether it is stdio on a file of fdref at the input, which natively has read there and written nothing."""
    return one.kind == STDIO and one.call == "0"


def made(every: list[Past]) -> list[Past]:
    """The descriptors that are open natively, and that no call made which fdref knows."""
    return [it for it in every if it.kind == MADE]


def flags(native: list[Past], every: list[Past]) -> tuple[list[Past], Past | None]:
    """The native answers about FD_CLOEXEC that are otherwise than it was set; and what went past fdref that may have
    set it, or have put another file at such a descriptor: a call by its number, or with that descriptor."""
    found = [it for it in native if it.kind == CLOEXEC]
    descriptors = {it.name.split(" ")[0] for it in found}
    likely = (it for it in every if it.call.startswith("syscall of ") or it.descriptor() in descriptors)
    return found, next(likely, None) if found else None


def told_flags(found: list[Past]) -> list[str]:
    """The first answer about FD_CLOEXEC that is otherwise, and how many there are."""
    if not found:
        return []
    count = several(len(found), "answer about FD_CLOEXEC differs", "answers about FD_CLOEXEC differ")
    first = found[0]
    asked = "fcntl " if first.call.startswith("F_") else ""
    return [f"{count} from what was set: system: p{first.number} {asked}{first.call} {first.name}"]


def told_wrong(native: list[Past]) -> list[str]:
    """What native calls have done beside their answers that they may not do."""
    return [f"system: p{it.number} {it.call}: {it.name}" for it in native if it.kind == WRONG]


def looked_apart(native: list[Past], every: list[Past]) -> tuple[str, str, str] | None:
    """The first look of a process at a name in which the two runs tell something else of a file, with its call, as long
    as both look at the same names. Errors of the profile alone are none."""
    both = ([it for it in notes if it.kind == LOOK and it.number == 0] for notes in (native, every))
    for system, fdref in zip(*both, strict=False):
        if (system.call, system.name.split(" = ")[0]) != (fdref.call, fdref.name.split(" = ")[0]):
            return None
        is_own = any(fdref.name.endswith(f" = error {number}") for number in OWN_ERRORS)
        if system.name != fdref.name and not is_own:
            return system.call, system.name, fdref.name
    return None


def told_errno(native: Sequence[Past]) -> str:
    """That a native call has set errno though it has not failed, which a program may not go by, or nothing."""
    found = next((it for it in native if it.kind == ERRNO), None)
    return f"errno after a {found.call} that has not failed, which a program may not go by" if found else ""


def cuts(every: list[Past]) -> bool:
    """Whether a process ended while threads of it may have been in a call."""
    return any(it.kind == CUT for it in every)


def killed(every: list[Past], number: int) -> str:
    """The signal that ended a process, as its parent was told of it, or nothing."""
    return next((it.call for it in every if it.kind == SIGNAL and it.name == f"p{number}"), "")


def killed_by(every: list[Past], number: int) -> set[int]:
    """The processes that a signal ended, as their parents were told of it."""
    found = (it.name[1:] for it in every if it.kind == SIGNAL and it.call == str(int(number)))
    return {int(name) for name in found if name.isdigit()}


def signals(every: list[Past]) -> list[int]:
    """The signals that ended children."""
    return sorted({int(it.call) for it in every if it.kind == SIGNAL})


def crashed(every: list[Past], crashes: Container[int]) -> list[Past]:
    """The processes with known numbers that one of these signals ended, as their parents were told of it."""
    return [it for it in every if it.kind == SIGNAL and int(it.call) in crashes and it.name]


def places_of(kind: str, every: list[Past]) -> dict[int, int]:
    """Of each process the place of the record after which one of a kind came last."""
    return {it.number: it.place for it in every if it.kind == kind}


def told_interrupts(every: list[Past]) -> list[str]:
    """In which calls that wait signals came."""
    calls = sorted({it.call for it in every if it.kind == INTERRUPT})
    return [f"a signal comes while {call} waits, and ends no call of fdref" for call in calls]


def told_threads(every: list[Past]) -> list[str]:
    """In which calls a thread waited while others could make none."""
    calls = sorted({it.call for it in every if it.kind == THREAD})
    return [f"a thread waits in {call}, and no other one can make a call meanwhile" for call in calls]
