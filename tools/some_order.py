"""Whether some order of the calls that a system made explains all its answers, where a program has several processes.

Each process makes its calls in its own order, and a fork comes before the first call of its child. The log of the run
on the system tells more: a call has a line once it came back, and tells how long the log was when it began. So a call
whose line stood there by then came first. Where that is not told, the last line of its process was there. A wait that
told that a child had ended has a line, too: the child's exit came before that.

What the shim asks aside is no call of the program, and is in the trace of fdref alone: what is before the first call,
which holds the numbers of real files, and what may come later, of which the answers are left open. So are those of
calls that have a reason to differ. A call that a signal ended has done nothing, and is left out.
"""

import bisect
import itertools
from collections.abc import Callable, Iterator, Mapping, Sequence
from typing import NamedTuple

from support import pages, plain_model
from support.auditing import Judge, act_of
from support.call_logs import Log, Way, call_of, is_wait, word_of
from support.histories import UNKNOWN, Noted
from support.ordering import ROOMY, by_shares
from support.plain_model import PIPE_BUF, TRANSFER_MAX, Limits
from support.replaying import verified
from support.runs import Line
from support.searching import Search, Step, TooLong
from support.texts import several

from compare import clipped
from handlers import begun_at
from partings import OF_TIME, Compared, Finding, Parting, is_by_signal, size_of
from reach import names_in
from thread_order import ThreadSearch

# A search is given up after so many states, or after fewer, where these have many bytes; and after so long.
STATES_MOST, STATES_LEAST, BYTES_MOST = 100_000, 1_000, 2**30
SECONDS = 20
# What the first thread of a process has in the place of the place.
FIRST_THREAD = "-"
# The calls that have to do with the descriptors of a process alone, and those that have with one file, too; and how many
# names the others have.
OF_DESCRIPTORS = ("close", "dup", "dup2", "pipe")
OF_ONE_FILE = ("open", "read", "write", "pread", "pwrite", "lseek", "ftruncate", "fstat", "getfl")
NAMES = {"open": 1, "mkfifo": 1, "unlink": 1, "link": 2, "rename": 2}
# The name of a reason that larger pipes take away.
ROOM = "room of a pipe"
# What is told of an order in which reads of one pipe at once share its bytes.
SHARED = "where reads of a pipe at once share its bytes (own; page of read)"


AN_ORDER = "an order of these calls gives all answers of the system"
OTHERS = "an order of these calls gives all other answers of the system"


class Ordered(NamedTuple):
    """Whether an order was found: `is_found`, or None where that was not decided, and what is said of it. It is whole
    where it gives all answers, and those that have a reason too, and roomy where it does so only by larger pipes."""

    is_found: bool | None
    said: str
    is_whole: bool = False
    is_roomy: bool = False

    def told(self) -> str:
        """The line that tells it."""
        if self.is_found is None:
            return f"not decided whether {AN_ORDER}: {self.said}"
        return self.said


class Open(Exception):
    """Why it is not decided."""


# ---- what the shim asked aside


class Aside(NamedTuple):
    """An act that the shim made by itself: how many calls of its process came before it, and its outcome."""

    before: int
    act: str
    outcome: str


def starts_of(trace: Sequence[Line], calls: Sequence[Line]) -> set[int]:
    """The places at which the calls of a process began."""
    found = set()
    for line in calls:
        place = int(line.place)
        who = f"p{line.number()} "
        while word_of(trace[place]) == "resume":
            place = next(at for at in range(place - 1, -1, -1) if trace[at].act.startswith(who))
        found.add(place)
    return found


def asides_of(trace: Sequence[Line], number: int | None, calls: Sequence[Line]) -> list[Aside]:
    """What the shim asked aside as a process, but for looks at a name, which change nothing."""
    known = starts_of(trace, [line for line in calls if line.place.isdigit()])
    found, count = [], 0
    for place, line in enumerate(trace):
        if line.act.startswith("house ") or line.number() != number:
            continue
        if place in known:
            count += 1
        elif word_of(line) not in ("join", "attach", "exit", "resume"):
            found.append(Aside(count, call_of(line), line.outcome))
    return without_looks(found)


def without_looks(asides: list[Aside]) -> list[Aside]:
    """The same without those that change nothing: an open that failed, and one with its fstat and its close."""
    found: list[Aside] = []
    for one in asides:
        acts = [it.act.split(" ")[0] for it in found[-2:]]
        if acts == ["open", "fstat"] and one.act == f"close {found[-2].outcome}":
            del found[-2:]
        elif not (one.act.startswith("open ") and one.outcome.startswith("error ")):
            found.append(one)
    return found


# ---- the history


class Builder:
    """The history of the run on the system."""

    def __init__(self, compared: Compared, is_roomy: bool = False) -> None:
        self.compared = compared
        self.lines = compared.system_lines
        noted = compared.noted_lines
        self.places = {id(line): place for place, line in enumerate(noted)}
        self.ends = [*itertools.accumulate(len(line_text(line)) + 1 for line in noted)]
        self.last = 2 * len(noted) + 4
        # when it was told of a child that it had ended: the first time
        self.gone = {int(line.outcome): self.after(line) - 1 for line in reversed(noted) if is_wait(line)}
        # what has no line on the system, and where it comes there
        self.unlined: list[str] = []
        reasons = [it for it in compared.findings if it.reason and it.parting.is_same_call()]
        known = [OF_TIME.name, ROOM] if is_roomy else [OF_TIME.name]
        self.unknown = {id(it.parting.system) for it in reasons if it.reason and it.reason.name not in known}

    def has_threads(self) -> bool:
        """Whether several threads of a process made calls."""
        return any(thread_of(line) != FIRST_THREAD for line in self.lines)

    def lanes(self) -> list[list[Noted]]:
        """The calls of each process, and those of its other threads by themselves."""
        system, fdref = self.compared.system, self.compared.fdref
        if self.compared.started.calls or len(self.lines) != system.total():
            raise Open("it starts programs, whose calls are in no order with its own")
        found: list[list[Noted]] = []
        forked = {int(line.outcome): self.after(line) - 1 for line in self.lines if is_fork(line)}
        for way, number in sorted(system.numbers.items(), key=lambda it: it[1]):
            calls, own = system.calls[way], fdref.calls.get(way, [])
            begun, asides = self.begin_of(system, number), asides_of(self.compared.records, fdref.numbers.get(way), own)
            threads = [line for line in calls if thread_of(line) != FIRST_THREAD]
            same = same_calls(calls, own) if not threads else 0
            later = [it for it in asides if it.before > same]
            if later:
                others = f"p{number} makes other calls with fdref after {several(same, 'call')}"
                raise Open(f"{others}, and one of them has no line on the system (p{number} {later[0].act})")
            first = [line for line in calls if thread_of(line) == FIRST_THREAD]
            first_end = self.after(calls[0]) - 1 if calls else self.last
            came = begin(number, begun, min(forked[number], first_end) if number in forked else None)
            found.append([came, *self.of_process(number, begun, first, asides, number not in forked)])
            for name in dict.fromkeys(map(thread_of, threads)):
                found.append(self.calls_of(begun, [line for line in threads if thread_of(line) == name]))
        # a signal may have ended each call of a thread
        return [lane for lane in found if lane]

    def begin_of(self, system: Log, number: int) -> int:
        """The time from which on a process can have made calls: its parent's fork began then."""
        for calls in system.calls.values():
            for place, line in enumerate(calls):
                if is_fork(line) and line.outcome == str(number):
                    own = [it for it in calls[:place] if thread_of(it) == thread_of(line)]
                    known = self.after(own[-1]) if own else self.begin_of(system, line.number())
                    return self.start_of(line, known)
        return 1

    def start_of(self, line: Line, known: int) -> int:
        """The time after which a call began: what is known, or what its line tells. That is the same of all lines of
        one call of the program; otherwise no call began before the last one of its thread had come back."""
        told = line.place.partition("@")[2]
        if not told:
            return known
        start = 2 * min(bisect.bisect_right(self.ends, int(told)), self.places[id(line)]) + 1
        if start >= known:
            return start
        earlier = reversed(self.compared.noted_lines[: self.places[id(line)]])
        before = (it for it in earlier if same_thread(it, line) and not is_wait(it))
        if next(before, line).place != line.place:
            raise Open(f"a call was made within another one, as by a handler of a signal: {shown(line)}")
        return start

    def after(self, line: Line) -> int:
        """The time at which a line was written."""
        return 2 * self.places[id(line)] + 3

    def of_process(
        self, number: int, start: int, system: list[Line], asides: list[Aside], is_first: bool
    ) -> list[Noted]:
        """The calls of a process after it came, with what the shim asked aside, and its exit, if that came, by the time
        that a wait told it."""
        found: list[Noted] = []
        for at, line in enumerate(system):
            found += self.asked_aside(number, (start, self.after(line) - 1), at, asides, is_first, f"before {line.act}")
            found += self.calls_of(start, [line])
            start = start if is_piece(system[at : at + 2]) else self.after(line)
        gone = self.gone.get(number)
        # what comes before the exit was there before that was told, too
        found += self.asked_aside(number, (start, gone or self.last), len(system), asides, is_first)
        return [*found, Noted(start, gone, plain_model.Act(number, "exit"), UNKNOWN)]

    def calls_of(self, start: int, lines: list[Line]) -> list[Noted]:
        """Calls one after another, which began after a time."""
        found: list[Noted] = []
        for at, line in enumerate(lines):
            start = self.start_of(line, start)
            if not self.compared.is_ended(line):
                outcome = UNKNOWN if id(line) in self.unknown else line.outcome
                found.append(Noted(start, self.after(line) - 1, read_act(line.act), outcome))
            start = start if is_piece(lines[at : at + 2]) else self.after(line)
        return found

    def asked_aside(
        self,
        number: int,
        times: tuple[int, int],
        at: int,
        asides: list[Aside],
        is_first: bool,
        where: str = "after its calls",
    ) -> list[Noted]:
        """What the shim asked aside before a call, between two times. What it asked at first is known, and later no
        answer is."""
        found = []
        for one in asides:
            if one.before == at and is_first and at == 0:
                found.append(Noted(0, 0, read_act(f"p{number} {one.act}"), one.outcome))
            elif one.before == at:
                self.unlined.append(f"p{number} {one.act}, {where}")
                found.append(Noted(*times, read_act(f"p{number} {one.act}"), UNKNOWN))
        return found


def same_calls(system: list[Line], fdref: list[Line]) -> int:
    """How many calls are the same from the first on."""
    both = enumerate(zip(system, fdref, strict=False))
    return next((at for at, (one, other) in both if call_of(one) != call_of(other)), len(system))


def thread_of(line: Line) -> str:
    """Which thread of its process made a call, as the place of its line tells."""
    return line.place.partition("@")[0]


def same_thread(one: Line, other: Line) -> bool:
    """Whether two calls are of one thread of one process."""
    return (one.number(), thread_of(one)) == (other.number(), thread_of(other))


def line_text(line: Line) -> str:
    """A line as it stands in a log."""
    return f"{line.place} {line.act} = {line.outcome}"


def is_fork(line: Line) -> bool:
    """Whether it is a fork that made a process."""
    return word_of(line) == "fork" and line.outcome.isdigit()


def begin(number: int, begun: int, forked: int | None) -> Noted:
    """How a process comes: the first one of all, or one that was there at a time, as its fork or first call tells."""
    if forked is None:
        return Noted(0, 0, plain_model.Act(number, "join"), str(number))
    return Noted(begun, forked, plain_model.Act(number, "attach"), "ok")


def is_piece(lines: Sequence[Line]) -> bool:
    """Whether the first of two lines is a piece of a larger transfer, of which the second is the next one."""
    if len(lines) < 2 or word_of(lines[0]) not in ("read", "write", "pread", "pwrite"):
        return False
    one, other = (line.act.split(" ")[1:3] for line in lines)
    return one == other and is_full(lines[0])


def is_full(line: Line) -> bool:
    """Whether a call asks for as many bytes as one of fdref may."""
    act = read_act(line.act)
    asked = act.fields[-1]
    return (len(asked) if isinstance(asked, bytes) else asked) == TRANSFER_MAX


def read_act(text: str) -> plain_model.Act:
    """A call of a log."""
    try:
        return act_of(text)
    except plain_model.NotAnAct:
        raise Open(f"{text} is no call of fdref") from None


# ---- bytes that are lost


Use = tuple[Way, Line]


def pipe_calls(log: Log, way: Way, ends: Mapping[str, int]) -> Iterator[tuple[int, Use]]:
    """The reads and writes of a process, and of those that come of it, at pipes, each with the id of the line that made
    its pipe."""
    known, children = dict(ends), 0
    for line in log.calls.get(way, []):
        word, *fields = call_of(line).split(" ")
        if word in ("read", "write"):
            yield from [(known[fields[0]], (way, line))] if known.get(fields[0]) else []
        elif is_fork(line):
            yield from pipe_calls(log, (*way, children), known)
            children += 1
        elif word == "pipe" and not line.outcome.startswith("error "):
            known.update(dict.fromkeys(line.outcome.split(" "), id(line)))
        elif word in ("open", "dup", "dup2"):
            known[line.outcome] = 0 if word == "open" else known.get(fields[0], 0)
        elif word == "close" and line.outcome == "ok":
            known.pop(fields[0], None)


def has_lost(log: Log, is_lost: Callable[[Sequence[Use]], bool]) -> bool:
    """Whether a pipe of a system has lost bytes, as no order explains, however large it is."""
    uses: dict[int, list[Use]] = {}
    for pipe, use in pipe_calls(log, min(log.calls), {}):
        uses.setdefault(pipe, []).append(use)
    return any(map(is_lost, uses.values()))


def has_one_reader(uses: Sequence[Use]) -> bool:
    """Whether one process alone reads a pipe, and was there for all writes."""
    reads = {way for way, line in uses if given_by(line) is not None}
    return len(reads) == 1 and all(word_of(line) != "write" or line.outcome != "error EPIPE" for _, line in uses)


def is_cut_off(uses: Sequence[Use]) -> bool:
    """Whether the process that alone reads a pipe is told the end of it before it has got as much as was written."""
    reads = [given for _, line in uses if (given := given_by(line)) is not None]
    put = sum(len(written_by(line)) for _, line in uses)
    return has_one_reader(uses) and not all(reads) and sum(map(len, reads)) < put


def is_lossy(uses: Sequence[Use]) -> bool:
    """The same, or whether it has not got the first bytes that the only writer has written."""
    got = b"".join(given_by(line) or b"" for _, line in uses)
    put = b"".join(written_by(line) for _, line in uses)
    is_one = has_one_reader(uses) and len({way for way, line in uses if word_of(line) == "write"}) == 1
    return is_cut_off(uses) or (is_one and put[: len(got)] != got[: len(put)])


def is_torn(uses: Sequence[Use]) -> bool:
    """Whether the process that alone reads a pipe has got as many bytes as were written, each time in one piece, and
    not one write after another, in whatever order those of different processes came."""
    got, writes = b"".join(given_by(line) or b"" for _, line in uses), dict[Way, list[bytes]]()
    for way, line in uses:
        if data := written_by(line):
            writes.setdefault(way, []).append(data)
            if len(data) < size_of(line.act.split(" ")[-1]) or len(data) > PIPE_BUF:
                return False
    if not has_one_reader(uses) or len(got) != sum(map(len, itertools.chain(*writes.values()))):
        return False
    every = [*writes.values()]
    # how many writes of each process have come, by how many bytes these are
    reached = {0: {(0,) * len(every)}}
    while reached and min(reached) < len(got):
        size = min(reached)
        for counts in reached.pop(size):
            for at, data in next_of(every, counts):
                if got.startswith(data, size):
                    more = (*counts[:at], counts[at] + 1, *counts[at + 1 :])
                    reached.setdefault(size + len(data), set()).add(more)
        if sum(map(len, reached.values())) > STATES_LEAST:
            return False
    return not reached


def next_of(every: Sequence[Sequence[bytes]], counts: Sequence[int]) -> list[tuple[int, bytes]]:
    """The next write of each process that has one left, after so many of each."""
    return [(at, own[count]) for at, (own, count) in enumerate(zip(every, counts, strict=True)) if count < len(own)]


def given_by(line: Line) -> bytes | None:
    """What a read of at least a byte has given, or None."""
    is_asked = word_of(line) == "read" and not line.act.endswith(" 0")
    return plain_model.read_data(line.outcome.encode()) if is_asked else None


def written_by(line: Line) -> bytes:
    """The bytes that a write has moved."""
    if word_of(line) != "write":
        return b""
    data = plain_model.read_data(line.act.split(" ")[-1].encode()) or b""
    return data[: int(line.outcome)] if line.outcome.isdigit() else b""


# ---- searching


def written(history: Sequence[Noted]) -> int:
    """How many bytes may go into pipes."""
    if not any(it.act.word in ("pipe", "mkfifo") for it in history):
        return 0
    return sum(len(it.act.fields[1]) for it in history if it.act.word == "write")


def most_states(lanes: Sequence[Sequence[Noted]], seconds: float) -> int:
    """How many states a search may go through in so long a time, each of which may have all bytes that are written."""
    acts = (noted.act for lane in lanes for noted in lane)
    size = sum(len(act.fields[-1]) for act in acts if act.word in ("write", "pwrite"))
    return int(max(STATES_LEAST, min(STATES_MOST, BYTES_MOST // (size + 1))) * max(1, seconds / SECONDS))


def search(builder: Builder, limits: Limits, program: list[str], seconds: float) -> bool:
    """Whether an order explains the history. The program has to give the same in that order."""
    by = by_threads if builder.has_threads() else by_processes
    try:
        found = by(builder, limits, seconds)
    except TooLong as fault:
        tried = f"given up after {several(fault.states, 'state')}, or {seconds:g} seconds"
        raise Open(f"{tried}: fewer processes, threads or calls at once may decide it, or --search N seconds") from None
    if found is None:
        return False
    steps, history = found
    verified(program, history, steps, limits)
    return True


def reads_at_once(builder: Builder) -> bool:
    """Whether reads of two processes overlap, in a history without threads."""
    reads = [] if builder.has_threads() else [it for lane in builder.lanes() for it in lane if it.act.word == "read"]
    pairs = itertools.combinations(reads, 2)
    return any(one.process != it.process and not one.precedes(it) and not it.precedes(one) for one, it in pairs)


def search_shares(builder: Builder, limits: Limits, program: list[str], seconds: float) -> bool:
    """Whether an order explains the history in which reads of one pipe that are made at once share its bytes. The
    program has to give the same in that order."""
    lanes = builder.lanes()
    history = [noted for lane in lanes for noted in lane]
    found = by_shares(history, most_states(lanes, seconds), seconds, limits)
    if found:
        verified(program, found.history, found.steps, found.limits)
    return found is not None


def by_processes(builder: Builder, limits: Limits, seconds: float) -> tuple[list[Step], list[Noted]] | None:
    """An order of the calls of processes, and the history."""
    lanes = builder.lanes()
    ordered = sorted((noted for lane in lanes for noted in lane), key=lambda noted: noted.start)
    steps = Search(ordered, limits, most_states(lanes, seconds), seconds).order()
    return None if steps is None else (steps, ordered)


def by_threads(builder: Builder, limits: Limits, seconds: float) -> tuple[list[Step], list[Noted]] | None:
    """An order of the calls of threads, and the history in that order."""
    lanes = builder.lanes()
    threads = ThreadSearch(lanes, limits, most_states(lanes, seconds), seconds)
    found = threads.order()
    if found is None and threads.has_waited:
        waits = plain_model.act_text(threads.has_waited.act)
        raise Open(f"a thread may have waited in a call, beside which others make theirs: {clipped(waits)}")
    if found is None:
        return None
    calls = {id(noted): noted for _, noted in found}
    return [step for step, _ in found], [*calls.values()]


def is_open_to(finding: Finding) -> bool:
    """Whether a finding has a reason by which the runs went apart, so that an order may be missing for that alone."""
    is_other = finding.reason != OF_TIME and not is_by_signal(finding.reason)
    return bool(finding.reason) and is_other and not finding.is_settled


def ordered_of(
    compared: Compared, program: list[str], doubt: str, of_end: str, seconds: float = SECONDS, more: str = ""
) -> Ordered | None:
    """Whether some order explains the answers of the system, as far as so long a search tells: None where there is
    nothing to search for. A doubt is why there may be none though the system is right: something was done that has no
    line, of which more may be told; one of an end is why a pipe may have had fewer bytes than were written."""
    has_threads = Builder(compared).has_threads()
    if not compared.findings or (len(compared.system.calls) < 2 and not has_threads):
        return None
    try:
        return found_for(compared, program, Doubts(doubt, of_end, more), seconds)
    except Open as why:
        return Ordered(None, str(why))


class Doubts(NamedTuple):
    """Why there may be no order though the system is right, and why a pipe may have had fewer bytes; of which more may
    be told."""

    doubt: str
    of_end: str
    more: str


def found_for(compared: Compared, program: list[str], given: Doubts, seconds: float) -> Ordered:
    """The same, where it can be asked."""
    doubt, of_end, more = given
    builder, roomy = Builder(compared), Builder(compared, True)
    is_sure = not (of_end or builder.has_threads())
    if is_sure and has_lost(compared.system, is_cut_off if doubt else is_lossy):
        return none_in(builder)
    if any(line.outcome == "error EINTR" and not compared.is_ended(line) for line in compared.system_lines):
        return none_in(builder)
    # it is known then that no call was made within another one
    if is_sure and not doubt and builder.lanes() and has_lost(compared.system, is_torn):
        return none_in(builder)
    if search(builder, compared.limits, program, seconds):
        return Ordered(True, AN_ORDER if not builder.unknown else OTHERS, not builder.unknown)
    size = written([noted for lane in builder.lanes() for noted in lane])
    has_less = compared.limits.capacity < ROOMY.capacity
    if size > compared.limits.capacity and has_less and search(roomy, ROOMY, program, seconds):
        room = f"where a pipe holds {ROOMY.capacity:,} bytes: {ROOM} (own; page of write)"
        return Ordered(True, f"{OTHERS if roomy.unknown else AN_ORDER}, {room}", not roomy.unknown, True)
    if reads_at_once(builder) and search_shares(builder, compared.limits, program, seconds):
        return Ordered(True, f"{OTHERS if builder.unknown else AN_ORDER}, {SHARED}", not builder.unknown)
    has_filled = can_have_filled(compared, size)
    doubts = {doubt: [more] if doubt else [], **doubts_of(compared, builder), ROOM: [""] if has_filled else []}
    for why, calls in doubts.items():
        if calls:
            raise Open(f"none was found, but {why} may be why" + (f": {calls[0]}" if calls[0] else ""))
    return none_in(builder)


def can_have_filled(compared: Compared, size: int) -> bool:
    """Whether a pipe that holds less than so many bytes, which are written, can have given what no order gives. No pipe
    of Linux is full with less than a page: small writes go on there. Where each write waits for room, and stays in one
    piece, less room delays it and does nothing else; and the largest pipe has held all of them in the search."""
    writes = (line for line in compared.system_lines if word_of(line) == "write")
    is_whole = all(size_of(line.act.split(" ")[-1]) <= PIPE_BUF for line in writes)
    is_delayed = is_whole and not any("nonblock" in line.act for line in compared.system_lines)
    return size > pages.OF_SYSTEM and not (is_delayed and size <= ROOMY.capacity)


def doubts_of(compared: Compared, builder: Builder) -> dict[str, list[str]]:
    """Why there may be no order though the system is right, each with the calls of which it is so."""
    reasons = [(it.parting.system, it.reason) for it in compared.findings if is_open_to(it)]
    return {
        "another difference with a reason": [f"{shown(line)} ({it.name})" for line, it in reasons if line and it],
        "what has no line, as a call with a path or a stream, truncate or fsync,": builder.unlined,
        "a signal, or O_NONBLOCK that is set while a call waits,": [
            shown(line) for line in compared.system_lines if compared.is_cut(line)
        ],
    }


def shown(line: Line) -> str:
    """A call of the system with its answer, for a reader."""
    return clipped(f"{line.act} = {line.outcome}")


def none_in(builder: Builder) -> Ordered:
    """That no order gives all answers. No order at all gives an EINTR, which is by a signal or wrong."""
    return Ordered(False, f"no {(OTHERS if builder.unknown else AN_ORDER).removeprefix('an ')}")


# ---- what no order gives


def is_in_none(compared: Compared, finding: Finding) -> bool:
    """Whether no order gives an answer of the system, whoever was killed or had less room: as it came before there was
    another process, is a part of a write that came back without a cause, or is of a file that one process alone has.
    Nothing else may be why of it."""
    parting = finding.parting
    if not parting.is_same_call() or not parting.system:
        return False
    is_first = is_alone(compared, parting.way, parting.system)
    return is_first or is_cut_for_nothing(compared, parting) or is_private(compared, finding)


def is_alone(compared: Compared, way: Way, line: Line) -> bool:
    """Whether a native call came before the first fork, in a run of one thread that starts no other program."""
    calls = compared.system.calls[way]
    before = calls[: 1 + next(at for at, it in enumerate(calls) if it is line)]
    is_first = way == min(compared.system.calls) and not compared.started.calls
    return is_first and not Builder(compared).has_threads() and not any(map(is_fork, before))


def is_private(compared: Compared, finding: Finding) -> bool:
    """Whether an answer has to do with the descriptors of its process alone, or with a file or pipe of which no other
    process has ever had a descriptor, and whose names no other one has in a call in any of the two runs. Each process
    has one thread, and none starts another program, or looks at a name, of which there is no line."""
    line, number = finding.parting.fdref, finding.parting.number
    if not line or Builder(compared).has_threads() or compared.started.calls or compared.looks():
        return False
    act = read_act(line.act)
    if act.word not in OF_ONE_FILE:
        return act.word in OF_DESCRIPTORS
    judge, called, held = Judge(compared.limits), dict[object, set[str]](), set[object]()
    for record in compared.records[: finding.parting.place]:
        judge.outcome_of(act_of(record.act))
        if word_of(record) in ("open", "pipe", "attach", "link", "rename", "resume"):
            for name, named in judge.world.names.items():
                called.setdefault(named, set()).add(name.decode("ascii", "replace"))
            others = (it for it in judge.world.processes.values() if it.number != number)
            held |= {thing for it in others for at in it.table.values() for thing in (at.file, at.pipe)}
    process = judge.world.processes.get(number)
    at = process.table.get(act.fields[0]) if process and act.word != "open" else None
    files = {at.file, at.pipe or at.file} if at else {judge.world.names.get(name) for name in names_in(act)} - {None}
    names = set(finding.names).union(*(called.get(file, ()) for file in files))
    return not files & held and names <= named_alone(compared, finding.parting.way) and bool(names or at)


def named_alone(compared: Compared, way: Way) -> set[str]:
    """The names in calls of one process that are in none of another one, in any of the two runs."""
    own: set[str] = set()
    others: set[str] = set()
    for log in (compared.system, compared.fdref):
        for who, calls in log.calls.items():
            for line in calls:
                word, *fields = call_of(line).split(" ")
                (own if who == way else others).update(fields[: NAMES.get(word, 0)])
    return own - others


def is_cut_for_nothing(compared: Compared, parting: Parting) -> bool:
    """Whether a native write to a pipe moved a part, and had to move all: it goes in at once, or it waits for room,
    while there is a reader and no signal comes. Where one stops its process Linux ends a write that waits after whole
    pages, counted from its beginning or its end."""
    line, at = parting.system, compared.description_of(parting)
    if not line or not at or not at.pipe or word_of(line) != "write" or not line.outcome.isdigit():
        return False
    if Builder(compared).has_threads():
        return False
    moved, count = int(line.outcome), size_of(line.act.split(" ")[-1])
    calls = compared.system.calls[parting.way]
    place = next(place for place, it in enumerate(calls) if it is line)
    if not 0 < moved < count:
        return False
    if count <= PIPE_BUF and not is_piece(calls[max(place - 1, 0) : place + 1]):
        return True
    is_stopped = 0 in (moved % pages.OF_SYSTEM, (count - moved) % pages.OF_SYSTEM) or count == TRANSFER_MAX
    is_waiting = not at.nonblock and not compared.turns.turns and not compared.is_cut(line)
    return is_waiting and not is_stopped and is_read_later(compared, line)


def is_read_later(compared: Compared, line: Line) -> bool:
    """Whether the pipe that a native write was to has a reader that reads once that has come back, so that it was there
    before. A FIFO may have another one then."""
    places = {id(it): place for place, it in enumerate(compared.noted_lines)}
    uses = [(pipe, it) for pipe, (_, it) in pipe_calls(compared.system, min(compared.system.calls), {}) if pipe]
    own = {pipe for pipe, it in uses if it is line}
    later = (it for pipe, it in uses if pipe in own and places[id(it)] > places[id(line)])
    return any(given_by(it) is not None for it in later)


# The ways to open a FIFO by which each way comes back that waits.
OTHER_ENDS = {"r": ("w", "rw"), "w": ("r", "rw")}


def early_opens(compared: Compared) -> list[Line]:
    """The native opens of a FIFO that wait for an open of its other end, and had come back before any began. The FIFO
    has one name, and what opens it has a line."""
    lines = compared.system_lines
    moved = {name for line in lines if word_of(line) in ("link", "rename") for name in call_of(line).split(" ")[1:]}
    made = [call_of(line).split(" ")[1] for line in lines if word_of(line) == "mkfifo" and line.outcome == "ok"]
    opens: dict[str, list[Line]] = {name: [] for name in made if made.count(name) == 1 and name not in moved}
    for line in lines:
        if word_of(line) == "open" and call_of(line).split(" ")[1] in opens:
            opens[call_of(line).split(" ")[1]].append(line)
    return [line for ends in opens.values() for line in ends if is_early(compared, line, ends)]


def is_early(compared: Compared, line: Line, ends: Sequence[Line]) -> bool:
    """Whether an open of a FIFO is one of these, where all opens of it are known. A program that does not load the shim
    may have opened the other end where no line tells of it."""
    mode, *flags = line.act.split(" ")[-1].split(",")
    if mode not in OTHER_ENDS or "nonblock" in flags or not line.outcome.isdigit():
        return False
    others = [it for it in ends if it.act.split(" ")[-1].split(",")[0] in OTHER_ENDS[mode]]
    return bool(others) and all(begun_at(it) > compared.handlers.places[id(line)] for it in others)


def none_for(compared: Compared) -> Ordered:
    """That no order gives all answers, as one of them tells by itself."""
    return none_in(Builder(compared))
