"""Where two runs of a program part, by the logs of their calls: what differs, and for which reason.

Both logs are as the shim writes them, and the second is of a run with fdref, of which the trace is there. The reasons
are those of tools/compare.py and some more, since a program has processes that run at once.
"""

import itertools
from collections.abc import Callable, Iterator, Sequence
from typing import NamedTuple

from support import pages, plain_model
from support.auditing import Frames, Judge, act_of
from support.call_logs import Log, Way, call_of, is_wait, log_of, read_lines, without_threads, word_of
from support.counting import require
from support.plain_model import PIPE_BUF
from support.runs import Line, line_of

import compare_reasons
from apart import Appending
from compare_lines import is_moved, moved
from compare_reasons import APPENDED, OWN, Difference, Reason, is_append, process_of
from handlers import Handlers, begun_at, signal_named
from past import past_of
from reach import Reach

# ---- reasons


def is_front(system: str, fdref: str) -> bool:
    """Whether of two reads that gave bytes one gave the first bytes of the other."""
    one, other = (plain_model.read_data(outcome.encode()) for outcome in (system, fdref))
    return bool(one and other and one[: len(other)] == other[: len(one)])


def is_of_time(it: Difference) -> bool:
    """A read of a pipe to which another process may have written before it, or not yet."""
    if not it.words("read") or not it.at or not it.at.pipe or it.world.next_number < 2:
        return False
    is_dry = it.at.nonblock and "error EAGAIN" in (it.system, it.fdref)
    return is_dry or is_front(it.system, it.fdref)


def is_past_size(it: Difference) -> bool:
    """A write past the greatest size of a file, of which fdref takes less or nothing."""
    if not it.words("write", "pwrite", "ftruncate") or not it.at or it.at.pipe or not is_moved(it.system):
        return it.words("ftruncate") and it.gives("error EFBIG") and it.system == "ok"
    is_less = it.gives("error EFBIG") or (it.fdref.isdigit() and int(it.fdref) < int(it.system))
    return is_less and it.start(it.at) + it.count() > it.world.limits.size


# Scripts that are compared do not meet these: one process acts at a time there, and the system has a limit of its own.
OF_TIME = Reason("what is read of a pipe depends on who comes first", OWN, "page of read", is_of_time)
# The calls that a signal may end, as their pages say.
MAY_BE_ENDED = ("open", "close", "read", "write", "pread", "pwrite", "dup2", "ftruncate")
# What a signal does that has a handler; which signal is said after it. And what another process or thread may do.
EINTR = Reason("a signal ends a call (EINTR)", OWN, "XSH 2.4.4", lambda it: it.system == "error EINTR")
CUT = Reason("a signal cuts a write short", OWN, "page of write", lambda it: is_short(it))
UNWAITED = "O_NONBLOCK is set while a call waits"
TURNED = Reason(UNWAITED, OWN, "pages of fcntl, read and write", lambda it: is_unwaited(it))
MORE_REASONS = [
    OF_TIME,
    Reason("more than 1,099,511,627,776 bytes in a file", OWN, "page of write", is_past_size),
]


def is_short(it: Difference) -> bool:
    """Whether a write that waits for room came back on the system with a part, one that may go in by parts. A part of
    nothing may be that of another piece of a large one, which ended before that."""
    if not it.words("write") or not it.at or not it.at.pipe or it.at.nonblock or not is_moved(it.fdref):
        return False
    return it.system.isdigit() and 0 <= int(it.system) < it.count() and (it.count() > PIPE_BUF or it.system == "0")


def is_unwaited(it: Difference) -> bool:
    """Whether a call on a pipe that would wait came back on the system with a part, or with EAGAIN."""
    if not it.words("read", "write") or not it.at or not it.at.pipe or it.at.nonblock:
        return False
    return is_short(it) or it.system == "error EAGAIN"


def is_by_signal(reason: Reason | None) -> bool:
    """Whether a signal is the reason that a call has ended."""
    return reason is not None and reason.fits is EINTR.fits


def by_signals(reason: Reason, numbers: Sequence[int]) -> Reason:
    """The reason with the signals that may be why."""
    have = "has a handler" if len(numbers) == 1 else "have handlers"
    return reason._replace(name=f"{reason.name}: {', '.join(map(signal_named, numbers))} {have}")


class Parting(NamedTuple):
    """Where the runs of a process part: the calls, one of which may be missing, and the place in the trace."""

    place: int
    way: Way
    number: int
    system: Line | None
    fdref: Line | None

    def is_same_call(self) -> bool:
        """Whether both made the same call."""
        return self.system is not None and self.fdref is not None and call_of(self.system) == call_of(self.fdref)

    def is_asked_otherwise(self) -> bool:
        """Whether the calls are of one kind, differ in what is asked, and got the same answer."""
        if not self.system or not self.fdref or self.is_same_call():
            return False
        return word_of(self.system) == word_of(self.fdref) and self.system.outcome == self.fdref.outcome


def agrees(system: Line | None, fdref: Line | None) -> bool:
    """Whether two calls are the same and got the same answer. Of a fork any number of a child is."""
    if not system or not fdref or call_of(system) != call_of(fdref):
        return False
    are_numbers = system.outcome.isdigit() and fdref.outcome.isdigit()
    return system.outcome == fdref.outcome or (word_of(system) == "fork" and are_numbers)


def shared_reads(trace: list[Line], limits: plain_model.Limits) -> set[int]:
    """The places of the reads of a pipe that several processes read, or several write: who is first is left open."""
    judge = Judge(limits)
    users: dict[tuple[plain_model.Pipe, str], set[int]] = {}
    reads: list[tuple[int, plain_model.Pipe]] = []
    for place, line in enumerate(trace):
        act = act_of(line.act)
        process = process_of(judge.world, act)
        at = process.table.get(act.fields[0]) if process and act.word in ("read", "write") else None
        if process and at and at.pipe:
            users.setdefault((at.pipe, act.word), set()).add(process.number)
            reads += [(place, at.pipe)] if act.word == "read" else []
        judge.outcome_of(act)
    return {place for place, pipe in reads if any(len(users.get((pipe, word), ())) > 1 for word in ("read", "write"))}


def is_turn(line: Line) -> bool:
    """Whether a line is that of a call by which a descriptor waits no more."""
    words = line.act.split(" ")
    return words[1] == "setfl" and line.outcome == "ok" and "nonblock" in words[-1].split(",")


def turned_calls(trace: list[Line], limits: plain_model.Limits) -> set[int]:
    """The places of the reads and writes on a description that waits no more by a call of another process, or by one
    that is made later."""
    judge = Judge(limits)
    calls: list[tuple[int, int, plain_model.Description]] = []
    # of each description who has turned it, and where that was last
    turned: dict[plain_model.Description, set[int]] = {}
    last: dict[plain_model.Description, int] = {}
    for place, line in enumerate(trace):
        act = act_of(line.act)
        process = process_of(judge.world, act)
        at = process.table.get(act.fields[0]) if process and act.word in ("read", "write", "setfl") else None
        if process and at and act.word != "setfl":
            calls.append((place, process.number, at))
        elif process and at and is_turn(line):
            turned.setdefault(at, set()).add(process.number)
            last[at] = place
        judge.outcome_of(act)
    return {place for place, number, at in calls if place < last.get(at, -1) or turned.get(at, set()) - {number}}


class Turns:
    """The calls of a native run by which descriptors wait no more, and where the other run has what they may end."""

    def __init__(
        self, lines: Sequence[Line], handlers: Handlers, trace: list[Line], limits: plain_model.Limits
    ) -> None:
        self.handlers = handlers
        self.turns = [line for line in lines if is_turn(line)]
        self.are_all_there = sum(map(is_turn, trace)) >= len(self.turns)
        self.places = turned_calls(trace, limits) if self.turns else set()

    def overlap(self, line: Line) -> bool:
        """Whether one of them was made by another process or thread while a call was made natively."""
        begin, end = begun_at(line), self.handlers.places.get(id(line), 0)
        own = line.number(), line.place.partition("@")[0]
        others = (it for it in self.turns if (it.number(), it.place.partition("@")[0]) != own)
        return any(self.handlers.places[id(it)] >= begin and begun_at(it) <= end for it in others)

    def may_end(self, line: Line, place: int) -> bool:
        """Whether one of them may have ended a call that fdref has at a place."""
        return self.overlap(line) and (place in self.places or not self.are_all_there)


def are_backwards(log: Log) -> set[int]:
    """The lines of pipes, by their ids, whose first end is the one to write, or the second one the one to read, as
    later calls tell that are made with them."""
    found = set()
    for way, calls in log.calls.items():
        for at, line in enumerate(calls):
            ends = line.outcome.split(" ")
            if word_of(line) == "pipe" and len(ends) == 2 and ends[0].isdigit() and is_backwards(log, way, at + 1, ends):
                found.add(id(line))
    return found


def is_backwards(log: Log, way: Way, start: int, ends: Sequence[str]) -> bool:
    """Whether a process that has these ends of a pipe finds that they have changed places, or a child of it does."""
    is_open = dict.fromkeys(ends, True)
    calls = log.calls.get(way, [])
    children = sum(is_child_made(line) for line in calls[:start])
    for line in calls[start:]:
        word, *fields = call_of(line).split(" ")
        if fields and is_open.get(fields[0]) and is_other_end(word, fields[0] == ends[0], line.outcome):
            return True
        gone = fields[-1] if word == "dup2" else fields[0] if word == "close" else ""
        is_open[gone] = is_open.get(gone, False) and line.outcome.startswith("error ")
        if is_child_made(line):
            left = [end if is_open[end] else "" for end in ends]
            if is_backwards(log, (*way, children), 0, left):
                return True
            children += 1
    return False


def is_child_made(line: Line) -> bool:
    """Whether it is a fork that made a process."""
    return word_of(line) == "fork" and line.outcome.isdigit()


def is_other_end(word: str, is_first: bool, outcome: str) -> bool:
    """Whether a call with the first or second end of a pipe, which is open, tells that it is not the one to read, or to
    write."""
    modes = {"1": True, "2": False}
    if word == "getfl" and outcome.isdigit():
        return modes.get(str(int(outcome) & 3), is_first) != is_first
    return outcome == "error EBADF" and word == ("read" if is_first else "write")


def is_at_the_end(line: Line) -> bool:
    """Whether a record may be there because all processes of a run were killed."""
    return word_of(line) in ("exit", "resume", "close-run")


class Story:
    """What fdref recorded, with the model beside it, and what may have ended calls of the native run."""

    def __init__(
        self,
        trace: list[Line],
        limits: plain_model.Limits,
        handlers: Handlers | None = None,
        turns: Turns | None = None,
        room: int | None = None,
        backwards: frozenset[int] = frozenset(),
        is_one: bool = False,
    ) -> None:
        self.trace = trace
        self.room = room
        # what a system gives at each place that appends a pwrite under append, where calls come in one order alone
        self.appending = appending_answers(trace, limits) if is_one else []
        # the native pipes whose ends are not what they have to be
        self.backwards = backwards
        self.handlers = handlers or Handlers((), ())
        self.turns = turns or Turns((), self.handlers, [], limits)
        self.judge = Judge(limits)
        self.place = 0
        # the files that a pwrite under append may have made another on the system
        self.appended: list[plain_model.Regular] = []
        self.shared = shared_reads(trace, limits)
        self.reach = Reach()

    def start_of(self, line: Line) -> int:
        """The place at which a call began that ended with a line."""
        place = int(line.place)
        who = f"p{line.number()} "
        while word_of(self.trace[place]) == "resume":
            place = next(at for at in range(place - 1, -1, -1) if self.trace[at].act.startswith(who))
        return place

    def end_of(self, number: int) -> int:
        """The place of the exit of a process, or of the end of the trace."""
        ends = [place for place, line in enumerate(self.trace) if line.act == f"p{number} exit"]
        return ends[0] if ends else len(self.trace)

    def waits(self, number: int) -> Line | None:
        """The call that a process still waits in at the end, or waited in when it exited, if any."""
        own = [line for line in self.trace if line.act.startswith(f"p{number} ") and word_of(line) != "exit"]
        if not own or not own[-1].outcome.startswith(("parked ", "part ")):
            return None
        call = self.trace[self.start_of(own[-1])]
        return call._replace(outcome=f"parked {own[-1].outcome.split(' ')[1]}")

    def is_cut_off(self, number: int, has_ended: bool) -> bool:
        """Whether a process that still waits exited before the end of the run, as by a signal: the run has ended by
        itself, or others made calls after that."""
        later = self.trace[self.end_of(number) :]
        return bool(later) and (has_ended or not all(map(is_at_the_end, later)))

    def world_before(self, place: int) -> plain_model.World:
        """The world before a place, which is none of those that were asked for already."""
        for line in self.trace[self.place : place]:
            act = act_of(line.act)
            process = process_of(self.judge.world, act)
            at = process.table.get(act.fields[0]) if process and act.word == "pwrite" else None
            if at and is_append(act, at):
                self.appended.append(at.regular)
                self.reach.differs(self.judge.world, act)
            is_reached = self.reach.passes(self.judge.world, act)
            outcome = self.judge.outcome_of(act)
            if is_reached:
                self.reach.has_passed(self.judge.world, act, outcome)
        self.place = max(self.place, place)
        return self.judge.world


def appending_answers(trace: list[Line], limits: plain_model.Limits) -> list[str | None]:
    """What each act of a trace gives where a pwrite under append writes at the end."""
    judge = Judge(limits)
    judge.world = Appending(limits)
    return [judge.outcome_of(act_of(line.act)) for line in trace]


class Finding(NamedTuple):
    """A parting with its reason, and the names that the call has to do with. One without a reason may follow from an
    earlier one."""

    parting: Parting
    reason: Reason | None
    follows: bool
    names: frozenset[str]
    # whether both are in the same state after it
    is_settled: bool = False


def partings_of(way: Way, system: list[Line], fdref: list[Line], number: int, story: Story) -> Iterator[Parting]:
    """The partings of a process, up to the first call that only one of its runs made. Where that is the system's it is
    at the end of the process with fdref. A process that fdref has not seen parts after all others, since the runs were
    apart before it came."""
    place = 0 if fdref else len(story.trace)
    for one, other in itertools.zip_longest(system, fdref):
        if other and other.place.isdigit():
            place = story.start_of(other)
        elif not other:
            place = story.end_of(number)
        if agrees(one, other):
            continue
        parting = Parting(place, way, number, one, other)
        yield parting
        if not parting.is_same_call():
            return


def add_waits(system: Log, fdref: Log, story: Story, is_killed: bool, has_ended: bool) -> None:
    """Adds to the log of fdref the calls that got no answer to the end. Where the system was killed, or a signal ended
    the process in it, the system may have made the same call, which has no line there."""
    for way, number in fdref.numbers.items():
        calls = fdref.calls[way]
        call = story.waits(number)
        is_open = is_killed or story.is_cut_off(number, has_ended)
        is_further = not is_open or len(system.calls.get(way, [])) > len(calls)
        if call and is_further and not any(line.place == call.place for line in calls[-1:]):
            calls.append(call)


def all_partings(system: Log, fdref: Log, story: Story) -> list[Parting]:
    """The partings of all processes, in the order of the trace."""
    found: list[Parting] = []
    for way in sorted({*system.calls, *fdref.calls}):
        number = fdref.numbers.get(way, system.numbers.get(way, 0))
        found += partings_of(way, system.calls.get(way, []), fdref.calls.get(way, []), number, story)
    return sorted(found, key=lambda it: (it.place, it.way))


def difference_of(parting: Parting, story: Story) -> Difference | None:
    """A parting as a difference, which has to be one of answers to the same call."""
    world = story.world_before(parting.place)
    if not parting.is_same_call() or not parting.system or not parting.fdref:
        return None
    system = parting.system._replace(act=parting.fdref.act)
    before = story.trace[: parting.place]
    try:
        return Difference(len(before), [*before, system], system, parting.fdref, world)
    except plain_model.NotAnAct:
        return None


def reason_of(it: Difference, line: Line, story: Story) -> Reason | None:
    """The reason of a difference of a line of the native run, if it has one. It may be by a signal, by a pwrite under
    append before it, or by who came first."""
    is_roomy = may_be_room(it, story.room)
    known = [one for one in (*compare_reasons.REASONS, *MORE_REASONS) if is_roomy or not is_of_room(one)]
    if id(line) in story.backwards:
        known = [one for one in known if one.fits is not compare_reasons.is_turned]
    reason = ended_by(it, line, story) or next((one for one in known if one.fits(it)), None)
    is_appended = bool(it.at and not it.at.pipe and any(it.at.file is file for file in story.appended))
    by_others = APPENDED if is_appended else OF_TIME if is_shared(it, story) else None
    found = reason or by_others
    return None if found == APPENDED and not may_be_appended(it, story) else found


def may_be_appended(it: Difference, story: Story) -> bool:
    """Whether an answer may be that of a system that appends each pwrite under append, as far as that is known."""
    return not story.appending or it.system == story.appending[it.place]


def ended_by(it: Difference, line: Line, story: Story) -> Reason | None:
    """What may have ended a native call before its time: a signal that had a handler, or that it was not to wait."""
    if it.system == "0" and id(line) not in story.handlers.rests:
        return None
    if is_turned_by(it, line, story):
        return TURNED
    ending = story.handlers.ending(line) if EINTR.fits(it) and it.words(*MAY_BE_ENDED) else []
    cutting = story.handlers.cutting(line) if CUT.fits(it) else []
    return by_signals(EINTR, ending) if ending else by_signals(CUT, cutting) if cutting else None


def is_of_room(reason: Reason | None) -> bool:
    """Whether a reason is that a pipe has another room."""
    return reason is not None and reason.fits in (compare_reasons.is_room, compare_reasons.is_paged_room)


def may_be_room(it: Difference, room: int | None) -> bool:
    """Whether the room of a pipe of the system, where it is known, may be why a write is another one. Where more went
    in than with fdref the system has so much room; where less, its pages may be full, of which each two next to each
    other hold more than one has room for."""
    if room is None or not it.words("write") or not it.at or not it.at.pipe:
        return True
    held = len(it.at.pipe.data)
    if moved(it.system) > moved(it.fdref):
        return held + moved(it.system) <= room
    return held + it.count() > room // 2 - pages.OF_SYSTEM


def is_turned_by(it: Difference, line: Line, story: Story) -> bool:
    """Whether another process or thread may have set O_NONBLOCK while a call waited."""
    return TURNED.fits(it) and story.turns.may_end(line, it.place)


def is_shared(it: Difference, story: Story) -> bool:
    """Whether it is a read of a pipe whose users are several, that gave bytes or the end on both sides."""
    outcomes = (it.system, it.fdref)
    return it.place in story.shared and all(plain_model.read_data(text.encode()) is not None for text in outcomes)


def names_behind(world: plain_model.World, number: int, fd: str) -> set[str]:
    """The names of the file that a descriptor of a process leads to, if it is one."""
    process = world.processes.get(number)
    at = process.table.get(int(fd)) if process and fd.isdigit() else None
    return {name.decode("ascii", "replace") for name, file in world.names.items() if at and at.file is file}


def names_of(parting: Parting, world: plain_model.World) -> frozenset[str]:
    """The names in the calls of a parting, and those of the files that their descriptors lead to."""
    found: set[str] = set()
    for line in (parting.system, parting.fdref):
        _, word, *fields = line.act.split(" ") if line else ("", "")
        found |= names_behind(world, parting.number, fields[0]) if fields else set()
        found.update(fields[: {"open": 1, "mkfifo": 1, "unlink": 1, "link": 2, "rename": 2}.get(word, 0)])
    return frozenset(found)


def size_of(word: str) -> int:
    """How many bytes data has that is spelled so."""
    return len(plain_model.read_data(word.encode()) or b"")


def act_at(parting: Parting) -> plain_model.Act | None:
    """The call that both make, where it is one and can be read."""
    try:
        return act_of(parting.fdref.act) if parting.fdref and parting.is_same_call() else None
    except plain_model.NotAnAct:
        return None


def has_none(_: Finding) -> bool:
    """No finding without a reason is by something else."""
    return False


def findings_of(
    partings: list[Parting], story: Story, has_cause: Callable[[Finding], bool] = has_none
) -> list[Finding]:
    """The partings with their reasons. A call may be another one once any process has got another answer; one that is
    the same has another answer only where what differed before may have reached it, and where it is not known what it
    has to be then. What has a cause in place of a reason may be followed too."""
    found: list[Finding] = []
    are_apart, is_known = False, bool(story.appending)
    for parting in partings:
        difference = difference_of(parting, story)
        reason = reason_of(difference, parting.system, story) if difference and parting.system else None
        world = story.world_before(parting.place)
        act = act_at(parting)
        follows = not reason and are_apart and (not act or (not is_known and story.reach.reaches(world, act)))
        is_settled = bool(difference and difference.is_settled())
        finding = Finding(parting, reason, follows, names_of(parting, world), is_settled)
        found.append(finding)
        is_apart = follows or (not is_settled if reason else has_cause(finding))
        are_apart = are_apart or is_apart
        is_known = is_known and (not is_apart or reason == APPENDED)
        if is_apart and act:
            story.reach.differs(world, act)
        elif is_apart:
            story.reach.goes_astray(world, parting.number)
    return found


# ---- the whole


def check_places(lines: list[Line], trace: list[Line]) -> None:
    """Fails unless the log of fdref tells what stands in the trace."""
    for line in lines:
        place = int(line.place) if line.place.isdigit() else -1
        record = trace[place] if 0 <= place < len(trace) else None
        is_told = record and record.outcome == line.outcome and word_of(record) in (word_of(line), "resume")
        require(place < 0 or is_told, f"the log of fdref has {line.act} at place {place}, and the trace has not")


class Compared:
    """Two logs, which are compared: what is found, and the first finding that has no reason and follows from none. The
    run on the system may have been killed, and its log tells of waits. The one with fdref may have ended by itself. What
    was noted natively tells which signals had handlers. The room of a pipe of the system may be known."""

    def __init__(
        self,
        system: bytes,
        fdref: bytes,
        trace: bytes,
        is_killed: bool,
        has_ended: bool,
        noted: bytes = b"",
        room: int | None = None,
    ) -> None:
        # of each place the thread that made the call, but the first one of its process
        self.lines, self.threads = without_threads(read_lines(fdref, "with fdref"))
        self.noted_lines = read_lines(system, "on the system")
        self.system_lines = [line for line in self.noted_lines if not is_wait(line)]
        on_system, with_fdref = log_of(self.system_lines), log_of(self.lines)
        self.processes = len(on_system.calls)
        # a program that is started has other descriptors, and comes in no order of its own: it is not compared
        self.started = with_fdref.of_started()
        self.system, self.fdref = on_system.of_first(), with_fdref.of_first()
        frames = Frames(trace)
        self.records = [line_of(text) for text in frames.lines]
        self.limits = frames.header.limits if frames.header else plain_model.DEFAULTS
        check_places(self.lines, self.records)
        self.room = room
        self.handlers = Handlers(past_of(noted), self.noted_lines)
        self.turns = Turns(self.system_lines, self.handlers, self.records, self.limits)
        story = self.story()
        add_waits(self.system, self.fdref, story, is_killed, has_ended)
        self.partings = all_partings(self.system, self.fdref, story)
        self.findings = findings_of(self.partings, story)
        self.unexplained = next((it for it in self.findings if not it.reason and not it.follows), None)

    def story(self) -> Story:
        """What fdref recorded, from its beginning."""
        backwards = frozenset(are_backwards(self.system))
        return Story(self.records, self.limits, self.handlers, self.turns, self.room, backwards, self.is_one())

    def description_of(self, parting: Parting) -> plain_model.Description | None:
        """What the descriptor of a call that parts leads to with fdref, if it is open."""
        process = self.story().world_before(parting.place).processes.get(parting.number)
        act = act_at(parting)
        return process.table.get(act.fields[0]) if process and act else None

    def is_one(self) -> bool:
        """Whether one thread of one process made all calls; the first thread of a process has no number."""
        return len(self.system.calls) == 1 and all(line.place.partition("@")[0] == "-" for line in self.system_lines)

    def has_appended(self) -> bool:
        """Whether a pwrite under append may have made a file another one on the system."""
        acts = " ".join(line.act for line in self.records)
        return " pwrite " in acts and "append" in acts

    def looks(self) -> list[int]:
        """The places at which the library looked at a name for the program, as stat, access and truncate do."""
        told = {int(line.place) for line in self.lines if line.place.isdigit()}
        acts = ((place, line.act.split(" ")) for place, line in enumerate(self.records) if place not in told)
        return [place for place, words in acts if words[1] == "open" and words[-1] == "rw"]

    def is_ended(self, line: Line) -> bool:
        """Whether a signal may have ended a native call, which has done nothing then."""
        is_one = line.outcome == "error EINTR" and word_of(line) in MAY_BE_ENDED
        return is_one and bool(self.handlers.ending(line))

    def is_cut(self, line: Line) -> bool:
        """Whether a native call may have come back before its time, by a signal or since it was to wait no more."""
        words = line.act.split(" ")
        is_part = words[1] == "write" and line.outcome.isdigit() and int(line.outcome) < size_of(words[-1])
        is_part = is_part and (line.outcome != "0" or id(line) in self.handlers.rests)
        if is_part and self.handlers.cutting(line):
            return True
        is_early = is_part or (words[1] in ("read", "write") and line.outcome == "error EAGAIN")
        return is_early and self.turns.overlap(line)

    def without_cause(self, has_cause: Callable[[Finding], bool]) -> list[int]:
        """Which findings have no reason, and neither have a cause nor may follow from one that has."""
        findings = findings_of(self.partings, self.story(), has_cause)
        return [at for at, it in enumerate(findings) if not (it.reason or it.follows or has_cause(it))]
