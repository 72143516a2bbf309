"""Why a system and fdref may differ: each reason with who decides it, the page of the standard, and the differences
that it fits."""

import copy
import itertools
import re
from collections.abc import Callable, Iterator
from typing import Any, NamedTuple

from support import pages, plain_model, walks
from support.plain_model import NAME_MAX, OFFSET_MAX, OPEN_MAX, PIPE_BUF, TRANSFER_MAX
from support.runs import Line
from support.sharing import are_turns

from compare_lines import is_moved, moved
from compare_runs import act_of, is_told_back

# How many bytes of a read the driver sees at most.
READ_MOST = 1_048_576
# The numbers of flags in what getfl tells.
READ_WRITE, NONBLOCK = 3, 64
# What a link answers to a file that has as many as it may.
TOO_MANY_LINKS = "error EMLINK"
# A name of the portable filename character set.
PORTABLE = re.compile(rb"[A-Za-z0-9._-]*")


# ---- a difference


class Difference:
    """A line in which a system and fdref differ, with the model's world before it."""

    def __init__(self, place: int, lines: list[Line], system: Line, fdref: Line, world: plain_model.World) -> None:
        self.place = place
        self.lines = lines
        self.act = plain_model.read_act(act_of(system).encode()) if system.act else TOTALS
        self.system = system.outcome
        self.fdref = fdref.outcome
        self.world = world
        self.process = process_of(world, self.act)
        self.at = self.description(self.act)
        self.reason: Reason | None = None
        # what fdref gives in the lines before it that differ, too
        self.earlier: dict[int, str] = {}
        # the acts that fdref is given instead of those of some lines, and whether it is so because of this difference
        self.for_fdref: dict[int, list[str]] = {}
        self.is_followed = False
        # whether its act is none of the script, but one that looks at what the script has left
        self.is_look = False
        # what is known of the pipes of the system: that they hold as many bytes as fdref's, and that they have no pages
        self.has_same_room = self.counts_bytes = False
        # how many bytes it was seen to hold, in whatever pieces they came
        self.room_seen = 0
        # how many bytes a page of the system has, and whether that is known, or only tried
        self.page = pages.OF_SYSTEM
        self.is_page_known = True
        # where it is known, how many pages of each size what was put into each pipe since it was empty takes at most
        self.pages: dict[plain_model.Pipe, PagesOf] | None = None
        # and how many bytes that was, where it is known, and in the order at hand
        self.put: dict[plain_model.Pipe, int] | None = None
        self.put_here: dict[plain_model.Pipe, int] = {}
        # whether it is a pipe whose ends have changed places since
        self.is_exchanged = False
        # how long the file was before the pwrite under append that it follows, if that is known
        self.size_before: int | None = None
        # the writes in which processes waited that have ended
        self.ended: list[plain_model.WaitingWrite] = []
        # whether fdref's model was asked in its place, with more links
        self.is_of_model = False

    def instead(self, **values: Any) -> "Difference":
        """The same, but for these values."""
        other = copy.copy(self)
        vars(other).update(values)
        return other

    def description(self, act: plain_model.Act) -> plain_model.Description | None:
        """The open file description that a call is made on, or None."""
        has_fd = plain_model.FIELDS.get(act.word, ())[:1] == (plain_model.read_fd,)
        return self.process.table.get(act.fields[0]) if has_fd and self.process else None

    def has_descriptor(self) -> bool:
        """Whether it is a call on a descriptor."""
        return plain_model.FIELDS.get(self.act.word, ())[:1] == (plain_model.read_fd,)

    def words(self, *words: str) -> bool:
        """Whether it is one of these calls."""
        return self.act.word in words

    def gives(self, *outcomes: str) -> bool:
        """Whether fdref gives one of these."""
        return self.fdref in outcomes

    def are_errors(self) -> bool:
        """Whether both end in an error."""
        return self.system.startswith("error ") and self.fdref.startswith("error ")

    def names(self) -> list[bytes]:
        """The names that a call has."""
        return names_of(self.act)

    def flags(self) -> list[str]:
        """The flags of an open."""
        flags: str = self.act.fields[1]
        return flags.split(",")

    def is_on_fifo(self) -> bool:
        """Whether its name is that of a FIFO."""
        return walks.is_fifo(self.world.names.get(self.act.fields[0]))

    def count(self) -> int:
        """How many bytes a read or write asks for or gives."""
        last: bytes | int = self.act.fields[-1]
        return len(last) if isinstance(last, bytes) else last

    def start(self, at: plain_model.Description) -> int:
        """Where a read or write of a regular file begins."""
        if self.words("pread", "pwrite"):
            start: int = self.act.fields[1]
            return start
        return len(at.regular.data) if at.append and self.words("write") else at.offset

    def waiting_write(self) -> plain_model.WaitingWrite | None:
        """The write that is taken up again, if it is one."""
        call = self.process.waits if self.words("resume") and self.process else None
        return call if isinstance(call, plain_model.WaitingWrite) else None

    def is_settled(self) -> bool:
        """Whether system and fdref are in the same state after it, so that the run can go on."""
        is_look = self.words("fstat", "getfl") and not follows_append(self)
        is_same = self.are_errors() or is_unchecked(self) or is_vain(self) or self.system == "not asked"
        is_even = (self.is_exchanged and is_turned(self)) or is_shared_evenly(self)
        return self.is_followed or is_same or is_look or is_even


def process_of(world: plain_model.World, act: plain_model.Act) -> plain_model.Process | None:
    """The process that acts, if it is live."""
    return world.processes.get(act.actor) if isinstance(act.actor, int) else None


def names_of(act: plain_model.Act) -> list[bytes]:
    """The names that an act has."""
    fields = zip(plain_model.FIELDS.get(act.word, ()), act.fields, strict=True)
    return [value for kind, value in fields if kind is plain_model.read_name]


# ---- what it may be


def due(it: Difference) -> set[str]:
    """The errors that are due of a call by its page, in whatever order they are asked. What the profile alone refuses
    is none: too many bytes, and names and flags that it does not take."""
    word, at, fields = it.act.word, it.at, it.act.fields
    if word == "open":
        return due_of_open(it)
    if it.names():
        return due_of_names(it)
    wants = {"pread": "r", "read": "r", "pwrite": "w", "write": "w"}.get(word, "")
    errors = {"EBADF": bool(it.has_descriptor()) and (not at or wants not in at.mode)}
    if word in ("pread", "pwrite"):
        errors["ESPIPE"] = bool(at and at.pipe)
        errors["EINVAL"] = fields[1] < 0
    elif word == "ftruncate":
        is_for_reading = bool(at and "w" not in at.mode)
        errors["EBADF"] |= is_for_reading
        errors["EFBIG"] = fields[1] > it.world.limits.size
        errors["EINVAL"] = fields[1] < 0 or is_for_reading or errors["EFBIG"]
    elif gives_descriptors(it):
        errors["EMFILE"] = free_descriptors(it)[-1 if word == "pipe" else 0] >= OPEN_MAX
    return {error for error, is_due in errors.items() if is_due}


def due_of_names(it: Difference) -> set[str]:
    """The errors that are due of a call that only names files."""
    old, *_, new = [*it.names(), *it.names()]
    file = it.world.names.get(old)
    errors = {
        "ENOENT": not all(it.names()) or (not file and not it.words("mkfifo")),
        "ENAMETOOLONG": any(len(name) > NAME_MAX for name in it.names()),
        "EEXIST": it.words("link", "mkfifo") and new in it.world.names,
        "EMLINK": it.words("link") and file is not None and it.world.links(file) >= it.world.link_max,
    }
    return {error for error, is_due in errors.items() if is_due}


def due_of_open(it: Difference) -> set[str]:
    """The errors that are due of an open."""
    name, flags = it.act.fields[0], it.flags()
    file = it.world.names.get(name)
    is_fifo = isinstance(file, plain_model.Fifo)
    errors = {
        "EMFILE": free_descriptors(it)[0] >= OPEN_MAX,
        "ENOENT": (not file and "creat" not in flags) or not name,
        "EEXIST": bool(file) and "creat" in flags and "excl" in flags,
        "ENXIO": is_fifo and "nonblock" in flags and flags[0] == "w" and not it.world.has_end(file.pipe, "r"),
    }
    return {error for error, is_due in errors.items() if is_due}


def is_order(it: Difference) -> bool:
    """Two errors that are both due."""
    return it.are_errors() and {it.system[6:], it.fdref[6:]} <= due(it)


def is_right(it: Difference, fdref: str) -> bool:
    """Whether the system gives what fdref would have to give, by another one of its rules, or has a reason not to."""
    waits = it.system == "parked ?" and fdref.startswith("parked ")
    return waits or it.system == fdref or reason_of(it.instead(fdref=fdref)) is not None


def is_append(act: plain_model.Act, at: plain_model.Description | None) -> bool:
    """Whether an act is a pwrite under append."""
    return act.word == "pwrite" and at is not None and at.append and not at.pipe and "w" in at.mode


def appended_to(world: plain_model.World, act: plain_model.Act) -> int | None:
    """How long the file is to which a pwrite under append writes, if an act is one."""
    process = process_of(world, act) if act.word == "pwrite" else None
    at = process.table.get(act.fields[0]) if process else None
    return len(at.regular.data) if at and is_append(act, at) else None


def follows_append(it: Difference) -> bool:
    """Whether it is the fstat that looks at what a pwrite under append has done."""
    before = plain_model.read_act(act_of(it.lines[it.place - 1]).encode()) if it.place else it.act
    is_same = it.act.word == "fstat" and (before.actor, before.fields[:1]) == (it.act.actor, it.act.fields)
    return is_same and is_append(before, it.at)


def is_pwrite_appended(it: Difference) -> bool:
    """A pwrite that a system appends: what it gives is what a write at the end gives, and the size is one that follows
    from that."""
    if follows_append(it):
        return is_size_appended(it)
    if not it.at or not is_append(it.act, it.at) or it.gives("error EINVAL"):
        return False
    room = it.world.limits.size - len(it.at.regular.data)
    return it.system == (str(min(it.count(), room)) if room > 0 or not it.count() else "error EFBIG")


def is_size_appended(it: Difference) -> bool:
    """Whether what an fstat tells may be the size after a pwrite was appended, which in the model is done at its
    start."""
    system, fdref = it.system.split(" "), it.fdref.split(" ")
    if len(system) != 3 or len(fdref) != 3 or (system[0], system[2]) != (fdref[0], fdref[2]):
        return False
    _, start, data = plain_model.read_act(act_of(it.lines[it.place - 1]).encode()).fields
    size, end = int(fdref[1]), start + len(data)
    if it.size_before is not None:
        return int(system[1]) == max(it.size_before, min(it.size_before + len(data), it.world.limits.size))
    # where it made the file longer, the size before it is any up to the one after it
    least = size if size > end else 0
    return least + len(data) <= int(system[1]) <= size + len(data)


def is_lseek_overflow(it: Difference) -> bool:
    """An lseek past the greatest offset."""
    return it.words("lseek") and it.gives("error EOVERFLOW") and it.system == "error EINVAL"


def is_lseek_past_files(it: Difference) -> bool:
    """An lseek past the greatest file of the file system."""
    if not it.words("lseek") or not it.fdref.isdigit() or it.system != "error EINVAL":
        return False
    # one that went as far is no such limit
    others = [line.outcome for line in it.lines if " lseek " in line.act and line.outcome.isdigit()]
    return int(it.fdref) >= max(2**40, *(int(outcome) + 1 for outcome in others), 0)


def is_offset_and_count(it: Difference) -> bool:
    """A transfer that passes the greatest offset."""
    if not it.words("read", "pread", "write", "pwrite") or not it.at or it.at.pipe or it.system != "error EINVAL":
        return False
    return it.gives("x", "error EFBIG") and it.count() > 0 and it.start(it.at) + it.count() > OFFSET_MAX


def is_length_too_large(it: Difference) -> bool:
    """An ftruncate past the size limit, for which a system has one error and fdref the other."""
    return it.words("ftruncate") and it.gives("error EFBIG") and it.system == "error EINVAL"


def is_unwritable(it: Difference) -> bool:
    """An ftruncate of a descriptor that is not open for writing, for which the page has both errors."""
    is_asked = it.words("ftruncate") and it.at is not None and not it.at.pipe and "w" not in it.at.mode
    return is_asked and it.act.fields[1] >= 0 and it.gives("error EINVAL") and it.system == "error EBADF"


def may_give(it: Difference, outcome: str) -> bool:
    """Whether a write of some bytes to a pipe may give this, by its page, whatever room there is.

    At most PIPE_BUF bytes go in whole or not at all. Under nonblock no write waits, and of more bytes those go in that
    fit: some of them, or so many that the pipe holds PIPE_BUF, though of more than a page's some of the last page.
    Without it no write is EAGAIN, and one that comes back has written all, but where no reader is left: fdref gives a
    part then, too.
    """
    assert it.at and it.at.pipe
    whole, held, waits = it.count(), len(it.at.pipe.data), not it.at.nonblock
    has_parts = whole > PIPE_BUF and (not waits or (it.fdref.isdigit() and int(it.fdref) < whole))
    if outcome.isdigit():
        is_filled = not waits and (not held or whole <= it.page)
        least = max(PIPE_BUF - held, 1) if is_filled else 1
        return (least if has_parts else whole) <= int(outcome) <= whole
    if outcome.startswith("parked "):
        return waits and (outcome == "parked ?" or moved(outcome) < (whole if whole > PIPE_BUF else 1))
    return outcome == "error EAGAIN" and held > 0 and not waits


def put_before_read(it: Difference, pipe: plain_model.Pipe) -> int:
    """How many bytes later writes put into a pipe on the system, up to the first line that may be a read of it."""
    live = it.world.processes
    ends = {number: {fd for fd, at in who.table.items() if at.pipe is pipe} for number, who in live.items()}
    has_names = any(walks.is_fifo(at.file) for who in live.values() for at in who.table.values())
    put = 0
    for line in it.lines[it.place + 1 :]:
        who, word, *fields = f"{line.act}  ".split(" ")
        own = ends.setdefault(line.number(), set()) if line.act and who != "house" else set()
        is_end = fields[:1] and fields[0].isdigit() and int(fields[0]) in own
        if word == "resume" or (word == "read" and (is_end or has_names)):
            break
        if word == "write" and is_end and line.outcome.isdigit():
            put += int(line.outcome)
        elif word in ("dup", "dup2") and line.outcome.isdigit():
            own.discard(int(line.outcome))
            own.update({int(line.outcome)} if is_end else ())
        elif word == "close" and line.outcome == "ok":
            own -= {int(fields[0])}
        elif word == "fork" and line.outcome.isdigit():
            ends[int(line.outcome)] = set(own)
        elif word == "exit":
            own.clear()
    return put


def most_after(it: Difference) -> int:
    """How many bytes may still go into a pipe before the next read, where the system had no room for all of a write:
    none where it put in what fits, and fewer than were asked for where that was nothing. A page that is not full may
    take more of another write. Of a large one it takes what that has beside whole pages, if all of that fits there."""
    assert it.at and it.at.pipe
    whole, is_part = it.count(), it.system.isdigit()
    if it.system == "error EAGAIN" and whole > PIPE_BUF and it.put is not None:
        is_part = whole + it.put.get(it.at.pipe, 0) <= it.page
    if is_part:
        beside = whole % it.page
        is_beside = not it.counts_bytes and whole > it.page and it.system == str(beside)
        return it.page - 1 - beside if is_beside else 0
    beside = whole % it.page or it.page
    # one that waits may have put that in
    is_in = it.system != "error EAGAIN" and whole > it.page
    return whole - 1 if it.counts_bytes else max(beside - 1, it.page - 1 - beside if is_in else 0)


def is_of_pages(it: Difference) -> bool:
    """Whether a part of a write that is not to wait is one that goes into pages: what the write has beside whole pages,
    in a page that is not full, or whole pages, or both."""
    if not it.system.isdigit():
        return True
    whole, part = it.count(), int(it.system)
    return whole > it.page and (part % it.page == 0 or part % it.page == whole % it.page)


def room_left(it: Difference) -> int:
    """How many bytes more than may be go into a pipe before the next read, after a write for which the system had no
    room."""
    if not it.words("write") or not it.at or not it.at.pipe or it.system == str(it.count()) or not is_moved(it.system):
        return 0
    put = put_before_read(it, it.at.pipe)
    return put if put > most_after(it) else 0


def is_room(it: Difference) -> bool:
    """A write to a pipe that has more room on the system than in the profile, or less."""
    if not it.words("write") or not it.at or not it.at.pipe or it.has_same_room or room_left(it):
        return False
    whole, held = it.count(), len(it.at.pipe.data)
    is_less = it.system != str(whole) and held + whole > PIPE_BUF
    if it.system != str(whole) and held + whole <= it.room_seen:
        return False
    has_other_room = held + whole > it.at.pipe.capacity or is_less
    return has_other_room and is_moved(it.fdref) and may_give(it, it.system)


# How many pages of each size something takes.
PagesOf = dict[int, int]


def pages_of(count: int, before: PagesOf) -> PagesOf:
    """How many pages so many bytes take at most, which one call has moved, together with those before."""
    return {size: before.get(size, 0) - (-count // size) for size in {*pages.SIZES, pages.OF_SYSTEM}}


class Fillings:
    """What was put into each pipe since it was empty: how many pages of each size that takes at most, and how many
    bytes it is."""

    def __init__(self) -> None:
        self.pages: dict[plain_model.Pipe, PagesOf] = {}
        self.put: dict[plain_model.Pipe, int] = {}

    def take(self, run: plain_model.Run, act: plain_model.Act) -> None:
        """Lets an act take place in a run, and counts. Where calls go on because of it, it is not known how much they
        have put into a pipe, which may be as much as it holds."""
        live = run.world.processes.values()
        held = {at.pipe: len(at.pipe.data) for process in live for at in process.table.values() if at.pipe}
        count = len(run.lines)
        run.take(act)
        has_more = len(run.lines) > count + 1
        for pipe, before in held.items():
            more = pipe.capacity if has_more else max(len(pipe.data) - before, 0)
            self.pages[pipe] = pages_of(more, self.pages.get(pipe, {})) if pipe.data else {}
            self.put[pipe] = self.put.get(pipe, 0) + more if pipe.data else 0


def has_free_pages(it: Difference, pipe: plain_model.Pipe) -> bool:
    """Whether more of a write fits into the pages that a pipe has free in any case than went in on the system."""
    if it.pages is None:
        return False
    free = pipe.capacity - it.page * it.pages.get(pipe, {}).get(it.page, 0)
    # one that is refused has moved nothing; where one waits it is not seen how much it has
    return it.count() <= free or (it.system != "parked ?" and moved(it.system) < free)


def is_paged_room(it: Difference) -> bool:
    """A write to a pipe for which the system has as many bytes as are asked for, but in pages of which some are not
    full; or a read of one to which a write of more than PIPE_BUF bytes has gone on less.

    A write goes on in a page only where it fits there. So two pages beside each other hold more than one page together,
    but for the first one, of which something was read; and a pipe that is about half full may have no page left.
    """
    call = it.waiting_write()
    pipe = call.pipe if call else it.at.pipe if it.at else None
    if it.counts_bytes or not pipe or pipe.capacity % it.page:
        return False
    if call:
        return is_paged_resume(it, call)
    if it.words("read"):
        return is_paged_read(it, pipe)
    if not it.words("write") or not may_give(it, it.system) or not is_moved(it.fdref) or has_free_pages(it, pipe):
        return False
    if not is_of_pages(it):
        return False
    held, fdref = len(pipe.data), moved(it.fdref)
    # a large page that is only tried is believed where there are two of them, and as much was put in as they take
    is_doubtful = it.page > pages.SIZES[0] and not it.is_page_known
    if is_doubtful and not 2 * it.page <= pipe.capacity < 2 * it.put_here.get(pipe, 0):
        return False
    # how many bytes of a large write have gone in is not seen on the system while it waits
    is_less = fdref > 0 if it.system == "parked ?" else moved(it.system) < fdref
    is_past = it.system == "parked ?" and it.count() > pipe.capacity
    is_less = is_less and (held > 0 or is_past)
    return is_less and held + it.count() > pipe.capacity // 2 - it.page and not room_left(it)


def is_paged_resume(it: Difference, call: plain_model.WaitingWrite) -> bool:
    """A write that waits on, for want of a page, or that ends without a reader and has moved less."""
    if not it.fdref.isdigit():
        return False
    if it.world.has_end(call.pipe, "r"):
        waits_on = "still" if call.is_whole else "?"
        return it.system == waits_on and len(call.pipe.data) > call.pipe.capacity // 2 - it.page
    if call.is_whole:
        return False
    return it.system == "error EPIPE" or (it.system.isdigit() and 0 < int(it.system) < int(it.fdref))


def is_paged_read(it: Difference, pipe: plain_model.Pipe) -> bool:
    """A read that gives less than in fdref, but for no more bytes than those that writes have moved which wait, or did
    to the end of their process."""
    calls = [*it.ended, *(process.waits for process in it.world.processes.values() if process.waits)]
    late = sum(call.moved for call in calls if call.pipe is pipe)
    given, wanted = (plain_model.read_data(text.encode()) for text in (it.system, it.fdref))
    return bool(given and wanted and wanted.startswith(given) and len(wanted) - len(given) <= late)


def is_split_room(it: Difference) -> bool:
    """A write that waits on, since another one at its pipe got some of the room: it is left open who gets how much."""
    call = it.waiting_write()
    if not call or it.system != "?" or not it.fdref.isdigit() or not it.world.has_end(call.pipe, "r"):
        return False
    calls = [process.waits for process in it.world.processes.values()]
    large = [one for one in calls if isinstance(one, plain_model.WaitingWrite) and not one.is_whole]
    wanted = sum(len(one.data) - one.moved for one in large if one.pipe is call.pipe)
    return wanted > call.pipe.room() and is_full_at_next_read(it, call.pipe)


def is_full_at_next_read(it: Difference, pipe: plain_model.Pipe) -> bool:
    """Whether the next read of a pipe on the system, if there is one, finds as many bytes as it holds."""
    for line in it.lines[it.place + 1 :]:
        who, word, *fields = f"{line.act}  ".split(" ")
        process = it.world.processes.get(int(who[1:])) if word == "read" else None
        if process and int(fields[0]) in process.table and process.table[int(fields[0])].pipe is pipe:
            data = plain_model.read_data(line.outcome.encode())
            return data is not None and len(data) >= min(int(fields[1]), pipe.capacity)
    return True


def is_broken(it: Difference) -> bool:
    """A write that had moved a part when the last reader went: fdref answers the part, and the system EPIPE."""
    if it.system != "error EPIPE" or not it.fdref.isdigit():
        return False
    call = it.waiting_write()
    if call:
        return not it.world.has_end(call.pipe, "r") and int(it.fdref) == call.moved > 0
    is_waiting = it.words("write") and it.at is not None and it.at.pipe is not None and not it.at.nonblock
    # one that waits writes all, but for want of a reader
    return is_waiting and PIPE_BUF < it.count() and 0 < int(it.fdref) < it.count()


def is_set_while_write_waits(it: Difference) -> bool:
    """A write that waits ends on the system with what it moved, or with EAGAIN where that is nothing, since nonblock
    was set on its description meanwhile."""
    call = it.waiting_write()
    if not call or not it.process or not is_set(it.process, call.pipe, "w") or not it.world.has_end(call.pipe, "r"):
        return False
    if it.system == "error EAGAIN":
        return call.moved == 0 and it.gives("still")
    most = int(it.fdref.removeprefix("part ")) if it.fdref.startswith("part ") else call.moved
    is_waiting = it.gives("still") or it.fdref.startswith("part ")
    return is_waiting and it.system.isdigit() and max(call.moved, 1) <= int(it.system) <= most


def is_set_while_read_waits(it: Difference) -> bool:
    """A read that waits is EAGAIN on the system, since nonblock was set on its description meanwhile, and another one
    got what there was."""
    call = it.process.waits if it.words("resume") and it.process else None
    if not isinstance(call, plain_model.WaitingRead) or it.system != "error EAGAIN" or not it.gives("still"):
        return False
    return it.process is not None and is_set(it.process, call.pipe, "r")


def is_shared(it: Difference) -> bool:
    """A read that waited beside others of its pipe, and came back with them: together they give the bytes that came
    first, by turns, each byte once and each read in their order."""
    call = it.process.waits if it.words("resume") and it.process else None
    if not isinstance(call, plain_model.WaitingRead):
        return False
    places = [at for at in back_together(it) if reads_of_pipe(it, at, call.pipe)]
    given = {at: plain_model.read_data(it.lines[at].outcome.encode()) for at in places}
    earlier = [it.earlier.get(at, it.lines[at].outcome) for at in places if at < it.place]
    parts = [data for data in given.values() if data]
    there = b"".join(plain_model.read_data(text.encode()) or b"" for text in earlier) + bytes(call.pipe.data)
    return bool(given.get(it.place)) and len(parts) > 1 and are_turns(there[: sum(map(len, parts))], parts)


def back_together(it: Difference) -> range:
    """The places of the lines of calls that came back after one act, as that of a difference did."""
    first, end = it.place, it.place + 1
    while is_told_back(it.lines[first - 1]):
        first -= 1
    while end < len(it.lines) and is_told_back(it.lines[end]):
        end += 1
    return range(first, end)


def reads_of_pipe(it: Difference, place: int, pipe: plain_model.Pipe) -> bool:
    """Whether a line is that of a read of a pipe that waited, and has come back."""
    process = it.world.processes.get(it.lines[place].number())
    own = (line for line in reversed(it.lines[:place]) if line.act.startswith(f"p{it.lines[place].number()} "))
    act = next((act_of(line) for line in own if line.outcome.startswith("parked ")), "")
    at = process.table.get(int(act.split(" ")[2])) if process and " read " in act else None
    return at is not None and at.pipe is pipe


def is_shared_evenly(it: Difference) -> bool:
    """Whether a read that shares bytes with others has as many of them as in fdref."""
    system, fdref = (plain_model.read_data(text.encode()) for text in (it.system, it.fdref))
    is_reason = it.reason is not None and it.reason.fits is is_shared
    return is_reason and system is not None and fdref is not None and len(system) == len(fdref)


def is_set(process: plain_model.Process, pipe: plain_model.Pipe, end: str) -> bool:
    """Whether nonblock is set on an end of a pipe that a process has."""
    return any(at.pipe is pipe and end in at.mode and at.nonblock for at in process.table.values())


def is_ftruncate_of_pipe(it: Difference) -> bool:
    """An ftruncate of a pipe or FIFO, of which nothing is specified but that no length is negative."""
    is_asked = it.words("ftruncate") and it.at is not None and it.at.pipe is not None and it.gives("error EINVAL")
    return is_asked and it.act.fields[1] >= 0 and (it.system == "ok" or it.system.startswith("error "))


def is_reader_waiting(it: Difference) -> bool:
    """An open of a FIFO for writing with nonblock, of which each reader still waits in its own open: in fdref it is
    open."""
    is_asked = it.words("open") and it.system == "error ENXIO" and it.fdref.isdigit() and it.is_on_fifo()
    if not is_asked or it.flags()[0] != "w" or "nonblock" not in it.flags():
        return False
    file = it.world.names[it.act.fields[0]]
    assert isinstance(file, plain_model.Fifo)
    ends = [
        (process.waits, fd)
        for process in it.world.processes.values()
        for fd, at in process.table.items()
        if at.pipe is file.pipe and at.mode == "r"
    ]
    return all(isinstance(call, plain_model.WaitingOpen) and call.fd == fd for call, fd in ends)


def is_stat_of_pipe(it: Difference) -> bool:
    """Size and links of a pipe; of a FIFO, which has names, the size alone."""
    if not it.words("fstat") or not it.at or not it.at.pipe:
        return False
    system, fdref = it.system.split(" "), it.fdref.split(" ")
    return len(system) == len(fdref) == 3 and system[0] == fdref[0] and (system[0] == "pipe" or system[2] == fdref[2])


def has_own_name_fault(it: Difference) -> bool:
    """Whether a name is refused that a system may take."""
    return any(name_fault(name) in ("EINVAL", "ENAMETOOLONG") for name in it.names())


def name_fault(name: bytes) -> str | None:
    """The error in which a name ends, if any."""
    try:
        plain_model.check_name(name)
    except plain_model.Errno as fault:
        return str(fault)
    return None


def is_own_name(it: Difference) -> bool:
    """A name that the profile does not take, so that no file has it: the system answers as to another such name, or
    with an error that is due of its bytes."""
    if not has_own_name_fault(it) or not it.gives("error EINVAL", "error ENAMETOOLONG"):
        return False
    # one that leads out of the folder may lead to any file, and ask_kernel does not ask for it
    if it.system == "not asked" or any(map(leads_out, it.names())):
        return True
    if it.system in ("error EINVAL", "error EILSEQ"):
        return not all(PORTABLE.fullmatch(name) for name in it.names())
    is_long = it.system == "error ENAMETOOLONG" and any(len(name) > NAME_MAX for name in it.names())
    other = it.instead(act=with_names_taken(it))
    return is_long or is_right(other, answer_in_copy(other))


def leads_out(name: bytes) -> bool:
    """Whether a name is none of a file in the folder."""
    return name in (b".", b"..") or b"/" in name


def with_names_taken(it: Difference) -> plain_model.Act:
    """The act of a difference, with names in the place of those that the profile does not take; no file has these."""
    taken: dict[bytes, bytes] = {}
    for name in it.names():
        if name_fault(name) in ("EINVAL", "ENAMETOOLONG"):
            taken.setdefault(name, next(new for new in unused_names() if new not in {*it.world.names, *taken.values()}))
    fields = [taken.get(field, field) if isinstance(field, bytes) else field for field in it.act.fields]
    return it.act._replace(fields=tuple(fields))


def unused_names() -> Iterator[bytes]:
    """Names, one after another."""
    return (b"unused%d" % number for number in itertools.count())


def answer_in_copy(it: Difference) -> str:
    """What fdref would answer to a call that changes nothing but names and descriptors: they are copied before."""
    world = copy.copy(it.world)
    world.names = dict(world.names)
    world.processes = {number: copy.copy(process) for number, process in world.processes.items()}
    process = world.processes[it.act.actor]
    process.table = dict(process.table)
    try:
        return str(getattr(world, it.act.word)(process, *it.act.fields))
    except plain_model.Errno as fault:
        return f"error {fault}"


def has_own_flags(it: Difference) -> bool:
    """Whether flags are refused that a system may take."""
    mode, *flags = it.flags()
    return mode == "-" or ("excl" in flags and "creat" not in flags) or ("trunc" in flags and "w" not in mode)


def is_own_flags(it: Difference) -> bool:
    """Flags that the standard leaves undefined: whatever error there is, or a descriptor as of another open."""
    if not it.words("open") or not it.gives("error EINVAL") or not has_own_flags(it):
        return False
    is_made = it.act.fields[0] in it.world.names or "creat" in it.flags()
    return it.system == "not asked" or it.system.startswith("error ") or (is_made and is_opened(it))


def is_opened(it: Difference) -> bool:
    """Whether an open gives the lowest descriptor, or waits for the other end of a FIFO."""
    waits = it.is_on_fifo() and "nonblock" not in it.flags() and it.system in ("parked 0", "parked ?")
    return waits or it.system == str(free_descriptors(it)[0])


def is_fifo_for_both(it: Difference) -> bool:
    """An open of a FIFO for reading and writing."""
    is_refused = it.words("open") and it.gives("error EINVAL") and it.flags()[0] == "rw" and it.is_on_fifo()
    return is_refused and (is_opened(it) or (it.system == "error EMFILE" and "EMFILE" in due(it)))


def is_count(it: Difference) -> bool:
    """More bytes than a call of the profile moves: the system does what fdref would do without that limit."""
    is_asked = it.words("read", "pread", "write", "pwrite") and it.gives("error EINVAL") and it.count() > TRANSFER_MAX
    if not is_asked or not it.at or (it.words("pread", "pwrite") and it.act.fields[1] < 0):
        return False
    return any(is_right(it, outcome) for outcome in without_limit(it, it.at))


def without_limit(it: Difference, at: plain_model.Description) -> list[str]:
    """What fdref would give for a transfer of more bytes. Of a read the driver may see no more than so many."""
    pipe, count = at.pipe, it.count()
    if it.words("read", "pread"):
        if pipe and not pipe.data and it.world.has_end(pipe, "w"):
            return ["error EAGAIN" if at.nonblock else "parked 0"]
        given = [bytes(pipe.data)] if pipe else [at.regular.data.read(it.start(at), min(count, READ_MOST))]
        return [plain_model.data_text(data) for data in given]
    if not pipe:
        room = it.world.limits.size - it.start(at)
        return [str(min(count, room)) if room > 0 else "error EFBIG"]
    if not it.world.has_end(pipe, "r"):
        return ["error EPIPE"]
    room = pipe.room()
    return [f"parked {room}" if not at.nonblock else str(room) if room else "error EAGAIN"]


def is_of_nothing(it: Difference) -> bool:
    """Whether it is a read or write of no bytes."""
    return it.words("read", "pread", "write", "pwrite") and it.count() == 0


def is_write_of_nothing(it: Difference) -> bool:
    """A write of no bytes to a pipe, of which nothing is specified but that it writes none."""
    is_asked = is_of_nothing(it) and it.words("write", "pwrite") and it.at is not None and it.at.pipe is not None
    is_parked = it.words("write") and it.system.startswith("parked ")
    return is_asked and (is_parked or it.system == "0" or it.system.startswith("error "))


def is_unchecked(it: Difference) -> bool:
    """A call of no bytes for which a system looks for no errors, or for one more that is due: EAGAIN of an empty pipe.

    Of writes that is said of regular files alone, and of pipes nothing. Where the descriptor is not open there is none.
    """
    if not is_of_nothing(it):
        return False
    if it.system == "error EAGAIN":
        pipe = it.at.pipe if it.at and it.at.nonblock and it.words("read") and it.gives("x") else None
        return pipe is not None and not pipe.data and it.world.has_end(pipe, "w")
    return it.fdref.startswith("error ") and it.system == ("x" if it.words("read", "pread") else "0")


def is_vain(it: Difference) -> bool:
    """A read or write that a system refuses, and that moves no bytes in fdref."""
    moves_none = "x" if it.words("read", "pread") else "0" if it.words("write", "pwrite") else None
    return it.system.startswith("error ") and it.fdref == moves_none


def is_turned(it: Difference) -> bool:
    """A pipe whose writing end has the lower number."""
    return it.words("pipe") and not it.are_errors() and it.system.split(" ") == it.fdref.split(" ")[::-1]


def is_flag_left_out(it: Difference) -> bool:
    """A getfl of a regular file that was opened with nonblock, and that does not tell this flag."""
    is_asked = it.words("getfl") and it.at is not None and not it.at.pipe and it.at.is_opened_nonblock
    return is_asked and it.fdref.isdigit() and it.system == str(int(it.fdref) & ~NONBLOCK)


def is_both_ways(it: Difference) -> bool:
    """A pipe that goes both ways: a getfl of an end that tells so, a write to its reading end, or a read of its writing
    end. What else went that way is not known."""
    if not it.at or not isinstance(it.at.file, plain_model.Pipe):
        return False
    if it.words("getfl"):
        return it.fdref.isdigit() and it.system == str(int(it.fdref) | READ_WRITE)
    is_refused = it.words("read", "write") and it.gives("error EBADF")
    return is_refused and (is_read_back(it, it.at) if it.words("read") else is_written_back(it, it.at))


def is_written_back(it: Difference, at: plain_model.Description) -> bool:
    """Whether a system gives what a write to a reading end may give, where that is open for writing."""
    assert at.pipe
    whole, has_parts = it.count(), it.count() > PIPE_BUF
    if it.system.isdigit():
        return int(it.system) == whole or (at.nonblock and has_parts and 0 < int(it.system) < whole)
    if it.system.startswith("parked "):
        return not at.nonblock and moved(it.system) < (whole if has_parts else 1)
    if it.system == "error EPIPE":
        return not it.world.has_end(at.pipe, "w")
    return it.system == "error EAGAIN" and at.nonblock


def is_read_back(it: Difference, at: plain_model.Description) -> bool:
    """Whether a system gives what a read of a writing end may give, where that is open for reading."""
    assert at.pipe
    data = plain_model.read_data(it.system.encode())
    if data:
        return len(data) <= it.count()
    if not it.world.has_end(at.pipe, "r"):
        return data is not None
    return it.system in (("error EAGAIN",) if at.nonblock else ("parked 0", "parked ?"))


def is_full(it: Difference) -> bool:
    """More processes than the profile has."""
    is_refused = it.words("join", "fork") and it.gives("error EAGAIN") and not it.world.is_closed
    return is_refused and it.system == str(it.world.next_number)


def is_more_links(it: Difference) -> bool:
    """More links than the profile has."""
    return it.gives(TOO_MANY_LINKS) and it.system == "ok"


def is_more_names(it: Difference) -> bool:
    """More names than the profile has."""
    return it.gives("error ENOSPC") and (is_opened(it) if it.words("open") else it.system == "ok")


def is_more_descriptions(it: Difference) -> bool:
    """More descriptions than the profile has."""
    first, second = free_descriptors(it)
    ends = (f"{first} {second}", f"{second} {first}")
    return it.gives("error ENFILE") and (is_opened(it) if it.words("open") else it.system in ends)


def free_descriptors(it: Difference) -> list[int]:
    """The two lowest descriptors that a process has free, of a table without an end."""
    table = it.process.table if it.process else {}
    return [fd for fd in range(len(table) + 2) if fd not in table][:2]


def gives_descriptors(it: Difference) -> bool:
    """Whether a call gives descriptors that were free."""
    form = plain_model.CALLS.get(it.act.word)
    return form is not None and form.gives in (plain_model.DESCRIPTOR, plain_model.PAIR) and not it.words("dup2")


# the act of the last line
TOTALS = plain_model.Act(None, "totals")

SYSTEM, OWN = "the system departs", "own"


class Reason(NamedTuple):
    """Why system and fdref may differ: who decides it, the page of the standard, and the differences that it fits."""

    name: str
    who: str
    page: str
    fits: Callable[[Difference], bool]


# Each reason of a difference, the narrow ones first. `fits` looks at the call, its descriptor and both outcomes.
REASONS = [
    Reason("pwrite under O_APPEND appends", SYSTEM, "page of write (pwrite)", is_pwrite_appended),
    Reason("lseek past the greatest offset is EINVAL, not EOVERFLOW", SYSTEM, "page of lseek", is_lseek_overflow),
    Reason("lseek past the greatest file of the file system is EINVAL", SYSTEM, "page of lseek", is_lseek_past_files),
    Reason("offset and count pass the greatest offset: EINVAL", SYSTEM, "pages of read and write", is_offset_and_count),
    Reason("ftruncate past the size limit is EINVAL, not EFBIG", OWN, "page of ftruncate", is_length_too_large),
    Reason("ftruncate without writing is EBADF, not EINVAL", OWN, "page of ftruncate", is_unwritable),
    Reason("names that the profile does not take", OWN, "XBD 3, Portable Filename Character Set", is_own_name),
    Reason("ftruncate of a pipe", OWN, "page of ftruncate", is_ftruncate_of_pipe),
    Reason("order of refusals, where several are due", OWN, "XSH 2.3", is_order),
    Reason("nonblock set while a write waits", OWN, "pages of fcntl and write", is_set_while_write_waits),
    Reason("nonblock set while a read waits", OWN, "pages of fcntl and read", is_set_while_read_waits),
    Reason("how reads of a pipe at once share its bytes", OWN, "page of read", is_shared),
    Reason("EPIPE of a write that has moved a part", OWN, "page of write", is_broken),
    Reason("who of several writers gets the room of a pipe", OWN, "page of write", is_split_room),
    Reason("a FIFO whose reader waits in its open", OWN, "page of open", is_reader_waiting),
    Reason("a write of no bytes to a pipe", OWN, "page of write", is_write_of_nothing),
    Reason("errors of a call of no bytes", OWN, "pages of read and write", is_unchecked),
    Reason("room of a pipe that is counted in pages", OWN, "page of write", is_paged_room),
    Reason("room of a pipe", OWN, "page of write", is_room),
    Reason("which end of a pipe has the lower number", OWN, "page of pipe", is_turned),
    Reason("a pipe that goes both ways", OWN, "page of pipe", is_both_ways),
    Reason("nonblock of a regular file in getfl", OWN, "page of open", is_flag_left_out),
    Reason("size and links of a pipe in fstat", OWN, "page of fstat", is_stat_of_pipe),
    Reason("flags that the standard leaves undefined", OWN, "page of open", is_own_flags),
    Reason("a FIFO opened for both", OWN, "page of open", is_fifo_for_both),
    Reason("more than 65,536 bytes in a call", OWN, "pages of read and write", is_count),
    Reason("more than 8 links", OWN, "page of link", is_more_links),
    Reason("more than 1,024 names", OWN, "pages of open, link and mkfifo", is_more_names),
    Reason("more than 1,024 descriptions", OWN, "pages of open and pipe", is_more_descriptions),
    Reason("more than 64 processes", OWN, "page of fork", is_full),
]
APPENDED = next(reason for reason in REASONS if reason.fits is is_pwrite_appended)


def reason_of(difference: Difference) -> Reason | None:
    """The first reason that fits a difference."""
    return next((reason for reason in REASONS if reason.fits(difference)), None)


# ---- telling


def told_reason(reason: Reason | None, what: str = "reason") -> str:
    """The reason of a difference, if it has one."""
    return f"{what}: {reason.name} ({reason.who}; {reason.page})" if reason else f"{what}: none"
