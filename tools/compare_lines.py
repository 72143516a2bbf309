"""The lines of a run of the system and of one of fdref: how both are asked for them, and which of them fit.

Which of the calls that came back together was served first is not seen on a system, so their other orders are tried.
"""

import contextlib
import copy
import itertools
import time
from pathlib import Path

from support import pages, plain_model
from support.commands import capacity_words
from support.counting import Failure
from support.plain_model import DEFAULTS, PIPE_BUF, PIPE_CAPACITY_LEAST, PIPE_CAPACITY_MOST, TRANSFER_MAX, Limits
from support.running import CannotRun, run
from support.runs import ALL_RECORDS, Line, line_of

from compare_runs import Known, NoRun, bytes_of_write, check_alike, ends_of_closing, is_told_back, places_of_script
from compare_runs import run_of
from compare_turns import moves_of, with_moves, without_moves
from waits import COMPUTES_SECONDS, Long, waits_for

# How long the driver or fdref may take for a script.
SECONDS = 120.0
ORDERS_MOST = 150
# How many sizes of writes are tried in one run.
SIZES_AT_ONCE = 16


# ---- lines of a run


def moved(outcome: str) -> int:
    """How many bytes of a write went in at once."""
    number = outcome.removeprefix("parked ")
    return int(number) if number.isdigit() else 0


def is_moved(outcome: str) -> bool:
    """Whether a write moved bytes, waits, or would wait."""
    return outcome.isdigit() or outcome.startswith("parked") or outcome == "error EAGAIN"


def is_at_once(asked: "Asked", lines: list[Line], place: int) -> bool:
    """Whether a line is that of a write, or of the resume of one, of which a part may go in by the profile, but by the
    larger PIPE_BUF of the system all of it or nothing."""
    who, word, *_ = lines[place].act.split(" ")
    before = (line for line in reversed(lines[:place]) if line.act.startswith(f"{who} "))
    parked = (line for line in before if line.outcome.startswith("parked "))
    line = next(parked, lines[place]) if word == "resume" else lines[place]
    return " write " in line.act and PIPE_BUF < bytes_of_write(line) <= asked.pipe_buf


def fits(asked: "Asked", lines: list[Line], place: int, fdref: Line) -> bool:
    """Whether a line of a system and one of fdref fit. How much a large write moved at once is `?`: the same where a
    pipe has the same room, by bytes; nothing where the pipe is full to the last byte, and all of that where it is
    empty."""
    system = lines[place]
    if system.act != fdref.act:
        return False
    if system.outcome == "?":
        # it waits on
        is_part = fdref.outcome.startswith("part ") and not is_at_once(asked, lines, place)
        return is_part or fdref.outcome == "still"
    if not system.act:
        totals = zip(system.outcome.split(" "), fdref.outcome.split(" "), strict=True)
        return all(word in ("?", other) for word, other in totals)
    if system.outcome == "parked ?":
        # nothing goes into a full pipe, and into an empty one all that it holds, whatever it counts
        is_known = fdref.outcome in ("parked 0", f"parked {asked.limits.capacity}")
        is_same = asked.counts_bytes and not is_at_once(asked, lines, place)
        return asked.has_same_room and fdref.outcome.startswith("parked ") and (is_same or is_known)
    return (system.place == "-", system.outcome) == (fdref.place == "-", fdref.outcome)


# ---- the two that are asked


class Asked:
    """The driver and fdref, as they are called."""

    def __init__(
        self,
        program: list[str],
        driver: list[str],
        limits: Limits = DEFAULTS,
        is_text: bool = False,
        driver_name: str = "ask_kernel",
        seconds: float = SECONDS,
    ) -> None:
        self.program = program
        self.driver = driver
        self.driver_name = driver_name
        self.seconds = seconds
        # those of which it was told that they are waited for
        self.late: set[str] = set()
        self.limits = limits
        self.is_text = is_text
        self.all_rooms = self.rooms()
        self.all_room = min(self.all_rooms)
        self.has_same_room = set(self.all_rooms) == {limits.capacity}
        self.counts_bytes = self.rooms(3_000, 3_000) == self.all_rooms
        self.page = pages.OF_SYSTEM if self.counts_bytes else self.page_size()
        self.room_seen = self.all_room if self.counts_bytes else max(self.all_room // 2 - self.page, 0)
        self.pipe_buf = self.most_at_once() if self.has_same_room and self.counts_bytes else PIPE_BUF

    def with_room(self) -> "Asked | None":
        """The same, where pipes of fdref hold as many bytes as those of the system; or None where they do, or cannot,
        or where these have neither bytes nor whole pages, or FIFOs have other room."""
        can_have = PIPE_CAPACITY_LEAST <= self.all_room <= PIPE_CAPACITY_MOST
        is_known = self.counts_bytes or self.all_room % self.page == 0
        if self.has_same_room or self.told_rooms() or not can_have or not is_known:
            return None
        other = copy.copy(self)
        other.limits = self.limits._replace(capacity=self.all_room)
        other.has_same_room = True
        other.pipe_buf = other.most_at_once() if other.counts_bytes else PIPE_BUF
        return other

    def run(self, words: list[str], script: bytes, who: str) -> bytes:
        """What one of the two prints on a script."""
        began = time.monotonic()
        what = waits_for(f"{who}, which is given a script", self.seconds)
        try:
            with contextlib.nullcontext() if who in self.late else Long(what, "compare.py"):
                done = run(words, script, seconds=self.seconds)
        except (Failure, OSError) as fault:
            raise CannotRun(f"{who}: {fault}") from None
        self.late |= {who} if time.monotonic() - began > COMPUTES_SECONDS else set()
        if done.status != 0:
            said = done.stderr.decode("ascii", "replace").strip()
            raise CannotRun(f"{who} ends with {done.how()}" + (f": {said}" if said else ""))
        return done.stdout

    def fifo(self, calls: list[bytes]) -> list[str]:
        """What these calls give on an empty FIFO of the system, of which 0 and 1 are the two ends, under nonblock."""
        return self.given([b"p0 mkfifo f", b"p0 open f r,nonblock", b"p0 open f w,nonblock"], calls)

    def given(self, before: list[bytes], calls: list[bytes]) -> list[str]:
        """What these calls of a process give after others."""
        lines = self.system([b"join", *before, *calls])
        return [line.outcome for line in lines[len(before) + 1 : -1]]

    def rooms(self, *sizes: int) -> tuple[int, int]:
        """How many bytes go into an empty FIFO of the system, and into an empty pipe, by writes of these sizes and two
        of 65,536. Which end of a pipe has the lower number is not known, and a pipe may go both ways; where none is
        made it is as the FIFO."""
        all_sizes = (*sizes, TRANSFER_MAX, TRANSFER_MAX)
        ends = [b"p0 pipe", b"p0 setfl 0 -,nonblock", b"p0 setfl 1 -,nonblock"]
        writes = [[b"p0 write %d 61*%d" % (fd, size) for size in all_sizes] for fd in (1, 0)]
        of_fifo = sum(map(moved, self.fifo(writes[0])))
        try:
            given = [*map(moved, self.given(ends, [*writes[0], *writes[1]]))]
            of_pipe = max(sum(given[: len(all_sizes)]), sum(given[len(all_sizes) :]))
        except CannotRun:
            of_pipe = 0
        return of_fifo, of_pipe or of_fifo

    def page_size(self) -> int:
        """How many bytes a page of a FIFO of the system has: a byte in one leaves nothing of it to a large write. Where
        that tells no size of a page, it is that of the system at hand."""
        calls = [b"p0 write 1 61*%d" % size for size in (1, TRANSFER_MAX, TRANSFER_MAX)]
        size = self.all_rooms[0] + 1 - sum(map(moved, self.fifo(calls)))
        return size if size in pages.SIZES else pages.OF_SYSTEM

    def told_rooms(self) -> list[str]:
        """What is told where FIFOs have other room than pipes."""
        of_fifo, of_pipe = self.all_rooms
        told = f"how much room there is is not compared: a FIFO has room for {of_fifo:,} bytes, a pipe for {of_pipe:,}"
        return [told] if of_fifo != of_pipe else []

    def most_at_once(self) -> int:
        """PIPE_BUF of the system, whose pipes have the room of fdref's: the largest write that is refused where there
        is room for one byte. It is the profile's where the system has less, which it may not."""
        least, most = PIPE_BUF, TRANSFER_MAX
        while least < most:
            sizes = range(least + 1, most + 1, (most - least) // SIZES_AT_ONCE + 1)
            tries = [[self.limits.capacity - 1, size] for size in sizes]
            calls = [[*(b"p0 write 1 61*%d" % it for it in pair), b"p0 read 0 65536"] for pair in tries]
            for size, outcome in zip(sizes, self.fifo([*itertools.chain(*calls)])[1::3], strict=True):
                if outcome != "error EAGAIN":
                    most = size - 1
                    break
                least = size
        return least

    def system(self, script: list[bytes]) -> list[Line]:
        """The run of a script as it happened."""
        text = b"".join(line + b"\n" for line in script)
        printed = self.run(self.driver, text, self.driver_name)
        try:
            lines = run_of(script, printed)
        except NoRun as fault:
            raise fault.of(self.driver_name) from None
        if any(line.outcome == "?" for line in lines):
            # a resume that is told as `?` may be none, so the number of records is not known
            lines[-1] = lines[-1]._replace(outcome=lines[-1].outcome.replace(lines[-1].outcome.split(" ")[1], "?", 1))
        return lines

    def exchanged(self, script: list[bytes]) -> tuple[list[Line], set[int]]:
        """The same, where the ends of each pipe change places whose writing end has the lower number; and the places of
        these pipes."""
        added: dict[int, list[bytes]] = {}
        lines = self.system(script)
        # the first of them alone, since what comes after it may be otherwise then
        while new := next(((number, acts) for number, acts in moves_of(lines) if number not in added), None):
            further = {**added, new[0]: new[1]}
            moved = without_moves(script, further, self.system(with_moves(script, further)))
            if moved is None:
                break
            added, lines = further, moved
        of_script = places_of_script(lines)
        return lines, {of_script[number] for number in added}

    def check_alike(self, system: list[Line], fdref: list[Line], place: int) -> None:
        """Fails where two runs of the same acts have another act at a place."""
        try:
            check_alike(system, fdref, place)
        except NoRun as fault:
            raise fault.of(self.driver_name) from None

    def fault(self, path: str) -> str:
        """The fault of a script, as fdref tells it: its line, its column and what could stand there."""
        try:
            words = [*self.program, "replay", *(["--text"] if self.is_text else [])]
            done = run(words, Path(path).read_bytes(), seconds=self.seconds)
        except (Failure, OSError):
            return "not a script"
        lines = done.stderr.decode("ascii", "replace").splitlines()
        return ", ".join(line for line in lines if line.startswith(("line ", "expected "))) or "not a script"

    def fdref(self, lines: list[Line], known: Known | None = None) -> list[Line]:
        """What fdref gives for the acts of a run, or for those that it is given instead."""
        known, ends = known or Known(), ends_of_closing(lines)
        places = [place for place, line in enumerate(lines) if line.act and place not in ends]
        acts = [text for place in places for text in known.given(lines, place)]
        records = min(2 * (len(lines) + len(acts)) + 200, ALL_RECORDS)
        if known.is_of_model():
            text = self.model(acts, records, known.link_max)
        else:
            words = [*self.program, "replay", "--records", str(records), *capacity_words(self.limits)]
            text = self.run(words, "".join(f"{act}\n" for act in acts).encode(), "fdref")
        return known.joined(lines, [line_of(line) for line in text.decode("ascii").splitlines()])

    def model(self, acts: list[str], records: int, link_max: int) -> bytes:
        """What fdref's model prints for acts, with so many links of a file at most."""
        run = plain_model.Run(records, self.limits)
        run.world.link_max = link_max
        for act in acts:
            run.take(plain_model.read_act(act.encode()))
        return run.text()


def first_unfit(asked: Asked, system: list[Line], fdref: list[Line], known: Known) -> int | None:
    """The place of the first lines that do not fit, but for those that are known, or None."""
    for place in range(max(len(system), len(fdref))):
        is_there = place < min(len(system), len(fdref))
        if place not in known.places and not (is_there and fits(asked, system, place, fdref[place])):
            return place
    return None


def groups_before(lines: list[Line], place: int, has_unseen: bool) -> list[tuple[int, int]]:
    """Where several calls came back one after another, up to a place: the last of them first. Writes that may have
    moved on unseen are among them, or not."""
    groups: list[list[int]] = []
    for at, line in enumerate(lines):
        if is_told_back(line) and (has_unseen or line.outcome != "?"):
            if groups and groups[-1][1] == at:
                groups[-1][1] = at + 1
            else:
                groups.append([at, at + 1])
    return [(first, end) for first, end in reversed(groups) if first <= place and end - first > 1]


def in_other_order(asked: Asked, lines: list[Line], place: int, known: Known) -> list[Line] | None:
    """The run with calls that came back together in an order that fdref fits further, if there is one.

    Which of them the kernel served first is not seen, so each order may be the one that happened. Differences that are
    known stay where they are.
    """
    tries = (other_order(asked, lines, place, known, has_unseen) for has_unseen in (False, True))
    return next((found for found in tries if found), None)


def other_order(asked: Asked, lines: list[Line], place: int, known: Known, has_unseen: bool) -> list[Line] | None:
    """The same, where writes that may have moved on unseen change their places too, or not."""
    tries = 0
    for first, end in groups_before(lines, place, has_unseen):
        for order in itertools.permutations(lines[first:end]):
            tries += 1
            if tries > ORDERS_MOST:
                return None
            tried = lines[:first] + list(order) + lines[end:]
            unfit = first_unfit(asked, tried, asked.fdref(tried, known), known)
            if unfit is None or unfit > max(place, end - 1):
                return tried
    return None
