#!/usr/bin/env python3
"""Tells whether there is an order of the calls of a history that explains what they gave.

usage: tools/order.py HISTORY [--program COMMAND] [--pipe-capacity N] [--seconds N] [--states N] [--quiet]

HISTORY is a file, or - for the standard input. It has a line for each call, `START END pK ACT = OUTCOME`: the times
before and after it, in nanoseconds, the call and its answer as in docs/FORMATS.md. A call that still waits at the end
has END `-` and OUTCOME `parked ?`. tools/support/histories.py has more. An empty line stands between two histories.

An order explains a history where each process makes its calls in its own order, a call that came back before another
one began comes first, and fdref, to which the calls come one after another, gives all these answers. The order is
searched for with the plain model of the tests, and then run through `fdref replay`: what is printed are the lines of
the program, and each was compared with the history. A call that waits has a line where it begins to wait, and one for
each resume.

In fdref a pipe has room for 1,024 bytes, or for as many as --pipe-capacity says. Without that, where no order explains
a history with a pipe or FIFO, one is searched for with pipes of 65,536 bytes, and run through `fdref replay
--pipe-capacity 65536`. If there is one the history has a reason, `room of a pipe (own)`: the standard leaves it open.
So it does in how many parts a write of more than 512 bytes goes into a pipe, and an order of such parts is searched for
then: `a write of more than 512 bytes in parts (own)`. One of them that is not to wait may so take what reads free while
it goes on: no fewer bytes than there was room for at some moment, and no more than went in. Open, too, is which end of
a pipe has the lower number. Where that is the writing one, dup2 and close are added, and the ends change places.
Left open, too, is how much a write of more than 512 bytes has moved that waits and ends early, since the last reader
has gone. Where calls overlap, and no order explains them else, such a write is two in an order: one of what it gave,
and one of the rest, which is EPIPE: `how much a write has moved that ends early (own)`. Where nonblock is set while it
waits, it may end with what it has moved: `nonblock set while a write waits (own)`. A call on a pipe of more than 65,536
bytes, which fdref does not take, is one or two of fewer then: `more than 65,536 bytes in a call (own)`.
Left open, too, is what reads of one pipe get that are made at once. Where no order explains them else, they may take
its bytes by turns, any number at a time, and leave some of them: `how reads of a pipe at once share its bytes (own)`.
That excuses no byte that is lost, given twice, from nowhere or out of its order, no end of file and no EAGAIN, and no
read that overlaps none of its pipe which gives bytes. For both, a read with the answer `?` is taken to have given bytes
that no other read did.
Nothing makes all closes of an exit one step: where no order explains them else, an exit that overlaps other calls may
close its ends of pipes one by one, in any order: `an exit closes its descriptors one by one (own)`.
And no page keeps a part of a write of at most 512 bytes from a reader: it may go in by parts then, with no bytes of
another write between them: `a small write goes in by parts (own)`.

A history has a reason, too, where each call that fdref answers otherwise has one of tools/compare.py that is its own
choice: where calls overlap, each such call in an order that explains the others, also by a choice above, if none of
these calls changes anything. Where none do, a call that is refused has changed nothing, and of a short one the model is
given what it moved; after another that succeeds in one of the two alone, the rest is not compared; that is told. Where
a reason goes by pages, these have one size in a history, from 4,096 to 65,536 bytes.
A limit of the system that the standard leaves open is one, too: more descriptors than 32, or fewer than that and not
fewer than 20, larger and smaller files, shorter names, a larger PIPE_BUF, ENOSPC, ENFILE, EAGAIN of fork. A write that
is short for want of space is none, as it cannot be told from a wrong one; nor is a join that is refused.
A FIFO opened for both, which the standard leaves undefined, is one: it counts as one open of each end in what comes
after, which only the model judges, as fdref refuses it. Where that explains nothing its reads and writes are left out.
A signal may end a call with EINTR, where the page of that has it: such a call has changed nothing, and is left out: `a
signal ends a call (EINTR) (own)`. A close may have closed its descriptor, or not. All else is judged. That a signal has
ended a write which has moved a part, and so gives its count, no history tells: such a count is taken for a wrong one.

Where none explains a history a part of it is printed that has none either. In it `?` is an answer that does not
matter, and END `-` with `?` is a call of which nothing else is known. Both may be asked, too. Then comes the call that
makes it impossible, with those that overlap it, then others that may be wrong in its place, since an order explains all
but the answer of one of them, and the page of the standard. Where no calls overlap, what fdref
answers to it is told, and in place of the page how the system departs from the standard, if tools/compare.py knows. Of
calls that overlap a reason is told as `perhaps` where not each that is answered otherwise has one: that of the first,
in the order in which they came back. Histories that differ in their times alone are searched once.

A search is given up after --seconds or --states, and a history where its first search is. Where that finds no order
there are up to 80 more, as with larger pipes and with parts of writes, and twice as many where a FIFO is opened for
both; and twice 20 seconds to make a part short.

After several histories the last line counts them. Exit status: 0 where all are explained, or have a reason that is
fdref's own, 1 where one is not, 2 for wrong words and where HISTORY cannot be read, 3 where fdref could not be run or
is not what the plain model is, 4 where a line is no call, 5 where one was given up and the others are explained.
"""

import argparse
import sys
from collections.abc import Iterator, Sequence
from pathlib import Path
from typing import NamedTuple

from support import pages, plain_model
from support.both_ways import opens_for_both, opens_of, without_fifos
from support.commands import ChosenLimits, add_capacity, add_program, program_of
from support.histories import UNKNOWN, BadHistory, Noted, form, history_text, read_histories
from support.ordering import (
    ROOMY,
    SECONDS,
    SHRINK_SECONDS,
    STATES_MOST,
    By,
    ByEarlyEnd,
    ByEpipe,
    ByExits,
    ByParts,
    ByRoom,
    ByShares,
    BySmallParts,
    ByTransfer,
    ByUnblocked,
    Explained,
    GivenUp,
    Result,
    Unexplained,
    by_choice,
    by_room,
    explain,
    with_overlapping,
)
from support.pipe_ends import turned
from support.plain_model import Limits
from support.replaying import Differs, verified
from support.running import CannotRun
from support.runs import Line
from support.searching import Step
from support.texts import several

import apart
from compare_limits import reason_or_limit
from compare_reasons import APPENDED, OWN, told_reason
from waits import Long, waits_for

# What is told of other calls that may be wrong instead of the one that is to blame.
OR_ONE = "or one of these does, as an order explains all others up to there without its answer, too:"
NOT_ONE = "or rather one of these, as an order explains all others up to there without its answer, and not without that:"
# What is told of a history that only larger pipes explain, and its reason.
WHERE_ROOMY = f"where a pipe has room for {ROOMY.capacity:,} bytes"
BY_ROOM = "reason: room of a pipe (own; page of write)"
# What is told of a history that only writes explain that go in by parts, and its reason.
IN_PARTS = "where writes of more than 512 bytes to a pipe go in by parts"
BY_PARTS = "reason: a write of more than 512 bytes in parts (own; page of write)"
# What is told of a history that only writes explain that end in EPIPE, and its reason.
WITH_EPIPE = "where a write that has moved a part is EPIPE without a reader"
BY_EPIPE = "reason: EPIPE of a write that has moved a part (own; page of write)"
# What is told of a history that only writes explain that end early after other bytes than in fdref, and its reason.
EARLY = "where a write whose last reader goes has moved as much as it gave"
BY_EARLY_END = "reason: how much a write has moved that ends early (own; page of write)"
# What is told of a history that only writes explain that end early since nonblock is set, and its reason.
UNBLOCKED = "where a write that waits ends with what it has moved, as nonblock is set meanwhile"
BY_UNBLOCKED = "reason: nonblock set while a write waits (own; pages of fcntl and write)"
# What is told of a history that only calls explain of more bytes than fdref takes, and its reason.
PAST_MOST = "where calls of more than 65,536 bytes are others, which fdref takes"
BY_TRANSFER = "reason: more than 65,536 bytes in a call (own; pages of read and write)"
# What is told of a history that only reads explain which share the bytes of a pipe, and its reason.
SHARED = "where reads of a pipe at once take its bytes by turns, each byte once and in order"
BY_SHARES = "reason: how reads of a pipe at once share its bytes (own; page of read)"
# What is told of a history that only exits explain which close their descriptors one by one, and its reason.
CLOSED_APART = "where an exit closes its ends of pipes one by one, in any order, while it goes on"
BY_EXITS = "reason: an exit closes its descriptors one by one (own; page of _exit)"
# What is told of a history that only small writes explain that go in by parts, and its reason.
IN_SMALL_PARTS = "where writes of at most 512 bytes go in by parts, too, with no bytes of others between these"
BY_SMALL_PARTS = "reason: a small write goes in by parts (own; page of write)"
# What is told of a history in which a FIFO is opened for reading and writing.
NO_ORDER_BY_CHOICE = "no order explains it, by a choice of fdref's own"
BY_BOTH = "reason: a FIFO opened for both (own; page of open)"
NOT_COMPARED = "what is read and written there is not compared"
NOT_FOR_BOTH = "that is told where a FIFO may be opened for both, whatever is read and written there"
# What is told of a history in which the writing end of a pipe has the lower number.
TURNED = "where the ends of a pipe change places, by dup2 and close"
BY_TURN = "reason: which end of a pipe has the lower number (own; page of pipe)"
# The calls that a signal may end, as their pages say, and what is told of a history with such.
MAY_BE_ENDED = ("open", "close", "read", "write", "pread", "pwrite", "dup2", "ftruncate")
WITHOUT_ENDED = "an order explains it without the calls that a signal has ended"
BY_SIGNAL = "reason: a signal ends a call (EINTR) (own; XSH 2.4.4)"
NOT_BY_SIGNAL = "that is told without the calls that a signal has ended"
# The lowest descriptor of a history whose processes have three that are not told, and what is told of them.
FIRST_LEFT = 3
BEGINS_AT_0 = "its descriptors begin at 3, and those of fdref at 0: let p0 open a file first, and dup it twice"
NOT_BY_TURN = f"that is told {TURNED}"
CAPACITY = "; --pipe-capacity tells how many bytes a pipe of the system holds"
# The calls that give descriptors which were free.
GIVE = ("open", "dup", "pipe")
# What is told of the answers of fdref to calls that overlap others.
IN_ORDER = ", in an order that explains the others"

EXPLAINED, NOT_EXPLAINED, WRONG_WORDS, CANNOT_RUN, NO_CALL, GIVEN_UP = 0, 1, 2, 3, 4, 5


class Chosen(NamedTuple):
    """A history of one call after another in which fdref answers some otherwise by choices of its own, and what is told
    of it."""

    told: str


Answer = Result | By | Chosen
# What is told of the histories that only larger pipes, parts, or such writes, reads and exits explain, and the reasons.
TOLD: dict[type, tuple[str, str]] = {
    ByRoom: (WHERE_ROOMY, BY_ROOM),
    ByParts: (IN_PARTS, BY_PARTS),
    ByEpipe: (WITH_EPIPE, BY_EPIPE),
    ByEarlyEnd: (EARLY, BY_EARLY_END),
    ByUnblocked: (UNBLOCKED, BY_UNBLOCKED),
    ByTransfer: (PAST_MOST, BY_TRANSFER),
    ByShares: (SHARED, BY_SHARES),
    ByExits: (CLOSED_APART, BY_EXITS),
    BySmallParts: (IN_SMALL_PARTS, BY_SMALL_PARTS),
}
# The kinds of answers, in the order in which they are counted.
KINDS = (Explained, Unexplained, GivenUp, *TOLD, Chosen)
# What is told of how often each of the others was met.
COUNTED = (
    "room of a pipe",
    "writes in parts",
    "EPIPE after a part",
    "writes that end early",
    "nonblock set while a write waits",
    "more than 65,536 bytes",
    "reads that share",
    "exits that close one by one",
    "small writes in parts",
    "other choices",
)


class Orders:
    """The histories that were looked at, with the answer to each form that was met."""

    def __init__(self, program: list[str], args: argparse.Namespace, is_one: bool) -> None:
        self.program = program
        self.args = args
        self.is_one = is_one
        # whether it is known how many bytes a pipe of the system holds
        self.has_room = isinstance(args.limits, ChosenLimits)
        self.known: dict[tuple[object, ...], tuple[int, Answer]] = {}
        self.counts = dict.fromkeys(KINDS, 0)

    def answer(self, number: int, history: Sequence[Noted]) -> None:
        """Answers for a history, and prints what is to be told of it."""
        exchanged = turned(history)
        key = form(history)
        is_new = key not in self.known
        if is_new:
            self.known[key] = number, self.found_turned(exchanged) if exchanged else self.found(history)
        history = exchanged or history
        first, result = self.known[key]
        self.counts[type(result)] += 1
        if isinstance(result, Explained) and is_new:
            told = self.ordered(history, result)
        else:
            told = self.unordered(result) if is_new else f"as history {first}\n"
        if isinstance(result, Unexplained) and is_new and lowest(history) == FIRST_LEFT:
            told += BEGINS_AT_0 + "\n"
        if exchanged and is_new:
            told += (NOT_BY_TURN if isinstance(result, Unexplained) else BY_TURN) + "\n"
        if not (self.args.quiet and (not isinstance(result, Unexplained | GivenUp) or not is_new)):
            print(("" if self.is_one else f"history {number}: ") + told, end="", flush=True)

    def found_turned(self, history: Sequence[Noted]) -> Answer:
        """Whether an order explains a history in which the ends of a pipe change places: that is a choice."""
        result = self.found(history)
        if not isinstance(result, Explained):
            return result
        lines = verified(self.program, history, result.steps, self.args.limits)
        return Chosen("\n".join([f"an order explains it {TURNED}", *map(moved_line, lines), ""]))

    def found(self, history: Sequence[Noted]) -> Answer:
        """Whether an order explains a history, and if not why. A call that a signal has ended is left out."""
        ended = [noted for noted in history if is_ended(noted)]
        if not ended:
            return self.found_of(history)
        first: Answer | None = None
        for left in without_ended(history):
            result = self.found_of(left)
            if not isinstance(result, Unexplained | GivenUp):
                return Chosen(self.told_without(left, result) + ended_told(ended))
            first = first or result
        assert isinstance(first, Unexplained | GivenUp)
        return self.with_reason(first, NOT_BY_SIGNAL)

    def told_without(self, history: Sequence[Noted], result: Answer) -> str:
        """What is told of a history without the calls that a signal has ended."""
        if not isinstance(result, Explained):
            return self.unordered(result)
        lines = verified(self.program, history, result.steps, self.args.limits)
        return "\n".join([WITHOUT_ENDED, *map(moved_line, lines), ""])

    def found_of(self, history: Sequence[Noted]) -> Answer:
        """Whether an order explains a history, with pipes as they are in fdref or with larger ones, with writes to them
        that go in at once or by parts, and if not why."""
        most = self.args.states, self.args.seconds
        result = explain(history, *most, shrink_seconds=0, limits=self.args.limits)
        if not isinstance(result, Unexplained):
            return result
        return self.by_choice(history) or self.for_both(history) or self.unexplained(history)

    def for_both(self, history: Sequence[Noted]) -> Result | Chosen | None:
        """What is told of a history in which a FIFO is opened for both, if there is one: that this is a choice, where
        an order explains it in which it is done; else why none does, whatever such a FIFO gives, which is left open."""
        opens = opens_of(history)
        if not opens:
            return None
        left = without_fifos(history)
        with opens_for_both():
            whole = self.besides(history)
            found = whole or (self.besides(left) if len(left) < len(history) else None)
            result = None if found else self.explained(left, self.args.limits)
        if result:
            return self.with_reason(result, NOT_FOR_BOTH)
        told, steps = found or ([], [])
        acts = [it.act for it in opens]
        first = next((at for at, step in enumerate(steps) if step.act in acts and step.outcome.isdigit()), None)
        if first is None:
            return None
        before = [Noted(at, at, *step) for at, step in enumerate(steps[: first + 1]) if step.act.word != "resume"]
        apart.confirm(self.program, before, self.args.limits)
        where = "" if apart.is_one_by_one(history) else IN_ORDER
        lines = [f"  {it.text()}\nfdref answers error EINVAL{where}" for it in opens]
        told += [] if whole else [f"{NOT_COMPARED}, {several(len(history) - len(left), 'call')}"]
        return Chosen("\n".join([NO_ORDER_BY_CHOICE, *lines[:1], BY_BOTH, *told, ""]))

    def besides(self, history: Sequence[Noted]) -> tuple[list[str], list[Step]] | None:
        """The steps of an order that explains a history by no choice, or by one about bytes in pipes, with what is told
        of that, or by others."""
        most = self.args.states, self.args.seconds
        result = explain(history, *most, shrink_seconds=0, limits=self.args.limits)
        if isinstance(result, Explained):
            return [], result.steps
        by = self.by_choice(history)
        if by:
            return [TOLD[type(by)][1]], by.steps
        placed, parted = apart.excused(history, self.args.limits, *most, *whys_of(history))
        if not parted or any(not it.reason or it.reason.who != OWN for it in parted):
            return None
        reasons = dict.fromkeys(told_reason(it.reason) + self.hint(it) for it in parted)
        return [*reasons], [Step(it.act, it.outcome) for it in placed]

    def by_choice(self, history: Sequence[Noted]) -> By | None:
        """An order of a history by a choice of fdref's own about bytes in pipes, if there is one."""
        most = self.args.states, self.args.seconds
        return by_choice(history, *most, self.args.limits, self.has_room, not apart.is_one_by_one(history))

    def unexplained(self, history: Sequence[Noted]) -> Result | Chosen:
        """Why no order explains a history."""
        ordered = apart.came_back(history)
        if not apart.is_one_by_one(history):
            return self.at_once(history, ordered)
        found = apart.furthest(apart.parted_with_room(ordered, self.args.limits, why) for why in whys_of(history))
        if not found:
            return self.explained(history, self.args.limits)
        for it in [*{it.reason: it for it in reversed(found)}.values(), found[-1]]:
            self.confirm(ordered, it)
        first = next((it for it in found if not it.reason or it.reason.who != OWN), None)
        return self.blamed(ordered, found, first) if first else self.chosen(found, ordered[found[-1].place + 1 :])

    def confirm(self, ordered: Sequence[Noted], last: apart.Apart) -> None:
        """Fails where the program does not answer the calls up to one as the model does, that one as it was asked, too,
        where others are given instead of it."""
        history = ordered[: last.place + 1]
        apart.confirm(self.program, history, last.limits, last.instead)
        if last.place in last.instead:
            before = {at: acts for at, acts in last.instead.items() if at != last.place}
            apart.confirm(self.program, history, last.limits, before)

    def at_once(self, history: Sequence[Noted], ordered: Sequence[Noted]) -> Result | Chosen:
        """Why no order explains calls that overlap: by choices, where one explains the others, or with larger pipes,
        where the others have too little room and that is not all."""
        limits, whys = self.args.limits, whys_of(history)
        placed, parted = apart.excused(history, limits, self.args.states, self.args.seconds, *whys)
        for it in {it.reason: it for it in reversed(parted)}.values():
            self.confirm(placed, it)
        departs = next((it for it in parted if it.reason and it.reason.who != OWN), None)
        if departs and departs.reason:
            return self.departed(self.explained(history, departs.limits), placed, departs)
        if parted:
            return self.chosen(parted, (), IN_ORDER)
        both = apart.beside_choice(history, limits, whys[0], self.by_choice)
        if both:
            return self.chosen_beside(*both)
        found = next(filter(None, (apart.possible(ordered, limits, why) for why in whys)), None)
        result = self.explained(history, limits)
        if not found and (apart.is_out_of_room(ordered, limits, whys[0]) or self.is_by_room(result)):
            other = self.explained(history, ROOMY)
            if isinstance(other, Unexplained):
                return other._replace(page=f"{other.page}, {WHERE_ROOMY}{'' if self.has_room else CAPACITY}")
        return self.departed_before(history, result, whys) or self.with_perhaps(ordered, result, found)

    def is_by_room(self, result: Result) -> bool:
        """Whether larger pipes explain a part of a history, so that the call that is to blame is another one."""
        is_open = apart.may_be_larger(self.args.limits) and isinstance(result, Unexplained)
        return is_open and by_room(result.shrunk, self.args.states, SHRINK_SECONDS) is not None

    def departed(self, result: Result, placed: Sequence[Noted], departs: apart.Apart) -> Result:
        """What is told of calls that overlap, where the system departs from the standard in a known way: the call that
        does so is to blame, not the one that shows it."""
        if not isinstance(result, Unexplained) or not departs.reason:
            return result
        why = told_reason(departs.reason)
        calls = [(noted.start, noted.act) for noted in result.shrunk]
        causes = apart.appended_by(placed, departs) if departs.reason is APPENDED else []
        place = next((calls.index((it.start, it.act)) for it in causes if (it.start, it.act) in calls), None)
        if place is None:
            return self.with_reason(result._replace(others=()), why)
        return result._replace(blamed=with_overlapping(result.shrunk, place), page=why, others=())

    def departed_before(self, history: Sequence[Noted], result: Result, whys: Sequence[apart.Why]) -> Result | None:
        """The same, where that is all up to the call that is to blame else, and something is wrong after it, too."""
        end = result.blamed[0].end if isinstance(result, Unexplained) else None
        begun = [noted for noted in history if end is not None and noted.start <= end]
        if not begun or len(begun) == len(history):
            return None
        most = self.args.states, self.args.seconds
        placed, parted = apart.excused(begun, self.args.limits, *most, *whys, by_search=False)
        departs = next((it for it in parted if it.reason and it.reason.who != OWN), None)
        if not departs:
            return None
        self.confirm(placed, departs)
        return self.departed(result, placed, departs)

    def with_perhaps(self, ordered: Sequence[Noted], result: Result, found: apart.Apart | None) -> Result:
        """What is told of calls that overlap, with a reason that may be the one."""
        if not found or not found.reason or not isinstance(result, Unexplained):
            return result
        self.confirm(ordered, found)
        return self.with_reason(result, told_reason(found.reason, "perhaps") + self.hint(found))

    def hint(self, it: apart.Apart) -> str:
        """What is told where the reason of a call is how many bytes a pipe holds, which may be said."""
        return CAPACITY if apart.is_of_room(it.reason) and not self.has_room else ""

    def with_reason(self, result: Result, why: str) -> Result:
        """What is told where no order explains a history, and then why that may be."""
        return result._replace(page=f"{result.page}\n{why}") if isinstance(result, Unexplained) else result

    def chosen(self, found: Sequence[apart.Apart], after: Sequence[Noted], where: str = "") -> Chosen:
        """What is told of calls that fdref answers otherwise by choices of its own: the first for each reason."""
        first = {it.reason: it for it in reversed(found)}
        told = [NO_ORDER_BY_CHOICE]
        for it in reversed(first.values()):
            told += [f"  {it.noted.text()}", self.answered(it) + where, told_reason(it.reason) + self.hint(it)]
        if after and not found[-1].is_settled:
            told.append(f"the rest is not compared, {several(len(after), 'call')}")
        return Chosen("\n".join([*told, ""]))

    def chosen_beside(self, by: By, placed: Sequence[Noted], found: Sequence[apart.Apart]) -> Chosen:
        """What is told of calls that fdref answers otherwise by choices of its own, where an order explains the others
        by one, too."""
        verified(self.program, by.history, by.steps, by.limits)
        for it in {it.reason: it for it in reversed(found)}.values():
            self.confirm(placed, it)
        return Chosen(f"{self.chosen(found, (), IN_ORDER).told}{TOLD[type(by)][1]}\n")

    def blamed(self, ordered: Sequence[Noted], found: Sequence[apart.Apart], first: apart.Apart) -> Result:
        """What is told of calls, one after another, of which this is the first that is no choice of fdref's own."""
        known = {it.place for it in found if it.place < first.place}
        before = apart.without_answers(ordered, known)[: first.place + 1]
        result = self.explained(apart.followed(before, first.instead), first.limits)
        if not isinstance(result, Unexplained):
            return self.explained(ordered, self.args.limits)
        why = told_reason(first.reason) if first.reason else result.page
        others = () if first.reason else result.others
        return result._replace(page=f"{self.answered(first)}\n{why}", others=others)

    def answered(self, it: apart.Apart) -> str:
        """What fdref answers to a call."""
        is_larger = it.limits.capacity != self.args.limits.capacity
        return f"fdref answers {it.fdref}" + (f", {WHERE_ROOMY}" if is_larger else "")

    def explained(self, history: Sequence[Noted], limits: Limits) -> Result:
        """Whether an order explains a history in a run of these limits, and a short part of it where none does."""
        return explain(history, self.args.states, self.args.seconds, limits=limits)

    def ordered(self, history: Sequence[Noted], result: Explained) -> str:
        """The order of a history, as the program printed it."""
        lines = verified(self.program, history, result.steps, self.args.limits)
        return "an order explains it\n" + "".join(f"{line.place} {line.act} = {line.outcome}\n" for line in lines)

    def unordered(self, result: Answer) -> str:
        """What is told of a history without an order, or of one that was given up."""
        if isinstance(result, Chosen):
            return result.told
        if isinstance(result, By):
            lines = verified(self.program, result.history, result.steps, result.limits)
            where, reason = TOLD[type(result)]
            return "\n".join([f"an order explains it {where}", *map(moved_line, lines), reason, ""])
        if not isinstance(result, Unexplained):
            return f"given up after {several(result.states, 'state')}\n" if isinstance(result, GivenUp) else ""
        parts = ["no order explains it, nor this part of it:", indented(result.shrunk)]
        parts += ["which this call makes impossible, with those that overlap it:", indented(result.blamed)]
        if result.others:
            parts += [OR_ONE if result.is_one else NOT_ONE, indented(result.others)]
        return "\n".join(parts) + f"\n{result.page}\n"

    def totals(self) -> str:
        """The last line."""
        explained, unexplained, given_up, *others = self.counts.values()
        text = f"histories {sum(self.counts.values())} explained {explained} unexplained {unexplained} "
        more = (f" {what} {count}" for what, count in zip(COUNTED, others, strict=True) if count)
        return f"{text}given up {given_up}{''.join(more)}"

    def status(self) -> int:
        """The exit status."""
        if self.counts[Unexplained]:
            return NOT_EXPLAINED
        return GIVEN_UP if self.counts[GivenUp] else EXPLAINED


def whys_of(history: Sequence[Noted]) -> list[apart.Why]:
    """How reasons are looked for: by each size that a page of a system may have, where more than the least of them may
    be in a pipe."""
    put = sum(len(noted.act.fields[1]) for noted in history if noted.act.word == "write")
    has_pipes = any(noted.act.word in ("pipe", "mkfifo") for noted in history)
    sizes = pages.SIZES if has_pipes and put > pages.SIZES[0] else pages.SIZES[:1]
    return [apart.of_page(size, reason_or_limit) for size in sizes]


def is_ended(noted: Noted) -> bool:
    """Whether a signal has ended a call, by its page: it has changed nothing then."""
    return noted.outcome == "error EINTR" and noted.act.word in MAY_BE_ENDED


def without_ended(history: Sequence[Noted]) -> Iterator[list[Noted]]:
    """A history without the calls that a signal has ended, and where that is a close also with it, as that is left
    open."""
    closes = [noted for noted in history if is_ended(noted) and noted.act.word == "close"]
    yield [noted for noted in history if not is_ended(noted)]
    if closes:
        told = (noted._replace(outcome=UNKNOWN) if noted in closes else noted for noted in history)
        yield [noted for noted in told if not is_ended(noted)]


def ended_told(ended: Sequence[Noted]) -> str:
    """What is told of the calls that a signal has ended: the first of them, with the reason, and how many there are."""
    return f"left out, {several(len(ended), 'call')}:\n  {ended[0].text()}\n{BY_SIGNAL}\n"


def lowest(history: Sequence[Noted]) -> int | None:
    """The lowest descriptor that a call of a history has given, or was made on without an error."""
    done = [it for it in history if it.end is not None and not it.outcome.startswith("error ")]
    given = (word for it in done if it.act.word in GIVE for word in it.outcome.split(" ") if word.isdigit())
    made_on = (it.act.fields[0] for it in done if plain_model.FIELDS.get(it.act.word, ())[:1] == (plain_model.read_fd,))
    return min([*map(int, given), *made_on], default=None)


def moved_line(line: Line) -> str:
    """A line of a run without its place, moved to the right."""
    return f"  {line.act} = {line.outcome}"


def indented(history: Sequence[Noted]) -> str:
    """The lines of a history, moved to the right."""
    return "\n".join(f"  {line}" for line in history_text(history).splitlines())


def parse(words: Sequence[str]) -> argparse.Namespace:
    """What the command line asks for."""
    parser = argparse.ArgumentParser(
        description=__doc__, formatter_class=argparse.RawDescriptionHelpFormatter, usage=argparse.SUPPRESS
    )
    parser.add_argument("history", metavar="HISTORY", help="a file with histories, or - for the standard input")
    add_program(parser)
    add_capacity(parser)
    parser.add_argument("--seconds", type=float, default=SECONDS, metavar="N", help=f"give a search up after so long ({SECONDS})")
    states = f"or after so many states ({STATES_MOST:,})"
    parser.add_argument("--states", type=int, default=STATES_MOST, metavar="N", help=states)
    parser.add_argument("--quiet", action="store_true", help="tell only of histories without order and reason")
    return parser.parse_args(words)


def text_of(path: str) -> str:
    """The text of a file, or that of the standard input."""
    what = "the standard input" if path == "-" else path
    with Long(waits_for(f"histories from {what}", 0), "order.py"):
        return sys.stdin.read() if path == "-" else Path(path).read_text(encoding="utf-8")


def main(words: Sequence[str]) -> int:
    """Answers for all histories: the exit status."""
    args = parse(words)
    try:
        text = text_of(args.history)
    except (OSError, UnicodeDecodeError) as fault:
        print(f"order.py: {fault}", file=sys.stderr)
        return WRONG_WORDS
    try:
        program = program_of(args.program)
        with Long(f"reads {len(text):,} bytes of histories", "order.py"):
            histories = read_histories(text)
        orders = Orders(program, args, len(histories) == 1)
        for number, history in enumerate(histories, 1):
            which = f"history {number} of {len(histories)}, {several(len(history), 'call')}"
            bound = f"each search ends after {args.seconds:g} seconds (--seconds) or {args.states:,} states (--states)"
            with Long(f"looks for an order of {which}, and has fdref run it; {bound}", "order.py"):
                orders.answer(number, history)
    except BadHistory as fault:
        print(f"order.py: {fault}", file=sys.stderr)
        return NO_CALL
    except Differs as fault:
        print(f"order.py: the program differs from the plain model: {fault}", file=sys.stderr)
        return CANNOT_RUN
    except CannotRun as fault:
        print(f"order.py: {fault}", file=sys.stderr)
        return CANNOT_RUN
    if not histories:
        print("order.py: nothing to explain", file=sys.stderr)
    if len(histories) != 1:
        print(orders.totals())
    return orders.status()


if __name__ == "__main__":
    sys.exit(main(sys.argv[1:]))
