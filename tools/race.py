#!/usr/bin/env python3
"""Races processes on the system at hand, and tells which answers no order of their calls explains.

usage: tools/race.py --seconds N [--kind WORD] [--seed WORD] [--processes N] [--pipe-capacity N] [--pin] [--dir DIR]
                     [--keep DIR] [--summary FILE]
       tools/race.py FILE [--seconds N] [--seed WORD] [--pipe-capacity N] [--states N] [--pin] [--dir DIR] [--keep DIR]

Random scripts of each kind (tools/race_kinds.py) are run by tools/race_kernel.c, many rounds of each: real processes
make their calls at once, at full speed. XSH 2.9.7 asks that calls on regular files are atomic to each other, so there
has to be an order of the calls of a round, which keeps each process's own order and that of time, in which the plain
model gives all answers that were seen. The order is searched for, and given to `fdref replay`, which has to print the
same answers. Histories of a script that have the same answers and the same calls before others are searched once. The
pipes of model and fdref hold 1,024 bytes, or as many as --pipe-capacity says. Where the writing end of a pipe has the
lower number the ends change places at once, also within a race, by dup2 and close; that is told.

A history that no order explains is told with its reason, if there is one: the page of the standard, and what is known
of the system. The last lines count histories by kind and by reason.

With a FILE, which is a race for `fdref outcomes`, the system runs that for N seconds (5), and a table is printed: what
was seen and is not allowed, with its reason, what is allowed, but not at the times at which the calls were made, then
what is allowed and was not seen, and then the rest. Each line has how often an outcome was seen, its number in `fdref
outcomes`, and the answers; the last one counts them. Times are judged for as long as they were raced: in how many
rounds they were not is told before the last line. Of rounds in which the same calls come before others one is judged.

The reason may be one of tools/compare.py, where an order explains all but what has such reasons; `perhaps` is told of
one where none is found, and that is no reason yet. What FILE asks for is left out. Where `fdref outcomes` tells that
there are too many states, --states N lets it go on to N.

Exit status: 0 where all that no order explains has a reason, 1 where something has none, 2 for wrong words, 3 where a
script could not be run. docs/KERNELS.md has more.
"""

import argparse
import collections
import itertools
import os
import random
import re
import signal
import sys
import tempfile
import time
from collections.abc import Callable, Iterator, Mapping, Sequence
from functools import partial
from pathlib import Path
from typing import NamedTuple, Self

from support import histories, ordering, outcomes, pages, plain_model, replaying, summaries
from support.both_ways import by_both_ways
from support.commands import ChosenLimits, add_capacity, add_program, capacity_words, program_of
from support.counting import Failure
from support.drivers import compiled
from support.histories import History, Noted
from support.pipe_ends import is_turned
from support.plain_model import DEFAULTS, Limits
from support.running import CannotRun, Ran, run
from support.runs import Line
from support.summaries import Counts, add_summary
from support.texts import several

import apart
import race_kinds
import race_table
from compare_limits import reason_or_limit

# A script takes a share of the time; it has so many rounds, at least and at most, and a first guess of their speed.
ROUNDS_LEAST = 10
ROUNDS_MOST = 300
ROUNDS_IN_A_SECOND = 20.0
SHARE_MOST = 1.5
# How long the race of a file is run where no time is told.
FILE_SECONDS = 5.0
# How long one script may take to run, one history to be searched, and through how many states.
RUN_SECONDS = 120
SEARCH_SECONDS = 20
STATES_MOST = 200_000
# Histories without a reason that are told, the others being counted, and how long each of them is made shorter.
TOLD_MOST = 5
SHRINK_SECONDS = 5
# How many characters are told of what a driver says in the end.
SAID_MOST = 400


# ---- reasons


class Race:
    """A history of a script, the limits by which it is judged, how many bytes a page has, and what is known of it where
    no order explains it."""

    def __init__(
        self, script: str, history: History, limits: Limits = DEFAULTS, page: int = pages.OF_SYSTEM
    ) -> None:
        self.script = script
        self.history = history
        self.limits = limits
        self.page = page
        setup, _, parts = script.partition("race\n")
        self.calls = history[setup.count("\n") :]
        self.words = {line.split(" ")[1] for line in parts.splitlines()}
        self.has_own_files = not re.search(r"\b(fork|dup2?|pipe|mkfifo)\b", script)
        self.world = world_after(history[: setup.count("\n")], limits)

    def description(self, noted: Noted) -> plain_model.Description | None:
        """The description that a call was made on, where no call of the race changes descriptors."""
        has_fd = plain_model.FIELDS[noted.act.word][:1] == (plain_model.read_fd,)
        if not has_fd or self.words & {"open", "dup", "dup2", "close"}:
            return None
        return self.world.processes[noted.process].table.get(noted.act.fields[0])

    def are_apart(self, one: Noted, other: Noted) -> bool:
        """Whether two calls are on one regular file, by descriptions of their own: known ones, or those of processes
        that have nothing but what they opened."""
        at, by = self.description(one), self.description(other)
        if at is None or by is None:
            return self.has_own_files and one.process != other.process
        return at.file is by.file and not at.pipe and at is not by

    def written(self) -> set[int]:
        """The bytes of all writes, and 0."""
        return {0}.union(*(noted.act.fields[-1] for noted in self.writes()))

    def writes(self) -> list[Noted]:
        """All writes."""
        return [noted for noted in self.history if noted.act.word in ("write", "pwrite")]

    def longest(self) -> int:
        """How many bytes a file may have at the most by these writes, of which some may append."""
        ends = [noted.act.fields[1] + len(noted.act.fields[2]) for noted in self.writes() if noted.act.word == "pwrite"]
        appended = [noted for noted in self.writes() if noted.act.word == "write" or "append" in self.script]
        return max(ends, default=0) + sum(len(noted.act.fields[-1]) for noted in appended)


def world_after(history: History, limits: Limits) -> plain_model.World:
    """The world after calls that come one after another."""
    beside = plain_model.Run(len(history) + plain_model.RECORDS_DEFAULT, limits)
    for noted in history:
        beside.take(noted.act)
    return beside.world


class Reason(NamedTuple):
    """Why a system may give answers that no order explains: the page of the standard, and what is left of the answer of
    a call that is doubted because of another one that overlaps it. It fits where an order explains all but what is
    doubted."""

    name: str
    page: str
    doubts: Callable[[Race, Noted, Noted], str | None]

    def doubted(self, race: Race) -> dict[int, str]:
        """What is left of the answers that it doubts, for the `id` of each call."""
        pairs = itertools.permutations(race.calls, 2)
        found = ((id(one), self.doubts(race, one, other)) for one, other in pairs if overlap(one, other))
        return {call: left for call, left in found if left is not None}

    def fits(self, race: Race) -> bool:
        """Whether an order explains a history without what is doubted."""
        doubted = self.doubted(race)
        left = without(race.history, doubted)
        return bool(doubted) and isinstance(explained(left, race.limits), ordering.Explained)


class RoomReason(Reason):
    """The reason that a pipe of the system has more room than one of the profile: an order explains all with that. It
    is none where it was said how much room there is."""

    def fits(self, race: Race) -> bool:
        """Whether an order explains a history where pipes are larger."""
        is_known = isinstance(race.limits, ChosenLimits)
        return not is_known and ordering.by_room(race.history, STATES_MOST, SEARCH_SECONDS) is not None


def rooms_of(race: Race) -> list[Limits]:
    """The limits of the runs in which an order of a history may be: of pipes as they are, and of larger ones."""
    return [race.limits] if isinstance(race.limits, ChosenLimits) else [race.limits, ordering.ROOMY]


class WayReason(NamedTuple):
    """Why calls on pipes may have answers that no order explains: the page of the standard, and the search for an order
    where these calls go another way, which gives None where there is none. It fits where there is one."""

    name: str
    page: str
    way: Callable[..., object | None]

    def fits(self, race: Race) -> bool:
        """Whether an order explains a history that way, also where pipes are larger, if that may be."""
        return self.way(race.history, STATES_MOST, SEARCH_SECONDS, *rooms_of(race)) is not None


class LinkReason(Reason):
    """The reason that a link is made in two halves: an order explains all where another call may come between."""

    def fits(self, race: Race) -> bool:
        """Whether an order explains a history with such links, and without what is doubted."""
        return ordering.by_late_links(without(race.history, self.doubted(race)), STATES_MOST, SEARCH_SECONDS)


def overlap(one: Noted, other: Noted) -> bool:
    """Whether two calls overlap in time."""
    return not one.precedes(other) and not other.precedes(one)


def is_torn(race: Race, one: Noted, other: Noted) -> str | None:
    """A read of a regular file while it is written to or its length is set, not under the lock of one offset: it may
    give any of the bytes that are written."""
    data = plain_model.read_data(one.outcome.encode())
    if one.act.word not in ("read", "pread") or other.act.word not in ("write", "pwrite", "ftruncate") or data is None:
        return None
    at = race.description(one)
    has_no_lock = at is not None and not at.pipe and at is race.description(other)
    has_no_lock = has_no_lock and (one.act.word, other.act.word) != ("read", "write")
    is_given = len(data) <= one.act.fields[-1] and set(data) <= race.written()
    return histories.UNKNOWN if is_given and (has_no_lock or race.are_apart(one, other)) else None


def is_growing(race: Race, one: Noted, other: Noted) -> str | None:
    """A length that is told in whole pages while a write of several pages goes on: of an fstat the links are left."""
    if other.act.word not in ("write", "pwrite") or len(other.act.fields[-1]) < race.page:
        return None
    is_told = one.act.word == "fstat" or (one.act.word, one.act.fields[2:]) == ("lseek", ("end",))
    kind, length, *links = one.outcome.split(" ") if one.act.word == "fstat" else ("", one.outcome if is_told else "-")
    is_of_pages = length.isdigit() and int(length) % race.page == 0 and int(length) <= race.longest()
    if not is_of_pages or not race.are_apart(one, other):
        return None
    return " ".join([kind, histories.UNKNOWN, *links]) if kind else histories.UNKNOWN


def is_early(_: Race, one: Noted, other: Noted) -> str | None:
    """The links of a file that are told while a rename goes on, which may take one away: kind and size are left."""
    is_told = one.act.word == "fstat" and one.outcome.startswith("regular ") and other.act.word == "rename"
    return " ".join([*one.outcome.split(" ")[:2], histories.UNKNOWN]) if is_told else None


def is_never(*_: object) -> None:
    """Nothing is doubted."""


def is_either(race: Race, one: Noted, other: Noted) -> str | None:
    """Either of both."""
    return is_torn(race, one, other) or is_growing(race, one, other)


# What is told where the reason is how many bytes a pipe holds, which may be said, and where something else was said.
CAPACITY = "; --pipe-capacity tells how many bytes a pipe of the system holds"
OTHER_CAPACITY = "a pipe of the system may hold more or fewer bytes than --pipe-capacity says"
# Each reason, the narrow ones first: only what was seen on a system.
REASONS: list[Reason | WayReason] = [
    LinkReason("a link finds its file before it makes the name", "XSH 2.9.7; pages of link and rename", is_never),
    Reason("links are told before a name is replaced", "XSH 2.9.7; pages of fstat and rename", is_early),
    LinkReason("late links, and links told early", "XSH 2.9.7", is_early),
    Reason("a length grows by pages while a write goes on", "XSH 2.9.7; pages of fstat, lseek and write", is_growing),
    Reason("a read gives a part of what is written meanwhile", "XSH 2.9.7; pages of read and write", is_torn),
    Reason("both at once", "XSH 2.9.7", is_either),
    RoomReason("room of a pipe (own)", f"page of write{CAPACITY}", is_never),
    WayReason("a write of more than 512 bytes in parts (own)", "page of write", ordering.by_parts),
    WayReason("EPIPE of a write that has moved a part (own)", "page of write", ordering.by_epipe),
    WayReason("how much a write has moved that ends early (own)", "page of write", ordering.by_early_end),
    WayReason("nonblock set while a write waits (own)", "pages of fcntl and write", ordering.by_unblocked),
    WayReason("more than 65,536 bytes in a call (own)", "pages of read and write", ordering.by_transfer),
    WayReason("how reads of a pipe at once share its bytes (own)", "page of read", ordering.by_shares),
    WayReason("an exit closes its descriptors one by one (own)", "page of _exit", ordering.by_exits),
    WayReason("a small write goes in by parts (own)", "page of write", ordering.by_small_parts),
    WayReason("a FIFO opened for both (own)", "page of open", by_both_ways),
]


def without(history: History, doubted: Mapping[int, str]) -> list[Noted]:
    """A history in which so much is known of the answers of some calls."""
    return [noted._replace(outcome=doubted.get(id(noted), noted.outcome)) for noted in history]


def explained(history: History, limits: Limits = DEFAULTS, shrink_seconds: float = 0) -> ordering.Result:
    """Whether an order explains a history in a run of these limits; where none does, a part of it may be made short for
    so long."""
    return ordering.explain(history, STATES_MOST, SEARCH_SECONDS, shrink_seconds, limits)


def reason_of(race: Race) -> Reason | WayReason | None:
    """The first reason that fits a history that no order explains."""
    return next((reason for reason in REASONS if reason.fits(race)), None)


# ---- the two that are asked


class Asked:
    """The driver and fdref, as they are called."""

    def __init__(self, program: str | list[str], driver: list[str], limits: Limits = DEFAULTS) -> None:
        self.program = program
        self.driver = driver
        self.limits = limits
        self.verified: set[str] = set()
        # whether the system gives the writing end of a pipe the lower number
        self.turns_pipes = False

    def histories(self, script: str, rounds: int, seed: int) -> list[list[Noted]]:
        """The histories of so many rounds of a script, in which the ends of each pipe change places where the writing
        end has the lower number."""
        found = [] if self.turns_pipes else self.asked(script, rounds, seed)
        self.turns_pipes |= has_turned(found)
        if self.turns_pipes:
            found = self.asked(script, rounds, seed, "--exchange")
            if has_turned(found):
                raise CannotRun(f"not compared: race_kernel has no descriptor for {EXCHANGE}")
        return found

    def asked(self, script: str, rounds: int, seed: int, *more: str) -> list[list[Noted]]:
        """The histories of a script by the driver, which is given more words."""
        words = [*self.driver, "--rounds", str(rounds), "--seed", str(seed), *more]
        try:
            done = run(words, script.encode(), seconds=RUN_SECONDS)
        except (Failure, OSError) as fault:
            raise CannotRun(f"race_kernel: {fault}") from None
        if done.status != 0:
            raise CannotRun(f"race_kernel ends with {last_said(done)}")
        return histories.read_histories(done.stdout.decode("ascii"))

    def verify(self, history: History, explanation: ordering.Explained) -> None:
        """Has fdref give the answers of a history in the order that was found, unless it gave them in it before."""
        key = "\n".join(f"{plain_model.act_text(step.act)} = {step.outcome}" for step in explanation.steps)
        if key not in self.verified:
            replaying.verified(self.program, history, explanation.steps, self.limits)
            self.verified.add(key)


def has_turned(found: Sequence[History]) -> bool:
    """Whether a pipe of some histories has its writing end at the lower number."""
    return any(is_turned(noted) for history in found for noted in history)


def last_said(done: Ran) -> str:
    """How a driver ended, and the end of what it said of that."""
    lines = [line.strip() for line in done.stderr.decode("utf-8", "replace").splitlines() if line.strip()]
    text = "; ".join(lines)
    return done.how() + (f": {text if len(text) <= SAID_MOST else '..' + text[-SAID_MOST:]}" if text else "")


# What is told where the ends of the pipes of a system have changed places, and what that is.
TURNED = "which end of a pipe has the lower number (own; page of pipe): the ends have changed places at once"
EXCHANGE = "the ends of a pipe, of which the writing one has the lower number, to change places"


# ---- one script


class Unexplained(NamedTuple):
    """A history that no order explains: the script that it is of, the history, and the reason, if there is one."""

    script: str
    history: History
    reason: Reason | WayReason | None


class Counted:
    """What is counted of the races of a kind."""

    def __init__(self) -> None:
        self.scripts = self.histories = self.distinct = self.calls = self.given_up = 0
        # those that no order explains: by their reasons, and those without one
        self.by_reason: collections.Counter[str] = collections.Counter()
        self.bare = 0

    @classmethod
    def of(cls, counts: Counts) -> Self:
        """What other runs have counted."""
        counted = cls()
        named = {name: counts[name] for name in vars(counted)}
        vars(counted).update(named, by_reason=collections.Counter(counts["by_reason"]))
        return counted

    def add(self, script: str, found: Sequence[History], distinct: int) -> None:
        """Counts the histories of a script, without the calls before each race."""
        self.scripts += 1
        self.histories += len(found)
        self.distinct += distinct
        self.calls += sum(map(len, found)) - len(found) * script.partition("race\n")[0].count("\n")

    def lines(self, kind: str) -> list[str]:
        """The counts, and those of each reason."""
        without = self.by_reason.total() + self.bare
        ends = [f"{self.histories - without - self.given_up} with an order", f"{without} without"]
        ends += [f"{self.given_up} given up"] if self.given_up else []
        text = f"{kind}: {several(self.scripts, 'script')}, {several(self.histories, 'history', 'histories')}, "
        text += f"{self.distinct} distinct, {several(self.calls, 'call')}, "
        met = [reason for reason in REASONS if self.by_reason[reason.name]]
        return [text + ", ".join(ends), *(f"{self.by_reason[it.name]:8} {it.name} ({it.page})" for it in met)]


class Tally:
    """What is counted of the races of all kinds, and how it is told at the end."""

    def __init__(self) -> None:
        self.counted: dict[str, Counted] = {}

    @classmethod
    def of(cls, counts: Counts) -> Self:
        """What other runs have counted. Kinds come in the order in which they are raced."""
        tally = cls()
        tally.counted = {kind: Counted.of(counts[kind]) for kind in race_kinds.KINDS if kind in counts}
        return tally

    def counts(self) -> Counts:
        """What is counted, for a summary."""
        return {kind: {**vars(it), "by_reason": dict(it.by_reason)} for kind, it in self.counted.items()}

    def of_kind(self, kind: str) -> Counted:
        """What is counted of a kind."""
        return self.counted.setdefault(kind, Counted())

    def bare(self) -> int:
        """How many histories have neither an order nor a reason."""
        return sum(counted.bare for counted in self.counted.values())

    def text(self) -> str:
        """The last lines: the counts of each kind, with its reasons."""
        lines = [line for kind, counted in self.counted.items() for line in counted.lines(kind)]
        return "\n".join([*lines, f"{self.bare():8} without an order and without a reason"])

    def status(self) -> int:
        """The exit status."""
        return 1 if self.bare() else 0


class Races:
    """The races on a system, and what is counted of them by kind."""

    def __init__(self, asked: Asked, seed: str, processes: int | None) -> None:
        self.asked = asked
        self.seed = seed
        self.processes = processes
        self.tally = Tally()
        self.speeds: dict[str, float] = {}
        # how many histories without a reason were given
        self.told = 0

    def race(self, kind: str, number: int, seconds: float) -> Iterator[Unexplained]:
        """Races a script for about so long, and gives each history without an order, those with equal forms once."""
        script = race_kinds.script_of(kind, self.seed, number, self.processes)
        rounds = int(self.speeds.get(kind, ROUNDS_IN_A_SECOND) * seconds)
        start = time.monotonic()
        found = self.asked.histories(script, max(ROUNDS_LEAST, min(ROUNDS_MOST, rounds)), number + 1)
        counted = self.tally.of_kind(kind)
        forms: dict[object, list[History]] = {}
        for history in found:
            forms.setdefault(histories.form(history), []).append(history)
        counted.add(script, found, len(forms))
        for alike in forms.values():
            yield from self.judged(counted, script, alike[0], len(alike))
        self.speeds[kind] = len(found) / (time.monotonic() - start)

    def judged(self, counted: Counted, script: str, history: History, times: int) -> Iterator[Unexplained]:
        """Gives a history that no order explains, which came so many times."""
        limits = self.asked.limits
        explanation = explained(history, limits)
        if isinstance(explanation, ordering.Explained):
            self.asked.verify(history, explanation)
        elif isinstance(explanation, ordering.GivenUp):
            counted.given_up += times
        else:
            found = Unexplained(script, history, reason_of(Race(script, history, limits)))
            if found.reason:
                counted.by_reason[found.reason.name] += times
            else:
                counted.bare += times
            yield found


# ---- telling


def clipped(text: str) -> str:
    """A line for a reader: a long one is cut in the middle."""
    return text if len(text) <= 160 else text[:100] + "..." + text[-40:]


def told(history: History) -> str:
    """The calls of a history, a line each."""
    return "\n".join(clipped(f"  {noted.text()}") for noted in history)


def is_by_other_room(history: History, limits: Limits) -> bool:
    """Whether a history that no order explains has a reason where a pipe does not hold as many bytes as was said."""
    if not isinstance(limits, ChosenLimits):
        return False
    most = STATES_MOST, SEARCH_SECONDS
    _, found = apart.excused(history, Limits(capacity=limits.capacity), *most, reason_or_limit)
    return any(apart.is_of_room(it.reason) for it in found) or ordering.by_room(history, *most) is not None


def tell(found: Unexplained, name: str, limits: Limits) -> None:
    """Tells of a history without an order and without a reason: a short part of it, and the calls to look at."""
    result = explained(found.history, limits, SHRINK_SECONDS)
    if isinstance(result, ordering.Unexplained):
        print(f"{name}: no order explains\n{told(result.shrunk)}\nwhich this call makes impossible", flush=True)
        print(f"{told(result.blamed)}\n{result.page}", flush=True)
        if is_by_other_room(found.history, limits):
            print(OTHER_CAPACITY, flush=True)


def keep_files(found: Unexplained, name: str, folder: str) -> None:
    """Keeps a history, after those of its script, and the script."""
    base = os.path.join(folder, name.replace(" ", "-"))
    Path(f"{base}.script").write_text(found.script, encoding="ascii")
    with open(f"{base}.histories", "a", encoding="ascii") as file:
        file.write(histories.history_text(found.history) + "\n")


# ---- the whole


def parse(words: Sequence[str]) -> argparse.Namespace:
    """What the command line asks for."""
    parser = argparse.ArgumentParser(
        description=__doc__, formatter_class=argparse.RawDescriptionHelpFormatter, usage=argparse.SUPPRESS
    )
    parser.add_argument("file", nargs="?", metavar="FILE", help="a race for `fdref outcomes`, whose outcomes are told")
    parser.add_argument("--seconds", type=float, metavar="N", help="how long it races")
    parser.add_argument("--seed", default="1", metavar="WORD", help="any word (1): script K of one is always the same")
    parser.add_argument("--kind", default="", metavar="WORD", help="only the kinds that have this word in their name")
    parser.add_argument("--processes", type=int, metavar="N", help="of each script; 3 to 5 where none is given")
    parser.add_argument("--dir", metavar="DIR", help="where the files are made; else in $TMPDIR or /tmp")
    add_program(parser)
    add_capacity(parser)
    states = "of a FILE: how many states `fdref outcomes` may meet, as many as that says where no number is given"
    parser.add_argument("--states", type=int, metavar="N", help=states)
    driver = "tools/race_kernel.c, as it was compiled; compiled for this run where it is not given"
    parser.add_argument("--driver", metavar="PATH", help=driver)
    parser.add_argument("--pin", action="store_true", help="each process has a processor of its own")
    parser.add_argument("--keep", metavar="DIR", help="a folder for histories without an order and without a reason")
    add_summary(parser)
    args = parser.parse_args(words)
    if args.file is not None and (args.kind or args.processes is not None):
        parser.error("a FILE has its own calls and processes")
    if args.file is not None and args.summary:
        parser.error("what is counted of a FILE is not added up")
    if args.file is None and args.seconds is None:
        parser.error("without a FILE --seconds N is needed")
    if args.file is None and args.states is not None:
        parser.error("--states N is for a FILE")
    args.kinds = [kind for kind in race_kinds.KINDS if args.kind in kind]
    if not args.kinds:
        parser.error(f"no kind has {args.kind} in its name: there are {', '.join(race_kinds.KINDS)}")
    if args.processes is not None and not 2 <= args.processes <= 12:
        parser.error("2 to 12 processes can be raced")
    for path in [it for it in (args.dir, args.keep) if it is not None]:
        if not os.path.isdir(path):
            parser.error(f"there is no folder {path}")
    return args


def race_all(args: argparse.Namespace, races: Races) -> None:
    """Races scripts of all kinds that are asked for, by turns, until the time is over."""
    until = time.monotonic() + args.seconds
    share = min(SHARE_MOST, args.seconds / (2 * len(args.kinds)))
    for number in itertools.count():
        for kind in args.kinds:
            if time.monotonic() > until and (number or kind in races.tally.counted):
                return
            for found in races.race(kind, number, min(share, max(until - time.monotonic(), 0))):
                if not found.reason:
                    tell_and_keep(races, found, f"{kind} {number} of seed {args.seed}", args.keep)


def tell_and_keep(races: Races, found: Unexplained, name: str, folder: str | None) -> None:
    """Tells of a history without a reason, where not too many were told of, and keeps it where that is wanted."""
    races.told += 1
    if races.told <= TOLD_MOST:
        tell(found, name, races.asked.limits)
    if folder:
        keep_files(found, name, folder)


# ---- a file


def race_in(file: str) -> outcomes.Race:
    """The race that a file has, and nothing that it asks for."""
    try:
        return outcomes.read_race(Path(file).read_bytes())
    except (OSError, outcomes.BadRace) as fault:
        raise CannotRun(f"{file}: {fault}") from None


def raced(asked: Asked, script: str, seed: str, seconds: float) -> Iterator[list[list[Noted]]]:
    """The histories of a script for so long, in several runs with delays of their own, one at least."""
    start = time.monotonic()
    rounds = ROUNDS_LEAST
    for number in itertools.count():
        if number and time.monotonic() - start >= seconds:
            return
        begun = time.monotonic()
        found = asked.histories(script, rounds, random.Random(f"{seed} {number}").randrange(1, 2**32))
        yield found
        speed = len(found) / (time.monotonic() - begun)
        left = min(SHARE_MOST, start + seconds - time.monotonic())
        rounds = max(ROUNDS_LEAST, min(ROUNDS_MOST, int(speed * left)))


def race_file(args: argparse.Namespace, asked: Asked) -> int:
    """Races what a file has, and prints the table: the exit status."""
    race = race_in(args.file)
    script = race.text()
    program = [asked.program] if isinstance(asked.program, str) else asked.program
    states = [] if args.states is None else ["--states", str(args.states)]
    table = race_table.Table(race, race_table.allowed_by(program, race, [*capacity_words(asked.limits), *states]))
    for found in raced(asked, script, args.seed, FILE_SECONDS if args.seconds is None else args.seconds):
        table.add(found)
    is_setup_bare = any([tell_setup(asked, race, history) for history in table.setups.values()])
    seconds = max(FILE_SECONDS, args.seconds or 0)
    odd = table.odd(lambda history: reason_without_order(asked, script, history), time.monotonic() + seconds)
    setup = replaying.replayed(program, [act for _, act in race.setup], asked.limits)
    until = time.monotonic() + seconds
    untimely = table.untimely(lambda history: judged_by_times(asked, script, with_setup(history, setup)), until)
    print("\n".join(table.lines(odd, lambda history: perhaps(asked, history), untimely.odd)), flush=True)
    bare = [it for it in [*odd, *untimely.odd] if it.reason is None]
    for it in bare[:TOLD_MOST]:
        tell(Unexplained(script, it.history, None), args.file, asked.limits)
    for it in bare if args.keep else []:
        keep_files(Unexplained(script, it.history, None), Path(args.file).stem, args.keep)
    print("\n".join([*([TURNED] if asked.turns_pipes else []), *table.last_lines(odd, untimely)]))
    return 1 if bare or is_setup_bare else 0


def tell_setup(asked: Asked, race: outcomes.Race, history: History) -> bool:
    """Tells what the system has answered otherwise than fdref before a race, and the reason: whether there is none."""
    program = [asked.program] if isinstance(asked.program, str) else asked.program
    lines = race_table.setup_differs(program, race, history, asked.limits)
    found = apart.parted_with_room(history[: len(race.setup)], asked.limits, reason_or_limit) if lines else []
    print("".join(f"{line}\n" for line in [*lines, *(race_table.why(choice_of(it)) for it in found)]), end="")
    return any(it.reason is None for it in found)


def with_setup(history: History, setup: Sequence[Line]) -> list[Noted]:
    """A history with what fdref answers to the acts before the race: what the system does is told of these already."""
    before = [noted._replace(outcome=line.outcome) for noted, line in zip(history, setup, strict=False)]
    return [*before, *history[len(setup) :]]


class Choice(NamedTuple):
    """A reason of tools/compare.py, as the table tells it."""

    name: str
    page: str


def choice(asked: Asked, found: apart.Apart, ordered: Sequence[Noted]) -> Choice | None:
    """The reason why fdref answers a call otherwise, which it has to answer as the model does."""
    apart.confirm(asked.program, ordered[: found.place + 1], found.limits)
    return choice_of(found)


def choice_of(found: apart.Apart) -> Choice | None:
    """The reason of a call that fdref answers otherwise, if it has one."""
    hint = CAPACITY if apart.is_of_room(found.reason) and not isinstance(found.limits, ChosenLimits) else ""
    return Choice(f"{found.reason.name} ({found.reason.who})", f"{found.reason.page}{hint}") if found.reason else None


def reason_without_order(asked: Asked, script: str, history: History) -> race_table.Reasoned | None:
    """The reason of a history whose answers fdref does not allow, so that no order may explain it."""
    if isinstance(explained(history, asked.limits), ordering.Explained):
        raise replaying.Differs(f"fdref outcomes does not tell what an order explains:\n{told(history)}")
    return reason_in_race(asked, script, history)


def judged_by_times(asked: Asked, script: str, history: History) -> race_table.Judged:
    """Whether an order explains a history whose answers fdref allows, if only at other times."""
    explanation = explained(history, asked.limits)
    if isinstance(explanation, ordering.Explained):
        asked.verify(history, explanation)
        return race_table.Judged(True)
    if isinstance(explanation, ordering.GivenUp):
        return race_table.Judged(None)
    return race_table.Judged(False, reason_in_race(asked, script, history))


def reason_in_race(asked: Asked, script: str, history: History) -> race_table.Reasoned | None:
    """The reason of a history that no order explains, if there is one."""
    limits = asked.limits
    reason = reason_of(Race(script, history, limits))
    if reason:
        return reason
    ordered, found = apart.excused(history, limits, STATES_MOST, SEARCH_SECONDS, reason_or_limit)
    if found:
        return choice(asked, found[0], ordered)
    both = apart.beside_choice(history, limits, reason_or_limit, partial(by_choice, limits))
    return choice(asked, both[2][0], both[1]) if both else None


def by_choice(limits: Limits, history: History) -> ordering.By | None:
    """An order of a history by a choice of fdref's own about bytes in pipes, if there is one."""
    are_at_once = not apart.is_one_by_one(history)
    has_room = isinstance(limits, ChosenLimits)
    return ordering.by_choice(history, STATES_MOST, SEARCH_SECONDS, limits, has_room, are_at_once)


def perhaps(asked: Asked, history: History) -> race_table.Reasoned | None:
    """What may be the reason of a history: that of a call that fdref answers otherwise, in the order in which the calls
    came back."""
    ordered = apart.came_back(history)
    found = apart.possible(ordered, asked.limits, reason_or_limit)
    return choice(asked, found, ordered) if found else None


# ---- how it is run


def asked_for(args: argparse.Namespace, folder: str) -> Asked:
    """The driver and fdref, as the command line has them."""
    program = program_of(args.program)
    driver = [os.path.abspath(args.driver) if args.driver else compiled("race_kernel", "c11", folder)]
    driver += ["--dir", args.dir] if args.dir else []
    return Asked(program, [*driver, "--pin"] if args.pin else driver, args.limits)


def write_summary(args: argparse.Namespace, races: Races) -> None:
    """Writes what was counted, where that is wanted."""
    if args.summary:
        of = [*args.kinds, *([f"{args.processes} processes"] if args.processes else []), *capacity_words(args.limits)]
        share = summaries.Share(args.seed, 0, 0, " ".join(of))
        versions = summaries.versions(races.asked.program)
        summaries.write(args.summary, summaries.Summary("race.py", [share], versions, races.tally.counts()))


def end_quietly(number: int, _: object) -> None:
    """Ends this script as an exit does, so that nothing is left behind."""
    sys.exit(128 + number)


def main(words: Sequence[str]) -> int:
    """Races what is asked for: the exit status."""
    args = parse(words)
    for number in (signal.SIGINT, signal.SIGTERM):
        signal.signal(number, end_quietly)
    with tempfile.TemporaryDirectory(prefix="race-") as folder:
        try:
            if args.file is not None:
                return race_file(args, asked_for(args, folder))
            races = Races(asked_for(args, folder), args.seed, args.processes)
            race_all(args, races)
        except (CannotRun, replaying.Differs, histories.BadHistory) as fault:
            print(f"race.py: {fault}", file=sys.stderr)
            return 3
    print("\n".join([*([TURNED] if races.asked.turns_pipes else []), races.tally.text()]))
    write_summary(args, races)
    return races.tally.status()


if __name__ == "__main__":
    sys.exit(main(sys.argv[1:]))
