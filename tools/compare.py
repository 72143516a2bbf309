#!/usr/bin/env python3
"""Runs scripts on the system at hand and on fdref, and tells where they differ.

usage: tools/compare.py [--text] SCRIPT-OR-FOLDER...
       tools/compare.py --random N --seed S [--first K] [--acts A] [--class small|full-pipes|all] [--summary FILE]

Both take --pipe-capacity N: with as many bytes as a pipe of the system holds (65,536 on Linux) also writes that fill
pipes are compared. Without N that is done as soon as they differ, up to 65,536 bytes. --ask COMMAND asks another
driver, and --seconds N ends it where it does not answer.

Each script is run by tools/ask_kernel.c, with a real process for each of its processes. The acts of
the run that happened are then given to `fdref replay`, and the two are compared line by line; a `?`
fits any number. Where a call that waits can go on an act is added that looks whether it did. At the end
of each script acts are added that look at all that can be reached: flags, size and links, offset and
contents of each descriptor and of each name. With --text scripts may have the comments and strings that
`fdref replay --text` reads.

A difference is told with the lines before it and with its reason, if there is one: the page of the
standard, and whether the system departs from it or the profile chose (own). Where the reason says what
the act has to have done, fdref is given that instead, as a pwrite at the end of the file where a system
appends: what the act left is compared. Where system and fdref are apart after another one, its act is
struck from the script and the script is run again, so that one difference is not a hundred. A random
script with a difference without a reason is shrunk.

The last lines count the differences by reason, and tell which acts were struck: they were not compared further. Exit
status: 0 where each difference had a reason, 1 where one had none, 2 for wrong words and where no script is found, 3
where a script could not be run, or what is printed for it is not its run. docs/KERNELS.md has more.
"""

import argparse
import bisect
import collections
import os
import shlex
import signal
import sys
import tempfile
from collections.abc import Iterable, Iterator, Sequence
from pathlib import Path
from typing import Self

from support import plain_model, summaries
from support.commands import add_capacity, add_program, capacity_words, program_of
from support.drivers import compiled
from support.ordering import ENDS_OF_WAITING
from support.plain_scripts import plain_line
from support.plain_model import LINK_MAX, Limits
from support.running import CannotRun
from support.runs import ALL_RECORDS, Line
from support.shrinking import shrunk
from support.summaries import Counts, add_summary
from support.texts import several

from compare_instead import ways
from compare_limits import FEWER
from compare_lines import SECONDS, Asked, first_unfit, in_other_order, is_at_once, moved
from compare_reasons import OWN, REASONS, TOO_MANY_LINKS, Difference, Fillings, Reason, appended_to
from compare_reasons import follows_append, is_more_links, is_room, process_of, reason_of, room_left, told_reason
from compare_runs import Known, act_of, ends_of_closing, is_told_back, places_of_script, together
from compare_walks import CLASSES, MANY_LINKS, class_of, random_lines, with_marks
from waits import Long

LINES_BEFORE = 12
# How many characters of the command of a driver are told.
NAME_MOST = 120
ACTS_TOLD = 8
STRIKES_MOST = 8
SHRINK_SECONDS = 120


# ---- one script


# The number of an act in the whole script, and 0, or that of a look after it; an act of a script that may have lost
# some, with its number; and a difference, with its place there.
Number = tuple[int, int]
Numbered = tuple[Number, bytes]
Placed = tuple[tuple[Number, bool, int], Difference]


class Checked:
    """What came of a script: how many calls the system made, its differences, and the first without a reason; the acts
    that were struck, and the one after which nothing was compared, if there is one."""

    def __init__(self) -> None:
        self.calls = 0
        self.struck: list[str] = []
        self.last: str | None = None
        self.differences: list[Difference] = []
        self.unexplained: Difference | None = None


class Beside:
    """A run of the model beside the lines of a run, so that its world before a line is known."""

    def __init__(self, lines: list[Line], limits: Limits, known: Known) -> None:
        self.run = plain_model.Run(ALL_RECORDS, limits)
        self.run.world.link_max = known.link_max
        self.lines = lines
        self.known = known
        self.ends = ends_of_closing(lines)
        self.place = 0
        # how long a file was before each pwrite under append
        self.sizes: dict[int, int] = {}
        # the writes in which processes waited that have ended
        self.ended: list[plain_model.WaitingWrite] = []
        self.fillings = Fillings()

    def world_before(self, place: int) -> plain_model.World:
        """The world before a line, which is none of those that were asked for already."""
        for at in range(self.place, place):
            if at not in self.ends and self.lines[at].act:
                act = plain_model.read_act(act_of(self.lines[at]).encode())
                size = appended_to(self.run.world, act)
                self.sizes |= {at: size} if size is not None else {}
                process = process_of(self.run.world, act)
                call = process.waits if process and act.word == "exit" else None
                self.ended += [call] if isinstance(call, plain_model.WaitingWrite) else []
                for text in self.known.given(self.lines, at):
                    self.fillings.take(self.run, plain_model.read_act(text.encode()))
        self.place = place
        return self.run.world

    def outcome_at(self, place: int) -> str:
        """What the model gives for the act of a line."""
        self.world_before(place + 1)
        count = len(self.known.given(self.lines, place))
        outcomes = [line.rstrip("\n").rpartition(" = ")[2] for line in self.run.lines[-count:] if count]
        return together(outcomes, self.lines[place].outcome)


def compared(asked: Asked, lines: list[bytes], link_max: int = LINK_MAX) -> tuple[list[Line], list[Difference]]:
    """Runs a script once: the lines of the system, and the differences up to the first that sets the two apart. Where
    files have more links than fdref's, its model is asked."""
    system, turned = asked.exchanged(lines)
    known = Known(link_max=min(link_max, links_given(system, asked.limits)) if link_max > LINK_MAX else link_max)
    fdref, beside = asked.fdref(system, known), Beside(system, asked.limits, known)
    found: list[Difference] = []
    while True:
        place = first_unfit(asked, system, fdref, known)
        if place is None:
            return system, found
        reordered = in_other_order(asked, system, place, known)
        if reordered:
            system, fdref = reordered, asked.fdref(reordered, known)
            beside = Beside(system, asked.limits, known)
            continue
        asked.check_alike(system, fdref, place)
        difference = difference_at(asked, beside, fdref, place, found)
        difference.is_exchanged = place in turned
        found.append(difference)
        other = given_instead(asked, difference, known)
        if other:
            difference.is_followed = True
            known, fdref = other
            beside = Beside(system, asked.limits, known)
        elif difference.reason and difference.is_settled():
            known.places.add(place)
        else:
            return system, found


def links_given(lines: list[Line], limits: Limits) -> int:
    """How many links a system gives a file by the first refusal of one more, or many where it refuses none."""
    beside = Beside(lines, limits, Known(link_max=MANY_LINKS))
    for place, line in enumerate(lines):
        if " link " in line.act and line.outcome == TOO_MANY_LINKS:
            world = beside.world_before(place)
            file = world.names.get(plain_model.read_act(line.act.encode()).fields[0])
            return max(world.links(file) if file else 0, LINK_MAX)
    return MANY_LINKS


def difference_at(
    asked: Asked, beside: Beside, fdref: list[Line], place: int, found: Sequence[Difference]
) -> Difference:
    """The difference in a line after those that were found, with its reason, if it has one."""
    system = beside.lines
    difference = Difference(place, system, system[place], fdref[place], beside.world_before(place))
    difference.earlier = {it.place: it.fdref for it in found}
    difference.has_same_room, difference.counts_bytes = asked.has_same_room, asked.counts_bytes
    difference.room_seen = asked.room_seen
    difference.page = asked.page
    difference.pages, difference.put = dict(beside.fillings.pages), dict(beside.fillings.put)
    difference.put_here = difference.put
    difference.size_before, difference.ended = beside.sizes.get(place - 1), beside.ended
    difference.for_fdref = {at: beside.known.given(system, at) for at in beside.known.instead}
    difference.is_of_model = beside.known.is_of_model()
    difference.reason = reason_in(asked, difference)
    # no reason excuses an fdref that the model contradicts
    if system[place].act and place not in beside.ends and difference.fdref != beside.outcome_at(place):
        difference.reason = None
    return difference


def given_instead(asked: Asked, difference: Difference, known: Known) -> tuple[Known, list[Line]] | None:
    """What is known, and the lines of fdref, where it is given what the system has to have done by the reason of a
    difference; or None where that is not known, or does not fit."""
    for place, acts in ways(difference):
        other = known.but(place, acts)
        fdref = asked.fdref(difference.lines, other)
        unfit = first_unfit(asked, difference.lines, fdref, other)
        if unfit is None or unfit > difference.place:
            return other, fdref
    return None


def struck(lines: list[Numbered], system: list[Line], difference: Difference) -> list[Numbered]:
    """A script without the act of a difference."""
    of_script = places_of_script(system)
    at = of_script.index(act_place(difference)) if difference.place in of_script else len(of_script)
    return lines[:at] + lines[at + 1 :]


def act_place(difference: Difference) -> int:
    """The place of the act of a difference: that of the pwrite under append, where it is a look at what that did."""
    return difference.place - follows_append(difference)


def placed(lines: list[Numbered], system: list[Line], difference: Difference) -> Placed:
    """A difference with its place in the whole script: what is told back comes after the act before it."""
    of_script = places_of_script(system)
    before = bisect.bisect_right(of_script, difference.place)
    number = lines[before - 1][0] if before else (-1, 0)
    return (number, difference.place not in of_script, difference.place), difference


def with_numbers(acts: Iterable[tuple[int, bytes]], limits: Limits) -> list[Numbered]:
    """A script of acts with these numbers, with the acts that look, for a run of these limits."""
    own = list(acts)
    numbers = iter([at for at, _ in own])
    number, looks = -1, 0
    found: list[Numbered] = []
    for line, is_look in with_marks([line for _, line in own], limits):
        number, looks = (number, looks + 1) if is_look else (next(numbers), 0)
        found.append(((number, looks), line))
    return found


def without_looks(lines: Iterable[Numbered]) -> list[tuple[int, bytes]]:
    """The acts of a script that are its own, with their numbers."""
    return [(number, line) for (number, look), line in lines if not look]


def checked(asked: Asked, lines: list[bytes]) -> Checked:
    """Compares a script, and again without the acts after which system and fdref are apart; or with the room of the
    system's pipes, where that is all that they are apart by."""
    result = Checked()
    apart: list[Placed] = []
    numbered = with_numbers(enumerate(lines), asked.limits)
    for _ in range(STRIKES_MOST):
        system, found = compared(asked, [line for _, line in numbered])
        result.last = None
        of_script = places_of_script(system)
        looks = {place for place, ((_, look), _) in zip(of_script, numbered, strict=True) if look}
        for it in found:
            it.is_look = it.place in looks
        result.calls = sum(line.place not in ("-", "") and not is_told_back(line) for line in system)
        here = [placed(numbered, system, it) for it in found]
        result.differences = [it for _, it in sorted(apart + here, key=lambda it: it[0])]
        last = found[-1] if found else None
        result.unexplained = unexplained_of(asked, numbered, last)
        if not last or result.unexplained or last.is_settled():
            return result
        apart = [*apart, here[-1]]
        roomy = asked.with_room() if last.reason and last.reason.fits is is_room else None
        if roomy:
            asked, numbered = roomy, with_numbers(without_looks(numbered), roomy.limits)
            continue
        result.last = act_of(last.lines[act_place(last)])
        shorter = struck(numbered, system, last)
        if shorter == numbered:
            return result
        result.struck.append(result.last)
        numbered = shorter
    return result


def unexplained_of(asked: Asked, lines: list[Numbered], last: Difference | None) -> Difference | None:
    """The difference without a reason of a script whose last difference this is, if there is one."""
    if last and last.reason and last.reason.fits is is_more_links:
        return unexplained_with_links(asked, [line for _, line in without_looks(lines)])
    return last if last and not last.reason else None


def unexplained_with_links(asked: Asked, lines: list[bytes]) -> Difference | None:
    """The first difference without a reason of a script in which files have more links than fdref's: from fdref's
    model, which has as many as the system gives."""
    marked = with_marks(lines, asked.limits, MANY_LINKS)
    system, found = compared(asked, [line for line, _ in marked], MANY_LINKS)
    last = found[-1] if found else None
    if last and not last.reason:
        of_script = places_of_script(system)
        last.is_look = last.place in of_script and marked[of_script.index(last.place)][1]
        return last
    return None


# ---- a larger PIPE_BUF


def is_of_nothing(it: Difference) -> bool:
    """A write of which fdref moves a part, and the system nothing as long as there is not room for all."""
    if it.words("resume"):
        return it.system in ("still", "?") and it.fdref.startswith("part ")
    waits = it.system in ("parked 0", "parked ?") and it.fdref.startswith("parked ")
    is_refused = it.system == "error EAGAIN" and it.fdref.isdigit()
    return it.words("write") and (waits or is_refused) and 0 < moved(it.fdref) < it.count()


# The reason that goes by what was measured of the system.
AT_ONCE = Reason("PIPE_BUF is more than 512 bytes", OWN, "pages of limits.h and write", is_of_nothing)


def reason_in(asked: Asked, difference: Difference) -> Reason | None:
    """The first reason that fits a difference."""
    is_measured = AT_ONCE.fits(difference) and is_at_once(asked, difference.lines, difference.place)
    return AT_ONCE if is_measured else reason_of(difference) or (FEWER if FEWER.fits(difference) else None)


# ---- telling


def clipped(text: str, most: int = 160) -> str:
    """A line for a reader: a long one is cut in the middle."""
    return text if len(text) <= most else text[: most * 5 // 8] + "..." + text[-most // 4 :]


def told(difference: Difference) -> str:
    """A difference, with the lines before it and its reason. Of those that differ as well it is told what fdref says,
    and of those instead of which it is given others these."""
    before = range(max(difference.place - LINES_BEFORE, 0), difference.place)
    others = {place: f", and fdref says {outcome}" for place, outcome in difference.earlier.items()}
    others |= {place: f", and fdref is given {'; '.join(acts)}" for place, acts in difference.for_fdref.items() if acts}
    lines = [(difference.lines[place], others.get(place, "")) for place in before]
    parts = [f"  {line.place} {line.act} = {line.outcome}{other}" for line, other in lines]
    line = difference.lines[difference.place]
    parts += [f"system: {line.place} {line.act} = {difference.system}"]
    parts += [f"{'model' if difference.is_of_model else 'fdref'}:  {line.place} {line.act} = {difference.fdref}"]
    parts += [f"the model is fdref's, but for more links of a file than {LINK_MAX}"] if difference.is_of_model else []
    parts += [told_reason(difference.reason), *told_waiting(difference), *told_room(difference)]
    parts += ["the script does not ask for this: compare.py looks at what it has left"] if difference.is_look else []
    return "\n".join(map(clipped, parts))


def told_waiting(difference: Difference) -> list[str]:
    """Of a call that waits on in the system alone, what the standard says of its waiting."""
    if not difference.words("resume") or difference.system not in ("still", "?"):
        return []
    who = f"p{difference.act.actor}"
    before = [line for line in difference.lines[: difference.place] if line.act.startswith(f"{who} ")]
    calls = [line.act.split(" ")[1] for line in before if line.outcome.startswith("parked ")]
    return [f"{who} is not woken; {ENDS_OF_WAITING[call]}" for call in calls[-1:]]


def told_room(difference: Difference) -> list[str]:
    """Of a write to a pipe that moves less than there is room for, how that is seen."""
    more = 0 if difference.reason else room_left(difference)
    put = f"later writes put in {several(more, 'byte')} before the next read"
    return [f"it moves less than there is room for: {put}"] if more else []


def short(asked: Asked, lines: list[bytes]) -> list[bytes]:
    """A short script that has a difference without a reason as well."""

    def differs(fewer: list[bytes]) -> bool:
        try:
            return checked(asked, fewer).unexplained is not None
        except (CannotRun, plain_model.NotAnAct):
            return False

    return shrunk(lines, differs, SHRINK_SECONDS)


# ---- the whole


def scripts_in(paths: Sequence[str], is_text: bool) -> Iterator[tuple[str, list[bytes]]]:
    """Names and plain lines of scripts: of files, and in folders of all files named `script` or `*.script`."""
    for path in paths:
        if os.path.isdir(path):
            inside = [os.path.join(path, name) for name in sorted(os.listdir(path))]
            yield from scripts_in([it for it in inside if os.path.isdir(it) or it.endswith("script")], is_text)
        else:
            lines = Path(path).read_bytes().split(b"\n")
            yield path, [line for line in (map(plain_line, lines) if is_text else lines) if line]


class Acts:
    """Acts that are counted, and the first of them."""

    def __init__(self, counts: Counts | None = None) -> None:
        self.count: int = counts["count"] if counts else 0
        self.first: list[str] = counts["first"][:ACTS_TOLD] if counts else []

    def add(self, act: str) -> None:
        """Counts an act."""
        self.count += 1
        self.first += [act] if len(self.first) < ACTS_TOLD else []

    def told(self, of_one: str, of_more: str) -> list[str]:
        """A line that counts them and names the first."""
        if not self.count:
            return []
        named = "; ".join(map(clipped, self.first)) + ("; .." if self.count > ACTS_TOLD else "")
        return [f"{self.count:8} {of_more if self.count > 1 else of_one}: {named}"]


class Totals:
    """What is counted over all scripts."""

    def __init__(self) -> None:
        self.scripts = self.calls = self.unexplained = self.failed = 0
        self.by_reason: collections.Counter[str] = collections.Counter()
        self.struck = Acts()
        self.last = Acts()

    @classmethod
    def of(cls, counts: Counts) -> Self:
        """What other runs have counted."""
        totals = cls()
        acts = {name: Acts(counts[name]) for name in ("struck", "last")}
        named = {name: counts[name] for name in vars(totals)}
        vars(totals).update(named, by_reason=collections.Counter(counts["by_reason"]), **acts)
        return totals

    def counts(self) -> Counts:
        """What is counted, for a summary."""
        return {**vars(self), "by_reason": dict(self.by_reason), "struck": vars(self.struck), "last": vars(self.last)}

    def add(self, result: Checked) -> None:
        """Counts a script."""
        for act in result.struck:
            self.struck.add(act)
        if result.last is not None:
            self.last.add(result.last)
        self.scripts += 1
        self.calls += result.calls
        self.unexplained += result.unexplained is not None
        self.by_reason.update(it.reason.name for it in result.differences if it.reason)

    def text(self) -> str:
        """The last lines."""
        differences = several(self.by_reason.total() + self.unexplained, "difference")
        lines = [f"{several(self.scripts, 'script')}, {several(self.calls, 'call')}, {differences}"]
        met = [it for it in (AT_ONCE, *REASONS, FEWER) if self.by_reason[it.name]]
        lines += [f"{self.by_reason[it.name]:8} {it.name} ({it.who}; {it.page})" for it in met]
        lines += [f"{self.unexplained:8} without a reason"]
        lines += [f"{self.failed:8} not compared"] if self.failed else []
        lines += self.struck.told("act was struck and not compared", "acts were struck and not compared")
        lines += self.last.told("time the rest was not compared, after", "times the rest was not compared, after")
        return "\n".join(lines)

    def status(self) -> int:
        """The exit status."""
        return 1 if self.unexplained else 3 if self.failed else 0


def check_one(asked: Asked, totals: Totals, name: str, lines: list[bytes], is_random: bool, keep: str | None) -> None:
    """Compares a script and tells what is to be told of it."""
    try:
        result = checked(asked, lines)
    except (CannotRun, plain_model.NotAnAct) as fault:
        totals.failed += 1
        print(f"{name}: {fault if isinstance(fault, CannotRun) else asked.fault(name)}", flush=True)
        return
    totals.add(result)
    if result.unexplained:
        print(f"{name}: a difference without a reason\n{told(result.unexplained)}", flush=True)
        if is_random:
            lines = short(asked, lines)
            print("shrunk to\n" + b"\n".join(lines).decode(), flush=True)
        if keep:
            kept = Path(keep) / (os.path.basename(name).replace(" ", "-") + ".script")
            kept.write_bytes(b"".join(line + b"\n" for line in lines))
    elif result.differences and not is_random:
        count = len(result.differences)
        what = "a difference" if count == 1 else f"the first of {count} differences"
        print(f"{name}: {what}\n{told(result.differences[0])}", flush=True)


def parse(words: Sequence[str]) -> argparse.Namespace:
    """What the command line asks for."""
    parser = argparse.ArgumentParser(
        description=__doc__, formatter_class=argparse.RawDescriptionHelpFormatter, usage=argparse.SUPPRESS
    )
    parser.add_argument("paths", nargs="*", metavar="SCRIPT-OR-FOLDER", help="scripts, or folders of them")
    parser.add_argument("--text", action="store_true", help="read comments and strings in these scripts")
    parser.add_argument("--random", type=int, default=0, metavar="N", help="make N random scripts")
    first = "the number of the first of them; 0 where none is given"
    parser.add_argument("--first", type=int, default=0, metavar="K", help=first)
    parser.add_argument("--seed", default="1", help="any word (1): script K of one is always the same")
    parser.add_argument("--acts", type=int, default=60, help="acts of a random script; 60 where no number is given")
    which = "small: pipes are never full; full-pipes: they are; all: every tenth"
    parser.add_argument("--class", dest="which", choices=[*CLASSES, "all"], default="all", help=which)
    add_program(parser)
    add_capacity(parser)
    ask = "reads a script and prints its run: ask_kernel with its options, on whatever system; "
    ask += "compiled for this run where it is not given"
    parser.add_argument("--ask", metavar="COMMAND", help=ask)
    seconds = f"how long it, or fdref, may take for one script; {SECONDS:g} where no number is given"
    parser.add_argument("--seconds", type=float, default=SECONDS, metavar="N", help=seconds)
    parser.add_argument("--keep", metavar="DIR", help="a folder for scripts that differ without a reason")
    add_summary(parser)
    args = parser.parse_args(words)
    if args.paths and args.summary:
        parser.error("only what random scripts count is added up")
    if args.text and not args.paths:
        parser.error("--text is for scripts that are given")
    if not args.paths and args.random < 1:
        parser.error("no scripts: give files, folders, or --random N")
    for path in [*args.paths, *([args.keep] if args.keep else [])]:
        if not os.path.exists(path):
            parser.error(f"there is no {path}")
    args.scripts = list(scripts_in(args.paths, args.text))
    if args.paths and not args.scripts:
        parser.error(f"there is no file named script or *.script in {', '.join(args.paths)}")
    return args


def check_all(args: argparse.Namespace, totals: Totals, driver: str) -> None:
    """Compares all scripts that are asked for."""
    name = clipped(args.ask, NAME_MOST) if args.ask else "ask_kernel"
    asked = Asked(args.command, shlex.split(driver), args.limits, args.text, name, args.seconds)
    print("".join(f"{line}\n" for line in asked.told_rooms()), end="", flush=True)
    for name, lines in args.scripts:
        check_one(asked, totals, name, lines, False, args.keep)
    for number in range(args.first, args.first + args.random):
        lines = random_lines(args.seed, number, args.acts, class_of(number, args.which), args.limits)
        check_one(asked, totals, f"script {number} of seed {args.seed}", lines, True, args.keep)


def write_summary(args: argparse.Namespace, totals: Totals) -> None:
    """Writes what was counted, where that is wanted."""
    if args.summary:
        of = " ".join([f"{args.acts} acts, class {args.which}", *capacity_words(args.limits)])
        share = summaries.Share(args.seed, args.first, args.random, of)
        versions = summaries.versions(args.command, args.ask)
        summaries.write(args.summary, summaries.Summary("compare.py", [share], versions, totals.counts()))


def main(words: Sequence[str]) -> int:
    """Compares what is asked for: the exit status."""
    args = parse(words)
    signal.signal(signal.SIGINT, lambda number, _: sys.exit(128 + number))
    totals = Totals()
    with tempfile.TemporaryDirectory(prefix="compare-") as folder:
        try:
            args.command = program_of(args.program)
            with Long(f"asks the system and fdref {several(len(args.scripts) + args.random, 'script')}", "compare.py"):
                check_all(args, totals, args.ask or shlex.quote(compiled("ask_kernel", "c99", folder)))
        except CannotRun as fault:
            print(f"compare.py: {fault}", file=sys.stderr)
            return 3
    print(totals.text())
    write_summary(args, totals)
    return totals.status()


if __name__ == "__main__":
    sys.exit(main(sys.argv[1:]))
