#!/usr/bin/env python3
"""Prints what a wrong `fdref outcomes` would print, to see whether the races of tests/outcomes.py find it out.

usage: tests/stand_ins/wrong_outcomes.py RULE outcomes [--states N] [--pipe-capacity N] [--witness K] [--acts] < FILE
       tests/stand_ins/wrong_outcomes.py RULE replay < script
       tests/stand_ins/wrong_outcomes.py --list

It is the search beside the plain model, with one thing of it changed. RULE is one of those that --list prints; `none`
changes nothing. tools/race.py takes it in the place of fdref: --program 'tests/stand_ins/wrong_outcomes.py RULE'.
"""

import argparse
import re
import sys
from collections.abc import Callable
from pathlib import Path

sys.path.insert(0, str(Path(__file__).resolve().parents[1]))

from support import plain_model
from support.commands import add_capacity
from support.outcomes import (
    STATES_DEFAULT,
    BadRace,
    Explorer,
    Position,
    Race,
    printed,
    read_race,
    record_lines,
    script_line,
    too_many,
)
from support.plain_model import DEFAULTS, Limits
from support.running import Ran

RULES: dict[str, tuple[str, type[Explorer]]] = {"none": ("nothing is changed", Explorer)}


def rule(text: str) -> Callable[[type[Explorer]], type[Explorer]]:
    """Marks a wrong explorer, of which the text tells what it does."""

    def keep(explorer: type[Explorer]) -> type[Explorer]:
        RULES[re.sub(r"(?<!^)(?=[A-Z])", "-", explorer.__name__).lower()] = (text, explorer)
        return explorer

    return keep


class Wrong(Explorer):
    """An explorer that leaves some moves out."""

    def moved(self, position: Position, number: int) -> Position | None:
        after = super().moved(position, number)
        if after is None or not self.leaves_out(position, number):
            return after
        # it is left out only where another process moves, so that orders still come to an end
        others = [at for at in range(len(self.lanes)) if at != number and not self.leaves_out(position, at)]
        return None if any(super(Wrong, self).moved(position, at) for at in others) else after

    def leaves_out(self, position: Position, number: int) -> bool:
        """Whether the move of a process is left out."""
        raise NotImplementedError

    def is_waiting(self, position: Position, number: int) -> bool:
        """Whether a process waits in a call."""
        return self.lanes[number][0] in self.states.waiting[position.state]


@rule("a call that waits never goes on")
class NeverGoesOn(Explorer):
    def moved(self, position: Position, number: int) -> Position | None:
        is_waiting = self.lanes[number][0] in self.states.waiting[position.state]
        return None if is_waiting else super().moved(position, number)


@rule("a call that waits goes on as soon as it is ready")
class GoesOnAtOnce(Wrong):
    def leaves_out(self, position: Position, number: int) -> bool:
        ready = [at for at in range(len(self.lanes)) if self.is_waiting(position, at)]
        return number not in ready and any(super(Wrong, self).moved(position, at) for at in ready)


@rule("a call that waits goes on only where nobody else can move")
class GoesOnLast(Wrong):
    def leaves_out(self, position: Position, number: int) -> bool:
        return self.is_waiting(position, number)


@rule("the last process never makes the first call")
class LastNeverFirst(Wrong):
    def leaves_out(self, position: Position, number: int) -> bool:
        return position == self.start and number == len(self.lanes) - 1


@rule("a process makes all its calls before another one begins")
class OneAfterAnother(Wrong):
    def leaves_out(self, position: Position, number: int) -> bool:
        begun = [at for at, told in enumerate(position.told) if 0 < len(told) < len(self.lanes[at][1])]
        return bool(begun) and number not in begun


@rule("where somebody waits at the end, there is no outcome")
class WaitingIsNoEnd(Explorer):
    def found(self) -> dict[str, Position]:
        return {text: end for text, end in super().found().items() if "waits " not in text}


@rule("a write that waits tells what it moved at first")
class PartIsTheFirst(Explorer):
    def moved(self, position: Position, number: int) -> Position | None:
        after = super().moved(position, number)
        if after is None or not after.told[number][-1].startswith("part "):
            return after
        told = (*after.told[:number], position.told[number], *after.told[number + 1 :])
        return after._replace(told=told)


@rule("two positions with the same answers are taken for one")
class SameAnswersSamePosition(Explorer):
    def key(self, position: Position) -> object:
        return position.told


@rule("two positions with the same world are taken for one")
class SameWorldSamePosition(Explorer):
    def key(self, position: Position) -> object:
        return position.state, tuple(map(len, position.told))


@rule("answers stand in the order of processes")
class ByProcess(Explorer):
    def answers(self, position: Position) -> list[str]:
        answers = super().answers(position)
        order = sorted(range(len(answers)), key=lambda at: self.race.calls[at].process)
        return [answers[at] for at in order]


@rule("long answers are cut")
class ReadsAreShortened(Explorer):
    def answers(self, position: Position) -> list[str]:
        return [answer[:1_000] for answer in super().answers(position)]


@rule("what is asked for is not heeded")
class AsksForNothing(Explorer):
    def found(self) -> dict[str, Position]:
        calls = [call._replace(asked=None) for call in self.race.calls]
        self.race = Race(self.race.setup, calls)
        return super().found()


@rule("of what is asked for only the first line is heeded")
class AsksForTheFirst(Explorer):
    def found(self) -> dict[str, Position]:
        calls = [call._replace(asked=None) if at else call for at, call in enumerate(self.race.calls)]
        self.race = Race(self.race.setup, calls)
        return super().found()


@rule("an outcome is told twice")
class TwiceTheSame(Explorer):
    def texts(self) -> list[str]:
        return [*super().texts(), *super().texts()[-1:]]


@rule("outcomes are not sorted")
class AsTheyCome(Explorer):
    def texts(self) -> list[str]:
        return super().texts()[::-1]


def ran(name: str, race: Race, limits: Limits = DEFAULTS) -> Ran:
    """What is printed for a race under a rule."""
    explorer = RULES[name][1](race, limits)
    return printed(race, explorer.texts(), len(explorer.met))


# ---- the program


def witness(explorer: Explorer, end: Position, is_acts: bool) -> list[str]:
    """The lines of an order that leads to an end: its records or its acts."""
    records = explorer.witness(end)
    return [script_line(act) for act, _ in records] if is_acts else record_lines(records)


def all_witnesses(explorer: Explorer, is_acts: bool) -> Ran:
    """What is printed for `--witness all`: behind the line of each outcome those of an order that leads to it."""
    ends = iter(explorer.found().values())
    told = printed(explorer.race, explorer.texts(), len(explorer.met))
    lines = []
    for line in told.stdout.decode().splitlines():
        lines += [line, *(witness(explorer, next(ends), is_acts) if line.startswith("outcome ") else [])]
    return Ran(told.status, "".join(f"{line}\n" for line in lines).encode(), b"")


def one_witness(explorer: Explorer, number: int, is_acts: bool) -> Ran:
    """What is printed for `--witness K`."""
    ends = list(explorer.found().values())
    if number >= len(ends):
        return Ran(1, b"", b"no such outcome\n")
    return Ran(0, "".join(f"{line}\n" for line in witness(explorer, ends[number], is_acts)).encode(), b"")


def outcomes(name: str, text: bytes, args: argparse.Namespace) -> Ran:
    """What `fdref outcomes` gives under a rule."""
    try:
        race = read_race(text)
        explorer = RULES[name][1](race, args.limits)
    except BadRace as fault:
        return Ran(3, b"", f"{fault}\n".encode())
    if len(explorer.met) > args.states:
        return too_many(args.states)
    if args.witness is None:
        return printed(race, explorer.texts(), len(explorer.met))
    if args.witness == "all":
        return all_witnesses(explorer, args.acts)
    return one_witness(explorer, args.witness, args.acts)


def in_range(least: int, most: int) -> Callable[[str], int]:
    """The reader of a number in a range."""

    def read(word: str) -> int:
        if not word.isdecimal() or not least <= int(word) <= most:
            raise argparse.ArgumentTypeError(f"not a number from {least} to {most}")
        return int(word)

    return read


def parsed(job: str, words: list[str]) -> argparse.Namespace:
    """What the words after `outcomes` or `replay` ask for."""
    parser = argparse.ArgumentParser()
    add_capacity(parser)
    if job == "replay":
        parser.add_argument("--records", type=int, default=plain_model.RECORDS_DEFAULT)
    else:
        parser.add_argument("--states", type=in_range(1, 100_000_000), default=STATES_DEFAULT)
        parser.add_argument("--witness", type=lambda word: word if word == "all" else in_range(0, 2**32 - 1)(word))
        parser.add_argument("--acts", action="store_true")
    return parser.parse_args(words)


def main(words: list[str]) -> int:
    """Prints what is asked for: the exit status."""
    if words == ["--list"]:
        print("\n".join(f"{name}: {text}" for name, (text, _) in RULES.items()))
        return 0
    if len(words) < 2 or words[0] not in RULES or words[1] not in ("outcomes", "replay"):
        print(__doc__, file=sys.stderr)
        return 2
    args = parsed(words[1], words[2:])
    text = sys.stdin.buffer.read()
    if words[1] == "replay":
        done = plain_model.replay(text, args.records, args.limits)
    else:
        done = outcomes(words[0], text, args)
    sys.stdout.buffer.write(done.stdout)
    sys.stderr.buffer.write(done.stderr)
    return done.status


if __name__ == "__main__":
    sys.exit(main(sys.argv[1:]))
