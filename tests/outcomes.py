#!/usr/bin/env python3
"""Are the outcomes of a race all that its calls may answer, each once, and does a witness lead to each? (two minutes)

usage: tests/outcomes.py [--program PATH] [--runs N] [--seed WORD] [--only WORD]

The program is crates/fdref/out/fdref where no PATH is given.

  - Races by hand have as many outcomes and positions as a formula says, and those of examples/races that their page
    tells.
  - Each outcome that is asked for is found alone, and what is not one is not found.
  - Each witness is an order of the race: `fdref replay` answers its acts alike, and it ends in its outcome.
  - What is no race is told by its line, with its status.
  - N random races (150) have the outcomes of a search beside the plain model (tools/support/outcomes.py). Where they
    have few orders, all of them are run by the model, one after another.
  - Each wrong search of tests/stand_ins/wrong_outcomes.py is found out by these random races.

All random choices follow from the seed. The last line is `N passed, M failed`, and the exit status is 1 where M is
above 0.
"""

import sys
from collections.abc import Iterator, Sequence
from functools import partial

from parts import random_races, told_races
from stand_ins import wrong_outcomes
from support.counting import Case, Count, Failure
from support.options import ONLY, PROGRAM, SEED, asked, count_option

TELL_MOST = 10
# In how many random races each wrong search has to be found.
RACES_MOST = 60


def is_found(seed: str, name: str) -> None:
    """A wrong search prints something else than it has to, on one of the first random races."""
    for number in range(RACES_MOST):
        task = random_races.task_of(seed, number)
        try:
            random_races.holds(task, wrong_outcomes.ran(name, task.explorer.race, task.limits))
        except Failure:
            return
    raise Failure(f"{RACES_MOST} races do not find it")


def right_is_right(seed: str) -> None:
    """The search without a change prints what it has to."""
    for number in range(RACES_MOST):
        task = random_races.task_of(seed, number)
        random_races.holds(task, wrong_outcomes.ran("none", task.explorer.race, task.limits))


def wrong_cases(seed: str) -> Iterator[Case]:
    """Each wrong search."""
    yield "nothing is changed", partial(right_is_right, seed)
    rules = {name: text for name, (text, _) in wrong_outcomes.RULES.items() if name != "none"}
    yield from ((text, partial(is_found, seed, name)) for name, text in rules.items())


def main(words: Sequence[str]) -> int:
    """Makes all checks: the exit status."""
    runs = count_option("--runs", 150, "random races")
    about = "Compares what races may answer with a search beside the plain model."
    args = asked(words, about, PROGRAM, runs, SEED, ONLY)
    program = [args.program]
    parts = [
        ("counted", told_races.counted_cases(program)),
        ("asked", told_races.asked_cases(program)),
        ("witnesses", told_races.witness_cases(program)),
        ("faults", told_races.fault_cases(program)),
        ("examples", told_races.example_cases(program)),
        ("random", random_races.cases(program, args.seed, args.runs)),
        ("wrong searches", wrong_cases(args.seed)),
    ]
    return Count(TELL_MOST).parts(parts, args.only)


if __name__ == "__main__":
    sys.exit(main(sys.argv[1:]))
