"""Random races of 2 or 3 processes with up to 4 calls each, and what the program prints for them.

What is made before a race is one of a few beginnings, with files, pipes and FIFOs that most processes share. The calls
are those of a walk (`support.walks`), which runs in one order of them, so that most make sense there. Of some scripts
the one with the most outcomes is mostly taken. In one of three races answers are asked for, most of them right ones.

The outcomes have to be those of a search of all positions beside the plain model. Where a race has few orders, they are
also those of all orders, and there are as many orders as the search has counted. The program may tell two positions
apart that the model does not; but it has to tell at least as many as there, and at most as there are orders.
"""

import random
import re
from collections.abc import Iterator, Sequence
from functools import partial
from typing import NamedTuple

from support import plain_model
from support.commands import capacity_words
from support.counting import Case, require, same
from support.outcomes import NO_CALLS, Explorer, Race, every_order, printed, read_race
from support.plain_model import DEFAULTS, FIELDS, Limits
from support.running import Ran, run
from support.sources import numbered, source
from support.walks import CAPACITIES, MOODS, Walk

SECONDS = 60
# How many orders are all gone through.
ORDERS_MOST = 400
# Of how many scripts that with the most outcomes is mostly taken, and more orders than it should have: where worlds are
# not seen to be the same, as those with the greatest files, the program meets as many positions.
DRAFTS = 5
MANY = 1_000
CALLS_MOST = 4
# Words of calls.
CALLS = [word for word in FIELDS if word not in NO_CALLS]
# Answers that are seldom right.
ODD_ANSWERS = ["-", "ok", "0", "1", "2", "x", "x61", "61*3", "0 1", "waits 0", "waits 1", "error EBADF", "regular 0 1"]


# ---- scripts


def beginning(pick: random.Random, limits: Limits, processes: int) -> Iterator[str]:
    """The acts before a race: what is open, and who is there."""
    capacity = limits.capacity
    ways = [
        ["p0 pipe"],
        ["p0 pipe", f"p0 write 1 70*{pick.choice([1, capacity - 600, capacity - 3, capacity])}"],
        ["p0 open a rw,creat", "p0 write 0 x6162636465666768", f"p0 lseek 0 {pick.randrange(8)} set"],
        ["p0 open a rw,creat,append", "p0 dup2 0 1"],
        ["p0 mkfifo a", "p0 open a r,nonblock", "p0 open a w"],
        ["p0 mkfifo a"],
        ["p0 open a rw,creat", "p0 link a b", "p0 open c w,creat"],
        ["p0 open a rw,creat", "p0 pipe"],
    ]
    yield "join"
    yield from (call for call in pick.choice(ways) if "*-" not in call)
    for number in range(1, processes):
        yield from ["p0 fork", f"p{number} attach"] if pick.random() < 0.9 else ["join"]
    for number in range(processes):
        if pick.random() < 0.4:
            yield f"p{number} {pick.choice(['close 0', 'close 1', 'dup2 0 1', 'open a r,nonblock', 'open a rw,creat'])}"


def call_of(walk: Walk, calls: Sequence[str], mood: str) -> str | None:
    """A call that makes sense now of a process that has some left, if one is found."""
    words = mood.split()
    weights = {word: int(weight) for word, weight in zip(words[::2], words[1::2], strict=True) if word in CALLS}
    for word in [*walk.pick.choices(list(weights), list(weights.values()), k=6), walk.pick.choice(CALLS)]:
        line = walk.line(word)
        if line and sum(call.startswith(line.split(" ")[0] + " ") for call in calls) < CALLS_MOST:
            return line
    return None


def called(pick: random.Random, walk: Walk, count: int) -> list[str]:
    """The calls of a race: those of a walk, in which calls that wait go on now and then."""
    calls: list[str] = []
    mood = MOODS[pick.choice(["pipes"] * 4 + ["fifos"] * 3 + ["files"] * 4 + ["names"] * 2 + ["descriptors"])]
    for _ in range(count):
        line = call_of(walk, calls, mood)
        if line and int(line.split(" ")[0][1:]) in walk.world.processes:
            calls.append(line)
            walk.say(line)
        for process in list(walk.world.processes.values()):
            if process.waits and pick.random() < 0.5:
                walk.say(f"p{process.number} resume")
    return calls


def script_of(pick: random.Random, limits: Limits) -> bytes:
    """The script of a race."""
    processes = pick.choice([2, 2, 3])
    walk = Walk(pick, plain_model.Run(plain_model.RECORDS_DEFAULT, limits))
    setup = list(beginning(pick, limits, processes))
    walk.say(*setup[1:])
    calls = called(pick, walk, pick.choice([3, 4, 5, 6, 6, 7, 8, 9]))
    here = {process.number for process in walk.world.processes.values() if process.attached}
    calls = [call for call in calls if int(call.split(" ")[0][1:]) in here]
    # each process keeps its order, and the lines of several stand between each other
    pick.shuffle(order := [call.split(" ")[0] for call in calls])
    left = {who: iter([call for call in calls if call.split(" ")[0] == who]) for who in set(order)}
    return "".join(f"{line}\n" for line in [*setup, "race", *(next(left[who]) for who in order)]).encode()


def asking(pick: random.Random, race: Race, texts: Sequence[str]) -> str:
    """The calls of a race with some of the answers of an outcome behind them, or with others."""
    answers: list[str | None] = list(pick.choice(texts).split(", ")) if race.calls else []
    answers = [answer if pick.random() < 0.5 else pick.choice([None, "?"]) for answer in answers]
    if answers and pick.random() < 0.3:
        answers[pick.randrange(len(answers))] = pick.choice(ODD_ANSWERS)
    asked = ["" if answer is None else f" = {answer}" for answer in answers]
    lines = [plain_model.act_text(call.act) for call in race.calls]
    return "".join(f"{line}{answer}\n" for line, answer in zip(lines, asked, strict=True))


# ---- one race


class Task(NamedTuple):
    """A race as the program is given it, the limits of its run, and what the search has found."""

    text: bytes
    limits: Limits
    explorer: Explorer


def task_of(seed: str, number: int) -> Task:
    """The race with a number of a seed."""
    pick = source(seed, number)
    limits = pick.choice([DEFAULTS, DEFAULTS, Limits(capacity=pick.choice(CAPACITIES))])
    drafts = [Explorer(read_race(script_of(pick, limits)), limits) for _ in range(pick.choice([1, DRAFTS, DRAFTS]))]
    explorer = max(drafts, key=lambda draft: (draft.orders <= MANY, len(draft.texts())))
    text = explorer.race.text()
    if number % 3 == 0:
        text = text.partition("race\n")[0] + "race\n" + asking(pick, explorer.race, explorer.texts())
        explorer.race = read_race(text.encode())
    return Task(text.encode(), limits, explorer)


def given(program: Sequence[str], text: bytes, limits: Limits = DEFAULTS, *words: str) -> Ran:
    """What the program gives for a race."""
    return run([*program, "outcomes", *capacity_words(limits), *words], text, seconds=SECONDS, folder="/")


def holds(task: Task, given_for_it: Ran) -> None:
    """The program has printed what it has to."""
    texts, least, most = task.explorer.texts(), len(task.explorer.met), task.explorer.orders
    last = re.search(rb"states ([1-9]\d*)\n\Z", given_for_it.stdout)
    require(last is not None, f"no count of states: {given_for_it.said()}")
    assert last
    states = int(last[1])
    wanted = printed(task.explorer.race, texts, states)
    if wanted != given_for_it:
        told = "\n".join([f"on\n{task.text.decode()}", wanted.stdout.decode(), "is wanted, and given is"])
        require(False, f"{told}\n{given_for_it.stdout.decode('ascii', 'replace')}{given_for_it.stderr!r}")
    require(least <= states <= most, f"{states} states, and there are {least} to {most} on\n{task.text.decode()}")


def orders_are_the_same(task: Task) -> None:
    """All orders lead to the outcomes of the search, and there are as many as it has counted."""
    race = task.explorer.race
    went = list(every_order(race, task.limits))
    same(task.explorer.orders, len(went))
    texts = {", ".join(answers) for answers in went if answers is not None and race.agrees(answers)}
    same(sorted(texts), task.explorer.texts())


def is_right(program: Sequence[str], seed: str, number: int) -> None:
    """The program prints what it has to for the race with a number of a seed, and the search is right."""
    task = task_of(seed, number)
    holds(task, given(program, task.text, task.limits))
    if task.explorer.orders <= ORDERS_MOST:
        orders_are_the_same(task)


def cases(program: Sequence[str], seed: str, count: int) -> Iterator[Case]:
    """So many races of a seed."""
    yield from ((numbered("race", seed, number), partial(is_right, program, seed, number)) for number in range(count))
