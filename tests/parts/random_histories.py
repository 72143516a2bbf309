"""Random histories: whether an order is found, held against what going through all orders finds."""

import random
import time
from collections.abc import Callable, Iterable, Iterator, Sequence
from functools import partial

from parts.all_orders import has_order
from parts.made_histories import RACES, TICK, Made, walked
from support import plain_model
from support.counting import Case, Failure, require
from support.footprints import Footprints
from support.histories import WAITS, Noted, history_text
from support.ordering import Explained, GivenUp, Unexplained, explain
from support.replaying import verified
from support.shortening import ended, influencing, is_silent, up_to, without, without_answers
from support.sources import numbered, source

SHRINK_SECONDS = 3
SLACKS = (1, 3, 6)
LARGE_PROCESSES, LARGE_CALLS, LARGE_SLACK = 6, 20, 6
# How long the search of a large history may take on a slow machine that does other things too.
LARGE_SECONDS = 60


# ---- histories


def made(kind: str, seed: str, number: int) -> tuple[random.Random, list[Noted]]:
    """A small history of a kind, which has an order, and the source of further choices."""
    pick = source(f"{seed} {kind}", number)
    slack = pick.choice(SLACKS)
    if kind == "walks":
        return pick, walked(pick, pick.randrange(4, 9), slack).history()
    parts = RACES[kind](pick, pick.choice([2, 3, 3]), 2)
    return pick, Made(pick, slack).race(parts).history()


KINDS = [*RACES, "walks"]


def changed(pick: random.Random, history: list[Noted]) -> list[Noted]:
    """The same history with an answer that is another one, or with another time."""
    able = [place for place, noted in enumerate(history) if noted.act.word not in ("join", "fork", "attach")]
    if not able:
        return history
    place = pick.choice(able)
    noted = history[place]
    likely: list[tuple[Callable[[random.Random, list[Noted], Noted], Noted], int]] = [
        (other_answer, 5),
        (answer_of_another, 4),
        (that_waits, 1),
        (at_another_time, 3),
    ]
    how = pick.choices([change for change, _ in likely], [weight for _, weight in likely])[0]
    after = [*history[:place], how(pick, history, noted), *history[place + 1 :]]
    return sorted(after, key=lambda noted: noted.start)


def other_answer(pick: random.Random, _: list[Noted], noted: Noted) -> Noted:
    """A call with an answer near its own."""
    outcome = noted.outcome
    if noted.end is None:
        return noted
    data = plain_model.read_data(outcome.encode()) if noted.act.word in ("read", "pread") else None
    if data is not None:
        at = pick.randrange(len(data)) if data else 0
        other = bytes([data[at] ^ pick.choice([1, 2, 3])]) if data else b"a"
        outcome = plain_model.data_text(data[:at] + other + data[at + 1 :])
    elif outcome.isdigit():
        outcome = str(max(int(outcome) + pick.choice([-1, 1, 2]), 0))
    else:
        outcome = "error ENOENT" if outcome == "ok" else "ok"
    return noted._replace(outcome=outcome)


def answer_of_another(pick: random.Random, history: list[Noted], noted: Noted) -> Noted:
    """A call with the answer of another one with its word."""
    same = [other for other in history if other.act.word == noted.act.word and other.end and noted.end]
    return noted._replace(outcome=pick.choice(same).outcome) if same else noted


def neighbours(history: list[Noted], noted: Noted) -> tuple[int, int | None]:
    """When the call before it ended, of the same process, and when the next one began, if there is one."""
    own = [other for other in history if other.process == noted.process]
    at = next(place for place, other in enumerate(own) if other is noted)
    return own[at - 1].end or 0, own[at + 1].start if at + 1 < len(own) else None


def that_waits(_: random.Random, history: list[Noted], noted: Noted) -> Noted:
    """The last call of a process as one that waits."""
    is_last = neighbours(history, noted)[1] is None
    return noted._replace(end=None, outcome=WAITS) if is_last else noted


def at_another_time(pick: random.Random, history: list[Noted], noted: Noted) -> Noted:
    """A call at another time between those before and after it."""
    if noted.end is None:
        return noted
    before, after = neighbours(history, noted)
    last = noted.end + 5 * TICK if after is None else after
    start = pick.randint(before, last)
    return noted._replace(start=start, end=pick.randint(start, last))


# ---- an order is found if there is one


def is_right(program: str, kind: str, seed: str, number: int) -> None:
    """An order is found for a history if going through all finds one, and for the short part that is told none is."""
    pick, history = made(kind, seed, number)
    is_changed = number % 3 > 0
    history = changed(pick, history) if is_changed else history
    result = explain(history, shrink_seconds=SHRINK_SECONDS)
    try:
        require(not isinstance(result, GivenUp), "given up")
        is_explained = has_order(history)
        require(is_changed or is_explained, "a history that was made so has no order")
        require(isinstance(result, Explained) == is_explained, f"going through all orders finds {is_explained}")
        if isinstance(result, Explained):
            verified(program, history, result.steps)
        elif isinstance(result, Unexplained):
            require(not has_order(result.shrunk), f"an order explains the part\n{history_text(result.shrunk)}")
    except Failure as fault:
        raise Failure(f"{fault}, for\n{history_text(history)}") from None


def of_kinds(
    kinds: Iterable[str], seed: str, count: int, check: Callable[[str, str, int], None]
) -> Iterator[Case]:
    """A check of so many histories of each kind."""
    for kind in kinds:
        for number in range(count):
            yield numbered(kind, seed, number), partial(check, kind, seed, number)


def cases(program: str, seed: str, count: int) -> Iterator[Case]:
    """So many histories of each kind."""
    return of_kinds(KINDS, seed, count, partial(is_right, program))


# ---- what is left out leaves an order


def shorter(pick: random.Random, history: list[Noted]) -> Iterator[tuple[str, list[Noted]]]:
    """Ways to leave something out, each with what is left."""
    touches = Footprints(history).touches
    moments = [noted.end for noted in history if noted.end is not None]
    yield "what comes later", up_to(history, pick.choice(moments))
    silent = [noted for noted, touch in zip(history, touches, strict=True) if is_silent(touch)]
    yield "what disturbs nothing", without(history, {noted for noted in silent if pick.random() < 0.7})
    kept = influencing(touches, pick.randrange(len(history)))
    yield "what is apart", [history[place] for place in sorted(kept)]
    yield "answers", without_answers(history, {noted for noted in history if pick.random() < 0.3})


def keeps_orders(kind: str, seed: str, number: int) -> None:
    """A history that has an order has one when something is left out, and again when more is."""
    pick, history = made(kind, f"{seed} left out", number)
    for _ in range(3):
        how, history = pick.choice(list(shorter(pick, history)))
        if not history:
            return
        require(isinstance(explain(history), Explained), f"without {how} there is no order of\n{history_text(history)}")


def left_out_cases(seed: str, count: int) -> Iterator[Case]:
    """So many histories of each kind, of which something is left out."""
    return of_kinds(KINDS, seed, 4 * count, keeps_orders)


# ---- large histories


class Longest:
    """How long the searches of large histories took."""

    def __init__(self, program: str, seed: str) -> None:
        self.program = program
        self.seed = seed
        self.times: list[tuple[float, str]] = []

    def answers(self, kind: str, is_wrong: bool) -> None:
        """A large history is answered in time, and rightly if it is known to have an order."""
        pick = source(f"{self.seed} large {kind}", int(is_wrong))
        parts = RACES[kind](pick, LARGE_PROCESSES, LARGE_CALLS)
        history = Made(pick, LARGE_SLACK).race(parts).history()
        history = changed(pick, history) if is_wrong else history
        began = time.monotonic()
        result = explain(history, seconds=LARGE_SECONDS, shrink_seconds=0)
        self.times.append((time.monotonic() - began, f"{kind}{' with a change' if is_wrong else ''}"))
        require(is_wrong or isinstance(result, Explained), f"no order was found of\n{history_text(history)}")
        if isinstance(result, Explained):
            verified(self.program, history, result.steps)
        require(not isinstance(result, GivenUp), f"given up after {LARGE_SECONDS} seconds")

    def tell(self) -> None:
        """Prints the longest time."""
        require(self.times, "nothing was searched")
        seconds, kind = max(self.times)
        print(f"{len(self.times)} searches, of which the longest took {seconds:.2f} s: {kind}", flush=True)


def large_cases(program: str, seed: str) -> Iterator[Case]:
    """A large history of each kind, as it is and with a change."""
    longest = Longest(program, seed)
    for kind in RACES:
        yield kind, partial(longest.answers, kind, False)
        yield f"{kind} with a change", partial(longest.answers, kind, True)
    yield "the longest time", longest.tell
