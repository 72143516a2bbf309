"""Random histories of threads, which share descriptors: an order is found of each that has one, and of no other."""

import random
from collections.abc import Iterator, Sequence
from functools import partial

from support.auditing import act_of
from support.counting import Case, Failure, require
from support.histories import Noted, history_text
from support.lanes import Lane
from support.plain_model import DEFAULTS
from support.replaying import verified
from support.searching import Step
from support.sources import source
from support.worlds import States

from parts.made_histories import TICK
from parts.random_histories import answer_of_another, of_kinds, other_answer
from thread_order import ThreadSearch

STATES_MOST, SECONDS = 200_000, 60
SLACKS = (1, 3, 6)
LANES, CALLS = 3, 3

# What threads do before they are several, and the calls that each of them may make. F and G are descriptors.
SETUPS = {
    "one offset": ("open a rw,creat",),
    "appends": ("open a rw,creat,append", "open a rw,append"),
    "descriptors": ("open a rw,creat", "open b rw,creat"),
    "a pipe": ("pipe", "setfl 0 r,nonblock"),
    "names": ("open a rw,creat", "open b rw,creat", "write 0 x7a7a"),
}
CALLS_OF = {
    "one offset": ("write 0 xDD", "write 0 xDDDD", "write 0 xDD", "open a r", "read 1 2", "pread 0 0 9", "close 1"),
    "appends": ("write 0 xDD", "write 1 xDDDD", "pread 0 0 9", "fstat 1", "dup 0", "close F", "write F xDD"),
    "descriptors": ("close F", "open a r", "open b rw", "dup F", "dup2 F G", "write F xDD", "read F 2", "pread F 0 9"),
    "a pipe": ("write 1 xDD", "write 1 xDDDD", "read 0 1", "read 0 3", "dup 1", "close F", "write F xDD", "read F 2"),
    "names": ("open a rw", "open a rw,trunc", "unlink a", "rename b a", "link a b", "write F xDD", "pread F 0 9")
    + ("lseek F 0 set", "ftruncate F 1", "setfl 0 r,append", "pwrite F 1 xDD", "read F 3"),
}


class Maker:
    """Makes a history of a process with several threads, in which one call takes effect after another."""

    def __init__(self, pick: random.Random, kind: str) -> None:
        self.pick = pick
        self.kind = kind
        self.states = States(DEFAULTS)
        self.state = 0
        self.now = 0
        # of each thread the calls, which begin and end when they take effect
        self.lanes: list[list[Noted]] = [[] for _ in range(LANES)]

    def call(self, text: str) -> str:
        """A call of a table, with descriptors and bytes."""
        for mark, choices in (("F", "0123"), ("G", "0123"), ("DD", [f"{byte:x}" for byte in b"abcdefg"])):
            while mark in text:
                text = text.replace(mark, self.pick.choice(choices), 1)
        return text

    def take(self, lane: int, text: str) -> str | None:
        """What a call of a thread gives, or None where it would wait, and is not made."""
        act = act_of(f"p0 {text}")
        outcome, state = self.states.after(self.state, act._replace(actor=None) if text == "join" else act)
        if outcome is None or outcome.startswith("parked "):
            return None
        self.state, self.now = state, self.now + TICK
        self.lanes[lane].append(Noted(self.now, self.now, act, outcome))
        return outcome

    def history(self) -> list[Lane]:
        """The calls of each thread."""
        for text in ("join", *SETUPS[self.kind]):
            require(self.take(0, text) is not None, f"{text} waits")
        first = self.now
        for lane in self.pick.sample([*range(LANES)] * CALLS, LANES * CALLS):
            self.take(lane, self.call(self.pick.choice(CALLS_OF[self.kind])))
        fd = self.take(0, "open a r")
        self.take(0, f"pread {fd} 0 99" if fd and fd.isdigit() else "close 9")
        slack = self.pick.choice(SLACKS) * TICK
        return [self.spread(lane, first, slack) for lane in self.lanes if lane]

    def spread(self, lane: Lane, first: int, slack: int) -> Lane:
        """The same calls with times around those at which they took effect, after a first one."""
        found: list[Noted] = []
        nexts = [noted.start for noted in lane[1:]]
        before = first + 1
        for noted, after in zip(lane, [*nexts, self.now + slack], strict=True):
            if noted.start > first:
                start = self.pick.randint(max(before, noted.start - slack), noted.start)
                before = self.pick.randint(noted.start, min(after, noted.start + slack))
                noted = noted._replace(start=start, end=before)
            found.append(noted)
        return found


class Untold:
    """What is known of the writes of lanes where no answer is looked at."""

    is_possible = True

    def may_be(self, *_: object) -> bool:
        """Whatever has been written may stay."""
        return True


def changed(pick: random.Random, lane: Lane) -> Lane:
    """The same calls, of which one has another answer."""
    place = pick.choice([place for place, noted in enumerate(lane) if noted.act.word != "join"])
    how = pick.choice([other_answer, answer_of_another])
    return [*lane[:place], how(pick, [*lane], lane[place]), *lane[place + 1 :]]


def order_of(lanes: Sequence[Lane], is_told: bool) -> list[tuple[Step, Noted]] | None:
    """The order that is found of lanes, with what their answers tell, or without."""
    search = ThreadSearch(lanes, DEFAULTS, STATES_MOST, SECONDS)
    if not is_told:
        search.told = Untold()  # type: ignore[assignment]
    return search.order()


def is_right(program: str, kind: str, seed: str, number: int) -> None:
    """An order is found of a history that was made so. One with another answer has one if the search finds it that
    looks at no later answers."""
    pick = source(f"{seed} threads {kind}", number)
    lanes = Maker(pick, kind).history()
    is_changed = number % 3 > 0
    if is_changed:
        at = pick.randrange(len(lanes))
        lanes[at] = changed(pick, lanes[at])
    found = order_of(lanes, is_told=True)
    told = "".join(f"thread {at}\n{history_text(lane)}" for at, lane in enumerate(lanes))
    try:
        require(is_changed or found is not None, "a history that was made so has no order")
        if found is None:
            require(order_of(lanes, is_told=False) is None, "there is an order")
        else:
            calls = {id(noted): noted for _, noted in found}
            verified(program, [*calls.values()], [step for step, _ in found])
    except Failure as fault:
        raise Failure(f"{fault}, for\n{told}") from None


def cases(program: str, seed: str, count: int) -> Iterator[Case]:
    """So many histories of each kind."""
    return of_kinds(SETUPS, seed, count, partial(is_right, program))
