"""All that the calls of a race may answer, found beside the plain model.

The script of a race is acts that are made one after another, a line `race`, and calls. From that line on each process
makes its calls in their order, as soon as the one before has answered. Which process goes next, and when a call that
waits and is ready goes on, is open. An outcome gives each call its answer (docs/FORMATS.md).

`every_order` goes through all orders: each is run by the model from the first line of the script on, nothing is
remembered, and nothing left out. `Explorer` goes through all positions, and through each once: a position is the state
of the world, as `support.worlds` has it, and the answers so far. So it takes longer races. What they share is the
reading of the script, and the words for an answer.
"""

import re
from collections.abc import Iterator, Mapping, Sequence
from typing import NamedTuple

from support import plain_model
from support.frames import ERRORS
from support.plain_model import DEFAULTS, EXPECTED, FIELDS, SCRIPT_MOST, Act, Limits
from support.running import Ran
from support.runs import ALL_RECORDS, line_of
from support.worlds import States

STATES_DEFAULT, STATES_MOST = 300_000, 100_000_000
# Acts of a process that are no calls.
NO_CALLS = ("attach", "resume", "exit")
# Why a line of a race cannot stand where it does, and what can.
NOT_A_CALL = "not a call\nexpected a call of a process, as p0 read 0 5"
REFUSED = "refused\nexpected an act that leaves a record: a join, an attach, or a call or exit of an attached process"
WAITS = "waits\nexpected a call that comes back before the race"
NOT_ATTACHED = "not attached\nexpected a call of a process that is attached when the race begins"
NOT_AN_ANSWER = "not an answer\nexpected ? or an answer, as 5, x6869, ok, error EBADF, waits 0 or -"
NO_RACE = "no race\nexpected a line race after the acts before it"
# What could stand before a race, and in one, where something else could in a script without one.
BEFORE_RACE = {EXPECTED[plain_model.read_actor]: "a process, as p0, or join or race"}
IN_RACE = {EXPECTED[plain_model.read_actor]: "a process, as p0", EXPECTED[plain_model.read_call]: "a call"}
COUNT_MOST, NUMBER_MOST = 2**32 - 1, 2**64 - 1


# ---- the script


class BadRace(Exception):
    """A script that is not searched: what is told of it."""


class Call(NamedTuple):
    """A call of a race: the number of its line, the call, and the answer that is asked for, if one is."""

    line: int
    act: Act
    asked: str | None = None

    @property
    def process(self) -> int:
        """The number of the process that makes it."""
        assert isinstance(self.act.actor, int)
        return self.act.actor


class Race(NamedTuple):
    """The acts before a race, with the numbers of their lines, and its calls."""

    setup: list[tuple[int, Act]]
    calls: list[Call]

    def lanes(self) -> dict[int, list[Act]]:
        """The calls of each process, in their order."""
        lanes: dict[int, list[Act]] = {}
        for call in self.calls:
            lanes.setdefault(call.process, []).append(call.act)
        return lanes

    def answers(self, told: Mapping[int, Sequence[str]]) -> list[str]:
        """The answer of each call, where each process was told these outcomes."""
        left = {process: iter(outcomes) for process, outcomes in told.items()}
        return [answer_of(next(left[call.process], None)) for call in self.calls]

    def agrees(self, answers: Sequence[str]) -> bool:
        """Whether each answer that is asked for is given."""
        return all(call.asked in (None, answer) for call, answer in zip(self.calls, answers, strict=True))

    def text(self, answers: Sequence[str] = ()) -> str:
        """The script, without what it asks for, but with these answers behind its first calls."""
        lines = [script_line(act) for _, act in self.setup] + ["race"]
        calls = [plain_model.act_text(call.act) for call in self.calls]
        asked = [f" = {answer}" for answer in answers] + [""] * (len(calls) - len(answers))
        return "".join(f"{line}\n" for line in [*lines, *map("".join, zip(calls, asked, strict=True))])


def script_line(act: Act) -> str:
    """The line of a script that asks for an act."""
    return act.word if act.word in ("join", "close-run") else plain_model.act_text(act)


def answer_of(outcome: str | None) -> str:
    """The answer of a call by its last outcome, if it has one."""
    if outcome is None:
        return "-"
    word, _, moved = outcome.partition(" ")
    return f"waits {moved}" if word in ("parked", "part") else outcome


def read_answer(text: str) -> str | None:
    """The answer that is asked for, as it is written in an outcome; `?` asks for none."""
    if text == "?":
        return None
    first, *others = text.split(" ")
    data = plain_model.read_data(first.encode("latin-1"))
    is_known = {
        "waits": len(others) == 1 and is_number(others[0], COUNT_MOST),
        "error": len(others) == 1 and others[0] in ERRORS,
        "-": not others,
        "ok": not others,
        **dict.fromkeys(("regular", "fifo", "pipe"), len(others) == 2 and all(map(is_number, others))),
    }
    if data is not None and not others:
        return plain_model.data_text(data)
    if not is_known.get(first, is_number(first) and (not others or (len(others) == 1 and is_number(others[0])))):
        raise ValueError(text)
    return text


def is_number(word: str, most: int = NUMBER_MOST) -> bool:
    """Whether a word is a number from 0 on, as it is written."""
    return re.fullmatch(r"0|[1-9][0-9]{0,19}", word, re.ASCII) is not None and int(word) <= most


def read_act(words: bytes, line: bytes, number: int, others: Mapping[str, str]) -> Act:
    """The act that words of a line are, in a part of a race where others could stand than in a script without one."""
    try:
        return plain_model.read_act(words)
    except plain_model.NotAnAct as fault:
        column, expected = fault.args
        expected = plain_model.NO_RETURN if line.endswith(b"\r") else others.get(expected, expected)
        raise BadRace(f"line {number} column {column}: not an act\nexpected {expected}") from None


def read_call(line: bytes, number: int) -> Call:
    """The call of a line, and what is asked for behind it."""
    before, is_asked, asked = line.partition(b" = ")
    act = read_act(before, line, number, IN_RACE)
    if act.word not in FIELDS or act.word in NO_CALLS:
        raise BadRace(f"line {number}: {NOT_A_CALL}")
    try:
        return Call(number, act, read_answer(asked.decode("latin-1")) if is_asked else None)
    except ValueError:
        raise BadRace(f"line {number} column {len(before) + 4}: {NOT_AN_ANSWER}") from None


def read_race(text: bytes) -> Race:
    """The race that a script is."""
    if len(text) > SCRIPT_MOST:
        raise BadRace(plain_model.TOO_LONG)
    race = Race([], [])
    has_begun = False
    for number, line in enumerate(text.split(b"\n"), 1):
        if not has_begun and line == b"race":
            has_begun = True
        elif line and has_begun:
            race.calls.append(read_call(line, number))
        elif line:
            race.setup.append((number, read_act(line, line, number, BEFORE_RACE)))
    if not has_begun:
        raise BadRace(NO_RACE)
    return race


# ---- every order


class Went(NamedTuple):
    """The run of an order, and the last outcomes that each process was told."""

    run: plain_model.Run
    told: dict[int, list[str]]


def ran(race: Race, order: Sequence[int], limits: Limits) -> Went:
    """What comes of a race where the processes move in this order: each goes on with a call that waits, or makes its
    next one."""
    lanes = race.lanes()
    went = Went(plain_model.Run(ALL_RECORDS, limits), {process: [] for process in lanes})
    for _, act in race.setup:
        went.run.take(act)
    for process in order:
        told = went.told[process]
        if went.run.world.processes[process].waits:
            went.run.take(Act(process, "resume"))
            told.pop()
        else:
            went.run.take(lanes[process][len(told)])
        told.append(line_of(went.run.lines[-1].rstrip("\n")).outcome)
    return went


def can_move(went: Went, process: int, calls: Sequence[Act]) -> bool:
    """Whether a process can go on with a call that waits, or has one to make."""
    waits = went.run.world.processes[process].waits
    return waits.is_ready(went.run.world) if waits else len(went.told[process]) < len(calls)


def every_order(race: Race, limits: Limits = DEFAULTS, order: Sequence[int] = ()) -> Iterator[list[str] | None]:
    """For each order of moves that begins so, the answers where nothing can move any more after it, and else None."""
    went = ran(race, order, limits)
    movers = [process for process, calls in race.lanes().items() if can_move(went, process, calls)]
    yield None if movers else race.answers(went.told)
    for process in movers:
        yield from every_order(race, limits, (*order, process))


# ---- every position


class Position(NamedTuple):
    """The number of a state, and of each process the last outcomes of the calls that it has begun."""

    state: int
    told: tuple[tuple[str, ...], ...]


class Move(NamedTuple):
    """The position before a move, the act, and its outcome."""

    before: Position
    act: Act
    outcome: str


class Explorer:
    """Goes through all positions of a race; of each it is known how many orders begin there, and a move to it."""

    def __init__(self, race: Race, limits: Limits = DEFAULTS) -> None:
        self.race = race
        self.states = States(limits)
        self.lanes = list(race.lanes().items())
        self.records: list[tuple[Act, str]] = []
        self.met: dict[object, int] = {}
        self.by: dict[Position, Move] = {}
        self.ends: list[Position] = []
        self.start = Position(self.set_up(), ((),) * len(self.lanes))
        self.orders = self.orders_from(self.start)

    def set_up(self) -> int:
        """The state in which the race begins."""
        state = 0
        for line, act in self.race.setup:
            outcome, after = self.states.after(state, act)
            if outcome is None or act.word == "close-run":
                raise BadRace(f"line {line}: {REFUSED}")
            if outcome.startswith("parked "):
                raise BadRace(f"line {line}: {WAITS}")
            actor = self.states.all[state].next_number if act.word == "join" else act.actor
            self.records.append((act._replace(actor=actor), outcome))
            state = after
        attached = [who[0] for who in self.states.all[state].processes if who[1]]
        for call in self.race.calls:
            if call.process not in attached:
                raise BadRace(f"line {call.line}: {NOT_ATTACHED}")
        return state

    def orders_from(self, position: Position) -> int:
        """How many orders begin at a position, that of no move among them."""
        known = self.met.get(self.key(position))
        if known is None:
            moves = [self.moved(position, number) for number in range(len(self.lanes))]
            after = [it for it in moves if it is not None]
            if not after:
                self.ends.append(position)
            known = self.met[self.key(position)] = 1 + sum(map(self.orders_from, after))
        return known

    def key(self, position: Position) -> object:
        """What is remembered of a position."""
        return position

    def moved(self, position: Position, number: int) -> Position | None:
        """Where the next move of a process leads, if it can move."""
        process, calls = self.lanes[number]
        told = position.told[number]
        is_waiting = process in self.states.waiting[position.state]
        if not is_waiting and len(told) == len(calls):
            return None
        act = Act(process, "resume") if is_waiting else calls[len(told)]
        outcome, state = self.states.after(position.state, act)
        if outcome is None:
            return None
        told = (*(told[:-1] if is_waiting else told), outcome)
        after = Position(state, (*position.told[:number], told, *position.told[number + 1 :]))
        self.by.setdefault(after, Move(position, act, outcome))
        return after

    def answers(self, position: Position) -> list[str]:
        """The answers at a position."""
        return self.race.answers({process: position.told[at] for at, (process, _) in enumerate(self.lanes)})

    def found(self) -> dict[str, Position]:
        """The text of each outcome that agrees with what is asked for, in the order of their bytes, with an end."""
        ends = {", ".join(self.answers(end)): end for end in self.ends if self.race.agrees(self.answers(end))}
        return dict(sorted(ends.items()))

    def texts(self) -> list[str]:
        """The text of each outcome that agrees with what is asked for, in the order of their bytes."""
        return list(self.found())

    def witness(self, end: Position) -> list[tuple[Act, str]]:
        """The acts of an order that leads to a position, from the first line of the script on, with their outcomes."""
        moves: list[tuple[Act, str]] = []
        while end != self.start:
            end, act, outcome = self.by[end]
            moves.append((act, outcome))
        return [*self.records, *reversed(moves)]


# ---- what is printed


def race_lines(race: Race) -> list[str]:
    """The lines of the calls."""
    return [f"race {number} {plain_model.act_text(call.act)}" for number, call in enumerate(race.calls)]


def printed(race: Race, texts: Sequence[str], states: int) -> Ran:
    """What the program gives for a race that has these outcomes, and so many positions."""
    outcomes = [f"outcome {number}: {text}" for number, text in enumerate(texts)]
    lines = [*race_lines(race), *outcomes, f"outcomes {len(texts)} states {states}"]
    return Ran(0 if texts else 1, "".join(f"{line}\n" for line in lines).encode(), b"")


def too_many(states: int) -> Ran:
    """What the program gives for a race that has more positions than so many."""
    expected = f"at most {states} states; --states takes up to {STATES_MOST}"
    return Ran(9, b"", f"too many states: more than {states}\nexpected {expected}\n".encode())


def record_lines(records: Sequence[tuple[Act, str]]) -> list[str]:
    """The lines of records from place 0 on."""
    return [f"{place} {plain_model.act_text(act)} = {outcome}" for place, (act, outcome) in enumerate(records)]
