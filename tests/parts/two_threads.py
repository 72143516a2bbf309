"""A model of the two threads of one session, in atomic steps, with its client and its kernel as far as they matter.

The *pump* reads pieces, pushes the requests that they complete into a ring, and rings. The *desk* is what answers need.
Its place is under a mutex, which the *answerer* has at the start, until the desk is put there. At a bell the pump waits
for the mutex and answers itself what is in the ring. Where a call waits it wakes the answerer, who takes the desk away,
waits in the call without the mutex, and puts the desk back when the call has ended. A bell that finds no desk wakes
the answerer, and answers nothing.

Where the ring is full the pump rings for room and tries once more; then it is ahead, which is an end as that of the
input is. After its end it marks the note, wakes the answerer, waits in the note until the process of the session is
known, and tells the kernel that this one is lost. The answerer leaves once it has seen the mark, or when the session is
over. It joins the pump, answers what is left in the ring, and hangs the process up.

The model is written from what the program promises, and reads nothing of it. `Session.steps` gives the steps that are
possible in a state. What must not be raises `Broken`: in a step, in `rests` or in `has_ended`.
"""

from collections.abc import Callable, Iterator
from typing import Any, NamedTuple

# For how many requests a ring has room; that of the program has room for sixteen.
ROOMS = (1, 2)

# A request has so many bytes, so a piece may end in the middle of one.
BYTES = 2

# The requests: an opening, one that is refused, a call that is ready, and one that waits. An opening is out of place
# later on, and a call at the start.
OPENING, REFUSED, READY, WAITING = "o", "r", "c", "w"

# How a client goes: it stays until it is hung up on, sends nothing more and reads on, or vanishes, so that writes fail.
STAYS, STOPS, VANISHES = MANNERS = ("stays", "stops", "vanishes")

# How a session is over before its input is.
OVER = ("refused", "misplaced", "unwritten", "given up")

# What the note tells: nothing yet, that there is no process, or which one it is. Another session has process 0.
UNKNOWN, NOBODY, PROCESS = 0, -1, 1

PUMP, ANSWERER = "pump", "answerer"


class Broken(Exception):
    """What must not be."""


class State(NamedTuple):
    """Where both threads are, and all that they share."""

    # the next step of each thread, and the request that it took out of the ring and has not answered yet
    pump: str = "read"
    answerer: str = "put the desk there"
    pump_has: int | None = None
    answerer_has: int | None = None
    # whether the pump rings for room; whether the answerer has seen the mark, and whether it has joined the pump
    for_room: bool = False
    has_seen: bool = False
    has_joined: bool = False
    # how many bytes were read, and how many requests went into the ring and came out of it
    taken: int = 0
    pushed: int = 0
    popped: int = 0
    # who has the mutex; the desk: whether it is away, how the session stands, and whether answers are gathered
    holder: str | None = ANSWERER
    is_away: bool = True
    stage: str = "opening"
    is_gathered: bool = False
    # the note: the mark of the pump, and the process
    is_marked: bool = False
    noted: int = UNKNOWN
    # whether the answerer has the token that wakes it, and whether the connection is shut
    has_token: bool = False
    is_shut: bool = False
    # the kernel: whether the process is live, whether the call that it waits in is ready, and whether it is lost
    is_live: bool = False
    is_ready: bool = False
    is_lost: bool = False
    # whether a call has gone on in part, which happens once at most
    has_parted: bool = False
    # how many processes were opened, exits recorded, processes told lost, and requests answered
    opened: int = 0
    exits: int = 0
    losses: int = 0
    answered: int = 0
    # whether the pump is ahead, and whether it rang for room in vain though no call waited
    is_ahead: bool = False
    is_needless: bool = False


# What a step is called, and the state after it.
Step = tuple[str, State]


class Session:
    """A session: what its client sends, how that one goes, and what its threads do wrong."""

    def __init__(self, requests: str, manner: str, room: int, faults: frozenset[str] = frozenset()) -> None:
        self.requests = requests
        self.manner = manner
        self.room = room
        self.faults = faults
        self.alone: dict[str, dict[str, Callable[[State], Iterator[Step]]]] = {
            PUMP: {
                "read": self.reads,
                "push": self.pushes,
                "ring": self.rings,
                "wake": self.wakes,
                "push again": self.pushes_again,
                "mark": self.marks,
                "wake at the end": self.wakes_at_the_end,
                "wait in the note": self.waits_in_the_note,
                "tell lost": self.tells_lost,
            },
            ANSWERER: {
                "put the desk there": self.puts_there,
                "look": self.looks,
                "lock": self.locks,
                "finish": self.finishes,
                "tell a part": self.tells_a_part,
                "put the desk back": self.puts_back,
                "park": self.parks,
                "leave": self.leaves,
                "join": self.joins,
                "close": self.closes,
            },
        }
        self.at_the_desk: dict[str, Callable[[State, str], State]] = {
            "take": self.takes,
            "answer": self.answers,
            "note": self.notes,
            "write": self.writes,
            "hang up": self.hangs_up,
            "shut": self.shuts,
            "unlock": self.unlocks,
            "look late": self.looks_late,
        }

    def name(self) -> str:
        """What tells it from other sessions."""
        return f"{self.requests or 'nothing'}, a client that {self.manner}, room for {self.room}"

    def start(self) -> State:
        """The state in which both threads begin."""
        return State(holder=None if "the mutex is free before the desk is there" in self.faults else ANSWERER)

    def steps(self, state: State) -> Iterator[Step]:
        """The steps that the threads can do next: none where both wait or have ended."""
        for who, here in ((PUMP, state.pump), (ANSWERER, state.answerer)):
            if here in self.at_the_desk:
                yield f"{who}: {here}", self.at_the_desk[here](state, who)
                if here == "write" and state.is_gathered and self.manner == VANISHES:
                    yield f"{who}: fail to write", at(state, who, "hang up", stage="unwritten")
            elif here in self.alone[who]:
                yield from self.alone[who][here](state)

    def events(self, state: State) -> Iterator[Step]:
        """What others may do at any time, or never: make the call ready that waits."""
        if state.stage == "waiting" and state.is_live and not state.is_ready:
            yield "others: make the call ready", state._replace(is_ready=True)

    # ---- the pump

    def reads(self, state: State) -> Iterator[Step]:
        """A piece of what is left, wherever that ends, or the end."""
        left = BYTES * len(self.requests) - state.taken
        for count in range(1, left + 1):
            taken = state.taken + count
            after = at(state, PUMP, self.after(taken, state.pushed), taken=taken, for_room=False)
            yield f"pump: read {count} of {left} bytes", after
        if state.is_shut or (self.manner != STAYS and not left):
            yield "pump: meet the end", at(state, PUMP, "mark")

    def after(self, taken: int, pushed: int) -> str:
        """What comes next: to push one request more of what was read, or to ring at its end."""
        return "push" if taken // BYTES > pushed else "ring"

    def pushes(self, state: State) -> Iterator[Step]:
        """Pushes the next request of a piece, or rings for room."""
        if state.pushed - state.popped < self.room:
            yield "pump: push", self.pushed(state)
        else:
            yield "pump: find the ring full", at(state, PUMP, "ring", for_room=True)

    def pushed(self, state: State) -> State:
        """One request more is in the ring."""
        pushed = state.pushed + 1
        return at(state, PUMP, self.after(state.taken, pushed), pushed=pushed, for_room=False, is_needless=False)

    def rings(self, state: State) -> Iterator[Step]:
        """Waits for the mutex."""
        if state.holder is None:
            yield "pump: lock", at(state, PUMP, "take", holder=PUMP)
        elif "it answers without the mutex" in self.faults:
            yield "pump: go on without the mutex", at(state, PUMP, "take")
        elif "it does not wait for the mutex" in self.faults:
            yield "pump: find the mutex taken", at(state, PUMP, "wake", is_needless=is_needless(state))

    def wakes(self, state: State) -> Iterator[Step]:
        """Wakes the answerer."""
        after = "push again" if state.for_room else "read"
        fault = "it wakes nobody where the desk is away" if state.is_away else "it wakes nobody for a call"
        yield "pump: wake", at(self.woken(state, fault in self.faults), PUMP, after)

    def pushes_again(self, state: State) -> Iterator[Step]:
        """Tries once more after it has rung for room."""
        if state.pushed - state.popped < self.room:
            yield "pump: push again", self.pushed(state)
        else:
            yield "pump: be ahead", at(state, PUMP, "mark", is_ahead=True)

    def marks(self, state: State) -> Iterator[Step]:
        """Marks the note."""
        yield "pump: mark the note", at(state, PUMP, "wake at the end", is_marked="it marks nothing" not in self.faults)

    def wakes_at_the_end(self, state: State) -> Iterator[Step]:
        """Wakes the answerer, so that it sees the mark."""
        after = "tell lost" if "it does not wait in the note" in self.faults else "wait in the note"
        is_forgotten = "it wakes nobody at its end" in self.faults
        yield "pump: wake at the end", at(self.woken(state, is_forgotten), PUMP, after)

    def woken(self, state: State, is_forgotten: bool) -> State:
        """The answerer has a token, of which there is one at most."""
        is_wasted = "a token is lost where nobody sleeps" in self.faults and state.answerer != "park"
        return state if is_forgotten or is_wasted else state._replace(has_token=True)

    def waits_in_the_note(self, state: State) -> Iterator[Step]:
        """Waits until the process is known, or that there is none."""
        if state.noted != UNKNOWN:
            yield "pump: read the note", at(state, PUMP, "tell lost")

    def tells_lost(self, state: State) -> Iterator[Step]:
        """Tells that the process is lost, which changes nothing where it has ended."""
        is_nobody = state.noted == UNKNOWN and "it takes who is unknown for nobody" in self.faults
        if state.noted == NOBODY or is_nobody or "it loses nobody" in self.faults:
            yield "pump: end", at(state, PUMP, "done")
        else:
            require(state.noted == PROCESS, "the process of another session is told lost")
            after = at(state, PUMP, "done", losses=state.losses + 1, is_lost=state.is_live)
            yield "pump: tell the process lost", after

    # ---- the answerer

    def puts_there(self, state: State) -> Iterator[Step]:
        """Puts the desk there for the first time, and leaves the mutex."""
        if state.holder in (None, ANSWERER):
            yield "answerer: put the desk there", at(state, ANSWERER, "look", holder=None, is_away=False)

    def looks(self, state: State) -> Iterator[Step]:
        """Looks for the mark, before it looks into the ring."""
        has_seen = state.is_marked and "it looks for the mark after the ring" not in self.faults
        yield "answerer: look for the mark", at(state, ANSWERER, "lock", has_seen=has_seen)

    def locks(self, state: State) -> Iterator[Step]:
        """Waits for the mutex."""
        if state.holder is None:
            yield "answerer: lock", at(state, ANSWERER, "take", holder=ANSWERER)

    def finishes(self, state: State) -> Iterator[Step]:
        """Waits until the call is ready, and ends or goes on in part, or until it is not and the process is lost."""
        if state.is_ready:
            after = at(state, ANSWERER, "put the desk back", stage="gone on", is_ready=False, is_gathered=True)
            yield "answerer: finish the call", after
            if not state.has_parted:
                part = at(state, ANSWERER, "tell a part", has_parted=True, is_ready=False, is_gathered=True)
                yield "answerer: go on in part", part
        elif state.is_lost:
            yield "answerer: give the call up", at(state, ANSWERER, "shut", stage="given up", **exit_of(state))

    def tells_a_part(self, state: State) -> Iterator[Step]:
        """Writes that the call has gone on in part, while the desk is away, and waits again."""
        yield "answerer: tell a part", at(state, ANSWERER, "finish", is_gathered=False)
        if self.manner == VANISHES:
            yield "answerer: fail to tell a part", at(state, ANSWERER, "hang up", stage="unwritten")

    def puts_back(self, state: State) -> Iterator[Step]:
        """Waits for the mutex, and puts the desk back."""
        if state.holder is None or not state.is_away:
            stage = "going" if state.stage == "gone on" else state.stage
            after = at(state, ANSWERER, "take", holder=ANSWERER, is_away=False, stage=stage)
            yield "answerer: put the desk back", after

    def parks(self, state: State) -> Iterator[Step]:
        """Sleeps until there is a token, which is gone then."""
        if state.has_token:
            yield "answerer: wake up", at(state, ANSWERER, "look", has_token=False)

    def leaves(self, state: State) -> Iterator[Step]:
        """Notes that there is no process, where none is noted."""
        is_unknown = state.noted == UNKNOWN and "it notes nothing" not in self.faults
        yield "answerer: leave", at(state, ANSWERER, "join", noted=NOBODY if is_unknown else state.noted)

    def joins(self, state: State) -> Iterator[Step]:
        """Waits until the pump has ended; then all is its own."""
        if state.pump == "done":
            after = "close" if "it drops what is left at the join" in self.faults else "take"
            yield "answerer: join the pump", at(state, ANSWERER, after, holder=ANSWERER, has_joined=True)

    def closes(self, state: State) -> Iterator[Step]:
        """Hangs the process up, if it is live still."""
        is_over = state.stage in OVER and "it hangs up again at the join" not in self.faults
        is_left = is_over or not state.opened or "it hangs nobody up" in self.faults
        yield "answerer: close the session", at(state, ANSWERER, "done", **({} if is_left else exit_of(state)))

    # ---- whoever has the mutex, and so the desk if it is there

    def takes(self, state: State, who: str) -> State:
        """Takes the next request out of the ring, if there is one to answer."""
        if who == PUMP and (state.is_away or state.stage == "waiting"):
            return at(state, who, "unlock", is_needless=is_needless(state))
        if state.stage in OVER:
            return at(state, who, "unlock")
        if state.stage == "waiting":
            stays = "it leaves the desk there while it waits" in self.faults or state.has_joined
            return at(state, who, "finish", holder=ANSWERER if stays else None, is_away=not stays)
        if state.popped < state.pushed:
            return at(state, who, "answer", popped=state.popped + 1, **{f"{who}_has": state.popped})
        # nothing has to be written where only room was wanted
        is_put_off = who == PUMP and (state.for_room or "it writes no answers" in self.faults)
        if state.is_gathered and not is_put_off:
            return at(state, who, "write")
        return at(state, who, "unlock")

    def answers(self, state: State, who: str) -> State:
        """Answers the request that it has, by one event of the kernel."""
        number = state.answered
        has = state.pump_has if who == PUMP else state.answerer_has
        require(has == number, f"request {has} comes after {number} others")
        require(state.stage in ("opening", "going"), f"request {has} is answered when the session is {state.stage}")
        request = self.requests[number]
        changes: dict[str, Any] = {f"{who}_has": None}
        if (state.stage == "opening") != (request in (OPENING, REFUSED)):
            after = "note" if state.stage == "opening" else "write"
            return at(state, who, after, stage="misplaced", **changes)
        state = state._replace(answered=number + 1, is_gathered=True, **changes)
        if request == OPENING:
            return at(state, who, "note", stage="going", is_live=True, opened=state.opened + 1)
        if request == REFUSED:
            return at(state, who, "note", stage="refused")
        if request == WAITING:
            is_unwritten = "it waits before it writes" in self.faults
            return at(state, who, "take" if is_unwritten else "write", stage="waiting")
        return at(state, who, "take")

    def notes(self, state: State, who: str) -> State:
        """Notes the process, or that there is none."""
        noted = state.noted if "it notes nothing" in self.faults else PROCESS if state.is_live else NOBODY
        return at(state, who, "take" if state.stage == "going" else "write", noted=noted)

    def writes(self, state: State, who: str) -> State:
        """Writes what is gathered."""
        return at(state, who, "hang up" if state.stage in OVER else "take", is_gathered=False)

    def hangs_up(self, state: State, who: str) -> State:
        """Hangs the process of a session up that is over, if there is one."""
        return at(state, who, "shut", **(exit_of(state) if state.opened else {}))

    def shuts(self, state: State, who: str) -> State:
        """Shuts the connection in both directions."""
        is_shut = "it leaves the connection open" not in self.faults
        return at(state, who, "put the desk back" if state.is_away else "unlock", is_shut=is_shut)

    def unlocks(self, state: State, who: str) -> State:
        """Leaves the mutex, and goes on as the session stands."""
        is_late = "it looks for the mark after the ring" in self.faults
        if who == PUMP:
            waits = state.is_away or state.stage == "waiting"
            after = "wake" if waits else "push again" if state.for_room else "read"
        elif state.has_joined:
            after = "close"
        elif is_late:
            after = "look late"
        else:
            after = "leave" if state.has_seen or state.stage in OVER else "park"
        return at(state, who, after, holder=None if state.holder == who else state.holder)

    def looks_late(self, state: State, who: str) -> State:
        """Looks for the mark when it has looked into the ring already."""
        return at(state, who, "leave" if state.is_marked or state.stage in OVER else "park")

    # ---- what must hold

    def is_at_its_end(self, state: State) -> bool:
        """Whether both threads have ended."""
        return state.pump == state.answerer == "done"

    def rests(self, state: State) -> None:
        """What must hold where no thread can go on: the client stays, and all is answered up to a call that waits."""
        require(
            self.manner == STAYS and state.pump == "read" and state.taken == BYTES * len(self.requests),
            f"the pump is stuck at {state.pump!r}, the answerer at {state.answerer!r}",
        )
        require(not state.is_gathered, "an answer is not written")
        if state.stage == "waiting":
            require(state.answerer == "finish" and not state.is_ready, "a call waits, and nobody waits for it")
        else:
            require(state.stage in ("opening", "going"), f"the session is {state.stage}, and its client not hung up on")
            require(state.answered == state.pushed, f"{state.answered} of {state.pushed} requests are answered")

    def has_ended(self, state: State) -> None:
        """What must hold where both threads have ended."""
        require(state.exits == state.opened, f"{state.exits} exits of {state.opened} processes are recorded")
        require(state.losses <= state.opened, f"{state.losses} of {state.opened} processes are told lost")
        require(state.is_gathered == (state.stage == "unwritten"), "an answer is not written")
        is_whole = state.is_ahead or state.pushed == len(self.requests)
        last, after = self.requests[: state.answered][-1:], self.requests[state.answered :][:1]
        require(not (state.is_ahead and state.is_needless), "it is ahead, and no call waits")
        is_right = {
            "opening": not self.requests,
            "going": is_whole and state.answered == state.pushed,
            "refused": state.answered == 1 and last == REFUSED,
            "misplaced": (after in (OPENING, REFUSED)) == (state.answered > 0),
            "given up": last == WAITING and (state.is_ahead or self.manner != STAYS),
            "unwritten": self.manner == VANISHES,
        }
        told = f"{state.answered} of {state.pushed} requests are answered, and the session is {state.stage}"
        require(is_right.get(state.stage, False), told)


def require(condition: bool, text: str) -> None:
    """Fails with a text unless a condition holds."""
    if not condition:
        raise Broken(text)


def at(state: State, who: str, step: str, **changes: Any) -> State:
    """A thread comes to a step, and more is changed."""
    return state._replace(pump=step, **changes) if who == PUMP else state._replace(answerer=step, **changes)


def is_needless(state: State) -> bool:
    """Whether a bell for room rings in vain, though no call waits and the session is not over."""
    return state.for_room and state.stage in ("opening", "going")


def exit_of(state: State) -> dict[str, Any]:
    """What is changed where the exit of the process is recorded."""
    require(state.is_live, "an exit is recorded again")
    return {"is_live": False, "is_ready": False, "exits": state.exits + 1}
