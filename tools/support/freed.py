"""Orders of a history in which a write to a pipe that is not to wait takes what reads free while it goes on.

Such a write of more than PIPE_BUF bytes ends when the pipe is full. Where a read goes on at the same time, the write
may have filled the pipe before it, and take some of what the read frees. So it gives no fewer bytes than there was room
for at some moment of its time, and no more than went in with what the reads of that time have freed.
"""

from collections.abc import Iterator, Mapping, Sequence

from support.footprints import Touch
from support.histories import WAITS, Noted
from support.pieces import ends_in, is_past_most, is_short, with_data
from support.plain_model import PIPE_BUF, Limits
from support.searching import Call, Place, Search, Step
from support.sharing import data_of, file_of, held, is_of_pipe
from support.worlds import behind


def writes_beside_reads(history: Sequence[Noted], touches: Sequence[Touch]) -> list[int]:
    """The places of the short writes to what may be a pipe that overlap a read of it which gave bytes."""
    reads = [at for at, noted in enumerate(history) if data_of(noted) and is_of_pipe(touches[at])]
    found = []
    for at, noted in enumerate(history):
        if is_short(noted) and not is_past_most(noted) and is_of_pipe(touches[at]):
            own = (history[it] for it in reads if file_of(touches[it]) == file_of(touches[at]))
            if any(not it.precedes(noted) and not noted.precedes(it) for it in own):
                found.append(at)
    return found


class Freeing(Search):
    """A search for an order in which short writes to pipes that are not to wait may go in by turns: at least once the
    pipe is full then. A place has for each process twice the number of bytes that its next write has put in, and one
    more where the pipe was full."""

    def __init__(self, history: Sequence[Noted], limits: Limits, states_most: int, seconds: float) -> None:
        super().__init__(history, limits, states_most, seconds)
        self.capacity = limits.capacity
        places = writes_beside_reads(history, self.touches)
        ends: Mapping[int, set[int]] = ends_in(history) if places else {}
        # where the turns of each such write may end, by its bit
        self.ends = {1 << at: sorted({*ends.get(at, ()), int(history[at].outcome)}) for at in places}

    def order(self) -> list[Step] | None:
        """The steps of an order, or None where there is none or no such write."""
        return super().order() if self.ends else None

    def start(self) -> Place:
        """Where a search begins."""
        nothing = (0,) * len(self.processes)
        return Place(nothing, 0, 0, nothing)

    def begun(self, place: Place, at: int, call: Call) -> Iterator[tuple[Step, Place]]:
        """A call that takes effect, or begins to wait, or a write that puts in some of its bytes."""
        if not place.taken[at]:
            yield from super().begun(place, at, call)
        if call.bit in self.ends:
            yield from self.turns(place, at, call)

    def turns(self, place: Place, at: int, call: Call) -> Iterator[tuple[Step, Place]]:
        """What a write may put in next: what there is room for, so that the pipe is full, or so many bytes as end where
        a read does, or all that it has put in at last."""
        put, was_full = divmod(place.taken[at], 2)
        data, most = call.act.fields[1], int(call.outcome)
        step, state = self.filling(place, call, data[put:])
        moved = 0 if step.outcome == "error EAGAIN" else int(step.outcome) if step.outcome.isdigit() else None
        if moved is not None and moved < len(data) - put and put + moved <= most and (moved or not was_full):
            yield from self.after_turn(step, place, at, call, (state, put + moved, True))
        for end in (it for it in self.ends[call.bit] if put < it <= most):
            act = with_data(call.act, data[put:end])
            outcome, state = self.states.after(place.state, act)
            if outcome == str(end - put):
                yield from self.after_turn(Step(act, outcome), place, at, call, (state, end, bool(was_full)))

    def filling(self, place: Place, call: Call, left: bytes) -> tuple[Step, int]:
        """A write of what is left, or of what there is room for where the model would put in all or nothing, and the
        state after it: where it moves fewer bytes than are left, and is not to wait, the pipe is full."""
        now = self.states.all[place.state]
        room = self.capacity - len(held(now, call.noted.process, call.act.fields[0]))
        is_small = 0 < room < len(left) <= PIPE_BUF
        act = with_data(call.act, left[:room] if is_small else left)
        outcome, state = self.states.after(place.state, act)
        waits = is_small and outcome == str(room) and not behind(now, call.noted.process, call.act.fields[0])[3]
        return Step(act, WAITS if waits or outcome is None else outcome), state

    def after_turn(
        self, step: Step, place: Place, at: int, call: Call, told: tuple[int, int, bool]
    ) -> Iterator[tuple[Step, Place]]:
        """A turn of a write, and where it leads: it is over once all went in that it gave, if the pipe was full."""
        state, put, was_full = told
        is_over = was_full and put == int(call.outcome)
        if put == int(call.outcome) and not is_over:
            return
        begun = (*place.begun[:at], place.begun[at] + is_over, *place.begun[at + 1 :])
        taken = (*place.taken[:at], 0 if is_over else 2 * put + was_full, *place.taken[at + 1 :])
        after = Place(begun, place.bits | call.bit * is_over, state, taken)
        if self.is_foretold(call, after):
            yield step, after


def by_turns(history: Sequence[Noted], steps: Sequence[Step]) -> list[Noted]:
    """A history in which each turn that a write has in an order is a write."""
    own: dict[object, list[Step]] = {}
    for step in steps:
        if step.act.word != "resume":
            own.setdefault(step.act.actor, []).append(step)
    found: list[Noted] = []
    for noted in sorted(history, key=lambda noted: noted.start):
        left = own.get(noted.process, [])
        turns = turns_of(noted, left)
        found += [noted._replace(act=act, outcome=outcome) for act, outcome in left[:turns]] if turns > 1 else [noted]
        del left[: max(turns, 1)]
    return found


def turns_of(noted: Noted, left: Sequence[Step]) -> int:
    """How many of the steps of a process are the next call of it: more than one where it is a write by turns."""
    if not is_short(noted) or not left or left[0] == (noted.act, noted.outcome):
        return 1
    put = 0
    for count, (_, outcome) in enumerate(left, 1):
        put += int(outcome) if outcome.isdigit() else 0
        if put == int(noted.outcome):
            return count
    return 1
