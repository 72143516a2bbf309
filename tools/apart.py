"""Where the calls of a history, one after another, are answered otherwise by fdref, and why: by the reasons of
tools/compare.py.

The calls come in the order in which they came back. Where none overlap that is the only order. Where some do it is one
of several: a reason that is found there may be the one, and need not.
"""

import contextlib
import itertools
import time
from collections.abc import Callable, Collection, Iterable, Iterator, Mapping, Sequence
from types import MappingProxyType
from typing import NamedTuple

from support import plain_model
from support.commands import ChosenLimits
from support.histories import UNKNOWN, WAITS, Noted
from support.ordering import ROOMY, By
from support.overdue import is_overdue, pages_free
from support.plain_model import Act, Description, Limits, Pipe, World
from support.replaying import Differs, is_waiting, replayed
from support.runs import Line, Settled, line_of
from support.searching import FOREVER, Call, Place, Search, Step, TooLong
from support.worlds import thawed

from compare_instead import Appending, ways
from compare_lines import moved
from compare_reasons import APPENDED, OWN, Difference, Fillings, Reason, appended_to, follows_append
from compare_reasons import is_paged_room, is_room, reason_of
from compare_runs import act_of, together

# How a reason is looked for.
Why = Callable[[Difference], Reason | None]


# The acts that the model is given instead of some calls, by their places.
Instead = Mapping[int, Sequence[Act]]
NOTHING: Instead = MappingProxyType({})
# How often a search begins anew with more calls that may have a reason.
ROUNDS = 6


# The places of the calls that the model answers otherwise, and whether what comes after each can be compared.
Known = Mapping[int, bool]


class Apart(NamedTuple):
    """A call that fdref answers otherwise: its place in the order, what fdref answers in a run of which limits, the
    reason, if there is one, whether what comes after it can be compared, and what was given instead of which calls up
    to it, as what the system did."""

    place: int
    noted: Noted
    fdref: str
    limits: Limits
    reason: Reason | None
    is_settled: bool
    instead: Instead


# ---- orders


def came_back(history: Iterable[Noted]) -> list[Noted]:
    """The calls of a history in the order in which they came back, those that wait at the end last. A fork comes before
    its child."""
    attached = {noted.process: noted.end for noted in history if noted.act.word == "attach" and noted.end is not None}

    def when(noted: Noted) -> tuple[float, int]:
        end = FOREVER if noted.end is None else noted.end
        is_fork = noted.act.word == "fork" and noted.outcome.isdigit()
        return min(end, attached.get(int(noted.outcome), end)) if is_fork else end, noted.start

    return sorted(history, key=when)


def is_one_by_one(history: Sequence[Noted]) -> bool:
    """Whether no calls of a history overlap."""
    ordered = sorted(history, key=lambda noted: noted.start)
    return all(
        one.precedes(other) or (one.process == other.process and one.end is not None)
        for one, other in itertools.pairwise(ordered)
    )


def in_order(history: Sequence[Noted], steps: Iterable[Step], is_of_begin: bool = False) -> list[Noted]:
    """The calls of a history in the order of these steps, each where it comes back, or where it begins."""
    begun: dict[object, int] = {}
    placed: dict[tuple[object, int], float] = {}
    for at, step in enumerate(steps):
        who = step.act.actor
        begun[who] = begun.get(who, -1) + (step.act.word != "resume")
        key = who, begun[who]
        placed[key] = placed.get(key, at) if is_of_begin else at
    keyed = []
    counts: dict[int, int] = {}
    for noted in sorted(history, key=lambda noted: noted.start):
        number = counts.setdefault(noted.process, 0)
        counts[noted.process] += 1
        keyed.append((placed.get((noted.process, number), FOREVER), noted))
    return [noted for _, noted in sorted(keyed, key=lambda it: it[0])]


# ---- the model beside a history


class Beside:
    """The model beside calls that come one after another, and what each of them gives at last."""

    def __init__(
        self, history: Sequence[Noted], limits: Limits, world: type[World] = World, instead: Instead = NOTHING
    ) -> None:
        self.run = Settled(limits)
        self.run.world = world(limits)
        self.answers: list[str] = []
        self.fillings = Fillings()
        # the pwrites under append that begin elsewhere than at the end, by their places
        self.appends: list[int] = []
        # how many bytes each pipe was seen to hold
        self.held: dict[Pipe, int] = {}
        # the description that each call is made on, if it is a read or write
        self.behind: list[Description | None] = []
        # the call in which each process waits, by its place
        self.waiting: dict[int, int] = {}
        for place, noted in enumerate(history):
            # no call makes one go on that came back before it
            overdue = [who for who, at in self.waiting.items() if history[at].precedes(noted)]
            for who in overdue:
                del self.waiting[who]
            self.behind.append(self.description(noted))
            if place in instead:
                self.take_instead(noted, instead[place])
            else:
                self.take(noted)

    def description(self, noted: Noted) -> Description | None:
        """The description that a call is made on, if it is a read or write of a descriptor that is open."""
        process = self.run.world.processes.get(noted.process)
        return process.table.get(noted.act.fields[0]) if process and noted.act.word in ("read", "write") else None

    def take_instead(self, noted: Noted, acts: Iterable[Act]) -> None:
        """Lets acts take place instead of a call, which give what that gave."""
        seen = len(self.run.lines)
        for act in acts:
            self.see_append(act)
            self.fillings.take(self.run, act)
        lines = list(map(read_line, self.run.lines[seen:]))
        if lines and is_waiting(lines[-1].outcome):
            self.waiting[noted.process] = len(self.answers)
        self.answers.append(together([it.outcome for it in lines if it.number() == noted.process], noted.outcome))
        for line in lines:
            if line.number() in self.waiting:
                self.answers[self.waiting[line.number()]] = line.outcome

    def take(self, noted: Noted) -> None:
        """Lets a call take place, but for one of which nothing is known."""
        if noted.end is None and noted.outcome == UNKNOWN:
            self.answers.append(UNKNOWN)
            return
        seen = len(self.run.lines)
        at = self.behind[-1] if noted.act.word == "write" else None
        self.see_append(noted.act)
        self.fillings.take(self.run, noted.act)
        if at and at.pipe and noted.outcome == str(len(noted.act.fields[1])):
            self.held[at.pipe] = max(self.held.get(at.pipe, 0), len(at.pipe.data))
        first, *resumes = map(read_line, self.run.lines[seen:])
        if is_waiting(first.outcome):
            self.waiting[first.number()] = len(self.answers)
        self.answers.append(first.outcome)
        for line in resumes:
            if line.number() in self.waiting:
                self.answers[self.waiting[line.number()]] = line.outcome

    def see_append(self, act: Act) -> None:
        """Notes a pwrite under append that begins elsewhere than at the end, before it takes place."""
        size = appended_to(self.run.world, act)
        is_elsewhere = size is not None and 0 <= act.fields[1] != size
        self.appends += [len(self.answers)] if is_elsewhere else []

    def lines(self) -> list[Line]:
        """The lines of the run."""
        return list(map(read_line, self.run.lines))


def read_line(text: str) -> Line:
    """A line of a run."""
    return line_of(text.rstrip("\n"))


def is_given(noted: Noted, answer: str) -> bool:
    """Whether a call gives what was noted."""
    if noted.outcome == WAITS:
        return is_waiting(answer)
    if noted.outcome == UNKNOWN:
        return noted.end is None or not is_waiting(answer)
    return answer == noted.outcome


def lines_of(history: Iterable[Noted]) -> list[Line]:
    """The calls of a history, in this order, as the lines of a run."""
    return [Line(str(at), plain_model.act_text(noted.act), noted.outcome) for at, noted in enumerate(history)]


# ---- what is apart


def differences(history: Sequence[Noted], limits: Limits, why: Why = reason_of) -> Iterator[Apart]:
    """The calls, in this order, that the model answers otherwise. Where a reason says what such a call has to have
    done, the model is given that instead, so that what comes after it is compared."""
    known: dict[int, bool] = {}
    instead: dict[int, Sequence[Act]] = {}
    beside = Beside(history, limits)
    for place in range(len(history)):
        if not is_given(history[place], beside.answers[place]):
            known[place] = False
            it, difference = apart_at(history, place, beside, limits, known, why, instead)
            for at, acts in ways(difference) if it.reason is not APPENDED and not it.is_settled else ():
                tried = Beside(history, limits, instead={**instead, at: acts})
                if is_given(history[place], tried.answers[place]):
                    instead[at] = acts
                    beside, it = tried, it._replace(is_settled=True)
                    break
            known[place] = it.is_settled
            yield it._replace(instead=dict(instead))


def apart_at(
    history: Sequence[Noted],
    place: int,
    whole: Beside,
    limits: Limits,
    known: Known,
    why: Why = reason_of,
    instead: Instead = NOTHING,
) -> tuple[Apart, Difference]:
    """A call that the model, beside the whole history, answers otherwise, as are the known ones up to it."""
    lines = lines_of(history)
    answer, beside = whole.answers[place], Beside(history[:place], limits, instead=instead)
    difference = Difference(place, lines, lines[place], lines[place]._replace(outcome=answer), beside.run.world)
    difference.room_seen = beside.held.get(difference.at.pipe, 0) if difference.at and difference.at.pipe else 0
    difference.has_same_room = isinstance(limits, ChosenLimits)
    difference.put_here = dict(beside.fillings.put)
    if is_one_by_one(history) and all(known[at] for at in known if at != place):
        difference.put = dict(beside.fillings.put)
        # how many pages there are is known where it is said
        difference.pages = dict(beside.fillings.pages) if difference.has_same_room else None
    reason = why(difference)
    # what the fstat after such a pwrite tells has to follow from all of them
    if reason is None or (reason is APPENDED and follows_append(difference)):
        reason = APPENDED if is_by_append(history, place, limits, known, instead) else None
    # a pipe of one page has no room where that is filled to its end
    page = difference.page if difference.has_same_room and limits.capacity == difference.page else None
    is_due = is_overdue(history, place, whole.behind, page) or fits_free_pages(difference, reason, history, whole)
    difference.reason = None if is_due else reason
    return Apart(place, history[place], answer, limits, difference.reason, difference.is_settled(), NOTHING), difference


def fits_free_pages(it: Difference, reason: Reason | None, history: Sequence[Noted], whole: Beside) -> bool:
    """Whether more of a write fits into the pages that are free in each order than went in, so that it is no reason
    how pages are counted. How many there are is known where it is said."""
    if reason is None or reason.fits is not is_paged_room or not it.has_same_room or not it.words("write"):
        return False
    free = it.page * pages_free(history, it.place, whole.behind, it.page)
    return free > 0 if it.system == WAITS else it.count() <= free or moved(it.system) < free


def is_by_append(history: Sequence[Noted], place: int, limits: Limits, known: Known, instead: Instead) -> bool:
    """Whether the calls up to one give what was noted, but for the known ones, where a pwrite under append before them
    writes at the end. What comes after them is there too: it may wake one that waits."""
    appending = Beside(history, limits, Appending, instead)
    answers = appending.answers[: place + 1]
    has_appended = any(at < place for at in appending.appends)
    asked = [at for at in range(place + 1) if at == place or at not in known]
    return has_appended and all(is_given(history[at], answers[at]) for at in asked)


def parted(history: Sequence[Noted], limits: Limits, why: Why = reason_of) -> list[Apart]:
    """The calls, in this order, that the model answers otherwise, up to the first that has no reason or after which the
    two are apart."""
    found = []
    for it in differences(history, limits, why):
        found.append(it)
        if not it.reason or not it.is_settled:
            break
    return found


def of_page(size: int, why: Why = reason_of) -> Why:
    """How a reason is looked for on a system whose pages may have so many bytes."""

    def of_difference(difference: Difference) -> Reason | None:
        difference.page, difference.is_page_known = size, False
        return why(difference)

    return of_difference


def furthest(tries: Iterable[list[Apart]]) -> list[Apart]:
    """The first of some lists of calls in which all have a reason; else that in which the first without one is last."""
    best: list[Apart] | None = None
    best_place = -1.0
    for found in tries:
        place = next((it.place for it in found if not it.reason), FOREVER)
        if place > best_place:
            best, best_place = found, place
        if place == FOREVER:
            break
    return best or []


def parted_with_room(history: Sequence[Noted], limits: Limits, why: Why = reason_of) -> list[Apart]:
    """The same, but with larger pipes where they have too little room."""
    found = parted(history, limits, why)
    return (wants_room(found, limits) and parted(history, ROOMY, why)) or found


def is_of_room(reason: Reason | None) -> bool:
    """Whether a reason is how many bytes a pipe holds."""
    return reason is not None and reason.fits in (is_room, is_paged_room)


def wants_room(found: Iterable[Apart], limits: Limits) -> bool:
    """Whether a call is answered otherwise since pipes have too little room, and there may be larger ones."""
    return may_be_larger(limits) and any(is_of_room(it.reason) for it in found)


def may_be_larger(limits: Limits) -> bool:
    """Whether the pipes of a system may have more room than those of a run of these limits."""
    return not isinstance(limits, ChosenLimits) and limits.capacity < ROOMY.capacity


def is_out_of_room(history: Sequence[Noted], limits: Limits, why: Why = reason_of) -> bool:
    """Whether, in this order, pipes have too little room at first, and there may be larger ones."""
    return any(wants_room([it], limits) for it in differences(history, limits, why))


def possible(history: Sequence[Noted], limits: Limits, why: Why = reason_of) -> Apart | None:
    """The first call, in this order, that the model answers otherwise for a reason, if none without one precedes it."""
    bare: list[Noted] = []
    for it in differences(history, limits, why):
        if any(noted.precedes(it.noted) for noted in bare):
            return None
        if it.reason:
            # room is none that does not explain the rest
            return possible(history, ROOMY, why) if wants_room([it], limits) else it
        bare.append(it.noted)
    return None


def excused(
    history: Sequence[Noted], limits: Limits, states_most: int, seconds: float, *whys: Why, by_search: bool = True
) -> tuple[list[Noted], list[Apart]]:
    """An order of a history, and the calls in it that the model answers otherwise: each of them has a reason, in the
    first of some ways to look for these in which that is so. They are none where no such order is found. Where it is
    not searched for by reasons, it is only told what follows from the order of the ends."""
    excuses = Excuses(history, states_most, seconds)
    look = excuses.found if by_search else excuses.found_by_ends
    tries = (look(limits, why) for why in whys or (reason_of,))
    return next((it for it in tries if it[1]), (excuses.history, []))


class Reasoning(Search):
    """A search for an order in which some calls give what was noted, or something else in a state in which that has a
    reason that is fdref's own. Which of the others would have one in a state is noted."""

    def __init__(
        self,
        history: Sequence[Noted],
        doubted: Collection[int],
        limits: Limits,
        why: Why,
        states_most: int,
        seconds: float,
    ) -> None:
        places = sorted(range(len(history)), key=lambda place: history[place].start)
        told = without_answers(history, doubted)
        super().__init__([told[place] for place in places], limits, states_most, seconds)
        self.history = history
        self.doubted = doubted
        self.limits = limits
        self.why = why
        self.lines = lines_of(history)
        self.places = {1 << number: place for number, place in enumerate(places)}
        # what was looked at, by the state and the place of the call
        self.known: dict[tuple[int, int], Difference | None] = {}

    def begun(self, place: Place, at: int, call: Call) -> Iterator[tuple[Step, Place]]:
        """A call that takes effect, or begins to wait."""
        here = self.places[call.bit]
        noted = self.history[here].outcome
        came, _ = self.states.after(place.state, call.act)
        # one that waits for ever is never excused here
        differs = came is not None and came != noted and UNKNOWN not in noted
        it = self.difference(place.state, here, came) if came is not None and differs else None
        is_doubted = here in self.doubted
        acts = [acts for where, acts in ways(it) if where == here] if it and is_doubted else []
        if not is_doubted or not differs or is_waiting(came or "") or (it and not acts):
            yield from super().begun(place, at, call)
        for some in acts:
            state = place.state
            for act in some:
                _, state = self.states.after(state, act)
            begun = (*place.begun[:at], place.begun[at] + 1, *place.begun[at + 1 :])
            yield Step(call.act, noted), Place(begun, place.bits | call.bit, state, place.taken)

    def difference(self, state: int, here: int, came: str) -> Difference | None:
        """How a call is answered otherwise in a state, if that has a reason that is fdref's own."""
        key = state, here
        if key not in self.known:
            line = self.lines[here]
            world = thawed(self.states.all[state], self.limits)
            it = Difference(here, self.lines, line, line._replace(outcome=came), world)
            it.has_same_room = isinstance(self.limits, ChosenLimits)
            if it.at:
                # a state does not have how it was opened; that is asked in the order that is found
                it.at.is_opened_nonblock = it.at.nonblock
            it.reason = self.why(it)
            self.known[key] = it if it.reason and it.reason.who == OWN else None
        return self.known[key]

    def met(self) -> dict[int, Reason]:
        """The calls that had a reason in a state, by their places, and one of these reasons."""
        return {here: it.reason for (_, here), it in self.known.items() if it and it.reason}


class Excuses:
    """Looks for an order of a history in which each call has a reason that the model answers otherwise. Each search is
    made once."""

    def __init__(self, history: Sequence[Noted], states_most: int, seconds: float) -> None:
        self.history = came_back(history)
        self.states_most = states_most
        self.seconds = seconds
        self.orders: dict[tuple[type[World], frozenset[int], Limits], list[Noted]] = {}

    def found(self, limits: Limits, why: Why) -> tuple[list[Noted], list[Apart]]:
        """The order, and these calls, or none; where pipes have too little room for larger pipes. In the order of the
        ends a call that waits may keep its process from all that comes later: so the reasons are looked for in others,
        too."""
        placed, found = self.found_by_ends(limits, why)
        if not found and may_wait_for_room(self.history):
            placed, found = self.found_by_waits(limits, why)
        is_short = not found and is_out_of_room(self.history, limits, why)
        if not found:
            placed, found = self.found_by_search(ROOMY if is_short else limits, why)
        return (placed, found) if found else self.found_beside_late(limits, why)

    def found_by_ends(self, limits: Limits, why: Why) -> tuple[list[Noted], list[Apart]]:
        """The same by what has a reason in the order of the ends. That comes first, then one that explains what has no
        reason there, and last one in which a pwrite under append writes at the end, as what follows from that has a
        reason in such an order alone."""
        found = list(differences(self.history, limits, why))
        if wants_room(found, limits):
            return self.found_by_ends(ROOMY, why)
        if all(it.reason for it in found):
            return self.history, found
        doubted = frozenset(it.place for it in found if it.reason)
        others = frozenset(it.place for it in found if it.reason and it.reason is not APPENDED)
        tries = [(World, doubted)] if doubted else []
        tries += [(Appending, others)] if may_append(self.history) else []
        for world, places in tries:
            ordered = self.order(world, places, limits)
            found = list(differences(ordered, limits, why))
            if found and all(it.reason for it in found):
                return ordered, found
        return self.history, []

    def found_by_waits(self, limits: Limits, why: Why) -> tuple[list[Noted], list[Apart]]:
        """The same where a call that waits at the end comes when it began, as nonblock may be set meanwhile; and where
        pipes may have more room."""
        begun = sorted(self.history, key=lambda noted: noted.start if noted.end is None else noted.end)
        for room in (limits, ROOMY) if may_be_larger(limits) else (limits,):
            for ordered in (self.history, begun):
                found = list(differences(ordered, room, why))
                is_all = bool(found) and all(it.reason for it in found) and not wants_room(found, room)
                if is_all and (ordered is self.history or all(map(may_wait_on, found))):
                    return ordered, found
        return self.found_by_ends(ROOMY, why) if may_be_larger(limits) else (self.history, [])

    def found_beside_late(self, limits: Limits, why: Why) -> tuple[list[Noted], list[Apart]]:
        """The same where writes that wait at the end have a reason to, and have moved nothing that others tell of: an
        order is searched for without them, and then for each a place in it at which it may have begun to wait."""
        late = [noted for noted in self.history if noted.act.word == "write" and noted.outcome == WAITS]
        rest = [noted for noted in self.history if noted not in late]
        room = ROOMY if may_be_larger(limits) else limits
        if not late:
            return self.history, []
        others = Excuses(rest, self.states_most, self.seconds)
        placed = others.order(World, frozenset(), room)
        found: list[Apart] = []
        if not placed:
            placed, found = others.found_by_search(room, why)
        if not placed or (not found and placed is others.history):
            return self.history, []
        for noted in sorted(late, key=lambda noted: noted.start):
            begun = with_late(placed, noted, room, why, found[-1].instead if found else NOTHING)
            if not begun:
                return self.history, []
            placed, it = begun
            found = [shifted(one, it.place) for one in found] + [it]
        found = [it for it in found if it.reason]
        return (placed, found) if found else (self.history, [])

    def found_by_search(self, limits: Limits, why: Why) -> tuple[list[Noted], list[Apart]]:
        """The same, by reasons that are fdref's own, in an order that is searched for by them. At first no call has
        one, and then those in which a search has met one. Together they are one search, as long as another one."""
        states, until = self.states_most, time.monotonic() + self.seconds
        doubted: frozenset[int] = frozenset()
        is_short = False
        for _ in range(ROUNDS):
            search = Reasoning(self.history, doubted, limits, why, states, until - time.monotonic())
            steps = None
            with contextlib.suppress(TooLong):
                steps = search.order()
            # a call that waits goes on with others in between, or comes back after them
            orders = (in_order(self.history, steps, is_of_begin) for is_of_begin in (False, True)) if steps else ()
            for ordered in orders:
                found = list(differences(ordered, limits, why))
                if found and all(it.reason and it.reason.who == OWN for it in found) and not wants_room(found, limits):
                    return ordered, found
            met = search.met()
            is_short = is_short or any(map(is_of_room, met.values()))
            states -= len(search.seen)
            if met.keys() <= doubted or states <= 0 or time.monotonic() > until:
                break
            doubted |= met.keys()
        is_larger = is_short and may_be_larger(limits)
        return self.found_by_search(ROOMY, why) if is_larger else (self.history, [])

    def order(self, world: type[World], doubted: frozenset[int], limits: Limits) -> list[Noted]:
        """The calls in an order that explains in a kind of world what is not doubted, or no calls where none does."""
        key = world, doubted, limits
        if key not in self.orders:
            told = sorted(without_answers(self.history, doubted), key=lambda noted: noted.start)
            steps = None
            with contextlib.suppress(TooLong):
                steps = Search(told, limits, self.states_most, self.seconds, world).order()
            self.orders[key] = in_order(self.history, steps) if steps else []
        return self.orders[key]


def beside_choice(
    history: Sequence[Noted], limits: Limits, why: Why, by: Callable[[Sequence[Noted]], By | None]
) -> tuple[By, list[Noted], list[Apart]] | None:
    """An order by a choice about bytes in pipes, with the calls in it and those that the model answers otherwise, where
    each of these changes nothing and has a reason that is fdref's own too; if there is such an order."""
    ordered = came_back(history)
    settled = [it for it in differences(ordered, limits, why) if it.is_settled and it.place not in it.instead]
    known = {(it.noted.start, it.noted.act): it.noted for it in settled if it.reason and it.reason.who == OWN}
    places = [at for at, noted in enumerate(ordered) if (noted.start, noted.act) in known]
    chosen = by(without_answers(ordered, places)) if known else None
    if not chosen:
        return None
    told = [known.get((noted.start, noted.act), noted) for noted in chosen.history]
    placed = in_order(told, chosen.steps)
    found = list(differences(placed, chosen.limits, why))
    is_all = all(it.reason and it.reason.who == OWN and it.noted in known.values() for it in found)
    return (chosen, placed, found) if found and is_all else None


def with_late(
    history: Sequence[Noted], late: Noted, limits: Limits, why: Why, instead: Instead
) -> tuple[list[Noted], Apart] | None:
    """A history in this order with a write that waits at its end, where that may have begun to wait, and how the model
    answers it, with no reason where that waits too; or None where it has no reason to wait. Of an empty pipe no write
    waits without having put in what others would read."""
    first = max((at + 1 for at, noted in enumerate(history) if noted.precedes(late)), default=0)
    held = [held_behind(history[:at], late, limits, instead) for at in range(first, len(history) + 1)]
    for place in range(first, len(history) + 1):
        if not all(held[place - first :]):
            continue
        placed = [*history[:place], late, *history[place:]]
        acts = moved_on(instead, place)
        whole = Beside(placed, limits, instead=acts)
        it, _ = apart_at(placed, place, whole, limits, {}, why, acts)
        it = it._replace(instead=acts)
        if is_given(late, whole.answers[place]):
            return placed, it._replace(reason=None)
        if it.reason and it.reason.who == OWN and may_wait_on(it):
            return placed, it
    return None


def held_behind(history: Sequence[Noted], late: Noted, limits: Limits, instead: Instead) -> int:
    """How many bytes the pipe holds after some calls to which a call writes later; none where it is no pipe."""
    process = Beside(history, limits, instead=instead).run.world.processes.get(late.process)
    at = process.table.get(late.act.fields[0]) if process else None
    return len(at.pipe.data) if at and at.pipe else 0


def moved_on(instead: Instead, place: int) -> Instead:
    """The acts that are given instead of some calls, once another call was put in at a place."""
    return {at + (at >= place): acts for at, acts in instead.items()}


def shifted(it: Apart, place: int) -> Apart:
    """A call that is answered otherwise, once another one was put in at a place before it or after it."""
    return it._replace(place=it.place + (it.place >= place), instead=moved_on(it.instead, place))


def may_wait_on(it: Apart) -> bool:
    """Whether a call has a reason that holds to the end of the history, though it was looked at where it began: one
    that waits does so for room alone, and has a reader."""
    is_whole = it.noted.act.word == "write" and it.fdref == str(len(it.noted.act.fields[1]))
    return it.noted.outcome != WAITS or (is_whole and is_of_room(it.reason))


def may_wait_for_room(history: Iterable[Noted]) -> bool:
    """Whether a write of a history waits at its end."""
    return any(noted.act.word == "write" and noted.outcome == WAITS for noted in history)


def may_append(history: Iterable[Noted]) -> bool:
    """Whether a history may have a pwrite under append."""
    acts = [noted.act for noted in history]
    flags = (act.fields[1] for act in acts if act.word in ("open", "setfl"))
    return any(act.word == "pwrite" for act in acts) and any("append" in it for it in flags)


def appended_by(history: Sequence[Noted], found: Apart) -> list[Noted]:
    """The calls of a history, one after another, that are the reason why one of them is answered otherwise, as they
    append: the last one first."""
    appending = Beside(history[: found.place + 1], found.limits, Appending, found.instead)
    return [history[at] for at in reversed(appending.appends)]


def followed(history: Iterable[Noted], instead: Instead) -> list[Noted]:
    """A history with the calls that are given instead of some, whose answers are not known."""
    return [
        it
        for at, noted in enumerate(history)
        for it in (
            [noted._replace(act=act, outcome=UNKNOWN) for act in instead[at]] if at in instead else [noted]
        )
    ]


def without_answers(history: Iterable[Noted], places: Collection[int]) -> list[Noted]:
    """A history in which the answers of some calls are not known."""
    return [noted._replace(outcome=UNKNOWN) if at in places else noted for at, noted in enumerate(history)]


def confirm(
    program: str | Sequence[str], history: Sequence[Noted], limits: Limits, instead: Instead = NOTHING
) -> None:
    """Fails where the program does not answer these calls, in this order, as the model does."""
    lines = Beside(history, limits, instead=instead).lines()
    acts = [plain_model.read_act(act_of(line).encode()) for line in lines]
    for line, given in zip(lines, replayed(program, acts, limits), strict=True):
        if line != given:
            raise Differs(f"{given.act} = {given.outcome}, and the model gives {line.outcome}")
