"""Whether there is an order of the calls of a history that explains it.

An order explains a history where it keeps the order of each process, a call that came back before another one began
comes first, and the plain model, to which the calls come one after another, gives the answers that were noted. At the
end no call that waits may be ready.
"""

import contextlib
import itertools
import time
from collections.abc import Sequence
from typing import NamedTuple

from support.exits import Exiting, exits_at_once, with_closes
from support.footprints import Footprints
from support.freed import Freeing, by_turns
from support.guesses import with_guesses
from support.histories import UNKNOWN, WAITS, Noted
from support.late_links import late_links
from support.pieces import are_cut_off, are_of_pipes, chunked, clipped, ended_early, in_parts, is_past_most
from support.pieces import Rewrite, rests_in, rewritten, unblocked
from support.plain_model import DEFAULTS, PIPE_BUF, PIPE_CAPACITY_MOST, Limits
from support.searching import Search, Step, TooLong
from support.sharing import Sharing, are_of_one_pipe, in_turns
from support.shortening import KEPT, Shortening, up_to, without_answers

STATES_MOST = 1_000_000
SECONDS = 60
SHRINK_SECONDS = 20
# A search for a shorter part may take so many times as long as that of the whole, or so long.
EACH_TIMES, EACH_LEAST = 4, 0.5
# How long it is looked for other calls that may be to blame, and at how many of them.
OTHERS_SECONDS, OTHERS_MOST = 5.0, 4
# How long it is looked for parts of small writes.
PARTS_SECONDS = 5.0
# A run in which a pipe holds as many bytes as it does on many a system: more than where nothing else is asked for.
ROOMY = Limits(capacity=PIPE_CAPACITY_MOST)
# How many of the calls that overlap the one that is blamed are told.
OVERLAPPING_MOST = 3


class Explained(NamedTuple):
    """A history that an order explains: the steps of that order."""

    steps: list[Step]


class ByRoom(NamedTuple):
    """A history that an order explains only where a pipe has the room of ROOMY: the history, the steps of that order,
    and these limits."""

    history: list[Noted]
    steps: list[Step]
    limits: Limits


class ByParts(NamedTuple):
    """A history that an order explains only where writes of more than PIPE_BUF bytes to a pipe go in by parts: the
    history of these parts, the steps of that order, and the limits of its run."""

    history: list[Noted]
    steps: list[Step]
    limits: Limits


class ByEpipe(NamedTuple):
    """A history that an order explains only where a write to a pipe ends in EPIPE though it has moved a part: the
    history without the answers of such writes, the steps of that order, and the limits of its run."""

    history: list[Noted]
    steps: list[Step]
    limits: Limits


class ByEarlyEnd(NamedTuple):
    """A history that an order explains only where a write to a pipe that waits, and whose last reader goes, has moved
    what was told, whatever room there was: the history in which it is a write of that and one that has no reader, the
    steps of that order, and the limits of its run."""

    history: list[Noted]
    steps: list[Step]
    limits: Limits


class ByUnblocked(NamedTuple):
    """A history that an order explains only where a write to a pipe that waits ends early, since nonblock is set: the
    history in which it is a write of what was told, the steps of that order, and the limits of its run."""

    history: list[Noted]
    steps: list[Step]
    limits: Limits


class ByTransfer(NamedTuple):
    """A history that an order explains only where calls move more bytes than fdref takes: the history in which these
    are calls that it takes, the steps of that order, and the limits of its run."""

    history: list[Noted]
    steps: list[Step]
    limits: Limits


class ByShares(NamedTuple):
    """A history that an order explains only where reads of a pipe at once share its bytes: the history in which each
    turn of such a read is a read, the steps of that order, and the limits of its run."""

    history: list[Noted]
    steps: list[Step]
    limits: Limits


class ByExits(NamedTuple):
    """A history that an order explains only where an exit closes its descriptors one by one: the history in which each
    that it closes by itself is closed by a call before it, the steps of that order, and the limits of its run."""

    history: list[Noted]
    steps: list[Step]
    limits: Limits


class BySmallParts(NamedTuple):
    """A history that an order explains only where writes of at most PIPE_BUF bytes to a pipe go in by parts, between
    which no bytes of others stand: the history of these parts, the steps of that order, and the limits of its run."""

    history: list[Noted]
    steps: list[Step]
    limits: Limits


class Unexplained(NamedTuple):
    """A history that no order explains: a small part of it that none explains either, the call that makes it impossible
    with those that overlap it, and the page of the standard that it is about. Then other calls without whose answers an
    order explains all up to that one, and whether one does so without the answer of that one."""

    shrunk: list[Noted]
    blamed: list[Noted]
    page: str
    others: Sequence[Noted] = ()
    is_one: bool = True


class GivenUp(NamedTuple):
    """A history that was given up, after so many states."""

    states: int


Result = Explained | Unexplained | GivenUp
By = ByRoom | ByParts | ByEpipe | ByEarlyEnd | ByUnblocked | ByTransfer | ByShares | ByExits | BySmallParts


def explain(
    history: Sequence[Noted],
    states_most: int = STATES_MOST,
    seconds: float = SECONDS,
    shrink_seconds: float = SHRINK_SECONDS,
    limits: Limits = DEFAULTS,
) -> Result:
    """Whether an order explains a history, in a run of these limits; a search that goes on for longer, or through more
    states, is given up."""
    ordered = sorted(history, key=lambda noted: noted.start)
    began = time.monotonic()
    try:
        steps = Search(ordered, limits, states_most, seconds).order()
    except TooLong as fault:
        return GivenUp(fault.states)
    if steps is not None:
        return Explained(steps)
    each = max(EACH_LEAST, EACH_TIMES * (time.monotonic() - began))
    shrunk = Shortening(limits, states_most, shrink_seconds, each).shortest(ordered)
    blamed = blamed_in(shrunk)
    torn = torn_by(ordered, blamed[0], limits, states_most) if shrink_seconds > 0 else None
    found = Unexplained(shrunk, blamed, page_of(shrunk, blamed[0], torn))
    return with_others(found, ordered, limits, states_most) if shrink_seconds > 0 else found


def by_room(history: Sequence[Noted], states_most: int = STATES_MOST, seconds: float = SECONDS) -> ByRoom | None:
    """An order of a history with a pipe or FIFO that explains it where pipes have more room, if there is one."""
    if not any(noted.act.word in ("pipe", "mkfifo") for noted in history):
        return None
    result = explain(history, states_most, seconds, 0, ROOMY)
    ordered = sorted(history, key=lambda noted: noted.start)
    return ByRoom(ordered, result.steps, ROOMY) if isinstance(result, Explained) else None


def by_parts(
    history: Sequence[Noted], states_most: int = STATES_MOST, seconds: float = SECONDS, *limits: Limits
) -> ByParts | None:
    """An order of a history that explains it where large writes to a pipe go in by parts, if there is one, in a run of
    the first of these limits that has one."""
    parted = in_parts(sorted(history, key=lambda noted: noted.start))
    for one in limits if parted else ():
        result = explain(parted or [], states_most, seconds, 0, one)
        if isinstance(result, Explained) and are_of_pipes(history, result.steps, one):
            return ByParts(parted or [], result.steps, one)
    return None


def by_epipe(
    history: Sequence[Noted], states_most: int = STATES_MOST, seconds: float = SECONDS, *limits: Limits
) -> ByEpipe | None:
    """An order of a history that explains it where large writes to a pipe without a reader are EPIPE, whatever they
    have moved, if there is one, in a run of the first of these limits that has one."""
    told = sorted(history, key=lambda noted: noted.start)
    ordered = list(map(without_epipe, told))
    broken = [noted for noted, other in zip(ordered, told, strict=True) if noted is not other]
    for one in limits if broken else ():
        try:
            search = Search(ordered, one, states_most, seconds)
            search.let_break(broken)
            steps = search.order()
        except TooLong:
            continue
        if steps is not None:
            return ByEpipe(ordered, steps, one)
    return None


def by_early_end(
    history: Sequence[Noted], states_most: int = STATES_MOST, seconds: float = SECONDS, *limits: Limits
) -> ByEarlyEnd | None:
    """An order of a history that explains it where large writes to a pipe whose last reader goes end early, after as
    many bytes as they gave, if there is one, in a run of the first of these limits that has one."""
    if any(map(is_past_most, history)):
        return None
    found = by_rewriting(history, ended_early, states_most, seconds, *limits)
    return ByEarlyEnd(*found) if found else None


def by_unblocked(
    history: Sequence[Noted], states_most: int = STATES_MOST, seconds: float = SECONDS, *limits: Limits
) -> ByUnblocked | None:
    """An order of a history that explains it where large writes that wait end early, after as many bytes as they gave,
    since nonblock is set on their descriptions, if there is one, in a run of the first of these limits that has one."""
    is_set = any(noted.act.word == "setfl" and "nonblock" in noted.act.fields[1] for noted in history)
    if not is_set or any(map(is_past_most, history)):
        return None
    found = by_rewriting(history, unblocked, states_most, seconds, *limits)
    return ByUnblocked(*found) if found else None


def by_transfer(
    history: Sequence[Noted], states_most: int = STATES_MOST, seconds: float = SECONDS, *limits: Limits
) -> ByTransfer | None:
    """An order of a history that explains it where reads and writes of pipes may be of more bytes than fdref takes, if
    there is one, in a run of the first of these limits that has one."""
    if not any(map(is_past_most, history)):
        return None
    ways = (by_rewriting(history, rewrite, states_most, seconds, *limits) for rewrite in (chunked, clipped))
    found = next(filter(None, ways), None)
    return ByTransfer(*found) if found else None


def by_rewriting(
    history: Sequence[Noted], rewrite: Rewrite, states_most: int, seconds: float, *limits: Limits
) -> tuple[list[Noted], list[Step], Limits] | None:
    """A history in which calls on pipes are given as others, with an order that explains it, if there is one, in a run
    of the first of these limits that has one; large writes go in at once, or by parts where each waits for room."""
    told = sorted(history, key=lambda noted: noted.start)
    whole = rewritten(told, rewrite)
    if whole == told:
        return None
    # a part of what fits at once would not be known as such
    parted = None if rewrite is clipped else in_parts(whole)
    for ordered in filter(None, (whole, parted)):
        for one in limits:
            result = explain(ordered, states_most, seconds, 0, one)
            if not isinstance(result, Explained) or not are_of_pipes(told, result.steps, one):
                continue
            if are_cut_off(told, rewrite, result.steps, one):
                return ordered, result.steps, one
    return None


def by_shares(
    history: Sequence[Noted], states_most: int = STATES_MOST, seconds: float = SECONDS, *limits: Limits
) -> ByShares | None:
    """An order of a history that explains it where reads of a pipe at once share its bytes, if there is one, in a run
    of the first of these limits that has one; large writes go in at once, or by parts."""
    told = sorted(history, key=lambda noted: noted.start)
    for ordered in filter(None, (told, in_parts(told))):
        for one in limits:
            with contextlib.suppress(TooLong):
                steps = Sharing(ordered, one, states_most, seconds).order()
                turns = in_turns(ordered, steps) if steps is not None else []
                if steps and are_of_one_pipe(ordered, steps, one) and are_of_pipes(told, steps, one):
                    return ByShares(turns, steps, one)
    return None


def by_exits(
    history: Sequence[Noted], states_most: int = STATES_MOST, seconds: float = SECONDS, *limits: Limits
) -> ByExits | None:
    """An order of a history that explains it where exits close their descriptors one by one, if there is one, in a run
    of the first of these limits that has one; large writes go in at once, or by parts."""
    told = sorted(history, key=lambda noted: noted.start)
    if not exits_at_once(told):
        return None
    for ordered in filter(None, (told, in_parts(told))):
        for one in limits:
            with contextlib.suppress(TooLong):
                steps = Exiting(ordered, one, states_most, seconds).order()
                if steps is not None and are_of_pipes(told, steps, one):
                    return ByExits(with_closes(ordered, steps), steps, one)
    return None


def by_small_parts(
    history: Sequence[Noted], states_most: int = STATES_MOST, seconds: float = SECONDS, *limits: Limits
) -> BySmallParts | None:
    """An order of a history that explains it where writes of any size to a pipe go in by parts, and no bytes of others
    stand between those of small ones, if there is one, in a run of the first of these limits that has one."""
    told = sorted(history, key=lambda noted: noted.start)
    parted = in_parts(told, 1) or []
    rests = rests_in(told, parted) if parted else []
    for one in limits if rests else ():
        with contextlib.suppress(TooLong):
            search = Search(parted, one, states_most, seconds)
            search.keep_together(rests)
            steps = search.order()
            if steps is not None and are_of_pipes(told, steps, one):
                return BySmallParts(parted, steps, one)
    return None


def by_freed(
    history: Sequence[Noted], states_most: int = STATES_MOST, seconds: float = SECONDS, *limits: Limits
) -> ByParts | None:
    """An order of a history that explains it where large writes that are not to wait take what reads free while they go
    on, if there is one, in a run of the first of these limits that has one; other large writes go in at once, or by
    parts."""
    told = sorted(history, key=lambda noted: noted.start)
    for ordered in filter(None, (told, in_parts(told))):
        for one in limits:
            with contextlib.suppress(TooLong):
                steps = Freeing(ordered, one, states_most, seconds).order()
                if steps is not None and are_of_pipes(told, steps, one):
                    return ByParts(by_turns(ordered, steps), steps, one)
    return None


def by_choice(
    history: Sequence[Noted], states_most: int, seconds: float, limits: Limits, has_room: bool, are_at_once: bool
) -> By | None:
    """An order of a history that explains it by one of these choices, if there is one. It is told whether it is known
    how much room a pipe has, and whether calls overlap."""
    most = states_most, seconds
    rooms = (limits,) if has_room else (limits, ROOMY)
    found: By | None = None if has_room else by_room(history, *most)
    found = found or by_parts(history, *most, *rooms) or by_epipe(history, *most, *rooms)
    if found or not are_at_once:
        return found
    others = by_early_end(history, *most, *rooms) or by_unblocked(history, *most, *rooms)
    others = others or by_transfer(history, *most, *rooms) or by_shares(history, *most, *rooms)
    others = others or by_exits(history, *most, *rooms) or by_small_parts(history, *most, *rooms)
    others = others or by_freed(history, *most, *rooms)
    guessed = None if others else with_guesses(sorted(history, key=lambda noted: noted.start))
    ways = (by_parts, by_shares, by_small_parts) if guessed else ()
    return next(filter(None, (way(guessed or [], *most, *rooms) for way in ways)), others)


def without_epipe(noted: Noted) -> Noted:
    """A call without its answer, where that is EPIPE of a write that may go in by parts."""
    is_large = noted.act.word == "write" and len(noted.act.fields[1]) > PIPE_BUF
    return noted._replace(outcome=UNKNOWN) if is_large and noted.outcome == "error EPIPE" else noted


def by_late_links(history: Sequence[Noted], states_most: int = STATES_MOST, seconds: float = SECONDS) -> bool:
    """Whether an order explains a history of regular files where a link finds its file first, and names it later."""
    words = {noted.act.word for noted in history}
    if "link" not in words or "mkfifo" in words:
        return False
    with late_links():
        return isinstance(explain(history, states_most, seconds, 0), Explained)


def torn_by(history: Sequence[Noted], blamed: Noted, limits: Limits, states_most: int) -> str | None:
    """What has torn small writes to a pipe, if an order explains a history up to a call where they go in by parts, too:
    a reader, which has seen one in part, or other writers, whose bytes are between those of one."""
    begun = [noted for noted in history if blamed.end is not None and noted.start <= blamed.end]
    parted = in_parts(begun, 1)
    rests = rests_in(begun, parted) if parted else []
    for what, kept in ((SEEN_IN_PART, rests), (INTERLEAVED, [])) if parted else ():
        with contextlib.suppress(TooLong):
            search = Search(parted or [], limits, states_most, PARTS_SECONDS)
            search.keep_together(kept)
            steps = search.order()
            if steps is not None and are_of_pipes(begun, steps, limits):
                return what
    return None


# ---- who is to blame


def blamed_in(history: Sequence[Noted]) -> list[Noted]:
    """The call that makes a history impossible, with those that overlap it."""
    return with_overlapping(history, max(range(len(history)), key=lambda place: blame(history[place])))


def with_others(found: Unexplained, history: Sequence[Noted], limits: Limits, states_most: int) -> Unexplained:
    """What is found, with the other calls that may be wrong instead of the one that is to blame: each that is left in
    the short part with its answer, if an order explains all up to there without that."""
    first = found.blamed[0]
    known = [it for it in found.shrunk if it.outcome != UNKNOWN and it.act.word not in KEPT and it != first]
    begun = up_to(history, first.end) if known and first.end is not None else list(history)
    until = time.monotonic() + OTHERS_SECONDS

    def is_right_without(noted: Noted) -> bool:
        with contextlib.suppress(TooLong):
            told = without_answers(begun, {noted})
            return Search(told, limits, states_most, until - time.monotonic()).order() is not None
        return False

    others = [it for it in known[-OTHERS_MOST:] if is_right_without(it)]
    return found._replace(others=others, is_one=is_right_without(first)) if others else found


def with_overlapping(history: Sequence[Noted], place: int) -> list[Noted]:
    """A call of a history, with those that overlap it; the ones that may disturb it first."""
    first, touches = history[place], Footprints(history).touches
    others = [
        (not touches[place].disturbs(touches[other]), -noted.start, noted)
        for other, noted in enumerate(history)
        if other != place and not noted.precedes(first) and not first.precedes(noted)
        if noted.process != first.process
    ]
    others.sort(key=lambda other: other[:2])
    return [first, *(noted for _, _, noted in others[:OVERLAPPING_MOST])]


def blame(noted: Noted) -> tuple[bool, int]:
    """How much a call is to blame: one that waits in vain most, and else the last one that has come back."""
    return noted.outcome == WAITS, -1 if noted.end is None else noted.end


# ---- the page of the standard

# What ends the waiting of each call that may wait.
ENDS_OF_WAITING = {
    "read": "page of read: it waits until there are data, or no writer",
    "write": "page of write: it waits until there is room, or no reader",
    "open": "page of open: it waits until the other end is opened",
}
# XSH 2.9.7 names these of the calls, where they are made on regular files.
ATOMIC = """
    close dup2 fstat ftruncate getfl link lseek open pread pwrite read rename setfl unlink write
""".split()
# Calls whose page has another name, and acts that have none.
NO_CALL = "docs/PROFILE.md: the other acts (own)"
PAGES = {"getfl": "page of fcntl", "setfl": "page of fcntl", "join": NO_CALL, "attach": NO_CALL}
# What may be wrong with writes of at most PIPE_BUF bytes.
SEEN_IN_PART = "page of write: that a part of at most PIPE_BUF bytes is seen is open (own), and does not explain all"
INTERLEAVED = "page of write: at most PIPE_BUF bytes are not interleaved"
REPLACED = "page of rename: a name that is replaced is never missing"
WAITS_AT_FILE = "on a regular file no call waits"
NUMBERED = "docs/PROFILE.md: processes are numbered 0, 1, 2 .. in the order of joins and forks (own)"


def page_of(history: Sequence[Noted], blamed: Noted, torn: str | None = None) -> str:
    """The page of the standard that a call departs from, if no order explains it. Calls are atomic to others where some
    are made at once. What has torn small writes is told where that explains all."""
    footprints = Footprints(history)
    at = footprints.touches[list(history).index(blamed)].at
    word = blamed.act.word
    is_of_fifo = word == "open" and footprints.names.first(blamed.act.fields[0]) in footprints.names.fifos
    if blamed.outcome == WAITS:
        is_of_file = (word == "open" and not is_of_fifo) or (at is not None and not at.may_be_pipe)
        return f"{page_name(word)}: {WAITS_AT_FILE}" if is_of_file else ENDS_OF_WAITING.get(word, page_name(word))
    if word in ("join", "fork") and blamed.outcome.isdigit():
        return NUMBERED
    if is_missing(history, blamed):
        return REPLACED
    if is_of_fifo:
        return "page of open: a FIFO"
    if at and at.may_be_pipe:
        return f"{torn}; {page_name(word)}" if torn else f"{page_name(word)}: a pipe or FIFO"
    if word in ATOMIC and are_at_once(history, footprints):
        return f"XSH 2.9.7: calls on regular files are atomic to each other; {page_name(word)}"
    return page_name(word)


def are_at_once(history: Sequence[Noted], footprints: Footprints) -> bool:
    """Whether two calls of a history that disturb each other are made at once."""
    both = sorted(zip(history, footprints.touches, strict=True), key=lambda it: it[0].start)
    calls = [(noted, touch) for noted, touch in both if noted.act.word in ATOMIC]
    for place, (one, touch) in enumerate(calls):
        for other, touched in itertools.islice(calls, place + 1, None):
            if one.precedes(other):
                break
            if one.process != other.process and touch.disturbs(touched):
                return True
    return False


def page_name(word: str) -> str:
    """The page of a call."""
    return PAGES.get(word, f"page of {word}")


def is_missing(history: Sequence[Noted], blamed: Noted) -> bool:
    """Whether a call finds no file of a name that a rename replaces meanwhile."""
    if blamed.outcome != "error ENOENT":
        return False
    renames = [noted for noted in history if noted.act.word == "rename" and noted.act.fields[1] == blamed.act.fields[0]]
    return any(not it.precedes(blamed) and not blamed.precedes(it) for it in renames if it is not blamed)
