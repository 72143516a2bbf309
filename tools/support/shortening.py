"""Making a history short that no order explains.

What is left follows from the whole: whoever had an order of the whole would have one of the part. And the part was
searched again, and has none. Four things are left out, until nothing more can be:

- *What comes later.* Up to some moment a history has an order if all of it has one. Of a call under way then nothing is
  known but that it began.
- *What disturbs nothing.* A call that changes nothing can be struck from an order, and that is one of the others.
- *What is apart.* So can all calls be at once that change nothing at which the others look.
- *Answers.* An order gives whatever answer it gives, where none is asked for.
"""

import time
from collections.abc import Callable, Iterable, Sequence

from support.footprints import CHANGE_DESCRIPTORS, Footprints, Thing, Touch
from support.histories import UNKNOWN, WAITS, Noted
from support.plain_model import Limits
from support.searching import Search, TooLong

# Calls whose answers are always kept: what later calls of a process mean depends on them.
KEPT = ("join", "attach", *CHANGE_DESCRIPTORS)
# How many calls are looked at on which the others may have no influence.
APART_MOST = 8
AT_LAST = 2**63


def up_to(history: Iterable[Noted], moment: int) -> list[Noted]:
    """The calls that began up to a moment, of which those are known that came back."""
    begun = [noted for noted in history if noted.start <= moment]
    return [
        noted if noted.end is not None and noted.end <= moment else noted._replace(end=None, outcome=UNKNOWN)
        for noted in begun
    ]


# What makes a part of a history, with some of its calls left out or changed.
Change = Callable[[Sequence[Noted], set[Noted]], list[Noted]]


class Shortening:
    """Makes a history of a run of these limits short in so many seconds, by searches of which each goes through so many
    states at most, and takes so many seconds."""

    def __init__(self, limits: Limits, states_most: int, seconds: float, each: float) -> None:
        self.limits = limits
        self.states_most = states_most
        self.each = each
        self.until = time.monotonic() + seconds

    def is_over(self) -> bool:
        """Whether there is no time left."""
        return time.monotonic() >= self.until

    def has_no_order(self, history: Sequence[Noted]) -> bool:
        """Whether it is known that no order explains a history."""
        left = self.until - time.monotonic()
        if left <= 0:
            return False
        try:
            return Search(history, self.limits, self.states_most, min(left, self.each)).order() is None
        except TooLong:
            return False

    def shortest(self, history: Sequence[Noted]) -> list[Noted]:
        """A short part of a history that has no order."""
        before: list[Noted] = []
        part = list(history)
        while part != before and not self.is_over():
            before = part
            part = self.ended_early(part)
            part = self.without_apart(part)
            part = self.without_silent(part)
            part = self.forgotten(part)
        return part

    def changed(self, part: list[Noted], some: list[Noted], change: Change) -> list[Noted]:
        """A part in which as many of some calls are changed as can be: all, or those of each half by itself."""
        if not some or self.is_over():
            return part
        after = change(part, set(some))
        if self.has_no_order(after):
            return after
        half = len(some) // 2
        return self.changed(self.changed(part, some[:half], change), some[half:], change) if half else part

    def ended_early(self, part: list[Noted]) -> list[Noted]:
        """The history up to the first moment at which there is no order any more."""
        moments = sorted({noted.end for noted in part if noted.end is not None})
        low, high = 0, len(moments)
        while low < high:
            middle = (low + high) // 2
            if self.has_no_order(up_to(part, moments[middle])):
                high = middle
            else:
                low = middle + 1
        return part if low == len(moments) else up_to(part, moments[low])

    def without_silent(self, part: list[Noted]) -> list[Noted]:
        """Leaves out calls that change nothing."""
        touches = Footprints(part).touches
        silent = [noted for noted, touch in zip(part, touches, strict=True) if is_silent(touch)]
        return self.changed(part, sorted(silent, key=ended), without)

    def without_apart(self, part: list[Noted]) -> list[Noted]:
        """Leaves out all calls that have no influence on one of them: the last one that has come back, or another."""
        touches = Footprints(part).touches
        tried: list[set[int]] = []
        for place in sorted(range(len(part)), key=lambda place: -ended(part[place]))[:APART_MOST]:
            kept = influencing(touches, place)
            if len(kept) == len(part) or kept in tried:
                continue
            tried.append(kept)
            fewer = [part[place] for place in sorted(kept)]
            if self.has_no_order(fewer):
                return fewer
        return part

    def forgotten(self, part: list[Noted]) -> list[Noted]:
        """Forgets answers that do not matter. The last one is kept: that it was given at all may be what is wrong."""
        last = max((noted.end for noted in part if noted.end is not None), default=AT_LAST)
        known = [noted for noted in part if noted.outcome != UNKNOWN and noted.end != last]
        some = [noted for noted in known if noted.outcome == WAITS or noted.act.word not in KEPT]
        return self.changed(part, sorted(some, key=ended), without_answers)


def ended(noted: Noted) -> int:
    """When a call came back, or a time after all others."""
    return AT_LAST if noted.end is None else noted.end


def without(part: Sequence[Noted], some: set[Noted]) -> list[Noted]:
    """A part of a history without some of its calls."""
    return [noted for noted in part if noted not in some]


def without_answers(part: Sequence[Noted], some: set[Noted]) -> list[Noted]:
    """A part of a history in which the answers of some calls are not known."""
    return [noted._replace(outcome=UNKNOWN) if noted in some else noted for noted in part]


def is_silent(touch: Touch) -> bool:
    """Whether a call changes nothing, whatever its answer is."""
    return touch.is_known and not touch.changes and not touch.holds


def influencing(touches: Sequence[Touch], place: int) -> set[int]:
    """The places of all calls that may have an influence on one call, with its own."""
    makers: dict[Thing, list[int]] = {}
    for at, touch in enumerate(touches):
        for thing in touch.changes | touch.holds if touch.is_known else ():
            makers.setdefault(thing, []).append(at)
    kept = {place, *(at for at, touch in enumerate(touches) if not touch.is_known)}
    left = list(kept)
    while left:
        looked = touches[left.pop()]
        if not looked.is_known:
            return set(range(len(touches)))
        # those that make a thing are met once
        found = {at for thing in looked.looks | looked.changes for at in makers.pop(thing, ())} - kept
        kept |= found
        left += found
    return kept
