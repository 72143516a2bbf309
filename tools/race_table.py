"""The table of a race: what its calls were seen to answer on a system, and what they may answer by fdref.

A call that waits at the end is `waits ?` in both, since how much of a write went in is not seen on a system. So
outcomes of fdref that differ in nothing else are one line.
"""

import collections
import itertools
import re
import time
from collections.abc import Callable, Iterable, Sequence
from typing import NamedTuple, Protocol

from support import histories
from support.histories import History
from support.outcomes import Race, script_line
from support.plain_model import Limits
from support.replaying import replayed
from support.running import CannotRun, run
from support.texts import several

SECONDS = 600
# How many histories with the same answers are looked at for a reason, at least, and how many are kept.
JUDGED_LEAST, FORMS_MOST = 3, 1_000
# How many characters of an outcome are shown.
WIDTH = 110


class Reasoned(Protocol):
    """Why a system may answer what no order gives."""

    @property
    def name(self) -> str: ...

    @property
    def page(self) -> str: ...


class Judged(NamedTuple):
    """Whether an order explains a history with its times, or None where that is not known, and why none does."""

    is_explained: bool | None
    reason: Reasoned | None = None


class Seen:
    """How often calls were seen to answer the same, and some histories in which they did, of different forms, each with
    how often it was met."""

    def __init__(self) -> None:
        self.count = 0
        self.forms: dict[object, History] = {}
        self.times: collections.Counter[object] = collections.Counter()

    def add(self, history: History) -> None:
        """Counts a history."""
        self.count += 1
        form = histories.form(history)
        if form in self.forms or len(self.forms) < FORMS_MOST:
            self.forms.setdefault(form, history)
            self.times[form] += 1


class Odd(NamedTuple):
    """What was seen and is not allowed: its text, how often it was seen, and its reason or a history without one."""

    text: str
    count: int
    reason: Reasoned | None
    history: History


class Untimely(NamedTuple):
    """What was seen and is allowed, but not at the times of the calls, and of how many rounds these were not judged."""

    odd: list[Odd]
    unjudged: int


def without_counts(text: str) -> str:
    """An outcome in which nothing is told of how much calls that wait have moved."""
    return re.sub(r"\bwaits \d+", "waits ?", text)


def allowed_by(program: Sequence[str], race: Race, words: Sequence[str]) -> dict[str, int]:
    """The outcomes that fdref tells, each with its number, or the lowest of several."""
    try:
        ran = run([*program, "outcomes", *words], race.text().encode(), seconds=SECONDS)
    except OSError as fault:
        raise CannotRun(f"{program[0]}: {fault}") from None
    if ran.status != 0:
        raise CannotRun(f"fdref outcomes ends with {ran.said()}")
    allowed: dict[str, int] = {}
    for number, text in re.findall(r"(?m)^outcome (\d+): (.*)$", ran.stdout.decode("ascii")):
        allowed.setdefault(without_counts(text), int(number))
    return allowed


def check_calls(race: Race, history: History) -> None:
    """Fails where a history does not have the calls of a race: each process makes its own in their order, but for those
    after one that waits."""
    before = [script_line(noted.act) for noted in history[: len(race.setup)]]
    faults = [apart([script_line(act) for _, act in race.setup], before, False)]
    lanes = race.lanes()
    calls = history[len(race.setup) :]
    for process in sorted({noted.process for noted in calls} | set(lanes)):
        own = [noted for noted in calls if noted.process == process]
        waits = bool(own) and own[-1].end is None
        faults.append(apart(list(map(script_line, lanes.get(process, []))), [script_line(it.act) for it in own], waits))
    for fault in filter(None, faults):
        raise CannotRun(f"race_kernel {fault}")


def apart(wanted: Sequence[str], made: Sequence[str], may_end: bool) -> str | None:
    """What was not made as it is wanted, unless calls are missing at the end alone, where they may."""
    for want, have in itertools.zip_longest(wanted, made):
        if have is None:
            return None if may_end else f"did not run `{want}`"
        if want != have:
            return f"ran `{have}` in place of `{want}`" if want else f"ran `{have}`, which is not in the race"
    return None


def seen_in(race: Race, history: History) -> str:
    """The outcome that a history is."""
    told: dict[int, list[str]] = {process: [] for process in race.lanes()}
    for noted in history[len(race.setup) :]:
        told[noted.process].append(noted.outcome)
    return ", ".join(race.answers(told))


class Table:
    """What was seen of a race, beside what is allowed."""

    def __init__(self, race: Race, allowed: dict[str, int]) -> None:
        self.race = race
        self.allowed = allowed
        self.seen: dict[str, Seen] = {}
        # of each answers before the race a history
        self.setups: dict[tuple[str, ...], History] = {}

    def add(self, found: Iterable[History]) -> None:
        """Counts histories."""
        for history in found:
            check_calls(self.race, history)
            self.setups.setdefault(tuple(noted.outcome for noted in history[: len(self.race.setup)]), history)
            self.seen.setdefault(seen_in(self.race, history), Seen()).add(history)

    def rounds(self) -> int:
        """How many histories were counted."""
        return sum(seen.count for seen in self.seen.values())

    def odd(self, reason_of: Callable[[History], Reasoned | None], until: float = 0) -> list[Odd]:
        """What was seen and is not allowed, what came most often first. Of histories with the same answers some are
        judged in any case, and the others until a time has come."""
        found = []
        for text, seen in sorted(self.seen.items(), key=lambda entry: -entry[1].count):
            if text in self.allowed:
                continue
            judged: list[tuple[Reasoned | None, History]] = []
            for history in seen.forms.values():
                # one history without a reason is told, where there is one
                is_bare = bool(judged) and judged[-1][0] is None
                if is_bare or (len(judged) >= JUDGED_LEAST and time.monotonic() > until):
                    break
                judged.append((reason_of(history), history))
            found.append(Odd(text, seen.count, *min(judged, key=lambda it: it[0] is not None)))
        return found

    def untimely(self, judge: Callable[[History], Judged], until: float) -> Untimely:
        """What was seen and is allowed, but not at the times of the calls. Histories of each outcome are judged by
        turns, those of equal forms once, until a time has come; one of each outcome is judged in any case."""
        met = [(text, seen) for text, seen in self.seen.items() if text in self.allowed]
        todo = [(turn, text, form) for text, seen in met for turn, form in enumerate(seen.forms)]
        bad: dict[str, list[tuple[int, Reasoned | None, History]]] = {}
        looked = 0
        for turn, text, form in sorted(todo, key=lambda it: it[0]):
            if turn and time.monotonic() > until:
                break
            seen = self.seen[text]
            judged = judge(seen.forms[form])
            looked += seen.times[form] if judged.is_explained is not None else 0
            if judged.is_explained is False:
                bad.setdefault(text, []).append((seen.times[form], judged.reason, seen.forms[form]))
        odd = []
        for text, found in bad.items():
            _, reason, history = min(found, key=lambda it: it[1] is not None)
            odd.append(Odd(text, sum(count for count, *_ in found), reason, history))
        return Untimely(odd, sum(seen.count for _, seen in met) - looked)

    def lines(
        self, odd: Sequence[Odd], perhaps: Callable[[History], Reasoned | None], untimely: Sequence[Odd] = ()
    ) -> list[str]:
        """The table, in up to four parts: a line has how often an outcome was seen, its number in fdref, and its text.
        What may be the reason of one without a reason is told."""
        lines = ["seen, and not allowed"] if odd else []
        lines += [line for it in odd for line in self.odd_lines(it, perhaps)]
        lines += ["seen, and not allowed at these times"] if untimely else []
        lines += [line for it in untimely for line in self.odd_lines(it, perhaps)]
        unseen = [text for text in self.allowed if text not in self.seen]
        lines += ["allowed, and not seen"] if unseen else []
        lines += [row(0, self.allowed[text], text) for text in unseen]
        met = [text for text in self.allowed if text in self.seen]
        lines += ["allowed, and seen"] if met else []
        return lines + [row(self.seen[text].count, self.allowed[text], text) for text in met]

    def odd_lines(self, it: Odd, perhaps: Callable[[History], Reasoned | None]) -> list[str]:
        """The lines of an outcome that is not allowed."""
        reason = it.reason or perhaps(it.history)
        may_be = "perhaps: " if reason and not it.reason else ""
        return [row(it.count, self.allowed.get(it.text, "-"), it.text), why(reason, may_be)]

    def last_lines(self, odd: Sequence[Odd], untimely: Untimely) -> list[str]:
        """The counts. Before them stands how many outcomes have times at which they are not allowed, and of how many
        rounds the times were not judged."""
        lines = []
        if untimely.odd:
            outcomes = several(len(untimely.odd), "outcome")
            lines.append(f"{outcomes} not allowed at some times, {bare(untimely.odd)} of them without a reason")
        if untimely.unjudged:
            lines.append(f"the times of {several(untimely.unjudged, 'round')} were not judged")
        met = sum(text in self.seen for text in self.allowed)
        text = f"{several(self.rounds(), 'round')}; outcomes: {len(self.allowed)} allowed, {met} of them seen; "
        return [*lines, text + f"{len(odd)} seen and not allowed, {bare(odd)} of them without a reason"]


def bare(odd: Iterable[Odd]) -> int:
    """How many have no reason."""
    return sum(it.reason is None for it in odd)


def why(reason: Reasoned | None, may_be: str = "") -> str:
    """The line of a reason, if there is one."""
    return f"{'':14}{may_be}" + (f"{reason.name} ({reason.page})" if reason else "no reason is known")


def row(count: int, number: int | str, text: str) -> str:
    """A line of an outcome, of which a long one is cut in the middle."""
    short = text if len(text) <= WIDTH else text[: WIDTH - 43] + "..." + text[-40:]
    return f"{count:8} {number:>4} {short}".rstrip()


def setup_differs(program: Sequence[str], race: Race, history: History, limits: Limits) -> list[str]:
    """The acts before a race that the system has answered otherwise than fdref, a line each."""
    acts = [act for _, act in race.setup]
    lines = zip(acts, replayed(program, acts, limits), history[: len(acts)], strict=True)
    return [
        f"before the race: {script_line(act)} = {noted.outcome}, and fdref says {line.outcome}"
        for act, line, noted in lines
        if line.outcome != noted.outcome
    ]
