"""Holding the order of a history against the program: what it answers to the acts has to explain the history."""

from collections import deque
from collections.abc import Iterable, Sequence
from typing import NamedTuple

from support import plain_model
from support.commands import capacity_words
from support.counting import Failure
from support.histories import UNKNOWN, WAITS, Noted
from support.plain_model import DEFAULTS, Limits
from support.running import CannotRun, run
from support.runs import ALL_RECORDS, Line, line_of
from support.searching import Step

SECONDS = 60


class Differs(Failure):
    """An answer of the program that is not the one of the plain model, or not that of the history."""


# ---- running


def script_line(act: plain_model.Act) -> str:
    """The line of a script that asks for an act."""
    return "join" if act.word == "join" else plain_model.act_text(act)


def replayed(
    program: str | Sequence[str], acts: Sequence[plain_model.Act], limits: Limits = DEFAULTS
) -> list[Line]:
    """The lines that the program, or a command that runs it, prints for these acts in a run of these limits, but that
    of the totals."""
    script = "".join(f"{script_line(act)}\n" for act in acts).encode()
    words = [program] if isinstance(program, str) else program
    records = min(2 * len(acts) + 200, ALL_RECORDS)
    try:
        ran = run([*words, "replay", "--records", str(records), *capacity_words(limits)], script, seconds=SECONDS)
    except (Failure, OSError) as fault:
        raise CannotRun(f"{words[0]}: {fault}") from None
    if ran.status != 0:
        raise CannotRun(f"{words[0]} ends with {ran.said()}")
    return [line_of(line) for line in ran.stdout.decode("ascii").splitlines()[:-1]]


# ---- judging


class Went(NamedTuple):
    """How a call went in a run: the places of its first and its last line, and what it gave at last."""

    first: int
    last: int
    outcome: str


def is_waiting(outcome: str) -> bool:
    """Whether a call waits after this outcome."""
    return outcome.startswith(("parked ", "part "))


def calls_of(lines: Iterable[Line]) -> dict[int, list[tuple[str, Went]]]:
    """The calls of each process in a run, in their order, with the resumes of each."""
    calls: dict[int, list[tuple[str, Went]]] = {}
    for place, line in enumerate(lines):
        own = calls.setdefault(line.number(), [])
        if line.act.endswith(" resume"):
            act, before = own.pop()
            own.append((act, Went(before.first, place, line.outcome)))
        else:
            own.append((line.act, Went(place, place, line.outcome)))
    return calls


def explains(history: Sequence[Noted], lines: Sequence[Line]) -> None:
    """The lines of a run explain a history: it has the same calls with the same answers, each process keeps its order,
    and so does time. The calls that are not known to have come back may be missing."""
    calls = {number: deque(own) for number, own in calls_of(lines).items()}
    went: list[tuple[Noted, Went]] = []
    for noted in history:
        own = calls.get(noted.process, deque())
        if not own and noted.end is None and noted.outcome == UNKNOWN:
            continue
        if not own or own[0][0] != plain_model.act_text(noted.act):
            raise Differs(f"the order has no place for {noted.text()}")
        went.append((noted, own.popleft()[1]))
        fits(*went[-1])
    if any(calls.values()):
        raise Differs("the order has calls that the history does not have")
    keeps_time(went)


def fits(noted: Noted, gone: Went) -> None:
    """A call gave in a run what was noted."""
    if noted.end is not None and is_waiting(gone.outcome):
        raise Differs(f"it came back, and waits in the order: {noted.text()}")
    is_right = is_waiting(gone.outcome) if noted.outcome == WAITS else gone.outcome == noted.outcome
    if not is_right and noted.outcome != UNKNOWN:
        raise Differs(f"the program gives {gone.outcome} for {noted.text()}")


def keeps_time(went: Sequence[tuple[Noted, Went]]) -> None:
    """No call goes on in a run after one that began when it had come back."""
    ended = [(noted.end, gone.last, noted) for noted, gone in went if noted.end is not None]
    came_back = sorted(ended, key=lambda it: it[:2])
    at = 0
    latest, last = None, -1
    for other, other_gone in sorted(went, key=lambda it: it[0].start):
        while at < len(came_back) and came_back[at][2].precedes(other):
            if came_back[at][1] > last:
                last, latest = came_back[at][1:]
            at += 1
        if latest and last > other_gone.first:
            raise Differs(f"the order turns time around: {latest.text()}, and {other.text()}")


# ---- both


def verified(
    program: str | Sequence[str], history: Sequence[Noted], steps: Sequence[Step], limits: Limits = DEFAULTS
) -> list[Line]:
    """The lines of the program for the steps of an order, in a run of these limits. They have to be the steps of the
    model, and explain the history; and none of the calls that wait at its end may be ready."""
    waiting = [noted.process for noted in history if noted.outcome == WAITS]
    tries = [plain_model.Act(process, "resume") for process in waiting]
    lines = replayed(program, [*(step.act for step in steps), *tries], limits)
    for line, step in zip(lines, steps, strict=False):
        if (line.act, line.outcome) != (plain_model.act_text(step.act), step.outcome):
            raise Differs(f"{line.act} = {line.outcome}, and the model gives {step.outcome}")
    if [line.outcome for line in lines[len(steps) :]] != ["still"] * len(tries):
        raise Differs("a call that waits at the end is ready")
    explains(history, lines[: len(steps)])
    return lines[: len(steps)]
