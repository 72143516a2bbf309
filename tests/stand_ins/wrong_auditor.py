#!/usr/bin/env python3
"""Prints the verdict of a wrong auditor on a trace, to see whether the traces of tests/enemy.py find it out.

usage: tests/stand_ins/wrong_auditor.py RULE audit FILE
       tests/stand_ins/wrong_auditor.py --list

It is the plain auditor, which prints what `fdref audit` prints, but for what one of the rules that --list prints leaves
out.
"""

import sys
from collections.abc import Callable, Iterable
from pathlib import Path

sys.path.insert(0, str(Path(__file__).resolve().parents[1]))

from support.auditing import Frames, Judge, act_of, illegal, legal
from support.plain_model import DEFAULTS, Act, Limits
from support.running import Ran
from support.runs import line_of

Verdict = Callable[[bytes], Ran]

RULES: dict[str, tuple[str, Verdict]] = {}
# Those that leave out what a header tells.
OF_HEADERS = ("records-are-not-counted", "limits-are-not-read")


def rule(text: str) -> Callable[[Verdict], Verdict]:
    """Marks a wrong auditor, of which the text tells what it leaves out."""

    def keep(verdict: Verdict) -> Verdict:
        RULES[verdict.__name__.replace("_", "-")] = (text, verdict)
        return verdict

    return keep


def at_the_end(frames: Frames) -> Ran:
    """The verdict on a trace whose records are all right."""
    if frames.fault is not None:
        return Ran(8, b"malformed %d\n" % frames.fault, b"")
    return legal(len(frames.lines), frames.rest)


def limits_of(frames: Frames) -> Limits:
    """The limits that a trace tells."""
    return frames.header.limits if frames.header else DEFAULTS


@rule("whatever can be read as records is legal")
def nothing_is_judged(trace: bytes) -> Ran:
    return at_the_end(Frames(trace))


@rule("one number is as good as another")
def numbers_are_not_compared(trace: bytes) -> Ran:
    frames = Frames(trace)
    judge = Judge(limits_of(frames))
    for place, text in enumerate(frames.lines):
        line = line_of(text)
        wanted = judge.outcome_of(act_of(line.act))
        are_numbers = wanted is not None and wanted.isdigit() and line.outcome.isdigit()
        if wanted != line.outcome and not are_numbers:
            return illegal(place, wanted)
    return at_the_end(frames)


@rule("one process is as good as another")
def actors_are_not_compared(trace: bytes) -> Ran:
    frames = Frames(trace)
    limits = limits_of(frames)
    judge = Judge(limits)
    acts: list[Act] = []
    for place, text in enumerate(frames.lines):
        line = line_of(text)
        act = act_of(line.act)
        wanted = judge.outcome_of(act)
        if wanted != line.outcome:
            judge = after(limits, acts)
            numbers = [judge.world.next_number, *judge.world.processes]
            others = [act._replace(actor=number) for number in numbers] if act.actor != "house" else []
            fit = next((it for it in others if after(limits, acts).outcome_of(it) == line.outcome), None)
            if fit is None:
                return illegal(place, wanted)
            act = fit
            judge = after(limits, [*acts, act])
        acts.append(act)
    return at_the_end(frames)


@rule("a run may have more records than it was told")
def records_are_not_counted(trace: bytes) -> Ran:
    frames = Frames(trace)
    return judged(frames, limits_of(frames))


@rule("all runs have the limits of one that is told none")
def limits_are_not_read(trace: bytes) -> Ran:
    return judged(Frames(trace), DEFAULTS)


def judged(frames: Frames, limits: Limits) -> Ran:
    """The verdict on records in a run of these limits, which has no last record."""
    judge = Judge(limits)
    for place, text in enumerate(frames.lines):
        line = line_of(text)
        wanted = judge.outcome_of(act_of(line.act))
        if wanted != line.outcome:
            return illegal(place, wanted)
    return at_the_end(frames)


def after(limits: Limits, acts: Iterable[Act]) -> Judge:
    """A judge after some acts, in a run of these limits."""
    judge = Judge(limits)
    for act in acts:
        judge.outcome_of(act)
    return judge


def main(words: list[str]) -> int:
    """Prints what is asked for: the exit status."""
    if words == ["--list"]:
        print("\n".join(f"{name}: {text}" for name, (text, _) in RULES.items()))
        return 0
    if len(words) != 3 or words[0] not in RULES or words[1] != "audit":
        print(__doc__, file=sys.stderr)
        return 2
    ran = RULES[words[0]][1](Path(words[2]).read_bytes())
    sys.stdout.buffer.write(ran.stdout)
    return ran.status


if __name__ == "__main__":
    sys.exit(main(sys.argv[1:]))
