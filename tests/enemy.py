#!/usr/bin/env python3
"""Do audits withstand forged and endless traces, and the live server hostile clients? (half a minute)

usage: tests/enemy.py [--program PATH] [--seed WORD] [--seconds N] [--runs N] [--only WORD] [--summary FILE]

The program is crates/fdref/out/fdref where no PATH is given. What it must say of a trace is what the plain auditor
says, tools/support/auditing.py. It is run

  - on records of every kind with each length and each kind at its edges, with a byte too many, with each field at its
    edges (one in eight of these, and all of them with `--seconds`), and on random ones, as `audit` and as `show`,
  - on random runs of the model that are legal up to a lie: a reply one off, a part in place of a number, another actor,
    two runs spliced, records repeated, left out and swapped, the outcome of a neighbour, a forged exit, and records
    after the closing,
  - on small traces that are cut at every byte, and by a named pipe, which hands them over in pieces, or is held open,
  - on long traces, which may take no more memory than short ones, and no more time for a record,
  - as a server, in N runs (10) with up to 64 clients. Most are enemies: they send garbage, half frames, floods, slow
    bytes and huge lengths, open out of place, attach the children of others, vanish anywhere, close one half, wait for
    ever, and never read. Beside them honest clients work, who must come to their end while all others stay. The server
    must then end by itself; its line, its trace and every byte that a client has sent and was sent must agree.

Three wrong auditors of tests/stand_ins/wrong_auditor.py have to be found out by the same traces.

With `--seconds N` it goes on with other seeds for so long. How much there was of each kind is told at the end. The name
of a failure has the seed that makes it again, if it has any: all choices follow from that, but a server may order the
calls otherwise.

A failure is told in one line, the first ten of them. The last line is `N passed, M failed`, and the exit status is 1
where M is above 0.
"""

import itertools
import sys
import time
from collections.abc import Iterable, Iterator, Sequence
from functools import partial

from parts import enemy_audits, enemy_frames, enemy_growth, enemy_lies, enemy_server
from parts.enemy_audits import is_right, judged
from parts.written_traces import LINES, NEW_SHORT, SHORT, Named, with_byte
from stand_ins import wrong_auditor
from support import summaries
from support.auditing import audited
from support.counting import Case, require, same
from support.frames import trace_of
from support.options import ONLY, PROGRAM, SEED, SUMMARY, asked, count_option, seconds_option
from support.places import STAND_INS
from support.running import ran_all
from support.sources import source
from support.tallies import KindsTally

# Of one seed: bent records that are audited and shown, runs of which each is told with every lie, how many of these are
# shown of each kind, and traces that come by a pipe.
BENT, SHOWN, LYING, SHOWN_LIES, PIPED = 400, 100, 48, 6, 6
# Of the fields of all samples a seed takes one in so many.
ONE_IN = 8
# What a round of other seeds has beside them: traces that have no seed, and runs of a server.
FIELDS_OF_A_ROUND, RUNS_OF_A_ROUND = 250, 2
# The greatest length of a trace that is cut at every byte.
SMALL = 300


# ---- traces

# Small traces, right and wrong ones.
SMALL_ONES: list[Named] = [
    ("the short trace", SHORT),
    ("an illegal one", with_byte(SHORT, 43, 2)),
    ("a malformed one", with_byte(SHORT, 34, 255)),
    ("the short trace in version 2", NEW_SHORT),
    ("one that goes on for too long", with_byte(NEW_SHORT, 11, 3)),
]


def small_lies(seed: str) -> list[Named]:
    """A few small traces of a seed that are right up to a lie."""
    return list(itertools.islice((it for _, it in enemy_lies.lies(seed, "small", 40) if len(it[1]) <= SMALL), 2))


def some_lies(seed: str) -> dict[str, list[Named]]:
    """The lies of a seed, by their kinds."""
    found: dict[str, list[Named]] = {}
    for kind, named in enemy_lies.lies(seed, "lies", LYING):
        found.setdefault(kind, []).append(named)
    return found


def check_lies(kinds: KindsTally, program: str, seed: str) -> None:
    """The program finds lies of every kind as the plain auditor does."""
    for kind, named in some_lies(seed).items():
        kinds.check(f"lies: {kind}", judged(program, named))
        for words in ("audit --complete", "show", "show --acts"):
            kinds.check(f"lies: {words}", judged(program, named[:SHOWN_LIES], words))
    one_off = ((f"lie {at} of seed {seed}", partial(enemy_lies.finds_one_off, seed, at)) for at in range(LYING))
    kinds.check("lies that the plain auditor finds", one_off)


def check_frames(kinds: KindsTally, program: str, seed: str) -> None:
    """Records that are bent are audited and shown as the plain auditor does."""
    for words, count in (("audit", BENT), ("show", SHOWN), ("show --acts", SHOWN)):
        kinds.check(f"bent fields: {words}", judged(program, enemy_frames.random_ones(seed, words, count), words))


def with_children(count: int) -> Named:
    """A trace in which a process forks so many children, however many may live, and the last of them exits."""
    forks = [f"0 p0 fork = {number}" for number in range(1, count + 1)]
    return f"{count} children", trace_of([*forks, f"0 p{count} exit = ok"])


def check_pieces(kinds: KindsTally, program: str, seed: str) -> None:
    """Traces of a seed are judged rightly wherever they are cut, and however a pipe hands them over."""
    kinds.check("cuts", judged(program, enemy_audits.fronts(small_lies(seed))))
    lying = (trace for _, (_, trace) in enemy_lies.lies(seed, "piped", 1))
    for number, trace in enumerate(itertools.islice(lying, PIPED)):
        kinds.check("pipes", enemy_audits.in_random_pieces(program, seed, number, trace))


# ---- wrong auditors


def is_found_out(rule: str, named: Iterable[Named]) -> None:
    """The verdict of a wrong auditor on one of these traces is not that of the plain auditor."""
    verdict = wrong_auditor.RULES[rule][1]
    require(any(verdict(trace) != audited(trace) for _, trace in named), "no trace finds it out")


def is_a_program(rule: str) -> None:
    """As a program a wrong auditor says what it says here; it says right things of the short trace."""
    traces = [SHORT, with_byte(SHORT, 23, 9), with_byte(SHORT, 51, 1)]
    given = ran_all(str(STAND_INS / "wrong_auditor.py"), traces, f"{rule} audit")
    is_right("audit", SHORT, given[0])
    same([wrong_auditor.RULES[rule][1](trace) for trace in traces], given)


def wrong_auditors(seed: str) -> Iterator[Case]:
    """Each of them has to be found out, by bent records and by lies."""
    lying = [named for some in some_lies(seed).values() for named in some]
    for rule, (text, _) in wrong_auditor.RULES.items():
        yield f"{rule} as a program", partial(is_a_program, rule)
        # of what a header tells bent records say nothing
        if rule not in wrong_auditor.OF_HEADERS:
            bent = enemy_frames.random_ones(seed, "audit", BENT)
            yield f"{text}, beside bent records", partial(is_found_out, rule, bent)
        yield f"{text}, beside lies", partial(is_found_out, rule, lying)


# ---- the whole


def check_bounded(kinds: KindsTally, program: str, seed: str, runs: int) -> None:
    """Makes all checks once."""
    kinds.check("lengths and kinds", judged(program, enemy_frames.every_length_and_kind()))
    first = source(seed, 0).randrange(ONE_IN)
    kinds.check("fields", judged(program, enemy_frames.every_field()[first::ONE_IN]))
    check_frames(kinds, program, seed)
    check_lies(kinds, program, seed)
    kinds.check("children", judged(program, map(with_children, (1, 64, 65, 200)), "show --acts"))
    kinds.check("cuts", judged(program, enemy_audits.fronts(SMALL_ONES)))
    kinds.check("cuts", judged(program, enemy_audits.fronts(SMALL_ONES), "audit --complete"))
    large = [(name, trace_of(lines.split("; "))) for name, lines, _ in LINES if name == "a part that is too small"]
    kinds.check("pipes", enemy_audits.by_pipes(program, [*SMALL_ONES, *small_lies(seed), *large]))
    kinds.check("pipes", enemy_audits.by_pipes(program, SMALL_ONES[:1], ("show", "show --acts")))
    kinds.check("pipes", enemy_audits.in_two(program, "the short trace", SHORT))
    kinds.check("pipes", enemy_audits.faults_at_once(program, SMALL_ONES[1][1], SMALL_ONES[2][1]))
    check_pieces(kinds, program, seed)
    kinds.check("long traces", enemy_growth.cases(program))
    kinds.check("servers", enemy_server.cases(program, seed, runs, kinds.met))
    kinds.check("wrong auditors", wrong_auditors(seed))


def check_on(kinds: KindsTally, program: str, seed: str, until: float) -> None:
    """Goes on with other seeds up to a time."""
    fields = iter(enemy_frames.every_field())
    for number in itertools.count(1):
        if time.monotonic() > until:
            return
        other = f"{seed}.{number}"
        kinds.check("fields", judged(program, itertools.islice(fields, FIELDS_OF_A_ROUND)))
        check_frames(kinds, program, other)
        check_lies(kinds, program, other)
        check_pieces(kinds, program, other)
        kinds.check("servers", enemy_server.cases(program, other, RUNS_OF_A_ROUND, kinds.met))


def main(words: Sequence[str]) -> int:
    """Makes all checks: the exit status."""
    about = "Gives the built program forged traces, and hostile clients."
    runs = count_option("--runs", 10, "runs of a server with enemies")
    seconds = seconds_option("go on with other seeds for so long")
    args = asked(words, about, PROGRAM, SEED, seconds, runs, ONLY, SUMMARY)
    until = time.monotonic() + args.seconds
    kinds = KindsTally(args.only)
    check_bounded(kinds, args.program, args.seed, args.runs)
    check_on(kinds, args.program, args.seed, until)
    if args.summary:
        share = summaries.Share(args.seed, 0, 0, args.only)
        versions = summaries.versions([args.program])
        summaries.write(args.summary, summaries.Summary("enemy.py", [share], versions, kinds.counts()))
    print(kinds.text())
    return kinds.status()


if __name__ == "__main__":
    sys.exit(main(sys.argv[1:]))
