#!/usr/bin/env python3
"""Adds up what jobs of a run have counted that was shared out, and ends as one run would.

usage: tools/summary.py [--files N] [--into FILE] FILE ...

Each FILE is what `--summary FILE` of tools/compare.py --random, tools/race.py --seconds, tests/random_runs.py or
tests/enemy.py has written, all by the same of them, each with a seed or with numbers of scripts of its own.

Printed are a line for each version of fdref, of Python and of the system, with how many jobs had it, and then the last
lines of one run that does what all jobs have done. With --files N so many files have to be there, so that a job that
wrote none is noticed. --into writes the sum as a summary.

Exit status: that of such a run, which is 0 where all is well and 1 where something is wrong (3 where a script could not
be run); 2 for wrong words, and where files cannot be added up: one is no summary, one is missing, they are of different
programs, or something was run twice.
"""

import argparse
import sys
from collections.abc import Sequence

from support.summaries import BadSummary, Summary, Tally, read, sum_of, write
from support.tallies import KindsTally, ScriptsTally
from support.texts import several

import compare
import race

TALLIES: dict[str, type[Tally]] = {
    "compare.py": compare.Totals,
    "race.py": race.Tally,
    "random_runs.py": ScriptsTally,
    "enemy.py": KindsTally,
}


def tally_of(path: str, summary: Summary) -> Tally:
    """What the program of a summary counts, which is that of a file."""
    if summary.program not in TALLIES:
        raise BadSummary(f"{path}: of {summary.program}, which has none")
    try:
        return TALLIES[summary.program].of(summary.counts)
    except KeyError as fault:
        raise BadSummary(f"{path}: not the counts of {summary.program}: {fault.args[0]} is missing") from None
    except (AttributeError, TypeError, ValueError):
        raise BadSummary(f"{path}: not the counts of {summary.program}: they are of another form") from None


def summed(paths: Sequence[str]) -> Summary:
    """The sum of what is in these files, each of which has what its program counts."""
    every = [(path, read(path)) for path in paths]
    for path, summary in every:
        tally_of(path, summary)
    return sum_of(every)


def told_versions(summary: Summary) -> list[str]:
    """A line for each version, with how many jobs had it."""
    met = [(name, version, count) for name, counts in summary.versions.items() for version, count in counts.items()]
    return [f"{name}: {version} ({several(count, 'job')})" for name, version, count in met]


def parse(words: Sequence[str]) -> argparse.Namespace:
    """What the command line asks for."""
    parser = argparse.ArgumentParser(
        description=__doc__, formatter_class=argparse.RawDescriptionHelpFormatter, usage=argparse.SUPPRESS
    )
    parser.add_argument("files", nargs="+", metavar="FILE", help="what --summary has written")
    parser.add_argument("--files", dest="count", type=int, metavar="N", help="how many files there have to be")
    parser.add_argument("--into", metavar="FILE", help="where the sum is written, as a summary")
    return parser.parse_args(words)


def main(words: Sequence[str]) -> int:
    """Adds up what is asked for: the exit status."""
    args = parse(words)
    try:
        if args.count is not None and len(args.files) != args.count:
            raise BadSummary(f"{several(len(args.files), 'file')}, and there have to be {args.count}")
        summary = summed(args.files)
        tally = tally_of("the sum", summary)
        if args.into:
            write(args.into, summary)
    except (BadSummary, OSError) as fault:
        print(f"summary.py: {fault}", file=sys.stderr)
        return 2
    print("\n".join([*told_versions(summary), tally.text()]))
    return tally.status()


if __name__ == "__main__":
    sys.exit(main(sys.argv[1:]))
