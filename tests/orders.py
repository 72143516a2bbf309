#!/usr/bin/env python3
"""Is an order found for each history that has one, and for no other, and do places order live ones? (a minute)

usage: tests/orders.py [--program PATH] [--seed WORD] [--histories N] [--calls N] [--only WORD]

The program is crates/fdref/out/fdref where no PATH is given.

  - Histories by hand have an order or have none, as is known of each; so it is with the call that is to blame, with the
    page of the standard, and with the short part that is told.
  - Of races of each kind, and of random walks, N histories (6) are made by the plain model, with random times that fit.
    All have an order. In two of three an answer or a time is changed then. Whether there is an order is known by going
    through all of them.
  - So it is with histories of threads, which share descriptors: what later answers tell leaves an order to each that
    has one.
  - What is left out where a history is made short must leave an order to each history that has one.
  - Each order that is found must be one for the program, and tools/order.py must say so, by its lines and its status.
  - tools/waiting.py tells of traces by hand, and of 40 random ones, who is there and who waits.
  - Histories of 6 processes with 20 calls each are searched, with a wrong answer and without. The longest time is told.
  - 64 clients of a live server make N calls (100,000) at full speed, in C, by clocks of their own. No order is searched
    for: that of the places has to explain them, and answers in wrong places have to be found.

Where no C compiler is there, it says so and leaves out the last part. All random choices follow from the seed, but the
live server may order the calls otherwise. The last line is `N passed, M failed`, and the exit status is 1 where M is
above 0.
"""

import sys
import tempfile
from collections.abc import Sequence

from parts import clocked_clients, history_lines, lane_histories, order_tool, random_histories, told_histories
from parts import waiting_tool
from parts.c_programs import builds
from support.counting import Count, lacks_compiler
from support.options import ONLY, PROGRAM, SEED, asked, count_option

TELL_MOST = 10
TRACES = 40


def main(words: Sequence[str]) -> int:
    """Makes all checks: the exit status."""
    about = "Looks for orders of histories by hand, random ones and live ones."
    histories = count_option("--histories", 6, "random histories of each kind")
    calls = count_option("--calls", 100_000, "calls of live clients")
    args = asked(words, about, PROGRAM, SEED, histories, calls, ONLY)
    program = args.program
    parts = [
        ("by hand", told_histories.cases(program)),
        ("short parts by hand", told_histories.short_cases()),
        ("lines", history_lines.cases()),
        ("tools/order.py", order_tool.cases(program)),
        ("tools/waiting.py", waiting_tool.cases(args.seed, TRACES)),
        ("random histories", random_histories.cases(program, args.seed, args.histories)),
        ("random histories of threads", lane_histories.cases(program, args.seed, 4 * args.histories)),
        ("what is left out", random_histories.left_out_cases(args.seed, args.histories)),
        ("6 processes with 20 calls", random_histories.large_cases(program, args.seed)),
    ]
    with tempfile.TemporaryDirectory(prefix="fdref-") as folder:
        every = builds(folder)
        if every:
            parts.append(("live clients", clocked_clients.cases(program, every[0], args.seed, args.calls)))
        else:
            lacks_compiler("there are no clients of a live server at full speed")
        return Count(TELL_MOST).parts(parts, args.only)


if __name__ == "__main__":
    sys.exit(main(sys.argv[1:]))
