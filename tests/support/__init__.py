"""What the tests and the benches share: the package of the tools, tools/support, and some modules more.

So `support.plain_model` is tools/support/plain_model.py; tools/support/__init__.py tells what is there. Here are

- `options`: the options that several scripts have, and what is said where a program is not built
- `rows`: the runs of tests/rows
- `sources`: sources of random choices, each from a seed and a number that a failure tells
- `session_model`: the plain model of a session
- `players`: clients that keep what they were told, and the traces of servers that run still
- `refusing`: runs in which allocations are refused

Whoever imports it can import the tools, the client in Python and the examples, too.

A test is a file tests/NAME.py. The first line of its docstring says what it asks and how long it takes, and
`python3 tests` lists it. Its `main` takes the words of the command line and gives the exit status:

    args = asked(words, "Looks at what is given.", PROGRAM)
    count = Count()
    count.check("what is looked at", lambda: same(wanted, given(args.program)))
    count.check_all((name, partial(is_right, it)) for name, it in others)
    return count.end()

A check raises `Failure` (by `require` or `same`) where something is wrong, and `end` prints `N passed, M failed`. No
test imports another one.
"""

import sys
from pathlib import Path

TOP = Path(__file__).resolve().parents[2]

__path__.append(str(TOP / "tools" / "support"))
sys.path[1:1] = [str(TOP / folder) for folder in ("tools", "clients/python", "examples")]
