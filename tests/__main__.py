"""Lists the tests, or runs one of them.

usage: python3 tests
       python3 tests NAME [WORD ..]
"""

import ast
import os
import shutil
import subprocess
import sys
from collections.abc import Sequence
from pathlib import Path

FOLDER = Path(__file__).resolve().parent


def tests() -> dict[str, Path]:
    """The tests, which are the files of this folder, by their names."""
    return {path.stem: path for path in sorted(FOLDER.glob("*.py")) if path.stem != "__main__"}


def first_line(path: Path) -> str:
    """What a test asks, and how long it takes: the first line of its docstring."""
    text = ast.get_docstring(ast.parse(path.read_text(encoding="utf-8"))) or ""
    return text.partition("\n")[0]


def wanting(known: dict[str, Path]) -> list[str]:
    """The tests that leave something out, since no C compiler is found here."""
    if any(map(shutil.which, ("gcc", "clang", os.environ.get("CC", "cc")))):
        return []
    return [name for name, path in known.items() if "lacks_compiler(" in path.read_text(encoding="utf-8")]


def main(words: Sequence[str]) -> int:
    """Lists the tests, or runs the one that is named: the exit status."""
    known = tests()
    if not words:
        for name, path in known.items():
            print(f"{name:<13} {first_line(path)}")
        print("\npython3 tests/NAME.py runs one, on programs that are built, and its --help tells its options.")
        print("Its last line is `N passed, M failed`. .ci/run proves and builds all, and runs all of them but")
        print("`edits` and `wrong_servers`, which take long.")
        names = ", ".join(wanting(known))
        if names:
            print(f"\nNo C compiler is found here. These leave out what needs one: {names}.")
        return 0
    name = words[0]
    if name not in known:
        print(f"there is no test {name}: python3 tests lists them", file=sys.stderr)
        return 2
    return subprocess.run([sys.executable, known[name], *words[1:]], check=False).returncode


if __name__ == "__main__":
    sys.exit(main(sys.argv[1:]))
