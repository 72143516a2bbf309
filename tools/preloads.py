"""The libraries that are loaded into the program that is judged, beside the shim: those of `--preload`, and those that
LD_PRELOAD names as judge.py begins. These are not for judge.py itself, nor for the server and the compiler, which a
wrong one would mislead: so it begins anew without them."""

import os
import re
import shutil
import subprocess
import sys
from collections.abc import Sequence
from pathlib import Path

VARIABLE = "LD_PRELOAD"
# What LD_PRELOAD named before judge.py began anew.
BEFORE = "FDREF_PRELOADED"
# What stands in the shim, by whatever name it is built.
OF_SHIM = b"FDREF_HANDED="
# What the system's loader says of a library that it goes on without.
UNLOADED = re.compile(rb"cannot be preloaded \(([^)\n]*)\)")
LOAD_SECONDS = 5
TOLD_SHIM = "is fdref's library, which judge.py loads by itself: it is left out of LD_PRELOAD"


def begin_anew() -> None:
    """Begins this program again without the libraries of LD_PRELOAD, where there are any."""
    named = os.environ.pop(VARIABLE, "")
    if not named:
        return
    os.environ[BEFORE] = named
    os.execv(sys.executable, [sys.executable, *sys.orig_argv[1:]])


def is_shim(path: str) -> bool:
    """Whether a library is the shim."""
    try:
        return OF_SHIM in Path(path).read_bytes()
    except OSError:
        return False


def unloaded(path: str) -> str:
    """Why a library is not loaded into a program, which then runs without it, or nothing where it is."""
    try:
        words, env = [shutil.which("true") or "true"], {VARIABLE: os.path.abspath(path)}
        ran = subprocess.run(words, env=env, stderr=subprocess.PIPE, timeout=LOAD_SECONDS, check=False)
    except subprocess.TimeoutExpired:
        # it is, and does something else
        return ""
    told = UNLOADED.search(ran.stderr)
    return told[1].decode("utf-8", "replace") if told else ""


def fault_of(path: str) -> str:
    """Why a library that is there is none to load beside the shim, or nothing."""
    if is_shim(path):
        return f"{path} is fdref's library, which is loaded anyway: --shim names a built one"
    why = unloaded(path)
    return f"{path} is not loaded by the system: {why}" if why else ""


def from_here(path: str) -> str:
    """A library as another folder has it. One without a slash is looked for as the system does."""
    return os.path.abspath(path) if "/" in path else path


def preloads(given: Sequence[str]) -> list[str]:
    """What is loaded beside the shim: these libraries, and those that LD_PRELOAD named. That it named the shim, which
    would be there twice, is told."""
    named = [path for path in re.split("[: ]", os.environ.pop(BEFORE, "")) if path]
    for path in filter(is_shim, named):
        print(f"judge.py: {path} {TOLD_SHIM}", file=sys.stderr, flush=True)
    return [*map(os.path.abspath, given), *(from_here(path) for path in named if not is_shim(path))]
