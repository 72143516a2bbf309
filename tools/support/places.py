"""Where things are: the top folder of the tree, and the programs that are built in it."""

import os
from pathlib import Path

TOP = Path(__file__).resolve().parents[2]
TESTS = TOP / "tests"
EDITS = TESTS / "edits"
WRONG_SERVERS = TESTS / "wrong_servers"
ROWS = TESTS / "rows"
STAND_INS = TESTS / "stand_ins"
CRATES = TOP / "crates"
EXAMPLES = TOP / "examples"
CLIENT = TOP / "clients" / "python"
C_CLIENT = TOP / "clients" / "c"
C_TESTS = TESTS / "c"
TOOLS = TOP / "tools"


def built(crate: str) -> Path:
    """Where the program of a crate is, once it is built."""
    return CRATES / crate / "out" / crate


# The program; in an installation, which has the tools in share/fdref of its prefix and no crates, that beside them.
IS_INSTALLED = not CRATES.exists()
FDREF = TOP.parents[1] / "bin" / "fdref" if IS_INSTALLED else built("fdref")
MEMORY_TRIAL = built("memory_trial")
FRAME_TRIAL = built("frame_trial")
SESSION_TRIAL = built("session_trial")
RUN_TRIAL = built("run_trial")

# Where short-lived files are made quickly: in memory, where the system has a folder for that.
SCRATCH = "/dev/shm" if os.access("/dev/shm", os.W_OK) else None
