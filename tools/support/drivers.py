"""The drivers of tools/: how they are compiled, and that their scripts leave nothing."""

import contextlib
import os
import subprocess
import sys
import time

from support.counting import require
from support.places import TOOLS
from support.running import SECONDS, CannotRun, Ran, run

IS_LINUX = sys.platform.startswith("linux")
# How often a driver is killed, and how late at most.
KILLS = 200
KILLED_SECONDS = 0.06
# What tools/ask_kernel.c says of a line that it cannot read.
NOT_AN_ACT = b"not an act; fdref replay tells the column and what could stand there"


def compiled(name: str, standard: str, folder: str) -> str:
    """The path of a driver, which is compiled into a folder by a standard of C."""
    path = os.path.join(folder, name)
    source = str(TOOLS / f"{name}.c")
    try:
        subprocess.run([os.environ.get("CC", "cc"), f"-std={standard}", "-O2", "-o", path, source], check=True)
    except (OSError, subprocess.CalledProcessError) as fault:
        raise CannotRun(f"tools/{name}.c is not compiled: {fault}") from None
    return path


class Driver:
    """A driver, as it was compiled, and a folder for what it makes."""

    def __init__(self, driver: str, names: str, going: float = SECONDS) -> None:
        self.driver = driver
        self.names = names
        # how long what was ended may take to be gone
        self.going = going

    def asks(self, *words: str) -> list[str]:
        """The command that runs the driver."""
        return [self.driver, "--dir", self.names, *words]

    def run(self, script: bytes, *words: str) -> Ran:
        """Runs the driver on a script: nothing that it made may be left."""
        done = run(self.asks(*words), script)
        self.is_clean()
        return done

    def is_killed_often(self, script: bytes) -> None:
        """A driver that is killed at any moment of its work on a script leaves nothing."""
        for kill in range(KILLS):
            with subprocess.Popen(self.asks(), stdin=subprocess.PIPE, stdout=subprocess.DEVNULL) as process:
                with contextlib.suppress(subprocess.TimeoutExpired):
                    process.communicate(script, timeout=KILLED_SECONDS * kill / KILLS)
                process.kill()
        self.is_clean()

    def processes(self) -> dict[int, str]:
        """The processes that run the driver's program, each with its working folder."""
        found: dict[int, str] = {}
        for number in filter(str.isdigit, os.listdir("/proc") if IS_LINUX else []):
            with contextlib.suppress(OSError):
                if os.readlink(f"/proc/{number}/exe") == self.driver:
                    found[int(number)] = os.readlink(f"/proc/{number}/cwd")
        return found

    def working(self) -> list[int]:
        """Those of a script, which work in a folder of their own. A driver that begins is in that of all."""
        names = os.path.realpath(self.names)
        return [number for number, folder in self.processes().items() if folder.endswith("/names") and folder != names]

    def is_clean(self) -> None:
        """No process of a script is left, and no folder, or they go by themselves in a moment."""
        until = time.monotonic() + self.going
        while self.processes() or os.listdir(self.names):
            require(time.monotonic() < until, f"left: {self.processes()} {os.listdir(self.names)}")
            time.sleep(0.01)
