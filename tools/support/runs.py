"""Runs as lines: how a line of one is read, and the run of a script in which calls go on as soon as they can."""

from typing import NamedTuple

from support import plain_model

ALL_RECORDS = 1_000_000


class Line(NamedTuple):
    """A line of a run. A place of `-` is that of an act without a record; the last line has neither place nor act."""

    place: str
    act: str
    outcome: str

    def number(self) -> int:
        """The number of the process that acts."""
        return int(self.act.partition(" ")[0].removeprefix("p"))


def line_of(text: str) -> Line:
    """A line that is spelled so."""
    if text.startswith("records "):
        return Line("", "", text)
    place, _, rest = text.partition(" ")
    act, _, outcome = rest.rpartition(" = ")
    return Line(place, act, outcome)


class Settled(plain_model.Run):
    """A run of the model in which a call goes on as soon as it can, as on a system."""

    def __init__(self, limits: plain_model.Limits = plain_model.DEFAULTS) -> None:
        super().__init__(ALL_RECORDS, limits)

    def take(self, act: plain_model.Act) -> None:
        """Lets an act take place, and all that go on because of it."""
        super().take(act)
        while any(self.goes_on(process) for process in list(self.world.processes.values())):
            continue

    def goes_on(self, process: plain_model.Process) -> bool:
        """Whether the call of a process that waits goes on."""
        is_ready = process.waits is not None and process.waits.is_ready(self.world)
        if is_ready:
            super().take(plain_model.Act(process.number, "resume"))
        return is_ready
