"""What a difference between two runs may have reached: descriptors, files and names, as the records of one run tell.

Both runs make the same calls. Where one of them gave another answer, what that call is made on may differ from then on:
the open file description, its file, the names in the call, and the descriptors of its process where the call changes
these. It goes on from there to what is opened by such a name, linked to it, or forked. All else is the same in both
runs, so that an answer that differs there does not follow from what differed before.
"""

from support import plain_model
from support.footprints import CHANGE_DESCRIPTORS

# A description, a file or a pipe, or ("name", bytes) and ("table", number of a process).
Thing = object

# Calls with names alone, which may be done to the file of another name.
OF_NAMES = ("link", "rename", "unlink", "mkfifo")


def names_in(act: plain_model.Act) -> list[bytes]:
    """The names that a call has."""
    kinds = plain_model.FIELDS.get(act.word, ())
    return [value for kind, value in zip(kinds, act.fields, strict=True) if kind is plain_model.read_name]


def behind(at: plain_model.Description) -> set[Thing]:
    """A description, with its file and its pipe."""
    found: set[Thing] = {at, at.file}
    if at.pipe:
        found.add(at.pipe)
    return found


def descriptions(process: plain_model.Process, act: plain_model.Act) -> set[plain_model.Description]:
    """Those behind the descriptors in a call."""
    kinds = plain_model.FIELDS.get(act.word, ())
    fds = [value for kind, value in zip(kinds, act.fields, strict=True) if kind is plain_model.read_fd]
    return {process.table[fd] for fd in fds if fd in process.table}


class Reach:
    """What is reached so far."""

    def __init__(self) -> None:
        self.things: set[Thing] = set()
        # once a process goes another way it may do anything to any name
        self.are_all_names = False

    def of(self, world: plain_model.World, act: plain_model.Act) -> set[Thing]:
        """What the answer of a call may depend on."""
        process = world.processes.get(act.actor) if isinstance(act.actor, int) else None
        found: set[Thing] = set() if act.word in OF_NAMES else {("table", act.actor)}
        for name in names_in(act):
            found.add(("name", name))
            found |= {world.names[name]} if name in world.names else set()
        for at in descriptions(process, act) if process else ():
            found |= behind(at)
        return found

    def reaches(self, world: plain_model.World, act: plain_model.Act) -> bool:
        """Whether the answer of a call may follow from what differed."""
        return bool(self.of(world, act) & self.things) or (self.are_all_names and bool(names_in(act)))

    def differs(self, world: plain_model.World, act: plain_model.Act) -> None:
        """A call gives another answer, and both go on from there."""
        found = self.of(world, act)
        process = world.processes.get(act.actor) if isinstance(act.actor, int) else None
        if process and act.word in CHANGE_DESCRIPTORS:
            self.descriptors_differ(process)
        self.things |= found - {("table", act.actor)}

    def descriptors_differ(self, process: plain_model.Process) -> None:
        """A process may have other descriptors."""
        self.things.add(("table", process.number))
        for at in process.table.values():
            self.things |= behind(at)

    def goes_astray(self, world: plain_model.World, number: int) -> None:
        """A process goes on with other calls."""
        self.are_all_names = True
        process = world.processes.get(number)
        if process:
            self.descriptors_differ(process)

    def passes(self, world: plain_model.World, act: plain_model.Act) -> bool:
        """A call that both make alike is about to be made: whether it is reached."""
        if act.word in ("join", "attach", "resume", "close-run") or not self.reaches(world, act):
            return False
        names = {("name", name) for name in names_in(act)}
        if act.word in OF_NAMES and not (self.are_all_names or names & self.things):
            # a file may be another one, and is there by these names in both runs
            return False
        found = self.of(world, act) - {("table", act.actor)}
        self.things |= found if act.word in OF_NAMES else found - names
        return True

    def has_passed(self, world: plain_model.World, act: plain_model.Act, outcome: str | None) -> None:
        """Such a call was made: what it has made is reached too."""
        process = world.processes.get(act.actor) if isinstance(act.actor, int) else None
        if act.word == "open" and process and outcome and outcome.isdigit() and int(outcome) in process.table:
            self.things |= behind(process.table[int(outcome)])
        if act.word == "fork" and ("table", act.actor) in self.things and outcome and outcome.isdigit():
            self.things.add(("table", int(outcome)))
        if act.word in ("pipe", "dup", "dup2") and process and ("table", act.actor) in self.things:
            self.descriptors_differ(process)
