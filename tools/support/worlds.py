"""Worlds of the plain model as values: states that are equal where nothing can tell two worlds apart.

A state is made of tuples. In place of objects it has numbers, in the order in which the objects are found: by the
descriptors of the processes first, and then by the names. What nothing leads to is not in it, nor how many bytes were
moved in all, nor the limits, which are the same in all states of a search. How often an end of a FIFO was opened
matters only to an open that waits: whether it was, since then.

`States` numbers the states that are met, and keeps what each act comes to in each. So an act is run once in a state,
however often a search comes by there.
"""

from typing import NamedTuple

from support import plain_model
from support.contents import NOTHING, Contents, Held
from support.late_links import WaitingLink
from support.plain_model import DEFAULTS, Description, Fifo, Limits, Pipe, Process, Regular, World

# What a world is made of: what is held is a regular file, ("p", bytes) a pipe, and ("f", number of its pipe or None) a
# FIFO.
File = Held | tuple[str, bytes] | tuple[str, int | None]
# The file, the mode, append, nonblock, the offset, and the pipe or None.
At = tuple[int, str, bool, bool, int, int | None]
# A call that waits: its kind and what it knows.
Waits = tuple[object, ...] | None
# The number, whether it is attached, its descriptors, and the call that it waits in.
Who = tuple[int, bool, tuple[tuple[int, int], ...], Waits]


class State(NamedTuple):
    """A world as a value."""

    processes: tuple[Who, ...]
    descriptions: tuple[At, ...]
    files: tuple[File, ...]
    names: tuple[tuple[bytes, int], ...]
    next_number: int
    is_closed: bool


EMPTY = State((), (), (), (), 0, False)


# ---- a world as a state


class Freezer:
    """Numbers the objects of a world in the order in which they are found."""

    def __init__(self) -> None:
        self.numbers: dict[int, int] = {}
        self.files: list[File] = []
        self.descriptions: list[At] = []

    def file(self, file: Regular | Pipe | Fifo, pipe: Pipe | None = None) -> int:
        """The number of a file; `pipe` is that of a FIFO of which an end is open."""
        key = id(file)
        number = self.numbers.get(key)
        if number is not None:
            return number
        told: File
        if isinstance(file, Regular):
            told = file.data.held()
        elif isinstance(file, Pipe):
            told = ("p", bytes(file.data))
        else:
            told = ("f", None if pipe is None else self.file(pipe))
        number = self.numbers[key] = len(self.files)
        self.files.append(told)
        return number

    def description(self, at: Description) -> int:
        """The number of an open file description."""
        key = id(at)
        number = self.numbers.get(key)
        if number is None:
            file = self.file(at.file, at.pipe)
            pipe = None if at.pipe is None else self.file(at.pipe)
            number = self.numbers[key] = len(self.descriptions)
            self.descriptions.append((file, at.mode, at.append, at.nonblock, at.offset, pipe))
        return number

    def waits(self, call: object) -> Waits:
        """A call that waits."""
        if isinstance(call, plain_model.WaitingRead):
            return "r", self.file(call.pipe), call.count
        if isinstance(call, plain_model.WaitingWrite):
            return "w", self.file(call.pipe), call.data, call.moved
        if isinstance(call, WaitingLink):
            return "l", self.file(call.file), call.new
        assert isinstance(call, plain_model.WaitingOpen)
        has_opened = call.fifo.opened[call.other] > call.seen
        return "o", self.file(call.fifo), call.fd, call.other, has_opened

    def process(self, process: Process) -> Who:
        """A process."""
        table = process.table
        descriptors = tuple([(fd, self.description(table[fd])) for fd in sorted(table)])
        waits = None if process.waits is None else self.waits(process.waits)
        return process.number, process.attached, descriptors, waits


def frozen(world: World) -> State:
    """The state that a world is in."""
    freezer = Freezer()
    processes = tuple([freezer.process(world.processes[number]) for number in sorted(world.processes)])
    names = tuple([(name, freezer.file(world.names[name])) for name in sorted(world.names)])
    files, descriptions = tuple(freezer.files), tuple(freezer.descriptions)
    return State(processes, descriptions, files, names, world.next_number, world.is_closed)


# ---- a state as a world


def thawed_files(state: State, world: World) -> list[Regular | Pipe | Fifo]:
    """The files of a state, as objects. A pipe has a lower number than its FIFO."""
    files: list[Regular | Pipe | Fifo] = []
    for told in state.files:
        file: Regular | Pipe | Fifo
        if isinstance(told, Held):
            file = Regular()
            file.data = Contents(told)
        elif isinstance(told[1], bytes):
            file = world.new_pipe()
            file.data += told[1]
        else:
            file = Fifo(world.new_pipe())
            if told[1] is not None:
                pipe = files[told[1]]
                assert isinstance(pipe, Pipe)
                file.pipe = pipe
        files.append(file)
    return files


def thawed_wait(told: tuple[object, ...], files: list[Regular | Pipe | Fifo]) -> object:
    """A call that waits, as an object."""
    kind, number, *rest = told
    file = files[int(str(number))]
    if kind == "r":
        return plain_model.WaitingRead(file, *rest)  # type: ignore[arg-type]
    if kind == "w":
        writing = plain_model.WaitingWrite(file, rest[0])  # type: ignore[arg-type]
        writing.moved = rest[1]  # type: ignore[assignment]
        return writing
    if kind == "l":
        return WaitingLink(file, *rest)  # type: ignore[arg-type]
    opening = plain_model.WaitingOpen(rest[0], file, rest[1])  # type: ignore[arg-type]
    opening.seen -= bool(rest[2])
    return opening


def thawed(state: State, limits: Limits, kind: type[World] = World) -> World:
    """A world of a kind in a state, which shares nothing with any other."""
    world = kind(limits)
    world.next_number, world.is_closed = state.next_number, state.is_closed
    files = thawed_files(state, world)
    descriptions = []
    for number, mode, append, nonblock, offset, pipe in state.descriptions:
        at = Description(files[number], mode, (), None if pipe is None else files[pipe])  # type: ignore[arg-type]
        at.append, at.nonblock, at.offset = append, nonblock, offset
        descriptions.append(at)
    for number, attached, table, waits in state.processes:
        process = Process(number, None, attached)
        process.table = {fd: descriptions[at] for fd, at in table}
        if waits is not None:
            process.waits = thawed_wait(waits, files)  # type: ignore[assignment]
        world.processes[number] = process
    world.names = {name: files[number] for name, number in state.names}  # type: ignore[misc]
    return world


# ---- parts of a state


def behind(state: State, process: int, fd: int) -> At:
    """The description behind a descriptor that a process has open."""
    table = next(who[2] for who in state.processes if who[0] == process)
    return state.descriptions[next(number for held, number in table if held == fd)]


def blanked(state: State, process: int, fd: int) -> State:
    """A state in which the regular file behind a descriptor is empty, and all its offsets are 0."""
    file = behind(state, process, fd)[0]
    files = (*state.files[:file], NOTHING, *state.files[file + 1 :])
    descriptions = tuple([(*at[:4], 0, at[5]) if at[0] == file else at for at in state.descriptions])
    return state._replace(files=files, descriptions=descriptions)


# ---- steps


class Stepper(plain_model.Run):
    """A run that keeps the outcome of its last act alone: None where that leaves no record."""

    def __init__(self) -> None:
        super().__init__(2**64)
        self.outcome: str | None = None

    def record(self, act: plain_model.Act, outcome: plain_model.Reply) -> None:
        """Keeps an outcome, as a record has it."""
        self.outcome = plain_model.data_text(outcome) if isinstance(outcome, bytes) else str(outcome)

    def tell(self, act: plain_model.Act, what: str) -> None:
        """Keeps that there is no record."""
        self.outcome = None


# The outcome of an act, and the number of the state after it.
Came = tuple[str | None, int]


class States:
    """The states that were met, by their numbers, and what each act comes to in them, in a world of some kind. State 0
    is the empty world."""

    def __init__(self, limits: Limits = DEFAULTS, world: type[World] = World) -> None:
        self.limits = limits
        self.world = world
        self.all: list[State] = []
        self.numbers: dict[State, int] = {}
        self.waiting: list[frozenset[int]] = []
        self.steps: dict[tuple[int, plain_model.Act], Came] = {}
        self.blank: dict[tuple[int, int, int], int] = {}
        self.stepper = Stepper()
        self.number(EMPTY)

    def number(self, state: State) -> int:
        """The number of a state."""
        number = self.numbers.setdefault(state, len(self.all))
        if number == len(self.all):
            self.all.append(state)
            self.waiting.append(frozenset([who[0] for who in state.processes if who[3] is not None]))
        return number

    def after(self, number: int, act: plain_model.Act) -> Came:
        """What an act comes to in a state."""
        key = number, act
        came = self.steps.get(key)
        if came is None:
            world = self.stepper.world = thawed(self.all[number], self.limits, self.world)
            self.stepper.take(act)
            came = self.steps[key] = self.stepper.outcome, self.number(frozen(world))
        return came

    def without_bytes(self, number: int, process: int, fd: int) -> int:
        """The state in which nothing is known any more of the bytes of the regular file behind a descriptor."""
        key = number, process, fd
        after = self.blank.get(key)
        if after is None:
            after = self.blank[key] = self.number(blanked(self.all[number], process, fd))
        return after

    def is_ready(self, number: int, process: int) -> bool:
        """Whether the call that a process waits in can go on."""
        return self.after(number, plain_model.Act(process, "resume"))[0] is not None
