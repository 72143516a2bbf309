"""Links as many a system makes them: the file of the old name is found first, and gets its new name later.

The standard has a link at once. Here a rename or an unlink may come between its two halves. So a name may lead to a
file that the old name does not lead to any more; and the link is refused where that file has lost its last name, or
where the new name is there by then.
"""

from collections.abc import Iterator
from contextlib import contextmanager

from support.plain_model import Process, Regular, Reply, World, check_name, require

AT_ONCE = World.link
# Whoever makes a link: it makes no difference.
ANYBODY = Process(0)


class WaitingLink:
    """A link that has found its file, and may go on at any time."""

    pipe = None

    def __init__(self, file: Regular, new: bytes) -> None:
        self.file = file
        self.new = new
        self.moved = 0

    def is_ready(self, world: World) -> bool:
        """Whether it need not wait any more."""
        return True

    def go_on(self, world: World) -> tuple[Reply, bool]:
        """What the other half of the call replies, and that the call has ended with it."""
        require(self.new not in world.names, "EEXIST")
        names = [name for name, file in world.names.items() if file is self.file]
        require(names, "ENOENT")
        return AT_ONCE(world, ANYBODY, names[0], self.new), True


def begun(world: World, process: Process, old: bytes, new: bytes) -> Reply:
    """The first half of a link of a regular file."""
    check_name(old)
    check_name(new)
    require(old in world.names, "ENOENT")
    file = world.names[old]
    assert isinstance(file, Regular)
    process.waits = WaitingLink(file, new)  # type: ignore[assignment]
    return None


@contextmanager
def late_links() -> Iterator[None]:
    """Links of the plain model are made in two halves."""
    World.link = begun  # type: ignore[assignment]
    try:
        yield
    finally:
        World.link = AT_ONCE  # type: ignore[assignment]
