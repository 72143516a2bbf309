"""The rows: each folder of tests/rows is a run of `fdref replay`, `audit` or `migrate`, with what it has to give.

A run of `replay` has `script`, its standard input, and a run of `audit` has `trace.hex`, the bytes of its file in
hexadecimal, in which line ends have no meaning; both may have `args`, the words after `replay` or `audit`, one a line,
of an audit those before its file. A run of `migrate` has `old.hex`, the bytes of the file that it reads, and `new.hex`, those that it has to write. In all three `stdout` is
what it must write on standard output, `stderr` (if there) the text that it must write on standard error, without the
end of its last line, and `status` (0 where it is missing) its exit status.
"""

from pathlib import Path

from support.places import ROWS
from support.running import Ran


class Row:
    """One row. Its files are read when they are asked for."""

    def __init__(self, folder: Path) -> None:
        self.folder = folder
        self.name = folder.name

    def has(self, name: str) -> bool:
        """Whether a file is there."""
        return (self.folder / name).exists()

    def read(self, name: str, default: bytes) -> bytes:
        """A file, or what stands for it where it is not there."""
        return (self.folder / name).read_bytes() if self.has(name) else default

    def script(self) -> bytes:
        """The standard input of the run."""
        return (self.folder / "script").read_bytes()

    def trace(self, name: str = "trace") -> bytes:
        """The bytes of a trace: the one that is audited, or the `old` or `new` one of a migration."""
        return bytes.fromhex((self.folder / f"{name}.hex").read_text())

    def words(self) -> list[str]:
        """The words after `replay`, or those after `audit` before its file."""
        return self.read("args", b"").decode().splitlines()

    def wanted(self) -> Ran:
        """What the run has to give."""
        error = self.read("stderr", b"").removesuffix(b"\n")
        stdout = (self.folder / "stdout").read_bytes()
        return Ran(int(self.read("status", b"0")), stdout, error + b"\n" if error else b"")


def rows() -> list[Row]:
    """All runs of `replay`, in the order of their names."""
    return [row for row in all_rows() if row.has("script")]


def audits() -> list[Row]:
    """All runs of `audit`, in the order of their names."""
    return [row for row in all_rows() if row.has("trace.hex")]


def migrations() -> list[Row]:
    """All runs of `migrate`, in the order of their names."""
    return [row for row in all_rows() if row.has("old.hex")]


def all_rows() -> list[Row]:
    """All rows, in the order of their names."""
    return [Row(folder) for folder in sorted(ROWS.iterdir()) if folder.is_dir()]
