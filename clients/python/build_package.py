"""Builds the client as a package, by PEP 517: pip calls what is here, which needs the standard library alone.

What pyproject.toml tells of the project is what the package tells. There is no sdist, since the tree itself is one.
"""

import base64
import hashlib
import tomllib
import zipfile
from pathlib import Path
from typing import Any

HERE = Path(__file__).resolve().parent
FILES = ("fdref/__init__.py", "fdref/py.typed")


def project() -> dict[str, Any]:
    """What pyproject.toml tells of the project."""
    told: dict[str, Any] = tomllib.loads((HERE / "pyproject.toml").read_text(encoding="utf-8"))["project"]
    return told


def about(told: dict[str, Any]) -> dict[str, bytes]:
    """The files that tell of the package, by their names in it."""
    metadata = f"""Metadata-Version: 2.1
Name: {told["name"]}
Version: {told["version"]}
Summary: {told["description"]}
Requires-Python: {told["requires-python"]}
"""
    wheel = "Wheel-Version: 1.0\nGenerator: build_package\nRoot-Is-Purelib: true\nTag: py3-none-any\n"
    folder = f"{told['name']}-{told['version']}.dist-info"
    return {f"{folder}/METADATA": metadata.encode(), f"{folder}/WHEEL": wheel.encode()}


def recorded(name: str, content: bytes) -> str:
    """The line of RECORD of a file."""
    digest = base64.urlsafe_b64encode(hashlib.sha256(content).digest()).rstrip(b"=").decode()
    return f"{name},sha256={digest},{len(content)}\n"


def build_wheel(wheel_directory: str, config_settings: Any = None, metadata_directory: str | None = None) -> str:
    """Writes the package into a folder: its name there."""
    told = project()
    contents = {name: (HERE / name).read_bytes() for name in FILES} | about(told)
    record = f"{told['name']}-{told['version']}.dist-info/RECORD"
    lines = [recorded(name, content) for name, content in contents.items()]
    contents[record] = "".join([*lines, f"{record},,\n"]).encode()
    wheel = f"{told['name']}-{told['version']}-py3-none-any.whl"
    with zipfile.ZipFile(Path(wheel_directory, wheel), "w", zipfile.ZIP_DEFLATED) as written:
        for name, content in contents.items():
            # at a time of its own, so that the same sources give the same bytes
            entry = zipfile.ZipInfo(name)
            entry.external_attr = 0o644 << 16
            written.writestr(entry, content, zipfile.ZIP_DEFLATED)
    return wheel


def get_requires_for_build_wheel(config_settings: Any = None) -> list[str]:
    """What has to be there for it: nothing."""
    return []
