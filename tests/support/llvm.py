"""The newest tools of LLVM, and what llvm-objdump lists of Mach-O files."""

from __future__ import annotations

import re
from pathlib import Path


from reference import oracle
from .calling import has_tool


def newest(tool: str) -> str | None:
    """The newest tool of LLVM whose name ends with its version, or the one whose name does not."""
    names = [f"{tool}-{version}" for version in range(40, 13, -1)] + [tool]
    return next(filter(has_tool, names), None)


def llvm_objdump() -> str | None:
    return newest("llvm-objdump")


def parts_of_slices(text: str, path: Path) -> list[str]:
    """What it has listed of each slice of a file, with --macho --arch=all."""
    heading = rf"^{re.escape(str(path))}(?: \(architecture \S+\))?:$"
    return re.split(heading, text, flags=re.MULTILINE)[1:]


def as_text(characters: bytes) -> str:
    """A name up to its end, as it is in the output."""
    return oracle.up_to_zero(characters).decode(errors="surrogateescape")


def short_name(path: str) -> str:
    """How LLVM shows a library, of the names that it shortens here: lib/libc.1.dylib is libc."""
    base = path.rsplit("/", 1)[-1]
    if f"/{base}.framework/" in f"/{path}" or not base.endswith(".dylib"):
        return base if ".framework/" in path else path
    return base[: -len(".dylib")].split(".")[0]


def library_shown(image: oracle.Image, ordinal: int) -> str:
    """How LLVM shows the library with this ordinal, from 1 on."""
    commands = [command for command in image.listed if command.cmd in oracle.LIBRARIES]
    command = commands[ordinal - 1]
    start = command.place + oracle.name_offset(command)
    return short_name(as_text(image.data[start:command.place + command.cmdsize]))
