"""Reads all symbols of a file by the package macholib. bench/symbols runs it, and says what it prints.

    by_macholib.py ROUNDS REPEATS FILE

macholib reads the file again for each table of symbols, and looks up each name.
"""

from __future__ import annotations

from pathlib import Path

from macholib.MachO import MachO
from macholib.mach_o import LC_SEGMENT_64, MH_CIGAM_64
from macholib.SymbolTable import SymbolTable
from steps import Sums, run


def open_images(path: Path) -> list[tuple[MachO, object]]:
    """The file, with each header that kesvuot reads: the 64-bit, little-endian ones."""
    file = MachO(str(path), allow_unknown_load_commands=True)
    return [(file, header) for header in file.headers if header.MH_MAGIC == MH_CIGAM_64]


def section_count(header) -> int:
    """How many sections all segments have."""
    return sum(segment.nsects for load, segment, _ in header.commands if load.cmd == LC_SEGMENT_64)


def add_names(images: list[tuple[MachO, object]]) -> Sums:
    count = values = sections = lengths = 0
    for file, header in images:
        last = section_count(header)
        symbols = getattr(SymbolTable(file, header), "nlists", [])
        count += len(symbols)
        for symbol, name in symbols:
            values += symbol.n_value
            if symbol.n_sect <= last:
                sections += symbol.n_sect
            lengths += len(name)
    return Sums(count, int(values), int(sections), lengths)


if __name__ == "__main__":
    run(open_images, names=add_names)
