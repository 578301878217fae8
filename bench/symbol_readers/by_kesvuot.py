"""Reads all symbols and fixups of a file by the package kesvuot. bench/symbols runs it, and says what it prints.

    by_kesvuot.py ROUNDS REPEATS FILE
"""

from __future__ import annotations

from functools import lru_cache
from pathlib import Path

import kesvuot
from steps import Sums, run


@lru_cache(1)
def read(path: Path) -> bytes:
    """The bytes of the file, which is read once."""
    return path.read_bytes()


def open_images(path: Path) -> list[kesvuot.Image]:
    """The images of all slices that are read, after the verdict."""
    return list(kesvuot.verify(read(path)).images)


def add_rows(images: list[kesvuot.Image]) -> Sums:
    count = values = sections = 0
    for image in images:
        count += len(image.symbols)
        for symbol in image.symbols:
            values += symbol.value
            if symbol.section is not None:
                sections += symbol.section + 1
    return Sums(count, values, sections, 0)


def add_names(images: list[kesvuot.Image]) -> Sums:
    count = values = sections = lengths = 0
    for image in images:
        count += len(image.symbols)
        for symbol, name in image.symbols_with_names:
            values += symbol.value
            if symbol.section is not None:
                sections += symbol.section + 1
            lengths += len(name)
    return Sums(count, values, sections, lengths)


def add_fixups(images: list[kesvuot.Image]) -> Sums:
    count = addresses = segments = imports = 0
    for image in images:
        for fixup in image.fixups:
            count += 1
            addresses += fixup.address
            segments += fixup.segment + 1
            imports += fixup.import_index or 0
    return Sums(count, addresses, segments, imports)


if __name__ == "__main__":
    run(open_images, rows=add_rows, names=add_names, fixups=add_fixups)
