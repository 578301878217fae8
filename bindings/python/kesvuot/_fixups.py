"""The pointers that a dynamic loader writes, and what they are bound to."""

from __future__ import annotations

import ctypes
from struct import Struct
from typing import Any, Iterator, NamedTuple, Optional, Tuple

from ._library import Bytes, load
from ._rows import BATCH, _text

# struct kesvuot_fixup_cursor, kesvuot_fixup and kesvuot_import
CURSOR = Struct("@10Q2qQ4I")
FIXUP = Struct("@4QqIIHBBI")
IMPORT = Struct("@2Q2qI4x")
# KESVUOT_REBASE. Any other row is a bind.
REBASE = 1


class Authentication(NamedTuple):
    """How an authenticated pointer is signed.

    `key`: 0 to 3: IA, IB, DA, DB
    `diversity`: a number with which it is signed
    `address_diversity`: whether it is signed with its own address too"""

    key: int
    diversity: int
    address_diversity: bool


class Fixup(NamedTuple):
    """A pointer that a dynamic loader writes: a rebase, which points into the image itself and moves with it, or a
    bind, which gets the address of an import.

    `address`: where it is, before any slide
    `segment`, `offset`: the index of its segment in `Image.segments`, and how far it is from the start of the segment,
    and of its bytes
    `target`: of a rebase the address to which it points, before any slide. None of a bind
    `import_index`: of a bind the index of its import in `Image.imports`. None of a rebase. In a file that the linked
    profile refuses it can be past the last import
    `addend`: of a bind what is added in all to the address that is found, that of its import included
    `authentication`: how it is signed, or None"""

    address: int
    segment: int
    offset: int
    target: Optional[int]
    import_index: Optional[int]
    addend: int
    authentication: Optional[Authentication]


class Import(NamedTuple):
    """What pointers are bound to.

    `name`: of the symbol
    `library`: which of `Image.libraries` has it, from 1 on. 0: the image itself; -1: the program; -2: all images in
    their order; -3: all images, whose weak definitions count as one
    `addend`: what is added to the address that is found
    `weak`: whether the name need not be found"""

    name: memoryview
    library: int
    addend: int
    weak: bool

    def __repr__(self) -> str:
        return _text(self)


def fixups(data: Bytes, image: Any) -> Iterator[Fixup]:
    for address, offset, target, index, addend, segment, kind, *how in _rows("kesvuot_read_fixups", FIXUP, data, image):
        is_rebase = kind == REBASE
        yield Fixup(address, segment, offset, target if is_rebase else None, None if is_rebase else index, addend,
                    _authentication(*how))


def _authentication(diversity: int, address_diversity: int, key: int, is_signed: int) -> Optional[Authentication]:
    return Authentication(key, diversity, bool(address_diversity)) if is_signed else None


def imports(data: Bytes, image: Any) -> Iterator[Import]:
    for offset, size, library, addend, weak in _rows("kesvuot_read_imports", IMPORT, data, image):
        yield Import(data.part(offset, size), library, addend, bool(weak))


def _rows(name: str, form: Struct, data: Bytes, image: Any) -> Iterator[Tuple[Any, ...]]:
    """The rows of a table, some at a time, as the library writes them."""
    call, rows = getattr(load(), name), ctypes.create_string_buffer(BATCH * form.size)
    cursor, written = ctypes.create_string_buffer(CURSOR.size), BATCH
    while written == BATCH:
        written = call(data.address, len(data), image, cursor, rows, BATCH)
        yield from form.iter_unpack(memoryview(rows).cast("B")[:written * form.size])
