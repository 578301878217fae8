"""Symbols, and what their bits say. Fields are named and numbered as in <mach-o/nlist.h>."""

from __future__ import annotations

import ctypes
import enum
from typing import Any, NamedTuple, Optional, Union

from ._library import SPAN, Bytes, load
from .constants import (
    DYNAMIC_LOOKUP_ORDINAL, EXECUTABLE_ORDINAL, N_ABS, N_ALT_ENTRY, N_EXT, N_INDR, N_PBUD, N_PEXT, N_SECT, N_STAB,
    N_TYPE, N_UNDF, N_WEAK_DEF, N_WEAK_REF, SELF_LIBRARY_ORDINAL)


class Strings:
    """The strings of an image, in which the names of its symbols are, and whether it is two-level (MH_TWOLEVEL)."""

    def __init__(self, data: Bytes, image: Any, is_two_level: bool) -> None:
        self._data = data
        self._image = image
        self.is_two_level = is_two_level

    def __repr__(self) -> str:
        return "<kesvuot.Strings>"

    def at(self, strx: int) -> memoryview:
        """The string from an offset on, empty at 0, and where none ends."""
        span = ctypes.create_string_buffer(SPAN.size)
        if strx < 1 << 32:
            load().kesvuot_symbol_name(self._data.address, len(self._data), self._image, strx, span)
        return self._data.part(*SPAN.unpack(span))


class SymbolKind(enum.Enum):
    """What a symbol is, by N_TYPE of its `type`.

    DEBUGGING: an entry for debuggers (N_STAB). Its `type` says which, and no other bit of it means anything
    UNDEFINED: it is defined in another image (N_UNDF), or in none
    PREBOUND: it is undefined too, and was bound before (N_PBUD)
    ABSOLUTE: its value is a number that no slide changes (N_ABS)
    SECTION: it is defined in a section (N_SECT)
    INDIRECT: it stands for the symbol with its `other_name` (N_INDR)
    OTHER: it has a type that <mach-o/nlist.h> does not name"""

    DEBUGGING = "debugging"
    UNDEFINED = "undefined"
    PREBOUND = "prebound"
    ABSOLUTE = "absolute"
    SECTION = "section"
    INDIRECT = "indirect"
    OTHER = "other"


class SymbolLibrary(enum.Enum):
    """Where a dynamic loader looks a symbol up, if not in a library with an index.

    THIS_IMAGE: in the image itself (SELF_LIBRARY_ORDINAL)
    DYNAMIC_LOOKUP: in any image (DYNAMIC_LOOKUP_ORDINAL)
    EXECUTABLE: in the program that loads the image (EXECUTABLE_ORDINAL)"""

    THIS_IMAGE = SELF_LIBRARY_ORDINAL
    DYNAMIC_LOOKUP = DYNAMIC_LOOKUP_ORDINAL
    EXECUTABLE = EXECUTABLE_ORDINAL


KINDS = {N_UNDF: SymbolKind.UNDEFINED, N_PBUD: SymbolKind.PREBOUND, N_ABS: SymbolKind.ABSOLUTE,
         N_SECT: SymbolKind.SECTION, N_INDR: SymbolKind.INDIRECT}
DEFINED = frozenset((SymbolKind.ABSOLUTE, SymbolKind.SECTION, SymbolKind.INDIRECT))
UNDEFINED = frozenset((SymbolKind.UNDEFINED, SymbolKind.PREBOUND))
SPECIAL = {library.value: library for library in SymbolLibrary}


class Symbol(NamedTuple):
    """An nlist_64.

    `section` is the index in `Image.sections` of the section with the number `sect`, whatever the `type` is, or None if
    there is not any. The symbol is defined in that section only if its `kind` is SECTION: then this is always an index. Do
    not subtract 1 from `sect`: it is 0 (NO_SECT) if the symbol is in no section, and may be past the last section, such
    as in a debugging entry (N_STAB).

    `value`: any number; of a symbol that is defined in a section its address, and of an indirect one an offset in the
    strings
    `strx`: 0 if it has no name
    `desc`, `type`: n_desc and n_type, any numbers, which the properties decode
    `strings`: where its name is"""

    value: int
    strx: int
    desc: int
    type: int
    sect: int
    section: Optional[int]
    strings: Strings

    def __repr__(self) -> str:
        fields = ", ".join(f"{field}={value!r}" for field, value in zip(self._fields[:-1], self))
        return f"Symbol(name={self.name.tobytes()!r}, {fields})"

    @property
    def name(self) -> memoryview:
        """Its name, empty where `strx` is 0. Each look-up searches for the end of the name. In a hostile file many
        symbols can share a long name: to look up all of them takes time in proportion to nsyms * strsize. To list all
        in linear time, add up the lengths of the names, and stop when the sum is more than 4 * strsize."""
        return self.strings.at(self.strx)

    @property
    def kind(self) -> SymbolKind:
        """What the symbol is."""
        if self.type & N_STAB:
            return SymbolKind.DEBUGGING
        return KINDS.get(self.type & N_TYPE, SymbolKind.OTHER)

    @property
    def is_external(self) -> bool:
        """Whether other images see the symbol, or define it (N_EXT). No debugging entry is external."""
        return not self.type & N_STAB and self.type & N_EXT != 0

    @property
    def is_private(self) -> bool:
        """Whether the symbol was external, and a linker has made it private (N_PEXT)."""
        return not self.type & N_STAB and self.type & N_PEXT != 0

    @property
    def is_weak_reference(self) -> bool:
        """Whether the symbol is undefined, and may be missing when the image is loaded (N_WEAK_REF)."""
        return self.kind in UNDEFINED and self.desc & N_WEAK_REF != 0

    @property
    def is_weak_definition(self) -> bool:
        """Whether the symbol is defined, and another definition can take its place (N_WEAK_DEF)."""
        return self.kind in DEFINED and self.desc & N_WEAK_DEF != 0

    @property
    def is_alternate_entry(self) -> bool:
        """Whether the symbol is an entry in the middle of what the symbol before it names (N_ALT_ENTRY)."""
        return self.kind is SymbolKind.SECTION and self.desc & N_ALT_ENTRY != 0

    @property
    def library(self) -> Union[int, SymbolLibrary, None]:
        """Where a dynamic loader looks the symbol up: the index of a library in `Image.libraries`, or a SymbolLibrary.
        None if it is not undefined, or if its image is not two-level (MH_TWOLEVEL): then each image may define it. In
        a file that the linked profile accepts the library exists. In any other the index can be past the last."""
        is_common = self.kind is SymbolKind.UNDEFINED and self.value != 0
        if not self.strings.is_two_level or self.kind not in UNDEFINED or is_common:
            return None
        ordinal = self.desc >> 8
        return SPECIAL.get(ordinal, ordinal - 1)

    @property
    def other_name(self) -> Optional[memoryview]:
        """The name of the symbol for which an indirect one stands, by the offset in the strings that is its value.
        None of all others."""
        return self.strings.at(self.value) if self.kind is SymbolKind.INDIRECT else None
