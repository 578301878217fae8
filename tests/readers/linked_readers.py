"""Readers that ask the same of linked data in different ways: what a name is exported as, which kind and which name a
symbol has, what a pointer is bound to, from which library a symbol is, and what a code signature says of a program.
many_readers.py asks them, and says what a reader is. crates/macho_alike/specs and crates/macho_identity/specs have most
of them as relations.

What is bound is what plain_dyld.py writes. A table that is broken is read by none.
"""

from __future__ import annotations

import struct
from functools import cached_property
from types import SimpleNamespace
from typing import Any, Dict, Iterator, List, NamedTuple, Optional, Tuple

from kesvuot.constants import (
    EXPORT_SYMBOL_FLAGS_KIND_ABSOLUTE, EXPORT_SYMBOL_FLAGS_KIND_MASK, EXPORT_SYMBOL_FLAGS_WEAK_DEFINITION, LC_DYSYMTAB,
    LC_SYMTAB, SECTION_TYPE)
from reference.oracle import Image, Malformed

from .code_signature import DIRECTORY_SLOTS, Blob, number, read_blobs, signature_of
from .export_trie import Export, look_up, read_all, table_of
from .plain_dyld import CHAINS, Breach, Dyld, Write

# mach-o/loader.h
MH_TWOLEVEL = 0x80
POINTER_SECTIONS, POINTER_SIZE = (6, 7, 0x10, 0x14), 8
INDIRECT_SYMBOL_LOCAL, INDIRECT_SYMBOL_ABS = 0x80000000, 0x40000000
WEAK_LOOKUP = -3
# The streams in the order in which a loader goes over them.
TURNS = ("bind", "lazy", "weak", CHAINS)
# mach-o/nlist.h
N_STAB, N_TYPE, N_EXT = 0xE0, 0x0E, 0x01
N_UNDF, N_INDR, N_PBUD = 0x0, 0xA, 0xC
N_WEAK_DEF = 0x80
# What n_desc says of the library of an undefined symbol, other than an ordinal: all images, and the program.
LIBRARY_ORDINALS = {0xFE: -2, 0xFF: -1}
LOCAL, DEFINED, UNDEFINED, NO_GROUP = "local", "defined", "undefined", "in no group"
NOTHING = "nothing"
# kern/cs_blobs.h: the magic numbers of the blobs in slots that readers look for; types of hashes, the best ones last;
# and from which version on a code directory has a limit of 64 bits, an executable segment and a runtime.
MAGICS = {
    **dict.fromkeys(DIRECTORY_SLOTS, 0xFADE0C02), 2: 0xFADE0C01, 5: 0xFADE7171, 7: 0xFADE7172,
    **dict.fromkeys((8, 9, 10, 11), 0xFADE8181), 0x10000: 0xFADE0B01}
RANKED_HASHES = (1, 3, 2, 4)
FIELDS_SIZES = ((0x20600, 108), (0x20500, 96), (0x20400, 88), (0x20300, 64), (0x20200, 52), (0x20100, 48), (0, 44))
HAS_TEAM, HAS_LIMIT_64, HAS_SEGMENT, HAS_RUNTIME, HAS_LINKAGE = 0x20200, 0x20300, 0x20400, 0x20500, 0x20600


class Symbol(NamedTuple):
    """An nlist_64."""

    n_strx: int
    n_type: int
    n_sect: int
    n_desc: int
    n_value: int

    @property
    def is_external(self) -> bool:
        """It is not for a debugger, and other images see it."""
        return not self.n_type & N_STAB and bool(self.n_type & N_EXT)

    @property
    def kind(self) -> str:
        """What the type says."""
        if not self.is_external:
            return LOCAL
        return UNDEFINED if self.n_type & N_TYPE in (N_UNDF, N_PBUD) else DEFINED


class Binder(Dyld):
    """A loader that writes fixups, and keeps the imports of a chain table."""

    def __init__(self, image: Image) -> None:
        super().__init__(image)
        self.imports: List[Tuple[bytes, int]] = []

    def read_imports(self, *words: int) -> Any:
        found = super().read_imports(*words)
        self.imports = [(name, ordinal) for _, _, ordinal, name in found]
        return found


class Linked:
    """The linked data of a 64-bit slice."""

    def __init__(self, image: Image) -> None:
        self.image = image
        self.data: bytes = image.data

    @cached_property
    def symtab(self) -> Any:
        return self.image.only(LC_SYMTAB) or SimpleNamespace(symoff=0, nsyms=0, stroff=0, strsize=0)

    @cached_property
    def symbols(self) -> List[Symbol]:
        start = self.symtab.symoff
        return [Symbol(*it) for it in struct.iter_unpack("<I2BHQ", self.data[start:start + 16 * self.symtab.nsyms])]

    def string(self, offset: int) -> bytes:
        """The string at an offset of the strings."""
        start = self.symtab.stroff + offset
        return self.data[start:self.data.find(b"\0", start)]

    @cached_property
    def named(self) -> Dict[bytes, List[Symbol]]:
        """The external symbols that have a name, by their names."""
        found: Dict[bytes, List[Symbol]] = {}
        for it in self.symbols:
            if it.is_external and it.n_strx:
                found.setdefault(self.string(it.n_strx), []).append(it)
        return found

    @cached_property
    def trie(self) -> bytes:
        return table_of(self.image)

    @cached_property
    def listed(self) -> Dict[bytes, List[Export]]:
        """All exports by their names, in the order of a walk over the trie."""
        found: Dict[bytes, List[Export]] = {}
        try:
            for name, export in read_all(self.trie):
                found.setdefault(name, []).append(export)
        except Malformed:
            return {}
        return found

    @cached_property
    def binder(self) -> Binder:
        binder = Binder(self.image)
        try:
            binder.fix_up()
        except Breach:
            binder.writes, binder.imports = [], []
        return binder

    @cached_property
    def writes(self) -> List[Write]:
        """What is bound, in the order in which a loader does it."""
        found = [it for it in self.binder.writes if it.name is not None]
        return sorted(found, key=lambda it: TURNS.index(it.stream))

    @cached_property
    def slots(self) -> Dict[int, List[Write]]:
        """What is bound, by addresses."""
        found: Dict[int, List[Write]] = {}
        for it in self.writes:
            found.setdefault(it.address, []).append(it)
        return found

    @cached_property
    def sources(self) -> Dict[bytes, List[int]]:
        """The libraries of what is bound by a name, but for weak look-ups. An import of a chain table is one."""
        found: Dict[bytes, List[int]] = {}
        bound = [(it.name, it.ordinal) for it in self.writes if it.stream in ("bind", "lazy")]
        for name, ordinal in [*bound, *self.binder.imports]:
            if ordinal != WEAK_LOOKUP:
                found.setdefault(name, []).append(ordinal)
        return found

    @cached_property
    def signature(self) -> bytes:
        return signature_of(self.image)

    @cached_property
    def blobs(self) -> List[Blob]:
        return list(read_blobs(self.signature))

    @cached_property
    def directories(self) -> List[Directory]:
        places = [number(self.signature, 16 + 8 * k) for k in range(len(self.blobs))]
        return [Directory(it.content, place) for it, place in zip(self.blobs, places) if it.slot in DIRECTORY_SLOTS]


class Directory:
    """A code directory: its bytes, and where they begin in the signature."""

    def __init__(self, content: bytes, place: int = 0) -> None:
        self.content = content
        self.place = place
        self.version = number(content, 8)

    def word(self, offset: int, size: int = 4, since: int = 0) -> int:
        return number(self.content, offset, size) if self.version >= since else 0

    @property
    def fields_size(self) -> int:
        return next(size for version, size in FIELDS_SIZES if version <= self.version)

    @property
    def rank(self) -> int:
        kind = self.word(37, 1)
        return RANKED_HASHES.index(kind) + 1 if kind in RANKED_HASHES else 0

    def text(self, offset: int, least: int) -> object:
        """The text at an offset, or none if the offset is below the least one."""
        return self.content[offset:].split(b"\0")[0] if offset >= least else NOTHING


def first(items: List[Any]) -> Any:
    return items[0] if items else None


def last(items: List[Any]) -> Any:
    return items[-1] if items else None


# What is exported by a name?


def names_of_exports(image: Any) -> Iterator[Tuple[bytes]]:
    """The names that are listed, and the names of symbols."""
    linked = image.linked
    return ((name,) for name in ({**linked.listed, **linked.named} if linked.listed else ()))


def export_by_look_up(image: Any, name: bytes) -> object:
    """As dyld and the verifier, by the first edge that fits at each node."""
    return look_up(image.linked.trie, name) or NOTHING


def first_listed_export(image: Any, name: bytes) -> object:
    """As a tool that takes the first one of all exports, as LLVM lists them."""
    return first(image.linked.listed.get(name, [])) or NOTHING


def last_listed_export(image: Any, name: bytes) -> object:
    """As a tool that keeps them by their names."""
    return last(image.linked.listed.get(name, [])) or NOTHING


# Where is an exported name, and is it weak?


def names_of_both(image: Any) -> Iterator[Tuple[bytes]]:
    """The names that are exported at an address of the image, and that symbols have."""
    return ((name,) for name in image.linked.named if address_by_trie(image, name))


def address_by_trie(image: Any, name: bytes) -> object:
    """As dyld. Of an absolute address, a resolver or a re-export no symbol has to say the same."""
    export = look_up(image.linked.trie, name)
    if export is None or export.address is None or export.resolver is not None:
        return None
    if export.flags & EXPORT_SYMBOL_FLAGS_KIND_MASK == EXPORT_SYMBOL_FLAGS_KIND_ABSOLUTE or image.image.base is None:
        return None
    return image.image.base + export.address, bool(export.flags & EXPORT_SYMBOL_FLAGS_WEAK_DEFINITION)


def address_of(symbol: Symbol) -> object:
    if symbol.kind == UNDEFINED:
        return UNDEFINED
    is_alias = symbol.n_type & N_TYPE == N_INDR
    return "another name" if is_alias else (symbol.n_value, bool(symbol.n_desc & N_WEAK_DEF))


def address_by_first_symbol(image: Any, name: bytes) -> object:
    """As a symbolizer."""
    return address_of(first(image.linked.named[name]))


def address_by_last_symbol(image: Any, name: bytes) -> object:
    return address_of(last(image.linked.named[name]))


# What does a name mean that symbols define?


def names_of_definitions(image: Any) -> Iterator[Tuple[bytes]]:
    return ((name,) for name in image.linked.named if definitions_of(image, name))


def definitions_of(image: Any, name: bytes) -> List[Symbol]:
    return [it for it in image.linked.named[name] if it.kind == DEFINED]


def meaning_of(symbol: Symbol) -> object:
    return symbol.n_value, symbol.n_type & N_TYPE, bool(symbol.n_desc & N_WEAK_DEF)


def first_definition(image: Any, name: bytes) -> object:
    return meaning_of(first(definitions_of(image, name)))


def last_definition(image: Any, name: bytes) -> object:
    return meaning_of(last(definitions_of(image, name)))


# Of which kind is a symbol?


def all_symbols(image: Any) -> Iterator[Tuple[int]]:
    return ((index,) for index in range(len(image.linked.symbols)))


def kind_by_type(image: Any, index: int) -> str:
    """As nm and LLVM."""
    return image.linked.symbols[index].kind


def groups_with(image: Any, index: int) -> Optional[List[str]]:
    """The groups that have the symbol, if there are groups."""
    groups = image.image.only(LC_DYSYMTAB)
    if groups is None:
        return None
    starts = {LOCAL: (groups.ilocalsym, groups.nlocalsym), DEFINED: (groups.iextdefsym, groups.nextdefsym),
              UNDEFINED: (groups.iundefsym, groups.nundefsym)}
    return [kind for kind, (start, count) in starts.items() if start <= index < start + count] or [NO_GROUP]


def kind_by_first_group(image: Any, index: int) -> Optional[str]:
    """As strip and older loaders."""
    groups = groups_with(image, index)
    return groups and groups[0]


def kind_by_last_group(image: Any, index: int) -> Optional[str]:
    groups = groups_with(image, index)
    return groups and groups[-1]


# Which name has a symbol whose n_strx is 0?


def symbols_without_offset(image: Any) -> Iterator[Tuple[int]]:
    return ((index,) for index, it in enumerate(image.linked.symbols) if it.n_strx == 0)


def no_name(_: Any, __: int) -> bytes:
    """As nlist.h and the verifier."""
    return b""


def name_of_first_string(image: Any, _: int) -> bytes:
    """As LLVM and Go. A space shows nothing."""
    string = image.linked.string(0)
    return b"" if string == b" " else string


# What is a pointer bound to?


def slots(image: Any) -> Iterator[Tuple[int]]:
    return ((address,) for address in image.linked.slots)


def first_bound_name(image: Any, address: int) -> bytes:
    return first(image.linked.slots[address]).name


def last_bound_name(image: Any, address: int) -> bytes:
    return last(image.linked.slots[address]).name


def name_by_indirect_entry(image: Any, address: int) -> object:
    """As a disassembler that shows the name for which the symbol in the entry of a pointer stands: its own, or for an
    alias that of the other symbol. A local symbol, or one without a name, is no other image's."""
    section = next((it for it in image.sections if it.flags & SECTION_TYPE in POINTER_SECTIONS
                    and it.addr <= address < it.addr + it.size), None)
    table = image.image.only(LC_DYSYMTAB)
    if section is None or table is None or (address - section.addr) % POINTER_SIZE:
        return None
    number_of = section.reserved1 + (address - section.addr) // POINTER_SIZE
    entry = image.word(table.indirectsymoff + 4 * number_of)
    if entry & (INDIRECT_SYMBOL_LOCAL | INDIRECT_SYMBOL_ABS) or number_of >= table.nindirectsyms:
        return None
    symbol = image.linked.symbols[entry]
    start = symbol.n_value if symbol.n_type & N_TYPE == N_INDR else symbol.n_strx
    name = image.linked.string(start)
    return name if symbol.is_external and symbol.n_strx and start else (LOCAL, name)


def first_addend(image: Any, address: int) -> Optional[int]:
    return first(image.linked.slots[address]).addend


def last_addend(image: Any, address: int) -> Optional[int]:
    return last(image.linked.slots[address]).addend


def with_library(image: Any, address: int) -> List[Write]:
    """The binds of a pointer that have a library. A weak bind has none."""
    return [it for it in image.linked.slots[address] if it.stream != "weak"]


def first_library(image: Any, address: int) -> Optional[int]:
    bind = first(with_library(image, address))
    return bind and bind.ordinal


def last_library(image: Any, address: int) -> Optional[int]:
    bind = last(with_library(image, address))
    return bind and bind.ordinal


def bytes_of_slots(image: Any) -> Iterator[Tuple[int]]:
    """The first and the last byte of each pointer. Where two share a byte, they share one of these."""
    return ((byte,) for address in image.linked.slots for byte in (address, address + POINTER_SIZE - 1))


def slots_with(image: Any, byte: int) -> List[int]:
    return [address for address in range(byte - POINTER_SIZE + 1, byte + 1) if address in image.linked.slots]


def first_slot(image: Any, byte: int) -> int:
    return slots_with(image, byte)[0]


def last_slot(image: Any, byte: int) -> int:
    return slots_with(image, byte)[-1]


# From which library is an undefined symbol?


def undefined_symbols(image: Any) -> Iterator[Tuple[int]]:
    """Those with a name, where names have two levels."""
    has_libraries = image.image.header.flags & MH_TWOLEVEL
    return ((index,) for index, it in enumerate(image.linked.symbols)
            if has_libraries and it.n_strx and it.kind == UNDEFINED)


def library_by_symbol(image: Any, index: int) -> int:
    """As nm."""
    ordinal = image.linked.symbols[index].n_desc >> 8
    return LIBRARY_ORDINALS.get(ordinal, ordinal)


def binds_of_symbol(image: Any, index: int) -> List[int]:
    return image.linked.sources.get(image.linked.string(image.linked.symbols[index].n_strx), [])


def library_by_first_bind(image: Any, index: int) -> Optional[int]:
    """As dyld."""
    return first(binds_of_symbol(image, index))


def library_by_last_bind(image: Any, index: int) -> Optional[int]:
    return last(binds_of_symbol(image, index))


# Which blob of a signature has a slot?


def slots_of_blobs(image: Any) -> Iterator[Tuple[int]]:
    """The slots that readers look for, and those that are there."""
    found = image.linked.blobs
    return ((slot,) for slot in ({**MAGICS, **{it.slot: 0 for it in found}} if found else ()))


def blobs_with(image: Any, slot: Optional[int], magic: Optional[int]) -> List[object]:
    """The blobs with a slot, with a magic number, or with both; or nothing."""
    return [index for index, it in enumerate(image.linked.blobs)
            if slot in (None, it.slot) and magic in (None, it.magic)] or [NOTHING]


def first_blob_of_slot(image: Any, slot: int) -> object:
    return blobs_with(image, slot, None)[0]


def last_blob_of_slot(image: Any, slot: int) -> object:
    return blobs_with(image, slot, None)[-1]


def first_blob_of_both(image: Any, slot: int) -> object:
    """As xnu, which passes by blobs with other magic numbers."""
    return blobs_with(image, slot, MAGICS[slot])[0] if slot in MAGICS else None


def last_blob_of_both(image: Any, slot: int) -> object:
    return blobs_with(image, slot, MAGICS[slot])[-1] if slot in MAGICS else None


def magic_alone(slot: int) -> Optional[int]:
    """The magic number that no other slot has."""
    magic = MAGICS.get(slot)
    return magic if list(MAGICS.values()).count(magic) == 1 else None


def first_blob_of_magic(image: Any, slot: int) -> object:
    magic = magic_alone(slot)
    return magic and blobs_with(image, None, magic)[0]


def last_blob_of_magic(image: Any, slot: int) -> object:
    magic = magic_alone(slot)
    return magic and blobs_with(image, None, magic)[-1]


# What does the signature say of the program?

IDENTITY = {
    "identifier": lambda it: it.text(it.word(20), 0),
    "team": lambda it: it.text(it.word(48, since=HAS_TEAM), 1),
    "flags": lambda it: it.word(12),
    "platform": lambda it: it.word(38, 1),
    "executable segment": lambda it: tuple(it.word(at, 8, HAS_SEGMENT) for at in (64, 72, 80)),
    "runtime": lambda it: it.word(88, since=HAS_RUNTIME),
}


def facts(image: Any) -> Iterator[Tuple[str]]:
    return ((name,) for name in (IDENTITY if image.linked.directories else ()))


def said_by(directory: Optional[Directory], name: str) -> object:
    return directory and IDENTITY[name](directory)


def said_by_slot_0(image: Any, name: str) -> object:
    """As the verifier."""
    found = [Directory(it.content) for it in image.linked.blobs if it.slot == DIRECTORY_SLOTS[0]]
    return said_by(first(found), name)


def said_by_first(image: Any, name: str) -> object:
    return said_by(first(image.linked.directories), name)


def said_by_last(image: Any, name: str) -> object:
    return said_by(last(image.linked.directories), name)


def best_directories(image: Any) -> List[int]:
    """The indices with the best known hashes."""
    best = max((it.rank for it in image.linked.directories), default=0)
    return [index for index, it in enumerate(image.linked.directories) if it.rank == best > 0]


def said_by_best(image: Any, name: str) -> object:
    """As xnu."""
    return said_by(first([image.linked.directories[index] for index in best_directories(image)]), name)


def has_signature(image: Any) -> Iterator[Tuple[()]]:
    if best_directories(image):
        yield ()


def first_best(image: Any) -> int:
    """The directory whose hash a kernel takes."""
    return best_directories(image)[0]


def last_best(image: Any) -> int:
    return best_directories(image)[-1]


# What does one code directory say?


def all_directories(image: Any) -> Iterator[Tuple[int]]:
    return ((index,) for index in range(len(image.linked.directories)))


def limit_of_64_bits(image: Any, index: int) -> int:
    """As the verifier, if there is one."""
    directory = image.linked.directories[index]
    return directory.word(56, 8, HAS_LIMIT_64) or directory.word(32)


def limit_of_32_bits(image: Any, index: int) -> int:
    return image.linked.directories[index].word(32)


def pages_without_bound(image: Any, index: int) -> object:
    """As the verifier: 0 is one page for all."""
    size = image.linked.directories[index].word(39, 1)
    return 2 ** size if size else "all"


def pages_of_a_byte(image: Any, index: int) -> object:
    return 2 ** image.linked.directories[index].word(39, 1)


def identifier_at_any(image: Any, index: int) -> object:
    """As the verifier. At 0 the text begins with the magic number."""
    directory = image.linked.directories[index]
    return directory.text(directory.word(20), 0)


def identifier_past_0(image: Any, index: int) -> object:
    directory = image.linked.directories[index]
    return directory.text(directory.word(20), 1)


def identifier_past_fields(image: Any, index: int) -> object:
    directory = image.linked.directories[index]
    return directory.text(directory.word(20), directory.fields_size)


def team_past_0(image: Any, index: int) -> object:
    directory = image.linked.directories[index]
    return directory.text(directory.word(48, since=HAS_TEAM), 1)


def team_past_fields(image: Any, index: int) -> object:
    directory = image.linked.directories[index]
    return directory.text(directory.word(48, since=HAS_TEAM), directory.fields_size)


def parts_of(directory: Directory, content: bytes, place: int) -> object:
    """The hashes from before an encryption and the linkage, in the content from a place on."""
    earlier, linkage = directory.word(92, since=HAS_RUNTIME), directory.word(100, since=HAS_LINKAGE)
    hashes_size = directory.word(28) * directory.word(36, 1) if earlier else 0
    return (content[place + earlier:place + earlier + hashes_size],
            content[place + linkage:place + linkage + directory.word(104, since=HAS_LINKAGE)])


def parts_in_blob(image: Any, index: int) -> object:
    """As the verifier."""
    directory = image.linked.directories[index]
    return parts_of(directory, directory.content, 0)


def parts_in_signature(image: Any, index: int) -> object:
    """As a reader that does not look where the blob ends."""
    directory = image.linked.directories[index]
    return parts_of(directory, image.linked.signature, directory.place)
