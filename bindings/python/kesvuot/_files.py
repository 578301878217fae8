"""Files that were judged: their slices and images."""

from __future__ import annotations

import ctypes
import enum
import operator
import os
from functools import cached_property, lru_cache, partial
from typing import TYPE_CHECKING, Any, Dict, NamedTuple, Optional, SupportsIndex, Tuple, Union

from . import _exports, _fixups, _library, _reading, _rows
from ._fixups import Fixup, Import
from ._library import CHANGED, EXPORT, IMAGE, SPAN, TEXT, VERDICT, Bytes, Data, address_of, load
from ._profiles import DEFAULT, PROFILES
from ._rows import (
    Blob, Build, Command, DataInCode, Export, Library, NamedReader, Reader, Relocation, Section, Segment, Table, Walk,
    WalkedReader)
from ._symbols import Strings, Symbol
from .constants import (
    CPU_SUBTYPE_ARM64_ALL, CPU_SUBTYPE_ARM64E, CPU_SUBTYPE_X86_64_ALL, CPU_SUBTYPE_X86_64_H, CPU_TYPE_ARM64,
    CPU_TYPE_X86_64, LC_LOAD_DYLINKER, LC_RPATH, MH_TWOLEVEL)

if TYPE_CHECKING:
    from uuid import UUID

# Room for the layout of most files. A longer one takes a second call.
LAYOUT_ROOM = 1 << 14

ARCHITECTURES = {
    (CPU_TYPE_X86_64, CPU_SUBTYPE_X86_64_ALL): "x86_64", (CPU_TYPE_X86_64, CPU_SUBTYPE_X86_64_H): "x86_64h",
    (CPU_TYPE_ARM64, CPU_SUBTYPE_ARM64_ALL): "arm64", (CPU_TYPE_ARM64, CPU_SUBTYPE_ARM64E): "arm64e"}


class Refused(Exception):
    """The file breaks a rule. `rule` is the name of the first broken one, and `place` the offset in the file where it
    is broken. The pages of docs/rules explain each rule under its name."""

    def __init__(self, rule: str, place: int) -> None:
        super().__init__(rule, place)
        self.rule = rule
        self.place = place

    def __str__(self) -> str:
        return f"{self.rule} at {self.place:#x}"

    @property
    def profile(self) -> Optional[str]:
        """The profile that the rule belongs to, such as "strict". None if the library has no rule of this name."""
        return _name(load().kesvuot_find_profile, load().kesvuot_rule_profile(rule_numbers().get(self.rule, 0)))


class Symtab(NamedTuple):
    """LC_SYMTAB: where the symbols and their names are in the image. `symoff` is any number if `nsyms` is 0, and so is
    `stroff` if `strsize` is 0."""

    symoff: int
    nsyms: int
    stroff: int
    strsize: int


class Dysymtab(NamedTuple):
    """LC_DYSYMTAB: the groups of symbols, and the table of indirect entries. An index or offset is any number if its
    count is 0."""

    ilocalsym: int
    nlocalsym: int
    iextdefsym: int
    nextdefsym: int
    iundefsym: int
    nundefsym: int
    indirectsymoff: int
    nindirectsyms: int


class BoundedTable(enum.Enum):
    """A table of an image, by the two fields of a command that bound it, and what its items are."""

    # registry: tables
    SYMBOLS = 1  # symoff and nsyms of LC_SYMTAB: nlist_64 of 16 bytes
    STRINGS = 2  # stroff and strsize of LC_SYMTAB: the strings of the symbols
    CONTENTS = 3  # tocoff and ntoc of LC_DYSYMTAB: dylib_table_of_contents of 8 bytes
    MODULES = 4  # modtaboff and nmodtab of LC_DYSYMTAB: dylib_module_64 of 56 bytes
    REFERENCES = 5  # extrefsymoff and nextrefsyms of LC_DYSYMTAB: dylib_reference of 4 bytes
    INDIRECTS = 6  # indirectsymoff and nindirectsyms of LC_DYSYMTAB: indirect entries of 4 bytes
    EXTERNAL_RELOCATIONS = 7  # extreloff and nextrel of LC_DYSYMTAB: relocation_info of 8 bytes
    LOCAL_RELOCATIONS = 8  # locreloff and nlocrel of LC_DYSYMTAB: relocation_info of 8 bytes
    REBASE = 9  # rebase_off and rebase_size of LC_DYLD_INFO or LC_DYLD_INFO_ONLY: bytes
    BIND = 10  # bind_off and bind_size of LC_DYLD_INFO or LC_DYLD_INFO_ONLY: bytes
    WEAK_BIND = 11  # weak_bind_off and weak_bind_size of LC_DYLD_INFO or LC_DYLD_INFO_ONLY: bytes
    LAZY_BIND = 12  # lazy_bind_off and lazy_bind_size of LC_DYLD_INFO or LC_DYLD_INFO_ONLY: bytes
    EXPORT = 13  # export_off and export_size of LC_DYLD_INFO or LC_DYLD_INFO_ONLY: bytes
    ENCRYPTED = 14  # cryptoff and cryptsize of LC_ENCRYPTION_INFO_64: bytes
    # registry: end


class SourceKind(enum.Enum):
    """What is at an address, in the words of `macho-check where`."""

    FILE = "file"
    ZERO = "zero"
    UNMAPPED = "unmapped"


class Source(NamedTuple):
    """What is at an address, by its `kind`. FILE: `bytes` are those from the address to the end of what its segment has
    in the file. ZERO: a segment has the address, but the file has no byte for it, and a loader puts a zero there.
    UNMAPPED: no segment has the address. `bytes` are empty except for FILE.

    A source is neither true nor false: compare its kind."""

    kind: SourceKind
    bytes: memoryview

    def __bool__(self) -> bool:
        raise TypeError("a Source is neither true nor false: compare its kind")

    def __repr__(self) -> str:
        return f"<kesvuot.Source {self.kind.value}, {len(self.bytes)} bytes>"


class Slice:
    """A slice of a file. A 64-bit little-endian slice is an Image. What is in any other was not judged, and it has no
    more than this:

    `index`: its index in the file, from 0 on
    `place`: where it begins in the file: 0 exactly if the file is not universal
    `bytes`: its bytes
    `cputype`, `cpusubtype`: of the image, or of the universal table if it is no Image; either way the second is
    without the capability byte"""

    def __init__(self, data: Bytes, index: int, fields: Tuple[Any, ...]) -> None:
        self.index = index
        self.place: int = fields[0]
        self.bytes = data.part(*fields[:2])
        self.cputype: int
        self.cpusubtype: int
        self.cputype, self.cpusubtype = fields[20:22]

    def __repr__(self) -> str:
        return f"<kesvuot.{type(self).__name__} {self.index}, {self.arch}, {len(self.bytes)} bytes>"

    @property
    def arch(self) -> str:
        """The name of the architecture, or its two numbers."""
        other = f"{self.cputype:#x}/{self.cpusubtype:#x}"
        return ARCHITECTURES.get((self.cputype, self.cpusubtype), other)


class Image(Slice):
    """A 64-bit image: the whole file, or a slice of it. Offsets count from its start, and addresses are those before
    any slide. Besides what a Slice has:

    `capabilities`: the high byte of the cpusubtype
    `filetype`, `flags`: those of the header
    `base`: the address of the header. None if no mapped segment has the first byte of the header. That all of the
    headers are mapped is header-segment, a strict rule
    `entry`: the address that LC_MAIN names, or None without one; a program can have a `thread_entry` then
    `id`: a Library, what the image is as one by its LC_ID_DYLIB, or None without one
    `symtab`, `dysymtab`: a Symtab and a Dysymtab, or None without such a command

    Each table is a property, whose rows are found by their indices, as in a list. Symbols and indirect entries are read
    when they are asked for. Any other table is read as a whole, and kept in the form of the library. `exports` and the
    fixups are properties too, a Walk each, and `relocations` and `sections_of` take a row."""

    def __init__(self, data: Bytes, index: int, written: Any, fields: Tuple[Any, ...]) -> None:
        super().__init__(data, index, fields)
        self._data = data
        self._image = written
        self._counts = fields[10:15]
        has = fields[25]
        self.capabilities: int
        self.filetype: int
        self.flags: int
        self.capabilities, self.filetype, self.flags = fields[22:25]
        self.base: Optional[int] = fields[2] if has & _library.HAS_BASE else None
        self.entry: Optional[int] = fields[3] if has & _library.HAS_ENTRY else None
        self.id = Library(data.part(*fields[15:17]), *fields[17:20]) if has & _library.HAS_ID else None
        self._uuid: Optional[bytes] = fields[32] if has & _library.HAS_UUID else None
        self.symtab = Symtab(*fields[4:8]) if has & _library.HAS_SYMTAB else None
        self.dysymtab = Dysymtab(*fields[26:32], *fields[8:10]) if has & _library.HAS_DYSYMTAB else None
        self._symbols = _rows.symbols_of(Strings(data, written, self.flags & MH_TWOLEVEL != 0))

    @cached_property
    def uuid(self) -> Optional[UUID]:
        """The UUID of LC_UUID, or None without one."""
        from uuid import UUID  # pylint: disable=import-outside-toplevel # it loads much, and most images are not asked
        return UUID(bytes=self._uuid) if self._uuid else None

    def _walked(self, kind: _rows.Kind, count: int) -> Table[Any]:
        return Table(WalkedReader(self._data, self._image, kind, count).read, range(count))

    @cached_property
    def commands(self) -> Table[Command]:
        """All load commands, in their order."""
        return self._walked(_rows.commands_of(self.place), self._counts[0])

    @cached_property
    def segments(self) -> Table[Segment]:
        """The segments, in the order of their commands."""
        return self._walked(_rows.SEGMENTS, self._counts[1])

    @cached_property
    def sections(self) -> Table[Section]:
        """The sections of all segments. `section` of a symbol is an index of it."""
        return self._walked(_rows.SECTIONS, self._counts[2])

    def sections_of(self, segment: Segment) -> Table[Section]:
        """The sections of one of the segments."""
        return self.sections[segment.first_section:segment.first_section + segment.section_count]

    @cached_property
    def libraries(self) -> Table[Library]:
        """The libraries that it loads, in the order of their commands: each LC_LOAD_DYLIB, LC_LOAD_WEAK_DYLIB,
        LC_REEXPORT_DYLIB, LC_LAZY_LOAD_DYLIB and LC_LOAD_UPWARD_DYLIB. LC_ID_DYLIB is `id`."""
        return self._walked(_rows.LIBRARIES, self._counts[3])

    @cached_property
    def builds(self) -> Table[Build]:
        """The platforms that it was built for: each LC_BUILD_VERSION, and each command of at least 16 bytes that names
        the least version of a platform, such as LC_VERSION_MIN_MACOSX."""
        return self._walked(_rows.BUILDS, self._counts[4])

    @cached_property
    def source_version(self) -> Optional[Tuple[int, int, int, int, int]]:
        """The version of the sources, by the first LC_SOURCE_VERSION of at least 16 bytes, or None without one."""
        written = ctypes.c_uint64()
        status = load().kesvuot_find_source_version(
            self._data.address, len(self._data), self._image, ctypes.byref(written))
        number = written.value
        parts = number >> 40, number >> 30 & 0x3FF, number >> 20 & 0x3FF, number >> 10 & 0x3FF, number & 0x3FF
        return parts if status == _library.OK else None

    @cached_property
    def thread_entry(self) -> Optional[int]:
        """The address at which the first LC_THREAD or LC_UNIXTHREAD begins, such as that of a program that Go links.
        None if there is no such command, its registers are not known, or the file has no byte that can be executed at
        the address. In a file that the linked profile accepts each image with such a command has the address."""
        written = ctypes.c_uint64()
        status = load().kesvuot_find_thread_entry(
            self._data.address, len(self._data), self._image, ctypes.byref(written))
        return written.value if status == _library.OK else None

    @cached_property
    def run_paths(self) -> Tuple[memoryview, ...]:
        """The path of each LC_RPATH, in the order of their commands."""
        return tuple(command.name for command in self.commands if command.cmd == LC_RPATH)

    @cached_property
    def dynamic_linker(self) -> Optional[memoryview]:
        """The path of the first LC_LOAD_DYLINKER, or None without one."""
        return next((command.name for command in self.commands if command.cmd == LC_LOAD_DYLINKER), None)

    @cached_property
    def symbols(self) -> Table[Symbol]:
        """The symbols of LC_SYMTAB, none without it."""
        count = self.symtab.nsyms if self.symtab else 0
        return Table(Reader(self._data, self._image, self._symbols).read, range(count))

    @cached_property
    def symbols_with_names(self) -> Table[Tuple[Symbol, memoryview]]:
        """The symbols of LC_SYMTAB, each with its name. The names are looked up in batches: a loop over all takes less
        time than `name` of each. What `Symbol.name` says of hostile files holds here too."""
        count, strings_size = (self.symtab.nsyms, self.symtab.strsize) if self.symtab else (0, 0)
        return Table(NamedReader(self._data, self._image, self._symbols, strings_size).read, range(count))

    def _span(self, call: Any, key: int) -> Tuple[int, memoryview]:
        """The status of a call on the image, and the bytes of the span that it writes."""
        span = ctypes.create_string_buffer(SPAN.size)
        status: int = call(self._data.address, len(self._data), self._image, key, span)
        return status, self._data.part(*SPAN.unpack(span))

    def symbol_at(self, address: SupportsIndex) -> Optional[Symbol]:
        """The nearest symbol of a section at or before an address, before any slide, that is no debugging entry; of
        several at one address the last in the table. None if no symbol begins at or before the address. The symbol may
        be of another section than the address, or end before it: the format has no sizes of symbols. The first call
        sorts the symbols, and keeps 4 bytes for each."""
        number = operator.index(address)
        symbol = ctypes.create_string_buffer(self._symbols.form.size)
        if number < 0:
            return None
        status = load().kesvuot_find_symbol(self._data.address, len(self._data), self._image, self._index,
                                            len(self._index), min(number, (1 << 64) - 1), symbol,
                                            ctypes.byref(ctypes.c_size_t()))
        return self._symbol_of(symbol) if status == _library.OK else None

    def _symbol_of(self, written: Any) -> Symbol:
        """The symbol of a row that the library has written."""
        found: Symbol = next(self._symbols.make(self._data, [self._symbols.form.unpack(written)]))
        return found

    @cached_property
    def _index(self) -> Any:
        """The indices of the symbols whose value is an address, by ascending addresses."""
        room = len(self.symbols)
        index = (ctypes.c_uint32 * room)()
        count = load().kesvuot_index_symbols(self._data.address, len(self._data), self._image, index, room)
        if count > room:
            raise RuntimeError(CHANGED)
        # The array keeps the memory of the entries that are left out.
        return (ctypes.c_uint32 * count).from_buffer(index)

    def symbol_named(self, name: Union[Data, str]) -> Optional[Symbol]:
        """The first symbol in the table with this name, of bytes or of a text in UTF-8, that is no debugging entry. It
        need not be defined in the image. None if there is none. Each call reads all symbols: for many names, read
        `symbols` once."""
        wanted = _bytes_of(name)
        symbol = ctypes.create_string_buffer(self._symbols.form.size)
        status = load().kesvuot_find_name(self._data.address, len(self._data), self._image, wanted.address, len(wanted),
                                          symbol, ctypes.byref(ctypes.c_uint64()))
        return self._symbol_of(symbol) if status == _library.OK else None

    def find_export(self, name: Union[Data, str]) -> Optional[Export]:
        """What the image exports under this name, of bytes or of a text in UTF-8, as a dynamic loader looks it up in the
        export trie: that of LC_DYLD_EXPORTS_TRIE, or of LC_DYLD_INFO or LC_DYLD_INFO_ONLY. None if there is none, or if
        the bytes on the way to it are no trie, which only the linked profile judges. Each call rescans the load
        commands."""
        wanted, written = _bytes_of(name), ctypes.create_string_buffer(EXPORT.size)
        status = load().kesvuot_find_export(
            self._data.address, len(self._data), self._image, wanted.address, len(wanted), written)
        return _rows.export_of(self._data, written) if status == _library.OK else None

    @property
    def exports(self) -> Walk[Tuple[bytes, Export]]:
        """What the image exports, each with its name, by a walk over the export trie. In a file that the linked profile
        accepts these are all. In any other the walk ends before a node that does not end in the trie, or with which the
        nodes that were met have more bytes than the trie, and it leaves out what is no export. There the names can be
        together far longer than the trie: a program that keeps them adds up their sizes."""
        return Walk(partial(_exports.exports, self._data, self._image))

    @cached_property
    def local_symbols(self) -> Table[Symbol]:
        """The group of local symbols of LC_DYSYMTAB, none without it."""
        return self._group(0)

    @cached_property
    def defined_symbols(self) -> Table[Symbol]:
        """The group of symbols that the image defines for others."""
        return self._group(2)

    @cached_property
    def undefined_symbols(self) -> Table[Symbol]:
        """The group of symbols that other images define."""
        return self._group(4)

    def _group(self, at: int) -> Table[Symbol]:
        first, count = self.dysymtab[at:at + 2] if self.dysymtab else (0, 0)
        return self.symbols[first:first + count]

    @cached_property
    def indirects(self) -> Table[int]:
        """The indirect entries of LC_DYSYMTAB: the index of a symbol, or INDIRECT_SYMBOL_LOCAL (0x80000000),
        INDIRECT_SYMBOL_ABS (0x40000000) or both."""
        count = self.dysymtab.nindirectsyms if self.dysymtab else 0
        return Table(Reader(self._data, self._image, _rows.INDIRECTS).read, range(count))

    def relocations(self, section: Section) -> Table[Relocation]:
        """The relocations of a section of this image."""
        numbers = section.reloff, section.nreloc
        return Table(Reader(self._data, self._image, _rows.RELOCATIONS, *numbers).read, range(section.nreloc))

    @cached_property
    def function_starts(self) -> Table[int]:
        """The addresses of functions, before any slide, by the first LC_FUNCTION_STARTS. Each is below the next one.
        They end before a number 0 of its data, a number that does not end in it, and an address of 2^64 or more. There
        are none if the image has no base. In a file that the linked profile accepts each is the address of a byte of
        the file. In any other one can be in no segment."""
        return _rows.uncounted(self._data, self._image, _rows.FUNCTION_STARTS)

    @cached_property
    def data_in_code(self) -> Table[DataInCode]:
        """The data in the code, by the whole entries of the first LC_DATA_IN_CODE, which can be in any order, and
        overlap. In a file that the linked profile accepts the bytes of each are in one executable segment. In any other
        they can be of no code."""
        return _rows.uncounted(self._data, self._image, _rows.DATA_IN_CODE)

    @cached_property
    def blobs(self) -> Table[Blob]:
        """The blobs of the code signature, by the first LC_CODE_SIGNATURE, in the order of its index. Each lies past
        the one before it. They end before the first of which this does not hold. There are none if the data is no
        superblob. In a file that the linked profile accepts these are all. The entitlements are the blobs of the slots
        5 (a property list) and 7 (DER), past their first 8 bytes:

            next((blob.bytes[8:] for blob in image.blobs if blob.slot == 5), None)"""
        return _rows.uncounted(self._data, self._image, _rows.BLOBS)

    def table(self, table: BoundedTable) -> Optional[memoryview]:
        """A table of the image, or None if no command bounds it. With several such commands it is a table of the
        first. Each call rescans the load commands."""
        status, found = self._span(load().kesvuot_find_table, table.value)
        return found if status == _library.OK else None

    def linkedit(self, cmd: SupportsIndex) -> Optional[memoryview]:
        """The data of the first linkedit_data_command with this `cmd`, such as LC_CODE_SIGNATURE (0x1d). None if there
        is no such command, or rules/layout.md does not list `cmd` as a linkedit_data_command (for example LC_ATOM_INFO,
        0x36). Each call rescans the load commands."""
        number = operator.index(cmd)
        if not 0 <= number < 1 << 32:
            return None
        status, data = self._span(load().kesvuot_find_data, number)
        return data if status == _library.OK else None

    @property
    def fixups(self) -> Walk[Fixup]:
        """The pointers that a dynamic loader writes, in the order in which it writes them: by LC_DYLD_CHAINED_FIXUPS if
        the image has that command, otherwise by the opcodes of LC_DYLD_INFO or LC_DYLD_INFO_ONLY. In a file that the
        linked profile accepts, no pointer that these commands ask for is left out, each bind has its import, and there
        are fewer pointers than the file has bytes. In any other, kesvuot.h says at kesvuot_read_fixups where they end.
        There can be 2^64 of them, and the index of an import can be past the last. Each loop reads them again, as far
        as it goes. A bind has the index of its import:

            image = kesvuot.verify_file(path, "linked").images[0]
            imports = list(image.imports)
            names = [imports[it.import_index].name for it in image.fixups if it.import_index is not None]"""
        return Walk(partial(_fixups.fixups, self._data, self._image))

    @property
    def imports(self) -> Walk[Import]:
        """What the binds among the fixups are bound to. Chained fixups have a table of them. Each opcode that binds
        pointers has a row, so two rows can have one name."""
        return Walk(partial(_fixups.imports, self._data, self._image))

    def at(self, address: SupportsIndex) -> Source:
        """What is at an address. Each call rescans the load commands: for many addresses, look them up in
        `segments`."""
        number = operator.index(address)
        status, found = _library.NONE, self._data.part(0, 0)
        if 0 <= number < 1 << 64:
            status, found = self._span(load().kesvuot_find_address, number)
        kinds = {_library.OK: SourceKind.FILE, _library.ZERO: SourceKind.ZERO}
        return Source(kinds.get(status, SourceKind.UNMAPPED), found)


class File:
    """A file that was accepted, as `verify` gives it. `data` is a read-only view of its bytes, and `slice_count` is how
    many slices it has: 1 if it is not universal."""

    def __init__(self, data: Bytes, slice_count: int) -> None:
        # A view of its own: the images point into the bytes even where a caller has released it.
        self.data = data.view[:]
        self.slice_count = slice_count
        self._data = data

    def __repr__(self) -> str:
        return f"<kesvuot.File of {len(self._data)} bytes, {self.slice_count} slices>"

    @cached_property
    def slices(self) -> Tuple[Slice, ...]:
        """The slices, in the order of the universal table. Any other file is one slice."""
        return tuple(map(self._slice, range(self.slice_count)))

    @cached_property
    def images(self) -> Tuple[Image, ...]:
        """The slices that are 64-bit images. There is at least one."""
        return tuple(part for part in self.slices if isinstance(part, Image))

    @cached_property
    def unread_slices(self) -> Tuple[Slice, ...]:
        """The slices that are no images, in which nothing was judged."""
        return tuple(part for part in self.slices if not isinstance(part, Image))

    def place(self, part: memoryview) -> int:
        """Where a part of this file, such as a name, begins in it. An empty part begins nowhere."""
        place = address_of(part) - self._data.address
        if not part.nbytes or not 0 <= place <= len(self._data) - part.nbytes:
            raise ValueError("these bytes are empty, or not of this file")
        return place

    def layout(self) -> str:
        """The text that `macho-check` prints of the file. Each call judges the file again. MemoryError means that
        memory ran out."""
        text, needed = ctypes.create_string_buffer(LAYOUT_ROOM), ctypes.c_size_t()
        self._write_layout(text, needed)
        while needed.value > len(text):
            text = ctypes.create_string_buffer(needed.value)
            self._write_layout(text, needed)
        return ctypes.string_at(text, needed.value).decode("ascii")

    def _write_layout(self, text: Any, needed: ctypes.c_size_t) -> None:
        """Writes as much of the layout as there is room for, and how long it is."""
        status = load().kesvuot_layout(self._data.address, len(self._data), text, len(text), ctypes.byref(needed))
        if status == _library.NO_MEMORY:
            raise MemoryError("no memory for the layout")
        if status != _library.OK:
            raise RuntimeError(CHANGED)

    def _slice(self, index: int) -> Slice:
        image = ctypes.create_string_buffer(IMAGE.size)
        status = load().kesvuot_read_image(self._data.address, len(self._data), index, image)
        fields = IMAGE.unpack(image)
        if status == _library.OK:
            return Image(self._data, index, image, fields)
        if status == _library.UNREAD:
            return Slice(self._data, index, fields)
        raise RuntimeError(CHANGED)


def library_version() -> Tuple[int, int, int]:
    """The version of the library. Raises ImportError if it cannot be loaded."""
    version = load().kesvuot_version()
    return version >> 16, version >> 8 & 0xFF, version & 0xFF


def verify(data: Data, profile: str = DEFAULT) -> File:
    """Judges a file by the rules of a profile, after all rules of the profiles before it:

    "layout": where the parts that the headers describe lie (docs/rules/layout.md)
    "strict": bytes that no header accounts for, or that two parts share (docs/rules/strict.md)
    "linked": fixups, exports, functions, data in code, the structure of the code signature, symbols, relocations,
    threads, and what all other commands hold (docs/rules/linked.md)
    "unambiguous": whether readers that look in the ways that we know see one program (docs/rules/unambiguous.md)
    "sealed": whether each image has a code signature, whose hashes are those of the bytes, but not who signed
    (docs/rules/sealed.md)

    Raises Refused if the file breaks a rule, and ValueError if no profile has the name. MemoryError means that there is
    no verdict."""
    file = Bytes(data)
    verdict = ctypes.create_string_buffer(VERDICT.size)
    number = PROFILES[profile].number if profile in PROFILES else 0
    status = load().kesvuot_verify(file.address, len(file.view), number, verdict)
    place, slices, rule = VERDICT.unpack(verdict)
    if status == _library.REFUSED:
        raise Refused(rule_name(rule), place)
    if status == _library.UNKNOWN_PROFILE:
        raise ValueError(f"unknown profile {profile!r}: choose from {', '.join(PROFILES)}")
    if status != _library.OK:
        raise MemoryError("no memory to judge the file")
    return File(file, slices)


def verify_file(path: Union[str, bytes, "os.PathLike[str]", "os.PathLike[bytes]"], profile: str = DEFAULT) -> File:
    """Reads a file into memory, and judges it as `verify` does. Links are followed. Raises OSError if it cannot be
    read, is a folder, a pipe, a socket or a device, or has more than 4 GiB, as `macho-check` does not read it then.
    `File.data` are its bytes."""
    return verify(_reading.read_regular(path), profile)


def command_name(cmd: SupportsIndex) -> Optional[str]:
    """The name of the load commands with this `cmd` in <mach-o/loader.h>, such as "LC_SEGMENT_64". None if the library
    knows none."""
    return _name(load().kesvuot_find_command, operator.index(cmd))


def platform_name(platform: SupportsIndex) -> Optional[str]:
    """The name of the platform of a build in <mach-o/loader.h>, such as "PLATFORM_MACOS". None if the library knows
    none."""
    return _name(load().kesvuot_find_platform, operator.index(platform))


def arch_name(cputype: SupportsIndex, cpusubtype: SupportsIndex) -> Optional[str]:
    """The name of an architecture, such as "arm64e", as LLVM's lipo prints it. The capability byte of the cpusubtype
    does not matter. None if the library knows none."""
    return _name(load().kesvuot_find_arch, operator.index(cputype), operator.index(cpusubtype))


def arch_named(name: Union[Data, str]) -> Optional[Tuple[int, int]]:
    """The cputype and the cpusubtype of the architecture with this name, for which `arch_name` has it. The cpusubtype
    has no capability byte. None if the library knows no such architecture."""
    wanted = _bytes_of(name)
    cputype, cpusubtype = ctypes.c_uint32(), ctypes.c_uint32()
    status = load().kesvuot_arch_named(wanted.address, len(wanted), ctypes.byref(cputype), ctypes.byref(cpusubtype))
    return (cputype.value, cpusubtype.value) if status == _library.OK else None


def rule_name(rule: int) -> str:
    """The name of the rule with this number, empty if there is none."""
    return _name(load().kesvuot_find_rule, rule) or ""


@lru_cache(maxsize=None)
def rule_numbers() -> Dict[str, int]:
    """The number of each rule, by its name."""
    numbers: Dict[str, int] = {}
    while rule_name(len(numbers) + 1):
        numbers[rule_name(len(numbers) + 1)] = len(numbers) + 1
    return numbers


def _bytes_of(name: Union[Data, str]) -> Bytes:
    """A name, of bytes or of a text in UTF-8."""
    return Bytes(name.encode("utf-8") if isinstance(name, str) else name)


def _name(call: Any, *numbers: int) -> Optional[str]:
    """A constant text of the library for a number, or for two."""
    name = ctypes.create_string_buffer(TEXT.size)
    if not all(0 <= number < 1 << 32 for number in numbers) or call(*numbers, name) != _library.OK:
        return None
    return ctypes.string_at(*TEXT.unpack(name)).decode("ascii")
