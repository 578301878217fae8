"""The rows of the tables of an image. Fields are named and numbered as in <mach-o/loader.h> and <mach-o/nlist.h>."""

from __future__ import annotations

import ctypes
from itertools import chain
from struct import Struct
from typing import (
    Any, Callable, Iterable, Iterator, NamedTuple, Optional, Sequence, SupportsIndex, Tuple, TypeVar, Union, overload)

from ._library import BLOB, CDHASH, CHANGED, CODE_DIRECTORY, CURSOR, EXPORT, NO_SECTION, OK, SPAN, Bytes, load
from ._symbols import Strings, Symbol
from .constants import CS_CDHASH_LEN, EXPORT_SYMBOL_FLAGS_REEXPORT, EXPORT_SYMBOL_FLAGS_STUB_AND_RESOLVER

Row = TypeVar("Row")
Fields = Iterable[Tuple[Any, ...]]
# Rows have a field of the name `bytes`.
Hash = bytes

# How many rows a loop asks the library for at once.
BATCH = 1024
# The fields whose bytes are no name.
CONTENTS = frozenset(("bytes", "hashes", "special_hashes"))
# The most bytes of strings in which names are looked for at once. One name is looked up in any case.
MOST_BYTES = 1 << 28


def _text(row: Any) -> str:
    """A row as `print` shows it: a name as it is, and of other bytes how many there are."""
    def shown(field: str, value: Any) -> str:
        if not isinstance(value, memoryview):
            return repr(value)
        return f"<{len(value)} bytes>" if field in CONTENTS else repr(value.tobytes())

    fields = ", ".join(f"{field}={shown(field, value)}" for field, value in zip(row._fields, row))
    return f"{type(row).__name__}({fields})"


class Segment(NamedTuple):
    """An LC_SEGMENT_64.

    `name`: any bytes
    `bytes`: all `filesize` bytes from `fileoff` on
    `vmaddr`, `vmsize`: its addresses, not aligned to a page: two segments can share one. `vmsize` 0: not mapped
    `fileoff`: any number if `filesize` is 0
    `first_section`, `section_count`: its sections, by their indices in `Image.sections`
    `maxprot`, `initprot`: the protection that it may get, and the first: 1 to read, 2 to write, 4 to execute"""

    name: memoryview
    bytes: memoryview
    vmaddr: int
    vmsize: int
    fileoff: int
    filesize: int
    first_section: int
    section_count: int
    maxprot: int
    initprot: int

    def __repr__(self) -> str:
        return _text(self)

    @property
    def last_address(self) -> Optional[int]:
        """Its last address, or None if it is not mapped."""
        return self.vmaddr + self.vmsize - 1 if self.vmsize else None


class Section(NamedTuple):
    """A section_64.

    `name`, `segment`: its name, and that of its segment
    `bytes`: all `size` bytes from `offset` on, and none if it is `zero_fill`
    `addr`: its first address
    `offset`: any number if `size` is 0 or it is `zero_fill`
    `align`: the exponent of a power of 2, any number
    `reloff`: any number if `nreloc` is 0
    `flags`: its type in the low byte, and its attributes
    `reserved1`, `reserved2`: any numbers. By the linked profile, `reserved1` of a section with stubs or symbol pointers
    is the index of its first indirect entry, and `reserved2` the size of a stub
    `zero_fill`: whether a loader fills it with zeros"""

    name: memoryview
    segment: memoryview
    bytes: memoryview
    addr: int
    size: int
    offset: int
    align: int
    reloff: int
    nreloc: int
    flags: int
    reserved1: int
    reserved2: int
    zero_fill: bool

    def __repr__(self) -> str:
        return _text(self)


class Library(NamedTuple):
    """A dylib_command: a library that the image loads, or what it is itself.

    `name`: its path
    `cmd`: LC_LOAD_DYLIB or one of its kin; of `Image.id` LC_ID_DYLIB
    `current`, `compatible`: versions X.Y.Z: X << 16 | Y << 8 | Z"""

    name: memoryview
    cmd: int
    current: int
    compatible: int

    def __repr__(self) -> str:
        return _text(self)


class Build(NamedTuple):
    """A build_version_command, or a version_min_command, which names its platform by its `cmd`: LC_VERSION_MIN_MACOSX
    (0x24), LC_VERSION_MIN_IPHONEOS (0x25), LC_VERSION_MIN_TVOS (0x2f) or LC_VERSION_MIN_WATCHOS (0x30). The platform of
    the last three is that of the device, also in an image for its simulator.

    `platform`: a number that `platform_name` takes
    `minos`, `sdk`: the least version of the platform, and that of the SDK, X.Y.Z: X << 16 | Y << 8 | Z"""

    platform: int
    minos: int
    sdk: int
    cmd: int


class Command(NamedTuple):
    """A load command, which begins at `place` in the image. `bytes` are all `cmdsize` bytes. `name` is that of a
    library, or a path, or empty."""

    bytes: memoryview
    name: memoryview
    place: int
    cmd: int

    def __repr__(self) -> str:
        return _text(self)


class Relocation(NamedTuple):
    """A relocation_info of <mach-o/reloc.h>. No rule judges its fields. `external` is r_extern: `symbolnum` is the index
    of a symbol, and otherwise the number of a section. `scattered` is the highest bit of `address`, R_SCATTERED: in an
    image that is not for x86_64 it means a scattered_relocation_info, whose fields are other bits."""

    address: int
    symbolnum: int
    pcrel: bool
    length: int
    external: bool
    type: int
    scattered: bool


class DataInCode(NamedTuple):
    """A data_in_code_entry. The linked profile judges its fields.

    `bytes`: the data, empty if it does not all lie in the image
    `offset`, `length`: where it begins in the image, and its size
    `kind`: DICE_KIND_DATA or another of these constants, or any other number"""

    bytes: memoryview
    offset: int
    length: int
    kind: int

    def __repr__(self) -> str:
        return _text(self)


class CodeDirectory(NamedTuple):
    """A CS_CodeDirectory of <kern/cs_blobs.h>: what was signed, and the hashes of its pages. In a file that the linked
    profile accepts, the names and the hashes lie in the blob, the type of the hashes is known, and `limit` is where the
    signature begins in the image: there is a hash for each page before that. The sealed profile judges whether the
    pages have these hashes.

    `bytes`: the whole blob, with its magic and its length
    `identifier`, `team`: without the zero byte past them, empty if there is none
    `hashes`: those of the code, one for each page, each of `hash_size` bytes; empty if they pass the blob
    `special_hashes`: each of `hash_size` bytes, that of the special slot 1 last; empty if they pass the blob
    `limit`: how many bytes of the image are hashed, from its start on: codeLimit64, or codeLimit if that is 0 or not
    there
    `version`, `flags`: 0x20000 or more; CS_ADHOC (2) and others
    `code_slots`, `special_slots`: how many hashes, and how many special ones there are
    `hash_size`: in bytes, any number
    `hash_type`: CS_HASHTYPE_SHA256 or another of these constants, or any other number
    `page_size`: the log2 of the size of a page in bytes. 0: one page has all bytes"""

    bytes: memoryview
    identifier: memoryview
    team: memoryview
    hashes: memoryview
    special_hashes: memoryview
    limit: int
    version: int
    flags: int
    code_slots: int
    special_slots: int
    hash_size: int
    hash_type: int
    page_size: int

    def __repr__(self) -> str:
        return _text(self)

    def cdhash(self) -> Optional[Hash]:
        """What `codesign` prints and servers look up: the first 20 bytes (CS_CDHASH_LEN) of the digest, or None without
        one. It names the bytes of the directory alone: the sealed profile judges whether the pages have the hashes in
        it.

            print(directory.cdhash().hex())"""
        digest = self.digest()
        return digest and digest[:CS_CDHASH_LEN]

    def digest(self) -> Optional[Hash]:
        """The hash of the whole blob, by the directory's own type of hashes: 20 bytes of SHA-1 and of SHA-256 that is
        cut, 32 of SHA-256, and 48 of SHA-384. None if the type is not known, which it is in a file that the linked
        profile accepts."""
        data, written = Bytes(self.bytes), ctypes.create_string_buffer(CDHASH.size)
        if load().kesvuot_read_cdhash(data.address, len(data), _blob_of(data), written) != OK:
            return None
        digest, size, _ = CDHASH.unpack(written)
        return digest[:size]


class Blob(NamedTuple):
    """A blob of a code signature: a CS_BlobIndex and a CS_GenericBlob of <kern/cs_blobs.h>.

    `bytes`: the whole blob, with its magic and its length. What it holds begins after these 8 bytes
    `slot`: the type of its entry, CSSLOT_CODEDIRECTORY or another of these constants, or any other number
    `magic`: CSMAGIC_CODEDIRECTORY (0xfade0c02) or another of these, or any other number"""

    bytes: memoryview
    slot: int
    magic: int

    def __repr__(self) -> str:
        return _text(self)

    def code_directory(self) -> Optional[CodeDirectory]:
        """What the blob says, if it is a code directory. Its slot does not matter. None if it has another magic, a
        version below 0x20000, fewer bytes than the fields of its version, or a scatter vector. In a file that the
        linked profile accepts, each blob in a slot of code directories (0, 0x1000 to 0x1004) is one."""
        data, written = Bytes(self.bytes), ctypes.create_string_buffer(CODE_DIRECTORY.size)
        if load().kesvuot_read_code_directory(data.address, len(data), _blob_of(data), written) != OK:
            return None
        fields = CODE_DIRECTORY.unpack(written)
        parts = (data.part(*fields[start:start + 2]) for start in range(0, 8, 2))
        return CodeDirectory(data.view, *parts, *fields[8:])


def _blob_of(data: Bytes) -> Any:
    """A blob that is all of these bytes, as the library takes it. It reads neither the slot nor the magic of one."""
    return ctypes.create_string_buffer(BLOB.pack(0, len(data), 0, 0), BLOB.size)


class Export(NamedTuple):
    """What an image offers to others under a name. Only the linked profile judges its fields.

    `flags`: of EXPORT_SYMBOL_FLAGS_.., or any other number. With EXPORT_SYMBOL_FLAGS_KIND_MASK it is a regular symbol, a
    thread-local one or an absolute one
    `address`: before any slide, and it can be in no segment. None of a re-export
    `resolver`: with EXPORT_SYMBOL_FLAGS_STUB_AND_RESOLVER the address of the function that finds the one to call. Then
    `address` is that of a stub. Otherwise None
    `ordinal`: of a re-export which of the `libraries` has the symbol, from 1 on, or any other number. Otherwise None
    `name`: of a re-export its name there, empty if that is the same. Otherwise None"""

    flags: int
    address: Optional[int]
    resolver: Optional[int]
    ordinal: Optional[int]
    name: Optional[memoryview]

    def __repr__(self) -> str:
        return _text(self)


class Kind(NamedTuple):
    """A kind of rows: the call that writes them, the form of one, and the function that makes rows of the fields."""

    call: str
    form: Struct
    make: Callable[[Bytes, Fields], Iterator[Any]]


def _segments(data: Bytes, rows: Fields) -> Iterator[Segment]:
    part = data.part
    return (Segment(part(name, length), part(offset, size), *numbers) for name, length, offset, size, *numbers in rows)


def _sections(data: Bytes, rows: Fields) -> Iterator[Section]:
    part = data.part
    return (Section(part(name, length), part(segment, segment_length), part(offset, size), *numbers)
            for name, length, segment, segment_length, offset, size, *numbers in rows)


def _libraries(data: Bytes, rows: Fields) -> Iterator[Library]:
    part = data.part
    return (Library(part(name, length), *numbers) for name, length, *numbers in rows)


def _builds(_data: Bytes, rows: Fields) -> Iterator[Build]:
    return map(Build._make, rows)


def _numbers(_data: Bytes, rows: Fields) -> Iterator[int]:
    return (value for value, in rows)


def _relocations(_data: Bytes, rows: Fields) -> Iterator[Relocation]:
    return map(Relocation._make, rows)


def _data_in_code(data: Bytes, rows: Fields) -> Iterator[DataInCode]:
    return (DataInCode(data.part(offset, size), *numbers) for offset, size, *numbers in rows)


def _blobs(data: Bytes, rows: Fields) -> Iterator[Blob]:
    return (Blob(data.part(offset, size), *numbers) for offset, size, *numbers in rows)


# In the forms of kesvuot.h, each 2Q at the start is a span, x is reserved or not taken, and ? and ?3x are numbers that
# are 0 or 1.
SEGMENTS = Kind("kesvuot_read_segments", Struct("@4Q2Q8x3Q3I4x"), _segments)
SECTIONS = Kind("kesvuot_read_sections", Struct("@6Q2Q7I?3x"), _sections)
LIBRARIES = Kind("kesvuot_read_libraries", Struct("@2Q3I4x"), _libraries)
BUILDS = Kind("kesvuot_read_builds", Struct("@4I"), _builds)
INDIRECTS = Kind("kesvuot_read_indirects", Struct("@I"), _numbers)
FUNCTION_STARTS = Kind("kesvuot_read_function_starts", Struct("@Q"), _numbers)
DATA_IN_CODE = Kind("kesvuot_read_data_in_code", Struct("@2QI2H"), _data_in_code)
BLOBS = Kind("kesvuot_read_blobs", BLOB, _blobs)
RELOCATIONS = Kind("kesvuot_read_relocations", Struct("@2I?B?B?3x"), _relocations)


def export_of(data: Bytes, written: Any) -> Export:
    """The export that the library has written."""
    flags, address, resolver, ordinal, *name = EXPORT.unpack(written)
    if flags & EXPORT_SYMBOL_FLAGS_REEXPORT:
        return Export(flags, None, None, ordinal, data.part(*name))
    has_resolver = flags & EXPORT_SYMBOL_FLAGS_STUB_AND_RESOLVER
    return Export(flags, address, resolver if has_resolver else None, None, None)


def symbols_of(strings: Strings) -> Kind:
    """The symbols of the image whose strings these are."""
    def make(_data: Bytes, rows: Fields) -> Iterator[Symbol]:
        # There may be millions: nothing is called for a row but what makes its objects.
        new, none = tuple.__new__, NO_SECTION
        return (new(Symbol, (value, strx, desc, kind, sect, None if section == none else section, strings))
                for value, strx, section, desc, kind, sect in rows)

    return Kind("kesvuot_read_symbols", Struct("@QIIHBB4x"), make)


def commands_of(image: int) -> Kind:
    """The load commands of the image that begins here in the file."""
    def make(data: Bytes, rows: Fields) -> Iterator[Command]:
        part = data.part
        return (Command(part(offset, size), part(name, length), offset - image, cmd)
                for offset, size, name, length, cmd in rows)

    return Kind("kesvuot_read_commands", Struct("@4QI4x"), make)


class Reader:
    """Reads rows of a table from the library, which finds each by its index. `numbers` are what the call gets besides
    the image."""

    def __init__(self, data: Bytes, image: Any, kind: Kind, *numbers: int) -> None:
        self._data = data
        self._image = image
        self._kind = kind
        self._numbers = numbers

    def _write(self, first: int, count: int) -> memoryview:
        """Rows as the library writes them, from an index on. There are fewer if the bytes have changed."""
        size = self._kind.form.size
        rows, cursor = ctypes.create_string_buffer(count * size), CURSOR.pack(0, 0, 0, first)
        written = getattr(load(), self._kind.call)(
            self._data.address, len(self._data), self._image, *self._numbers,
            ctypes.create_string_buffer(cursor, CURSOR.size), rows, count)
        return memoryview(rows).cast("B")[:written * size]

    def _make(self, rows: memoryview) -> Iterator[Any]:
        return self._kind.make(self._data, self._kind.form.iter_unpack(rows))

    def read(self, first: int, count: int) -> Iterator[Any]:
        """Rows from an index on. Each is made when it is asked for."""
        return self._make(self._write(first, count))


class NamedReader(Reader):
    """Reads symbols with their names, of an image whose strings have this many bytes."""

    def __init__(self, data: Bytes, image: Any, kind: Kind, strings_size: int) -> None:
        super().__init__(data, image, kind)
        self._most = max(MOST_BYTES // max(strings_size, 1), 1)

    def read(self, first: int, count: int) -> Iterator[Tuple[Symbol, memoryview]]:
        rows = self._write(first, count)
        return zip(self._make(rows), self._names(rows))

    def _names(self, rows: memoryview) -> Iterator[memoryview]:
        view, size = self._data.view, self._kind.form.size * self._most
        for first in range(0, len(rows), size):
            for offset, length in SPAN.iter_unpack(self._spans(rows[first:first + size])):
                yield view[offset:offset + length]

    def _spans(self, rows: memoryview) -> Any:
        """Where the names of the symbols of these rows lie, as the library writes it."""
        count = len(rows) // self._kind.form.size
        spans = ctypes.create_string_buffer(count * SPAN.size)
        load().kesvuot_read_names(self._data.address, len(self._data), self._image,
                                  ctypes.byref(ctypes.c_char.from_buffer(rows)), count, spans, count)
        return spans


class WalkedReader(Reader):
    """Reads a table for which the library walks over the load commands: all rows in one walk, when one is first asked
    for. They are kept as the library writes them, in 16 to 96 bytes each."""

    def __init__(self, data: Bytes, image: Any, kind: Kind, count: int) -> None:
        super().__init__(data, image, kind)
        self._count = count
        self._rows: Optional[memoryview] = None

    def read(self, first: int, count: int) -> Iterator[Any]:
        if self._rows is None:
            self._rows = self._write(0, self._count)
        size = self._kind.form.size
        return self._make(self._rows[first * size:(first + count) * size])


class Table(Sequence[Row]):
    """The rows of a table that may be long. It makes a row when it is asked for, and keeps none. A slice of it is a
    table too."""

    def __init__(self, read: Callable[[int, int], Iterator[Row]], indices: range) -> None:
        self._read = read
        self._indices = indices

    def __repr__(self) -> str:
        return f"<kesvuot.Table of {len(self)} rows>"

    def __len__(self) -> int:
        return len(self._indices)

    @overload
    def __getitem__(self, key: SupportsIndex) -> Row: ...

    @overload
    def __getitem__(self, key: slice) -> Table[Row]: ...

    def __getitem__(self, key: Union[SupportsIndex, slice]) -> Union[Row, Table[Row]]:
        if isinstance(key, slice):
            return Table(self._read, self._indices[key])
        for row in self._read(self._indices[key], 1):
            return row
        raise IndexError(CHANGED)

    def __iter__(self) -> Iterator[Row]:
        return chain.from_iterable(self._batches())

    def __reversed__(self) -> Iterator[Row]:
        return iter(self[::-1])

    def _batches(self) -> Iterator[Iterator[Row]]:
        step = self._indices.step
        size = BATCH if step in (1, -1) else 1
        for first in range(0, len(self), size):
            some = self._indices[first:first + size]
            rows = self._read(min(some[0], some[-1]), len(some))
            yield rows if step == 1 else reversed(list(rows))


def uncounted(data: Bytes, image: Any, kind: Kind) -> Table[Any]:
    """A table whose length nothing says. All rows are read at once, and kept as the library writes them."""
    size = kind.form.size
    rows, cursor = ctypes.create_string_buffer(BATCH * size), ctypes.create_string_buffer(CURSOR.size)
    written, kept = BATCH, bytearray()
    while written == BATCH:
        written = getattr(load(), kind.call)(data.address, len(data), image, cursor, rows, BATCH)
        kept += memoryview(rows).cast("B")[:written * size]
    view = memoryview(kept).toreadonly()

    def read(first: int, count: int) -> Iterator[Any]:
        return kind.make(data, kind.form.iter_unpack(view[first * size:(first + count) * size]))

    return Table(read, range(len(kept) // size))


class Walk(Iterable[Row]):
    """What a walk over a trie, opcodes or chains meets. Each loop over it walks again, and keeps nothing."""

    def __init__(self, walk: Callable[[], Iterator[Row]]) -> None:
        self._walk = walk

    def __repr__(self) -> str:
        return "<kesvuot.Walk>"

    def __iter__(self) -> Iterator[Row]:
        return self._walk()
