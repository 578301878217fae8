"""The layout of an accepted file as plain objects, for JSON."""

from __future__ import annotations

from functools import partial
from itertools import islice
from typing import Any, Callable, Dict, Iterator, List, NamedTuple, Optional, Tuple

from ._entitlements import Unreadable, entitlement_values
from ._files import File, Image, Slice
from ._names import ELSEWHERE, KEYS, hash_type_name, plain, signature_flags
from ._rows import CodeDirectory, Library
from .constants import (
    CS_CDHASH_LEN, CSSLOT_ALTERNATE_CODEDIRECTORIES, CSSLOT_CODEDIRECTORY, EXPORT_SYMBOL_FLAGS_KIND_ABSOLUTE,
    EXPORT_SYMBOL_FLAGS_KIND_MASK, EXPORT_SYMBOL_FLAGS_KIND_THREAD_LOCAL, EXPORT_SYMBOL_FLAGS_WEAK_DEFINITION,
    LC_DYLD_CHAINED_FIXUPS)

# The slots of code directories.
DIRECTORY_SLOTS = {
    CSSLOT_CODEDIRECTORY, *range(CSSLOT_ALTERNATE_CODEDIRECTORIES, CSSLOT_ALTERNATE_CODEDIRECTORIES + 5)}
# The names of a table have together no more bytes than this. In a hostile file they can be far longer than the file.
MOST_NAMES = 1 << 26


def _row_object(row: Any) -> Dict[str, Any]:
    """A row without its bytes, and with names as in the layout."""
    fields = ((field, value) for field, value in row._asdict().items() if field != "bytes")
    return {field: plain(value) if isinstance(value, memoryview) else value for field, value in fields}


def libraries_of(image: Image) -> List[Library]:
    """What the image is as a library, and those that it loads."""
    return [*([image.id] if image.id else []), *image.libraries]


class CdHash(NamedTuple):
    """The hash of a code directory: the slot of its blob, the word for its type, what `codesign` prints, and all of it,
    in hexadecimal."""

    slot: int
    hash_type: str
    cdhash: str
    digest: str


def cdhashes_of(image: Image) -> Iterator[CdHash]:
    """Those of the code directories, in the order of the index, as far as the types of their hashes are known."""
    for slot, directory in directories_of(image):
        digest = directory.digest()
        if digest:
            yield CdHash(slot, hash_type_name(directory.hash_type), digest[:CS_CDHASH_LEN].hex(), digest.hex())


class Signature(NamedTuple):
    """What a code directory says: the slot of its blob, its identifier and its team, each None if there is none, its
    flags, and the word for the type of its hashes."""

    slot: int
    identifier: Optional[str]
    team: Optional[str]
    flags: int
    hash_type: str


def signatures_of(image: Image) -> List[Signature]:
    """What the code directories that can be read say: that of slot 0 first. None if the image has no signature, or one
    that is malformed."""
    found = [Signature(slot, plain(directory.identifier) or None, plain(directory.team) or None, directory.flags,
                       hash_type_name(directory.hash_type)) for slot, directory in directories_of(image)]
    return sorted(found, key=lambda it: it.slot != CSSLOT_CODEDIRECTORY)


def disagreements(main: Signature, other: Signature) -> Dict[str, Any]:
    """In what another directory says something else than the main one, and what. Each has hashes of its own type."""
    return {name: value for name, value in other._asdict().items()
            if name not in ("slot", "hash_type") and value != getattr(main, name)}


def directories_of(image: Image) -> Iterator[Tuple[int, CodeDirectory]]:
    """The code directories that can be read, each with the slot of its blob, in the order of the index."""
    for blob in image.blobs:
        directory = blob.code_directory() if blob.slot in DIRECTORY_SLOTS else None
        if directory:
            yield blob.slot, directory


def _slice_object(part: Slice) -> Dict[str, Any]:
    whole = {"place": part.place, "size": len(part.bytes), "arch": part.arch, "is_read": isinstance(part, Image)}
    return {**whole, **_image_object(part)} if isinstance(part, Image) else whole


def _image_object(image: Image) -> Dict[str, Any]:
    segments = [{**_row_object(segment), "sections": list(map(_row_object, image.sections_of(segment)))}
                for segment in image.segments]
    return {"filetype": image.filetype, "flags": image.flags, "uuid": image.uuid and str(image.uuid).upper(),
            "base": image.base, "entry": image.entry, "symbols": image.symtab and image.symtab.nsyms,
            "builds": list(map(_row_object, image.builds)), "segments": segments,
            "libraries": list(map(_row_object, libraries_of(image)))}


def slice_objects(file: File) -> List[Dict[str, Any]]:
    """An object for each slice, as in 1.0.0."""
    return list(map(_slice_object, file.slices))


class NamedExport(NamedTuple):
    """An export: its name, its address if it has one, and what it is, in words."""

    name: str
    address: Optional[int]
    what: str


def exports_of(image: Image) -> Iterator[NamedExport]:
    """The exports, up to that with which the names have too many bytes."""
    size = 0
    for name, export in image.exports:
        size += len(name)
        if size > MOST_NAMES:
            return
        if export.ordinal is not None:
            other = plain(export.name) if export.name else ""
            what = f"re-export of library {export.ordinal}" + (f", as {other}" if other else "")
        else:
            kind = export.flags & EXPORT_SYMBOL_FLAGS_KIND_MASK
            what = {EXPORT_SYMBOL_FLAGS_KIND_THREAD_LOCAL: "thread-local",
                    EXPORT_SYMBOL_FLAGS_KIND_ABSOLUTE: "absolute"}.get(kind, "regular")
            what += "" if export.resolver is None else f", resolver {export.resolver:#x}"
        is_weak = export.flags & EXPORT_SYMBOL_FLAGS_WEAK_DEFINITION
        yield NamedExport(plain(memoryview(name)), export.address, f"{what}, weak" if is_weak else what)


class NamedImport(NamedTuple):
    """An import: its name, the ordinal of its library, this library in words, what is added to the address, and whether
    the name need not be found."""

    name: str
    ordinal: int
    library: str
    addend: int
    weak: bool


def imports_of(image: Image) -> Iterator[NamedImport]:
    """The imports, up to that with which the names have too many bytes."""
    libraries = [plain(library.name) for library in image.libraries]
    size = 0
    for name, ordinal, addend, weak in image.imports:
        size += len(name)
        if size > MOST_NAMES:
            return
        library = libraries[ordinal - 1] if 0 < ordinal <= len(libraries) else ELSEWHERE.get(ordinal)
        yield NamedImport(plain(name), ordinal, library or f"library {ordinal}", addend, weak)


class NamedFixup(NamedTuple):
    """A pointer that a loader writes: the index of its segment, where it is there, and its address. A rebase has a
    target, and a bind what it is bound to, as in NamedImport, with all that is added. A signed pointer has a key."""

    segment: int
    offset: int
    address: int
    target: Optional[int]
    name: Optional[str]
    ordinal: Optional[int]
    library: Optional[str]
    addend: Optional[int]
    weak: Optional[bool]
    key: Optional[str]
    diversity: Optional[int]
    address_diversity: Optional[bool]


UNBOUND = (None,) * len(NamedImport._fields)
UNSIGNED = (None, None, None)


def fixups_of(image: Image) -> Iterator[NamedFixup]:
    """The pointers that a loader writes, up to that with which the names have too many bytes. They are no more than the
    bytes of the image: in a file that the linked profile refuses there can be 2^64."""
    import_at = _imports_by_index(image)
    size = 0
    for fixup in islice(image.fixups, len(image.bytes)):
        bound: Tuple[Any, ...] = UNBOUND
        if fixup.import_index is not None:
            found = import_at(fixup.import_index)
            size += len(found.name) if found else 0
            if found is None or size > MOST_NAMES:
                return
            bound = found._replace(addend=fixup.addend)
        signed = fixup.authentication
        signing: Tuple[Any, ...] = (KEYS[signed.key], *signed[1:]) if signed else UNSIGNED
        yield NamedFixup(fixup.segment, fixup.offset, fixup.address, fixup.target, *bound, *signing)


def _imports_by_index(image: Image) -> Callable[[int], Optional[NamedImport]]:
    """Finds an import by its index. Opcodes bind their imports in order, so only the last one is kept. Chains bind them
    in any order, so all of the table are."""
    walk = imports_of(image)
    if any(command.cmd == LC_DYLD_CHAINED_FIXUPS for command in image.commands):
        kept = list(walk)
        return lambda index: kept[index] if index < len(kept) else None
    known, last = -1, None

    def find(index: int) -> Optional[NamedImport]:
        nonlocal known, last
        if known < index:
            known, last = index, next(islice(walk, index - known - 1, None), None)
        return last

    return find


class Streamed(List[Dict[str, Any]]):
    """Rows as objects, for an encoder of JSON that asks for one after the other. None is kept."""

    def __init__(self, rows: Callable[[], Iterator[Any]]) -> None:
        super().__init__()
        self._rows = rows

    def __bool__(self) -> bool:
        return any(True for _ in self._rows())

    def __iter__(self) -> Iterator[Dict[str, Any]]:
        return (row._asdict() for row in self._rows())


# The tables of an image that can be longer than all else, by their names in JSON.
LONG_TABLES: Dict[str, Callable[[Image], Iterator[Any]]] = {
    "exports": exports_of, "imports": imports_of, "fixups": fixups_of}


def layout_objects(file: File, has_all: bool = False) -> List[Dict[str, Any]]:
    """An object for each slice, without the symbols and the indirect entries, and with the exports, imports and fixups
    if all is wanted."""
    return [{"index": part.index, "cputype": part.cputype, "cpusubtype": part.cpusubtype, **_slice_object(part),
             **(_tables(part, has_all) if isinstance(part, Image) else {})} for part in file.slices]


def _signature_object(signature: Signature) -> Dict[str, Any]:
    return {**signature._asdict(), "flag_names": signature_flags(signature.flags)}


def _entitlements(image: Image) -> Optional[Dict[str, Any]]:
    """The entitlements. None if there are none, or if they cannot be read."""
    try:
        return entitlement_values(image) or None
    except Unreadable:
        return None


def _tables(image: Image, has_all: bool) -> Dict[str, Any]:
    signatures = list(map(_signature_object, signatures_of(image)))
    long = {name: Streamed(partial(rows, image)) for name, rows in LONG_TABLES.items()} if has_all else {}
    return {**long, "thread_entry": image.thread_entry, "signature": signatures[0] if signatures else None,
            "other_signatures": signatures[1:], "entitlements": _entitlements(image),
            "cdhashes": [cdhash._asdict() for cdhash in cdhashes_of(image)],
            "symtab": image.symtab and image.symtab._asdict(),
            "dysymtab": image.dysymtab and image.dysymtab._asdict(),
            "commands": [{**_row_object(command), "size": len(command.bytes)} for command in image.commands]}
