"""The parts of a file that its headers describe, and the bytes that none of them has. For a refused file they are as
far as its headers can be followed: nothing is trusted, and each read stays in the file."""

from __future__ import annotations

import re
from bisect import bisect_right
from itertools import chain
from struct import Struct
from typing import Any, Callable, Dict, Iterable, Iterator, List, NamedTuple, Optional, Sequence, Tuple

from ._files import ARCHITECTURES, File, Image
from ._names import FILETYPES, LIBRARIES, command_name, plain, protection_text
from ._structures import LISTED, UNLISTED, number_in, size_of, structure_of
from .constants import (
    CPU_TYPE_ARM64, CPU_TYPE_X86_64, LC_BUILD_VERSION, LC_DYLD_ENVIRONMENT, LC_DYLIB_CODE_SIGN_DRS,
    LC_ENCRYPTION_INFO_64, LC_ID_DYLIB, LC_ID_DYLINKER, LC_LINKER_OPTIMIZATION_HINT, LC_LOAD_DYLINKER, LC_NOTE,
    LC_RPATH, LC_SEGMENT_64, S_GB_ZEROFILL, S_THREAD_LOCAL_ZEROFILL, S_ZEROFILL, VM_PROT_EXECUTE)

# fat.h: an entry of a universal file, by its magic number: cputype, cpusubtype, offset, size, align.
FAT_ENTRIES = {b"\xca\xfe\xba\xbe": Struct(">5I"), b"\xca\xfe\xba\xbf": Struct(">2I2Q2I")}
MH_MAGIC_64 = b"\xcf\xfa\xed\xfe"
# loader.h: mach_header_64; load_command; of segment_command_64 vmaddr, vmsize, fileoff, filesize, maxprot, initprot and
# nsects; of section_64 addr, size, offset, align, reloff, nreloc and flags.
HEADER, COMMAND = Struct("<8I"), Struct("<2I")
COMMAND_ALIGN = 8
SEGMENT, SECTION = Struct("<24x4Q3I4x"), Struct("<32x2Q5I12x")
# The NOP that may pad code, by cputype; and with the place from which its words are counted.
NOPS = {CPU_TYPE_X86_64: b"\x90", CPU_TYPE_ARM64: b"\x1f\x20\x03\xd5"}
Padding = Tuple[int, bytes]
# Where a slice begins and ends, and its index.
Slice = Tuple[int, int, Optional[int]]
ZERO_FILL_TYPES = {S_ZEROFILL, S_GB_ZEROFILL, S_THREAD_LOCAL_ZEROFILL}
RELOCATION_SIZE = 8
# Which commands have a name, whose offset is the word after cmdsize.
NAMED = {*LIBRARIES, LC_LOAD_DYLINKER, LC_ID_DYLINKER, LC_RPATH, LC_DYLD_ENVIRONMENT}

Range = Tuple[int, int]

class TableForm(NamedTuple):
    """A table that a command names, as in rules/layout.md: a name, the fields that have the offset and the count, and
    the bytes of an entry."""

    name: str
    start: str
    count: str
    width: int = 1


TABLES_OF_STRUCTURES: Dict[str, Tuple[TableForm, ...]] = {
    "symtab_command": (TableForm("symbols", "symoff", "nsyms", 16), TableForm("strings", "stroff", "strsize")),
    "dysymtab_command": (
        TableForm("table of contents", "tocoff", "ntoc", 8), TableForm("modules", "modtaboff", "nmodtab", 56),
        TableForm("external references", "extrefsymoff", "nextrefsyms", 4),
        TableForm("indirect symbols", "indirectsymoff", "nindirectsyms", 4),
        TableForm("external relocations", "extreloff", "nextrel", 8),
        TableForm("local relocations", "locreloff", "nlocrel", 8)),
    "dyld_info_command": (
        TableForm("rebase opcodes", "rebase_off", "rebase_size"), TableForm("bind opcodes", "bind_off", "bind_size"),
        TableForm("weak bind opcodes", "weak_bind_off", "weak_bind_size"),
        TableForm("lazy bind opcodes", "lazy_bind_off", "lazy_bind_size"),
        TableForm("export trie", "export_off", "export_size")),
    "encryption_info_command_64": (TableForm("encrypted range", "cryptoff", "cryptsize"),),
    "note_command": (TableForm("note", "offset", "size"),),
    "twolevel_hints_command": (TableForm("two-level hints", "offset", "nhints", 4),)}
# The data of a linkedit_data_command has the name of its command in words, as LC_DYLD_EXPORTS_TRIE an exports trie. The
# names of these have other words.
LINKEDIT_DATA = {
    LC_DYLIB_CODE_SIGN_DRS: "code signing requirements", LC_LINKER_OPTIMIZATION_HINT: "optimization hints"}


def _tables_of(cmd: int, structure: str) -> Tuple[TableForm, ...]:
    if structure != "linkedit_data_command":
        return TABLES_OF_STRUCTURES.get(structure, ())
    words = re.sub("^LC_(DYLD_)?", "", command_name(cmd)).replace("_", " ").lower()
    return (TableForm(LINKEDIT_DATA.get(cmd, words), "dataoff", "datasize"),)


TABLES: Dict[int, Tuple[TableForm, ...]] = {
    cmd: _tables_of(cmd, structure) for cmd, structure in (*LISTED.items(), *UNLISTED.items())}

# For the listed commands with records: where their count is, and their size.
RECORDS = {LC_SEGMENT_64: (64, SECTION.size), LC_BUILD_VERSION: (20, 8)}

# Between runs of nonzero bytes that are drawn as one there are fewer zeros than this, or than this part of a gap.
NEAR, RUNS = 16, 256
PIECE = 1 << 20
ZEROS = bytes(PIECE)


class Part(NamedTuple):
    """`size` bytes of the file from `start` on, or as many of them as the file has; in the column of the map that has
    what it is a part of at its left. `described` is where in the file the structure that describes it begins, and
    `address` and `memory` are what it has of the address space."""

    kind: str
    name: str
    column: int
    start: int
    size: int
    slice: Optional[int] = None
    described: Optional[int] = None
    address: int = 0
    memory: int = 0
    note: str = ""
    initprot: int = 0


# Which parts have bytes of their own: the elements of the strict profile, and what the headers consist of.
ELEMENTS = frozenset(("universal header", "headers", "section", "relocations", "table", "slice not read"))


def parts_of(data: memoryview, file: Optional[File] = None) -> List[Part]:
    """The parts of a file, which is given if it was accepted: then its load commands are those that the library
    reads."""
    parts = list(slices_of(data))
    for part in parts[:]:
        if part.kind == "slice" and part.slice is not None:
            image = file.slices[part.slice] if file else None
            parts += image_parts(data, part, image if isinstance(image, Image) else None)
    return parts + list(_rest(data, parts))


# Slices


def slices_of(data: memoryview) -> Iterator[Part]:
    """The slices, and the table that has them."""
    entry = FAT_ENTRIES.get(bytes(data[:4]))
    if entry is None:
        yield _slice(data, 0, 0, len(data), None)
        return
    count = int.from_bytes(data[4:8], "big")
    yield Part("universal header", "fat_header", 0, 0, 8 + entry.size * count, note=f"{count} entries")
    for index in range(min(count, max(len(data) - 8, 0) // entry.size)):
        place = 8 + entry.size * index
        cputype, cpusubtype, start, size, align = entry.unpack_from(data, place)[:5]
        arch = arch_name(cputype, cpusubtype)
        yield Part("entry", f"entry {index}: {arch}", 3, place, entry.size, index, place, note=f"align 2^{align}")
        yield _slice(data, index, start, size, place)._replace(name=f"slice {index}: {arch}")


def _slice(data: memoryview, index: int, start: int, size: int, described: Optional[int]) -> Part:
    image = data[start:start + size]
    if image[:4] != MH_MAGIC_64:
        return Part("slice not read", f"slice {index}", 0, start, size, index, described)
    if len(image) < HEADER.size:
        return Part("slice", f"slice {index}", 0, start, size, index, described)
    _, cputype, cpusubtype, filetype, *_ = HEADER.unpack_from(image)
    return Part("slice", arch_name(cputype, cpusubtype), 0, start, size, index, described,
                note=FILETYPES.get(filetype, f"filetype {filetype}"))


def arch_name(cputype: int, cpusubtype: int) -> str:
    """The name of an architecture, or its numbers, without the capability byte."""
    arch = cputype, cpusubtype & 0xFF_FFFF
    return ARCHITECTURES.get(arch, f"{arch[0]:#x}/{arch[1]:#x}")


# Images


class Step(NamedTuple):
    """A load command, with the fields of a Command of the library."""

    bytes: memoryview
    name: memoryview
    place: int
    cmd: int


class Walk(NamedTuple):
    """The load commands of an image, and whether they are all there."""

    commands: Sequence[Any]
    is_whole: bool


def image_parts(data: memoryview, part: Part, accepted: Optional[Image] = None,
                is_wanted: Optional[Callable[[int, Any], bool]] = None) -> Iterator[Part]:
    """The parts of an image, which is a slice: those of all commands, or of those that are wanted, by their places in
    the file."""
    image = data[part.start:part.start + part.size]
    if len(image) < HEADER.size:
        return
    ncmds, sizeofcmds = HEADER.unpack_from(image)[4:6]
    walk = Walk(accepted.commands, True) if accepted else walk_commands(image, ncmds, HEADER.size + sizeofcmds)
    yield Part("headers", "headers", 2, part.start, HEADER.size + sizeofcmds, part.slice, part.start)
    yield Part("header", "mach_header_64", 3, part.start, HEADER.size, part.slice, part.start)
    end = HEADER.size
    for command in walk.commands:
        end = command.place + len(command.bytes)
        if is_wanted and not is_wanted(part.start + command.place, command):
            continue
        yield _command_part(part, command)
        yield from _described(part, command)
        for start, stop in _slack(command):
            place = part.start + command.place
            yield from _runs(data, (place + start, place + stop), part.slice, None)
    if not walk.is_whole:
        size = max(int.from_bytes(image[end + 4:end + 8], "little"), COMMAND.size)
        yield Part("broken walk", "where the load commands cannot be followed", 3, part.start + end, size, part.slice,
                   part.start + end)
    elif end < HEADER.size + sizeofcmds:
        yield Part("gap", "after the last command", 3, part.start + end, HEADER.size + sizeofcmds - end, part.slice)


def walk_commands(image: memoryview, ncmds: int, end: int) -> Walk:
    """The commands as far as each has a cmdsize that can be, and lies among the commands and in the image."""
    commands: List[Step] = []
    place, end, no_name = HEADER.size, min(end, len(image)), image[:0]
    while len(commands) < ncmds:
        if place + COMMAND.size > end:
            return Walk(commands, False)
        cmd, size = COMMAND.unpack_from(image, place)
        if size < COMMAND.size or size % COMMAND_ALIGN or place + size > end:
            return Walk(commands, False)
        command = image[place:place + size]
        commands.append(Step(command, _name_of(cmd, command) if cmd in NAMED else no_name, place, cmd))
        place += size
    return Walk(commands, True)


def _name_of(cmd: int, command: memoryview) -> memoryview:
    """The name that a command of a kind with names has past its structure, up to its first zero, or to the end of the
    command."""
    start = int.from_bytes(command[8:12], "little")
    if start < size_of(LISTED[cmd]):
        return command[:0]
    end = bytes(command).find(0, start)
    return command[start:end if end >= 0 else len(command)]


def _command_part(part: Part, command: Any) -> Part:
    name = command_name(command.cmd)
    if command.cmd == LC_SEGMENT_64 and len(command.bytes) >= SEGMENT.size:
        name += f" {_text(command.bytes[8:24])}"
    elif command.name:
        name += f" {plain(command.name)}"
    place = part.start + command.place
    return Part("command", name, 3, place, len(command.bytes), part.slice, place,
                note="the image's own name" if command.cmd == LC_ID_DYLIB else "")


def _slack(command: Any) -> Iterator[Range]:
    """The ranges of a listed command that are past its structure and its records, and outside its name."""
    data = command.bytes
    if command.cmd not in LISTED or len(data) <= size_of(LISTED[command.cmd]):
        return
    end = size_of(LISTED[command.cmd])
    if command.cmd in RECORDS:
        count_at, size = RECORDS[command.cmd]
        end += size * int.from_bytes(data[count_at:count_at + 4], "little")
    if command.cmd in NAMED:
        start = int.from_bytes(data[8:12], "little")
        yield min(end, len(data)), min(max(start, end), len(data))
        end = max(end, start + len(command.name) + 1)
    yield min(end, len(data)), len(data)


def _text(name: memoryview) -> str:
    """A name of 16 bytes, or fewer with zeros after them."""
    return plain(memoryview(bytes(name).partition(b"\0")[0]))


def _described(part: Part, command: Any) -> Iterator[Part]:
    """The parts that a command describes."""
    if command.cmd == LC_SEGMENT_64:
        if len(command.bytes) >= SEGMENT.size:
            yield from _segment_parts(part, command)
        return
    described = part._replace(described=part.start + command.place)
    structure = structure_of(command.cmd, len(command.bytes))
    for form in TABLES.get(command.cmd, ()) if structure != "load_command" else ():
        start, count = (number_in(command.bytes, structure, field) for field in (form.start, form.count))
        name = f"note of {_text(command.bytes[8:24])}" if command.cmd == LC_NOTE else form.name
        note = f"{count} entries of {form.width} bytes" if form.width > 1 else ""
        for table in _table(described, name, start, count * form.width, note):
            is_encrypted = command.cmd == LC_ENCRYPTION_INFO_64
            yield table._replace(kind="encrypted range", column=3) if is_encrypted else table


def _table(part: Part, name: str, start: int, size: int, note: str = "") -> Iterator[Part]:
    """A table of a slice, unless it is empty."""
    if size:
        yield Part("table", name, 2, part.start + start, size, part.slice, part.described, note=note)


def _segment_parts(part: Part, command: Any) -> Iterator[Part]:
    """A segment, its sections, and their relocations."""
    vmaddr, vmsize, fileoff, filesize, maxprot, initprot, nsects = SEGMENT.unpack_from(command.bytes)
    place = part.start + command.place
    protections = f"{protection_text(initprot)}; at most {protection_text(maxprot)}"
    segment = Part("segment", _text(command.bytes[8:24]) or "(no name)", 1, part.start + fileoff, filesize, part.slice,
                   place, vmaddr, vmsize, protections, initprot)
    yield segment
    for number in range(min(nsects, (len(command.bytes) - SEGMENT.size) // SECTION.size)):
        start = SEGMENT.size + SECTION.size * number
        yield from _section_parts(part, segment, place + start, command.bytes[start:start + SECTION.size])


def _section_parts(part: Part, segment: Part, place: int, record: memoryview) -> Iterator[Part]:
    """A section of a segment, by its section_64, and its relocations."""
    addr, size, offset, align, reloff, nreloc, flags = SECTION.unpack(record)
    name = f"{_text(record[16:32])},{_text(record[:16])}"
    is_zero_fill = flags & 0xFF in ZERO_FILL_TYPES
    yield Part("section", name, 2, part.start + offset, 0 if is_zero_fill else size, part.slice, place,
               addr, size if segment.memory else 0,
               "zero-fill" if is_zero_fill else f"align 2^{align}")
    relocations = _table(part._replace(described=place), f"relocations of {name}", reloff,
                         RELOCATION_SIZE * nreloc, f"{nreloc} entries of {RELOCATION_SIZE} bytes")
    yield from (it._replace(kind="relocations") for it in relocations)


# What no element has


def merged(ranges: Iterable[Range]) -> List[Range]:
    """The ranges in order, with one for those that overlap or touch."""
    whole: List[Range] = []
    for start, end in sorted(ranges):
        if whole and start <= whole[-1][1]:
            whole[-1] = whole[-1][0], max(whole[-1][1], end)
        elif start < end:
            whole.append((start, end))
    return whole


def _rest(data: memoryview, parts: List[Part]) -> Iterator[Part]:
    """The gaps between all elements, and their nonzero bytes. In an image whose commands cannot be followed nobody
    knows which these are."""
    unknown = {part.slice for part in parts if part.kind == "broken walk"}
    claimed = merged(_range(part, data) for part in parts
                     if part.kind in ELEMENTS or (part.kind == "slice" and _is_unknown(part, unknown)))
    code = merged(_range(part, data) for part in parts if part.initprot & VM_PROT_EXECUTE)
    slices: List[Slice] = sorted(
        (part.start, part.start + part.size, part.slice) for part in parts if part.kind == "slice")
    cuts = sorted({edge for part in parts if part.kind in ("slice", "segment") for edge in _range(part, data)})
    edges = [0, *chain.from_iterable(claimed), len(data)]
    for start, end in zip(edges[::2], edges[1::2]):
        for piece in _pieces(start, end, cuts):
            holder = _holder(piece[0], slices)
            padding = _padding(data, holder) if _holds(piece[0], code) else None
            yield from _gap(data, piece, holder and holder[2], padding)
    for part in parts:
        if part.kind == "gap":
            start, end = _range(part, data)
            yield from _runs(data, (start, end), part.slice, None)


def _is_unknown(part: Part, unknown: Iterable[Optional[int]]) -> bool:
    return part.slice in unknown or part.size < HEADER.size


def _range(part: Part, data: memoryview) -> Range:
    """The bytes of a part that are in the file."""
    return min(part.start, len(data)), min(part.start + part.size, len(data))


def _pieces(start: int, end: int, cuts: List[int]) -> Iterator[Range]:
    """A range in pieces that end at each of the places in it."""
    number = bisect_right(cuts, start)
    while start < end:
        stop = min(cuts[number], end) if number < len(cuts) else end
        yield start, stop
        start, number = stop, number + 1


def _holds(place: int, ranges: List[Range]) -> bool:
    number = bisect_right(ranges, (place, 1 << 64)) - 1
    return number >= 0 and ranges[number][0] <= place < ranges[number][1]


def _holder(place: int, slices: List[Slice]) -> Optional[Slice]:
    """The slice of a place."""
    number = bisect_right(slices, (place, 1 << 64, 0)) - 1
    return slices[number] if number >= 0 and place < slices[number][1] else None


def _padding(data: memoryview, holder: Optional[Slice]) -> Optional[Padding]:
    """What may pad code of a slice: the NOP of its processor, at multiples of its size from the start of the slice."""
    if holder is None:
        return None
    start = holder[0]
    nop = NOPS.get(int.from_bytes(data[start + 4:start + 8], "little"))
    return nop and (start, nop)


def _gap(data: memoryview, piece: Range, holder: Optional[int], padding: Optional[Padding]) -> Iterator[Part]:
    runs = list(_runs(data, piece, holder, padding))
    name = "gap with unclaimed bytes" if runs else "gap of zeros or NOPs" if padding else "gap of zeros"
    yield Part("gap", name, 0 if holder is None else 2, piece[0], piece[1] - piece[0], holder)
    yield from runs


def _runs(data: memoryview, piece: Range, holder: Optional[int], padding: Optional[Padding]) -> Iterator[Part]:
    """Runs of bytes that are not zero, nor padding of code."""
    least = max(NEAR, (piece[1] - piece[0]) // RUNS)
    start = end = count = 0
    for first, last in _nonzero(data, piece, padding):
        if count and first - end >= least:
            yield _run(start, end, count, holder)
            count = 0
        start, end, count = start if count else first, last, count + last - first
    if count:
        yield _run(start, end, count, holder)


def _nonzero(data: memoryview, piece: Range, padding: Optional[Padding]) -> Iterator[Range]:
    """The bytes that are not zero, outside of NOPs."""
    if padding and len(padding[1]) == 1:
        yield from matches(re.compile(rb"[^\0" + re.escape(padding[1]) + rb"]+"), data, piece)
        return
    for first, last in matches(re.compile(rb"[^\0]+"), data, piece):
        yield from _between(data, first, last, *padding) if padding else [(first, last)]


def _between(data: memoryview, first: int, last: int, origin: int, nop: bytes) -> Iterator[Range]:
    """The parts of a range between the NOPs in it, which begin at multiples of their size from a place on."""
    low = first - (first - origin) % len(nop)
    some = bytes(data[low:last + len(nop)])
    at = some.find(nop)
    while 0 <= at < last - low:
        step = 1
        if at % len(nop) == 0:
            step = len(nop)
            if first < low + at:
                yield first, low + at
            first = max(first, low + at + step)
        at = some.find(nop, at + step)
    if first < last:
        yield first, last


def _run(start: int, end: int, count: int, holder: Optional[int]) -> Part:
    return Part("unclaimed", f"{count} nonzero byte{'' if count == 1 else 's'} that nothing claims", 3, start,
                end - start, holder)


def matches(wanted: re.Pattern[bytes], data: memoryview, piece: Range) -> Iterator[Range]:
    """Where a pattern of nonzero bytes matches. Zeros are passed over fast."""
    for start in range(piece[0], piece[1], PIECE):
        some = bytes(data[start:min(start + PIECE, piece[1])])
        if some != ZEROS[:len(some)]:
            yield from ((start + match.start(), start + match.end()) for match in wanted.finditer(some))
