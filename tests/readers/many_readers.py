"""Readers that ask the same of a Mach-O file in different ways, as kernels, loaders and tools do. Each question has
several of them. A reader gives an answer, or None where it refuses: then it shows no other program. `disagreements`
are the questions to which two readers of a file give different answers.

A reader is a function of a file, or of a 64-bit slice, and of what the question is about. Where the verifier answers a
question too, the first reader answers as the verifier does. crates/macho_readers/specs/Models.antt has most of the
readers as relations. linked_readers.py has the readers of linked data.

The readers judge nothing, and take for granted that the linked profile accepts the file. From
tests/reference/oracle.py they take the entries of the table, and the commands, segments and sections of an image.
"""

from __future__ import annotations

from functools import cached_property
from types import SimpleNamespace
from typing import Any, Callable, Iterable, Iterator, List, NamedTuple, Optional, Set, Tuple

from kesvuot import constants
from kesvuot.constants import (
    CPU_TYPE_ARM64, CPU_TYPE_X86_64, LC_BUILD_VERSION, LC_CODE_SIGNATURE, LC_DATA_IN_CODE, LC_DYLD_CHAINED_FIXUPS,
    LC_DYLD_EXPORTS_TRIE, LC_DYLD_INFO, LC_DYLD_INFO_ONLY, LC_DYLIB_CODE_SIGN_DRS, LC_DYSYMTAB, LC_ENCRYPTION_INFO_64,
    LC_FUNCTION_STARTS, LC_ID_DYLIB, LC_ID_DYLINKER, LC_LAZY_LOAD_DYLIB, LC_LINKER_OPTIMIZATION_HINT, LC_LOAD_DYLINKER,
    LC_MAIN, LC_PREBIND_CKSUM, LC_ROUTINES_64, LC_SEGMENT_SPLIT_INFO, LC_SOURCE_VERSION, LC_SUB_FRAMEWORK, LC_SYMTAB,
    LC_TARGET_TRIPLE, LC_THREAD, LC_UNIXTHREAD, LC_UUID, LC_VERSION_MIN_IPHONEOS, LC_VERSION_MIN_MACOSX,
    LC_VERSION_MIN_TVOS, LC_VERSION_MIN_WATCHOS, MH_EXECUTE, PLATFORM_IOS, PLATFORM_MACOS, PLATFORM_TVOS,
    PLATFORM_WATCHOS, S_GB_ZEROFILL, S_THREAD_LOCAL_ZEROFILL, S_ZEROFILL, SECTION_TYPE, VM_PROT_WRITE)
from reference import oracle

from . import linked_readers as linked
from .linked_readers import Linked
from .plain_dyld import LOADS, Breach, load_opcodes
from .plain_reader import Part, start_of_thread

# mach-o/fat.h, and the limits by which tools tell a Java class from a universal file.
FAT_MAGIC, FAT_HEADER_SIZE = b"\xca\xfe\xba\xbe", 8
MOST_ENTRIES, LEAST_JAVA_VERSION = 30, 43
UNIVERSAL, JAVA_CLASS = "universal", "Java class"
# mach/machine.h, and the two processors of the verifier.
CPU_ARCH_ABI64 = 0x01000000
PROCESSORS = (CPU_TYPE_X86_64, CPU_TYPE_ARM64)
# mach-o/loader.h: the magic numbers as they stand in a slice, with the order and whether they are of 64 bits.
MAGICS = {b"\xcf\xfa\xed\xfe": ("little", True), b"\xfe\xed\xfa\xcf": ("big", True),
          b"\xce\xfa\xed\xfe": ("little", False), b"\xfe\xed\xfa\xce": ("big", False)}
LC_REQ_DYLD, S_ATTR_DEBUG, SG_PROTECTED_VERSION_1 = 0x80000000, 0x02000000, 0x8
ZERO_FILL = (S_ZEROFILL, S_GB_ZEROFILL, S_THREAD_LOCAL_ZEROFILL)
COMMANDS = {number for name, number in vars(constants).items() if name.startswith("LC_")} - {LC_REQ_DYLD}
ENTRIES = (LC_MAIN, LC_THREAD, LC_UNIXTHREAD)
# The commands that a reader looks for once.
TAKEN_ONCE = (
    LC_SYMTAB, LC_DYSYMTAB, LC_LOAD_DYLINKER, LC_ID_DYLINKER, LC_ID_DYLIB, LC_SUB_FRAMEWORK, LC_PREBIND_CKSUM,
    LC_ROUTINES_64, LC_UUID, LC_CODE_SIGNATURE, LC_SEGMENT_SPLIT_INFO, LC_ENCRYPTION_INFO_64, LC_DYLD_INFO,
    LC_DYLD_INFO_ONLY, LC_FUNCTION_STARTS, LC_DATA_IN_CODE, LC_SOURCE_VERSION, LC_DYLIB_CODE_SIGN_DRS,
    LC_LINKER_OPTIMIZATION_HINT, LC_DYLD_EXPORTS_TRIE, LC_DYLD_CHAINED_FIXUPS, LC_TARGET_TRIPLE)
# The platforms of build_version_command that have a command of their own.
PLATFORMS = {LC_VERSION_MIN_MACOSX: PLATFORM_MACOS, LC_VERSION_MIN_IPHONEOS: PLATFORM_IOS,
             LC_VERSION_MIN_TVOS: PLATFORM_TVOS, LC_VERSION_MIN_WATCHOS: PLATFORM_WATCHOS}
# The pages of the kernels. A kernel does not decrypt the first bytes of a slice (APPLE_UNPROTECTED_HEADER_SIZE).
SMALL_PAGE, LARGE_PAGE, NEVER_ENCRYPTED = 0x1000, 0x4000, 0x3000
NAME_SIZE, DATA_ENTRY_SIZE = 16, 8

# A command, a segment, a section or an entry of the table, as the oracle reads it.
Fields = SimpleNamespace


class Slice:
    """A 64-bit slice of a file."""

    def __init__(self, file: oracle.File, image: oracle.Image) -> None:
        self.file = file
        self.image = image
        self.data: bytes = image.data
        self.page = page_of(image.header.cputype)
        self.commands: List[Fields] = image.commands
        self.segments: List[Fields] = image.segments
        self.sections: List[Fields] = image.sections
        self.mapped = [segment for segment in self.segments if segment.vmsize > 0]

    @cached_property
    def decrypted(self) -> bytes:
        """The bytes of the whole file as a kernel shows them. What the encrypted bytes become is not known, so all of
        them are others."""
        ranges = [(it.cryptoff, it.cryptsize) for it in self.listed(LC_ENCRYPTION_INFO_64) if it.cryptid]
        for segment in self.segments:
            if segment.flags & SG_PROTECTED_VERSION_1:
                start = max(segment.fileoff, NEVER_ENCRYPTED)
                ranges.append((start, segment.fileoff + segment.filesize - start))
        content = bytearray(self.file.data)
        for start, size in ranges:
            for place in range(self.image.start + start, self.image.start + start + size):
                content[place] ^= 0xFF
        return bytes(content)

    def listed(self, *kinds: int) -> List[Fields]:
        """The commands of these kinds that the oracle reads whole."""
        return [command for command in self.image.listed if command.cmd in kinds]

    def of_kinds(self, *kinds: int) -> List[Fields]:
        return [command for command in self.commands if command.cmd in kinds]

    def content(self, command: Fields) -> bytes:
        return self.data[command.place:command.place + command.cmdsize]

    def word(self, place: int, width: int = 4) -> int:
        return int.from_bytes(self.data[place:place + width], "little")

    def shown(self, start: int, end: int) -> Optional[bytes]:
        """The bytes from an address up to another one of the same segment by the verifier, without zeros at the end."""
        segment = self.where(start)
        if segment is None or end > segment.vmaddr + segment.vmsize:
            return None
        first, last = (min(address - segment.vmaddr, segment.filesize) for address in (start, end))
        return stripped(self.data, segment.fileoff + first, segment.fileoff + last)

    def where(self, address: int) -> Optional[Fields]:
        """The segment of an address by the verifier."""
        return first(it for it in self.mapped if it.vmaddr <= address < it.vmaddr + it.vmsize)

    @cached_property
    def linked(self) -> Linked:
        return Linked(self.image)

    @cached_property
    def in_opcodes(self) -> Set[Optional[int]]:
        """The places of the segments in which the opcodes have fixups."""
        try:
            return {place(self.where(write.address)) for write in load_opcodes(self.image)}
        except Breach:
            return set()

    def place_of(self, address: int) -> Optional[int]:
        """The place of the byte of the slice at an address, by the verifier."""
        segment = self.where(address)
        offset = address - segment.vmaddr if segment else 0
        return segment.fileoff + offset if segment and offset < segment.filesize else None


class Question(NamedTuple):
    """A question of a file or a slice, all that it is asked about, and the readers that answer it. They are called
    with the file or the slice, and with what the question is about."""

    name: str
    abouts: Callable[[Any], Iterable[Tuple[Any, ...]]]
    readers: Tuple[Callable[..., object], ...]


class Disagreement(NamedTuple):
    """Different answers to a question, by the names of the readers that answer it."""

    question: str
    about: Tuple[Any, ...]
    answers: dict[str, object]


def first(items: Iterable[Any]) -> Any:
    return next(iter(items), None)


def last(items: Iterable[Any]) -> Any:
    return first(list(items)[::-1])


def place(item: Optional[Fields]) -> Optional[int]:
    """What an answer says of a segment, a section or a command: its place."""
    return None if item is None else item.place


def floor(number: int, page: int) -> int:
    return number // page * page


def ceiling(number: int, page: int) -> int:
    return -(-number // page) * page


def page_of(cputype: int) -> int:
    return SMALL_PAGE if cputype == CPU_TYPE_X86_64 else LARGE_PAGE


def stripped(content: bytes, start: int, end: int) -> bytes:
    """Some bytes without zeros at their end, so that a gigabyte of zero-fill has no bytes here."""
    return content[start:end].rstrip(b"\0")


def name_of(characters: bytes) -> bytes:
    return characters.split(b"\0")[0]


def padded(name: bytes) -> bytes:
    return name.ljust(NAME_SIZE, b"\0")


def once(_: object) -> Iterator[Tuple[()]]:
    """What a question is about that is about nothing further."""
    yield ()


# Is it a universal file or a Java class? Both begin with the same bytes.


def may_be_java(file: oracle.File) -> Iterator[Tuple[()]]:
    if file.data[:4] == FAT_MAGIC and len(file.data) >= FAT_HEADER_SIZE:
        yield ()


def kind_by_verifier(_: oracle.File) -> str:
    return UNIVERSAL


def kind_by_count(file: oracle.File) -> str:
    """As file(1): a Java class has another number in place of the count, which is greater."""
    return JAVA_CLASS if int.from_bytes(file.data[4:8], "big") > MOST_ENTRIES else UNIVERSAL


def kind_by_version(file: oracle.File) -> str:
    """As LLVM: the last byte of the count is the version of a Java class."""
    return JAVA_CLASS if file.data[7] >= LEAST_JAVA_VERSION else UNIVERSAL


# Which slices are there for a processor?


def processors(file: oracle.File) -> Iterator[Tuple[int]]:
    """Those of the verifier, and those that an entry or a header says."""
    found = {it.cputype for it in file.entries} | {cputype_of(part_of(file, it)) for it in file.entries} - {None}
    return ((cputype,) for cputype in sorted(found | set(PROCESSORS if file.is_universal else ())))


def part_of(file: oracle.File, entry: Fields) -> bytes:
    return file.data[entry.offset:entry.offset + entry.size]


def cputype_of(content: bytes) -> Optional[int]:
    """The processor that a header says, in the order of its magic number."""
    order, _ = MAGICS.get(content[:4], (None, None))
    return None if order is None else int.from_bytes(content[4:8], order)


def parts(entries: Iterable[Fields]) -> Tuple[Tuple[int, int], ...]:
    return tuple((entry.offset, entry.size) for entry in entries)


def slices_by_entry(file: oracle.File, cputype: int) -> object:
    """As xnu."""
    return parts(it for it in file.entries if it.cputype == cputype)


def slices_by_header(file: oracle.File, cputype: int) -> object:
    """As LLVM and Go."""
    return parts(it for it in file.entries if cputype_of(part_of(file, it)) == cputype)


def slices_by_width(file: oracle.File, cputype: int) -> object:
    """Those whose magic number has as many bits as the processor of the entry."""
    is_wide = bool(cputype & CPU_ARCH_ABI64)
    return parts(it for it in file.entries
                 if it.cputype == cputype and MAGICS.get(part_of(file, it)[:4], ("", None))[1] == is_wide)


def slices_by_verifier(file: oracle.File, cputype: int) -> object:
    """The 64-bit slices, of the two processors alone."""
    found = parts(image.entry for image in file.slices if image.is_64_bit and image.entry.cputype == cputype)
    return found if cputype in PROCESSORS else None


def slices_by_lipo(file: oracle.File, cputype: int) -> object:
    """As lipo, for which an entry for arm64 just past the table is one more."""
    entries = list(file.entries)
    if file.table_end + oracle.SIZES[file.entry_structure] <= len(file.data):
        hidden = oracle.read(file.data, file.table_end, file.entry_structure, "big")
        entries += [hidden] if hidden.cputype == CPU_TYPE_ARM64 else []
    return parts(it for it in entries if it.cputype == cputype)


# Which subtype does a slice have?


def slices_with_entries(file: oracle.File) -> Iterator[Tuple[oracle.Image]]:
    return ((image,) for image in file.slices if image.is_64_bit and image.entry)


def subtype_by_entry(_: oracle.File, image: oracle.Image) -> int:
    return image.entry.cpusubtype


def subtype_by_header(_: oracle.File, image: oracle.Image) -> int:
    return image.header.cpusubtype


# Which slice has a byte of the file?


def pages_of(entry: Fields) -> range:
    """The bytes of the file in the pages of a slice."""
    page = page_of(entry.cputype)
    return range(floor(entry.offset, page), ceiling(entry.offset + entry.size, page))


def edges_of_slices(file: oracle.File) -> Iterator[Tuple[int]]:
    """The first and the last byte of each slice and of its pages. Between them the answers are the same."""
    edges = {edge for it in file.entries for span in (range(it.offset, it.offset + it.size), pages_of(it)) if span
             for edge in (span.start, span.stop - 1)}
    return ((edge,) for edge in sorted(edges) if edge < len(file.data))


def slice_by_entry(file: oracle.File, byte: int) -> Optional[int]:
    """The verifier's."""
    return place(first(it for it in file.entries if it.offset <= byte < it.offset + it.size))


def mapped_entries(file: oracle.File, byte: int) -> Iterator[Fields]:
    return (image.entry for image in file.slices if image.is_64_bit and byte in pages_of(image.entry))


def first_slice_by_pages(file: oracle.File, byte: int) -> Optional[int]:
    """As a kernel, which maps whole pages."""
    return place(first(mapped_entries(file, byte)))


def last_slice_by_pages(file: oracle.File, byte: int) -> Optional[int]:
    return place(last(mapped_entries(file, byte)))


# Which bytes and which protection does the memory have?


def pages_of_segment(image: Slice, segment: Fields) -> range:
    return range(floor(segment.vmaddr, image.page), ceiling(segment.vmaddr + segment.vmsize, image.page))


def stretches(image: Slice) -> Iterator[Tuple[int, int]]:
    """The memory in stretches, in each of which one segment, and one part of it, has all bytes by each reader."""
    edges = set()
    for it in image.mapped:
        pages = pages_of_segment(image, it)
        edges |= {it.vmaddr, it.vmaddr + it.filesize, it.vmaddr + it.vmsize, pages.start, pages.stop,
                  min(pages.start + ceiling(it.filesize, image.page), pages.stop)}
    ordered = sorted(edges)
    return zip(ordered, ordered[1:])


def memory_by_where(image: Slice, start: int, end: int) -> Optional[bytes]:
    return image.shown(start, end)


def mappers_of(image: Slice, address: int) -> List[Fields]:
    """The segments that have the address in their pages."""
    return [it for it in image.mapped if address in pages_of_segment(image, it)]


def memory_with_zeros(image: Slice, start: int, end: int) -> Optional[bytes]:
    """As the verifier, with zeros in the rest of the pages."""
    return image.shown(start, end) if image.where(start) or not mappers_of(image, start) else b""


def memory_of_pages(image: Slice, segment: Optional[Fields], start: int, end: int) -> Optional[bytes]:
    """As a kernel, which maps whole pages of the file, and decrypts some."""
    if segment is None:
        return None
    offset = start - pages_of_segment(image, segment).start
    if offset >= ceiling(segment.filesize, image.page):
        return b""
    begin = floor(image.image.start + segment.fileoff, image.page) + offset
    return stripped(image.decrypted, begin, begin + end - start)


def memory_by_first_pages(image: Slice, start: int, end: int) -> Optional[bytes]:
    return memory_of_pages(image, first(mappers_of(image, start)), start, end)


def memory_by_last_pages(image: Slice, start: int, end: int) -> Optional[bytes]:
    return memory_of_pages(image, last(mappers_of(image, start)), start, end)


def protection_by_where(image: Slice, start: int, _: int) -> Optional[int]:
    segment = image.where(start)
    return segment and segment.initprot


def protection_by_pages(image: Slice, start: int, _: int) -> Optional[int]:
    """As a kernel, by which nothing has more than its greatest protection."""
    segment = last(mappers_of(image, start))
    return segment and segment.initprot & segment.maxprot & 7


# Where is the base?


def with_start(image: Slice) -> List[Fields]:
    return [it for it in image.mapped if it.fileoff == 0 and it.filesize > 0]


def base_by_verifier(image: Slice) -> Optional[int]:
    return image.image.base


def base_by_last(image: Slice) -> Optional[int]:
    """As xnu."""
    segment = last(with_start(image))
    return segment and segment.vmaddr


def base_by_first_text(image: Slice) -> Optional[int]:
    """As dyld."""
    segment = first(segments_of(image, b"__TEXT"))
    return segment and segment.vmaddr


def base_by_last_text(image: Slice) -> Optional[int]:
    """As LIEF."""
    segment = last(segments_of(image, b"__TEXT"))
    return segment and segment.vmaddr


def base_by_headers(image: Slice) -> Optional[int]:
    """The address of the header in the segment that has the header and the commands."""
    segment = first(it for it in with_start(image) if it.filesize >= image.image.commands_end)
    return segment and segment.vmaddr


# Which name has a segment or a section? In which segment is a section?


def names(image: Slice) -> Iterator[Tuple[bytes]]:
    return ((characters,) for it in image.segments for characters in (it.segname, *section_names(it)))


def section_names(segment: Fields) -> Iterator[bytes]:
    return (characters for it in segment.sections for characters in (it.sectname, it.segname))


def name_to_first_zero(_: Slice, characters: bytes) -> bytes:
    return name_of(characters)


def name_without_zeros(_: Slice, characters: bytes) -> bytes:
    """As macholib, which takes the zeros from the end."""
    return characters.rstrip(b"\0")


def all_sections(image: Slice) -> Iterator[Tuple[Fields]]:
    return ((section,) for section in image.sections)


def segname_of_section(_: Slice, section: Fields) -> bytes:
    return name_of(section.segname)


def segname_of_segment(_: Slice, section: Fields) -> bytes:
    return name_of(section.segment.segname)


# Which segment has a name?


def names_of_segments(image: Slice) -> Iterator[Tuple[bytes]]:
    return ((name,) for name in {name_of(it.segname) for it in image.segments})


def segments_of(image: Slice, name: bytes) -> List[Fields]:
    return [it for it in image.segments if name_of(it.segname) == name]


def first_segment(image: Slice, name: bytes) -> Optional[int]:
    return place(first(segments_of(image, name)))


def last_segment(image: Slice, name: bytes) -> Optional[int]:
    return place(last(segments_of(image, name)))


def segment_by_bytes(image: Slice, name: bytes) -> Optional[int]:
    return place(first(it for it in image.segments if it.segname == padded(name)))


# Which section has these names?


def names_of_sections(image: Slice) -> Iterator[Tuple[bytes, bytes]]:
    """The names of sections, with those of their segments as the section has them and as the segment does."""
    return iter({(name_of(segname), name_of(it.sectname))
                 for it in image.sections for segname in (it.segname, it.segment.segname)})


def sections_by_names(image: Slice, segname: bytes, sectname: bytes) -> List[Fields]:
    return [it for it in image.sections if (name_of(it.segname), name_of(it.sectname)) == (segname, sectname)]


def first_section_by_names(image: Slice, segname: bytes, sectname: bytes) -> Optional[int]:
    """As LLVM and Go."""
    return place(first(sections_by_names(image, segname, sectname)))


def last_section_by_names(image: Slice, segname: bytes, sectname: bytes) -> Optional[int]:
    return place(last(sections_by_names(image, segname, sectname)))


def section_by_bytes(image: Slice, segname: bytes, sectname: bytes) -> Optional[int]:
    wanted = padded(segname), padded(sectname)
    return place(first(it for it in image.sections if (it.segname, it.sectname) == wanted))


def sections_in_segment(image: Slice, segname: bytes, sectname: bytes) -> List[Fields]:
    return [it for it in image.sections if (name_of(it.segment.segname), name_of(it.sectname)) == (segname, sectname)]


def first_section_in_segment(image: Slice, segname: bytes, sectname: bytes) -> Optional[int]:
    """As getsectbyname."""
    return place(first(sections_in_segment(image, segname, sectname)))


def last_section_in_segment(image: Slice, segname: bytes, sectname: bytes) -> Optional[int]:
    return place(last(sections_in_segment(image, segname, sectname)))


# Which section is at an address of a mapped segment?


def edges_of_sections(image: Slice) -> Iterator[Tuple[int]]:
    """The first and the last address of each section. Where two share an address, they share one of these."""
    edges = {edge for it in image.sections if it.size > 0 for edge in (it.addr, it.addr + it.size - 1)}
    return ((edge,) for edge in sorted(edges) if image.where(edge))


def sections_at(image: Slice, address: int) -> List[Fields]:
    return [it for it in image.sections if it.addr <= address < it.addr + it.size]


def is_debug(section: Fields) -> bool:
    return section.segment.vmsize == 0 and section.flags & S_ATTR_DEBUG != 0


def first_section_at(image: Slice, address: int) -> Optional[int]:
    return place(first(it for it in sections_at(image, address) if not is_debug(it)))


def last_section_at(image: Slice, address: int) -> Optional[int]:
    return place(last(it for it in sections_at(image, address) if not is_debug(it)))


def mapped_section_at(image: Slice, address: int) -> Optional[int]:
    return place(first(it for it in sections_at(image, address) if it.segment.vmsize > 0))


# Which bytes has a section?


def bytes_by_offset(image: Slice, section: Fields) -> Optional[bytes]:
    if section.flags & SECTION_TYPE in ZERO_FILL:
        return b""
    end = section.offset + section.size
    return stripped(image.data, section.offset, end) if end <= len(image.data) else None


def bytes_by_addresses(image: Slice, section: Fields) -> Optional[bytes]:
    return None if is_debug(section) else image.shown(section.addr, section.addr + section.size)


# Which library has an ordinal?


def ordinals(image: Slice) -> Iterator[Tuple[int]]:
    return ((number + 1,) for number in range(len(image.of_kinds(*LOADS))))


def numbered(items: List[Fields], number: int) -> Optional[Fields]:
    return items[number] if number < len(items) else None


def library_of_all(image: Slice, ordinal: int) -> Optional[int]:
    """As the verifier and LLVM."""
    return place(numbered(image.of_kinds(*LOADS), ordinal - 1))


def library_of_eager(image: Slice, ordinal: int) -> Optional[int]:
    """As dyld, which does not load lazy libraries."""
    eager = [cmd for cmd in LOADS if cmd != LC_LAZY_LOAD_DYLIB]
    return place(numbered(image.of_kinds(*eager), ordinal - 1))


# Where does the segment begin that has a number in opcodes and chains, which can be written?


def numbers_of_segments(image: Slice) -> Iterator[Tuple[int]]:
    return ((number,) for number, segment in enumerate(image.segments)
            if segment.vmsize > 0 and segment.initprot & VM_PROT_WRITE)


def segment_of_all(image: Slice, number: int) -> Optional[int]:
    """As the verifier, and as LLVM in chains."""
    return image.segments[number].vmaddr


def segment_of_mapped(image: Slice, number: int) -> Optional[int]:
    """As old versions of dyld."""
    segment = numbered(image.mapped, number)
    return segment and segment.vmaddr


def runs_of_sections(image: Slice) -> List[Optional[int]]:
    """Where each run of sections with one segname begins. A __PAGEZERO is the first run, and an empty segname none."""
    starts: List[Optional[int]] = [None] if segments_of(image, b"__PAGEZERO") else []
    before = b""
    for section in image.sections:
        if name_of(section.segname) != before:
            starts.append(section.addr)
        before = name_of(section.segname)
    return starts


def segment_of_runs(image: Slice, number: int) -> Optional[int]:
    """As LLVM 14, 19 and 22 in opcodes, of a segment that has a fixup."""
    runs = runs_of_sections(image)
    return runs[number] if number < len(runs) and image.segments[number].place in image.in_opcodes else None


# What is a command?


def all_commands(image: Slice) -> Iterator[Tuple[Fields]]:
    return ((command,) for command in image.commands)


def command_by_number(_: Slice, command: Fields) -> object:
    """By the exact number. A number that is not known says nothing."""
    return command.cmd & ~LC_REQ_DYLD if command.cmd in COMMANDS else "nothing"


def command_by_lower_bits(_: Slice, command: Fields) -> object:
    known = {cmd & ~LC_REQ_DYLD for cmd in COMMANDS}
    return command.cmd & ~LC_REQ_DYLD if command.cmd & ~LC_REQ_DYLD in known else "nothing"


def command_by_newer_reader(_: Slice, command: Fields) -> object:
    """A newer reader knows all numbers."""
    return command.cmd & ~LC_REQ_DYLD


# What does the dylinker, the signature, .. say?


def kinds_taken_once(_: Slice) -> Iterator[Tuple[int]]:
    return ((cmd,) for cmd in TAKEN_ONCE)


def first_of_kind(image: Slice, cmd: int) -> Optional[bytes]:
    command = first(image.of_kinds(cmd))
    return command and image.content(command)


def last_of_kind(image: Slice, cmd: int) -> Optional[bytes]:
    command = last(image.of_kinds(cmd))
    return command and image.content(command)


# What are the least version and the SDK of a platform?


def versions(image: Slice) -> Iterator[Tuple[int, Tuple[int, int]]]:
    """The platforms, each with both versions of a command."""
    for it in image.of_kinds(LC_BUILD_VERSION, *PLATFORMS):
        platform = PLATFORMS.get(it.cmd)
        start = it.place + (12 if platform is None else 8)
        yield image.word(it.place + 8) if platform is None else platform, (image.word(start), image.word(start + 4))


def platforms(image: Slice) -> Iterator[Tuple[int]]:
    return ((platform,) for platform in {platform for platform, _ in versions(image)})


def first_versions(image: Slice, wanted: int) -> object:
    return first(numbers for platform, numbers in versions(image) if platform == wanted)


def last_versions(image: Slice, wanted: int) -> object:
    return last(numbers for platform, numbers in versions(image) if platform == wanted)


# At which byte of the slice does the program begin? Is it code?


def has_entry(image: Slice) -> Iterator[Tuple[()]]:
    if image.of_kinds(*ENTRIES):
        yield ()


def start_of(image: Slice, command: Fields) -> Optional[int]:
    """The address at which a command says that the program begins."""
    if command.cmd == LC_MAIN:
        base = image.image.base
        return None if base is None else base + image.word(command.place + 8, 8)
    try:
        return start_of_thread(image.image.header.cputype, Part(image.content(command), "thread", "little"))
    except Breach:
        return None


def begin(image: Slice, command: Fields) -> Optional[int]:
    address = start_of(image, command)
    return None if address is None else image.place_of(address)


def begin_by_first(image: Slice) -> Optional[int]:
    return begin(image, first(image.of_kinds(*ENTRIES)))


def begin_by_last(image: Slice) -> Optional[int]:
    return begin(image, last(image.of_kinds(*ENTRIES)))


def begin_of_program(image: Slice) -> object:
    """None is looked for in a library."""
    return begin_by_first(image) if image.image.header.filetype == MH_EXECUTE else "nowhere"


def begin_by_offset(image: Slice) -> Optional[int]:
    """The offset of LC_MAIN as one in the file."""
    main = first(image.of_kinds(LC_MAIN))
    return main and image.word(main.place + 8, 8)


def entry_is_code(image: Slice) -> Optional[str]:
    """As a kernel, which runs it."""
    return None if begin_by_first(image) is None else "code"


def entry_by_data_in_code(image: Slice) -> Optional[str]:
    """As a disassembler, which shows data in code as data."""
    start, table = begin_by_first(image), first(image.listed(LC_DATA_IN_CODE))
    if start is None or table is None:
        return entry_is_code(image)
    for entry in range(table.dataoff, table.dataoff + floor(table.datasize, DATA_ENTRY_SIZE), DATA_ENTRY_SIZE):
        offset = image.word(entry)
        if offset <= start < offset + image.word(entry + 4, 2):
            return "data"
    return "code"


QUESTIONS_OF_A_FILE = (
    Question("kind of the file", may_be_java, (kind_by_verifier, kind_by_count, kind_by_version)),
    Question("slices of a processor", processors,
             (slices_by_verifier, slices_by_entry, slices_by_header, slices_by_width, slices_by_lipo)),
    Question("subtype of a slice", slices_with_entries, (subtype_by_entry, subtype_by_header)),
    Question("slice of a byte", edges_of_slices, (slice_by_entry, first_slice_by_pages, last_slice_by_pages)),
)
QUESTIONS_OF_A_SLICE = (
    Question("bytes in memory", stretches,
             (memory_by_where, memory_with_zeros, memory_by_first_pages, memory_by_last_pages)),
    Question("protection of memory", stretches, (protection_by_where, protection_by_pages)),
    Question("base", once,
             (base_by_verifier, base_by_last, base_by_first_text, base_by_last_text, base_by_headers)),
    Question("name", names, (name_to_first_zero, name_without_zeros)),
    Question("segment of a section", all_sections, (segname_of_section, segname_of_segment)),
    Question("segment of a name", names_of_segments, (first_segment, last_segment, segment_by_bytes)),
    Question("section of two names", names_of_sections,
             (first_section_by_names, last_section_by_names, section_by_bytes, first_section_in_segment,
              last_section_in_segment)),
    Question("section at an address", edges_of_sections, (first_section_at, last_section_at, mapped_section_at)),
    Question("bytes of a section", all_sections, (bytes_by_offset, bytes_by_addresses)),
    Question("library of an ordinal", ordinals, (library_of_all, library_of_eager)),
    Question("segment of a number", numbers_of_segments, (segment_of_all, segment_of_mapped, segment_of_runs)),
    Question("meaning of a command", all_commands,
             (command_by_number, command_by_lower_bits, command_by_newer_reader)),
    Question("command of a kind", kinds_taken_once, (first_of_kind, last_of_kind)),
    Question("versions of a platform", platforms, (first_versions, last_versions)),
    Question("start of the program", has_entry,
             (begin_by_first, begin_by_last, begin_of_program, begin_by_offset)),
    Question("code at the start", has_entry, (entry_is_code, entry_by_data_in_code)),
    Question("export of a name", linked.names_of_exports,
             (linked.export_by_look_up, linked.first_listed_export, linked.last_listed_export)),
    Question("address of an exported name", linked.names_of_both,
             (linked.address_by_trie, linked.address_by_first_symbol, linked.address_by_last_symbol)),
    Question("meaning of a defined name", linked.names_of_definitions,
             (linked.first_definition, linked.last_definition)),
    Question("kind of a symbol", linked.all_symbols,
             (linked.kind_by_type, linked.kind_by_first_group, linked.kind_by_last_group)),
    Question("name of a symbol without an offset", linked.symbols_without_offset,
             (linked.no_name, linked.name_of_first_string)),
    Question("name of a pointer", linked.slots,
             (linked.first_bound_name, linked.last_bound_name, linked.name_by_indirect_entry)),
    Question("addend of a pointer", linked.slots, (linked.first_addend, linked.last_addend)),
    Question("library of a pointer", linked.slots, (linked.first_library, linked.last_library)),
    Question("pointer with a byte", linked.bytes_of_slots, (linked.first_slot, linked.last_slot)),
    Question("library of an undefined symbol", linked.undefined_symbols,
             (linked.library_by_symbol, linked.library_by_first_bind, linked.library_by_last_bind)),
    Question("blob of a slot", linked.slots_of_blobs,
             (linked.first_blob_of_slot, linked.last_blob_of_slot, linked.first_blob_of_both, linked.last_blob_of_both,
              linked.first_blob_of_magic, linked.last_blob_of_magic)),
    Question("identity of the program", linked.facts,
             (linked.said_by_slot_0, linked.said_by_first, linked.said_by_last, linked.said_by_best)),
    Question("directory with the best hashes", linked.has_signature, (linked.first_best, linked.last_best)),
    Question("limit of a directory", linked.all_directories, (linked.limit_of_64_bits, linked.limit_of_32_bits)),
    Question("pages of a directory", linked.all_directories, (linked.pages_without_bound, linked.pages_of_a_byte)),
    Question("identifier of a directory", linked.all_directories,
             (linked.identifier_at_any, linked.identifier_past_0, linked.identifier_past_fields)),
    Question("team of a directory", linked.all_directories, (linked.team_past_0, linked.team_past_fields)),
    Question("parts of a directory", linked.all_directories, (linked.parts_in_blob, linked.parts_in_signature)),
)


def asked(questions: Iterable[Question], of: object) -> Iterator[Disagreement]:
    for question in questions:
        for about in question.abouts(of):
            answers = {reader.__name__: reader(of, *about) for reader in question.readers}
            given = {name: answer for name, answer in answers.items() if answer is not None}
            if len(set(given.values())) > 1:
                yield Disagreement(question.name, about, given)


def disagreements(data: bytes) -> Iterator[Disagreement]:
    """The questions of a file, and of its 64-bit slices, to which two readers give different answers."""
    file = oracle.File(data)
    yield from asked(QUESTIONS_OF_A_FILE, file)
    for image in file.slices:
        if image.is_64_bit:
            yield from asked(QUESTIONS_OF_A_SLICE, Slice(file, image))
