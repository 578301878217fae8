"""What a refused file is told to have wrong, by each rule: in a sentence, with the numbers that the rule compares."""

from __future__ import annotations

import re
from typing import Callable, Collection, Dict, NamedTuple, Optional

from . import _names
from ._bind_stories import bind_once, import_library, indirect_name
from ._case import SLICES, Case
from ._command_stories import command_content, thread
from ._explanation import Explanation, explain
from ._files import Refused
from ._names import count_text, protection_text
from ._parts import FAT_ENTRIES, arch_name, slices_of
from ._reader_stories import (
    bytes_encrypted, command_known, command_once, directory_agree, entry_one, export_edge, export_symbol, fat_count,
    fat_header, fat_page, number_shift, section_alone, section_name, segment_name, segment_page, segment_protection,
    signature_slot, symbol_kind, symbol_total)
from ._reading import Contents
from ._signature_stories import (
    directory_repeated, signature_blob, signature_directory, signature_hash, signature_missing, signature_slack,
    signature_whole)
from ._structures import number_in
from .constants import (
    EXPORT_SYMBOL_FLAGS_KIND_MASK, EXPORT_SYMBOL_FLAGS_REEXPORT, EXPORT_SYMBOL_FLAGS_STUB_AND_RESOLVER, S_SYMBOL_STUBS,
    SECTION_TYPE)
from ._teller import MOST_STEPS, Story, Teller

LC_ID_DYLIB = "LC_ID_DYLIB"
READ, WRITE, EXECUTE = 1, 2, 4
SG_PROTECTED_VERSION_1 = 8
POINTER = 1
# The least ordinal of a library, BIND_SPECIAL_DYLIB_WEAK_LOOKUP.
LEAST_ORDINAL = -3
# What is known of chained fixups: the formats of imports, the bytes of each, and the formats and pages of pointers.
IMPORT_SIZES = {1: 4, 2: 8, 3: 16}
POINTER_FORMATS = (1, 2, 6, 9, 12)
PAGE_SIZES = (0x1000, 0x4000)
STARTS_SIZE, PAGE_START_SIZE, ENTRY_SIZE, POINTER_SIZE = 22, 2, 4, 8
# The bit of r_extern, in the last byte of a relocation.
R_EXTERN = 8
INIT_OFFSET_SIZE = 4
# The tables of LC_DYSYMTAB. One is not obsolete.
OBSOLETE_TABLES = ("contents", "modules", "references", "", "external relocations", "local relocations")
# A number 0: at the start, or after the last byte of another number.
ZERO = re.compile(rb"(?:\A|(?<=[\0-\x7f]))\x80*\0")
# The kind of an export that has no name.
UNKNOWN_KIND = 3
# The kinds of data in code, and the last address.
DICE_KINDS = (1, 2, 3, 4, 5)
MOST = (1 << 64) - 1


def _arch(number: int) -> str:
    return arch_name(number >> 32, number & 0xFFFF_FFFF)


def _are(number: int, word: str) -> str:
    return f"{'is' if number == 1 else 'are'} {count_text(number, word)}"


def _filetype(number: int) -> str:
    name = _names.FILETYPES.get(number)
    return f"{number}{f' ({name})' if name else ''}"


# Rules of the file


def _magic(it: Teller) -> Story:
    size = len(it.case.data)
    if size < 4:
        return it.story(f"the file has {count_text(size, 'byte')}, and a magic number has 4.")
    return it.story(f"the file begins with {it.case.data[:4].hex(' ')}, which is none of the magic numbers that are "
                    "judged.", "magic number", "MH_MAGIC_64")


def _fat_truncated(it: Teller) -> Story:
    if it.first_part.kind == "fat-header":
        return it.story(f"the file has {it.limit} bytes, and a fat_header has 8.", "size of a fat_header",
                        "length of the file")
    return it.story(f"the universal table, with nfat_arch {it.case.number('nfat_arch')}, ends at {it.value:#x}, past "
                    f"the end of the file, {it.limit:#x}.", "end of the table", "length of the file")


def _fat_slice_outside(it: Teller) -> Story:
    return it.story(f"{it.first} ends at {it.value:#x}, past the end of the file, {it.limit:#x}.", "offset + size",
                    "length of the file")


def _fat_slice_in_table(it: Teller) -> Story:
    return it.story(f"{it.first} begins at {it.value:#x}, in the universal table, which ends at {it.limit:#x}.",
                    "offset", "end of the table")


def _fat_align(it: Teller) -> Story:
    align = it.case.number("align")
    return it.story(f"{it.first} begins at {it.value:#x}, which is no multiple of 2^{align}.", "offset",
                    "2^align" if it.limit else "")


def _fat_duplicate(it: Teller) -> Story:
    return it.story(f"{it.first} and {it.second} have the same architecture.")


def _fat_slice_magic(it: Teller) -> Story:
    start = bytes(it.case.data[it.at_part.start:it.at_part.start + it.at_part.size])
    if len(start) < 4:
        return it.story(f"slice {it.first_part.index} has {count_text(len(start), 'byte')}, and a magic number has 4.")
    return it.story(f"slice {it.first_part.index} begins with {start.hex(' ')}, which is no magic number of an image.",
                    "magic number", "MH_MAGIC_64")


def _fat_empty(it: Teller) -> Story:
    slices = count_text(it.case.number("nfat_arch"), "slice")
    return it.story(f"the file has {slices}, and no 64-bit little-endian image.",
                    "64-bit slices", "least number of them")


# Rules of the header and the load commands


def _header_truncated(it: Teller) -> Story:
    return it.story(f"{it.second} has {it.limit} bytes, and a mach_header_64 has 32.", "size of a mach_header_64",
                    f"length of {it.whole}")


def _arch_mismatch(it: Teller) -> Story:
    return it.story(f"the header is for {_arch(it.value)}, and entry {it.second_part.index} of the universal table "
                    f"for {_arch(it.limit)}.")


def _file_type(it: Teller) -> Story:
    judged = ", ".join(map(_filetype, _names.JUDGED_FILETYPES))
    return it.story(f"the filetype is {_filetype(it.value)}. Those that are judged are {judged}.", "filetype")


def _command_walk(it: Teller) -> Story:
    index, start = it.first_part.index, it.first_part.start - it.case.slice.start
    if not it.second:
        why = "below 8" if it.value < 8 else "no multiple of 8"
        return it.story(f"command {index} has a cmdsize of {it.value}, which is {why}.", "cmdsize", "least cmdsize")
    if start + 8 > it.limit:
        return it.story(f"there is no room for command {index}, which would begin at {start:#x}: the load commands end "
                        f"at {it.limit:#x}.", "end of its first 8 bytes", "32 + sizeofcmds")
    return it.story(f"command {index} ends at {it.value:#x}, past the end of the load commands, {it.limit:#x}.",
                    "end of the command", "32 + sizeofcmds")


def _command_short(it: Teller) -> Story:
    return it.story(f"{it.first} has a cmdsize of {it.value}, and needs {it.limit} bytes.", "cmdsize",
                    "least cmdsize")


def _command_repeated(it: Teller) -> Story:
    return it.story(f"{it.first} comes after {it.second}, and an image has at most one of this kind.", "cmd")


def _dylib_id(it: Teller) -> Story:
    filetype = _filetype(it.case.number("filetype"))
    if it.second:
        return it.story(f"the image has an {LC_ID_DYLIB}, {it.second}, and none of filetype {filetype} has one.")
    return it.story(f"the image has no {LC_ID_DYLIB}, and each of filetype {filetype} has one.")


def _name(it: Teller) -> Story:
    if not it.second:
        return it.story(f"the name of {it.at} begins at {it.value}, in its structure, which has {it.limit} bytes.",
                        "name offset", "least name offset")
    if it.value >= it.limit:
        return it.story(f"the name of {it.at} begins at {it.value}, and the command has {it.limit} bytes.",
                        "name offset", "cmdsize")
    return it.story(f"the name of {it.at} does not end: no byte from {it.first_part.start:#x} up to the end of the "
                    "command is 0.", "name offset", "cmdsize")


# Rules of segments and sections


def _segment_address(it: Teller) -> Story:
    return it.story(f"{it.first} has {it.value:#x} addresses from {it.first_part.start:#x} on, and they go past 2^64.",
                    "vmsize", "2^64 - vmaddr")


def _segment_size(it: Teller) -> Story:
    return it.story(f"{it.first} has {it.value:#x} bytes in the file, and {it.limit:#x} addresses for them.",
                    "filesize", "vmsize")


def _section_address(it: Teller) -> Story:
    if it.value < it.limit:
        return it.story(f"{it.first} begins at address {it.value:#x}, and {it.second}, which has it, at {it.limit:#x}.",
                        "addr", "vmaddr")
    return it.story(f"the last address of {it.first} is {it.value:#x}, and that of {it.second}, which has it, is "
                    f"{it.limit:#x}.", "last address of the section", "last address of the segment")


def _section_file(it: Teller) -> Story:
    if it.second_part.kind == "slice":
        return it.goes_past(f"the bytes of {it.first}", "end", "offset + size")
    if it.value == it.case.number("offset"):
        return it.story(f"the bytes of {it.first} begin at {it.value:#x}. By its address they should begin at "
                        f"{it.limit:#x}.", "offset", "fileoff + addr - vmaddr")
    return it.story(f"the bytes of {it.first} end at {it.value:#x}, past those of {it.second}, which end at "
                    f"{it.limit:#x}.", "offset + size", "fileoff + filesize")


# Rules of tables and symbols, and of the entry


def _symbol_group(it: Teller) -> Story:
    return it.story(f"{it.first} goes up to symbol {it.value}, and there {_are(it.limit, 'symbol')}.",
                    "first index + count", "number of symbols")


def _symbol_name(it: Teller) -> Story:
    return _ends_in_strings(it, f"the name of {it.at}", "n_strx")


def _ends_in_strings(it: Teller, name: str, field: str) -> Story:
    """A name begins past the end of the strings, or does not end in them."""
    if it.value >= it.limit:
        return it.story(f"{name} begins at {it.value:#x} of the strings, which have {it.limit:#x} bytes.", field, "strsize")
    return it.story(f"{name} does not end: no byte from {it.first_part.start:#x} up to the end of the strings is 0.", field,
                    "strsize")


def _symbol_section(it: Teller) -> Story:
    return it.story(f"{it.at} is in section {it.value}, and sections are numbered from 1 up to {it.limit}."
                    if it.limit else f"{it.at} is in section {it.value}, and there is no section.", "n_sect",
                    "number of sections")


def _indirect_index(it: Teller) -> Story:
    return it.story(f"{it.at} is for symbol {it.value}, and there {_are(it.limit, 'symbol')}.", "index",
                    "number of symbols")


def _entry(it: Teller) -> Story:
    if not it.first:
        return it.story("no mapped segment has the start of the file, from whose address the entry counts.", "entryoff")
    if not it.second:
        return it.story(f"the entry is at address {it.value:#x}, which is in no segment.", "entry address")
    if it.value >= it.limit:
        return it.story(f"the entry is at address {it.value:#x} of {it.second}, whose bytes in the file end at "
                        f"{it.limit:#x}.", "entry address", "vmaddr + filesize")
    return it.story(f"the entry is at address {it.value:#x} of {it.second}, which is not executable: "
                    f"{protection_text(it.segment_number('initprot'))}.", "entry address")


# The strict profile


def _commands_end(it: Teller) -> Story:
    what = f"the last one, {it.first}, ends at {it.value:#x}" if it.first else "there is none"
    return it.story(f"the load commands end at {it.limit:#x}, and {what}.", "end of the last command",
                    "32 + sizeofcmds")


def _header_segment(it: Teller) -> Story:
    if not it.second:
        return it.story(f"no mapped segment has the headers, which end at {it.value:#x}.", "32 + sizeofcmds")
    return it.story(f"{it.second} has the first {it.limit:#x} bytes, and the headers have {it.value:#x}.",
                    "32 + sizeofcmds", "filesize")


def _element_overlap(it: Teller) -> Story:
    if it.second_part.kind == "slice":
        return it.goes_past(f"the range of {it.first}", "ends", "end of the range")
    return it.shares()


def _encrypted_range(it: Teller) -> Story:
    if it.second_part.kind == "headers":
        return it.story(f"the encrypted range begins at {it.value:#x}, in the headers, which end at {it.limit:#x}.",
                        "cryptoff", "32 + sizeofcmds")
    if not it.second:
        return it.story(f"the encrypted range begins at {it.value:#x}, which is in no segment.", "cryptoff")
    return it.story(f"the encrypted range ends at {it.value:#x}, past the bytes of {it.second}, which end at "
                    f"{it.limit:#x}.", "cryptoff + cryptsize", "fileoff + filesize")


# The linked profile


def _table_home(it: Teller) -> Story:
    if it.second_part.kind == "table":
        return it.shares()
    if not it.second:
        return it.story(f"there is no segment __LINKEDIT, which {it.first} should lie in.", "end of the table")
    flags, initprot = it.segment_number("flags"), it.segment_number("initprot")
    is_inside = it.second_part.start <= it.first_part.start and it.first_part.end <= it.second_part.end
    faults = [fault for fault, is_so in (
        ("does not have all their bytes", not is_inside), ("is not mapped", not it.segment_number("vmsize")),
        ("cannot be read", not initprot & READ), ("can be written", initprot & WRITE),
        ("is encrypted", flags & SG_PROTECTED_VERSION_1)) if is_so]
    limit = "fileoff + filesize" if it.value > it.limit else ""
    return it.story(f"the bytes of {it.first} should lie in {it.second}, which {' and '.join(faults)}.",
                    "end of the table", limit)


def _header_home(it: Teller) -> Story:
    if not it.second:
        return it.story("no segment is named __TEXT, from which a loader takes the slide.")
    if all((it.segment_number("vmsize"), it.segment_number("filesize"), not it.segment_number("fileoff"))):
        how = "can be written" if it.value & WRITE else "cannot be read"
        return it.story(f"{it.second} has the headers, which a loader reads, and {how}.", "initprot")
    return it.story(f"a loader takes the slide from {it.second}, which is at {it.value:#x}, and the headers are at "
                    f"{it.limit:#x}.", "vmaddr", "address of the headers")


def _opcode(it: Teller) -> Story:
    """An opcode that is not known, or is broken."""
    byte, numbers = it.value, ("byte", "greatest opcode")
    if byte > it.limit:
        return it.story(f"no opcode has the byte {byte:02x}.", *numbers)
    if "SET_TYPE_IMM" in it.at and byte & 0xF != POINTER:
        return it.story(f"{it.at} sets the type {byte & 0xF}, and {POINTER}, a pointer, is the one that is judged.",
                        *numbers)
    if it.at.endswith("_DONE"):
        return it.story(f"{it.at} ends {it.first}, and a byte after it is not 0.", *numbers)
    what = "the name" if "SYMBOL" in it.at else "a number"
    return it.story(f"{what} of {it.at} does not end in {it.first}, or is too large.", *numbers)


def _slot(it: Teller) -> Story:
    numbers = "end of the last pointer in the segment", "writable bytes of the segment"
    if not it.second:
        return it.story(f"{it.at} writes to a segment that is not set, or that does not exist.", *numbers)
    if not it.segment_number("vmsize"):
        return it.story(f"{it.at} writes to {it.second}, which is not mapped.", *numbers)
    if not it.segment_number("initprot") & WRITE:
        return it.story(f"{it.at} writes to {it.second}, which cannot be written: "
                        f"{protection_text(it.segment_number('initprot'))}.", *numbers)
    return it.story(f"{it.at} writes up to {it.value:#x} of {it.second}, which has {it.limit:#x} bytes in the file.",
                    *numbers)


def _total(it: Teller) -> Story:
    asked = count_text(it.value, "pointer")
    return it.story(f"up to and including {it.at}, {it.first} ask for {asked}, and the writable segments have room for "
                    f"{it.limit}.", "pointers asked for", "pointers in writable segments")


def _bind_library(it: Teller) -> Story:
    return _library(it, "sets", "SPECIAL" in it.at)


def _library(it: Teller, verb: str, can_be_special: bool = True) -> Story:
    """An ordinal of no library. A special one is below 0."""
    ordinal = it.value - (1 << 64) if it.value >> 63 and can_be_special else it.value
    why = f"the least is {LEAST_ORDINAL}" if ordinal < 0 else f"the image loads {it.limit}"
    return it.story(f"{it.at} {verb} library {ordinal}, and {why}.", "ordinal", "number of libraries")


def _bind_symbol(it: Teller) -> Story:
    return it.story(f"{it.at} binds {count_text(it.value, 'pointer')}, and no name is set.", "count")


def _bind_names(it: Teller) -> Story:
    return it.story(f"up to and including {it.at}, names of {it.value} bytes are looked up, and {it.first} have "
                    f"{it.limit} bytes.", "bytes of names", "bytes of the stream")


def _chain_header(it: Teller) -> Story:
    if it.at_part.kind == "command":
        return it.story(f"{it.at} says that the table has no bytes, and a loader reads its header all the same.",
                        "datasize", "size of the header")
    if it.value < it.limit:
        return it.story(f"{it.first} have {count_text(it.value, 'byte')}, and {it.at} has {it.limit}.",
                        "size of the table", "size of the header")
    for field, known in (("fixups_version", (0,)), ("imports_format", IMPORT_SIZES), ("symbols_format", (0,))):
        number = it.case.number(field)
        if number not in known:
            return it.story(f"{it.first} have {field} {number}, and {_known(known)}.")
    return it.story(f"{it.at} is not known.")


def _known(numbers: Collection[int]) -> str:
    is_one = len(numbers) == 1
    return f"{'the one that is known is' if is_one else 'those that are known are'} {', '.join(map(str, numbers))}"


def _chain_starts(it: Teller) -> Story:
    if it.at_part.kind == "chain-header":
        begins = it.case.number("starts_offset")
        return it.story(f"the array of segments begins at {begins:#x} of {it.first}, which have {it.limit:#x} bytes.",
                        "starts_offset + 4", "size of the table")
    if it.at_part.kind == "chain-array":
        many = f"there are entries for {count_text(it.value, 'segment')}"
        if it.value > it.limit:
            return it.story(f"{many}, and the image has {it.limit}.", "seg_count", "number of segments")
        return it.story(f"{many}, and they end past the end of {it.first}.", "seg_count")
    if it.value > it.limit:
        return it.story(f"{it.first} end at {it.value:#x} of the table, which has {it.limit:#x} bytes.",
                        "end of the starts", "size of the table")
    return it.story(_of_starts(it))


def _of_starts(it: Teller) -> str:
    """What is wrong with the starts of a segment, which end in the table."""
    def number(field: str) -> int:
        return number_in(it.case.data[it.first_part.start:], "dyld_chained_starts_in_segment", field)

    needed = STARTS_SIZE + PAGE_START_SIZE * number("page_count")
    if needed > number("size"):
        return (f"{it.first} have {count_text(number('size'), 'byte')}, and need {needed} for "
                f"{count_text(number('page_count'), 'page')}.")
    if number("pointer_format") not in POINTER_FORMATS:
        return f"{it.first} have pointer_format {number('pointer_format')}, and {_known(POINTER_FORMATS)}."
    if number("page_size") not in PAGE_SIZES:
        return f"{it.first} are of pages of {number('page_size'):#x} bytes, and not of 0x1000 or 0x4000."
    if not it.segment_number("vmsize"):
        return f"{it.second} has starts of chains, and is not mapped."
    if not it.segment_number("initprot") & WRITE:
        return (f"{it.second} has starts of chains, and cannot be written: "
                f"{protection_text(it.segment_number('initprot'))}.")
    if it.first_part.start < _end_of_starts_before(it):
        return f"{it.first} begin before those of an earlier segment end."
    return (f"{it.first} say that the segment is {number('segment_offset'):#x} past the base, and its address is "
            f"{it.segment_number('vmaddr'):#x}.")


def _end_of_starts_before(it: Teller) -> int:
    """Where the starts end of the nearest segment before that has some, or 0."""
    index, data = it.at_part.index or 0, it.case.data
    array = it.at_part.start - ENTRY_SIZE * (index + 1)
    for place in range(it.at_part.start - ENTRY_SIZE, array, -ENTRY_SIZE):
        entry = int.from_bytes(data[place:place + ENTRY_SIZE], "little")
        if entry:
            return array + entry + number_in(data[array + entry:], "dyld_chained_starts_in_segment", "size")
    return 0


def _chain_imports(it: Teller) -> Story:
    if it.at_part.kind == "chain-header":
        imports = count_text(it.case.number("imports_count"), "import")
        size = IMPORT_SIZES.get(it.case.number("imports_format"), 0)
        return it.story(f"{imports} of {size} bytes would end at {it.value:#x} of {it.first}, which have "
                        f"{it.limit:#x} bytes.", "end of the imports", "size of the table")
    numbers = "offset of the name", "size of the table"
    if it.value >= it.limit:
        return it.story(f"the name of {it.at} begins at {it.value:#x} of {it.first}, which have {it.limit:#x} bytes.",
                        *numbers)
    return it.story(f"the name of {it.at} does not end: no byte from {it.first_part.start + it.value:#x} up to the end "
                    f"of {it.first} is 0.", *numbers)


def _chain_total(it: Teller) -> Story:
    return it.story(f"up to and including {it.at}, the names of the imports have {it.value} bytes, and {it.first} have "
                    f"{it.limit}.", "bytes of names", "size of the table")


def _chain_slot(it: Teller) -> Story:
    numbers = "end of the pointer in the segment", "greatest end of one"
    if not it.limit:
        return it.story(f"{it.at} begins a chain in {it.second}, {_why_not_written(it)}.", *numbers)
    begins = it.value - POINTER_SIZE
    if it.at_part.kind == "page-start":
        return it.story(f"{it.at} begins a chain at {begins:#x} of {it.second}, {_past_limit(it)}.", *numbers)
    distance = begins - (it.at_part.start - it.second_part.start)
    if distance < POINTER_SIZE:
        return it.story(f"{it.at} says that the next one begins {count_text(distance, 'byte')} further on, and each has "
                        f"{POINTER_SIZE}.", *numbers)
    text = f"{it.at} says that the next one is at {begins:#x} of {it.second}, {_past_limit(it)}."
    return it.story(text, *numbers)


def _past_limit(it: Teller) -> str:
    whose = "its bytes in the file" if it.limit == it.second_part.size else "the page"
    return f"where a pointer ends at {it.value:#x}, past the end of {whose}, {it.limit:#x}"


def _why_not_written(it: Teller) -> str:
    """Why no pointer of a writable segment can be written as it is in the file."""
    if not it.second_part.size:
        return "which has no bytes in the file"
    if it.segment_number("flags") & SG_PROTECTED_VERSION_1:
        return "which is encrypted"
    return "some of whose bytes are encrypted"


def _chain_bind(it: Teller) -> Story:
    return it.story(f"{it.at} binds import {it.value}, and the table has {count_text(it.limit, 'import')}.", "ordinal",
                    "imports_count")


def _export_node(it: Teller) -> Story:
    if it.value >= it.limit:
        return it.story(f"an edge leads past the end of {it.first}, which has {count_text(it.limit, 'byte')}.",
                        "offset of the node", "size of the table")
    return it.story(f"{it.at} does not end in {it.first}, or a number of it is too large.", "offset of the node",
                    "size of the table")


def _export_total(it: Teller) -> Story:
    return it.story(f"with {it.at}, the nodes that are met have more bytes than {it.first}, which has {it.limit}.",
                    "bytes of the node", "size of the table")


def _export_terminal(it: Teller) -> Story:
    flags = it.value
    export = f"the export of {it.at}"
    if flags > it.limit:
        return it.story(f"{export} has the flags {flags:#x}, and those that are known are {it.limit:#x}.", "flags",
                        "flags that are known")
    if flags & EXPORT_SYMBOL_FLAGS_KIND_MASK == UNKNOWN_KIND:
        return it.story(f"{export} is of kind {UNKNOWN_KIND}, by the lowest two bits of its flags, {flags:#x}, and "
                        f"{_known(range(UNKNOWN_KIND))}.", "flags")
    if flags & EXPORT_SYMBOL_FLAGS_REEXPORT and flags & EXPORT_SYMBOL_FLAGS_STUB_AND_RESOLVER:
        return it.story(f"{export} is a re-export with a resolver, by its flags, {flags:#x}.", "flags")
    return it.story(f"{export} is not read exactly to its end: a number or a name goes past it, or bytes are left.",
                    "flags" if flags else "")


def _export_address(it: Teller) -> Story:
    where = "past all addresses" if it.value == MOST else f"to {it.value:#x}"
    return it.story(f"{it.at} leads {where}, which is in no segment.", "address")


def _function_number(it: Teller) -> Story:
    if _is_past_zero(it):
        return it.story(f"the byte {it.value:02x} is past the number 0, which ends {it.first}.", "byte")
    return it.story(f"the number at {it.at_part.start:#x} does not end in {it.first}, or is too large.", "byte")


def _is_past_zero(it: Teller) -> bool:
    """Whether a number 0 of the function starts ends before the place."""
    return ZERO.search(bytes(it.case.data[it.first_part.start:it.at_part.start])) is not None


def _function_start(it: Teller) -> Story:
    starts, number = f"the function of {it.at} starts at {it.value:#x}", "address of the function"
    if it.value == MOST:
        return it.story(f"{starts} or past it, where the file has no byte.", number)
    if not it.second:
        return it.story(f"{starts}, which is in no segment.", number)
    return it.story(f"{starts} in {it.second}, whose bytes in the file end at {it.limit:#x}.", number,
                    "vmaddr + filesize")


def _init_offset(it: Teller) -> Story:
    if not it.second and it.limit == INIT_OFFSET_SIZE:
        return it.story(f"{it.first} have {count_text(it.value, 'byte')}, and each offset has {it.limit}.", "size",
                        "bytes of each")
    starts, number = f"the offset at {it.at_part.start:#x} leads to {it.value:#x}", "base + offset"
    if not it.second:
        return it.story(f"{starts}, which is in no segment.", number)
    if it.value < it.limit:
        return it.story(f"{starts} in {it.second}, which is not executable.", number)
    return it.story(f"{starts} in {it.second}, whose bytes in the file end at {it.limit:#x}.", number,
                    "vmaddr + filesize")


def _data_in_code(it: Teller) -> Story:
    if it.at_part.kind == "byte":
        return it.story(f"{it.first} has {count_text(it.value, 'byte')}, and each entry has {it.limit}.",
                        "size of the table", "size of an entry")
    if it.first_part.kind == "table":
        return it.story(f"{it.at} is of kind {it.value}, and {_known(DICE_KINDS)}.", "kind", "greatest kind")
    begins = it.case.number("offset")
    if not it.second:
        return it.story(f"{it.first} begins at {begins:#x}, which is in no segment.", "offset + length")
    numbers = "offset + length", "fileoff + filesize"
    if not it.segment_number("initprot") & EXECUTE:
        return it.story(f"{it.first} begins in {it.second}, which is not executable: "
                        f"{protection_text(it.segment_number('initprot'))}.")
    return it.story(f"{it.first} ends at {it.value:#x}, past the bytes of {it.second}, which end at {it.limit:#x}.",
                    *numbers)


def _symbol_value(it: Teller) -> Story:
    return it.story(f"{it.at} is of a section, and its value {it.value:#x} is neither an address of a segment nor the end "
                    "of one.", "n_value")


def _indirect_range(it: Teller) -> Story:
    size, stubs = it.case.number("size"), it.case.number("flags") & SECTION_TYPE == S_SYMBOL_STUBS
    what = "stubs" if stubs else "pointers"
    if it.value == size and (it.limit == 0 or size % it.limit):
        return it.story(f"{it.first} have {count_text(size, 'byte')}, which {what} of {count_text(it.limit, 'byte')} do "
                        "not fill.", "size", "bytes of each")
    return it.story(f"the entries of the {what} of {it.at} end at {it.value} of the indirect symbol table, which has "
                    f"{it.limit}.", "reserved1 + number of entries", "nindirectsyms")


def _obsolete_table(it: Teller) -> Story:
    table = f"{it.at} names {OBSOLETE_TABLES[it.first_part.index or 0]}, which older loaders follow"
    newer = f"newer ones follow {it.second}" if it.second else "newer ones do not"
    return it.story(f"{table}, and {newer}.", "number of entries")


def _relocation(it: Teller) -> Story:
    bits = number_in(it.case.data[it.at_part.start:], "relocation_info", "r_bits")
    number = number_in(it.case.data[it.at_part.start:], "relocation_info", "r_symbolnum")
    if bits & R_EXTERN and number >= it.limit and it.value == number:
        return it.story(f"{it.at} of {it.first} is for symbol {number}, and there {_are(it.limit, 'symbol')}.",
                        "r_symbolnum", "number of symbols")
    if not bits & R_EXTERN and number > it.limit and it.value == number:
        return it.story(f"{it.at} of {it.first} is for section {number}, and there {_are(it.limit, 'section')}.",
                        "r_symbolnum", "number of sections")
    return it.story(f"{it.at} of {it.first} is for {count_text(1 << it.value, 'byte')}, and a pointer has 8.", "r_length",
                    "r_length of a pointer")


def _function_variants(it: Teller) -> Story:
    return it.story(f"by {it.at} newer loaders write to the image, and no rule reads what it names.", "cmd")


def _table_repeated(it: Teller) -> Story:
    return it.story(f"{it.first} names linked data of a kind that {it.second} names as well.", "cmd of the later",
                    "cmd of the earlier")


STORIES: Dict[str, Callable[[Teller], Story]] = {
    "magic": _magic, "fat-truncated": _fat_truncated, "fat-slice-outside": _fat_slice_outside,
    "fat-slice-in-table": _fat_slice_in_table, "fat-align": _fat_align, "fat-overlap": Teller.shares,
    "fat-duplicate": _fat_duplicate, "fat-slice-magic": _fat_slice_magic, "fat-empty": _fat_empty,
    "header-truncated": _header_truncated, "arch-mismatch": _arch_mismatch, "file-type": _file_type,
    "commands-outside": lambda it: it.goes_past("the range of the load commands", "ends", "32 + sizeofcmds"),
    "command-walk": _command_walk, "command-short": _command_short, "command-repeated": _command_repeated,
    "dylib-id": _dylib_id, "name": _name, "segment-address": _segment_address, "segment-size": _segment_size,
    "segment-file": lambda it: it.goes_past(f"the bytes of {it.first}", "end", "fileoff + filesize"),
    "segment-overlap": Teller.shares, "section-address": _section_address, "section-file": _section_file,
    "section-relocs": lambda it: it.goes_past(f"the range of {it.first}", "ends", "reloff + 8 * nreloc"),
    "table-range": lambda it: it.goes_past(f"the range of {it.first}", "ends", "end of the table"),
    "symbol-group": _symbol_group, "symbol-name": _symbol_name, "symbol-section": _symbol_section,
    "indirect-index": _indirect_index, "entry": _entry,
    "fat-stray-byte": lambda it: it.lies_between("is in no slice"), "commands-end": _commands_end,
    "header-segment": _header_segment, "segment-file-overlap": Teller.shares, "element-overlap": _element_overlap,
    "stray-byte": lambda it: it.lies_between("is in no segment"), "encrypted-range": _encrypted_range,
    "command-slack": lambda it: it.story(f"the byte {it.value:02x} of {it.first} is past its structure, its records "
                                         "and its name.", "byte"),
    "unclaimed-byte": lambda it: it.lies_between("is in no part that the headers describe"),
    "table-repeated": _table_repeated, "function-variants": _function_variants, "table-home": _table_home,
    "header-home": _header_home, "rebase-opcode": _opcode, "rebase-slot": _slot, "rebase-total": _total,
    "bind-opcode": _opcode, "bind-library": _bind_library, "bind-symbol": _bind_symbol, "bind-slot": _slot,
    "bind-total": _total, "bind-names": _bind_names, "chain-header": _chain_header, "chain-starts": _chain_starts,
    "chain-imports": _chain_imports, "chain-total": _chain_total,
    "chain-library": lambda it: _library(it, "is of"), "chain-slot": _chain_slot, "chain-bind": _chain_bind,
    "export-node": _export_node, "export-total": _export_total, "export-terminal": _export_terminal,
    "export-library": lambda it: _library(it, "is of"), "export-address": _export_address,
    "function-number": _function_number, "function-start": _function_start, "data-in-code": _data_in_code,
    "init-offset": _init_offset,
    "signature-blob": signature_blob, "signature-directory": signature_directory, "signature-whole": signature_whole,
    "symbol-library": lambda it: _library(it, "is of"), "symbol-value": _symbol_value,
    "symbol-indirect": lambda it: _ends_in_strings(it, f"the name that {it.at} stands in for", "n_value"),
    "indirect-range": _indirect_range, "obsolete-table": _obsolete_table,
    "relocation": _relocation, "thread": thread, "command-content": command_content,
    "signature-missing": signature_missing, "signature-executable": Teller.shares,
    "directory-repeated": directory_repeated,
    "signature-slack": signature_slack, "signature-hash": signature_hash,
    "fat-count": fat_count, "fat-header": fat_header, "fat-page": fat_page, "command-known": command_known,
    "command-once": command_once, "segment-name": segment_name, "segment-page": segment_page,
    "segment-protection": segment_protection, "bytes-encrypted": bytes_encrypted, "number-shift": number_shift,
    "section-name": section_name, "section-alone": section_alone, "entry-one": entry_one,
    "bind-once": bind_once, "export-edge": export_edge, "symbol-kind": symbol_kind, "symbol-total": symbol_total,
    "export-symbol": export_symbol, "indirect-name": indirect_name, "import-library": import_library,
    "signature-slot": signature_slot, "directory-agree": directory_agree}


class Told(NamedTuple):
    """A refused file, and what is told of it."""

    case: Case
    story: Story


# A report has a sentence of a file with so many bytes of load commands, as many as a hundred large applications.
MOST_COMMANDS = 1 << 20


def told_of(data: Contents, refused: Refused, is_for_report: bool = False) -> Optional[Told]:
    """What is told of a file that was refused, or None if the verdict is not of these bytes. For a report also None
    where a sentence would take long, as none of a file that was not made for that does."""
    found = explain(data, refused)
    if found is None or (is_for_report and _takes_long(memoryview(data), found)):
        return None
    case = Case(memoryview(data), refused, found)
    return Told(case, STORIES[case.rule](Teller(case)))


def _takes_long(data: memoryview, found: Explanation) -> bool:
    """Whether there are more slices, load commands or entries of a signature than a sentence can be looked for in."""
    entries = number_in(data, "fat_header", "nfat_arch") if bytes(data[:4]) in FAT_ENTRIES else 0
    if entries > MOST_STEPS or (found.at.kind == "signature-entry" and (found.at.index or 0) > MOST_STEPS):
        return True
    if found.slice is None:
        return False
    start = next(part.start for part in slices_of(data) if part.kind in SLICES and part.slice == found.slice)
    return number_in(data[start:], "mach_header_64", "sizeofcmds") > MOST_COMMANDS
