"""The structures of <mach-o/fat.h>, <mach-o/loader.h>, <mach-o/nlist.h>, <mach-o/reloc.h>, <mach-o/fixup-chains.h> and
cs_blobs.h, with their fields by name."""

from __future__ import annotations

from typing import Dict, List, NamedTuple, Tuple


class Field(NamedTuple):
    """A field: its place in the structure, and how many bytes it has."""

    name: str
    start: int
    width: int


def _fields(words: str) -> Tuple[Field, ...]:
    """The fields of these names, one after the other: each of 4 bytes, if no other number follows its name."""
    fields: List[Field] = []
    place = 0
    for word in words.split():
        name, _, width = word.partition(":")
        fields.append(Field(name, place, int(width or 4)))
        place += fields[-1].width
    return tuple(fields)


# Those of a universal file and of a code signature are big-endian, and all others little-endian.
STRUCTURES: Dict[str, Tuple[Field, ...]] = {name: _fields(words) for name, words in {
    "fat_header": "magic nfat_arch",
    "fat_arch": "cputype cpusubtype offset size align",
    "fat_arch_64": "cputype cpusubtype offset:8 size:8 align reserved",
    "mach_header_64": "magic cputype cpusubtype filetype ncmds sizeofcmds flags reserved",
    "load_command": "cmd cmdsize",
    "segment_command_64":
        "cmd cmdsize segname:16 vmaddr:8 vmsize:8 fileoff:8 filesize:8 maxprot initprot nsects flags",
    "section_64": "sectname:16 segname:16 addr:8 size:8 offset align reloff nreloc flags reserved1 reserved2 reserved3",
    "symtab_command": "cmd cmdsize symoff nsyms stroff strsize",
    "dysymtab_command":
        "cmd cmdsize ilocalsym nlocalsym iextdefsym nextdefsym iundefsym nundefsym tocoff ntoc modtaboff nmodtab "
        "extrefsymoff nextrefsyms indirectsymoff nindirectsyms extreloff nextrel locreloff nlocrel",
    "dylib_command": "cmd cmdsize name timestamp current_version compatibility_version",
    "dylinker_command": "cmd cmdsize name",
    "rpath_command": "cmd cmdsize path",
    "twolevel_hints_command": "cmd cmdsize offset nhints",
    "uuid_command": "cmd cmdsize uuid:16",
    "linkedit_data_command": "cmd cmdsize dataoff datasize",
    "dyld_info_command":
        "cmd cmdsize rebase_off rebase_size bind_off bind_size weak_bind_off weak_bind_size lazy_bind_off "
        "lazy_bind_size export_off export_size",
    "encryption_info_command_64": "cmd cmdsize cryptoff cryptsize cryptid pad",
    "note_command": "cmd cmdsize data_owner:16 offset:8 size:8",
    "build_version_command": "cmd cmdsize platform minos sdk ntools",
    "entry_point_command": "cmd cmdsize entryoff:8 stacksize:8",
    "data_in_code_entry": "offset length:2 kind:2",
    "nlist_64": "n_strx n_type:1 n_sect:1 n_desc:2 n_value:8",
    # The last field has r_pcrel, r_length, r_extern and r_type, from the lowest bit on.
    "relocation_info": "r_address r_symbolnum:3 r_bits:1",
    "CS_SuperBlob": "magic length count",
    "CS_BlobIndex": "type offset",
    "CS_GenericBlob": "magic length",
    "CS_CodeDirectory":
        "magic length version flags hashOffset identOffset nSpecialSlots nCodeSlots codeLimit hashSize:1 hashType:1 "
        "platform:1 pageSize:1 spare2 scatterOffset teamOffset spare3 codeLimit64:8 execSegBase:8 execSegLimit:8 "
        "execSegFlags:8 runtime preEncryptOffset linkageHashType:1 linkageApplicationType:1 "
        "linkageApplicationSubType:2 linkageOffset linkageSize",
    "dyld_chained_fixups_header":
        "fixups_version starts_offset imports_offset symbols_offset imports_count imports_format symbols_format",
    "dyld_chained_starts_in_image": "seg_count",
    "dyld_chained_starts_in_segment":
        "size page_size:2 pointer_format:2 segment_offset:8 max_valid_pointer page_count:2"}.items()}
BIG_ENDIAN = frozenset(("fat_header", "fat_arch", "fat_arch_64", "CS_SuperBlob", "CS_BlobIndex", "CS_GenericBlob",
                        "CS_CodeDirectory"))

# The bytes of the fields of a CS_CodeDirectory, from which version on.
DIRECTORY_SIZES = {0x20000: 44, 0x20100: 48, 0x20200: 52, 0x20300: 64, 0x20400: 88, 0x20500: 96, 0x20600: 108}

# The structure of each command that docs/rules/layout.md lists, and of those others that have data.
LISTED: Dict[int, str] = {
    # registry: listed
    0x2: "symtab_command", 0xb: "dysymtab_command", 0xc: "dylib_command", 0xd: "dylib_command", 0xe: "dylinker_command",
    0xf: "dylinker_command", 0x19: "segment_command_64", 0x1b: "uuid_command", 0x1d: "linkedit_data_command",
    0x1e: "linkedit_data_command", 0x20: "dylib_command", 0x22: "dyld_info_command", 0x26: "linkedit_data_command",
    0x27: "dylinker_command", 0x29: "linkedit_data_command", 0x2b: "linkedit_data_command",
    0x2c: "encryption_info_command_64", 0x2e: "linkedit_data_command", 0x31: "note_command",
    0x32: "build_version_command", 0x80000018: "dylib_command", 0x8000001c: "rpath_command",
    0x8000001f: "dylib_command", 0x80000022: "dyld_info_command", 0x80000023: "dylib_command",
    0x80000028: "entry_point_command", 0x80000033: "linkedit_data_command", 0x80000034: "linkedit_data_command",
    # registry: end
}
UNLISTED: Dict[int, str] = {
    # registry: unlisted
    0x16: "twolevel_hints_command", 0x36: "linkedit_data_command", 0x37: "linkedit_data_command",
    0x38: "linkedit_data_command",
    # registry: end
}


def size_of(structure: str) -> int:
    last = STRUCTURES[structure][-1]
    return last.start + last.width


def directory_size(version: int) -> int:
    """The bytes of the fields that a CS_CodeDirectory of a version has."""
    return max((size for least, size in DIRECTORY_SIZES.items() if least <= version), default=0)


def structure_of(cmd: int, size: int) -> str:
    """The structure of a command of this many bytes: that of its kind, if it has as many."""
    name = LISTED.get(cmd) or UNLISTED.get(cmd, "load_command")
    return name if size_of(name) <= size else "load_command"


def field_of(structure: str, name: str) -> Field:
    return next(field for field in STRUCTURES[structure] if field.name == name)


def number_in(data: memoryview, structure: str, name: str) -> int:
    """The number in a field of the structure that these bytes begin with, 0 where the bytes are not there."""
    field = field_of(structure, name)
    order = "big" if structure in BIG_ENDIAN else "little"
    return int.from_bytes(data[field.start:field.start + field.width], order)
