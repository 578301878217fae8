#!/usr/bin/env python3
"""A second verifier of the layout of Mach-O files. It was written from docs/rules, and from docs/reference/commands.md for
what is printed. It reads the filetypes and the listed commands in the tables of layout.md there. Nothing was taken from the
sources of the first one. tests/oracle compares the two. It also judges the rules of the other profiles, as
macho-verify does; tests/dyld loads what it accepts.

    oracle.py FILE                        prints what `macho-check check FILE` prints, and ends with its status
    oracle.py where FILE SLICE ADDRESS    the same for `macho-check where FILE SLICE ADDRESS`
    oracle.py --strict FILE               the same for `macho-verify strict FILE`
    oracle.py --linked FILE               the same for `macho-verify linked FILE`
    oracle.py --unambiguous FILE          the same for `macho-verify unambiguous FILE`
    oracle.py --sealed FILE               the same for `macho-verify sealed FILE`

It is written to be read beside docs/rules, and has the same order. A rule is a function with its name. It yields
each place at which the rule is broken. `first_broken` takes the rules one after the other, and of the first one that
is broken it takes the least place. A rule may take for granted that all rules before it are unbroken. All numbers are
whole numbers without a limit, so no sum wraps. Offsets and widths are in bytes.
"""

import bisect
import hashlib
import os
import re
import sys
from functools import cached_property
from types import SimpleNamespace

# Structures: their fields in order, each with its width. A name or a UUID of 16 bytes stays bytes.

STRUCTURES = {
    # mach-o/fat.h. Big-endian.
    "fat_header": "u32 magic  u32 nfat_arch",
    "fat_arch": "u32 cputype  u32 cpusubtype  u32 offset  u32 size  u32 align",
    "fat_arch_64": "u32 cputype  u32 cpusubtype  u64 offset  u64 size  u32 align  u32 reserved",
    # mach-o/loader.h. Little-endian, as all that follow.
    "mach_header_64": "u32 magic  u32 cputype  u32 cpusubtype  u32 filetype  u32 ncmds  u32 sizeofcmds  u32 flags"
                      "  u32 reserved",
    "load_command": "u32 cmd  u32 cmdsize",
    "segment_command_64": "u32 cmd  u32 cmdsize  16bytes segname  u64 vmaddr  u64 vmsize  u64 fileoff  u64 filesize"
                          "  u32 maxprot  u32 initprot  u32 nsects  u32 flags",
    "section_64": "16bytes sectname  16bytes segname  u64 addr  u64 size  u32 offset  u32 align  u32 reloff"
                  "  u32 nreloc  u32 flags  u32 reserved1  u32 reserved2  u32 reserved3",
    "symtab_command": "u32 cmd  u32 cmdsize  u32 symoff  u32 nsyms  u32 stroff  u32 strsize",
    "dysymtab_command": "u32 cmd  u32 cmdsize  u32 ilocalsym  u32 nlocalsym  u32 iextdefsym  u32 nextdefsym"
                        "  u32 iundefsym  u32 nundefsym  u32 tocoff  u32 ntoc  u32 modtaboff  u32 nmodtab"
                        "  u32 extrefsymoff  u32 nextrefsyms  u32 indirectsymoff  u32 nindirectsyms  u32 extreloff"
                        "  u32 nextrel  u32 locreloff  u32 nlocrel",
    "dylib_command": "u32 cmd  u32 cmdsize  u32 name  u32 timestamp  u32 current_version  u32 compatibility_version",
    "dylinker_command": "u32 cmd  u32 cmdsize  u32 name",
    "rpath_command": "u32 cmd  u32 cmdsize  u32 path",
    "twolevel_hints_command": "u32 cmd  u32 cmdsize  u32 offset  u32 nhints",
    "uuid_command": "u32 cmd  u32 cmdsize  16bytes uuid",
    "linkedit_data_command": "u32 cmd  u32 cmdsize  u32 dataoff  u32 datasize",
    "dyld_info_command": "u32 cmd  u32 cmdsize  u32 rebase_off  u32 rebase_size  u32 bind_off  u32 bind_size"
                         "  u32 weak_bind_off  u32 weak_bind_size  u32 lazy_bind_off  u32 lazy_bind_size"
                         "  u32 export_off  u32 export_size",
    "encryption_info_command_64": "u32 cmd  u32 cmdsize  u32 cryptoff  u32 cryptsize  u32 cryptid  u32 pad",
    "note_command": "u32 cmd  u32 cmdsize  16bytes data_owner  u64 offset  u64 size",
    "build_version_command": "u32 cmd  u32 cmdsize  u32 platform  u32 minos  u32 sdk  u32 ntools",
    # `ntools` records follow a build_version_command.
    "build_tool_version": "u32 tool  u32 version",
    "entry_point_command": "u32 cmd  u32 cmdsize  u64 entryoff  u64 stacksize",
    "symseg_command": "u32 cmd  u32 cmdsize  u32 offset  u32 size",
    "fvmlib_command": "u32 cmd  u32 cmdsize  u32 name  u32 minor_version  u32 header_addr",
    "fvmfile_command": "u32 cmd  u32 cmdsize  u32 name  u32 header_addr",
    "prebound_dylib_command": "u32 cmd  u32 cmdsize  u32 name  u32 nmodules  u32 linked_modules",
    "routines_command": "u32 cmd  u32 cmdsize  u32 init_address  u32 init_module  u32 reserved1  u32 reserved2"
                        "  u32 reserved3  u32 reserved4  u32 reserved5  u32 reserved6",
    "routines_command_64": "u32 cmd  u32 cmdsize  u64 init_address  u64 init_module  u64 reserved1  u64 reserved2"
                           "  u64 reserved3  u64 reserved4  u64 reserved5  u64 reserved6",
    "sub_framework_command": "u32 cmd  u32 cmdsize  u32 umbrella",
    "sub_umbrella_command": "u32 cmd  u32 cmdsize  u32 sub_umbrella",
    "sub_client_command": "u32 cmd  u32 cmdsize  u32 client",
    "sub_library_command": "u32 cmd  u32 cmdsize  u32 sub_library",
    "prebind_cksum_command": "u32 cmd  u32 cmdsize  u32 cksum",
    "version_min_command": "u32 cmd  u32 cmdsize  u32 version  u32 sdk",
    "source_version_command": "u32 cmd  u32 cmdsize  u64 version",
    "linker_option_command": "u32 cmd  u32 cmdsize  u32 count",
    "target_triple_command": "u32 cmd  u32 cmdsize  u32 triple",
    # A thread_command repeats this structure, each time with `count` words after it.
    "thread_state": "u32 flavor  u32 count",
    "data_in_code_entry": "u32 offset  u16 length  u16 kind",
    # mach-o/nlist.h
    "nlist_64": "u32 n_strx  u8 n_type  u8 n_sect  u16 n_desc  u64 n_value",
    # mach-o/reloc.h. The second word has fields of bits.
    "relocation_info": "u32 r_address  u32 r_bits",
    # mach-o/fixup-chains.h, without the arrays that follow
    "dyld_chained_fixups_header": "u32 fixups_version  u32 starts_offset  u32 imports_offset  u32 symbols_offset"
                                  "  u32 imports_count  u32 imports_format  u32 symbols_format",
    "dyld_chained_starts_in_image": "u32 seg_count",
    "dyld_chained_starts_in_segment": "u32 size  u16 page_size  u16 pointer_format  u64 segment_offset"
                                      "  u32 max_valid_pointer  u16 page_count",
    # kern/cs_blobs.h. Big-endian. A directory of an older version ends before some fields.
    "CS_SuperBlob": "u32 magic  u32 length  u32 count",
    "CS_BlobIndex": "u32 type  u32 offset",
    "CS_GenericBlob": "u32 magic  u32 length",
    "CS_CodeDirectory": "u32 magic  u32 length  u32 version  u32 flags  u32 hashOffset  u32 identOffset"
                        "  u32 nSpecialSlots  u32 nCodeSlots  u32 codeLimit  u8 hashSize  u8 hashType  u8 platform"
                        "  u8 pageSize  u32 spare2  u32 scatterOffset  u32 teamOffset  u32 spare3  u64 codeLimit64"
                        "  u64 execSegBase  u64 execSegLimit  u64 execSegFlags  u32 runtime  u32 preEncryptOffset"
                        "  u8 linkageHashType  u8 linkageApplicationType  u16 linkageApplicationSubType"
                        "  u32 linkageOffset  u32 linkageSize",
}
WIDTHS = {"u8": 1, "u16": 2, "u32": 4, "u64": 8, "16bytes": 16}

# mach-o/fat.h and mach-o/loader.h: the first four bytes, as they stand in the file.
FAT_MAGIC = bytes.fromhex("cafebabe")
FAT_MAGIC_64 = bytes.fromhex("cafebabf")
MH_MAGIC_64 = bytes.fromhex("cffaedfe")
MH_MAGIC_64_BIG = bytes.fromhex("feedfacf")
MH_MAGIC = bytes.fromhex("cefaedfe")
MH_MAGIC_BIG = bytes.fromhex("feedface")

# mach/machine.h
CPU_SUBTYPE_MASK = 0xff000000
CPU_TYPE_X86_64 = 0x01000007
CPU_TYPE_ARM64 = 0x0100000c
CPU_ARCH_ABI64 = 0x01000000
ARCHITECTURES = {
    (CPU_TYPE_X86_64, 3): "x86_64",
    (CPU_TYPE_X86_64, 8): "x86_64h",
    (CPU_TYPE_ARM64, 0): "arm64",
    (CPU_TYPE_ARM64, 2): "arm64e",
}

# mach-o/loader.h
MH_EXECUTE = 2
SECTION_TYPE = 0x000000ff
S_ATTR_DEBUG = 0x02000000
S_ZEROFILL, S_GB_ZEROFILL, S_THREAD_LOCAL_ZEROFILL = 0x1, 0xc, 0x12
# The sections with indirect entries: of pointers, lazy or not, of stubs, and of pointers of two other types.
S_SYMBOL_STUBS = 0x8
TYPES_WITH_INDIRECTS = (0x6, 0x7, S_SYMBOL_STUBS, 0x10, 0x14)
S_INIT_FUNC_OFFSETS, INIT_OFFSET_SIZE = 0x16, 4
SG_PROTECTED_VERSION_1 = 0x8
INDIRECT_SYMBOL_LOCAL, INDIRECT_SYMBOL_ABS = 0x80000000, 0x40000000
MH_TWOLEVEL = 0x80
# mach-o/nlist.h
N_STAB, N_TYPE, N_EXT, N_SECT = 0xe0, 0x0e, 0x01, 0x0e
N_WEAK_DEF = 0x80
N_UNDF, N_INDR, N_PBUD = 0x0, 0xa, 0xc
DYNAMIC_LOOKUP_ORDINAL, EXECUTABLE_ORDINAL = 0xfe, 0xff
# mach/vm_prot.h
VM_PROT_READ, VM_PROT_WRITE, VM_PROT_EXECUTE = 1, 2, 4

# The commands that are looked for by name.
LC_SYMTAB, LC_DYSYMTAB, LC_ID_DYLIB, LC_SEGMENT_64 = 0x2, 0xb, 0xd, 0x19
LC_UUID, LC_ENCRYPTION_INFO_64, LC_BUILD_VERSION, LC_MAIN = 0x1b, 0x2c, 0x32, 0x80000028
LC_TWOLEVEL_HINTS, LC_ATOM_INFO, LC_FUNCTION_VARIANTS, LC_FUNCTION_VARIANT_FIXUPS = 0x16, 0x36, 0x37, 0x38
LC_DYLD_CHAINED_FIXUPS = 0x80000034

# The opcodes of LC_DYLD_INFO: the types that are judged.
REBASE_TYPE_POINTER, BIND_TYPE_POINTER = 1, 1
BIND_SPECIAL_DYLIB_MAIN_EXECUTABLE, BIND_SPECIAL_DYLIB_FLAT_LOOKUP, BIND_SPECIAL_DYLIB_WEAK_LOOKUP = -1, -2, -3

# Chained fixups: the sizes of a page; how many ordinals, the greatest ones, are below 0; the start of a page without
# a chain; and the bytes of a page start and of a pointer.
PAGE_SIZES = (0x1000, 0x4000)
SPECIAL_ORDINALS = 15
DYLD_CHAINED_PTR_START_NONE = 0xffff
PAGE_START_SIZE, POINTER_SIZE = 2, 8

# Exports: the flags that are known, and what some of them say; and the least ordinal that is below 0, where these
# have 64 bits.
EXPORT_SYMBOL_FLAGS = 0x1f
EXPORT_SYMBOL_FLAGS_KIND_MASK, EXPORT_SYMBOL_FLAGS_KIND_ABSOLUTE, KIND_UNKNOWN = 0x3, 0x2, 0x3
EXPORT_SYMBOL_FLAGS_WEAK_DEFINITION = 0x4
EXPORT_SYMBOL_FLAGS_REEXPORT, EXPORT_SYMBOL_FLAGS_STUB_AND_RESOLVER = 0x8, 0x10
LEAST_SPECIAL_ORDINAL = 2 ** 64 + BIND_SPECIAL_DYLIB_WEAK_LOOKUP

# The fields of bits of a relocation_info, each from its first bit up to and including its last. A pointer has 2^3
# bytes. A relocation of arm64 of this type has an addend in place of a number of a symbol or of a section.
R_SYMBOLNUM, R_LENGTH, R_EXTERN, R_TYPE = (0, 23), (25, 26), (27, 27), (28, 31)
LENGTH_OF_A_POINTER = 3
ARM64_RELOC_ADDEND = 10

# The states of a thread that have registers, by the cputype and the flavor: the count of words, and where in these the
# address is that the thread begins at. The words of an x86_THREAD_STATE are an x86_THREAD_STATE64, with its header.
x86_THREAD_STATE64, x86_THREAD_STATE, ARM_THREAD_STATE64 = 4, 7, 6
REGISTERS = {
    (CPU_TYPE_X86_64, x86_THREAD_STATE64): (42, 128),
    (CPU_TYPE_X86_64, x86_THREAD_STATE): (44, 136),
    (CPU_TYPE_ARM64, ARM_THREAD_STATE64): (68, 256),
}

# The commands that are for other kinds of images.
LC_SEGMENT, LC_ENCRYPTION_INFO, LC_FILESET_ENTRY = 0x1, 0x21, 0x80000035
FOREIGN_COMMANDS = (LC_SEGMENT, LC_ENCRYPTION_INFO, LC_FILESET_ENTRY)

# The commands that no other rule judges: the structure, and the field that says where the name is, if it has one.
LC_SYMSEG, LC_THREAD, LC_UNIXTHREAD, LC_LOADFVMLIB, LC_IDFVMLIB, LC_IDENT, LC_FVMFILE = 0x3, 0x4, 0x5, 0x6, 0x7, 0x8, 0x9
LC_PREPAGE, LC_PREBOUND_DYLIB, LC_ROUTINES, LC_ROUTINES_64 = 0xa, 0x10, 0x11, 0x1a
LC_SUB_FRAMEWORK, LC_SUB_UMBRELLA, LC_SUB_CLIENT, LC_SUB_LIBRARY, LC_PREBIND_CKSUM = 0x12, 0x13, 0x14, 0x15, 0x17
LC_VERSION_MIN_MACOSX, LC_VERSION_MIN_IPHONEOS, LC_VERSION_MIN_TVOS, LC_VERSION_MIN_WATCHOS = 0x24, 0x25, 0x2f, 0x30
LC_SOURCE_VERSION, LC_LINKER_OPTION, LC_TARGET_TRIPLE = 0x2a, 0x2d, 0x39
HELD_COMMANDS = {
    LC_SYMSEG: ("symseg_command", None),
    LC_LOADFVMLIB: ("fvmlib_command", "name"),
    LC_IDFVMLIB: ("fvmlib_command", "name"),
    LC_IDENT: ("load_command", None),
    LC_FVMFILE: ("fvmfile_command", "name"),
    LC_PREPAGE: ("load_command", None),
    LC_PREBOUND_DYLIB: ("prebound_dylib_command", "name"),
    LC_ROUTINES: ("routines_command", None),
    LC_ROUTINES_64: ("routines_command_64", None),
    LC_SUB_FRAMEWORK: ("sub_framework_command", "umbrella"),
    LC_SUB_UMBRELLA: ("sub_umbrella_command", "sub_umbrella"),
    LC_SUB_CLIENT: ("sub_client_command", "client"),
    LC_SUB_LIBRARY: ("sub_library_command", "sub_library"),
    LC_TWOLEVEL_HINTS: ("twolevel_hints_command", None),
    LC_PREBIND_CKSUM: ("prebind_cksum_command", None),
    LC_VERSION_MIN_MACOSX: ("version_min_command", None),
    LC_VERSION_MIN_IPHONEOS: ("version_min_command", None),
    LC_VERSION_MIN_TVOS: ("version_min_command", None),
    LC_VERSION_MIN_WATCHOS: ("version_min_command", None),
    LC_SOURCE_VERSION: ("source_version_command", None),
    LC_LINKER_OPTION: ("linker_option_command", None),
    LC_ATOM_INFO: ("linkedit_data_command", None),
    LC_FUNCTION_VARIANTS: ("linkedit_data_command", None),
    LC_FUNCTION_VARIANT_FIXUPS: ("linkedit_data_command", None),
    LC_TARGET_TRIPLE: ("target_triple_command", "triple"),
}
ROUTINES = (LC_ROUTINES, LC_ROUTINES_64)
THREADS = (LC_THREAD, LC_UNIXTHREAD)

# The processors whose slices are judged, and the bytes of a page of x86_64 and of all others.
JUDGED_PROCESSORS = (CPU_TYPE_X86_64, CPU_TYPE_ARM64)
X86_64_PAGE_SIZE, OTHER_PAGE_SIZE = 0x1000, 0x4000

# A table of fat_arch has fewer entries than this. With as many, readers take the file for a Java class.
LEAST_JAVA_COUNT = 31

# The commands that say where a program begins, and the library that is loaded at its first use.
ENTRY_COMMANDS = (LC_MAIN, *THREADS)
LC_LAZY_LOAD_DYLIB = 0x20

# The kinds of data in code, from DICE_KIND_DATA up to and including DICE_KIND_ABS_JUMP_TABLE32.
DICE_KINDS = range(1, 6)

# Code signatures: the magic numbers of a superblob and a directory.
CSMAGIC_EMBEDDED_SIGNATURE, CSMAGIC_CODEDIRECTORY = 0xfade0cc0, 0xfade0c02
# The slots of directories, with up to five alternate ones, and the special slots.
DIRECTORY_SLOTS = (0, *range(0x1000, 0x1005))
SPECIAL_SLOTS = range(1, 0x1000)
# The least version, the bytes of the fields by the first version with so many, and the versions that bring some fields.
LEAST_VERSION = 0x20000
FIELDS_SIZES = {0: 44, 0x20100: 48, 0x20200: 52, 0x20300: 64, 0x20400: 88, 0x20500: 96, 0x20600: 108}
CS_SUPPORTSSCATTER, CS_SUPPORTSTEAMID, CS_SUPPORTSCODELIMIT64 = 0x20100, 0x20200, 0x20300
CS_SUPPORTSEXECSEG, CS_SUPPORTSRUNTIME, CS_SUPPORTSLINKAGE = 0x20400, 0x20500, 0x20600
# By the type of a hash: its bytes, its name, and how it is made.
HASH_SIZES = {1: 20, 2: 32, 3: 20, 4: 48}
HASHES = {
    1: ("sha1", hashlib.sha1),
    2: ("sha256", hashlib.sha256),
    3: ("sha256-truncated", hashlib.sha256),
    4: ("sha384", hashlib.sha384),
}
# The greatest logarithm of a page's bytes, and how many bytes of the hash of a directory are printed.
GREATEST_PAGE_SIZE = 31
CS_CDHASH_LEN = 20
# The magic numbers of the blobs in the slots that readers know: directories, requirements, entitlements in two forms,
# launch constraints, and the wrapper of a CMS signature. And the slots that have a name, these and others.
KNOWN_SLOTS = {
    **dict.fromkeys(DIRECTORY_SLOTS, CSMAGIC_CODEDIRECTORY), 2: 0xfade0c01, 5: 0xfade7171, 7: 0xfade7172,
    **dict.fromkeys(range(8, 12), 0xfade8181), 0x10000: 0xfade0b01,
}
NAMED_SLOTS = (*range(12), *range(0x1000, 0x1005), *range(0x10000, 0x10003))

# The instructions that do nothing, by the cputype, with which linkers fill the gaps of code. One begins at a multiple of
# its size.
NOPS = {CPU_TYPE_X86_64: bytes.fromhex("90"), CPU_TYPE_ARM64: bytes.fromhex("1f2003d5")}

def rows_of(row, profile="layout"):
    """The cells of the rows that have this form, of the page with the rules of a profile."""
    top = os.path.join(os.path.dirname(os.path.realpath(__file__)), os.pardir, os.pardir)
    with open(os.path.join(top, "docs", "rules", profile + ".md"), encoding="utf-8") as text:
        return re.findall(row, text.read(), re.MULTILINE)

# The filetypes, by `filetype`: whether an image names itself, and the word of the layout.
FILETYPES = {
    int(filetype): (names_itself == "yes", word)
    for filetype, names_itself, word in rows_of(r"^\| `MH_\w+` \| (\d+) \| (yes|no) \| `(\w+)` \|$")
}

# The listed commands, by name: `cmd`, the structure, the least `cmdsize` with nothing counted, the least name offset.
COMMANDS = {
    command: (int(cmd, 16), structure, int(size), int(name) if name else None)
    for command, cmd, structure, size, name in rows_of(
        r"^\| `(LC_\w+)` \| (0x\w+) \| `(\w+)` \| (\d+)[^|]* \| (\d*) ?\|$")
}
LISTED = {cmd: of_command for cmd, *of_command in COMMANDS.values()}

# The bounded tables of a command, by its structure: the start, the count, the bytes per entry.
TABLE_ROWS = rows_of(r"^\| `(\w+_command\w*)` \| `(\w+)` \| `(\w+)` \| (\d+) \|$")
BOUNDED_TABLES = {
    structure: [(start, count, int(width)) for owner, start, count, width in TABLE_ROWS if owner == structure]
    for structure, *_ in TABLE_ROWS
}

# The tables of linked data, by the command: the start, the size, the kind, and the name of the stream, if it is one.
LINKED_TABLES = {
    COMMANDS[command][0]: [row[1:] for row in rows if "`%s`" % command in row[0]]
    for rows in [rows_of(r"^\| (`LC_\w+`(?:, `LC_\w+`)?) \| `(\w+)` \| `(\w+)` \| ([a-z ]+) \| ?(\w*) ?\|$",
                         "linked")]
    for command in re.findall(r"LC_\w+", " ".join(row[0] for row in rows))
}

# The symbol tables, by the command: the start, the count, the bytes per entry.
SYMBOL_TABLES = {
    COMMANDS[command][0]: [(start, count, int(size)) for start, count, size, owner in rows if owner == command]
    for rows in [rows_of(r"^\| [a-z ]+ \| `(\w+)` \| `(\w+)`, of (\d+) bytes? each \| `(LC_\w+)` \|$", "linked")]
    for *_, command in rows
}

# The opcodes of the rebase stream, and of the other streams, by their bytes: the name, and the operands.
REBASE_OPCODES, BIND_OPCODES = [
    {int(byte, 16): (opcode, operands.replace(",", "").split())
     for opcode, byte, operands in rows_of(r"^\| `(%s_OPCODE_\w+)` \| (0x\w0) \|([a-z, ]*)\|" % family, "linked")}
    for family in ("REBASE", "BIND")
]

# The imports of chained fixups, by `imports_format`: their bytes, and the bits of the ordinal and of the name's offset,
# each from the first up to and including the last. And the formats of pointers that are judged: the bits of `next`, the
# bytes of a step of it, the bit that says bind, and the bits of the ordinal.
IMPORT_FORMATS = {
    int(number): (int(size), (int(ordinal), int(last_of_ordinal)), (int(offset), int(last_of_offset)))
    for number, size, ordinal, last_of_ordinal, offset, last_of_offset in rows_of(
        r"^\| (\d+) \| `dyld_chained_import\w*` \| (\d+) \| (\d+) to (\d+) \| (\d+) to (\d+) \|", "linked")
}
POINTER_FORMATS = {
    int(number): ((int(following), int(last_of_next)), int(step), int(bind), (int(ordinal), int(last_of_ordinal)))
    for number, following, last_of_next, step, bind, ordinal, last_of_ordinal in rows_of(
        r"^\| (\d+) \| `DYLD_CHAINED_PTR_\w+` \| (\d+) to (\d+) \| (\d+) \| (\d+) \| (\d+) to (\d+) \|$", "linked")
}

# The commands that readers expect once, and the platforms of the commands for one alone.
SINGLE_COMMANDS = [int(cmd, 16) for cmd in rows_of(r"^\| `LC_\w+` \| (0x\w+) \|$", "unambiguous")]
VERSION_PLATFORMS = {
    int(cmd, 16): int(platform)
    for cmd, platform in rows_of(r"^\| `LC_\w+` \| (0x\w+) \| (\d+) \(`PLATFORM_\w+`\) \|$", "unambiguous")
}

# The data of the commands that have some but are not listed: the structure, the start, the count, the bytes per entry.
UNLISTED_DATA = {
    LC_TWOLEVEL_HINTS: ("twolevel_hints_command", "offset", "nhints", 4),
    LC_ATOM_INFO: ("linkedit_data_command", "dataoff", "datasize", 1),
    LC_FUNCTION_VARIANTS: ("linkedit_data_command", "dataoff", "datasize", 1),
    LC_FUNCTION_VARIANT_FIXUPS: ("linkedit_data_command", "dataoff", "datasize", 1),
}

# The bytes of the slice that a command names which no other rule judges: as of a bounded table.
HELD_RANGES = {**UNLISTED_DATA, LC_SYMSEG: ("symseg_command", "offset", "size", 1)}

# The words of the layout for the commands that load a library.
LIBRARIES = {0xc: "load", 0x80000018: "weak", 0x8000001f: "reexport", 0x20: "lazy", 0x80000023: "upward"}

def fields_of(text):
    """The fields of a structure: the name, the offset and the width of each, and whether it is a number."""
    fields = []
    offset = 0
    words = text.split()
    for kind, name in zip(words[0::2], words[1::2]):
        fields.append((name, offset, WIDTHS[kind], kind != "16bytes"))
        offset += WIDTHS[kind]
    return fields

FIELDS = {name: fields_of(text) for name, text in STRUCTURES.items()}
SIZES = {name: fields[-1][1] + fields[-1][2] for name, fields in FIELDS.items()}

def read(data, place, structure, order="little"):
    """Reads a structure: its fields by their names, and its place."""
    assert place + SIZES[structure] <= len(data), "a structure is read only where it is known to lie inside"
    fields = {"place": place}
    for field, offset, width, is_number in FIELDS[structure]:
        raw = data[place + offset:place + offset + width]
        fields[field] = int.from_bytes(raw, order) if is_number else raw
    return SimpleNamespace(**fields)

# Words

class File:
    """The bytes of a file, its entries, and its slices."""

    def __init__(self, data):
        self.data = data
        self.is_universal = data[:4] in (FAT_MAGIC, FAT_MAGIC_64)
        self.entry_structure = "fat_arch_64" if data[:4] == FAT_MAGIC_64 else "fat_arch"

    @cached_property
    def table_end(self):
        """Where entry `nfat_arch` would begin."""
        return 8 + SIZES[self.entry_structure] * read(self.data, 0, "fat_header", "big").nfat_arch

    @cached_property
    def entries(self):
        """The entries of the table. There are none where the file is not universal."""
        if not self.is_universal:
            return []
        places = range(8, self.table_end, SIZES[self.entry_structure])
        return [read(self.data, place, self.entry_structure, "big") for place in places]

    @cached_property
    def slices(self):
        """The slices, in the order of the table. A file that is not universal is one slice, without an entry."""
        if not self.is_universal:
            return [Image(self.data, 0, None)]
        return [Image(self.data[e.offset:e.offset + e.size], e.offset, e) for e in self.entries]

class Image:
    """A slice: its bytes, its start in the file, and its entry. All but these are asked of 64-bit slices alone."""

    def __init__(self, data, start, entry):
        self.data = data
        self.length = len(data)
        self.start = start
        self.entry = entry
        self.is_64_bit = data[:4] == MH_MAGIC_64
        # What `decode` has found, by the start of a stream. No two streams share a byte.
        self.decoded = {}
        # What `walk` has found.
        self.walked = None

    @cached_property
    def header(self):
        return read(self.data, 0, "mach_header_64")

    @cached_property
    def commands_end(self):
        return 32 + self.header.sizeofcmds

    @cached_property
    def commands(self):
        """The `ncmds` load commands, of which `cmd` and `cmdsize` are read. (Known after `command-walk`.)"""
        commands = []
        place = 32
        for _ in range(self.header.ncmds):
            commands.append(read(self.data, place, "load_command"))
            place += commands[-1].cmdsize
        return commands

    @cached_property
    def listed(self):
        """The listed commands, with their structures. (Known after `command-short`.)"""
        return [read(self.data, c.place, LISTED[c.cmd][0]) for c in self.commands if c.cmd in LISTED]

    def only(self, cmd):
        """The command of a kind that is not repeated, or None."""
        found = [command for command in self.listed if command.cmd == cmd]
        return found[0] if found else None

    @cached_property
    def segments(self):
        """The segments, in command order, each with its index and its sections."""
        segments = [command for command in self.listed if command.cmd == LC_SEGMENT_64]
        for k, segment in enumerate(segments):
            segment.index = k
            places = [segment.place + 72 + 80 * n for n in range(segment.nsects)]
            segment.sections = [read(self.data, place, "section_64") for place in places]
            for section in segment.sections:
                section.segment = segment
        return segments

    @cached_property
    def sections(self):
        """The sections of all segments, in command order, each with its segment."""
        return [section for segment in self.segments for section in segment.sections]

    @cached_property
    def symbol_count(self):
        symtab = self.only(LC_SYMTAB)
        return symtab.nsyms if symtab else 0

    @cached_property
    def symbols(self):
        """The symbols. (Known after `table-range`.)"""
        symtab = self.only(LC_SYMTAB)
        return [read(self.data, symtab.symoff + 16 * k, "nlist_64") for k in range(self.symbol_count)]

    @cached_property
    def last_zero_of_strings(self):
        """The offset of the last zero byte of the string table; -1, which is below all offsets, where there is none."""
        symtab = self.only(LC_SYMTAB)
        return self.data[symtab.stroff:symtab.stroff + symtab.strsize].rfind(b"\0")

    @cached_property
    def base_segment(self):
        """The first segment with `fileoff` 0, `filesize` > 0 and `vmsize` > 0, or None."""
        for segment in self.segments:
            if segment.fileoff == 0 and segment.filesize > 0 and segment.vmsize > 0:
                return segment
        return None

    @cached_property
    def base(self):
        return None if self.base_segment is None else self.base_segment.vmaddr

def masked(cpusubtype):
    """The cpusubtype without the capability byte."""
    return cpusubtype & ~CPU_SUBTYPE_MASK

def is_mapped(segment):
    return segment.vmsize > 0

def is_in_file_part(address, segment):
    return segment.vmaddr <= address < segment.vmaddr + segment.filesize

def is_zero_fill(section):
    return section.flags & SECTION_TYPE in (S_ZEROFILL, S_GB_ZEROFILL, S_THREAD_LOCAL_ZEROFILL)

def name_offset(command):
    """The offset of the name, the `lc_str` at 8."""
    return command.path if hasattr(command, "path") else command.name

def first_sharing(ranges):
    """The place of the first range that shares a number with an earlier one. A range is a place, a start and a size.

    All pairs are asked, but few are compared. The earlier ranges are kept in the order of their starts. They share
    nothing with each other, so this is the order of their ends too. So of those that start before this one, the last
    one reaches farthest, and of the others the first one starts least: if neither shares a number, none does.
    """
    earlier = []
    for place, start, size in ranges:
        if size == 0:
            continue
        end = start + size
        at = bisect.bisect(earlier, (start, end))
        if (at > 0 and earlier[at - 1][1] > start) or (at < len(earlier) and earlier[at][0] < end):
            yield place
            return
        earlier.insert(at, (start, end))

# Rules of the file. Places count from the start of the file.

def magic(file):
    """The file has fewer than 4 bytes, or its first four are none of the three magic numbers."""
    if file.data[:4] not in (FAT_MAGIC, FAT_MAGIC_64, MH_MAGIC_64):
        yield 0

def fat_truncated(file):
    """The file has fewer than 8 bytes, or the table ends past it."""
    if len(file.data) < 8 or file.table_end > len(file.data):
        yield 4

def fat_slice_outside(file):
    """`offset` + `size` is past the file."""
    for entry in file.entries:
        if entry.offset + entry.size > len(file.data):
            yield entry.place

def fat_slice_in_table(file):
    """`offset` is below the table's end."""
    for entry in file.entries:
        if entry.offset < file.table_end:
            yield entry.place

def fat_align(file):
    """2^`align` does not divide `offset`."""
    for entry in file.entries:
        # `offset` is above 0 and below 2^64, so neither 2^64 nor a greater power divides it.
        if entry.offset % 2 ** min(entry.align, 64) != 0:
            yield entry.place

def fat_overlap(file):
    """The entry's slice shares a byte with that of some earlier entry."""
    return first_sharing((entry.place, entry.offset, entry.size) for entry in file.entries)

def fat_duplicate(file):
    """Some earlier entry has the same `cputype` and masked cpusubtype."""
    earlier = set()
    for entry in file.entries:
        architecture = (entry.cputype, masked(entry.cpusubtype))
        if architecture in earlier:
            yield entry.place
        earlier.add(architecture)

def fat_slice_magic(file):
    """A slice has fewer than 4 bytes of its own, or begins with none of the four magic numbers of images."""
    for image in file.slices:
        if image.data[:4] not in (MH_MAGIC_64, MH_MAGIC_64_BIG, MH_MAGIC, MH_MAGIC_BIG):
            yield image.start

def fat_empty(file):
    """There is no 64-bit slice."""
    if not any(image.is_64_bit for image in file.slices):
        yield 4

# Rules of the header and the load commands. From here on places count from the start of the slice.

def header_truncated(image):
    """The slice has fewer than 32 bytes."""
    if image.length < 32:
        yield 0

def arch_mismatch(image):
    """The file is universal and the header's `cputype` or masked cpusubtype differs from the entry's."""
    header, entry = image.header, image.entry
    if entry is not None:
        if header.cputype != entry.cputype or masked(header.cpusubtype) != masked(entry.cpusubtype):
            yield 4

def file_type(image):
    """`filetype` is none of those that are judged."""
    if image.header.filetype not in FILETYPES:
        yield 12

def commands_outside(image):
    """32 + `sizeofcmds` is past the slice."""
    if image.commands_end > image.length:
        yield 20

def command_walk(image):
    """Fewer than `ncmds` good commands have been walked, and at p there is none."""
    place = 32
    for _ in range(image.header.ncmds):
        if place + 8 > image.commands_end:
            yield place
            return
        cmdsize = read(image.data, place, "load_command").cmdsize
        if cmdsize < 8 or cmdsize % 8 != 0 or place + cmdsize > image.commands_end:
            yield place
            return
        place += cmdsize

def least_size(image, command):
    """The least `cmdsize` of a listed command. `nsects` or `ntools` counts only where it lies inside the command."""
    def count_at(offset):
        if offset + 4 > command.cmdsize:
            return 0
        return int.from_bytes(image.data[command.place + offset:command.place + offset + 4], "little")

    least = LISTED[command.cmd][1]
    if command.cmd == LC_SEGMENT_64:
        return least + 80 * count_at(64)
    if command.cmd == LC_BUILD_VERSION:
        return least + 8 * count_at(20)
    return least

def command_short(image):
    """The `cmdsize` of a listed command is below its least."""
    for command in image.commands:
        if command.cmd in LISTED and command.cmdsize < least_size(image, command):
            yield command.place

def command_repeated(image):
    """Some earlier command has the same `cmd`, and that is one of the five."""
    earlier = set()
    for command in image.commands:
        if command.cmd in (LC_SYMTAB, LC_DYSYMTAB, LC_ID_DYLIB, LC_UUID, LC_MAIN):
            if command.cmd in earlier:
                yield command.place
            earlier.add(command.cmd)

def dylib_id(image):
    """An image whose filetype names itself has no `LC_ID_DYLIB`, or another image has one."""
    has_id = image.only(LC_ID_DYLIB) is not None
    if has_id != FILETYPES[image.header.filetype][0]:
        yield 12

def name(image):
    """The name offset is below its least, or there is no zero byte from there up to the command's end."""
    for command in image.listed:
        least = LISTED[command.cmd][2]
        if least is not None:
            offset = name_offset(command)
            content = image.data[command.place:command.place + command.cmdsize]
            if offset < least or 0 not in content[offset:]:
                yield command.place

# Rules of segments and sections

def segment_address(image):
    """`vmaddr` + `vmsize` > 2^64, in any segment."""
    for segment in image.segments:
        if segment.vmaddr + segment.vmsize > 2 ** 64:
            yield segment.place

def segment_size(image):
    """The segment is mapped and `filesize` > `vmsize`."""
    for segment in image.segments:
        if is_mapped(segment) and segment.filesize > segment.vmsize:
            yield segment.place

def segment_file(image):
    """`filesize` > 0 and `fileoff` + `filesize` is past the slice."""
    for segment in image.segments:
        if segment.filesize > 0 and segment.fileoff + segment.filesize > image.length:
            yield segment.place

def segment_overlap(image):
    """The segment shares an address with some segment earlier in command order."""
    return first_sharing((segment.place, segment.vmaddr, segment.vmsize) for segment in image.segments)

def section_address(image):
    """The segment is mapped, `size` > 0, and the section's addresses do not lie in the segment's."""
    for section in image.sections:
        segment = section.segment
        if is_mapped(segment) and section.size > 0:
            if section.addr < segment.vmaddr or section.addr + section.size > segment.vmaddr + segment.vmsize:
                yield section.place

def section_file(image):
    """`size` > 0, not zero-fill, and the bytes are not where the address says; or, unmapped, are past the slice."""
    for section in image.sections:
        segment = section.segment
        if section.size == 0 or is_zero_fill(section):
            continue
        if is_mapped(segment):
            d = section.addr - segment.vmaddr
            if section.offset != segment.fileoff + d or d + section.size > segment.filesize:
                yield section.place
        elif section.offset + section.size > image.length:
            yield section.place

def section_relocs(image):
    """`nreloc` > 0 and `reloff` + 8 * `nreloc` is past the slice."""
    for section in image.sections:
        if section.nreloc > 0 and section.reloff + 8 * section.nreloc > image.length:
            yield section.place

# Rules of tables and symbols

def table_range(image):
    """One of the command's tables has a count that is not 0, and ends past the slice."""
    for command in image.listed:
        for start, count, width in BOUNDED_TABLES.get(LISTED[command.cmd][0], []):
            entries = getattr(command, count)
            if entries != 0 and getattr(command, start) + entries * width > image.length:
                yield command.place

def symbol_group(image):
    """A group has a count that is not 0, and its first index + count is above the symbol count."""
    dysymtab = image.only(LC_DYSYMTAB)
    if dysymtab is not None:
        for first, count in ((dysymtab.ilocalsym, dysymtab.nlocalsym), (dysymtab.iextdefsym, dysymtab.nextdefsym),
                             (dysymtab.iundefsym, dysymtab.nundefsym)):
            if count != 0 and first + count > image.symbol_count:
                yield dysymtab.place

def symbol_name(image):
    """`n_strx` is not 0 and there is no zero byte from `stroff` + `n_strx` up to the end of the string table."""
    symtab = image.only(LC_SYMTAB)
    if symtab is not None:
        for symbol in image.symbols:
            if symbol.n_strx != 0 and symbol.n_strx > image.last_zero_of_strings:
                yield symbol.place

def symbol_section(image):
    """The symbol is no debugging entry, is of `N_SECT`, and `n_sect` is 0 or above the number of sections."""
    for symbol in image.symbols:
        if symbol.n_type & N_STAB == 0 and symbol.n_type & N_TYPE == N_SECT:
            if symbol.n_sect == 0 or symbol.n_sect > len(image.sections):
                yield symbol.place

def indirect_index(image):
    """The entry has neither of the two bits, and is not below the symbol count."""
    dysymtab = image.only(LC_DYSYMTAB)
    if dysymtab is not None:
        for k in range(dysymtab.nindirectsyms):
            place = dysymtab.indirectsymoff + 4 * k
            index = int.from_bytes(image.data[place:place + 4], "little")
            if index & INDIRECT_SYMBOL_LOCAL == 0 and index & INDIRECT_SYMBOL_ABS == 0 and index >= image.symbol_count:
                yield place

# Rule of the entry

def place_at(image, address):
    """The place of the byte of the file that is at an address, or None."""
    for segment in image.segments:
        if is_mapped(segment) and is_in_file_part(address, segment):
            return segment.fileoff + address - segment.vmaddr
    return None

def is_executable(image, address):
    """The address is in a file part that is mapped and executable."""
    return any(is_mapped(segment) and segment.initprot & VM_PROT_EXECUTE and is_in_file_part(address, segment)
               for segment in image.segments)

def entry(image):
    """There is an `LC_MAIN`, and no base, or the entry address is in no file part that is mapped and executable."""
    main_command = image.only(LC_MAIN)
    if main_command is None:
        return
    if image.base is None:
        yield main_command.place
        return
    if not is_executable(image, image.base + main_command.entryoff):
        yield main_command.place

# The strict profile. Its rules may take for granted that all above are unbroken as well.

def gaps(length, ranges):
    """What of `length` bytes lies in none of the ranges, by ascending places. A range is a start and a size, and a gap
    is a start and an end."""
    place = 0
    for start, size in sorted(ranges) + [(length, 1)]:
        if size > 0:
            if place < start:
                yield place, start
            place = max(place, start + size)

def first_other(data, start, end, expected):
    """The first place from `start` up to `end` whose byte is none of the expected ones; `end` if there is none."""
    return end - len(data[start:end].lstrip(expected))

def first_stray(data, ranges):
    """The place of the first byte that is not zero and lies in none of the ranges."""
    for start, end in gaps(len(data), ranges):
        place = first_other(data, start, end, b"\0")
        if place < end:
            yield place
            return

def fat_stray_byte(file):
    """A byte that is not zero lies neither in the header or the table nor in a slice."""
    return first_stray(file.data, [(0, file.table_end)] + [(entry.offset, entry.size) for entry in file.entries])

def commands_end(image):
    """The last command does not end at 32 + `sizeofcmds`."""
    end = 32
    for command in image.commands:
        end = command.place + command.cmdsize
    if end != image.commands_end:
        yield 20

def header_segment(image):
    """No mapped segment has `fileoff` 0 and a `filesize` of at least 32 + `sizeofcmds`."""
    if not any(is_mapped(segment) and segment.fileoff == 0 and segment.filesize >= image.commands_end
               for segment in image.segments):
        yield 20

def segment_file_overlap(image):
    """The segment shares a byte of the file with some segment earlier in command order."""
    return first_sharing((segment.place, segment.fileoff, segment.filesize) for segment in image.segments)

def tables(image, command):
    """The start and the size of each table of a listed command, or of the data of another one."""
    if command.cmd in LISTED:
        structure = LISTED[command.cmd][0]
        rows = BOUNDED_TABLES.get(structure, [])
    elif command.cmd in UNLISTED_DATA and command.cmdsize >= 16:
        structure, *row = UNLISTED_DATA[command.cmd]
        rows = [row]
    else:
        return
    fields = read(image.data, command.place, structure)
    for start, count, width in rows:
        yield getattr(fields, start), getattr(fields, count) * width

def elements(image):
    """The elements, in their order: of each the place where it is described, its start and its size."""
    sections = {segment.place: segment.sections for segment in image.segments}
    yield 0, 0, image.commands_end
    for command in image.commands:
        for section in sections.get(command.place, []):
            if not is_zero_fill(section):
                yield section.place, section.offset, section.size
            yield section.place, section.reloff, 8 * section.nreloc
        if command.cmd != LC_ENCRYPTION_INFO_64:
            for start, size in tables(image, command):
                yield command.place, start, size

def element_overlap(image):
    """The element shares a byte with some earlier element; or it has bytes, and ends past the slice."""
    yield from first_sharing(elements(image))
    for place, start, size in elements(image):
        if size > 0 and start + size > image.length:
            yield place

def stray_byte(image):
    """A byte that is not zero lies in no segment's bytes in the file."""
    return first_stray(image.data, [(segment.fileoff, segment.filesize) for segment in image.segments])

def encrypted_range(image):
    """`cryptsize` > 0, and `cryptoff` is in the headers, or the range is not among the file bytes of one segment."""
    # No two segments share a byte, so only the last segment that begins at or before `cryptoff` can have the range.
    parts = sorted((segment.fileoff, segment.filesize) for segment in image.segments if segment.filesize > 0)
    for command in image.listed:
        if command.cmd == LC_ENCRYPTION_INFO_64 and command.cryptsize > 0:
            at = bisect.bisect(parts, (command.cryptoff, 2 ** 64))
            end = sum(parts[at - 1]) if at > 0 else 0
            if command.cryptoff < image.commands_end or command.cryptoff + command.cryptsize > end:
                yield command.place

def command_slack(image):
    """A byte that is not zero lies in a listed command, and not in its structure, its records or its name."""
    for command in image.listed:
        content = image.data[command.place:command.place + command.cmdsize]
        ranges = [(0, least_size(image, command))]
        if LISTED[command.cmd][2] is not None:
            start = name_offset(command)
            ranges.append((start, content.index(0, start) + 1 - start))
        for offset in first_stray(content, ranges):
            yield command.place + offset

def is_nop(image, place):
    """The byte is one of a NOP of the processor."""
    nop = NOPS.get(image.header.cputype)
    if nop is None:
        return False
    start = place - place % len(nop)
    return image.data[start:start + len(nop)] == nop

def unclaimed_byte(image):
    """A byte that is not zero lies among the file bytes of a segment, but in no element, and is not of a NOP of code."""
    unclaimed = list(gaps(image.length, [(start, size) for _, start, size in elements(image)]))
    ends = [end for _, end in unclaimed]
    for segment in image.segments:
        segment_end = segment.fileoff + segment.filesize
        at = bisect.bisect(ends, segment.fileoff)
        while at < len(unclaimed) and unclaimed[at][0] < segment_end:
            start, end = max(unclaimed[at][0], segment.fileoff), min(unclaimed[at][1], segment_end)
            place = first_other(image.data, start, end, b"\0")
            while place < end and segment.initprot & VM_PROT_EXECUTE and is_nop(image, place):
                place = first_other(image.data, place + 1, end, b"\0")
            if place < end:
                yield place
                break
            at += 1

# The linked profile of docs/rules/linked.md. Its rules may take for granted that all above are unbroken as well.

def is_writable(segment):
    return is_mapped(segment) and segment.initprot & VM_PROT_WRITE != 0

def linked_tables(image):
    """The tables of linked data, in command order: of each its command, kind, stream, start and end."""
    for command in image.listed:
        for start, size, kind, stream in LINKED_TABLES.get(command.cmd, []):
            first, length = getattr(command, start), getattr(command, size)
            if length > 0:
                yield SimpleNamespace(command=command.place, kind=kind, stream=stream, start=first, end=first + length)

def symbol_tables(image):
    """The symbol tables, in command order: of each its command, start and end."""
    for command in image.listed:
        for start, count, size in SYMBOL_TABLES.get(command.cmd, []):
            first, length = getattr(command, start), getattr(command, count) * size
            if length > 0:
                yield SimpleNamespace(command=command.place, start=first, end=first + length)

def is_readable(segment):
    return segment.initprot & VM_PROT_READ != 0

def is_protected(segment):
    """A kernel decrypts the bytes of the segment."""
    return segment.flags & SG_PROTECTED_VERSION_1 != 0

def is_home(segment, table):
    """The whole table lies in the bytes of the segment, which a loader reads as the file has them."""
    return (is_mapped(segment) and is_readable(segment) and not is_writable(segment)
            and not is_protected(segment)
            and segment.fileoff <= table.start and table.end <= segment.fileoff + segment.filesize)

def segments_named(image, name):
    return [segment for segment in image.segments if up_to_zero(segment.segname) == name]

def linkedit_segments(image):
    return segments_named(image, b"__LINKEDIT")

def text_segments(image):
    return segments_named(image, b"__TEXT")

def is_encrypted(image, table):
    """The table shares a byte with an encrypted range."""
    return any(max(table.start, command.cryptoff) < min(table.end, command.cryptoff + command.cryptsize)
               for command in image.listed if command.cmd == LC_ENCRYPTION_INFO_64)

def budget(image):
    return sum(segment.filesize // 8 for segment in image.segments if is_writable(segment))

def library_count(image):
    return sum(command.cmd in LIBRARIES for command in image.commands)

def kinds_of(command):
    return {kind for _, _, kind, _ in LINKED_TABLES.get(command.cmd, [])}

def table_repeated(image):
    """The command is of a kind of some earlier command."""
    earlier = set()
    for command in image.commands:
        kinds = kinds_of(command)
        if kinds & earlier:
            yield command.place
        earlier |= kinds

def function_variants(image):
    """The command is one by which newer loaders write."""
    for command in image.commands:
        if command.cmd in (LC_FUNCTION_VARIANTS, LC_FUNCTION_VARIANT_FIXUPS):
            yield command.place

def table_home(image):
    """The command names a table or a symbol table of which some linkedit segment is no home, or without such a segment,
    or encrypted."""
    named = linkedit_segments(image)
    for table in [*linked_tables(image), *symbol_tables(image)]:
        if not named or not all(is_home(segment, table) for segment in named) or is_encrypted(image, table):
            yield table.command

def header_home(image):
    """The base is not safe, or not where the text segments are."""
    if not (has_safe_base(image) and is_text_at_base(image)):
        yield 0

def has_safe_base(image):
    """There is a base, and its segment can be read and is not writable."""
    base = image.base_segment
    return base is not None and is_readable(base) and not is_writable(base)

def is_text_at_base(image):
    """There is a text segment, and the address of each is the base."""
    named = text_segments(image)
    return len(named) > 0 and all(segment.vmaddr == image.base for segment in named)

# Streams. An opcode is read with its operands, and nothing of the image but the stream's bytes decides about it.

class Malformed(Exception):
    """An operand that is no number or no name."""

def operand(data, place, end, kind):
    """The operand that begins at a place of a stream, and where it ends. A name is its place."""
    if kind == "name":
        zero = data.find(0, place, end)
        if zero < 0:
            raise Malformed
        return place, zero + 1
    number_of = 0
    for k in range(10):
        if place + k >= end:
            raise Malformed
        byte = data[place + k]
        number_of += (byte & 0x7f) * 2 ** (7 * k)
        if byte & 0x80 == 0:
            if kind == "addend":
                number_of -= 2 ** (7 * (k + 1)) if byte & 0x40 else 0
                is_number = -2 ** 63 <= number_of < 2 ** 63
            else:
                is_number = number_of < 2 ** 64
            if not is_number:
                raise Malformed
            return number_of, place + k + 1
    raise Malformed

def decode(image, table):
    """The opcodes of a stream, and the place of the first one that is broken, or None."""
    if table.start not in image.decoded:
        image.decoded[table.start] = decode_once(image, table)
    return image.decoded[table.start]

def decode_once(image, table):
    known = REBASE_OPCODES if table.stream == "rebase" else BIND_OPCODES
    opcodes = []
    place = table.start
    while place < table.end:
        if image.data[place] & 0xf0 not in known:
            return opcodes, place
        name_of, operands = known[image.data[place] & 0xf0]
        opcode = SimpleNamespace(place=place, name=name_of, imm=image.data[place] & 0x0f)
        place += 1
        try:
            for kind in operands:
                value, place = operand(image.data, place, table.end, kind)
                setattr(opcode, kind if kind != "name" else "symbol", value)
        except Malformed:
            return opcodes, opcode.place
        if name_of == "REBASE_OPCODE_SET_TYPE_IMM" and opcode.imm != REBASE_TYPE_POINTER:
            return opcodes, opcode.place
        if name_of == "BIND_OPCODE_SET_TYPE_IMM" and opcode.imm != BIND_TYPE_POINTER:
            return opcodes, opcode.place
        opcodes.append(opcode)
        if name_of.endswith("_OPCODE_DONE") and table.stream != "lazy":
            return opcodes, opcode.place if any(image.data[place:table.end]) else None
    return opcodes, None

def streams(image, *names):
    """The streams of these names. (There is at most one of each after `table-repeated`.)"""
    return [table for table in linked_tables(image) if table.stream in names]

REBASE_STREAMS = ("rebase",)
BIND_STREAMS = ("bind", "weak", "lazy")

def broken_opcodes(image, names):
    for table in streams(image, *names):
        _, broken = decode(image, table)
        if broken is not None:
            yield broken

def ordinal_of(opcode):
    """The ordinal that an opcode sets, or None."""
    if opcode.name == "BIND_OPCODE_SET_DYLIB_ORDINAL_IMM":
        return opcode.imm
    if opcode.name == "BIND_OPCODE_SET_DYLIB_ORDINAL_ULEB":
        return opcode.ordinal
    if opcode.name == "BIND_OPCODE_SET_DYLIB_SPECIAL_IMM":
        return 0 if opcode.imm == 0 else opcode.imm - 16
    return None

def count_and_skip(opcode):
    """The count and the skip of an opcode that has them, or None."""
    if opcode.name == "REBASE_OPCODE_DO_REBASE_IMM_TIMES":
        return opcode.imm, 0
    if opcode.name == "REBASE_OPCODE_DO_REBASE_ULEB_TIMES":
        return opcode.count, 0
    if opcode.name in ("REBASE_OPCODE_DO_REBASE_ADD_ADDR_ULEB", "BIND_OPCODE_DO_BIND_ADD_ADDR_ULEB"):
        return 1, opcode.skip
    if opcode.name in ("REBASE_OPCODE_DO_REBASE_ULEB_TIMES_SKIPPING_ULEB",
                       "BIND_OPCODE_DO_BIND_ULEB_TIMES_SKIPPING_ULEB"):
        return opcode.count, opcode.skip
    if opcode.name == "BIND_OPCODE_DO_BIND":
        return 1, 0
    if opcode.name == "BIND_OPCODE_DO_BIND_ADD_ADDR_IMM_SCALED":
        return 1, 8 * opcode.imm
    return None

def runs(image, table):
    """Each opcode of a stream with a count: its place, count and skip, and the state before it."""
    start = dict(segment=None, cursor=0, symbol=None, is_new=False, addend=0, library=0)
    state = dict(start)
    for opcode in decode(image, table)[0]:
        if opcode.name == "BIND_OPCODE_DONE":
            state = dict(start)
        elif ordinal_of(opcode) is not None:
            state.update(library=ordinal_of(opcode), is_new=True)
        elif opcode.name == "BIND_OPCODE_SET_ADDEND_SLEB":
            state["addend"] = opcode.addend
        elif opcode.name.endswith("_SET_SEGMENT_AND_OFFSET_ULEB"):
            state.update(segment=opcode.imm, cursor=opcode.offset)
        elif opcode.name.endswith("_ADD_ADDR_ULEB") and "_DO_" not in opcode.name:
            state["cursor"] += opcode.distance
        elif opcode.name == "REBASE_OPCODE_ADD_ADDR_IMM_SCALED":
            state["cursor"] += 8 * opcode.imm
        elif opcode.name == "BIND_OPCODE_SET_SYMBOL_TRAILING_FLAGS_IMM":
            state.update(symbol=opcode.symbol, is_new=True)
        elif count_and_skip(opcode) is not None:
            count, skip = count_and_skip(opcode)
            yield SimpleNamespace(place=opcode.place, count=count, skip=skip, **state)
            state["cursor"] += count * (8 + skip)
            state["is_new"] = state["is_new"] and count == 0
        state["cursor"] %= 2 ** 64

def bad_slots(image, names):
    for table in streams(image, *names):
        for run in runs(image, table):
            if run.count > 0 and not has_good_slots(image, run):
                yield run.place

def has_good_slots(image, run):
    """The segment is set, is there and is writable, and the last slot ends among its file bytes."""
    if run.segment is None or run.segment >= len(image.segments):
        return False
    segment = image.segments[run.segment]
    return is_writable(segment) and run.cursor + (run.count - 1) * (8 + run.skip) + 8 <= segment.filesize

def above_budget(image, names):
    most = budget(image)
    for table in streams(image, *names):
        total = 0
        for run in runs(image, table):
            total += run.count
            if total > most:
                yield run.place
                break

def rebase_opcode(image):
    """The opcode is not known, or its type is no pointer, an operand is no number, or a byte after DONE is not 0."""
    return broken_opcodes(image, REBASE_STREAMS)

def rebase_slot(image):
    """A slot of the opcode is in no segment that is writable, or ends past the bytes of it."""
    return bad_slots(image, REBASE_STREAMS)

def rebase_total(image):
    """The counts of the stream up to and including this opcode have a sum above the budget."""
    return above_budget(image, REBASE_STREAMS)

def bind_opcode(image):
    """The same as `rebase_opcode`; or a name does not end."""
    return broken_opcodes(image, BIND_STREAMS)

def bind_library(image):
    """The opcode sets an ordinal above the number of libraries, or below -3."""
    count = library_count(image)
    for table in streams(image, *BIND_STREAMS):
        for opcode in decode(image, table)[0]:
            ordinal = ordinal_of(opcode)
            if ordinal is not None and (ordinal > count or ordinal < BIND_SPECIAL_DYLIB_WEAK_LOOKUP):
                yield opcode.place

def bind_symbol(image):
    """The opcode has a count above 0, and no name is set."""
    for table in streams(image, *BIND_STREAMS):
        for run in runs(image, table):
            if run.count > 0 and run.symbol is None:
                yield run.place

def bind_slot(image):
    """The same as `rebase_slot`."""
    return bad_slots(image, BIND_STREAMS)

def bind_total(image):
    """The same as `rebase_total`, of each stream by itself."""
    return above_budget(image, BIND_STREAMS)

def bind_names(image):
    """The names new up to and including this opcode, with their zero bytes, have more bytes than the stream."""
    for table in streams(image, *BIND_STREAMS):
        total = 0
        for run in runs(image, table):
            if run.count > 0 and run.is_new:
                total += image.data.index(0, run.symbol) + 1 - run.symbol
                if total > table.end - table.start:
                    yield run.place
                    break

# Chained fixups. All places and ends are those in the slice.

def chain_table(image):
    """The chain table, or None. (After `table-repeated` there is at most one.)"""
    command = image.only(LC_DYLD_CHAINED_FIXUPS)
    if command is None or command.datasize == 0:
        return None
    return SimpleNamespace(start=command.dataoff, size=command.datasize, end=command.dataoff + command.datasize)

def fixups_header(image, table):
    return read(image.data, table.start, "dyld_chained_fixups_header")

def chain_header(image):
    """The command names no table; or the header is not all in the table; or the version or one of the formats is not
    known."""
    command, table = image.only(LC_DYLD_CHAINED_FIXUPS), chain_table(image)
    if command is not None and table is None:
        yield command.place
    if table is None:
        return
    if table.size < SIZES["dyld_chained_fixups_header"]:
        yield table.start
        return
    header = fixups_header(image, table)
    if header.fixups_version != 0 or header.imports_format not in IMPORT_FORMATS or header.symbols_format != 0:
        yield table.start

def chain_starts(image):
    """The array is not all in the table, or has more entries than there are segments; or the starts of a segment are
    broken."""
    table = chain_table(image)
    if table is None:
        return
    array = table.start + fixups_header(image, table).starts_offset
    entries = array + SIZES["dyld_chained_starts_in_image"]
    if entries > table.end:
        yield table.start
        return
    count = read(image.data, array, "dyld_chained_starts_in_image").seg_count
    if count > len(image.segments) or entries + 4 * count > table.end:
        yield array
        return
    end = 0
    for segment, place in zip(image.segments, range(entries, entries + 4 * count, 4)):
        entry = int.from_bytes(image.data[place:place + 4], "little")
        if entry > 0:
            if array + entry < end or not are_good_starts(image, table, segment, array + entry):
                yield place
                return
            end = array + entry + read(image.data, array + entry, "dyld_chained_starts_in_segment").size

def are_good_starts(image, table, segment, place):
    """The starts at a place are in the table, are of a known kind, and say where the segment is, which is writable."""
    if place + SIZES["dyld_chained_starts_in_segment"] > table.end:
        return False
    starts = read(image.data, place, "dyld_chained_starts_in_segment")
    return (place + starts.size <= table.end
            and SIZES["dyld_chained_starts_in_segment"] + 2 * starts.page_count <= starts.size
            and starts.pointer_format in POINTER_FORMATS and starts.page_size in PAGE_SIZES
            and image.base + starts.segment_offset == segment.vmaddr and is_writable(segment))

def bits(number_of, first, last):
    """The bits of a number from the first up to and including the last, as a number."""
    return (number_of >> first) % 2 ** (last - first + 1)

def ordinal_of_import(number_of, first, last):
    """The ordinal in these bits of an import. The greatest ones are below 0."""
    ordinal, modulus = bits(number_of, first, last), 2 ** (last - first + 1)
    return ordinal - modulus if ordinal >= modulus - SPECIAL_ORDINALS else ordinal

def imports(image):
    """The imports: of each its place, its ordinal and where its name begins. (They are in the table after
    `chain-imports`, which asks for none where they are not.)"""
    table = chain_table(image)
    if table is None:
        return
    header = fixups_header(image, table)
    size, bits_of_ordinal, bits_of_offset = IMPORT_FORMATS[header.imports_format]
    for k in range(header.imports_count):
        place = table.start + header.imports_offset + k * size
        number_of = int.from_bytes(image.data[place:place + size], "little")
        yield SimpleNamespace(place=place, ordinal=ordinal_of_import(number_of, *bits_of_ordinal),
                              name=table.start + header.symbols_offset + bits(number_of, *bits_of_offset))

def chain_imports(image):
    """The imports are not all in the table; or the name of one does not end there."""
    table = chain_table(image)
    if table is None:
        return
    header = fixups_header(image, table)
    size, *_ = IMPORT_FORMATS[header.imports_format]
    if header.imports_count > 0 and header.imports_offset + header.imports_count * size > table.size:
        yield table.start
        return
    last_zero = image.data.rfind(0, table.start, table.end)
    for one in imports(image):
        if one.name > last_zero:
            yield one.place
            return

def chain_total(image):
    """The names of the imports up to and including this one, with their zero bytes, have more bytes than the table."""
    table = chain_table(image)
    total = 0
    for one in imports(image):
        total += image.data.index(0, one.name, table.end) + 1 - one.name
        if total > table.size:
            yield one.place
            return

def chain_library(image):
    """The ordinal of the import is above the number of libraries, or below -3."""
    count = library_count(image)
    for one in imports(image):
        if one.ordinal > count or one.ordinal < BIND_SPECIAL_DYLIB_WEAK_LOOKUP:
            yield one.place

def starts_of_segments(image, table):
    """Each segment with starts, and these. (After `chain-starts` they are in the table, and are of a known format.)"""
    array = table.start + fixups_header(image, table).starts_offset
    count = read(image.data, array, "dyld_chained_starts_in_image").seg_count
    entries = array + SIZES["dyld_chained_starts_in_image"]
    for segment, place in zip(image.segments, range(entries, entries + 4 * count, 4)):
        entry = int.from_bytes(image.data[place:place + 4], "little")
        if entry > 0:
            yield segment, read(image.data, array + entry, "dyld_chained_starts_in_segment")

def pages(image):
    """The pages that have chains: of each its segment, its starts, its end in the segment, the place of its page start
    in the table, and the offset of its first pointer."""
    table = chain_table(image)
    if table is None:
        return
    for segment, starts in starts_of_segments(image, table):
        for page in range(starts.page_count):
            place = starts.place + SIZES["dyld_chained_starts_in_segment"] + PAGE_START_SIZE * page
            start = int.from_bytes(image.data[place:place + PAGE_START_SIZE], "little")
            if start != DYLD_CHAINED_PTR_START_NONE:
                yield SimpleNamespace(segment=segment, starts=starts, end=(page + 1) * starts.page_size, place=place,
                                      first=page * starts.page_size + start)

def can_be_written(image, segment):
    """A loader finds the bytes of the segment as they are in the file, and can write them."""
    bytes_of_it = SimpleNamespace(start=segment.fileoff, end=segment.fileoff + segment.filesize)
    several = sum(command.cmd == LC_ENCRYPTION_INFO_64 for command in image.listed) > 1
    return is_writable(segment) and not is_protected(segment) and not several and not is_encrypted(image, bytes_of_it)

def pointer_at(image, page, offset):
    """The pointer at an offset of the segment: its place, how many bytes further on the next one begins, or 0, and the
    import that it binds, or None."""
    place = page.segment.fileoff + offset
    number_of = int.from_bytes(image.data[place:place + POINTER_SIZE], "little")
    bits_of_next, step, bind, bits_of_ordinal = POINTER_FORMATS[page.starts.pointer_format]
    return SimpleNamespace(place=place, distance=bits(number_of, *bits_of_next) * step,
                           binds=bits(number_of, *bits_of_ordinal) if bits(number_of, bind, bind) == 1 else None)

def chain_of(image, page):
    """The pointers that the chain of a page comes to, and then, if one does not fit or is too near, None."""
    end = min(page.end, page.segment.filesize) if can_be_written(image, page.segment) else 0
    offset = page.first
    while offset + POINTER_SIZE <= end:
        pointer = pointer_at(image, page, offset)
        yield pointer
        if pointer.distance == 0:
            return
        if pointer.distance < POINTER_SIZE:
            break
        offset += pointer.distance
    yield None

def chain_slot(image):
    """The first pointer of a page does not fit; or a pointer says a next one that does not, or that is too near."""
    for page in pages(image):
        place = page.place
        for pointer in chain_of(image, page):
            if pointer is None:
                yield place
            else:
                place = pointer.place

def chain_bind(image):
    """The pointer binds an import that is not below the number of imports."""
    for page in pages(image):
        count = fixups_header(image, chain_table(image)).imports_count
        for pointer in chain_of(image, page):
            if pointer is not None and pointer.binds is not None and pointer.binds >= count:
                yield pointer.place

# Exports

def table_of(image, kind):
    """The table of this kind, of which one command names one, or None. (After `table-repeated` there is at most one.)"""
    return next((table for table in linked_tables(image) if table.kind == kind), None)

def last_before(starts, number_of):
    """Among ascending starts the index of the last one that is not above the number, or None."""
    at = bisect.bisect(starts, number_of)
    return at - 1 if at > 0 else None

def read_node(image, table, place):
    """The node that begins at a place: where its terminal part begins and ends, its labels, its children, as offsets in
    the table, and where it ends."""
    size, start = operand(image.data, place, table.end, "number")
    # The count of the edges is the byte past the terminal part.
    count = start + size
    if count >= table.end:
        raise Malformed
    node = SimpleNamespace(place=place, start=start, terminal_end=count, end=count + 1, labels=[], children=[])
    for _ in range(image.data[count]):
        label, node.end = operand(image.data, node.end, table.end, "name")
        node.labels.append(image.data[label:node.end - 1])
        child, node.end = operand(image.data, node.end, table.end, "number")
        node.children.append(child)
    return node

def walk(image):
    """The nodes of the export trie that are met, and the rule that ends the walk, with its place, or None."""
    if image.walked is None:
        table = table_of(image, "exports")
        image.walked = walk_once(image, table) if table else ([], None)
    return image.walked

def walk_once(image, table):
    nodes = []
    left = table.end - table.start
    waiting = [0]
    while waiting:
        # A child that is not in the table would begin past its end.
        place = min(table.start + waiting.pop(), table.end)
        try:
            node = read_node(image, table, place)
        except Malformed:
            return nodes, ("export_node", place)
        left -= node.end - place
        if left < 0:
            return nodes, ("export_total", place)
        nodes.append(node)
        # The first child is visited next, and all nodes below it before the second child.
        waiting += reversed(node.children)
    return nodes, None

def export_node(image):
    """The node does not end in the table."""
    _, broken = walk(image)
    if broken and broken[0] == "export_node":
        yield broken[1]

def export_total(image):
    """The nodes met up to and including this one, each as often as it is met, have more bytes than the table."""
    _, broken = walk(image)
    if broken and broken[0] == "export_total":
        yield broken[1]

def read_export(image, node):
    """What the terminal part of a node says: the flags, and an ordinal, or an address and a resolver."""
    def following(kind, place):
        return operand(image.data, place, node.terminal_end, kind)

    export = SimpleNamespace(place=node.place, ordinal=None, offsets=[])
    export.flags, place = following("number", node.start)
    if export.flags & EXPORT_SYMBOL_FLAGS_REEXPORT:
        export.ordinal, place = following("number", place)
        _, place = following("name", place)
    else:
        for _ in range(2 if export.flags & EXPORT_SYMBOL_FLAGS_STUB_AND_RESOLVER else 1):
            offset, place = following("number", place)
            export.offsets.append(offset)
    if place != node.terminal_end:
        raise Malformed
    return export

def exports(image):
    """The exports of the nodes that are met, in any order. (After `export-terminal` each is read to its end.)"""
    return [read_export(image, node) for node in walk(image)[0] if node.terminal_end > node.start]

def has_known_flags(flags):
    """The flags are all known, and so is the kind; and a re-export has no resolver."""
    both = EXPORT_SYMBOL_FLAGS_REEXPORT | EXPORT_SYMBOL_FLAGS_STUB_AND_RESOLVER
    return (flags & ~EXPORT_SYMBOL_FLAGS == 0 and flags & EXPORT_SYMBOL_FLAGS_KIND_MASK != KIND_UNKNOWN
            and flags & both != both)

def export_terminal(image):
    """The node has a terminal part that is not read exactly to its end, or whose flags are not known."""
    for node in walk(image)[0]:
        if node.terminal_end > node.start:
            try:
                is_known = has_known_flags(read_export(image, node).flags)
            except Malformed:
                is_known = False
            if not is_known:
                yield node.place

def export_library(image):
    """The ordinal of a re-export is above the number of libraries, and below -3 as a number of 64 bits."""
    count = library_count(image)
    for export in exports(image):
        if export.ordinal is not None and count < export.ordinal < LEAST_SPECIAL_ORDINAL:
            yield export.place

def is_relative(export):
    """The numbers of the export count from the base. (A re-export has none.)"""
    return export.flags & EXPORT_SYMBOL_FLAGS_KIND_MASK != EXPORT_SYMBOL_FLAGS_KIND_ABSOLUTE

def export_address(image):
    """The base + the address, or the base + the resolver, is in no segment."""
    # No two segments share an address, so only the last segment that begins at or before the address can have it.
    mapped = sorted((segment.vmaddr, segment.vmaddr + segment.vmsize) for segment in image.segments if is_mapped(segment))
    starts = [start for start, _ in mapped]
    for export in filter(is_relative, exports(image)):
        for offset in export.offsets:
            at = last_before(starts, image.base + offset)
            if at is None or image.base + offset >= mapped[at][1]:
                yield export.place

# Function starts and data in code

def function_numbers(image):
    """The numbers of the function starts, up to the 0 that ends them, each with its place; and the place of the first
    number that does not end or byte that is not 0, or None."""
    table = table_of(image, "function starts")
    numbers = []
    place = table.start if table else 0
    end = table.end if table else 0
    while place < end:
        try:
            distance, after = operand(image.data, place, end, "number")
        except Malformed:
            return numbers, place
        if distance == 0:
            stray = first_other(image.data, after, end, b"\0")
            return numbers, stray if stray < end else None
        numbers.append((place, distance))
        place = after
    return numbers, None

def function_number(image):
    """The number does not end in the table, or is not below 2^64; or a byte after the number 0 is not 0."""
    _, broken = function_numbers(image)
    if broken is not None:
        yield broken

def function_start(image):
    """The base + the numbers up to and including this one is in no file part that is mapped."""
    # No two segments share an address, so only the last segment that begins at or before the address can have it.
    mapped = sorted(filter(is_mapped, image.segments), key=lambda segment: segment.vmaddr)
    starts = [segment.vmaddr for segment in mapped]
    address = image.base
    for place, distance in function_numbers(image)[0]:
        address += distance
        at = last_before(starts, address)
        if at is None or not is_in_file_part(address, mapped[at]):
            yield place
            return

def data_in_code(image):
    """The size is no multiple of 8; or the kind of an entry is not known, or its bytes are not all in the file bytes of
    one executable segment."""
    table = table_of(image, "data in code")
    if table is None:
        return
    if (table.end - table.start) % SIZES["data_in_code_entry"] != 0:
        yield table.start
        return
    # No two segments share a byte, so only the last segment that begins at or before the offset can have it.
    code = sorted((segment.fileoff, segment.fileoff + segment.filesize) for segment in image.segments
                  if segment.initprot & VM_PROT_EXECUTE and segment.filesize > 0)
    starts = [start for start, _ in code]
    for place in range(table.start, table.end, SIZES["data_in_code_entry"]):
        entry = read(image.data, place, "data_in_code_entry")
        at = last_before(starts, entry.offset)
        is_in_code = entry.length == 0 or at is not None and entry.offset + entry.length <= code[at][1]
        if entry.kind not in DICE_KINDS or not is_in_code:
            yield place
            return

def init_offset(image):
    """The size of the section is not a multiple of 4, so the last offset is cut; or the base plus the offset is not in the
    file part of a mapped and executable segment."""
    # No two segments share an address, so only the last segment that begins at or before the address can have it.
    code = sorted((segment for segment in image.segments if is_mapped(segment) and segment.initprot & VM_PROT_EXECUTE),
                  key=lambda segment: segment.vmaddr)
    starts = [segment.vmaddr for segment in code]
    for section in image.sections:
        if section.flags & SECTION_TYPE != S_INIT_FUNC_OFFSETS or not is_mapped(section.segment):
            continue
        for place in range(section.offset, section.offset + section.size, INIT_OFFSET_SIZE):
            offset = image.data[place:place + INIT_OFFSET_SIZE]
            if image.base is None or place + INIT_OFFSET_SIZE > section.offset + section.size:
                yield place
                break
            address = image.base + int.from_bytes(offset, "little")
            at = last_before(starts, address)
            if at is None or not is_in_file_part(address, code[at]):
                yield place
                break

# Code signatures

def is_superblob(image, table):
    """The superblob is in the table, and its index in the superblob."""
    if table.end - table.start < SIZES["CS_SuperBlob"]:
        return False
    superblob = read(image.data, table.start, "CS_SuperBlob", "big")
    return (superblob.magic == CSMAGIC_EMBEDDED_SIGNATURE and superblob.length <= table.end - table.start
            and SIZES["CS_SuperBlob"] + superblob.count * SIZES["CS_BlobIndex"] <= superblob.length)

def signature_index(image, table):
    """The entries of the index, in order. (They are in the table where `is_superblob` is true.)"""
    first = table.start + SIZES["CS_SuperBlob"]
    count = read(image.data, table.start, "CS_SuperBlob", "big").count
    return [read(image.data, first + SIZES["CS_BlobIndex"] * k, "CS_BlobIndex", "big") for k in range(count)]

def signature_blob(image):
    """The superblob is broken; or the blob of an entry begins before the one before it ends, or before the index ends,
    or is not all in the superblob."""
    table = table_of(image, "signature")
    if table is None:
        return
    if not is_superblob(image, table):
        yield table.start
        return
    length = read(image.data, table.start, "CS_SuperBlob", "big").length
    entries = signature_index(image, table)
    end = SIZES["CS_SuperBlob"] + SIZES["CS_BlobIndex"] * len(entries)
    for entry in entries:
        if entry.offset < end or entry.offset + SIZES["CS_GenericBlob"] > length:
            yield entry.place
            return
        blob = read(image.data, table.start + entry.offset, "CS_GenericBlob", "big")
        end = entry.offset + blob.length
        if blob.length < SIZES["CS_GenericBlob"] or end > length:
            yield entry.place
            return

def blobs(image):
    """The blobs of the signature, if there is one: of each its slot, the place of its entry, and where it begins and
    ends. (After `signature-blob` each is in the table.)"""
    table = table_of(image, "signature")
    for entry in signature_index(image, table) if table else []:
        start = table.start + entry.offset
        length = read(image.data, start, "CS_GenericBlob", "big").length
        yield SimpleNamespace(slot=entry.type, entry=entry.place, start=start, end=start + length)

def directories(image):
    """The blobs of directories."""
    return [blob for blob in blobs(image) if blob.slot in DIRECTORY_SLOTS]

def read_directory(image, blob):
    """The fields of a directory that its version has; or None if the blob is shorter than these."""
    fields = SimpleNamespace()
    size = FIELDS_SIZES[0]
    for field, offset, width, _ in FIELDS["CS_CodeDirectory"]:
        if offset + width <= size:
            if blob.start + size > blob.end:
                return None
            setattr(fields, field, int.from_bytes(image.data[blob.start + offset:blob.start + offset + width], "big"))
            if field == "version":
                size = FIELDS_SIZES[max(version for version in FIELDS_SIZES if version <= fields.version)]
    return fields

def limit_of(directory):
    """How many bytes from the start of the image on the directory has hashes of."""
    if directory.version >= CS_SUPPORTSCODELIMIT64 and directory.codeLimit64 != 0:
        return directory.codeLimit64
    return directory.codeLimit

def slot_count(directory):
    """How many pages the limit has. `pageSize` 0 is one page for all."""
    limit = limit_of(directory)
    if directory.pageSize == 0:
        return 1 if limit > 0 else 0
    return -(-limit // 2 ** directory.pageSize)

def is_known_directory(directory):
    """The version, the hashes and the pages are of a known kind, and nothing is scattered."""
    return (directory.magic == CSMAGIC_CODEDIRECTORY and directory.version >= LEAST_VERSION
            and (directory.version < CS_SUPPORTSSCATTER or directory.scatterOffset == 0)
            and HASH_SIZES.get(directory.hashType) == directory.hashSize and directory.pageSize <= GREATEST_PAGE_SIZE)

def has_good_hashes(directory, blob):
    """The hashes of the special slots and of the pages are in the blob."""
    return (directory.nSpecialSlots * directory.hashSize <= directory.hashOffset
            and directory.hashOffset + directory.nCodeSlots * directory.hashSize <= blob.end - blob.start)

def has_good_parts(directory, blob):
    """The hashes of the pages before encryption, if there are some, and the linkage are in the blob."""
    length = blob.end - blob.start
    if directory.version >= CS_SUPPORTSRUNTIME and directory.preEncryptOffset != 0:
        if directory.preEncryptOffset + directory.nCodeSlots * directory.hashSize > length:
            return False
    return directory.version < CS_SUPPORTSLINKAGE or directory.linkageOffset + directory.linkageSize <= length

def is_text(image, blob, offset):
    """The offset is 0, or that of a text that ends in the blob."""
    return offset == 0 or 0 in image.data[blob.start + offset:blob.end]

def signature_directory(image):
    """No entry has the slot of the directory; or a directory is not known, or something of it is not in its blob, or it
    has not a hash for each page, or one of the signature itself."""
    table = table_of(image, "signature")
    if table is not None and all(entry.type != DIRECTORY_SLOTS[0] for entry in signature_index(image, table)):
        yield table.start
    for blob in directories(image):
        directory = read_directory(image, blob)
        if (directory is None or not is_known_directory(directory) or not has_good_hashes(directory, blob)
                or directory.nCodeSlots != slot_count(directory) or limit_of(directory) > table.start
                or not is_text(image, blob, directory.identOffset)
                or directory.version >= CS_SUPPORTSTEAMID and not is_text(image, blob, directory.teamOffset)
                or not has_good_parts(directory, blob)):
            yield blob.entry

def signature_whole(image):
    """The hashes are not of all bytes before the signature."""
    table = table_of(image, "signature")
    for blob in directories(image):
        if limit_of(read_directory(image, blob)) != table.start:
            yield blob.entry

# Symbols and relocations

def type_of(symbol):
    """The type of a symbol; None of one for a debugger."""
    return symbol.n_type & N_TYPE if symbol.n_type & N_STAB == 0 else None

def is_undefined(symbol):
    """Another image defines the symbol. (An undefined one with a value is a common symbol.)"""
    return type_of(symbol) == N_PBUD or type_of(symbol) == N_UNDF and symbol.n_value == 0

def symbol_library(image):
    """The image has two levels of names, and the symbol is undefined, of a library whose ordinal is above the number of
    libraries and is neither of the two that say another thing."""
    if image.header.flags & MH_TWOLEVEL == 0:
        return
    count = library_count(image)
    for symbol in image.symbols:
        ordinal = symbol.n_desc >> 8
        if is_undefined(symbol) and ordinal > count and ordinal not in (DYNAMIC_LOOKUP_ORDINAL, EXECUTABLE_ORDINAL):
            yield symbol.place

def symbol_value(image):
    """The symbol is of a section of a mapped segment, and its value is neither in a mapped segment nor the end of one."""
    mapped = list(filter(is_mapped, image.segments))
    for symbol in image.symbols:
        if type_of(symbol) == N_SECT and is_mapped(image.sections[symbol.n_sect - 1].segment):
            if not any(segment.vmaddr <= symbol.n_value <= segment.vmaddr + segment.vmsize for segment in mapped):
                yield symbol.place

def symbol_indirect(image):
    """The symbol is another name of one whose name does not end in the string table."""
    for symbol in image.symbols:
        if type_of(symbol) == N_INDR and symbol.n_value > image.last_zero_of_strings:
            yield symbol.place

def indirect_range(image):
    """The section is of stubs or of pointers to symbols, and they have no size, do not fill it, or have entries past the
    last one of the indirect symbol table."""
    dysymtab = image.only(LC_DYSYMTAB)
    entries = 0 if dysymtab is None else dysymtab.nindirectsyms
    for section in image.sections:
        kind = section.flags & SECTION_TYPE
        if kind in TYPES_WITH_INDIRECTS:
            stride = section.reserved2 if kind == S_SYMBOL_STUBS else POINTER_SIZE
            if stride == 0 or section.size % stride != 0 or section.reserved1 + section.size // stride > entries:
                yield section.place

def has_fixups(image):
    """A command is for fixups, whatever tables it names."""
    return any("fixups" in kinds_of(command) for command in image.commands)

def obsolete_table(image):
    """The LC_DYSYMTAB has contents, modules or references; or relocations, and a command names fixups."""
    dysymtab = image.only(LC_DYSYMTAB)
    if dysymtab is not None:
        if (any((dysymtab.ntoc, dysymtab.nmodtab, dysymtab.nextrefsyms))
                or has_fixups(image) and any((dysymtab.nextrel, dysymtab.nlocrel))):
            yield dysymtab.place

def relocations(image):
    """The relocations of sections, and those of an LC_DYSYMTAB: of each the structure, and whether it is of the latter."""
    tables_of_all = [(section.reloff, section.nreloc, False) for section in image.sections]
    dysymtab = image.only(LC_DYSYMTAB)
    if dysymtab is not None:
        tables_of_all.append((dysymtab.extreloff, dysymtab.nextrel, True))
        tables_of_all.append((dysymtab.locreloff, dysymtab.nlocrel, True))
    for start, count, is_dynamic in tables_of_all:
        for k in range(count):
            yield read(image.data, start + SIZES["relocation_info"] * k, "relocation_info"), is_dynamic

def relocation(image):
    """There is no symbol or no section of the number, or a relocation of an LC_DYSYMTAB is not of a pointer."""
    for one, is_dynamic in relocations(image):
        number_of = bits(one.r_bits, *R_SYMBOLNUM)
        if bits(one.r_bits, *R_EXTERN) == 1:
            is_there = number_of < image.symbol_count
        elif image.header.cputype == CPU_TYPE_ARM64 and bits(one.r_bits, *R_TYPE) == ARM64_RELOC_ADDEND:
            is_there = True
        else:
            is_there = number_of <= len(image.sections)
        if not is_there or is_dynamic and bits(one.r_bits, *R_LENGTH) != LENGTH_OF_A_POINTER:
            yield one.place

# Threads and the contents of commands

def states_of(image, command):
    """The states of a thread, which end where the command does."""
    states = []
    place, end = command.place + SIZES["load_command"], command.place + command.cmdsize
    while place < end:
        if place + SIZES["thread_state"] > end:
            raise Malformed
        states.append(read(image.data, place, "thread_state"))
        place += SIZES["thread_state"] + 4 * states[-1].count
    if place > end:
        raise Malformed
    return states

def start_of_thread(image, command):
    """The address that a thread begins at, which the one state with registers has."""
    cputype = image.header.cputype
    with_registers = [state for state in states_of(image, command) if (cputype, state.flavor) in REGISTERS]
    if len(with_registers) != 1:
        raise Malformed
    state = with_registers[0]
    count, offset = REGISTERS[cputype, state.flavor]
    if state.count != count:
        raise Malformed
    words = state.place + SIZES["thread_state"]
    if (cputype, state.flavor) == (CPU_TYPE_X86_64, x86_THREAD_STATE):
        inside = read(image.data, words, "thread_state")
        if (inside.flavor, inside.count) != (x86_THREAD_STATE64, REGISTERS[cputype, x86_THREAD_STATE64][0]):
            raise Malformed
    return int.from_bytes(image.data[words + offset:words + offset + 8], "little")

def thread(image):
    """An earlier command is a thread too; or the states are not whole, or not one of them has the registers that are
    known; or these say an address of no file part that is mapped and executable."""
    threads = [command for command in image.commands if command.cmd in THREADS]
    for command in threads:
        try:
            is_good = is_executable(image, start_of_thread(image, command))
        except Malformed:
            is_good = False
        if not is_good or command is not threads[0]:
            yield command.place

def name_part(content, fields, least, field):
    """Where in a command its name is, with its zero byte: the start and the size."""
    start = getattr(fields, field)
    zero = content.find(0, start)
    if start < least or zero < 0:
        raise Malformed
    return start, zero + 1 - start

def bits_part(content, fields, least):
    """Where in an LC_PREBOUND_DYLIB there is a bit for each module."""
    size = (fields.nmodules + 7) // 8
    if size > 0 and (fields.linked_modules < least or fields.linked_modules + size > len(content)):
        raise Malformed
    return fields.linked_modules, size

def options_part(content, fields, least):
    """Where in an LC_LINKER_OPTION there are as many strings as it counts."""
    zeros = [place for place in range(least, len(content)) if content[place] == 0]
    if len(zeros) < fields.count:
        raise Malformed
    end = zeros[fields.count - 1] + 1 if fields.count > 0 else least
    return least, end - least

def strings_part(content, least):
    """Where in an LC_IDENT there are strings: up to its end."""
    if len(content) > least and content[-1] != 0:
        raise Malformed
    return least, len(content) - least

def parts_of(command, content, fields):
    """What of a command with its whole structure may have other bytes than zeros, by starts and sizes."""
    structure, field = HELD_COMMANDS[command.cmd]
    least = SIZES[structure]
    yield 0, least
    if field is not None:
        yield name_part(content, fields, least, field)
    if command.cmd == LC_PREBOUND_DYLIB:
        yield bits_part(content, fields, least)
    if command.cmd == LC_LINKER_OPTION:
        yield options_part(content, fields, least)
    if command.cmd == LC_IDENT:
        yield strings_part(content, least)

def is_outside(image, command, fields):
    """The bytes of the slice that the command names end past it."""
    if command.cmd not in HELD_RANGES:
        return False
    _, start, count, width = HELD_RANGES[command.cmd]
    size = getattr(fields, count) * width
    return size > 0 and getattr(fields, start) + size > image.length

def has_good_content(image, command):
    structure, _ = HELD_COMMANDS[command.cmd]
    if command.cmdsize < SIZES[structure]:
        return False
    fields = read(image.data, command.place, structure)
    content = image.data[command.place:command.place + command.cmdsize]
    try:
        strays = list(first_stray(content, list(parts_of(command, content, fields))))
    except Malformed:
        return False
    if command.cmd in ROUTINES and not is_executable(image, fields.init_address):
        return False
    return not strays and not is_outside(image, command, fields)

def command_content(image):
    """The command is of another kind of images; or it is a second routine; or one that no other rule judges, and its
    structure, its name, or what else it has is not whole, or a byte is not zero that is of none of these."""
    first_routine = next((command for command in image.commands if command.cmd in ROUTINES), None)
    for command in image.commands:
        is_second = command.cmd in ROUTINES and command is not first_routine
        if command.cmd in FOREIGN_COMMANDS or is_second:
            yield command.place
        elif command.cmd in HELD_COMMANDS and not has_good_content(image, command):
            yield command.place

# The unambiguous profile of docs/rules/unambiguous.md. Its rules may take for granted that all above are unbroken as well.

def page_size(cputype):
    return X86_64_PAGE_SIZE if cputype == CPU_TYPE_X86_64 else OTHER_PAGE_SIZE

def fat_count(file):
    """The file begins with `FAT_MAGIC`, and `nfat_arch` is 31 or more."""
    if file.data[:4] == FAT_MAGIC and len(file.entries) >= LEAST_JAVA_COUNT:
        yield 4

def cputype_of_header(image):
    """The `cputype` of a header, in the order of its magic number; None where the slice ends before that does."""
    order = "big" if image.data[:4] in (MH_MAGIC_64_BIG, MH_MAGIC_BIG) else "little"
    return int.from_bytes(image.data[4:8], order) if image.length >= 8 else None

def fat_header(file):
    """The header of the slice has another `cputype` than the entry, or a magic number of another width than this says; or
    the slice is read, and its `cpusubtype` differs in a bit; or it is not read, and the processor is judged."""
    for image in file.slices:
        cputype = image.entry.cputype
        is_wide = image.data[:4] in (MH_MAGIC_64, MH_MAGIC_64_BIG)
        if image.is_64_bit:
            is_other = image.header.cpusubtype != image.entry.cpusubtype
        else:
            is_other = cputype in JUDGED_PROCESSORS
        if cputype_of_header(image) != cputype or is_wide != (cputype & CPU_ARCH_ABI64 != 0) or is_other:
            yield image.entry.place

def fat_page(file):
    """The slice is read, and it does not begin at a page, or another one begins past it, before its last page ends."""
    # No slice is empty and no two share a byte, so the next slice is the one with the least start past its own.
    starts = sorted(entry.offset for entry in file.entries)
    for image in file.slices:
        if image.is_64_bit:
            page = page_size(image.entry.cputype)
            pages_end = -(-(image.start + image.length) // page) * page
            at = bisect.bisect(starts, image.start)
            if image.start % page != 0 or at < len(starts) and starts[at] < pages_end:
                yield image.entry.place

def command_known(image):
    """No rule knows the command, with all 32 bits of `cmd`."""
    for command in image.commands:
        if command.cmd not in LISTED and command.cmd not in HELD_COMMANDS and command.cmd not in THREADS:
            yield command.place

def platform_of(image, command):
    """The platform whose versions a command has, or None."""
    if command.cmd == LC_BUILD_VERSION:
        return read(image.data, command.place, "build_version_command").platform
    return VERSION_PLATFORMS.get(command.cmd)

def command_once(image):
    """Readers look for one command of this kind, and an earlier one is of it too; or an earlier one has the versions of
    the same platform."""
    earlier_commands, earlier_platforms = set(), set()
    for command in image.commands:
        platform = platform_of(image, command)
        if command.cmd in SINGLE_COMMANDS and command.cmd in earlier_commands or platform in earlier_platforms:
            yield command.place
        earlier_commands.add(command.cmd)
        if platform is not None:
            earlier_platforms.add(platform)

def has_byte_past_name(characters):
    """Of the 16 bytes of a name, one past the first zero byte is not zero."""
    return any(characters[len(up_to_zero(characters)):])

def segment_name(image):
    """A byte past the name is not zero; or the segment has no name, or that of an earlier one; or it is named __TEXT and
    has not the base, or has the base and is not named __TEXT."""
    earlier = set()
    for segment in image.segments:
        own = up_to_zero(segment.segname)
        is_text, has_base = own == b"__TEXT", segment is image.base_segment
        if has_byte_past_name(segment.segname) or own == b"" or own in earlier or is_text != has_base:
            yield segment.place
        earlier.add(own)

def segment_page(image):
    """The segment is mapped and does not begin at a page in memory; or it has bytes, which do not begin at one."""
    page = page_size(image.header.cputype)
    for segment in image.segments:
        if is_mapped(segment) and segment.vmaddr % page != 0 or segment.filesize > 0 and segment.fileoff % page != 0:
            yield segment.place

def segment_protection(image):
    """The segment is mapped, and `initprot` has a bit that `maxprot` lacks, or one above 7."""
    known = VM_PROT_READ | VM_PROT_WRITE | VM_PROT_EXECUTE
    for segment in image.segments:
        if is_mapped(segment) and segment.initprot & ~(segment.maxprot & known) != 0:
            yield segment.place

def bytes_encrypted(image):
    """`cryptid` is not 0; or a kernel decrypts the segment."""
    for command in image.listed:
        if (command.cmd == LC_ENCRYPTION_INFO_64 and command.cryptid != 0
                or command.cmd == LC_SEGMENT_64 and is_protected(command)):
            yield command.place

def named_by_fixups(image):
    """The places of the segments that fixups name: those that an opcode sets, and those with starts of chains."""
    numbers = {opcode.imm for table in streams(image, *REBASE_STREAMS, *BIND_STREAMS)
               for opcode in decode(image, table)[0] if opcode.name.endswith("_SET_SEGMENT_AND_OFFSET_ULEB")}
    named = {segment.place for k, segment in enumerate(image.segments) if k in numbers}
    table = chain_table(image)
    return named | {segment.place for segment, _ in starts_of_segments(image, table)} if table else named

def numbers_by_sections(image):
    """For each segment how many earlier ones have sections, and one more where any segment is a __PAGEZERO."""
    number_of = 1 if segments_named(image, b"__PAGEZERO") else 0
    for segment in image.segments:
        yield number_of
        number_of += segment.nsects > 0

def number_shift(image):
    """The segment is not mapped, and a later one is writable; or the library is loaded late, and a later one is not; or
    fixups name the segment, and it has no section, or by its sections its number or its start is another."""
    named = named_by_fixups(image)
    last_writable = max((segment.place for segment in image.segments if is_writable(segment)), default=0)
    for segment in image.segments:
        if not is_mapped(segment) and segment.place < last_writable:
            yield segment.place
    for k, (segment, number_of) in enumerate(zip(image.segments, numbers_by_sections(image))):
        if segment.place in named:
            if segment.nsects == 0 or number_of != k or segment.sections[0].addr != segment.vmaddr:
                yield segment.place
    libraries = [command for command in image.commands if command.cmd in LIBRARIES]
    last_eager = max((command.place for command in libraries if command.cmd != LC_LAZY_LOAD_DYLIB), default=0)
    for command in libraries:
        if command.cmd == LC_LAZY_LOAD_DYLIB and command.place < last_eager:
            yield command.place

def section_name(image):
    """A byte past the section's name is not zero; or it has not all bytes of the segment's name; or an earlier section
    has both names."""
    earlier = set()
    for section in image.sections:
        both = up_to_zero(section.segname), up_to_zero(section.sectname)
        if (has_byte_past_name(section.sectname) or section.segname != section.segment.segname or both in earlier):
            yield section.place
        earlier.add(both)

def is_looked_for(section):
    """The section has bytes, and is none for a debugger, for which no reader looks at an address."""
    return section.size > 0 and (is_mapped(section.segment) or section.flags & S_ATTR_DEBUG == 0)

def hides_byte(image, section):
    """The section shows a zero for a byte of its segment that is none."""
    segment = section.segment
    start = segment.fileoff + section.addr - segment.vmaddr
    return is_zero_fill(section) and any(image.data[start:min(start + section.size, segment.fileoff + segment.filesize)])

def is_over_segment(image, section):
    """The section has an address of a mapped segment."""
    return any(max(section.addr, segment.vmaddr) < min(section.addr + section.size, segment.vmaddr + segment.vmsize)
               for segment in image.segments)

def section_alone(image):
    """The section is in a mapped segment, and it shares an address with an earlier one, or hides a byte; or it is in
    another segment, and has an address of a mapped one."""
    looked_for = [section for section in image.sections if is_looked_for(section)]
    yield from first_sharing((section.place, section.addr, section.size) for section in looked_for
                             if is_mapped(section.segment))
    for section in looked_for:
        if hides_byte(image, section) if is_mapped(section.segment) else is_over_segment(image, section):
            yield section.place

def entry_address(image, command):
    """The address that an `LC_MAIN` or a thread names."""
    if command.cmd == LC_MAIN:
        return image.base + image.only(LC_MAIN).entryoff
    return start_of_thread(image, command)

def is_data(image, place):
    """An entry of the data in code covers the byte."""
    table = table_of(image, "data in code")
    entries = range(table.start, table.end, SIZES["data_in_code_entry"]) if table else []
    return any(entry.offset <= place < entry.offset + entry.length
               for entry in (read(image.data, start, "data_in_code_entry") for start in entries))

def entry_one(image):
    """An `LC_MAIN` or a thread follows another one, or is not in a program; or the byte of the entry is not at `entryoff`
    in the file, or is data in code."""
    commands = [command for command in image.commands if command.cmd in ENTRY_COMMANDS]
    for command in commands:
        place = place_at(image, entry_address(image, command))
        is_elsewhere = command.cmd == LC_MAIN and place != image.only(LC_MAIN).entryoff
        if (command is not commands[0] or image.header.filetype != MH_EXECUTE or is_elsewhere
                or is_data(image, place)):
            yield command.place

# What is bound, exported and named by symbols

def string_at(image, place):
    """The bytes from a place of the image up to the first zero byte."""
    zero = image.data.find(0, place)
    return image.data[place:zero if zero >= 0 else image.length]

def binds(image):
    """What the opcodes bind: of each the place of the opcode, the index of the segment, the offset in it, the name, the
    addend, and the ordinal of the library, which is None in the weak stream."""
    for table in streams(image, *BIND_STREAMS):
        for run in runs(image, table):
            for k in range(run.count):
                yield SimpleNamespace(
                    place=run.place, segment=run.segment, offset=(run.cursor + k * (8 + run.skip)) % 2 ** 64,
                    name=string_at(image, run.symbol), addend=run.addend,
                    library=None if table.stream == "weak" else run.library)

def chain_binds(image):
    """What the chains bind: of each the index of the segment, the offset in it, and the name."""
    names = [string_at(image, one.name) for one in imports(image)]
    for page in pages(image):
        for pointer in chain_of(image, page):
            if pointer.binds is not None:
                yield SimpleNamespace(segment=page.segment.index, offset=pointer.place - page.segment.fileoff,
                                      name=names[pointer.binds])

def bind_once(image):
    """The opcode binds a location which it or an earlier one binds to another name or addend, or from another library,
    or a byte of another bound location."""
    contents, libraries = {}, {}
    for bind in sorted(binds(image), key=lambda bind: bind.place):
        content = contents.setdefault((bind.segment, bind.offset), set())
        content.add((bind.name, bind.addend))
        library = libraries.setdefault((bind.segment, bind.offset), set())
        if bind.library is not None:
            library.add(bind.library)
        is_shared = any((bind.segment, bind.offset + distance) in contents for distance in (*range(-7, 0), *range(1, 8)))
        if len(content) > 1 or len(library) > 1 or is_shared:
            yield bind.place

def export_edge(image):
    """A label of the node is empty, or another one begins with it."""
    for node in walk(image)[0]:
        # If any label begins with another one, so does the one that follows this in their order.
        labels = sorted(node.labels)
        if b"" in labels or any(map(bytes.startswith, labels[1:], labels)):
            yield node.place

def is_external(symbol):
    """The symbol is not for a debugger, and other images see it."""
    return symbol.n_type & N_STAB == 0 and symbol.n_type & N_EXT != 0

def is_of_another(symbol):
    """Another image defines an external symbol, by its type."""
    return symbol.n_type & N_TYPE in (N_UNDF, N_PBUD)

def symbol_string(image, offset):
    """The name at an offset of the strings."""
    return string_at(image, image.only(LC_SYMTAB).stroff + offset)

def groups_of_type(symbol):
    """Whether the symbol is local, defined and undefined, by its type."""
    external, another = is_external(symbol), is_of_another(symbol)
    return [not external, external and not another, external and another]

def symbol_kind(image):
    """The symbol is not in exactly the one group that its type says; or it has no name, but the first string is one."""
    dysymtab = image.only(LC_DYSYMTAB)
    groups = None if dysymtab is None else [
        range(first, first + count) for first, count in (
            (dysymtab.ilocalsym, dysymtab.nlocalsym), (dysymtab.iextdefsym, dysymtab.nextdefsym),
            (dysymtab.iundefsym, dysymtab.nundefsym))]
    shows_string = image.symbol_count > 0 and symbol_string(image, 0) not in (b"", b" ")
    for k, symbol in enumerate(image.symbols):
        is_misgrouped = groups is not None and [k in group for group in groups] != groups_of_type(symbol)
        if is_misgrouped or symbol.n_strx == 0 and shows_string:
            yield symbol.place

def named_externals(image):
    """The external symbols with a name, in order."""
    return [symbol for symbol in image.symbols if is_external(symbol) and symbol.n_strx != 0]

def symbol_total(image):
    """The names up to and including this one, with their zero bytes, have more bytes than the image."""
    total = 0
    for symbol in named_externals(image):
        total += len(symbol_string(image, symbol.n_strx)) + 1
        if total > image.length:
            yield symbol.place
            return

def look_up(root, nodes, name_of):
    """The node with the export of a name, by the first edge that fits at each node, or None. The nodes of the trie are
    by their places, and it begins at the root."""
    place, at = root, 0
    while True:
        node = nodes[place]
        if at == len(name_of) and node.terminal_end > node.start:
            return node
        fitting = [(label, child) for label, child in zip(node.labels, node.children) if name_of.startswith(label, at)]
        if not fitting:
            return None
        label, child = fitting[0]
        at, place = at + len(label), root + child

def is_at_address(export):
    """The export is at an address of the image, which a look-up gives. It is of the kind regular or thread-local."""
    return (is_relative(export) and export.flags & EXPORT_SYMBOL_FLAGS_REEXPORT == 0
            and export.flags & EXPORT_SYMBOL_FLAGS_STUB_AND_RESOLVER == 0)

def says_as_export(image, symbol, export):
    """The symbol is defined in the image, where the export is, and as weak as it."""
    is_weak = symbol.n_desc & N_WEAK_DEF != 0
    return (not is_of_another(symbol) and type_of(symbol) != N_INDR
            and symbol.n_value == image.base + export.offsets[0]
            and is_weak == (export.flags & EXPORT_SYMBOL_FLAGS_WEAK_DEFINITION != 0))

def export_symbol(image):
    """The symbol is defined, and an earlier one of the name says otherwise; or the export of the name does."""
    meanings = {}
    table, nodes = table_of(image, "exports"), {node.place: node for node in walk(image)[0]}
    for symbol in named_externals(image):
        own = symbol_string(image, symbol.n_strx)
        if not is_of_another(symbol):
            meaning = symbol.n_value, symbol.n_type & N_TYPE, symbol.n_desc & N_WEAK_DEF
            if meanings.setdefault(own, meaning) != meaning:
                yield symbol.place
        node = look_up(table.start, nodes, own) if table else None
        export = read_export(image, node) if node else None
        if export and is_at_address(export) and not says_as_export(image, symbol, export):
            yield symbol.place

def indirect_pointers(image):
    """The pointers of sections of pointers: of each the index of the segment, the offset in it, the place of the
    indirect entry, and the entry. (After `indirect-range` there is an entry for each.)"""
    for section in image.sections:
        if section.flags & SECTION_TYPE in TYPES_WITH_INDIRECTS and section.flags & SECTION_TYPE != S_SYMBOL_STUBS:
            start = section.addr - section.segment.vmaddr
            for k in range(section.size // POINTER_SIZE):
                place = image.only(LC_DYSYMTAB).indirectsymoff + 4 * (section.reserved1 + k)
                yield SimpleNamespace(segment=section.segment.index, offset=start + k * POINTER_SIZE, place=place,
                                      entry=int.from_bytes(image.data[place:place + 4], "little"))

def name_it_stands_for(image, symbol):
    """The own name of an external symbol, or of an alias the string that begins at its n_value; or None without one."""
    if not is_external(symbol) or symbol.n_strx == 0:
        return None
    if type_of(symbol) != N_INDR:
        return symbol_string(image, symbol.n_strx)
    begins = symbol.n_value != 0 and image.data[image.only(LC_SYMTAB).stroff + symbol.n_value - 1] == 0
    return symbol_string(image, symbol.n_value) if begins else None

def indirect_name(image):
    """The pointer is bound, and its entry is the index of a symbol that stands for another name or for none."""
    names = {}
    for bind in [*binds(image), *chain_binds(image)]:
        names.setdefault((bind.segment, bind.offset), set()).add(bind.name)
    for pointer in indirect_pointers(image):
        bound = names.get((pointer.segment, pointer.offset))
        if bound and pointer.entry & (INDIRECT_SYMBOL_LOCAL | INDIRECT_SYMBOL_ABS) == 0:
            if bound != {name_it_stands_for(image, image.symbols[pointer.entry])}:
                yield pointer.place

def libraries_of_names(image):
    """The names that are bound, each with the ordinals of the libraries of its binds, but for those that are looked up
    in all images by their weakness."""
    named = {}
    for bind in binds(image):
        named.setdefault(bind.name, set()).add(bind.library)
    for one in imports(image):
        named.setdefault(string_at(image, one.name), set()).add(one.ordinal)
    return {name_of: libraries - {None, BIND_SPECIAL_DYLIB_WEAK_LOOKUP} for name_of, libraries in named.items()}

def library_of_symbol(symbol):
    """The ordinal of the library that an undefined symbol says."""
    ordinal = symbol.n_desc >> 8
    return {DYNAMIC_LOOKUP_ORDINAL: BIND_SPECIAL_DYLIB_FLAT_LOOKUP,
            EXECUTABLE_ORDINAL: BIND_SPECIAL_DYLIB_MAIN_EXECUTABLE}.get(ordinal, ordinal)

def import_library(image):
    """The image has two levels of names, the symbol is undefined, and a bind of its name is from another library."""
    if image.header.flags & MH_TWOLEVEL == 0:
        return
    named = libraries_of_names(image)
    for symbol in named_externals(image):
        libraries = named.get(symbol_string(image, symbol.n_strx), set())
        if is_of_another(symbol) and libraries - {library_of_symbol(symbol)}:
            yield symbol.place

def magic_of(image, blob):
    return read(image.data, blob.start, "CS_GenericBlob", "big").magic

def signature_slot(image):
    """An earlier entry has the slot; or the slot is known, and the blob has not its magic number; or it is not, and the
    blob has the one of a slot that is. Or the slot has no name, and is below an earlier one without a name."""
    earlier, greatest = set(), 0
    for blob in blobs(image):
        number_of = magic_of(image, blob)
        is_misfit = number_of != KNOWN_SLOTS.get(blob.slot, number_of)
        is_hidden = blob.slot not in KNOWN_SLOTS and number_of in KNOWN_SLOTS.values()
        is_below = blob.slot not in NAMED_SLOTS and blob.slot < greatest
        if blob.slot in earlier or is_misfit or is_hidden or is_below:
            yield blob.entry
        earlier.add(blob.slot)
        if blob.slot not in NAMED_SLOTS:
            greatest = max(greatest, blob.slot)

def text_in(image, blob, offset):
    """The text at an offset of a blob, or None without an offset."""
    return image.data[blob.start + offset:blob.end].split(b"\0")[0] if offset != 0 else None

def team_offset(directory):
    return directory.teamOffset if directory.version >= CS_SUPPORTSTEAMID else 0

def identity_of(image, blob):
    """What a directory says of a program."""
    directory = read_directory(image, blob)
    has_segment = directory.version >= CS_SUPPORTSEXECSEG
    return (text_in(image, blob, directory.identOffset), text_in(image, blob, team_offset(directory)),
            directory.flags, directory.platform,
            (directory.execSegBase, directory.execSegLimit, directory.execSegFlags) if has_segment else (0, 0, 0),
            directory.runtime if directory.version >= CS_SUPPORTSRUNTIME else 0)

def fields_size(directory):
    return FIELDS_SIZES[max(version for version in FIELDS_SIZES if version <= directory.version)]

def is_unclear(directory):
    """The directory has two limits, no size of pages, no identifier, or a text among its fields."""
    return (limit_of(directory) != directory.codeLimit or directory.pageSize == 0
            or directory.identOffset < fields_size(directory)
            or 0 < team_offset(directory) < fields_size(directory))

def directory_agree(image):
    """The directory says something else than the first one, or an earlier one has its type of hashes, or it is unclear
    by itself."""
    found = directories(image)
    earlier = set()
    for blob in found:
        directory = read_directory(image, blob)
        if (identity_of(image, blob) != identity_of(image, found[0]) or directory.hashType in earlier
                or is_unclear(directory)):
            yield blob.entry
        earlier.add(directory.hashType)

# The sealed profile of docs/rules/sealed.md. Its rules may take for granted that all above are unbroken as well.

def signature_missing(image):
    """There is no signature with a directory of slot 0."""
    if all(blob.slot != DIRECTORY_SLOTS[0] for blob in blobs(image)):
        yield 0

def signature_executable(image):
    """The segment is mapped and executable, and its file bytes share a byte with the signature."""
    table = table_of(image, "signature")
    if table is None:
        return
    for segment in image.segments:
        start = max(segment.fileoff, table.start)
        if (is_mapped(segment) and segment.initprot & VM_PROT_EXECUTE
                and start < min(segment.fileoff + segment.filesize, table.end)):
            yield segment.place

def directory_repeated(image):
    """The entry has the slot of an earlier one, and it is a slot of directories."""
    earlier = set()
    for blob in directories(image):
        if blob.slot in earlier:
            yield blob.entry
        earlier.add(blob.slot)

def signature_slack(image):
    """A byte from the start of the signature up to the end of the image, which is not zero, lies neither in the
    superblob's header or its index nor in a blob."""
    table = table_of(image, "signature")
    if table is None:
        return
    head = SIZES["CS_SuperBlob"] + SIZES["CS_BlobIndex"] * len(signature_index(image, table))
    ranges = [(0, head)] + [(blob.start - table.start, blob.end - blob.start) for blob in blobs(image)]
    for offset in first_stray(image.data[table.start:], ranges):
        yield table.start + offset

def signed_pages(directory):
    """Where each page of a directory begins and ends. `pageSize` 0 is one page for all."""
    limit = limit_of(directory)
    size = 2 ** directory.pageSize if directory.pageSize > 0 else limit
    return [(start, min(start + size, limit)) for start in range(0, limit, size)]

def hash_in(image, blob, directory, slot):
    """The hash in a slot of a directory. The special slots are those below 0."""
    place = blob.start + directory.hashOffset + slot * directory.hashSize
    return image.data[place:place + directory.hashSize]

def hash_of(image, directory, start, end):
    """The hash of some bytes, of the directory's type."""
    _, function = HASHES[directory.hashType]
    return function(image.data[start:end]).digest()[:directory.hashSize]

def signature_hash(image):
    """The hash of the page is not the one in its slot; or the directory has no slot for the blob of a special slot, or
    another hash there."""
    for blob in directories(image):
        directory = read_directory(image, blob)
        for slot, (start, end) in enumerate(signed_pages(directory)):
            if hash_of(image, directory, start, end) != hash_in(image, blob, directory, slot):
                yield start
        for special in blobs(image):
            if special.slot in SPECIAL_SLOTS:
                if (special.slot > directory.nSpecialSlots or hash_of(image, directory, special.start, special.end)
                        != hash_in(image, blob, directory, -special.slot)):
                    yield special.start

# Order of judgment

RULES_OF_THE_FILE = [
    magic, fat_truncated, fat_slice_outside, fat_slice_in_table, fat_align, fat_overlap, fat_duplicate,
    fat_slice_magic, fat_empty,
]
RULES_OF_AN_IMAGE = [
    header_truncated, arch_mismatch, file_type, commands_outside, command_walk, command_short, command_repeated,
    dylib_id, name, segment_address, segment_size, segment_file, segment_overlap, section_address, section_file,
    section_relocs, table_range, symbol_group, symbol_name, symbol_section, indirect_index, entry,
]
STRICT_RULES_OF_THE_FILE = [fat_stray_byte]
STRICT_RULES_OF_AN_IMAGE = [
    commands_end, header_segment, segment_file_overlap, element_overlap, stray_byte, encrypted_range, command_slack,
    unclaimed_byte,
]
LINKED_RULES_OF_AN_IMAGE = [
    table_repeated, function_variants, table_home, header_home, rebase_opcode, rebase_slot, rebase_total, bind_opcode,
    bind_library, bind_symbol, bind_slot, bind_total, bind_names,
    chain_header, chain_starts, chain_imports, chain_total, chain_library, chain_slot, chain_bind,
    export_node, export_total, export_terminal, export_library, export_address,
    function_number, function_start, data_in_code, init_offset,
    signature_blob, signature_directory, signature_whole,
    symbol_library, symbol_value, symbol_indirect, indirect_range, obsolete_table, relocation,
    thread, command_content,
]
UNAMBIGUOUS_RULES_OF_THE_FILE = [fat_count, fat_header, fat_page]
UNAMBIGUOUS_RULES_OF_AN_IMAGE = [
    command_known, command_once, segment_name, segment_page, segment_protection, bytes_encrypted, number_shift,
    section_name, section_alone, entry_one,
    bind_once, export_edge, symbol_kind, symbol_total, export_symbol, indirect_name, import_library,
    signature_slot, directory_agree,
]
SEALED_RULES_OF_AN_IMAGE = [
    signature_missing, signature_executable, directory_repeated, signature_slack, signature_hash,
]

def first_of(file, rules_of_the_file, rules_of_an_image):
    """The first broken one of these rules, by name, and the least place in the file at which it is broken; or None."""
    for rule in rules_of_the_file:
        places = list(rule(file))
        if places:
            return rule.__name__.replace("_", "-"), min(places)
    for image in file.slices:
        if image.is_64_bit:
            for rule in rules_of_an_image:
                places = list(rule(image))
                if places:
                    return rule.__name__.replace("_", "-"), image.start + min(places)
    return None

def first_broken(file):
    return first_of(file, RULES_OF_THE_FILE if file.is_universal else [magic], RULES_OF_AN_IMAGE)

def first_strictly_broken(file):
    """The same with the strict profile, which is judged where no other rule is broken."""
    return first_broken(file) or first_of(
        file, STRICT_RULES_OF_THE_FILE if file.is_universal else [], STRICT_RULES_OF_AN_IMAGE)

def first_linked_broken(file):
    """The same with the linked profile, which is judged where no rule of the other two is broken."""
    return first_strictly_broken(file) or first_of(file, [], LINKED_RULES_OF_AN_IMAGE)

def first_unambiguous_broken(file):
    """The same with the unambiguous profile, which is judged where no rule of the other three is broken."""
    return first_linked_broken(file) or first_of(
        file, UNAMBIGUOUS_RULES_OF_THE_FILE if file.is_universal else [], UNAMBIGUOUS_RULES_OF_AN_IMAGE)

def first_sealed_broken(file):
    """The same with the sealed profile, which is judged where no rule of the other four is broken."""
    return first_unambiguous_broken(file) or first_of(file, [], SEALED_RULES_OF_AN_IMAGE)

# What is judged by each profile: it too, and all before it.
PROFILES = {"layout": first_broken, "strict": first_strictly_broken, "linked": first_linked_broken,
            "unambiguous": first_unambiguous_broken, "sealed": first_sealed_broken}
# The rules of each profile alone, in the order of judgment.
RULES = {"layout": RULES_OF_THE_FILE + RULES_OF_AN_IMAGE,
         "strict": STRICT_RULES_OF_THE_FILE + STRICT_RULES_OF_AN_IMAGE,
         "linked": LINKED_RULES_OF_AN_IMAGE,
         "unambiguous": UNAMBIGUOUS_RULES_OF_THE_FILE + UNAMBIGUOUS_RULES_OF_AN_IMAGE,
         "sealed": SEALED_RULES_OF_AN_IMAGE}

# The layout, as docs/reference/commands.md has its lines

def quoted(characters):
    """A name in double quotes. A quote, a backslash and a byte that is not printable ASCII are written as numbers."""
    text = ""
    for byte in characters:
        is_plain = 0x20 <= byte <= 0x7e and byte not in b'"\\'
        text += chr(byte) if is_plain else "\\x%02x" % byte
    return '"' + text + '"'

def up_to_zero(characters):
    return characters.split(b"\0")[0]

def version(number):
    return "%d.%d.%d" % (number >> 16, number >> 8 & 0xff, number & 0xff)

def protection(initprot):
    letters = ((VM_PROT_READ, "r"), (VM_PROT_WRITE, "w"), (VM_PROT_EXECUTE, "x"))
    return "".join(letter if initprot & bit else "-" for bit, letter in letters)

def architecture(cputype, cpusubtype):
    other = "0x%x/0x%x" % (cputype, masked(cpusubtype))
    return ARCHITECTURES.get((cputype, masked(cpusubtype)), other)

def library_line(image, word, command):
    characters = up_to_zero(image.data[command.place + name_offset(command):command.place + command.cmdsize])
    versions = (version(command.current_version), version(command.compatibility_version))
    return "  %s %s current %s compatible %s" % ((word, quoted(characters)) + versions)

def uuid_line(uuid):
    digits = uuid.hex().upper()
    return "  uuid " + "-".join((digits[:8], digits[8:12], digits[12:16], digits[16:20], digits[20:]))

def section_line(section):
    text = "    section %s addr 0x%x size 0x%x" % (quoted(up_to_zero(section.sectname)), section.addr, section.size)
    return text + (" zero" if is_zero_fill(section) else " file 0x%x" % section.offset)

def segment_line(segment):
    numbers = (segment.vmaddr, segment.vmsize, segment.fileoff, segment.filesize)
    text = "  segment %s addr 0x%x size 0x%x file 0x%x size 0x%x %s"
    return text % ((quoted(up_to_zero(segment.segname)),) + numbers + (protection(segment.initprot),))

def slice_line(index, image):
    """The architecture is that of the image's header, or of the entry where the slice is not read."""
    source = image.header if image.is_64_bit else image.entry
    kind = FILETYPES[image.header.filetype][1] if image.is_64_bit else "not read"
    numbers = (image.start, image.length)
    return "slice %d %s at 0x%x size 0x%x %s" % (
        (index, architecture(source.cputype, source.cpusubtype)) + numbers + (kind,))

def image_lines(image):
    """The lines of an image, below that of its slice."""
    for command in image.listed:
        if command.cmd == LC_ID_DYLIB:
            yield library_line(image, "id", command)
    for command in image.listed:
        if command.cmd == LC_UUID:
            yield uuid_line(command.uuid)
    for command in image.listed:
        if command.cmd == LC_BUILD_VERSION:
            yield "  build platform %d min %s sdk %s" % (command.platform, version(command.minos), version(command.sdk))
    for segment in image.segments:
        yield segment_line(segment)
        for section in segment.sections:
            yield section_line(section)
    for command in image.listed:
        if command.cmd in LIBRARIES:
            yield library_line(image, LIBRARIES[command.cmd], command)
    if image.only(LC_SYMTAB) is not None:
        yield "  symbols %d" % image.symbol_count
    main_command = image.only(LC_MAIN)
    yield "  entry none" if main_command is None else "  entry 0x%x" % (image.base + main_command.entryoff)

def cdhash_lines(image):
    """Each directory by the first bytes of its hash, which is of its own type."""
    for blob in directories(image):
        directory = read_directory(image, blob)
        word, _ = HASHES[directory.hashType]
        yield "  cdhash %s %s" % (word, hash_of(image, directory, blob.start, blob.end)[:CS_CDHASH_LEN].hex())

def layout(file, profile):
    yield "accepted, slices %d" % len(file.slices)
    for index, image in enumerate(file.slices):
        yield slice_line(index, image)
        if image.is_64_bit:
            yield from image_lines(image)
            if profile == "sealed":
                yield from cdhash_lines(image)

# The answers: a status, what is written to standard output, and what is written to standard error

def check(data, profile="layout"):
    file = File(data)
    broken = PROFILES[profile](file)
    if broken is not None:
        return 1, "refused: %s at 0x%x\n" % broken, ""
    return 0, "".join(line + "\n" for line in layout(file, profile)), ""

def at_address(image, address):
    """What is at an address: at most one segment of an image that breaks no rule has it."""
    place = place_at(image, address)
    if place is not None:
        return "file 0x%x\n" % place
    is_there = any(segment.vmaddr <= address < segment.vmaddr + segment.vmsize for segment in image.segments)
    return "zero\n" if is_there else "unmapped\n"

def where(data, index, address):
    file = File(data)
    if first_broken(file) is not None:
        return check(data)
    if index >= len(file.slices) or not file.slices[index].is_64_bit:
        return 2, "", "macho-check: no such image\n"
    return 0, at_address(file.slices[index], address), ""

def number(word):
    """1 to 20 decimal digits, below 2^64, or `0x` and 1 to 16 hexadecimal digits of either case; otherwise None."""
    if re.fullmatch("0x[0-9a-fA-F]{1,16}", word):
        return int(word[2:], 16)
    if re.fullmatch("[0-9]{1,20}", word) and int(word) < 2 ** 64:
        return int(word)
    return None

def answer(words):
    """The answer to the words of a call: FILE, one of the further profiles and FILE, or `where` FILE SLICE ADDRESS."""
    is_where = len(words) == 4 and words[0] == "where"
    further = ["--" + profile for profile in PROFILES if profile != "layout"]
    is_further = len(words) == 2 and words[0] in further
    if not is_where and not is_further and len(words) != 1:
        calls = ["FILE", *(word + " FILE" for word in further), "where FILE SLICE ADDRESS"]
        return 2, "", "usage: oracle.py %s\n" % " | ".join(calls)
    if is_where and (number(words[2]) is None or number(words[3]) is None):
        return 2, "", "macho-check: bad number\n"
    path = words[0] if len(words) == 1 else words[1]
    profile = words[0].replace("--", "") if is_further else "layout"
    program = "macho-verify" if is_further else "macho-check"
    try:
        with sys.stdin.buffer if path == "-" else open(path, "rb") as stream:
            data = stream.read()
    except OSError:
        return 3, "", program + ": read failed\n"
    if len(data) > 2 ** 32:
        return 3, "", program + ": more than 4294967296 bytes\n"
    return where(data, number(words[2]), number(words[3])) if is_where else check(data, profile)

def main():
    status, out, err = answer(sys.argv[1:])
    sys.stdout.write(out)
    sys.stderr.write(err)
    return status

if __name__ == "__main__":
    sys.exit(main())
