/* kesvuot.h: judge the layout of a Mach-O file, and read the parts of an accepted one. C99 and C++; see kesvuot(3).
 *
 *     struct kesvuot_verdict verdict;
 *     struct kesvuot_image image;
 *     struct kesvuot_segment rows[16];
 *     if (kesvuot_verify(file, size, KESVUOT_LAYOUT, &verdict) == KESVUOT_OK &&
 *         kesvuot_read_image(file, size, 0, &image) == KESVUOT_OK) {
 *         struct kesvuot_cursor cursor = {0}; // In C++ write {}
 *         size_t count;
 *         while ((count = kesvuot_read_segments(file, size, &image, &cursor, rows, 16)) > 0)
 *             ; // the bytes of a segment: rows[0].bytes.size from (const char *)file + rows[0].bytes.offset on
 *     }
 *
 * THE BYTES MUST NOT CHANGE WHILE A CALL RUNS. A call that reads a byte twice and finds two values may crash. Map a
 * file only if nobody else can write to it or truncate it. Read any other file into memory first.
 *
 * Pass the same file and size to every call. The structs have plain numbers and no pointers: a `struct kesvuot_span`
 * says where bytes lie in the file, by their offset from its start. So a struct can be copied, stored and sent, and it
 * still serves if the file has moved in memory.
 *
 * Every call is safe on any bytes, and on any numbers in the structures. It does not rely on earlier calls: neither
 * that kesvuot_verify accepted the file, nor that a structure is still as a call wrote it. Every span that it writes
 * lies in the file that it got. A part that would lie outside is left empty. In an accepted file no part is empty for
 * that reason, which is proved, and each part is as rules/layout.md says.
 *
 * You must ensure:
 * - Each pointer is valid for as many bytes or rows as you pass. It may be null only if the size or count is 0.
 * - The memory that a call writes does not overlap the memory that it reads.
 *
 * A program works with every library that has the soname it was linked against. The number of a rule or a profile never
 * changes: a version that adds a rule gives it the next free number, wherever it is judged.
 *
 * No call keeps state, prints, or ends the process, and any number of threads may call at once. Only kesvuot_verify and
 * kesvuot_layout allocate memory, with malloc and realloc, and they free it before they return.
 */
#ifndef KESVUOT_H
#define KESVUOT_H

#include <stddef.h>
#include <stdint.h>

#ifdef __cplusplus
extern "C" {
#endif

/* The version of this header: major << 16 | minor << 8 | patch. */
#define KESVUOT_VERSION 0x020000

/* The version of the linked library: major << 16 | minor << 8 | patch. */
uint32_t kesvuot_version(void);

/* Whether the linked library fits this header: it has the same major version, and at least the same minor one. A shared
 * library has its major version in its soname, which the loader compares. With the static library nothing else does: a
 * program that links it can ask once, when it starts. */
static inline int kesvuot_is_compatible(void) {
    const uint32_t version = kesvuot_version();
    return version >> 16 == KESVUOT_VERSION >> 16 && version >> 8 >= KESVUOT_VERSION >> 8;
}

/* Some bytes of the file: `size` bytes from `offset` on. An empty span has the offset 0. */
struct kesvuot_span {
    uint64_t offset;
    uint64_t size;
};

/* What a call returns. Each call says which it can return. */
enum {
    /* registry: statuses */
    KESVUOT_OK = 0,        /* the file is accepted, or the result is written */
    KESVUOT_REFUSED = 1,   /* the bytes break a rule */
    KESVUOT_NO_MEMORY = 2, /* memory ran out before a verdict. kesvuot_verify says for which files this can be */
    KESVUOT_NONE = 3,      /* the rule, profile, name, slice, command, table, symbol or address does not exist */
    KESVUOT_UNREAD = 4,    /* the slice is 32-bit or big-endian: nothing in it is judged */
    KESVUOT_ZERO = 5,      /* the address is mapped, but to no byte of the file: a loader puts a zero there */
    KESVUOT_UNKNOWN_PROFILE = 6 /* no profile has the number that kesvuot_verify got */
    /* registry: end */
};

/* The profiles, by which kesvuot_verify judges a file. No profile has the number 0. */
enum {
    /* registry: profiles */
    KESVUOT_LAYOUT = 1,      /* a loader that follows the headers and checks no bounds reads only bytes of the slice.
                                rules/layout.md explains the rules */
    KESVUOT_STRICT = 2,      /* every nonzero byte is accounted for, and no byte belongs to two elements, such as the
                                headers, a section or a table. rules/strict.md explains the rules */
    KESVUOT_LINKED = 3,      /* the rules judge where the linked data of an image lies; what the opcodes of LC_DYLD_INFO
                                and LC_DYLD_INFO_ONLY, the table of LC_DYLD_CHAINED_FIXUPS and the chains of pointers in
                                the pages ask a dynamic loader for; what the image exports; where functions start and
                                data is in code; how a code signature is built; what symbols, stubs and relocations
                                refer to; where threads and initializers begin; and what all other commands of loader.h
                                hold. rules/linked.md explains the rules */
    KESVUOT_UNAMBIGUOUS = 4, /* readers that choose slices, segments, sections, load commands and entry points in the
                                ways that the page of the rules lists choose the same ones, and a kernel that maps whole
                                pages shows the bytes that the headers describe. They find one meaning of a name that
                                the image defines, one bind of a location, one library of an undefined symbol, and one
                                identity in a signature. rules/unambiguous.md explains the rules */
    KESVUOT_SEALED = 5       /* each image has a code signature; each code directory has the hashes of all bytes before
                                the signature and of the blobs in special slots; no byte of the signature can be
                                executed; and each nonzero byte from the signature on is in the signature's header, its
                                index or a blob. The profile does not say who signed, and it reads nothing outside of
                                the file. rules/sealed.md explains the rules */
    /* registry: end */
};

/* The rules, in the order in which this version judges them. The page of a profile says when each is broken, what
 * usually breaks it, and what its place is. */
enum {
    /* registry: rules */
    /* of the file */
    KESVUOT_MAGIC = 1,
    KESVUOT_FAT_TRUNCATED = 2,
    KESVUOT_FAT_SLICE_OUTSIDE = 3,
    KESVUOT_FAT_SLICE_IN_TABLE = 4,
    KESVUOT_FAT_ALIGN = 5,
    KESVUOT_FAT_OVERLAP = 6,
    KESVUOT_FAT_DUPLICATE = 7,
    KESVUOT_FAT_SLICE_MAGIC = 8,
    KESVUOT_FAT_EMPTY = 9,
    /* of an image */
    KESVUOT_HEADER_TRUNCATED = 10,
    KESVUOT_ARCH_MISMATCH = 11,
    KESVUOT_FILE_TYPE = 12,
    KESVUOT_COMMANDS_OUTSIDE = 13,
    KESVUOT_COMMAND_WALK = 14,
    KESVUOT_COMMAND_SHORT = 15,
    KESVUOT_COMMAND_REPEATED = 16,
    KESVUOT_DYLIB_ID = 17,
    KESVUOT_NAME = 18,
    KESVUOT_SEGMENT_ADDRESS = 19,
    KESVUOT_SEGMENT_SIZE = 20,
    KESVUOT_SEGMENT_FILE = 21,
    KESVUOT_SEGMENT_OVERLAP = 22,
    KESVUOT_SECTION_ADDRESS = 23,
    KESVUOT_SECTION_FILE = 24,
    KESVUOT_SECTION_RELOCS = 25,
    KESVUOT_TABLE_RANGE = 26,
    KESVUOT_SYMBOL_GROUP = 27,
    KESVUOT_SYMBOL_NAME = 28,
    KESVUOT_SYMBOL_SECTION = 29,
    KESVUOT_INDIRECT_INDEX = 30,
    KESVUOT_ENTRY = 31,
    /* of the strict profile: rules/strict.md explains them */
    KESVUOT_FAT_STRAY_BYTE = 32,
    KESVUOT_COMMANDS_END = 33,
    KESVUOT_HEADER_SEGMENT = 34,
    KESVUOT_SEGMENT_FILE_OVERLAP = 35,
    KESVUOT_ELEMENT_OVERLAP = 36,
    KESVUOT_STRAY_BYTE = 37,
    KESVUOT_ENCRYPTED_RANGE = 38,
    KESVUOT_COMMAND_SLACK = 39,
    KESVUOT_UNCLAIMED_BYTE = 40,
    /* of the linked profile: rules/linked.md explains them */
    KESVUOT_TABLE_REPEATED = 41,
    KESVUOT_FUNCTION_VARIANTS = 42,
    KESVUOT_TABLE_HOME = 43,
    KESVUOT_HEADER_HOME = 44,
    KESVUOT_REBASE_OPCODE = 45,
    KESVUOT_REBASE_SLOT = 46,
    KESVUOT_REBASE_TOTAL = 47,
    KESVUOT_BIND_OPCODE = 48,
    KESVUOT_BIND_LIBRARY = 49,
    KESVUOT_BIND_SYMBOL = 50,
    KESVUOT_BIND_SLOT = 51,
    KESVUOT_BIND_TOTAL = 52,
    KESVUOT_BIND_NAMES = 53,
    KESVUOT_CHAIN_HEADER = 54,
    KESVUOT_CHAIN_STARTS = 55,
    KESVUOT_CHAIN_IMPORTS = 56,
    KESVUOT_CHAIN_TOTAL = 57,
    KESVUOT_CHAIN_LIBRARY = 58,
    KESVUOT_CHAIN_SLOT = 59,
    KESVUOT_CHAIN_BIND = 60,
    KESVUOT_EXPORT_NODE = 64,
    KESVUOT_EXPORT_TOTAL = 65,
    KESVUOT_EXPORT_TERMINAL = 66,
    KESVUOT_EXPORT_LIBRARY = 67,
    KESVUOT_EXPORT_ADDRESS = 68,
    KESVUOT_FUNCTION_NUMBER = 61,
    KESVUOT_FUNCTION_START = 62,
    KESVUOT_DATA_IN_CODE = 63,
    KESVUOT_INIT_OFFSET = 84,
    KESVUOT_SIGNATURE_BLOB = 69,
    KESVUOT_SIGNATURE_DIRECTORY = 70,
    KESVUOT_SIGNATURE_WHOLE = 71,
    KESVUOT_SYMBOL_LIBRARY = 72,
    KESVUOT_SYMBOL_VALUE = 73,
    KESVUOT_SYMBOL_INDIRECT = 74,
    KESVUOT_INDIRECT_RANGE = 82,
    KESVUOT_OBSOLETE_TABLE = 83,
    KESVUOT_RELOCATION = 75,
    KESVUOT_THREAD = 76,
    KESVUOT_COMMAND_CONTENT = 77,
    /* of the unambiguous profile: rules/unambiguous.md explains them */
    KESVUOT_FAT_COUNT = 86,
    KESVUOT_FAT_HEADER = 87,
    KESVUOT_FAT_PAGE = 88,
    KESVUOT_COMMAND_KNOWN = 89,
    KESVUOT_COMMAND_ONCE = 90,
    KESVUOT_SEGMENT_NAME = 91,
    KESVUOT_SEGMENT_PAGE = 92,
    KESVUOT_SEGMENT_PROTECTION = 93,
    KESVUOT_BYTES_ENCRYPTED = 94,
    KESVUOT_NUMBER_SHIFT = 95,
    KESVUOT_SECTION_NAME = 96,
    KESVUOT_SECTION_ALONE = 97,
    KESVUOT_ENTRY_ONE = 98,
    KESVUOT_BIND_ONCE = 99,
    KESVUOT_EXPORT_EDGE = 100,
    KESVUOT_SYMBOL_KIND = 101,
    KESVUOT_SYMBOL_TOTAL = 102,
    KESVUOT_EXPORT_SYMBOL = 103,
    KESVUOT_INDIRECT_NAME = 104,
    KESVUOT_IMPORT_LIBRARY = 105,
    KESVUOT_SIGNATURE_SLOT = 106,
    KESVUOT_DIRECTORY_AGREE = 107,
    /* of the sealed profile: rules/sealed.md explains them */
    KESVUOT_SIGNATURE_MISSING = 78,
    KESVUOT_SIGNATURE_EXECUTABLE = 85,
    KESVUOT_DIRECTORY_REPEATED = 79,
    KESVUOT_SIGNATURE_SLACK = 80,
    KESVUOT_SIGNATURE_HASH = 81
    /* registry: end */
};

/* The verdict on a file */

struct kesvuot_verdict {
    uint64_t place;    /* REFUSED: the least offset in the file at which `rule` is broken */
    uint64_t slices;   /* OK: how many slices the file has, 1 if it is not universal. Nothing is judged in a slice for
                          which kesvuot_read_image returns UNREAD: to count these, call it for each */
    uint32_t rule;     /* REFUSED: the first broken rule */
    uint32_t reserved; /* 0 */
};

/* Judges a file by the rules of a profile, after all rules of the profiles before it. A file that a profile accepts is
 * also accepted by each profile before it.
 * For SEALED the bytes before the signature are hashed for each code directory; an image has at most six.
 *
 * OK: no rule is broken, and `slices` is set. All other fields are 0. REFUSED: `rule` is the first broken rule, and the
 * file breaks it at `place`. All other fields are 0. NO_MEMORY: memory ran out before a verdict. All fields are 0.
 * UNKNOWN_PROFILE: no profile has this number. Nothing is written.
 *
 * Memory can run out only for these files. Every other file gets a verdict, however little memory is left.
 * LAYOUT: a universal file, or a file whose mapped segments neither ascend nor descend by address.
 * STRICT: also a file that LAYOUT accepts, if the slices do not ascend. Also if in some slice the segments do not
 * ascend by file offset, the elements do not, a range is encrypted, or a byte 0x90 (a NOP) is in no element.
 * LINKED: also a file that STRICT accepts, if some slice has more than 16 mapped segments, several executable ones that
 * have bytes in the file, an export trie, or offsets of initializers.
 * UNAMBIGUOUS and SEALED: also a file that LINKED accepts, if it is universal, or if some slice has more than 64
 * sections, more than 64 segments, or the versions of several platforms. */
int kesvuot_verify(const void *file, size_t size, uint32_t profile, struct kesvuot_verdict *verdict);

/* Writes the layout of an accepted file as text, as macho-check prints it: up to `max` bytes, from its first byte on.
 * Later bytes of `text` are unchanged, and no zero byte is added. `needed` is the length of the whole layout: if it is
 * more than max, call again with that much room. All bytes are printable ASCII or line feeds, whatever names the file
 * has. Each call judges the file again, by the profile LAYOUT, and allocates memory for the whole layout.
 * OK: as much as fits is written. REFUSED: the file breaks a rule, which kesvuot_verify gives. NO_MEMORY: memory ran
 * out for the verdict or the layout.
 * After REFUSED and NO_MEMORY `needed` is 0, and `text` is unchanged. */
uint32_t kesvuot_layout(const void *file, size_t size, char *text, size_t max, size_t *needed);

/* A constant text of the library. A zero byte, which size does not count, follows it. */
struct kesvuot_text {
    const char *at;
    size_t size;
};

/* The name of a rule, such as "section-file". After REFUSED the rule of the verdict has a name.
 * OK: the name is written. NONE: no rule has this number, and the name is empty: do not read through `at`. */
uint32_t kesvuot_find_rule(uint32_t rule, struct kesvuot_text *name);

/* The name of a rule as a string, or a null pointer if no rule has this number. */
static inline const char *kesvuot_rule_name(uint32_t rule) {
    struct kesvuot_text name;
    return kesvuot_find_rule(rule, &name) == KESVUOT_OK ? name.at : NULL;
}

/* The profile that a rule belongs to, or 0 if no rule has this number. */
uint32_t kesvuot_rule_profile(uint32_t rule);

/* The name of a profile: "layout", "strict", "linked", "unambiguous" or "sealed".
 * OK: the name is written. NONE: no profile has this number, and the name is empty: do not read through `at`. */
uint32_t kesvuot_find_profile(uint32_t profile, struct kesvuot_text *name);

/* The name of a profile as a string, or a null pointer if no profile has this number. */
static inline const char *kesvuot_profile_name(uint32_t profile) {
    struct kesvuot_text name;
    return kesvuot_find_profile(profile, &name) == KESVUOT_OK ? name.at : NULL;
}

/* The name of the load commands with this cmd, such as "LC_SEGMENT_64", and of the platform of a build, such as
 * "PLATFORM_MACOS", as <mach-o/loader.h> has them.
 * OK: the name is written. NONE: the library knows no name for the number, and the name is empty. */
uint32_t kesvuot_find_command(uint32_t cmd, struct kesvuot_text *name);
uint32_t kesvuot_find_platform(uint32_t platform, struct kesvuot_text *name);

/* The name as a string, or a null pointer if the library knows no name for the number. */
static inline const char *kesvuot_command_name(uint32_t cmd) {
    struct kesvuot_text name;
    return kesvuot_find_command(cmd, &name) == KESVUOT_OK ? name.at : NULL;
}

static inline const char *kesvuot_platform_name(uint32_t platform) {
    struct kesvuot_text name;
    return kesvuot_find_platform(platform, &name) == KESVUOT_OK ? name.at : NULL;
}

/* Why a file is refused */

#define KESVUOT_NO_INDEX UINT32_MAX

/* `kind` of struct kesvuot_part: what a part of a file is, and what its index counts. The bytes, the addresses and the
 * relocations of a segment or section have its index. Any other kind whose comment has no index has
 * KESVUOT_NO_INDEX. */
enum {
    /* registry: parts */
    KESVUOT_PART_NONE = 0,            /* no part: its index is KESVUOT_NO_INDEX, and its other numbers are 0 */
    KESVUOT_PART_FILE = 1,            /* all bytes of the file */
    KESVUOT_PART_MAGIC = 2,           /* the first 4 bytes of the file or, with its index, of a slice */
    KESVUOT_PART_FAT_HEADER = 3,      /* fat_header */
    KESVUOT_PART_FAT_TABLE = 4,       /* fat_header and all entries */
    KESVUOT_PART_FAT_ARCH = 5,        /* fat_arch or fat_arch_64, with the index of its slice */
    KESVUOT_PART_SLICE = 6,           /* the bytes of the slice with this index */
    KESVUOT_PART_HEADER = 7,          /* mach_header_64 */
    KESVUOT_PART_HEADERS = 8,         /* mach_header_64, and the sizeofcmds bytes after it */
    KESVUOT_PART_COMMAND = 9,         /* load_command: all cmdsize bytes, with the index of kesvuot_read_commands */
    KESVUOT_PART_SEGMENT = 10,        /* the file bytes of a segment, with the index of kesvuot_read_segments */
    KESVUOT_PART_SEGMENT_MEMORY = 11, /* its addresses: vmsize from vmaddr on */
    KESVUOT_PART_SECTION = 12,        /* section_64, with the index of kesvuot_read_sections */
    KESVUOT_PART_SECTION_BYTES = 13,  /* the bytes of a section in the file */
    KESVUOT_PART_SECTION_MEMORY = 14, /* its addresses: size from addr on */
    KESVUOT_PART_RELOCATIONS = 15,    /* its relocations */
    KESVUOT_PART_TABLE = 16,          /* a table that a command bounds. The index counts its tables in the order of
                                         "Bounded tables" in rules/layout.md: of LC_SYMTAB 0 the symbols, 1 the
                                         strings */
    KESVUOT_PART_GROUP = 17,          /* indices of symbols: 0 the local, 1 the external, 2 the undefined ones */
    KESVUOT_PART_NAME = 18,           /* the bytes from the start of a name to where it has to end */
    KESVUOT_PART_SYMBOL = 19,         /* nlist_64, with the index of kesvuot_read_symbols */
    KESVUOT_PART_INDIRECT = 20,       /* an indirect entry, with the index of kesvuot_read_indirects */
    KESVUOT_PART_OPCODE = 21,         /* an opcode with its operands, or one byte if they are not known */
    KESVUOT_PART_BYTE = 22,           /* one byte */
    KESVUOT_PART_CHAIN_HEADER = 23,   /* dyld_chained_fixups_header, or all of a table that has fewer bytes */
    KESVUOT_PART_CHAIN_ARRAY = 24,    /* seg_count of dyld_chained_starts_in_image */
    KESVUOT_PART_CHAIN_ENTRY = 25,    /* seg_info_offset of the segment with this index */
    KESVUOT_PART_CHAIN_STARTS = 26,   /* dyld_chained_starts_in_segment of the segment with this index: all its size
                                         bytes, or 22 if its first 22 are not all in the table */
    KESVUOT_PART_CHAIN_IMPORT = 27,   /* an import of chained fixups. The index counts from 0 */
    KESVUOT_PART_PAGE_START = 28,     /* page_start of the page with this index, which counts from 0 */
    KESVUOT_PART_CHAIN_POINTER = 29,  /* a pointer of a chain, 8 bytes, with the index of its page */
    KESVUOT_PART_FUNCTION_START = 30, /* a number of LC_FUNCTION_STARTS */
    KESVUOT_PART_DATA_IN_CODE_ENTRY = 31, /* data_in_code_entry, with the index of kesvuot_read_data_in_code */
    KESVUOT_PART_DATA_IN_CODE = 32,   /* the bytes of the file that it describes, with the same index */
    KESVUOT_PART_EXPORT_NODE = 33,    /* a node of an export trie, up to the end of its last edge, or if it does not end
                                         in the table, up to the end of that: no bytes if it would begin past it */
    KESVUOT_PART_SIGNATURE_ENTRY = 34, /* CS_BlobIndex of a code signature, with its index there */
    KESVUOT_PART_SIGNATURE_BLOB = 35, /* the blob of the entry with this index: all its length bytes, or 8 if its first
                                         8 are not all in the superblob */
    KESVUOT_PART_RELOCATION = 36,     /* relocation_info. The index counts from 0 in its table */
    KESVUOT_PART_CODE_PAGE = 37,      /* the bytes of the page with this index of a code directory */
    KESVUOT_PART_CODE_HASH = 38       /* a hash in a code directory, of the page or the special slot with this index */
    /* registry: end */
};

/* A structure, or what a structure describes. A part lies where the file says, which can be past the file. */
struct kesvuot_part {
    uint64_t start;     /* its offset in the file; of ..MEMORY its first address, and of GROUP its first index */
    uint64_t size;
    uint64_t described; /* the offset in the file of the structure that describes it, which can be itself */
    uint32_t kind;      /* KESVUOT_PART_.. */
    uint32_t index;
};

struct kesvuot_explanation {
    struct kesvuot_part at;     /* the structure that has the place, or the byte there. It lies in the file */
    struct kesvuot_part first;  /* what breaks the rule */
    struct kesvuot_part second; /* what the first part conflicts with, or should lie in */
    uint64_t value;             /* the numbers that the rule compares */
    uint64_t limit;
    uint32_t slice;             /* the index of the slice that has the place, or whose entry is there */
    uint32_t command;           /* the index of the load command that has the place, or that is missing there */
    uint32_t section;           /* the index of the section whose structure has the place */
    uint32_t symbol;            /* the index of the symbol that is at the place */
};

/* Explains a refusal: what is at the place of the verdict, which parts conflict there, and which numbers. Pass the
 * bytes that were judged, by whichever profile. reference/explain.md has a table of what each rule gives.
 * A number of 2^64 or more is given as 2^64 - 1. A missing index is KESVUOT_NO_INDEX.
 * OK: all fields are written. NONE: no rule has the number `rule`, or nothing that the rule is about is at `place`, as
 * after OK. All indices are then KESVUOT_NO_INDEX, and all other fields 0.
 * The call does not judge the file again. It takes no memory, and time in proportion to the headers and to the table
 * that has the place: a stream, chained fixups, function starts, a blob of a signature. It does not follow a chain. */
uint32_t kesvuot_explain(const void *file, size_t size, const struct kesvuot_verdict *verdict,
                         struct kesvuot_explanation *explanation);

/* Architectures */

/* The name of the architecture of a slice, such as "x86_64" or "arm64e", as LLVM's lipo prints it. The capability byte
 * of the cpusubtype does not matter.
 * OK: the name is written. NONE: the library knows no name for the numbers, and the name is empty. */
uint32_t kesvuot_find_arch(uint32_t cputype, uint32_t cpusubtype, struct kesvuot_text *name);

/* The name as a string, or a null pointer if the library knows no name for the numbers. */
static inline const char *kesvuot_arch_name(uint32_t cputype, uint32_t cpusubtype) {
    struct kesvuot_text name;
    return kesvuot_find_arch(cputype, cpusubtype, &name) == KESVUOT_OK ? name.at : NULL;
}

/* The architecture with this name, of `name_size` bytes: the numbers for which kesvuot_find_arch gives it.
 * OK: the numbers are written, the cpusubtype without a capability byte. No other architecture has the name.
 * NONE: the library knows no architecture with this name, and both numbers are 0. */
uint32_t kesvuot_arch_named(const void *name, size_t name_size, uint32_t *cputype, uint32_t *cpusubtype);

/* An image
 *
 * <mach-o/loader.h> and <mach-o/nlist.h> explain the fields. The offset of a span counts from the start of the file.
 * All other offsets, such as `fileoff`, are fields of the format and count from the start of the slice: in the file the
 * byte is at image.slice.offset + fileoff. Reserved fields are 0.
 *
 * A name contains no zero byte, and can be empty. A zero byte follows a nonempty name of a command, library, symbol,
 * export or import, but not always the name of a segment or section, which can fill all its 16 bytes: use `size`. For
 * imports this is so from a cursor of zeros on.
 *
 * The comments of the fields say what holds of them in an accepted file. A field with "any number" is not judged: test
 * it before you use it as an index, an offset or a shift. */

/* Which parts an image has: bits of `has`. */
enum {
    /* registry: has */
    KESVUOT_HAS_UUID = 1,
    KESVUOT_HAS_BASE = 2,
    KESVUOT_HAS_ENTRY = 4,
    KESVUOT_HAS_SYMTAB = 8,
    KESVUOT_HAS_DYSYMTAB = 16,
    KESVUOT_HAS_ID = 32
    /* registry: end */
};

struct kesvuot_library {      /* dylib_command */
    struct kesvuot_span name; /* any bytes, all in its command */
    uint32_t cmd;             /* LC_LOAD_DYLIB (0xc), LC_LOAD_WEAK_DYLIB and so on; of `id` LC_ID_DYLIB (0xd) */
    uint32_t current;         /* x << 16 | y << 8 | z. Any number */
    uint32_t compatible;      /* any number */
    uint32_t reserved;
};

struct kesvuot_image {
    struct kesvuot_span slice; /* the slice, in the file. Its offset is 0 exactly if the file is not universal */
    uint64_t base;             /* HAS_BASE: the address of the header, before any slide. Absent if no mapped segment has
                                  the first byte of the header. That all of the headers are mapped is header-segment, a
                                  strict rule */
    uint64_t entry;            /* HAS_ENTRY: base + entryoff of LC_MAIN, in an executable segment, and in the file.
                                  Without LC_MAIN, kesvuot_find_thread_entry finds where a thread begins */
    uint64_t symbols;          /* HAS_SYMTAB: symoff of LC_SYMTAB. Any number if symbol_count is 0 */
    uint64_t symbol_count;     /* nsyms: the table lies in the slice */
    uint64_t strings;          /* stroff. Any number if strings_size is 0 */
    uint64_t strings_size;     /* strsize: the strings lie in the slice */
    uint64_t indirects;        /* HAS_DYSYMTAB: indirectsymoff of LC_DYSYMTAB. Any number if indirect_count is 0 */
    uint64_t indirect_count;   /* nindirectsyms: the table lies in the slice */
    uint64_t command_count;    /* how many rows kesvuot_read_commands writes in all */
    uint64_t segment_count;    /* how many kesvuot_read_segments writes */
    uint64_t section_count;    /* of kesvuot_read_sections */
    uint64_t library_count;    /* of kesvuot_read_libraries */
    uint64_t build_count;      /* of kesvuot_read_builds */
    struct kesvuot_library id; /* HAS_ID: what the image is as a library. An MH_DYLIB has it, and other images do not */
    uint32_t cputype;          /* any number. In a universal file the table has the same, and so for cpusubtype */
    uint32_t cpusubtype;       /* without the high byte, CPU_SUBTYPE_MASK, both of the header and, after UNREAD, of the
                                  table. Any number */
    uint32_t capabilities;     /* that byte of the header, such as the version of arm64e's ABI. Any number below 256 */
    uint32_t filetype;         /* one that rules/layout.md lists: one of KESVUOT_MH_.. */
    uint32_t flags;            /* any number: bits such as KESVUOT_MH_TWOLEVEL */
    uint32_t has;              /* KESVUOT_HAS_.. */
    uint32_t groups[6];        /* HAS_DYSYMTAB: ilocalsym, nlocalsym, iextdefsym, nextdefsym, iundefsym, nundefsym. An
                                  index is any number if its count is 0. Else index + count is at most symbol_count */
    uint8_t uuid[16];          /* HAS_UUID: any bytes */
    uint32_t reserved[4];      /* 0 */
};

/* The image of a slice, counted from 0. Only the load commands of that slice are read, so the number of slices does not
 * matter.
 * OK: all fields are written. The fields of parts that the image does not have are 0. This is not a verdict on the
 * file.
 * UNREAD: the slice is 32-bit or big-endian. `slice` is written, and `cputype` and `cpusubtype` of the universal table.
 * All other fields are 0, also `capabilities`. Acceptance says nothing about what is inside the slice.
 * NONE: the file has no such slice. All fields are 0. REFUSED: no accepted file has such bytes there. All fields are
 * 0. */
uint32_t kesvuot_read_image(const void *file, size_t size, uint64_t slice, struct kesvuot_image *image);

/* Tables of an image
 *
 * Each call writes the next rows, up to `max`, moves the cursor past them, and returns how many it wrote. It does not
 * change the rows after those. If it wrote fewer than max, there are no more. A cursor of zeros is before the first row
 * of any table: `= {0}`, in C++ `{}`. Use it for one table of one image. Batches of any size cost the same. */

struct kesvuot_cursor {  /* the numbers are the library's own, and any are safe */
    uint64_t place;      /* where the next load command begins in the slice */
    uint64_t commands;   /* how many load commands are before it */
    uint64_t segment;    /* where the LC_SEGMENT_64 of the next section begins in the slice */
    uint64_t items;      /* for kesvuot_read_symbols, kesvuot_read_indirects and kesvuot_read_relocations the index of
                            the next row, which you can also set; otherwise a count of sections. For
                            kesvuot_read_function_starts and kesvuot_read_data_in_code: `place` is where the next number
                            or entry begins in the slice, `items` how many bytes or entries there are from there on, and
                            `segment` the address of the last function. For kesvuot_read_blobs `place` is the index of
                            the next blob, `segment` where the signature begins in the slice, `items` its size, and
                            `commands` the least offset of that blob in it */
};

struct kesvuot_segment {       /* LC_SEGMENT_64. No address is in two segments */
    struct kesvuot_span name;  /* any bytes. Two segments can have one name */
    struct kesvuot_span bytes; /* all filesize bytes from fileoff on */
    uint64_t vmaddr;           /* not aligned to a page, and neither is vmsize: two segments can share a page */
    uint64_t vmsize;           /* 0: the segment is not mapped, and no address is in it. A small file can ask for more
                                  memory than there is: set a limit of your own */
    uint64_t last;             /* its last address, vmaddr + vmsize - 1: the sum alone can be 2^64. 0 if vmsize is 0 */
    uint64_t fileoff;          /* any number if filesize is 0 */
    uint64_t filesize;         /* at most vmsize, unless vmsize is 0 */
    uint64_t first_section;    /* the index of its first section in the table of sections, if it has one */
    uint32_t section_count;    /* nsects */
    uint32_t maxprot;          /* any number */
    uint32_t initprot;         /* any number. VM_PROT_EXECUTE is set in the segment with the entry */
    uint32_t reserved;
};

struct kesvuot_section {         /* section_64 */
    struct kesvuot_span name;    /* any bytes */
    struct kesvuot_span segment; /* the name of its segment, from LC_SEGMENT_64. segname itself is not judged */
    struct kesvuot_span bytes;   /* all size bytes from offset on, none if it is zero-fill */
    uint64_t addr;               /* any number if size is 0 or the segment is not mapped. Otherwise all size addresses
                                    from addr on are in the segment */
    uint64_t size;               /* any number if it is zero-fill and the segment is not mapped */
    uint32_t offset;             /* any number if size is 0 or it is zero-fill */
    uint32_t align;              /* the exponent of a power of 2. Any number: 1 << align can be undefined */
    uint32_t reloff;             /* any number if nreloc is 0 */
    uint32_t nreloc;             /* all 8 * nreloc bytes from reloff on lie in the slice */
    uint32_t flags;              /* any number. The low byte (SECTION_TYPE) is the type, one of KESVUOT_S_.., on which
                                    zero_fill depends, and the other bits are KESVUOT_S_ATTR_.. */
    uint32_t reserved1;          /* any number. By linked, all stubs or symbol pointers of the section have indirect
                                    symbols, and this is the index of the first one */
    uint32_t reserved2;          /* any number. By linked, not 0 if the section has stubs, whose size in bytes it is */
    uint32_t zero_fill;          /* 1: a loader fills it with zeros. 0: it has bytes in the file */
};

struct kesvuot_build { /* build_version_command or version_min_command. An image can have several */
    uint32_t platform; /* any number. For a version_min_command PLATFORM_MACOS (1), PLATFORM_IOS (2), PLATFORM_TVOS (3)
                          or PLATFORM_WATCHOS (4), by its cmd: dyld takes the last three in an x86_64 image as those of
                          the simulator */
    uint32_t minos;    /* x << 16 | y << 8 | z. Any number */
    uint32_t sdk;      /* any number */
    uint32_t cmd;      /* LC_BUILD_VERSION (0x32), LC_VERSION_MIN_MACOSX (0x24), LC_VERSION_MIN_IPHONEOS (0x25),
                          LC_VERSION_MIN_TVOS (0x2f) or LC_VERSION_MIN_WATCHOS (0x30) */
};

struct kesvuot_command {       /* load_command */
    struct kesvuot_span bytes; /* all cmdsize bytes, at least 8. If rules/layout.md lists cmd, its structure and records
                                  are among them. Otherwise nothing past the first 8 is judged */
    struct kesvuot_span name;  /* of a listed dylib_command, dylinker_command (the dynamic linker) or rpath_command (a
                                  run path), otherwise none */
    uint32_t cmd;              /* any number */
    uint32_t reserved;
};

#define KESVUOT_NO_SECTION UINT32_MAX

/* How to read `type` and `desc`, by the constants of <mach-o/nlist.h> below, such as KESVUOT_N_STAB:
 * - If `type & N_STAB` is not 0, it is a debugging entry. Its `type` says which, and nothing of the following holds.
 * - `type & N_TYPE` is N_UNDF or N_PBUD if another image defines it, and N_SECT if it is defined in a section. But an
 *   external N_UNDF with another value than 0 is a common symbol of so many bytes. N_ABS: its value is a number that no
 *   slide changes. N_INDR: it stands for another symbol. Or it is any other number.
 * - `type & N_EXT`: it is external. `type & N_PEXT`: it was external, and a linker has made it private.
 * - `desc` of an undefined symbol. N_WEAK_REF: it may be missing when the image is loaded. `desc >> 8` is the ordinal
 *   of a library, if `flags` of the image have MH_TWOLEVEL, and the type is N_PBUD, or N_UNDF with the value 0. It is
 *   SELF_LIBRARY_ORDINAL (the image itself), DYNAMIC_LOOKUP_ORDINAL (any image), EXECUTABLE_ORDINAL (the program), or
 *   counts from 1 on in the order of kesvuot_read_libraries.
 * - `desc` of a defined symbol. N_WEAK_DEF: another definition can take its place. N_ALT_ENTRY, with the type N_SECT:
 *   it is an entry in the middle of what the symbol before it names.
 * - `value` of N_INDR is the offset in the strings of the name for which it stands: kesvuot_symbol_name takes it.
 * Only the linked profile judges ordinals and the values of N_INDR: in a file that it accepts the library is there, and
 * the name ends in the strings. In any other test that the number is not above library_count, or is below 2^32. */
struct kesvuot_symbol { /* nlist_64 */
    uint64_t value;     /* any number */
    uint32_t strx;      /* 0 if it has no name, otherwise less than strings_size. Pass it to kesvuot_symbol_name */
    uint32_t section;   /* the index of the section with the number sect, whatever the type is, or KESVUOT_NO_SECTION if
                           there is none. The symbol is defined in that section only if its type is N_SECT and it is no
                           debugging entry (N_STAB): then this is always an index */
    uint16_t desc;      /* any number */
    uint8_t type;       /* any number */
    uint8_t sect;       /* n_sect, from which `section` is: 0 (NO_SECT), or a number from 1 on. Any number */
    uint32_t reserved;
};

struct kesvuot_relocation { /* relocation_info of <mach-o/reloc.h>. No field of it is judged */
    uint32_t address;       /* r_address, a signed number of 32 bits */
    uint32_t symbolnum;     /* below 2^24: the index of a symbol if `external` is 1, else the number of a section */
    uint8_t pcrel;          /* 0 or 1 */
    uint8_t length;         /* 0 to 3: 1 << length bytes are relocated */
    uint8_t external;       /* r_extern: 0 or 1 */
    uint8_t type;           /* 0 to 15 */
    uint32_t scattered;     /* the highest bit of `address`, R_SCATTERED. x86_64 does not use it. In an image of another
                               architecture 1 means a scattered_relocation_info, whose fields are other bits of
                               `address`, and whose r_value is the second word: type << 28 | external << 27 |
                               length << 25 | pcrel << 24 | symbolnum */
};

struct kesvuot_data_in_code {  /* data_in_code_entry. The linked profile judges its fields */
    struct kesvuot_span bytes; /* the data in the file; empty if it does not all lie in the slice */
    uint32_t offset;           /* where the data begins in the slice */
    uint16_t length;           /* its size in bytes */
    uint16_t kind;             /* KESVUOT_DICE_KIND_.., or any other number */
};

struct kesvuot_blob {          /* CS_BlobIndex and CS_GenericBlob */
    struct kesvuot_span bytes; /* the blob in the file, with its magic and its length */
    uint32_t slot;             /* `type` of its entry: CSSLOT_CODEDIRECTORY (0), another CSSLOT_.., or any number */
    uint32_t magic;            /* CSMAGIC_CODEDIRECTORY (0xfade0c02), another CSMAGIC_.., or any number */
};

struct kesvuot_code_directory {         /* CS_CodeDirectory */
    struct kesvuot_span identifier;     /* in the file, without the zero byte that ends it; empty if its offset is 0, or
                                           no zero byte of the blob ends it */
    struct kesvuot_span team;           /* in the same form. Only versions from 0x20200 on have a team */
    struct kesvuot_span hashes;         /* of the code, one for each page; empty if they do not all lie in the blob */
    struct kesvuot_span special_hashes; /* the hash of special slot 1 is the last; empty if they do not all lie in the
                                           blob */
    uint64_t limit;                     /* codeLimit64, or codeLimit if that is 0 or not there: how many bytes of
                                           the slice are hashed, from its start on */
    uint32_t version;                   /* 0x20000 or more */
    uint32_t flags;                     /* CS_ADHOC (2) and others */
    uint32_t code_slots;                /* how many hashes there are */
    uint32_t special_slots;             /* how many special hashes */
    uint32_t hash_size;                 /* in bytes */
    uint16_t hash_type;                 /* CS_HASHTYPE_SHA256 (2), another CS_HASHTYPE_.., or any other number */
    uint16_t page_size;                 /* the log2 of the size of a page in bytes; 0: one page has all bytes */
};

struct kesvuot_cdhash { /* the hash of a code directory */
    uint8_t digest[48]; /* its first `size` bytes are the hash of the whole blob, by hash_type, and the others 0. The
                           first CS_CDHASH_LEN (20) are the cdhash, which codesign prints and servers look up */
    uint32_t size;      /* 20, 32 or 48 */
    uint32_t hash_type; /* of the directory: CS_HASHTYPE_SHA1 (1), SHA256 (2), SHA256_TRUNCATED (3) or SHA384 (4) */
};

/* All load commands, whether rules/layout.md lists them or not. */
size_t kesvuot_read_commands(const void *file, size_t size, const struct kesvuot_image *image,
                             struct kesvuot_cursor *cursor, struct kesvuot_command *rows, size_t max);
/* The segments, in the order of their commands. */
size_t kesvuot_read_segments(const void *file, size_t size, const struct kesvuot_image *image,
                             struct kesvuot_cursor *cursor, struct kesvuot_segment *rows, size_t max);
/* The sections of all segments. */
size_t kesvuot_read_sections(const void *file, size_t size, const struct kesvuot_image *image,
                             struct kesvuot_cursor *cursor, struct kesvuot_section *rows, size_t max);
/* The libraries that the image loads, by LC_LOAD_DYLIB, LC_LOAD_WEAK_DYLIB, LC_REEXPORT_DYLIB, LC_LAZY_LOAD_DYLIB and
 * LC_LOAD_UPWARD_DYLIB. The image's own LC_ID_DYLIB is in its `id`. */
size_t kesvuot_read_libraries(const void *file, size_t size, const struct kesvuot_image *image,
                              struct kesvuot_cursor *cursor, struct kesvuot_library *rows, size_t max);
/* Each LC_BUILD_VERSION, and each LC_VERSION_MIN_.. of at least 16 bytes, which rules/layout.md does not list. */
size_t kesvuot_read_builds(const void *file, size_t size, const struct kesvuot_image *image,
                           struct kesvuot_cursor *cursor, struct kesvuot_build *rows, size_t max);
/* The symbols, without their names. */
size_t kesvuot_read_symbols(const void *file, size_t size, const struct kesvuot_image *image,
                            struct kesvuot_cursor *cursor, struct kesvuot_symbol *rows, size_t max);

/* The indirect symbol table. Each row is the index of a symbol, below symbol_count, or has the bit
 * INDIRECT_SYMBOL_LOCAL or INDIRECT_SYMBOL_ABS or both. Then the other bits are any number. */
size_t kesvuot_read_indirects(const void *file, size_t size, const struct kesvuot_image *image,
                              struct kesvuot_cursor *cursor, uint32_t *rows, size_t max);

/* The relocations of a section, by its reloff and nreloc. In an accepted file there are nreloc. In any other file the
 * call writes no rows if they do not all lie in the slice. */
size_t kesvuot_read_relocations(const void *file, size_t size, const struct kesvuot_image *image, uint32_t reloff,
                                uint32_t nreloc, struct kesvuot_cursor *cursor, struct kesvuot_relocation *rows,
                                size_t max);

/* The addresses of functions, before any slide, by the first LC_FUNCTION_STARTS. Each is below the next one.
 * The data of the command is ULEB128 numbers: each says how far a function is past the one before it, and the first one
 * how far past `base` of the image. The functions end before a number 0, a number that does not end in the data or in
 * 10 bytes, an address of 2^64 or more, and at the end of the data. The call writes no rows if the image has no base.
 * In a file that was not accepted, it also writes no rows if the data ends past the slice.
 * In a file that the linked profile accepts, each row is the address of a byte of the file, and no number is left out.
 * In any other file an address can be in no segment. In either file it can be in a segment that is not executable. */
size_t kesvuot_read_function_starts(const void *file, size_t size, const struct kesvuot_image *image,
                                    struct kesvuot_cursor *cursor, uint64_t *rows, size_t max);

/* The data in the code, by the first LC_DATA_IN_CODE: the entries that are whole. In a file that was not accepted, the
 * call writes no rows if the data of the command ends past the slice.
 * They can be in any order, and overlap. In a file that the linked profile accepts, all entries are whole and of a
 * known kind, and the bytes of each are in one executable segment. In any other file the bytes can be outside of the
 * code. */
size_t kesvuot_read_data_in_code(const void *file, size_t size, const struct kesvuot_image *image,
                                 struct kesvuot_cursor *cursor, struct kesvuot_data_in_code *rows, size_t max);

/* The blobs of the code signature, by the first LC_CODE_SIGNATURE, in the order of its index. Each lies in the
 * superblob, past its index and past the blob before it. The rows end before the first blob that does not. The call
 * writes no rows unless the data begins with a superblob with the magic CSMAGIC_EMBEDDED_SIGNATURE (0xfade0cc0) that
 * ends in the data. In a file that was not accepted, it also writes no rows if the data ends past the slice.
 * In a file that the linked profile accepts no blob of the index is left out. */
size_t kesvuot_read_blobs(const void *file, size_t size, const struct kesvuot_image *image,
                          struct kesvuot_cursor *cursor, struct kesvuot_blob *rows, size_t max);

/* What a blob says, if it is a code directory, by `bytes` of the blob. Its slot does not matter.
 * OK: all fields are written.
 * NONE: the blob has another magic, a version below 0x20000, fewer bytes than the fields of its version, or a scatter
 * vector. All fields are 0.
 * In a file that the linked profile accepts, each blob in a slot of code directories (0, 0x1000 to 0x1004) is a code
 * directory. Its names and hashes lie in it, hash_type is known, and `limit` is where the signature begins in the
 * slice, so there is a hash for each page before that. Only the sealed profile compares the hashes with the pages. */
uint32_t kesvuot_read_code_directory(const void *file, size_t size, const struct kesvuot_blob *blob,
                                     struct kesvuot_code_directory *directory);

/* The hash of a code directory, by `bytes` of its blob: of the whole blob, with its magic and its length, by the
 * directory's own type of hashes. The slot of the blob does not matter, and what the directory says of the code does
 * not either.
 * OK: all fields are written.
 * NONE: kesvuot_read_code_directory returns NONE for the blob, or its hash_type is not known. All fields are 0.
 * In a file that the linked profile accepts, each blob in a slot of code directories has a hash. The hash is about the
 * bytes of the directory alone: only the sealed profile compares the hashes in it with the pages.
 * The call takes time in proportion to the size of the blob, and no memory. */
uint32_t kesvuot_read_cdhash(const void *file, size_t size, const struct kesvuot_blob *blob,
                             struct kesvuot_cdhash *cdhash);

/* The name of a symbol, by its strx.
 * OK: the name, which ends before the first zero byte of the strings from strx on. It can be empty.
 * NONE: strx is 0. In a file that was not accepted, also if no zero byte of the strings ends a name there.
 * The call searches for that byte. In a hostile file many symbols can share a long name: to look up all of them takes
 * time in proportion to symbol_count * strings_size, so look up those that you need. To list all in linear time, add up
 * the sizes of the names, and stop when the sum is more than 4 * strings_size. */
uint32_t kesvuot_symbol_name(const void *file, size_t size, const struct kesvuot_image *image, uint32_t strx,
                             struct kesvuot_span *name);

/* The names of `count` symbols, as kesvuot_symbol_name writes them one by one: names[k] is the name of rows[k], and
 * empty where that call returns NONE. Returns how many names it wrote, the lesser of `count` and `max`. Later names are
 * unchanged. In a hostile file a batch can take count * strings_size of time: sum up the sizes as above, and pass few
 * symbols at once. */
size_t kesvuot_read_names(const void *file, size_t size, const struct kesvuot_image *image,
                          const struct kesvuot_symbol *rows, size_t count, struct kesvuot_span *names, size_t max);

/* Symbols by address
 *
 * An index names the symbols whose value is an address by their indices in the table of symbols, in the order of the
 * addresses. Such a symbol has the type N_SECT, and is not a debugging entry (N_STAB). Symbols at one address are in
 * the order of the table. The caller has the memory of an index: image.symbol_count entries are enough.
 *
 *     size_t count = kesvuot_index_symbols(file, size, &image, index, max), at;
 *     struct kesvuot_symbol symbol;
 *     if (count <= max && kesvuot_find_symbol(file, size, &image, index, count, address, &symbol, &at) == KESVUOT_OK)
 *         ; // the symbol begins at symbol.value; the next one, index[at + 1] if at + 1 < count, past the address
 */

/* Writes the index of an image, and returns how many entries it has. If that is more than `max`, nothing is written.
 * It takes time in proportion to count * log(count) at most, and no memory. */
size_t kesvuot_index_symbols(const void *file, size_t size, const struct kesvuot_image *image, uint32_t *index,
                             size_t max);

/* The nearest symbol at or before an address, before any slide, by an index that kesvuot_index_symbols has written. If
 * several symbols are at one address, it is the last of them in the table. It may be of another section than the
 * address, or its end may be before the address: the format has no sizes of symbols.
 * OK: the symbol, and in `at` the position of its entry: index[at] is its index in the table.
 * NONE: no symbol of the index begins at or before the address. All fields are 0, except `section`, which is
 * KESVUOT_NO_SECTION.
 * With any other numbers in the index, the call finds an entry whose symbol begins at or before the address. The symbol
 * of the next entry, if there is one, does not. It makes a binary search, and reads no load commands. */
uint32_t kesvuot_find_symbol(const void *file, size_t size, const struct kesvuot_image *image, const uint32_t *index,
                             size_t count, uint64_t address, struct kesvuot_symbol *symbol, size_t *at);

/* The first symbol in the table with this name, of `name_size` bytes, that is not a debugging entry (N_STAB). It need
 * not be defined in the image: look at its type.
 * OK: the symbol, and in `number` its index in the table.
 * NONE: no symbol has the name. All fields are 0, except `section`, which is KESVUOT_NO_SECTION.
 * In a file that the unambiguous profile accepts, if the symbol is external and defined, all definitions of the name
 * have its value, its kind and its weakness.
 * A symbol with strx 0 has no name, not an empty one. The call reads all symbols, and compares at most
 * name_size + 1 bytes of each: for many names, read the symbols once. */
uint32_t kesvuot_find_name(const void *file, size_t size, const struct kesvuot_image *image, const void *name,
                           size_t name_size, struct kesvuot_symbol *symbol, uint64_t *number);

/* Fixups
 *
 * The pointers that a dynamic loader writes in an image, by LC_DYLD_CHAINED_FIXUPS if the image has that command,
 * otherwise by LC_DYLD_INFO or LC_DYLD_INFO_ONLY. It can write a lazy bind as late as the first call through it. The
 * rows are the same: a caller need not know which of the commands the image has.
 *
 * A bind has the index of its import and no name. Many pointers can bind one import, and to find the end of its name
 * again for each of them would take more than linear time. Read the imports once, and keep the rows.
 */

/* Where the next row is, of kesvuot_read_fixups or kesvuot_read_imports: zeros before the first. Use it for one of the
 * two calls and one image. */
struct kesvuot_fixup_cursor { /* the numbers are the library's own, and any are safe */
    uint64_t stream;
    uint64_t place;
    uint64_t commands;
    uint64_t segment;
    uint64_t offset;
    uint64_t page;
    uint64_t left;
    uint64_t skip;
    uint64_t name;
    uint64_t name_size;
    int64_t library;
    int64_t addend;
    uint64_t import;
    uint32_t flags;
    uint32_t is_new;
    uint32_t has_segment;
    uint32_t has_name;
};

struct kesvuot_import {       /* what pointers are bound to. Only the linked profile judges it */
    struct kesvuot_span name; /* any bytes */
    int64_t library;          /* counted from 1 on in the order of kesvuot_read_libraries: at most library_count. 0: the
                                 image itself; -1: the program; -2: all images in their order; -3: all images, whose
                                 weak definitions count as one, as for all imports of weak binds. In a file that linked
                                 refuses any number: 2^63 and more is given as 2^63 - 1 */
    int64_t addend;           /* added to the address that is found. Any number */
    uint32_t weak;            /* if the name is not found, 1: the pointer is 0 plus the addend. 0: the image is not
                                 loaded; but a weak bind leaves the pointer as it is, and a lazy bind ends the program
                                 at the first call */
    uint32_t reserved;
};

/* What is written to a pointer: `kind` of struct kesvuot_fixup. */
enum {
    KESVUOT_REBASE = 1, /* an address of the image itself, which moves with it */
    KESVUOT_BIND = 2    /* the address of what an import names */
};

struct kesvuot_fixup {         /* a pointer of 8 bytes. Only the linked profile judges it */
    uint64_t address;          /* of the pointer, before any slide: vmaddr + offset of its segment, modulo 2^64 */
    uint64_t offset;           /* in its segment, and in `bytes` of the segment. From a cursor of zeros on all 8 bytes
                                  are there, in any file */
    uint64_t target;           /* REBASE: the address to which it points, before any slide: the whole number that is
                                  written, with high8 of a chained pointer as its highest byte. Any number. Otherwise
                                  0 */
    uint64_t import;           /* BIND: the index of the row that kesvuot_read_imports writes. In a file that linked
                                  refuses it can be past the last row: test it. Otherwise 0 */
    int64_t addend;            /* BIND: what is added in all to the address that is found: the sum, modulo 2^64 and
                                  signed, of the addend of the import and of what the pointer adds itself. Any number.
                                  Otherwise 0 */
    uint32_t segment;          /* the index of its segment, in the order of kesvuot_read_segments */
    uint32_t kind;             /* KESVUOT_REBASE or KESVUOT_BIND */
    uint16_t diversity;        /* authenticated: a number with which the pointer is signed. Any number. Otherwise 0 */
    uint8_t address_diversity; /* authenticated: 1 if it is signed with its own address too. Otherwise 0 */
    uint8_t key;               /* authenticated: the key, 0 to 3 (IA, IB, DA, DB). Otherwise 0 */
    uint32_t authenticated;    /* 1: the pointer is signed (arm64e). Otherwise 0 */
};

/* The pointers that a loader writes, each write once and in the order of a loader, in batches as of the tables of an
 * image. A pointer can be written more than once, such as by a rebase and then a lazy bind: apply the rows in order. In
 * a file that the linked profile accepts, no write that these commands ask for is left out, and there are fewer rows
 * than the file has bytes. Relocations of LC_DYSYMTAB are not among the rows.
 *
 * By opcodes: the pointers of the rebase stream, then of the bind, the weak bind and the lazy bind stream. dyld 4 binds
 * the weak ones last, which matters for a weak and a lazy bind of one pointer: bind-once of the unambiguous profile
 * refuses binds of one pointer that differ. A rebase has the number in its 8 bytes of the file as its target. DONE in
 * the lazy stream resets the library, the addend and the flags too, as in dyld 2; dyld 4 and LLVM keep them.
 *
 * A stream ends before the first opcode that linked refuses by rebase-opcode or bind-opcode, and the next stream
 * follows. The pointers of an opcode end before the first that is not in the bytes of its segment, and the next opcode
 * follows.
 *
 * By chains: segment by segment, page by page, along each chain. In a file that linked refuses, the call writes no rows
 * if chain-header is broken. Otherwise all rows end before the first segment whose entry is not in the table, or whose
 * starts break chain-starts, where a missing base counts as 0. Neither a segment that is not writable nor a seg_count
 * that is too large ends them. They also end before the first pointer that is not whole in its page, or not whole in
 * the bytes of its segment, or whose next one begins in its own bytes, or whose import is not in the table. No import
 * is in the table if the array of imports ends past it.
 *
 * Each call reads the load commands, and then takes time in proportion to the rows that it writes and what it passes to
 * find them. It takes no memory. */
size_t kesvuot_read_fixups(const void *file, size_t size, const struct kesvuot_image *image,
                           struct kesvuot_fixup_cursor *cursor, struct kesvuot_fixup *rows, size_t max);

/* The imports, to which pointers are bound, in batches as of the tables of an image. By opcodes: a row for each opcode
 * that binds a pointer, of the bind, the weak bind and the lazy bind stream in turn. Two rows can have the same name. A
 * stream ends where kesvuot_read_fixups says.
 *
 * By chains: the imports of the table. In a file that linked refuses, the call writes no rows if chain-header is
 * broken, or if the array of imports ends past the table. Otherwise the rows end before the first import whose name
 * does not end in the table, or with which the names have more bytes than the table. */
size_t kesvuot_read_imports(const void *file, size_t size, const struct kesvuot_image *image,
                            struct kesvuot_fixup_cursor *cursor, struct kesvuot_import *rows, size_t max);

/* Exports
 *
 * What an image offers to other images under a name, by its export trie. Only the linked profile judges the trie. */

struct kesvuot_export {       /* an export. Only the linked profile judges its fields */
    uint64_t flags;           /* EXPORT_SYMBOL_FLAGS_..: any number. With the mask KIND_MASK it is a regular symbol (0),
                                 a thread-local one (1) or an absolute one (2) */
    uint64_t address;         /* before any slide: the sum of the base and a number of the trie, modulo 2^64, but of an
                                 absolute symbol the number alone. 0 of a re-export. It can be in no segment */
    uint64_t resolver;        /* STUB_AND_RESOLVER: the address of the function that finds the one to call, a sum as
                                 well. `address` is then a stub's. Otherwise, and of a re-export, 0 */
    uint64_t ordinal;         /* REEXPORT: which library has the symbol, counted from 1 on in the order of
                                 kesvuot_read_libraries. Any number. Otherwise 0 */
    struct kesvuot_span name; /* REEXPORT: its name there. Empty if that is the same, and of all other exports */
    uint64_t reserved;
};

/* What an image exports under a name of `name_size` bytes, as a dynamic loader looks it up. At each node of the trie,
 * the first edge whose string begins the rest of the name leads on. kesvuot_find_export_trie says where the trie is.
 * Addresses count from `base` of the image, which is 0 if it has none.
 * OK: the export is written.
 * NONE: the image exports no such name, or has no trie. Also if a node on the way does not end in the trie, or a number
 * or the name of the export does not end in its part of the node. Also if the nodes on the way, each counted as often
 * as it is visited, have more bytes than the trie. All fields are 0.
 * In a file that the unambiguous profile accepts, it is the export that any reader of the trie finds under the name.
 * The call reads the load commands, and then the nodes on the way. It takes no memory. */
uint32_t kesvuot_find_export(const void *file, size_t size, const struct kesvuot_image *image, const void *name,
                             size_t name_size, struct kesvuot_export *found);

/* Where the export trie of an image lies in the file, as the linked profile finds it: the data of the first
 * LC_DYLD_EXPORTS_TRIE. Without one, or if its datasize is 0, it is the export_size bytes from export_off on of the
 * first LC_DYLD_INFO_ONLY, or without that command, of the first LC_DYLD_INFO.
 * OK: the bytes of the trie, at least one byte.
 * NONE: the image has no trie. In a file that was not accepted, also if the trie ends past the slice, or the headers
 * break a rule. The span is empty.
 * The call reads the load commands. */
uint32_t kesvuot_find_export_trie(const void *file, size_t size, const struct kesvuot_image *image,
                                  struct kesvuot_span *trie);

/* All exports
 *
 * The exports of an image are at the nodes that are reached from the root, which is at offset 0 of the trie. The name
 * of each is made of the labels on the way to its node. The caller walks: it keeps which nodes are left, and the labels
 * that lead to them. guide/c.md has a walk.
 *
 * A node reaches from its offset to the `place` of its cursor past its last edge. In a file that the linked profile
 * accepts, the visited nodes, each counted as often as it is visited, have no more bytes than the trie. In any other
 * file an edge can lead back, and two edges can lead to one node. There a caller adds up the bytes of the visited
 * nodes, and stops when they have more bytes than the trie. */

struct kesvuot_export_node {       /* a node of an export trie. Only the linked profile judges it */
    struct kesvuot_export exported; /* what the name that ends here is exported as, if has_export is 1. Otherwise 0 */
    struct kesvuot_span terminal;  /* the bytes that say so. None if no name ends here */
    struct kesvuot_cursor edges;   /* the cursor of the first edge, for kesvuot_read_export_edges: `place` is the offset
                                      of the edge in the trie, and `items` how many edges the node has, at most 255 */
    uint32_t has_export;           /* 0: no name ends here, or a number or name of its export does not end in the bytes
                                      of `terminal` */
    uint32_t reserved;
};

struct kesvuot_export_edge {    /* an edge of a node */
    struct kesvuot_span label;  /* the part of a name that the edge adds, without its zero byte. It can be empty */
    uint64_t child;             /* the offset of its node in the trie. Any number */
};

/* The node at an offset of an export trie. Addresses count from `base` of the image.
 * OK: the node, up to its edges. No other field of the image is read.
 * NONE: no such node begins there, because a number of it does not end in the trie, or its edges would begin past it.
 * All fields are 0.
 * The call takes no more than the time to read the numbers and the name of the node, and no memory. */
uint32_t kesvuot_read_export_node(const void *file, size_t size, const struct kesvuot_image *image,
                                  const struct kesvuot_span *trie, uint64_t offset, struct kesvuot_export_node *node);

/* The edges of a node, from its cursor on, in batches as of the tables of an image. The call writes the next edges, up
 * to `max`, moves the cursor past them, and returns how many it wrote. It stops before an edge whose label or number
 * does not end in the trie: then `items` of the cursor is not 0, and fewer than max were written. A cursor of zeros has
 * no edges. */
size_t kesvuot_read_export_edges(const void *file, size_t size, const struct kesvuot_span *trie,
                                 struct kesvuot_cursor *cursor, struct kesvuot_export_edge *rows, size_t max);

/* The data of the first linkedit_data_command with this cmd, such as LC_CODE_SIGNATURE (0x1d) or LC_FUNCTION_STARTS
 * (0x26).
 * OK: all datasize bytes from dataoff on. If datasize is 0, the span is empty, whatever dataoff is.
 * NONE: the image has no such command, or rules/layout.md does not list cmd as a linkedit_data_command (for example
 * LC_ATOM_INFO, 0x36). In a file that was not accepted, also if the data ends past the image, or the headers break a
 * rule. After NONE the span is empty. */
uint32_t kesvuot_find_data(const void *file, size_t size, const struct kesvuot_image *image, uint32_t cmd,
                           struct kesvuot_span *data);

/* The tables of an image, with the fields that bound each, and what its items are. */
enum {
    /* registry: tables */
    /* of LC_SYMTAB */
    KESVUOT_TABLE_SYMBOLS = 1, /* symoff, nsyms: nlist_64 of 16 bytes */
    KESVUOT_TABLE_STRINGS = 2, /* stroff, strsize: the strings of the symbols */
    /* of LC_DYSYMTAB */
    KESVUOT_TABLE_CONTENTS = 3,             /* tocoff, ntoc: dylib_table_of_contents of 8 bytes */
    KESVUOT_TABLE_MODULES = 4,              /* modtaboff, nmodtab: dylib_module_64 of 56 bytes */
    KESVUOT_TABLE_REFERENCES = 5,           /* extrefsymoff, nextrefsyms: dylib_reference of 4 bytes */
    KESVUOT_TABLE_INDIRECTS = 6,            /* indirectsymoff, nindirectsyms: indirect entries of 4 bytes */
    KESVUOT_TABLE_EXTERNAL_RELOCATIONS = 7, /* extreloff, nextrel: relocation_info of 8 bytes */
    KESVUOT_TABLE_LOCAL_RELOCATIONS = 8,    /* locreloff, nlocrel: relocation_info of 8 bytes */
    /* of LC_DYLD_INFO or LC_DYLD_INFO_ONLY */
    KESVUOT_TABLE_REBASE = 9,     /* rebase_off, rebase_size: bytes */
    KESVUOT_TABLE_BIND = 10,      /* bind_off, bind_size: bytes */
    KESVUOT_TABLE_WEAK_BIND = 11, /* weak_bind_off, weak_bind_size: bytes */
    KESVUOT_TABLE_LAZY_BIND = 12, /* lazy_bind_off, lazy_bind_size: bytes */
    KESVUOT_TABLE_EXPORT = 13,    /* export_off, export_size: bytes */
    /* of LC_ENCRYPTION_INFO_64 */
    KESVUOT_TABLE_ENCRYPTED = 14 /* cryptoff, cryptsize: bytes */
    /* registry: end */
};

/* A table of an image, by a number such as KESVUOT_TABLE_REBASE. With several such commands it is a table of the first,
 * LC_DYLD_INFO or LC_DYLD_INFO_ONLY alike. The linked profile accepts only one of the two commands, once.
 * OK: all bytes of the table. If it has no items, the span is empty, whatever its offset is.
 * NONE: the image has no such command, or no table has the number. In a file that was not accepted, also if the table
 * ends past the image. After NONE the span is empty. */
uint32_t kesvuot_find_table(const void *file, size_t size, const struct kesvuot_image *image, uint32_t table,
                            struct kesvuot_span *bytes);

/* The version a.b.c.d.e of the sources, by the first LC_SOURCE_VERSION of at least 16 bytes: a << 40 | b << 30 |
 * c << 20 | d << 10 | e. Any number: rules/layout.md does not list the command.
 * OK: the version is written. NONE: the image has no such command, and the version is 0. */
uint32_t kesvuot_find_source_version(const void *file, size_t size, const struct kesvuot_image *image,
                                     uint64_t *version);

/* The address at which the first LC_THREAD or LC_UNIXTHREAD begins, before any slide: rip or pc of its registers. It is
 * the entry of a program that has no LC_MAIN, such as one that Go links, or one for no dynamic linker.
 * OK: the address, which is in an executable segment, and the file has a byte for it.
 * NONE: the image has no such command, its states do not end where it ends, or the file has no byte that can be
 * executed at the address. Also if no state, or more than one, has registers that are known for the cputype. In a file
 * that was not accepted, also if the headers break a rule. The entry is 0.
 * In a file that the linked profile accepts, each image with an LC_THREAD or LC_UNIXTHREAD has the address, and no
 * second thread. In any other file a loader may obey another thread. */
uint32_t kesvuot_find_thread_entry(const void *file, size_t size, const struct kesvuot_image *image, uint64_t *entry);

/* What is at an address, before any slide.
 * OK: the bytes from there to the end of what its segment has in the file.
 * ZERO: a segment has the address, but no byte of the file for it.
 * NONE: no segment has the address. In a file that was not accepted, also if the headers break a rule.
 * After ZERO and NONE the span is empty. Like kesvuot_find_data, this call judges the load commands again: for many
 * addresses, read the segments once. */
uint32_t kesvuot_find_address(const void *file, size_t size, const struct kesvuot_image *image, uint64_t address,
                              struct kesvuot_span *bytes);

/* Constants of the headers of the system. */

/* registry: constants */
/* The load commands. (mach-o/loader.h) */
#define KESVUOT_LC_SEGMENT 0x1
#define KESVUOT_LC_SYMTAB 0x2
#define KESVUOT_LC_SYMSEG 0x3
#define KESVUOT_LC_THREAD 0x4
#define KESVUOT_LC_UNIXTHREAD 0x5
#define KESVUOT_LC_LOADFVMLIB 0x6
#define KESVUOT_LC_IDFVMLIB 0x7
#define KESVUOT_LC_IDENT 0x8
#define KESVUOT_LC_FVMFILE 0x9
#define KESVUOT_LC_PREPAGE 0xa
#define KESVUOT_LC_DYSYMTAB 0xb
#define KESVUOT_LC_LOAD_DYLIB 0xc
#define KESVUOT_LC_ID_DYLIB 0xd
#define KESVUOT_LC_LOAD_DYLINKER 0xe
#define KESVUOT_LC_ID_DYLINKER 0xf
#define KESVUOT_LC_PREBOUND_DYLIB 0x10
#define KESVUOT_LC_ROUTINES 0x11
#define KESVUOT_LC_SUB_FRAMEWORK 0x12
#define KESVUOT_LC_SUB_UMBRELLA 0x13
#define KESVUOT_LC_SUB_CLIENT 0x14
#define KESVUOT_LC_SUB_LIBRARY 0x15
#define KESVUOT_LC_TWOLEVEL_HINTS 0x16
#define KESVUOT_LC_PREBIND_CKSUM 0x17
#define KESVUOT_LC_SEGMENT_64 0x19
#define KESVUOT_LC_ROUTINES_64 0x1a
#define KESVUOT_LC_UUID 0x1b
#define KESVUOT_LC_CODE_SIGNATURE 0x1d
#define KESVUOT_LC_SEGMENT_SPLIT_INFO 0x1e
#define KESVUOT_LC_LAZY_LOAD_DYLIB 0x20
#define KESVUOT_LC_ENCRYPTION_INFO 0x21
#define KESVUOT_LC_DYLD_INFO 0x22
#define KESVUOT_LC_VERSION_MIN_MACOSX 0x24
#define KESVUOT_LC_VERSION_MIN_IPHONEOS 0x25
#define KESVUOT_LC_FUNCTION_STARTS 0x26
#define KESVUOT_LC_DYLD_ENVIRONMENT 0x27
#define KESVUOT_LC_DATA_IN_CODE 0x29
#define KESVUOT_LC_SOURCE_VERSION 0x2a
#define KESVUOT_LC_DYLIB_CODE_SIGN_DRS 0x2b
#define KESVUOT_LC_ENCRYPTION_INFO_64 0x2c
#define KESVUOT_LC_LINKER_OPTION 0x2d
#define KESVUOT_LC_LINKER_OPTIMIZATION_HINT 0x2e
#define KESVUOT_LC_VERSION_MIN_TVOS 0x2f
#define KESVUOT_LC_VERSION_MIN_WATCHOS 0x30
#define KESVUOT_LC_NOTE 0x31
#define KESVUOT_LC_BUILD_VERSION 0x32
#define KESVUOT_LC_ATOM_INFO 0x36
#define KESVUOT_LC_FUNCTION_VARIANTS 0x37
#define KESVUOT_LC_FUNCTION_VARIANT_FIXUPS 0x38
#define KESVUOT_LC_TARGET_TRIPLE 0x39
#define KESVUOT_LC_LOAD_WEAK_DYLIB 0x80000018
#define KESVUOT_LC_RPATH 0x8000001c
#define KESVUOT_LC_REEXPORT_DYLIB 0x8000001f
#define KESVUOT_LC_DYLD_INFO_ONLY 0x80000022
#define KESVUOT_LC_LOAD_UPWARD_DYLIB 0x80000023
#define KESVUOT_LC_MAIN 0x80000028
#define KESVUOT_LC_DYLD_EXPORTS_TRIE 0x80000033
#define KESVUOT_LC_DYLD_CHAINED_FIXUPS 0x80000034
#define KESVUOT_LC_FILESET_ENTRY 0x80000035

/* The platforms of a build. (mach-o/loader.h) */
#define KESVUOT_PLATFORM_MACOS 1
#define KESVUOT_PLATFORM_IOS 2
#define KESVUOT_PLATFORM_TVOS 3
#define KESVUOT_PLATFORM_WATCHOS 4
#define KESVUOT_PLATFORM_BRIDGEOS 5
#define KESVUOT_PLATFORM_MACCATALYST 6
#define KESVUOT_PLATFORM_IOSSIMULATOR 7
#define KESVUOT_PLATFORM_TVOSSIMULATOR 8
#define KESVUOT_PLATFORM_WATCHOSSIMULATOR 9
#define KESVUOT_PLATFORM_DRIVERKIT 10
#define KESVUOT_PLATFORM_VISIONOS 11
#define KESVUOT_PLATFORM_VISIONOSSIMULATOR 12

/* The filetypes that are judged. (mach-o/loader.h) */
#define KESVUOT_MH_EXECUTE 2
#define KESVUOT_MH_DYLIB 6
#define KESVUOT_MH_BUNDLE 8

/* The attributes in the flags of a section. (mach-o/loader.h) */
#define KESVUOT_S_ATTR_PURE_INSTRUCTIONS 0x80000000
#define KESVUOT_S_ATTR_NO_TOC 0x40000000
#define KESVUOT_S_ATTR_STRIP_STATIC_SYMS 0x20000000
#define KESVUOT_S_ATTR_NO_DEAD_STRIP 0x10000000
#define KESVUOT_S_ATTR_LIVE_SUPPORT 0x8000000
#define KESVUOT_S_ATTR_SELF_MODIFYING_CODE 0x4000000
#define KESVUOT_S_ATTR_DEBUG 0x2000000
#define KESVUOT_S_ATTR_SOME_INSTRUCTIONS 0x400
#define KESVUOT_S_ATTR_EXT_RELOC 0x200
#define KESVUOT_S_ATTR_LOC_RELOC 0x100

/* The type in the flags of a section, and the types of zero-fill sections. (mach-o/loader.h) */
#define KESVUOT_SECTION_TYPE 0xff
#define KESVUOT_S_ZEROFILL 0x1
#define KESVUOT_S_GB_ZEROFILL 0xc
#define KESVUOT_S_THREAD_LOCAL_ZEROFILL 0x12

/* The types of sections whose items have indirect entries. (mach-o/loader.h) */
#define KESVUOT_S_NON_LAZY_SYMBOL_POINTERS 0x6
#define KESVUOT_S_LAZY_SYMBOL_POINTERS 0x7
#define KESVUOT_S_SYMBOL_STUBS 0x8
#define KESVUOT_S_LAZY_DYLIB_SYMBOL_POINTERS 0x10
#define KESVUOT_S_THREAD_LOCAL_VARIABLE_POINTERS 0x14

/* The type of a section of offsets of initializers. (mach-o/loader.h) */
#define KESVUOT_S_INIT_FUNC_OFFSETS 0x16

/* The other types of sections. (mach-o/loader.h) */
#define KESVUOT_S_REGULAR 0x0
#define KESVUOT_S_CSTRING_LITERALS 0x2
#define KESVUOT_S_4BYTE_LITERALS 0x3
#define KESVUOT_S_8BYTE_LITERALS 0x4
#define KESVUOT_S_LITERAL_POINTERS 0x5
#define KESVUOT_S_MOD_INIT_FUNC_POINTERS 0x9
#define KESVUOT_S_MOD_TERM_FUNC_POINTERS 0xa
#define KESVUOT_S_COALESCED 0xb
#define KESVUOT_S_INTERPOSING 0xd
#define KESVUOT_S_16BYTE_LITERALS 0xe
#define KESVUOT_S_DTRACE_DOF 0xf
#define KESVUOT_S_THREAD_LOCAL_REGULAR 0x11
#define KESVUOT_S_THREAD_LOCAL_VARIABLES 0x13
#define KESVUOT_S_THREAD_LOCAL_INIT_FUNCTION_POINTERS 0x15

/* The marks of an indirect entry. (mach-o/loader.h) */
#define KESVUOT_INDIRECT_SYMBOL_LOCAL 0x80000000
#define KESVUOT_INDIRECT_SYMBOL_ABS 0x40000000

/* The flags of an image. (mach-o/loader.h) */
#define KESVUOT_MH_NOUNDEFS 0x1
#define KESVUOT_MH_DYLDLINK 0x4
#define KESVUOT_MH_BINDATLOAD 0x8
#define KESVUOT_MH_PREBOUND 0x10
#define KESVUOT_MH_TWOLEVEL 0x80
#define KESVUOT_MH_FORCE_FLAT 0x100
#define KESVUOT_MH_SUBSECTIONS_VIA_SYMBOLS 0x2000
#define KESVUOT_MH_WEAK_DEFINES 0x8000
#define KESVUOT_MH_BINDS_TO_WEAK 0x10000
#define KESVUOT_MH_ALLOW_STACK_EXECUTION 0x20000
#define KESVUOT_MH_NO_REEXPORTED_DYLIBS 0x100000
#define KESVUOT_MH_PIE 0x200000
#define KESVUOT_MH_DEAD_STRIPPABLE_DYLIB 0x400000
#define KESVUOT_MH_HAS_TLV_DESCRIPTORS 0x800000
#define KESVUOT_MH_NO_HEAP_EXECUTION 0x1000000
#define KESVUOT_MH_APP_EXTENSION_SAFE 0x2000000
#define KESVUOT_MH_SIM_SUPPORT 0x8000000
#define KESVUOT_MH_DYLIB_IN_CACHE 0x80000000

/* The flags of an export: a mask, its values, and bits. (mach-o/loader.h) */
#define KESVUOT_EXPORT_SYMBOL_FLAGS_KIND_MASK 0x3
#define KESVUOT_EXPORT_SYMBOL_FLAGS_KIND_REGULAR 0x0
#define KESVUOT_EXPORT_SYMBOL_FLAGS_KIND_THREAD_LOCAL 0x1
#define KESVUOT_EXPORT_SYMBOL_FLAGS_KIND_ABSOLUTE 0x2
#define KESVUOT_EXPORT_SYMBOL_FLAGS_WEAK_DEFINITION 0x4
#define KESVUOT_EXPORT_SYMBOL_FLAGS_REEXPORT 0x8
#define KESVUOT_EXPORT_SYMBOL_FLAGS_STUB_AND_RESOLVER 0x10
#define KESVUOT_EXPORT_SYMBOL_FLAGS_STATIC_RESOLVER 0x20

/* The kinds of data in code. (mach-o/loader.h) */
#define KESVUOT_DICE_KIND_DATA 1
#define KESVUOT_DICE_KIND_JUMP_TABLE8 2
#define KESVUOT_DICE_KIND_JUMP_TABLE16 3
#define KESVUOT_DICE_KIND_JUMP_TABLE32 4
#define KESVUOT_DICE_KIND_ABS_JUMP_TABLE32 5

/* The processors of the 64-bit architectures. (mach/machine.h) */
#define KESVUOT_CPU_ARCH_ABI64 0x1000000
#define KESVUOT_CPU_TYPE_X86_64 0x1000007
#define KESVUOT_CPU_TYPE_ARM64 0x100000c
#define KESVUOT_CPU_SUBTYPE_MASK 0xff000000
#define KESVUOT_CPU_SUBTYPE_X86_64_ALL 3
#define KESVUOT_CPU_SUBTYPE_X86_64_H 8
#define KESVUOT_CPU_SUBTYPE_ARM64_ALL 0
#define KESVUOT_CPU_SUBTYPE_ARM64E 2

/* The type of a symbol: masks, two bits, and the values of `N_TYPE`. (mach-o/nlist.h) */
#define KESVUOT_N_STAB 0xe0
#define KESVUOT_N_PEXT 0x10
#define KESVUOT_N_TYPE 0xe
#define KESVUOT_N_EXT 0x1
#define KESVUOT_N_UNDF 0x0
#define KESVUOT_N_ABS 0x2
#define KESVUOT_N_INDR 0xa
#define KESVUOT_N_PBUD 0xc
#define KESVUOT_N_SECT 0xe

/* The description of a symbol: bits of `n_desc`. Its upper 8 bits are the ordinal of a library, if the symbol is undefined. (mach-o/nlist.h) */
#define KESVUOT_N_ARM_THUMB_DEF 0x8
#define KESVUOT_REFERENCED_DYNAMICALLY 0x10
#define KESVUOT_N_NO_DEAD_STRIP 0x20
#define KESVUOT_N_WEAK_REF 0x40
#define KESVUOT_N_WEAK_DEF 0x80
#define KESVUOT_N_SYMBOL_RESOLVER 0x100
#define KESVUOT_N_ALT_ENTRY 0x200
#define KESVUOT_N_COLD_FUNC 0x400

/* The ordinals that stand for the image itself, for all images, and for the program. (mach-o/nlist.h) */
#define KESVUOT_SELF_LIBRARY_ORDINAL 0x0
#define KESVUOT_DYNAMIC_LOOKUP_ORDINAL 0xfe
#define KESVUOT_EXECUTABLE_ORDINAL 0xff

/* The bits of a protection. (mach/vm_prot.h) */
#define KESVUOT_VM_PROT_READ 1
#define KESVUOT_VM_PROT_WRITE 2
#define KESVUOT_VM_PROT_EXECUTE 4

/* Code signatures: magic numbers of blobs. (kern/cs_blobs.h) */
#define KESVUOT_CSMAGIC_EMBEDDED_SIGNATURE 0xfade0cc0
#define KESVUOT_CSMAGIC_CODEDIRECTORY 0xfade0c02
#define KESVUOT_CSMAGIC_REQUIREMENTS 0xfade0c01
#define KESVUOT_CSMAGIC_EMBEDDED_ENTITLEMENTS 0xfade7171
#define KESVUOT_CSMAGIC_EMBEDDED_DER_ENTITLEMENTS 0xfade7172
#define KESVUOT_CSMAGIC_EMBEDDED_LAUNCH_CONSTRAINT 0xfade8181
#define KESVUOT_CSMAGIC_BLOBWRAPPER 0xfade0b01

/* Code signatures: slots of code directories, and types of hashes. (kern/cs_blobs.h) */
#define KESVUOT_CSSLOT_CODEDIRECTORY 0
#define KESVUOT_CSSLOT_ALTERNATE_CODEDIRECTORIES 0x1000
#define KESVUOT_CSSLOT_REQUIREMENTS 2
#define KESVUOT_CSSLOT_ENTITLEMENTS 5
#define KESVUOT_CSSLOT_DER_ENTITLEMENTS 7
#define KESVUOT_CSSLOT_LAUNCH_CONSTRAINT_SELF 8
#define KESVUOT_CSSLOT_LIBRARY_CONSTRAINT 11
#define KESVUOT_CSSLOT_SIGNATURESLOT 0x10000
#define KESVUOT_CSSLOT_TICKETSLOT 0x10002
#define KESVUOT_CS_HASHTYPE_SHA1 1
#define KESVUOT_CS_HASHTYPE_SHA256 2
#define KESVUOT_CS_HASHTYPE_SHA256_TRUNCATED 3
#define KESVUOT_CS_HASHTYPE_SHA384 4

/* Code signatures: flags of a code directory. (kern/cs_blobs.h) */
#define KESVUOT_CS_ADHOC 0x2
#define KESVUOT_CS_HARD 0x100
#define KESVUOT_CS_KILL 0x200
#define KESVUOT_CS_CHECK_EXPIRATION 0x400
#define KESVUOT_CS_RESTRICT 0x800
#define KESVUOT_CS_ENFORCEMENT 0x1000
#define KESVUOT_CS_REQUIRE_LV 0x2000
#define KESVUOT_CS_RUNTIME 0x10000
#define KESVUOT_CS_LINKER_SIGNED 0x20000

/* The size in bytes of a cdhash. (kern/cs_blobs.h) */
#define KESVUOT_CS_CDHASH_LEN 20
/* registry: end */

/* The layout of the structures in the library, which is for 64-bit machines. C99 and C++98 cannot check it. */
#if (defined(__cplusplus) && __cplusplus >= 201103L) || (defined(__STDC_VERSION__) && __STDC_VERSION__ >= 201112L)
#ifdef __cplusplus
#define KESVUOT_HOLDS(condition) static_assert(condition, #condition)
#else
#define KESVUOT_HOLDS(condition) _Static_assert(condition, #condition)
#endif
KESVUOT_HOLDS(sizeof(struct kesvuot_span) == 16);
KESVUOT_HOLDS(sizeof(struct kesvuot_verdict) == 24);
KESVUOT_HOLDS(sizeof(struct kesvuot_text) == 16);
KESVUOT_HOLDS(sizeof(struct kesvuot_part) == 32);
KESVUOT_HOLDS(sizeof(struct kesvuot_explanation) == 128);
KESVUOT_HOLDS(sizeof(struct kesvuot_library) == 32);
KESVUOT_HOLDS(sizeof(struct kesvuot_image) == 232);
KESVUOT_HOLDS(sizeof(struct kesvuot_cursor) == 32);
KESVUOT_HOLDS(sizeof(struct kesvuot_segment) == 96);
KESVUOT_HOLDS(sizeof(struct kesvuot_section) == 96);
KESVUOT_HOLDS(sizeof(struct kesvuot_build) == 16);
KESVUOT_HOLDS(sizeof(struct kesvuot_command) == 40);
KESVUOT_HOLDS(sizeof(struct kesvuot_symbol) == 24);
KESVUOT_HOLDS(sizeof(struct kesvuot_relocation) == 16);
KESVUOT_HOLDS(sizeof(struct kesvuot_data_in_code) == 24);
KESVUOT_HOLDS(sizeof(struct kesvuot_blob) == 24);
KESVUOT_HOLDS(sizeof(struct kesvuot_code_directory) == 96);
KESVUOT_HOLDS(sizeof(struct kesvuot_cdhash) == 56);
KESVUOT_HOLDS(sizeof(struct kesvuot_export) == 56);
KESVUOT_HOLDS(sizeof(struct kesvuot_export_node) == 112);
KESVUOT_HOLDS(sizeof(struct kesvuot_export_edge) == 24);
KESVUOT_HOLDS(sizeof(struct kesvuot_fixup_cursor) == 120);
KESVUOT_HOLDS(sizeof(struct kesvuot_import) == 40);
KESVUOT_HOLDS(sizeof(struct kesvuot_fixup) == 56);
KESVUOT_HOLDS(offsetof(struct kesvuot_verdict, rule) == 16);
KESVUOT_HOLDS(offsetof(struct kesvuot_part, kind) == 24);
KESVUOT_HOLDS(offsetof(struct kesvuot_explanation, value) == 96);
KESVUOT_HOLDS(offsetof(struct kesvuot_explanation, slice) == 112);
KESVUOT_HOLDS(offsetof(struct kesvuot_image, symbols) == 32);
KESVUOT_HOLDS(offsetof(struct kesvuot_image, command_count) == 80);
KESVUOT_HOLDS(offsetof(struct kesvuot_image, id) == 120);
KESVUOT_HOLDS(offsetof(struct kesvuot_image, cputype) == 152);
KESVUOT_HOLDS(offsetof(struct kesvuot_image, groups) == 176);
KESVUOT_HOLDS(offsetof(struct kesvuot_image, uuid) == 200);
KESVUOT_HOLDS(offsetof(struct kesvuot_segment, vmaddr) == 32);
KESVUOT_HOLDS(offsetof(struct kesvuot_segment, section_count) == 80);
KESVUOT_HOLDS(offsetof(struct kesvuot_section, offset) == 64);
KESVUOT_HOLDS(offsetof(struct kesvuot_library, cmd) == 16);
KESVUOT_HOLDS(offsetof(struct kesvuot_command, cmd) == 32);
KESVUOT_HOLDS(offsetof(struct kesvuot_symbol, desc) == 16);
KESVUOT_HOLDS(offsetof(struct kesvuot_relocation, scattered) == 12);
KESVUOT_HOLDS(offsetof(struct kesvuot_data_in_code, kind) == 22);
KESVUOT_HOLDS(offsetof(struct kesvuot_blob, slot) == 16);
KESVUOT_HOLDS(offsetof(struct kesvuot_code_directory, limit) == 64);
KESVUOT_HOLDS(offsetof(struct kesvuot_code_directory, page_size) == 94);
KESVUOT_HOLDS(offsetof(struct kesvuot_cdhash, size) == 48);
KESVUOT_HOLDS(offsetof(struct kesvuot_export, ordinal) == 24);
KESVUOT_HOLDS(offsetof(struct kesvuot_export_node, has_export) == 104);
KESVUOT_HOLDS(offsetof(struct kesvuot_fixup_cursor, flags) == 104);
KESVUOT_HOLDS(offsetof(struct kesvuot_import, weak) == 32);
KESVUOT_HOLDS(offsetof(struct kesvuot_fixup, segment) == 40);
KESVUOT_HOLDS(offsetof(struct kesvuot_fixup, diversity) == 48);
#undef KESVUOT_HOLDS
#endif

#ifdef __cplusplus
}
#endif

#endif
