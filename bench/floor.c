// Decides what macho-check decides of standard input, and prints the same text with the same status. The text is the
// layout of a file that breaks no rule of docs/rules (status 0), or the first broken rule and its place (status 1).
//
//     (cd tests && python3 -m reference.rules_tables) >rules_tables.h && cc -std=c99 -O2 -I. -o floor bench/floor.c
//     ./floor [--strict] <FILE
//
// With --strict it decides what macho-verify decides by the strict profile. It has no linked and no sealed rules.
//
// It shows how fast C can be at this. bench/speed runs it beside the program, and tests/floor tries its answers.
// Nothing is walked twice without need: one walk over the load commands judges each command, segment and section, and
// notes the least place at which each rule is broken; one loop judges the symbols. Ranges are sorted only where they
// neither ascend nor descend, and ranges between which bytes are searched only where they do not ascend. The file is
// read as bench/speed reads it: standard input has to be a file of at most 4 GiB. The program gives no verdict if it
// cannot read the file, cannot allocate memory or cannot write (status 3, 4 and 3).
//
// Structures and constants have their public names. The rules stand in the order of docs/rules, a function for each:
// of the file, of the header and the load commands, of segments and sections, of tables and symbols, and of the entry.
// After them stand the walk and the judgment, which call them, then the strict profile, and the report. rules_tables.h
// has the names of the rules, the filetypes, the listed commands and their tables from docs/rules.

#define _GNU_SOURCE // memrchr
#include <stdbool.h>
#include <stddef.h>
#include <stdint.h>
#include <stdio.h>
#include <stdlib.h>
#include <string.h>
#include <sys/stat.h>
#include <unistd.h>

#include "rules_tables.h"

#if SIZE_MAX < UINT64_MAX || __BYTE_ORDER__ != __ORDER_LITTLE_ENDIAN__
#error "this program is for 64-bit little-endian machines"
#endif

// How long a file may be, and how many bytes of output are gathered before they are written.
#define INPUT_LIMIT ((uint64_t)1 << 32)
#define OUTPUT_SIZE ((size_t)1 << 16)

enum { ACCEPTED = 0, REFUSED = 1, WRONG_USAGE = 2, NOT_READ_OR_WRITTEN = 3, NO_MEMORY = 4 };

// mach-o/fat.h

#define FAT_MAGIC 0xcafebabeu
#define FAT_MAGIC_64 0xcafebabfu

struct fat_header {
    uint32_t magic, nfat_arch;
};

struct fat_arch {
    uint32_t cputype, cpusubtype, offset, size, align;
};

struct fat_arch_64 {
    uint32_t cputype, cpusubtype;
    uint64_t offset, size;
    uint32_t align, reserved;
};

// mach/machine.h, mach/vm_prot.h

#define CPU_TYPE_X86_64 0x01000007u
#define CPU_TYPE_ARM64 0x0100000cu
#define CPU_SUBTYPE_MASK 0xff000000u
#define CPU_SUBTYPE_X86_64_ALL 3u
#define CPU_SUBTYPE_X86_64_H 8u
#define CPU_SUBTYPE_ARM64_ALL 0u
#define CPU_SUBTYPE_ARM64E 2u

#define VM_PROT_READ 1u
#define VM_PROT_WRITE 2u
#define VM_PROT_EXECUTE 4u

// mach-o/loader.h. A magic number of big-endian order is a CIGAM to a little-endian reader.

#define MH_MAGIC 0xfeedfaceu
#define MH_CIGAM 0xcefaedfeu
#define MH_MAGIC_64 0xfeedfacfu
#define MH_CIGAM_64 0xcffaedfeu

struct mach_header_64 {
    uint32_t magic, cputype, cpusubtype, filetype, ncmds, sizeofcmds, flags, reserved;
};

#define LC_REQ_DYLD 0x80000000u

struct load_command {
    uint32_t cmd, cmdsize;
};

struct segment_command_64 {
    uint32_t cmd, cmdsize;
    char segname[16];
    uint64_t vmaddr, vmsize, fileoff, filesize;
    uint32_t maxprot, initprot, nsects, flags;
};

#define SECTION_TYPE 0xffu
#define S_ZEROFILL 0x1u
#define S_GB_ZEROFILL 0xcu
#define S_THREAD_LOCAL_ZEROFILL 0x12u

struct section_64 {
    char sectname[16], segname[16];
    uint64_t addr, size;
    uint32_t offset, align, reloff, nreloc, flags, reserved1, reserved2, reserved3;
};

// The name is an lc_str: how far from the start of the command it begins.
struct dylib_command {
    uint32_t cmd, cmdsize, name, timestamp, current_version, compatibility_version;
};

struct dylinker_command {
    uint32_t cmd, cmdsize, name;
};

struct rpath_command {
    uint32_t cmd, cmdsize, path;
};

struct symtab_command {
    uint32_t cmd, cmdsize, symoff, nsyms, stroff, strsize;
};

#define INDIRECT_SYMBOL_LOCAL 0x80000000u
#define INDIRECT_SYMBOL_ABS 0x40000000u

struct dysymtab_command {
    uint32_t cmd, cmdsize, ilocalsym, nlocalsym, iextdefsym, nextdefsym, iundefsym, nundefsym, tocoff, ntoc, modtaboff,
        nmodtab, extrefsymoff, nextrefsyms, indirectsymoff, nindirectsyms, extreloff, nextrel, locreloff, nlocrel;
};

struct uuid_command {
    uint32_t cmd, cmdsize;
    uint8_t uuid[16];
};

struct linkedit_data_command {
    uint32_t cmd, cmdsize, dataoff, datasize;
};

// The commands that are not listed, but have data. A twolevel_hints_command has its two fields at the same places.
#define LC_TWOLEVEL_HINTS 0x16u
#define LC_ATOM_INFO 0x36u
#define LC_FUNCTION_VARIANTS 0x37u
#define LC_FUNCTION_VARIANT_FIXUPS 0x38u

struct dyld_info_command {
    uint32_t cmd, cmdsize, rebase_off, rebase_size, bind_off, bind_size, weak_bind_off, weak_bind_size, lazy_bind_off,
        lazy_bind_size, export_off, export_size;
};

struct encryption_info_command_64 {
    uint32_t cmd, cmdsize, cryptoff, cryptsize, cryptid, pad;
};

struct note_command {
    uint32_t cmd, cmdsize;
    char data_owner[16];
    uint64_t offset, size;
};

struct build_version_command {
    uint32_t cmd, cmdsize, platform, minos, sdk, ntools;
};

struct entry_point_command {
    uint32_t cmd, cmdsize;
    uint64_t entryoff, stacksize;
};

#define BUILD_TOOL_VERSION_SIZE 8u
#define INDIRECT_ENTRY_SIZE 4u
#define TWOLEVEL_HINT_SIZE 4u

// mach-o/nlist.h, mach-o/reloc.h

#define N_STAB 0xe0u
#define N_TYPE 0x0eu
#define N_SECT 0x0eu

struct nlist_64 {
    uint32_t n_strx;
    uint8_t n_type, n_sect;
    uint16_t n_desc;
    uint64_t n_value;
};

#define RELOCATION_INFO_SIZE 8u

// The instructions that do nothing, with which linkers fill the gaps of code: of x86_64 a byte, of arm64 four.
#define NOP 0x90u
#define ARM64_NOP 0xd503201fu

// Numbers. Every field is read as 64 bits, so that no sum or product of fields of 32 bits wraps.

static inline uint64_t read_little(const uint8_t *at, size_t width) {
    uint64_t wide;
    uint32_t narrow;
    if (width == sizeof wide) {
        memcpy(&wide, at, sizeof wide);
        return wide;
    }
    if (width == sizeof narrow) {
        memcpy(&narrow, at, sizeof narrow);
        return narrow;
    }
    return *at;
}

static inline uint64_t read_big(const uint8_t *at, size_t width) {
    uint64_t number = read_little(at, width);
    return width == sizeof number ? __builtin_bswap64(number) : __builtin_bswap32((uint32_t)number);
}

#define WIDTH(type, field) sizeof(((struct type *)0)->field)

// A field of the structure of an image at this place, and one of a universal header or its table.
#define FIELD(at, type, field) read_little((at) + offsetof(struct type, field), WIDTH(type, field))
#define BIG_FIELD(at, type, field) read_big((at) + offsetof(struct type, field), WIDTH(type, field))

// Whether `size` bytes from `start` end at the limit or before it. The test adds nothing, so nothing wraps.
static inline bool fits(uint64_t start, uint64_t size, uint64_t limit) {
    return start <= limit && size <= limit - start;
}

// The rules, in the order in which they are judged.

#define AS_CONSTANT(rule, name) rule,
#define AS_NAME(rule, name) name,

#define RULES(X) LAYOUT_RULES(X) STRICT_RULES(X)

enum rule { RULES(AS_CONSTANT) RULE_COUNT };

static const char *const rule_names[RULE_COUNT] = {RULES(AS_NAME)};

// The first rule that was found broken, and the least place in the file at which it is broken. RULE_COUNT if every rule
// so far holds. The rule is the answer once all rules before it have been judged.
struct breaks {
    enum rule first;
    uint64_t place;
};

__attribute__((cold, noinline)) static void note(struct breaks *breaks, enum rule rule, uint64_t place) {
    if (rule < breaks->first || (rule == breaks->first && place < breaks->place)) {
        breaks->first = rule;
        breaks->place = place;
    }
}

// Whether no rule before this one was found broken.
static bool is_kept_below(const struct breaks *breaks, enum rule rule) {
    return breaks->first >= rule;
}

static bool is_unbroken(const struct breaks *breaks) {
    return breaks->first == RULE_COUNT;
}

// Ends the program without a verdict.
__attribute__((cold, noreturn)) static void stop(int status, const char *why) {
    fprintf(stderr, "floor: %s\n", why);
    exit(status);
}

// Ranges: the addresses of segments, the bytes of slices, and architectures as ranges of one number.

// The numbers from `start` to `last`, of the structure at a place. No range is empty.
struct span {
    uint64_t start, last, place;
};

#define NOWHERE UINT64_MAX

// What is known of spans that come one after another, by ascending places. As long as they ascend or descend, no two
// share a number. The first span that breaks this order may share a number with the latest span before it. Then no span
// at a lesser place shares a number with an earlier one: its place is the answer, and nothing has to be sorted.
struct order {
    uint64_t count;
    bool ascends, descends;
    uint64_t shared; // that place, or NOWHERE
    uint64_t start, last; // of the latest, where there is one
};

static inline void begin_order(struct order *order) {
    order->count = 0;
    order->ascends = order->descends = true;
    order->shared = NOWHERE;
}

static inline bool is_in_order(const struct order *order) {
    return order->ascends || order->descends;
}

static inline void follow(struct order *order, uint64_t start, uint64_t last, uint64_t place) {
    if (order->count != 0 && is_in_order(order)) {
        bool is_above = start > order->last, is_below = last < order->start;
        order->ascends = order->ascends && is_above;
        order->descends = order->descends && is_below;
        if (!is_above && !is_below) {
            order->shared = place;
        }
    }
    order->count++;
    order->start = start;
    order->last = last;
}

enum { DIGIT_BITS = 11, DIGIT_COUNT = 1 << DIGIT_BITS };

static inline size_t digit(uint64_t number, unsigned shift) {
    return number >> shift & (DIGIT_COUNT - 1);
}

// Moves the spans to `other`, sorted by one digit of their starts. Those with the same digit stay in their order.
static void move_by_digit(const struct span *spans, struct span *other, size_t count, unsigned shift) {
    size_t ends[DIGIT_COUNT] = {0};
    for (size_t k = 0; k < count; k++) {
        ends[digit(spans[k].start, shift)]++;
    }
    size_t begin = 0;
    for (size_t k = 0; k < DIGIT_COUNT; k++) {
        size_t here = ends[k];
        ends[k] = begin;
        begin += here;
    }
    for (size_t k = 0; k < count; k++) {
        other[ends[digit(spans[k].start, shift)]++] = spans[k];
    }
}

// Sorts the spans by their starts, digit by digit from the lowest bit in which any two differ. The room of as many
// spans after them is used as well; returns which of the two rooms has the result.
static struct span *sort(struct span *spans, size_t count) {
    struct span *other = spans + count;
    uint64_t differing = 0;
    for (size_t k = 1; k < count; k++) {
        differing |= spans[k].start ^ spans[0].start;
    }
    for (unsigned shift = 0; shift < 64 && differing >> shift != 0; shift += DIGIT_BITS) {
        shift += (unsigned)__builtin_ctzll(differing >> shift);
        move_by_digit(spans, other, count, shift);
        struct span *sorted = other;
        other = spans;
        spans = sorted;
    }
    return spans;
}

// The least place of a span that shares a number with one of a lesser place; NOWHERE where no two share one. The
// spans are sorted by their starts. Where two share a number, the greater of their places is the least found by then.
// Its span is left out from there on, as is each of a greater place: none of them can give a lesser one. The spans that
// are left share no number, so only the latest of them can reach the next.
static uint64_t least_shared(const struct span *sorted, size_t count) {
    uint64_t least = NOWHERE;
    const struct span *latest = sorted;
    for (const struct span *next = sorted + 1; next < sorted + count; next++) {
        if (next->place >= least) {
            continue;
        }
        if (next->start > latest->last) {
            latest = next;
        } else if (next->place > latest->place) {
            least = next->place;
        } else {
            least = latest->place;
            latest = next;
        }
    }
    return least;
}

// Room for `count` spans, and as many to sort them.
static struct span *room_for(uint64_t count) {
    struct span *spans = calloc(count, 2 * sizeof *spans);
    if (spans == NULL) {
        stop(NO_MEMORY, "out of memory");
    }
    return spans;
}

// Notes the rule at the least place of a span that shares a number with an earlier one, and gives the room back.
static void judge_spans(struct breaks *breaks, enum rule rule, struct span *spans, size_t count) {
    uint64_t place = least_shared(sort(spans, count), count);
    if (place != NOWHERE) {
        note(breaks, rule, place);
    }
    free(spans);
}

// Files

struct file {
    uint8_t *bytes;
    uint64_t size;
};

struct arch {
    uint64_t cputype, cpusubtype; // the subtype without its capability byte
};

static inline struct arch masked(uint64_t cputype, uint64_t cpusubtype) {
    return (struct arch){cputype, cpusubtype & ~(uint64_t)CPU_SUBTYPE_MASK};
}

// Universal files

struct universal {
    const uint8_t *bytes;
    uint64_t size;
    uint64_t nfat_arch;
    uint64_t entry_size;
};

struct entry {
    struct arch arch;
    uint64_t offset, size, align;
};

static inline uint64_t entry_place(const struct universal *file, uint64_t index) {
    return sizeof(struct fat_header) + file->entry_size * index;
}

static inline struct entry read_entry(const struct universal *file, uint64_t index) {
    const uint8_t *at = file->bytes + entry_place(file, index);
    struct entry entry;
    entry.arch = masked(BIG_FIELD(at, fat_arch, cputype), BIG_FIELD(at, fat_arch, cpusubtype));
    if (file->entry_size == sizeof(struct fat_arch)) {
        entry.offset = BIG_FIELD(at, fat_arch, offset);
        entry.size = BIG_FIELD(at, fat_arch, size);
        entry.align = BIG_FIELD(at, fat_arch, align);
    } else {
        entry.offset = BIG_FIELD(at, fat_arch_64, offset);
        entry.size = BIG_FIELD(at, fat_arch_64, size);
        entry.align = BIG_FIELD(at, fat_arch_64, align);
    }
    return entry;
}

// Rules of the file

static bool is_fat_magic(uint64_t magic) {
    return magic == FAT_MAGIC || magic == FAT_MAGIC_64;
}

static bool breaks_magic(const struct file *file) {
    if (file->size < sizeof(uint32_t)) {
        return true;
    }
    return read_little(file->bytes, sizeof(uint32_t)) != MH_MAGIC_64 &&
        !is_fat_magic(read_big(file->bytes, sizeof(uint32_t)));
}

// The file is a universal one. `read` is set where the rule is unbroken.
static bool breaks_fat_truncated(const struct file *file, struct universal *read) {
    if (file->size < sizeof(struct fat_header)) {
        return true;
    }
    bool is_wide = BIG_FIELD(file->bytes, fat_header, magic) == FAT_MAGIC_64;
    read->bytes = file->bytes;
    read->size = file->size;
    read->nfat_arch = BIG_FIELD(file->bytes, fat_header, nfat_arch);
    read->entry_size = is_wide ? sizeof(struct fat_arch_64) : sizeof(struct fat_arch);
    return entry_place(read, read->nfat_arch) > file->size;
}

static inline bool breaks_fat_slice_outside(const struct universal *file, const struct entry *entry) {
    return !fits(entry->offset, entry->size, file->size);
}

static inline bool breaks_fat_slice_in_table(const struct universal *file, const struct entry *entry) {
    return entry->offset < entry_place(file, file->nfat_arch);
}

// The offset is not 0 where fat-slice-in-table is unbroken, so no power of two from 2^64 on divides it.
static inline bool breaks_fat_align(const struct entry *entry) {
    return entry->align >= 64 || (entry->offset & (((uint64_t)1 << entry->align) - 1)) != 0;
}

static inline bool breaks_fat_slice_magic(const struct universal *file, const struct entry *entry) {
    if (entry->size < sizeof(uint32_t)) {
        return true;
    }
    uint64_t magic = read_little(file->bytes + entry->offset, sizeof(uint32_t));
    return magic != MH_MAGIC_64 && magic != MH_CIGAM_64 && magic != MH_MAGIC && magic != MH_CIGAM;
}

// An empty slice shares no byte.
static void sort_slices(const struct universal *file, uint64_t filled, struct breaks *breaks) {
    struct span *spans = room_for(filled);
    size_t count = 0;
    for (uint64_t k = 0; k < file->nfat_arch; k++) {
        struct entry entry = read_entry(file, k);
        if (entry.size != 0) {
            spans[count++] = (struct span){entry.offset, entry.offset + (entry.size - 1), entry_place(file, k)};
        }
    }
    judge_spans(breaks, FAT_OVERLAP, spans, count);
}

static void judge_fat_overlap(const struct universal *file, const struct order *bytes, struct breaks *breaks) {
    if (bytes->shared != NOWHERE) {
        note(breaks, FAT_OVERLAP, bytes->shared);
    } else if (!is_in_order(bytes)) {
        sort_slices(file, bytes->count, breaks);
    }
}

// An architecture as one number.
static inline uint64_t arch_number(const struct arch *arch) {
    return arch->cputype << 24 | arch->cpusubtype;
}

static void sort_archs(const struct universal *file, struct breaks *breaks) {
    struct span *spans = room_for(file->nfat_arch);
    for (uint64_t k = 0; k < file->nfat_arch; k++) {
        struct entry entry = read_entry(file, k);
        uint64_t number = arch_number(&entry.arch);
        spans[k] = (struct span){number, number, entry_place(file, k)};
    }
    judge_spans(breaks, FAT_DUPLICATE, spans, file->nfat_arch);
}

static void judge_fat_duplicate(const struct universal *file, const struct order *archs, struct breaks *breaks) {
    if (archs->shared != NOWHERE) {
        note(breaks, FAT_DUPLICATE, archs->shared);
    } else if (!is_in_order(archs)) {
        sort_archs(file, breaks);
    }
}

// The rules of the entries, up to fat-duplicate.
static void judge_entries(const struct universal *file, struct breaks *breaks) {
    struct order bytes, archs;
    begin_order(&bytes);
    begin_order(&archs);
    for (uint64_t k = 0; k < file->nfat_arch; k++) {
        struct entry entry = read_entry(file, k);
        uint64_t place = entry_place(file, k), arch = arch_number(&entry.arch);
        if (breaks_fat_slice_outside(file, &entry)) {
            note(breaks, FAT_SLICE_OUTSIDE, place);
        }
        if (breaks_fat_slice_in_table(file, &entry)) {
            note(breaks, FAT_SLICE_IN_TABLE, place);
        }
        if (breaks_fat_align(&entry)) {
            note(breaks, FAT_ALIGN, place);
        }
        if (entry.size != 0) {
            follow(&bytes, entry.offset, entry.offset + (entry.size - 1), place);
        }
        follow(&archs, arch, arch, place);
    }
    if (is_unbroken(breaks)) {
        judge_fat_overlap(file, &bytes, breaks);
    }
    if (is_unbroken(breaks)) {
        judge_fat_duplicate(file, &archs, breaks);
    }
}

// Images

struct filetype {
    uint32_t filetype;
    bool names_itself;
    const char *word;
};

#define AS_FILETYPE(filetype, names_itself, word) {filetype, names_itself, word},

static const struct filetype filetypes[] = {FILETYPES(AS_FILETYPE)};

// NULL where the filetype is not judged.
static const struct filetype *find_filetype(uint64_t filetype) {
    for (size_t k = 0; k < sizeof filetypes / sizeof filetypes[0]; k++) {
        if (filetypes[k].filetype == filetype) {
            return &filetypes[k];
        }
    }
    return NULL;
}

// The places of the first and the last command of a kind. Without such commands the first is 0, which is in the header,
// and the last has no value.
struct range {
    uint64_t first, last;
};

// A slice, and what is found in it. Places are counted from its start.
struct image {
    struct breaks *breaks;
    const uint8_t *bytes;
    uint64_t size;
    uint64_t start; // in the file
    struct arch arch;
    const struct filetype *filetype; // NULL where the filetype is not judged
    uint64_t ncmds;
    uint64_t commands_end;
    uint64_t walked_end; // where the last command ends
    // The places of commands that stand once; 0 for a missing command.
    uint64_t symtab, dysymtab, id_dylib, uuid, main;
    bool has_base;
    uint64_t base;
    struct range builds, segments, libraries;
    uint64_t segment_count, section_count;
    uint64_t table_count; // with one for each command that is not listed, which can have data
    struct order addresses; // of the mapped segments
};

static void note_in(const struct image *image, enum rule rule, uint64_t place) {
    note(image->breaks, rule, image->start + place);
}

static inline void extend(struct range *range, uint64_t place) {
    if (range->first == 0) {
        range->first = place;
    }
    range->last = place;
}

// The place of the command after this one, and 0 after the last of the range.
static inline uint64_t next_place(const struct image *image, const struct range *range, uint64_t place) {
    return place == range->last ? 0 : place + FIELD(image->bytes + place, load_command, cmdsize);
}

static inline bool is_command(const struct image *image, uint64_t place, uint64_t cmd) {
    return FIELD(image->bytes + place, load_command, cmd) == cmd;
}

// Rules of the header and the load commands

static bool breaks_header_truncated(uint64_t slice_size) {
    return slice_size < sizeof(struct mach_header_64);
}

// The entry's architecture is NULL where the file is not universal.
static bool breaks_arch_mismatch(const struct image *image, const struct arch *entry) {
    return entry != NULL && arch_number(&image->arch) != arch_number(entry);
}

static bool breaks_file_type(const struct image *image) {
    return image->filetype == NULL;
}

static bool breaks_commands_outside(const struct image *image) {
    return image->commands_end > image->size;
}

// `left` is how many bytes there are from the command to the end of all. Returns its size, and 0 where it is broken.
static inline uint64_t walk_over(const uint8_t *command, uint64_t left) {
    if (left < sizeof(struct load_command)) {
        return 0;
    }
    uint64_t size = FIELD(command, load_command, cmdsize);
    return size < sizeof(struct load_command) || size % 8 != 0 || size > left ? 0 : size;
}

// `least` is the size of the command's structure. Its records count where their number lies inside the command.
static inline bool breaks_command_short(const uint8_t *command, uint64_t size, uint64_t least) {
    if (size < least) {
        return true;
    }
    switch (FIELD(command, load_command, cmd)) {
    case LC_SEGMENT_64:
        return size - least < sizeof(struct section_64) * FIELD(command, segment_command_64, nsects);
    case LC_BUILD_VERSION:
        return size - least < BUILD_TOOL_VERSION_SIZE * FIELD(command, build_version_command, ntools);
    default:
        return false;
    }
}

// `first` has the place of the first command of this kind, or is 0 and gets this one.
static void judge_command_repeated(const struct image *image, uint64_t *first, uint64_t place) {
    if (*first == 0) {
        *first = place;
    } else {
        note_in(image, COMMAND_REPEATED, place);
    }
}

static bool breaks_dylib_id(const struct image *image) {
    return image->filetype->names_itself != (image->id_dylib != 0);
}

// The name begins at the offset `least` or later. Its own offset is the first field of each structure that has one.
static inline bool breaks_name(const uint8_t *command, uint64_t size, uint64_t least) {
    uint64_t name = FIELD(command, dylinker_command, name);
    return name < least || name >= size || memchr(command + name, 0, size - name) == NULL;
}

// Rules of segments and sections

struct segment {
    uint64_t vmaddr, vmsize, fileoff, filesize, nsects;
};

static inline struct segment read_segment(const uint8_t *command) {
    return (struct segment){
        .vmaddr = FIELD(command, segment_command_64, vmaddr),
        .vmsize = FIELD(command, segment_command_64, vmsize),
        .fileoff = FIELD(command, segment_command_64, fileoff),
        .filesize = FIELD(command, segment_command_64, filesize),
        .nsects = FIELD(command, segment_command_64, nsects),
    };
}

static inline bool is_mapped(const struct segment *segment) {
    return segment->vmsize != 0;
}

// The last address of a mapped segment. It wraps where segment-address is broken.
static inline uint64_t last_address(const struct segment *segment) {
    return segment->vmaddr + (segment->vmsize - 1);
}

static inline bool breaks_segment_address(const struct segment *segment) {
    return is_mapped(segment) && last_address(segment) < segment->vmaddr;
}

static inline bool breaks_segment_size(const struct segment *segment) {
    return is_mapped(segment) && segment->filesize > segment->vmsize;
}

static inline bool breaks_segment_file(const struct segment *segment, uint64_t slice_size) {
    return segment->filesize != 0 && !fits(segment->fileoff, segment->filesize, slice_size);
}

static void sort_segments(const struct image *image) {
    struct span *spans = room_for(image->addresses.count);
    size_t count = 0;
    const struct range *segments = &image->segments;
    for (uint64_t place = segments->first; place != 0; place = next_place(image, segments, place)) {
        if (!is_command(image, place, LC_SEGMENT_64)) {
            continue;
        }
        struct segment segment = read_segment(image->bytes + place);
        if (is_mapped(&segment)) {
            spans[count++] = (struct span){segment.vmaddr, last_address(&segment), image->start + place};
        }
    }
    judge_spans(image->breaks, SEGMENT_OVERLAP, spans, count);
}

static void judge_segment_overlap(const struct image *image) {
    if (image->addresses.shared != NOWHERE) {
        note(image->breaks, SEGMENT_OVERLAP, image->addresses.shared);
    } else if (!is_in_order(&image->addresses)) {
        sort_segments(image);
    }
}

struct section {
    uint64_t addr, size, offset, reloff, nreloc;
    bool is_zero_fill;
};

static inline bool is_zero_fill(uint64_t flags) {
    uint64_t type = flags & SECTION_TYPE;
    return type == S_ZEROFILL || type == S_GB_ZEROFILL || type == S_THREAD_LOCAL_ZEROFILL;
}

static inline struct section read_section(const uint8_t *section) {
    return (struct section){
        .addr = FIELD(section, section_64, addr),
        .size = FIELD(section, section_64, size),
        .offset = FIELD(section, section_64, offset),
        .reloff = FIELD(section, section_64, reloff),
        .nreloc = FIELD(section, section_64, nreloc),
        .is_zero_fill = is_zero_fill(FIELD(section, section_64, flags)),
    };
}

static inline bool breaks_section_address(const struct segment *segment, const struct section *section) {
    return is_mapped(segment) && section->size != 0 &&
        (section->addr < segment->vmaddr || !fits(section->addr - segment->vmaddr, section->size, segment->vmsize));
}

// `past` is not negative where section-address is unbroken.
static inline bool breaks_section_file(const struct segment *segment, const struct section *section,
                                       uint64_t slice_size) {
    if (section->size == 0 || section->is_zero_fill) {
        return false;
    }
    if (!is_mapped(segment)) {
        return !fits(section->offset, section->size, slice_size);
    }
    uint64_t past = section->addr - segment->vmaddr;
    return section->offset < segment->fileoff || section->offset - segment->fileoff != past ||
        !fits(past, section->size, segment->filesize);
}

static inline bool breaks_section_relocs(const struct section *section, uint64_t slice_size) {
    return section->nreloc != 0 && !fits(section->reloff, RELOCATION_INFO_SIZE * section->nreloc, slice_size);
}

// Rules of tables and symbols

// A bounded table: the offsets of its start and count in the command, the width of both, and the bytes per entry.
struct table {
    uint8_t start, count, width, entry;
};

#define AS_TABLE(structure, start, count, entry) \
    {offsetof(struct structure, start), offsetof(struct structure, count), WIDTH(structure, start), entry},

static const struct table bounded_tables[] = {BOUNDED_TABLES(AS_TABLE)};

// A count of 64 bits counts single bytes, so table_size does not wrap.
static inline uint64_t table_start(const uint8_t *command, const struct table *table) {
    return read_little(command + table->start, table->width);
}

static inline uint64_t table_size(const uint8_t *command, const struct table *table) {
    return read_little(command + table->count, table->width) * table->entry;
}

static inline bool breaks_table_range(const uint8_t *command, const struct table *table, uint64_t slice_size) {
    uint64_t size = table_size(command, table);
    return size != 0 && !fits(table_start(command, table), size, slice_size);
}

static uint64_t symbol_count(const struct image *image) {
    return image->symtab == 0 ? 0 : FIELD(image->bytes + image->symtab, symtab_command, nsyms);
}

// Each group is two fields: its first index, then its count.
static bool breaks_symbol_group(const struct image *image) {
    static const uint8_t groups[] = {
        offsetof(struct dysymtab_command, ilocalsym),
        offsetof(struct dysymtab_command, iextdefsym),
        offsetof(struct dysymtab_command, iundefsym),
    };
    const uint8_t *command = image->bytes + image->dysymtab;
    for (size_t k = 0; k < sizeof groups; k++) {
        uint64_t first = read_little(command + groups[k], sizeof(uint32_t));
        uint64_t count = read_little(command + groups[k] + sizeof(uint32_t), sizeof(uint32_t));
        if (count != 0 && !fits(first, count, symbol_count(image))) {
            return true;
        }
    }
    return false;
}

// How many bytes the string table has up to and including its last zero byte; 0 where it has none. There is an LC_SYMTAB.
static uint64_t strings_end(const struct image *image) {
    const uint8_t *command = image->bytes + image->symtab;
    uint64_t strsize = FIELD(command, symtab_command, strsize);
    if (strsize == 0) {
        return 0;
    }
    const uint8_t *strings = image->bytes + FIELD(command, symtab_command, stroff);
    const uint8_t *zero = memrchr(strings, 0, strsize);
    return zero == NULL ? 0 : (uint64_t)(zero - strings) + 1;
}

// The least n_strx that breaks symbol-name. 0 never breaks it.
static uint64_t names_end(const struct image *image) {
    uint64_t end = strings_end(image);
    return end == 0 ? 1 : end;
}

static inline bool breaks_symbol_section(const uint8_t *symbol, uint64_t section_count) {
    uint64_t type = FIELD(symbol, nlist_64, n_type), section = FIELD(symbol, nlist_64, n_sect);
    return (type & (N_STAB | N_TYPE)) == N_SECT && (section == 0 || section > section_count);
}

// symbol-name and symbol-section
static void judge_symbols(const struct image *image) {
    uint64_t count = symbol_count(image);
    if (count == 0) {
        return;
    }
    uint64_t symoff = FIELD(image->bytes + image->symtab, symtab_command, symoff);
    uint64_t end = names_end(image);
    const uint8_t *symbol = image->bytes + symoff;
    for (uint64_t k = 0; k < count; k++, symbol += sizeof(struct nlist_64)) {
        if (FIELD(symbol, nlist_64, n_strx) >= end) {
            note_in(image, SYMBOL_NAME, symoff + sizeof(struct nlist_64) * k);
            return;
        }
        if (breaks_symbol_section(symbol, image->section_count)) {
            note_in(image, SYMBOL_SECTION, symoff + sizeof(struct nlist_64) * k);
        }
    }
}

static inline bool breaks_indirect_index(uint64_t entry, uint64_t symbols) {
    return (entry & (INDIRECT_SYMBOL_LOCAL | INDIRECT_SYMBOL_ABS)) == 0 && entry >= symbols;
}

static void judge_indirect_index(const struct image *image) {
    const uint8_t *command = image->bytes + image->dysymtab;
    uint64_t count = FIELD(command, dysymtab_command, nindirectsyms);
    uint64_t indirectsymoff = FIELD(command, dysymtab_command, indirectsymoff);
    uint64_t symbols = symbol_count(image);
    for (uint64_t k = 0; k < count; k++) {
        uint64_t place = indirectsymoff + INDIRECT_ENTRY_SIZE * k;
        if (breaks_indirect_index(read_little(image->bytes + place, INDIRECT_ENTRY_SIZE), symbols)) {
            note_in(image, INDIRECT_INDEX, place);
            return;
        }
    }
}

// Rule of the entry

// Whether the address is in the file part of a mapped segment that is executable.
static bool is_executable(const struct image *image, uint64_t address) {
    const struct range *segments = &image->segments;
    for (uint64_t place = segments->first; place != 0; place = next_place(image, segments, place)) {
        const uint8_t *command = image->bytes + place;
        if (!is_command(image, place, LC_SEGMENT_64)) {
            continue;
        }
        struct segment segment = read_segment(command);
        if (is_mapped(&segment) && address >= segment.vmaddr && address - segment.vmaddr < segment.filesize &&
            (FIELD(command, segment_command_64, initprot) & VM_PROT_EXECUTE) != 0) {
            return true;
        }
    }
    return false;
}

// There is an LC_MAIN.
static bool breaks_entry(const struct image *image) {
    uint64_t entryoff = FIELD(image->bytes + image->main, entry_point_command, entryoff);
    return !image->has_base || entryoff > UINT64_MAX - image->base || !is_executable(image, image->base + entryoff);
}

// The walk over the load commands

// What is judged of a listed command by its structure: the least offset of its name, if it has one, and its tables.
struct listed {
    uint8_t least; // the size of the structure; 0 where the command is not listed
    uint8_t name;
    uint8_t first_table, table_count;
};

// A number below 128 for a `cmd` whose other bits are 0: from 1 on for each listed command.
#define SLOT(cmd) (((cmd) & 0x3fu) | (cmd) >> 31 << 6)
#define SLOT_BITS (0x3fu | LC_REQ_DYLD)

#define AS_LISTED(cmd, structure, name, first_table, table_count) \
    [SLOT(cmd)] = {sizeof(struct structure), name, first_table, table_count},

static const struct listed listed_commands[128] = {LISTED_COMMANDS(AS_LISTED)};

// The commands that load a library, and their words.
#define LIBRARIES(X) \
    X(LC_LOAD_DYLIB, "load ") \
    X(LC_LOAD_WEAK_DYLIB, "weak ") \
    X(LC_REEXPORT_DYLIB, "reexport ") \
    X(LC_LAZY_LOAD_DYLIB, "lazy ") \
    X(LC_LOAD_UPWARD_DYLIB, "upward ")

#define AS_CASE(cmd, word) case SLOT(cmd):
#define AS_WORD(cmd, word) [SLOT(cmd)] = word,

static const char *const library_words[128] = {LIBRARIES(AS_WORD)};

// The slot of a command. 0, which no listed command has, for a command that cannot be listed.
static inline size_t slot_of(uint64_t cmd) {
    return (cmd & ~(uint64_t)SLOT_BITS) == 0 ? SLOT(cmd) : 0;
}

static inline void judge_section(const struct image *image, const struct segment *segment, uint64_t place) {
    struct section section = read_section(image->bytes + place);
    if (breaks_section_address(segment, &section)) {
        note_in(image, SECTION_ADDRESS, place);
    }
    if (breaks_section_file(segment, &section, image->size)) {
        note_in(image, SECTION_FILE, place);
    }
    if (breaks_section_relocs(&section, image->size)) {
        note_in(image, SECTION_RELOCS, place);
    }
}

static inline void judge_segment(struct image *image, uint64_t place) {
    struct segment segment = read_segment(image->bytes + place);
    if (breaks_segment_address(&segment)) {
        note_in(image, SEGMENT_ADDRESS, place);
    }
    if (breaks_segment_size(&segment)) {
        note_in(image, SEGMENT_SIZE, place);
    }
    if (breaks_segment_file(&segment, image->size)) {
        note_in(image, SEGMENT_FILE, place);
    }
    if (is_mapped(&segment)) {
        follow(&image->addresses, segment.vmaddr, last_address(&segment), image->start + place);
        if (!image->has_base && segment.fileoff == 0 && segment.filesize != 0) {
            image->has_base = true;
            image->base = segment.vmaddr;
        }
    }
    extend(&image->segments, place);
    image->segment_count++;
    image->section_count += segment.nsects;
    uint64_t sections = place + sizeof(struct segment_command_64);
    for (uint64_t k = 0; k < segment.nsects; k++) {
        judge_section(image, &segment, sections + sizeof(struct section_64) * k);
    }
}

static void judge_tables(const struct image *image, uint64_t place, size_t slot) {
    const struct table *tables = bounded_tables + listed_commands[slot].first_table;
    for (size_t k = 0; k < listed_commands[slot].table_count; k++) {
        if (breaks_table_range(image->bytes + place, &tables[k], image->size)) {
            note_in(image, TABLE_RANGE, place);
        }
    }
}

// The commands that stand once, and where an image keeps their places.
#define SINGLE_COMMANDS(X) \
    X(LC_SYMTAB, symtab) \
    X(LC_DYSYMTAB, dysymtab) \
    X(LC_ID_DYLIB, id_dylib) \
    X(LC_UUID, uuid) \
    X(LC_MAIN, main)

#define AS_JUDGED(cmd, first) \
    case SLOT(cmd): \
        judge_command_repeated(image, &image->first, place); \
        break;

// A listed command that is not too short.
static inline void judge_command(struct image *image, uint64_t place, uint64_t size, size_t slot) {
    struct listed listed = listed_commands[slot];
    if (listed.table_count != 0) {
        image->table_count += listed.table_count;
        judge_tables(image, place, slot);
    }
    if (listed.name != 0 && breaks_name(image->bytes + place, size, listed.name)) {
        note_in(image, NAME, place);
    }
    switch (slot) {
    case SLOT(LC_SEGMENT_64):
        judge_segment(image, place);
        break;
    SINGLE_COMMANDS(AS_JUDGED)
    case SLOT(LC_BUILD_VERSION):
        extend(&image->builds, place);
        break;
    LIBRARIES(AS_CASE)
        extend(&image->libraries, place);
        break;
    default:
        break;
    }
}

// The rules from command-walk to table-range, except dylib-id and segment-overlap. A short command is not read.
static void walk(struct image *image) {
    uint64_t place = sizeof(struct mach_header_64);
    for (uint64_t k = 0; k < image->ncmds; k++) {
        const uint8_t *command = image->bytes + place;
        uint64_t size = walk_over(command, image->commands_end - place);
        if (size == 0) {
            note_in(image, COMMAND_WALK, place);
            return;
        }
        size_t slot = slot_of(FIELD(command, load_command, cmd));
        uint8_t least = listed_commands[slot].least;
        if (least == 0) {
            image->table_count++;
        } else if (breaks_command_short(command, size, least)) {
            note_in(image, COMMAND_SHORT, place);
        } else {
            judge_command(image, place, size, slot);
        }
        place += size;
    }
    image->walked_end = place;
}

// The judgment

// An image in which nothing is found yet. Its slice lies in the file.
static inline void begin_image(struct image *image, const struct file *file, uint64_t start, uint64_t size,
                               struct breaks *breaks) {
    image->breaks = breaks;
    image->bytes = file->bytes + start;
    image->size = size;
    image->start = start;
    image->symtab = image->dysymtab = image->id_dylib = image->uuid = image->main = 0;
    image->has_base = false;
    image->builds.first = image->segments.first = image->libraries.first = 0;
    image->segment_count = image->section_count = image->table_count = 0;
    begin_order(&image->addresses);
}

// The rules up to table-range, except segment-overlap. `entry` has the architecture of the slice's entry, and is NULL
// where the file is not universal.
static void survey(struct image *image, const struct arch *entry) {
    const uint8_t *header = image->bytes;
    if (breaks_header_truncated(image->size)) {
        note_in(image, HEADER_TRUNCATED, 0);
        return;
    }
    image->arch = masked(FIELD(header, mach_header_64, cputype), FIELD(header, mach_header_64, cpusubtype));
    image->filetype = find_filetype(FIELD(header, mach_header_64, filetype));
    image->ncmds = FIELD(header, mach_header_64, ncmds);
    image->commands_end = sizeof(struct mach_header_64) + FIELD(header, mach_header_64, sizeofcmds);
    if (breaks_arch_mismatch(image, entry)) {
        note_in(image, ARCH_MISMATCH, offsetof(struct mach_header_64, cputype));
    } else if (breaks_file_type(image)) {
        note_in(image, FILE_TYPE, offsetof(struct mach_header_64, filetype));
    } else if (breaks_commands_outside(image)) {
        note_in(image, COMMANDS_OUTSIDE, offsetof(struct mach_header_64, sizeofcmds));
    } else {
        walk(image);
        if (breaks_dylib_id(image)) {
            note_in(image, DYLIB_ID, offsetof(struct mach_header_64, filetype));
        }
    }
}

// The rules that are left after the survey. From symbol-group on each is about tables that lie in the slice.
static void judge_surveyed(const struct image *image) {
    if (is_kept_below(image->breaks, SEGMENT_OVERLAP)) {
        judge_segment_overlap(image);
    }
    if (!is_unbroken(image->breaks)) {
        return;
    }
    if (image->dysymtab != 0 && breaks_symbol_group(image)) {
        note_in(image, SYMBOL_GROUP, image->dysymtab);
    }
    judge_symbols(image);
    if (image->dysymtab != 0) {
        judge_indirect_index(image);
    }
    if (image->main != 0 && breaks_entry(image)) {
        note_in(image, ENTRY, image->main);
    }
}

// Whether the slice is one of 64 bits in little-endian order, which is read.
static bool is_read(const struct universal *file, const struct entry *entry) {
    return read_little(file->bytes + entry->offset, sizeof(uint32_t)) == MH_MAGIC_64;
}

// The slices, which lie in the file: fat-slice-magic, fat-empty, and the rules of an image up to the first slice that
// breaks one. fat-slice-magic comes before the others, so the loop goes on to judge it in every slice.
static void judge_slices(const struct file *file, const struct universal *universal, struct breaks *breaks) {
    struct image image;
    bool is_empty = true;
    for (uint64_t k = 0; k < universal->nfat_arch; k++) {
        struct entry entry = read_entry(universal, k);
        if (breaks_fat_slice_magic(universal, &entry)) {
            note(breaks, FAT_SLICE_MAGIC, entry.offset);
        } else if (is_read(universal, &entry)) {
            is_empty = false;
            if (is_unbroken(breaks)) {
                begin_image(&image, file, entry.offset, entry.size, breaks);
                survey(&image, &entry.arch);
                judge_surveyed(&image);
            }
        }
    }
    if (is_empty) {
        note(breaks, FAT_EMPTY, offsetof(struct fat_header, nfat_arch));
    }
}

// The strict profile, of files that break no rule above

// The first place from `start` up to `end` with a byte that is not zero, or `end`.
static uint64_t first_nonzero(const uint8_t *bytes, uint64_t start, uint64_t end) {
    uint64_t place = start;
    while (end - place >= sizeof(uint64_t) && read_little(bytes + place, sizeof(uint64_t)) == 0) {
        place += sizeof(uint64_t);
    }
    while (place < end && bytes[place] == 0) {
        place++;
    }
    return place;
}

// Notes the rule at the first byte that is not zero and lies in none of the spans, which ascend.
static void judge_strays(struct breaks *breaks, enum rule rule, const struct image *image, const struct span *spans,
                         size_t count) {
    uint64_t place = 0;
    for (size_t k = 0; k <= count; k++) {
        uint64_t end = k < count ? spans[k].start : image->size;
        uint64_t stray = first_nonzero(image->bytes, place, end);
        if (stray < end) {
            note(breaks, rule, image->start + stray);
            return;
        }
        place = k < count ? spans[k].last + 1 : end;
    }
}

// Spans by ascending places, with room for them.
struct gathered {
    struct order order;
    struct span *spans;
};

// There are no more than `count`.
static void begin_gathered(struct gathered *gathered, uint64_t count) {
    gathered->spans = count == 0 ? NULL : room_for(count);
    begin_order(&gathered->order);
}

static inline void gather(struct gathered *gathered, uint64_t start, uint64_t size, uint64_t place) {
    if (size == 0) {
        return;
    }
    struct span span = {start, start + (size - 1), place};
    gathered->spans[gathered->order.count] = span;
    follow(&gathered->order, span.start, span.last, place);
}

// Spans by ascending starts.
struct spans {
    const struct span *sorted;
    size_t count;
};

static struct spans sort_gathered(const struct gathered *gathered) {
    size_t count = gathered->order.count;
    return (struct spans){gathered->order.ascends ? gathered->spans : sort(gathered->spans, count), count};
}

// Sorts the spans, and notes the rule where two of them share a byte.
static struct spans judge_gathered(const struct image *image, enum rule rule, const struct gathered *gathered) {
    struct spans spans = sort_gathered(gathered);
    uint64_t shared = gathered->order.shared;
    if (shared == NOWHERE && !is_in_order(&gathered->order)) {
        shared = least_shared(spans.sorted, spans.count);
    }
    if (shared != NOWHERE) {
        note(image->breaks, rule, shared);
    }
    return spans;
}

// The bytes of the file that segments have. Returns whether one that is mapped has the header and all commands.
static bool gather_file_parts(const struct image *image, struct gathered *parts) {
    bool has_headers = false;
    const struct range *segments = &image->segments;
    for (uint64_t place = segments->first; place != 0; place = next_place(image, segments, place)) {
        if (is_command(image, place, LC_SEGMENT_64)) {
            struct segment segment = read_segment(image->bytes + place);
            has_headers = has_headers ||
                (is_mapped(&segment) && segment.fileoff == 0 && segment.filesize >= image->commands_end);
            gather(parts, segment.fileoff, segment.filesize, image->start + place);
        }
    }
    return has_headers;
}

static void gather_sections(const struct image *image, uint64_t segment, struct gathered *elements) {
    uint64_t place = segment + sizeof(struct segment_command_64);
    uint64_t nsects = FIELD(image->bytes + segment, segment_command_64, nsects);
    for (uint64_t k = 0; k < nsects; k++, place += sizeof(struct section_64)) {
        struct section section = read_section(image->bytes + place);
        if (!section.is_zero_fill) {
            gather(elements, section.offset, section.size, image->start + place);
        }
        gather(elements, section.reloff, RELOCATION_INFO_SIZE * section.nreloc, image->start + place);
    }
}

static inline void gather_tables(const struct image *image, uint64_t place, size_t slot, struct gathered *elements) {
    const uint8_t *command = image->bytes + place;
    const struct table *tables = bounded_tables + listed_commands[slot].first_table;
    for (size_t k = 0; k < listed_commands[slot].table_count; k++) {
        gather(elements, table_start(command, &tables[k]), table_size(command, &tables[k]), image->start + place);
    }
}

// The data of a command that is not listed, in entries of this size. The command can be too short to have any, and
// element-overlap is the first rule that bounds the data.
static void gather_data(const struct image *image, uint64_t place, uint64_t entry, struct gathered *elements) {
    const uint8_t *command = image->bytes + place;
    if (FIELD(command, load_command, cmdsize) < sizeof(struct linkedit_data_command)) {
        return;
    }
    uint64_t start = FIELD(command, linkedit_data_command, dataoff);
    uint64_t size = entry * FIELD(command, linkedit_data_command, datasize);
    if (size != 0 && !fits(start, size, image->size)) {
        note_in(image, ELEMENT_OVERLAP, place);
    }
    gather(elements, start, size, image->start + place);
}

// Encrypted bytes are not an element: they are in a section.
static inline void gather_command(const struct image *image, uint64_t place, struct gathered *elements) {
    size_t slot = slot_of(FIELD(image->bytes + place, load_command, cmd));
    switch (slot) {
    case SLOT(LC_SEGMENT_64):
        gather_sections(image, place, elements);
        break;
    case SLOT(LC_ENCRYPTION_INFO_64):
        break;
    case SLOT(LC_TWOLEVEL_HINTS):
        gather_data(image, place, TWOLEVEL_HINT_SIZE, elements);
        break;
    case SLOT(LC_ATOM_INFO):
    case SLOT(LC_FUNCTION_VARIANTS):
    case SLOT(LC_FUNCTION_VARIANT_FIXUPS):
        gather_data(image, place, 1, elements);
        break;
    default:
        gather_tables(image, place, slot, elements);
    }
}

static void gather_elements(const struct image *image, struct gathered *elements) {
    gather(elements, 0, image->commands_end, image->start);
    uint64_t place = sizeof(struct mach_header_64);
    for (uint64_t k = 0; k < image->ncmds; k++) {
        gather_command(image, place, elements);
        place += FIELD(image->bytes + place, load_command, cmdsize);
    }
}

// The last of the sorted spans that starts at the place or before it. The first one does.
static const struct span *last_up_to(const struct spans *spans, uint64_t place) {
    size_t low = 0, high = spans->count;
    while (high - low > 1) {
        size_t middle = low + (high - low) / 2;
        if (spans->sorted[middle].start <= place) {
            low = middle;
        } else {
            high = middle;
        }
    }
    return &spans->sorted[low];
}

// The first of the file parts begins at 0: it has the headers.
static bool breaks_encrypted_range(const struct image *image, const uint8_t *command, const struct spans *parts) {
    uint64_t cryptoff = FIELD(command, encryption_info_command_64, cryptoff);
    uint64_t cryptsize = FIELD(command, encryption_info_command_64, cryptsize);
    if (cryptsize == 0) {
        return false;
    }
    return cryptoff < image->commands_end || cryptoff + (cryptsize - 1) > last_up_to(parts, cryptoff)->last;
}

// How long the structure of a listed command is, with the records after it.
static inline uint64_t structure_size(const uint8_t *command, size_t slot) {
    uint64_t size = listed_commands[slot].least;
    switch (slot) {
    case SLOT(LC_SEGMENT_64):
        return size + sizeof(struct section_64) * FIELD(command, segment_command_64, nsects);
    case SLOT(LC_BUILD_VERSION):
        return size + BUILD_TOOL_VERSION_SIZE * FIELD(command, build_version_command, ntools);
    default:
        return size;
    }
}

// The offset of the first byte of a listed command that breaks command-slack; the size of the command where none does.
static uint64_t first_slack(const uint8_t *command, size_t slot) {
    uint64_t size = FIELD(command, load_command, cmdsize);
    uint64_t start = structure_size(command, slot);
    if (listed_commands[slot].name == 0) {
        return first_nonzero(command, start, size);
    }
    uint64_t name = FIELD(command, dylinker_command, name);
    uint64_t slack = first_nonzero(command, start, name);
    return slack < name ? slack : first_nonzero(command, name + strlen((const char *)command + name), size);
}

// encrypted-range and command-slack
static void judge_commands(const struct image *image, const struct spans *parts) {
    uint64_t place = sizeof(struct mach_header_64);
    for (uint64_t k = 0; k < image->ncmds; k++) {
        const uint8_t *command = image->bytes + place;
        uint64_t size = FIELD(command, load_command, cmdsize);
        size_t slot = slot_of(FIELD(command, load_command, cmd));
        if (slot == SLOT(LC_ENCRYPTION_INFO_64) && breaks_encrypted_range(image, command, parts)) {
            note_in(image, ENCRYPTED_RANGE, place);
        }
        if (listed_commands[slot].least != 0) {
            uint64_t slack = first_slack(command, slot);
            if (slack < size) {
                note_in(image, COMMAND_SLACK, place + slack);
            }
        }
        place += size;
    }
}

// The first place from `start` up to `end` with a byte that is neither zero nor a NOP, or `end`. Both bytes have no
// bits except the fifth and the last: a NOP has both, and zero has neither.
static uint64_t first_no_nop(const uint8_t *bytes, uint64_t start, uint64_t end) {
    const uint64_t ones = 0x0101010101010101u, nops = ones * NOP, fifth = ones << 4;
    uint64_t place = start;
    while (end - place >= sizeof(uint64_t)) {
        uint64_t word = read_little(bytes + place, sizeof(uint64_t));
        if ((word & ~nops) != 0 || ((word ^ word >> 3) & fifth) != 0) {
            break;
        }
        place += sizeof(uint64_t);
    }
    while (place < end && (bytes[place] == 0 || bytes[place] == NOP)) {
        place++;
    }
    return place;
}

// Whether the byte at a place is one of a NOP of arm64, which begins at a multiple of 4.
static bool is_arm64_nop(const struct image *image, uint64_t place) {
    uint64_t start = place - place % sizeof(uint32_t);
    return image->size - start >= sizeof(uint32_t) && read_little(image->bytes + start, sizeof(uint32_t)) == ARM64_NOP;
}

// The first place from `start` up to `end` with a byte that is neither zero nor one of a NOP of the processor.
static uint64_t first_no_padding(const struct image *image, uint64_t start, uint64_t end) {
    switch (image->arch.cputype) {
    case CPU_TYPE_X86_64:
        return first_no_nop(image->bytes, start, end);
    case CPU_TYPE_ARM64:
        for (uint64_t place = start; place < end; place++) {
            if (image->bytes[place] != 0 && !is_arm64_nop(image, place)) {
                return place;
            }
        }
        return end;
    default:
        return first_nonzero(image->bytes, start, end);
    }
}

static bool has_nops(const struct image *image, const struct span *part) {
    const uint8_t *command = image->bytes + (part->place - image->start);
    return (FIELD(command, segment_command_64, initprot) & VM_PROT_EXECUTE) != 0;
}

// The first byte from `start` up to `end` that is neither zero nor a NOP, or `end`. Each byte that is not zero lies in
// a file part. `part` has to be the part of the first byte that is not zero, or an earlier one, and goes on with the
// bytes.
static uint64_t first_unclaimed(const struct image *image, uint64_t start, uint64_t end, const struct span **part) {
    uint64_t place = first_nonzero(image->bytes, start, end);
    while (place < end) {
        while ((*part)->last < place) {
            ++*part;
        }
        uint64_t part_end = (*part)->last < end ? (*part)->last + 1 : end;
        uint64_t other = has_nops(image, *part) ? first_no_padding(image, place, part_end) : place;
        if (other < part_end) {
            return other;
        }
        place = first_nonzero(image->bytes, part_end, end);
    }
    return end;
}

static void judge_unclaimed_byte(const struct image *image, const struct spans *elements, const struct spans *parts) {
    const struct span *part = parts->sorted;
    uint64_t place = 0;
    for (size_t k = 0; k <= elements->count; k++) {
        uint64_t end = k < elements->count ? elements->sorted[k].start : image->size;
        uint64_t unclaimed = first_unclaimed(image, place, end, &part);
        if (unclaimed < end) {
            note_in(image, UNCLAIMED_BYTE, unclaimed);
            return;
        }
        place = k < elements->count ? elements->sorted[k].last + 1 : end;
    }
}

// The rules from element-overlap on. The file parts share no byte.
static void judge_elements(const struct image *image, const struct spans *parts) {
    struct gathered gathered;
    begin_gathered(&gathered, 1 + 2 * image->section_count + image->table_count);
    gather_elements(image, &gathered);
    struct spans elements = judge_gathered(image, ELEMENT_OVERLAP, &gathered);
    if (is_unbroken(image->breaks)) {
        judge_strays(image->breaks, STRAY_BYTE, image, parts->sorted, parts->count);
    }
    if (is_unbroken(image->breaks)) {
        judge_commands(image, parts);
        judge_unclaimed_byte(image, &elements, parts);
    }
    free(gathered.spans);
}

// The rules of the strict profile for an image that was surveyed, from header-segment on.
static void judge_file_parts(const struct image *image) {
    struct gathered gathered;
    begin_gathered(&gathered, image->segment_count);
    if (!gather_file_parts(image, &gathered)) {
        note_in(image, HEADER_SEGMENT, offsetof(struct mach_header_64, sizeofcmds));
    } else {
        struct spans parts = judge_gathered(image, SEGMENT_FILE_OVERLAP, &gathered);
        if (is_unbroken(image->breaks)) {
            judge_elements(image, &parts);
        }
    }
    free(gathered.spans);
}

static void judge_image_strictly(const struct image *image) {
    if (image->walked_end != image->commands_end) {
        note_in(image, COMMANDS_END, offsetof(struct mach_header_64, sizeofcmds));
    } else {
        judge_file_parts(image);
    }
}

// The bytes of the header, the table and the slices share none.
static void judge_fat_stray_byte(const struct file *file, const struct universal *universal, struct breaks *breaks) {
    struct gathered parts;
    struct image whole = {.bytes = file->bytes, .size = file->size, .start = 0};
    begin_gathered(&parts, universal->nfat_arch + 1);
    gather(&parts, 0, entry_place(universal, universal->nfat_arch), 0);
    for (uint64_t k = 0; k < universal->nfat_arch; k++) {
        struct entry entry = read_entry(universal, k);
        gather(&parts, entry.offset, entry.size, entry_place(universal, k));
    }
    struct spans spans = sort_gathered(&parts);
    judge_strays(breaks, FAT_STRAY_BYTE, &whole, spans.sorted, spans.count);
    free(parts.spans);
}

// In a universal file, up to the first slice that breaks one of the rules.
static void judge_universal_strictly(const struct file *file, const struct universal *universal,
                                     struct breaks *breaks) {
    struct image image;
    judge_fat_stray_byte(file, universal, breaks);
    for (uint64_t k = 0; k < universal->nfat_arch && is_unbroken(breaks); k++) {
        struct entry entry = read_entry(universal, k);
        if (is_read(universal, &entry)) {
            begin_image(&image, file, entry.offset, entry.size, breaks);
            survey(&image, &entry.arch);
            judge_image_strictly(&image);
        }
    }
}

// The report, as docs/reference/commands.md has its lines

// The most bytes of a line, without the name of a library.
#define LINE_SIZE ((size_t)512)

static uint8_t output[OUTPUT_SIZE];
static size_t output_used;

static void flush_output(void) {
    for (size_t written = 0; written < output_used;) {
        ssize_t count = write(STDOUT_FILENO, output + written, output_used - written);
        if (count <= 0) {
            stop(NOT_READ_OR_WRITTEN, "write failed");
        }
        written += (size_t)count;
    }
    output_used = 0;
}

// Makes room for `size` bytes, which all that is put has to have.
static inline void make_room(size_t size) {
    if (OUTPUT_SIZE - output_used < size) {
        flush_output();
    }
}

static inline void put_byte(uint8_t byte) {
    output[output_used++] = byte;
}

static inline void put_bytes(const char *bytes, size_t size) {
    memcpy(output + output_used, bytes, size);
    output_used += size;
}

// A text that is written out here, and a word of one of the tables.
#define PUT(text) put_bytes(text, sizeof(text) - 1)

static void put_word(const char *word) {
    put_bytes(word, strlen(word));
}

static inline void put_hex(uint64_t number) {
    size_t digits = number == 0 ? 1 : (size_t)(67 - __builtin_clzll(number)) / 4;
    PUT("0x");
    for (size_t k = digits; k-- > 0; number >>= 4) {
        output[output_used + k] = (uint8_t)"0123456789abcdef"[number & 0xf];
    }
    output_used += digits;
}

static inline void put_decimal(uint64_t number) {
    size_t digits = 1;
    for (uint64_t rest = number / 10; rest != 0; rest /= 10) {
        digits++;
    }
    for (size_t k = digits; k-- > 0; number /= 10) {
        output[output_used + k] = (uint8_t)('0' + number % 10);
    }
    output_used += digits;
}

// A version of 16, 8 and 8 bits.
static void put_version(uint64_t version) {
    put_decimal(version >> 16);
    PUT(".");
    put_decimal(version >> 8 & 0xff);
    PUT(".");
    put_decimal(version & 0xff);
}

// A name in double quotes, of any length, with room for a line after it. For each 64 bytes there may be four times as
// many, which are no more than a line.
static void put_name(const uint8_t *name, size_t size) {
    PUT("\"");
    for (size_t k = 0; k < size; k++) {
        uint8_t byte = name[k];
        if (k % 64 == 0) {
            make_room(LINE_SIZE);
        }
        if (byte >= ' ' && byte <= '~' && byte != '"' && byte != '\\') {
            put_byte(byte);
        } else {
            PUT("\\x");
            put_byte((uint8_t)"0123456789abcdef"[byte >> 4]);
            put_byte((uint8_t)"0123456789abcdef"[byte & 0xf]);
        }
    }
    make_room(LINE_SIZE);
    PUT("\"");
}

// The name of a segment or section, in 16 bytes.
static void put_name_of_16(const uint8_t *name) {
    put_name(name, strnlen((const char *)name, 16));
}

#define PUT_LABELLED(label, number) (PUT(label), put_hex(number))
#define PUT_VERSION(label, number) (PUT(label), put_version(number))

static const char *arch_name(const struct arch *arch) {
    if (arch->cputype == CPU_TYPE_X86_64) {
        return arch->cpusubtype == CPU_SUBTYPE_X86_64_ALL ? "x86_64" :
            arch->cpusubtype == CPU_SUBTYPE_X86_64_H ? "x86_64h" : NULL;
    }
    if (arch->cputype == CPU_TYPE_ARM64) {
        return arch->cpusubtype == CPU_SUBTYPE_ARM64_ALL ? "arm64" :
            arch->cpusubtype == CPU_SUBTYPE_ARM64E ? "arm64e" : NULL;
    }
    return NULL;
}

static void print_break(const struct breaks *breaks) {
    PUT("refused: ");
    put_word(rule_names[breaks->first]);
    PUT_LABELLED(" at ", breaks->place);
    PUT("\n");
}

static void print_accepted(uint64_t slices) {
    PUT("accepted, slices ");
    put_decimal(slices);
    PUT("\n");
}

static void print_slice(uint64_t index, const struct arch *arch, uint64_t start, uint64_t size, const char *kind) {
    make_room(LINE_SIZE);
    PUT("slice ");
    put_decimal(index);
    PUT(" ");
    if (arch_name(arch) != NULL) {
        put_word(arch_name(arch));
    } else {
        put_hex(arch->cputype);
        PUT_LABELLED("/", arch->cpusubtype);
    }
    PUT_LABELLED(" at ", start);
    PUT_LABELLED(" size ", size);
    PUT(" ");
    put_word(kind);
    PUT("\n");
}

static void print_library(const uint8_t *command, const char *word) {
    const uint8_t *name = command + FIELD(command, dylib_command, name);
    make_room(LINE_SIZE);
    PUT("  ");
    put_word(word);
    put_name(name, strlen((const char *)name));
    PUT_VERSION(" current ", FIELD(command, dylib_command, current_version));
    PUT_VERSION(" compatible ", FIELD(command, dylib_command, compatibility_version));
    PUT("\n");
}

static void print_uuid(const uint8_t *command) {
    const uint8_t *uuid = command + offsetof(struct uuid_command, uuid);
    make_room(LINE_SIZE);
    PUT("  uuid ");
    for (size_t k = 0; k < WIDTH(uuid_command, uuid); k++) {
        if (k == 4 || k == 6 || k == 8 || k == 10) {
            PUT("-");
        }
        put_byte((uint8_t)"0123456789ABCDEF"[uuid[k] >> 4]);
        put_byte((uint8_t)"0123456789ABCDEF"[uuid[k] & 0xf]);
    }
    PUT("\n");
}

static void print_build(const uint8_t *command) {
    make_room(LINE_SIZE);
    PUT("  build platform ");
    put_decimal(FIELD(command, build_version_command, platform));
    PUT_VERSION(" min ", FIELD(command, build_version_command, minos));
    PUT_VERSION(" sdk ", FIELD(command, build_version_command, sdk));
    PUT("\n");
}

static void print_section(const uint8_t *section) {
    make_room(LINE_SIZE);
    PUT("    section ");
    put_name_of_16(section + offsetof(struct section_64, sectname));
    PUT_LABELLED(" addr ", FIELD(section, section_64, addr));
    PUT_LABELLED(" size ", FIELD(section, section_64, size));
    if (is_zero_fill(FIELD(section, section_64, flags))) {
        PUT(" zero");
    } else {
        PUT_LABELLED(" file ", FIELD(section, section_64, offset));
    }
    PUT("\n");
}

static void print_segment(const uint8_t *command) {
    uint64_t initprot = FIELD(command, segment_command_64, initprot);
    make_room(LINE_SIZE);
    PUT("  segment ");
    put_name_of_16(command + offsetof(struct segment_command_64, segname));
    PUT_LABELLED(" addr ", FIELD(command, segment_command_64, vmaddr));
    PUT_LABELLED(" size ", FIELD(command, segment_command_64, vmsize));
    PUT_LABELLED(" file ", FIELD(command, segment_command_64, fileoff));
    PUT_LABELLED(" size ", FIELD(command, segment_command_64, filesize));
    PUT(" ");
    put_byte(initprot & VM_PROT_READ ? 'r' : '-');
    put_byte(initprot & VM_PROT_WRITE ? 'w' : '-');
    put_byte(initprot & VM_PROT_EXECUTE ? 'x' : '-');
    PUT("\n");
    const uint8_t *sections = command + sizeof(struct segment_command_64);
    for (uint64_t k = 0; k < FIELD(command, segment_command_64, nsects); k++) {
        print_section(sections + sizeof(struct section_64) * k);
    }
}

static void print_builds(const struct image *image) {
    const struct range *builds = &image->builds;
    for (uint64_t place = builds->first; place != 0; place = next_place(image, builds, place)) {
        if (is_command(image, place, LC_BUILD_VERSION)) {
            print_build(image->bytes + place);
        }
    }
}

static void print_segments(const struct image *image) {
    const struct range *segments = &image->segments;
    for (uint64_t place = segments->first; place != 0; place = next_place(image, segments, place)) {
        if (is_command(image, place, LC_SEGMENT_64)) {
            print_segment(image->bytes + place);
        }
    }
}

static void print_libraries(const struct image *image) {
    const struct range *libraries = &image->libraries;
    for (uint64_t place = libraries->first; place != 0; place = next_place(image, libraries, place)) {
        const uint8_t *command = image->bytes + place;
        const char *word = library_words[slot_of(FIELD(command, load_command, cmd))];
        if (word != NULL) {
            print_library(command, word);
        }
    }
}

static void print_entry(const struct image *image) {
    make_room(LINE_SIZE);
    if (image->main == 0) {
        PUT("  entry none\n");
        return;
    }
    uint64_t entryoff = FIELD(image->bytes + image->main, entry_point_command, entryoff);
    PUT_LABELLED("  entry ", image->base + entryoff);
    PUT("\n");
}

// The lines of an accepted image.
static void print_image(uint64_t index, const struct image *image) {
    print_slice(index, &image->arch, image->start, image->size, image->filetype->word);
    if (image->id_dylib != 0) {
        print_library(image->bytes + image->id_dylib, "id ");
    }
    if (image->uuid != 0) {
        print_uuid(image->bytes + image->uuid);
    }
    print_builds(image);
    print_segments(image);
    print_libraries(image);
    if (image->symtab != 0) {
        make_room(LINE_SIZE);
        PUT("  symbols ");
        put_decimal(symbol_count(image));
        PUT("\n");
    }
    print_entry(image);
}

// The lines of an accepted universal file. No image is kept while the others are judged, so each is surveyed again.
static void print_universal(const struct file *file, const struct universal *universal, struct breaks *breaks) {
    struct image image;
    print_accepted(universal->nfat_arch);
    for (uint64_t k = 0; k < universal->nfat_arch; k++) {
        struct entry entry = read_entry(universal, k);
        if (is_read(universal, &entry)) {
            begin_image(&image, file, entry.offset, entry.size, breaks);
            survey(&image, &entry.arch);
            print_image(k, &image);
        } else {
            print_slice(k, &entry.arch, entry.offset, entry.size, "not read");
        }
    }
}

// The program

// Standard input in one block of memory.
static struct file read_input(void) {
    struct stat input;
    if (fstat(STDIN_FILENO, &input) != 0 || !S_ISREG(input.st_mode)) {
        stop(NOT_READ_OR_WRITTEN, "read failed");
    }
    uint64_t size = (uint64_t)input.st_size;
    if (size > INPUT_LIMIT) {
        stop(NOT_READ_OR_WRITTEN, "more than 4294967296 bytes");
    }
    struct file file = {malloc(size == 0 ? 1 : size), 0};
    if (file.bytes == NULL) {
        stop(NO_MEMORY, "out of memory");
    }
    while (file.size < size) {
        ssize_t count = read(STDIN_FILENO, file.bytes + file.size, size - file.size);
        if (count <= 0) {
            stop(NOT_READ_OR_WRITTEN, "read failed");
        }
        file.size += (uint64_t)count;
    }
    return file;
}

// Judges a file that is an image, and prints its layout where it breaks no rule.
static void check_image(const struct file *file, struct breaks *breaks, bool is_strict) {
    struct image image;
    begin_image(&image, file, 0, file->size, breaks);
    survey(&image, NULL);
    judge_surveyed(&image);
    if (is_unbroken(breaks) && is_strict) {
        judge_image_strictly(&image);
    }
    if (is_unbroken(breaks)) {
        print_accepted(1);
        print_image(0, &image);
    }
}

static void check_universal(const struct file *file, struct breaks *breaks, bool is_strict) {
    struct universal universal;
    if (breaks_fat_truncated(file, &universal)) {
        note(breaks, FAT_TRUNCATED, offsetof(struct fat_header, nfat_arch));
        return;
    }
    judge_entries(&universal, breaks);
    if (!is_unbroken(breaks)) {
        return;
    }
    judge_slices(file, &universal, breaks);
    if (is_unbroken(breaks) && is_strict) {
        judge_universal_strictly(file, &universal, breaks);
    }
    if (is_unbroken(breaks)) {
        print_universal(file, &universal, breaks);
    }
}

int main(int argc, char **argv) {
    bool is_strict = argc == 2 && strcmp(argv[1], "--strict") == 0;
    if (argc != 1 && !is_strict) {
        stop(WRONG_USAGE, "usage: floor [--strict] <FILE");
    }
    struct file file = read_input();
    struct breaks breaks = {.first = RULE_COUNT};
    if (breaks_magic(&file)) {
        note(&breaks, MAGIC, 0);
    } else if (is_fat_magic(read_big(file.bytes, sizeof(uint32_t)))) {
        check_universal(&file, &breaks, is_strict);
    } else {
        check_image(&file, &breaks, is_strict);
    }
    if (!is_unbroken(&breaks)) {
        print_break(&breaks);
    }
    flush_output();
    free(file.bytes);
    return is_unbroken(&breaks) ? ACCEPTED : REFUSED;
}
