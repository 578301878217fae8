// calls LIBRARY MIXED RULES: each call with each status, null beside the length 0, tables of no rows, cursors past the
// end, and batches of any size. LIBRARY is tests/real/library. MIXED is a universal file of a 32-bit image of 4 bytes
// at 64, and of a header for x86_64 at 96. RULES is how many rules there are.
#include "support.h"
#include <stdlib.h>
#include <string.h>

enum { ROWS = 32 };

static struct file library, mixed;

static struct kesvuot_image unwritten_image(void) {
    struct kesvuot_image image;
    memset(&image, UNWRITTEN, sizeof image);
    return image;
}

static bool is_same(struct kesvuot_image image, struct kesvuot_image wanted) {
    return memcmp(&image, &wanted, sizeof image) == 0;
}

static bool is_empty(struct kesvuot_image image) {
    struct kesvuot_image none;
    memset(&none, 0, sizeof none);
    return is_same(image, none);
}

static bool is_at(struct kesvuot_span span, uint64_t offset, uint64_t size) {
    return span.offset == offset && span.size == size;
}

static void try_no_rule(uint32_t rule) {
    struct kesvuot_text name;
    CHECK(kesvuot_find_rule(rule, &name) == KESVUOT_NONE && name.size == 0);
    CHECK(kesvuot_rule_name(rule) == NULL);
}

static void try_version_and_rules(unsigned long rules) {
    struct kesvuot_text name;
    CHECK(kesvuot_version() == KESVUOT_VERSION && kesvuot_is_compatible());
    uint32_t rule = KESVUOT_MAGIC;
    for (; kesvuot_find_rule(rule, &name) == KESVUOT_OK; rule++) {
        CHECK(name.size == strlen(name.at) && name.size > 0);
        CHECK(kesvuot_rule_name(rule) == name.at);
    }
    CHECK(rule == rules + 1 && rule == end_of_rules());
    try_no_rule(rule);
    try_no_rule(0);
    try_no_rule(UINT32_MAX);
}

// The last rule of a profile, in the order of judgment, and the first rule of the next one.
static void try_profiles_of_rules(void) {
    static const uint32_t rules[][2] = {
        {0, KESVUOT_MAGIC}, {KESVUOT_ENTRY, KESVUOT_FAT_STRAY_BYTE}, {KESVUOT_UNCLAIMED_BYTE, KESVUOT_TABLE_REPEATED},
        {KESVUOT_COMMAND_CONTENT, KESVUOT_FAT_COUNT}, {KESVUOT_ENTRY_ONE, KESVUOT_SIGNATURE_MISSING},
        {KESVUOT_SIGNATURE_HASH, 0}};
    for (uint32_t profile = 0; profile <= KESVUOT_SEALED; profile++) {
        CHECK(kesvuot_rule_profile(rules[profile][0]) == profile);
        CHECK(kesvuot_rule_profile(rules[profile][1]) == (profile + 1) % (KESVUOT_SEALED + 1));
    }
    CHECK(kesvuot_rule_profile(end_of_rules()) == 0 && kesvuot_rule_profile(UINT32_MAX) == 0);
}

// A name by both calls, or none.
static void try_name(uint32_t status, struct kesvuot_text text, const char *name, const char *wanted) {
    CHECK(status == (wanted ? KESVUOT_OK : KESVUOT_NONE));
    CHECK(wanted ? name == text.at && text.size == strlen(wanted) && strcmp(name, wanted) == 0 : !name && !text.size);
}

static void try_command(uint32_t cmd, const char *wanted) {
    struct kesvuot_text text;
    const uint32_t status = kesvuot_find_command(cmd, &text);
    try_name(status, text, kesvuot_command_name(cmd), wanted);
}

static void try_platform(uint32_t platform, const char *wanted) {
    struct kesvuot_text text;
    const uint32_t status = kesvuot_find_platform(platform, &text);
    try_name(status, text, kesvuot_platform_name(platform), wanted);
}

static void try_profile(uint32_t profile, const char *wanted) {
    struct kesvuot_text text;
    const uint32_t status = kesvuot_find_profile(profile, &text);
    try_name(status, text, kesvuot_profile_name(profile), wanted);
}

// The architecture with a name, or none: then both numbers are 0.
static void try_arch_named(const char *name, size_t size, uint32_t cputype, uint32_t cpusubtype) {
    uint32_t type = 1, subtype = 1;
    const uint32_t status = kesvuot_arch_named(name, size, &type, &subtype);
    CHECK(status == (cputype ? KESVUOT_OK : KESVUOT_NONE));
    CHECK(type == cputype && subtype == cpusubtype);
}

static void try_arch(uint32_t cputype, uint32_t cpusubtype, const char *wanted) {
    struct kesvuot_text text;
    const uint32_t status = kesvuot_find_arch(cputype, cpusubtype, &text);
    try_name(status, text, kesvuot_arch_name(cputype, cpusubtype), wanted);
    if (wanted) {
        try_arch_named(wanted, strlen(wanted), cputype, cpusubtype & ~(uint32_t)KESVUOT_CPU_SUBTYPE_MASK);
    }
}

// By mach/machine.h, and the names that LLVM's lipo prints.
static void try_architectures(void) {
    try_arch(7, 3, "i386");
    try_arch(0x01000007, 3, "x86_64");
    try_arch(0x01000007, 8, "x86_64h");
    try_arch(12, 9, "armv7");
    try_arch(12, 11, "armv7s");
    try_arch(0x0100000c, 0, "arm64");
    try_arch(0x0100000c, 2, "arm64e");
    try_arch(0x0200000c, 1, "arm64_32");
    try_arch(18, 0, "ppc");
    // With capabilities, and the constants.
    try_arch(0x01000007, 0x80000003, "x86_64");
    try_arch(KESVUOT_CPU_TYPE_ARM64, KESVUOT_CPU_SUBTYPE_ARM64E | KESVUOT_CPU_SUBTYPE_MASK, "arm64e");
    const uint32_t none[][2] = {{0, 0}, {3, 7}, {0x01000007, 4}, {0x0100000c, 7}, {0x0100000c, 0x01000000 - 1},
                                {0x03000007, 3}, {UINT32_MAX, UINT32_MAX}};
    for (size_t index = 0; index < sizeof none / sizeof *none; index++) {
        try_arch(none[index][0], none[index][1], NULL);
    }
    try_arch_named("arm64e", 5, 0x0100000c, 0);
    try_arch_named("arm64e", 7, 0, 0);
    try_arch_named("arm64e", 4, 0, 0);
    try_arch_named("ARM64", 5, 0, 0);
    try_arch_named("", 0, 0, 0);
    try_arch_named(NULL, 0, 0, 0);
}

// By mach-o/loader.h. 0x18 and 0x1c are without the bit LC_REQ_DYLD.
static void try_names_of_numbers(void) {
    try_command(0x1, "LC_SEGMENT");
    try_command(0x19, "LC_SEGMENT_64");
    try_command(0x1d, "LC_CODE_SIGNATURE");
    try_command(0x80000028, "LC_MAIN");
    try_command(KESVUOT_LC_DYLD_CHAINED_FIXUPS, "LC_DYLD_CHAINED_FIXUPS");
    const uint32_t none[] = {0, 0x18, 0x1c, 0x28, 0x7fffffff, UINT32_MAX};
    for (size_t index = 0; index < sizeof none / sizeof *none; index++) {
        try_command(none[index], NULL);
    }
    try_platform(1, "PLATFORM_MACOS");
    try_platform(12, "PLATFORM_VISIONOSSIMULATOR");
    try_platform(0, NULL);
    try_platform(UINT32_MAX, NULL);
    const char *const profiles[] = {NULL, "layout", "strict", "linked", "unambiguous", "sealed", NULL};
    for (uint32_t profile = 0; profile < sizeof profiles / sizeof *profiles; profile++) {
        try_profile(profile, profiles[profile]);
    }
    try_profile(UINT32_MAX, NULL);
}

// Expects one verdict by all profiles from `first` to `last`.
static void try_verdict(uint32_t first, uint32_t last, const void *bytes, size_t size, int status,
                        struct kesvuot_verdict wanted) {
    for (uint32_t profile = first; profile <= last; profile++) {
        struct kesvuot_verdict verdict;
        memset(&verdict, UNWRITTEN, sizeof verdict);
        CHECK(kesvuot_verify(bytes, size, profile, &verdict) == status);
        CHECK(memcmp(&verdict, &wanted, sizeof verdict) == 0);
    }
}

static void try_all(const void *bytes, size_t size, int status, struct kesvuot_verdict wanted) {
    try_verdict(KESVUOT_LAYOUT, KESVUOT_SEALED, bytes, size, status, wanted);
}

// Numbers that no profile has. Nothing is written, whatever the file is.
static void try_unknown_profiles(const void *bytes, size_t size) {
    static const uint32_t numbers[] = {0, KESVUOT_SEALED + 1, UINT32_MAX};
    for (size_t index = 0; index < sizeof numbers / sizeof *numbers; index++) {
        struct kesvuot_verdict verdict;
        memset(&verdict, UNWRITTEN, sizeof verdict);
        CHECK(kesvuot_verify(bytes, size, numbers[index], &verdict) == KESVUOT_UNKNOWN_PROFILE);
        CHECK(is_filled(&verdict, sizeof verdict, UNWRITTEN));
    }
}

// The slices of the library begin at no page. Its first image is not signed, and its second image is: the last page
// begins at 0x4000, and ends at 0x4060. It has a name at 0x404a, and a constant at 0x2a8.
static void try_sealed_verdicts(void) {
    enum { FIRST = 0x30, FIRST_SIZE = 0x1058, START = 0x1090, SIZE = 0x4180 };
    static const struct {
        size_t at;
        uint64_t page;
    } changes[] = {{0x2a8, 0}, {0x404a, 0x4000}};
    const struct kesvuot_verdict of_one = {0, 1, 0, 0}, unpaged = {8, 0, KESVUOT_FAT_PAGE, 0};
    const struct kesvuot_verdict not_signed = {0, 0, KESVUOT_SIGNATURE_MISSING, 0};
    uint8_t bytes[SIZE];
    CHECK(library.size == START + SIZE);
    try_verdict(KESVUOT_UNAMBIGUOUS, KESVUOT_SEALED, library.bytes, library.size, KESVUOT_REFUSED, unpaged);
    const uint8_t *const first = library.bytes + FIRST;
    try_verdict(KESVUOT_LAYOUT, KESVUOT_UNAMBIGUOUS, first, FIRST_SIZE, KESVUOT_OK, of_one);
    try_verdict(KESVUOT_SEALED, KESVUOT_SEALED, first, FIRST_SIZE, KESVUOT_REFUSED, not_signed);
    for (size_t k = 0; k < sizeof changes / sizeof *changes; k++) {
        const struct kesvuot_verdict another = {changes[k].page, 0, KESVUOT_SIGNATURE_HASH, 0};
        memcpy(bytes, library.bytes + START, SIZE);
        try_all(bytes, SIZE, KESVUOT_OK, of_one);
        bytes[changes[k].at] ^= 2;
        try_verdict(KESVUOT_LAYOUT, KESVUOT_UNAMBIGUOUS, bytes, SIZE, KESVUOT_OK, of_one);
        try_verdict(KESVUOT_SEALED, KESVUOT_SEALED, bytes, SIZE, KESVUOT_REFUSED, another);
    }
}

static void try_verdicts(void) {
    const struct kesvuot_verdict no_magic = {0, 0, KESVUOT_MAGIC, 0}, of_two = {0, 2, 0, 0};
    const struct kesvuot_verdict cut = {8 + 20, 0, KESVUOT_FAT_SLICE_OUTSIDE, 0};
    try_all(NULL, 0, KESVUOT_REFUSED, no_magic);
    try_all("", 0, KESVUOT_REFUSED, no_magic);
    try_verdict(KESVUOT_LAYOUT, KESVUOT_LINKED, library.bytes, library.size, KESVUOT_OK, of_two);
    try_sealed_verdicts();
    try_all(library.bytes, library.size - 1, KESVUOT_REFUSED, cut);
    // The 64-bit image of `mixed` has no segment, so no segment has its header. The place is the offset of sizeofcmds.
    const struct kesvuot_verdict no_segment = {96 + 20, 0, KESVUOT_HEADER_SEGMENT, 0};
    try_verdict(KESVUOT_LAYOUT, KESVUOT_LAYOUT, mixed.bytes, mixed.size, KESVUOT_OK, of_two);
    try_verdict(KESVUOT_STRICT, KESVUOT_SEALED, mixed.bytes, mixed.size, KESVUOT_REFUSED, no_segment);
    try_unknown_profiles(mixed.bytes, mixed.size);
    try_unknown_profiles(library.bytes, library.size - 1);
    try_unknown_profiles(NULL, 0);
}

// Asks for the layout in this much room. `text` has room for `length` bytes and one more.
static void try_room(const struct file file, const char *layout, size_t length, char *text, size_t room) {
    size_t needed = 0;
    memset(text, UNWRITTEN, length + 1);
    CHECK(kesvuot_layout(file.bytes, file.size, text, room, &needed) == KESVUOT_OK && needed == length);
    const size_t written = room < length ? room : length;
    CHECK(memcmp(text, layout, written) == 0);
    CHECK(is_filled(text + written, length + 1 - written, UNWRITTEN));
}

// The layout of an accepted file, with room for each number of its bytes.
static void try_layout(const struct file file) {
    size_t length = 0, needed;
    CHECK(kesvuot_layout(file.bytes, file.size, NULL, 0, &length) == KESVUOT_OK && length > 0);
    char *layout = malloc(length), *text = malloc(length + 1);
    if (!layout || !text) {
        stop("malloc", "no memory");
    }
    CHECK(kesvuot_layout(file.bytes, file.size, layout, length, &needed) == KESVUOT_OK && needed == length);
    CHECK(length > 9 && memcmp(layout, "accepted,", 9) == 0 && layout[length - 1] == '\n');
    for (size_t room = 0; room <= length + 1; room++) {
        try_room(file, layout, length, text, room);
    }
    free(layout);
    free(text);
}

// A refused file has no layout.
static void try_no_layout(const void *bytes, size_t size) {
    char text[ROWS];
    size_t needed = 1;
    memset(text, UNWRITTEN, sizeof text);
    CHECK(kesvuot_layout(bytes, size, text, sizeof text, &needed) == KESVUOT_REFUSED && needed == 0);
    CHECK(is_filled(text, sizeof text, UNWRITTEN));
    needed = 1;
    CHECK(kesvuot_layout(bytes, size, NULL, 0, &needed) == KESVUOT_REFUSED && needed == 0);
}

static void try_layouts(void) {
    try_layout(library);
    try_layout(mixed);
    try_no_layout(NULL, 0);
    try_no_layout(library.bytes, library.size - 1);
}

// A number that no rule has, places at which nothing is, and the end of a file that is cut off.
static void try_explanations(void) {
    const size_t cut = library.size - 1;
    struct kesvuot_verdict verdict;
    struct kesvuot_explanation found;
    CHECK(kesvuot_verify(library.bytes, cut, KESVUOT_LAYOUT, &verdict) == KESVUOT_REFUSED);
    CHECK(verdict.rule == KESVUOT_FAT_SLICE_OUTSIDE);
    CHECK(kesvuot_explain(library.bytes, cut, &verdict, &found) == KESVUOT_OK);
    // The second entry of the table, a fat_arch of 20 bytes, and its slice, which ends with the file.
    CHECK(found.at.kind == KESVUOT_PART_FAT_ARCH && found.at.start == 28 && found.at.size == 20);
    CHECK(found.first.kind == KESVUOT_PART_SLICE && found.first.index == 1 && found.first.described == 28);
    CHECK(found.first.start + found.first.size == library.size && found.second.kind == KESVUOT_PART_FILE);
    CHECK(found.value == library.size && found.limit == cut && found.slice == 1);
    CHECK(found.command == KESVUOT_NO_INDEX && found.section == KESVUOT_NO_INDEX && found.symbol == KESVUOT_NO_INDEX);
    const struct kesvuot_verdict none[] = {{.rule = 0}, {.rule = end_of_rules()}, {.rule = UINT32_MAX},
        {.rule = KESVUOT_MAGIC, .place = 1}, {.rule = KESVUOT_SEGMENT_FILE, .place = UINT64_MAX}};
    for (size_t index = 0; index < sizeof none / sizeof *none; index++) {
        memset(&found, UNWRITTEN, sizeof found);
        CHECK(kesvuot_explain(library.bytes, cut, &none[index], &found) == KESVUOT_NONE);
        CHECK(found.at.kind == KESVUOT_PART_NONE && found.value == 0 && found.limit == 0 && found.first.start == 0);
        CHECK(found.slice == KESVUOT_NO_INDEX && found.at.index == KESVUOT_NO_INDEX);
    }
    CHECK(kesvuot_explain(NULL, 0, &(struct kesvuot_verdict){.rule = KESVUOT_MAGIC}, &found) == KESVUOT_OK);
    CHECK(found.at.kind == KESVUOT_PART_MAGIC && found.at.size == 0 && found.limit == 0xfeedfacf);
}

static void try_images(void) {
    struct kesvuot_image image = unwritten_image();
    CHECK(kesvuot_read_image(library.bytes, library.size, 1, &image) == KESVUOT_OK);
    CHECK(is_at(image.slice, 0x1090, 0x4180));
    // As tests/real/library.layout has it. It loads no library.
    static const char name[] = "/usr/lib/libdemo.dylib";
    CHECK((image.has & KESVUOT_HAS_ID) && image.id.cmd == 0xd && image.library_count == 0);
    CHECK(image.id.current == 0x10203 && image.id.compatible == 0x10200 && image.id.name.size == strlen(name));
    CHECK(memcmp(library.bytes + image.id.name.offset, name, sizeof name) == 0);
    CHECK(is_filled(image.reserved, sizeof image.reserved, 0));
    CHECK(image.entry == 0 && !(image.has & KESVUOT_HAS_ENTRY));
    const uint64_t past[] = {2, 3, UINT32_MAX, UINT64_MAX / 20, UINT64_MAX};
    for (size_t index = 0; index < sizeof past / sizeof *past; index++) {
        image = unwritten_image();
        CHECK(kesvuot_read_image(library.bytes, library.size, past[index], &image) == KESVUOT_NONE && is_empty(image));
    }
    image = unwritten_image();
    CHECK(kesvuot_read_image(NULL, 0, 0, &image) == KESVUOT_REFUSED && is_empty(image));
    image = unwritten_image();
    CHECK(kesvuot_read_image(library.bytes, library.size - 1, 1, &image) == KESVUOT_REFUSED && is_empty(image));
}

static void try_slices_of_two_kinds(void) {
    struct kesvuot_image image = unwritten_image(), wanted;
    memset(&wanted, 0, sizeof wanted);
    wanted.slice = (struct kesvuot_span){64, 4};
    wanted.cputype = 7;
    wanted.cpusubtype = 3;
    CHECK(kesvuot_read_image(mixed.bytes, mixed.size, 0, &image) == KESVUOT_UNREAD && is_same(image, wanted));
    wanted.slice = (struct kesvuot_span){96, 32};
    wanted.cputype = 0x01000007;
    wanted.filetype = 2;
    image = unwritten_image();
    CHECK(kesvuot_read_image(mixed.bytes, mixed.size, 1, &image) == KESVUOT_OK && is_same(image, wanted));
    // The second slice alone is a file, too.
    wanted.slice.offset = 0;
    image = unwritten_image();
    CHECK(kesvuot_read_image(mixed.bytes + 96, 32, 0, &image) == KESVUOT_OK && is_same(image, wanted));
    CHECK(kesvuot_read_image(mixed.bytes + 96, 32, 1, &image) == KESVUOT_NONE && is_empty(image));
}

// A table, with its rows as bytes.
typedef size_t table(const struct kesvuot_image *image, struct kesvuot_cursor *cursor, void *rows, size_t max);
#define TABLE(name, row)                                                                                               \
    static size_t name(const struct kesvuot_image *image, struct kesvuot_cursor *cursor, void *rows, size_t max) {     \
        return kesvuot_##name(library.bytes, library.size, image, cursor, (row *)rows, max);                           \
    }
TABLE(read_segments, struct kesvuot_segment)
TABLE(read_sections, struct kesvuot_section)
TABLE(read_libraries, struct kesvuot_library)
TABLE(read_builds, struct kesvuot_build)
TABLE(read_commands, struct kesvuot_command)
TABLE(read_symbols, struct kesvuot_symbol)
TABLE(read_indirects, uint32_t)

// Room for the rows of any table.
struct rows {
    struct kesvuot_section rows[ROWS];
};

static struct rows unwritten_rows(void) {
    struct rows rows;
    memset(&rows, UNWRITTEN, sizeof rows);
    return rows;
}

// Asks for at most `max` of the rows after the first ones, of a table whose rows are `all`, `count` of them.
static void try_batch(table *read, const struct kesvuot_image *image, size_t size, const struct rows *all,
                      uint64_t count, uint64_t first, size_t max, struct kesvuot_cursor *cursor) {
    struct rows rows = unwritten_rows();
    const uint64_t left = count - first, wanted = left < max ? left : max;
    const size_t found = read(image, cursor, &rows, max);
    CHECK(found == wanted);
    CHECK(memcmp(&rows, (const uint8_t *)all + first * size, found * size) == 0);
    CHECK(is_filled((uint8_t *)&rows + found * size, sizeof rows - found * size, UNWRITTEN));
}

// Reads all rows in batches of two sizes by turns.
static void try_batches(table *read, const struct kesvuot_image *image, size_t size, const struct rows *all,
                        uint64_t count, size_t odd, size_t even) {
    struct kesvuot_cursor cursor = {0};
    uint64_t first = 0;
    for (size_t turn = 0; turn <= 2 * count + 2; turn++) {
        const size_t max = turn % 2 ? odd : even;
        try_batch(read, image, size, all, count, first, max, &cursor);
        first = count - first < max ? count : first + max;
    }
    CHECK(first == count || odd + even == 0);
}

static void try_table(table *read, const struct kesvuot_image *image, size_t size, uint64_t count) {
    struct kesvuot_cursor cursor = {0};
    struct rows all = unwritten_rows();
    CHECK(count < ROWS);
    CHECK(read(image, &cursor, NULL, 0) == 0);
    CHECK(read(image, &cursor, &all, ROWS) == count);
    CHECK(is_filled((uint8_t *)&all + count * size, sizeof all - count * size, UNWRITTEN));
    CHECK(read(image, &cursor, NULL, 0) == 0);
    for (size_t odd = 0; odd <= count + 2; odd++) {
        for (size_t even = 0; even <= count + 2; even++) {
            try_batches(read, image, size, &all, count, odd, even);
        }
    }
    const uint64_t past[] = {count + 1, UINT32_MAX, 1ull << 32, 1ull << 60, UINT64_MAX};
    for (size_t index = 0; index < sizeof past / sizeof *past; index++) {
        struct kesvuot_cursor far = {0, UINT64_MAX, 0, past[index]};
        CHECK(read(image, &far, &all, ROWS) == 0);
        far = (struct kesvuot_cursor){UINT64_MAX, UINT64_MAX, UINT64_MAX, UINT64_MAX};
        CHECK(read(image, &far, &all, ROWS) == 0);
    }
}

static void try_tables(const struct kesvuot_image *image) {
    try_table(read_segments, image, sizeof(struct kesvuot_segment), image->segment_count);
    try_table(read_sections, image, sizeof(struct kesvuot_section), image->section_count);
    try_table(read_libraries, image, sizeof(struct kesvuot_library), image->library_count);
    try_table(read_builds, image, sizeof(struct kesvuot_build), image->build_count);
    try_table(read_commands, image, sizeof(struct kesvuot_command), image->command_count);
    try_table(read_symbols, image, sizeof(struct kesvuot_symbol), image->symbol_count);
    try_table(read_indirects, image, sizeof(uint32_t), image->indirect_count);
}

// Every symbol of the library has a name. A symbol with strx 0, past the strings or without strings has no name.
static void try_names(const struct kesvuot_image *image) {
    struct kesvuot_image nameless = *image;
    struct kesvuot_symbol rows[ROWS];
    struct kesvuot_cursor cursor = {0};
    struct kesvuot_span name;
    const size_t count = kesvuot_read_symbols(library.bytes, library.size, image, &cursor, rows, ROWS);
    nameless.strings_size = 0;
    CHECK(count > 0);
    for (size_t row = 0; row < count; row++) {
        const uint32_t strx = rows[row].strx;
        CHECK(kesvuot_symbol_name(library.bytes, library.size, image, strx, &name) == KESVUOT_OK);
        CHECK(name.offset == image->slice.offset + image->strings + strx);
        CHECK(name.size > 0 && name.size == strlen((const char *)library.bytes + name.offset));
        CHECK(kesvuot_symbol_name(library.bytes, library.size, &nameless, strx, &name) == KESVUOT_NONE);
        CHECK(is_at(name, 0, 0));
    }
    const uint32_t none[] = {0, (uint32_t)image->strings_size, (uint32_t)image->strings_size + 1, UINT32_MAX};
    for (size_t index = 0; index < sizeof none / sizeof *none; index++) {
        CHECK(kesvuot_symbol_name(library.bytes, library.size, image, none[index], &name) == KESVUOT_NONE);
        CHECK(is_at(name, 0, 0));
    }
}

// A batch of symbols has the names that single calls give. Later names stay as they were.
static void try_names_of_batch(const struct kesvuot_image *image, const struct kesvuot_symbol *rows, size_t count,
                               size_t max) {
    const size_t written = count < max ? count : max;
    const struct kesvuot_span untouched = {1, 2};
    struct kesvuot_span names[ROWS + 1], name;
    for (size_t index = 0; index <= ROWS; index++) {
        names[index] = untouched;
    }
    CHECK(kesvuot_read_names(library.bytes, library.size, image, rows, count, names, max) == written);
    for (size_t index = 0; index < written; index++) {
        kesvuot_symbol_name(library.bytes, library.size, image, rows[index].strx, &name);
        CHECK(is_at(names[index], name.offset, name.size));
    }
    for (size_t index = written; index <= ROWS; index++) {
        CHECK(is_at(names[index], 1, 2));
    }
}

static void try_names_of_batches(const struct kesvuot_image *image) {
    struct kesvuot_image nameless = *image;
    struct kesvuot_symbol rows[ROWS] = {{.strx = 0}, {.strx = (uint32_t)image->strings_size}};
    struct kesvuot_cursor cursor = {0};
    const size_t count = 2 + kesvuot_read_symbols(library.bytes, library.size, image, &cursor, &rows[2], ROWS - 2);
    nameless.strings_size = 0;
    CHECK(count > 3);
    try_names_of_batch(image, rows, count, ROWS);
    try_names_of_batch(image, rows, count, count - 1);
    try_names_of_batch(image, rows, count - 1, count);
    try_names_of_batch(&nameless, rows, count, count);
    CHECK(kesvuot_read_names(library.bytes, library.size, image, NULL, 0, NULL, 0) == 0);
}

// The section of a symbol is that with its number, and none if the image has no such section.
static void try_sections_of_symbols(const struct kesvuot_image *image) {
    struct kesvuot_image with = *image;
    struct kesvuot_symbol rows[ROWS];
    for (with.section_count = 0; with.section_count <= image->section_count; with.section_count++) {
        struct kesvuot_cursor cursor = {0};
        const size_t count = kesvuot_read_symbols(library.bytes, library.size, &with, &cursor, rows, ROWS);
        for (size_t row = 0; row < count; row++) {
            const bool is_there = rows[row].sect > 0 && rows[row].sect <= with.section_count;
            CHECK(rows[row].section == (is_there ? (uint32_t)rows[row].sect - 1 : KESVUOT_NO_SECTION));
        }
    }
}

static uint32_t find_data(const struct kesvuot_image *image, uint32_t cmd, struct kesvuot_span *data) {
    return kesvuot_find_data(library.bytes, library.size, image, cmd, data);
}

static uint32_t find_address(const struct kesvuot_image *image, uint64_t address, struct kesvuot_span *bytes) {
    return kesvuot_find_address(library.bytes, library.size, image, address, bytes);
}

static void try_data(void) {
    struct kesvuot_image image;
    struct kesvuot_span data;
    CHECK(kesvuot_read_image(library.bytes, library.size, 1, &image) == KESVUOT_OK);
    CHECK(find_data(&image, 0x1d, &data) == KESVUOT_OK && is_at(data, 0x1090 + 16480, 288));
    CHECK(find_data(&image, 0x29, &data) == KESVUOT_OK && is_at(data, 0, 0));
    // One that the image does not have, one of another structure that it has, and numbers of no command.
    const uint32_t none[] = {0x1e, 0x19, 0x2, 0xd, 0x1b, 0, 0x8000001d, UINT32_MAX};
    for (size_t index = 0; index < sizeof none / sizeof *none; index++) {
        CHECK(find_data(&image, none[index], &data) == KESVUOT_NONE && is_at(data, 0, 0));
    }
    CHECK(find_address(&image, 0x2a0, &data) == KESVUOT_OK && is_at(data, 0x1090 + 0x2a0, 0x4000 - 0x2a0));
    CHECK(find_address(&image, 0x417f, &data) == KESVUOT_OK && is_at(data, 0x1090 + 0x417f, 1));
    CHECK(find_address(&image, 0x4180, &data) == KESVUOT_NONE && is_at(data, 0, 0));
    CHECK(find_address(&image, UINT64_MAX, &data) == KESVUOT_NONE && is_at(data, 0, 0));
}

// An image whose tables have different places and sizes, with relocations, and with commands that name versions. layout.md
// does not list LC_SOURCE_VERSION (0x2a) and LC_VERSION_MIN_.. (0x24, 0x25, 0x2f, 0x30): one of each is too short.
static const uint32_t TABLES[] = {
    0xfeedfacf, 0x0100000c, 0, 2, 15, 512, 0, 0,
    // LC_SEGMENT_64 with a section, whose 3 relocations are at 584
    0x19, 152, 0, 0, 0, 0, 0, 0, 0, 0, 0, 0, 0, 0, 0, 0, 1, 0,
    0, 0, 0, 0, 0, 0, 0, 0, 0, 0, 0, 0, 0, 0, 584, 3, 0, 0, 0, 0,
    // LC_SYMTAB and LC_DYSYMTAB
    0x2, 24, 552, 1, 551, 3,
    0xb, 80, 0, 0, 0, 0, 0, 0, 1, 2, 2, 1, 3, 3, 552, 5, 5, 4, 6, 5,
    // LC_DYLD_INFO_ONLY, and an LC_DYLD_INFO after it
    0x80000022, 48, 7, 7, 8, 9, 9, 11, 10, 13, 11, 15,
    0x22, 48, 0, 1, 0, 1, 0, 1, 0, 1, 0, 1,
    // LC_ENCRYPTION_INFO_64, up to the end
    0x2c, 24, 591, 17, 0, 0,
    // LC_SOURCE_VERSION: too short, 16777215.1023.1.2.1023, and another one
    0x2a, 8, 0x2a, 16, 0xc01003ff | 2 << 10, 0xffffffff, 0x2a, 16, 1, 0,
    // LC_VERSION_MIN_TVOS, LC_VERSION_MIN_IPHONEOS that is too short, LC_BUILD_VERSION, LC_VERSION_MIN_WATCHOS,
    // LC_VERSION_MIN_MACOSX, LC_VERSION_MIN_IPHONEOS
    0x2f, 16, 1, 2, 0x25, 8, 0x32, 24, 3, 4, 5, 0, 0x30, 16, 6, 7, 0x24, 16, 8, 9, 0x25, 16, 10, 11,
    // two words of zeros, a symbol, and four more
    0, 0, 0, 0, 0, 0, 0, 0, 0, 0,
    // relocations
    0x1234, 0xd5654321, 8, 0x2abcdef, 0xfffffff0, 0xf8000000,
};
enum { TABLES_SIZE = sizeof TABLES, TABLE_COUNT = KESVUOT_TABLE_ENCRYPTED };

// Where each table lies, by its number, and how many bytes it has.
static const struct kesvuot_span TABLE_SPANS[TABLE_COUNT + 1] = {
    {0, 0}, {552, 16}, {551, 3}, {1, 2 * 8}, {2, 56}, {3, 3 * 4}, {552, 5 * 4}, {5, 4 * 8},
    {6, 5 * 8}, {7, 7}, {8, 9}, {9, 11}, {10, 13}, {11, 15}, {591, 17},
};

static struct kesvuot_image image_of_tables(const void *bytes, size_t size) {
    struct kesvuot_verdict verdict;
    struct kesvuot_image image;
    CHECK(kesvuot_verify(bytes, size, KESVUOT_LAYOUT, &verdict) == KESVUOT_OK);
    CHECK(kesvuot_read_image(bytes, size, 0, &image) == KESVUOT_OK);
    return image;
}

static void try_no_table(const void *bytes, size_t size, const struct kesvuot_image *image, uint32_t table) {
    struct kesvuot_span span = {1, 1};
    CHECK(kesvuot_find_table(bytes, size, image, table, &span) == KESVUOT_NONE && is_at(span, 0, 0));
}

static void try_bounded_tables(void) {
    struct kesvuot_span span;
    struct kesvuot_image image = image_of_tables(TABLES, TABLES_SIZE);
    for (uint32_t table = 1; table <= TABLE_COUNT; table++) {
        CHECK(kesvuot_find_table(TABLES, TABLES_SIZE, &image, table, &span) == KESVUOT_OK);
        CHECK(is_at(span, TABLE_SPANS[table].offset, TABLE_SPANS[table].size));
    }
    const uint32_t none[] = {0, TABLE_COUNT + 1, 0x22, UINT32_MAX};
    for (size_t index = 0; index < sizeof none / sizeof *none; index++) {
        try_no_table(TABLES, TABLES_SIZE, &image, none[index]);
    }
    // The last table ends past a slice that is one byte shorter, and the others do not.
    image.slice.size--;
    try_no_table(TABLES, TABLES_SIZE, &image, KESVUOT_TABLE_ENCRYPTED);
    CHECK(kesvuot_find_table(TABLES, TABLES_SIZE, &image, KESVUOT_TABLE_EXPORT, &span) == KESVUOT_OK && span.size == 15);
    // A bare header has no tables.
    CHECK(kesvuot_read_image(mixed.bytes, mixed.size, 1, &image) == KESVUOT_OK);
    for (uint32_t table = 0; table <= TABLE_COUNT + 1; table++) {
        try_no_table(mixed.bytes, mixed.size, &image, table);
    }
}

// A table without items has no bytes, wherever it is. The contents are named by the words 60 and 61.
static void try_empty_table(void) {
    uint32_t words[TABLES_SIZE / sizeof *TABLES];
    struct kesvuot_span span;
    memcpy(words, TABLES, TABLES_SIZE);
    CHECK(words[60] == 1 && words[61] == 2);
    words[60] = UINT32_MAX;
    words[61] = 0;
    const struct kesvuot_image image = image_of_tables(words, TABLES_SIZE);
    CHECK(kesvuot_find_table(words, TABLES_SIZE, &image, KESVUOT_TABLE_CONTENTS, &span) == KESVUOT_OK);
    CHECK(is_at(span, 0, 0));
}

static size_t read_relocations(const struct kesvuot_image *image, uint32_t nreloc, uint64_t first, size_t max,
                               struct kesvuot_relocation *rows) {
    struct kesvuot_cursor cursor = {0, 0, 0, first};
    const size_t count = kesvuot_read_relocations(TABLES, TABLES_SIZE, image, 584, nreloc, &cursor, rows, max);
    CHECK(cursor.items == first + count);
    return count;
}

static void try_relocations(void) {
    static const struct kesvuot_relocation wanted[] = {
        {0x1234, 0x654321, 1, 2, 0, 13, 0}, {8, 0xabcdef, 0, 1, 0, 0, 0}, {0xfffffff0, 0, 0, 0, 1, 15, 1}};
    const struct kesvuot_image image = image_of_tables(TABLES, TABLES_SIZE);
    struct kesvuot_relocation rows[4];
    for (size_t max = 0; max <= 4; max++) {
        for (size_t first = 0; first <= 3; first++) {
            const size_t left = 3 - first, count = left < max ? left : max;
            memset(rows, UNWRITTEN, sizeof rows);
            CHECK(read_relocations(&image, 3, first, max, rows) == count);
            CHECK(memcmp(rows, wanted + first, count * sizeof *rows) == 0);
            CHECK(is_filled(rows + count, sizeof rows - count * sizeof *rows, UNWRITTEN));
        }
    }
    CHECK(read_relocations(&image, 2, 0, 4, rows) == 2 && read_relocations(&image, 0, 0, 4, rows) == 0);
    // Four would end past the image.
    CHECK(read_relocations(&image, 4, 0, 4, rows) == 0 && read_relocations(&image, UINT32_MAX, 0, 4, rows) == 0);
    CHECK(read_relocations(&image, 3, 4, 4, rows) == 0 && read_relocations(&image, 3, UINT64_MAX, 4, rows) == 0);
}

// An image with a segment at 0x100000000, LC_FUNCTION_STARTS (0x26) and LC_DATA_IN_CODE (0x29).
static const uint32_t CODE[] = {
    0xfeedfacf, 0x01000007, 3, 2, 3, 104, 0, 0,
    0x19, 72, 0, 0, 0, 0, 0, 1, 0x1000, 0, 0, 0, 188, 0, 5, 5, 0, 0,
    0x26, 16, 136, 18, 0x29, 16, 156, 31,
    // 0x440, 1, 0x7f, 0x3fff, 0xfffffffeffffbb40 in ten bytes, 1 and 5
    0x7f0108c0, 0xf6c07fff, 0xffeffffe, 0x1ffffff, 0x501,
    // three entries: the last byte, two bytes that end one past the image, the data of LC_FUNCTION_STARTS; and seven
    // bytes of a fourth entry
    187, 1 | 5 << 16, 187, 2 | 2 << 16, 136, 18 | 0xffffu << 16, 0, 8 | 1 << 16,
};
enum { CODE_SIZE = sizeof CODE, STARTS = 5, ENTRIES = 3, STARTS_SIZE_AT = 29, BEFORE = 40 };

static const uint64_t CODE_STARTS[STARTS] = {0x100000440, 0x100000441, 0x1000004c0, 0x1000044bf, UINT64_MAX};

// Reads all functions in batches of `each`. There are `wanted`, as far past `base` as CODE_STARTS is past 0x100000000.
static void try_starts(const void *bytes, const struct kesvuot_image *image, size_t each, size_t wanted) {
    struct kesvuot_cursor cursor = {0};
    uint64_t rows[STARTS + 2];
    for (size_t first = 0; first <= wanted; first += each) {
        const size_t left = wanted - first, count = left < each ? left : each;
        memset(rows, UNWRITTEN, sizeof rows);
        CHECK(kesvuot_read_function_starts(bytes, CODE_SIZE, image, &cursor, rows, each) == count);
        for (size_t k = 0; k < count; k++) {
            CHECK(rows[k] == image->base + (CODE_STARTS[first + k] - 0x100000000));
        }
        CHECK(is_filled(rows + count, sizeof rows - count * sizeof *rows, UNWRITTEN));
    }
    CHECK(kesvuot_read_function_starts(bytes, CODE_SIZE, image, &cursor, rows, 1) == 0);
}

static void try_function_starts(void) {
    struct kesvuot_image image = image_of_tables(CODE, CODE_SIZE);
    uint32_t words[CODE_SIZE / sizeof *CODE];
    for (size_t each = 1; each <= STARTS + 2; each++) {
        try_starts(CODE, &image, each, STARTS);
    }
    // What is read of this many bytes of the data: no number that does not end in it.
    static const struct {
        uint32_t size;
        size_t wanted;
    } cut[] = {{17, 5}, {16, 5}, {15, 4}, {6, 4}, {5, 3}, {4, 3}, {3, 2}, {2, 1}, {1, 0}, {0, 0}};
    memcpy(words, CODE, CODE_SIZE);
    CHECK(words[STARTS_SIZE_AT] == 18);
    for (size_t k = 0; k < sizeof cut / sizeof *cut; k++) {
        words[STARTS_SIZE_AT] = cut[k].size;
        try_starts(words, &image, 2, cut[k].wanted);
    }
    // The data ends past the image; then it has a number 0 in place of 1.
    words[STARTS_SIZE_AT] = CODE_SIZE - 136 + 1;
    try_starts(words, &image, 2, 0);
    memcpy(words, CODE, CODE_SIZE);
    ((uint8_t *)words)[138] = 0;
    try_starts(words, &image, 2, 1);
    // From a base that is one greater, so that the last address would be 2^64, and without a base.
    image.base++;
    try_starts(CODE, &image, 2, 4);
    image.has &= ~(uint32_t)KESVUOT_HAS_BASE;
    try_starts(CODE, &image, 2, 0);
}

static void try_data_in_code(void) {
    static const struct kesvuot_data_in_code wanted[] = {
        {{BEFORE + 187, 1}, 187, 1, 5}, {{0, 0}, 187, 2, 2}, {{BEFORE + 136, 18}, 136, 18, 0xffff}};
    // The image is at 40 in a longer file.
    static uint8_t file[BEFORE + CODE_SIZE];
    struct kesvuot_image image = image_of_tables(CODE, CODE_SIZE);
    struct kesvuot_data_in_code rows[ENTRIES + 1];
    memcpy(file + BEFORE, CODE, CODE_SIZE);
    image.slice.offset = BEFORE;
    for (size_t each = 1; each <= ENTRIES + 1; each++) {
        struct kesvuot_cursor cursor = {0};
        for (size_t first = 0; first <= ENTRIES; first += each) {
            const size_t left = ENTRIES - first, count = left < each ? left : each;
            memset(rows, UNWRITTEN, sizeof rows);
            CHECK(kesvuot_read_data_in_code(file, sizeof file, &image, &cursor, rows, each) == count);
            CHECK(memcmp(rows, wanted + first, count * sizeof *rows) == 0);
            CHECK(is_filled(rows + count, sizeof rows - count * sizeof *rows, UNWRITTEN));
        }
    }
    // The entries end past an image that is shorter.
    struct kesvuot_cursor cursor = {0};
    image.slice.size -= 2;
    CHECK(kesvuot_read_data_in_code(file, sizeof file, &image, &cursor, rows, ENTRIES) == 0);
}

// The bytes of a big-endian word.
#define BIG(word) (word) >> 24, (word) >> 16 & 255, (word) >> 8 & 255, (word) & 255

// An image with LC_CODE_SIGNATURE (0x1d). The signature is at 48, and has a code directory, entitlements and a CMS.
static const struct {
    uint32_t head[12];
    uint8_t signature[176];
} SIGNED = {
    {0xfeedfacf, 0x01000007, 3, 2, 1, 16, 0, 0, 0x1d, 16, 48, 176},
    {
        // The superblob has 173 bytes, and three entries, each of a slot and an offset.
        BIG(0xfade0cc0), BIG(173), BIG(3), BIG(0), BIG(36), BIG(5), BIG(153), BIG(0x10000), BIG(165),
        // At 36 the directory: length, version, flags, hashOffset, identOffset, nSpecialSlots, nCodeSlots, codeLimit
        BIG(0xfade0c02), BIG(117), BIG(0x20200), BIG(2), BIG(97), BIG(52), BIG(2), BIG(1), BIG(48),
        // hashSize, hashType, platform, pageSize, spare2, scatterOffset, teamOffset; "ab" and "T"; two special hashes
        // and one of the code, of 20 bytes each
        20, 1, 0, 12, BIG(0), BIG(0), BIG(55), 'a', 'b', 0, 'T', 0,
        1, 1, 1, 1, 1, 1, 1, 1, 1, 1, 1, 1, 1, 1, 1, 1, 1, 1, 1, 1,
        2, 2, 2, 2, 2, 2, 2, 2, 2, 2, 2, 2, 2, 2, 2, 2, 2, 2, 2, 2,
        3, 3, 3, 3, 3, 3, 3, 3, 3, 3, 3, 3, 3, 3, 3, 3, 3, 3, 3, 3,
        // At 153 and 165
        BIG(0xfade7171), BIG(12), BIG(0), BIG(0xfade0b01), BIG(8),
    },
};
enum { SIGNED_SIZE = sizeof SIGNED, SIGNATURE = BEFORE + 48, BLOBS = 3 };

// How many blobs there are where the byte at an offset of the signature has another value.
static size_t count_blobs(size_t offset, uint8_t value) {
    uint8_t bytes[SIGNED_SIZE];
    const struct kesvuot_image image = image_of_tables(&SIGNED, SIGNED_SIZE);
    struct kesvuot_cursor cursor = {0};
    struct kesvuot_blob rows[BLOBS];
    memcpy(bytes, &SIGNED, SIGNED_SIZE);
    bytes[48 + offset] = value;
    return kesvuot_read_blobs(bytes, SIGNED_SIZE, &image, &cursor, rows, BLOBS);
}

static void try_blobs(void) {
    static const struct kesvuot_blob wanted[] = {{{SIGNATURE + 36, 117}, 0, 0xfade0c02},
        {{SIGNATURE + 153, 12}, 5, 0xfade7171}, {{SIGNATURE + 165, 8}, 0x10000, 0xfade0b01}};
    static uint8_t file[BEFORE + SIGNED_SIZE];
    struct kesvuot_image image = image_of_tables(&SIGNED, SIGNED_SIZE);
    struct kesvuot_blob rows[BLOBS + 1];
    memcpy(file + BEFORE, &SIGNED, SIGNED_SIZE);
    image.slice.offset = BEFORE;
    for (size_t each = 1; each <= BLOBS + 1; each++) {
        struct kesvuot_cursor cursor = {0};
        for (size_t first = 0; first <= BLOBS; first += each) {
            const size_t left = BLOBS - first, count = left < each ? left : each;
            memset(rows, UNWRITTEN, sizeof rows);
            CHECK(kesvuot_read_blobs(file, sizeof file, &image, &cursor, rows, each) == count);
            CHECK(memcmp(rows, wanted + first, count * sizeof *rows) == 0);
            CHECK(is_filled(rows + count, sizeof rows - count * sizeof *rows, UNWRITTEN));
        }
    }
    // The signature ends past an image that is shorter.
    struct kesvuot_cursor cursor = {0};
    image.slice.size--;
    CHECK(kesvuot_read_blobs(file, sizeof file, &image, &cursor, rows, BLOBS) == 0);
    // Another magic; a superblob past the signature, and one of fewer bytes than its index or than its blobs
    CHECK(count_blobs(3, 0xc1) == 0 && count_blobs(7, 176) == 3 && count_blobs(7, 177) == 0);
    CHECK(count_blobs(7, 35) == 0 && count_blobs(7, 172) == 2 && count_blobs(7, 152) == 0);
    // A blob in the index, in the blob before it, of less than eight bytes, and past the superblob
    CHECK(count_blobs(19, 35) == 0 && count_blobs(27, 152) == 1);
    CHECK(count_blobs(160, 7) == 1 && count_blobs(172, 9) == 2);
    // An index with a fourth entry, and with two
    CHECK(count_blobs(11, 4) == 0 && count_blobs(11, 2) == 2);
}

// What is read of the directory where the blob has this many bytes.
static struct kesvuot_code_directory directory_of(uint64_t size, uint32_t wanted) {
    const struct kesvuot_blob blob = {{48 + 36, size}, 0, 0};
    struct kesvuot_code_directory directory;
    memset(&directory, UNWRITTEN, sizeof directory);
    CHECK(kesvuot_read_code_directory(&SIGNED, SIGNED_SIZE, &blob, &directory) == wanted);
    return directory;
}

static void try_code_directories(void) {
    static const struct kesvuot_code_directory none, all = {
        {84 + 52, 2}, {84 + 55, 1}, {84 + 97, 20}, {84 + 57, 40}, 48, 0x20200, 2, 1, 2, 20, 1, 12};
    struct kesvuot_code_directory found = directory_of(117, KESVUOT_OK);
    CHECK(memcmp(&found, &all, sizeof all) == 0);
    // Without the last byte of the hashes of the code; of the special hashes; and of the names
    found = directory_of(116, KESVUOT_OK);
    CHECK(is_at(found.hashes, 0, 0) && is_at(found.special_hashes, 84 + 57, 40) && is_at(found.team, 84 + 55, 1));
    found = directory_of(96, KESVUOT_OK);
    CHECK(is_at(found.special_hashes, 0, 0) && is_at(found.team, 84 + 55, 1) && found.limit == 48);
    found = directory_of(56, KESVUOT_OK);
    CHECK(is_at(found.team, 0, 0) && is_at(found.identifier, 84 + 52, 2));
    found = directory_of(54, KESVUOT_OK);
    CHECK(is_at(found.identifier, 0, 0) && found.code_slots == 1);
    // Without the last byte of its fields, and past the file
    found = directory_of(51, KESVUOT_NONE);
    CHECK(memcmp(&found, &none, sizeof none) == 0);
    found = directory_of(SIGNED_SIZE, KESVUOT_NONE);
    CHECK(memcmp(&found, &none, sizeof none) == 0);
}

// What is read of the hash of the directory, with this type of hashes, where the blob has this many bytes.
static struct kesvuot_cdhash cdhash_of(uint8_t hash_type, uint64_t size, uint32_t wanted) {
    uint8_t bytes[SIGNED_SIZE];
    const struct kesvuot_blob blob = {{48 + 36, size}, 0, 0};
    struct kesvuot_cdhash found;
    memcpy(bytes, &SIGNED, SIGNED_SIZE);
    bytes[48 + 36 + 37] = hash_type;
    memset(&found, UNWRITTEN, sizeof found);
    CHECK(kesvuot_read_cdhash(bytes, SIGNED_SIZE, &blob, &found) == wanted);
    return found;
}

// The hashes are those that Python's hashlib has of the 117 bytes of the directory, with each type of hashes.
static void try_cdhashes(void) {
    static const struct kesvuot_cdhash none, wanted[] = {
        {{0xb1, 0xf9, 0x34, 0x69, 0xf6, 0xce, 0x04, 0x4e, 0x97, 0xc9, 0x49, 0x3f, 0xbd, 0x36, 0x7c, 0xa4, 0x6d, 0x5c,
          0x4f, 0x3d}, 20, KESVUOT_CS_HASHTYPE_SHA1},
        {{0x60, 0x52, 0x80, 0x91, 0xec, 0xb1, 0xe5, 0x5c, 0x43, 0xef, 0x03, 0x31, 0x3d, 0xb9, 0xfd, 0x6c, 0x22, 0x67,
          0xee, 0x3b, 0xec, 0xe7, 0x77, 0xf5, 0x61, 0x70, 0x2d, 0x41, 0x67, 0x47, 0x69, 0xd2}, 32,
         KESVUOT_CS_HASHTYPE_SHA256},
        {{0x15, 0x39, 0x3a, 0x6a, 0xca, 0x03, 0x41, 0x7f, 0x79, 0xa7, 0xf6, 0xe8, 0x50, 0x33, 0x37, 0xce, 0x01, 0xe2,
          0x2d, 0xe1}, 20, KESVUOT_CS_HASHTYPE_SHA256_TRUNCATED},
        {{0x12, 0xed, 0xd6, 0x77, 0x94, 0xd4, 0x36, 0xfc, 0x65, 0x01, 0x77, 0xed, 0x27, 0x12, 0xd1, 0x22, 0x93, 0x01,
          0x91, 0xca, 0x56, 0x2e, 0x4c, 0x13, 0x86, 0x02, 0x19, 0x07, 0x85, 0x1f, 0xec, 0x2b, 0x1c, 0xbc, 0x88, 0x93,
          0x00, 0xee, 0x56, 0xca, 0x02, 0xc0, 0xfc, 0xda, 0x19, 0x6c, 0x58, 0x32}, 48, KESVUOT_CS_HASHTYPE_SHA384}};
    for (uint8_t hash_type = 1; hash_type <= 4; hash_type++) {
        const struct kesvuot_cdhash found = cdhash_of(hash_type, 117, KESVUOT_OK);
        CHECK(memcmp(&found, &wanted[hash_type - 1], sizeof found) == 0);
        // The last byte of the blob counts.
        const struct kesvuot_cdhash other = cdhash_of(hash_type, 116, KESVUOT_OK);
        CHECK(memcmp(found.digest, other.digest, KESVUOT_CS_CDHASH_LEN) != 0 && other.size == found.size);
    }
    // Types that are not known; without the last byte of its fields, and past the file
    const struct kesvuot_cdhash others[] = {
        cdhash_of(0, 117, KESVUOT_NONE), cdhash_of(5, 117, KESVUOT_NONE), cdhash_of(UINT8_MAX, 117, KESVUOT_NONE),
        cdhash_of(1, 51, KESVUOT_NONE), cdhash_of(1, SIGNED_SIZE, KESVUOT_NONE)};
    for (size_t k = 0; k < sizeof others / sizeof *others; k++) {
        CHECK(memcmp(&others[k], &none, sizeof none) == 0);
    }
}

// An image with a segment at 0x100000000, LC_DYLD_INFO (0x22) and LC_DYLD_EXPORTS_TRIE (0x80000033). The trie is at
// 168, and each line of it is a node. The table of LC_DYLD_INFO is at 222, and exports the empty name at 7.
static const struct {
    uint32_t words[42];
    uint8_t bytes[58];
} EXPORTS = {
    {0xfeedfacf, 0x01000007, 3, 2, 3, 136, 0, 0,
     0x19, 72, 0, 0, 0, 0, 0, 1, 0x1000, 0, 0, 0, 226, 0, 5, 5, 0, 0,
     0x22, 48, 0, 0, 0, 0, 0, 0, 0, 0, 222, 4, 0x80000033, 16, 168, 54},
    {0, 1, '_', 0, 5,
     0, 6, 'a', 0, 25, 'c', 0, 29, 'q', 0, 33, 'r', 0, 38, 's', 0, 45, 't', 0, 50,
     2, 4, 0x10, 0, // a weak definition
     2, 2, 0x30, 0, // an absolute symbol
     3, 8, 1, 0, 0, // the same name of library 1
     5, 8, 2, '_', 'x', 0, 0, // _x of library 2
     3, 0x10, 0x40, 0x50, 0, // a stub and a resolver
     2, 1, 0x20, 0, // a thread-local symbol
     2, 0, 7, 0}};
enum { EXPORTS_SIZE = 226, TRIE_SIZE_AT = 41, NAME_AT = 168 + 41 };

static const struct kesvuot_export NO_EXPORT = {0, 0, 0, 0, {0, 0}, 0};

// What the image exports under a name: between guard pages, if it has a size.
static void try_export(const uint8_t *bytes, size_t size, const struct kesvuot_image *image, const char *name,
                       size_t name_size, struct kesvuot_export wanted) {
    const bool is_found = memcmp(&wanted, &NO_EXPORT, sizeof wanted) != 0;
    const struct file guarded = file_of(name, name_size, AT_END);
    struct kesvuot_export found;
    memset(&found, UNWRITTEN, sizeof found);
    CHECK(kesvuot_find_export(bytes, size, image, name_size ? (char *)guarded.bytes : name, name_size, &found) ==
          (is_found ? KESVUOT_OK : KESVUOT_NONE));
    CHECK(memcmp(&found, &wanted, sizeof found) == 0);
    release(guarded);
}

// All exports of a file in which the image begins at an offset, and names that it does not export.
static void try_all_exports(const uint8_t *bytes, size_t size, const struct kesvuot_image *image, uint64_t offset) {
    const uint64_t base = image->base;
    const struct {
        const char *name;
        struct kesvuot_export wanted;
    } exports[] = {
        {"_a", {4, base + 0x10, 0, 0, {0, 0}, 0}}, {"_c", {2, 0x30, 0, 0, {0, 0}, 0}},
        {"_q", {8, 0, 0, 1, {0, 0}, 0}}, {"_r", {8, 0, 0, 2, {offset + NAME_AT, 2}, 0}},
        {"_s", {0x10, base + 0x40, base + 0x50, 0, {0, 0}, 0}}, {"_t", {1, base + 0x20, 0, 0, {0, 0}, 0}}};
    for (size_t k = 0; k < sizeof exports / sizeof *exports; k++) {
        const char *name = exports[k].name;
        try_export(bytes, size, image, name, 2, exports[k].wanted);
        try_export(bytes, size, image, name, 1, NO_EXPORT);
        try_export(bytes, size, image, name + 1, 1, NO_EXPORT);
        // With its zero byte.
        try_export(bytes, size, image, name, 3, NO_EXPORT);
    }
    try_export(bytes, size, image, "", 0, NO_EXPORT);
    try_export(bytes, size, image, NULL, 0, NO_EXPORT);
    try_export(bytes, size, image, "_x", 2, NO_EXPORT);
    try_export(bytes, size, image, "_aa", 3, NO_EXPORT);
}

static const struct kesvuot_span NO_TRIE = {0, 0};

static void try_trie(const uint8_t *bytes, size_t size, const struct kesvuot_image *image, struct kesvuot_span wanted) {
    struct kesvuot_span trie;
    memset(&trie, UNWRITTEN, sizeof trie);
    CHECK(kesvuot_find_export_trie(bytes, size, image, &trie) == (wanted.size ? KESVUOT_OK : KESVUOT_NONE));
    CHECK(memcmp(&trie, &wanted, sizeof trie) == 0);
}

static void try_exports(void) {
    static uint8_t file[BEFORE + EXPORTS_SIZE];
    struct kesvuot_image image = image_of_tables(&EXPORTS, EXPORTS_SIZE);
    const struct file guarded = file_of(&EXPORTS, EXPORTS_SIZE, AT_END);
    try_all_exports(guarded.bytes, EXPORTS_SIZE, &image, 0);
    release(guarded);
    memcpy(file + BEFORE, &EXPORTS, EXPORTS_SIZE);
    image.slice.offset = BEFORE;
    try_all_exports(file, sizeof file, &image, BEFORE);
    // From another base, past which some addresses are 2^64 or more, and from 0.
    image.base = UINT64_MAX - 0x20;
    try_all_exports(file, sizeof file, &image, BEFORE);
    image.base = 0;
    try_all_exports(file, sizeof file, &image, BEFORE);
}

// The trie of LC_DYLD_EXPORTS_TRIE ends sooner: no node is read that does not end in it. If it has no bytes, the table
// of LC_DYLD_INFO is the trie, but not if it ends past the image.
static void try_cut_exports(void) {
    struct kesvuot_image image = image_of_tables(&EXPORTS, EXPORTS_SIZE);
    const struct kesvuot_export a = {4, image.base + 0x10, 0, 0, {0, 0}, 0};
    const struct kesvuot_export of_no_name = {0, image.base + 7, 0, 0, {0, 0}, 0};
    uint32_t words[EXPORTS_SIZE / 4 + 1];
    const uint8_t *bytes = (const uint8_t *)words;
    memcpy(words, &EXPORTS, EXPORTS_SIZE);
    CHECK(words[TRIE_SIZE_AT] == 54);
    for (uint32_t size = 1; size < 54; size++) {
        words[TRIE_SIZE_AT] = size;
        try_export(bytes, EXPORTS_SIZE, &image, "_t", 2, NO_EXPORT);
        try_export(bytes, EXPORTS_SIZE, &image, "_a", 2, size < 29 ? NO_EXPORT : a);
        try_export(bytes, EXPORTS_SIZE, &image, "", 0, NO_EXPORT);
    }
    for (int is_past = 0; is_past < 2; is_past++) {
        words[TRIE_SIZE_AT] = is_past ? EXPORTS_SIZE - 168 + 1 : 0;
        try_export(bytes, EXPORTS_SIZE, &image, "_a", 2, NO_EXPORT);
        try_export(bytes, EXPORTS_SIZE, &image, "", 0, is_past ? NO_EXPORT : of_no_name);
        try_trie(bytes, EXPORTS_SIZE, &image, is_past ? NO_TRIE : (struct kesvuot_span){222, 4});
    }
    words[TRIE_SIZE_AT] = 0;
    image.slice.size -= 2;
    try_export(bytes, EXPORTS_SIZE, &image, "", 0, NO_EXPORT);
    try_trie(bytes, EXPORTS_SIZE, &image, NO_TRIE);
}

// A node at an offset of the trie, which begins at a place in the file.
struct wanted_node {
    uint64_t offset;
    struct kesvuot_export_node node;
    // Where the label of each edge is in the trie, and where it leads.
    size_t edge_count;
    struct kesvuot_export_edge edges[6];
};

static void try_node(const uint8_t *bytes, size_t size, const struct kesvuot_image *image, struct kesvuot_span trie,
                     const struct wanted_node *wanted) {
    struct kesvuot_export_node node;
    struct kesvuot_export_edge rows[8];
    memset(&node, UNWRITTEN, sizeof node);
    CHECK(kesvuot_read_export_node(bytes, size, image, &trie, wanted->offset, &node) == KESVUOT_OK);
    CHECK(memcmp(&node, &wanted->node, sizeof node) == 0);
    for (size_t each = 1; each <= wanted->edge_count + 1; each++) {
        struct kesvuot_cursor cursor = node.edges;
        for (size_t first = 0; first <= wanted->edge_count; first += each) {
            const size_t left = wanted->edge_count - first, count = left < each ? left : each;
            memset(rows, UNWRITTEN, sizeof rows);
            CHECK(kesvuot_read_export_edges(bytes, size, &trie, &cursor, rows, each) == count);
            CHECK(memcmp(rows, wanted->edges + first, count * sizeof *rows) == 0);
            CHECK(is_filled(rows + count, sizeof rows - count * sizeof *rows, UNWRITTEN));
            CHECK(cursor.items == left - count);
        }
    }
}

static void try_no_node(const uint8_t *bytes, size_t size, const struct kesvuot_image *image, struct kesvuot_span trie,
                        uint64_t offset) {
    struct kesvuot_export_node node;
    memset(&node, UNWRITTEN, sizeof node);
    CHECK(kesvuot_read_export_node(bytes, size, image, &trie, offset, &node) == KESVUOT_NONE);
    CHECK(is_filled(&node, sizeof node, 0));
}

// The nodes of a trie, of a file in which the image begins at an offset.
static void try_all_nodes(const uint8_t *bytes, size_t size, const struct kesvuot_image *image, uint64_t offset) {
    const uint64_t base = image->base, at = offset + 168;
    const struct kesvuot_span trie = {at, 54};
    const struct wanted_node nodes[] = {
        {0, {NO_EXPORT, {0, 0}, {2, 0, 0, 1}, 0, 0}, 1, {{{at + 2, 1}, 5}}},
        {5, {NO_EXPORT, {0, 0}, {7, 0, 0, 6}, 0, 0}, 6,
         {{{at + 7, 1}, 25}, {{at + 10, 1}, 29}, {{at + 13, 1}, 33}, {{at + 16, 1}, 38}, {{at + 19, 1}, 45},
          {{at + 22, 1}, 50}}},
        {25, {{4, base + 0x10, 0, 0, {0, 0}, 0}, {at + 26, 2}, {29, 0, 0, 0}, 1, 0}, 0, {{{0, 0}, 0}}},
        {38, {{8, 0, 0, 2, {offset + NAME_AT, 2}, 0}, {at + 39, 5}, {45, 0, 0, 0}, 1, 0}, 0, {{{0, 0}, 0}}},
        {45, {{0x10, base + 0x40, base + 0x50, 0, {0, 0}, 0}, {at + 46, 3}, {50, 0, 0, 0}, 1, 0}, 0, {{{0, 0}, 0}}}};
    try_trie(bytes, size, image, trie);
    for (size_t k = 0; k < sizeof nodes / sizeof *nodes; k++) {
        try_node(bytes, size, image, trie, &nodes[k]);
    }
    try_no_node(bytes, size, image, trie, 54);
    try_no_node(bytes, size, image, trie, UINT64_MAX);
    // Its number of edges would be past the trie.
    try_no_node(bytes, size, image, (struct kesvuot_span){at, 28}, 25);
    try_no_node(bytes, size, image, (struct kesvuot_span){at, UINT64_MAX - at + 1}, 0);
    try_no_node(bytes, size, image, NO_TRIE, 0);
}

// Terminal parts in which an export does not end, and edges that do not end in the trie.
static void try_odd_nodes(void) {
    const struct kesvuot_image image = image_of_tables(&EXPORTS, EXPORTS_SIZE);
    // The flags do not end in the part, and the address does not.
    static const uint8_t parts[] = {1, 0x80, 0, 2, 0, 0x80, 0};
    const struct kesvuot_span all = {0, sizeof parts};
    try_node(parts, sizeof parts, &image, all,
             &(struct wanted_node){0, {NO_EXPORT, {1, 1}, {3, 0, 0, 0}, 0, 0}, 0, {{{0, 0}, 0}}});
    try_node(parts, sizeof parts, &image, all,
             &(struct wanted_node){3, {NO_EXPORT, {4, 2}, {7, 0, 0, 0}, 0, 0}, 0, {{{0, 0}, 0}}});
    // The last of three edges has no zero byte after its label.
    static const uint8_t edges[] = {0, 3, 0, 9, 'a', 'b', 0, 0x80, 1, 'c'};
    const struct kesvuot_span trie = {0, sizeof edges};
    struct kesvuot_export_edge rows[4];
    struct kesvuot_export_node node;
    CHECK(kesvuot_read_export_node(edges, sizeof edges, &image, &trie, 0, &node) == KESVUOT_OK);
    CHECK(kesvuot_read_export_edges(edges, sizeof edges, &trie, &node.edges, rows, 4) == 2);
    CHECK(rows[0].label.offset == 0 && rows[0].label.size == 0 && rows[0].child == 9);
    CHECK(rows[1].label.offset == 4 && rows[1].label.size == 2 && rows[1].child == 0x80);
    CHECK(node.edges.place == 9 && node.edges.items == 1);
    CHECK(kesvuot_read_export_edges(edges, sizeof edges, &trie, &node.edges, rows, 4) == 0);
    struct kesvuot_cursor zeros = {0};
    CHECK(kesvuot_read_export_edges(edges, sizeof edges, &trie, &zeros, rows, 4) == 0);
}

static void try_nodes(void) {
    static uint8_t file[BEFORE + EXPORTS_SIZE];
    struct kesvuot_image image = image_of_tables(&EXPORTS, EXPORTS_SIZE);
    const struct file guarded = file_of(&EXPORTS, EXPORTS_SIZE, AT_END);
    try_all_nodes(guarded.bytes, EXPORTS_SIZE, &image, 0);
    release(guarded);
    memcpy(file + BEFORE, &EXPORTS, EXPORTS_SIZE);
    image.slice.offset = BEFORE;
    try_all_nodes(file, sizeof file, &image, BEFORE);
}

static void try_versions(void) {
    static const struct kesvuot_build wanted[] = {
        {3, 1, 2, 0x2f}, {3, 4, 5, 0x32}, {4, 6, 7, 0x30}, {1, 8, 9, 0x24}, {2, 10, 11, 0x25}};
    enum { BUILDS = sizeof wanted / sizeof *wanted };
    struct kesvuot_image image = image_of_tables(TABLES, TABLES_SIZE);
    struct kesvuot_build rows[BUILDS + 1];
    struct kesvuot_cursor cursor = {0};
    uint64_t version = 0;
    CHECK(image.build_count == BUILDS);
    CHECK(kesvuot_read_builds(TABLES, TABLES_SIZE, &image, &cursor, rows, BUILDS + 1) == BUILDS);
    CHECK(memcmp(rows, wanted, sizeof wanted) == 0);
    CHECK(kesvuot_find_source_version(TABLES, TABLES_SIZE, &image, &version) == KESVUOT_OK);
    CHECK(version >> 40 == 16777215 && (version >> 30 & 1023) == 1023 && (version >> 20 & 1023) == 1);
    CHECK((version >> 10 & 1023) == 2 && (version & 1023) == 1023);
    CHECK(kesvuot_read_image(mixed.bytes, mixed.size, 1, &image) == KESVUOT_OK);
    CHECK(kesvuot_find_source_version(mixed.bytes, mixed.size, &image, &version) == KESVUOT_NONE && version == 0);
}

// A state of a thread: which words it has, and which two of them are the address at which the thread begins.
struct state {
    uint32_t cputype, flavor, count, entry_at;
};
// x86_THREAD_STATE64, x86_THREAD_STATE, which begins with the flavor and the count of the first, and ARM_THREAD_STATE64
static const struct state STATES[] = {{0x01000007, 4, 42, 32}, {0x01000007, 7, 44, 34}, {0x0100000c, 6, 68, 64}};
enum { STATE_KINDS = sizeof STATES / sizeof *STATES, STATE_WORDS = 30, THREAD_WORDS = 30 + 2 * 72 };

// Writes an image with a segment at 0x100000000, which has all of the file, and an LC_UNIXTHREAD (5) of one state that
// begins at this address. Returns its size.
static size_t write_thread(uint32_t *words, const struct state *state, uint64_t entry) {
    const uint32_t command_size = 16 + 4 * state->count, size = 104 + command_size;
    const uint32_t start[STATE_WORDS] = {
        0xfeedfacf, state->cputype, 0, 2, 2, 72 + command_size, 0, 0,
        0x19, 72, 0, 0, 0, 0, 0, 1, 0x1000, 0, 0, 0, size, 0, 5, 5, 0, 0,
        0x5, command_size, state->flavor, state->count};
    memset(words, 0, THREAD_WORDS * sizeof *words);
    memcpy(words, start, sizeof start);
    if (state->flavor == 7) {
        words[STATE_WORDS] = 4;
        words[STATE_WORDS + 1] = 42;
    }
    memcpy(words + STATE_WORDS + state->entry_at, &entry, sizeof entry);
    return size;
}

// Whether the thread of an image that is accepted begins at this address, or nowhere if that is 0.
static bool begins_at(const uint32_t *words, size_t size, uint64_t wanted) {
    const struct kesvuot_image image = image_of_tables(words, size);
    uint64_t entry = 1;
    const uint32_t status = kesvuot_find_thread_entry(words, size, &image, &entry);
    return entry == wanted && status == (wanted ? KESVUOT_OK : KESVUOT_NONE);
}

// Whether it begins there if a word of the image has another value.
static bool begins_with(const struct state *state, size_t word, uint32_t value, uint64_t wanted) {
    uint32_t words[THREAD_WORDS];
    const size_t size = write_thread(words, state, 0x100000020);
    words[word] = value;
    return begins_at(words, size, wanted);
}

// A second LC_UNIXTHREAD follows, which begins at 0x100000030.
static void try_two_threads(const struct state *state) {
    uint32_t words[THREAD_WORDS], other[THREAD_WORDS];
    const size_t size = write_thread(words, state, 0x100000020), start = 26;
    const uint32_t more = (uint32_t)(size / 4 - start);
    write_thread(other, state, 0x100000030);
    memcpy(words + size / 4, other + start, 4 * more);
    words[4]++;
    words[5] += 4 * more;
    CHECK(begins_at(words, size + 4 * more, 0x100000020));
    // The registers of the first are not known: the second does not matter.
    words[28] = 99;
    CHECK(begins_at(words, size + 4 * more, 0));
}

static void try_thread_entries(void) {
    uint32_t words[THREAD_WORDS];
    for (const struct state *state = STATES; state < STATES + STATE_KINDS; state++) {
        const uint64_t base = 0x100000000, end = base + write_thread(words, state, base);
        const uint64_t inside[] = {base, base + 1, end - 1};
        const uint64_t outside[] = {0, 1, base - 1, end, base + 0xfff, UINT64_MAX};
        for (size_t index = 0; index < sizeof inside / sizeof *inside; index++) {
            CHECK(begins_at(words, write_thread(words, state, inside[index]), inside[index]));
        }
        for (size_t index = 0; index < sizeof outside / sizeof *outside; index++) {
            CHECK(begins_at(words, write_thread(words, state, outside[index]), 0));
        }
        // LC_THREAD has a thread, and LC_IDENT does not. A segment that can be read and written, or executed alone
        CHECK(begins_with(state, 26, 0x4, base + 0x20) && begins_with(state, 26, 0x8, 0));
        CHECK(begins_with(state, 23, 3, 0) && begins_with(state, 23, 4, base + 0x20));
        // Another flavor, a word less, a word more, and another processor
        CHECK(begins_with(state, 28, 5, 0) && begins_with(state, 29, state->count - 1, 0));
        CHECK(begins_with(state, 29, state->count + 1, 0) && begins_with(state, 29, UINT32_MAX, 0));
        CHECK(begins_with(state, 1, 0x01000012, 0) && begins_with(state, 1, state->cputype ^ 11, 0));
        try_two_threads(state);
    }
    // The header inside has another flavor or count.
    CHECK(begins_with(&STATES[1], STATE_WORDS, 7, 0) && begins_with(&STATES[1], STATE_WORDS + 1, 44, 0));
    // An image without a thread
    struct kesvuot_image image;
    uint64_t entry = 1;
    CHECK(kesvuot_read_image(mixed.bytes, mixed.size, 1, &image) == KESVUOT_OK);
    CHECK(kesvuot_find_thread_entry(mixed.bytes, mixed.size, &image, &entry) == KESVUOT_NONE && entry == 0);
}

// A structure of zeros is not an image, and neither is a structure whose slice ends past the file. Every call says so.
static void try_no_image(void) {
    struct kesvuot_image none;
    struct kesvuot_span data;
    memset(&none, 0, sizeof none);
    for (uint64_t size = 0; size <= library.size + 1; size += library.size + 1) {
        none.slice.size = size;
        try_tables(&none);
        CHECK(find_data(&none, 0x1d, &data) == KESVUOT_NONE && is_at(data, 0, 0));
        for (uint32_t table = 0; table <= TABLE_COUNT; table++) {
            try_no_table(library.bytes, library.size, &none, table);
        }
        CHECK(find_address(&none, 0, &data) == KESVUOT_NONE && is_at(data, 0, 0));
    }
}

// Symbols by address and by name

// An executable of one section at 0x1000, whose symbols are not in the order of their addresses.
struct symbols {
    uint32_t header[8], segment[18], section[20], symtab[6];
    struct {
        uint32_t strx;
        uint8_t type, sect;
        uint16_t desc;
        uint64_t value;
    } rows[7];
    char strings[11];
};

enum { MADE_SIZE = 208 + 7 * 16 + 11 };

static const struct symbols made = {
    {0xfeedfacf, 0x01000007, 3, 2, 2, 72 + 80 + 24, 0, 0},
    {0x19, 72 + 80, 'A', 0, 0, 0, 0x1000, 0, 0x100, 0, 0, 0, 0, 0, 7, 5, 1, 0},
    {'a', 0, 0, 0, 'A', 0, 0, 0, 0x1000, 0, 0x100, 0, 0, 0, 0, 0, 1, 0, 0, 0},
    {2, 24, 208, 7, 208 + 7 * 16, 11},
    {{4, 0x0f, 1, 0, 0x1080},  // _b
     {1, 0x24, 1, 0, 0x1000},  // _a: a debugging entry
     {1, 0x0f, 1, 0, 0x1010},  // _a
     {7, 0x0e, 1, 0, 0x1080},  // _ab
     {4, 0x01, 0, 0, 0x1001},  // _b: undefined
     {0, 0x0e, 1, 0, 0x1000},  // without a name
     {3, 0x02, 0, 0, 0x1005}}, // an empty name: absolute
    "\0_a\0_b\0_ab"};
static const uint32_t made_index[] = {5, 2, 0, 3};
enum { MADE_COUNT = 4 };

static bool is_no_symbol(struct kesvuot_symbol symbol) {
    struct kesvuot_symbol none;
    memset(&none, 0, sizeof none);
    none.section = KESVUOT_NO_SECTION;
    return memcmp(&symbol, &none, sizeof none) == 0;
}

// The row of the made file with this index is the symbol.
static bool is_made(struct kesvuot_symbol symbol, size_t number) {
    return symbol.value == made.rows[number].value && symbol.strx == made.rows[number].strx &&
           symbol.type == made.rows[number].type && symbol.sect == made.rows[number].sect &&
           symbol.section == (symbol.sect ? 0 : KESVUOT_NO_SECTION);
}

static void try_index(struct file file, const struct kesvuot_image *image) {
    for (size_t room = 0; room <= MADE_COUNT + 2; room++) {
        const struct file given = room_of(room * sizeof(uint32_t), AT_END);
        CHECK(kesvuot_index_symbols(file.bytes, file.size, image, (uint32_t *)(void *)given.bytes, room) == MADE_COUNT);
        const size_t written = room < MADE_COUNT ? 0 : sizeof made_index;
        CHECK(memcmp(given.bytes, made_index, written) == 0);
        CHECK(is_filled(given.bytes + written, given.size - written, UNWRITTEN));
        release(given);
    }
    CHECK(kesvuot_index_symbols(file.bytes, file.size, image, NULL, 0) == MADE_COUNT);
}

// Finds by an index of any numbers the entry at a position, or none.
static void try_address(struct file file, const struct kesvuot_image *image, const uint32_t *index, size_t count,
                        uint64_t address, size_t wanted) {
    struct kesvuot_symbol symbol;
    size_t at = UNWRITTEN;
    memset(&symbol, UNWRITTEN, sizeof symbol);
    const uint32_t status = kesvuot_find_symbol(file.bytes, file.size, image, index, count, address, &symbol, &at);
    if (wanted < count) {
        CHECK(status == KESVUOT_OK && at == wanted && is_made(symbol, index[wanted]));
    } else {
        CHECK(status == KESVUOT_NONE && at == 0 && is_no_symbol(symbol));
    }
}

static void try_symbols_by_address(struct file file, const struct kesvuot_image *image) {
    const struct {
        uint64_t address;
        size_t wanted;
    } answers[] = {{0, MADE_COUNT}, {0xfff, MADE_COUNT}, {0x1000, 0}, {0x100f, 0}, {0x1010, 1}, {0x107f, 1},
                   {0x1080, 3}, {0x1081, 3}, {UINT64_MAX, 3}};
    for (size_t k = 0; k < sizeof answers / sizeof *answers; k++) {
        try_address(file, image, made_index, MADE_COUNT, answers[k].address, answers[k].wanted);
        try_address(file, image, NULL, 0, answers[k].address, 0);
    }
    // Other numbers: of no symbol, and in another order.
    const uint32_t past[] = {5, 7, UINT32_MAX}, other[] = {6, 4, 0};
    try_address(file, image, past, 3, 0x1000, 0);
    try_address(file, image, past + 1, 2, UINT64_MAX, 2);
    try_address(file, image, other, 3, 0x1001, 1);
    try_address(file, image, other, 3, UINT64_MAX, 2);
    struct kesvuot_image without = *image;
    without.symbol_count = UINT64_MAX;
    try_address(file, &without, made_index, MADE_COUNT, UINT64_MAX, MADE_COUNT);
    CHECK(kesvuot_index_symbols(file.bytes, file.size, &without, NULL, 0) == 0);
}

static void try_symbol_named(struct file file, const struct kesvuot_image *image, const char *name, size_t size,
                             size_t wanted) {
    struct kesvuot_symbol symbol;
    uint64_t number = UNWRITTEN;
    memset(&symbol, UNWRITTEN, sizeof symbol);
    const uint32_t status = kesvuot_find_name(file.bytes, file.size, image, name, size, &symbol, &number);
    if (wanted < 7) {
        CHECK(status == KESVUOT_OK && number == wanted && is_made(symbol, wanted));
    } else {
        CHECK(status == KESVUOT_NONE && number == 0 && is_no_symbol(symbol));
    }
}

static void try_symbols_by_name(struct file file, const struct kesvuot_image *image) {
    try_symbol_named(file, image, "_a", 2, 2);
    try_symbol_named(file, image, "_b", 2, 0);
    try_symbol_named(file, image, "_ab", 3, 3);
    try_symbol_named(file, image, "", 0, 6);
    try_symbol_named(file, image, NULL, 0, 6);
    try_symbol_named(file, image, "_", 1, 7);
    try_symbol_named(file, image, "_a", 3, 7);
    try_symbol_named(file, image, "_b\0_ab", 6, 7);
    try_symbol_named(file, image, "_abc", 4, 7);
    // The last string is not a name, as it has no zero byte.
    struct kesvuot_image cut = *image;
    cut.strings_size--;
    try_symbol_named(file, &cut, "_ab", 3, 7);
    try_symbol_named(file, &cut, "_b", 2, 0);
    cut.strings_size = 0;
    try_symbol_named(file, &cut, "", 0, 7);
    cut.symbol_count = 0;
    try_symbol_named(file, &cut, "_a", 2, 7);
}

static void try_symbols(void) {
    struct kesvuot_verdict verdict;
    struct kesvuot_image image;
    const struct file file = file_of(&made, MADE_SIZE, AT_END);
    CHECK(kesvuot_verify(file.bytes, file.size, KESVUOT_LAYOUT, &verdict) == KESVUOT_OK);
    CHECK(kesvuot_read_image(file.bytes, file.size, 0, &image) == KESVUOT_OK);
    try_index(file, &image);
    try_symbols_by_address(file, &image);
    try_symbols_by_name(file, &image);
    release(file);
}

int main(int count, char **words) {
    if (count != 4) {
        stop("usage", "calls LIBRARY MIXED RULES");
    }
    library = read_file(words[1], side_or_block(AT_END));
    mixed = read_file(words[2], side_or_block(AT_END));
    try_version_and_rules(strtoul(words[3], NULL, 10));
    try_profiles_of_rules();
    try_names_of_numbers();
    try_architectures();
    try_verdicts();
    try_layouts();
    try_explanations();
    try_images();
    try_slices_of_two_kinds();
    for (uint64_t slice = 0; slice < 2; slice++) {
        struct kesvuot_image image;
        CHECK(kesvuot_read_image(library.bytes, library.size, slice, &image) == KESVUOT_OK);
        try_tables(&image);
        try_names(&image);
        try_names_of_batches(&image);
        try_sections_of_symbols(&image);
    }
    try_data();
    try_bounded_tables();
    try_empty_table();
    try_relocations();
    try_function_starts();
    try_data_in_code();
    try_blobs();
    try_code_directories();
    try_cdhashes();
    try_exports();
    try_cut_exports();
    try_nodes();
    try_odd_nodes();
    try_versions();
    try_thread_entries();
    try_no_image();
    try_symbols();
    release(library);
    release(mixed);
    return print_counts("calls");
}
