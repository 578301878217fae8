// lies SEED ROUNDS FILE..: calls everything on files that need not be accepted, with images that kesvuot_read_image
// wrote, and with images and cursors of random numbers. The file lies between guard pages, so a read outside ends the
// program, and all returned spans must lie in the file.
#include "support.h"
#include <stdio.h>
#include <stdlib.h>
#include <string.h>

enum { MOST_ROWS = 9, MOST_COMMANDS = 32, LC_FUNCTION_STARTS = 0x26 };

static struct file file;
static uint64_t seed;
static uint32_t rules_end;
static unsigned long calls, handed_out, opened, explained;

// xorshift64
static uint64_t draw(void) {
    seed ^= seed << 13;
    seed ^= seed >> 7;
    seed ^= seed << 17;
    return seed;
}

static uint64_t draw_below(uint64_t bound) {
    return draw() % bound;
}

// A number that is right, or at some edge, or any.
static uint64_t lie(uint64_t right) {
    switch (draw_below(8)) {
    case 0:
        return draw();
    case 1:
        return file.size - draw_below(40);
    case 2:
        return UINT64_MAX - draw_below(64);
    case 3:
        return draw_below(64);
    case 4:
        return (uint64_t)1 << draw_below(64);
    case 5:
        return right + draw_below(9) - 4;
    default:
        return right;
    }
}

// The bytes lie in the first `size` bytes of the file, and an empty span is at 0.
static void take(struct kesvuot_span bytes, size_t size) {
    calls++;
    if (bytes.size) {
        handed_out++;
        CHECK(bytes.offset <= size && bytes.size <= size - bytes.offset);
    } else {
        CHECK(bytes.offset == 0);
    }
}

// A cursor of any numbers, or of zeros, which is before the first row.
static struct kesvuot_cursor some_cursor(void) {
    struct kesvuot_cursor cursor = {0};
    if (draw_below(2)) {
        cursor.place = lie(draw_below(0x400));
        cursor.commands = lie(draw_below(12));
        cursor.segment = lie(draw_below(0x400));
        cursor.items = lie(draw_below(12));
    }
    return cursor;
}

static void take_name(const struct kesvuot_image *image, size_t size, uint32_t strx) {
    struct kesvuot_span name;
    const uint32_t status = kesvuot_symbol_name(file.bytes, size, image, strx, &name);
    CHECK(status == KESVUOT_OK || (status == KESVUOT_NONE && name.size == 0));
    take(name, size);
}

// The names of any symbols, into any room, as the single call gives them.
static void take_names(const struct kesvuot_image *image, size_t size) {
    struct kesvuot_symbol rows[MOST_ROWS];
    struct kesvuot_span names[MOST_ROWS + 1], untouched, name;
    const size_t count = draw_below(MOST_ROWS + 1), max = draw_below(MOST_ROWS + 1);
    memset(names, UNWRITTEN, sizeof names);
    memset(&untouched, UNWRITTEN, sizeof untouched);
    for (size_t index = 0; index < count; index++) {
        rows[index].strx = (uint32_t)lie(draw_below(0x400));
    }
    const size_t written = kesvuot_read_names(file.bytes, size, image, rows, count, names, max);
    CHECK(written == (count < max ? count : max));
    CHECK(memcmp(&names[written], &untouched, sizeof untouched) == 0);
    for (size_t index = 0; index < written; index++) {
        take(names[index], size);
        kesvuot_symbol_name(file.bytes, size, image, rows[index].strx, &name);
        CHECK(memcmp(&names[index], &name, sizeof name) == 0);
    }
}

// Asks for three batches of rows of a table from a cursor on, and takes what this says of each row of the last. Rows past those that were written stay as they were.
#define TAKE_ROWS(row_type, cursor_type, begin, call, take_row)                   \
    do {                                                                          \
        row_type rows[MOST_ROWS + 1], untouched;                                  \
        memset(&untouched, 0x5a, sizeof untouched);                               \
        cursor_type cursor = begin;                                               \
        size_t written = 0;                                                       \
        for (int batch = 0; batch < 3; batch++) {                                 \
            memset(rows, 0x5a, sizeof rows);                                      \
            written = call(file.bytes, size, image, &cursor, rows, max);          \
            CHECK(written <= max);                                                \
            CHECK(memcmp(&rows[written], &untouched, sizeof untouched) == 0);     \
        }                                                                         \
        for (size_t index = 0; index < written; index++) {                        \
            const row_type *row = &rows[index];                                   \
            take_row;                                                             \
        }                                                                         \
        calls++;                                                                  \
    } while (0)

// TAKE_ROWS for a table of an image, from any cursor on.
#define TAKE_TABLE(row_type, call, take_row) TAKE_ROWS(row_type, struct kesvuot_cursor, some_cursor(), call, take_row)

// Takes the hash of a blob of any bytes. Only a code directory has a hash.
static void take_cdhash(const struct kesvuot_blob *blob, size_t size, uint32_t directory_status) {
    struct kesvuot_cdhash found;
    memset(&found, UNWRITTEN, sizeof found);
    const uint32_t status = kesvuot_read_cdhash(file.bytes, size, blob, &found);
    CHECK(status == KESVUOT_OK ? directory_status == KESVUOT_OK : status == KESVUOT_NONE);
    CHECK(status == KESVUOT_OK ? found.size >= KESVUOT_CS_CDHASH_LEN && found.size <= sizeof found.digest
                               : found.size == 0 && found.hash_type == 0);
    CHECK(is_filled(found.digest + found.size, sizeof found.digest - found.size, 0));
}

// Takes any bytes of the file, or a blob of a signature, as a code directory.
static void take_code_directory(const struct kesvuot_blob *blob, size_t size) {
    struct kesvuot_code_directory found;
    const uint32_t status = kesvuot_read_code_directory(file.bytes, size, blob, &found);
    CHECK(status == KESVUOT_OK || (status == KESVUOT_NONE && found.version == 0));
    take(found.identifier, size);
    take(found.team, size);
    take(found.hashes, size);
    take(found.special_hashes, size);
    take_cdhash(blob, size, status);
}

static void take_tables(const struct kesvuot_image *image, size_t size) {
    const size_t max = draw_below(MOST_ROWS + 1);
    TAKE_TABLE(struct kesvuot_segment, kesvuot_read_segments, (take(row->name, size), take(row->bytes, size)));
    TAKE_TABLE(struct kesvuot_section, kesvuot_read_sections,
               (take(row->name, size), take(row->segment, size), take(row->bytes, size)));
    TAKE_TABLE(struct kesvuot_library, kesvuot_read_libraries, take(row->name, size));
    TAKE_TABLE(struct kesvuot_build, kesvuot_read_builds, CHECK(row->cmd > 0));
    TAKE_TABLE(struct kesvuot_command, kesvuot_read_commands, (take(row->bytes, size), take(row->name, size)));
    TAKE_TABLE(struct kesvuot_symbol, kesvuot_read_symbols, take_name(image, size, row->strx));
    TAKE_TABLE(uint32_t, kesvuot_read_indirects, (void)row);
    TAKE_TABLE(uint64_t, kesvuot_read_function_starts, CHECK(row == rows || row[-1] < *row));
    TAKE_TABLE(struct kesvuot_data_in_code, kesvuot_read_data_in_code,
               (take(row->bytes, size), CHECK(row->bytes.size == 0 || row->bytes.size == row->length)));
    TAKE_TABLE(struct kesvuot_blob, kesvuot_read_blobs, (take(row->bytes, size), take_code_directory(row, size)));
}

static struct kesvuot_fixup_cursor any_fixup_cursor(void) {
    return (struct kesvuot_fixup_cursor){
        .stream = lie(draw_below(5)),
        .place = lie(draw_below(0x400)),
        .commands = lie(draw_below(12)),
        .segment = lie(draw_below(5)),
        .offset = lie(draw_below(0x400)),
        .page = lie(draw_below(3)),
        .left = lie(draw_below(9)),
        .skip = lie(draw_below(0x400)),
        .name = lie(draw_below(0x400)),
        .name_size = lie(draw_below(0x40)),
        .has_segment = (uint32_t)lie(draw_below(2)),
        .has_name = (uint32_t)lie(draw_below(2)),
    };
}

// From the first row on, each pointer is in the bytes of its segment.
static void take_fixup(const struct kesvuot_image *image, size_t size, const struct kesvuot_fixup *row) {
    struct kesvuot_cursor cursor = {0};
    struct kesvuot_segment segment = {.vmaddr = 0};
    size_t found = 1;
    for (uint32_t index = 0; found == 1 && index <= row->segment; index++) {
        found = kesvuot_read_segments(file.bytes, size, image, &cursor, &segment, 1);
    }
    CHECK(found == 1 && segment.bytes.size >= 8 && row->offset <= segment.bytes.size - 8);
    CHECK(row->address == segment.vmaddr + row->offset);
}

static void take_fixups(const struct kesvuot_image *image, size_t size) {
    const size_t max = draw_below(MOST_ROWS + 1);
    const struct kesvuot_fixup_cursor first = {0};
    TAKE_ROWS(struct kesvuot_fixup, struct kesvuot_fixup_cursor, first, kesvuot_read_fixups,
              take_fixup(image, size, row));
    TAKE_ROWS(struct kesvuot_fixup, struct kesvuot_fixup_cursor, any_fixup_cursor(), kesvuot_read_fixups,
              CHECK(row->kind == KESVUOT_REBASE || row->kind == KESVUOT_BIND));
    TAKE_ROWS(struct kesvuot_import, struct kesvuot_fixup_cursor, any_fixup_cursor(), kesvuot_read_imports,
              (take(row->name, size), CHECK(row->weak < 2 && row->reserved == 0)));
}

// The relocations of any section.
static uint32_t reloff, nreloc;

static size_t read_relocations(const uint8_t *bytes, size_t size, const struct kesvuot_image *image,
                               struct kesvuot_cursor *cursor, struct kesvuot_relocation *rows, size_t max) {
    return kesvuot_read_relocations(bytes, size, image, reloff, nreloc, cursor, rows, max);
}

static void take_relocations(const struct kesvuot_image *image, size_t size) {
    const size_t max = draw_below(MOST_ROWS + 1);
    reloff = (uint32_t)lie(draw_below(0x400));
    nreloc = (uint32_t)lie(draw_below(12));
    TAKE_TABLE(struct kesvuot_relocation, read_relocations,
               (CHECK(row->symbolnum < 1 << 24 && row->pcrel < 2 && row->length < 4 && row->external < 2),
                CHECK(row->type < 16 && row->scattered == row->address >> 31)));
}

static void take_bounded(const struct kesvuot_image *image, size_t size) {
    struct kesvuot_span bytes;
    const uint32_t table = (uint32_t)lie(draw_below(KESVUOT_TABLE_ENCRYPTED + 2));
    const uint32_t status = kesvuot_find_table(file.bytes, size, image, table, &bytes);
    CHECK(status == KESVUOT_OK || (status == KESVUOT_NONE && bytes.size == 0));
    take(bytes, size);
    uint64_t version = 1;
    const uint32_t found = kesvuot_find_source_version(file.bytes, size, image, &version);
    CHECK(found == KESVUOT_OK || (found == KESVUOT_NONE && version == 0));
    uint64_t entry = 1;
    const uint32_t begins = kesvuot_find_thread_entry(file.bytes, size, image, &entry);
    CHECK(begins == KESVUOT_OK || (begins == KESVUOT_NONE && entry == 0));
}

// Judges by any profile. By a number that no profile has, nothing is written.
static void take_verdict(size_t size) {
    struct kesvuot_verdict verdict;
    memset(&verdict, UNWRITTEN, sizeof verdict);
    const uint32_t profile = (uint32_t)lie(draw_below(KESVUOT_SEALED + 2));
    const uint32_t status = (uint32_t)kesvuot_verify(file.bytes, size, profile, &verdict);
    calls++;
    if (kesvuot_profile_name(profile)) {
        CHECK(status == KESVUOT_OK || status == KESVUOT_REFUSED);
        CHECK(kesvuot_rule_profile(verdict.rule) <= profile && verdict.place <= size && verdict.reserved == 0);
    } else {
        CHECK(status == KESVUOT_UNKNOWN_PROFILE && is_filled(&verdict, sizeof verdict, UNWRITTEN));
    }
}

// Explains any rule at any place, or the first broken one.
static void take_explanation(size_t size) {
    struct kesvuot_verdict verdict = {0};
    struct kesvuot_explanation found, none;
    memset(&found, UNWRITTEN, sizeof found);
    memset(&none, 0, sizeof none);
    none.at.index = none.first.index = none.second.index = KESVUOT_NO_INDEX;
    none.slice = none.command = none.section = none.symbol = KESVUOT_NO_INDEX;
    if (draw_below(2)) {
        kesvuot_verify(file.bytes, size, KESVUOT_SEALED, &verdict);
    }
    if (!verdict.rule || draw_below(4) == 0) {
        verdict.rule = (uint32_t)(draw_below(8) ? draw_below(rules_end + 1) : draw());
        verdict.place = lie(draw_below(2) ? verdict.place : 4 * draw_below(0x100));
    }
    verdict.slices = draw();
    const uint32_t status = kesvuot_explain(file.bytes, size, &verdict, &found);
    calls++;
    if (status == KESVUOT_OK) {
        explained++;
        CHECK(found.at.kind > KESVUOT_PART_NONE && found.at.kind <= KESVUOT_PART_CODE_HASH);
        CHECK(found.at.start <= verdict.place && verdict.place - found.at.start <= found.at.size);
        CHECK(found.at.start <= size && found.at.size <= size - found.at.start);
        CHECK(found.first.kind <= KESVUOT_PART_CODE_HASH && found.second.kind <= KESVUOT_PART_CODE_HASH);
    } else {
        CHECK(status == KESVUOT_NONE && memcmp(&found, &none, sizeof none) == 0);
    }
}

// Searches an index of the library, or of any numbers, and then for a name that is bytes of the file.
static void take_symbols(const struct kesvuot_image *image, size_t size) {
    uint32_t index[MOST_ROWS];
    struct kesvuot_symbol symbol;
    uint64_t number;
    size_t at, count = draw_below(MOST_ROWS + 1);
    const size_t wanted = kesvuot_index_symbols(file.bytes, size, image, index, count);
    CHECK(wanted <= size);
    if (wanted > count || draw_below(2)) {
        for (size_t k = 0; k < count; k++) {
            index[k] = (uint32_t)lie(draw_below(12));
        }
    } else {
        count = wanted;
    }
    const uint64_t address = draw_below(2) ? lie(image->base) : image->base + draw_below(0x20000);
    uint32_t status = kesvuot_find_symbol(file.bytes, size, image, index, count, address, &symbol, &at);
    CHECK(status == KESVUOT_OK ? at < count && symbol.value <= address : status == KESVUOT_NONE && at == 0);
    const size_t start = draw_below(size + 1), most = size - start;
    status = kesvuot_find_name(file.bytes, size, image, file.bytes + start, draw_below(most < 9 ? most + 1 : 9), &symbol,
                               &number);
    CHECK(status == KESVUOT_OK ? symbol.strx > 0 && number < size : status == KESVUOT_NONE && number == 0);
    calls++;
}

// Looks up a name that is bytes of the file: any of them, or some that have an underscore first, as most exports have.
static void take_export(const struct kesvuot_image *image, size_t size) {
    struct kesvuot_export found, none;
    memset(&found, UNWRITTEN, sizeof found);
    memset(&none, 0, sizeof none);
    size_t start = draw_below(size + 1);
    if (draw_below(2)) {
        const uint8_t *underscore = memchr(file.bytes + start, '_', size - start);
        start = underscore ? (size_t)(underscore - file.bytes) : start;
    }
    const size_t most = size - start, length = draw_below(most < 9 ? most + 1 : 9);
    const uint32_t status = kesvuot_find_export(file.bytes, size, image, file.bytes + start, length, &found);
    CHECK(status == KESVUOT_OK || (status == KESVUOT_NONE && memcmp(&found, &none, sizeof none) == 0));
    CHECK(found.flags & KESVUOT_EXPORT_SYMBOL_FLAGS_REEXPORT ? found.address == 0 : found.ordinal == 0);
    CHECK(found.name.size == 0 || memchr(file.bytes + found.name.offset, 0, found.name.size) == NULL);
    take(found.name, size);
}

// Reads a node and its edges, of the trie of the image or of any bytes.
static void take_node(const struct kesvuot_image *image, size_t size) {
    struct kesvuot_span trie;
    struct kesvuot_export_node node;
    struct kesvuot_export_edge rows[MOST_ROWS];
    const uint32_t found = kesvuot_find_export_trie(file.bytes, size, image, &trie);
    CHECK(found == KESVUOT_OK ? trie.size > 0 : found == KESVUOT_NONE && trie.size == 0);
    take(trie, size);
    if (draw_below(2)) {
        trie = (struct kesvuot_span){lie(draw_below(size + 1)), lie(draw_below(0x100))};
    }
    const uint64_t offset = lie(draw_below(trie.size < 0x100 ? trie.size + 1 : 0x100));
    const uint32_t status = kesvuot_read_export_node(file.bytes, size, image, &trie, offset, &node);
    CHECK(status == KESVUOT_OK || (status == KESVUOT_NONE && node.edges.items == 0));
    CHECK(node.edges.items < 256 && node.has_export < 2);
    take(node.terminal, size);
    take(node.exported.name, size);
    struct kesvuot_cursor cursor = draw_below(2) ? node.edges : some_cursor();
    const size_t count = kesvuot_read_export_edges(file.bytes, size, &trie, &cursor, rows, draw_below(MOST_ROWS + 1));
    CHECK(count <= MOST_ROWS);
    for (size_t index = 0; index < count; index++) {
        CHECK(rows[index].label.size == 0 ||
              memchr(file.bytes + rows[index].label.offset, 0, rows[index].label.size) == NULL);
        take(rows[index].label, size);
    }
    calls++;
}

// Asks for the data of one of the first commands of the image, and of any command.
static void take_data(const struct kesvuot_image *image, size_t size) {
    struct kesvuot_command rows[MOST_COMMANDS];
    struct kesvuot_cursor cursor = {0};
    struct kesvuot_span data;
    const size_t count = kesvuot_read_commands(file.bytes, size, image, &cursor, rows, MOST_COMMANDS);
    const uint32_t cmds[] = {count ? rows[draw_below(count)].cmd : 0, (uint32_t)lie(LC_FUNCTION_STARTS)};
    for (size_t index = 0; index < sizeof cmds / sizeof *cmds; index++) {
        kesvuot_find_data(file.bytes, size, image, cmds[index], &data);
        take(data, size);
    }
}

static void take_all(const struct kesvuot_image *image, size_t size) {
    struct kesvuot_span bytes;
    take_tables(image, size);
    take_fixups(image, size);
    take_names(image, size);
    take_relocations(image, size);
    take_bounded(image, size);
    take_explanation(size);
    take_name(image, size, (uint32_t)lie(draw_below(0x200)));
    take_symbols(image, size);
    take_export(image, size);
    take_node(image, size);
    take_data(image, size);
    const uint64_t address = draw_below(2) ? lie(image->base) : image->base + draw_below(0x20000);
    const uint32_t status = kesvuot_find_address(file.bytes, size, image, address, &bytes);
    CHECK(status == KESVUOT_OK ? bytes.size > 0 : bytes.size == 0);
    take(bytes, size);
}

// Random numbers in all fields, some of them near the right ones.
static void lie_all(struct kesvuot_image *image) {
    const struct kesvuot_image right = *image;
    for (size_t index = 0; index < sizeof *image; index++) {
        ((uint8_t *)image)[index] = (uint8_t)draw();
    }
    image->slice.offset = lie(right.slice.offset);
    image->slice.size = lie(right.slice.size);
    image->section_count = lie(right.section_count);
    image->base = lie(right.base);
    image->symbols = lie(right.symbols);
    image->symbol_count = lie(right.symbol_count);
    image->strings = lie(right.strings);
    image->strings_size = lie(right.strings_size);
    image->indirects = lie(right.indirects);
    image->indirect_count = lie(right.indirect_count);
}

// Calls on all the bytes of the file, or on its first ones.
static void try_file(long rounds) {
    for (long round = 0; round < rounds; round++) {
        struct kesvuot_image image;
        const size_t size = draw_below(3) ? file.size : draw_below(file.size + 1);
        const uint64_t slice = draw_below(4) ? draw_below(3) : lie(2);
        opened += kesvuot_read_image(file.bytes, size, slice, &image) == KESVUOT_OK;
        take(image.slice, size);
        take_verdict(size);
        take_all(&image, size);
        lie_all(&image);
        take_all(&image, size);
        // The image of another part of the file.
        take_all(&image, draw_below(file.size + 1));
    }
}

int main(int count, char **words) {
    if (count < 4) {
        stop("usage", "lies SEED ROUNDS FILE..");
    }
    seed = strtoull(words[1], NULL, 10) * 2 + 1;
    rules_end = end_of_rules();
    for (int index = 3; index < count; index++) {
        file = read_file(words[index], index % 2 ? AT_END : AT_START);
        try_file(strtol(words[2], NULL, 10));
        release(file);
    }
    printf("calls %lu, images %lu, handed out %lu, explained %lu\n", calls, opened, handed_out, explained);
    CHECK(opened > 0 && handed_out > 0 && explained > 0);
    return print_counts("lies");
}
