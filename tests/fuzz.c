// A harness for libFuzzer: it calls everything in kesvuot.h on the given bytes, and stops if a result is not what the
// header promises. tests/fuzz builds and runs it, and says how to run it for longer.
//
// The checks of the compiler do not see into the library. So each input is judged at two places: next to an unreadable
// page before its first byte, and next to one after its last byte.
//
// The compiler's counters, by which libFuzzer keeps inputs that reach something new, cover only this file. The harness
// adds its own counters: for the broken rule with the size of the place, and for the sizes of tables.

#define _DEFAULT_SOURCE // MAP_ANONYMOUS
#include <stdbool.h>
#include <stddef.h>
#include <stdint.h>
#include <stdio.h>
#include <stdlib.h>
#include <string.h>
#include <sys/mman.h>

#include "kesvuot.h"
#include "rules_tables.h"

// What libFuzzer calls, and what it provides.
int LLVMFuzzerTestOneInput(const uint8_t *data, size_t size);
size_t LLVMFuzzerCustomMutator(uint8_t *data, size_t size, size_t max_size, unsigned seed);
size_t LLVMFuzzerMutate(uint8_t *data, size_t size, size_t max_size);

// Longer inputs are not judged.
#define ROOM_SIZE ((size_t)1 << 20)
#define PAGE_SIZE ((size_t)1 << 12)

// mach-o/nlist.h and mach-o/loader.h. The commands are in rules_tables.h.
#define N_STAB 0xe0u
#define N_TYPE 0x0eu
#define N_SECT 0x0eu
#define INDIRECT_SYMBOL_LOCAL_OR_ABS 0xc0000000u

#define CHECK(condition) ((condition) ? (void)0 : stop(#condition, __LINE__))

static void stop(const char *condition, int line) {
    fprintf(stderr, "tests/fuzz.c:%d: %s\n", line, condition);
    abort();
}

// `accepted` is the last profile that accepts the file, or this.
enum { REFUSED = 0 };

// A verdict by each profile, at its number.
enum { VERDICTS = KESVUOT_SEALED + 1 };

// Counters

#define AND_ONE(rule, name) +1

// How many rules there are. Their numbers begin at 1, without gaps.
enum {
    RULE_COUNT = LAYOUT_RULES(AND_ONE) STRICT_RULES(AND_ONE) LINKED_RULES(AND_ONE) UNAMBIGUOUS_RULES(AND_ONE)
        SEALED_RULES(AND_ONE)
};

// VERDICT counts verdicts without a broken rule, and VERDICT + n verdicts with the rule of the number n.
enum {
    TABLES = 0, SLICES = 9, IMAGE, ADDRESS, DATA, BOUNDED, NAME, EXPORT, VERDICT,
    KINDS = VERDICT + RULE_COUNT + 1
};

__attribute__((section("__libfuzzer_extra_counters"))) static uint8_t counters[64 * KINDS];

// Counts the kind with the number of digits.
static void reach(unsigned kind, uint64_t number) {
    CHECK(kind < KINDS);
    unsigned digits = number == 0 ? 0 : 64 - (unsigned)__builtin_clzll(number);
    counters[64 * kind + (digits < 64 ? digits : 63)] = 1;
}

// Returned spans

// The bytes of a file, or the first of them.
struct file {
    const uint8_t *bytes;
    size_t size;
};

// An image of a file, as kesvuot_read_image wrote it, or with other numbers.
struct held {
    struct file file;
    struct kesvuot_image image;
};

#define OF(held) (held)->file.bytes, (held)->file.size, &(held)->image

static bool is_empty(struct kesvuot_span span) {
    return span.size == 0;
}

static const uint8_t *bytes_at(const struct held *held, struct kesvuot_span span) {
    return held->file.bytes + span.offset;
}

// The span lies in another one, or is empty and at 0.
static void check_within(struct kesvuot_span whole, struct kesvuot_span span) {
    if (is_empty(span)) {
        CHECK(span.offset == 0);
    } else {
        CHECK(span.offset >= whole.offset);
        CHECK(span.size <= whole.size);
        CHECK(span.offset - whole.offset <= whole.size - span.size);
    }
}

// The span lies in the slice, and so in the file. Where the slice does not lie in the file, it is empty.
static void check_inside(const struct held *held, struct kesvuot_span span) {
    check_within((struct kesvuot_span){0, held->file.size}, span);
    check_within(held->image.slice, span);
}

// A name that ends before a zero byte of the slice.
static void check_ended(const struct held *held, struct kesvuot_span name) {
    if (!is_empty(name)) {
        CHECK(name.offset - held->image.slice.offset < held->image.slice.size - name.size);
        CHECK(bytes_at(held, name)[name.size] == 0);
        CHECK(memchr(bytes_at(held, name), 0, name.size) == NULL);
    }
}

// Checks that the span has the `size` bytes of the slice from `offset` on.
static void check_part(const struct held *held, struct kesvuot_span span, uint64_t offset, uint64_t size) {
    CHECK(span.size == size);
    CHECK(span.offset == (size == 0 ? 0 : held->image.slice.offset + offset));
}

// Tables

// The calls, each with rows of no type.
#define CALL(table)                                                                                                 \
    static size_t read_##table(const struct held *held, struct kesvuot_cursor *cursor, void *rows, size_t max) {    \
        return kesvuot_read_##table(OF(held), cursor, rows, max);                                                   \
    }
CALL(segments)
CALL(sections)
CALL(libraries)
CALL(builds)
CALL(commands)
CALL(symbols)
CALL(indirects)

struct table {
    size_t (*read)(const struct held *held, struct kesvuot_cursor *cursor, void *rows, size_t max);
    size_t row_size;
    // The offset of the number of rows in the image.
    size_t count_at;
};

enum { SEGMENTS, SECTIONS, LIBRARIES, BUILDS, COMMANDS, SYMBOLS, INDIRECTS, TABLE_COUNT };

static const struct table tables[TABLE_COUNT] = {
    {read_segments, sizeof(struct kesvuot_segment), offsetof(struct kesvuot_image, segment_count)},
    {read_sections, sizeof(struct kesvuot_section), offsetof(struct kesvuot_image, section_count)},
    {read_libraries, sizeof(struct kesvuot_library), offsetof(struct kesvuot_image, library_count)},
    {read_builds, sizeof(struct kesvuot_build), offsetof(struct kesvuot_image, build_count)},
    {read_commands, sizeof(struct kesvuot_command), offsetof(struct kesvuot_image, command_count)},
    {read_symbols, sizeof(struct kesvuot_symbol), offsetof(struct kesvuot_image, symbol_count)},
    {read_indirects, sizeof(uint32_t), offsetof(struct kesvuot_image, indirect_count)},
};

// How many relocations of a section are read, and how many functions, blobs, edges of a node and fixups at once; and how
// many batches of fixups.
enum { RELOCATIONS = 8, CODE_ROWS = 8, BLOBS = 8, EDGES = 3, FIXUPS = 16, BATCHES = 256 };

// All rows of a table, and two more, which no call writes.
struct rows {
    void *rows;
    size_t count;
};

#define UNWRITTEN 0xa5

static bool is_unwritten(const uint8_t *bytes, size_t size) {
    return bytes[0] == UNWRITTEN && memcmp(bytes, bytes + 1, size - 1) == 0;
}

// Reads up to `max` rows from the cursor on into a block of two more rows.
static struct rows read_rows(const struct table *table, const struct held *held, struct kesvuot_cursor *cursor,
                             size_t max) {
    size_t size = (max + 2) * table->row_size;
    uint8_t *rows = malloc(size);
    CHECK(rows != NULL);
    memset(rows, UNWRITTEN, size);
    size_t count = table->read(held, cursor, rows, max);
    CHECK(count <= max);
    CHECK(is_unwritten(rows + count * table->row_size, size - count * table->row_size));
    return (struct rows){rows, count};
}

// Batches of some rows are the same rows.
static void check_batches(const struct table *table, const struct held *held, const struct rows *all) {
    size_t each = all->count / 3 + 1;
    struct kesvuot_cursor cursor = {0};
    for (size_t first = 0; first <= all->count; first += each) {
        struct rows some = read_rows(table, held, &cursor, each);
        size_t rest = all->count - first;
        CHECK(some.count == (rest < each ? rest : each));
        CHECK(memcmp(some.rows, (uint8_t *)all->rows + first * table->row_size, some.count * table->row_size) == 0);
        free(some.rows);
    }
    CHECK(table->read(held, &cursor, all->rows, all->count) == 0);
    cursor = (struct kesvuot_cursor){UINT64_MAX, UINT64_MAX, UINT64_MAX, UINT64_MAX};
    CHECK(table->read(held, &cursor, all->rows, all->count) == 0);
    cursor = (struct kesvuot_cursor){0};
    CHECK(table->read(held, &cursor, NULL, 0) == 0);
}

// Reads a table of an image as kesvuot_read_image has written it. It has as many rows as it says; symbols and indirect
// entries may be fewer where the file is refused.
static struct rows read_table(unsigned number, const struct held *held, uint32_t accepted) {
    const struct table *table = &tables[number];
    struct kesvuot_cursor cursor = {0};
    uint64_t wanted;
    memcpy(&wanted, (const uint8_t *)&held->image + table->count_at, sizeof wanted);
    // In an image that was not judged, symbols and indirect entries may be said to be many more.
    size_t max = wanted <= held->file.size ? (size_t)wanted : held->file.size;
    struct rows all = read_rows(table, held, &cursor, max + 1);
    CHECK(all.count == wanted || (!accepted && number >= SYMBOLS && all.count < wanted));
    check_batches(table, held, &all);
    reach(TABLES + number, all.count);
    return all;
}

// The rows of an image

static void check_segments(const struct held *held, const struct rows *all, uint32_t accepted) {
    const struct kesvuot_segment *row = all->rows;
    uint64_t sections = 0;
    for (size_t k = 0; k < all->count; k++, row++) {
        check_inside(held, row->name);
        check_inside(held, row->bytes);
        CHECK(row->name.size <= 16);
        if (accepted) {
            check_part(held, row->bytes, row->fileoff, row->filesize);
            CHECK(row->last == (row->vmsize == 0 ? 0 : row->vmaddr + (row->vmsize - 1)));
            CHECK(row->first_section == sections);
            CHECK(row->vmsize == 0 || row->last >= row->vmaddr);
            CHECK(row->vmsize == 0 || row->filesize <= row->vmsize);
            sections += row->section_count;
        }
    }
    CHECK(!accepted || sections == held->image.section_count);
}

// An address of a segment that is mapped is at the byte which the segment has for it, or at none.
static void check_addresses(const struct held *held, const struct rows *all) {
    const struct kesvuot_segment *row = all->rows;
    for (size_t k = 0; k < all->count; k++, row++) {
        struct kesvuot_span bytes;
        if (row->vmsize == 0) {
            continue;
        }
        if (row->filesize > 0) {
            uint64_t last = row->filesize - 1;
            CHECK(kesvuot_find_address(OF(held), row->vmaddr + last, &bytes) == KESVUOT_OK);
            check_part(held, bytes, row->fileoff + last, 1);
        }
        if (row->filesize < row->vmsize) {
            CHECK(kesvuot_find_address(OF(held), row->vmaddr + row->filesize, &bytes) == KESVUOT_ZERO);
            CHECK(is_empty(bytes));
        }
    }
}

// Each nonzero byte is in exactly one segment, and no other byte is in two.
static void check_covered(const struct held *held, const struct rows *all) {
    const struct kesvuot_segment *row = all->rows;
    uint8_t *covered = calloc(held->image.slice.size, 1);
    CHECK(covered != NULL);
    for (size_t k = 0; k < all->count; k++, row++) {
        if (!is_empty(row->bytes)) {
            CHECK(memchr(covered + row->fileoff, 1, row->bytes.size) == NULL);
            memset(covered + row->fileoff, 1, row->bytes.size);
        }
    }
    for (size_t k = 0; k < held->image.slice.size; k++) {
        CHECK(covered[k] || bytes_at(held, held->image.slice)[k] == 0);
    }
    free(covered);
}

// Some relocations of a section, from an index on. The library reads none that end past the slice.
static void check_relocations(const struct held *held, uint32_t reloff, uint32_t nreloc, uint64_t first,
                              uint32_t accepted) {
    struct kesvuot_relocation rows[RELOCATIONS + 1];
    struct kesvuot_cursor cursor = {.items = first};
    const struct kesvuot_span slice = held->image.slice;
    memset(rows, UNWRITTEN, sizeof rows);
    size_t count = kesvuot_read_relocations(OF(held), reloff, nreloc, &cursor, rows, RELOCATIONS);
    uint64_t left = first < nreloc ? nreloc - first : 0;
    CHECK(count == (left < RELOCATIONS ? left : RELOCATIONS) || (!accepted && count == 0));
    CHECK(count == 0 || (reloff <= slice.size && (slice.size - reloff) / 8 >= nreloc));
    CHECK(is_unwritten((const uint8_t *)&rows[count], sizeof *rows));
    for (size_t k = 0; k < count; k++) {
        const struct kesvuot_relocation *row = &rows[k];
        uint32_t words[2];
        memcpy(words, held->file.bytes + slice.offset + reloff + 8 * (first + k), sizeof words);
        CHECK(row->address == words[0] && row->scattered == words[0] >> 31);
        CHECK(row->symbolnum == (words[1] & 0xffffff) && row->pcrel == (words[1] >> 24 & 1));
        CHECK(row->length == (words[1] >> 25 & 3) && row->external == (words[1] >> 27 & 1));
        CHECK(row->type == words[1] >> 28);
    }
}

// Some functions and some data in code, from a cursor on, in two batches.
static void check_code(const struct held *held, struct kesvuot_cursor cursor) {
    uint64_t starts[2 * CODE_ROWS + 1];
    struct kesvuot_data_in_code data[CODE_ROWS + 1];
    struct kesvuot_cursor next = cursor;
    memset(starts, UNWRITTEN, sizeof starts);
    memset(data, UNWRITTEN, sizeof data);
    size_t count = kesvuot_read_function_starts(OF(held), &next, starts, CODE_ROWS);
    const size_t more = kesvuot_read_function_starts(OF(held), &next, starts + count, CODE_ROWS);
    CHECK(count == CODE_ROWS || more == 0);
    count += more;
    CHECK(is_unwritten((const uint8_t *)&starts[count], sizeof *starts));
    for (size_t k = 1; k < count; k++) {
        CHECK(starts[k - 1] < starts[k]);
    }
    count = kesvuot_read_data_in_code(OF(held), &cursor, data, CODE_ROWS);
    CHECK(is_unwritten((const uint8_t *)&data[count], sizeof *data));
    for (size_t k = 0; k < count; k++) {
        check_inside(held, data[k].bytes);
        if (!is_empty(data[k].bytes)) {
            check_part(held, data[k].bytes, data[k].offset, data[k].length);
        }
    }
}

// Fixups

static void check_fixup(const struct kesvuot_fixup *row) {
    CHECK(row->kind == KESVUOT_REBASE || row->kind == KESVUOT_BIND);
    CHECK(row->kind == KESVUOT_BIND || (row->import == 0 && row->addend == 0));
    CHECK(row->kind == KESVUOT_REBASE || row->target == 0);
    CHECK(row->authenticated < 2 && row->address_diversity < 2 && row->key < 4);
    CHECK(row->authenticated || (row->diversity == 0 && row->address_diversity == 0 && row->key == 0));
}

// Some imports from a cursor on, and how many there are.
static size_t check_imports(const struct held *held, struct kesvuot_fixup_cursor *cursor) {
    struct kesvuot_import rows[FIXUPS + 1];
    memset(rows, UNWRITTEN, sizeof rows);
    const size_t count = kesvuot_read_imports(OF(held), cursor, rows, FIXUPS);
    CHECK(count <= FIXUPS && is_unwritten((const uint8_t *)&rows[count], sizeof *rows));
    for (size_t k = 0; k < count; k++) {
        check_inside(held, rows[k].name);
        CHECK(rows[k].weak < 2 && rows[k].reserved == 0);
    }
    return count;
}

// Some pointers that a loader writes, and some imports, from a cursor on, in two batches.
static void check_fixups(const struct held *held, struct kesvuot_fixup_cursor cursor) {
    struct kesvuot_fixup rows[2 * FIXUPS + 1];
    struct kesvuot_fixup_cursor next = cursor;
    memset(rows, UNWRITTEN, sizeof rows);
    size_t count = kesvuot_read_fixups(OF(held), &next, rows, FIXUPS);
    const size_t more = kesvuot_read_fixups(OF(held), &next, rows + count, FIXUPS);
    CHECK(count == FIXUPS || more == 0);
    count += more;
    CHECK(is_unwritten((const uint8_t *)&rows[count], sizeof *rows));
    for (size_t k = 0; k < count; k++) {
        check_fixup(&rows[k]);
    }
    const size_t imports = check_imports(held, &cursor);
    CHECK(check_imports(held, &cursor) == 0 || imports == FIXUPS);
}

// The first pointers are in the bytes of their segments, and if linked accepts the file, each bind has its import.
static void check_pointers(const struct held *held, const struct rows *all, uint32_t accepted) {
    const struct kesvuot_segment *segments = all->rows;
    struct kesvuot_fixup rows[FIXUPS];
    struct kesvuot_fixup_cursor cursor = {0}, next = {0};
    size_t imports = 0, count = FIXUPS;
    for (size_t batch = 0; batch < BATCHES && count == FIXUPS; batch++) {
        count = check_imports(held, &next);
        imports += count;
    }
    const bool has_all = count < FIXUPS;
    count = FIXUPS;
    for (size_t batch = 0; batch < BATCHES && count == FIXUPS; batch++) {
        count = kesvuot_read_fixups(OF(held), &cursor, rows, FIXUPS);
        for (size_t k = 0; k < count; k++) {
            CHECK(rows[k].segment < all->count);
            const struct kesvuot_segment *segment = &segments[rows[k].segment];
            CHECK(segment->bytes.size >= 8 && rows[k].offset <= segment->bytes.size - 8);
            CHECK(rows[k].address == segment->vmaddr + rows[k].offset);
            CHECK(accepted < KESVUOT_LINKED || !has_all || rows[k].kind == KESVUOT_REBASE || rows[k].import < imports);
        }
    }
}

// Code signatures (kern/cs_blobs.h), whose numbers are big-endian

static uint32_t big_at(const uint8_t *bytes) {
    return (uint32_t)bytes[0] << 24 | (uint32_t)bytes[1] << 16 | (uint32_t)bytes[2] << 8 | bytes[3];
}

// A name of a code directory ends in its blob.
static void check_signed_name(const struct held *held, struct kesvuot_span blob, struct kesvuot_span name) {
    check_within(blob, name);
    if (!is_empty(name)) {
        CHECK(name.offset + name.size < blob.offset + blob.size);
        CHECK(bytes_at(held, name)[name.size] == 0 && memchr(bytes_at(held, name), 0, name.size) == NULL);
    }
}

// Hashes are all in the blob, or none of them.
static void check_hashes(struct kesvuot_span blob, struct kesvuot_span hashes, uint64_t size) {
    check_within(blob, hashes);
    CHECK(hashes.size == size || is_empty(hashes));
}

// The bytes of a hash by its type, or 0 if the type is not known.
static uint32_t size_of_hash(uint32_t hash_type) {
    static const uint32_t sizes[] = {0, 20, 32, 20, 48};
    return hash_type < sizeof sizes / sizeof *sizes ? sizes[hash_type] : 0;
}

// Any bytes that are a code directory with hashes of a known type have a hash.
static void check_cdhash(const struct held *held, const struct kesvuot_blob *blob, uint32_t hash_type) {
    struct kesvuot_cdhash found;
    memset(&found, UNWRITTEN, sizeof found);
    const uint32_t status = kesvuot_read_cdhash(held->file.bytes, held->file.size, blob, &found);
    const uint32_t size = size_of_hash(hash_type);
    CHECK(status == (size > 0 ? KESVUOT_OK : KESVUOT_NONE) && found.size == size);
    CHECK(found.hash_type == (size > 0 ? hash_type : 0));
    for (size_t k = size; k < sizeof found.digest; k++) {
        CHECK(found.digest[k] == 0);
    }
}

// What any bytes say as a code directory.
static void check_directory(const struct held *held, const struct kesvuot_blob *blob) {
    struct kesvuot_code_directory found, none;
    const uint8_t *file = held->file.bytes;
    memset(&found, UNWRITTEN, sizeof found);
    memset(&none, 0, sizeof none);
    const uint32_t status = kesvuot_read_code_directory(file, held->file.size, blob, &found);
    check_cdhash(held, blob, found.hash_type);
    if (status != KESVUOT_OK) {
        CHECK(status == KESVUOT_NONE && memcmp(&found, &none, sizeof none) == 0);
        return;
    }
    const uint8_t *bytes = bytes_at(held, blob->bytes);
    CHECK(blob->bytes.size >= 44 && big_at(bytes) == KESVUOT_CSMAGIC_CODEDIRECTORY && found.version >= 0x20000);
    CHECK(big_at(bytes + 8) == found.version && big_at(bytes + 12) == found.flags);
    CHECK(big_at(bytes + 24) == found.special_slots && big_at(bytes + 28) == found.code_slots);
    CHECK(bytes[36] == found.hash_size && bytes[37] == found.hash_type && bytes[39] == found.page_size);
    check_signed_name(held, blob->bytes, found.identifier);
    check_signed_name(held, blob->bytes, found.team);
    check_hashes(blob->bytes, found.hashes, (uint64_t)found.code_slots * found.hash_size);
    check_hashes(blob->bytes, found.special_hashes, (uint64_t)found.special_slots * found.hash_size);
}

// Some blobs from a cursor on: each lies past the one before it.
static void check_blobs(const struct held *held, struct kesvuot_cursor cursor) {
    struct kesvuot_blob rows[BLOBS + 1];
    memset(rows, UNWRITTEN, sizeof rows);
    const size_t count = kesvuot_read_blobs(OF(held), &cursor, rows, BLOBS);
    CHECK(is_unwritten((const uint8_t *)&rows[count], sizeof *rows));
    for (size_t k = 0; k < count; k++) {
        const uint8_t *bytes = bytes_at(held, rows[k].bytes);
        check_inside(held, rows[k].bytes);
        CHECK(rows[k].bytes.size >= 8 && big_at(bytes) == rows[k].magic && big_at(bytes + 4) == rows[k].bytes.size);
        CHECK(k == 0 || rows[k - 1].bytes.offset + rows[k - 1].bytes.size <= rows[k].bytes.offset);
        check_directory(held, &rows[k]);
    }
}

// Exports, beside a plain reader of tries (mach-o/loader.h)

// Bytes of a trie, or of a name.
struct part {
    const uint8_t *at;
    size_t size;
};

struct edge {
    struct part label;
    uint64_t child;
};

struct node {
    struct part said; // of a name that ends at the node
    unsigned count;   // how many edges it has
    unsigned whole;   // how many are read: all before the first that does not end in the trie
    size_t edges_at;  // the offset of the first
    size_t size;      // up to the end of the last one that is read
    struct edge edges[255];
};

// Takes a number of ULEB128 from the front of the bytes.
static bool take_number(struct part *rest, uint64_t *number) {
    *number = 0;
    for (unsigned shift = 0; shift < 70 && rest->size > 0; shift += 7) {
        const uint8_t byte = *rest->at++;
        rest->size--;
        if (shift == 63 && (byte & 0x7e) != 0) {
            return false;
        }
        *number |= (uint64_t)(byte & 0x7f) << shift;
        if (byte < 0x80) {
            return true;
        }
    }
    return false;
}

// Takes a string, and the zero byte that ends it.
static bool take_string(struct part *rest, struct part *string) {
    const uint8_t *end = rest->size > 0 ? memchr(rest->at, 0, rest->size) : NULL;
    if (end == NULL) {
        return false;
    }
    *string = (struct part){rest->at, (size_t)(end - rest->at)};
    rest->at += string->size + 1;
    rest->size -= string->size + 1;
    return true;
}

// Takes an edge from the front of the bytes.
static bool take_edge(struct part *rest, struct edge *edge) {
    return take_string(rest, &edge->label) && take_number(rest, &edge->child);
}

// The node at an offset, if its edges begin in the trie.
static bool read_node(struct part trie, uint64_t offset, struct node *node) {
    uint64_t size;
    if (offset >= trie.size) {
        return false;
    }
    struct part rest = {trie.at + offset, trie.size - (size_t)offset};
    if (!take_number(&rest, &size) || size >= rest.size) {
        return false;
    }
    node->said = (struct part){rest.at, (size_t)size};
    node->count = rest.at[size];
    rest = (struct part){rest.at + size + 1, rest.size - (size_t)size - 1};
    node->edges_at = trie.size - rest.size;
    node->size = node->edges_at - (size_t)offset;
    for (node->whole = 0; node->whole < node->count && take_edge(&rest, &node->edges[node->whole]); node->whole++) {
        node->size = trie.size - (size_t)offset - rest.size;
    }
    return true;
}

// The node at an offset, if all of it lies in the trie.
static bool read_whole(struct part trie, uint64_t offset, struct node *node) {
    return read_node(trie, offset, node) && node->whole == node->count;
}

static bool begins(struct part name, struct part label) {
    return label.size <= name.size && memcmp(name.at, label.at, label.size) == 0;
}

// What the trie says of a name. The visited nodes have no more bytes together than the trie.
static bool find_said(struct part trie, struct part name, struct part *said) {
    struct node node;
    uint64_t place = 0;
    size_t left = trie.size;
    while (read_whole(trie, place, &node) && node.size <= left) {
        unsigned k = 0;
        left -= node.size;
        if (name.size == 0 && node.said.size > 0) {
            *said = node.said;
            return true;
        }
        while (k < node.count && !begins(name, node.edges[k].label)) {
            k++;
        }
        if (k == node.count) {
            return false;
        }
        name.at += node.edges[k].label.size;
        name.size -= node.edges[k].label.size;
        place = node.edges[k].child;
    }
    return false;
}

// Where the part lies in the file.
static struct kesvuot_span span_of(const struct held *held, struct part part) {
    return (struct kesvuot_span){part.size == 0 ? 0 : (uint64_t)(part.at - held->file.bytes), part.size};
}

static bool is_span(struct kesvuot_span one, struct kesvuot_span other) {
    return one.offset == other.offset && one.size == other.size;
}

// The export that `said` describes, as the library has to write it.
static bool read_said(const struct held *held, struct part said, struct kesvuot_export *wanted) {
    const uint64_t base = held->image.base;
    struct part name;
    uint64_t number;
    *wanted = (struct kesvuot_export){.flags = 0};
    if (!take_number(&said, &wanted->flags) || !take_number(&said, &number)) {
        return false;
    }
    if ((wanted->flags & KESVUOT_EXPORT_SYMBOL_FLAGS_REEXPORT) != 0) {
        wanted->ordinal = number;
        if (!take_string(&said, &name)) {
            return false;
        }
        wanted->name = span_of(held, name);
        return true;
    }
    const uint64_t kind = wanted->flags & KESVUOT_EXPORT_SYMBOL_FLAGS_KIND_MASK;
    wanted->address = kind == KESVUOT_EXPORT_SYMBOL_FLAGS_KIND_ABSOLUTE ? number : base + number;
    if ((wanted->flags & KESVUOT_EXPORT_SYMBOL_FLAGS_STUB_AND_RESOLVER) != 0) {
        if (!take_number(&said, &number)) {
            return false;
        }
        wanted->resolver = base + number;
    }
    return true;
}

// Looks up a name in any image.
static uint32_t check_export(const struct held *held, struct part name, struct kesvuot_export *found) {
    memset(found, UNWRITTEN, sizeof *found);
    const uint32_t status = kesvuot_find_export(OF(held), name.at, name.size, found);
    const bool is_re_export = (found->flags & KESVUOT_EXPORT_SYMBOL_FLAGS_REEXPORT) != 0;
    const struct kesvuot_export none = {.flags = 0};
    CHECK(status == KESVUOT_OK || (status == KESVUOT_NONE && memcmp(found, &none, sizeof none) == 0));
    CHECK(found->reserved == 0);
    CHECK(is_re_export ? found->address == 0 && found->resolver == 0 : found->ordinal == 0 && is_empty(found->name));
    check_inside(held, found->name);
    check_ended(held, found->name);
    reach(EXPORT, status);
    return status;
}

// Looks up a name in an image that was accepted, whose trie this is.
static void check_known_export(const struct held *held, struct part trie, struct part name) {
    struct kesvuot_export found, wanted;
    struct part said;
    const bool is_found = find_said(trie, name, &said) && read_said(held, said, &wanted);
    CHECK((check_export(held, name, &found) == KESVUOT_OK) == is_found);
    CHECK(!is_found || memcmp(&found, &wanted, sizeof found) == 0);
}

// A batch of edges: the next ones of the node, after those that are done. It returns how many they are.
static unsigned check_edges(const struct held *held, struct kesvuot_span trie, const struct node *node,
                            struct kesvuot_cursor *cursor, unsigned done) {
    struct kesvuot_export_edge rows[EDGES + 1];
    memset(rows, UNWRITTEN, sizeof rows);
    const size_t count = kesvuot_read_export_edges(held->file.bytes, held->file.size, &trie, cursor, rows, EDGES);
    CHECK(count == (node->whole - done < EDGES ? node->whole - done : EDGES));
    CHECK(is_unwritten((const uint8_t *)&rows[count], (EDGES + 1 - count) * sizeof *rows));
    CHECK(cursor->items == node->count - done - count);
    for (size_t k = 0; k < count; k++) {
        const struct edge *edge = &node->edges[done + k];
        CHECK(is_span(rows[k].label, span_of(held, edge->label)) && rows[k].child == edge->child);
    }
    return (unsigned)count;
}

// The bytes of a span, or no bytes if it does not lie in the file.
static struct part part_of(const struct held *held, struct kesvuot_span span) {
    const bool is_inside = span.offset <= held->file.size && span.size <= held->file.size - span.offset;
    return is_inside ? (struct part){bytes_at(held, span), (size_t)span.size} : (struct part){held->file.bytes, 0};
}

// The node at an offset, and its edges in batches, where these are any numbers.
static void check_node(const struct held *held, struct kesvuot_span trie, uint64_t offset) {
    const struct kesvuot_export_node none = {.has_export = 0};
    struct kesvuot_export_node found;
    struct kesvuot_export wanted;
    struct node node;
    memset(&found, UNWRITTEN, sizeof found);
    const uint32_t status = kesvuot_read_export_node(OF(held), &trie, offset, &found);
    if (!read_node(part_of(held, trie), offset, &node)) {
        CHECK(status == KESVUOT_NONE && memcmp(&found, &none, sizeof none) == 0);
        return;
    }
    const bool has_export = read_said(held, node.said, &wanted);
    CHECK(status == KESVUOT_OK && found.has_export == has_export && found.reserved == 0);
    CHECK(memcmp(&found.exported, has_export ? &wanted : &none.exported, sizeof wanted) == 0);
    CHECK(is_span(found.terminal, span_of(held, node.said)));
    CHECK(found.edges.place == node.edges_at && found.edges.items == node.count);
    CHECK(found.edges.commands == 0 && found.edges.segment == 0);
    unsigned done = 0, count = EDGES;
    while (count == EDGES) {
        count = check_edges(held, trie, &node, &found.edges, done);
        done += count;
    }
    CHECK(done == node.whole && found.edges.place == offset + node.size);
}

// The edges from any cursor on.
static void check_any_edges(const struct held *held, struct kesvuot_span trie, struct kesvuot_cursor cursor) {
    struct kesvuot_export_edge rows[EDGES + 1];
    memset(rows, UNWRITTEN, sizeof rows);
    const size_t count = kesvuot_read_export_edges(held->file.bytes, held->file.size, &trie, &cursor, rows, EDGES);
    CHECK(count <= EDGES && is_unwritten((const uint8_t *)&rows[count], (EDGES + 1 - count) * sizeof *rows));
    for (size_t k = 0; k < count; k++) {
        check_within(trie, rows[k].label);
    }
}

// The export trie of any image: at least one byte, all in the slice, or an empty span without a trie.
static struct kesvuot_span find_trie(const struct held *held) {
    struct kesvuot_span trie = {1, 1};
    const uint32_t status = kesvuot_find_export_trie(OF(held), &trie);
    CHECK(status == (is_empty(trie) ? KESVUOT_NONE : KESVUOT_OK));
    check_inside(held, trie);
    return trie;
}

// The first command with this cmd, or null.
static const struct kesvuot_command *first_command(const struct rows *commands, uint32_t cmd) {
    const struct kesvuot_command *row = commands->rows;
    for (size_t k = 0; k < commands->count; k++, row++) {
        if (row->cmd == cmd) {
            return row;
        }
    }
    return NULL;
}

// The bytes of the slice that two fields bound, of a command or of none: an offset, and then a size.
static struct kesvuot_span bounded_bytes(const struct held *held, const struct kesvuot_command *row, size_t at) {
    uint32_t fields[2] = {0, 0};
    if (row != NULL) {
        memcpy(fields, bytes_at(held, row->bytes) + at, sizeof fields);
    }
    return (struct kesvuot_span){fields[1] == 0 ? 0 : held->image.slice.offset + fields[0], fields[1]};
}

// The export trie of an image that was accepted, by its commands.
static struct kesvuot_span trie_of(const struct held *held, const struct rows *commands) {
    const struct kesvuot_command *info = first_command(commands, LC_DYLD_INFO_ONLY);
    struct kesvuot_span trie = bounded_bytes(held, first_command(commands, LC_DYLD_EXPORTS_TRIE), 8);
    if (info == NULL) {
        info = first_command(commands, LC_DYLD_INFO);
    }
    return is_empty(trie) ? bounded_bytes(held, info, 40) : trie;
}

// The names and nodes on a way through the trie of an image that was accepted, and each name with one byte more.
static void check_exports(const struct held *held, const struct rows *commands) {
    struct node node;
    uint8_t name[128];
    size_t size = 0;
    uint64_t place = 0;
    const struct kesvuot_span span = find_trie(held);
    CHECK(is_span(span, trie_of(held, commands)));
    const struct part trie = {bytes_at(held, span), (size_t)span.size};
    for (unsigned step = 0; step < 20; step++) {
        name[size] = '_';
        check_known_export(held, trie, (struct part){name, size});
        check_known_export(held, trie, (struct part){name, size + 1});
        check_node(held, span, place);
        if (!read_whole(trie, place, &node) || node.count == 0) {
            return;
        }
        const struct edge *edge = &node.edges[(trie.size + step) % node.count];
        if (size + edge->label.size >= sizeof name) {
            return;
        }
        memcpy(name + size, edge->label.at, edge->label.size);
        size += edge->label.size;
        place = edge->child;
    }
}

static void check_sections(const struct held *held, const struct rows *all, uint32_t accepted) {
    const struct kesvuot_section *row = all->rows;
    for (size_t k = 0; k < all->count; k++, row++) {
        check_inside(held, row->name);
        check_inside(held, row->segment);
        check_inside(held, row->bytes);
        CHECK(row->name.size <= 16 && row->segment.size <= 16);
        CHECK(row->zero_fill <= 1);
        CHECK(!row->zero_fill || is_empty(row->bytes));
        if (accepted && !row->zero_fill) {
            check_part(held, row->bytes, row->offset, row->size);
        }
        check_relocations(held, row->reloff, row->nreloc, 0, accepted);
    }
}

// In a mapped segment each section of bytes is at its address.
static void check_section_addresses(const struct held *held, const struct rows *segments,
                                    const struct rows *sections) {
    const struct kesvuot_segment *segment = segments->rows;
    for (size_t k = 0; k < segments->count; k++, segment++) {
        const struct kesvuot_section *section = (const struct kesvuot_section *)sections->rows + segment->first_section;
        for (uint32_t n = 0; segment->vmsize > 0 && n < segment->section_count; n++, section++) {
            struct kesvuot_span bytes;
            CHECK(section->segment.size == segment->name.size && section->segment.offset == segment->name.offset);
            if (!is_empty(section->bytes)) {
                CHECK(kesvuot_find_address(OF(held), section->addr, &bytes) == KESVUOT_OK);
                CHECK(bytes.offset == section->bytes.offset && bytes.size >= section->bytes.size);
            }
        }
    }
}

static void check_libraries(const struct held *held, const struct rows *all) {
    const struct kesvuot_library *row = all->rows;
    for (size_t k = 0; k < all->count; k++, row++) {
        check_inside(held, row->name);
        check_ended(held, row->name);
        CHECK(row->reserved == 0);
    }
}

static void check_builds(const struct rows *all) {
    const struct kesvuot_build *row = all->rows;
    for (size_t k = 0; k < all->count; k++, row++) {
        bool is_least = row->cmd == 0x24 || row->cmd == 0x25 || row->cmd == 0x2f || row->cmd == 0x30;
        CHECK(row->cmd == LC_BUILD_VERSION || (is_least && row->platform >= 1 && row->platform <= 4));
    }
}

#define AS_LISTED(cmd, structure, name, first_table, table_count) {cmd, #structure},

static const struct listed {
    uint32_t cmd;
    const char *structure;
} listed_commands[] = {LISTED_COMMANDS(AS_LISTED)};

enum { LISTED_COUNT = sizeof listed_commands / sizeof listed_commands[0] };

static uint32_t check_data(const struct held *held, uint32_t cmd, struct kesvuot_span *data) {
    *data = (struct kesvuot_span){1, 1};
    uint32_t status = kesvuot_find_data(OF(held), cmd, data);
    CHECK(status == KESVUOT_OK || (status == KESVUOT_NONE && is_empty(*data)));
    check_inside(held, *data);
    reach(DATA, status);
    return status;
}

// The data of an image that is accepted is what its first linkedit_data_command of each kind names.
static void check_all_data(const struct held *held, const struct rows *commands) {
    struct kesvuot_span data;
    for (size_t k = 0; k < LISTED_COUNT; k++) {
        const struct listed *listed = &listed_commands[k];
        const struct kesvuot_command *row = first_command(commands, listed->cmd);
        const bool names_data = row != NULL && strcmp(listed->structure, "linkedit_data_command") == 0;
        CHECK((check_data(held, listed->cmd, &data) == KESVUOT_OK) == names_data);
        CHECK(!names_data || is_span(data, bounded_bytes(held, row, 8)));
    }
}

// The tables by their numbers: the structure of the command that bounds each, where the fields lie in it, and the size
// of an item.
static const struct bounded {
    const char *structure;
    size_t at;
    uint64_t item_size;
} bounded_tables[KESVUOT_TABLE_ENCRYPTED + 1] = {
    [KESVUOT_TABLE_SYMBOLS] = {"symtab_command", 8, 16},
    [KESVUOT_TABLE_STRINGS] = {"symtab_command", 16, 1},
    [KESVUOT_TABLE_CONTENTS] = {"dysymtab_command", 32, 8},
    [KESVUOT_TABLE_MODULES] = {"dysymtab_command", 40, 56},
    [KESVUOT_TABLE_REFERENCES] = {"dysymtab_command", 48, 4},
    [KESVUOT_TABLE_INDIRECTS] = {"dysymtab_command", 56, 4},
    [KESVUOT_TABLE_EXTERNAL_RELOCATIONS] = {"dysymtab_command", 64, 8},
    [KESVUOT_TABLE_LOCAL_RELOCATIONS] = {"dysymtab_command", 72, 8},
    [KESVUOT_TABLE_REBASE] = {"dyld_info_command", 8, 1},
    [KESVUOT_TABLE_BIND] = {"dyld_info_command", 16, 1},
    [KESVUOT_TABLE_WEAK_BIND] = {"dyld_info_command", 24, 1},
    [KESVUOT_TABLE_LAZY_BIND] = {"dyld_info_command", 32, 1},
    [KESVUOT_TABLE_EXPORT] = {"dyld_info_command", 40, 1},
    [KESVUOT_TABLE_ENCRYPTED] = {"encryption_info_command_64", 8, 1},
};

static uint32_t check_bounded(const struct held *held, uint32_t table, struct kesvuot_span *bytes) {
    *bytes = (struct kesvuot_span){1, 1};
    uint32_t status = kesvuot_find_table(OF(held), table, bytes);
    CHECK(status == KESVUOT_OK || (status == KESVUOT_NONE && is_empty(*bytes)));
    CHECK(status == KESVUOT_NONE || (table >= KESVUOT_TABLE_SYMBOLS && table <= KESVUOT_TABLE_ENCRYPTED));
    check_inside(held, *bytes);
    reach(BOUNDED, status);
    return status;
}

// The structure of the commands with this cmd, or null if they are not listed.
static const char *structure_of(uint32_t cmd) {
    for (size_t k = 0; k < LISTED_COUNT; k++) {
        if (listed_commands[k].cmd == cmd) {
            return listed_commands[k].structure;
        }
    }
    return NULL;
}

// The first command of a structure, or null.
static const struct kesvuot_command *first_with(const struct rows *commands, const char *structure) {
    const struct kesvuot_command *row = commands->rows;
    for (size_t k = 0; k < commands->count; k++, row++) {
        const char *other = structure_of(row->cmd);
        if (other != NULL && strcmp(other, structure) == 0) {
            return row;
        }
    }
    return NULL;
}

// The tables of an image that is accepted are those that its first commands bound.
static void check_all_bounded(const struct held *held, const struct rows *commands) {
    for (uint32_t table = KESVUOT_TABLE_SYMBOLS; table <= KESVUOT_TABLE_ENCRYPTED; table++) {
        const struct bounded *bounded = &bounded_tables[table];
        const struct kesvuot_command *row = first_with(commands, bounded->structure);
        struct kesvuot_span bytes;
        CHECK((check_bounded(held, table, &bytes) == KESVUOT_OK) == (row != NULL));
        if (row != NULL) {
            uint32_t fields[2];
            memcpy(fields, bytes_at(held, row->bytes) + bounded->at, sizeof fields);
            check_part(held, bytes, fields[0], bounded->item_size * fields[1]);
        }
    }
}

// The version of the sources is in the first LC_SOURCE_VERSION that is long enough.
static void check_source_version(const struct held *held, const struct rows *commands) {
    const struct kesvuot_command *row = commands->rows, *end = row + commands->count;
    uint64_t version = 1, wanted = 0;
    while (row < end && (row->cmd != 0x2a || row->bytes.size < 16)) {
        row++;
    }
    if (row < end) {
        memcpy(&wanted, bytes_at(held, row->bytes) + 8, sizeof wanted);
    }
    CHECK(kesvuot_find_source_version(OF(held), &version) == (row < end ? KESVUOT_OK : KESVUOT_NONE));
    CHECK(version == wanted);
}

// A thread begins at a byte of the file, and only an image with an LC_THREAD or LC_UNIXTHREAD has one.
static void check_thread(const struct held *held, const struct rows *commands) {
    const struct kesvuot_command *row = commands->rows, *end = row + commands->count;
    struct kesvuot_span bytes;
    uint64_t entry = 1;
    while (row < end && row->cmd != 0x4 && row->cmd != 0x5) {
        row++;
    }
    if (kesvuot_find_thread_entry(OF(held), &entry) == KESVUOT_OK) {
        CHECK(row < end && kesvuot_find_address(OF(held), entry, &bytes) == KESVUOT_OK);
    } else {
        CHECK(entry == 0);
    }
}

// The commands lie one after the other.
static void check_commands(const struct held *held, const struct rows *all) {
    const struct kesvuot_command *row = all->rows;
    uint64_t place = 32;
    for (size_t k = 0; k < all->count; k++, row++) {
        check_inside(held, row->bytes);
        check_inside(held, row->name);
        check_ended(held, row->name);
        check_part(held, row->bytes, place, row->bytes.size);
        CHECK(row->bytes.size >= 8 && row->bytes.size % 8 == 0);
        CHECK(row->reserved == 0);
        place += row->bytes.size;
    }
}

// How many names are looked up, of the symbols of one image.
enum { BATCH_OF_NAMES = 99 };

// The name at this place in the strings.
static uint32_t check_name(const struct held *held, uint32_t strx) {
    struct kesvuot_span name = {1, 1};
    uint32_t status = kesvuot_symbol_name(OF(held), strx, &name);
    CHECK(status == KESVUOT_OK || (status == KESVUOT_NONE && is_empty(name)));
    CHECK(status == KESVUOT_NONE || strx != 0);
    check_inside(held, name);
    check_ended(held, name);
    CHECK(is_empty(name) || name.offset == held->image.slice.offset + held->image.strings + strx);
    reach(NAME, status);
    return status;
}

// A batch has the names that single calls give.
static void check_names(const struct held *held, const struct kesvuot_symbol *rows, size_t count) {
    struct kesvuot_span names[BATCH_OF_NAMES], name;
    CHECK(kesvuot_read_names(OF(held), rows, count, names, BATCH_OF_NAMES) == count);
    for (size_t k = 0; k < count; k++) {
        kesvuot_symbol_name(OF(held), rows[k].strx, &name);
        CHECK(memcmp(&names[k], &name, sizeof name) == 0);
    }
}

static void check_symbols(const struct held *held, const struct rows *all, uint32_t accepted) {
    const struct kesvuot_symbol *row = all->rows;
    check_names(held, row, all->count < BATCH_OF_NAMES ? all->count : BATCH_OF_NAMES);
    for (size_t k = 0; k < all->count; k++, row++) {
        bool has_section = row->sect > 0 && row->sect <= held->image.section_count;
        CHECK(row->section == (has_section ? row->sect - 1u : KESVUOT_NO_SECTION));
        CHECK(row->reserved == 0);
        // If many symbols share a long string, this would read it once for each.
        if (k < BATCH_OF_NAMES) {
            uint32_t status = check_name(held, row->strx);
            CHECK(!accepted || (status == KESVUOT_OK) == (row->strx != 0));
        }
        if (accepted && row->strx != 0) {
            CHECK(row->strx < held->image.strings_size);
        }
        if (accepted && (row->type & N_STAB) == 0 && (row->type & N_TYPE) == N_SECT) {
            CHECK(has_section);
        }
    }
}

// Whether an index has this entry at a position, and its symbol begins at or before the address.
static bool begins_by(const struct kesvuot_symbol *rows, size_t count, uint32_t entry, uint64_t address) {
    return entry < count && rows[entry].value <= address;
}

// Looks for an address by an index of any numbers. The rows are all symbols.
static void check_found(const struct held *held, const struct rows *all, const uint32_t *index, size_t count,
                        uint64_t address) {
    const struct kesvuot_symbol *rows = all->rows;
    struct kesvuot_symbol symbol;
    size_t at = 1;
    if (kesvuot_find_symbol(OF(held), index, count, address, &symbol, &at) == KESVUOT_OK) {
        CHECK(at < count && begins_by(rows, all->count, index[at], address));
        CHECK(memcmp(&symbol, &rows[index[at]], sizeof symbol) == 0);
        CHECK(at + 1 == count || !begins_by(rows, all->count, index[at + 1], address));
    } else {
        CHECK(at == 0 && symbol.value == 0 && symbol.section == KESVUOT_NO_SECTION);
        CHECK(count == 0 || !begins_by(rows, all->count, index[0], address));
    }
}

// The index has the symbols of sections, by ascending values, and of one value by ascending indices.
static void check_index(const struct held *held, const struct rows *all) {
    const struct kesvuot_symbol *rows = all->rows;
    uint32_t *index = calloc(all->count + 1, sizeof *index);
    CHECK(index != NULL);
    size_t wanted = 0, count = kesvuot_index_symbols(OF(held), index, all->count);
    for (size_t k = 0; k < all->count; k++) {
        wanted += (rows[k].type & N_STAB) == 0 && (rows[k].type & N_TYPE) == N_SECT;
    }
    CHECK(count == wanted);
    for (size_t k = 0; k < count; k++) {
        CHECK(index[k] < all->count);
        const struct kesvuot_symbol *row = &rows[index[k]], *last = &rows[index[k > 0 ? k - 1 : 0]];
        CHECK((row->type & N_STAB) == 0 && (row->type & N_TYPE) == N_SECT);
        CHECK(k == 0 || last->value < row->value || (last->value == row->value && index[k - 1] < index[k]));
        if (k < 9) {
            check_found(held, all, index, count, row->value);
            check_found(held, all, index, count, row->value - 1);
        }
    }
    check_found(held, all, index, count, UINT64_MAX);
    free(index);
}

// The first symbol with the name of one of them, by all rows.
static void check_named(const struct held *held, const struct rows *all, size_t number) {
    const struct kesvuot_symbol *rows = all->rows;
    struct kesvuot_symbol symbol;
    struct kesvuot_span name, other;
    uint64_t first = 0, found = 1;
    if (kesvuot_symbol_name(OF(held), rows[number].strx, &name) != KESVUOT_OK) {
        return;
    }
    const uint8_t *bytes = bytes_at(held, name);
    // As in check_symbols.
    for (; first < all->count && first < 99; first++) {
        if ((rows[first].type & N_STAB) == 0 &&
            kesvuot_symbol_name(OF(held), rows[first].strx, &other) == KESVUOT_OK && other.size == name.size &&
            memcmp(bytes_at(held, other), bytes, name.size) == 0) {
            break;
        }
    }
    if (first == 99 && first < all->count) {
        return;
    }
    uint32_t status = kesvuot_find_name(OF(held), bytes, name.size, &symbol, &found);
    CHECK((status == KESVUOT_OK) == (first < all->count));
    CHECK(found == (status == KESVUOT_OK ? first : 0));
    CHECK(status == KESVUOT_NONE || memcmp(&symbol, &rows[found], sizeof symbol) == 0);
    // A zero byte is in no name.
    CHECK(is_empty(name) || kesvuot_find_name(OF(held), bytes, name.size + 1, &symbol, &found) == KESVUOT_NONE);
}

static void check_indirects(const struct held *held, const struct rows *all, uint32_t accepted) {
    const uint32_t *row = all->rows;
    for (size_t k = 0; k < all->count; k++, row++) {
        CHECK(!accepted || (*row & INDIRECT_SYMBOL_LOCAL_OR_ABS) != 0 || *row < held->image.symbol_count);
    }
}

static void check_tables(const struct held *held, uint32_t accepted) {
    struct rows all[TABLE_COUNT];
    for (unsigned k = 0; k < TABLE_COUNT; k++) {
        all[k] = read_table(k, held, accepted);
    }
    check_segments(held, &all[SEGMENTS], accepted);
    check_sections(held, &all[SECTIONS], accepted);
    check_libraries(held, &all[LIBRARIES]);
    check_builds(&all[BUILDS]);
    check_commands(held, &all[COMMANDS]);
    check_source_version(held, &all[COMMANDS]);
    check_symbols(held, &all[SYMBOLS], accepted);
    check_index(held, &all[SYMBOLS]);
    for (size_t k = 0; k < 9 && k < all[SYMBOLS].count; k++) {
        check_named(held, &all[SYMBOLS], k);
    }
    check_indirects(held, &all[INDIRECTS], accepted);
    check_pointers(held, &all[SEGMENTS], accepted);
    if (accepted) {
        check_addresses(held, &all[SEGMENTS]);
        check_section_addresses(held, &all[SEGMENTS], &all[SECTIONS]);
        check_all_data(held, &all[COMMANDS]);
        check_all_bounded(held, &all[COMMANDS]);
        check_thread(held, &all[COMMANDS]);
        check_exports(held, &all[COMMANDS]);
    }
    if (accepted >= KESVUOT_STRICT) {
        check_covered(held, &all[SEGMENTS]);
    }
    for (unsigned k = 0; k < TABLE_COUNT; k++) {
        free(all[k].rows);
    }
}

// An image with any numbers: the calls return only bytes of the slice.

static void check_address(const struct held *held, uint64_t address) {
    struct kesvuot_span bytes = {1, 1};
    uint32_t status = kesvuot_find_address(OF(held), address, &bytes);
    CHECK(status == KESVUOT_OK || ((status == KESVUOT_ZERO || status == KESVUOT_NONE) && is_empty(bytes)));
    check_inside(held, bytes);
    reach(ADDRESS, status);
}

// An index of any numbers, and a name of bytes of the file, of a symbol and of an export.
static void check_any_symbol(const struct held *held, struct kesvuot_cursor cursor) {
    const uint32_t index[] = {(uint32_t)cursor.items, (uint32_t)cursor.place, 0, (uint32_t)cursor.commands};
    struct kesvuot_symbol symbol;
    uint64_t number;
    size_t at;
    uint32_t status = kesvuot_find_symbol(OF(held), index, 4, cursor.segment, &symbol, &at);
    CHECK(status == KESVUOT_OK ? at < 4 && symbol.value <= cursor.segment : status == KESVUOT_NONE && at == 0);
    CHECK(kesvuot_index_symbols(OF(held), NULL, 0) <= held->file.size);
    const size_t size = held->file.size < 3 ? held->file.size : 3;
    status = kesvuot_find_name(OF(held), held->file.bytes + (held->file.size - size) / 2, size, &symbol, &number);
    CHECK(status == KESVUOT_OK ? symbol.strx > 0 : status == KESVUOT_NONE && number == 0);
    struct kesvuot_export found;
    check_export(held, (struct part){held->file.bytes + (held->file.size - size) / 2, size}, &found);
    check_export(held, (struct part){NULL, 0}, &found);
}

// Nodes and edges of any bytes.
static void check_any_nodes(const struct held *held, struct kesvuot_span trie, struct kesvuot_cursor cursor) {
    check_node(held, trie, cursor.segment);
    check_node(held, trie, cursor.items);
    check_any_edges(held, trie, cursor);
}

// A cursor of fixups with the numbers of another one.
static struct kesvuot_fixup_cursor any_fixup_cursor(struct kesvuot_cursor cursor) {
    return (struct kesvuot_fixup_cursor){
        .stream = cursor.items,
        .place = cursor.place,
        .commands = cursor.commands,
        .segment = cursor.segment,
        .offset = cursor.place,
        .page = cursor.items,
        .left = cursor.segment,
        .skip = cursor.place,
        .name = cursor.place,
        .name_size = cursor.items,
        .import = cursor.items,
        .has_segment = 1,
        .has_name = 1,
    };
}

static void check_any(const struct held *held, struct kesvuot_cursor cursor, size_t max) {
    struct kesvuot_span data;
    for (unsigned k = 0; k < TABLE_COUNT; k++) {
        struct kesvuot_cursor next = cursor;
        struct rows some = read_rows(&tables[k], held, &next, max);
        switch (k) {
        case SEGMENTS:
            check_segments(held, &some, REFUSED);
            break;
        case SECTIONS:
            check_sections(held, &some, REFUSED);
            break;
        case LIBRARIES:
            check_libraries(held, &some);
            break;
        case SYMBOLS:
            check_symbols(held, &some, REFUSED);
            break;
        default:
            break;
        }
        free(some.rows);
        // A caller may pass the cursor again as the call left it.
        free(read_rows(&tables[k], held, &next, max).rows);
    }
    check_name(held, (uint32_t)cursor.items);
    check_address(held, cursor.items);
    check_address(held, held->image.base);
    check_data(held, LC_CODE_SIGNATURE, &data);
    check_data(held, (uint32_t)cursor.items, &data);
    check_bounded(held, (uint32_t)cursor.items, &data);
    check_bounded(held, 1 + (uint32_t)cursor.place % KESVUOT_TABLE_ENCRYPTED, &data);
    check_relocations(held, (uint32_t)cursor.place, (uint32_t)cursor.segment, cursor.items, REFUSED);
    check_code(held, cursor);
    check_code(held, (struct kesvuot_cursor){0});
    check_fixups(held, any_fixup_cursor(cursor));
    check_fixups(held, (struct kesvuot_fixup_cursor){0});
    check_blobs(held, cursor);
    check_blobs(held, (struct kesvuot_cursor){0});
    const struct kesvuot_span span = {cursor.place, cursor.items};
    check_directory(held, &(struct kesvuot_blob){span, 0, 0});
    check_any_nodes(held, span, cursor);
    check_any_nodes(held, held->image.slice, cursor);
    check_any_nodes(held, find_trie(held), cursor);
    uint64_t version;
    uint32_t status = kesvuot_find_source_version(OF(held), &version);
    CHECK(status == KESVUOT_OK || (status == KESVUOT_NONE && version == 0));
    uint64_t entry;
    status = kesvuot_find_thread_entry(OF(held), &entry);
    CHECK(status == KESVUOT_OK || (status == KESVUOT_NONE && entry == 0));
    check_any_symbol(held, cursor);
}

// The numbers of an image and of a cursor are set to bytes of the file, all or some.
static void check_lies(const struct held *held) {
    const struct file file = held->file;
    struct held lie = *held;
    struct kesvuot_cursor cursor = {0};
    const size_t each = sizeof(uint64_t);
    for (size_t k = 0; k + each <= sizeof lie.image; k += 2 * each) {
        const uint8_t *some = file.bytes + (k * 7919 + file.size) % (file.size - file.size / 2);
        memcpy((uint8_t *)&lie.image + k, some, file.size < 16 ? 0 : each);
        memcpy((uint8_t *)&cursor + k % sizeof cursor, some, file.size < 16 ? 0 : each);
        check_any(&lie, cursor, 5);
        check_any(held, cursor, 5);
        cursor.place %= file.size + 9;
        cursor.commands %= held->image.command_count + 2;
        cursor.segment %= file.size + 9;
        cursor.items %= 9;
        check_any(&lie, cursor, 5);
        check_any(held, cursor, 5);
    }
    // The image of another file: of the first half of this one.
    lie = *held;
    lie.file.size /= 2;
    check_any(&lie, (struct kesvuot_cursor){0}, 5);
    memset(&lie.image, 0xff, sizeof lie.image);
    check_any(&lie, (struct kesvuot_cursor){0}, 3);
    memset(&lie.image, 0, sizeof lie.image);
    check_any(&lie, (struct kesvuot_cursor){0}, 3);
}

// Files

static void check_image(const struct held *held, uint32_t accepted) {
    struct kesvuot_span bytes;
    check_tables(held, accepted);
    check_inside(held, held->image.id.name);
    check_ended(held, held->image.id.name);
    CHECK(held->image.capabilities < 256);
    if ((held->image.has & KESVUOT_HAS_ENTRY) != 0 && accepted) {
        CHECK(kesvuot_find_address(OF(held), held->image.entry, &bytes) == KESVUOT_OK && !is_empty(bytes));
    }
    check_address(held, held->image.base);
    check_address(held, UINT64_MAX);
    // It is of another structure.
    CHECK(check_data(held, LC_SEGMENT_64, &bytes) == KESVUOT_NONE);
    check_lies(held);
}

// All fields are 0, except the slice and its architecture if there is a slice.
static void check_unread(const struct kesvuot_image *image, bool has_slice) {
    struct kesvuot_image wanted = {.base = 0};
    if (has_slice) {
        wanted.slice = image->slice;
        wanted.cputype = image->cputype;
        wanted.cpusubtype = image->cpusubtype;
    }
    CHECK(has_slice != is_empty(image->slice));
    CHECK(memcmp(image, &wanted, sizeof wanted) == 0);
}

// The image of a slice of a file that has `slices`. A refused file may have any number.
static void check_slice(const uint8_t *file, size_t size, uint64_t slice, uint64_t slices, uint32_t accepted) {
    struct held held = {.file = {file, size}};
    memset(&held.image, UNWRITTEN, sizeof held.image);
    uint32_t status = kesvuot_read_image(file, size, slice, &held.image);
    bool is_found = status == KESVUOT_OK || status == KESVUOT_UNREAD;
    reach(IMAGE, status);
    CHECK(is_found || status == KESVUOT_NONE || status == KESVUOT_REFUSED);
    CHECK(!accepted || (slice < slices ? is_found : status == KESVUOT_NONE));
    check_within((struct kesvuot_span){0, size}, held.image.slice);
    if (status == KESVUOT_OK) {
        check_image(&held, accepted);
    } else {
        check_unread(&held.image, is_found);
    }
}

#define CASE(constant, name) case KESVUOT_##constant:

// The profile of a rule, by the documents.
static uint32_t profile_of(uint32_t rule) {
    switch (rule) {
        LAYOUT_RULES(CASE) return KESVUOT_LAYOUT;
        STRICT_RULES(CASE) return KESVUOT_STRICT;
        LINKED_RULES(CASE) return KESVUOT_LINKED;
        UNAMBIGUOUS_RULES(CASE) return KESVUOT_UNAMBIGUOUS;
        SEALED_RULES(CASE) return KESVUOT_SEALED;
    default:
        return 0;
    }
}

// The verdict is whole.
static void check_verdict(uint32_t status, const struct kesvuot_verdict *verdict, size_t size) {
    CHECK(verdict->reserved == 0);
    if (status == KESVUOT_OK) {
        CHECK(verdict->rule == 0 && verdict->place == 0 && verdict->slices > 0);
    } else {
        CHECK(status == KESVUOT_REFUSED);
        CHECK(kesvuot_rule_name(verdict->rule) != NULL);
        CHECK(verdict->place <= size && verdict->slices == 0);
    }
}

// The refusal is explained, by a structure that has the place and lies in the file. Another rule and another place may
// be explained or not.
static void check_explanation(const uint8_t *file, size_t size, const struct kesvuot_verdict *verdict) {
    struct kesvuot_explanation found;
    for (uint32_t other = 0; other < 4; other++) {
        struct kesvuot_verdict asked = *verdict;
        asked.rule = (asked.rule + 7 * other) % (RULE_COUNT + 2);
        asked.place += other;
        memset(&found, UNWRITTEN, sizeof found);
        const uint32_t status = kesvuot_explain(file, size, &asked, &found);
        CHECK(status == KESVUOT_OK || (status == KESVUOT_NONE && other > 0));
        if (status == KESVUOT_OK) {
            CHECK(found.at.start <= asked.place && asked.place - found.at.start <= found.at.size);
            CHECK(found.at.start <= size && found.at.size <= size - found.at.start);
            CHECK(found.at.kind > KESVUOT_PART_NONE && found.at.kind <= KESVUOT_PART_CODE_HASH);
        } else {
            CHECK(found.at.kind == KESVUOT_PART_NONE && found.slice == KESVUOT_NO_INDEX);
        }
    }
}

// By a number that no profile has, nothing is written.
static void check_unknown_profile(const uint8_t *file, size_t size, uint32_t profile) {
    struct kesvuot_verdict verdict;
    memset(&verdict, UNWRITTEN, sizeof verdict);
    CHECK(kesvuot_verify(file, size, profile, &verdict) == KESVUOT_UNKNOWN_PROFILE);
    CHECK(is_unwritten((const uint8_t *)&verdict, sizeof verdict));
}

// The first profile that refuses the file does so by a rule of its own. The profiles after it have the same verdict.
// Returns the last profile that accepts the file.
static uint32_t check_verdicts(const uint8_t *file, size_t size, struct kesvuot_verdict *verdicts) {
    uint32_t accepted = REFUSED;
    memset(verdicts, UNWRITTEN, VERDICTS * sizeof *verdicts);
    for (uint32_t profile = KESVUOT_LAYOUT; profile <= KESVUOT_SEALED; profile++) {
        struct kesvuot_verdict *found = &verdicts[profile];
        uint32_t status = (uint32_t)kesvuot_verify(file, size, profile, found);
        check_verdict(status, found, size);
        if (accepted < profile - 1) {
            CHECK(memcmp(found, found - 1, sizeof *found) == 0);
        } else if (status == KESVUOT_OK) {
            CHECK(found->slices == verdicts[KESVUOT_LAYOUT].slices);
            accepted = profile;
        } else {
            CHECK(profile_of(found->rule) == profile);
        }
        reach(VERDICT + found->rule, found->place);
    }
    check_unknown_profile(file, size, 0);
    check_unknown_profile(file, size, KESVUOT_SEALED + 1);
    return accepted;
}

static uint8_t *make_room(void);

// Asks for the layout with this much room, which ends where a page cannot be written to.
static void check_text(const uint8_t *file, size_t size, uint32_t wanted, size_t length, size_t room) {
    static uint8_t *block;
    if (block == NULL) {
        block = make_room();
    }
    if (room >= ROOM_SIZE) {
        return;
    }
    uint8_t *text = block + ROOM_SIZE - room;
    size_t needed = length + 1;
    memset(text - 1, UNWRITTEN, room + 1);
    CHECK(kesvuot_layout(file, size, (char *)text, room, &needed) == wanted && needed == length);
    CHECK(text[-1] == UNWRITTEN);
    for (size_t k = 0; k < room; k++) {
        bool is_text = text[k] == '\n' || (text[k] >= ' ' && text[k] <= '~');
        CHECK(k < length ? is_text : text[k] == UNWRITTEN);
    }
    CHECK(length == 0 || room < length || text[length - 1] == '\n');
}

static void check_layout(const uint8_t *file, size_t size, uint32_t accepted) {
    size_t length = 1;
    uint32_t status = kesvuot_layout(file, size, NULL, 0, &length);
    CHECK(status == (accepted ? KESVUOT_OK : KESVUOT_REFUSED));
    CHECK(accepted ? length > 0 : length == 0);
    check_text(file, size, status, length, 0);
    check_text(file, size, status, length, 1);
    check_text(file, size, status, length, length - 1);
    check_text(file, size, status, length, length);
    check_text(file, size, status, length, length + 9);
}

static void check_file(const uint8_t *file, size_t size, struct kesvuot_verdict *verdicts) {
    uint32_t accepted = check_verdicts(file, size, verdicts);
    uint64_t slices = accepted ? verdicts[KESVUOT_LAYOUT].slices : 3;
    reach(SLICES, verdicts[KESVUOT_LAYOUT].slices);
    if (accepted < KESVUOT_SEALED) {
        check_explanation(file, size, &verdicts[KESVUOT_SEALED]);
    }
    check_layout(file, size, accepted);
    for (uint64_t k = 0; k < slices && k < 99; k++) {
        check_slice(file, size, k, slices, accepted);
    }
    check_slice(file, size, slices, slices, accepted);
    check_slice(file, size, (uint64_t)1 << 32, slices, accepted);
    check_slice(file, size, UINT64_MAX, slices, accepted);
}

// An architecture that has a name is the one that has it.
static void check_arch(uint32_t cputype, uint32_t cpusubtype) {
    const char *name = kesvuot_arch_name(cputype, cpusubtype);
    uint32_t type = 1, subtype = 1;
    if (name != NULL) {
        CHECK(kesvuot_arch_named(name, strlen(name), &type, &subtype) == KESVUOT_OK);
        CHECK(type == cputype && subtype == cpusubtype);
    }
}

// The names of profiles and the profiles of rules.
static void check_profiles(void) {
    struct kesvuot_text name;
    uint32_t profile = KESVUOT_LAYOUT;
    for (; kesvuot_find_profile(profile, &name) == KESVUOT_OK; profile++) {
        CHECK(name.size > 0 && name.size == strlen(name.at) && kesvuot_profile_name(profile) == name.at);
    }
    CHECK(profile == VERDICTS && name.size == 0);
    CHECK(kesvuot_profile_name(0) == NULL && kesvuot_profile_name(UINT32_MAX) == NULL);
    for (uint32_t rule = 0; rule < RULE_COUNT + 2; rule++) {
        CHECK(kesvuot_rule_profile(rule) == profile_of(rule));
    }
    CHECK(kesvuot_rule_profile(UINT32_MAX) == 0);
}

// What depends on no file: the names of rules, whose numbers have no gap; and no bytes.
static void check_constants(void) {
    struct kesvuot_text name;
    struct kesvuot_image image;
    struct kesvuot_verdict verdict;
    uint32_t rule = KESVUOT_MAGIC;
    for (; kesvuot_find_rule(rule, &name) == KESVUOT_OK; rule++) {
        CHECK(name.size > 0 && name.size == strlen(name.at));
    }
    CHECK(rule == RULE_COUNT + 1 && name.size == 0);
    CHECK(kesvuot_find_rule(0, &name) == KESVUOT_NONE && name.size == 0);
    CHECK(kesvuot_find_rule(UINT32_MAX, &name) == KESVUOT_NONE && name.size == 0);
    for (uint32_t number = 0; number < 256; number++) {
        CHECK(kesvuot_command_name(number) == NULL || strncmp(kesvuot_command_name(number), "LC_", 3) == 0);
        CHECK(kesvuot_platform_name(number) == NULL || strncmp(kesvuot_platform_name(number), "PLATFORM_", 9) == 0);
    }
    for (uint32_t subtype = 0; subtype < 32; subtype++) {
        check_arch(KESVUOT_CPU_TYPE_X86_64, subtype);
        check_arch(KESVUOT_CPU_TYPE_ARM64, subtype);
    }
    check_profiles();
    CHECK(kesvuot_version() == KESVUOT_VERSION && kesvuot_is_compatible());
    CHECK(kesvuot_verify(NULL, 0, KESVUOT_SEALED, &verdict) == KESVUOT_REFUSED);
    CHECK(verdict.rule == KESVUOT_MAGIC && verdict.place == 0);
    CHECK(kesvuot_read_image(NULL, 0, 0, &image) == KESVUOT_REFUSED);
    check_unread(&image, false);
}

// A block of memory between two pages that cannot be read.
static uint8_t *make_room(void) {
    uint8_t *block = mmap(NULL, ROOM_SIZE + 2 * PAGE_SIZE, PROT_NONE, MAP_PRIVATE | MAP_ANONYMOUS, -1, 0);
    CHECK(block != MAP_FAILED);
    CHECK(mprotect(block + PAGE_SIZE, ROOM_SIZE, PROT_READ | PROT_WRITE) == 0);
    return block + PAGE_SIZE;
}

int LLVMFuzzerTestOneInput(const uint8_t *data, size_t size) {
    static uint8_t *room;
    struct kesvuot_verdict first_verdicts[VERDICTS], last_verdicts[VERDICTS];
    if (room == NULL) {
        room = make_room();
        check_constants();
    }
    if (size > ROOM_SIZE) {
        return -1;
    }
    uint8_t *last = room + ROOM_SIZE - size;
    // With the size 0 libFuzzer has no bytes to read.
    if (size > 0) {
        memcpy(room, data, size);
    }
    check_file(room, size, first_verdicts);
    if (size > 0) {
        memcpy(last, data, size);
    }
    check_file(last, size, last_verdicts);
    CHECK(memcmp(first_verdicts, last_verdicts, sizeof first_verdicts) == 0);
    return 0;
}

// Mutants

static uint64_t next_random(uint64_t *state) {
    *state = *state * 6364136223846793005u + 1442695040888963407u;
    return *state >> 33;
}

// A number that a rule may turn on: a special one, or one near another number of the file, or near the end.
static uint64_t some_number(uint64_t *state, const uint8_t *data, size_t size, size_t place) {
    uint64_t other = 0;
    uint64_t near = next_random(state) % 5 - 2;
    memcpy(&other, data + next_random(state) % (size - 7) / 4 * 4, next_random(state) % 2 == 0 ? 4 : 8);
    switch (next_random(state) % 6) {
    case 0:
        return near;
    case 1:
        return size + near;
    case 2:
        return size - place + near;
    case 3:
        return size - other + near;
    case 4:
        return (uint64_t)1 << next_random(state) % 64;
    default:
        return other + near;
    }
}

// libFuzzer makes half of the mutants. The others have a number of 4 or 8 bytes set.
size_t LLVMFuzzerCustomMutator(uint8_t *data, size_t size, size_t max_size, unsigned seed) {
    uint64_t state = seed;
    if (size < 8 || next_random(&state) % 2 == 0) {
        return LLVMFuzzerMutate(data, size, max_size);
    }
    // Most numbers are near the beginning.
    size_t end = next_random(&state) % 4 == 0 || size < 1024 ? size : 1024;
    size_t place = next_random(&state) % (end - 7) / 4 * 4;
    uint64_t number = some_number(&state, data, size, place);
    memcpy(data + place, &number, next_random(&state) % 3 == 0 ? 8 : 4);
    return size;
}
