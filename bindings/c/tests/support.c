#define _GNU_SOURCE // MAP_ANONYMOUS
#include "support.h"
#include <stdio.h>
#include <stdlib.h>
#include <string.h>
#include <sys/mman.h>
#include <unistd.h>

static unsigned long checked, broken;

void stop(const char *what, const char *why) {
    fprintf(stderr, "%s: %s\n", what, why);
    exit(2);
}

enum side side_or_block(enum side side) {
    return getenv("IN_BLOCK") ? IN_BLOCK : side;
}

static struct file in_block(const void *data, size_t size) {
    uint8_t *block = malloc(size);
    if (!block && size) {
        stop("malloc", "no memory");
    }
    if (size) {
        memcpy(block, data, size);
    }
    return (struct file){block, size, block, 0};
}

static size_t page_size(void) {
    return (size_t)sysconf(_SC_PAGESIZE);
}

// Bytes between guard pages, which may be written.
static struct file between_guards(size_t size, enum side side) {
    const size_t page = page_size(), room = (size + page - 1) / page * page;
    uint8_t *pages = mmap(NULL, room + 2 * page, PROT_READ | PROT_WRITE, MAP_PRIVATE | MAP_ANONYMOUS, -1, 0);
    if (pages == MAP_FAILED) {
        stop("mmap", "no memory");
    }
    if (mprotect(pages, page, PROT_NONE) || mprotect(pages + page + room, page, PROT_NONE)) {
        stop("mprotect", "it failed");
    }
    uint8_t *bytes = pages + page + (side == AT_END ? room - size : 0);
    return (struct file){bytes, size, pages, room + 2 * page};
}

struct file file_of(const void *data, size_t size, enum side side) {
    if (side == IN_BLOCK) {
        return in_block(data, size);
    }
    const struct file file = between_guards(size, side);
    if (size) {
        memcpy(file.bytes, data, size);
        if (mprotect((uint8_t *)file.pages + page_size(), file.pages_size - 2 * page_size(), PROT_READ)) {
            stop("mprotect", "it failed");
        }
    }
    return file;
}

struct file room_of(size_t size, enum side side) {
    const struct file room = between_guards(size, side);
    memset(room.bytes, UNWRITTEN, size);
    return room;
}

struct file read_file(const char *path, enum side side) {
    FILE *stream = fopen(path, "rb");
    if (!stream || fseek(stream, 0, SEEK_END)) {
        stop(path, "it cannot be opened");
    }
    const long size = ftell(stream);
    rewind(stream);
    uint8_t *data = malloc(size > 0 ? (size_t)size : 1);
    if (!data || size < 0 || fread(data, 1, (size_t)size, stream) != (size_t)size) {
        stop(path, "it cannot be read");
    }
    fclose(stream);
    const struct file file = file_of(data, (size_t)size, side);
    free(data);
    return file;
}

void release(struct file file) {
    if (file.pages_size) {
        munmap(file.pages, file.pages_size);
    } else {
        free(file.pages);
    }
}

bool is_filled(const void *bytes, size_t size, int value) {
    for (size_t index = 0; index < size; index++) {
        if (((const uint8_t *)bytes)[index] != value) {
            return false;
        }
    }
    return true;
}

void check(bool holds, const char *what, int line) {
    checked++;
    if (!holds) {
        broken++;
        printf("line %d: it does not hold that %s\n", line, what);
    }
}

int print_counts(const char *name) {
    printf("%s: %lu checks, %lu failed\n", name, checked, broken);
    return broken || !checked;
}

const uint8_t *bytes_at(const struct file *file, struct kesvuot_span span) {
    return file->bytes + span.offset;
}

void print_name(const struct file *file, struct kesvuot_span name) {
    if (name.size) {
        fwrite(bytes_at(file, name), 1, name.size, stdout);
    }
}

uint32_t end_of_rules(void) {
    uint32_t rule = 1;
    while (kesvuot_rule_name(rule)) {
        rule++;
    }
    return rule;
}

uint32_t profile_named(const char *name) {
    for (uint32_t profile = KESVUOT_LAYOUT; profile <= KESVUOT_SEALED; profile++) {
        if (strcmp(kesvuot_profile_name(profile), name) == 0) {
            return profile;
        }
    }
    stop(name, "no such profile");
    return 0;
}

enum { BATCH = 16, LC_FUNCTION_STARTS = 0x26 };

// How many of the first rows of a table there are.
#define FIRST_BATCH(rows, type)                                                                                        \
    static size_t read_##rows(const struct file *file, const struct kesvuot_image *image) {                            \
        static type batch[BATCH];                                                                                      \
        struct kesvuot_cursor cursor = {0};                                                                            \
        return kesvuot_read_##rows(file->bytes, file->size, image, &cursor, batch, BATCH);                             \
    }
FIRST_BATCH(commands, struct kesvuot_command)
FIRST_BATCH(segments, struct kesvuot_segment)
FIRST_BATCH(sections, struct kesvuot_section)
FIRST_BATCH(libraries, struct kesvuot_library)
FIRST_BATCH(builds, struct kesvuot_build)
FIRST_BATCH(symbols, struct kesvuot_symbol)
FIRST_BATCH(indirects, uint32_t)
FIRST_BATCH(function_starts, uint64_t)
FIRST_BATCH(data_in_code, struct kesvuot_data_in_code)
FIRST_BATCH(blobs, struct kesvuot_blob)

// How many of the first blobs are code directories, and how many have a hash as these.
#define OF_BLOBS(call, type)                                                                                           \
    static size_t call(const struct file *file, const struct kesvuot_image *image) {                                   \
        static struct kesvuot_blob rows[BATCH];                                                                        \
        struct kesvuot_cursor cursor = {0};                                                                            \
        type row;                                                                                                      \
        size_t found = 0;                                                                                              \
        const size_t count = kesvuot_read_blobs(file->bytes, file->size, image, &cursor, rows, BATCH);                 \
        for (size_t index = 0; index < count; index++) {                                                               \
            found += kesvuot_##call(file->bytes, file->size, &rows[index], &row) == KESVUOT_OK;                        \
        }                                                                                                              \
        return found;                                                                                                  \
    }
OF_BLOBS(read_code_directory, struct kesvuot_code_directory)
OF_BLOBS(read_cdhash, struct kesvuot_cdhash)

// How many of the first symbols have a name.
static size_t symbol_name(const struct file *file, const struct kesvuot_image *image) {
    static struct kesvuot_symbol rows[BATCH];
    struct kesvuot_cursor cursor = {0};
    struct kesvuot_span name;
    size_t named = 0;
    const size_t count = kesvuot_read_symbols(file->bytes, file->size, image, &cursor, rows, BATCH);
    for (size_t index = 0; index < count; index++) {
        named += kesvuot_symbol_name(file->bytes, file->size, image, rows[index].strx, &name) == KESVUOT_OK;
    }
    return named;
}

// How many names of the first symbols the library gives at once.
static size_t read_names(const struct file *file, const struct kesvuot_image *image) {
    static struct kesvuot_symbol rows[BATCH];
    static struct kesvuot_span names[BATCH];
    struct kesvuot_cursor cursor = {0};
    const size_t count = kesvuot_read_symbols(file->bytes, file->size, image, &cursor, rows, BATCH);
    return kesvuot_read_names(file->bytes, file->size, image, rows, count, names, BATCH);
}

// Whether there is data of LC_FUNCTION_STARTS.
static size_t find_data(const struct file *file, const struct kesvuot_image *image) {
    struct kesvuot_span data;
    return kesvuot_find_data(file->bytes, file->size, image, LC_FUNCTION_STARTS, &data) == KESVUOT_OK;
}

// How many of the first relocations of the first section there are.
static size_t read_relocations(const struct file *file, const struct kesvuot_image *image) {
    static struct kesvuot_relocation rows[BATCH];
    struct kesvuot_section section = {.nreloc = 0};
    struct kesvuot_cursor first = {0}, cursor = {0};
    kesvuot_read_sections(file->bytes, file->size, image, &first, &section, 1);
    return kesvuot_read_relocations(file->bytes, file->size, image, section.reloff, section.nreloc, &cursor, rows,
                                    BATCH);
}

// Whether there are strings.
static size_t find_table(const struct file *file, const struct kesvuot_image *image) {
    struct kesvuot_span bytes;
    return kesvuot_find_table(file->bytes, file->size, image, KESVUOT_TABLE_STRINGS, &bytes) == KESVUOT_OK;
}

static size_t find_source_version(const struct file *file, const struct kesvuot_image *image) {
    uint64_t version;
    return kesvuot_find_source_version(file->bytes, file->size, image, &version) == KESVUOT_OK;
}

static size_t find_thread_entry(const struct file *file, const struct kesvuot_image *image) {
    uint64_t entry;
    return kesvuot_find_thread_entry(file->bytes, file->size, image, &entry) == KESVUOT_OK;
}

// Whether the file has bytes at the base.
static size_t find_address(const struct file *file, const struct kesvuot_image *image) {
    struct kesvuot_span bytes;
    return kesvuot_find_address(file->bytes, file->size, image, image->base, &bytes) == KESVUOT_OK;
}

enum { MOST_SYMBOLS = 1 << 20 };

static uint32_t symbol_index[MOST_SYMBOLS];

// How many symbols have an address.
static size_t index_symbols(const struct file *file, const struct kesvuot_image *image) {
    return kesvuot_index_symbols(file->bytes, file->size, image, symbol_index, MOST_SYMBOLS);
}

// Where in the index the symbol for the greatest address is.
static size_t find_symbol(const struct file *file, const struct kesvuot_image *image) {
    struct kesvuot_symbol symbol;
    size_t at = 0;
    const size_t count = index_symbols(file, image);
    kesvuot_find_symbol(file->bytes, file->size, image, symbol_index, count < MOST_SYMBOLS ? count : MOST_SYMBOLS,
                        UINT64_MAX, &symbol, &at);
    return at;
}

// A name that no symbol has.
static const char NO_SYMBOL[] = "_no symbol";

static size_t find_name(const struct file *file, const struct kesvuot_image *image) {
    const size_t size = sizeof NO_SYMBOL - 1;
    struct kesvuot_symbol symbol;
    uint64_t number;
    return kesvuot_find_name(file->bytes, file->size, image, NO_SYMBOL, size, &symbol, &number) == KESVUOT_OK;
}

static size_t find_export(const struct file *file, const struct kesvuot_image *image) {
    struct kesvuot_export found;
    return kesvuot_find_export(file->bytes, file->size, image, NO_SYMBOL, sizeof NO_SYMBOL - 1, &found) == KESVUOT_OK;
}

static size_t find_export_trie(const struct file *file, const struct kesvuot_image *image) {
    struct kesvuot_span trie;
    return kesvuot_find_export_trie(file->bytes, file->size, image, &trie) == KESVUOT_OK;
}

// How many nodes the first edges lead to, from the root on. They are no more than the trie has bytes.
static size_t read_export_node(const struct file *file, const struct kesvuot_image *image) {
    struct kesvuot_export_edge edge = {.child = 0};
    struct kesvuot_export_node node;
    struct kesvuot_span trie;
    size_t nodes = 0, edges = 1;
    kesvuot_find_export_trie(file->bytes, file->size, image, &trie);
    while (nodes < trie.size && edges == 1 &&
           kesvuot_read_export_node(file->bytes, file->size, image, &trie, edge.child, &node) == KESVUOT_OK) {
        edges = kesvuot_read_export_edges(file->bytes, file->size, &trie, &node.edges, &edge, 1);
        nodes++;
    }
    return nodes;
}

// How many of the first edges of the root there are.
static size_t read_export_edges(const struct file *file, const struct kesvuot_image *image) {
    static struct kesvuot_export_edge rows[BATCH];
    struct kesvuot_span trie;
    struct kesvuot_export_node node;
    kesvuot_find_export_trie(file->bytes, file->size, image, &trie);
    kesvuot_read_export_node(file->bytes, file->size, image, &trie, 0, &node);
    return kesvuot_read_export_edges(file->bytes, file->size, &trie, &node.edges, rows, BATCH);
}

// How many of the first pointers that a loader writes there are, and how many of the first imports.
static size_t read_fixups(const struct file *file, const struct kesvuot_image *image) {
    static struct kesvuot_fixup rows[BATCH];
    struct kesvuot_fixup_cursor cursor = {0};
    return kesvuot_read_fixups(file->bytes, file->size, image, &cursor, rows, BATCH);
}

static size_t read_imports(const struct file *file, const struct kesvuot_image *image) {
    static struct kesvuot_import rows[BATCH];
    struct kesvuot_fixup_cursor cursor = {0};
    return kesvuot_read_imports(file->bytes, file->size, image, &cursor, rows, BATCH);
}

const struct view views[] = {
    {"read_commands", read_commands}, {"read_segments", read_segments}, {"read_sections", read_sections},
    {"read_libraries", read_libraries}, {"read_builds", read_builds}, {"read_symbols", read_symbols},
    {"read_indirects", read_indirects}, {"symbol_name", symbol_name}, {"read_names", read_names},
    {"find_data", find_data}, {"find_address", find_address}, {"read_relocations", read_relocations},
    {"find_table", find_table}, {"find_source_version", find_source_version}, {"index_symbols", index_symbols},
    {"find_symbol", find_symbol}, {"find_name", find_name}, {"read_function_starts", read_function_starts},
    {"read_data_in_code", read_data_in_code}, {"find_export", find_export}, {"find_export_trie", find_export_trie},
    {"read_export_node", read_export_node}, {"read_export_edges", read_export_edges}, {"read_blobs", read_blobs},
    {"read_code_directory", read_code_directory}, {"read_cdhash", read_cdhash}, {"find_thread_entry", find_thread_entry},
    {"read_fixups", read_fixups}, {"read_imports", read_imports},
};
const size_t view_count = sizeof views / sizeof *views;
