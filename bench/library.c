// Times the library on mapped files, and compares it with the same verdict written by hand in C and with a plain walk.
//
//     (cd tests && python3 -m reference.rules_tables) >rules_tables.h
//     cc -std=c99 -O2 -I. -I bindings/c -o library bench/library.c build/lib/libkesvuot.a
//     ./library ROUNDS FILE
//
// It prints seven times in microseconds, and the first line that macho-check would print for FILE. Each time is the
// median of the rounds. Each judge has two times: over a new mapping, whose pages the system loads as they are touched,
// and over the same mapping again. The judges are kesvuot_verify; bench/floor.c; and a walk that follows the headers,
// the load commands, the sections and the symbols, and tests nothing. The last time is for reading all rows of all
// images from the library, each table with one call.
//
// bench/library makes the files and prints the table.

#define main floor_main
#include "floor.c"
#undef main

#include <fcntl.h>
#include <inttypes.h>
#include <sys/mman.h>
#include <time.h>

#include "kesvuot.h"

enum { MOST_ROUNDS = 999 };

static uint64_t now(void) {
    struct timespec time;
    clock_gettime(CLOCK_MONOTONIC, &time);
    return (uint64_t)time.tv_sec * 1000000000u + (uint64_t)time.tv_nsec;
}

// Judges. Each returns a number, so that the compiler does not optimize its work away.

static struct kesvuot_verdict verdict;

static uint64_t by_library(const struct file *file) {
    if (kesvuot_verify(file->bytes, file->size, KESVUOT_LAYOUT, &verdict) == KESVUOT_NO_MEMORY) {
        stop(NO_MEMORY, "out of memory");
    }
    return verdict.rule;
}

#define AS_NUMBER(rule, name) KESVUOT_##rule,

static const uint32_t rule_numbers[RULE_COUNT] = {RULES(AS_NUMBER)};

// The verdict of bench/floor.c: the number that the library has for the rule, or 0.
static uint64_t by_hand(const struct file *file) {
    struct breaks breaks = {.first = RULE_COUNT};
    struct universal universal;
    struct image image;
    if (breaks_magic(file)) {
        note(&breaks, MAGIC, 0);
    } else if (!is_fat_magic(read_big(file->bytes, sizeof(uint32_t)))) {
        begin_image(&image, file, 0, file->size, &breaks);
        survey(&image, NULL);
        judge_surveyed(&image);
    } else if (breaks_fat_truncated(file, &universal)) {
        note(&breaks, FAT_TRUNCATED, offsetof(struct fat_header, nfat_arch));
    } else {
        judge_entries(&universal, &breaks);
        if (is_unbroken(&breaks)) {
            judge_slices(file, &universal, &breaks);
        }
    }
    return is_unbroken(&breaks) ? 0 : rule_numbers[breaks.first];
}

static uint64_t walk_sections(const uint8_t *segment) {
    uint64_t sum = FIELD(segment, segment_command_64, vmaddr);
    const uint8_t *section = segment + sizeof(struct segment_command_64);
    for (uint64_t n = FIELD(segment, segment_command_64, nsects); n > 0; n--, section += sizeof(struct section_64)) {
        sum += FIELD(section, section_64, addr) + FIELD(section, section_64, offset);
    }
    return sum;
}

static uint64_t walk_symbols(const uint8_t *bytes, const uint8_t *symtab) {
    uint64_t sum = 0;
    const uint8_t *symbol = bytes + FIELD(symtab, symtab_command, symoff);
    for (uint64_t n = FIELD(symtab, symtab_command, nsyms); n > 0; n--, symbol += sizeof(struct nlist_64)) {
        sum += FIELD(symbol, nlist_64, n_strx) + FIELD(symbol, nlist_64, n_value);
    }
    return sum;
}

static uint64_t walk_image(const uint8_t *bytes) {
    uint64_t sum = 0;
    const uint8_t *command = bytes + sizeof(struct mach_header_64);
    for (uint64_t n = FIELD(bytes, mach_header_64, ncmds); n > 0; n--) {
        if (FIELD(command, load_command, cmd) == LC_SEGMENT_64) {
            sum += walk_sections(command);
        } else if (FIELD(command, load_command, cmd) == LC_SYMTAB) {
            sum += walk_symbols(bytes, command);
        }
        command += FIELD(command, load_command, cmdsize);
    }
    return sum;
}

static uint64_t by_walk(const struct file *file) {
    struct universal universal;
    uint64_t sum = 0;
    if (!is_fat_magic(read_big(file->bytes, sizeof(uint32_t)))) {
        return walk_image(file->bytes);
    }
    if (breaks_fat_truncated(file, &universal)) {
        return sum;
    }
    for (uint64_t k = 0; k < universal.nfat_arch; k++) {
        struct entry entry = read_entry(&universal, k);
        if (is_read(&universal, &entry)) {
            sum += walk_image(file->bytes + entry.offset);
        }
    }
    return sum;
}

// Rows

// Room for `count` rows of any table.
static void *rows;
static size_t rows_size;

static void *room_for_rows(uint64_t count, size_t size) {
    if (rows_size < (size_t)count * size) {
        free(rows);
        rows_size = (size_t)count * size;
        rows = malloc(rows_size);
        if (rows == NULL) {
            stop(NO_MEMORY, "out of memory");
        }
    }
    return rows;
}

#define READ(table, row, count)                                                                                  \
    (cursor = (struct kesvuot_cursor){0}, kesvuot_read_##table(file->bytes, file->size, &image, &cursor,         \
                                                               room_for_rows(image.count, sizeof(row)),          \
                                                               (size_t)image.count))

// Whether the file has a slice with this index, and its image.
static bool has_slice(const struct file *file, uint64_t index, struct kesvuot_image *image) {
    uint32_t status = kesvuot_read_image(file->bytes, file->size, index, image);
    return status == KESVUOT_OK || status == KESVUOT_UNREAD;
}

// All rows of all images.
static uint64_t all_rows(const struct file *file) {
    struct kesvuot_image image;
    struct kesvuot_cursor cursor;
    uint64_t sum = 0;
    for (uint64_t k = 0; has_slice(file, k, &image); k++) {
        sum += READ(segments, struct kesvuot_segment, segment_count);
        sum += READ(sections, struct kesvuot_section, section_count);
        sum += READ(libraries, struct kesvuot_library, library_count);
        sum += READ(builds, struct kesvuot_build, build_count);
        sum += READ(commands, struct kesvuot_command, command_count);
        sum += READ(symbols, struct kesvuot_symbol, symbol_count);
        sum += READ(indirects, uint32_t, indirect_count);
    }
    return sum;
}

// Times

static struct file map_file(int descriptor, size_t size) {
    void *bytes = mmap(NULL, size, PROT_READ, MAP_PRIVATE, descriptor, 0);
    if (bytes == MAP_FAILED) {
        stop(NOT_READ_OR_WRITTEN, "the file cannot be mapped");
    }
    return (struct file){bytes, size};
}

static int compare(const void *left, const void *right) {
    uint64_t one = *(const uint64_t *)left, other = *(const uint64_t *)right;
    return one < other ? -1 : one > other;
}

static void print_median(uint64_t *times, size_t count) {
    qsort(times, count, sizeof *times, compare);
    printf("%.1f ", (double)times[count / 2] / 1e3);
}

static volatile uint64_t sink;

static uint64_t time_of(uint64_t (*judge)(const struct file *), const struct file *file) {
    uint64_t began = now();
    sink = judge(file);
    return now() - began;
}

static void measure(uint64_t (*judge)(const struct file *), int descriptor, size_t size, size_t rounds) {
    static uint64_t first[MOST_ROUNDS], again[MOST_ROUNDS];
    for (size_t k = 0; k < rounds; k++) {
        struct file file = map_file(descriptor, size);
        first[k] = time_of(judge, &file);
        again[k] = time_of(judge, &file);
        munmap(file.bytes, size);
    }
    print_median(first, rounds);
    if (judge != all_rows) {
        print_median(again, rounds);
    }
}

static void print_verdict(void) {
    const char *rule = kesvuot_rule_name(verdict.rule);
    if (rule != NULL) {
        printf("refused: %s at 0x%" PRIx64 "\n", rule, verdict.place);
    } else {
        printf("accepted, slices %" PRIu64 "\n", verdict.slices);
    }
}

int main(int argc, char **argv) {
    size_t rounds = argc == 3 ? strtoul(argv[1], NULL, 10) : 0;
    if (rounds == 0 || rounds > MOST_ROUNDS) {
        stop(NOT_READ_OR_WRITTEN, "usage: library ROUNDS FILE");
    }
    struct stat status;
    int descriptor = open(argv[2], O_RDONLY);
    if (descriptor < 0 || fstat(descriptor, &status) != 0) {
        stop(NOT_READ_OR_WRITTEN, "the file cannot be opened");
    }
    size_t size = (size_t)status.st_size;
    struct file file = map_file(descriptor, size);
    if (by_library(&file) != by_hand(&file)) {
        stop(NOT_READ_OR_WRITTEN, "the verdicts differ");
    }
    munmap(file.bytes, size);
    measure(by_library, descriptor, size, rounds);
    measure(by_hand, descriptor, size, rounds);
    measure(by_walk, descriptor, size, rounds);
    measure(all_rows, descriptor, size, rounds);
    print_verdict();
    return 0;
}
