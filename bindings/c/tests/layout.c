// layout FILE..: compares the text that kesvuot_layout writes, in rooms of any size, with one made here from the
// rows and fields of the other calls. The bindings take their layouts from kesvuot_layout. So this is the one test that
// the rows of a whole file, one after the other, are the lines of its layout.
// layout print FILE: prints what kesvuot_layout writes.
#define _POSIX_C_SOURCE 200809L // open_memstream
#include "support.h"
#include <inttypes.h>
#include <stdio.h>
#include <stdlib.h>
#include <string.h>

enum { ROWS = 64, LC_BUILD_VERSION = 0x32 };

static struct file file;

struct word {
    uint32_t first, second; // the numbers that it is for
    const char *word;
};

static const struct word ARCHITECTURES[] = {
    {0x01000007, 3, "x86_64"}, {0x01000007, 8, "x86_64h"}, {0x0100000c, 0, "arm64"}, {0x0100000c, 2, "arm64e"}, {0}};
static const struct word FILETYPES[] = {{2, 0, "execute"}, {6, 0, "dylib"}, {8, 0, "bundle"}, {0}};
static const struct word LOADS[] = {{0xc, 0, "load"}, {0x80000018, 0, "weak"}, {0x8000001f, 0, "reexport"},
                                    {0x20, 0, "lazy"}, {0x80000023, 0, "upward"}, {0}};

// The word for two numbers, or NULL. The list ends with one that has no word.
static const char *word_of(const struct word *words, uint32_t first, uint32_t second) {
    while (words->word && (words->first != first || words->second != second)) {
        words++;
    }
    return words->word;
}

static void write_quoted(FILE *out, struct kesvuot_span name) {
    putc('"', out);
    for (size_t index = 0; index < name.size; index++) {
        const uint8_t byte = bytes_at(&file, name)[index];
        const bool is_plain = byte >= ' ' && byte <= '~' && byte != '"' && byte != '\\';
        fprintf(out, is_plain ? "%c" : "\\x%02x", byte);
    }
    putc('"', out);
}

static void write_version(FILE *out, const char *word, uint32_t version) {
    fprintf(out, " %s %" PRIu32 ".%" PRIu32 ".%" PRIu32, word, version >> 16, version >> 8 & 0xff, version & 0xff);
}

static void write_library(FILE *out, const char *word, const struct kesvuot_library *library) {
    fprintf(out, "  %s ", word);
    write_quoted(out, library->name);
    write_version(out, "current", library->current);
    write_version(out, "compatible", library->compatible);
    putc('\n', out);
}

static void write_libraries(FILE *out, const struct kesvuot_image *image) {
    struct kesvuot_library rows[ROWS];
    struct kesvuot_cursor cursor = {0};
    size_t count, total = 0;
    while ((count = kesvuot_read_libraries(file.bytes, file.size, image, &cursor, rows, ROWS)) > 0) {
        for (size_t index = 0; index < count; index++) {
            const char *word = word_of(LOADS, rows[index].cmd, 0);
            CHECK(word != NULL);
            write_library(out, word, &rows[index]);
        }
        total += count;
    }
    CHECK(total == image->library_count);
}

static void write_uuid(FILE *out, const struct kesvuot_image *image) {
    if (image->has & KESVUOT_HAS_UUID) {
        fputs("  uuid ", out);
        for (size_t index = 0; index < sizeof image->uuid; index++) {
            const bool ends_part = index == 4 || index == 6 || index == 8 || index == 10;
            fprintf(out, "%s%02X", ends_part ? "-" : "", (unsigned)image->uuid[index]);
        }
        putc('\n', out);
    }
}

static void write_builds(FILE *out, const struct kesvuot_image *image) {
    struct kesvuot_build rows[ROWS];
    struct kesvuot_cursor cursor = {0};
    size_t count;
    while ((count = kesvuot_read_builds(file.bytes, file.size, image, &cursor, rows, ROWS)) > 0) {
        for (size_t index = 0; index < count; index++) {
            if (rows[index].cmd != LC_BUILD_VERSION) {
                continue;
            }
            fprintf(out, "  build platform %" PRIu32, rows[index].platform);
            write_version(out, "min", rows[index].minos);
            write_version(out, "sdk", rows[index].sdk);
            putc('\n', out);
        }
    }
}

static void write_section(FILE *out, const struct kesvuot_section *section) {
    fputs("    section ", out);
    write_quoted(out, section->name);
    fprintf(out, " addr 0x%" PRIx64 " size 0x%" PRIx64, section->addr, section->size);
    if (section->zero_fill) {
        fputs(" zero\n", out);
    } else {
        fprintf(out, " file 0x%" PRIx32 "\n", section->offset);
    }
}

// The sections of the segment, which come next in the table.
static void write_sections(FILE *out, const struct kesvuot_image *image, const struct kesvuot_segment *segment,
                           struct kesvuot_cursor *cursor) {
    struct kesvuot_section rows[ROWS];
    uint64_t left = segment->section_count;
    while (left > 0) {
        const size_t max = left < ROWS ? (size_t)left : ROWS;
        const size_t count = kesvuot_read_sections(file.bytes, file.size, image, cursor, rows, max);
        CHECK(count == max);
        if (count != max) {
            return;
        }
        for (size_t index = 0; index < count; index++) {
            write_section(out, &rows[index]);
        }
        left -= count;
    }
}

static void write_segment(FILE *out, const struct kesvuot_segment *segment) {
    fputs("  segment ", out);
    write_quoted(out, segment->name);
    fprintf(out, " addr 0x%" PRIx64 " size 0x%" PRIx64 " file 0x%" PRIx64 " size 0x%" PRIx64 " %c%c%c\n",
            segment->vmaddr, segment->vmsize, segment->fileoff, segment->filesize, segment->initprot & 1 ? 'r' : '-',
            segment->initprot & 2 ? 'w' : '-', segment->initprot & 4 ? 'x' : '-');
}

static void write_segments(FILE *out, const struct kesvuot_image *image) {
    struct kesvuot_segment rows[ROWS];
    struct kesvuot_cursor cursor = {0}, of_sections = {0};
    uint64_t sections = 0;
    size_t count;
    while ((count = kesvuot_read_segments(file.bytes, file.size, image, &cursor, rows, ROWS)) > 0) {
        for (size_t index = 0; index < count; index++) {
            CHECK(rows[index].first_section == sections);
            write_segment(out, &rows[index]);
            write_sections(out, image, &rows[index], &of_sections);
            sections += rows[index].section_count;
        }
    }
    CHECK(sections == image->section_count);
}

static void write_image(FILE *out, const struct kesvuot_image *image) {
    if (image->has & KESVUOT_HAS_ID) {
        write_library(out, "id", &image->id);
    }
    write_uuid(out, image);
    write_builds(out, image);
    write_segments(out, image);
    write_libraries(out, image);
    if (image->has & KESVUOT_HAS_SYMTAB) {
        fprintf(out, "  symbols %" PRIu64 "\n", image->symbol_count);
    }
    if (image->has & KESVUOT_HAS_ENTRY) {
        fprintf(out, "  entry 0x%" PRIx64 "\n", image->entry);
    } else {
        fputs("  entry none\n", out);
    }
}

static void write_slice(FILE *out, uint64_t slice) {
    struct kesvuot_image image;
    const uint32_t status = kesvuot_read_image(file.bytes, file.size, slice, &image);
    const bool is_read = status == KESVUOT_OK;
    const char *arch = word_of(ARCHITECTURES, image.cputype, image.cpusubtype);
    const char *kind = is_read ? word_of(FILETYPES, image.filetype, 0) : "not read";
    CHECK((is_read || status == KESVUOT_UNREAD) && kind != NULL);
    fprintf(out, "slice %" PRIu64 " ", slice);
    if (arch) {
        fputs(arch, out);
    } else {
        fprintf(out, "0x%" PRIx32 "/0x%" PRIx32, image.cputype, image.cpusubtype);
    }
    fprintf(out, " at 0x%" PRIx64 " size 0x%" PRIx64 " %s\n", image.slice.offset, image.slice.size, kind ? kind : "");
    if (is_read) {
        write_image(out, &image);
    }
}

struct text {
    char *bytes;
    size_t len;
};

// The layout of the file, which has this many slices.
static struct text text_of(uint64_t slices) {
    struct text text = {NULL, 0};
    FILE *out = open_memstream(&text.bytes, &text.len);
    if (!out) {
        stop("open_memstream", "no memory");
    }
    fprintf(out, "accepted, slices %" PRIu64 "\n", slices);
    for (uint64_t slice = 0; slice < slices; slice++) {
        write_slice(out, slice);
    }
    fclose(out);
    return text;
}

// The call writes what there is room for of the text, and nothing else.
static void try_room(uint32_t status, struct text text, size_t size, enum side side) {
    const struct file room = room_of(size, side);
    const size_t written = size < text.len ? size : text.len;
    size_t needed = SIZE_MAX;
    CHECK(kesvuot_layout(file.bytes, file.size, (char *)room.bytes, size, &needed) == status);
    CHECK(needed == text.len);
    CHECK(!written || memcmp(room.bytes, text.bytes, written) == 0);
    CHECK(is_filled(room.bytes + written, size - written, UNWRITTEN));
    release(room);
}

static void try_file(const char *path) {
    file = read_file(path, side_or_block(AT_END));
    struct kesvuot_verdict verdict;
    const uint32_t status = (uint32_t)kesvuot_verify(file.bytes, file.size, KESVUOT_LAYOUT, &verdict);
    const struct text text = status == KESVUOT_OK ? text_of(verdict.slices) : (struct text){NULL, 0};
    size_t needed = SIZE_MAX;
    CHECK(kesvuot_layout(file.bytes, file.size, NULL, 0, &needed) == status && needed == text.len);
    const size_t rooms[] = {0, 1, text.len / 2, text.len ? text.len - 1 : 0, text.len, text.len + 1, text.len + 5000};
    for (size_t index = 0; index < sizeof rooms / sizeof *rooms; index++) {
        try_room(status, text, rooms[index], AT_END);
        try_room(status, text, rooms[index], AT_START);
    }
    free(text.bytes);
    release(file);
}

static int print_layout(const char *path) {
    file = read_file(path, side_or_block(AT_END));
    size_t needed;
    if (kesvuot_layout(file.bytes, file.size, NULL, 0, &needed) != KESVUOT_OK) {
        stop(path, "it is not accepted");
    }
    const struct file room = room_of(needed, AT_END);
    const uint32_t status = kesvuot_layout(file.bytes, file.size, (char *)room.bytes, room.size, &needed);
    const size_t written = fwrite(room.bytes, 1, room.size, stdout);
    const bool is_whole = status == KESVUOT_OK && written == needed;
    release(room);
    release(file);
    return is_whole ? 0 : 2;
}

int main(int count, char **words) {
    if (count == 3 && strcmp(words[1], "print") == 0) {
        return print_layout(words[2]);
    }
    for (int index = 1; index < count; index++) {
        try_file(words[index]);
    }
    return print_counts("layout");
}
