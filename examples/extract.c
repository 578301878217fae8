// Takes a file apart: writes each slice, and the bytes of each section of each image, to a separate file in FOLDER.
//
//     extract FILE FOLDER
//
// It prints a line for each file that it writes: the name, the place of the bytes in FILE, and their number.
//
//     1.slice             the slice with index 1, counted from 0. A file that is not universal is one slice
//     1.0.__TEXT.__text   the first section of that image, with the names of its segment and of the section. In these,
//                         any byte except letters, digits, _ and - is written as % and two digits. Empty and zero-fill
//                         sections have no bytes, and no file is written for them
//
//     cc -std=c99 -O2 -Ibindings/c -o extract examples/extract.c build/lib/libkesvuot.a
//
// The file may be from a stranger. The library judges it once. After that no offset of the file is tested: a comment at
// each read says which rule of docs/rules promises that the bytes exist.

#include <inttypes.h>
#include <stdbool.h>
#include <stdint.h>
#include <stdio.h>
#include <stdlib.h>
#include <string.h>

#include "judged.h"
#include "kesvuot.h"

// Two numbers, and two names of 16 bytes: a byte of a name can become three.
#define NAME_SIZE 160

// The folder to write to, and the current image.
struct work {
    const struct judged *file;
    const char *folder;
    char *path;
    size_t path_size;
    struct kesvuot_image image;
};

// Writes the bytes to a file of the folder, and prints the line.
static int write_file(const struct work *work, const char *name, struct kesvuot_span bytes) {
    snprintf(work->path, work->path_size, "%s/%s", work->folder, name);
    FILE *out = fopen(work->path, "wb");
    if (out == NULL) {
        return fail(work->path, "it cannot be opened");
    }
    bool is_written = fwrite(work->file->bytes + bytes.offset, 1, bytes.size, out) == bytes.size;
    if (fclose(out) != 0 || !is_written) {
        return fail(work->path, "it cannot be written");
    }
    printf("%s 0x%" PRIx64 " 0x%" PRIx64 "\n", name, bytes.offset, bytes.size);
    return ACCEPTED;
}

// Appends a name to a text, which has room for it. The written name is not a path: it has neither a slash nor a dot.
static void append_name(char *text, const struct judged *file, struct kesvuot_span name) {
    text += strlen(text);
    *text++ = '.';
    for (uint64_t k = 0; k < name.size; k++) {
        uint8_t byte = file->bytes[name.offset + k];
        bool is_letter = (byte >= 'A' && byte <= 'Z') || (byte >= 'a' && byte <= 'z');
        bool is_plain = is_letter || (byte >= '0' && byte <= '9') || byte == '_' || byte == '-';
        text += sprintf(text, is_plain ? "%c" : "%%%02x", byte);
    }
    *text = '\0';
}

static int write_section(const struct work *work, uint64_t slice, uint64_t index,
                         const struct kesvuot_section *section) {
    char name[NAME_SIZE];
    if (section->bytes.size == 0) {
        return ACCEPTED;
    }
    sprintf(name, "%" PRIu64 ".%" PRIu64, slice, index);
    append_name(name, work->file, section->segment);
    append_name(name, work->file, section->name);
    // section-file: all bytes of the section are in the slice and, where its segment is mapped, in that segment.
    return write_file(work, name, section->bytes);
}

static int write_sections(const struct work *work, uint64_t slice) {
    const struct judged *file = work->file;
    struct kesvuot_section section;
    struct kesvuot_cursor cursor = {0};
    int status = ACCEPTED;
    // command-walk and command-short: the table has a row for each section.
    for (uint64_t k = 0; status == ACCEPTED; k++) {
        if (kesvuot_read_sections(file->bytes, file->size, &work->image, &cursor, &section, 1) == 0) {
            break;
        }
        status = write_section(work, slice, k, &section);
    }
    return status;
}

static int write_slice(struct work *work, uint64_t index) {
    const struct judged *file = work->file;
    char name[NAME_SIZE];
    // fat-truncated: the table of slices is in the file. fat-slice-magic: each slice is an image of some kind.
    uint32_t kind = kesvuot_read_image(file->bytes, file->size, index, &work->image);
    sprintf(name, "%" PRIu64 ".slice", index);
    // fat-slice-outside: all bytes of the slice are in the file. fat-overlap: no other slice has one of them.
    int status = write_file(work, name, work->image.slice);
    // Nothing is promised about the contents of a 32-bit or big-endian slice.
    return status == ACCEPTED && kind == KESVUOT_OK ? write_sections(work, index) : status;
}

static int write_slices(const struct judged *file, const char *folder) {
    struct work work = {.file = file, .folder = folder, .path_size = strlen(folder) + NAME_SIZE + 1};
    work.path = malloc(work.path_size);
    if (work.path == NULL) {
        return fail("extract", "out of memory");
    }
    int status = ACCEPTED;
    for (uint64_t k = 0; k < file->slices && status == ACCEPTED; k++) {
        status = write_slice(&work, k);
    }
    free(work.path);
    return status;
}

int main(int argc, char **argv) {
    struct judged file;
    if (argc != 3) {
        return fail("usage", "extract FILE FOLDER");
    }
    int status = judge(argv[1], &file);
    if (status == ACCEPTED) {
        status = write_slices(&file, argv[2]);
    }
    return finish(&file, status);
}
