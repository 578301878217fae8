// The start of each example: reads a file into memory, where nobody else can change it, and judges it.
#ifndef JUDGED_H
#define JUDGED_H

#include <inttypes.h>
#include <stdbool.h>
#include <stdio.h>
#include <stdlib.h>

#include "kesvuot.h"

// The statuses of the examples.
enum { ACCEPTED = 0, REFUSED = 1, FAILED = 2 };

// A file in memory, and how many slices it has.
struct judged {
    uint8_t *bytes;
    size_t size;
    uint64_t slices;
};

static inline int fail(const char *what, const char *why) {
    fprintf(stderr, "%s: %s\n", what, why);
    return FAILED;
}

// Resizes the block, to at least 1 byte.
static inline bool resize(struct judged *file, size_t room) {
    uint8_t *bytes = realloc(file->bytes, room > 0 ? room : 1);
    if (bytes != NULL) {
        file->bytes = bytes;
    }
    return bytes != NULL;
}

// Reads the rest of a stream into a block of exactly its size.
static inline bool read_stream(FILE *stream, struct judged *file) {
    for (size_t room = 1 << 16; resize(file, room); room *= 2) {
        file->size += fread(file->bytes + file->size, 1, room - file->size, stream);
        if (file->size < room) {
            return !ferror(stream) && resize(file, file->size);
        }
    }
    return false;
}

static inline int print_refusal(const char *path, const struct kesvuot_verdict *verdict) {
    fprintf(stderr, "%s: refused: %s at 0x%" PRIx64 "\n", path, kesvuot_rule_name(verdict->rule), verdict->place);
    return REFUSED;
}

// Reads and judges a file. If it is not accepted, this prints why. Always call `finish` afterwards.
static inline int judge(const char *path, struct judged *file) {
    struct kesvuot_verdict verdict;
    *file = (struct judged){.bytes = NULL};
    if (!kesvuot_is_compatible()) {
        return fail("libkesvuot", "it is of another version than its header");
    }
    FILE *stream = fopen(path, "rb");
    if (stream == NULL) {
        return fail(path, "it cannot be opened");
    }
    bool is_read = read_stream(stream, file);
    fclose(stream);
    if (!is_read) {
        return fail(path, "it cannot be read, or there is no memory for it");
    }
    switch (kesvuot_verify(file->bytes, file->size, KESVUOT_LAYOUT, &verdict)) {
    case KESVUOT_OK:
        file->slices = verdict.slices;
        return ACCEPTED;
    case KESVUOT_REFUSED:
        return print_refusal(path, &verdict);
    default:
        return fail(path, "there is no memory to judge it");
    }
}

// The end of an example, which may have printed to a full disk.
static inline int finish(struct judged *file, int status) {
    free(file->bytes);
    return fflush(stdout) == 0 && !ferror(stdout) ? status : fail("standard output", "it cannot be written");
}

// Prints a name. Any byte that is not printable ASCII is written as a number.
static inline void print_name(const struct judged *file, struct kesvuot_span name) {
    const uint8_t *bytes = file->bytes + name.offset;
    for (uint64_t k = 0; k < name.size; k++) {
        bool is_plain = bytes[k] >= 0x20 && bytes[k] <= 0x7e && bytes[k] != '\\';
        printf(is_plain ? "%c" : "\\x%02x", bytes[k]);
    }
}

#endif
