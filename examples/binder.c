// Applies the fixups of an image to a copy of it, as a dynamic loader does, and prints each pointer that was written.
// The image is the first one in FILE that is read.
//
//     binder FILE
//
// A line is `0xADDRESS 0xVALUE`, and of a bind `0xADDRESS 0xVALUE LIBRARY NAME`. The image stays at its own addresses.
// Names are not looked up: import k is taken to be at 0x700000000000 + 16 * k.
//
//     cc -std=c99 -O2 -Ibindings/c -o build/binder examples/binder.c build/lib/libkesvuot.a
//
// The file may be from a stranger. The library judges it once, by the linked profile. After that no offset, count or
// index of the file is tested.
#include <string.h>

#include "judged.h"

enum { ROWS = 64 };

// An image with its segments and imports, and the copy of the file to which the fixups are applied.
struct loaded {
    struct kesvuot_image image;
    struct kesvuot_segment *segments;
    struct kesvuot_import *imports;
    uint8_t *copy;
};

// Reads all imports, into a block that grows.
static bool read_imports(const struct judged *file, struct loaded *loaded) {
    struct kesvuot_fixup_cursor cursor = {0};
    for (size_t count = 0, read = ROWS; read == ROWS; count += read) {
        struct kesvuot_import *imports = realloc(loaded->imports, (count + ROWS) * sizeof *imports);
        if (imports == NULL) {
            return false;
        }
        loaded->imports = imports;
        read = kesvuot_read_imports(file->bytes, file->size, &loaded->image, &cursor, imports + count, ROWS);
    }
    return true;
}

static bool load(const struct judged *file, struct loaded *loaded) {
    struct kesvuot_cursor cursor = {0};
    for (uint64_t k = 0; kesvuot_read_image(file->bytes, file->size, k, &loaded->image) != KESVUOT_OK;) {
        k++; // fat-empty: some slice is read.
    }
    const size_t segments = loaded->image.segment_count;
    loaded->segments = calloc(segments + 1, sizeof *loaded->segments);
    loaded->copy = malloc(file->size);
    if (loaded->segments == NULL || loaded->copy == NULL || !read_imports(file, loaded)) {
        return false;
    }
    kesvuot_read_segments(file->bytes, file->size, &loaded->image, &cursor, loaded->segments, segments);
    memcpy(loaded->copy, file->bytes, file->size);
    return true;
}

static uint64_t value_of(const struct kesvuot_fixup *fixup) {
    const uint64_t import = UINT64_C(0x700000000000) + 16 * fixup->import;
    return fixup->kind == KESVUOT_REBASE ? fixup->target : import + (uint64_t)fixup->addend;
}

// Writes a pointer. rebase-slot, bind-slot and chain-slot: all 8 bytes are in the bytes of its segment.
static void apply(struct loaded *loaded, const struct kesvuot_fixup *fixup) {
    uint8_t *bytes = loaded->copy + loaded->segments[fixup->segment].bytes.offset + fixup->offset;
    const uint64_t value = value_of(fixup);
    for (int k = 0; k < 8; k++) {
        bytes[k] = (uint8_t)(value >> 8 * k);
    }
}

static void print_line(const struct judged *file, const struct loaded *loaded, const struct kesvuot_fixup *fixup) {
    printf("0x%" PRIx64 " 0x%" PRIx64, fixup->address, value_of(fixup));
    if (fixup->kind == KESVUOT_BIND) {
        const struct kesvuot_import *import = &loaded->imports[fixup->import];
        printf(" %" PRId64 " ", import->library);
        print_name(file, import->name);
    }
    putchar('\n');
}

static void bind_all(const struct judged *file, struct loaded *loaded) {
    struct kesvuot_fixup_cursor cursor = {0};
    struct kesvuot_fixup rows[ROWS];
    for (size_t read = ROWS; read == ROWS;) {
        read = kesvuot_read_fixups(file->bytes, file->size, &loaded->image, &cursor, rows, ROWS);
        for (size_t k = 0; k < read; k++) {
            apply(loaded, &rows[k]);
            print_line(file, loaded, &rows[k]);
        }
    }
}

int main(int argc, char **argv) {
    struct judged file;
    struct loaded loaded = {.segments = NULL};
    struct kesvuot_verdict verdict;
    if (argc != 2) {
        return fail("usage", "binder FILE");
    }
    int status = judge(argv[1], &file);
    if (status == ACCEPTED && kesvuot_verify(file.bytes, file.size, KESVUOT_LINKED, &verdict) != KESVUOT_OK) {
        status = verdict.rule != 0 ? print_refusal(argv[1], &verdict) : fail(argv[1], "there is no memory to judge it");
    }
    if (status == ACCEPTED && !load(&file, &loaded)) {
        status = fail(argv[1], "there is no memory for its tables");
    }
    if (status == ACCEPTED) {
        bind_all(&file, &loaded);
    }
    free(loaded.segments);
    free(loaded.imports);
    free(loaded.copy);
    return finish(&file, status);
}
