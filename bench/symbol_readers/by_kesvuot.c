// Reads all symbols and fixups of a file by kesvuot.h. bench/symbols runs it, and says what it prints.
//
//     cc -std=c99 -O2 -I bindings/c -o by_kesvuot bench/symbol_readers/by_kesvuot.c build/lib/libkesvuot.a
//     ./by_kesvuot ROUNDS REPEATS FILE

#define _POSIX_C_SOURCE 199309L

#include <inttypes.h>
#include <stdio.h>
#include <stdlib.h>
#include <time.h>

#include "kesvuot.h"

enum { MOST_IMAGES = 64, BATCH = 256 };

struct sums {
    uint64_t count, values, sections, lengths;
};

struct reading {
    void *bytes;
    size_t size;
    struct kesvuot_image images[MOST_IMAGES];
    size_t image_count;
    struct sums sums;
};

static void stop(const char *why) {
    fprintf(stderr, "by_kesvuot: %s\n", why);
    exit(2);
}

static void read_file(const char *path, struct reading *reading) {
    FILE *file = fopen(path, "rb");
    if (file == NULL || fseek(file, 0, SEEK_END) != 0) {
        stop("the file cannot be opened");
    }
    long size = ftell(file);
    rewind(file);
    reading->size = size < 0 ? 0 : (size_t)size;
    reading->bytes = malloc(reading->size + 1);
    if (reading->bytes == NULL || fread(reading->bytes, 1, reading->size, file) != reading->size) {
        stop("the file cannot be read");
    }
    fclose(file);
}

// Steps

// The verdict, and the images of all slices that are read.
static void open_images(struct reading *reading) {
    struct kesvuot_verdict verdict;
    if (kesvuot_verify(reading->bytes, reading->size, KESVUOT_LAYOUT, &verdict) != KESVUOT_OK) {
        stop("the file is refused");
    }
    reading->image_count = 0;
    for (uint64_t k = 0; k < verdict.slices; k++) {
        if (reading->image_count == MOST_IMAGES) {
            stop("the file has too many images");
        }
        struct kesvuot_image *image = &reading->images[reading->image_count];
        if (kesvuot_read_image(reading->bytes, reading->size, k, image) == KESVUOT_OK) {
            reading->image_count++;
        }
    }
}

static void add_rows_of(struct sums *sums, const struct kesvuot_symbol *symbols, size_t count) {
    for (size_t k = 0; k < count; k++) {
        sums->values += symbols[k].value;
        // Without a section 0: KESVUOT_NO_SECTION is the greatest number.
        sums->sections += symbols[k].section + 1u;
    }
    sums->count += count;
}

static void add_names_of(struct reading *reading, const struct kesvuot_image *image,
                         const struct kesvuot_symbol *symbols, size_t count) {
    struct kesvuot_span names[BATCH];
    kesvuot_read_names(reading->bytes, reading->size, image, symbols, count, names, BATCH);
    for (size_t k = 0; k < count; k++) {
        reading->sums.lengths += names[k].size;
    }
}

static void add_image(struct reading *reading, const struct kesvuot_image *image, int with_names) {
    struct kesvuot_cursor cursor = {0};
    struct kesvuot_symbol batch[BATCH];
    size_t count;
    while ((count = kesvuot_read_symbols(reading->bytes, reading->size, image, &cursor, batch, BATCH)) > 0) {
        add_rows_of(&reading->sums, batch, count);
        if (with_names) {
            add_names_of(reading, image, batch, count);
        }
    }
}

static void add_images(struct reading *reading, int with_names) {
    reading->sums = (struct sums){0};
    for (size_t k = 0; k < reading->image_count; k++) {
        add_image(reading, &reading->images[k], with_names);
    }
}

static void add_rows(struct reading *reading) { add_images(reading, 0); }

static void add_names(struct reading *reading) { add_images(reading, 1); }

static void add_fixups_of(struct reading *reading, const struct kesvuot_image *image) {
    struct kesvuot_fixup_cursor cursor = {0};
    struct kesvuot_fixup batch[BATCH];
    size_t count;
    while ((count = kesvuot_read_fixups(reading->bytes, reading->size, image, &cursor, batch, BATCH)) > 0) {
        for (size_t k = 0; k < count; k++) {
            reading->sums.values += batch[k].address;
            reading->sums.sections += batch[k].segment + 1u;
            reading->sums.lengths += batch[k].import;
        }
        reading->sums.count += count;
    }
}

static void add_fixups(struct reading *reading) {
    reading->sums = (struct sums){0};
    for (size_t k = 0; k < reading->image_count; k++) {
        add_fixups_of(reading, &reading->images[k]);
    }
}

// Times

static uint64_t now(void) {
    struct timespec time;
    clock_gettime(CLOCK_PROCESS_CPUTIME_ID, &time);
    return (uint64_t)time.tv_sec * 1000000000u + (uint64_t)time.tv_nsec;
}

// Takes a step as often as it has to be repeated, and returns how many nanoseconds that took.
static uint64_t time_of(void (*step)(struct reading *), struct reading *reading, unsigned long repeats) {
    uint64_t began = now();
    for (unsigned long k = 0; k < repeats; k++) {
        step(reading);
    }
    return now() - began;
}

static void print_sums(const char *step, uint64_t taken, const struct sums *sums) {
    printf("%s %" PRIu64 " %" PRIu64 " %" PRIu64 " %" PRIu64 " %" PRIu64 "\n", step, taken, sums->count, sums->values,
           sums->sections, sums->lengths);
}

int main(int argc, char **argv) {
    static struct reading reading;
    unsigned long rounds = argc == 4 ? strtoul(argv[1], NULL, 10) : 0;
    unsigned long repeats = argc == 4 ? strtoul(argv[2], NULL, 10) : 0;
    if (rounds == 0 || repeats == 0) {
        stop("usage: by_kesvuot ROUNDS REPEATS FILE");
    }
    read_file(argv[3], &reading);
    for (unsigned long round = 0; round < rounds; round++) {
        printf("open %" PRIu64 "\n", time_of(open_images, &reading, repeats));
        print_sums("rows", time_of(add_rows, &reading, repeats), &reading.sums);
        print_sums("names", time_of(add_names, &reading, repeats), &reading.sums);
        print_sums("fixups", time_of(add_fixups, &reading, repeats), &reading.sums);
    }
    free(reading.bytes);
    return 0;
}
