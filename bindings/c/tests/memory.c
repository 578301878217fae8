// memory FILE..: refuses each allocation of the verdict by each profile and of the layout in turn. Then the status is
// NO_MEMORY. Or the verdict stays, if the allocation was room for elements, which all profiles above the layout keep
// only where there is room: at most one allocation for each slice. All allocated memory is freed. No other call
// allocates memory. Linked with --wrap for malloc, realloc and free.
#include "support.h"
#include <stdio.h>
#include <string.h>

void *__real_malloc(size_t size);
void *__real_realloc(void *block, size_t size);
void __real_free(void *block);
void *__wrap_malloc(size_t size);
void *__wrap_realloc(void *block, size_t size);
void __wrap_free(void *block);

// How many allocations were asked for, which of them is refused, from 1 on, and how many blocks are held.
static long asked, refused, held;

void *__wrap_malloc(size_t size) {
    void *block = ++asked == refused ? NULL : __real_malloc(size);
    held += block != NULL;
    return block;
}

void *__wrap_realloc(void *block, size_t size) {
    void *moved = ++asked == refused ? NULL : __real_realloc(block, size);
    held += moved && !block;
    return moved;
}

void __wrap_free(void *block) {
    held -= block != NULL;
    __real_free(block);
}

static unsigned long refusals;

// Judges the file, and refuses the allocation with this number, if it is not 0.
static uint32_t judge_refusing(uint32_t profile, struct file file, long number, struct kesvuot_verdict *verdict) {
    const long held_before = held;
    memset(verdict, UNWRITTEN, sizeof *verdict);
    asked = 0;
    refused = number;
    const uint32_t status = (uint32_t)kesvuot_verify(file.bytes, file.size, profile, verdict);
    refused = 0;
    CHECK(held == held_before);
    return status;
}

// How many slices of the file have an image.
static uint64_t images_of(struct file file) {
    struct kesvuot_image image;
    uint64_t slice = 0, images = 0;
    for (uint32_t status; (status = kesvuot_read_image(file.bytes, file.size, slice, &image)) != KESVUOT_NONE; slice++) {
        images += status == KESVUOT_OK;
    }
    return images;
}

// Refuses each allocation of the verdict.
static void try_verdict(uint32_t profile, struct file file) {
    struct kesvuot_verdict verdict, wanted;
    static const struct kesvuot_verdict none;
    const uint32_t status = judge_refusing(profile, file, 0, &wanted);
    const long needed = asked;
    uint64_t unmoved = 0;
    CHECK(status == KESVUOT_OK || status == KESVUOT_REFUSED);
    for (long number = 1; number <= needed; number++) {
        const uint32_t refused_status = judge_refusing(profile, file, number, &verdict);
        const bool is_same = refused_status == status;
        CHECK(is_same || refused_status == KESVUOT_NO_MEMORY);
        CHECK(memcmp(&verdict, is_same ? &wanted : &none, sizeof verdict) == 0);
        unmoved += is_same;
        refusals += !is_same;
    }
    CHECK(unmoved <= (profile == KESVUOT_LAYOUT ? 0 : images_of(file)));
    CHECK(judge_refusing(profile, file, needed + 1, &verdict) == status);
    CHECK(memcmp(&verdict, &wanted, sizeof verdict) == 0);
}

enum { ROOM = 64 };

// Asks for the front of the layout, and refuses the allocation with this number, if it is not 0.
static uint32_t write_refusing(struct file file, long number, char *text, size_t *needed) {
    const long held_before = held;
    memset(text, UNWRITTEN, ROOM);
    *needed = 1;
    asked = 0;
    refused = number;
    const uint32_t status = kesvuot_layout(file.bytes, file.size, text, ROOM, needed);
    refused = 0;
    CHECK(held == held_before);
    return status;
}

// Without memory nothing of the layout is written.
static void try_layout(struct file file) {
    char text[ROOM], wanted[ROOM], none[ROOM];
    size_t needed, length;
    const uint32_t status = write_refusing(file, 0, wanted, &length);
    const long allocations = asked;
    memset(none, UNWRITTEN, ROOM);
    CHECK(status == KESVUOT_OK ? length > ROOM && allocations > 0 : status == KESVUOT_REFUSED && length == 0);
    for (long number = 1; number <= allocations; number++) {
        CHECK(write_refusing(file, number, text, &needed) == KESVUOT_NO_MEMORY && needed == 0);
        CHECK(memcmp(text, none, ROOM) == 0);
        refusals++;
    }
    CHECK(write_refusing(file, allocations + 1, text, &needed) == status && needed == length);
    CHECK(memcmp(text, wanted, ROOM) == 0);
}

// Any rule at any of the first places.
static void try_explanations(struct file file) {
    struct kesvuot_verdict verdict = {0};
    struct kesvuot_explanation found;
    const uint32_t end = end_of_rules();
    asked = 0;
    for (verdict.rule = KESVUOT_MAGIC; verdict.rule < end; verdict.rule++) {
        for (verdict.place = 0; verdict.place < file.size && verdict.place < 1024; verdict.place += 4) {
            kesvuot_explain(file.bytes, file.size, &verdict, &found);
        }
    }
    CHECK(asked == 0);
}

static void try_views(struct file file) {
    struct kesvuot_image image;
    asked = 0;
    for (uint64_t slice = 0; kesvuot_read_image(file.bytes, file.size, slice, &image) == KESVUOT_OK; slice++) {
        for (size_t index = 0; index < view_count; index++) {
            views[index].call(&file, &image);
        }
    }
    CHECK(asked == 0);
}

int main(int count, char **words) {
    for (int index = 1; index < count; index++) {
        const struct file file = read_file(words[index], AT_END);
        for (uint32_t profile = KESVUOT_LAYOUT; profile <= KESVUOT_SEALED; profile++) {
            try_verdict(profile, file);
        }
        try_layout(file);
        try_views(file);
        try_explanations(file);
        release(file);
    }
    printf("refused allocations %lu\n", refusals);
    CHECK(refusals > 0);
    return print_counts("memory");
}
