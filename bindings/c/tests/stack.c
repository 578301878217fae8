// stack MOST FILE..: how much stack each call takes at most, on any of the files, beyond what a thread takes that makes
// none. Each call runs in a thread whose stack is painted first: what is still painted afterwards was not used. A call
// that takes more than MOST bytes fails.
#define _GNU_SOURCE // MAP_ANONYMOUS
#include "support.h"
#include <inttypes.h>
#include <pthread.h>
#include <stdio.h>
#include <stdlib.h>
#include <string.h>
#include <sys/mman.h>

enum { STACK_SIZE = 1 << 20 };

static uint8_t *stack;
static struct file file;
static struct kesvuot_image image;
static char text[1 << 16];
static uint32_t rules_end, profile;

static void verify(void) {
    struct kesvuot_verdict verdict;
    kesvuot_verify(file.bytes, file.size, profile, &verdict);
}

static void layout(void) {
    size_t needed;
    kesvuot_layout(file.bytes, file.size, text, sizeof text, &needed);
}

// Each rule, at the places where the first structures are.
static void explain(void) {
    struct kesvuot_explanation found;
    for (uint32_t rule = KESVUOT_MAGIC; rule < rules_end; rule++) {
        for (uint64_t place = 0; place < 512; place += 8) {
            const struct kesvuot_verdict verdict = {.place = place, .rule = rule};
            kesvuot_explain(file.bytes, file.size, &verdict, &found);
        }
    }
}

static void first_image(void) {
    kesvuot_read_image(file.bytes, file.size, 0, &image);
}

static const struct {
    const char *name;
    void (*call)(void);
    uint32_t profile; // 0: the call takes none
} calls[] = {{"verify, layout", verify, KESVUOT_LAYOUT},
             {"verify, strict", verify, KESVUOT_STRICT},
             {"verify, linked", verify, KESVUOT_LINKED},
             {"verify, unambiguous", verify, KESVUOT_UNAMBIGUOUS},
             {"verify, sealed", verify, KESVUOT_SEALED},
             {"layout", layout, 0},
             {"explain", explain, 0},
             {"read_image", first_image, 0}};
enum { CALLS = sizeof calls / sizeof *calls };

// How many bytes each takes at most: the calls, and then the views of the image, which `first_image` has set.
static size_t *taken, all;

static void *run(void *given) {
    const size_t index = *(const size_t *)given;
    if (index < CALLS) {
        profile = calls[index].profile;
        calls[index].call();
    } else {
        views[index - CALLS].call(&file, &image);
    }
    return NULL;
}

static void *run_none(void *unused) {
    return unused;
}

// How many bytes of the stack a thread uses.
static size_t used_by(void *(*start)(void *), void *given) {
    pthread_attr_t attributes;
    pthread_t thread;
    memset(stack, UNWRITTEN, STACK_SIZE);
    if (pthread_attr_init(&attributes) || pthread_attr_setstack(&attributes, stack, STACK_SIZE) ||
        pthread_create(&thread, &attributes, start, given) || pthread_join(thread, NULL)) {
        stop("pthread_create", "it failed");
    }
    pthread_attr_destroy(&attributes);
    size_t painted = 0;
    while (painted < STACK_SIZE && stack[painted] == UNWRITTEN) {
        painted++;
    }
    return STACK_SIZE - painted;
}

static void measure(const char *path) {
    file = read_file(path, AT_END);
    const size_t base = used_by(run_none, NULL);
    for (size_t index = 0; index < all; index++) {
        const size_t used = used_by(run, &index);
        if (used > base && used - base > taken[index]) {
            taken[index] = used - base;
        }
    }
    release(file);
}

int main(int count, char **words) {
    if (count < 3) {
        stop("usage", "stack MOST FILE..");
    }
    stack = mmap(NULL, STACK_SIZE, PROT_READ | PROT_WRITE, MAP_PRIVATE | MAP_ANONYMOUS, -1, 0);
    all = CALLS + view_count;
    taken = calloc(all, sizeof *taken);
    if (stack == MAP_FAILED || !taken) {
        stop("mmap or calloc", "no memory");
    }
    rules_end = end_of_rules();
    for (int index = 2; index < count; index++) {
        measure(words[index]);
    }
    const size_t most = strtoul(words[1], NULL, 10);
    for (size_t index = 0; index < all; index++) {
        const char *name = index < CALLS ? calls[index].name : views[index - CALLS].name;
        printf("%s: %zu bytes\n", name, taken[index]);
        check(taken[index] <= most, name, __LINE__);
    }
    // A call may take no more than the thread itself does, but not a verdict.
    CHECK(taken[0] > 0);
    free(taken);
    return print_counts("stack");
}
