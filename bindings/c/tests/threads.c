// threads ROUNDS FILE: four threads call at once, on the same bytes and the same image, and each must get the results
// that one thread alone gets.
#include "support.h"
#include <pthread.h>
#include <stdlib.h>
#include <string.h>

enum { THREADS = 4, ROWS = 64 };

// What the calls give.
struct answer {
    struct kesvuot_verdict verdicts[KESVUOT_SEALED + 1]; // by the numbers of the profiles
    struct kesvuot_image image;
    struct kesvuot_segment segments[ROWS];
    struct kesvuot_symbol symbols[ROWS];
    struct kesvuot_span bytes;
};

static struct file file;
static struct answer wanted;
static long rounds;

static void ask(struct answer *answer) {
    memset(answer, 0, sizeof *answer);
    for (uint32_t profile = KESVUOT_LAYOUT; profile <= KESVUOT_SEALED; profile++) {
        kesvuot_verify(file.bytes, file.size, profile, &answer->verdicts[profile]);
    }
    kesvuot_read_image(file.bytes, file.size, 0, &answer->image);
    struct kesvuot_cursor of_segments = {0}, of_symbols = {0};
    kesvuot_read_segments(file.bytes, file.size, &answer->image, &of_segments, answer->segments, ROWS);
    kesvuot_read_symbols(file.bytes, file.size, &answer->image, &of_symbols, answer->symbols, ROWS);
    kesvuot_find_address(file.bytes, file.size, &answer->image, answer->image.base, &answer->bytes);
}

// Returns null where all answers are the wanted one.
static void *run(void *failure) {
    struct answer answer;
    for (long round = 0; round < rounds; round++) {
        ask(&answer);
        if (memcmp(&answer, &wanted, sizeof answer) != 0) {
            return failure;
        }
    }
    return NULL;
}

int main(int count, char **words) {
    pthread_t threads[THREADS];
    if (count != 3) {
        stop("usage", "threads ROUNDS FILE");
    }
    rounds = strtol(words[1], NULL, 10);
    file = read_file(words[2], AT_END);
    ask(&wanted);
    CHECK(wanted.verdicts[KESVUOT_LAYOUT].slices == 1 && wanted.image.segment_count > 0 && wanted.bytes.size > 0);
    for (size_t index = 0; index < THREADS; index++) {
        CHECK(pthread_create(&threads[index], NULL, run, words) == 0);
    }
    for (size_t index = 0; index < THREADS; index++) {
        void *failure = words;
        CHECK(pthread_join(threads[index], &failure) == 0 && !failure);
    }
    release(file);
    return print_counts("threads");
}
