// verdicts FOLDER COUNT PROFILE: judges the files 1 to COUNT of a folder by a profile, and prints a line for each, as
// vectors have it: `accepted`, or `refused: RULE at 0xPLACE`. Each file lies at the end of its pages, and then at the
// start.
#include "support.h"
#include <inttypes.h>
#include <stdio.h>
#include <stdlib.h>
#include <string.h>

// A verdict before the call. UNWRITTEN shows a field that the call does not write.
static struct kesvuot_verdict unwritten(void) {
    struct kesvuot_verdict verdict;
    memset(&verdict, UNWRITTEN, sizeof verdict);
    return verdict;
}

static void print_line(uint32_t status, const struct kesvuot_verdict *verdict) {
    const char *name = kesvuot_rule_name(verdict->rule);
    if (status == KESVUOT_OK && !verdict->rule && !verdict->place && verdict->slices && !verdict->reserved) {
        puts("accepted");
    } else if (status == KESVUOT_REFUSED && name && !verdict->slices && !verdict->reserved) {
        printf("refused: %s at 0x%" PRIx64 "\n", name, verdict->place);
    } else {
        printf("status %" PRIu32 ", rule %" PRIu32 ", place %" PRIu64 ", slices %" PRIu64 "\n", status, verdict->rule,
               verdict->place, verdict->slices);
    }
}

static uint32_t judge_at(uint32_t profile, const char *path, enum side side, struct kesvuot_verdict *verdict) {
    const struct file file = read_file(path, side_or_block(side));
    *verdict = unwritten();
    const uint32_t status = (uint32_t)kesvuot_verify(file.bytes, file.size, profile, verdict);
    release(file);
    return status;
}

int main(int count, char **words) {
    if (count != 4) {
        stop("usage", "verdicts FOLDER COUNT PROFILE");
    }
    const uint32_t profile = profile_named(words[3]);
    for (long number = 1; number <= strtol(words[2], NULL, 10); number++) {
        char path[4096];
        struct kesvuot_verdict at_end, at_start;
        snprintf(path, sizeof path, "%s/%ld", words[1], number);
        const uint32_t status = judge_at(profile, path, AT_END, &at_end);
        if (judge_at(profile, path, AT_START, &at_start) != status || memcmp(&at_end, &at_start, sizeof at_end) != 0) {
            puts("another verdict at the start of a page");
        }
        print_line(status, &at_end);
    }
}
