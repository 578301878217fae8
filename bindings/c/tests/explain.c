// explain FOLDER COUNT: judges the files 1 to COUNT of a folder by the sealed profile, which has all rules, and
// explains each refusal. It prints a line for each file: `accepted`, or the rule, the place and all numbers of the
// explanation. Each file lies at the end of its pages, and then at the start.
#include "support.h"
#include <inttypes.h>
#include <stdio.h>
#include <stdlib.h>
#include <string.h>

static void print_part(const struct kesvuot_part *part) {
    printf(" %" PRIu32 " %" PRIu32 " %" PRIu64 " %" PRIu64 " %" PRIu64, part->kind, part->index, part->start, part->size,
           part->described);
}

static void print_line(const struct kesvuot_verdict *verdict, const struct kesvuot_explanation *found) {
    printf("%s %" PRIu64, kesvuot_rule_name(verdict->rule), verdict->place);
    print_part(&found->at);
    print_part(&found->first);
    print_part(&found->second);
    printf(" %" PRIu64 " %" PRIu64 " %" PRIu32 " %" PRIu32 " %" PRIu32 " %" PRIu32 "\n", found->value, found->limit,
           found->slice, found->command, found->section, found->symbol);
}

// The status of the call on the file at this side. A field that is not written is seen.
static uint32_t explain_at(const char *path, enum side side, struct kesvuot_verdict *verdict,
                           struct kesvuot_explanation *found) {
    const struct file file = read_file(path, side_or_block(side));
    uint32_t status = KESVUOT_REFUSED;
    memset(found, UNWRITTEN, sizeof *found);
    if (kesvuot_verify(file.bytes, file.size, KESVUOT_SEALED, verdict) == KESVUOT_REFUSED) {
        status = kesvuot_explain(file.bytes, file.size, verdict, found);
    }
    release(file);
    return status;
}

int main(int count, char **words) {
    if (count < 3) {
        stop("usage", "explain FOLDER COUNT");
    }
    for (long number = 1; number <= strtol(words[2], NULL, 10); number++) {
        char path[4096];
        struct kesvuot_verdict verdict;
        struct kesvuot_explanation at_end, at_start;
        snprintf(path, sizeof path, "%s/%ld", words[1], number);
        const uint32_t status = explain_at(path, AT_END, &verdict, &at_end);
        if (explain_at(path, AT_START, &verdict, &at_start) != status ||
            memcmp(&at_end, &at_start, sizeof at_end) != 0) {
            puts("another explanation at the start of a page");
        }
        if (verdict.rule == 0) {
            puts("accepted");
        } else if (status == KESVUOT_OK) {
            print_line(&verdict, &at_end);
        } else {
            printf("status %" PRIu32 "\n", status);
        }
    }
}
