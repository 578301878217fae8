// once CALL FILE: makes one call of the library on a file. tests/cost counts its instructions. The program prints the
// result:
//
//     none              nothing: no call is made
//     verify-PROFILE    the verdict by this profile, as the first line of macho-verify
//     layout            the first line
//     NAME              kesvuot_read_image of slice 0, and what the view of this name returns of it
#include "support.h"
#include <inttypes.h>
#include <stdio.h>
#include <stdlib.h>
#include <string.h>

static void print_verdict(uint32_t profile, const struct file *file) {
    struct kesvuot_verdict verdict;
    switch (kesvuot_verify(file->bytes, file->size, profile, &verdict)) {
    case KESVUOT_OK:
        printf("accepted, slices %" PRIu64 "\n", verdict.slices);
        break;
    case KESVUOT_REFUSED:
        printf("refused: %s at 0x%" PRIx64 "\n", kesvuot_rule_name(verdict.rule), verdict.place);
        break;
    default:
        stop("the verdict", "no memory");
    }
}

// There is room for a text as long as the file and as 4096 bytes, which is enough for the files of tests/cost.
static void print_layout(const struct file *file) {
    const size_t room = file->size + 4096;
    char *text = malloc(room);
    size_t needed = 0;
    if (!text || kesvuot_layout(file->bytes, file->size, text, room, &needed) != KESVUOT_OK || needed > room) {
        stop("kesvuot_layout", "no text");
    }
    puts(strtok(text, "\n"));
    free(text);
}

static void print_of_image(const char *name, const struct file *file) {
    struct kesvuot_image image;
    if (kesvuot_read_image(file->bytes, file->size, 0, &image) != KESVUOT_OK) {
        stop("kesvuot_read_image", "there is none");
    }
    for (size_t index = 0; index < view_count; index++) {
        if (!strcmp(name, views[index].name)) {
            printf("%zu\n", views[index].call(file, &image));
            return;
        }
    }
    stop(name, "no such call");
}

static void print(const char *call, const struct file *file) {
    static const char verify[] = "verify-";
    const size_t length = sizeof verify - 1;
    if (!strncmp(call, verify, length)) {
        print_verdict(profile_named(call + length), file);
    } else if (!strcmp(call, "layout")) {
        print_layout(file);
    } else if (strcmp(call, "none") != 0) {
        print_of_image(call, file);
    }
}

int main(int argc, char **argv) {
    if (argc != 3) {
        stop("usage", "once CALL FILE");
    }
    const struct file file = read_file(argv[2], IN_BLOCK);
    print(argv[1], &file);
    release(file);
    return 0;
}
