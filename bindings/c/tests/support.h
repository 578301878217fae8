// What the tests of the library share: files between guard pages, and texts.
#ifndef SUPPORT_H
#define SUPPORT_H

#include "kesvuot.h"
#include <stdbool.h>

// Where a file lies. Its last byte is the last byte of the pages that may be read, or its first byte is their first
// byte: there a read outside ends the program. Or it lies in a block of malloc: there valgrind sees a read outside.
enum side { AT_END, AT_START, IN_BLOCK };

struct file {
    uint8_t *bytes;
    size_t size;
    void *pages; // or the block
    size_t pages_size;
};

// The bytes of the file at the path, or of `size` bytes from `data` on. They cannot be written to between guard pages.
struct file read_file(const char *path, enum side side);
struct file file_of(const void *data, size_t size, enum side side);
void release(struct file file);

// What a test puts where a call may write, so that a byte that is not written is seen.
enum { UNWRITTEN = 0xa5 };

// Room for a call to write to, between guard pages. All its bytes are UNWRITTEN.
struct file room_of(size_t size, enum side side);

bool is_filled(const void *bytes, size_t size, int value);

// The side that the environment asks for: IN_BLOCK if IN_BLOCK is set, otherwise the given one.
enum side side_or_block(enum side side);

// Ends the program with the status 2, after a line on standard error.
void stop(const char *what, const char *why);

// A case of a test: prints a line where it fails, and counts.
void check(bool holds, const char *what, int line);
#define CHECK(condition) check((condition), #condition, __LINE__)

// How many cases were counted, and how many failed. `print_counts` ends with the status.
int print_counts(const char *name);

// Where the bytes of a span lie in memory.
const uint8_t *bytes_at(const struct file *file, struct kesvuot_span span);

void print_name(const struct file *file, struct kesvuot_span name);

// One more than the number of the last rule. The first rule has the number 1, and no number between is left out.
uint32_t end_of_rules(void);

// The number of the profile with this name. Ends the program if no profile has the name.
uint32_t profile_named(const char *name);

// A call on an image, by its name without `kesvuot_`. support.c asks for rows or answers, and the call returns how many
// the library gives, or whether it gives one.
struct view {
    const char *name;
    size_t (*call)(const struct file *file, const struct kesvuot_image *image);
};

extern const struct view views[];
extern const size_t view_count;

#endif
