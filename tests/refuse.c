// Loaded before a program of this repository (LD_PRELOAD): stands between it and the system, and refuses one of its
// growths of memory, reads or writes, or cuts its reads and writes. The environment says which, counted from 1 on:
//
//   REFUSED_GROWTH  the call of malloc or realloc that has no memory
//   REFUSED_READ    the read that fails
//   REFUSED_WRITE   the write to standard output that fails
//   EMPTY_WRITE     the write to standard output that takes no bytes
//   READ_MOST       how many bytes a read gives at most, or `random`: a number from 1 to 200, another each time
//   WRITE_MOST      how many bytes a write to standard output takes at most
//   REPORTS         the number of an open file: a refusal is reported by a line to it

typedef unsigned long size;

extern void *__libc_malloc(size count);
extern void *__libc_realloc(void *memory, size count);
extern long __read(int file, void *bytes, size count);
extern long __write(int file, const void *bytes, size count);
extern int *__errno_location(void);
extern char *getenv(const char *name);
extern long strtol(const char *text, char **end, int base);

enum { STANDARD_OUTPUT = 1, INPUT_OUTPUT_ERROR = 5 };

static long growths, reads, writes;

// The number in a variable of the environment, or 0 if it is not set.
static long number_in(const char *name) {
    const char *word = getenv(name);
    return word ? strtol(word, 0, 10) : 0;
}

// Whether the environment refuses the call with this number.
static int refuses(const char *name, long number) {
    if (number_in(name) != number) {
        return 0;
    }
    __write((int)number_in("REPORTS"), "refused\n", 8);
    return 1;
}

static long failed(void) {
    *__errno_location() = INPUT_OUTPUT_ERROR;
    return -1;
}

static size at_most(size count, long most) {
    return most > 0 && (size)most < count ? (size)most : count;
}

// How many bytes the next read gives at most, and 0 for any number.
static long most_of_a_read(void) {
    static unsigned random = 1;
    const char *word = getenv("READ_MOST");
    if (!word || *word != 'r') {
        return number_in("READ_MOST");
    }
    random = random * 1103515245 + 12345;
    return random / 65536 % 200 + 1;
}

void *malloc(size count) {
    return refuses("REFUSED_GROWTH", ++growths) ? 0 : __libc_malloc(count);
}

void *realloc(void *memory, size count) {
    return refuses("REFUSED_GROWTH", ++growths) ? 0 : __libc_realloc(memory, count);
}

long read(int file, void *bytes, size count) {
    if (refuses("REFUSED_READ", ++reads)) {
        return failed();
    }
    return __read(file, bytes, at_most(count, most_of_a_read()));
}

long write(int file, const void *bytes, size count) {
    if (file != STANDARD_OUTPUT) {
        return __write(file, bytes, count);
    }
    if (refuses("REFUSED_WRITE", ++writes)) {
        return failed();
    }
    if (refuses("EMPTY_WRITE", writes)) {
        return 0;
    }
    return __write(file, bytes, at_most(count, number_in("WRITE_MOST")));
}
