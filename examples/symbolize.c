// Prints the symbol and the section at each address. The image is the first one in FILE that is read.
//
//     symbolize FILE ADDRESS..
//
// An address has up to 16 hexadecimal digits, with or without 0x. Its line is
//
//     0xADDRESS SYMBOL + 0xOFFSET (SEGMENT,SECTION)
//
// with the nearest symbol at or before ADDRESS; if several have its address, the last in the table. If no symbol is at
// or before ADDRESS, or ADDRESS is not in the symbol's section, SYMBOL is `function at 0xSTART`, the nearest function
// by LC_FUNCTION_STARTS, as in a file that was stripped. The line is `0xADDRESS ?` if no function before it begins in
// its section either.
//
//     cc -std=c99 -O2 -Ibindings/c -o build/symbolize examples/symbolize.c build/lib/libkesvuot.a
//
// The file may be from a stranger. The library judges it once. After that no offset, count or index of the file is
// tested.
#include <ctype.h>
#include <errno.h>

#include "judged.h"

// An image with its sections, the index of its symbols, and the addresses of its functions, which ascend.
struct tables {
    struct kesvuot_image image;
    struct kesvuot_section *sections;
    uint32_t *index;
    size_t count;
    uint64_t *functions;
    size_t function_count;
};

// Reads the functions. Each has a byte or more of the data.
static bool read_functions(const struct judged *file, struct tables *tables) {
    struct kesvuot_cursor cursor = {0};
    struct kesvuot_span data;
    kesvuot_find_data(file->bytes, file->size, &tables->image, KESVUOT_LC_FUNCTION_STARTS, &data);
    const size_t most = data.size;
    tables->functions = calloc(most + 1, sizeof *tables->functions);
    if (tables->functions == NULL) {
        return false;
    }
    tables->function_count = kesvuot_read_function_starts(file->bytes, file->size, &tables->image, &cursor,
                                                          tables->functions, most);
    return true;
}

static bool read_tables(const struct judged *file, struct tables *tables) {
    struct kesvuot_cursor cursor = {0};
    for (uint64_t k = 0; kesvuot_read_image(file->bytes, file->size, k, &tables->image) != KESVUOT_OK;) {
        k++; // fat-empty: some slice is read.
    }
    const size_t sections = tables->image.section_count, symbols = tables->image.symbol_count;
    tables->sections = calloc(sections + 1, sizeof *tables->sections);
    tables->index = calloc(symbols + 1, sizeof *tables->index);
    if (tables->sections == NULL || tables->index == NULL || !read_functions(file, tables)) {
        return false;
    }
    kesvuot_read_sections(file->bytes, file->size, &tables->image, &cursor, tables->sections, sections);
    tables->count = kesvuot_index_symbols(file->bytes, file->size, &tables->image, tables->index, symbols);
    return true;
}

static bool is_in(const struct kesvuot_section *section, uint64_t address) {
    return address >= section->addr && address - section->addr < section->size;
}

static void print_place(const struct judged *file, uint64_t offset, const struct kesvuot_section *section) {
    printf(" + 0x%" PRIx64 " (", offset);
    print_name(file, section->segment);
    putchar(',');
    print_name(file, section->name);
    puts(")");
}

// The nearest function at or before an address, or NULL.
static const uint64_t *find_function(const struct tables *tables, uint64_t address) {
    size_t low = 0, high = tables->function_count;
    while (low < high) {
        const size_t middle = low + (high - low) / 2;
        if (tables->functions[middle] <= address) {
            low = middle + 1;
        } else {
            high = middle;
        }
    }
    return low == 0 ? NULL : &tables->functions[low - 1];
}

// Prints the nearest function, if it begins in the section of the address.
static void print_function(const struct judged *file, const struct tables *tables, uint64_t address) {
    const uint64_t *function = find_function(tables, address);
    for (uint64_t k = 0; function != NULL && k < tables->image.section_count; k++) {
        const struct kesvuot_section *section = &tables->sections[k];
        if (is_in(section, address) && is_in(section, *function)) {
            printf("function at 0x%" PRIx64, *function);
            print_place(file, address - *function, section);
            return;
        }
    }
    puts("?");
}

static void print_line(const struct judged *file, const struct tables *tables, uint64_t address) {
    const struct kesvuot_image *image = &tables->image;
    struct kesvuot_symbol symbol;
    struct kesvuot_span name;
    size_t at;
    uint32_t status = kesvuot_find_symbol(file->bytes, file->size, image, tables->index, tables->count, address,
                                          &symbol, &at);
    // symbol-section: each symbol of the index is in a section that exists.
    const struct kesvuot_section *section = status == KESVUOT_OK ? &tables->sections[symbol.section] : NULL;
    printf("0x%" PRIx64 " ", address);
    if (section == NULL || !is_in(section, address)) {
        print_function(file, tables, address);
        return;
    }
    kesvuot_symbol_name(file->bytes, file->size, image, symbol.strx, &name);
    print_name(file, name);
    print_place(file, address - symbol.value, section);
}

// Reads an address. strtoull alone would also accept signs and blanks.
static bool read_address(const char *word, uint64_t *address) {
    char *end;
    errno = 0;
    *address = strtoull(word, &end, 16);
    return isxdigit((unsigned char)word[0]) && *end == '\0' && errno == 0;
}

int main(int argc, char **argv) {
    struct judged file;
    struct tables tables = {.sections = NULL};
    if (argc < 3) {
        return fail("usage", "symbolize FILE ADDRESS..");
    }
    int status = judge(argv[1], &file);
    if (status == ACCEPTED && !read_tables(&file, &tables)) {
        status = fail(argv[1], "there is no memory for its tables");
    }
    for (uint64_t address; status == ACCEPTED && *(argv + 2) != NULL; argv++) {
        if (!read_address(argv[2], &address)) {
            status = fail(argv[2], "not an address");
        } else {
            print_line(&file, &tables, address);
        }
    }
    free(tables.sections);
    free(tables.index);
    free(tables.functions);
    return finish(&file, status);
}
