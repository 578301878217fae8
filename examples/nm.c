// Prints the symbols of each image of a file, in the order of the table and without debugging entries, as `llvm-nm -m`
// shows them.
//
//     nm FILE
//
//     0000000100000440 (__TEXT,__text) external _start
//                      (undefined) external _step (from /usr/lib/libdemo.dylib)
//
//     cc -std=c99 -O2 -Ibindings/c -o build/nm examples/nm.c build/lib/libkesvuot.a
//
// The file may be from a stranger. The library judges it once. After that no offset of the file is tested.
#include "judged.h"

// An image with its sections and libraries.
struct tables {
    struct kesvuot_image image;
    struct kesvuot_section *sections;
    struct kesvuot_library *libraries;
};

static bool read_tables(const struct judged *file, struct tables *tables) {
    const size_t sections = tables->image.section_count, libraries = tables->image.library_count;
    struct kesvuot_cursor at_sections = {0}, at_libraries = {0};
    tables->sections = calloc(sections + 1, sizeof *tables->sections);
    tables->libraries = calloc(libraries + 1, sizeof *tables->libraries);
    if (tables->sections == NULL || tables->libraries == NULL) {
        return false;
    }
    kesvuot_read_sections(file->bytes, file->size, &tables->image, &at_sections, tables->sections, sections);
    kesvuot_read_libraries(file->bytes, file->size, &tables->image, &at_libraries, tables->libraries, libraries);
    return true;
}

static int kind_of(const struct kesvuot_symbol *symbol) {
    return symbol->type & KESVUOT_N_TYPE;
}

static bool is_undefined(const struct kesvuot_symbol *symbol) {
    return kind_of(symbol) == KESVUOT_N_UNDF || kind_of(symbol) == KESVUOT_N_PBUD;
}

static void print_kind(const struct judged *file, const struct tables *tables, const struct kesvuot_symbol *symbol) {
    if (is_undefined(symbol)) {
        printf("%16s (%sundefined) ", "", kind_of(symbol) == KESVUOT_N_PBUD ? "prebound " : "");
        return;
    }
    printf("%016" PRIx64 " (", symbol->value);
    switch (kind_of(symbol)) {
    case KESVUOT_N_SECT: {
        // symbol-section: a symbol of this type is in a section that exists.
        const struct kesvuot_section *section = &tables->sections[symbol->section];
        print_name(file, section->segment);
        putchar(',');
        print_name(file, section->name);
        break;
    }
    case KESVUOT_N_ABS:
        printf("absolute");
        break;
    case KESVUOT_N_INDR:
        printf("indirect");
        break;
    default:
        putchar('?');
    }
    printf(") ");
}

static void print_marks(const struct kesvuot_symbol *symbol) {
    const bool is_weak = symbol->desc & (is_undefined(symbol) ? KESVUOT_N_WEAK_REF : KESVUOT_N_WEAK_DEF);
    const bool is_private = symbol->type & KESVUOT_N_PEXT;
    if (symbol->type & KESVUOT_N_EXT) {
        printf("%s%sexternal ", is_weak ? "weak " : "", is_private ? "private " : "");
    } else {
        printf("non-external %s", is_private ? "(was a private external) " : "");
    }
    if (kind_of(symbol) == KESVUOT_N_SECT && symbol->desc & KESVUOT_N_ALT_ENTRY) {
        printf("[alt entry] ");
    }
}

// Prints where a loader looks for the symbol, if the image says so.
static void print_library(const struct judged *file, const struct tables *tables, const struct kesvuot_symbol *symbol) {
    const bool is_common = kind_of(symbol) == KESVUOT_N_UNDF && symbol->value != 0;
    const int ordinal = symbol->desc >> 8;
    if (!(tables->image.flags & KESVUOT_MH_TWOLEVEL) || !is_undefined(symbol) || is_common ||
        ordinal == KESVUOT_SELF_LIBRARY_ORDINAL) {
        return;
    }
    if (ordinal == KESVUOT_DYNAMIC_LOOKUP_ORDINAL) {
        printf(" (dynamically looked up)");
    } else if (ordinal == KESVUOT_EXECUTABLE_ORDINAL) {
        printf(" (from executable)");
    } else if ((uint64_t)ordinal <= tables->image.library_count) {
        // In a file that the linked profile accepts, this is always so.
        printf(" (from ");
        print_name(file, tables->libraries[ordinal - 1].name);
        putchar(')');
    } else {
        printf(" (from bad library ordinal %d)", ordinal);
    }
}

// Prints a symbol, and returns how many bytes its name has.
static uint64_t print_symbol(const struct judged *file, const struct tables *tables,
                             const struct kesvuot_symbol *symbol) {
    struct kesvuot_span name, other;
    print_kind(file, tables, symbol);
    print_marks(symbol);
    kesvuot_symbol_name(file->bytes, file->size, &tables->image, symbol->strx, &name);
    print_name(file, name);
    // The value of an indirect symbol is where the name is for which it stands.
    if (kind_of(symbol) == KESVUOT_N_INDR && symbol->value <= UINT32_MAX &&
        kesvuot_symbol_name(file->bytes, file->size, &tables->image, (uint32_t)symbol->value, &other) == KESVUOT_OK) {
        printf(" (for ");
        print_name(file, other);
        putchar(')');
    }
    print_library(file, tables, symbol);
    putchar('\n');
    return name.size;
}

static int print_image(const struct judged *file, const char *path, const struct kesvuot_image *image) {
    struct tables tables = {.image = *image};
    struct kesvuot_cursor cursor = {0};
    struct kesvuot_symbol symbol;
    uint64_t sum = 0;
    const bool has_tables = read_tables(file, &tables);
    // A hostile file can have a million symbols of one long name.
    while (has_tables && sum <= 4 * image->strings_size &&
           kesvuot_read_symbols(file->bytes, file->size, image, &cursor, &symbol, 1) > 0) {
        sum += symbol.type & KESVUOT_N_STAB ? 0 : print_symbol(file, &tables, &symbol);
    }
    free(tables.sections);
    free(tables.libraries);
    if (!has_tables) {
        return fail(path, "there is no memory for its tables");
    }
    return sum <= 4 * image->strings_size ? ACCEPTED : fail(path, "many of its symbols share long names");
}

int main(int argc, char **argv) {
    struct judged file;
    struct kesvuot_image image;
    if (argc != 2) {
        return fail("usage", "nm FILE");
    }
    int status = judge(argv[1], &file);
    for (uint64_t slice = 0; status == ACCEPTED && slice < file.slices; slice++) {
        if (kesvuot_read_image(file.bytes, file.size, slice, &image) == KESVUOT_OK) {
            status = print_image(&file, argv[1], &image);
        }
    }
    return finish(&file, status);
}
