// parts FILE SLICE [ADDRESS..]: prints what the calls return of an image of an accepted file, and what is at the
// addresses, which are hexadecimal. It prints the lines of the texts in tests/real (tests/library says how they were
// made), except for the fields of LC_DYSYMTAB that the library does not return.
#include "support.h"
#include <inttypes.h>
#include <stdio.h>
#include <stdlib.h>

enum {
    ROWS = 64,
    SHOWN = 8,
    LC_SYMTAB = 0x2,
    LC_DYSYMTAB = 0xb,
    LC_LOAD_DYLINKER = 0xe,
    LC_SEGMENT_64 = 0x19,
    SEGMENT_SIZE = 72,
    SECTION_SIZE = 80,
    SYMBOL_SIZE = 16,
    INDIRECT_SIZE = 4
};
static const uint32_t LC_RPATH = 0x8000001c, MARKS = 0xc0000000;
static const uint32_t DATA_COMMANDS[] = {0x1d, 0x26, 0x29, 0x80000033, 0x80000034, LC_SYMTAB};

// The tables of the image, which are small.
static struct file file;
static struct kesvuot_image image;
static struct kesvuot_command commands[ROWS];
static struct kesvuot_segment segments[ROWS];
static struct kesvuot_section sections[ROWS];
static struct kesvuot_symbol symbols[ROWS];
static uint32_t indirects[ROWS];
static size_t command_count, segment_count, section_count, symbol_count, indirect_count;

#define READ(table) \
    (cursor = (struct kesvuot_cursor){0}, kesvuot_read_##table(file.bytes, file.size, &image, &cursor, table, ROWS))

static void read_tables(void) {
    struct kesvuot_cursor cursor;
    command_count = READ(commands);
    segment_count = READ(segments);
    section_count = READ(sections);
    symbol_count = READ(symbols);
    indirect_count = READ(indirects);
}

static void print_digits(const uint8_t *bytes, size_t len) {
    for (size_t index = 0; index < len; index++) {
        printf(" %02x", (unsigned)bytes[index]);
    }
}

// The length, the first bytes and, of more, the last ones.
static void print_bytes(struct kesvuot_span span) {
    const uint8_t *bytes = bytes_at(&file, span);
    printf(" size %" PRIu64, span.size);
    print_digits(bytes, span.size < SHOWN ? span.size : SHOWN);
    if (span.size > SHOWN) {
        printf(" ..");
        print_digits(bytes + (span.size - SHOWN), SHOWN);
    }
    putchar('\n');
}

// Where a command begins in the image.
static uint64_t start_of(const struct kesvuot_command *command) {
    return command->bytes.offset - image.slice.offset;
}

// The place of the command with this cmd that this many others with it come before.
static uint64_t place_of(uint32_t cmd, size_t before) {
    for (size_t index = 0; index < command_count; index++) {
        if (commands[index].cmd == cmd && before-- == 0) {
            return start_of(&commands[index]);
        }
    }
    return 0;
}

static void print_field(const char *name, uint64_t value) {
    printf(", %s: %" PRIu64, name, value);
}

static void print_symtab(void) {
    printf("Symtab { place: %" PRIu64, place_of(LC_SYMTAB, 0));
    print_field("symoff", image.symbols);
    print_field("nsyms", image.symbol_count);
    print_field("stroff", image.strings);
    print_field("strsize", image.strings_size);
    puts(" }");
}

static void print_dysymtab(void) {
    static const char *const names[] = {"ilocalsym", "nlocalsym", "iextdefsym", "nextdefsym", "iundefsym", "nundefsym"};
    printf("Dysymtab { place: %" PRIu64, place_of(LC_DYSYMTAB, 0));
    for (size_t index = 0; index < sizeof names / sizeof *names; index++) {
        print_field(names[index], image.groups[index]);
    }
    print_field("indirectsymoff", image.indirects);
    print_field("nindirectsyms", image.indirect_count);
    puts(" }");
}

static void print_commands(void) {
    if (image.has & KESVUOT_HAS_BASE) {
        printf("base 0x%" PRIx64 "\n", image.base);
    }
    for (size_t index = 0; index < command_count; index++) {
        printf("command 0x%" PRIx64 " 0x%" PRIx32 " size 0x%" PRIx64 "\n", start_of(&commands[index]),
               commands[index].cmd, commands[index].bytes.size);
    }
    if (image.has & KESVUOT_HAS_SYMTAB) {
        print_symtab();
    }
    if (image.has & KESVUOT_HAS_DYSYMTAB) {
        print_dysymtab();
    }
}

static void print_section(const struct kesvuot_section *section, uint64_t place) {
    printf("section ");
    print_name(&file, section->name);
    printf(" at 0x%" PRIx64 " relocs %" PRIu32 " %" PRIu32 " flags 0x%" PRIx32 " align %" PRIu32 " reserved %" PRIu32
           " %" PRIu32, place, section->reloff, section->nreloc, section->flags, section->align, section->reserved1,
           section->reserved2);
    if (section->zero_fill) {
        puts(" zero-fill");
    } else {
        print_bytes(section->bytes);
    }
}

static void print_segments(void) {
    for (size_t index = 0; index < segment_count; index++) {
        const struct kesvuot_segment *segment = &segments[index];
        const uint64_t place = place_of(LC_SEGMENT_64, index) + SEGMENT_SIZE;
        printf("segment ");
        print_name(&file, segment->name);
        printf(" maxprot %" PRIu32, segment->maxprot);
        print_bytes(segment->bytes);
        for (uint32_t at = 0; at < segment->section_count; at++) {
            print_section(&sections[segment->first_section + at], place + at * SECTION_SIZE);
        }
    }
    printf("numbers");
    for (size_t index = 0; index < section_count; index++) {
        printf(" %zu ", index + 1);
        print_name(&file, sections[index].name);
    }
    putchar('\n');
}

// The first dynamic linker, and each run path.
static void print_paths(void) {
    const uint64_t dylinker = place_of(LC_LOAD_DYLINKER, 0);
    for (size_t index = 0; index < command_count; index++) {
        const bool is_rpath = commands[index].cmd == LC_RPATH;
        if (is_rpath || start_of(&commands[index]) == dylinker) {
            printf("%s \"", is_rpath ? "rpath" : "dylinker");
            print_name(&file, commands[index].name);
            puts("\"");
        }
    }
}

static void print_data(void) {
    struct kesvuot_span data;
    for (size_t index = 0; index < sizeof DATA_COMMANDS / sizeof *DATA_COMMANDS; index++) {
        if (kesvuot_find_data(file.bytes, file.size, &image, DATA_COMMANDS[index], &data) == KESVUOT_OK) {
            printf("data 0x%" PRIx32, DATA_COMMANDS[index]);
            print_bytes(data);
        }
    }
}

static void print_name_of(const struct kesvuot_symbol *symbol) {
    struct kesvuot_span name;
    if (kesvuot_symbol_name(file.bytes, file.size, &image, symbol->strx, &name) == KESVUOT_OK) {
        print_name(&file, name);
    } else {
        printf("(none)");
    }
}

static void print_symbol(size_t index) {
    const struct kesvuot_symbol *symbol = &symbols[index];
    printf("symbol %zu ", index);
    print_name_of(symbol);
    printf(" 0x%" PRIx64 " at 0x%" PRIx64 " strx %" PRIu32 " type 0x%x sect %u desc 0x%x", symbol->value,
           image.symbols + index * SYMBOL_SIZE, symbol->strx, (unsigned)symbol->type, (unsigned)symbol->sect,
           (unsigned)symbol->desc);
    if (symbol->section != KESVUOT_NO_SECTION) {
        printf(" in ");
        print_name(&file, sections[symbol->section].name);
    }
    putchar('\n');
}

static void print_group(const char *word, uint64_t first, uint64_t count) {
    printf("%s", word);
    for (uint64_t index = first; index < first + count; index++) {
        putchar(' ');
        print_name_of(&symbols[index]);
    }
    putchar('\n');
}

static void print_symbols(void) {
    for (size_t index = 0; index < symbol_count; index++) {
        print_symbol(index);
    }
    print_group("all", 0, symbol_count);
    print_group("local", image.groups[0], image.groups[1]);
    print_group("defined", image.groups[2], image.groups[3]);
    print_group("undefined", image.groups[4], image.groups[5]);
}

static void print_indirects(void) {
    for (size_t index = 0; index < indirect_count; index++) {
        printf("indirect 0x%" PRIx32 " at 0x%" PRIx64 " ", indirects[index], image.indirects + index * INDIRECT_SIZE);
        if (indirects[index] & MARKS) {
            printf("none");
        } else {
            print_name_of(&symbols[indirects[index]]);
        }
        putchar('\n');
    }
}

// What is there, and four bytes if the segment has as many.
static void print_address(uint64_t address) {
    struct kesvuot_span bytes;
    printf("address 0x%" PRIx64, address);
    switch (kesvuot_find_address(file.bytes, file.size, &image, address, &bytes)) {
    case KESVUOT_OK:
        printf(" Some(File(%" PRIu64 "))", bytes.offset - image.slice.offset);
        if (bytes.size >= 4) {
            printf(" size 4");
            print_digits(bytes_at(&file, bytes), 4);
        }
        puts("");
        break;
    case KESVUOT_ZERO:
        puts(" Some(Zero)");
        break;
    case KESVUOT_NONE:
        puts(" None");
        break;
    default:
        puts(" another status");
    }
}

int main(int count, char **words) {
    if (count < 3) {
        stop("usage", "parts FILE SLICE [ADDRESS..]");
    }
    file = read_file(words[1], side_or_block(AT_END));
    if (kesvuot_read_image(file.bytes, file.size, strtoull(words[2], NULL, 10), &image) != KESVUOT_OK) {
        stop(words[1], "it has no such image");
    }
    read_tables();
    print_commands();
    print_segments();
    print_paths();
    print_data();
    print_symbols();
    print_indirects();
    for (int index = 3; index < count; index++) {
        print_address(strtoull(words[index], NULL, 16));
    }
    release(file);
}
