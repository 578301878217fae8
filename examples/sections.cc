// Prints the sections of each image of a file, with the number of symbols that are defined in each. In C++17.
//
//     sections FILE
//
//     __TEXT,__text 0x100000440 27 bytes, 1 symbols
//
//     c++ -std=c++17 -O2 -Ibindings/c -o sections examples/sections.cc build/lib/libkesvuot.a
//
// The file may be from a stranger. The library judges it once. After that no offset of the file is tested. The status
// is 0, or 1 if the file is refused, or 2 if it cannot be read or judged.

#include <cstdint>
#include <cstdio>
#include <fstream>
#include <iostream>
#include <iterator>
#include <optional>
#include <stdexcept>
#include <string>
#include <string_view>
#include <vector>

#include "kesvuot.h"

namespace {

using Bytes = std::vector<unsigned char>;

// Reads a file into memory, where nobody else can change it.
Bytes read(const char *path) {
    std::ifstream stream(path, std::ios::binary);
    Bytes bytes((std::istreambuf_iterator<char>(stream)), std::istreambuf_iterator<char>());
    if (!stream.is_open() || stream.bad()) {
        throw std::runtime_error("it cannot be read");
    }
    return bytes;
}

// A part of a file as text.
std::string_view text(const Bytes &file, kesvuot_span span) {
    return {reinterpret_cast<const char *>(file.data()) + span.offset, span.size};
}

struct Refused : std::runtime_error {
    using std::runtime_error::runtime_error;
};

// Judges a file, and returns how many slices it has.
std::uint64_t judge(const Bytes &file) {
    kesvuot_verdict verdict;
    switch (kesvuot_verify(file.data(), file.size(), KESVUOT_LAYOUT, &verdict)) {
    case KESVUOT_OK:
        return verdict.slices;
    case KESVUOT_REFUSED: {
        char place[32];
        std::snprintf(place, sizeof place, " at 0x%jx", static_cast<std::uintmax_t>(verdict.place));
        throw Refused(std::string("refused: ") + kesvuot_rule_name(verdict.rule) + place);
    }
    default:
        throw std::bad_alloc();
    }
}

// All rows of a table, by one call.
template <typename Row, typename Call>
std::vector<Row> rows(const Bytes &file, const kesvuot_image &image, Call call, std::uint64_t count) {
    std::vector<Row> found(count);
    kesvuot_cursor cursor{};
    found.resize(call(file.data(), file.size(), &image, &cursor, found.data(), found.size()));
    return found;
}

// The index of the section in which a symbol is defined. mach-o/nlist.h has the masks. By the rule symbol-section the
// section exists.
std::optional<std::size_t> section_of(const kesvuot_symbol &symbol) {
    constexpr unsigned n_stab = 0xe0, n_type = 0x0e, n_sect = 0x0e;
    if ((symbol.type & n_stab) != 0 || (symbol.type & n_type) != n_sect) {
        return std::nullopt;
    }
    return symbol.section;
}

// A name. Any byte that is not printable ASCII is written as a question mark.
std::string plain(std::string_view name) {
    std::string shown(name);
    for (char &letter : shown) {
        letter = letter >= ' ' && letter <= '~' ? letter : '?';
    }
    return shown;
}

void print_sections(const Bytes &file, const kesvuot_image &image) {
    const auto sections = rows<kesvuot_section>(file, image, kesvuot_read_sections, image.section_count);
    std::vector<std::uint64_t> counts(sections.size());
    for (const auto &symbol : rows<kesvuot_symbol>(file, image, kesvuot_read_symbols, image.symbol_count)) {
        if (const auto index = section_of(symbol)) {
            counts[*index]++;
        }
    }
    for (std::size_t index = 0; index < sections.size(); index++) {
        const auto &section = sections[index];
        std::cout << plain(text(file, section.segment)) << ',' << plain(text(file, section.name)) << " 0x" << std::hex
                  << section.addr << std::dec << ' ' << section.size << " bytes, " << counts[index] << " symbols\n";
    }
}

} // namespace

int main(int argc, char **argv) {
    if (argc != 2) {
        std::cerr << "usage: sections FILE\n";
        return 2;
    }
    try {
        const Bytes file = read(argv[1]);
        const std::uint64_t slices = judge(file);
        for (std::uint64_t slice = 0; slice < slices; slice++) {
            kesvuot_image image;
            if (kesvuot_read_image(file.data(), file.size(), slice, &image) == KESVUOT_OK) {
                print_sections(file, image);
            }
        }
        return std::cout.flush() ? 0 : 2;
    } catch (const std::exception &error) {
        std::cerr << argv[1] << ": " << error.what() << '\n';
        return dynamic_cast<const Refused *>(&error) != nullptr ? 1 : 2;
    }
}
