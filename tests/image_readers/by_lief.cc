// Prints what LIEF shows of the images of a file, a line for each image, segment, section and entry. ../other_readers
// says what is in a line.
#include <LIEF/MachO.hpp>
#include <cstdint>
#include <cstdio>
#include <exception>
#include <string>

static std::string digits(const std::string &name) {
    std::string text = "=";
    for (unsigned char byte : name) {
        char two[3];
        std::snprintf(two, sizeof two, "%02x", byte);
        text += two;
    }
    return text;
}

static void show(LIEF::MachO::Binary &image) {
    std::printf("image %u\n", static_cast<unsigned>(image.header().cpu_type()));
    for (auto &it : image.segments())
        std::printf("segment %s %ju %ju %ju %ju %u\n", digits(it.name()).c_str(), uintmax_t(it.virtual_address()),
                    uintmax_t(it.virtual_size()), uintmax_t(it.file_offset()), uintmax_t(it.file_size()),
                    it.init_protection());
    for (auto &it : image.sections())
        std::printf("section %s %s %ju %ju %ju -\n", digits(it.segment_name()).c_str(), digits(it.name()).c_str(),
                    uintmax_t(it.virtual_address()), uintmax_t(it.size()), uintmax_t(it.offset()));
    if (image.has_entrypoint())
        std::printf("entry %ju\n", uintmax_t(image.entrypoint()));
}

int main(int, char **words) {
    try {
        auto file = LIEF::MachO::Parser::parse(words[1]);
        if (!file)
            return 1;
        for (auto &image : *file)
            show(image);
    } catch (const std::exception &error) {
        std::fprintf(stderr, "%s\n", error.what());
        return 1;
    }
    return 0;
}
