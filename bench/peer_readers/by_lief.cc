// Reads all that LIEF gives of a file. ../peers runs it.
#include <LIEF/MachO.hpp>
#include <cstdio>
#include <exception>

int main(int, char **words) {
    try {
        auto file = LIEF::MachO::Parser::parse(words[1]);
        return !file || file->size() == 0;
    } catch (const std::exception &error) {
        std::fprintf(stderr, "%s\n", error.what());
        return 1;
    }
}
