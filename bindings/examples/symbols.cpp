// symbols FILE: the value and the name of each symbol of a file.
#include <cstdio>
#include <exception>
#include <xmas_elf.hpp>

static void list(const char *path)
{
    const xmas_elf::mapped_file bytes(path);
    const xmas_elf::file file(bytes);
    file.check_header();
    for (const auto &section : file.sections())
        for (const auto &symbol : section.symbols())
            if (const auto name = symbol.checked_name(); !name.empty())
                std::printf("%016llx %.*s\n", static_cast<unsigned long long>(symbol.value), static_cast<int>(name.size()), name.data());
}

int main(int argc, char **argv)
{
    try {
        list(argc == 2 ? argv[1] : "");
    } catch (const std::exception &error) {
        std::fprintf(stderr, "symbols: %s\n", error.what());
        return 1;
    }
}
