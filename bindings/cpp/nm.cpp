// nm FILE: the symbols of a file, as their value, the section index and the name, by C++17.
#include <xmas_elf.hpp>

#include <cstdio>
#include <exception>

int main(int argc, char **argv)
{
    if (argc != 2) {
        std::fputs("usage: nm FILE\n", stderr);
        return 2;
    }
    try {
        const xmas_elf::mapped_file bytes(argv[1]);
        const xmas_elf::file file(bytes);
        for (const auto &section : file.sections())
            for (const auto &symbol : section.symbols())
                if (symbol.index != 0)
                    std::printf("%016llx %5u %.*s\n", static_cast<unsigned long long>(symbol.value), unsigned{symbol.shndx},
                                static_cast<int>(symbol.checked_name().size()), symbol.checked_name().data());
    } catch (const std::system_error &error) {
        std::fprintf(stderr, "%s\n", error.what());
        return 1;
    } catch (const std::exception &error) {
        std::fprintf(stderr, "%s: %s\n", argv[1], error.what());
        return 1;
    }
}
