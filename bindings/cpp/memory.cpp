// memory FILE ADDRESS..: what Linux maps for a file, and for each address in base 16 the symbol that covers it.
#include <xmas_elf.hpp>

#include <cstdio>
#include <exception>

namespace {

void print_mappings(const xmas_elf::file &file)
{
    for (const auto &one : xmas_elf::load_mappings(file, xmas_elf::loader::linux_kernel))
        std::printf("%llx-%llx %c%c%c %llx\n", static_cast<unsigned long long>(one.start), static_cast<unsigned long long>(one.end),
                    one.flags & 4 ? 'r' : '-', one.flags & 2 ? 'w' : '-', one.flags & 1 ? 'x' : '-', static_cast<unsigned long long>(one.offset));
}

void print_symbols(const xmas_elf::file &file, const std::vector<std::uint64_t> &addresses)
{
    const xmas_elf::symbol_map map(file);
    for (const auto &found : map.find_all(addresses)) {
        const auto name = found ? found->name.value_or("?") : "?";
        std::printf("%.*s+0x%llx\n", static_cast<int>(name.size()), name.data(), found ? static_cast<unsigned long long>(found->offset) : 0);
    }
}

} // namespace

int main(int argc, char **argv)
{
    if (argc < 2) {
        std::fputs("usage: memory FILE ADDRESS..\n", stderr);
        return 2;
    }
    try {
        const xmas_elf::mapped_file bytes(argv[1]);
        const xmas_elf::file file(bytes);
        std::vector<std::uint64_t> addresses;
        for (int i = 2; i < argc; i++) addresses.push_back(std::stoull(argv[i], nullptr, 16));
        print_mappings(file);
        print_symbols(file, addresses);
    } catch (const std::system_error &error) {
        std::fprintf(stderr, "%s\n", error.what());
        return 1;
    } catch (const std::exception &error) {
        std::fprintf(stderr, "%s: %s\n", argv[1], error.what());
        return 1;
    }
}
