// sizes FILE: for each piece of the file its size in bytes and what it belongs to; then for each symbol of .text the size of the
// addresses that belong to it.
#include <xmas_elf.hpp>

#include <cstdio>
#include <exception>
#include <map>

namespace {

const char *const parts[] = {"ELF header", "program headers", "section headers", "section", "segment", "between parts", "behind all parts"};

void print_pieces(const xmas_elf::file &file)
{
    for (const auto &piece : xmas_elf::pieces(file))
        std::printf("%llu %s %llu\n", static_cast<unsigned long long>(piece.end - piece.begin), parts[static_cast<std::size_t>(piece.of)],
                    static_cast<unsigned long long>(piece.index));
}

void print_symbols(const xmas_elf::file &file)
{
    const auto text = file.find_section(".text");
    if (!text) return;
    const xmas_elf::symbol_map map(file, static_cast<std::uint32_t>(text->index()));
    std::map<std::uint64_t, std::pair<std::uint64_t, std::uint64_t>> symbols;
    for (const auto &piece : map.pieces((*text)->address, (*text)->address + (*text)->size)) {
        if (piece.of != xmas_elf::owner::symbol) continue;
        auto &[size, address] = symbols[piece.index];
        size += piece.end - piece.begin;
        address = piece.begin;
    }
    for (const auto &[index, one] : symbols) {
        const auto found = map.find(one.second);
        const auto name = found ? found->name.value_or("?") : "?";
        std::printf("%llu %.*s\n", static_cast<unsigned long long>(one.first), static_cast<int>(name.size()), name.data());
    }
}

} // namespace

int main(int argc, char **argv)
{
    if (argc < 2) {
        std::fputs("usage: sizes FILE\n", stderr);
        return 2;
    }
    try {
        const xmas_elf::mapped_file bytes(argv[1]);
        const xmas_elf::file file(bytes);
        print_pieces(file);
        print_symbols(file);
    } catch (const std::system_error &error) {
        std::fprintf(stderr, "%s\n", error.what());
        return 1;
    } catch (const std::exception &error) {
        std::fprintf(stderr, "%s: %s\n", argv[1], error.what());
        return 1;
    }
}
