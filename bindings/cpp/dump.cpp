// dump FILE NAME..: what a file needs, its build id, the symbols of its dynamic segment as `nm -D` prints them, the versions
// that it defines and needs, its dynamic entries and relocations, its sections with the numbers of their relocations, and for
// each name, or name and version as exp@GLIBC_2.2.5, the symbol's value. The number of a version has an `h` behind it if it is
// hidden.
#include <xmas_elf.hpp>

#include <cstdio>
#include <exception>

namespace {

void print(std::string_view line) { std::printf("%.*s\n", static_cast<int>(line.size()), line.data()); }

std::string hexadecimal(std::uint64_t number)
{
    char text[17];
    std::snprintf(text, sizeof text, "%016llx", static_cast<unsigned long long>(number));
    return text;
}

std::string number(const xmas_elf::version &version) { return std::to_string(version.number) + (version.is_hidden ? "h" : ""); }

void print_dynamic(const xmas_elf::file &file)
{
    for (const auto name : file.needed()) print("needed " + std::string(name));
    if (const auto name = file.soname()) print("soname " + std::string(*name));
    if (const auto folders = file.run_path()) print("run path " + std::string(*folders));
    if (const auto id = file.build_id()) {
        std::string text;
        for (const auto byte : *id) text += hexadecimal(byte).substr(14);
        print("build id " + text);
    }
    for (const auto &symbol : file.dynamic_symbols()) {
        if (symbol.version) print("version " + std::to_string(symbol.index) + " " + number(*symbol.version));
        const std::string version = symbol.version && symbol.version->name != symbol.name ? symbol.version->suffix() : "";
        if (symbol.name && !symbol.name->empty() && symbol.type() != 3 && symbol.type() != 4)
            print("symbol " + hexadecimal(symbol.is_defined() ? symbol.value : 0) + " " + std::string(*symbol.name) + version);
    }
    for (const auto &it : file.version_needs())
        print("need " + number(it) + " " + std::to_string(it.flags) + " " + std::string(*it.library) + " " + std::string(*it.name));
    for (const auto &it : file.version_definitions())
        print("definition " + number(it) + " " + std::to_string(it.flags) + " " + std::string(*it.name));
}

void print_tables(const xmas_elf::file &file)
{
    const auto print_numbers = [](const char *word, const std::vector<std::uint64_t> &numbers) {
        std::printf("%s", word);
        for (const auto number : numbers) std::printf(" %llx", static_cast<unsigned long long>(number));
        std::printf("\n");
    };
    for (const auto &entry : file.dynamic()) print_numbers("entry", {entry.tag, entry.value});
    for (const auto &it : file.relocations()) {
        const std::uint64_t info = std::uint64_t{it.symbol} << (file.is_64() ? 32 : 8) | it.type;
        if (it.has_addend != 0) print_numbers("relocation", {it.offset, info, it.addend});
        else print_numbers("relocation", {it.offset, info});
    }
    for (const auto address : file.packed_relocations()) print_numbers("address", {address});
}

void print_sections(const xmas_elf::file &file)
{
    for (const auto &section : file.sections()) {
        std::size_t relocations = 0;
        for (const auto address : section.packed_relocations()) relocations += address != 0;
        for (const auto &relocation : section.relocations()) relocations += relocation.has_addend <= 1;
        print("section " + std::to_string(section.index()) + " " + std::string(section.name().value_or("?")) + " " + std::to_string(section->size)
              + " " + std::to_string(relocations));
    }
}

void print_found(const xmas_elf::file &file, std::string_view wanted)
{
    const auto at = wanted.find('@');
    const auto name = wanted.substr(0, at);
    const auto version = at == std::string_view::npos ? std::string_view{} : wanted.substr(at + 1);
    const auto symbol = file.find_symbol(name, version);
    const std::string shown = symbol && symbol->version ? " " + symbol->version->suffix() : "";
    print("found " + std::string(wanted) + " " + (symbol ? hexadecimal(symbol->value) + shown : "-"));
}

} // namespace

int main(int argc, char **argv)
{
    if (argc < 2) {
        std::fputs("usage: dump FILE NAME..\n", stderr);
        return 2;
    }
    try {
        const xmas_elf::mapped_file bytes(argv[1]);
        const xmas_elf::file file(bytes);
        file.check_header();
        print_dynamic(file);
        print_tables(file);
        print_sections(file);
        for (int i = 2; i < argc; i++) print_found(file, argv[i]);
    } catch (const std::system_error &error) {
        std::fprintf(stderr, "%s\n", error.what());
        return 1;
    } catch (const std::exception &error) {
        std::fprintf(stderr, "%s: %s\n", argv[1], error.what());
        return 1;
    }
}
