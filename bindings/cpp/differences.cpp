// differences [--symbols] OLD NEW: the parts whose sizes differ, as `elfsize --diff` prints them without its sums. differences --debug FILE
// DIRECTORY: the paths at which the debug file of FILE may be, and for each that is there `debug file`, or why it is none.
#include <xmas_elf.hpp>

#include <cstdio>
#include <cstring>
#include <exception>

namespace {

const char *const kinds[] = {"section ", "segment ", "symbol ", "ELF header", "program headers", "section headers", "between parts", "after all parts"};

void print_change(const xmas_elf::size_change &one)
{
    const auto &part = one.new_part ? *one.new_part : *one.old_part;
    const bool shrank = one.new_size() < one.old_size();
    const std::uint64_t distance = shrank ? one.old_size() - one.new_size() : one.new_size() - one.old_size();
    const char *mark = !one.new_part ? "gone " : !one.old_part ? "new " : "";
    const std::string name = part.kind == 1 ? std::to_string(part.place / 4) : std::string(part.name);
    std::printf("%s%llu -> %llu %s%s%s\n", shrank ? "-" : "+", static_cast<unsigned long long>(distance), static_cast<unsigned long long>(one.new_size()),
                mark, kinds[part.kind], name.c_str());
}

void print_differences(const char *old_path, const char *new_path, bool with_symbols)
{
    const xmas_elf::mapped_file old_bytes(old_path), new_bytes(new_path);
    for (const auto &one : xmas_elf::size_diff(xmas_elf::file(old_bytes), xmas_elf::file(new_bytes), with_symbols)) print_change(one);
}

void print_candidates(const char *path, const char *directory)
{
    const xmas_elf::mapped_file bytes(path);
    const xmas_elf::file file(bytes);
    for (const auto &one : xmas_elf::debug_paths(file, path, directory)) {
        std::string said = "no file";
        try {
            const xmas_elf::mapped_file debug(one.path.c_str());
            const std::uint32_t status = xmas_elf::check_debug(file, one.how, xmas_elf::file(debug));
            said = status == XMAS_ELF_OK ? "debug file" : xmas_elf::error(status).what();
        } catch (const std::system_error &) {
        } catch (const std::exception &error) {
            said = error.what();
        }
        std::printf("%s: %s\n", one.path.c_str(), said.c_str());
    }
}

} // namespace

int main(int argc, char **argv)
{
    const bool with_symbols = argc == 4 && std::strcmp(argv[1], "--symbols") == 0;
    const bool is_debug = argc == 4 && std::strcmp(argv[1], "--debug") == 0;
    if (argc != 3 && !with_symbols && !is_debug) {
        std::fputs("usage: differences [--symbols] OLD NEW\n       differences --debug FILE DIRECTORY\n", stderr);
        return 2;
    }
    try {
        if (is_debug)
            print_candidates(argv[2], argv[3]);
        else
            print_differences(argv[argc - 2], argv[argc - 1], with_symbols);
    } catch (const std::exception &error) {
        std::fprintf(stderr, "%s\n", error.what());
        return 1;
    }
}
