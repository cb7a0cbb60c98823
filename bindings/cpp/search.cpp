// search PROGRAM: the libraries that an x86-64 program needs by itself, each with the path at which the loader finds it on any processor,
// and the versions that it lacks. It opens files for reading, and runs nothing.
#include "xmas_elf.hpp"

#include <iostream>

using namespace xmas_elf;

static std::optional<std::string> found(std::string_view name, const xmas_elf_search_asker_t &program, bytes_view cache)
{
    xmas_elf_cache_machine_t machine{};
    machine.bits = std::uint64_t{1} << 63 | 2;
    machine.flags = machine.other_flags = 0x303;
    machine.levels = 1;
    const std::string cached = cached_path(cache, name, machine).value_or("");
    auto search = search_for(name, "/lib/x86_64-linux-gnu:/usr/lib/x86_64-linux-gnu:/lib:/usr/lib", program.tokens);
    search.cache = raw(cached);
    search.cache_size = cached.size();
    for (const candidate &one : candidates(search, {program})) try {
            const mapped_file bytes(one.path.c_str());
            if (fits(bytes.bytes(), bytes.bytes().size(), 2, 62)) return one.path;
        } catch (const std::runtime_error &) {
            // It isn't there.
        }
    return std::nullopt;
}

int main(int argc, char **argv)
try {
    if (argc != 2) return 2;
    const mapped_file bytes(argv[1]), cache("/etc/ld.so.cache");
    const file program(bytes);
    const std::string path = argv[1], origin = path.substr(0, path.find_last_of('/'));
    const auto asker = search_asker(program.dynamic_text(15), program.dynamic_text(29), tokens(origin, "lib/x86_64-linux-gnu", "x86_64"));
    for (const needed_name &one : program.needed_names()) {
        const auto library = found(one.name, asker, cache.bytes());
        std::cout << one.name << " => " << library.value_or("not found") << '\n';
        if (!library) continue;
        const mapped_file other(library->c_str());
        const file provider(other);
        check_library(provider);
        for (const missing_version &it : program.missing_versions(one.name, provider)) std::cout << "  lacks " << it.needed.name.value_or("") << '\n';
    }
} catch (const std::exception &failed) {
    std::cerr << "search: " << failed.what() << '\n';
    return 1;
}
