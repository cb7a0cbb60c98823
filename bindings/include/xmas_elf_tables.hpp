// The dynamic entries and the relocations of a file, also of one without section headers. Included by xmas_elf.hpp.
#ifndef XMAS_ELF_TABLES_HPP
#define XMAS_ELF_TABLES_HPP

#include "xmas_elf.hpp"

namespace xmas_elf {

inline std::vector<xmas_elf_dynamic_t> file::dynamic() const
{
    std::vector<xmas_elf_dynamic_t> found;
    const auto is_last = [&found](const xmas_elf_dynamic_t &entry) {
        found.push_back(entry);
        return entry.tag == 0;
    };
    for (const section &one : sections()) {
        if (one->type != 6) continue;
        for (const auto &entry : one.dynamic())
            if (is_last(entry)) break;
        return found;
    }
    for (const auto &entry : all<xmas_elf_dynamic_t>(xmas_elf_dynamic_entries))
        if (is_last(entry)) break;
    return found;
}

inline std::optional<std::uint64_t> file::dynamic_value(std::uint64_t tag) const
{
    for (const xmas_elf_dynamic_t &entry : dynamic())
        if (entry.tag == tag) return entry.value;
    return std::nullopt;
}

inline std::vector<xmas_elf_relocation_t> file::relocations() const
{
    std::vector<xmas_elf_relocation_t> found;
    bool has_sections = false;
    for (const section &one : sections()) {
        if (one->type != 4 && one->type != 9) continue;
        has_sections = true;
        for (const auto &it : one.relocations()) found.push_back(it);
    }
    return has_sections ? found : all<xmas_elf_relocation_t>(xmas_elf_dynamic_relocations);
}

inline std::vector<std::uint64_t> file::packed_relocations() const
{
    std::vector<std::uint64_t> found;
    bool has_sections = false;
    for (const section &one : sections()) {
        if (one->type != 19) continue;
        has_sections = true;
        for (const std::uint64_t address : one.packed_relocations()) found.push_back(address);
    }
    return has_sections ? found : all<std::uint64_t>(xmas_elf_dynamic_packed_relocations);
}

} // namespace xmas_elf

#endif
