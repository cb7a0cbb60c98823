// The difference of the sizes of two files, and separate debug files. Included by xmas_elf.hpp.
#ifndef XMAS_ELF_DIFFERENCES_HPP
#define XMAS_ELF_DIFFERENCES_HPP

#include "xmas_elf.hpp"
#include "xmas_elf_memory.hpp"

#include <map>

namespace xmas_elf {

/// A part of a file, and its number of bytes. The caller numbers kinds; of parts with one kind and one name, the one with the
/// smallest place is the first.
struct size_part {
    std::uint64_t kind = 0;
    std::string_view name{};
    std::uint64_t place = 0;
    std::uint64_t size = 0;
};

/// What became of a part: it is in the old file, in the new one, or in both.
struct size_change {
    std::optional<size_part> old_part{};
    std::optional<size_part> new_part{};
    std::uint64_t old_size() const noexcept { return old_part ? old_part->size : 0; }
    std::uint64_t new_size() const noexcept { return new_part ? new_part->size : 0; }
};

/// The differences of the parts of two files, the greatest first; each part is in exactly one. The n-th part of a kind and a name
/// of the old file, by the places, is matched with the n-th of the new one.
inline std::vector<size_change> size_changes(const std::vector<size_part> &olds, const std::vector<size_part> &news)
{
    const auto raw = [](const std::vector<size_part> &parts) {
        std::vector<xmas_elf_size_part_t> rows;
        for (const size_part &one : parts)
            rows.push_back({reinterpret_cast<const std::uint8_t *>(one.name.data()), one.name.size(), one.kind, one.place, one.size});
        return rows;
    };
    const auto part = [](const xmas_elf_size_part_t &one) {
        return size_part{one.kind, {reinterpret_cast<const char *>(one.name), one.name_size}, one.place, one.size};
    };
    std::vector<xmas_elf_size_part_t> before = raw(olds), after = raw(news);
    std::vector<xmas_elf_size_change_t> rows(before.size() + after.size());
    std::uint64_t count = 0;
    check(xmas_elf_size_changes(before.data(), before.size(), after.data(), after.size(), rows.data(), rows.size(), &count));
    rows.resize(static_cast<std::size_t>(count));
    std::vector<size_change> changes;
    for (const xmas_elf_size_change_t &row : rows) {
        size_change one;
        if (row.files != 1) one.old_part = part(before[static_cast<std::size_t>(row.old_index)]);
        if (row.files != 0) one.new_part = part(after[static_cast<std::size_t>(row.new_index)]);
        changes.push_back(one);
    }
    return changes;
}

/// The parts of a file that have bytes, which sum to its size. Kinds are 0 for sections, 1 for segments, 2 for symbols, 3 for the
/// ELF header, 4 and 5 for the tables of program headers and of section headers, 6 between parts and 7 after all of them. A
/// place is four times an index and the kind. Only sections and symbols have names.
inline std::vector<size_part> size_parts(const file &of, bool with_symbols = false)
{
    std::map<std::uint64_t, std::uint64_t> sizes;
    std::vector<section> sections;
    bool has_symtab = false;
    try {
        for (const section &one : of.sections()) {
            sections.push_back(one);
            has_symtab = has_symtab || one->type == 2;
        }
    } catch (const error &) {
        has_symtab = false; // The section header table is cut off.
    }
    const auto text_at = [&](xmas_elf_range_t strings, std::uint64_t index) {
        const bytes_view all = of.part(strings);
        const auto end = index < all.size() ? std::find(all.begin() + index, all.end(), std::uint8_t{0}) : all.end();
        if (end == all.end()) return std::string_view("?");
        return bytes_view(all.begin() + index, static_cast<std::size_t>(end - all.begin() - static_cast<std::ptrdiff_t>(index))).text();
    };
    xmas_elf_symbol_table_t table{};
    xmas_elf_range_t names{}, indices{};
    if (of.call(xmas_elf_names, &names) != XMAS_ELF_OK) names = {};
    std::optional<section_symbols> symbols;
    if (with_symbols && has_symtab && find_address_symbols(of, table, indices)) symbols.emplace(of);
    for (const piece &one : pieces(of)) {
        const std::uint64_t size = one.end - one.begin, kind = static_cast<std::uint64_t>(one.of);
        if (one.of != owner::section || !symbols) {
            const bool is_other = kind != 3 && kind != 4;
            sizes[is_other ? 4 * (kind < 3 ? kind : kind - 2) + 3 : 4 * one.index + kind - 3] += size;
            continue;
        }
        const section &within = sections[static_cast<std::size_t>(one.index)];
        const std::uint64_t start = of.header().type == 1 ? 0 : within->address;
        const auto at = [&](std::uint64_t offset) {
            const std::uint64_t after = offset > within->offset ? offset - within->offset : 0;
            return after > UINT64_MAX - start ? UINT64_MAX : start + after;
        };
        const std::uint64_t begin = at(one.begin), end = at(one.end);
        for (const piece &inner : symbols->pieces(static_cast<std::uint32_t>(one.index), begin, end))
            sizes[inner.of == owner::symbol ? 4 * inner.index + 2 : 4 * one.index] += inner.end - inner.begin;
        sizes[4 * one.index] += size - (end - begin);
    }
    std::vector<size_part> parts;
    for (const auto &[place, size] : sizes) {
        if (size == 0) continue;
        size_part part{place % 4 == 3 ? 3 + place / 4 : place % 4, {}, place, size};
        xmas_elf_symbol_t symbol{};
        std::uint64_t count = 0;
        if (part.kind == 0) part.name = text_at(names, sections[static_cast<std::size_t>(place / 4)]->name);
        if (part.kind == 2) {
            check(xmas_elf_symbols(of.bytes().data(), of.bytes().size(), &table, place / 4, &symbol, 1, &count));
            part.name = text_at(table.strings, symbol.name);
        }
        parts.push_back(part);
    }
    return parts;
}

/// The parts of two files whose sizes differ, the greatest difference first: what `elfsize --diff` prints, with symbols what it prints
/// with `--symbols`. A file whose section headers can't all be read has no sections and no symbols there. The differences sum to the
/// difference of the sizes of the files.
inline std::vector<size_change> size_diff(const file &old_file, const file &new_file, bool with_symbols = false)
{
    std::vector<size_change> changes = size_changes(size_parts(old_file, with_symbols), size_parts(new_file, with_symbols));
    while (!changes.empty() && changes.back().old_size() == changes.back().new_size()) changes.pop_back();
    return changes;
}

/// How a debug file is found: by the build id, or by the name in .gnu_debuglink in the folder of the file, in `.debug` there, or in
/// the same folder under the directory.
enum class debug_how : std::uint32_t { build_id, folder, subfolder, directory };

/// A path at which a debug file may be.
struct debug_candidate {
    debug_how how = debug_how::build_id;
    std::string path{};
};

/// The paths at which the debug file of the file at `path` may be, in the order in which gdb tries them. A build id or a link that can't
/// be read gives no path: `build_id`, `sections` and `data` of a section throw.
inline std::vector<debug_candidate> debug_paths(const file &of, std::string_view path, std::string_view directory = "/usr/lib/debug")
{
    const auto raw = [](std::string_view text) { return reinterpret_cast<const std::uint8_t *>(text.data()); };
    std::vector<debug_candidate> found;
    xmas_elf_debug_candidate_t one{};
    const auto ask = [&](std::vector<std::uint8_t> &text) {
        const auto index = static_cast<std::uint64_t>(found.size());
        return of.call(xmas_elf_debug_path, raw(path), path.size(), raw(directory), directory.size(), index, text.data(), text.size(), &one);
    };
    for (;;) {
        std::vector<std::uint8_t> text;
        const std::uint32_t status = ask(text);
        if (status == XMAS_ELF_NO_RECORD) return found;
        check(status);
        text.resize(static_cast<std::size_t>(one.size));
        check(ask(text));
        found.push_back({static_cast<debug_how>(one.how), std::string(text.begin(), text.end())});
    }
}

/// Whether another file, which was found in some way, is the debug file: XMAS_ELF_OK, or what differs.
inline std::uint32_t check_debug(const file &of, debug_how how, const file &debug)
{
    return of.call(xmas_elf_check_debug, static_cast<std::uint32_t>(how), debug.bytes().data(), debug.bytes().size(), &debug.header());
}

/// The CRC-32 of the bytes of a debug file, which .gnu_debuglink has.
inline std::uint32_t debug_crc(bytes_view bytes)
{
    std::uint32_t crc = 0;
    check(xmas_elf_debug_crc(bytes.data(), bytes.size(), &crc));
    return crc;
}

} // namespace xmas_elf

#endif
