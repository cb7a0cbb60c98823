// ELF files for C++17, over the declarations of xmas_elf.h. Header-only: link the static library `elf_c`.
//
//     const xmas_elf::mapped_file bytes("/bin/ls");
//     const xmas_elf::file file(bytes);
//     for (const auto &symbol : file.dynamic_symbols())
//         std::cout << symbol.checked_name() << '\n';
//
// Views and texts point into the bytes, and parts to the file: both must stay where they are. What can't be read throws `xmas_elf::error`,
// and what a file doesn't have is an empty std::optional or an empty range. A range can be passed once. See xmas_elf.h for
// files that others write to while they are mapped: read such a file into memory, and pass that.
#ifndef XMAS_ELF_HPP
#define XMAS_ELF_HPP

#include <cstddef>
#include <cstdint>
#include <optional>
#include <string>
#include <string_view>
#include <vector>

#include "xmas_elf_bytes.hpp"

namespace xmas_elf {

class section;
class segment;
struct needed_name;
struct missing_version;

/// An ELF file: its bytes, which the caller keeps, and its header.
class file {
public:
    explicit file(bytes_view bytes) : bytes_(bytes) { check(xmas_elf_open(bytes.data(), bytes.size(), &header_)); }
    explicit file(const mapped_file &mapped) : file(mapped.bytes()) {}
    explicit file(mapped_file &&) = delete;

    const xmas_elf_header_t &header() const noexcept { return header_; }
    bytes_view bytes() const noexcept { return bytes_; }
    bool is_64() const noexcept { return header_.file_class == 2; }
    /// Throws if the header doesn't agree with the bytes.
    void check_header() const { check(call(xmas_elf_check_header)); }

    auto sections() const;
    auto segments() const;
    /// The first section with a name. Throws if there is none, and sections or their names can't be read.
    std::optional<section> find_section(std::string_view name) const;
    /// The symbols of the dynamic segment, which needs no sections, with their versions.
    auto dynamic_symbols() const;

    /// The symbol that `dlsym` gets by a name, or `dlvsym` by a name and a version; none without a dynamic segment. Of several
    /// with the name it is the first without a version (of number 0 or 1), and else that of the default version. Each call counts
    /// the symbols anew; with a version a file made to be slow takes time by its symbols times its versions.
    std::optional<symbol> find_symbol(std::string_view name, std::string_view wanted = {}) const
    {
        xmas_elf_found_symbol_t found{};
        const std::uint32_t status = call(xmas_elf_find_symbol, raw(name), name.size(), raw(wanted), wanted.size(), &found);
        if (!is_without_dynamic(status)) check(status);
        if (found.found == 0) return std::nullopt;
        std::uint64_t count = 0;
        xmas_elf_name_t names{};
        xmas_elf_version_t versions{};
        xmas_elf_symbol_table_t table{};
        const bool is_named = call(xmas_elf_dynamic_symbols_open, &table) == XMAS_ELF_OK
            && xmas_elf_symbol_names(bytes().data(), bytes().size(), &table, found.index, &names, 1, &count) == XMAS_ELF_OK;
        const bool has_version = call(xmas_elf_dynamic_symbol_versions, std::uint64_t{found.index}, &versions, std::size_t{1}, &count) == XMAS_ELF_OK;
        symbol one = symbol_of(found.symbol, found.index, is_named ? &names : nullptr);
        if (has_version) one.version = version_of(versions);
        return one;
    }

    /// The names of the libraries that the file needs (DT_NEEDED).
    std::vector<std::string_view> needed() const
    {
        std::vector<std::string_view> found;
        const std::uint64_t needed_tag = 1;
        for (const xmas_elf_name_t &name : all<xmas_elf_name_t>(xmas_elf_dynamic_texts, needed_tag)) {
            check(name.status);
            found.push_back(text(name.range));
        }
        return found;
    }
    std::optional<std::string_view> soname() const { return dynamic_text(14); }
    /// The folders where the dynamic linker looks for libraries (DT_RUNPATH, or else DT_RPATH).
    std::optional<std::string_view> run_path() const
    {
        const auto folders = dynamic_text(29);
        return folders ? folders : dynamic_text(15);
    }
    /// The text that the first dynamic entry with a tag names.
    std::optional<std::string_view> dynamic_text(std::uint64_t tag) const
    {
        xmas_elf_name_t name{};
        std::uint64_t count = 0;
        const std::uint32_t status = call(xmas_elf_dynamic_texts, tag, std::uint64_t{0}, &name, std::size_t{1}, &count);
        if (status == XMAS_ELF_NO_RECORD || is_without_dynamic(status)) return std::nullopt;
        check(status);
        check(name.status);
        return text(name.range);
    }
    /// The versions that the file defines (DT_VERDEF), that of the file itself included.
    std::vector<version> version_definitions() const { return versions(xmas_elf_version_definitions); }
    /// The versions that the file needs of libraries (DT_VERNEED).
    std::vector<version> version_needs() const { return versions(xmas_elf_version_needs); }

    /// The names that the file asks for (DT_NEEDED, DT_AUXILIARY, DT_FILTER), in the order of their entries, with their tokens.
    std::vector<needed_name> needed_names() const;
    /// The versions that the file needs of the object that its needs call `name`, and that this object lacks.
    std::vector<missing_version> missing_versions(std::string_view name, const file &provider) const;

    /// The dynamic entries up to that of tag 0, which is the last: those of the section of type SHT_DYNAMIC, or else of the
    /// segment of type PT_DYNAMIC.
    std::vector<xmas_elf_dynamic_t> dynamic() const;
    /// The value of the first dynamic entry with a tag.
    std::optional<std::uint64_t> dynamic_value(std::uint64_t tag) const;
    /// The relocations of all sections of type SHT_RELA or SHT_REL, in their order: a symbol's index is one of the section
    /// `link`. Of a file without such sections those of the dynamic segment (DT_RELA, DT_REL, DT_JMPREL), whose symbols are
    /// `dynamic_symbols`.
    std::vector<xmas_elf_relocation_t> relocations() const;
    /// The addresses in the packed relative relocations of all sections of type SHT_RELR, or else of the dynamic segment (DT_RELR).
    std::vector<std::uint64_t> packed_relocations() const;

    /// The notes of all sections of type SHT_NOTE; of a file without such sections, of all segments of type PT_NOTE.
    std::vector<note> notes() const;
    /// The build id: the description of the first note of GNU with type 3 in the sections of type SHT_NOTE, or else in the
    /// segments of type PT_NOTE.
    std::optional<bytes_view> build_id() const;

    /// The bytes of the file for addresses: those of the last segment of type PT_LOAD that has them all.
    bytes_view bytes_at(std::uint64_t address, std::uint64_t count) const
    {
        xmas_elf_range_t range{};
        check(call(xmas_elf_bytes_at, address, count, &range));
        return part(range);
    }

    /// A call of xmas_elf.h with the file's bytes and header in front.
    template <class Call, class... Arguments> std::uint32_t call(Call function, Arguments... arguments) const
    {
        return function(bytes_.data(), bytes_.size(), &header_, arguments...);
    }
    /// Whether a call says that the file has no dynamic segment. Throws if there may be one, since the program headers can't be
    /// read.
    bool is_without_dynamic(std::uint32_t status) const
    {
        if (status != XMAS_ELF_LINK_NO_DYNAMIC) return false;
        xmas_elf_counts_t counts{};
        xmas_elf_segment_t last{};
        check(call(xmas_elf_counts, &counts));
        if (counts.segments != 0) check(call(xmas_elf_segment, counts.segments - 1, &last));
        return true;
    }
    /// The bytes of a range that a call returned.
    bytes_view part(xmas_elf_range_t range) const noexcept
    {
        return {bytes_.data() + range.offset, static_cast<std::size_t>(range.size)};
    }
    std::string_view text(xmas_elf_range_t range) const noexcept { return part(range).text(); }

private:
    friend class section;
    friend class segment;

    static const std::uint8_t *raw(std::string_view text) noexcept { return reinterpret_cast<const std::uint8_t *>(text.data()); }

    /// All records of a call that begins anew each time; none if the file has no such list.
    template <class Record, class Call, class... Arguments> std::vector<Record> all(Call function, Arguments... arguments) const
    {
        std::vector<Record> records;
        for (std::size_t room = 64;; room *= 4) {
            records.resize(room);
            std::uint64_t count = 0;
            const std::uint32_t status = call(function, arguments..., std::uint64_t{0}, records.data(), records.size(), &count);
            if (status == XMAS_ELF_NO_RECORD || status == XMAS_ELF_NOT_FOUND || is_without_dynamic(status)) return {};
            check(status);
            records.resize(static_cast<std::size_t>(count));
            if (count < room) return records;
        }
    }
    version version_of(const xmas_elf_version_t &record) const
    {
        check(record.status);
        version one;
        if (record.kind != 0 && record.name_status == XMAS_ELF_OK) one.name = text(record.name);
        if (record.kind == 2 && record.file_status == XMAS_ELF_OK) one.library = text(record.file);
        one.number = record.number;
        one.flags = record.flags;
        one.is_hidden = record.hidden != 0;
        one.is_defined = record.kind == 1;
        return one;
    }
    template <class Call> std::vector<version> versions(Call function) const
    {
        std::vector<version> found;
        for (const xmas_elf_version_t &record : all<xmas_elf_version_t>(function)) found.push_back(version_of(record));
        return found;
    }
    symbol symbol_of(const xmas_elf_symbol_t &record, std::uint64_t index, const xmas_elf_name_t *name) const
    {
        symbol one;
        static_cast<xmas_elf_symbol_t &>(one) = record;
        one.index = index;
        if (name == nullptr) return one;
        one.name_status = name->status;
        if (name->status == XMAS_ELF_OK) one.name = text(name->range);
        return one;
    }
    /// The next symbols of a table that a call found, with their names; none after the last.
    void add_symbols(const xmas_elf_symbol_table_t &table, std::uint64_t first, std::vector<symbol> &out) const
    {
        xmas_elf_symbol_t records[64];
        xmas_elf_name_t names[64];
        std::uint64_t count = 0;
        const std::uint32_t status = xmas_elf_symbols(bytes_.data(), bytes_.size(), &table, first, records, 64, &count);
        if (status == XMAS_ELF_NO_RECORD) return;
        check(status);
        check(xmas_elf_symbol_names(bytes_.data(), bytes_.size(), &table, first, names, 64, &count));
        for (std::size_t i = 0; i < count; i++) out.push_back(symbol_of(records[i], first + i, &names[i]));
    }
    void add_notes(xmas_elf_range_t rest, std::uint64_t align, std::vector<note> &found) const
    {
        for (;;) {
            xmas_elf_note_t one{};
            const std::uint32_t status = call(xmas_elf_note, &rest, align, &one);
            if (status == XMAS_ELF_NO_RECORD) return;
            check(status);
            std::string_view name = text(one.name);
            if (!name.empty() && name.back() == '\0') name.remove_suffix(1);
            found.push_back({one.type, name, part(one.desc)});
            rest = one.rest;
        }
    }

    bytes_view bytes_;
    xmas_elf_header_t header_{};
};

/// A section; `->` gives the fields of its header.
class section {
    template <class Record, class Call> auto records(Call function) const
    {
        const auto fill = [owner = file_, index = index_, function](std::uint64_t first, std::vector<Record> &out) {
            std::uint64_t count = 0;
            out.resize(512);
            const std::uint32_t status = owner->call(function, index, first, out.data(), out.size(), &count);
            if (status != XMAS_ELF_NO_RECORD && !xmas_elf_is_other_data(status)) check(status);
            out.resize(static_cast<std::size_t>(count));
        };
        return items<Record, decltype(fill)>(fill);
    }

public:
    section(const file &owner, std::uint64_t index, const xmas_elf_section_t &header) : file_(&owner), index_(index), header_(header) {}
    std::uint64_t index() const noexcept { return index_; }
    const xmas_elf_section_t &header() const noexcept { return header_; }
    const xmas_elf_section_t *operator->() const noexcept { return &header_; }

    /// The name, whatever the type; none if it can't be read.
    std::optional<std::string_view> name() const
    {
        xmas_elf_range_t names{}, range{};
        if (file_->call(xmas_elf_names, &names) != XMAS_ELF_OK) return std::nullopt;
        const bytes_view all = file_->bytes();
        if (xmas_elf_text(all.data(), all.size(), &names, header_.name, &range) != XMAS_ELF_OK) return std::nullopt;
        return file_->text(range);
    }
    /// The bytes in the file: none for types SHT_NOBITS and SHT_NULL. Throws for types that the reader doesn't know.
    bytes_view data() const { return file_->part(range()); }
    /// The symbols; none if the section isn't a symbol table. Throws where the table is damaged.
    auto symbols() const
    {
        xmas_elf_symbol_table_t table{};
        const std::uint32_t status = file_->call(xmas_elf_symbols_open, index_, &table);
        const auto fill = [owner = file_, table, status](std::uint64_t first, std::vector<symbol> &out) {
            if (xmas_elf_is_other_data(status)) return;
            check(status);
            owner->add_symbols(table, first, out);
        };
        return items<symbol, decltype(fill)>(fill);
    }
    /// The relocations; the addresses in a section of type SHT_RELR; the dynamic entries. None if the section has other data, by its
    /// type. Throws where the table is damaged.
    auto relocations() const { return records<xmas_elf_relocation_t>(xmas_elf_relocations); }
    auto packed_relocations() const { return records<std::uint64_t>(xmas_elf_packed_relocations); }
    auto dynamic() const { return records<xmas_elf_dynamic_t>(xmas_elf_dynamics); }
    std::vector<note> notes() const
    {
        std::vector<note> found;
        file_->add_notes(range(), header_.align, found);
        return found;
    }

private:
    xmas_elf_range_t range() const
    {
        xmas_elf_range_t found{};
        const std::uint32_t null_type = 0, no_bits_type = 8;
        if (header_.type != null_type && header_.type != no_bits_type) check(file_->call(xmas_elf_section_data, index_, &found));
        return found;
    }

    const file *file_;
    std::uint64_t index_;
    xmas_elf_section_t header_;
};

/// A segment; `->` gives the fields of its header.
class segment {
public:
    segment(const file &owner, std::uint32_t index, const xmas_elf_segment_t &header) : file_(&owner), index_(index), header_(header) {}
    std::uint32_t index() const noexcept { return index_; }
    const xmas_elf_segment_t &header() const noexcept { return header_; }
    const xmas_elf_segment_t *operator->() const noexcept { return &header_; }
    /// The data. Throws for type PT_NULL and for types that the reader doesn't know.
    bytes_view data() const { return file_->part(range()); }
    std::vector<note> notes() const
    {
        std::vector<note> found;
        file_->add_notes(range(), header_.align, found);
        return found;
    }

private:
    xmas_elf_range_t range() const
    {
        xmas_elf_range_t found{};
        check(file_->call(xmas_elf_segment_data, index_, &found));
        return found;
    }

    const file *file_;
    std::uint32_t index_;
    xmas_elf_segment_t header_;
};

/// The sections that can be read; throws after the last of them where the table is cut off.
inline auto file::sections() const
{
    const auto fill = [this](std::uint64_t first, std::vector<section> &out) {
        xmas_elf_counts_t counts{};
        check(call(xmas_elf_counts, &counts));
        xmas_elf_section_t records[64];
        std::uint64_t count = 0;
        // A number of sections that needs more than 16 bits is in the header of section 0, which may be missing.
        if (first == 0 && counts.sections == 0 && header().sh_offset != 0) check(call(xmas_elf_section, first, records));
        if (first >= counts.sections) return;
        const std::uint32_t status = call(xmas_elf_sections, first, records, std::size_t{64}, &count);
        if (status == XMAS_ELF_NO_RECORD) check(call(xmas_elf_section, first, records));
        else check(status);
        for (std::size_t i = 0; i < count; i++) out.emplace_back(*this, first + i, records[i]);
    };
    return items<section, decltype(fill)>(fill);
}

/// The segments that can be read; throws after the last of them where the table is cut off.
inline auto file::segments() const
{
    const auto fill = [this](std::uint64_t first, std::vector<segment> &out) {
        xmas_elf_counts_t counts{};
        check(call(xmas_elf_counts, &counts));
        xmas_elf_segment_t records[16];
        std::uint64_t count = 0;
        if (first >= counts.segments) return;
        const std::uint32_t status = call(xmas_elf_segments, first, records, std::size_t{16}, &count);
        if (status == XMAS_ELF_NO_RECORD) check(call(xmas_elf_segment, static_cast<std::uint32_t>(first), records));
        else check(status);
        for (std::size_t i = 0; i < count; i++) out.emplace_back(*this, static_cast<std::uint32_t>(first + i), records[i]);
    };
    return items<segment, decltype(fill)>(fill);
}

inline std::optional<section> file::find_section(std::string_view name) const
{
    bool has_sections = false;
    for (const section &one : sections()) {
        if (one.name() == name) return one;
        has_sections = true;
    }
    xmas_elf_range_t names{};
    if (has_sections) check(call(xmas_elf_names, &names));
    return std::nullopt;
}

inline auto file::dynamic_symbols() const
{
    const auto fill = [this](std::uint64_t first, std::vector<symbol> &out) {
        if (first != 0) return;
        xmas_elf_symbol_table_t table{};
        const std::uint32_t status = call(xmas_elf_dynamic_symbols_open, &table);
        if (is_without_dynamic(status)) return;
        check(status);
        std::size_t had;
        do add_symbols(table, had = out.size(), out);
        while (out.size() > had);
        const auto found = all<xmas_elf_version_t>(xmas_elf_dynamic_symbol_versions);
        for (std::size_t i = 0; i < out.size() && i < found.size(); i++) out[i].version = version_of(found[i]);
    };
    return items<symbol, decltype(fill)>(fill);
}

inline std::vector<note> file::notes() const
{
    std::vector<note> found;
    bool has_sections = false;
    for (const section &one : sections()) {
        if (one->type != 7) continue;
        has_sections = true;
        for (const note &it : one.notes()) found.push_back(it);
    }
    if (has_sections) return found;
    for (const segment &one : segments())
        if (one->type == 4)
            for (const note &it : one.notes()) found.push_back(it);
    return found;
}

inline std::optional<bytes_view> file::build_id() const
{
    std::uint32_t failed = XMAS_ELF_OK;
    const auto in_parts = [&failed](auto parts, std::uint32_t type) -> std::optional<bytes_view> {
        try {
            for (const auto &one : parts)
                if (one->type == type)
                    for (const note &it : one.notes())
                        if (it.type == 3 && it.name == "GNU") return it.desc;
        } catch (const error &raised) {
            if (failed == XMAS_ELF_OK) failed = raised.status();
        }
        return std::nullopt;
    };
    if (const auto id = in_parts(sections(), 7)) return id;
    if (const auto id = in_parts(segments(), 4)) return id;
    check(failed);
    return std::nullopt;
}

} // namespace xmas_elf

#include "xmas_elf_memory.hpp"
#include "xmas_elf_search.hpp"
#include "xmas_elf_tables.hpp"
#include "xmas_elf_differences.hpp"

#endif
