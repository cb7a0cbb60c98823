// Which libraries a program gets, as the loader of glibc finds them: the paths to try, what an opened file means, and the order.
// Nothing here opens a file. Included by xmas_elf.hpp.
#ifndef XMAS_ELF_SEARCH_HPP
#define XMAS_ELF_SEARCH_HPP

#include "xmas_elf.hpp"

#include <utility>

namespace xmas_elf {

/// What an object asks for: a library that it needs, one that is searched before it, if there is one, or one in its place.
enum class name_kind : std::uint32_t { needed = 1, auxiliary, filter };
/// By which list a path is tried.
enum class found_by : std::uint32_t { path = 1, rpath, library_path, runpath, cache, conf, defaults };
/// Why a version is missing; without a strong one the program does not start.
enum class lack : std::uint32_t { no_information = 1, weak, strong };

/// A name that an object asks for, with its tokens.
struct needed_name {
    std::string_view name;
    name_kind kind = name_kind::needed;
};

/// A path to try.
struct candidate {
    std::string path;
    found_by how = found_by::path;
    std::size_t asker = 0;             ///< For an rpath the index of its object among the askers.
    std::size_t subdirectory_size = 0; ///< 0 for the folder itself.
};

/// A version that an object lacks.
struct missing_version {
    version needed;
    lack why = lack::strong;
};

/// The bytes that calls write, from the first on; none where there are none.
template <class Call> std::string filled(Call call)
{
    std::string found;
    for (std::size_t room = 4096;; room *= 2) {
        const std::size_t first = found.size();
        found.resize(first + room);
        std::uint64_t count = 0;
        const std::uint32_t status = call(std::uint64_t{first}, reinterpret_cast<std::uint8_t *>(&found[first]), room, &count);
        found.resize(first + static_cast<std::size_t>(status == XMAS_ELF_OK ? count : 0));
        if (status == XMAS_ELF_NO_RECORD || (status == XMAS_ELF_OK && count < room)) return found;
        check(status);
    }
}

/// The bytes of a text.
inline const std::uint8_t *raw(std::string_view text) noexcept { return reinterpret_cast<const std::uint8_t *>(text.data()); }

inline std::vector<needed_name> file::needed_names() const
{
    std::vector<needed_name> found;
    for (const xmas_elf_needed_name_t &one : all<xmas_elf_needed_name_t>(xmas_elf_needed_names)) {
        check(one.status);
        found.push_back({text(one.range), static_cast<name_kind>(one.kind)});
    }
    return found;
}

/// The values of `$ORIGIN`, `$LIB` and `$PLATFORM`, which the caller keeps; an empty one is not known.
inline xmas_elf_tokens_t tokens(std::string_view origin, std::string_view lib, std::string_view platform)
{
    return {raw(origin), origin.size(), raw(lib), lib.size(), raw(platform), platform.size()};
}

/// A text with its tokens replaced; none if a value is not known.
inline std::optional<std::string> expanded(std::string_view text, const xmas_elf_tokens_t &values)
{
    std::uint8_t byte = 0;
    std::uint64_t count = 0;
    if (xmas_elf_expand(raw(text), text.size(), &values, 0, &byte, 1, &count) == XMAS_ELF_SEARCH_EMPTY_TOKEN) return std::nullopt;
    return filled([&](auto... room) { return xmas_elf_expand(raw(text), text.size(), &values, room...); });
}

/// What an object says about the search, by its last DT_RPATH, DT_RUNPATH and DT_FLAGS_1 (0x800).
inline xmas_elf_search_asker_t search_asker(std::optional<std::string_view> r_path, std::optional<std::string_view> run_path,
                                            const xmas_elf_tokens_t &values, bool no_default = false)
{
    const std::string_view first = r_path.value_or(""), second = run_path.value_or("");
    return {raw(first), first.size(), raw(second), second.size(), values, run_path ? 1U : 0U, no_default ? 1U : 0U};
}

/// The search for a name in the default folders; its other fields may be set.
inline xmas_elf_search_for_t search_for(std::string_view name, std::string_view defaults, const xmas_elf_tokens_t &program)
{
    static const xmas_elf_text_t none{raw(""), 0};
    xmas_elf_search_for_t search{};
    search.name = raw(name), search.name_size = name.size();
    search.defaults = raw(defaults), search.defaults_size = defaults.size();
    search.subdirectories = &none, search.subdirectories_count = 1;
    search.program = program;
    return search;
}

/// The paths to try, in order: the first of the askers asks, each is followed by the object that had it loaded, up to the program.
inline std::vector<candidate> candidates(const xmas_elf_search_for_t &search, const std::vector<xmas_elf_search_asker_t> &askers)
{
    const std::string texts = filled([&](auto... room) { return xmas_elf_candidate_paths(&search, askers.data(), askers.size(), room...); });
    std::vector<candidate> found;
    for (std::size_t begin = 0, end; (end = texts.find('\0', begin)) != std::string::npos; begin = end + 1) {
        found.emplace_back();
        found.back().path = texts.substr(begin, end - begin);
    }
    std::vector<xmas_elf_candidate_path_t> rows(found.size());
    std::uint64_t count = 0;
    if (found.empty()) return found;
    check(xmas_elf_candidates(&search, askers.data(), askers.size(), 0, rows.data(), rows.size(), &count));
    for (std::size_t index = 0; index < count; index++) {
        found[index].how = static_cast<found_by>(rows[index].how);
        found[index].asker = static_cast<std::size_t>(rows[index].asker);
        found[index].subdirectory_size = static_cast<std::size_t>(rows[index].subdirectory_size);
    }
    return found;
}

/// The path for a name in the bytes of ld.so.cache; none if it has none.
inline std::optional<std::string> cached_path(bytes_view cache, std::string_view name, const xmas_elf_cache_machine_t &machine)
{
    std::uint8_t byte = 0;
    std::uint64_t count = 0;
    const auto ask = [&](auto... room) { return xmas_elf_cache_path(cache.data(), cache.size(), raw(name), name.size(), &machine, room...); };
    if (ask(std::uint64_t{0}, &byte, std::size_t{1}, &count) == XMAS_ELF_NOT_FOUND) return std::nullopt;
    return filled(ask);
}

/// Whether an opened file is the library that a program of a class (1 or 2) and a machine looks for, by its first 64 bytes and its
/// size; else it is passed over. What throws ends the loader.
inline bool fits(bytes_view head, std::uint64_t size, std::uint8_t file_class, std::uint16_t machine)
{
    std::uint32_t found = 0;
    check(xmas_elf_fits(head.data(), head.size(), size, file_class, machine, &found));
    return found == 1;
}

/// Throws if a file that fits isn't a library, or glibc doesn't map it.
inline void check_library(const file &of)
{
    check(of.call(xmas_elf_check_library));
    check(of.call(xmas_elf_check_load, std::uint64_t{0}, std::uint64_t{0}, std::uint32_t{1}));
}

inline std::vector<missing_version> file::missing_versions(std::string_view name, const file &provider) const
{
    std::vector<missing_version> found;
    const bytes_view bytes = provider.bytes();
    const auto ask = [&](const std::uint8_t *input, std::size_t size, const xmas_elf_header_t *header, auto... room) {
        return xmas_elf_missing_versions(input, size, header, raw(name), name.size(), bytes.data(), bytes.size(), &provider.header(), room...);
    };
    for (const xmas_elf_lacked_version_t &one : all<xmas_elf_lacked_version_t>(ask)) {
        if (one.version.status == XMAS_ELF_SEARCH_NO_PROVIDER) continue;
        check(one.version.status);
        found.push_back({version_of(one.version), static_cast<lack>(one.lack)});
    }
    return found;
}

/// The objects of a program in the order in which they are loaded, and what their entries found.
class load_order {
public:
    static constexpr std::uint32_t missing = 0xffffffff;

    /// Adds an object with entries of these kinds: first the program, and then each new one that an entry finds. Its number is given.
    std::uint32_t add(std::vector<name_kind> kinds)
    {
        found_.emplace_back(kinds.size(), not_asked);
        kinds_.emplace_back();
        for (const name_kind kind : kinds) kinds_.back().push_back(static_cast<std::uint32_t>(kind));
        return static_cast<std::uint32_t>(found_.size() - 1);
    }
    /// Says what an entry of an object found: the number of an object, or `missing`.
    void set(std::size_t object, std::size_t entry, std::uint32_t number) { found_.at(object).at(entry) = number; }

    /// The object and the entry whose name is to be looked for next; none if all were.
    std::optional<std::pair<std::size_t, std::size_t>> next()
    {
        xmas_elf_object_entry_t entry{};
        const std::uint32_t status = ask([&](auto... all) { return xmas_elf_next_entry(all..., &entry); });
        if (status == XMAS_ELF_NO_RECORD) return std::nullopt;
        check(status);
        return std::pair(static_cast<std::size_t>(entry.object), static_cast<std::size_t>(entry.entry));
    }
    /// The numbers of the libraries in the order in which they start; those of all objects in that in which symbols are looked up.
    std::vector<std::uint32_t> starts(std::vector<std::uint32_t> &list)
    {
        std::vector<std::uint32_t> words(3 * found_.size());
        std::uint64_t count = 0;
        list.resize(found_.size());
        check(ask([&](auto... all) { return xmas_elf_start_order(all..., list.data(), list.size(), words.data(), words.size(), &count); }));
        words.resize(static_cast<std::size_t>(count));
        return words;
    }

private:
    static constexpr std::uint32_t not_asked = 0xfffffffe;

    template <class Call> std::uint32_t ask(Call call)
    {
        std::vector<xmas_elf_dependencies_t> all;
        std::size_t count = 0;
        for (std::size_t number = 0; number < found_.size(); number++) {
            all.push_back({found_[number].data(), found_[number].size(), kinds_[number].data(), kinds_[number].size()});
            count += found_[number].size();
        }
        std::vector<std::uint32_t> words(4 * found_.size()), edges(count);
        return call(all.data(), all.size(), words.data(), words.size(), edges.data(), edges.size());
    }

    std::vector<std::vector<std::uint32_t>> found_{}, kinds_{};
};

} // namespace xmas_elf

#endif
