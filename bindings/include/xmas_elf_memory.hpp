// The symbols of addresses, which bytes belong to what, and what a loader puts into memory. Included by xmas_elf.hpp.
#ifndef XMAS_ELF_MEMORY_HPP
#define XMAS_ELF_MEMORY_HPP

#include "xmas_elf.hpp"

#include <algorithm>

namespace xmas_elf {

/// The symbol of an address.
struct symbol_at : symbol {
    std::uint64_t offset = 0; ///< The address less the value of the symbol.
};

/// What a piece belongs to: a header, a section, a segment and no section, or nothing, between parts or behind all of them; a
/// piece of a range of addresses to a symbol or to none.
enum class owner : std::uint32_t { elf_header, program_headers, section_headers, section, segment, between, behind, symbol, no_symbol };

/// A longest run of bytes of a file, or of addresses, that belong to one part.
struct piece {
    std::uint64_t begin = 0; ///< The offset of the first byte, or the first address.
    std::uint64_t end = 0;   ///< The offset after the last byte, or the address after the last.
    std::uint64_t index = 0; ///< The index of the section, the segment or the symbol, or 0.
    owner of = owner::behind; ///< What it belongs to.
};

/// The pieces that a call stores, which returns their number: it is called again if there was too little room.
template <class Call> std::vector<piece> stored_pieces(std::size_t room, Call call)
{
    std::vector<xmas_elf_piece_t> stored(room);
    std::uint64_t count = call(stored);
    if (count > room) {
        stored.resize(static_cast<std::size_t>(count));
        count = call(stored);
    }
    stored.resize(static_cast<std::size_t>(count));
    std::vector<piece> pieces;
    for (const xmas_elf_piece_t &one : stored) pieces.push_back({one.begin, one.end, one.index, static_cast<owner>(one.owner)});
    return pieces;
}

/// Which bytes of a file belong to what, in the order of their offsets. Every byte is in exactly one piece.
inline std::vector<piece> pieces(const file &of)
{
    xmas_elf_piece_sizes_t sizes{};
    std::vector<std::uint32_t> words;
    std::vector<std::uint64_t> numbers;
    const auto ask = [&](std::vector<xmas_elf_piece_t> &out) {
        check(of.call(xmas_elf_pieces, std::uint64_t{0}, words.data(), words.size(), numbers.data(), numbers.size(), out.data(), out.size(), &sizes));
        return sizes.count;
    };
    std::vector<xmas_elf_piece_t> none;
    ask(none);
    words.resize(static_cast<std::size_t>(sizes.words));
    numbers.resize(static_cast<std::size_t>(sizes.numbers));
    return stored_pieces(words.size() + 7, ask);
}

/// The symbols that name addresses: those of the section of type SHT_SYMTAB, or else of SHT_DYNSYM, or else of the dynamic
/// segment; and the range of their section indices that need more than 16 bits. False if the file has no symbols.
inline bool find_address_symbols(const file &owner, xmas_elf_symbol_table_t &table, xmas_elf_range_t &indices)
{
    for (const std::uint32_t type : {2U, 11U})
        for (const section &one : owner.sections()) {
            if (one->type != type) continue;
            check(owner.call(xmas_elf_symbols_open, one.index(), &table));
            // A symbol without a name names no address.
            check(table.strings_status);
            for (const section &other : owner.sections())
                if (other->type == 18 && other->link == one.index()) {
                    indices = {other->offset, other->size};
                    break;
                }
            return true;
        }
    const std::uint32_t status = owner.call(xmas_elf_dynamic_symbols_open, &table);
    if (!owner.is_without_dynamic(status)) check(status);
    check(table.strings_status);
    return status == XMAS_ELF_OK;
}

/// The symbols of a file by section, for the pieces of many sections: a copy of their table in which those of each section lie
/// one after the other, so that the pieces of a section take no pass over the symbols of others.
class section_symbols {
public:
    explicit section_symbols(const file &owner)
    {
        xmas_elf_symbol_table_t table{};
        xmas_elf_range_t indices{};
        if (!find_address_symbols(owner, table, indices)) return;
        const bytes_view bytes = owner.bytes();
        if (indices.offset > bytes.size() || indices.size > bytes.size() - indices.offset) throw error(XMAS_ELF_DATA_RANGE);
        if (indices.size % 4 != 0) throw error(XMAS_ELF_NOT_MULTIPLE);
        index_.table = table;
        index_.machine = owner.header().machine;
        is_big_ = table.encoding == 2;
        size_ = table.file_class == 1 ? 16 : 24;
        copy(bytes.data() + table.symbols.offset, bytes.data() + indices.offset, static_cast<std::size_t>(indices.size));
        const std::uint8_t *strings = bytes.data() + table.strings.offset;
        index_.table.strings.offset = input_.size();
        input_.insert(input_.end(), strings, strings + table.strings.size);
    }

    /// Which of the addresses `begin .. end` of a section belong to which symbol of the section, as in `symbol_map::pieces`.
    std::vector<piece> pieces(std::uint32_t section, std::uint64_t begin, std::uint64_t end) const
    {
        const auto first = std::lower_bound(order_.begin(), order_.end(), std::make_pair(section, std::uint32_t{0}));
        const auto last = std::upper_bound(first, order_.end(), std::make_pair(section, UINT32_MAX));
        const auto place = static_cast<std::size_t>(first - order_.begin()), count = static_cast<std::size_t>(last - first);
        xmas_elf_address_index_t index = index_;
        index.table.symbols = {place * size_, count * size_};
        index.table.count = count;
        if (has_indices_) index.indices = {order_.size() * size_ + 4 * place, 4 * count};
        index.within = section;
        std::vector<std::uint32_t> words(2 * count);
        std::vector<std::uint64_t> numbers(2 * count);
        auto found = stored_pieces(2 * count + 1, [&](std::vector<xmas_elf_piece_t> &out) {
            std::uint64_t total = 0;
            check(xmas_elf_symbol_pieces(input_.data(), input_.size(), &index, begin, end, 0, words.data(), words.size(), numbers.data(), numbers.size(), out.data(), out.size(), &total));
            return total;
        });
        for (piece &one : found)
            if (one.of == owner::symbol) one.index = order_[place + static_cast<std::size_t>(one.index)].second;
        return found;
    }

private:
    std::uint32_t number(const std::uint8_t *bytes, std::size_t width) const noexcept
    {
        std::uint32_t number = 0;
        for (std::size_t i = 0; i < width; i++) number = number << 8U | bytes[is_big_ ? i : width - 1 - i];
        return number;
    }
    /// Copies the symbols by section, in the order of the table, and then a word for each if there are words.
    void copy(const std::uint8_t *symbols, const std::uint8_t *words, std::size_t words_size)
    {
        const auto count = static_cast<std::size_t>(index_.table.count);
        for (std::size_t i = 0; i < count; i++) {
            std::uint32_t section = number(symbols + i * size_ + (size_ == 16 ? 14 : 6), 2);
            if (section == 0xffff) section = 4 * i < words_size ? number(words + 4 * i, 4) : 0;
            order_.emplace_back(section, static_cast<std::uint32_t>(i));
        }
        std::sort(order_.begin(), order_.end());
        for (const auto &one : order_) input_.insert(input_.end(), symbols + one.second * size_, symbols + (one.second + 1) * size_);
        has_indices_ = words_size != 0;
        for (const auto &one : order_) {
            if (!has_indices_) break;
            const std::uint8_t none[4] = {}, *word = 4 * std::size_t{one.second} < words_size ? words + 4 * std::size_t{one.second} : none;
            input_.insert(input_.end(), word, word + 4);
        }
    }

    std::vector<std::uint8_t> input_{};
    /// The section and the index of each symbol of the copy.
    std::vector<std::pair<std::uint32_t, std::uint32_t>> order_{};
    xmas_elf_address_index_t index_{};
    std::size_t size_ = 24;
    bool is_big_ = false;
    bool has_indices_ = false;
};

/// The symbols of a file by their addresses: an index that is built once for many addresses. It has those of the section of
/// type SHT_SYMTAB, or else of SHT_DYNSYM, or else of the dynamic segment. In an object file, where values are offsets in
/// sections, `within` is the index of the section that is asked for.
class symbol_map {
public:
    explicit symbol_map(const file &owner, std::uint32_t within = 0) : file_(&owner)
    {
        xmas_elf_symbol_table_t table{};
        xmas_elf_range_t indices{};
        if (!find_address_symbols(owner, table, indices)) return;
        const auto ask = [&] {
            check(owner.call(xmas_elf_address_index, &table, &indices, within, words_.data(), words_.size(), numbers_.data(), numbers_.size(), &index_));
        };
        ask();
        words_.resize(static_cast<std::size_t>(index_.words));
        numbers_.resize(static_cast<std::size_t>(index_.numbers));
        ask();
    }

    /// Which of the addresses `begin .. end` belong to which symbol: that of `find`, if its size is not 0. Every address is in
    /// exactly one piece; the owner is `owner::symbol`, with the index of the symbol in its table, or `owner::no_symbol`.
    std::vector<piece> pieces(std::uint64_t begin, std::uint64_t end) const
    {
        const bytes_view bytes = file_->bytes();
        std::vector<std::uint32_t> words(words_.size());
        std::vector<std::uint64_t> numbers(numbers_.size());
        return stored_pieces(2 * static_cast<std::size_t>(index_.sized_count) + 1, [&](std::vector<xmas_elf_piece_t> &out) {
            std::uint64_t count = 0;
            check(xmas_elf_symbol_pieces(bytes.data(), bytes.size(), &index_, begin, end, 0, words.data(), words.size(), numbers.data(), numbers.size(), out.data(), out.size(), &count));
            return count;
        });
    }

    /// The number of symbols.
    std::uint64_t size() const noexcept { return index_.sized_count + index_.open_count; }
    /// The innermost symbol that covers an address.
    std::optional<symbol_at> find(std::uint64_t address) const { return std::move(find_all({address}).front()); }
    /// The symbols of many addresses, in their order.
    std::vector<std::optional<symbol_at>> find_all(const std::vector<std::uint64_t> &addresses) const
    {
        const bytes_view bytes = file_->bytes();
        std::vector<xmas_elf_symbol_at_t> found(addresses.size());
        check(xmas_elf_symbols_at(bytes.data(), bytes.size(), &index_, words_.data(), words_.size(), numbers_.data(), numbers_.size(), addresses.data(),
                                  addresses.size(), found.data(), found.size()));
        std::vector<std::optional<symbol_at>> symbols;
        for (const xmas_elf_symbol_at_t &one : found) symbols.push_back(one.found != 0 ? std::optional<symbol_at>(named(one)) : std::nullopt);
        return symbols;
    }

private:
    symbol_at named(const xmas_elf_symbol_at_t &found) const
    {
        symbol_at one;
        static_cast<xmas_elf_symbol_t &>(one) = found.symbol;
        one.index = found.index;
        one.offset = found.offset;
        xmas_elf_range_t name{};
        const bytes_view bytes = file_->bytes();
        const xmas_elf_symbol_table_t &table = index_.table;
        if (table.strings_status == XMAS_ELF_OK && xmas_elf_text(bytes.data(), bytes.size(), &table.strings, found.symbol.name, &name) == XMAS_ELF_OK)
            one.name = file_->text(name);
        return one;
    }

    const file *file_;
    std::vector<std::uint32_t> words_{};
    std::vector<std::uint64_t> numbers_{};
    xmas_elf_address_index_t index_{};
};

/// Whose way of mapping: that of Linux, which maps programs, or of glibc, which maps libraries.
enum class loader : std::uint32_t { linux_kernel = 0, glibc = 1 };

/// What Linux and glibc put into memory for a file; throws if it has no plan. 0 means pages of 4096 bytes, and for the
/// end of the addresses of Linux.
inline xmas_elf_load_plan_t load_plan(const file &of, std::uint64_t page = 0, std::uint64_t limit = 0)
{
    xmas_elf_load_plan_t plan{};
    check(of.call(xmas_elf_load_plan, page, limit, &plan));
    return plan;
}

/// What a loader maps before relocation, in the order of addresses.
inline std::vector<xmas_elf_load_mapping_t> load_mappings(const file &of, loader by, std::uint64_t page = 0, std::uint64_t limit = 0)
{
    std::vector<xmas_elf_load_mapping_t> found;
    for (std::size_t room = 16;; room *= 4) {
        found.resize(room);
        std::uint64_t count = 0;
        check(of.call(xmas_elf_load_mappings, page, limit, static_cast<std::uint32_t>(by), std::uint64_t{0}, found.data(), room, &count));
        found.resize(static_cast<std::size_t>(count));
        if (count < room) return found;
    }
}

/// The bytes that a loader maps before relocation, from the start of the span of the plan on; 0 where nothing is mapped.
inline std::vector<std::uint8_t> load_image(const file &of, loader by, std::uint64_t page = 0, std::uint64_t limit = 0)
{
    const xmas_elf_span_t span = load_plan(of, page, limit).span;
    std::vector<std::uint8_t> image(static_cast<std::size_t>(span.end - span.start));
    check(of.call(xmas_elf_load_image, page, limit, static_cast<std::uint32_t>(by), image.data(), image.size()));
    return image;
}

/// The object of a file at a base, without an image.
inline xmas_elf_load_object_t load_object(const file &of, std::uint64_t base)
{
    xmas_elf_load_object_t object{};
    object.file = of.bytes().data();
    object.file_size = of.bytes().size();
    object.base = base;
    return object;
}

/// What can't be read or written of one of several objects.
class object_error : public error {
public:
    object_error(std::uint32_t status, std::optional<std::size_t> of, std::optional<std::uint64_t> relocation)
        : error(status), of_(of), relocation_(relocation) {}
    /// The index of the object, if one has the error.
    std::optional<std::size_t> of() const noexcept { return of_; }
    /// The index of its relocation, if one has the error, in the order in which words are written.
    std::optional<std::uint64_t> relocation() const noexcept { return relocation_; }

private:
    std::optional<std::size_t> of_;
    std::optional<std::uint64_t> relocation_;
};

/// The indices of the object and of the relocation that a call tells, if it has an error; before that those of none.
struct told_indices {
    std::uint64_t object = UINT64_MAX, relocation = UINT64_MAX;
    /// Throws an `object_error` if a status is one.
    void check(std::uint32_t status) const
    {
        if (status == XMAS_ELF_OK) return;
        throw object_error(status, object != UINT64_MAX ? std::optional<std::size_t>(static_cast<std::size_t>(object)) : std::nullopt,
                           relocation != UINT64_MAX ? std::optional<std::uint64_t>(relocation) : std::nullopt);
    }
};

/// Throws an `object_error` if the words of the object at index `of` can't be written before the program runs; `size` is that of its
/// image.
inline void check_image(const std::vector<xmas_elf_load_object_t> &objects, std::size_t of, std::size_t size,
                        std::uint64_t page = 0, std::uint64_t limit = 0)
{
    std::vector<std::uint8_t> marks(size / 8 + 1);
    told_indices told;
    told.check(xmas_elf_check_image(objects.data(), objects.size(), of, page, limit, marks.data(), marks.size(), &told.object, &told.relocation));
}

/// Writes the words of the object at index `of` to its image, which `load_image` gave, and returns how many have no number: what
/// functions return, and descriptors of thread-local storage. Throws an `object_error`.
inline std::uint64_t relocate(const std::vector<xmas_elf_load_object_t> &objects, std::size_t of, std::vector<std::uint8_t> &image,
                              bool lazy = false, std::uint64_t page = 0, std::uint64_t limit = 0)
{
    std::uint64_t count = 0;
    told_indices told;
    told.check(xmas_elf_relocate(objects.data(), objects.size(), of, lazy ? 1 : 0, page, limit, image.data(), image.size(), &count, &told.object, &told.relocation));
    return count;
}

/// Writes the words of all objects to their images, those of the last object first, and returns how many have no number. Each file is
/// read once. `images` are those that `load_image` gave, one after another in the order of the objects. Throws an `object_error`.
inline std::uint64_t relocate_all(const std::vector<xmas_elf_load_object_t> &objects, std::vector<std::uint8_t> &images,
                                  bool lazy = false, std::uint64_t page = 0, std::uint64_t limit = 0)
{
    std::uint64_t left = 0;
    told_indices told;
    told.check(xmas_elf_relocate_all(objects.data(), objects.size(), lazy ? 1 : 0, page, limit, images.data(), images.size(), &left, &told.object, &told.relocation));
    return left;
}

} // namespace xmas_elf

#endif
