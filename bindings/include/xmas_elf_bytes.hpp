// Bytes, mapped files, errors, ranges of items, symbols, versions and notes, for xmas_elf.hpp.
#ifndef XMAS_ELF_BYTES_HPP
#define XMAS_ELF_BYTES_HPP

#include <cerrno>
#include <cstddef>
#include <cstdint>
#include <iterator>
#include <optional>
#include <stdexcept>
#include <string>
#include <string_view>
#include <system_error>
#include <utility>
#include <vector>

#include <fcntl.h>
#include <sys/mman.h>
#include <sys/stat.h>
#include <unistd.h>

#include "xmas_elf.h"

namespace xmas_elf {

/// A part of a file that can't be read.
class error : public std::runtime_error {
public:
    explicit error(std::uint32_t status) : std::runtime_error(xmas_elf_status_text(status).text), status_(status) {}
    /// The reason, XMAS_ELF_...
    std::uint32_t status() const noexcept { return status_; }

private:
    std::uint32_t status_;
};

inline void check(std::uint32_t status)
{
    if (status != XMAS_ELF_OK) throw error(status);
}

/// Bytes that something else keeps.
class bytes_view {
public:
    constexpr bytes_view() noexcept = default;
    constexpr bytes_view(const std::uint8_t *data, std::size_t size) noexcept : data_(data), size_(size) {}
    constexpr const std::uint8_t *data() const noexcept { return data_; }
    constexpr std::size_t size() const noexcept { return size_; }
    constexpr bool empty() const noexcept { return size_ == 0; }
    constexpr const std::uint8_t *begin() const noexcept { return data_; }
    constexpr const std::uint8_t *end() const noexcept { return data_ + size_; }
    constexpr std::uint8_t operator[](std::size_t index) const noexcept { return data_[index]; }
    std::string_view text() const noexcept { return {reinterpret_cast<const char *>(data_), size_}; }

private:
    const std::uint8_t *data_ = nullptr;
    std::size_t size_ = 0;
};

/// The bytes of a file at a path, mapped as long as the object lives. Throws std::system_error, whose text has the path.
class mapped_file {
public:
    explicit mapped_file(const std::string &path)
    {
        const int descriptor = ::open(path.c_str(), O_RDONLY | O_CLOEXEC);
        if (descriptor < 0) fail(errno, path);
        struct stat status {};
        int failed = ::fstat(descriptor, &status) == 0 ? 0 : errno;
        if (failed == 0 && S_ISDIR(status.st_mode)) failed = EISDIR;
        size_ = failed == 0 ? static_cast<std::size_t>(status.st_size) : 0;
        if (size_ != 0) {
            memory_ = ::mmap(nullptr, size_, PROT_READ, MAP_PRIVATE, descriptor, 0);
            if (memory_ == MAP_FAILED) failed = errno;
        }
        ::close(descriptor);
        if (failed != 0) fail(failed, path);
    }
    mapped_file(mapped_file &&other) noexcept : memory_(std::exchange(other.memory_, nullptr)), size_(std::exchange(other.size_, 0)) {}
    mapped_file &operator=(mapped_file &&other) noexcept
    {
        std::swap(memory_, other.memory_);
        std::swap(size_, other.size_);
        return *this;
    }
    mapped_file(const mapped_file &) = delete;
    mapped_file &operator=(const mapped_file &) = delete;
    ~mapped_file()
    {
        if (size_ != 0) ::munmap(memory_, size_);
    }
    bytes_view bytes() const noexcept { return {static_cast<const std::uint8_t *>(memory_), size_}; }

private:
    [[noreturn]] static void fail(int number, const std::string &path) { throw std::system_error(number, std::generic_category(), path); }

    void *memory_ = nullptr;
    std::size_t size_ = 0;
};

/// Items that `Fill` reads by many at once: it puts those from an index on into an empty vector, and none at the end.
template <class Item, class Fill> class items {
public:
    class iterator {
    public:
        using iterator_category = std::input_iterator_tag;
        using value_type = Item;
        using difference_type = std::ptrdiff_t;
        using pointer = const Item *;
        using reference = const Item &;

        iterator() noexcept = default;
        explicit iterator(items *owner) : owner_(owner) { settle(); }
        reference operator*() const { return owner_->batch_[owner_->next_]; }
        pointer operator->() const { return &**this; }
        iterator &operator++()
        {
            owner_->next_++;
            settle();
            return *this;
        }
        void operator++(int) { ++*this; }
        friend bool operator==(const iterator &one, const iterator &other) noexcept { return one.owner_ == other.owner_; }
        friend bool operator!=(const iterator &one, const iterator &other) noexcept { return !(one == other); }

    private:
        void settle()
        {
            if (!owner_->is_filled()) owner_ = nullptr;
        }
        items *owner_ = nullptr;
    };

    explicit items(Fill fill) : fill_(std::move(fill)) {}
    iterator begin() { return iterator(this); }
    iterator end() noexcept { return {}; }

private:
    bool is_filled()
    {
        if (next_ < batch_.size()) return true;
        first_ += batch_.size();
        next_ = 0;
        batch_.clear();
        fill_(first_, batch_);
        return !batch_.empty();
    }

    Fill fill_;
    std::vector<Item> batch_{};
    std::uint64_t first_ = 0;
    std::size_t next_ = 0;
};

/// The version of a symbol, or one that a file defines or needs.
struct version {
    std::optional<std::string_view> name{};    ///< None if nothing has the number, or the name can't be read.
    std::optional<std::string_view> library{}; ///< The library that it is needed of.
    std::uint32_t number = 0;                  ///< 0 is local, 1 is global.
    std::uint32_t flags = 0;                   ///< vd_flags, vna_flags.
    bool is_hidden = false;                    ///< Only a reference with the version finds the symbol.
    bool is_defined = false;                   ///< The file defines it.

    /// As it is written after a symbol's name: `@@V` for the default version, `@V` for others, and else nothing.
    std::string suffix() const
    {
        if (!name) return {};
        return (is_defined && !is_hidden ? "@@" : "@") + std::string(*name);
    }
};

/// A symbol; the fields are those of its record.
struct symbol : xmas_elf_symbol_t {
    std::uint64_t index = 0;                ///< Its index in its table.
    std::optional<std::string_view> name{}; ///< None if the name can't be read.
    std::uint32_t name_status = XMAS_ELF_OK; ///< Why it can't be read.
    std::optional<xmas_elf::version> version{}; ///< Of a symbol of the dynamic segment, if these have versions.

    /// The name; throws if it can't be read.
    std::string_view checked_name() const
    {
        check(name_status);
        return name.value_or(std::string_view{});
    }

    unsigned type() const noexcept { return info & 15U; }
    unsigned binding() const noexcept { return info >> 4U; }
    bool is_defined() const noexcept { return shndx != 0; }
};

/// A note.
struct note {
    std::uint32_t type = 0;
    std::string_view name{}; ///< Without the zero byte that ends it.
    bytes_view desc{};
};

} // namespace xmas_elf

#endif
