// Ember+ for C++17, over ember.h: a line, its entries and messages made by hand, as classes. No exceptions, no allocation, no virtual
// functions, nothing kept but what stands in the objects. Numbers are ember.h's: 0 is done, and ember::say has them in words.
//
//     static ember::line line;                                   // some 125 KB: not on a small stack
//     line.start({EMBER_N_TO_N, 8, 10}, path, 2);                // or line.listen(), with no desk
//     for (auto rest = chunk; !rest.empty(); rest.remove_prefix(line.consumed()))
//         switch (line.turn(rest)) {
//         case EMBER_MESSAGE:
//             for (auto entry : line.entries())
//                 if (auto name = entry.text(EMBER_IDENTIFIER)) ..
//         }
#ifndef EMBER_HPP
#define EMBER_HPP

#include "ember.h"

#include <array>
#include <cstddef>
#include <cstdint>
#include <initializer_list>
#include <optional>
#include <string_view>

namespace ember {

using number = std::uint64_t;

/// Bytes of the caller's: a pointer and a count, as std::span would be. Never owns them.
struct bytes {
    const std::uint8_t *data = nullptr;
    std::size_t size = 0;
    constexpr bytes() = default;
    constexpr bytes(const std::uint8_t *data, std::size_t size) : data(data), size(size) {}
    template <std::size_t N> constexpr bytes(const std::uint8_t (&array)[N]) : data(array), size(N) {}
    constexpr bool empty() const noexcept { return size == 0; }
    /// Leaves out the first ones. Never more than there are.
    constexpr void remove_prefix(std::size_t count) noexcept
    {
        count = count < size ? count : size;
        data += count;
        size -= count;
    }
    constexpr const std::uint8_t *begin() const noexcept { return data; }
    constexpr const std::uint8_t *end() const noexcept { return data + size; }
};

/// A number in words. Never null.
inline const char *say(number n) noexcept { return ember_say(n); }

/// The numbers of a path or of sources, to go through. Never copies them: the message stays meanwhile.
class numbers {
public:
    class iterator {
    public:
        explicit iterator(ember_iterator at, bool more) noexcept : at_(at), more_(more) { ++*this; }
        number operator*() const noexcept { return value_; }
        iterator &operator++() noexcept
        {
            more_ = more_ && ember_next(&at_, &value_) != 0;
            return *this;
        }
        bool operator!=(const iterator &other) const noexcept { return more_ != other.more_; }

    private:
        ember_iterator at_;
        number value_ = 0;
        bool more_;
    };
    explicit numbers(ember_iterator at) noexcept : at_(at) {}
    iterator begin() const noexcept { return iterator(at_, true); }
    iterator end() const noexcept { return iterator(at_, false); }

private:
    ember_iterator at_;
};

/// A path: its numbers, at most 16. Empty for an entry that has none.
struct path {
    std::array<number, EMBER_PATH_MAX> numbers{};
    std::size_t size = 0;
    const number *begin() const noexcept { return numbers.data(); }
    const number *end() const noexcept { return numbers.data() + size; }
};

/// An entry of a message: its row and where its texts lie. It may be copied, and is good until the line's next turn.
class entry {
public:
    entry(const ember_row *table, std::size_t count, std::size_t place, bytes message) noexcept
        : table_(table), count_(count), place_(place), message_(message)
    {
    }
    const std::uint64_t *row() const noexcept { return table_[place_]; }
    std::size_t place() const noexcept { return place_; }
    number kind() const noexcept { return ember_kind(row()); }
    const char *kind_name() const noexcept { return ember_kind_name(kind()); }
    bool is_parameter() const noexcept { return ember_is_parameter(row()) != 0; }
    bool is_node() const noexcept { return ember_is_node(row()) != 0; }
    bool is_matrix() const noexcept { return ember_is_matrix(row()) != 0; }
    bool is_connection() const noexcept { return kind() == EMBER_KIND_CONNECTION; }
    std::size_t depth() const noexcept { return ember_depth(table_, count_, place_); }
    bool has(std::size_t member) const noexcept { return ember_has(row(), member) != 0; }

    /// What it stands in; none in Root.
    std::optional<entry> parent() const noexcept
    {
        if (!ember_has_parent(row()) || ember_parent(row()) >= count_)
            return std::nullopt;
        return entry(table_, count_, ember_parent(row()), message_);
    }

    /// Its full path; empty if it is no element.
    ember::path path() const noexcept
    {
        ember::path path;
        path.size = ember_path(table_, count_, place_, message_.data, message_.size, path.numbers.data());
        return path;
    }

    /// A member, if it is there and of that type. Never converts.
    std::optional<std::int64_t> integer(std::size_t member) const noexcept
    {
        std::int64_t value;
        return ember_integer(row(), member, &value) ? std::optional<std::int64_t>(value) : std::nullopt;
    }
    std::optional<double> real(std::size_t member) const noexcept
    {
        double value;
        return ember_real(row(), member, &value) ? std::optional<double>(value) : std::nullopt;
    }
    std::optional<bool> boolean(std::size_t member) const noexcept
    {
        int value;
        return ember_boolean(row(), member, &value) ? std::optional<bool>(value != 0) : std::nullopt;
    }
    std::optional<std::string_view> text(std::size_t member) const noexcept
    {
        const char *text;
        std::size_t count;
        return ember_text(row(), member, message_.data, message_.size, &text, &count) ? std::optional<std::string_view>({text, count}) : std::nullopt;
    }
    std::optional<bytes> octets(std::size_t member) const noexcept
    {
        bytes value;
        return ember_octets(row(), member, message_.data, message_.size, &value.data, &value.size) ? std::optional<bytes>(value) : std::nullopt;
    }
    ember::numbers numbers(std::size_t member) const noexcept
    {
        return ember::numbers(ember_iterate(row(), member, message_.data, message_.size));
    }

private:
    const ember_row *table_;
    std::size_t count_, place_;
    bytes message_;
};

/// The entries of a message, in its order. Good until the line's next turn.
class entries {
public:
    class iterator {
    public:
        iterator(const ember_row *table, std::size_t count, std::size_t place, bytes message) noexcept
            : table_(table), count_(count), place_(place), message_(message)
        {
        }
        entry operator*() const noexcept { return entry(table_, count_, place_, message_); }
        iterator &operator++() noexcept
        {
            place_++;
            return *this;
        }
        bool operator!=(const iterator &other) const noexcept { return place_ != other.place_; }

    private:
        const ember_row *table_;
        std::size_t count_, place_;
        bytes message_;
    };
    entries(const ember_row *table, std::size_t count, bytes message) noexcept : table_(table), count_(count), message_(message) {}
    std::size_t size() const noexcept { return count_; }
    entry operator[](std::size_t place) const noexcept { return entry(table_, count_, place, message_); }
    iterator begin() const noexcept { return iterator(table_, count_, 0, message_); }
    iterator end() const noexcept { return iterator(table_, count_, count_, message_); }

private:
    const ember_row *table_;
    std::size_t count_;
    bytes message_;
};

/// What a desk is opened from; 0 for a limit that is not given.
struct figures {
    number type, targets, sources, total = 0, each = 0;
    constexpr figures(number type, number targets, number sources, number total = 0, number each = 0)
        : type(type), targets(targets), sources(sources), total(total), each(each)
    {
    }
};

/// A stream, the entries of its last message and the desk behind it: struct ember_line. It may be copied.
class line {
public:
    line() noexcept { listen(); }
    void listen() noexcept { ember_line_listen(&c_); }
    number start(const figures &f, const number *path, std::size_t path_words) noexcept
    {
        return ember_line_start(&c_, f.type, f.targets, f.sources, f.total, f.each, path, path_words);
    }
    void restart() noexcept { ember_line_restart(&c_); }
    number turn(bytes chunk) noexcept { return ember_line_turn(&c_, chunk.data, chunk.size); }

    std::size_t consumed() const noexcept { return c_.consumed; }
    bool discarded() const noexcept { return c_.discarded != 0; }
    number tree() const noexcept { return c_.tree; }
    std::size_t place() const noexcept { return c_.place; }
    std::size_t needed() const noexcept { return c_.needed; }
    number root() const noexcept { return c_.root; }
    bytes message() const noexcept { return bytes(c_.store, c_.message_bytes); }
    ember::entries entries() const noexcept { return ember::entries(c_.table, c_.count, message()); }

    /// The desk's answers to the message's connections: how many, answer i, and the entry that it is for.
    std::size_t answers() const noexcept { return c_.answer_count; }
    number answer(std::size_t i) const noexcept { return i < c_.answer_count ? c_.answers[i] : number(EMBER_SETUP); }
    std::optional<entry> answered(std::size_t i) const noexcept
    {
        std::size_t at = ember_line_answered(&c_, i);
        return at < c_.count ? std::optional<entry>(entries()[at]) : std::nullopt;
    }

    number request(number target, std::initializer_list<number> sources, number operation) noexcept
    {
        return ember_line_request(&c_, target, sources.begin(), sources.size(), operation);
    }
    bool connected(number target, number source) const noexcept { return ember_line_connected(&c_, target, source) != 0; }
    number write_sheet(std::uint8_t *out, std::size_t room, std::size_t &count) const noexcept { return ember_line_sheet_write(&c_, out, room, &count); }
    number read_sheet(bytes text) noexcept { return ember_line_sheet_read(&c_, text.data, text.size); }

    /// The struct itself, for the functions of ember.h.
    ember_line &c() noexcept { return c_; }
    const ember_line &c() const noexcept { return c_; }

private:
    ember_line c_;
};

/// A message made by hand: at most Rows entries, and Bytes of texts, octets, paths and sources. Entries are named by their place.
template <std::size_t Rows = 64, std::size_t Bytes = 2048> class message {
public:
    /// An element in Root, or in the one at a place; its place. Past Rows it is left out, and frames answers EMBER_NO_ROOM.
    std::size_t element(number kind, number own, std::optional<std::size_t> in = std::nullopt) noexcept
    {
        ember_element(row(), kind, in ? EMBER_IN(*in) : EMBER_IN_ROOT, own);
        return next();
    }
    std::size_t qualified(number kind, const number *path, std::size_t path_words) noexcept
    {
        ember_qualified(row(), kind, &arena(), path, path_words);
        return next();
    }
    std::size_t command(std::int64_t command, std::optional<std::size_t> in = std::nullopt) noexcept
    {
        ember_command(row(), in ? EMBER_IN(*in) : EMBER_IN_ROOT, command);
        return next();
    }
    std::size_t connection(std::size_t matrix, number target, const number *sources, std::size_t count, number operation = EMBER_ABSOLUTE) noexcept
    {
        ember_connection(row(), EMBER_IN(matrix), &arena(), target, sources, count, operation);
        return next();
    }

    /// A member of the entry at a place.
    void integer(std::size_t place, std::size_t member, std::int64_t value) noexcept { ember_put_integer(at(place), member, value); }
    void boolean(std::size_t place, std::size_t member, bool value) noexcept { ember_put_boolean(at(place), member, value); }
    bool real(std::size_t place, std::size_t member, double value) noexcept { return ember_put_real(at(place), member, value) != 0; }
    bool text(std::size_t place, std::size_t member, std::string_view value) noexcept
    {
        return ember_put_part(at(place), member, EMBER_TYPE_TEXT, &arena(), value.data(), value.size()) != 0;
    }
    bool octets(std::size_t place, std::size_t member, bytes value) noexcept
    {
        return ember_put_part(at(place), member, EMBER_TYPE_OCTETS, &arena(), value.data, value.size) != 0;
    }

    /// The frames that carry it; see ember_frames.
    number frames(std::uint8_t *out, std::size_t room, std::uint64_t &count, number root = EMBER_ELEMENTS) noexcept
    {
        return over_ ? number(EMBER_NO_ROOM) : ember_frames(rows_, count_, root, &arena(), out, room, &count);
    }
    /// Why it makes no tree: the cause, its row and member; see ember_why.
    number why(std::size_t &row, std::size_t &member, number root = EMBER_ELEMENTS) const noexcept
    {
        return ember_why(rows_, Rows, count_, root, bytes_, arena_.used, &row, &member);
    }
    std::size_t size() const noexcept { return count_; }
    void clear() noexcept
    {
        count_ = 0;
        over_ = false;
        arena_ = ember_arena{bytes_, Bytes, 0, EMBER_DONE};
    }

private:
    std::uint64_t *row() noexcept { return rows_[count_]; }
    ember_arena &arena() noexcept
    {
        arena_.bytes = bytes_; // a copy has bytes of its own
        return arena_;
    }
    std::uint64_t *at(std::size_t place) noexcept { return rows_[place < Rows ? place : Rows]; }
    std::size_t next() noexcept
    {
        if (count_ == Rows)
            over_ = true;
        return count_ < Rows ? count_++ : count_;
    }
    ember_row rows_[Rows + 1] = {}; // the last is scratch, for what is over
    std::uint8_t bytes_[Bytes] = {};
    ember_arena arena_ = {bytes_, Bytes, 0, EMBER_DONE};
    std::size_t count_ = 0;
    bool over_ = false;
};

} // namespace ember

#endif
