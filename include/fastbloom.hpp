// Bloom filters for C++17 and later, over the library fastbloom_c.
//
//     auto made = fastbloom::filter::make(1, 1000, 1'000'000);
//     if (!made) std::puts(fastbloom::reason(made.status())), std::exit(1);
//     fastbloom::filter &seen = *made;
//     seen.insert("crab");   // false: it is new
//     seen.contains("crab"); // true
//
// A filter owns its words. It moves, and it is copied by `clone` alone. Nothing here throws: a call
// that can fail returns a `result`, or a bool. A filter that was moved from, or made by default,
// has no words: it contains nothing, and an insert changes nothing.
//
// Threads may read one filter at once. While a thread changes it, no other touches it. The filter
// that threads share is in fastbloom_shared.hpp.
#ifndef FASTBLOOM_HPP
#define FASTBLOOM_HPP

#include "fastbloom.h"

#include <array>
#include <cstddef>
#include <cstdint>
#include <cstdlib>
#include <cstring>
#include <memory>
#include <optional>
#include <string_view>
#include <utility>
#if __has_include(<span>)
#include <span>
#endif

namespace fastbloom {

// Success, or why something is refused.
enum class status : std::uint8_t {
    ok = FASTBLOOM_OK,
    empty_words = FASTBLOOM_EMPTY_WORDS,
    too_many_words = FASTBLOOM_TOO_MANY_WORDS,
    zero_rate = FASTBLOOM_ZERO_RATE,
    size_overflow = FASTBLOOM_SIZE_OVERFLOW,
    memory = FASTBLOOM_MEMORY,
    hash_count = FASTBLOOM_HASH_COUNT,
    not_a_filter = FASTBLOOM_NOT_A_FILTER,
    unknown_version = FASTBLOOM_UNKNOWN_VERSION,
    cut = FASTBLOOM_CUT,
    too_long = FASTBLOOM_TOO_LONG,
    reserved = FASTBLOOM_RESERVED,
    seal = FASTBLOOM_SEAL,
    input = FASTBLOOM_INPUT,
    part_of_a_line = FASTBLOOM_PART_OF_A_LINE,
    blocked = FASTBLOOM_BLOCKED,
    not_blocked = FASTBLOOM_NOT_BLOCKED,
    sealed = FASTBLOOM_SEALED,
    output = FASTBLOOM_OUTPUT,
    rate_too_large = FASTBLOOM_RATE_TOO_LARGE,
    too_many_hashes = FASTBLOOM_TOO_MANY_HASHES,
};

// A status in words.
inline const char *reason(status why) noexcept {
    return fastbloom_strerror(static_cast<std::uint8_t>(why));
}

// A value, or why there is none. The value is read only where there is one.
template <typename T> class [[nodiscard]] result {
public:
    result(T &&value) noexcept : value_(std::move(value)), status_(fastbloom::status::ok) {}
    result(fastbloom::status why) noexcept : status_(why) {}

    explicit operator bool() const noexcept { return value_.has_value(); }
    fastbloom::status status() const noexcept { return status_; }

    T &operator*() &noexcept { return *value_; }
    const T &operator*() const &noexcept { return *value_; }
    T &&operator*() &&noexcept { return *std::move(value_); }
    T *operator->() noexcept { return &*value_; }
    const T *operator->() const noexcept { return &*value_; }

private:
    std::optional<T> value_;
    fastbloom::status status_;
};

// Sixteen bytes. Where others choose the items, draw them.
using key_bytes = std::array<std::uint8_t, 16>;

// The bytes of a file before its words.
using head_bytes = std::array<std::uint8_t, 64>;

// Two bounds of a rate, as fractions of 2^63.
struct rate_bounds {
    std::uint64_t low;
    std::uint64_t high;
};

// Two bounds of a number of items.
struct item_bounds {
    std::size_t low;
    std::optional<std::size_t> high; // none where no number is too many
};

// Whether bit i of a bit set is set, as the calls on many hashes write it.
inline bool bit_of(const std::uint64_t *bits, std::size_t i) noexcept {
    return (bits[i / 64] >> (i % 64) & 1) != 0;
}

// How many words a bit set has for this many hashes.
constexpr std::size_t words_of_bits(std::size_t count) noexcept {
    return count / 64 + (count % 64 != 0);
}

namespace detail {

// A word that nobody reads or writes. The library asks for an address even where there is nothing.
inline std::uint64_t no_words = 0;

inline const std::uint8_t *not_null(const void *bytes) noexcept {
    return bytes == nullptr ? reinterpret_cast<const std::uint8_t *>(&no_words)
                            : static_cast<const std::uint8_t *>(bytes);
}
inline const std::uint64_t *not_null_words(const std::uint64_t *words) noexcept {
    return words == nullptr ? &no_words : words;
}
inline std::uint64_t *not_null_words(std::uint64_t *words) noexcept {
    return words == nullptr ? &no_words : words;
}

} // namespace detail

// The hash of bytes that come in pieces: SipHash-1-3 of all pieces, one behind the other. A copy
// goes on by itself.
class hasher {
public:
    explicit hasher(const key_bytes &key = {}) noexcept {
        fastbloom_hasher_init(&state_, key.data());
    }

    // Takes in a piece. A null pointer is no text.
    hasher &update(std::string_view piece) noexcept { return update(piece.data(), piece.size()); }
    hasher &update(std::nullptr_t) = delete;
    hasher &update(const void *bytes, std::size_t size) noexcept {
        fastbloom_hasher_update(&state_, detail::not_null(bytes), size);
        return *this;
    }
#ifdef __cpp_lib_span
    hasher &update(std::span<const std::byte> piece) noexcept {
        return update(piece.data(), piece.size());
    }
    hasher &update(std::span<const std::uint8_t> piece) noexcept {
        return update(piece.data(), piece.size());
    }
#endif

    // The hash of the pieces so far. More may follow.
    std::uint64_t finish() const noexcept { return fastbloom_hasher_finish(&state_); }

private:
    fastbloom_hasher state_;
};

namespace detail {

// The words of a filter with its shape and key: its own, those of a mapped file, the caller's, or
// none.
struct store {
    std::uint64_t *words = &no_words;
    std::size_t num_words = 0;
    std::uint32_t num_hashes = 1;
    key_bytes key{};
    void *memory = nullptr; // what the end frees
    bool is_mapped = false; // whether the end undoes a mapping

    store() noexcept = default;
    store(std::uint64_t *at, std::size_t count, std::uint32_t hashes,
          const key_bytes &bytes) noexcept
        : words(at), num_words(count), num_hashes(hashes == 0 ? 1 : hashes), key(bytes) {}
    explicit store(const fastbloom_filter &read) noexcept
        : store(read.words, read.num_words, read.num_hashes, {}) {
        std::memcpy(key.data(), read.key, key.size());
    }
    store(store &&other) noexcept { swap(other); }
    store &operator=(store &&other) noexcept {
        store(std::move(other)).swap(*this);
        return *this;
    }
    ~store() {
        fastbloom_filter filter = c_filter();
        if (is_mapped) fastbloom_unmap(&filter);
        std::free(memory);
    }

    void swap(store &other) noexcept {
        std::swap(words, other.words);
        std::swap(num_words, other.num_words);
        std::swap(num_hashes, other.num_hashes);
        std::swap(key, other.key);
        std::swap(memory, other.memory);
        std::swap(is_mapped, other.is_mapped);
    }

    fastbloom_filter c_filter() const noexcept {
        fastbloom_filter filter{words, num_words, num_hashes, {}};
        std::memcpy(filter.key, key.data(), key.size());
        return filter;
    }
    fastbloom_shared shared() const noexcept { return {words, num_words}; }
};

// The calls of the library on one kind of filters.
#define FASTBLOOM_KIND_(name, prefix)                                                              \
    struct name {                                                                                  \
        static constexpr auto rate_bounds = prefix##rate_bounds;                                   \
        static constexpr auto rate_now = prefix##rate_now;                                         \
        static constexpr auto capacity = prefix##capacity;                                         \
        static constexpr auto estimate = prefix##estimate;                                         \
        static constexpr auto estimate_union = prefix##estimate_union;                             \
        static constexpr auto estimate_common = prefix##estimate_common;                           \
        static constexpr auto jaccard = prefix##jaccard;                                           \
        static constexpr auto shared_rate_now = prefix##shared_rate_now;                           \
        static constexpr auto shared_estimate = prefix##shared_estimate;                           \
        static constexpr auto plan = prefix##plan;                                                 \
        static constexpr auto head_read = prefix##head_read;                                       \
        static constexpr auto head_write = prefix##head_write;                                     \
        static constexpr auto seal = prefix##seal;                                                 \
        static constexpr auto load = prefix##load;                                                 \
        static constexpr auto save = prefix##save;                                                 \
        static constexpr auto map = prefix##map;                                                   \
        static constexpr auto insert = prefix##insert;                                             \
        static constexpr auto insert_hash = prefix##insert_hash;                                   \
        static constexpr auto insert_hashes = prefix##insert_hashes;                               \
        static constexpr auto tell_new = prefix##insert_hashes_tell_new;                           \
        static constexpr auto contains = prefix##contains;                                         \
        static constexpr auto contains_hash = prefix##contains_hash;                               \
        static constexpr auto contains_hashes = prefix##contains_hashes;                           \
        static constexpr auto shared_insert = prefix##shared_insert;                               \
        static constexpr auto shared_insert_hash = prefix##shared_insert_hash;                     \
        static constexpr auto shared_insert_hashes = prefix##shared_insert_hashes;                 \
        static constexpr auto shared_tell_new = prefix##shared_insert_hashes_tell_new;             \
        static constexpr auto shared_contains = prefix##shared_contains;                           \
        static constexpr auto shared_contains_hash = prefix##shared_contains_hash;                 \
        static constexpr auto shared_contains_hashes = prefix##shared_contains_hashes;             \
    }
FASTBLOOM_KIND_(whole, fastbloom_);
FASTBLOOM_KIND_(lines, fastbloom_blocked_);
#undef FASTBLOOM_KIND_

// The calls that read words, which no thread changes meanwhile.
template <typename Kind> struct of_plain {
    using kind = Kind;
    static constexpr auto contains = Kind::contains;
    static constexpr auto contains_hash = Kind::contains_hash;
    static constexpr auto contains_hashes = Kind::contains_hashes;
    static constexpr auto rate_now = Kind::rate_now;
    static constexpr auto estimate = Kind::estimate;
    template <typename Call, typename... More>
    static auto make(Call call, const store &at, More... more) noexcept {
        return call(at.words, at.num_words, at.num_hashes, more...);
    }
    static std::size_t count_ones(const store &at) noexcept {
        return fastbloom_count_ones(at.words, at.num_words);
    }
    // Words from an index on, for which there is room.
    static const std::uint64_t *words(const store &at, std::size_t index, std::size_t,
                                      std::uint64_t *) noexcept {
        return at.words + index;
    }
};

// Makes filters of words. It is a friend of each class.
struct access {
    template <typename Filter> static auto &of(Filter &filter) noexcept { return filter.store_; }

    template <typename Filter> static result<Filter> make(store &&words) noexcept {
        Filter made;
        made.store_ = std::move(words);
        return made;
    }

    // The empty filter. Its words begin at a line of the cache, and take no pages yet.
    template <typename Filter>
    static result<Filter> zeros(std::size_t num_words, std::uint32_t num_hashes,
                                const key_bytes &key) noexcept {
        if (num_words == 0) return status::empty_words;
        if (fastbloom_num_bits(num_words) == 0) return status::too_many_words;
        std::size_t room = 8 * num_words + 64;
        void *const memory = std::calloc(1, room);
        if (memory == nullptr) return status::memory;
        void *words = memory;
        std::align(64, 8 * num_words, words, room);
        store made(static_cast<std::uint64_t *>(words), num_words, num_hashes, key);
        made.memory = memory;
        return make<Filter>(std::move(made));
    }

    // The filter with a copy of these words.
    template <typename Filter> static result<Filter> copy(const store &words) noexcept {
        auto made = zeros<Filter>(words.num_words, words.num_hashes, words.key);
        if (made) std::memcpy(made->store_.words, words.words, 8 * words.num_words);
        return made;
    }

    // The words of a filter, which then has none.
    template <typename Filter> static store release(Filter &&filter) noexcept {
        return std::move(filter.store_);
    }

    // The filter over words of the caller's.
    template <typename Filter>
    static result<Filter> over(std::uint64_t *words, std::size_t num_words,
                               std::uint32_t num_hashes, const key_bytes &key) noexcept {
        if (num_words == 0) return status::empty_words;
        if (fastbloom_num_bits(num_words) == 0) return status::too_many_words;
        return make<Filter>(store(words, num_words, num_hashes, key));
    }

    // The filter of a mapped file.
    template <typename Filter, typename Map>
    static result<Filter> map(Map call, const char *path, fastbloom_map_mode mode,
                              const fastbloom_limits &limits) noexcept {
        fastbloom_filter read;
        const std::uint8_t code = call(path, mode, &limits, &read);
        if (code != FASTBLOOM_OK) return static_cast<status>(code);
        store made(read);
        made.is_mapped = true;
        return make<Filter>(std::move(made));
    }
};

// What all classes have in common: look-ups by the calls of one kind, hashes, and the shape.
template <typename Derived, typename Calls> class reader {
public:
    void swap(Derived &other) noexcept { store_.swap(access::of(other)); }

    // Whether an item is contained. False means that it wasn't inserted since the last clear or
    // intersection; for a filter that threads share, while no call clears bits, that no insert of
    // it had returned when this call began. True may be a false positive. A null pointer is no
    // text, and nor is 0, which stands for one: a number goes in by its bytes or its hash.
    bool contains(std::string_view item) const noexcept {
        return contains(item.data(), item.size());
    }
    bool contains(std::nullptr_t) const = delete;
    bool contains(const void *bytes, std::size_t size) const noexcept {
        return Calls::make(Calls::contains, store_, store_.key.data(), not_null(bytes), size);
    }

    // The hash of an item: SipHash-1-3 of its bytes under the key.
    std::uint64_t hash(std::string_view item) const noexcept {
        return hash(item.data(), item.size());
    }
    std::uint64_t hash(std::nullptr_t) const = delete;
    std::uint64_t hash(const void *bytes, std::size_t size) const noexcept {
        return fastbloom_hash(store_.key.data(), not_null(bytes), size);
    }

    // Whether the item of a hash is contained.
    bool contains_hash(std::uint64_t hash) const noexcept {
        return Calls::make(Calls::contains_hash, store_, hash);
    }

    // A hasher under the key of this filter, for the hash of an item that comes in pieces.
    fastbloom::hasher begin_hash() const noexcept { return fastbloom::hasher(store_.key); }

    // The hashes of many items, whose bytes lie one behind the other: item i is those from
    // offsets[i] up to offsets[i + 1]. It returns false, and writes nothing, where the offsets
    // don't tell as many items within the bytes.
    [[nodiscard]] bool hash_items(const void *bytes, std::size_t size, const std::uint64_t *offsets,
                                  std::size_t num_offsets, std::uint64_t *hashes,
                                  std::size_t count) const noexcept {
        return fastbloom_hash_items(store_.key.data(), not_null(bytes), size,
                                    not_null_words(offsets), num_offsets, not_null_words(hashes),
                                    count);
    }

    // Looks many hashes up, in a bit set that the caller owns: `bit_of(found, i)` is set where
    // hashes[i] is contained, and each bit past the hashes is cleared. Where there are more hashes
    // than bits, or the filter has no words, it returns false and changes nothing.
    [[nodiscard]] bool contains_hashes(const std::uint64_t *hashes, std::size_t count,
                                       std::uint64_t *found, std::size_t num_found) const noexcept {
        return Calls::make(Calls::contains_hashes, store_, not_null_words(hashes), count,
                           not_null_words(found), num_found);
    }

#ifdef __cpp_lib_span
    bool contains(std::span<const std::byte> item) const noexcept {
        return contains(item.data(), item.size());
    }
    bool contains(std::span<const std::uint8_t> item) const noexcept {
        return contains(item.data(), item.size());
    }
    std::uint64_t hash(std::span<const std::byte> item) const noexcept {
        return hash(item.data(), item.size());
    }
    std::uint64_t hash(std::span<const std::uint8_t> item) const noexcept {
        return hash(item.data(), item.size());
    }
    [[nodiscard]] bool hash_items(std::span<const std::uint8_t> bytes,
                                  std::span<const std::uint64_t> offsets,
                                  std::span<std::uint64_t> hashes) const noexcept {
        return hash_items(bytes.data(), bytes.size(), offsets.data(), offsets.size(), hashes.data(),
                          hashes.size());
    }
    [[nodiscard]] bool contains_hashes(std::span<const std::uint64_t> hashes,
                                       std::span<std::uint64_t> found) const noexcept {
        return contains_hashes(hashes.data(), hashes.size(), found.data(), found.size());
    }
#endif

    // Whether both have as many words and hashes, and the same key.
    bool same_shape(const Derived &other) const noexcept {
        const store &its = access::of(other);
        return store_.num_words == its.num_words && store_.num_hashes == its.num_hashes &&
               store_.key == its.key;
    }

    std::size_t num_words() const noexcept { return store_.num_words; }
    std::size_t num_bits() const noexcept { return fastbloom_num_bits(store_.num_words); }
    std::uint32_t num_hashes() const noexcept { return store_.num_hashes; }
    const key_bytes &key() const noexcept { return store_.key; }

    // How many bits are set; where threads share the words, as they are loaded.
    std::size_t count_ones() const noexcept { return Calls::count_ones(store_); }

    // Two bounds of the mean rate of false positives once this many items are in the filter, and
    // how many it takes at the rate num / den: with one more a bound is above it. They are proved
    // but of a blocked filter. One with no words has no bounds, and takes 0.
    result<rate_bounds> false_positive_bounds(std::size_t items) const noexcept {
        return bounds_of(Calls::kind::rate_bounds, items);
    }
    std::size_t capacity_for(std::uint64_t num, std::uint64_t den) const noexcept {
        return Calls::kind::capacity(store_.num_words, store_.num_hashes, num, den);
    }

    // Two bounds of the filter as it is: of its rate of false positives, which are proved, and of
    // the number of items, at which as many bits are expected to be set. These are proved but of a
    // blocked filter, and nothing is claimed of how far the number of items that were inserted may
    // lie from it. A filter with no words has none.
    std::optional<rate_bounds> false_positive_rate() const noexcept {
        rate_bounds rate{};
        if (!Calls::make(Calls::rate_now, store_, &rate.low, &rate.high)) return std::nullopt;
        return rate;
    }
    std::optional<item_bounds> estimated_items() const noexcept {
        return items([this](std::size_t *low, std::size_t *high) {
            return Calls::make(Calls::estimate, store_, low, high);
        });
    }

    // Whether both have one shape, and the other all set bits of this one, so that it contains all
    // items of this one. The words that threads share are loaded one after the other.
    bool is_subset(const Derived &other) const noexcept {
        std::uint64_t room[2][64];
        if (!same_shape(other)) return false;
        for (std::size_t at = 0; at < store_.num_words; at += 64) {
            const std::size_t rest = store_.num_words - at, count = rest < 64 ? rest : 64;
            const std::uint64_t *few = Calls::words(store_, at, count, room[0]);
            const std::uint64_t *all = Calls::words(access::of(other), at, count, room[1]);
            for (std::size_t i = 0; i < count; i++)
                if ((few[i] & ~all[i]) != 0) return false;
        }
        return true;
    }
    friend bool operator<=(const Derived &one, const Derived &other) noexcept {
        return one.is_subset(other);
    }
    friend bool operator>=(const Derived &one, const Derived &other) noexcept {
        return other.is_subset(one);
    }

protected:
    friend struct access;

    reader() noexcept = default;

    // The bounds that a call of the library hands out, unless it returns why not, or false.
    template <typename Call>
    result<rate_bounds> bounds_of(Call call, std::size_t items) const noexcept {
        rate_bounds bounds{};
        const std::uint8_t code =
            call(store_.num_words, store_.num_hashes, items, &bounds.low, &bounds.high);
        if (code != FASTBLOOM_OK) return static_cast<status>(code);
        return bounds;
    }
    template <typename Call> static std::optional<item_bounds> items(Call call) noexcept {
        std::size_t low = 0, high = 0;
        if (!call(&low, &high)) return std::nullopt;
        if (high == SIZE_MAX) return item_bounds{low, std::nullopt};
        return item_bounds{low, high};
    }

    store store_;
};

// Hashes for a filter, which gets 256 at once, and the last ones at the end of this.
template <typename Filter> class batch {
public:
    explicit batch(Filter &filter) noexcept : filter_(filter) {}
    batch(const batch &) = delete;
    batch &operator=(const batch &) = delete;
    ~batch() { filter_.insert_hashes(hashes_, count_); }

    void add(std::uint64_t hash) noexcept {
        hashes_[count_++] = hash;
        if (count_ == 256) filter_.insert_hashes(hashes_, std::exchange(count_, 0));
    }

private:
    Filter &filter_;
    std::uint64_t hashes_[256];
    std::size_t count_ = 0;
};

template <typename Filter, typename Items> void insert_range(Filter &filter, Items &items) {
    batch<Filter> hashes(filter);
    for (const auto &item : items) hashes.add(filter.hash(item));
}

// A filter that owns its words.
template <typename Derived, typename Kind> class plain : public reader<Derived, of_plain<Kind>> {
public:
    // The empty filter for this many items, where 0 counts as 1, at the rate num / den of false
    // positives, which is below 1.
    static result<Derived> make(std::uint64_t num, std::uint64_t den, std::size_t items,
                                const key_bytes &key = {}) noexcept {
        if (den != 0 && num >= den) return status::rate_too_large;
        std::size_t num_words = 0;
        std::uint32_t num_hashes = 0;
        const std::uint8_t code = Kind::plan(num, den, items, &num_words, &num_hashes);
        if (code != FASTBLOOM_OK) return static_cast<status>(code);
        return access::zeros<Derived>(num_words, num_hashes, key);
    }

    // The filter of a file's bytes, which are copied. A file with more than max_hashes hashes is
    // refused, since each call takes as many steps, and so is one with more than max_words words,
    // and that of a filter of the other kind: `status::blocked`, `status::not_blocked`.
    static result<Derived> from_bytes(const void *bytes, std::size_t size,
                                      std::uint32_t max_hashes = 64,
                                      std::size_t max_words = SIZE_MAX) noexcept {
        fastbloom_filter read{};
        std::uint64_t seal = 0;
        const std::uint8_t code = read_head(bytes, size, read, seal);
        if (code != FASTBLOOM_OK) return static_cast<status>(code);
        if (read.num_hashes > max_hashes) return status::too_many_hashes;
        if (read.num_words > max_words) return status::too_many_words;
        const store head(read);
        auto made = access::zeros<Derived>(head.num_words, head.num_hashes, head.key);
        if (!made) return made;
        std::memcpy(made->store_.words, static_cast<const char *>(bytes) + 64, 8 * read.num_words);
        if (seal != 0 && seal != made->seal()) return status::seal;
        return made;
    }

    // The filter of a file, which is read whole. It is refused as by `from_bytes`, and where it
    // can't be read: `status::input`, and errno says why.
    static result<Derived> load(const char *path, std::uint32_t max_hashes = 64,
                                std::size_t max_words = SIZE_MAX) noexcept {
        const fastbloom_limits limits{max_words, max_hashes};
        fastbloom_filter read;
        const std::uint8_t code = Kind::load(path, &limits, &read);
        if (code != FASTBLOOM_OK) return static_cast<status>(code);
        store made(read);
        made.memory = read.words;
        return access::make<Derived>(std::move(made));
    }

    // Writes the filter's file, whole or not at all, with a seal or without one. Where it can't be
    // written, the old file stays: `status::output`, and errno says why. Only where the flush of
    // the folder failed, the new file is there.
    [[nodiscard]] fastbloom::status save(const char *path, bool sealed = true) const noexcept {
        const fastbloom_filter written = store_.c_filter();
        return static_cast<fastbloom::status>(Kind::save(path, &written, sealed));
    }

    // A filter with words of its own, which are equal to these.
    result<Derived> clone() const noexcept { return access::copy<Derived>(store_); }

    // Inserts an item, and returns whether it was contained before, which may be a false positive.
    // An item is what `contains` takes.
    bool insert(std::string_view item) noexcept { return insert(item.data(), item.size()); }
    bool insert(std::nullptr_t) = delete;
    bool insert(const void *bytes, std::size_t size) noexcept {
        return Kind::insert(store_.words, store_.num_words, store_.num_hashes, store_.key.data(),
                            not_null(bytes), size);
    }
    bool insert_hash(std::uint64_t hash) noexcept {
        return Kind::insert_hash(store_.words, store_.num_words, store_.num_hashes, hash);
    }

    // Inserts many hashes, which costs less than a call for each.
    void insert_hashes(const std::uint64_t *hashes, std::size_t count) noexcept {
        if (count != 0)
            Kind::insert_hashes(store_.words, store_.num_words, store_.num_hashes, hashes, count);
    }

    // Inserts each item of a range: a container or a view of what `insert` takes. Where the range
    // throws, the items before are inserted.
    template <typename Items> void insert_range(Items &&items) {
        detail::insert_range(*this, items);
    }

    // Inserts many hashes, one after the other, and tells in a bit set as of `contains_hashes`: a
    // bit is set where its hash was not contained just before its insert.
    [[nodiscard]] bool insert_hashes_tell_new(const std::uint64_t *hashes, std::size_t count,
                                              std::uint64_t *fresh,
                                              std::size_t num_fresh) noexcept {
        return Kind::tell_new(store_.words, store_.num_words, store_.num_hashes,
                              not_null_words(hashes), count, not_null_words(fresh), num_fresh);
    }

#ifdef __cpp_lib_span
    bool insert(std::span<const std::byte> item) noexcept {
        return insert(item.data(), item.size());
    }
    bool insert(std::span<const std::uint8_t> item) noexcept {
        return insert(item.data(), item.size());
    }
    void insert_hashes(std::span<const std::uint64_t> hashes) noexcept {
        insert_hashes(hashes.data(), hashes.size());
    }
    [[nodiscard]] bool insert_hashes_tell_new(std::span<const std::uint64_t> hashes,
                                              std::span<std::uint64_t> fresh) noexcept {
        return insert_hashes_tell_new(hashes.data(), hashes.size(), fresh.data(), fresh.size());
    }
    std::span<const std::uint64_t> words() const noexcept {
        return {store_.words, store_.num_words};
    }
#endif

    // Removes every item.
    void clear() noexcept { fastbloom_clear(store_.words, store_.num_words); }

    // Takes the items of the other in, or keeps only what may be in both. They return false, and
    // change nothing, where the shapes differ or there are no words.
    [[nodiscard]] bool unite(const Derived &other) noexcept {
        return fits(other) && (this == &other || // (the library asks for words that lie apart)
                               fastbloom_union(store_.words, store_.num_words, other.store_.words,
                                               other.store_.num_words));
    }
    [[nodiscard]] bool intersect(const Derived &other) noexcept {
        return fits(other) &&
               (this == &other || fastbloom_intersect(store_.words, store_.num_words,
                                                      other.store_.words, other.store_.num_words));
    }

    // The same as operators, which return the same.
    [[nodiscard]] bool operator|=(const Derived &other) noexcept { return unite(other); }
    [[nodiscard]] bool operator&=(const Derived &other) noexcept { return intersect(other); }

    // Whether shapes and words are equal.
    friend bool operator==(const Derived &one, const Derived &other) noexcept {
        const store &left = access::of(one), &right = access::of(other);
        return one.same_shape(other) &&
               (left.num_words == 0 ||
                fastbloom_equal(left.words, left.num_words, right.words, right.num_words));
    }
    friend bool operator!=(const Derived &one, const Derived &other) noexcept {
        return !(one == other);
    }

    // Two bounds of the number of items, as of `estimated_items`: in the union of both, which isn't
    // made, and in common to both. There are none where the shapes differ or there are no words.
    std::optional<item_bounds> estimated_union(const Derived &other) const noexcept {
        return items_of(other, Kind::estimate_union);
    }
    std::optional<item_bounds> estimated_common(const Derived &other) const noexcept {
        return items_of(other, Kind::estimate_common);
    }

    // Two bounds of the part of the items of both filters that they have in common, as fractions of
    // 2^63. There are none where the shapes differ or there are no words.
    std::optional<rate_bounds> jaccard(const Derived &other) const noexcept {
        rate_bounds bounds{};
        if (!this->same_shape(other) ||
            !Kind::jaccard(store_.words, store_.num_words, other.store_.words,
                           other.store_.num_words, store_.num_hashes, &bounds.low, &bounds.high))
            return std::nullopt;
        return bounds;
    }

    // The words. In a file they are behind the head, as they are in memory.
    const std::uint64_t *data() const noexcept { return store_.words; }

    // The head of this filter's file: with a seal, by which a reader finds out whether a byte was
    // changed, or without. A filter with no words has no file.
    result<head_bytes> head(bool sealed = true) const noexcept {
        head_bytes bytes{};
        const std::uint8_t code =
            Kind::head_write(store_.num_words, store_.num_hashes, store_.key.data(),
                             sealed ? seal() : 0, bytes.data());
        if (code != FASTBLOOM_OK) return static_cast<status>(code);
        return bytes;
    }

protected:
    friend struct access;
    using reader<Derived, of_plain<Kind>>::store_;

    bool fits(const Derived &other) const noexcept {
        return this->same_shape(other) && store_.num_words != 0;
    }

private:
    // The bounds of a call on this filter and another one.
    template <typename Call>
    std::optional<item_bounds> items_of(const Derived &other, Call call) const noexcept {
        if (!this->same_shape(other)) return std::nullopt;
        return this->items([&](std::size_t *low, std::size_t *high) {
            return call(store_.words, store_.num_words, other.store_.words, other.store_.num_words,
                        store_.num_hashes, low, high);
        });
    }

    std::uint64_t seal() const noexcept {
        return Kind::seal(store_.words, store_.num_words, store_.num_hashes, store_.key.data());
    }

    // Reads the head of a file of this size: all but the words.
    static std::uint8_t read_head(const void *bytes, std::size_t size, fastbloom_filter &read,
                                  std::uint64_t &seal) noexcept {
        // A copy of the numbers that are there, with good ones for those that a truncated file
        // lacks. The last two, by which the kinds differ, are read after the size.
        head_bytes head{};
        head[8] = head[16] = 1;
        const std::size_t there = size < 48 ? size / 8 * 8 : 48;
        if (there != 0) std::memcpy(head.data(), bytes, there);
        const auto code = [&](auto by) {
            return by(head.data(), &read.num_words, &read.num_hashes, read.key, &seal);
        };
        if (const std::uint8_t why = code(fastbloom_head_read); why != FASTBLOOM_OK) return why;
        if (size < 64 + 8 * read.num_words) return FASTBLOOM_CUT;
        if (size > 64 + 8 * read.num_words) return FASTBLOOM_TOO_LONG;
        std::memcpy(head.data() + 48, static_cast<const char *>(bytes) + 48, 16);
        return code(Kind::head_read);
    }
};

// A filter in a mapped file.
template <typename Derived, typename Plain, typename Kind>
class mapped : public reader<Derived, of_plain<Kind>> {
public:
    // Maps a file, which is refused as by `load` of a plain filter. Only a sealed one is read whole
    // for it.
    static result<Derived> map(const char *path, std::uint32_t max_hashes = 64,
                               std::size_t max_words = SIZE_MAX) noexcept {
        return access::map<Derived>(Kind::map, path, FASTBLOOM_MAP_READ, {max_words, max_hashes});
    }

    // A filter with words of its own, which are equal to these.
    result<Plain> clone() const noexcept { return access::copy<Plain>(this->store_); }

    const std::uint64_t *data() const noexcept { return this->store_.words; }
#ifdef __cpp_lib_span
    std::span<const std::uint64_t> words() const noexcept { return {data(), this->num_words()}; }
#endif
};

} // namespace detail

// A set of byte strings with no false negatives, and with false positives at a chosen rate. What it
// has in common with a blocked filter is in detail::plain.
class filter : public detail::plain<filter, detail::whole> {
public:
    // No words: it contains nothing.
    filter() noexcept {}

    // The empty filter with this many words and hashes, where 0 hashes count as 1.
    static result<filter> with_shape(std::size_t num_words, std::uint32_t num_hashes,
                                     const key_bytes &key = {}) noexcept {
        return detail::access::zeros<filter>(num_words, num_hashes, key);
    }

    // Two bounds of the rate of false positives to expect once this many items are in the filter, by
    // the classical formula, which is a little below the mean rate. A filter with no words has none.
    result<rate_bounds> expected_rate(std::size_t items) const noexcept {
        return bounds_of(fastbloom_expected_rate, items);
    }
};

// A filter in a mapped file, which is only read: processes that map one file share its pages. A
// mapping moves with its owner. While it lasts nobody writes into the file.
class mapped_filter : public detail::mapped<mapped_filter, filter, detail::whole> {
public:
    // No words: it contains nothing.
    mapped_filter() noexcept {}
};

// The last items of a stream without end, in memory that stays the same. An item is contained at
// least as long as fewer different ones came behind its last insert than the filter is for.
//
// Two filters take turns, each for this many items at half the rate, and a look-up asks both. An
// item goes into the newer one, also where the older one contains it. Once the newer one took as
// many as it is for, it becomes the older, and the older one is cleared.
class rotating_filter {
public:
    // No words: it contains nothing.
    rotating_filter() noexcept = default;

    // The empty filter for this many last items, where 0 counts as 1, at the rate num / den of
    // false positives, which is below 1. A rate is refused as `status::size_overflow` where twice
    // its lower part is 2^64 or more.
    static result<rotating_filter> make(std::uint64_t num, std::uint64_t den, std::size_t items,
                                        const key_bytes &key = {}) noexcept {
        if (den != 0 && num >= den) return status::rate_too_large;
        if (den > UINT64_MAX / 2) return status::size_overflow;
        auto newer = filter::make(num, 2 * den, items, key);
        if (!newer) return newer.status();
        auto older = newer->clone();
        if (!older) return older.status();
        rotating_filter made;
        made.older_ = *std::move(older);
        made.newer_ = *std::move(newer);
        made.items_ = items;
        return made;
    }

    rotating_filter(rotating_filter &&other) noexcept { swap(other); }
    rotating_filter &operator=(rotating_filter &&other) noexcept {
        rotating_filter(std::move(other)).swap(*this);
        return *this;
    }

    void swap(rotating_filter &other) noexcept {
        older_.swap(other.older_);
        newer_.swap(other.newer_);
        std::swap(taken_, other.taken_);
        std::swap(items_, other.items_);
    }

    // Inserts an item, which is anything that `hash` of a filter takes, and returns whether it was
    // contained before. True may be a false positive.
    template <typename Item> bool insert(const Item &item) noexcept {
        return insert_hash(hash(item));
    }
    bool insert(const void *bytes, std::size_t size) noexcept {
        return insert_hash(hash(bytes, size));
    }

    // Whether an item is contained. True may be a false positive.
    template <typename Item> bool contains(const Item &item) const noexcept {
        return contains_hash(hash(item));
    }
    bool contains(const void *bytes, std::size_t size) const noexcept {
        return contains_hash(hash(bytes, size));
    }

    // The hash of an item: SipHash-1-3 of its bytes under the key.
    template <typename Item> std::uint64_t hash(const Item &item) const noexcept {
        return newer_.hash(item);
    }
    std::uint64_t hash(const void *bytes, std::size_t size) const noexcept {
        return newer_.hash(bytes, size);
    }

    // The same by hash.
    bool insert_hash(std::uint64_t hash) noexcept {
        if (newer_.insert_hash(hash)) return true;
        const bool held = older_.contains_hash(hash);
        if (++taken_ >= items_) {
            older_.swap(newer_);
            newer_.clear();
            taken_ = 0;
        }
        return held;
    }
    bool contains_hash(std::uint64_t hash) const noexcept {
        return newer_.contains_hash(hash) || older_.contains_hash(hash);
    }

    // Both filters, and how many items the newer one took that it didn't contain.
    const filter &older() const noexcept { return older_; }
    const filter &newer() const noexcept { return newer_; }
    std::size_t taken() const noexcept { return taken_; }

    // Two bounds of the rate of false positives as both filters are. A look-up errs where one of
    // the two does. How their replies depend on each other isn't known: the lower bound is the
    // greater of theirs, and the upper one their sum, at most 1. A filter with no words has none.
    std::optional<rate_bounds> false_positive_rate() const noexcept {
        const auto older = older_.false_positive_rate(), newer = newer_.false_positive_rate();
        if (!older || !newer) return std::nullopt;
        constexpr std::uint64_t one = std::uint64_t{1} << 63;
        return rate_bounds{older->low < newer->low ? newer->low : older->low,
                           older->high > one - newer->high ? one : older->high + newer->high};
    }

private:
    filter older_, newer_;
    std::size_t taken_ = 0;
    std::size_t items_ = 0;
};

} // namespace fastbloom

#endif
