// A Bloom filter that threads share, for C++17 and later, over the library fastbloom_c.
//
//     auto made = fastbloom::shared_filter::make(1, 1000, 1'000'000);
//     if (!made) std::puts(fastbloom::reason(made.status())), std::exit(1);
//     const fastbloom::shared_filter &seen = *made;
//     // in any thread, while others do the same:
//     seen.insert("crab");   // false: this call set a bit
//     seen.contains("crab"); // true
//
// Each call is const, also those that insert: any number of threads may make them at once. None
// takes a lock or waits for a thread. An insert's | on a word is tried again only where another
// thread changed that word in between. A move, a swap and the end of the filter are no such calls:
// no other thread uses the filter meanwhile.
//
// A filter owns its words, or maps them from a file, or lies over words of the caller's: `over`
// takes them, in memory that processes share. Then the caller keeps what fastbloom.h asks for: the
// words are aligned to 8, stay where they are, and are touched by shared filters alone until the
// last call on them has returned. Where threads don't share a filter, `fastbloom::filter` inserts
// faster.
#ifndef FASTBLOOM_SHARED_HPP
#define FASTBLOOM_SHARED_HPP

#include "fastbloom.hpp"

namespace fastbloom {

namespace detail {

// The calls that read words, while other threads change them.
template <typename Kind> struct of_shared {
    using kind = Kind;
    static constexpr auto contains = Kind::shared_contains;
    static constexpr auto contains_hash = Kind::shared_contains_hash;
    static constexpr auto contains_hashes = Kind::shared_contains_hashes;
    static constexpr auto rate_now = Kind::shared_rate_now;
    static constexpr auto estimate = Kind::shared_estimate;
    template <typename Call, typename... More>
    static auto make(Call call, const store &at, More... more) noexcept {
        return call(at.shared(), at.num_hashes, more...);
    }
    static std::size_t count_ones(const store &at) noexcept {
        return fastbloom_shared_count_ones(at.shared());
    }
    static const std::uint64_t *words(const store &at, std::size_t index, std::size_t count,
                                      std::uint64_t *room) noexcept {
        (void)fastbloom_shared_load({at.words + index, count}, room, count);
        return room;
    }
};

// A filter that threads share.
template <typename Derived, typename Plain, typename Kind>
class shared : public reader<Derived, of_shared<Kind>> {
public:
    // The empty filter for this many items, where 0 counts as 1, at the rate num / den of false
    // positives, which is below 1.
    static result<Derived> make(std::uint64_t num, std::uint64_t den, std::size_t items,
                                const key_bytes &key = {}) noexcept {
        auto made = Plain::make(num, den, items, key);
        if (!made) return made.status();
        return Derived(*std::move(made));
    }

    // The filter of a file without a seal, whose words all processes fill that map it: what is
    // inserted goes into the file. It is refused as by `load` of a plain filter, and where it has a
    // seal.
    static result<Derived> map(const char *path, std::uint32_t max_hashes = 64,
                               std::size_t max_words = SIZE_MAX) noexcept {
        return access::map<Derived>(Kind::map, path, FASTBLOOM_MAP_SHARE, {max_words, max_hashes});
    }

    // Inserts an item, and returns whether all its bits were found set. So it returns false exactly
    // if this call set a bit itself. An item is what `contains` takes.
    bool insert(std::string_view item) const noexcept { return insert(item.data(), item.size()); }
    bool insert(std::nullptr_t) const = delete;
    bool insert(const void *bytes, std::size_t size) const noexcept {
        return Kind::shared_insert(store_.shared(), store_.num_hashes, store_.key.data(),
                                   not_null(bytes), size);
    }
    bool insert_hash(std::uint64_t hash) const noexcept {
        return Kind::shared_insert_hash(store_.shared(), store_.num_hashes, hash);
    }

    // Inserts many hashes, which costs less than a call for each.
    void insert_hashes(const std::uint64_t *hashes, std::size_t count) const noexcept {
        if (count != 0)
            Kind::shared_insert_hashes(store_.shared(), store_.num_hashes, hashes, count);
    }

    // Inserts each item of a range: a container or a view of what `insert` takes. Where the range
    // throws, the items before are inserted.
    template <typename Items> void insert_range(Items &&items) const {
        detail::insert_range(*this, items);
    }

    // Inserts many hashes, and tells in a bit set as of `contains_hashes`: a bit is set where its
    // insert set a bit.
    [[nodiscard]] bool insert_hashes_tell_new(const std::uint64_t *hashes, std::size_t count,
                                              std::uint64_t *fresh,
                                              std::size_t num_fresh) const noexcept {
        return Kind::shared_tell_new(store_.shared(), store_.num_hashes, not_null_words(hashes),
                                     count, not_null_words(fresh), num_fresh);
    }

#ifdef __cpp_lib_span
    bool insert(std::span<const std::byte> item) const noexcept {
        return insert(item.data(), item.size());
    }
    bool insert(std::span<const std::uint8_t> item) const noexcept {
        return insert(item.data(), item.size());
    }
    void insert_hashes(std::span<const std::uint64_t> hashes) const noexcept {
        insert_hashes(hashes.data(), hashes.size());
    }
    [[nodiscard]] bool insert_hashes_tell_new(std::span<const std::uint64_t> hashes,
                                              std::span<std::uint64_t> fresh) const noexcept {
        return insert_hashes_tell_new(hashes.data(), hashes.size(), fresh.data(), fresh.size());
    }
#endif

    // Removes every item, one word after the other.
    void clear() const noexcept { fastbloom_shared_clear(store_.shared()); }

    // Takes the items of the other in, or keeps only what may be in both, one word after the other.
    // They return false, and change nothing, where the shapes differ or there are no words.
    [[nodiscard]] bool unite(const Derived &other) const noexcept {
        return this->same_shape(other) &&
               fastbloom_shared_union(store_.shared(), other.store_.shared());
    }
    [[nodiscard]] bool intersect(const Derived &other) const noexcept {
        return this->same_shape(other) &&
               fastbloom_shared_intersect(store_.shared(), other.store_.shared());
    }

    // The same as operators, which return the same.
    [[nodiscard]] bool operator|=(const Derived &other) const noexcept { return unite(other); }
    [[nodiscard]] bool operator&=(const Derived &other) const noexcept { return intersect(other); }

    // Takes the items out into a plain filter: each word is read and cleared by one operation, so
    // no bit that another thread sets meanwhile is lost.
    result<Plain> take() const noexcept { return plain_by(fastbloom_shared_take); }

    // A plain filter with the words as they are loaded, one after the other, as for a file.
    result<Plain> load() const noexcept { return plain_by(fastbloom_shared_load); }

protected:
    friend struct access;
    using reader<Derived, of_shared<Kind>>::store_;

    shared() noexcept = default;
    explicit shared(store &&words) noexcept { store_ = std::move(words); }

private:
    template <typename Call> result<Plain> plain_by(Call call) const noexcept {
        auto made = access::zeros<Plain>(store_.num_words, store_.num_hashes, store_.key);
        if (made && !call(store_.shared(), access::of(*made).words, store_.num_words))
            return status::empty_words;
        return made;
    }
};

} // namespace detail

// A set of byte strings that threads share, with no false negatives, and with false positives at a
// chosen rate. What it has in common with a blocked one is in detail::shared.
class shared_filter : public detail::shared<shared_filter, filter, detail::whole> {
public:
    // No words: it contains nothing.
    shared_filter() noexcept {}

    // A plain filter that becomes shared, with its words.
    explicit shared_filter(filter &&plain) noexcept
        : shared(detail::access::release(std::move(plain))) {}

    // The empty filter with this many words and hashes, where 0 hashes count as 1.
    static result<shared_filter> with_shape(std::size_t num_words, std::uint32_t num_hashes,
                                            const key_bytes &key = {}) noexcept {
        return detail::access::zeros<shared_filter>(num_words, num_hashes, key);
    }

    // The filter over these words of the caller's, which it never frees. 0 hashes count as 1.
    static result<shared_filter> over(std::uint64_t *words, std::size_t num_words,
                                      std::uint32_t num_hashes,
                                      const key_bytes &key = {}) noexcept {
        return detail::access::over<shared_filter>(words, num_words, num_hashes, key);
    }
#ifdef __cpp_lib_span
    static result<shared_filter> over(std::span<std::uint64_t> words, std::uint32_t num_hashes,
                                      const key_bytes &key = {}) noexcept {
        return over(words.data(), words.size(), num_hashes, key);
    }
#endif
};

} // namespace fastbloom

#endif
