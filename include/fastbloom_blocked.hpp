// A blocked Bloom filter for C++17 and later, over the library fastbloom_c.
//
//     auto made = fastbloom::blocked_filter::make(1, 1000, 1'000'000);
//     if (!made) std::puts(fastbloom::reason(made.status())), std::exit(1);
//     fastbloom::blocked_filter &seen = *made;
//     seen.insert("crab");   // false: it is new
//     seen.contains("crab"); // true
//
// All bits of an item lie in one line of 512, which is a line of the cache. So where a filter is
// larger than the cache, a call on an item is quicker than that of `fastbloom::filter`, which takes
// fewer bits at the same rate. The two kinds aren't united, and neither reads the other's file.
// What fastbloom.hpp says at its beginning holds here too. The filter that threads share is in
// fastbloom_blocked_shared.hpp.
#ifndef FASTBLOOM_BLOCKED_HPP
#define FASTBLOOM_BLOCKED_HPP

#include "fastbloom.hpp"

namespace fastbloom {

// A set of byte strings with no false negatives, and with false positives at a chosen rate. What it
// has in common with a filter that isn't blocked is in detail::plain.
class blocked_filter : public detail::plain<blocked_filter, detail::lines> {
public:
    // No words: it contains nothing.
    blocked_filter() noexcept {}

    // The empty filter with this many lines of 512 bits, and hashes, where 0 hashes count as 1. A
    // line begins where one of the cache does.
    static result<blocked_filter> with_lines(std::size_t num_lines, std::uint32_t num_hashes,
                                             const key_bytes &key = {}) noexcept {
        if (num_lines > SIZE_MAX / 512) return status::too_many_words; // 2^58 - 8 words
        return detail::access::zeros<blocked_filter>(8 * num_lines, num_hashes, key);
    }

    std::size_t num_lines() const noexcept { return num_words() / 8; }
};

// A blocked filter in a mapped file, which is only read: processes that map one file share its
// pages. A mapping moves with its owner. While it lasts nobody writes into the file.
class mapped_blocked_filter
    : public detail::mapped<mapped_blocked_filter, blocked_filter, detail::lines> {
public:
    // No words: it contains nothing.
    mapped_blocked_filter() noexcept {}

    std::size_t num_lines() const noexcept { return num_words() / 8; }
};

} // namespace fastbloom

#endif
