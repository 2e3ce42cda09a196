// A blocked Bloom filter that threads share, for C++17 and later, over the library fastbloom_c.
//
//     auto made = fastbloom::shared_blocked_filter::make(1, 1000, 1'000'000);
//     if (!made) std::puts(fastbloom::reason(made.status())), std::exit(1);
//     const fastbloom::shared_blocked_filter &seen = *made;
//     // in any thread, while others do the same:
//     seen.insert("crab");   // false: this call set a bit
//     seen.contains("crab"); // true
//
// What fastbloom_shared.hpp says at its beginning holds here too. Words are best aligned to 64.
#ifndef FASTBLOOM_BLOCKED_SHARED_HPP
#define FASTBLOOM_BLOCKED_SHARED_HPP

#include "fastbloom_blocked.hpp"
#include "fastbloom_shared.hpp"

namespace fastbloom {

// A set of byte strings that threads share, with no false negatives, and with false positives at a
// chosen rate. What it has in common with one that isn't blocked is in detail::shared.
class shared_blocked_filter
    : public detail::shared<shared_blocked_filter, blocked_filter, detail::lines> {
public:
    // No words: it contains nothing.
    shared_blocked_filter() noexcept {}

    // A plain filter that becomes shared, with its words.
    explicit shared_blocked_filter(blocked_filter &&plain) noexcept
        : shared(detail::access::release(std::move(plain))) {}

    // The empty filter with this many lines of 512 bits, and hashes, where 0 hashes count as 1.
    static result<shared_blocked_filter> with_lines(std::size_t num_lines, std::uint32_t num_hashes,
                                                    const key_bytes &key = {}) noexcept {
        if (num_lines > SIZE_MAX / 512) return status::too_many_words;
        return detail::access::zeros<shared_blocked_filter>(8 * num_lines, num_hashes, key);
    }

    // The filter over these lines of the caller's, which it never frees. 0 hashes count as 1.
    static result<shared_blocked_filter> over(std::uint64_t *words, std::size_t num_lines,
                                              std::uint32_t num_hashes,
                                              const key_bytes &key = {}) noexcept {
        if (num_lines > SIZE_MAX / 512) return status::too_many_words;
        return detail::access::over<shared_blocked_filter>(words, 8 * num_lines, num_hashes, key);
    }
#ifdef __cpp_lib_span
    static result<shared_blocked_filter> over(std::span<std::uint64_t> words,
                                              std::uint32_t num_hashes,
                                              const key_bytes &key = {}) noexcept {
        if (words.size() % 8 != 0) return status::part_of_a_line;
        return over(words.data(), words.size() / 8, num_hashes, key);
    }
#endif

    std::size_t num_lines() const noexcept { return num_words() / 8; }
};

} // namespace fastbloom

#endif
