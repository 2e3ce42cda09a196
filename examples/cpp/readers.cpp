// Threads that read one filter at once, over words that a vector owns.
#include "fastbloom.h"

#include <cstdint>
#include <cstdio>
#include <numeric>
#include <thread>
#include <vector>

// The hash of a number, spread evenly.
static std::uint64_t hash_of(std::uint64_t number) { return number * 0x9e3779b97f4a7c15u; }

int main() {
    const std::uint64_t half = 10000, readers = 4;
    std::size_t num_words;
    std::uint32_t num_hashes;
    if (fastbloom_plan(1, 100, half, &num_words, &num_hashes) != 0) return 1;
    std::vector<std::uint64_t> first(num_words), both(num_words);
    for (std::uint64_t i = 0; i < half; i++) {
        fastbloom_insert_hash(first.data(), first.size(), num_hashes, hash_of(i));
        fastbloom_insert_hash(both.data(), both.size(), num_hashes, hash_of(half + i));
    }
    if (!fastbloom_union(both.data(), both.size(), first.data(), first.size())) return 2;
    if (fastbloom_union(both.data(), both.size() - 1, first.data(), first.size())) return 3;

    // example readers
    // Each reader looks all hashes up, and compares the words, while the others do so too.
    std::vector<std::uint64_t> missed(readers), equal(readers);
    std::vector<std::thread> threads;
    for (std::uint64_t reader = 0; reader < readers; reader++) {
        threads.emplace_back([&, reader] {
            for (std::uint64_t i = 0; i < 2 * half; i++) {
                missed[reader] +=
                    !fastbloom_contains_hash(both.data(), both.size(), num_hashes, hash_of(i));
            }
            equal[reader] = fastbloom_equal(both.data(), both.size(), first.data(), first.size());
        });
    }
    for (auto &thread : threads) thread.join();
    // end of example

    // What was set in the part alone is set after an intersection with it.
    if (!fastbloom_intersect(both.data(), both.size(), first.data(), first.size())) return 4;
    auto sum = [](const std::vector<std::uint64_t> &counts) {
        return std::accumulate(counts.begin(), counts.end(), std::uint64_t{0});
    };
    std::printf("readers %llu missed %llu same %d\n", static_cast<unsigned long long>(readers),
                static_cast<unsigned long long>(sum(missed) + sum(equal)), both == first);
    return 0;
}
