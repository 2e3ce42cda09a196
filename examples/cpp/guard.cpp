// A guard before a store that is slow: `guard FILE LOOK-UPS`.
//
// The store has the even numbers. Each look-up asks the filter first, and the store only where the
// filter says that the number may be there. Threads share the filter, which is mapped from a file
// that the first run makes. It prints how many look-ups there were, how many the store was spared,
// and how many it was asked for nothing.
#include "fastbloom_shared.hpp"

#include <atomic>
#include <cerrno>
#include <cstdint>
#include <cstdio>
#include <cstdlib>
#include <string>
#include <thread>
#include <unordered_set>
#include <vector>

// A store that counts how often it is asked. It is only read while threads ask.
class store {
public:
    void put(std::string key) { keys_.insert(std::move(key)); }
    bool has(const std::string &key) const {
        asked_.fetch_add(1, std::memory_order_relaxed);
        return keys_.count(key) != 0;
    }
    const std::unordered_set<std::string> &keys() const { return keys_; }
    std::uint64_t asked() const { return asked_.load(); }

private:
    std::unordered_set<std::string> keys_;
    mutable std::atomic<std::uint64_t> asked_{0};
};

// The filter of a file, which is made for the keys of a store where there is none.
static fastbloom::result<fastbloom::shared_filter> open_filter(const char *path,
                                                               const store &behind) {
    auto mapped = fastbloom::shared_filter::map(path);
    const bool is_missing = mapped.status() == fastbloom::status::input && errno == ENOENT;
    if (!is_missing) return mapped;
    auto made = fastbloom::filter::make(1, 100, behind.keys().size());
    if (!made) return made.status();
    made->insert_range(behind.keys());
    // A file that is shared has no seal.
    const auto saved = made->save(path, false);
    if (saved != fastbloom::status::ok) return saved;
    return fastbloom::shared_filter::map(path);
}

int main(int argc, char **argv) {
    if (argc != 3) return std::fprintf(stderr, "usage: guard FILE LOOK-UPS\n"), 2;
    const std::uint64_t look_ups = std::strtoull(argv[2], nullptr, 10), workers = 4;
    store behind;
    for (std::uint64_t i = 0; i < look_ups; i += 2) behind.put("key" + std::to_string(i));
    const auto opened = open_filter(argv[1], behind);
    if (!opened) return std::puts(fastbloom::reason(opened.status())), 1;
    const fastbloom::shared_filter &seen = *opened;
    std::vector<std::uint64_t> found(workers);
    std::vector<std::thread> threads;
    for (std::uint64_t me = 0; me < workers; me++) {
        threads.emplace_back([&, me] {
            for (std::uint64_t i = me; i < look_ups; i += workers) {
                const std::string key = "key" + std::to_string(i);
                found[me] += seen.contains(key) && behind.has(key);
            }
        });
    }
    std::uint64_t all = 0;
    for (std::uint64_t me = 0; me < workers; me++) threads[me].join(), all += found[me];
    std::printf("%llu look-ups, %llu found, the store was spared %llu and asked for nothing %llu\n",
                static_cast<unsigned long long>(look_ups), static_cast<unsigned long long>(all),
                static_cast<unsigned long long>(look_ups - behind.asked()),
                static_cast<unsigned long long>(behind.asked() - all));
    return all == behind.keys().size() ? 0 : 1;
}
