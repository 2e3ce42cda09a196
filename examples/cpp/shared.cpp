// Threads that share one filter: each inserts its hashes while the others insert theirs. `shared
// [RUNS]` compares the words with those of a plain filter.
#include "fastbloom_shared.hpp"

#include <cstdint>
#include <cstdio>
#include <cstdlib>
#include <thread>
#include <utility>
#include <vector>

// The hash of a number, spread evenly: the finish of splitmix64.
static std::uint64_t hash_of(std::uint64_t number) {
    std::uint64_t word = number + 0x9e3779b97f4a7c15u;
    word = (word ^ (word >> 30)) * 0xbf58476d1ce4e5b9u;
    word = (word ^ (word >> 27)) * 0x94d049bb133111ebu;
    return word ^ (word >> 31);
}

static const std::uint64_t writers = 8, hashes = 1000000, words = 30011;

// What the threads of a run counted.
struct counts {
    std::uint64_t fresh = 0, missed = 0;
};

// Each thread inserts its hashes, and another thread inserts them too.
static counts fill(const fastbloom::shared_filter &seen) {
    std::vector<counts> each(writers);
    std::vector<std::thread> threads;
    // example writers
    for (std::uint64_t writer = 0; writer < writers; writer++) {
        threads.emplace_back([&seen, writer, &mine = each[writer]] {
            for (std::uint64_t i = writer / 2; i < hashes; i += writers / 2) {
                mine.fresh += !seen.insert_hash(hash_of(i)); // it set a bit itself
                mine.missed += !seen.contains_hash(hash_of(i));
            }
        });
    }
    for (auto &thread : threads) thread.join();
    // end of example
    counts all;
    for (const counts &one : each) all.fresh += one.fresh, all.missed += one.missed;
    return all;
}

// Whether a run over words of the caller's leaves those of a plain filter. A hash has one position,
// so that as many inserts return false as bits are set.
static bool is_well(const fastbloom::filter &plain) {
    std::vector<std::uint64_t> lent(words);
    auto made = fastbloom::shared_filter::over(lent.data(), lent.size(), 1);
    if (!made) return false;
    const counts all = fill(*made);
    const auto loaded = made->load();
    return loaded && *loaded == plain && all.missed == 0 && all.fresh == plain.count_ones() &&
           made->count_ones() == plain.count_ones();
}

// Whether a filter that owns its words moves with them, and what is taken out is gone from it.
static bool moves(fastbloom::filter plain) {
    const auto copy = plain.clone();
    fastbloom::shared_filter owner(std::move(plain));
    fastbloom::shared_filter moved(std::move(owner));
    if (owner.num_words() != 0 || owner.insert("crab") || owner.unite(moved)) return false;
    auto other = fastbloom::shared_filter::with_shape(words, 1);
    if (!copy || !other || !other->unite(moved) || !moved.intersect(*other)) return false;
    const auto taken = moved.take();
    return taken && *taken == *copy && moved.count_ones() == 0 && !moved.insert("crab") &&
           moved.contains("crab") && other->count_ones() == copy->count_ones();
}

int main(int argc, char **argv) {
    const int runs = argc > 1 ? std::atoi(argv[1]) : 20;
    auto plain = fastbloom::filter::with_shape(words, 1);
    if (!plain) return 1;
    for (std::uint64_t i = 0; i < hashes; i++) plain->insert_hash(hash_of(i));
    int well = 0;
    for (int run = 0; run < runs; run++) well += is_well(*plain);
    std::printf("%d of %d runs, moves %d\n", well, runs, moves(*std::move(plain)));
    return 0;
}
