// Plays the streams of the model in tests/rotating.py to rotating filters: `rotating TABLE`.
#include "fastbloom.hpp"

#include <cstdio>
#include <cstdlib>
#include <fstream>
#include <sstream>
#include <string>
#include <type_traits>
#include <utility>

using fastbloom::filter;
using fastbloom::rotating_filter;
using fastbloom::status;

static void check(bool holds, int line, const char *text) {
    if (holds) return;
    std::fprintf(stderr, "rotating: line %d: %s\n", line, text);
    std::exit(1);
}

#define CHECK(x) check((x), __LINE__, #x)

static_assert(!std::is_copy_constructible_v<rotating_filter>);
static_assert(std::is_nothrow_move_constructible_v<rotating_filter>);
static_assert(std::is_nothrow_move_assignable_v<rotating_filter>);

// A digest of the words of a filter, which goes on from that of others.
static std::uint64_t digest(std::uint64_t fold, const filter &seen) {
    for (std::size_t i = 0; i < seen.num_words(); i++) {
        fold = (fold ^ seen.data()[i]) * 1099511628211u;
    }
    return fold;
}

// A filter answers as a row of the table says.
static void play(const std::string &row) {
    std::istringstream text(row);
    std::uint64_t num = 0, den = 0, wanted = 0;
    std::size_t items = 0, taken = 0;
    unsigned byte = 0;
    char slash = 0;
    std::string stream, replies;
    text >> items >> num >> slash >> den >> byte >> stream >> replies;
    text >> taken >> std::hex >> wanted;
    CHECK(text && stream.size() == 64 && replies.size() == 64);
    fastbloom::key_bytes key;
    key.fill(static_cast<std::uint8_t>(byte));
    auto made = rotating_filter::make(num, den, items, key);
    CHECK(static_cast<bool>(made));
    rotating_filter seen = *std::move(made);
    for (std::size_t i = 0; i < stream.size(); i++) {
        const std::string item = stream.substr(i, 1);
        CHECK(seen.contains(item) == (replies[i] == '+'));
        CHECK(seen.insert(item) == (replies[i] == '+'));
        CHECK(seen.contains_hash(seen.hash(item)));
    }
    CHECK(seen.taken() == taken);
    CHECK(digest(digest(1469598103934665603u, seen.older()), seen.newer()) == wanted);
}

// Filters of 64 bits and one hash. After the turn the older one has 36 of them, and then the newer
// one gets as many again, so that the sum of the rates passes 1.
static void rates() {
    auto seen = rotating_filter::make(9, 10, 36);
    CHECK(seen && seen->newer().num_words() == 1 && seen->newer().num_hashes() == 1);
    CHECK(seen->false_positive_rate()->high == 0);
    for (std::uint64_t i = 0; i < 36; i++) {
        CHECK(seen->taken() == i && seen->false_positive_rate()->high == i << 57);
        CHECK(!seen->insert_hash(i << 58));
    }
    CHECK(seen->taken() == 0 && seen->older().count_ones() == 36);
    for (std::uint64_t i = 0; i < 35; i++) {
        CHECK(seen->false_positive_rate()->low == std::uint64_t{36} << 57);
        CHECK(seen->false_positive_rate()->high == (i < 28 ? 36 + i : 64) << 57);
        CHECK(seen->insert_hash(i << 58));
    }
    CHECK(!rotating_filter{}.false_positive_rate());
}

// Moves, filters with no words, and what is refused.
static void owners() {
    auto made = rotating_filter::make(1, 1000, 10);
    CHECK(made && !made->insert("crab") && made->insert("crab", 4) && !made->insert(nullptr, 0));
    rotating_filter moved = *std::move(made), none;
    CHECK(moved.contains("crab") && moved.contains("") && moved.taken() == 2);
    for (rotating_filter *bare : {&none, &*made}) {
        CHECK(!bare->insert("crab") && !bare->contains("crab") && bare->taken() == 0);
    }
    rotating_filter &same = moved;
    moved = std::move(same);
    none = std::move(moved);
    CHECK(none.contains("crab") && none.taken() == 2 && moved.newer().num_words() == 0);
    CHECK(rotating_filter::make(1, 1, 10).status() == status::rate_too_large);
    CHECK(rotating_filter::make(0, 5, 10).status() == status::zero_rate);
    CHECK(rotating_filter::make(1, 0, 10).status() == status::zero_rate);
    CHECK(rotating_filter::make(1, std::uint64_t{1} << 63, 10).status() == status::size_overflow);
    CHECK(rotating_filter::make(1, 2, UINT64_MAX).status() == status::size_overflow);
    CHECK(static_cast<bool>(rotating_filter::make(1, (std::uint64_t{1} << 63) - 1, 10)));
}

int main(int argc, char **argv) {
    std::ifstream table(argc == 2 ? argv[1] : "");
    unsigned count = 0;
    for (std::string row; std::getline(table, row); count++) play(row);
    rates();
    owners();
    std::printf("%u streams\n", count);
    return 0;
}
