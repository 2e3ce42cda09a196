// Blocked filters by the classes of C++: `blocked HEX FOLDER [FILE..]` makes the sessions that
// dev/blocked-model tells of, and prints the number of each, in which all results and words are
// folded. The class of filters that threads share gets the same by one thread. Then it tries what
// the classes add to the calls of C, and files. HEX is the worked file in hexadecimal digits. It
// leaves the file of item0 to item999 in FOLDER/cpp.blocked, and wants it in each FILE.
#include "kinds.hpp"

#include <cinttypes>
#include <cstdint>
#include <cstdio>
#include <cstdlib>
#include <string>
#include <type_traits>
#include <utility>
#include <vector>

using fastbloom::blocked_filter;
using fastbloom::shared_blocked_filter;

// Whether a call compiles. 0 and nullptr are no items, of any class.
#define COMPILES(name, call)                                                                       \
    template <typename Filter, typename = void> struct name : std::false_type {};                  \
    template <typename Filter>                                                                     \
    struct name<Filter, std::void_t<decltype(std::declval<Filter &>().call)>> : std::true_type {};
COMPILES(inserts_text, insert("0"))
COMPILES(inserts_zero, insert(0))
COMPILES(inserts_null, insert(nullptr))
COMPILES(finds_text, contains("0"))
COMPILES(finds_zero, contains(0))
COMPILES(finds_null, contains(nullptr))
COMPILES(hashes_text, hash("0"))
COMPILES(hashes_zero, hash(0))
COMPILES(hashes_null, hash(nullptr))

template <typename Filter> static constexpr bool finds_texts_alone() {
    return finds_text<Filter>() && !finds_zero<Filter>() && !finds_null<Filter>();
}
template <typename Filter> static constexpr bool takes_texts_alone() {
    return finds_texts_alone<Filter>() && inserts_text<Filter>() && !inserts_zero<Filter>() &&
           !inserts_null<Filter>() && hashes_text<Filter>() && !hashes_zero<Filter>() &&
           !hashes_null<Filter>();
}
static_assert(takes_texts_alone<fastbloom::filter>());
static_assert(takes_texts_alone<fastbloom::shared_filter>());
static_assert(takes_texts_alone<blocked_filter>());
static_assert(takes_texts_alone<shared_blocked_filter>());
static_assert(finds_texts_alone<fastbloom::mapped_filter>());
static_assert(finds_texts_alone<fastbloom::mapped_blocked_filter>());

// The number of an index that a session draws, by splitmix64.
static std::uint64_t drawn(std::uint64_t session, std::uint64_t index) {
    std::uint64_t word = (session << 32) + index + 0x9e3779b97f4a7c15u;
    word = (word ^ (word >> 30)) * 0xbf58476d1ce4e5b9u;
    word = (word ^ (word >> 27)) * 0x94d049bb133111ebu;
    return word ^ (word >> 31);
}

static std::vector<std::uint64_t> row(std::uint64_t session, std::uint64_t first,
                                      std::uint64_t count) {
    std::vector<std::uint64_t> hashes;
    for (std::uint64_t i = 0; i < count; i++) hashes.push_back(drawn(session, first + i));
    return hashes;
}

// The words of a filter.
static const blocked_filter &plain(const blocked_filter &seen) { return seen; }
static blocked_filter plain(const shared_blocked_filter &seen) {
    auto loaded = seen.load();
    CHECK(static_cast<bool>(loaded));
    return *std::move(loaded);
}

template <typename Filter> static std::uint64_t number_of(std::uint64_t session) {
    const std::uint64_t lines = session % 50 == 49 ? 16384 + session : 1 + session % 7;
    auto made = Filter::with_lines(lines, static_cast<std::uint32_t>(1 + session % 13));
    CHECK(static_cast<bool>(made));
    Filter seen = *std::move(made);
    std::uint64_t fold = 0, bits[3];
    const auto take = [&fold](std::uint64_t number) {
        fold = (fold ^ number) * 0x9e3779b97f4a7c15u;
        fold = fold << 7 | fold >> 57;
    };
    for (std::uint64_t i = 0; i < 20; i++) take(seen.insert_hash(drawn(session, i)));
    std::vector<std::uint64_t> hashes;
    for (std::uint64_t i = 0; i < 130; i++) hashes.push_back(drawn(session, 7 * i % 95));
    CHECK(seen.insert_hashes_tell_new(hashes.data(), hashes.size(), bits, 3));
    for (const auto word : bits) take(word);
    hashes = row(session, 200, 150);
    seen.insert_hashes(hashes.data(), hashes.size());
    hashes = row(session, 300, 150);
    CHECK(seen.contains_hashes(hashes.data(), hashes.size(), bits, 3));
    for (const auto word : bits) take(word);
    for (std::uint64_t i = 440; i < 460; i++) take(seen.contains_hash(drawn(session, i)));
    CHECK(seen.num_lines() == lines && seen.num_words() == 8 * lines);
    const auto &words = plain(seen);
    for (std::size_t i = 0; i < seen.num_words(); i++) take(words.data()[i]);
    return fold;
}

static blocked_filter of_items(const std::vector<std::string> &items) {
    blocked_filter made = empty<blocked_filter>();
    CHECK(made.num_words() == 248 && made.num_hashes() == 9);
    CHECK(reinterpret_cast<std::uintptr_t>(made.data()) % 64 == 0);
    made.insert_range(items);
    return made;
}

// Items that lie one behind the other, or come in pieces, have the hash of each, in every class.
template <typename Filter> static void try_hash_items(const Filter &seen) {
    const std::vector<std::uint8_t> bytes{'c', 'r', 'a', 'b', 'e', 'e', 'l'};
    const std::vector<std::uint64_t> offsets{0, 4, 7};
    std::vector<std::uint64_t> hashes(2);
    CHECK(seen.hash_items(bytes.data(), 7, offsets.data(), 3, hashes.data(), 2));
    CHECK(hashes[0] == seen.hash("crab") && hashes[1] == seen.hash("eel"));
    CHECK(hashes[0] == seen.begin_hash().update("cr").update("ab").finish());
    CHECK(!seen.hash_items(bytes.data(), 6, offsets.data(), 3, hashes.data(), 2));
    CHECK(seen.hash_items(nullptr, 0, nullptr, 0, nullptr, 0));
#ifdef __cpp_lib_span
    hashes = {0, 0};
    CHECK(seen.hash_items(bytes, offsets, hashes) && hashes[1] == seen.hash("eel"));
#endif
}

static void try_shared() {
    const blocked_filter both = of_items({"crab", "lobster"});
    shared_blocked_filter seen(of_items({"crab"})), other(of_items({"lobster"}));
    CHECK(seen.contains("crab") && seen.insert("crab") && !seen.contains("lobster"));
    CHECK(seen.unite(other) && *seen.load() == both && seen.count_ones() == both.count_ones());
    CHECK((seen &= other) && seen.contains("lobster") && (seen |= seen));
    const auto taken = seen.take();
    CHECK(taken && taken->contains("lobster") && seen.count_ones() == 0);
    seen.insert_range(std::vector<std::string>{"eel", "prawn"});
    CHECK(seen.contains_hash(seen.hash("eel")) && seen.contains("prawn"));
    seen.clear();
    CHECK(!seen.contains("eel"));
    std::vector<std::uint64_t> lent(24), bits(1);
    const auto one = shared_blocked_filter::over(lent.data(), 3, 2);
    const auto two = shared_blocked_filter::over(lent.data(), 3, 2);
    CHECK(one && two && !one->insert("crab") && two->insert("crab") && two->num_lines() == 3);
    const std::uint64_t hash = two->hash("crab");
    CHECK(two->contains_hashes(&hash, 1, bits.data(), 1) && bits[0] == 1);
    CHECK(two->insert_hashes_tell_new(&hash, 1, bits.data(), 1) && bits[0] == 0);
    CHECK(!two->unite(seen) && !two->intersect(seen));
#ifdef __cpp_lib_span
    const auto three = shared_blocked_filter::over(lent, 2);
    CHECK(three && three->num_lines() == 3 && three->contains("crab") && !three->insert("eel"));
    CHECK(two->contains("eel"));
    lent.pop_back();
    CHECK(shared_blocked_filter::over(lent, 2).status() == status::part_of_a_line);
#endif
    CHECK(shared_blocked_filter::over(nullptr, 0, 1).status() == status::empty_words);
    const shared_blocked_filter none, moved(std::move(seen));
    CHECK(!none.insert("crab") && !none.contains("crab") && !none.load() && !seen.insert("crab"));
    CHECK(moved.num_words() == both.num_words() && moved.key() == both.key());
}

static void try_refusals() {
    CHECK(blocked_filter::make(0, 1, 10).status() == status::zero_rate);
    CHECK(blocked_filter::make(1, 1, 10).status() == status::rate_too_large);
    CHECK(blocked_filter::make(1, 2, SIZE_MAX).status() == status::size_overflow);
    for (std::size_t lines = 1; lines <= 1 << 16; lines *= 2) {
        const auto made = blocked_filter::with_lines(lines, 1);
        CHECK(made && reinterpret_cast<std::uintptr_t>(made->data()) % 64 == 0);
        CHECK(made->num_lines() == lines && made->count_ones() == 0);
    }
    CHECK(blocked_filter::with_lines(0, 1).status() == status::empty_words);
    CHECK(blocked_filter::with_lines(std::size_t{1} << 55, 1).status() == status::too_many_words);
    blocked_filter none, some = of_items({"crab"});
    std::uint64_t bits[1], hash = 5;
    CHECK(!none.insert("crab") && !none.contains("crab") && none.num_lines() == 0);
    CHECK(!none.contains_hashes(&hash, 1, bits, 1) && !none.unite(none) && !some.unite(none));
    CHECK(some.contains_hashes(nullptr, 0, nullptr, 0));
    const auto other = blocked_filter::with_lines(some.num_lines(), 1);
    CHECK(other && !some.unite(*other) && !some.intersect(*other) && some.contains("crab"));
    blocked_filter moved(std::move(some));
    CHECK(moved.contains("crab") && some.num_words() == 0 && !some.contains("crab"));
}

// What each way to read the bytes of a file tells.
static status told(const std::string &path, const std::vector<char> &bytes) {
    write_whole(path, bytes);
    const status why = blocked_filter::from_bytes(bytes.data(), bytes.size()).status();
    CHECK(blocked_filter::load(path.c_str()).status() == why);
    CHECK(fastbloom::mapped_blocked_filter::map(path.c_str()).status() == why);
    return why;
}

// The worked file is read with its members, and written byte for byte. A truncated one is refused,
// and one with a byte changed.
static void try_worked(const char *hex, const std::string &path) {
    const std::vector<char> wanted = read_digits(hex);
    CHECK(wanted.size() == 128 && told(path, wanted) == status::ok);
    auto read = blocked_filter::load(path.c_str());
    CHECK(read && read->num_lines() == 1 && read->num_hashes() == 3);
    CHECK(read->key() == counting_key() && read->contains("crab") && read->contains("lobster"));
    CHECK(!read->contains("whale") && bytes_of(*read) == wanted);
    read->clear();
    CHECK(!read->insert("crab") && !read->insert("lobster"));
    CHECK(read->save(path.c_str()) == status::ok && read_whole(path) == wanted);
    const auto copied = blocked_filter::from_bytes(wanted.data(), wanted.size());
    CHECK(copied && *copied == *read);
    CHECK(reinterpret_cast<std::uintptr_t>(read->data()) % 64 == 0);
    const std::vector<char> cut(wanted.begin(), wanted.end() - 1);
    CHECK(told(path, cut) == status::cut);
    struct {
        std::size_t at;
        char byte;
        status why;
    } const rows[] = {{48, 0, status::not_blocked},    {48, 2, status::reserved},
                      {63, 1, status::reserved},       {127, 1, status::seal},
                      {64, 1, status::seal},           {8, 0, status::hash_count},
                      {8, 65, status::too_many_hashes}};
    for (const auto &row : rows) {
        std::vector<char> changed = wanted;
        changed[row.at] = row.byte;
        CHECK(told(path, changed) == row.why);
    }
    std::vector<char> part(wanted.begin(), wanted.begin() + 64 + 8 * 7);
    part[16] = 7;
    CHECK(told(path, part) == status::part_of_a_line);
    CHECK(std::string(fastbloom::reason(status::not_blocked)) == "the file's filter isn't blocked");
}

// The file of item0 to item999, which each language makes, is written and read.
static void try_writers(const std::string &path, int count, char **others) {
    const blocked_filter seen = thousand<blocked_filter>();
    CHECK(seen.save(path.c_str()) == status::ok);
    for (int i = 0; i < count; i++) {
        const auto read = blocked_filter::load(others[i]);
        const auto mapped = fastbloom::mapped_blocked_filter::map(others[i]);
        CHECK(read && mapped && *read == seen && *mapped->clone() == seen);
    }
}

// Filters of two lines, of which one has the item of hash 5 and the other two more: rates and numbers
// of items, how many they take, and which is a subset. Numbers are those of Python's fractions.
template <typename Filter> void try_rates() {
    auto few = *Filter::with_lines(2, 1), more = *Filter::with_lines(2, 1);
    CHECK(few.false_positive_rate()->high == 0 && few.estimated_items()->high == 0u);
    CHECK(few <= more && more <= few && few.is_subset(few));
    few.insert_hash(5);
    for (const std::uint64_t hash : {std::uint64_t{5}, std::uint64_t{1} << 63, ~std::uint64_t{0}})
        more.insert_hash(hash);
    CHECK(more.count_ones() == 3 && few.count_ones() == 1);
    CHECK(few <= more && more >= few && few.is_subset(more));
    CHECK(!(more <= few) && !(few >= more) && !more.is_subset(few));
    CHECK(few.false_positive_rate()->low == std::uint64_t{1} << 53);
    CHECK(few.false_positive_rate()->high == few.false_positive_rate()->low);
    CHECK(more.false_positive_rate()->low == std::uint64_t{3} << 53);
    CHECK(few.estimated_items()->low <= 1 && few.estimated_items()->high == 2u);
    CHECK(more.estimated_items()->low == 3 && more.estimated_items()->high == 4u);
    // Of 709 items half of all bits are expected to be set, 1 - (1023/1024)^709 = 0.49979.
    CHECK(more.capacity_for(1, 2) == 709);
    CHECK(more.false_positive_bounds(709)->high <= std::uint64_t{1} << 62);
    CHECK(more.false_positive_bounds(710)->low > std::uint64_t{1} << 62);
    const Filter other = *Filter::with_lines(3, 1), none;
    CHECK(!other.is_subset(few) && !few.is_subset(other) && !few.is_subset(none));
    CHECK(!none.false_positive_rate() && !none.estimated_items() && none.capacity_for(1, 2) == 0);
    CHECK(none.false_positive_bounds(1).status() == status::empty_words);
    // Words past the first 64.
    auto large = *Filter::with_lines(20, 3), larger = *Filter::with_lines(20, 3);
    for (std::uint64_t i = 0; i < 100; i++) larger.insert_hash(i * 0x9e3779b97f4a7c15);
    CHECK(large <= larger);
    large.insert_hash(~std::uint64_t{0});
    CHECK(!(large <= larger) && large.is_subset(large));
}

int main(int argc, char **argv) {
    if (argc < 3) return 2;
    try_rates<blocked_filter>();
    try_rates<shared_blocked_filter>();
    for (std::uint64_t session = 0; session < 200; session++) {
        const std::uint64_t number = number_of<blocked_filter>(session);
        CHECK(number_of<shared_blocked_filter>(session) == number);
        std::printf("%s%" PRIu64 ",%s", session % 4 == 0 ? "    " : " ", number,
                    session % 4 == 3 ? "\n" : "");
    }
    try_hash_items(*fastbloom::filter::make(1, 1000, 10, counting_key()));
    try_hash_items(*fastbloom::shared_filter::make(1, 1000, 10, counting_key()));
    try_hash_items(*blocked_filter::make(1, 1000, 10, counting_key()));
    try_hash_items(*shared_blocked_filter::make(1, 1000, 10, counting_key()));
    try_shared();
    try_refusals();
    try_worked(argv[1], std::string(argv[2]) + "/cpp_blocked.bloom");
    try_writers(std::string(argv[2]) + "/cpp.blocked", argc - 3, argv + 3);
    return 0;
}
