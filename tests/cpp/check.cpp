// Calls the classes of C++, of each kind of filters, and prints the lines of the other languages'
// checks.
//
// `check HEX FOLDER [FILE..]` leaves the file of the items in FOLDER/cpp.bloom. HEX is the file in
// hexadecimal digits. Each FILE is to be one of the items too. One in a folder `refused` is to be
// refused by the number with which its name begins.
#include "kinds.hpp"

#include <cstdio>
#include <cstdlib>
#include <string>
#include <type_traits>
#include <utility>
#include <vector>

using fastbloom::filter;

template <typename Class> static constexpr bool only_moves() {
    return !std::is_copy_constructible_v<Class> && !std::is_copy_assignable_v<Class> &&
           std::is_nothrow_move_constructible_v<Class> && std::is_nothrow_move_assignable_v<Class>;
}
static_assert(only_moves<whole::filter>() && only_moves<lines::filter>());
static_assert(only_moves<whole::mapped>() && only_moves<lines::mapped>());
static_assert(only_moves<whole::shared>() && only_moves<lines::shared>());

// The filter that each language builds; what its calls return is printed.
static filter items() {
    filter seen = empty<filter>(), at_once = empty<filter>();
    std::vector<std::uint64_t> hashes;
    for (int i = 0; i < 1000; i++) {
        seen.insert(item(i));
        hashes.push_back(seen.hash(item(i)));
        CHECK(seen.contains(item(i)) && seen.contains_hash(hashes.back()));
        CHECK(seen.insert_hash(hashes.back()) && seen.insert(item(i).data(), item(i).size()));
    }
    at_once.insert_hashes(hashes.data(), hashes.size());
    CHECK(at_once == seen);
    unsigned wrong = 0;
    for (int i = 1000; i < 101000; i++) wrong += seen.contains(item(i));
    std::uint64_t digest = 1469598103934665603u;
    for (std::size_t i = 0; i < seen.num_words(); i++) {
        digest = (digest ^ seen.data()[i]) * 1099511628211u;
    }
    const filter keyed = empty<filter>(counting_key());
    std::printf("words %zu hashes %u\n", seen.num_words(), unsigned{seen.num_hashes()});
    std::printf("hash %016llx\n", static_cast<unsigned long long>(keyed.hash(
                                      counting_key().data(), counting_key().size() - 1)));
    std::printf("digest %016llx\n", static_cast<unsigned long long>(digest));
    std::printf("false %u of 100000\n", wrong);
    return seen;
}

// Bytes in pieces, parted anywhere, have the hash of the whole; a copy goes on by itself.
static void pieces() {
    const std::string text = "crab, lobster, prawn, krill and barnacle";
    const filter seen = empty<filter>(counting_key());
    for (std::size_t at = 0; at <= text.size(); at++) {
        const std::string_view first{text.data(), at}, second{text.data() + at, text.size() - at};
        fastbloom::hasher pieces{counting_key()};
        const fastbloom::hasher copy = pieces.update(first);
        CHECK(pieces.update(second).finish() == seen.hash(text));
        CHECK(copy.finish() == seen.hash(first));
        CHECK(seen.begin_hash().update(first.data(), at).update(second).finish() ==
              seen.hash(text));
    }
    fastbloom::hasher none;
    CHECK(none.update(std::string_view{}).update(nullptr, 0).finish() == empty<filter>().hash(""));
    // The value of Rust's own SipHash-1-3.
    const fastbloom::key_bytes key = counting_key();
    fastbloom::hasher outside{key};
    outside.update(key.data(), 9).update(key.data() + 9, 6);
    CHECK(outside.finish() == 0xd320d86d2a519956u);
}

// Many hashes at once, against the calls by one hash, and counts.
template <typename Filter> static void many() {
    Filter seen = empty<Filter>(), one_by_one = empty<Filter>();
    std::vector<std::uint64_t> hashes;
    for (int i = 0; i < 100; i++) hashes.push_back(seen.hash(item(i % 70)));
    CHECK(fastbloom::words_of_bits(0) == 0 && fastbloom::words_of_bits(64) == 1);
    CHECK(fastbloom::words_of_bits(hashes.size()) == 2);
    seen.insert_hashes(hashes.data(), 10);
    one_by_one.insert_hashes(hashes.data(), 10);
    std::uint64_t found[2] = {~std::uint64_t{0}, ~std::uint64_t{0}};
    CHECK(seen.contains_hashes(hashes.data(), hashes.size(), found, 2));
    for (std::size_t i = 0; i < 128; i++) {
        CHECK(fastbloom::bit_of(found, i) == (i < 100 && seen.contains_hash(hashes[i])));
    }
    std::uint64_t fresh[2] = {~std::uint64_t{0}, ~std::uint64_t{0}};
    CHECK(seen.insert_hashes_tell_new(hashes.data(), hashes.size(), fresh, 2));
    for (std::size_t i = 0; i < 128; i++) {
        const bool is_new = i < 100 && !one_by_one.insert_hash(hashes[i]);
        CHECK(fastbloom::bit_of(fresh, i) == is_new);
    }
    CHECK(seen == one_by_one && !seen.contains_hashes(hashes.data(), 65, found, 1));
    CHECK(!seen.insert_hashes_tell_new(hashes.data(), 65, fresh, 1));
    CHECK(seen.contains_hashes(nullptr, 0, nullptr, 0));
    CHECK(seen.insert_hashes_tell_new(nullptr, 0, nullptr, 0));
    CHECK(!Filter{}.contains_hashes(hashes.data(), 1, found, 2));
#ifdef __cpp_lib_span
    CHECK(seen.contains_hashes(hashes, found) && fastbloom::bit_of(found, 99));
    CHECK(seen.insert_hashes_tell_new(hashes, fresh) && fresh[0] == 0 && fresh[1] == 0);
    const std::byte bytes[] = {std::byte{'c'}, std::byte{'r'}};
    CHECK(fastbloom::hasher{}.update(std::span<const std::byte>{bytes}).finish() ==
          seen.hash("cr"));
#endif
}

// One of 64 bits is set: one hash of 64.
static void counts() {
    auto made = filter::with_shape(1, 1);
    CHECK(made && made->count_ones() == 0);
    made->insert("crab");
    CHECK(made->count_ones() == 1);
    const auto rate = made->expected_rate(1);
    CHECK(rate && rate->low == std::uint64_t{1} << 57 && rate->high == rate->low);
    CHECK(made->expected_rate(0)->high == 0);
    CHECK(made->false_positive_bounds(0)->high == 0);
    CHECK(made->false_positive_bounds(1)->low == rate->low);
    CHECK(made->false_positive_rate()->low == rate->low);
    CHECK(filter{}.false_positive_bounds(1).status() == status::empty_words);
    CHECK(!filter{}.false_positive_rate());
    CHECK(filter{}.count_ones() == 0 && filter{}.expected_rate(1).status() == status::empty_words);
}

// How many items filters have, by hand: of 64 bits one is expected to be set after one hash, 1.98
// after two, 2.95 after three.
static void estimates() {
    auto one = filter::with_shape(1, 1), other = filter::with_shape(1, 1);
    CHECK(one && other);
    CHECK(one->estimated_items()->low == 0 && one->estimated_items()->high == 0u);
    CHECK(one->jaccard(*other)->low == 0 && one->jaccard(*other)->high == std::uint64_t{1} << 63);
    one->insert_hash(0);
    CHECK(one->estimated_items()->low == 1 && one->estimated_items()->high == 1u);
    CHECK(one->estimated_union(*one)->low == 1 && one->estimated_union(*one)->high == 1u);
    CHECK(one->estimated_common(*one)->low == 1 && one->estimated_common(*one)->high == 1u);
    CHECK(one->jaccard(*one)->low == std::uint64_t{1} << 63);
    other->insert_hash(~std::uint64_t{0});
    CHECK(one->estimated_union(*other)->low == 2 && one->estimated_union(*other)->high == 3u);
    CHECK(one->estimated_common(*other)->low == 0 && one->estimated_common(*other)->high == 0u);
    CHECK(one->jaccard(*other)->low == 0 && one->jaccard(*other)->high == 0);
    for (std::uint64_t i = 0; i < 64; i++) other->insert_hash(i << 58);
    CHECK(other->estimated_items() && !other->estimated_items()->high);
    const auto longer = filter::with_shape(2, 1);
    CHECK(!one->estimated_union(*longer) && !one->estimated_common(*longer));
    CHECK(!one->jaccard(*longer) && !filter{}.jaccard(filter{}));
    // (the other one has all bits set; the numbers are those of Python's whole numbers)
    CHECK(*one <= *other && *other >= *one && !(*other <= *one) && one->is_subset(*one));
    CHECK(!one->is_subset(*longer) && !longer->is_subset(*one));
    CHECK(filter::with_shape(16, 7)->capacity_for(1, 100) == 106);
    CHECK(filter::with_shape(1, 4)->capacity_for(1, 10) == 12);
    CHECK(filter{}.capacity_for(1, 10) == 0 && one->capacity_for(0, 10) == 0);
    CHECK(!filter{}.estimated_items() && !filter{}.estimated_union(filter{}));
    CHECK(!filter{}.estimated_common(filter{}));
}

template <typename Filter> static void sets() {
    const Filter seen = thousand<Filter>();
    Filter odd = empty<Filter>(), even = empty<Filter>(), other = empty<Filter>(counting_key());
    for (int i = 0; i < 1000; i++) (i % 2 == 1 ? odd : even).insert(item(i));
    CHECK(odd != even && even.unite(odd) && even == seen && even.unite(even) && even == seen);
    CHECK(even.intersect(odd) && even == odd && even.intersect(even) && even == odd);
    CHECK((even |= seen) && even == seen && (even &= odd) && even == odd && !(even |= other));
    CHECK(!other.unite(odd) && !other.intersect(odd) && other != empty<Filter>());
    CHECK(!even.unite(other) && even.contains_hash(even.hash("item1")));
    even.clear();
    CHECK(even == empty<Filter>() && even.count_ones() == 0 && !even.contains("item1"));
}

// The operators of filters that threads share.
template <typename Kind> static void shared_sets() {
    using Filter = typename Kind::filter;
    using Shared = typename Kind::shared;
    const Shared one(empty<Filter>()), other(empty<Filter>());
    const Shared keyed(empty<Filter>(counting_key()));
    CHECK(!one.insert("crab") && !other.insert("lobster"));
    CHECK((one |= other) && one.contains("crab") && one.contains("lobster"));
    CHECK((one &= other) && !one.contains("crab") && *one.load() == *other.load());
    CHECK(!(one |= keyed) && !(one &= keyed) && *one.load() == *other.load());
    CHECK(!(Shared{} |= Shared{}) && !(Shared{} &= Shared{}));
}

// Moves, clones, and filters with no words.
template <typename Filter> static void owners() {
    const Filter seen = thousand<Filter>();
    auto cloned = seen.clone();
    CHECK(cloned && *cloned == seen && cloned->data() != seen.data());
    Filter moved = *std::move(cloned);
    const std::uint64_t *words = moved.data();
    Filter last = std::move(moved);
    CHECK(last == seen && last.data() == words);
    Filter none, &gone = moved; // what was moved from has no words
    for (Filter *bare : {&none, &gone}) {
        CHECK(bare->num_words() == 0 && bare->num_bits() == 0 && *bare == Filter{});
        CHECK(!bare->insert("crab") && !bare->contains("crab") && !bare->insert_hash(1));
        CHECK(!bare->unite(*bare) && !bare->unite(seen) && !bare->intersect(none));
        CHECK(!bare->clone() && bare->head().status() == status::empty_words);
        bare->insert_hashes(words, 1);
        bare->clear();
    }
    Filter &same = last;
    last = std::move(same);
    CHECK(last == seen);
    gone = std::move(last);
    CHECK(gone == seen && last == none);
    // No bytes are an item, wherever they lie.
    CHECK(!gone.contains(std::string_view{}) && !gone.insert(nullptr, 0) && gone.insert(""));
    gone.insert_hashes(nullptr, 0);
}

template <typename Filter> static void spans() {
#ifdef __cpp_lib_span
    Filter seen = empty<Filter>(), at_once = empty<Filter>();
    const std::vector<std::byte> crab{std::byte{'c'}, std::byte{'r'}, std::byte{'a'},
                                      std::byte{'b'}};
    CHECK(!seen.insert(crab) && seen.contains(crab) && seen.contains("crab"));
    CHECK(seen.hash(crab) == seen.hash("crab") && seen.words().size() == seen.num_words());
    at_once.insert_hashes(std::vector{seen.hash(crab)});
    CHECK(at_once == seen);
    const std::vector<std::uint8_t> prawn{'p', 'r', 'a', 'w', 'n'};
    CHECK(!seen.insert(prawn) && seen.contains(prawn) && seen.hash(prawn) == seen.hash("prawn"));
    CHECK(fastbloom::hasher{}.update(prawn).finish() == seen.hash("prawn"));
#endif
}

// Ranges of items, and items that lie one behind the other.
template <typename Filter> static void ranges() {
    std::vector<std::string> names;
    for (int i = 0; i < 1000; i++) names.push_back(item(i));
    Filter seen = thousand<Filter>(), at_once = empty<Filter>();
    at_once.insert_range(names);
    CHECK(at_once == seen);
    at_once.insert_range(std::vector<const char *>{"item1", "item2"});
    CHECK(at_once == seen);
    std::string bytes;
    std::vector<std::uint64_t> offsets{0}, hashes(names.size());
    for (const std::string &name : names) offsets.push_back((bytes += name).size());
    CHECK(seen.hash_items(bytes.data(), bytes.size(), offsets.data(), offsets.size(), hashes.data(),
                          hashes.size()));
    for (std::size_t i = 0; i < names.size(); i++) CHECK(hashes[i] == seen.hash(names[i]));
    CHECK(!seen.hash_items(bytes.data(), bytes.size() - 1, offsets.data(), offsets.size(),
                           hashes.data(), hashes.size()));
    CHECK(seen.hash_items(nullptr, 0, nullptr, 0, nullptr, 0));
}

// Files are saved, loaded, mapped and shared.
template <typename Kind> static void files(const std::string &folder) {
    using Filter = typename Kind::filter;
    using Mapped = typename Kind::mapped;
    using Shared = typename Kind::shared;
    const Filter seen = thousand<Filter>();
    const std::string path = folder + "/kept.bloom";
    CHECK(seen.save(path.c_str()) == status::ok && read_whole(path) == bytes_of(seen));
    const auto loaded = Filter::load(path.c_str());
    CHECK(loaded && *loaded == seen);
    auto mapped = Mapped::map(path.c_str());
    CHECK(mapped && mapped->contains("item1") && !mapped->contains("crab, lobster"));
    CHECK(mapped->num_words() == seen.num_words() && mapped->key() == seen.key());
    const Mapped moved = *std::move(mapped);
    const std::uint64_t hash = seen.hash("item2");
    std::uint64_t found = 0;
    CHECK(moved.contains_hash(hash) && moved.contains_hashes(&hash, 1, &found, 1) && found == 1);
    CHECK(*moved.clone() == seen);
    CHECK(mapped->num_words() == 0 && !mapped->contains("item1") && !mapped->clone());
    // What is moved onto another filter leaves none behind.
    auto one = Mapped::map(path.c_str()), other = Mapped::map(path.c_str());
    CHECK(one && other);
    *one = *std::move(other);
    CHECK(one->contains("item1") && other->num_words() == 0 && !other->contains("item1"));
    Mapped &same = *one;
    *one = std::move(same);
    CHECK(one->contains("item1"));
#ifdef __cpp_lib_span
    CHECK(moved.words().data() == moved.data() && moved.words().size() == seen.num_words());
    CHECK(mapped->words().empty());
    const std::vector<std::uint64_t> hashes{seen.hash("item2"), seen.hash("crab, lobster")};
    std::vector<std::uint64_t> bits{~std::uint64_t{0}};
    CHECK(moved.contains_hashes(hashes, bits) && bits[0] == 1);
#endif
    // As many words and hashes as are allowed, and one more.
    const std::size_t words = seen.num_words();
    const std::vector<char> bytes = bytes_of(seen);
    for (const std::size_t most : {words, words - 1}) {
        const status why = most == words ? status::ok : status::too_many_words;
        CHECK(Filter::from_bytes(bytes.data(), bytes.size(), 64, most).status() == why);
        CHECK(Filter::load(path.c_str(), 64, most).status() == why);
        CHECK(Mapped::map(path.c_str(), 64, most).status() == why);
    }
    CHECK(Shared::map(path.c_str(), 64, words - 1).status() == status::too_many_words);
    CHECK(Filter::load(path.c_str(), 8).status() == status::too_many_hashes);
    CHECK(Filter::load(folder.c_str()).status() == status::input);
    CHECK(seen.save(folder.c_str()) == status::output);
    CHECK(Filter{}.save(path.c_str()) == status::empty_words);
    CHECK(Shared::map(path.c_str()).status() == status::sealed);
    CHECK(seen.save(path.c_str(), false) == status::ok);
    {
        auto shared = Shared::map(path.c_str());
        CHECK(shared && shared->contains("item1") && !shared->insert("crab, lobster"));
        const Shared owner = *std::move(shared);
        CHECK(owner.contains("crab, lobster") && shared->num_words() == 0);
        owner.insert_range(std::vector<std::string>{"prawn", "krill"});
    }
    const auto grown = Filter::load(path.c_str());
    CHECK(grown && grown->contains("crab, lobster") && grown->contains("krill") && *grown != seen);
    CHECK(std::remove(path.c_str()) == 0);
    CHECK(Filter::load(path.c_str()).status() == status::input);
}

// Each kind refuses the file of the other.
template <typename Kind, typename Other> static void other_files(const std::string &folder) {
    const std::string path = folder + "/other.bloom";
    const auto seen = empty<typename Kind::filter>();
    for (const bool sealed : {true, false}) {
        CHECK(seen.save(path.c_str(), sealed) == status::ok);
        CHECK(Other::filter::load(path.c_str()).status() == Kind::refused);
        CHECK(Other::mapped::map(path.c_str()).status() == Kind::refused);
        CHECK(Other::shared::map(path.c_str()).status() == Kind::refused);
    }
    const std::vector<char> bytes = bytes_of(seen);
    CHECK(Other::filter::from_bytes(bytes.data(), bytes.size()).status() == Kind::refused);
    CHECK(std::remove(path.c_str()) == 0);
}

static void refused() {
    CHECK(filter::make(1, 0, 10).status() == status::zero_rate);
    CHECK(filter::make(0, 5, 10).status() == status::zero_rate);
    // A rate is below 1, and the greatest that is may be any.
    CHECK(filter::make(1000, 1, 1000).status() == status::rate_too_large);
    CHECK(filter::make(5, 5, 10).status() == status::rate_too_large);
    CHECK(filter::make(UINT64_MAX, UINT64_MAX - 1, 10).status() == status::rate_too_large);
    CHECK(filter::make(UINT64_MAX - 1, UINT64_MAX, 10).status() == status::ok);
    CHECK(reason(status::rate_too_large) == std::string("rate of 1 or above"));
    CHECK(filter::make(1, 2, 12786308645202655226u).status() == status::too_many_words);
    CHECK(filter::make(1, 2, 12786308645202655227u).status() == status::size_overflow);
    CHECK(filter::with_shape(0, 3).status() == status::empty_words);
    CHECK(filter::with_shape(std::size_t{1} << 58, 3).status() == status::too_many_words);
    CHECK(filter::with_shape((std::size_t{1} << 58) - 1, 3).status() == status::memory);
    CHECK(std::string{fastbloom::reason(status::zero_rate)} == "rate with a zero part");
    CHECK(filter::from_bytes(nullptr, 0).status() == status::not_a_filter);
}

// The file in hexadecimal digits is written and read.
static void worked(const char *path) {
    const std::vector<char> wanted = read_digits(path);
    auto made = filter::with_shape(1, 3, counting_key());
    CHECK(made && !made->insert("crab") && !made->insert("lobster"));
    CHECK(wanted.size() == 72 && bytes_of(*made) == wanted);
    const auto read = filter::from_bytes(wanted.data(), wanted.size());
    CHECK(read && *read == *made && read->key() == counting_key());
}

// A file with more hashes than are allowed.
static void limits() {
    const auto made = filter::with_shape(1, 65);
    CHECK(static_cast<bool>(made));
    for (const bool sealed : {true, false}) {
        const std::vector<char> bytes = bytes_of(*made, sealed);
        const auto read = filter::from_bytes(bytes.data(), bytes.size(), 65);
        CHECK(read && *read == *made);
        CHECK(filter::from_bytes(bytes.data(), bytes.size()).status() == status::too_many_hashes);
        CHECK(filter::from_bytes(bytes.data(), bytes.size(), 65, 0).status() ==
              status::too_many_words);
    }
}

static void read_file(const std::string &path, const filter &seen) {
    const std::vector<char> bytes = read_whole(path);
    const std::size_t at = path.find("refused/");
    const int wanted = at == std::string::npos ? 0 : std::atoi(path.c_str() + at + 8);
    const auto read = filter::from_bytes(bytes.data(), bytes.size());
    if (static_cast<int>(read.status()) == wanted && (wanted != 0 || *read == seen)) return;
    std::fprintf(stderr, "check: %s: %s\n", path.c_str(), fastbloom::reason(read.status()));
    std::exit(1);
}

// What both kinds do alike.
template <typename Kind, typename Other> static void each(const std::string &folder) {
    using Filter = typename Kind::filter;
    many<Filter>();
    sets<Filter>();
    shared_sets<Kind>();
    owners<Filter>();
    spans<Filter>();
    ranges<Filter>();
    files<Kind>(folder);
    other_files<Kind, Other>(folder);
}

int main(int argc, char **argv) {
    if (argc < 3) return 2;
    const filter seen = items();
    pieces();
    counts();
    estimates();
    each<whole, lines>(argv[2]);
    each<lines, whole>(argv[2]);
    refused();
    limits();
    worked(argv[1]);
    write_whole(std::string(argv[2]) + "/cpp.bloom", bytes_of(seen));
    for (int i = 3; i < argc; i++) read_file(argv[i], seen);
    return 0;
}
