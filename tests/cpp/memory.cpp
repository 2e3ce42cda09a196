// `memory throws`: where a range of items throws, those that came before are inserted. `memory
// pages`: the memory of an empty filter isn't there before it is written, as Linux counts it.
#include "fastbloom_blocked_shared.hpp"
#include "fastbloom_shared.hpp"

#include <cstdio>
#include <cstdlib>
#include <string>

static void check(bool holds, int line, const char *text) {
    if (holds) return;
    std::fprintf(stderr, "memory: line %d: %s\n", line, text);
    std::exit(1);
}

#define CHECK(x) check((x), __LINE__, #x)

// A range of `item0`, `item1` and so on, which throws after this many.
struct source {
    int count;

    struct place {
        int at, count;

        std::string operator*() const {
            if (at == count) throw count;
            return "item" + std::to_string(at);
        }
        place &operator++() { return ++at, *this; }
        bool operator!=(const place &) const { return true; }
    };

    place begin() const { return {0, count}; }
    place end() const { return {0, 0}; }
};

template <typename Filter> static void throws() {
    for (const int count : {0, 1, 255, 256, 300}) {
        auto made = Filter::make(1, 1000000, 1000);
        CHECK(static_cast<bool>(made));
        int thrown = -1;
        try {
            made->insert_range(source{count});
        } catch (int told) {
            thrown = told;
        }
        CHECK(thrown == count);
        for (int i = 0; i < 400; i++)
            CHECK(made->contains("item" + std::to_string(i)) == (i < count));
    }
}

// How many pages of this process are in memory.
static long pages() {
    long all = 0, there = 0;
    std::FILE *file = std::fopen("/proc/self/statm", "r");
    CHECK(file != nullptr && std::fscanf(file, "%ld %ld", &all, &there) == 2);
    std::fclose(file);
    return there;
}

// A filter of 2^14 pages.
template <typename Filter> static void takes_no_pages(fastbloom::result<Filter> (*make)()) {
    const long before = pages();
    auto made = make();
    CHECK(made && made->num_words() == std::size_t{1} << 23);
    CHECK(!made->contains("crab") && !made->insert("crab") && made->contains("crab"));
    CHECK(pages() - before < 1000);
    const auto moved = *std::move(made);
    CHECK(moved.contains("crab"));
}

int main(int argc, char **argv) {
    const std::string what = argc == 2 ? argv[1] : "";
    if (what == "throws") {
        throws<fastbloom::filter>();
        throws<fastbloom::blocked_filter>();
        throws<fastbloom::shared_filter>();
        throws<fastbloom::shared_blocked_filter>();
    } else {
        using namespace fastbloom;
        takes_no_pages<filter>([] { return filter::with_shape(1 << 23, 3); });
        takes_no_pages<blocked_filter>([] { return blocked_filter::with_lines(1 << 20, 3); });
        takes_no_pages<shared_blocked_filter>(
            [] { return shared_blocked_filter::with_lines(1 << 20, 3); });
    }
    std::printf("%s well\n", what.c_str());
    return 0;
}
