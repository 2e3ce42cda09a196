// A first use of the class of C++: `first FILE` keeps a filter of texts in a file.
#include "fastbloom.hpp"

#include <cstdio>

int main(int argc, char **argv) {
    if (argc != 2) return 2;
    // example filter
    // Where others choose the items, draw a key and hand it over as the fourth argument.
    auto made = fastbloom::filter::make(1, 1000, 1'000'000);
    if (!made) return std::puts(fastbloom::reason(made.status())), 1;
    fastbloom::filter seen = *std::move(made);
    for (const char *name : {"crab", "lobster", "crab"}) {
        std::printf("%s: %s\n", name, seen.insert(name) ? "seen before" : "new");
    }
    // end of example
    // example reading
    const auto saved = seen.save(argv[1]);
    if (saved != fastbloom::status::ok) return std::puts(fastbloom::reason(saved)), 1;
    const auto read = fastbloom::filter::load(argv[1]);
    if (!read) return std::puts(fastbloom::reason(read.status())), 1;
    std::printf("%s\n", read->contains("crab") && *read == seen ? "read back" : "lost");
    // end of example
    return 0;
}
