// The kinds of filters, and what the tests of both share.
#ifndef KINDS_HPP
#define KINDS_HPP

#include "fastbloom_blocked_shared.hpp"

#include <cstdio>
#include <cstdlib>
#include <string>
#include <utility>
#include <vector>

using fastbloom::status;

inline void check(bool holds, const char *file, int line, const char *text) {
    if (holds) return;
    std::fprintf(stderr, "%s:%d: %s\n", file, line, text);
    std::exit(1);
}

#define CHECK(x) check((x), __FILE__, __LINE__, #x)

// The classes of a kind, and why a reader of the other kind refuses its file.
struct whole {
    using filter = fastbloom::filter;
    using mapped = fastbloom::mapped_filter;
    using shared = fastbloom::shared_filter;
    static constexpr status refused = status::not_blocked;
};

struct lines {
    using filter = fastbloom::blocked_filter;
    using mapped = fastbloom::mapped_blocked_filter;
    using shared = fastbloom::shared_blocked_filter;
    static constexpr status refused = status::blocked;
};

inline fastbloom::key_bytes counting_key() {
    fastbloom::key_bytes key{};
    for (std::size_t i = 0; i < key.size(); i++) key[i] = static_cast<std::uint8_t>(i);
    return key;
}

inline std::string item(int number) { return "item" + std::to_string(number); }

// The empty filter for a thousand items.
template <typename Filter> Filter empty(const fastbloom::key_bytes &key = {}) {
    auto made = Filter::make(1, 1000, 1000, key);
    CHECK(static_cast<bool>(made) && made.status() == status::ok);
    return *std::move(made);
}

// The filter of item0 to item999.
template <typename Filter> Filter thousand() {
    Filter seen = empty<Filter>();
    for (int i = 0; i < 1000; i++) seen.insert(item(i));
    return seen;
}

template <typename Filter> std::vector<char> bytes_of(const Filter &seen, bool sealed = true) {
    const auto head = seen.head(sealed);
    CHECK(static_cast<bool>(head));
    std::vector<char> bytes(head->begin(), head->end());
    const char *words = reinterpret_cast<const char *>(seen.data());
    bytes.insert(bytes.end(), words, words + 8 * seen.num_words());
    return bytes;
}

inline std::vector<char> read_whole(const std::string &path) {
    std::vector<char> bytes;
    std::FILE *file = std::fopen(path.c_str(), "rb");
    CHECK(file != nullptr);
    for (int byte; (byte = std::fgetc(file)) != EOF;) bytes.push_back(static_cast<char>(byte));
    std::fclose(file);
    return bytes;
}

// The bytes of a file in hexadecimal digits.
inline std::vector<char> read_digits(const char *path) {
    std::vector<char> bytes;
    std::FILE *file = std::fopen(path, "r");
    CHECK(file != nullptr);
    for (unsigned byte; std::fscanf(file, "%2x", &byte) == 1;) {
        bytes.push_back(static_cast<char>(byte));
    }
    std::fclose(file);
    return bytes;
}

inline void write_whole(const std::string &path, const std::vector<char> &bytes) {
    std::FILE *file = std::fopen(path.c_str(), "wb");
    CHECK(file != nullptr && std::fwrite(bytes.data(), 1, bytes.size(), file) == bytes.size());
    CHECK(std::fclose(file) == 0);
}

#endif
