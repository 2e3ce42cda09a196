// `files` works in an empty folder, and saves filters of both kinds by names that aren't a file's.
// A link stays, and what it leads to is made or replaced. A pipe and a descriptor of the process
// are written as streams, also where a link leads to them, and a regular file to which a descriptor
// is open goes on at its place. docs/FILE.md has the rule.
#include "fastbloom_blocked.hpp"

#include <cerrno>
#include <cstdio>
#include <cstdlib>
#include <string>

#include <fcntl.h>
#include <sys/stat.h>
#include <unistd.h>

using fastbloom::status;

static void check(bool holds, int line, const char *text) {
    if (holds) return;
    std::fprintf(stderr, "files: line %d: %s\n", line, text);
    std::exit(1);
}

#define CHECK(x) check((x), __LINE__, #x)

static std::string text_of(const char *path) {
    std::string text;
    std::FILE *file = std::fopen(path, "rb");
    CHECK(file != nullptr);
    for (int byte; (byte = std::fgetc(file)) != EOF;) text.push_back(static_cast<char>(byte));
    std::fclose(file);
    return text;
}

static mode_t kind_of(const char *path) {
    struct stat about;
    CHECK(lstat(path, &about) == 0);
    return about.st_mode & S_IFMT;
}

// Two links lead to a file that isn't there at first, and then is another one.
template <typename Filter> static void links(const Filter &seen, const std::string &wanted) {
    CHECK(symlink("first", "link") == 0 && symlink("second", "first") == 0);
    for (int count = 0; count < 2; count++) {
        CHECK(seen.save("link") == status::ok && text_of("second") == wanted);
        CHECK(kind_of("link") == S_IFLNK && kind_of("first") == S_IFLNK);
        CHECK(kind_of("second") == S_IFREG);
        const auto read = Filter::load("link");
        CHECK(read && *read == seen);
        CHECK(Filter{}.save("link") == status::empty_words && text_of("second") == wanted);
        CHECK(seen.save("link", false) == status::ok && text_of("second") != wanted);
    }
    CHECK(unlink("second") == 0 && unlink("first") == 0 && symlink("link", "first") == 0);
    CHECK(seen.save("link") == status::output && errno == ELOOP);
    CHECK(kind_of("link") == S_IFLNK && unlink("first") == 0 && unlink("link") == 0);
}

template <typename Filter> static void streams(const Filter &seen, const std::string &wanted) {
    std::string read(wanted.size() + 1, '\0');
    CHECK(mkfifo("pipe", 0600) == 0 && symlink("pipe", "link") == 0);
    const int pipe_end = open("pipe", O_RDONLY | O_NONBLOCK);
    for (const char *path : {"pipe", "link"}) {
        CHECK(pipe_end >= 0 && seen.save(path) == status::ok);
        CHECK(::read(pipe_end, &read[0], read.size()) == static_cast<ssize_t>(wanted.size()));
        CHECK(read.compare(0, wanted.size(), wanted) == 0 && kind_of("pipe") == S_IFIFO);
    }
    CHECK(close(pipe_end) == 0 && unlink("pipe") == 0 && unlink("link") == 0);

    const int file = open("kept", O_RDWR | O_CREAT, 0600);
    CHECK(file >= 0);
    const std::string name = "/dev/fd/" + std::to_string(file);
    CHECK(symlink(name.c_str(), "link") == 0);
    for (const char *path : {name.c_str(), "link"}) {
        CHECK(ftruncate(file, 0) == 0 && lseek(file, 0, SEEK_SET) == 0);
        CHECK(write(file, "before..after", 13) == 13 && lseek(file, 6, SEEK_SET) == 6);
        CHECK(seen.save(path) == status::ok && write(file, "|", 1) == 1);
        CHECK(text_of("kept") == "before" + wanted + "|" && kind_of("link") == S_IFLNK);
    }
    CHECK(close(file) == 0 && seen.save("link") == status::output && errno == ENOENT);
    CHECK(kind_of("link") == S_IFLNK && unlink("link") == 0 && unlink("kept") == 0);
}

template <typename Filter> static void tried() {
    auto seen = Filter::make(1, 1000, 100);
    CHECK(seen && !seen->insert_hash(42));
    CHECK(seen->save("plain") == status::ok);
    const std::string wanted = text_of("plain");
    CHECK(wanted.size() == 64 + 8 * seen->num_words() && unlink("plain") == 0);
    links(*seen, wanted);
    streams(*seen, wanted);
}

int main() {
    tried<fastbloom::filter>();
    tried<fastbloom::blocked_filter>();
    std::printf("files well\n");
    return 0;
}
