/* The calls of the library on files: `files FOLDER HEX` works in an empty folder. HEX is the worked
 * file of a blocked filter in hexadecimal digits.
 *
 * Files of both kinds of filters are written, read and mapped, and those with faults are refused:
 * one that is truncated at each length or goes on, one of the other kind, a folder, a pipe, a
 * socket, a device, no file, no room, no right to read or write, and limits. The reasons are those
 * of docs/FILE.md. A new file has the rights of the old one, and no other user gets more. A link
 * stays, and a device, a pipe or a descriptor is written as a stream.
 */
#define _GNU_SOURCE
#include "fastbloom.h"

#include <errno.h>
#include <fcntl.h>
#include <signal.h>
#include <stdio.h>
#include <stdlib.h>
#include <string.h>
#include <sys/resource.h>
#include <sys/socket.h>
#include <sys/stat.h>
#include <sys/un.h>
#include <sys/wait.h>
#include <sys/xattr.h>
#include <unistd.h>

static unsigned checks;

static void check(bool holds, int line, const char *text) {
    checks++;
    if (!holds) {
        fprintf(stderr, "files: line %d: %s (%s)\n", line, text, strerror(errno));
        exit(1);
    }
}

#define CHECK(x) check((x), __LINE__, #x)

enum { MOST = 16, HEAD = 64 };

static uint64_t words[MOST];
static fastbloom_filter filter = {words, 0, 3, {1, 2, 3, 4, 5, 6, 7, 8, 9, 10}};

/* The calls on one kind of filters, and the number by which they refuse files of the other kind. */
struct kind {
    size_t num_words;
    uint8_t other;
    uint8_t (*load)(const char *, const fastbloom_limits *, fastbloom_filter *);
    uint8_t (*map)(const char *, enum fastbloom_map_mode, const fastbloom_limits *,
                   fastbloom_filter *);
    uint8_t (*save)(const char *, const fastbloom_filter *, bool);
    bool (*insert_hash)(uint64_t *, size_t, uint32_t, uint64_t);
    bool (*contains_hash)(const uint64_t *, size_t, uint32_t, uint64_t);
    bool (*shared_insert_hash)(fastbloom_shared, uint32_t, uint64_t);
};

static const struct kind kinds[2] = {
    {9, FASTBLOOM_BLOCKED, fastbloom_load, fastbloom_map, fastbloom_save, fastbloom_insert_hash,
     fastbloom_contains_hash, fastbloom_shared_insert_hash},
    {16, FASTBLOOM_NOT_BLOCKED, fastbloom_blocked_load, fastbloom_blocked_map,
     fastbloom_blocked_save, fastbloom_blocked_insert_hash, fastbloom_blocked_contains_hash,
     fastbloom_blocked_shared_insert_hash}};
static const struct kind *kind = kinds;

/* The bytes of a file, and how many. */
static size_t bytes_of(const char *path, uint8_t *bytes, size_t room) {
    FILE *file = fopen(path, "rb");
    CHECK(file != NULL);
    size_t size = fread(bytes, 1, room, file);
    fclose(file);
    return size;
}

static void put(const char *path, const uint8_t *bytes, size_t size) {
    FILE *file = fopen(path, "wb");
    CHECK(file != NULL && fwrite(bytes, 1, size, file) == size && fclose(file) == 0);
}

static unsigned mode_of(const char *path) {
    struct stat about;
    CHECK(lstat(path, &about) == 0);
    return about.st_mode & 07777;
}

static mode_t kind_of(const char *path) {
    struct stat about;
    CHECK(lstat(path, &about) == 0);
    return about.st_mode & S_IFMT;
}

static bool is_this(const fastbloom_filter *read) {
    return read->num_words == filter.num_words && read->num_hashes == 3 &&
           memcmp(read->key, filter.key, sizeof read->key) == 0 &&
           memcmp(read->words, words, 8 * filter.num_words) == 0;
}

/* A load, and each way to map a file, return this, and then there are no words. */
static void refuses(const char *path, const fastbloom_limits *limits, uint8_t code) {
    fastbloom_filter read = filter;
    CHECK(kind->load(path, limits, &read) == code);
    CHECK(read.words == NULL && read.num_words == 0);
    for (int mode = FASTBLOOM_MAP_READ; mode <= FASTBLOOM_MAP_SHARE; mode++) {
        read = filter;
        CHECK(kind->map(path, (enum fastbloom_map_mode)mode, limits, &read) == code);
        CHECK(read.words == NULL && read.num_words == 0);
    }
}

static void texts(void) {
    CHECK(strcmp(fastbloom_version(), FASTBLOOM_VERSION) == 0);
    CHECK(strcmp(fastbloom_strerror(FASTBLOOM_CUT), "the file is cut") == 0);
    CHECK(strcmp(fastbloom_strerror(FASTBLOOM_OUTPUT), "output failed") == 0);
    CHECK(strcmp(fastbloom_strerror(FASTBLOOM_BLOCKED), "the file has a blocked filter") == 0);
    const char *not_blocked = fastbloom_strerror(FASTBLOOM_NOT_BLOCKED);
    CHECK(strcmp(not_blocked, "the file's filter isn't blocked") == 0);
    unsigned unknown = 0;
    for (int code = 0; code < 256; code++)
        unknown += strcmp(fastbloom_strerror((uint8_t)code), "an unknown refusal") == 0;
    CHECK(unknown == 256 - 23);
}

/* What is saved is loaded and mapped again. What is written into a copy stays in it. */
static void kept(const char *path, bool sealed) {
    fastbloom_filter read;
    CHECK(kind->save(path, &filter, sealed) == FASTBLOOM_OK);
    CHECK(kind->load(path, NULL, &read) == FASTBLOOM_OK && is_this(&read));
    fastbloom_unload(&read);
    CHECK(read.words == NULL && read.num_words == 0);
    fastbloom_unload(&read);
    CHECK(kind->map(path, FASTBLOOM_MAP_READ, NULL, &read) == FASTBLOOM_OK && is_this(&read));
    CHECK((uintptr_t)read.words % 64 == 0);
    fastbloom_unmap(&read);
    CHECK(read.words == NULL && read.num_words == 0);
    fastbloom_unmap(&read);
    CHECK(kind->map(path, FASTBLOOM_MAP_COPY, NULL, &read) == FASTBLOOM_OK && is_this(&read));
    read.words[0] ^= 1;
    fastbloom_unmap(&read);
    CHECK(kind->load(path, NULL, &read) == FASTBLOOM_OK && is_this(&read));
    fastbloom_unload(&read);
}

/* What is written into a file that is shared goes into it, and a sealed one isn't shared. */
static void shared(const char *path) {
    fastbloom_filter read, again;
    CHECK(kind->save(path, &filter, true) == FASTBLOOM_OK);
    CHECK(kind->map(path, FASTBLOOM_MAP_SHARE, NULL, &read) == FASTBLOOM_SEALED);
    CHECK(read.words == NULL);
    CHECK(kind->save(path, &filter, false) == FASTBLOOM_OK);
    CHECK(kind->map(path, FASTBLOOM_MAP_SHARE, NULL, &read) == FASTBLOOM_OK);
    CHECK(kind->map(path, FASTBLOOM_MAP_SHARE, NULL, &again) == FASTBLOOM_OK);
    fastbloom_shared one = {read.words, read.num_words}, other = {again.words, again.num_words};
    CHECK(!kind->shared_insert_hash(one, 3, 42) && kind->shared_insert_hash(other, 3, 42));
    fastbloom_unmap(&read);
    fastbloom_unmap(&again);
    CHECK(kind->load(path, NULL, &read) == FASTBLOOM_OK && !is_this(&read));
    CHECK(kind->contains_hash(read.words, read.num_words, 3, 42));
    fastbloom_unload(&read);
}

/* Files that are truncated at each length, go on, or have a byte changed. */
static void faults(const char *path) {
    enum { ROOM = HEAD + 8 * MOST + 2 };
    uint8_t bytes[ROOM], changed[ROOM] = {0};
    const size_t whole = HEAD + 8 * filter.num_words;
    CHECK(kind->save(path, &filter, true) == FASTBLOOM_OK);
    CHECK(bytes_of(path, bytes, sizeof bytes) == whole);
    bytes[whole] = 0;
    for (size_t size = 0; size < whole; size++) {
        put(path, bytes, size);
        refuses(path, NULL, size < 8 ? FASTBLOOM_NOT_A_FILTER : FASTBLOOM_CUT);
    }
    put(path, bytes, whole + 1);
    refuses(path, NULL, FASTBLOOM_TOO_LONG);
    const struct {
        size_t place;
        uint8_t code;
    } rows[] = {{0, FASTBLOOM_NOT_A_FILTER}, {7, FASTBLOOM_UNKNOWN_VERSION},
                {12, FASTBLOOM_HASH_COUNT},  {22, FASTBLOOM_CUT},
                {23, FASTBLOOM_CUT},         {63, FASTBLOOM_RESERVED},
                {48, kind->other},           {49, FASTBLOOM_RESERVED}};
    for (size_t i = 0; i < sizeof rows / sizeof *rows; i++) {
        memcpy(changed, bytes, whole);
        changed[rows[i].place] ^= 1;
        put(path, changed, whole);
        refuses(path, NULL, rows[i].code);
    }
    /* Of a seal that is wrong nothing is found where the words aren't read. */
    fastbloom_filter read;
    memcpy(changed, bytes, whole);
    changed[whole - 1] ^= 128;
    put(path, changed, whole);
    CHECK(kind->load(path, NULL, &read) == FASTBLOOM_SEAL && read.words == NULL);
    CHECK(kind->map(path, FASTBLOOM_MAP_READ, NULL, &read) == FASTBLOOM_SEAL);
    CHECK(kind->map(path, FASTBLOOM_MAP_SHARE, NULL, &read) == FASTBLOOM_SEALED);
}

/* The file of each kind is refused by the calls on the other kind, whether it is sealed or not. */
static void other_kind(const char *path, bool sealed) {
    CHECK(kind->save(path, &filter, sealed) == FASTBLOOM_OK);
    kind = kinds + (kind == kinds);
    refuses(path, NULL, kind->other);
    kind = kinds + (kind == kinds);
}

/* Words that are no whole lines are no blocked filter. A byte that is missing is told before. */
static void part_of_a_line(const char *path) {
    uint8_t bytes[HEAD + 8 * MOST];
    fastbloom_filter part = filter;
    CHECK(kind->save(path, &filter, false) == FASTBLOOM_OK);
    CHECK(bytes_of(path, bytes, sizeof bytes) == HEAD + 8 * filter.num_words);
    bytes[16] = 9;
    put(path, bytes, HEAD + 8 * 9);
    refuses(path, NULL, FASTBLOOM_PART_OF_A_LINE);
    put(path, bytes, HEAD + 8 * 9 - 1);
    refuses(path, NULL, FASTBLOOM_CUT);
    part.num_words = 9;
    CHECK(kind->save(path, &part, true) == FASTBLOOM_PART_OF_A_LINE);
    CHECK(kind->save(path, &part, false) == FASTBLOOM_PART_OF_A_LINE);
    uint8_t head[HEAD] = {7}, seal[8];
    memcpy(seal, head, sizeof seal);
    CHECK(fastbloom_blocked_head_write(9, 3, filter.key, 5, head) == FASTBLOOM_PART_OF_A_LINE);
    CHECK(memcmp(head, seal, sizeof seal) == 0);
}

/* The worked file is read with its members, and written byte for byte. */
static void worked(const char *path, const uint8_t *bytes, size_t size) {
    static const char *const texts[] = {"crab", "lobster", "whale"};
    fastbloom_filter read;
    uint8_t written[HEAD + 8 * MOST];
    put(path, bytes, size);
    for (int mapped = 0; mapped < 2; mapped++) {
        CHECK((mapped ? fastbloom_blocked_map(path, FASTBLOOM_MAP_COPY, NULL, &read)
                      : fastbloom_blocked_load(path, NULL, &read)) == FASTBLOOM_OK);
        CHECK(read.num_words == 8 && read.num_hashes == 3 && (uintptr_t)read.words % 64 == 0);
        for (uint8_t i = 0; i < 16; i++) CHECK(read.key[i] == i);
        for (size_t i = 0; i < 3; i++)
            CHECK(fastbloom_blocked_contains(read.words, 8, 3, read.key, (const uint8_t *)texts[i],
                                             strlen(texts[i])) == (i < 2));
        fastbloom_clear(read.words, 8);
        for (size_t i = 0; i < 2; i++)
            CHECK(!fastbloom_blocked_insert(read.words, 8, 3, read.key, (const uint8_t *)texts[i],
                                            strlen(texts[i])));
        CHECK(fastbloom_blocked_save("again", &read, true) == FASTBLOOM_OK);
        CHECK(bytes_of("again", written, sizeof written) == size);
        CHECK(memcmp(written, bytes, size) == 0 && unlink("again") == 0);
        mapped ? fastbloom_unmap(&read) : fastbloom_unload(&read);
    }
    CHECK(unlink(path) == 0);
}

static void limits(const char *path) {
    fastbloom_filter many = filter, read;
    fastbloom_limits allowed = {filter.num_words, 3};
    CHECK(kind->save(path, &filter, false) == FASTBLOOM_OK);
    CHECK(kind->load(path, &allowed, &read) == FASTBLOOM_OK);
    fastbloom_unload(&read);
    allowed.max_words--;
    refuses(path, &allowed, FASTBLOOM_TOO_MANY_WORDS);
    allowed.max_words++, allowed.max_hashes--;
    refuses(path, &allowed, FASTBLOOM_TOO_MANY_HASHES);
    many.num_hashes = 65;
    CHECK(kind->save(path, &many, false) == FASTBLOOM_OK);
    refuses(path, NULL, FASTBLOOM_TOO_MANY_HASHES);
    allowed.max_hashes = 65;
    CHECK(kind->load(path, &allowed, &read) == FASTBLOOM_OK && read.num_hashes == 65);
    fastbloom_unload(&read);
    /* no words, and too many */
    many.num_words = 0;
    CHECK(kind->save(path, &many, true) == FASTBLOOM_EMPTY_WORDS);
    many.num_words = (size_t)1 << 58;
    for (int sealed = 0; sealed < 2; sealed++)
        CHECK(kind->save(path, &many, sealed) == FASTBLOOM_TOO_MANY_WORDS);
    CHECK(kind->load(path, &allowed, &read) == FASTBLOOM_OK && read.num_hashes == 65);
    fastbloom_unload(&read);
}

/* What is no file: none, a folder, a pipe that nobody writes into. */
static void no_files(void) {
    refuses("none", NULL, FASTBLOOM_INPUT);
    CHECK(errno == ENOENT);
    CHECK(mkdir("folder", 0700) == 0 && mkfifo("pipe", 0600) == 0);
    refuses("folder", NULL, FASTBLOOM_INPUT);
    CHECK(errno == EISDIR);
    refuses("pipe", NULL, FASTBLOOM_INPUT);
    CHECK(kind->save("folder", &filter, true) == FASTBLOOM_OUTPUT && errno == EISDIR);
    CHECK(kind->save("none/file", &filter, true) == FASTBLOOM_OUTPUT && errno == ENOENT);
    CHECK(kind->save("", &filter, true) == FASTBLOOM_OUTPUT);
    CHECK(rmdir("folder") == 0 && unlink("pipe") == 0);
}

/* What a file can't go to stays as it was: a socket that nobody hears, and a link to itself. */
static void kept_paths(void) {
    struct sockaddr_un name = {.sun_family = AF_UNIX, .sun_path = "socket"};
    int connection = socket(AF_UNIX, SOCK_STREAM, 0);
    CHECK(connection >= 0 && bind(connection, (struct sockaddr *)&name, sizeof name) == 0);
    CHECK(close(connection) == 0 && symlink("ring", "ring") == 0);
    static const struct {
        const char *path;
        int why;
        mode_t kind;
    } rows[] = {{"socket", ENXIO, S_IFSOCK}, {"ring", ELOOP, S_IFLNK}};
    for (size_t i = 0; i < sizeof rows / sizeof *rows; i++) {
        CHECK(kind->save(rows[i].path, &filter, true) == FASTBLOOM_OUTPUT);
        CHECK(errno == rows[i].why && kind_of(rows[i].path) == rows[i].kind);
        CHECK(unlink(rows[i].path) == 0);
    }
}

/* What is read from a descriptor is the file of the filter. */
static void receives(int from) {
    uint8_t bytes[HEAD + 8 * MOST], wanted[sizeof bytes];
    CHECK(kind->save("wanted", &filter, true) == FASTBLOOM_OK);
    size_t size = bytes_of("wanted", wanted, sizeof wanted), there = 0;
    while (there < size) {
        ssize_t got = read(from, bytes + there, size - there);
        CHECK(got > 0);
        there += (size_t)got;
    }
    CHECK(there == size && memcmp(bytes, wanted, size) == 0 && unlink("wanted") == 0);
}

/* A device, a pipe and a descriptor of the process are written as they are, also where links lead to
 * them. A regular file to which a descriptor is open goes on at its place. */
static void streams(void) {
    static const char *const forms[] = {"/dev/fd/%d", "/proc/self/fd/%d", "/proc/%d/fd/%d"};
    char path[64], last;
    int ends[2];
    CHECK(mkfifo("pipe", 0600) == 0 && symlink("pipe", "to_pipe") == 0);
    int pipe_end = open("pipe", O_RDONLY | O_NONBLOCK);
    CHECK(pipe_end >= 0 && kind->save("to_pipe", &filter, true) == FASTBLOOM_OK);
    receives(pipe_end);
    CHECK(close(pipe_end) == 0 && kind_of("pipe") == S_IFIFO && kind_of("to_pipe") == S_IFLNK);
    CHECK(unlink("pipe") == 0 && unlink("to_pipe") == 0);
    CHECK(symlink("/dev/null", "null") == 0);
    CHECK(kind->save("null", &filter, true) == FASTBLOOM_OK);
    CHECK(kind_of("null") == S_IFLNK && kind_of("/dev/null") == S_IFCHR && unlink("null") == 0);
    CHECK(socketpair(AF_UNIX, SOCK_STREAM, 0, ends) == 0);
    for (size_t i = 0; i < 4; i++) {
        int file = open("kept", O_RDWR | O_CREAT | O_TRUNC, 0600);
        CHECK(file >= 0 && write(file, "before..after", 13) == 13 && lseek(file, 6, SEEK_SET) == 6);
        int to = i == 3 ? ends[1] : file;
        snprintf(path, sizeof path, forms[i % 3], i == 2 ? (int)getpid() : to, to);
        if (i == 1) {
            CHECK(symlink(path, "link") == 0);
            strcpy(path, "link");
        }
        CHECK(kind->save(path, &filter, true) == FASTBLOOM_OK);
        if (i < 3) {
            CHECK(write(file, "|", 1) == 1 && lseek(file, 0, SEEK_SET) == 0);
            CHECK(read(file, path, 6) == 6 && memcmp(path, "before", 6) == 0);
            receives(file);
            CHECK(read(file, &last, 1) == 1 && last == '|' && read(file, &last, 1) == 0);
        } else {
            receives(ends[0]);
        }
        CHECK(close(file) == 0 && kind_of("kept") == S_IFREG);
    }
    CHECK(kind_of("link") == S_IFLNK && unlink("link") == 0 && unlink("kept") == 0);
    CHECK(close(ends[0]) == 0 && close(ends[1]) == 0);
    /* One that isn't open, and one that is only read. */
    snprintf(path, sizeof path, "/dev/fd/%d", ends[0]);
    CHECK(kind->save(path, &filter, true) == FASTBLOOM_OUTPUT && errno == ENOENT);
    CHECK(open("/dev/null", O_RDONLY) == ends[0]);
    CHECK(kind->save(path, &filter, true) == FASTBLOOM_OUTPUT && errno == EBADF);
    CHECK(close(ends[0]) == 0);
}

/* A new file has the mode that the process gives, and a later one that of the file before it. */
static void rights(void) {
    umask(027);
    CHECK(kind->save("made", &filter, true) == FASTBLOOM_OK && mode_of("made") == 0640);
    CHECK(chmod("made", 0604) == 0);
    CHECK(kind->save("made", &filter, false) == FASTBLOOM_OK && mode_of("made") == 0604);
    umask(022);
    CHECK(unlink("made") == 0);
}

/* A link stays, and the file to which it leads is replaced, or made where there is none. */
static void links(void) {
    fastbloom_filter read;
    CHECK(mkdir("folder", 0755) == 0 && symlink("folder/first", "link") == 0);
    CHECK(symlink("second", "folder/first") == 0);
    for (int there = 0; there < 2; there++) {
        if (there) {
            put("folder/second", (const uint8_t *)"other", 5);
            CHECK(chmod("folder/second", 0604) == 0);
        }
        CHECK(kind->save("link", &filter, true) == FASTBLOOM_OK);
        CHECK(kind_of("link") == S_IFLNK && kind_of("folder/first") == S_IFLNK);
        CHECK(kind_of("folder/second") == S_IFREG);
        CHECK(mode_of("folder/second") == (there ? 0604 : 0644));
        CHECK(kind->load("folder/second", NULL, &read) == FASTBLOOM_OK && is_this(&read));
        fastbloom_unload(&read);
    }
    CHECK(unlink("folder/second") == 0 && unlink("folder/first") == 0);
    CHECK(unlink("link") == 0 && rmdir("folder") == 0);
}

/* Saves a file as another user, in a process of its own: 0, the number of the error, or -1 where
 * this process can't become another user. */
static int saved_by_another(const char *path) {
    pid_t child = fork();
    CHECK(child >= 0);
    if (child == 0) {
        if (setresgid(1235, 1235, 1235) != 0 || setresuid(1235, 1235, 1235) != 0) _exit(255);
        _exit(kind->save(path, &filter, true) == FASTBLOOM_OK ? 0 : errno);
    }
    int status;
    CHECK(waitpid(child, &status, 0) == child && WIFEXITED(status));
    return WEXITSTATUS(status) == 255 ? -1 : WEXITSTATUS(status);
}

/* In a folder that may be written and not be read a file is saved. In one where everybody may make
 * files, the link of another user isn't followed. */
static void odd_folders(void) {
    fastbloom_filter read;
    if (geteuid() != 0) return;
    CHECK(mkdir("folder", 0700) == 0 && chmod("folder", 0733) == 0);
    int why = saved_by_another("folder/made");
    CHECK(why <= 0 && chmod("folder", 01777) == 0);
    if (why == 0) {
        CHECK(kind->load("folder/made", NULL, &read) == FASTBLOOM_OK && is_this(&read));
        fastbloom_unload(&read);
        CHECK(symlink("made", "folder/link") == 0);
        CHECK(lchown("folder/link", 1235, 1235) == 0 && saved_by_another("folder/link") == 0);
        CHECK(lchown("folder", 1236, 1236) == 0 && lchown("folder/link", 1237, 1237) == 0);
        CHECK(saved_by_another("folder/link") == EACCES);
        CHECK(kind->save("folder/link", &filter, true) == FASTBLOOM_OUTPUT && errno == EACCES);
        CHECK(lchown("folder/link", 1236, 1236) == 0 && saved_by_another("folder/link") == 0);
        CHECK(unlink("folder/link") == 0 && unlink("folder/made") == 0);
    }
    CHECK(rmdir("folder") == 0);
}

/* A list of access rights as the system keeps it, in 44 bytes. The owner reads and writes, the user
 * 1234 and the mask have these rights, the group reads, and others have none. */
static void list_of(uint16_t user, uint8_t list[44]) {
    const uint16_t rows[5][2] = {{1, 6}, {2, user}, {4, 4}, {16, user}, {32, 0}};
    memset(list, 0, 44);
    list[0] = 2;
    for (size_t i = 0; i < 5; i++) {
        memcpy(list + 4 + 8 * i, rows[i], 4);
        memset(list + 8 + 8 * i, 255, 4);
    }
    memcpy(list + 16, (const uint32_t[]){1234}, 4);
}

/* A file keeps its list of access rights. One that had none gets none from its folder, whose list
 * for new files opens them to a user. Where the file system has no lists, nothing is tried. */
static void lists(void) {
    static const char *const access = "system.posix_acl_access";
    uint8_t list[44], read[64];
    list_of(0, list);
    CHECK(mkdir("folder", 0755) == 0 && kind->save("folder/made", &filter, true) == FASTBLOOM_OK);
    CHECK(chmod("folder/made", 0644) == 0);
    if (setxattr("folder/made", access, list, sizeof list, 0) == 0) {
        CHECK(mode_of("folder/made") == 0600);
        list_of(4, list);
        CHECK(setxattr("folder/made", access, list, sizeof list, 0) == 0);
        CHECK(mode_of("folder/made") == 0640);
        CHECK(kind->save("folder/made", &filter, true) == FASTBLOOM_OK);
        CHECK(getxattr("folder/made", access, read, sizeof read) == sizeof list);
        CHECK(memcmp(read, list, sizeof list) == 0 && mode_of("folder/made") == 0640);
        CHECK(removexattr("folder/made", access) == 0 && chmod("folder/made", 0664) == 0);
        CHECK(setxattr("folder", "system.posix_acl_default", list, sizeof list, 0) == 0);
        CHECK(kind->save("folder/made", &filter, true) == FASTBLOOM_OK);
        CHECK(getxattr("folder/made", access, read, sizeof read) < 0 && errno == ENODATA);
        CHECK(mode_of("folder/made") == 0664);
    }
    CHECK(unlink("folder/made") == 0 && rmdir("folder") == 0);
}

/* Another user, who can't keep the group of a file, gives none of its rights to others: neither
 * those that its mode gives the group, nor those that it denies to it. In a process of its own, and
 * only where this one may become another user. */
static void other_group(void) {
    static const mode_t modes[][2] = {{0604, 0600}, {0664, 0604}, {0640, 0600}, {0646, 0604}};
    uint8_t list[44];
    if (geteuid() != 0) return;
    CHECK(mkdir("folder", 0777) == 0 && chmod("folder", 0777) == 0);
    for (size_t i = 0; i < 5; i++) {
        CHECK(kind->save("folder/made", &filter, true) == FASTBLOOM_OK);
        CHECK(chown("folder/made", 0, 4321) == 0 && chmod("folder/made", modes[i % 4][0]) == 0);
        if (i == 4) {
            list_of(4, list);
            if (setxattr("folder/made", "system.posix_acl_access", list, sizeof list, 0) != 0)
                break;
        }
        int why = saved_by_another("folder/made");
        if (why < 0) break;
        CHECK(why == 0 && mode_of("folder/made") == (i == 4 ? 0600 : modes[i][1]));
        struct stat about;
        CHECK(stat("folder/made", &about) == 0 && about.st_gid == 1235);
    }
    CHECK(unlink("folder/made") == 0 && rmdir("folder") == 0);
}

/* A name as long as the system allows is read and written. */
static void long_names(void) {
    char name[257];
    fastbloom_filter read;
    memset(name, 'n', sizeof name);
    for (size_t size = 230; size <= 256; size++) {
        name[size] = 0;
        bool fits = size <= 255;
        uint8_t code = kind->save(name, &filter, true);
        CHECK(fits ? code == FASTBLOOM_OK : code == FASTBLOOM_OUTPUT && errno == ENAMETOOLONG);
        if (fits) {
            CHECK(kind->load(name, NULL, &read) == FASTBLOOM_OK && is_this(&read));
            fastbloom_unload(&read);
            CHECK(unlink(name) == 0);
        }
        name[size] = 'n';
    }
}

static bool read_one(int file, uint8_t *byte) { return read(file, byte, 1) == 1; }

/* A file that another process has a lease on is read once that one has given the lease up. */
static void give_up(int signal) {
    (void)signal;
    _exit(0);
}

static void lease(void) {
    fastbloom_filter read;
    int ready[2];
    uint8_t has_lease = 0;
    CHECK(kind->save("leased", &filter, true) == FASTBLOOM_OK && pipe(ready) == 0);
    pid_t child = fork();
    CHECK(child >= 0);
    if (child == 0) {
        signal(SIGIO, give_up);
        int file = open("leased", O_RDWR);
        has_lease = file >= 0 && fcntl(file, F_SETLEASE, F_WRLCK) == 0;
        if (write(ready[1], &has_lease, 1) != 1 || !has_lease) _exit(1);
        for (;;) pause();
    }
    CHECK(close(ready[1]) == 0);
    if (read_one(ready[0], &has_lease) && has_lease) {
        CHECK(kind->load("leased", NULL, &read) == FASTBLOOM_OK && is_this(&read));
        fastbloom_unload(&read);
    }
    kill(child, SIGKILL);
    CHECK(waitpid(child, NULL, 0) == child && close(ready[0]) == 0 && unlink("leased") == 0);
}

/* Where there is no room the old file stays, and nothing else: in a process of its own. */
static void no_room(void) {
    fastbloom_filter large = filter;
    large.num_words = 1 << 16;
    large.words = calloc(large.num_words, 8);
    CHECK(large.words != NULL && kind->save("old", &filter, true) == FASTBLOOM_OK);
    pid_t child = fork();
    CHECK(child >= 0);
    if (child == 0) {
        struct rlimit room = {4096, 4096};
        signal(SIGXFSZ, SIG_IGN);
        bool well = setrlimit(RLIMIT_FSIZE, &room) == 0 &&
                    kind->save("old", &large, true) == FASTBLOOM_OUTPUT && errno == EFBIG;
        _exit(well ? 0 : 1);
    }
    int status;
    CHECK(waitpid(child, &status, 0) == child && status == 0);
    free(large.words);
    fastbloom_filter read;
    CHECK(kind->load("old", NULL, &read) == FASTBLOOM_OK && is_this(&read));
    fastbloom_unload(&read);
    CHECK(unlink("old") == 0);
}

/* The bytes of a file in hexadecimal digits, and how many. */
static size_t digits(const char *path, uint8_t *bytes, size_t room) {
    size_t size = 0;
    FILE *file = fopen(path, "r");
    CHECK(file != NULL);
    for (unsigned byte; size < room && fscanf(file, "%2x", &byte) == 1;)
        bytes[size++] = (uint8_t)byte;
    fclose(file);
    return size;
}

int main(int argc, char **argv) {
    uint8_t blocked[HEAD + 8 * MOST];
    if (argc != 3) return 2;
    size_t size = digits(argv[2], blocked, sizeof blocked);
    if (size != HEAD + 8 * 8 || chdir(argv[1]) != 0) return 2;
    texts();
    for (size_t i = 0; i < 2; i++) {
        kind = kinds + i;
        filter.num_words = kind->num_words;
        memset(words, 0, sizeof words);
        for (uint64_t hash = 0; hash < 20; hash++)
            kind->insert_hash(words, filter.num_words, 3, 0x9e3779b97f4a7c15u * hash);
        for (int sealed = 0; sealed < 2; sealed++) {
            kept("kept", sealed);
            other_kind("kept", sealed);
        }
        shared("kept");
        faults("kept");
        limits("kept");
        CHECK(unlink("kept") == 0);
        no_files();
        kept_paths();
        streams();
        rights();
        links();
        odd_folders();
        lists();
        other_group();
        long_names();
        lease();
        no_room();
    }
    part_of_a_line("kept");
    worked("kept", blocked, size);
    /* No part of a file is left: the folder can be removed. */
    CHECK(chdir("/") == 0 && rmdir(argv[1]) == 0);
    printf("files %s\n", "well");
    return 0;
}
