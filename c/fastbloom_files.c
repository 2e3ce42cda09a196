/* The calls of the library that are written in C: its version, the texts of its status codes, and
 * filters in files. They are tested and not proved. What a file's head says, and its seal, are read
 * and written by the proved calls.
 *
 * It needs Linux, and glibc 2.28 or another C library that has statx and getrandom. (`stat` of a
 * later glibc asks for that one.) */
#define _GNU_SOURCE
#define FASTBLOOM_NO_WRAPPERS
#include "fastbloom.h"

#include <errno.h>
#include <fcntl.h>
#include <limits.h>
#include <stdio.h>
#include <stdlib.h>
#include <string.h>
#include <sys/mman.h>
#include <sys/random.h>
#include <sys/stat.h>
#include <sys/xattr.h>
#include <time.h>
#include <unistd.h>

enum {
    HEAD = 64,             /* bytes; the words come next */
    NUMBERS = 48,          /* bytes of the head before the layout and the reserved ones */
    LINE = 64,             /* bytes; words that begin at a multiple of them begin a line */
    TRIES = 100,           /* names of a new file that are drawn at most */
    LINKS = 40,            /* links that are followed at most, as Linux does */
    DRAWN = 16,            /* digits of such a name */
    LIST = 4096,           /* bytes of a list of access rights that is copied, at most */
    MOST_AT_ONCE = 1 << 30 /* bytes that are read or written by one call of the system */
};

const char *fastbloom_version(void) { return FASTBLOOM_VERSION; }

const char *fastbloom_strerror(uint8_t code) {
    switch (code) {
    case FASTBLOOM_OK: return "no refusal";
    case FASTBLOOM_ZERO_BITS: return "zero bits";
    case FASTBLOOM_EMPTY_WORDS: return "no words";
    case FASTBLOOM_TOO_MANY_WORDS: return "too many words";
    case FASTBLOOM_ZERO_RATE: return "rate with a zero part";
    case FASTBLOOM_SIZE_OVERFLOW: return "size too large";
    case FASTBLOOM_MEMORY: return "no memory";
    case FASTBLOOM_HASH_COUNT: return "hash count out of range";
    case FASTBLOOM_WORKER: return "no worker";
    case FASTBLOOM_NOT_A_FILTER: return "not a filter";
    case FASTBLOOM_UNKNOWN_VERSION: return "a version of the file that isn't known";
    case FASTBLOOM_CUT: return "the file is cut";
    case FASTBLOOM_TOO_LONG: return "the file goes on after its last word";
    case FASTBLOOM_RESERVED: return "a reserved byte isn't zero";
    case FASTBLOOM_SEAL: return "the seal is wrong: the file was changed";
    case FASTBLOOM_INPUT: return "input failed";
    case FASTBLOOM_PART_OF_A_LINE: return "words that are no whole lines";
    case FASTBLOOM_BLOCKED: return "the file has a blocked filter";
    case FASTBLOOM_NOT_BLOCKED: return "the file's filter isn't blocked";
    case FASTBLOOM_SEALED: return "the file has a seal, which inserts would make wrong";
    case FASTBLOOM_OUTPUT: return "output failed";
    case FASTBLOOM_RATE_TOO_LARGE: return "rate of 1 or above";
    case FASTBLOOM_TOO_MANY_HASHES: return "more hashes than are allowed";
    default: return "an unknown refusal";
    }
}

/* Closes a file, or frees memory, and leaves the number of the last error as it is. */
static void close_quietly(int file) {
    int why = errno;
    close(file);
    errno = why;
}

static void free_quietly(void *memory) {
    int why = errno;
    free(memory);
    errno = why;
}

/* Opens a file. A pipe isn't waited for, but a process that has a lease on a file is. */
static int open_file(const char *path, int flags) {
    struct statx about;
    int file = open(path, flags | O_CLOEXEC | O_NONBLOCK | O_NOCTTY);
    if (file >= 0 || errno != EWOULDBLOCK) return file;
    if (statx(AT_FDCWD, path, 0, STATX_TYPE, &about) != 0 || !S_ISREG(about.stx_mode)) return -1;
    return open(path, flags | O_CLOEXEC | O_NOCTTY);
}

/* Opens a file and tells its size. A folder, a device or a pipe is refused. */
static uint8_t open_to_read(const char *path, int flags, int *file, size_t *size) {
    *file = open_file(path, flags);
    if (*file < 0) return FASTBLOOM_INPUT;
    struct statx about;
    bool is_known = statx(*file, "", AT_EMPTY_PATH, STATX_TYPE | STATX_SIZE, &about) == 0;
    if (is_known && S_ISREG(about.stx_mode)) {
        *size = (size_t)about.stx_size;
        return FASTBLOOM_OK;
    }
    if (is_known) errno = S_ISDIR(about.stx_mode) ? EISDIR : EINVAL;
    close_quietly(*file);
    return FASTBLOOM_INPUT;
}

/* Reads as many bytes as there are, and at most these. */
static bool read_bytes(int file, void *bytes, size_t size, size_t *there) {
    *there = 0;
    while (*there < size) {
        size_t left = size - *there;
        ssize_t got = read(file, (char *)bytes + *there, left < MOST_AT_ONCE ? left : MOST_AT_ONCE);
        if (got == 0) break;
        if (got > 0)
            *there += (size_t)got;
        else if (errno != EINTR)
            return false;
    }
    return true;
}

static bool write_bytes(int file, const void *bytes, size_t size) {
    for (size_t done = 0; done < size;) {
        size_t left = size - done;
        ssize_t put =
            write(file, (const char *)bytes + done, left < MOST_AT_ONCE ? left : MOST_AT_ONCE);
        if (put >= 0)
            done += (size_t)put;
        else if (errno != EINTR)
            return false;
    }
    return true;
}

/* What files of one kind of filters have of their own. */
struct kind {
    uint8_t (*head_read)(const uint8_t head[64], size_t *num_words, uint32_t *num_hashes,
                         uint8_t key[16], uint64_t *seal);
    uint8_t (*head_write)(size_t num_words, uint32_t num_hashes, const uint8_t key[16],
                          uint64_t seal, uint8_t head[64]);
    uint64_t (*seal)(const uint64_t *words, size_t num_words, uint32_t num_hashes,
                     const uint8_t key[16]);
};

static const struct kind whole = {fastbloom_head_read, fastbloom_head_write, fastbloom_seal};
static const struct kind blocked = {fastbloom_blocked_head_read, fastbloom_blocked_head_write,
                                    fastbloom_blocked_seal};

/* Reads the head of a file of this kind and size, of which the first bytes are given, as many as
 * there are and at most 64. It returns the first reason to refuse the file. */
static uint8_t read_head(const struct kind *kind, const uint8_t *bytes, size_t size,
                         const fastbloom_limits *limits, fastbloom_filter *filter, uint64_t *seal) {
    /* A copy of the numbers that are there, with good ones for those that a truncated file lacks.
     * The last bytes, by which the kinds differ, are read after the size. */
    uint8_t head[HEAD] = {[8] = 1, [16] = 1};
    memcpy(head, bytes, size < NUMBERS ? size / 8 * 8 : NUMBERS);
    uint8_t code =
        fastbloom_head_read(head, &filter->num_words, &filter->num_hashes, filter->key, seal);
    if (code != FASTBLOOM_OK) return code;
    if (size < HEAD + 8 * filter->num_words) return FASTBLOOM_CUT;
    if (size > HEAD + 8 * filter->num_words) return FASTBLOOM_TOO_LONG;
    memcpy(head + NUMBERS, bytes + NUMBERS, HEAD - NUMBERS);
    code = kind->head_read(head, &filter->num_words, &filter->num_hashes, filter->key, seal);
    if (code != FASTBLOOM_OK) return code;
    if (filter->num_hashes > limits->max_hashes) return FASTBLOOM_TOO_MANY_HASHES;
    return filter->num_words > limits->max_words ? FASTBLOOM_TOO_MANY_WORDS : FASTBLOOM_OK;
}

/* Whether the seal is 0, or that of these words. */
static uint8_t check_seal(const struct kind *kind, const fastbloom_filter *filter, uint64_t seal) {
    return seal == 0 || seal == kind->seal(filter->words, filter->num_words, filter->num_hashes,
                                           filter->key)
               ? FASTBLOOM_OK
               : FASTBLOOM_SEAL;
}

/* The limits that are given, or those for no limits. */
static const fastbloom_limits *limits_of(const fastbloom_limits *limits) {
    static const fastbloom_limits usual = {SIZE_MAX, FASTBLOOM_USUAL_HASHES};
    return limits == NULL ? &usual : limits;
}

/* Memory that begins at a line of the cache, or NULL. */
static void *allocate_lines(size_t bytes) {
    void *memory = NULL;
    return posix_memalign(&memory, LINE, bytes) == 0 ? memory : NULL;
}

/* Reads the words of an open file of this size. */
static uint8_t load_open(const struct kind *kind, int file, size_t size,
                         const fastbloom_limits *limits, fastbloom_filter *filter) {
    uint8_t head[HEAD];
    size_t there;
    uint64_t seal;
    if (!read_bytes(file, head, sizeof head, &there)) return FASTBLOOM_INPUT;
    /* (a file that became shorter since it was opened) */
    if (there < sizeof head) size = there;
    uint8_t code = read_head(kind, head, size, limits, filter, &seal);
    if (code != FASTBLOOM_OK) return code;
    size_t bytes = 8 * filter->num_words;
    filter->words = allocate_lines(bytes);
    if (filter->words == NULL) return FASTBLOOM_MEMORY;
    if (!read_bytes(file, filter->words, bytes, &there))
        code = FASTBLOOM_INPUT;
    else
        code = there < bytes ? FASTBLOOM_CUT : check_seal(kind, filter, seal);
    if (code != FASTBLOOM_OK) free_quietly(filter->words);
    return code;
}

static uint8_t load(const struct kind *kind, const char *path, const fastbloom_limits *limits,
                    fastbloom_filter *filter) {
    fastbloom_filter read = {.words = NULL};
    int file;
    size_t size;
    *filter = read;
    uint8_t code = open_to_read(path, O_RDONLY, &file, &size);
    if (code != FASTBLOOM_OK) return code;
    code = load_open(kind, file, size, limits_of(limits), &read);
    close_quietly(file);
    if (code == FASTBLOOM_OK) *filter = read;
    return code;
}

uint8_t fastbloom_load(const char *path, const fastbloom_limits *limits, fastbloom_filter *filter) {
    return load(&whole, path, limits, filter);
}

uint8_t fastbloom_blocked_load(const char *path, const fastbloom_limits *limits,
                               fastbloom_filter *filter) {
    return load(&blocked, path, limits, filter);
}

void fastbloom_unload(fastbloom_filter *filter) {
    free(filter->words);
    memset(filter, 0, sizeof *filter);
}

/* Maps an open file of this size. */
static uint8_t map_open(const struct kind *kind, int file, size_t size,
                        enum fastbloom_map_mode mode, const fastbloom_limits *limits,
                        fastbloom_filter *filter) {
    /* A file of no bytes has no mapping. */
    if (size == 0) return FASTBLOOM_NOT_A_FILTER;
    int rights = mode == FASTBLOOM_MAP_READ ? PROT_READ : PROT_READ | PROT_WRITE;
    int sharing = mode == FASTBLOOM_MAP_COPY ? MAP_PRIVATE : MAP_SHARED;
    uint8_t *bytes = mmap(NULL, size, rights, sharing, file, 0);
    if (bytes == MAP_FAILED) return errno == ENOMEM ? FASTBLOOM_MEMORY : FASTBLOOM_INPUT;
    uint64_t seal;
    uint8_t code = read_head(kind, bytes, size, limits, filter, &seal);
    filter->words = (uint64_t *)(bytes + HEAD);
    if (code == FASTBLOOM_OK) {
        if (mode == FASTBLOOM_MAP_SHARE)
            code = seal == 0 ? FASTBLOOM_OK : FASTBLOOM_SEALED;
        else
            code = check_seal(kind, filter, seal);
    }
    if (code != FASTBLOOM_OK) munmap(bytes, size);
    return code;
}

static uint8_t map(const struct kind *kind, const char *path, enum fastbloom_map_mode mode,
                   const fastbloom_limits *limits, fastbloom_filter *filter) {
    fastbloom_filter mapped = {.words = NULL};
    int file;
    size_t size;
    *filter = mapped;
    uint8_t code =
        open_to_read(path, mode == FASTBLOOM_MAP_SHARE ? O_RDWR : O_RDONLY, &file, &size);
    if (code != FASTBLOOM_OK) return code;
    code = map_open(kind, file, size, mode, limits_of(limits), &mapped);
    close_quietly(file);
    if (code == FASTBLOOM_OK) *filter = mapped;
    return code;
}

uint8_t fastbloom_map(const char *path, enum fastbloom_map_mode mode,
                      const fastbloom_limits *limits, fastbloom_filter *filter) {
    return map(&whole, path, mode, limits, filter);
}

uint8_t fastbloom_blocked_map(const char *path, enum fastbloom_map_mode mode,
                              const fastbloom_limits *limits, fastbloom_filter *filter) {
    return map(&blocked, path, mode, limits, filter);
}

void fastbloom_unmap(fastbloom_filter *filter) {
    if (filter->words != NULL)
        munmap((uint8_t *)filter->words - HEAD, HEAD + 8 * filter->num_words);
    memset(filter, 0, sizeof *filter);
}

/* A number that no other call draws, as far as the system has such. */
static uint64_t draw(void) {
    uint64_t number;
    if (getrandom(&number, sizeof number, GRND_NONBLOCK) == (ssize_t)sizeof number) return number;
    struct timespec now;
    clock_gettime(CLOCK_REALTIME, &now);
    return ((uint64_t)now.tv_sec << 30 ^ (uint64_t)now.tv_nsec) + ((uint64_t)getpid() << 40);
}

/* How many bytes of a path its folder has, with the last slash. */
static size_t size_of_folder(const char *path) {
    const char *slash = strrchr(path, '/');
    return slash == NULL ? 0 : (size_t)(slash + 1 - path);
}

/* How many bytes of a path the name of a new file beside it begins with: all, unless the last part
 * of the path is so long that no name has room for more. */
static int size_of_stem(const char *path) {
    size_t folder = size_of_folder(path);
    size_t name = strlen(path + folder), most = NAME_MAX - (sizeof "..part" - 1 + DRAWN);
    return (int)(folder + (name < most ? name : most));
}

/* Opens a new file beside the one at the path, and writes its name. A link of that name isn't
 * followed. Until it has the rights of the old file, no other user may read it. */
static int open_part(const char *path, char *part, size_t room, bool replaces) {
    int stem = size_of_stem(path);
    for (int tries = 0; tries < TRIES; tries++) {
        snprintf(part, room, "%.*s.%016llx.part", stem, path, (unsigned long long)draw());
        int file = open(part, O_WRONLY | O_CREAT | O_EXCL | O_CLOEXEC | O_NOFOLLOW,
                        replaces ? 0600 : 0666);
        if (file >= 0 || errno != EEXIST) return file;
    }
    return -1;
}

/* The list of access rights of a file, as Linux names and keeps it. Where there is one, the group's
 * bits of the mode aren't the rights of the group: they bound those that the list gives. */
static const char access_list[] = "system.posix_acl_access";

/* Whether the last call on a list failed because there is none. */
static bool has_no_list(void) { return errno == ENODATA || errno == EOPNOTSUPP; }

/* Gives a file the owner, group, and list of access rights or mode of the one at the path, as far as
 * this is allowed. Where it isn't, nobody gets more: of a list that can't be copied only the owner's
 * bits are kept, and what a group that can't be kept has no right to do, others haven't either. */
static bool give_rights(int file, const char *path, const struct statx *old) {
    uint8_t list[LIST];
    mode_t mode = old->stx_mode & 0777;
    bool has_group =
        fchown(file, old->stx_uid, old->stx_gid) == 0 || fchown(file, (uid_t)-1, old->stx_gid) == 0;
    ssize_t size = getxattr(path, access_list, list, sizeof list);
    if (size < 0 && has_no_list()) {
        if (!has_group) mode &= 0700 | (mode >> 3 & 7);
    } else {
        if (size >= 0 && has_group && fsetxattr(file, access_list, list, (size_t)size, 0) == 0)
            return true;
        mode &= 0700;
    }
    /* (a list that the folder gave the new file) */
    if (fremovexattr(file, access_list) != 0 && !has_no_list()) mode &= 0700;
    return fchmod(file, mode) == 0;
}

/* Flushes the folder of a file, to which the path is shortened. So the file's new name outlasts a
 * loss of power. A folder that may not be read can't be opened for it, and then all of the file's
 * system of files is flushed. */
static bool flush_folder(char *path, int file) {
    char *slash = strrchr(path, '/');
    if (slash != NULL) slash[slash == path ? 1 : 0] = '\0';
    int folder = open(slash == NULL ? "." : path, O_RDONLY | O_DIRECTORY | O_CLOEXEC);
    if (folder < 0) return errno == EACCES && syncfs(file) == 0;
    /* (some systems of files have no such call, and need none) */
    bool flushed = fsync(folder) == 0 || errno == EINVAL;
    close_quietly(folder);
    return flushed;
}

/* Writes a new file whole, with the rights of the old one where there is one, and flushes it. */
static bool write_part(int file, const uint8_t head[HEAD], const fastbloom_filter *filter,
                       const char *path, const struct statx *old) {
    return write_bytes(file, head, HEAD) &&
           write_bytes(file, filter->words, 8 * filter->num_words) &&
           (old == NULL || give_rights(file, path, old)) && fsync(file) == 0;
}

/* Gives a new file that is whole the name of the old one, and else removes it. */
static bool put_in_place(char *part, int file, const char *path, bool is_whole) {
    if (is_whole && rename(part, path) == 0) return flush_folder(part, file);
    int why = errno;
    unlink(part);
    errno = why;
    return false;
}

/* Writes the head of a filter's file. The words are read for the seal only where their number isn't
 * refused. */
static uint8_t write_head(const struct kind *kind, const fastbloom_filter *filter, bool sealed,
                          uint8_t head[HEAD]) {
    uint8_t code = kind->head_write(filter->num_words, filter->num_hashes, filter->key, 0, head);
    if (code != FASTBLOOM_OK || !sealed) return code;
    uint64_t seal = kind->seal(filter->words, filter->num_words, filter->num_hashes, filter->key);
    return kind->head_write(filter->num_words, filter->num_hashes, filter->key, seal, head);
}

/* Where a file goes: a path with no link at its end, or an open stream. */
struct target {
    char path[PATH_MAX];
    bool is_there, is_stream;
    int stream;
    struct statx about;
};

/* Whether a folder is the one that has the descriptors of this process. */
static bool has_descriptors(const char *folder) {
    char found[PATH_MAX], own[PATH_MAX];
    return realpath("/proc/self/fd", own) != NULL && realpath(folder, found) != NULL &&
           strcmp(found, own) == 0;
}

/* Whether a link may be followed. In a folder where everybody may make files, as /tmp, it is to be
 * the user's or the folder owner's: another one may lead anywhere. So Linux may have it, too. */
static bool may_follow(const struct statx *link, const char *folder) {
    struct statx about;
    if (statx(AT_FDCWD, folder, 0, STATX_MODE | STATX_UID, &about) != 0) return false;
    const mode_t everybody = S_ISVTX | S_IWOTH;
    if ((about.stx_mode & everybody) != everybody || link->stx_uid == geteuid() ||
        link->stx_uid == about.stx_uid)
        return true;
    errno = EACCES;
    return false;
}

/* Reads the link at a path in this folder: no text where there is none. */
static bool read_link(const char *path, const char *folder, char text[PATH_MAX]) {
    struct statx about;
    ssize_t size = 0;
    text[0] = '\0';
    int link = open(path, O_PATH | O_NOFOLLOW | O_CLOEXEC);
    if (link < 0) return errno == ENOENT;
    bool is_well = statx(link, "", AT_EMPTY_PATH, STATX_TYPE | STATX_UID, &about) == 0;
    if (is_well && S_ISLNK(about.stx_mode)) {
        is_well = may_follow(&about, folder);
        if (is_well) size = readlinkat(link, "", text, PATH_MAX - 1);
    }
    close_quietly(link);
    text[size > 0 ? size : 0] = '\0';
    return is_well && size >= 0;
}

/* Follows the links at the end of a path. A descriptor of this process is a stream. */
static bool follow(struct target *to) {
    char folder[PATH_MAX], text[PATH_MAX];
    for (int links = 0; links < LINKS; links++) {
        size_t size = size_of_folder(to->path);
        snprintf(folder, sizeof folder, "%.*s", size == 0 ? 1 : (int)size,
                 size == 0 ? "." : to->path);
        if (!read_link(to->path, folder, text)) return false;
        if (text[0] == '\0') return true;
        if (has_descriptors(folder)) {
            to->is_stream = true;
            to->stream = fcntl(atoi(to->path + size), F_DUPFD_CLOEXEC, 0);
            return to->stream >= 0;
        }
        if (text[0] == '/') size = 0;
        if (size + strlen(text) >= PATH_MAX) {
            errno = ENAMETOOLONG;
            return false;
        }
        strcpy(to->path + size, text);
    }
    errno = ELOOP;
    return false;
}

/* Finds out where a file of this path goes. It opens a device, a pipe or a socket, and refuses a
 * folder. */
static bool find_target(const char *path, struct target *to) {
    if (strlen(path) >= PATH_MAX) {
        errno = ENAMETOOLONG;
        return false;
    }
    strcpy(to->path, path);
    to->is_stream = false;
    if (!follow(to)) return false;
    if (to->is_stream) return true;
    to->is_there = statx(AT_FDCWD, to->path, AT_SYMLINK_NOFOLLOW,
                         STATX_TYPE | STATX_MODE | STATX_UID | STATX_GID, &to->about) == 0;
    if (!to->is_there) return errno == ENOENT;
    if (S_ISREG(to->about.stx_mode)) return true;
    to->is_stream = true;
    to->stream = open(to->path, O_WRONLY | O_NOFOLLOW | O_CLOEXEC | O_NOCTTY);
    return to->stream >= 0;
}

/* Writes a file to a stream, and closes it. */
static bool write_stream(int stream, const uint8_t head[HEAD], const fastbloom_filter *filter) {
    bool is_whole = write_bytes(stream, head, HEAD) &&
                    write_bytes(stream, filter->words, 8 * filter->num_words);
    if (is_whole) return close(stream) == 0;
    close_quietly(stream);
    return false;
}

static uint8_t save(const struct kind *kind, const char *path, const fastbloom_filter *filter,
                    bool sealed) {
    uint8_t head[HEAD];
    uint8_t code = write_head(kind, filter, sealed, head);
    if (code != FASTBLOOM_OK) return code;
    struct target to;
    if (!find_target(path, &to)) return FASTBLOOM_OUTPUT;
    if (to.is_stream)
        return write_stream(to.stream, head, filter) ? FASTBLOOM_OK : FASTBLOOM_OUTPUT;
    size_t room = strlen(to.path) + sizeof "..part" + DRAWN;
    char *part = malloc(room);
    if (part == NULL) return FASTBLOOM_MEMORY;
    int file = open_part(to.path, part, room, to.is_there);
    bool saved = file >= 0;
    if (saved) {
        bool is_whole = write_part(file, head, filter, to.path, to.is_there ? &to.about : NULL);
        saved = put_in_place(part, file, to.path, is_whole);
        close_quietly(file); /* what was flushed is safe */
    }
    free_quietly(part);
    return saved ? FASTBLOOM_OK : FASTBLOOM_OUTPUT;
}

uint8_t fastbloom_save(const char *path, const fastbloom_filter *filter, bool sealed) {
    return save(&whole, path, filter, sealed);
}

uint8_t fastbloom_blocked_save(const char *path, const fastbloom_filter *filter, bool sealed) {
    return save(&blocked, path, filter, sealed);
}
