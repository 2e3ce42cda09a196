/* What inserts and look-ups by hash cost in a classic and a blocked filter: `hashes [KEYS [ROUNDS
 * [WORD]]]`, those whose library has the word in its name.
 *
 * Both have ten bits a key and seven hashes, and get the same hashes: the finish of splitmix64 of
 * the numbers from 0 on. Each round inserts all keys into an empty filter, looks each of them up
 * (hit), and then as many others (miss), one by one and many at once; then threads insert all keys
 * into an empty filter that they share. A row tells the nanoseconds of one call, of all rounds the
 * best, and how many calls returned true: those of `miss` are false positives. Hashes are made in
 * blocks, which isn't timed. The words are in huge pages, as fastbloom.h advises, unless SMALL_PAGES
 * is set. */
#define _GNU_SOURCE
#include "fastbloom.h"

#include <inttypes.h>
#include <pthread.h>
#include <stdio.h>
#include <stdlib.h>
#include <string.h>
#include <sys/mman.h>
#include <time.h>

enum { BLOCK = 1024, HASHES = 7, PAGE = 1 << 21, MOST_THREADS = 4 };

struct filter {
    uint64_t *words;
    size_t num_words;
};

/* Makes the calls of a block of hashes, and returns how many returned true. */
typedef uint64_t calls(struct filter filter, const uint64_t *hashes, size_t count);

struct row {
    const char *library, *call;
    calls *make;
    uint64_t first; /* in keys: 0, or 1 for others than those that were inserted */
    size_t threads; /* 0 where the call isn't one of threads */
    double best;
    uint64_t found;
};

static uint64_t insert(struct filter filter, const uint64_t *hashes, size_t count) {
    uint64_t found = 0;
    for (size_t i = 0; i < count; i++)
        found += fastbloom_insert_hash(filter.words, filter.num_words, HASHES, hashes[i]);
    return found;
}

static uint64_t look_up(struct filter filter, const uint64_t *hashes, size_t count) {
    uint64_t found = 0;
    for (size_t i = 0; i < count; i++)
        found += fastbloom_contains_hash(filter.words, filter.num_words, HASHES, hashes[i]);
    return found;
}

static uint64_t insert_in_line(struct filter filter, const uint64_t *hashes, size_t count) {
    uint64_t found = 0;
    for (size_t i = 0; i < count; i++)
        found += fastbloom_blocked_insert_hash(filter.words, filter.num_words, HASHES, hashes[i]);
    return found;
}

static uint64_t look_up_in_line(struct filter filter, const uint64_t *hashes, size_t count) {
    uint64_t found = 0;
    for (size_t i = 0; i < count; i++)
        found += fastbloom_blocked_contains_hash(filter.words, filter.num_words, HASHES, hashes[i]);
    return found;
}

static uint64_t count_bits(const uint64_t *bits, size_t count) {
    uint64_t found = 0;
    for (size_t i = 0; i < (count + 63) / 64; i++) found += (uint64_t)__builtin_popcountll(bits[i]);
    return found;
}

static uint64_t insert_many(struct filter filter, const uint64_t *hashes, size_t count) {
    fastbloom_insert_hashes(filter.words, filter.num_words, HASHES, hashes, count);
    return 0;
}

static uint64_t look_up_many(struct filter filter, const uint64_t *hashes, size_t count) {
    uint64_t bits[BLOCK / 64];
    if (!fastbloom_contains_hashes(filter.words, filter.num_words, HASHES, hashes, count, bits,
                                   (count + 63) / 64))
        abort();
    return count_bits(bits, count);
}

static uint64_t insert_many_in_lines(struct filter filter, const uint64_t *hashes, size_t count) {
    fastbloom_blocked_insert_hashes(filter.words, filter.num_words, HASHES, hashes, count);
    return 0;
}

static uint64_t look_up_many_in_lines(struct filter filter, const uint64_t *hashes, size_t count) {
    uint64_t bits[BLOCK / 64];
    if (!fastbloom_blocked_contains_hashes(filter.words, filter.num_words, HASHES, hashes, count,
                                           bits, (count + 63) / 64))
        abort();
    return count_bits(bits, count);
}

static uint64_t share_many(struct filter filter, const uint64_t *hashes, size_t count) {
    fastbloom_shared words = {filter.words, filter.num_words};
    fastbloom_shared_insert_hashes(words, HASHES, hashes, count);
    return 0;
}

static uint64_t share_many_in_lines(struct filter filter, const uint64_t *hashes, size_t count) {
    fastbloom_shared words = {filter.words, filter.num_words};
    fastbloom_blocked_shared_insert_hashes(words, HASHES, hashes, count);
    return 0;
}

static inline uint64_t spread(uint64_t number) {
    uint64_t word = number + 0x9e3779b97f4a7c15u;
    word = (word ^ (word >> 30)) * 0xbf58476d1ce4e5b9u;
    word = (word ^ (word >> 27)) * 0x94d049bb133111ebu;
    return word ^ (word >> 31);
}

static double now(void) {
    struct timespec time;
    clock_gettime(CLOCK_MONOTONIC, &time);
    return (double)time.tv_sec * 1e9 + (double)time.tv_nsec;
}

/* Makes the calls of this many keys from the first on, and returns the nanoseconds of the calls. */
static double measure(calls *make, struct filter filter, uint64_t first, uint64_t keys,
                      uint64_t *found) {
    uint64_t block[BLOCK];
    double spent = 0;
    *found = 0;
    for (uint64_t at = 0; at < keys;) {
        size_t count = 0;
        for (; count < BLOCK && at < keys; at++) block[count++] = spread(first + at);
        double began = now();
        *found += make(filter, block, count);
        spent += now() - began;
    }
    return spent;
}

static void keep(struct row *row, double spent, uint64_t found) {
    if (row->best == 0 || spent < row->best) row->best = spent;
    row->found = found;
}

struct part {
    calls *make;
    struct filter filter;
    uint64_t first, keys;
    double spent;
};

static void *do_part(void *of) {
    struct part *part = of;
    uint64_t found;
    part->spent = measure(part->make, part->filter, part->first, part->keys, &found);
    return NULL;
}

/* All keys by threads at once, each a part of its own: the time of the slowest one's calls. */
static double measure_threads(calls *make, struct filter filter, uint64_t keys, size_t threads) {
    struct part parts[MOST_THREADS];
    pthread_t ids[MOST_THREADS];
    double spent = 0;
    for (size_t i = 0; i < threads; i++) {
        parts[i] = (struct part){make, filter, keys / threads * i, keys / threads, 0};
        if (pthread_create(&ids[i], NULL, do_part, &parts[i]) != 0) exit(1);
    }
    for (size_t i = 0; i < threads; i++) {
        pthread_join(ids[i], NULL);
        if (parts[i].spent > spent) spent = parts[i].spent;
    }
    return spent;
}

static uint64_t *make_words(size_t num_words) {
    size_t bytes = (num_words * 8 + PAGE - 1) / PAGE * PAGE;
    uint64_t *words = aligned_alloc(PAGE, bytes);
    if (words == NULL) exit(1);
    if (getenv("SMALL_PAGES") == NULL) madvise(words, bytes, MADV_HUGEPAGE);
    memset(words, 0, bytes);
    return words;
}

int main(int argc, char **argv) {
    uint64_t keys = argc > 1 ? strtoull(argv[1], NULL, 10) : 1000000;
    uint64_t rounds = argc > 2 ? strtoull(argv[2], NULL, 10) : 3;
    const char *word = argc > 3 ? argv[3] : "";
    struct row rows[] = {
        {"classic", "insert", insert, 0, 0, 0, 0},
        {"classic", "hit", look_up, 0, 0, 0, 0},
        {"classic", "miss", look_up, 1, 0, 0, 0},
        {"classic-many", "insert", insert_many, 0, 0, 0, 0},
        {"classic-many", "hit", look_up_many, 0, 0, 0, 0},
        {"classic-many", "miss", look_up_many, 1, 0, 0, 0},
        {"blocked", "insert", insert_in_line, 0, 0, 0, 0},
        {"blocked", "hit", look_up_in_line, 0, 0, 0, 0},
        {"blocked", "miss", look_up_in_line, 1, 0, 0, 0},
        {"blocked-many", "insert", insert_many_in_lines, 0, 0, 0, 0},
        {"blocked-many", "hit", look_up_many_in_lines, 0, 0, 0, 0},
        {"blocked-many", "miss", look_up_many_in_lines, 1, 0, 0, 0},
        {"classic-shared", "by-1", share_many, 0, 1, 0, 0},
        {"classic-shared", "by-2", share_many, 0, 2, 0, 0},
        {"classic-shared", "by-4", share_many, 0, 4, 0, 0},
        {"blocked-shared", "by-1", share_many_in_lines, 0, 1, 0, 0},
        {"blocked-shared", "by-2", share_many_in_lines, 0, 2, 0, 0},
        {"blocked-shared", "by-4", share_many_in_lines, 0, 4, 0, 0},
    };
    if (keys == 0 || rounds == 0) return 2;
    struct filter filter = {NULL, (keys * 10 + 511) / 512 * 8};
    filter.words = make_words(filter.num_words);
    for (uint64_t round = 0; round < rounds; round++)
        for (size_t i = 0; i < sizeof rows / sizeof rows[0]; i++) {
            struct row *row = &rows[i];
            uint64_t found = 0;
            if (strstr(row->library, word) == NULL) continue;
            if (strcmp(row->call, "insert") == 0 || row->threads != 0)
                memset(filter.words, 0, filter.num_words * 8);
            double spent = row->threads != 0
                               ? measure_threads(row->make, filter, keys, row->threads)
                               : measure(row->make, filter, keys * row->first, keys, &found);
            keep(row, spent, found);
        }
    printf("%-14s %-6s %9s %11s %9s\n", "library", "call", "keys", "nanoseconds", "true");
    bool all_found = true;
    for (size_t i = 0; i < sizeof rows / sizeof rows[0]; i++) {
        if (strstr(rows[i].library, word) == NULL) continue;
        printf("%-14s %-6s %9" PRIu64 " %11.2f %9" PRIu64 "\n", rows[i].library, rows[i].call, keys,
               rows[i].best / (double)keys, rows[i].found);
        if (strcmp(rows[i].call, "hit") == 0 && rows[i].found != keys) all_found = false;
    }
    free(filter.words);
    return all_found ? 0 : 1;
}
