/* What an insert by hash costs: `bench [KEYS [HASHES [ROUNDS]]]`, into ten bits a key.
 *
 * It prints how many inserts returned true and the nanoseconds of one, and then what a hash costs
 * where 1,000 are inserted at once: of all rounds the best, each into a filter with no bit set. The
 * lines behind are of the calls for a filter that threads share, by one thread: an insert, one of
 * 1,000 that are inserted at once, and a look-up that finds its hash, alone and among 1,000 at
 * once, beside those of the plain filter. The loops and hashes are those of the bench in Rattle. */
#define _POSIX_C_SOURCE 199309L
#include "fastbloom.h"

#include <inttypes.h>
#include <stdio.h>
#include <stdlib.h>
#include <time.h>

struct filter {
    uint64_t *words;
    size_t num_words;
    uint32_t num_hashes;
};

/* The hash of a key, spread evenly: the finish of splitmix64. */
static inline uint64_t hash_of(uint64_t key) {
    uint64_t word = key + 0x9e3779b97f4a7c15u;
    word = (word ^ (word >> 30)) * 0xbf58476d1ce4e5b9u;
    word = (word ^ (word >> 27)) * 0x94d049bb133111ebu;
    return word ^ (word >> 31);
}

static double now(void) {
    struct timespec time;
    clock_gettime(CLOCK_MONOTONIC, &time);
    return (double)time.tv_sec * 1e9 + (double)time.tv_nsec;
}

static double smaller(double one, double other) { return one < other ? one : other; }

/* Inserts the keys one a call, and returns how many inserts returned true. */
static uint64_t insert_one_a_call(struct filter filter, uint64_t keys) {
    uint64_t answers = 0;
    for (uint64_t key = 0; key < keys; key++)
        answers +=
            fastbloom_insert_hash(filter.words, filter.num_words, filter.num_hashes, hash_of(key));
    return answers;
}

/* Inserts the keys, 1,000 a call. */
static void insert_at_once(struct filter filter, uint64_t keys) {
    uint64_t hashes[1000];
    for (uint64_t key = 0; key < keys;) {
        size_t count = 0;
        for (; count < 1000 && key < keys; key++) hashes[count++] = hash_of(key);
        fastbloom_insert_hashes(filter.words, filter.num_words, filter.num_hashes, hashes, count);
    }
}

/* The same by the calls for a filter that threads share. */
static uint64_t insert_shared(struct filter filter, uint64_t keys) {
    fastbloom_shared words = {filter.words, filter.num_words};
    uint64_t answers = 0;
    for (uint64_t key = 0; key < keys; key++)
        answers += fastbloom_shared_insert_hash(words, filter.num_hashes, hash_of(key));
    return answers;
}

static uint64_t insert_shared_at_once(struct filter filter, uint64_t keys) {
    fastbloom_shared words = {filter.words, filter.num_words};
    uint64_t hashes[1000], done = 0;
    for (uint64_t key = 0; key < keys;) {
        size_t count = 0;
        for (; count < 1000 && key < keys; key++) hashes[count++] = hash_of(key);
        done += fastbloom_shared_insert_hashes(words, filter.num_hashes, hashes, count);
    }
    return done;
}

/* Looks the keys up, each of which was inserted, and returns how many are found. */
static uint64_t find_plain(struct filter filter, uint64_t keys) {
    uint64_t found = 0;
    for (uint64_t key = 0; key < keys; key++)
        found += fastbloom_contains_hash(filter.words, filter.num_words, filter.num_hashes,
                                         hash_of(key));
    return found;
}

static uint64_t find_shared(struct filter filter, uint64_t keys) {
    fastbloom_shared words = {filter.words, filter.num_words};
    uint64_t found = 0;
    for (uint64_t key = 0; key < keys; key++)
        found += fastbloom_shared_contains_hash(words, filter.num_hashes, hash_of(key));
    return found;
}

/* The same, 1,000 a call. */
static uint64_t find_at_once(struct filter filter, uint64_t keys) {
    uint64_t hashes[1000], bits[16], found = 0;
    for (uint64_t key = 0; key < keys;) {
        size_t count = 0;
        for (; count < 1000 && key < keys; key++) hashes[count++] = hash_of(key);
        found += fastbloom_contains_hashes(filter.words, filter.num_words, filter.num_hashes,
                                           hashes, count, bits, 16);
    }
    return found;
}

static uint64_t find_shared_at_once(struct filter filter, uint64_t keys) {
    fastbloom_shared words = {filter.words, filter.num_words};
    uint64_t hashes[1000], bits[16], found = 0;
    for (uint64_t key = 0; key < keys;) {
        size_t count = 0;
        for (; count < 1000 && key < keys; key++) hashes[count++] = hash_of(key);
        found +=
            fastbloom_shared_contains_hashes(words, filter.num_hashes, hashes, count, bits, 16);
    }
    return found;
}

/* Prints the nanoseconds of a key, of all rounds the best, and what the last round returned. */
static void measure(const char *name, uint64_t (*call)(struct filter, uint64_t),
                    struct filter filter, uint64_t keys, uint64_t rounds, bool clears) {
    uint64_t answers = 0;
    double best = 1e300;
    for (uint64_t round = 0; round < rounds; round++) {
        if (clears) fastbloom_clear(filter.words, filter.num_words);
        double began = now();
        answers = call(filter, keys);
        best = smaller(best, now() - began);
    }
    printf("%s %.3f, %" PRIu64 " true\n", name, best / (double)keys, answers);
}

int main(int argc, char **argv) {
    uint64_t keys = argc > 1 ? strtoull(argv[1], NULL, 10) : 10000000;
    uint32_t num_hashes = argc > 2 ? (uint32_t)strtoul(argv[2], NULL, 10) : 7;
    uint64_t rounds = argc > 3 ? strtoull(argv[3], NULL, 10) : 3;
    size_t num_words = (size_t)((keys * 10 + 63) / 64);
    struct filter filter = {calloc(num_words, sizeof(uint64_t)), num_words, num_hashes};
    if (filter.words == NULL || keys == 0 || rounds == 0) return 1;
    for (size_t i = 0; i < num_words; i++) filter.words[i] = 0;
    uint64_t answers = 0;
    double one_a_call = 1e300, at_once = 1e300;
    for (uint64_t round = 0; round < rounds; round++) {
        fastbloom_clear(filter.words, num_words);
        double began = now();
        answers = insert_one_a_call(filter, keys);
        one_a_call = smaller(one_a_call, now() - began);
    }
    for (uint64_t round = 0; round < rounds; round++) {
        fastbloom_clear(filter.words, num_words);
        double began = now();
        insert_at_once(filter, keys);
        at_once = smaller(at_once, now() - began);
    }
    printf("%" PRIu64 " %.3f\n", answers, one_a_call / (double)keys);
    printf("at once %.3f\n", at_once / (double)keys);
    measure("shared insert", insert_shared, filter, keys, rounds, true);
    measure("shared, at once", insert_shared_at_once, filter, keys, rounds, true);
    measure("hit", find_plain, filter, keys, rounds, false);
    measure("shared hit", find_shared, filter, keys, rounds, false);
    measure("hit, at once", find_at_once, filter, keys, rounds, false);
    measure("shared hit, at once", find_shared_at_once, filter, keys, rounds, false);
    free(filter.words);
    return 0;
}
