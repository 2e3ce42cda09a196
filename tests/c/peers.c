/* What inserts and look-ups cost beside the library libbloom: `peers [KEYS [ROUNDS]]`.
 *
 * Each library has a filter for this many keys at the rate 1/1000, and both get the same keys of 16
 * bytes. Each round inserts all keys into an empty filter, looks each of them up (hit), and then as
 * many others (miss). A row tells the nanoseconds of one call, of all rounds the best, and how many
 * calls returned true: those of `miss` are false positives. Keys are made in blocks, which isn't
 * timed. It compiles where <bloom.h> is there. */
#define _POSIX_C_SOURCE 199309L
#include "fastbloom.h"

#include <bloom.h>
#include <inttypes.h>
#include <stdio.h>
#include <stdlib.h>
#include <string.h>
#include <time.h>

enum { BLOCK = 1000, INSERT = 0, HIT = 1, MISS = 2, CALLS = 3 };

struct key {
    uint8_t bytes[16];
};

struct filter {
    uint64_t *words;
    size_t num_words;
    uint32_t num_hashes;
};

/* Makes the calls of a block of keys, and returns how many returned true. */
typedef uint64_t calls(void *filter, const struct key *keys, size_t count);

struct row {
    double best;
    uint64_t answers;
};

struct library {
    const char *name;
    void *filter;
    uint64_t num_bits;
    uint32_t num_hashes;
    void (*clear)(void *filter);
    calls *insert, *look_up;
    struct row rows[CALLS];
};

static const uint8_t hash_key[16];

static uint64_t insert_by_fastbloom(void *of, const struct key *keys, size_t count) {
    const struct filter *filter = of;
    uint64_t answers = 0;
    for (size_t i = 0; i < count; i++)
        answers += fastbloom_insert(filter->words, filter->num_words, filter->num_hashes, hash_key,
                                    keys[i].bytes, sizeof keys[i].bytes);
    return answers;
}

static uint64_t look_up_by_fastbloom(void *of, const struct key *keys, size_t count) {
    const struct filter *filter = of;
    uint64_t answers = 0;
    for (size_t i = 0; i < count; i++)
        answers += fastbloom_contains(filter->words, filter->num_words, filter->num_hashes,
                                      hash_key, keys[i].bytes, sizeof keys[i].bytes);
    return answers;
}

static void clear_by_fastbloom(void *of) {
    const struct filter *filter = of;
    fastbloom_clear(filter->words, filter->num_words);
}

static uint64_t insert_by_libbloom(void *of, const struct key *keys, size_t count) {
    uint64_t answers = 0;
    for (size_t i = 0; i < count; i++)
        answers += bloom_add(of, keys[i].bytes, (int)sizeof keys[i].bytes) == 1;
    return answers;
}

static uint64_t look_up_by_libbloom(void *of, const struct key *keys, size_t count) {
    uint64_t answers = 0;
    for (size_t i = 0; i < count; i++)
        answers += bloom_check(of, keys[i].bytes, (int)sizeof keys[i].bytes) == 1;
    return answers;
}

static void clear_by_libbloom(void *of) { bloom_reset(of); }

/* A word that is spread evenly: the finish of splitmix64. */
static inline uint64_t spread(uint64_t number) {
    uint64_t word = number + 0x9e3779b97f4a7c15u;
    word = (word ^ (word >> 30)) * 0xbf58476d1ce4e5b9u;
    word = (word ^ (word >> 27)) * 0x94d049bb133111ebu;
    return word ^ (word >> 31);
}

static inline struct key key_of(uint64_t number) {
    uint64_t words[2] = {spread(number), spread(~number)};
    struct key key;
    memcpy(key.bytes, words, sizeof key.bytes);
    return key;
}

static double now(void) {
    struct timespec time;
    clock_gettime(CLOCK_MONOTONIC, &time);
    return (double)time.tv_sec * 1e9 + (double)time.tv_nsec;
}

/* Makes the calls of this many keys from the first on, and keeps the best time in the row. */
static void measure(struct row *row, calls *make, void *filter, uint64_t first, uint64_t keys) {
    struct key block[BLOCK];
    double spent = 0;
    row->answers = 0;
    for (uint64_t at = 0; at < keys;) {
        size_t count = 0;
        for (; count < BLOCK && at < keys; at++) block[count++] = key_of(first + at);
        double began = now();
        row->answers += make(filter, block, count);
        spent += now() - began;
    }
    if (row->best == 0 || spent < row->best) row->best = spent;
}

static void measure_round(struct library *library, uint64_t keys) {
    library->clear(library->filter);
    measure(&library->rows[INSERT], library->insert, library->filter, 0, keys);
    measure(&library->rows[HIT], library->look_up, library->filter, 0, keys);
    measure(&library->rows[MISS], library->look_up, library->filter, keys, keys);
}

static void print_rows(const struct library *library, uint64_t keys) {
    static const char *const names[CALLS] = {"insert", "hit", "miss"};
    for (int i = 0; i < CALLS; i++)
        printf("%-9s %-6s %9" PRIu64 " %10.2f %6" PRIu32 " %11.2f %9" PRIu64 "\n", library->name,
               names[i], keys, (double)library->num_bits / (double)keys, library->num_hashes,
               library->rows[i].best / (double)keys, library->rows[i].answers);
}

/* Measures both in turn, prints the rows, and returns whether each key was found. */
static bool compare(struct library libraries[2], uint64_t keys, uint64_t rounds) {
    for (uint64_t round = 0; round < rounds; round++)
        for (int i = 0; i < 2; i++) measure_round(&libraries[i], keys);
    printf("%-9s %-6s %9s %10s %6s %11s %9s\n", "library", "call", "keys", "bits_a_key", "hashes",
           "nanoseconds", "true");
    for (int i = 0; i < 2; i++) print_rows(&libraries[i], keys);
    return libraries[0].rows[HIT].answers == keys && libraries[1].rows[HIT].answers == keys;
}

int main(int argc, char **argv) {
    uint64_t keys = argc > 1 ? strtoull(argv[1], NULL, 10) : 1000000;
    uint64_t rounds = argc > 2 ? strtoull(argv[2], NULL, 10) : 3;
    struct filter filter = {NULL, 0, 0};
    struct bloom bloom;
    /* (libbloom counts keys and bits in an int, and makes no filter of fewer keys) */
    if (keys < 1000 || keys > 100000000 || rounds == 0) return 2;
    if (fastbloom_plan(1, 1000, (size_t)keys, &filter.num_words, &filter.num_hashes) !=
        FASTBLOOM_OK)
        return 1;
    filter.words = calloc(filter.num_words, sizeof(uint64_t));
    if (filter.words == NULL || bloom_init(&bloom, (int)keys, 0.001) != 0) return 1;
    struct library libraries[2] = {
        {"fastbloom",
         &filter,
         fastbloom_num_bits(filter.num_words),
         filter.num_hashes,
         clear_by_fastbloom,
         insert_by_fastbloom,
         look_up_by_fastbloom,
         {{0, 0}}},
        {"libbloom",
         &bloom,
         (uint64_t)bloom.bits,
         (uint32_t)bloom.hashes,
         clear_by_libbloom,
         insert_by_libbloom,
         look_up_by_libbloom,
         {{0, 0}}},
    };
    bool found = compare(libraries, keys, rounds);
    free(filter.words);
    bloom_free(&bloom);
    return found ? 0 : 1;
}
