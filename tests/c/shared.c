/* Threads that share a filter, in every second round a blocked one: `shared [RUNS [HASHES]]`.
 *
 * In each run eight threads insert the hashes, most of them twice, by one of the calls that insert.
 * Wanted are the words of a plain filter, as many new hashes as bits where each has one position,
 * and each hash that a thread inserted found by it at once. In every fourth run two more threads
 * take the words out all the time: what they took and what is left together are those words. */
#define _POSIX_C_SOURCE 200809L
#include "fastbloom.h"

#include <pthread.h>
#include <stdio.h>
#include <stdlib.h>
#include <string.h>

enum { THREADS = 8, TAKERS = 2, TOGETHER = 1000, NUM_WORDS = 30011 };
enum way { ONE_BY_ONE, TELL_NEW, MANY, TAKEN, WAYS };

static const uint8_t key[16] = {1, 2, 3};
static fastbloom_shared shared;
static uint32_t num_hashes;
static uint64_t num_keys;
static enum way way;
static int is_blocked;
static pthread_barrier_t barrier;
static uint64_t fresh_of[THREADS], missed_of[THREADS];
static uint64_t *taken[TAKERS];
static pthread_mutex_t lock = PTHREAD_MUTEX_INITIALIZER;
static int inserting;
static int wrong;

static void wants(const char *what, uint64_t wanted, uint64_t got) {
    if (wanted == got) return;
    fprintf(stderr, "way %d, %u hashes, blocked %d: %s: %llu, not %llu\n", (int)way,
            (unsigned)num_hashes, is_blocked, what, (unsigned long long)got,
            (unsigned long long)wanted);
    wrong = 1;
}

/* The hash of a key, spread evenly: the finish of splitmix64. */
static uint64_t hash_of(uint64_t number) {
    uint64_t word = number + UINT64_C(0x9e3779b97f4a7c15);
    word = (word ^ (word >> 30)) * UINT64_C(0xbf58476d1ce4e5b9);
    word = (word ^ (word >> 27)) * UINT64_C(0x94d049bb133111eb);
    return word ^ (word >> 31);
}

static uint64_t ones_in(const uint64_t *words, size_t count) {
    uint64_t ones = 0;
    for (size_t i = 0; i < count; i++)
        for (uint64_t word = words[i]; word != 0; word &= word - 1) ones++;
    return ones;
}

/* The calls of either kind of filter. */
static bool insert_one(uint64_t hash) {
    return is_blocked ? fastbloom_blocked_shared_insert_hash(shared, num_hashes, hash)
                      : fastbloom_shared_insert_hash(shared, num_hashes, hash);
}

static bool contains_one(uint64_t hash) {
    return is_blocked ? fastbloom_blocked_shared_contains_hash(shared, num_hashes, hash)
                      : fastbloom_shared_contains_hash(shared, num_hashes, hash);
}

static bool insert_many(const uint64_t *hashes, size_t count) {
    return is_blocked ? fastbloom_blocked_shared_insert_hashes(shared, num_hashes, hashes, count)
                      : fastbloom_shared_insert_hashes(shared, num_hashes, hashes, count);
}

static bool tell_new(const uint64_t *hashes, size_t count, uint64_t *fresh, size_t room) {
    return is_blocked ? fastbloom_blocked_shared_insert_hashes_tell_new(shared, num_hashes, hashes,
                                                                        count, fresh, room)
                      : fastbloom_shared_insert_hashes_tell_new(shared, num_hashes, hashes, count,
                                                                fresh, room);
}

static bool contains_many(const uint64_t *hashes, size_t count, uint64_t *found, size_t room) {
    return is_blocked
               ? fastbloom_blocked_shared_contains_hashes(shared, num_hashes, hashes, count, found,
                                                          room)
               : fastbloom_shared_contains_hashes(shared, num_hashes, hashes, count, found, room);
}

/* Inserts some hashes, and returns how many were new. */
static uint64_t insert_some(const uint64_t *hashes, size_t count) {
    uint64_t fresh[(TOGETHER + 63) / 64], news = 0;
    if (way == TELL_NEW) {
        size_t room = sizeof fresh / sizeof *fresh;
        if (!tell_new(hashes, count, fresh, room)) abort();
        return ones_in(fresh, room);
    }
    if (way == MANY) {
        if (!insert_many(hashes, count)) abort();
        return 0;
    }
    for (size_t i = 0; i < count; i++) news += !insert_one(hashes[i]);
    return news;
}

/* How many of some hashes are not found. */
static uint64_t miss_some(const uint64_t *hashes, size_t count) {
    uint64_t found[(TOGETHER + 63) / 64], each = 0;
    size_t room = sizeof found / sizeof *found;
    if (!contains_many(hashes, count, found, room)) abort();
    for (size_t i = 0; i < count; i++) each += !contains_one(hashes[i]);
    return each + (count - ones_in(found, room));
}

/* Inserts a quarter of the keys, from a first key of this thread's own. So each key comes twice. */
static void *insert_part(void *at) {
    size_t me = (size_t)at;
    uint64_t hashes[TOGETHER], first = num_keys / THREADS * me, count = num_keys / (THREADS / 2);
    pthread_barrier_wait(&barrier);
    for (uint64_t done = 0; done < count;) {
        size_t some = 0;
        for (; some < TOGETHER && done < count; done++)
            hashes[some++] = hash_of((first + done) % num_keys);
        fresh_of[me] += insert_some(hashes, some);
        if (way != TAKEN) missed_of[me] += miss_some(hashes, some);
    }
    return NULL;
}

/* Takes the words out until no thread inserts any more. */
static void *take_all(void *at) {
    uint64_t *mine = taken[(size_t)at], *words = calloc(NUM_WORDS, sizeof *words);
    if (words == NULL) abort();
    pthread_barrier_wait(&barrier);
    for (int more = 1; more;) {
        pthread_mutex_lock(&lock);
        more = inserting;
        pthread_mutex_unlock(&lock);
        if (!fastbloom_shared_take(shared, words, NUM_WORDS)) abort();
        for (size_t i = 0; i < NUM_WORDS; i++) mine[i] |= words[i];
    }
    free(words);
    return NULL;
}

static void run_threads(void) {
    pthread_t threads[THREADS + TAKERS];
    size_t all = way == TAKEN ? THREADS + TAKERS : THREADS;
    memset(fresh_of, 0, sizeof fresh_of);
    memset(missed_of, 0, sizeof missed_of);
    inserting = 1;
    pthread_barrier_init(&barrier, NULL, (unsigned)all);
    for (size_t i = 0; i < all; i++)
        if (pthread_create(&threads[i], NULL, i < THREADS ? insert_part : take_all,
                           (void *)(i < THREADS ? i : i - THREADS)) != 0)
            abort();
    for (size_t i = 0; i < all; i++) {
        if (i == THREADS) {
            pthread_mutex_lock(&lock);
            inserting = 0;
            pthread_mutex_unlock(&lock);
        }
        pthread_join(threads[i], NULL);
    }
    pthread_barrier_destroy(&barrier);
}

/* One run, into words that are zero. */
static void run(const uint64_t *plain, uint64_t *loaded) {
    for (size_t i = 0; i < TAKERS; i++) memset(taken[i], 0, NUM_WORDS * sizeof *taken[i]);
    run_threads();
    uint64_t fresh = 0, missed = 0, ones = ones_in(plain, NUM_WORDS);
    for (size_t i = 0; i < THREADS; i++) fresh += fresh_of[i], missed += missed_of[i];
    wants("hashes that weren't found", 0, missed);
    if (!fastbloom_shared_load(shared, loaded, NUM_WORDS)) abort();
    wants("count_ones", ones_in(loaded, NUM_WORDS), fastbloom_shared_count_ones(shared));
    wants("words loaded", 1, memcmp(loaded, shared.words, NUM_WORDS * sizeof *loaded) == 0);
    if (way == TAKEN)
        for (size_t i = 0; i < TAKERS; i++)
            for (size_t j = 0; j < NUM_WORDS; j++) loaded[j] |= taken[i][j];
    wants("words of the plain filter", 1, fastbloom_equal(loaded, NUM_WORDS, plain, NUM_WORDS));
    if (num_hashes == 1 && (way == ONE_BY_ONE || way == TELL_NEW)) wants("new hashes", ones, fresh);
    if (way == TAKEN && num_hashes == 1) wants("at least as many new hashes", 1, fresh >= ones);
    wants("clear", 1, fastbloom_shared_clear(shared));
    wants("bits after clear", 0, ones_in(shared.words, NUM_WORDS));
}

/* Words that are passed to calls that refuse, and words that such a call may not write. */
enum { ROOM = 16 };
static uint64_t own[ROOM], target[ROOM];

/* A refused call returned this. All words are as they were. */
static void refused(const char *call, uint64_t reply) {
    wants(call, 0, reply);
    for (uint64_t i = 0; i < ROOM; i++) {
        wants(call, hash_of(i), own[i]);
        wants(call, hash_of(ROOM + i), target[i]);
    }
}
#define REFUSED(call) refused(#call, (uint64_t)(call))

/* Each call refuses these words, whatever else it is given. */
static void try_refused_words(fastbloom_shared bad) {
    fastbloom_shared good = {target, ROOM};
    uint64_t low = 1, high = 1;
    size_t least = 1, most = 1;
    REFUSED(fastbloom_shared_rate_now(bad, 3, &low, &high) || low || high);
    REFUSED(fastbloom_shared_estimate(bad, 3, &least, &most) || least || most);
    REFUSED(fastbloom_shared_insert_hash(bad, 3, 5));
    REFUSED(fastbloom_shared_contains_hash(bad, 3, 5));
    REFUSED(fastbloom_shared_insert(bad, 3, key, key, 16));
    REFUSED(fastbloom_shared_contains(bad, 3, key, key, 16));
    REFUSED(fastbloom_shared_insert_hashes(bad, 3, own, ROOM));
    REFUSED(fastbloom_shared_contains_hashes(bad, 3, own, ROOM, target, ROOM));
    REFUSED(fastbloom_shared_insert_hashes_tell_new(bad, 3, own, ROOM, target, ROOM));
    REFUSED(fastbloom_shared_clear(bad));
    REFUSED(fastbloom_shared_union(bad, bad));
    REFUSED(fastbloom_shared_union(bad, good));
    REFUSED(fastbloom_shared_union(good, bad));
    REFUSED(fastbloom_shared_intersect(bad, bad));
    REFUSED(fastbloom_shared_intersect(bad, good));
    REFUSED(fastbloom_shared_intersect(good, bad));
    REFUSED(fastbloom_shared_take(bad, target, ROOM));
    REFUSED(fastbloom_shared_take(bad, target, 0));
    REFUSED(fastbloom_shared_load(bad, target, ROOM));
    REFUSED(fastbloom_shared_load(bad, target, 0));
    REFUSED(fastbloom_shared_count_ones(bad));
}

/* Each call on lines refuses these words. */
static void try_refused_lines(fastbloom_shared bad) {
    uint64_t low = 1, high = 1;
    REFUSED(fastbloom_blocked_shared_rate_now(bad, 3, &low, &high) || low || high);
    REFUSED(fastbloom_blocked_shared_insert_hash(bad, 3, 5));
    REFUSED(fastbloom_blocked_shared_contains_hash(bad, 3, 5));
    REFUSED(fastbloom_blocked_shared_insert(bad, 3, key, key, 16));
    REFUSED(fastbloom_blocked_shared_contains(bad, 3, key, key, 16));
    REFUSED(fastbloom_blocked_shared_insert_hashes(bad, 3, own, ROOM));
    REFUSED(fastbloom_blocked_shared_contains_hashes(bad, 3, own, ROOM, target, ROOM));
    REFUSED(fastbloom_blocked_shared_insert_hashes_tell_new(bad, 3, own, ROOM, target, ROOM));
}

/* A call that refuses does nothing: each refusal of each call. */
static void try_refused(void) {
    const size_t counts[] = {0, (size_t)1 << 58, SIZE_MAX};
    uint64_t hashes[65];
    fastbloom_shared all = {own, ROOM}, fewer = {target, ROOM - 1}, none = {NULL, 0};
    for (uint64_t i = 0; i < ROOM; i++) own[i] = hash_of(i), target[i] = hash_of(ROOM + i);
    for (uint64_t i = 0; i < 65; i++) hashes[i] = hash_of(33 + i);
    /* The first one's first position is clear, so an insert by a call that refuses shows. */
    wants("its first bit", 0, fastbloom_contains_hash(own, ROOM, 1, *hashes));
    wants("its first bit in a line", 0, fastbloom_blocked_contains_hash(own, ROOM, 1, *hashes));
    try_refused_words(none);
    try_refused_lines(none);
    for (size_t i = 0; i < sizeof counts / sizeof *counts; i++) {
        fastbloom_shared bad = {own, counts[i]};
        try_refused_words(bad);
        try_refused_lines(bad);
    }
    for (size_t i = 1; i < 8; i++) {
        fastbloom_shared part = {own, i};
        try_refused_lines(part);
    }
    REFUSED(fastbloom_shared_contains_hashes(all, 3, hashes, 65, target, 1));
    REFUSED(fastbloom_shared_contains_hashes(all, 3, hashes, 1, target, 0));
    REFUSED(fastbloom_shared_insert_hashes_tell_new(all, 3, hashes, 65, target, 1));
    REFUSED(fastbloom_shared_insert_hashes_tell_new(all, 3, hashes, 1, target, 0));
    REFUSED(fastbloom_blocked_shared_contains_hashes(all, 3, hashes, 65, target, 1));
    REFUSED(fastbloom_blocked_shared_contains_hashes(all, 3, hashes, 1, target, 0));
    REFUSED(fastbloom_blocked_shared_insert_hashes_tell_new(all, 3, hashes, 65, target, 1));
    REFUSED(fastbloom_blocked_shared_insert_hashes_tell_new(all, 3, hashes, 1, target, 0));
    REFUSED(fastbloom_shared_union(all, fewer));
    REFUSED(fastbloom_shared_union(fewer, all));
    REFUSED(fastbloom_shared_intersect(all, fewer));
    REFUSED(fastbloom_shared_intersect(fewer, all));
    REFUSED(fastbloom_shared_take(all, target, ROOM - 1));
    REFUSED(fastbloom_shared_take(all, target, 0));
    REFUSED(fastbloom_shared_load(all, target, ROOM - 1));
    REFUSED(fastbloom_shared_load(all, target, 0));
}

/* What one thread alone gets, as from the plain calls. */
static void try_alone(void) {
    enum { FEW = 5 };
    uint64_t words[FEW] = {0}, plain[FEW] = {0}, other[FEW] = {0}, into[FEW], copy[FEW];
    fastbloom_shared few = {words, FEW}, others = {other, FEW};
    for (uint64_t i = 0; i < 60; i++) {
        uint64_t hash = hash_of(i);
        uint32_t hashes = (uint32_t)(i % 3);
        wants("an insert alone", fastbloom_insert_hash(plain, FEW, hashes, hash),
              fastbloom_shared_insert_hash(few, hashes, hash));
        wants("an insert of bytes alone", fastbloom_insert(plain, FEW, hashes, key, key, i % 16),
              fastbloom_shared_insert(few, hashes, key, key, i % 16));
        wants("a look-up alone", fastbloom_contains_hash(plain, FEW, hashes, hash + 1),
              fastbloom_shared_contains_hash(few, hashes, hash + 1));
        wants("a look-up of bytes alone", fastbloom_contains(plain, FEW, 2, key, key, (i + 5) % 16),
              fastbloom_shared_contains(few, 2, key, key, (i + 5) % 16));
        if (i % 7 == 0) fastbloom_insert_hash(other, FEW, 1, hash + 9);
    }
    wants("words alone", 1, fastbloom_equal(words, FEW, plain, FEW));
    uint64_t low, high, from, to;
    size_t least, most, first, last;
    for (uint32_t hashes = 0; hashes < 9; hashes++) {
        wants("a rate", fastbloom_rate_now(plain, FEW, hashes, &from, &to),
              fastbloom_shared_rate_now(few, hashes, &low, &high));
        wants("its bounds", 1, from == low && to == high);
        wants("an estimate", fastbloom_estimate(plain, FEW, hashes, &first, &last),
              fastbloom_shared_estimate(few, hashes, &least, &most));
        wants("its bounds", 1, first == least && last == most);
    }
    memcpy(copy, other, sizeof copy);
    wants("a union alone", fastbloom_union(plain, FEW, other, FEW),
          fastbloom_shared_union(few, others));
    wants("words united", 1, fastbloom_equal(words, FEW, plain, FEW));
    wants("the other words", 1, fastbloom_equal(other, FEW, copy, FEW));
    wants("an intersection alone", fastbloom_intersect(plain, FEW, other, FEW),
          fastbloom_shared_intersect(few, others));
    wants("words cut", 1, fastbloom_equal(words, FEW, plain, FEW));
    wants("words of the other", 1, fastbloom_equal(words, FEW, other, FEW));
    wants("a take", 1, fastbloom_shared_take(few, into, FEW));
    wants("words taken", 1, fastbloom_equal(into, FEW, plain, FEW));
    wants("words left", 0, fastbloom_shared_count_ones(few));
}

/* A hash that comes twice in one call is new once, and no bit past the hashes is set. */
static void try_twice(void) {
    static const uint64_t hashes[3] = {5, 5, 5};
    uint64_t words[8] = {0}, lines[8] = {0}, fresh = UINT64_MAX;
    fastbloom_shared few = {words, 8}, line = {lines, 8};
    wants("told", 1, fastbloom_shared_insert_hashes_tell_new(few, 3, hashes, 2, &fresh, 1));
    wants("the first of two is new", 1, fresh);
    wants("told", 1, fastbloom_shared_insert_hashes_tell_new(few, 3, hashes, 3, &fresh, 1));
    wants("none of three is new", 0, fresh);
    fresh = UINT64_MAX;
    wants("told", 1,
          fastbloom_blocked_shared_insert_hashes_tell_new(line, 3, hashes, 2, &fresh, 1));
    wants("the first of two is new in a line", 1, fresh);
    wants("told", 1,
          fastbloom_blocked_shared_insert_hashes_tell_new(line, 3, hashes, 3, &fresh, 1));
    wants("none of three is new in a line", 0, fresh);
}

/* Many hashes into words that are larger than a cache, as into those of plain filters. */
static void try_large(void) {
    enum { LARGE = (1 << 19) + 5, COUNT = 20005 };
    uint64_t *words = calloc(LARGE, sizeof *words), *plain = calloc(LARGE, sizeof *words);
    uint64_t *hashes = calloc(COUNT, sizeof *hashes);
    fastbloom_shared large = {words, LARGE};
    if (!words || !plain || !hashes) abort();
    for (uint64_t i = 0; i < COUNT; i++) hashes[i] = hash_of(i);
    wants("many hashes", fastbloom_insert_hashes(plain, LARGE, 7, hashes, COUNT),
          fastbloom_shared_insert_hashes(large, 7, hashes, COUNT));
    wants("many words", 1, fastbloom_equal(words, LARGE, plain, LARGE));
    wants("no bit without a hash", 1, fastbloom_shared_insert_hashes(large, 7, hashes, 0));
    wants("the same words", 1, fastbloom_equal(words, LARGE, plain, LARGE));
    wants("many hashes in lines", fastbloom_blocked_insert_hashes(plain, LARGE, 7, hashes, COUNT),
          fastbloom_blocked_shared_insert_hashes(large, 7, hashes, COUNT));
    wants("many lines", 1, fastbloom_equal(words, LARGE, plain, LARGE));
    free(words), free(plain), free(hashes);
}

int main(int argc, char **argv) {
    int runs = argc > 1 ? atoi(argv[1]) : 40;
    num_keys = argc > 2 ? strtoull(argv[2], NULL, 10) : 1000000;
    uint64_t *words = calloc(NUM_WORDS, sizeof *words), *loaded = calloc(NUM_WORDS, sizeof *words);
    uint64_t *plain[4];
    for (size_t i = 0; i < 4; i++) plain[i] = calloc(NUM_WORDS, sizeof *words);
    for (size_t i = 0; i < TAKERS; i++) taken[i] = calloc(NUM_WORDS, sizeof *words);
    if (!words || !loaded || !taken[0] || !taken[1]) return 1;
    if (!plain[0] || !plain[1] || !plain[2] || !plain[3]) return 1;
    shared.words = words, shared.num_words = NUM_WORDS;
    for (uint64_t i = 0; i < num_keys; i++) {
        fastbloom_insert_hash(plain[0], NUM_WORDS, 1, hash_of(i));
        fastbloom_insert_hash(plain[1], NUM_WORDS, 3, hash_of(i));
        fastbloom_blocked_insert_hash(plain[2], NUM_WORDS, 1, hash_of(i));
        fastbloom_blocked_insert_hash(plain[3], NUM_WORDS, 3, hash_of(i));
    }
    try_refused();
    try_alone();
    try_twice();
    try_large();
    for (int number = 0; number < runs; number++) {
        way = (enum way)(number % WAYS);
        num_hashes = number / WAYS / 2 % 2 == 0 ? 1 : 3;
        is_blocked = number / WAYS % 2;
        run(plain[2 * is_blocked + (num_hashes != 1)], loaded);
    }
    for (size_t i = 0; i < TAKERS; i++) free(taken[i]);
    for (size_t i = 0; i < 4; i++) free(plain[i]);
    free(words), free(loaded);
    printf("%d runs of %d threads\n", runs, THREADS);
    return wrong;
}
