/* Blocked filters: `blocked` makes the sessions that dev/blocked-model tells of, and prints the
 * number of each, in which all results and words are folded. The words begin in the midst of a line
 * of the cache, and words behind the last line have to stay as they are. By the calls on words that
 * threads share one thread alone has to get the same. Then it tries the calls by bytes, plans, and
 * what is refused.
 *
 * `blocked make FILE` writes the file of item0 to item999, and `blocked read FILE..` wants it in
 * each file. */
#include "fastbloom.h"

#include <inttypes.h>
#include <stdio.h>
#include <stdlib.h>
#include <string.h>

enum { SESSIONS = 200, LINE = 8, AT_ONCE = 150, BITS = 3, FEW = 20 };

static int wrong;

static void wants(const char *what, uint64_t wanted, uint64_t got) {
    if (wanted == got) return;
    fprintf(stderr, "%s: %" PRIu64 ", not %" PRIu64 "\n", what, got, wanted);
    wrong = 1;
}

/* The number of an index that a session draws, by splitmix64. */
static uint64_t drawn(uint64_t session, uint64_t index) {
    uint64_t word = (session << 32) + index + UINT64_C(0x9e3779b97f4a7c15);
    word = (word ^ (word >> 30)) * UINT64_C(0xbf58476d1ce4e5b9);
    word = (word ^ (word >> 27)) * UINT64_C(0x94d049bb133111eb);
    return word ^ (word >> 31);
}

static uint64_t folded(uint64_t fold, const uint64_t *numbers, size_t count) {
    for (size_t i = 0; i < count; i++) {
        fold = (fold ^ numbers[i]) * UINT64_C(0x9e3779b97f4a7c15);
        fold = fold << 7 | fold >> 57;
    }
    return fold;
}

static uint64_t fold_one(uint64_t fold, uint64_t number) { return folded(fold, &number, 1); }

/* The hashes of some indices in a row. */
static void draw_row(uint64_t *hashes, uint64_t session, uint64_t first, size_t count) {
    for (size_t i = 0; i < count; i++) hashes[i] = drawn(session, first + i);
}

/* One call of each kind, on plain words or on shared ones. */
static bool insert(int is_shared, fastbloom_shared seen, uint32_t k, uint64_t hash) {
    if (is_shared) return fastbloom_blocked_shared_insert_hash(seen, k, hash);
    return fastbloom_blocked_insert_hash(seen.words, seen.num_words, k, hash);
}

static bool contains(int is_shared, fastbloom_shared seen, uint32_t k, uint64_t hash) {
    if (is_shared) return fastbloom_blocked_shared_contains_hash(seen, k, hash);
    return fastbloom_blocked_contains_hash(seen.words, seen.num_words, k, hash);
}

static bool insert_many(int is_shared, fastbloom_shared seen, uint32_t k, const uint64_t *hashes,
                        size_t count) {
    if (is_shared) return fastbloom_blocked_shared_insert_hashes(seen, k, hashes, count);
    return fastbloom_blocked_insert_hashes(seen.words, seen.num_words, k, hashes, count);
}

static bool contains_many(int is_shared, fastbloom_shared seen, uint32_t k, const uint64_t *hashes,
                          size_t count, uint64_t *bits, size_t room) {
    if (is_shared)
        return fastbloom_blocked_shared_contains_hashes(seen, k, hashes, count, bits, room);
    return fastbloom_blocked_contains_hashes(seen.words, seen.num_words, k, hashes, count, bits,
                                             room);
}

static bool tell_new(int is_shared, fastbloom_shared seen, uint32_t k, const uint64_t *hashes,
                     size_t count, uint64_t *bits, size_t room) {
    if (is_shared)
        return fastbloom_blocked_shared_insert_hashes_tell_new(seen, k, hashes, count, bits, room);
    return fastbloom_blocked_insert_hashes_tell_new(seen.words, seen.num_words, k, hashes, count,
                                                    bits, room);
}

static uint64_t number_of(int is_shared, uint64_t session) {
    size_t lines = session % 50 == 49 ? 16384 + session : 1 + session % 7;
    size_t filter = LINE * lines, rest = session % LINE, at = session % 5;
    uint64_t *memory = malloc((at + filter + rest) * sizeof *memory), *words = memory + at;
    uint64_t hashes[AT_ONCE], bits[BITS], fold = 0;
    uint32_t k = (uint32_t)(1 + session % 13);
    if (memory == NULL) abort();
    memset(words, 0, filter * sizeof *words);
    for (size_t i = 0; i < rest; i++) words[filter + i] = drawn(session, i);
    fastbloom_shared seen = {words, filter + rest};
    for (uint64_t i = 0; i < FEW; i++)
        fold = fold_one(fold, insert(is_shared, seen, k, drawn(session, i)));
    for (uint64_t i = 0; i < 130; i++) hashes[i] = drawn(session, 7 * i % 95);
    wants("told", 1, tell_new(is_shared, seen, k, hashes, 130, bits, BITS));
    fold = folded(fold, bits, BITS);
    draw_row(hashes, session, 200, 150);
    wants("inserted", 1, insert_many(is_shared, seen, k, hashes, 150));
    draw_row(hashes, session, 300, 150);
    wants("found", 1, contains_many(is_shared, seen, k, hashes, 150, bits, BITS));
    fold = folded(fold, bits, BITS);
    for (uint64_t i = 440; i < 440 + FEW; i++)
        fold = fold_one(fold, contains(is_shared, seen, k, drawn(session, i)));
    fold = folded(fold, words, filter);
    for (size_t i = 0; i < rest; i++)
        wants("a word behind the lines", drawn(session, i), words[filter + i]);
    free(memory);
    return fold;
}

/* The calls by bytes are those by the hash of the bytes. */
static void try_bytes(void) {
    static const uint8_t key[16] = {1, 2, 3};
    uint64_t by_bytes[3 * LINE] = {0}, by_hash[3 * LINE] = {0}, by_shared[3 * LINE] = {0};
    fastbloom_shared shared = {by_shared, 3 * LINE};
    for (size_t len = 0; len <= 16; len++) {
        uint32_t hashes = (uint32_t)(len % 4);
        uint64_t hash = fastbloom_hash(key, key, len);
        wants("a look-up of bytes",
              fastbloom_blocked_contains_hash(by_hash, 3 * LINE, hashes, hash),
              fastbloom_blocked_contains(by_bytes, 3 * LINE, hashes, key, key, len));
        wants("a shared look-up of bytes",
              fastbloom_blocked_contains_hash(by_hash, 3 * LINE, hashes, hash),
              fastbloom_blocked_shared_contains(shared, hashes, key, key, len));
        wants("a shared insert of bytes",
              fastbloom_blocked_contains_hash(by_hash, 3 * LINE, hashes, hash),
              fastbloom_blocked_shared_insert(shared, hashes, key, key, len));
        wants("an insert of bytes", fastbloom_blocked_insert_hash(by_hash, 3 * LINE, hashes, hash),
              fastbloom_blocked_insert(by_bytes, 3 * LINE, hashes, key, key, len));
        wants("bytes inserted", 1,
              fastbloom_blocked_contains(by_bytes, 3 * LINE, hashes, key, key, len));
    }
    wants("words by bytes", 1, fastbloom_equal(by_bytes, 3 * LINE, by_hash, 3 * LINE));
    wants("words by shared bytes", 1, fastbloom_equal(by_shared, 3 * LINE, by_hash, 3 * LINE));
}

/* The line of a hash, and the calls on its eight words alone, which do what they do in all words. */
static void try_lines(void) {
    __extension__ typedef unsigned __int128 wide;
    enum { MOST = 40, K = 7 };
    uint64_t all[MOST * LINE], kept[MOST * LINE];
    wants("no line of 0 words", SIZE_MAX, fastbloom_blocked_line(0, 5));
    wants("no line of 7 words", SIZE_MAX, fastbloom_blocked_line(LINE - 1, UINT64_MAX));
    wants("a line of all words", (UINT64_C(1) << 61) - 2,
          fastbloom_blocked_line(SIZE_MAX, UINT64_MAX));
    for (size_t lines = 1; lines <= MOST; lines++) {
        memset(all, 0, sizeof all), memset(kept, 0, sizeof kept);
        for (uint64_t i = 0; i < 20 * lines; i++) {
            uint64_t hash = i == 0 ? UINT64_MAX : i == 1 ? 0 : drawn(lines, i);
            size_t words = LINE * lines + i % LINE;
            size_t line = fastbloom_blocked_line(words, hash);
            wants("a line", (uint64_t)((wide)hash * lines >> 64), line);
            if (line >= lines) continue;
            wants("a look-up in a line alone",
                  fastbloom_blocked_contains_hash(all, words - i % LINE, K, hash),
                  fastbloom_blocked_contains_hash(kept + LINE * line, LINE, K, hash));
            wants("an insert into a line alone",
                  fastbloom_blocked_insert_hash(all, words - i % LINE, K, hash),
                  fastbloom_blocked_insert_hash(kept + LINE * line, LINE, K, hash));
        }
        wants("lines alone", 0, (uint64_t)(memcmp(all, kept, sizeof all) != 0));
    }
}

/* Plans, of which a program in Python computed the numbers, and refusals. */
static void try_plans(void) {
    static const struct {
        uint64_t num, den, items;
        size_t words;
        uint32_t hashes;
        uint8_t code;
    } plans[] = {
        {1, 1000, 1000, 248, 9, FASTBLOOM_OK},
        {1, 100, 1000000, 156048, 6, FASTBLOOM_OK},
        {1, 50, 100000, 13264, 6, FASTBLOOM_OK},
        {1, 2, 0, 8, 16, FASTBLOOM_OK},
        {1, 10000, 12345, 4296, 12, FASTBLOOM_OK},
        {3, 2, 1000, 8, 1, FASTBLOOM_OK},
        {1, 1000000, 777, 504, 16, FASTBLOOM_OK},
        {0, 1, 10, 0, 0, FASTBLOOM_ZERO_RATE},
        {1, 2, UINT64_MAX, 0, 0, FASTBLOOM_SIZE_OVERFLOW},
        {1, 2, UINT64_C(12535596710982995323), 0, 0, FASTBLOOM_TOO_MANY_WORDS},
    };
    for (size_t i = 0; i < sizeof plans / sizeof *plans; i++) {
        size_t words = 1;
        uint32_t hashes = 1;
        wants("a plan", plans[i].code,
              fastbloom_blocked_plan(plans[i].num, plans[i].den, plans[i].items, &words, &hashes));
        wants("words of a plan", plans[i].words, words);
        wants("hashes of a plan", plans[i].hashes, hashes);
    }
}

/* What is refused, and changes nothing. */
static void try_refusals(void) {
    uint64_t few[LINE - 1], line[LINE] = {0}, hashes[65] = {5}, bits[1] = {7}, copy[LINE - 1];
    memset(few, 0xff, sizeof few), memcpy(copy, few, sizeof few);
    wants("an insert into no line", 0, fastbloom_blocked_insert_hash(few, LINE - 1, 1, 5));
    wants("a look-up in no line", 0, fastbloom_blocked_contains_hash(few, LINE - 1, 1, 5));
    wants("inserts into no line", 0, fastbloom_blocked_insert_hashes(few, LINE - 1, 1, hashes, 1));
    wants("look-ups in no line", 0,
          fastbloom_blocked_contains_hashes(few, LINE - 1, 1, hashes, 1, bits, 1));
    wants("told of no line", 0,
          fastbloom_blocked_insert_hashes_tell_new(few, LINE - 1, 1, hashes, 1, bits, 1));
    fastbloom_shared part = {few, LINE - 1}, whole = {line, LINE};
    fastbloom_shared too_many = {line, (size_t)1 << 58};
    wants("a shared insert into no line", 0, fastbloom_blocked_shared_insert_hash(part, 1, 5));
    wants("a shared look-up in no line", 0, fastbloom_blocked_shared_contains_hash(part, 1, 5));
    wants("shared inserts into no line", 0,
          fastbloom_blocked_shared_insert_hashes(part, 1, hashes, 1));
    wants("shared look-ups in no line", 0,
          fastbloom_blocked_shared_contains_hashes(part, 1, hashes, 1, bits, 1));
    wants("shared, told of no line", 0,
          fastbloom_blocked_shared_insert_hashes_tell_new(part, 1, hashes, 1, bits, 1));
    wants("a shared insert into too many words", 0,
          fastbloom_blocked_shared_insert_hash(too_many, 1, 5));
    wants("shared look-ups with too few bits", 0,
          fastbloom_blocked_shared_contains_hashes(whole, 1, hashes, 65, bits, 1));
    wants("shared, told with too few bits", 0,
          fastbloom_blocked_shared_insert_hashes_tell_new(whole, 1, hashes, 65, bits, 1));
    wants("look-ups with too few bits", 0,
          fastbloom_blocked_contains_hashes(line, LINE, 1, hashes, 65, bits, 1));
    wants("told with too few bits", 0,
          fastbloom_blocked_insert_hashes_tell_new(line, LINE, 1, hashes, 65, bits, 1));
    wants("words that make no line", 0, (uint64_t)memcmp(few, copy, sizeof few));
    wants("bits of refused calls", 7, bits[0]);
    wants("words of refused calls", 0, fastbloom_count_ones(line, LINE));
}

/* The filter of item0 to item999, which each language makes. */
static bool make_items(fastbloom_filter *filter) {
    const fastbloom_filter none = {0};
    *filter = none;
    if (fastbloom_blocked_plan(1, 1000, 1000, &filter->num_words, &filter->num_hashes) != 0)
        return false;
    filter->words = calloc(filter->num_words, sizeof *filter->words);
    if (filter->words == NULL) return false;
    for (int i = 0; i < 1000; i++) {
        char text[16];
        size_t length = (size_t)snprintf(text, sizeof text, "item%d", i);
        fastbloom_blocked_insert(filter->words, filter->num_words, filter->num_hashes, filter->key,
                                 (const uint8_t *)text, length);
    }
    return true;
}

/* Whether a file has this filter. */
static bool has_file(const char *path, const fastbloom_filter *filter) {
    fastbloom_filter read;
    if (fastbloom_blocked_map(path, FASTBLOOM_MAP_READ, NULL, &read) != FASTBLOOM_OK) return false;
    bool same = read.num_hashes == filter->num_hashes &&
                memcmp(read.key, filter->key, sizeof read.key) == 0 &&
                fastbloom_equal(read.words, read.num_words, filter->words, filter->num_words);
    fastbloom_unmap(&read);
    return same;
}

/* Writes the first file where it is told to, and reads each. */
static int try_files(bool makes, char **paths) {
    fastbloom_filter filter;
    if (!make_items(&filter)) return 1;
    if (makes) wants("a file", FASTBLOOM_OK, fastbloom_blocked_save(*paths, &filter, true));
    for (; *paths != NULL; paths++) wants(*paths, 1, has_file(*paths, &filter));
    free(filter.words);
    return wrong;
}

/* Lines of which so many bits are set, and words behind them that are no part of the filter. */
static const int ones_of[] = {0, 1, 256, 511, 512};
enum { NUM_LINES = 5, NUM_WORDS = 8 * NUM_LINES + 3 };

static void set_ones(uint64_t words[NUM_WORDS]) {
    memset(words, 0xff, NUM_WORDS * sizeof *words);
    for (int line = 0; line < NUM_LINES; line++)
        for (int bit = ones_of[line]; bit < 512; bit++)
            words[8 * line + bit / 64] &= ~(UINT64_C(1) << bit % 64);
}

/* Rates of filters as they are, by exact fractions of Python rounded down and up, at most two units
 * of 2^-63 a hash and one apart. Shared words tell the same. */
static void try_rates_now(void) {
    static const struct {
        uint32_t hashes;
        uint64_t down, up;
    } rows[] = {{0, 4611686018427387904, 4611686018427387904},
                {1, 4611686018427387904, 4611686018427387904},
                {7, 3678687469901080883, 3678687469901080884},
                {9, 3660777953494258885, 3660777953494258886},
                {16, 3632567663985038305, 3632567663985038306},
                {64, 3472394890546466877, 3472394890546466878}};
    uint64_t words[NUM_WORDS], low, high, first, last;
    set_ones(words);
    const fastbloom_shared shared = {words, NUM_WORDS}, few = {words, 7},
                           many = {words, (size_t)1 << 58};
    for (size_t i = 0; i < sizeof rows / sizeof *rows; i++) {
        const uint32_t hashes = rows[i].hashes;
        wants("a rate", 1, fastbloom_blocked_rate_now(words, NUM_WORDS, hashes, &low, &high));
        wants("bounds", 1, low <= rows[i].down && rows[i].up <= high);
        wants("near bounds", 1, high - low <= 2 * (hashes == 0 ? 1 : hashes) + 1);
        wants("shared", 1, fastbloom_blocked_shared_rate_now(shared, hashes, &first, &last));
        wants("the same", 1, first == low && last == high);
    }
    wants("few", 0, fastbloom_blocked_rate_now(words, 7, 7, &low, &high) || low != 0 || high != 0);
    low = high = 5;
    wants("many", 0, fastbloom_blocked_rate_now(words, many.num_words, 7, &low, &high));
    wants("no bounds", 1, low == 0 && high == 0);
    wants("few shared", 0, fastbloom_blocked_shared_rate_now(few, 7, &first, &last));
    wants("no shared bounds", 1, first == 0 && last == 0);
    wants("many shared", 0, fastbloom_blocked_shared_rate_now(many, 7, &first, &last));
}

/* Mean rates, by exact fractions of Python: of all draws of the items and of a look-up. */
static void try_mean_rates(void) {
    static const struct {
        size_t lines;
        uint32_t hashes;
        size_t items;
        double rate;
    } rows[] = {{1, 1, 1, 1.0 / 512},
                {1, 0, 1, 1.0 / 512},
                {1, 8, 10, 1.9775794994280592e-07},
                {2, 3, 5, 4.899430465457505e-06},
                {31, 9, 1000, 0.0008727198074233734},
                {200, 6, 10000, 0.008751541284288553},
                {3125, 5, 200000, 0.023262940006562125},
                {309166, 9, 10000000, 0.0008990513518564251},
                {10, 1, 0, 0},
                {1, 1, SIZE_MAX, 1},
                {((size_t)1 << 55) - 1, UINT32_MAX, SIZE_MAX, 1}};
    const double unit = 0x1p-63;
    uint64_t low, high;
    for (size_t i = 0; i < sizeof rows / sizeof *rows; i++) {
        const double rate = rows[i].rate;
        wants("a mean rate", FASTBLOOM_OK,
              fastbloom_blocked_rate_bounds(8 * rows[i].lines + i % 8, rows[i].hashes,
                                            rows[i].items, &low, &high));
        wants("bounds", 1, (double)low * unit <= rate && rate <= (double)high * unit);
        wants("near", 1, (double)(high - low) * unit <= 3e-12 * rate + 2 * unit);
    }
    wants("no line", FASTBLOOM_EMPTY_WORDS, fastbloom_blocked_rate_bounds(7, 1, 1, &low, &high));
    wants("no bounds", 1, low == 0 && high == UINT64_C(1) << 63);
    wants("many words", FASTBLOOM_TOO_MANY_WORDS,
          fastbloom_blocked_rate_bounds((size_t)1 << 58, 1, 1, &low, &high));
    wants("no bounds", 1, low == 0 && high == UINT64_C(1) << 63);
}

/* How many items filters take, by the same fractions: the bound above them isn't above the rate. At
 * one item and one position the mean is the rate itself, so that the bound is above it. */
static void try_capacities(void) {
    static const struct {
        size_t lines;
        uint32_t hashes;
        uint64_t num, den;
        size_t items;
    } rows[] = {{1, 1, 1, 2, 354},
                {1, 0, 1, 2, 354},
                {1, 8, 1, 1000, 34},
                {2, 16, 1, 1000000000, 16},
                {31, 9, 1, 1000, 1023},
                {30917, 9, 1, 1000, 1018271},
                {1, 8, 0, 1, 0},
                {1, 8, 1, 0, 0},
                {1, 8, 1, 1, SIZE_MAX},
                {1, 1, 1, 512, 0},
                {1, 8, 999999, 1000000, 1015},
                {1000, 8, 999999, 1000000, 1023803}};
    for (size_t i = 0; i < sizeof rows / sizeof *rows; i++)
        wants("a capacity", rows[i].items,
              fastbloom_blocked_capacity(8 * rows[i].lines + i % 8, rows[i].hashes, rows[i].num,
                                         rows[i].den));
    wants("none", 0, fastbloom_blocked_capacity(7, 8, 1, 2));
    wants("too many", 0, fastbloom_blocked_capacity((size_t)1 << 58, 8, 1, 2));
}

/* Numbers of items, by logarithms of 60 digits of Python: the whole numbers on either side. Words
 * behind the last line don't count. Shared words tell the same. */
static void try_estimates(void) {
    static const struct {
        size_t lines;
        uint32_t hashes;
        size_t ones, low, high;
    } rows[] = {{1, 8, 100, 13, 14},
                {4, 3, 2047, 5211, 5212},
                {31, 9, 7000, 1033, 1034},
                {31, 9, 15871, 17186, 17187},
                {2, 7, 0, 0, 0},
                {2, 7, 1024, SIZE_MAX, SIZE_MAX},
                {1, 0, 1, 0, 2}};
    uint64_t words[8 * 31 + 7];
    size_t low, high, first, last;
    for (size_t i = 0; i < sizeof rows / sizeof *rows; i++) {
        const size_t count = 8 * rows[i].lines + i % 8;
        memset(words, 0xff, sizeof words);
        for (size_t bit = rows[i].ones; bit < 512 * rows[i].lines; bit++)
            words[bit / 64] &= ~(UINT64_C(1) << bit % 64);
        wants("an estimate", 1,
              fastbloom_blocked_estimate(words, count, rows[i].hashes, &low, &high));
        wants("the lower bound", rows[i].low, low);
        wants("the upper bound", rows[i].high, high);
        wants("a shared estimate", 1,
              fastbloom_blocked_shared_estimate((fastbloom_shared){words, count}, rows[i].hashes,
                                                &first, &last));
        wants("the same", 1, first == low && last == high);
    }
    wants("none", 0, fastbloom_blocked_estimate(words, 7, 1, &low, &high) || low || high);
    wants("too many", 0,
          fastbloom_blocked_estimate(words, (size_t)1 << 58, 1, &low, &high) || low || high);
    wants("none shared", 0,
          fastbloom_blocked_shared_estimate((fastbloom_shared){words, 7}, 1, &low, &high) || low ||
              high);
}

/* Two filters of three lines: the first 200 bits are set in one, those from 100 to 299 in the other.
 * By three hashes that makes 71.5 items each, and 111.4 together (by logarithms, as above). */
static void try_two(void) {
    uint64_t one[24] = {0}, two[24] = {0}, from, to;
    size_t low, high;
    for (size_t bit = 0; bit < 300; bit++) {
        if (bit < 200) one[bit / 64] |= UINT64_C(1) << bit % 64;
        if (bit >= 100) two[bit / 64] |= UINT64_C(1) << bit % 64;
    }
    wants("a union", 1, fastbloom_blocked_estimate_union(one, 24, two, 24, 3, &low, &high));
    wants("its bounds", 1, low == 111 && high == 112);
    wants("in common", 1, fastbloom_blocked_estimate_common(one, 24, two, 24, 3, &low, &high));
    wants("its bounds", 1, low == 30 && high == 33);
    wants("likeness", 1, fastbloom_blocked_jaccard(one, 24, two, 24, 3, &from, &to));
    wants("its bounds", 1,
          (double)from * 0x1p-63 <= (double)low / 112 &&
              (double)high / 111 <= (double)to * 0x1p-63);
    wants("near", 1, (double)(to - from) * 0x1p-63 < 0.04);
    memset(one, 0, sizeof one);
    wants("nothing known", 1, fastbloom_blocked_jaccard(one, 24, one, 24, 3, &from, &to));
    wants("its bounds", 1, from == 0 && to == UINT64_C(1) << 63);
    wants("none alike", 1, fastbloom_blocked_jaccard(one, 24, two, 24, 3, &from, &to));
    wants("its bounds", 1, from == 0 && to < (UINT64_C(1) << 63) / 70);
    memset(one, 0xff, sizeof one);
    wants("full", 1, fastbloom_blocked_estimate_common(one, 24, two, 24, 3, &low, &high));
    wants("its bounds", 1, low == 0 && high == SIZE_MAX);
    wants("other lengths", 0, fastbloom_blocked_estimate_union(one, 24, two, 16, 3, &low, &high));
    wants("no bounds", 1, low == 0 && high == 0);
    wants("other lengths", 0, fastbloom_blocked_estimate_common(one, 24, two, 16, 3, &low, &high));
    wants("other lengths", 0, fastbloom_blocked_jaccard(one, 24, two, 16, 3, &from, &to));
    wants("no bounds", 1, from == 0 && to == 0);
}

int main(int argc, char **argv) {
    if (argc > 2 && strcmp(argv[1], "make") == 0) return try_files(true, argv + 2);
    if (argc > 2 && strcmp(argv[1], "read") == 0) return try_files(false, argv + 2);
    if (argc > 1) return 2;
    for (uint64_t session = 0; session < SESSIONS; session++) {
        uint64_t number = number_of(0, session);
        wants("a number by shared calls", number, number_of(1, session));
        printf("%s%" PRIu64 ",%s", session % 4 == 0 ? "    " : " ", number,
               session % 4 == 3 ? "\n" : "");
    }
    try_bytes();
    try_lines();
    try_plans();
    try_refusals();
    try_rates_now();
    try_mean_rates();
    try_capacities();
    try_estimates();
    try_two();
    return wrong;
}
