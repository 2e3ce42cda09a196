/* Calls each function, and compares with values from outside: `check SESSIONS HEX FOLDER`.
 *
 * The lines that it prints are those of the other languages' checks. Its results by hash are those
 * of the original crate, fastbloom 0.17.0, in the sessions; its hashes those of the crate siphasher
 * 0.3.10. A model in Python, which uses no library, computed the file in HEX. The check writes that
 * file into FOLDER. */
#include "fastbloom.h"

#include <inttypes.h>
#include <stdio.h>
#include <stdlib.h>
#include <string.h>

static unsigned checks;

static void check(bool holds, int line, const char *text) {
    checks++;
    if (!holds) {
        fprintf(stderr, "check: line %d: %s\n", line, text);
        exit(1);
    }
}

#define CHECK(x) check((x), __LINE__, #x)

static const uint8_t zero_key[16];
static const uint8_t counting_key[16] = {0, 1, 2, 3, 4, 5, 6, 7, 8, 9, 10, 11, 12, 13, 14, 15};

static uint64_t *zero_words(size_t num_words) {
    uint64_t *words = calloc(num_words ? num_words : 1, sizeof *words);
    CHECK(words != NULL);
    return words;
}

/* A word that was drawn. */
static uint64_t drawn(uint64_t *state) {
    *state = *state * 6364136223846793005u + 1442695040888963407u;
    return *state ^ (*state >> 29);
}

/* Sizes and refusals. A refusal sets both numbers to 0. */
static void plans(void) {
    static const struct {
        uint64_t num, den;
        size_t items;
        uint8_t code;
    } rows[] = {{0, 1, 10, FASTBLOOM_ZERO_RATE},
                {1, 0, 10, FASTBLOOM_ZERO_RATE},
                {1, 2, 12786308645202655227u, FASTBLOOM_SIZE_OVERFLOW},
                {1, 2, 12786308645202655226u, FASTBLOOM_TOO_MANY_WORDS}};
    size_t words;
    uint32_t hashes;
    for (size_t i = 0; i < sizeof rows / sizeof *rows; i++) {
        words = 7, hashes = 9;
        CHECK(fastbloom_plan(rows[i].num, rows[i].den, rows[i].items, &words, &hashes) ==
              rows[i].code);
        CHECK(words == 0 && hashes == 0);
    }
    CHECK(fastbloom_plan(1, 2, 1000, &words, &hashes) == 0 && words == 23);
    CHECK(fastbloom_plan(3, 2, 1000, &words, &hashes) == 0 && words == 1 && hashes == 1);
    CHECK(fastbloom_plan(3, 2, 0, &words, &hashes) == 0 && words == 1 && hashes == 44);
    CHECK(fastbloom_num_bits(0) == 0 && fastbloom_num_bits(225) == 14400);
    CHECK(fastbloom_num_bits(((size_t)1 << 58) - 1) == SIZE_MAX - 63);
    uint64_t low, high;
    CHECK(fastbloom_expected_rate(0, 7, 1, &low, &high) == FASTBLOOM_EMPTY_WORDS);
    CHECK(low == 0 && high == (uint64_t)1 << 63);
    CHECK(fastbloom_expected_rate(1, 0, 0, &low, &high) == 0 && low == 0 && high == 0);
    CHECK(fastbloom_expected_rate((size_t)1 << 58, 7, 1, &low, &high) == FASTBLOOM_TOO_MANY_WORDS);
    CHECK(low == 0 && high == (uint64_t)1 << 63);
    /* One of 64 bits is set: one hash of 64. */
    CHECK(fastbloom_expected_rate(1, 1, 1, &low, &high) == 0 && low == high);
    CHECK(low == (uint64_t)1 << 57);
    CHECK(fastbloom_rate_bounds(0, 7, 1, &low, &high) == FASTBLOOM_EMPTY_WORDS);
    CHECK(low == 0 && high == (uint64_t)1 << 63);
    CHECK(fastbloom_rate_bounds((size_t)1 << 58, 7, 1, &low, &high) == FASTBLOOM_TOO_MANY_WORDS);
    CHECK(low == 0 && high == (uint64_t)1 << 63);
    CHECK(fastbloom_rate_bounds(1, 3, 0, &low, &high) == 0 && low == 0 && high == 0);
    CHECK(fastbloom_rate_bounds(1, 0, 1, &low, &high) == 0 && low == high);
    CHECK(low == (uint64_t)1 << 57);
    CHECK(fastbloom_rate_bounds(16, 7, 100, &low, &high) == 0);
    CHECK(low == 67513609598153215 && high == 68936744759523058);
    /* Of 192 bits 100 are set, and of 64 one, two or all. */
    uint64_t words_on[3] = {UINT64_MAX, UINT64_MAX >> 28, 0};
    CHECK(fastbloom_rate_now(words_on, 3, 7, &low, &high));
    CHECK(low == 95891723822588019 && high == 95891723822588021);
    CHECK(fastbloom_rate_now(words_on, 1, 7, &low, &high));
    CHECK(low == high && low == (uint64_t)1 << 63);
    words_on[0] = 4;
    CHECK(fastbloom_rate_now(words_on, 1, 0, &low, &high));
    CHECK(low == high && low == (uint64_t)1 << 57);
    CHECK(!fastbloom_rate_now(words_on, 0, 7, &low, &high) && low == 0 && high == 0);
    low = high = 5;
    CHECK(!fastbloom_rate_now(words_on, (size_t)1 << 58, 7, &low, &high) && low == 0 && high == 0);
    CHECK(fastbloom_num_bits((size_t)1 << 58) == 0 && fastbloom_num_bits(SIZE_MAX) == 0);
}

/* How many items filters take, by whole numbers of Python that follow the definition of the bound. */
static void capacities(void) {
    static const struct {
        size_t words;
        uint32_t hashes;
        uint64_t num, den;
        size_t items;
    } rows[] = {{1, 1, 1, 64, 1},
                {1, 4, 1, 10, 12},
                {3, 0, 1, 10, 20},
                {16, 7, 1, 100, 106},
                {156250, 7, 1, 128, 990209},
                {224646, 10, 1, 1000, 999978},
                {((size_t)1 << 58) - 1, 30, 1, 1000000000, 213836031897076158},
                {1, 1, 1, (uint64_t)1 << 63, 0},
                {1, 1, 1, 1, SIZE_MAX},
                {0, 1, 1, 10, 0},
                {(size_t)1 << 58, 1, 1, 10, 0},
                {1, 1, 0, 10, 0},
                {1, 1, 1, 0, 0}};
    for (size_t i = 0; i < sizeof rows / sizeof *rows; i++)
        CHECK(fastbloom_capacity(rows[i].words, rows[i].hashes, rows[i].num, rows[i].den) ==
              rows[i].items);
}

/* SipHash-1-3 under the key bytes 0 to 15, of bytes that go up by seven from three. */
static void hashes(void) {
    static const struct {
        size_t len;
        uint64_t hash;
    } rows[] = {{0, 12370263754033579228u}, {1, 3398045899470988360u},  {2, 16731370823898788679u},
                {3, 17733595345121169605u}, {7, 14029210848122290102u}, {8, 6796821499482615526u},
                {9, 2778229878666693074u},  {15, 6323795259543584655u}, {16, 5333367587329558403u},
                {17, 12612916429403578116u}};
    uint8_t bytes[17];
    for (size_t i = 0; i < sizeof bytes; i++) bytes[i] = (uint8_t)(3 + 7 * i);
    for (size_t i = 0; i < sizeof rows / sizeof *rows; i++) {
        size_t len = rows[i].len, first = len / 2;
        CHECK(fastbloom_hash(counting_key, bytes, len) == rows[i].hash);
        fastbloom_hasher hasher;
        fastbloom_hasher_init(&hasher, counting_key);
        fastbloom_hasher_update(&hasher, bytes, first);
        fastbloom_hasher_update(&hasher, bytes + first, len - first);
        CHECK(fastbloom_hasher_finish(&hasher) == rows[i].hash);
    }
    /* The value of Rust's own SipHash-1-3. */
    fastbloom_hasher outside;
    fastbloom_hasher_init(&outside, counting_key);
    fastbloom_hasher_update(&outside, counting_key, 9);
    fastbloom_hasher_update(&outside, counting_key + 9, 6);
    CHECK(fastbloom_hasher_finish(&outside) == 0xd320d86d2a519956u);
}

/* The hashes of items that lie one behind the other, against those of each. Offsets that tell no
 * items are refused, and then nothing is written. */
static void items_together(void) {
    static const uint64_t well[][4] = {{0, 2, 2, 17}, {17, 17, 17, 17}, {3, 4, 5, 6}};
    static const uint64_t wrong[][4] = {{0, 2, 1, 17}, {1, 0, 2, 3}, {0, 2, 2, 18}};
    uint8_t bytes[17];
    uint64_t hashes[3];
    for (size_t i = 0; i < sizeof bytes; i++) bytes[i] = (uint8_t)(3 + 7 * i);
    for (size_t row = 0; row < sizeof well / sizeof *well; row++) {
        const uint64_t *offsets = well[row];
        CHECK(fastbloom_hash_items(counting_key, bytes, sizeof bytes, offsets, 4, hashes, 3));
        for (size_t i = 0; i < 3; i++)
            CHECK(hashes[i] ==
                  fastbloom_hash(counting_key, bytes + offsets[i], offsets[i + 1] - offsets[i]));
    }
    /* The value of SipHash-1-3 of no bytes under the key bytes 0 to 15. */
    CHECK(fastbloom_hash_items(counting_key, NULL, 0, (const uint64_t[]){0, 0}, 2, hashes, 1));
    CHECK(hashes[0] == 12370263754033579228u);
    CHECK(fastbloom_hash_items(counting_key, NULL, 0, NULL, 0, NULL, 0));
    /* One offset is no item, also where it lies past the bytes. */
    CHECK(fastbloom_hash_items(counting_key, NULL, 0, (const uint64_t[]){5}, 1, NULL, 0));
    hashes[0] = hashes[1] = hashes[2] = 42;
    for (size_t row = 0; row < sizeof wrong / sizeof *wrong; row++)
        CHECK(!fastbloom_hash_items(counting_key, bytes, sizeof bytes, wrong[row], 4, hashes, 3));
    CHECK(!fastbloom_hash_items(counting_key, bytes, sizeof bytes, well[0], 4, hashes, 2));
    CHECK(!fastbloom_hash_items(counting_key, bytes, sizeof bytes, well[0], 3, hashes, 3));
    CHECK(!fastbloom_hash_items(counting_key, bytes, sizeof bytes, NULL, 0, hashes, 1));
    CHECK(hashes[0] == 42 && hashes[1] == 42 && hashes[2] == 42);
}

/* Bytes in pieces have the hash of the whole: three pieces of up to 24 bytes, parted anywhere, and
 * 1,000 bytes in pieces of each size. The hash of the pieces so far leaves the hasher as it is, and
 * a copy goes on by itself. */
static void pieces(void) {
    uint8_t bytes[1000];
    for (size_t i = 0; i < sizeof bytes; i++) bytes[i] = (uint8_t)(3 + 7 * i);
    fastbloom_hasher hasher, copy;
    for (size_t len = 0; len <= 24; len++) {
        uint64_t whole = fastbloom_hash(counting_key, bytes, len);
        for (size_t first = 0; first <= len; first++) {
            fastbloom_hasher_init(&hasher, counting_key);
            fastbloom_hasher_update(&hasher, bytes, first);
            uint64_t front = fastbloom_hash(counting_key, bytes, first);
            for (size_t second = first; second <= len; second++) {
                copy = hasher;
                fastbloom_hasher_update(&copy, bytes + first, second - first);
                fastbloom_hasher_update(&copy, bytes + second, len - second);
                CHECK(fastbloom_hasher_finish(&copy) == whole);
                CHECK(fastbloom_hasher_finish(&hasher) == front);
            }
        }
    }
    uint64_t whole = fastbloom_hash(zero_key, bytes, sizeof bytes);
    for (size_t size = 1; size <= sizeof bytes; size++) {
        fastbloom_hasher_init(&hasher, zero_key);
        for (size_t at = 0; at < sizeof bytes; at += size) {
            size_t left = sizeof bytes - at;
            fastbloom_hasher_update(&hasher, bytes + at, size < left ? size : left);
        }
        CHECK(fastbloom_hasher_finish(&hasher) == whole);
    }
}

/* Words that no hasher left: both calls end, and touch nothing but what they are given. */
static void garbage(void) {
    uint64_t state = 7;
    struct {
        uint64_t before;
        fastbloom_hasher hasher;
        uint64_t after;
    } at;
    for (size_t round = 0; round < 512; round++) {
        at.before = at.after = 0xa5a5a5a5a5a5a5a5u;
        for (size_t i = 0; i < 8; i++) at.hasher.words[i] = round % 2 ? drawn(&state) : UINT64_MAX;
        at.hasher.words[7] -= round;
        size_t len = round % 19;
        uint8_t *bytes = calloc(len ? len : 1, 1); /* the sanitizer sees a byte too many */
        CHECK(bytes != NULL);
        fastbloom_hasher_update(&at.hasher, bytes, len);
        fastbloom_hasher was = at.hasher;
        uint64_t hash = fastbloom_hasher_finish(&at.hasher);
        CHECK(fastbloom_hasher_finish(&was) == hash);
        CHECK(memcmp(&was, &at.hasher, sizeof was) == 0);
        CHECK(at.before == 0xa5a5a5a5a5a5a5a5u && at.after == 0xa5a5a5a5a5a5a5a5u);
        free(bytes);
    }
}

static size_t size_of(const char *text) { return (size_t)strtoull(text, NULL, 10); }

/* One session: the lines of its input, and then of its output. */
static void session(char **line, char **end) {
    char *hashes_text;
    size_t num_words = (size_t)strtoull(*line + strlen("bloom "), &hashes_text, 10);
    uint32_t num_hashes = (uint32_t)size_of(hashes_text);
    uint64_t *words = zero_words(num_words);
    char **input = line + 1, **output = input;
    while (output < end && (*output)[0] == '>') output++;
    for (; input < end && (*input)[0] == '>'; input++) {
        const char *command = *input + 2;
        uint64_t hash = command[1] ? strtoull(command + 2, NULL, 10) : 0;
        if (command[0] == 'z') {
            CHECK(fastbloom_clear(words, num_words));
        } else if (command[0] == 'w') {
            for (size_t i = 0; i < num_words; i++, output++)
                CHECK(output < end && strtoull(*output, NULL, 16) == words[i]);
        } else {
            bool answer = command[0] == 'i'
                              ? fastbloom_insert_hash(words, num_words, num_hashes, hash)
                              : fastbloom_contains_hash(words, num_words, num_hashes, hash);
            CHECK(output < end && answer == (strcmp(*output, "true") == 0));
            output++;
        }
    }
    CHECK(output == end);
    free(words);
}

/* The sessions of a file, an empty line after each. */
static void sessions(const char *path) {
    static char text[1 << 16];
    static char *lines[1 << 12];
    FILE *file = fopen(path, "rb");
    CHECK(file != NULL);
    size_t length = fread(text, 1, sizeof text - 1, file);
    CHECK(length > 0 && length < sizeof text - 1);
    fclose(file);
    size_t count = 0, first = 0, played = 0;
    for (char *at = text; at != NULL && count < sizeof lines / sizeof *lines;) {
        char *next = strchr(at, '\n');
        if (next != NULL) *next++ = '\0';
        if (at[0] != '#') lines[count++] = at;
        at = next;
    }
    for (size_t i = 0; i < count; i++) {
        if (lines[i][0] != '\0') continue;
        if (i > first) {
            session(lines + first, lines + i);
            played++;
        }
        first = i + 1;
    }
    CHECK(played == 40);
    printf("sessions %zu\n", played);
}

/* Calls on all words, at each number of words up to forty; the words before and after stay. */
static void whole(void) {
    uint64_t state = 1, a[42], b[42], was[42];
    for (size_t n = 1; n <= 40; n++) {
        for (size_t i = 0; i < 42; i++) was[i] = a[i] = drawn(&state), b[i] = drawn(&state);
        CHECK(!fastbloom_equal(a + 1, n, b + 1, n));
        CHECK(fastbloom_union(a + 1, n, b + 1, n));
        for (size_t i = 0; i < 42; i++) CHECK(a[i] == (i >= 1 && i <= n ? was[i] | b[i] : was[i]));
        CHECK(fastbloom_intersect(a + 1, n, b + 1, n));
        for (size_t i = 0; i < 42; i++) CHECK(a[i] == (i >= 1 && i <= n ? b[i] : was[i]));
        CHECK(fastbloom_equal(a + 1, n, b + 1, n));
        a[n] ^= 1;
        CHECK(!fastbloom_equal(a + 1, n, b + 1, n));
        CHECK(fastbloom_clear(a + 1, n));
        for (size_t i = 0; i < 42; i++) CHECK(a[i] == (i >= 1 && i <= n ? 0 : was[i]));
    }
}

/* Of no words, and of other numbers of words, each call returns false and changes nothing. */
static void refused(void) {
    uint64_t state = 5, a[9], b[9], was[9];
    for (size_t i = 0; i < 9; i++) was[i] = a[i] = drawn(&state), b[i] = drawn(&state);
    CHECK(!fastbloom_insert_hash(a, 0, 3, 1) && !fastbloom_contains_hash(a, 0, 3, 1));
    CHECK(!fastbloom_insert(a, 0, 3, zero_key, zero_key, 1));
    CHECK(!fastbloom_contains(a, 0, 3, zero_key, zero_key, 1));
    CHECK(!fastbloom_clear(a, 0) && !fastbloom_equal(a, 0, b, 0));
    CHECK(!fastbloom_union(a, 0, b, 0) && !fastbloom_intersect(a, 0, b, 0));
    CHECK(!fastbloom_union(a, 8, b, 9) && !fastbloom_union(a, 9, b, 8));
    CHECK(!fastbloom_intersect(a, 8, b, 9) && !fastbloom_intersect(a, 9, b, 8));
    CHECK(!fastbloom_equal(a, 8, a, 9) && !fastbloom_equal(a, 9, a, 8));
    CHECK(memcmp(a, was, sizeof a) == 0);
    /* num_hashes 0 counts as 1 */
    uint64_t one[3] = {0}, none[3] = {0};
    CHECK(!fastbloom_insert_hash(one, 3, 1, 42) && !fastbloom_insert_hash(none, 3, 0, 42));
    CHECK(fastbloom_equal(one, 3, none, 3) && fastbloom_contains_hash(none, 3, 0, 42));
    uint64_t hashes[1] = {0x9e3779b97f4a7c15u};
    CHECK(!fastbloom_insert_hashes(a, 0, 3, hashes, 1) && memcmp(a, was, sizeof a) == 0);
    CHECK(fastbloom_insert_hashes(one, 3, 1, hashes, 0) && fastbloom_equal(one, 3, none, 3));
    CHECK(fastbloom_insert_hashes(one, 3, 0, hashes, 1));
    CHECK(!fastbloom_insert_hash(none, 3, 1, *hashes));
    CHECK(fastbloom_equal(one, 3, none, 3));
}

/* The filter that each language builds: item0, item1 and so on under the zero key. */
static void items(void) {
    size_t num_words;
    uint32_t num_hashes;
    CHECK(fastbloom_plan(1, 1000, 1000, &num_words, &num_hashes) == 0);
    uint64_t *words = zero_words(num_words), *at_once = zero_words(num_words);
    static uint64_t hashes[1000];
    unsigned wrong = 0;
    for (int i = 0; i < 101000; i++) {
        char text[16];
        size_t length = (size_t)snprintf(text, sizeof text, "item%d", i);
        const uint8_t *bytes = (const uint8_t *)text;
        if (i < 1000) {
            fastbloom_insert(words, num_words, num_hashes, zero_key, bytes, length);
            CHECK(fastbloom_contains(words, num_words, num_hashes, zero_key, bytes, length));
            hashes[i] = fastbloom_hash(zero_key, bytes, length);
            CHECK(fastbloom_insert_hash(words, num_words, num_hashes, hashes[i]));
        } else {
            wrong += fastbloom_contains(words, num_words, num_hashes, zero_key, bytes, length);
        }
    }
    CHECK(fastbloom_insert_hashes(at_once, num_words, num_hashes, hashes, 1000));
    CHECK(fastbloom_equal(words, num_words, at_once, num_words));
    free(at_once);
    uint64_t digest = 1469598103934665603u;
    for (size_t i = 0; i < num_words; i++) digest = (digest ^ words[i]) * 1099511628211u;
    printf("words %zu hashes %" PRIu32 "\n", num_words, num_hashes);
    printf("hash %016" PRIx64 "\n", fastbloom_hash(counting_key, counting_key, 15));
    printf("digest %016" PRIx64 "\n", digest);
    printf("false %u of 100000\n", wrong);
    free(words);
}

/* Bits for many hashes, and a count, against the calls by one hash, at each number of hashes up to
 * 130 that are drawn from 64, so that some come twice. */
static void many(size_t num_words) {
    uint64_t state = num_words, hashes[130], bits[4], *words = zero_words(num_words);
    uint64_t *one_by_one = zero_words(num_words);
    for (size_t count = 0; count <= 130; count++) {
        bool seen[130];
        for (size_t i = 0; i < count; i++) {
            hashes[i] = (drawn(&state) >> 58) * 0x9e3779b97f4a7c15u;
            seen[i] = fastbloom_contains_hash(words, num_words, 3, hashes[i]);
        }
        size_t room = (count + 63) / 64;
        memset(bits, 0xa5, sizeof bits);
        CHECK(fastbloom_contains_hashes(words, num_words, 3, hashes, count, bits, room + 1));
        for (size_t i = 0; i < 64 * (room + 1); i++)
            CHECK((bits[i / 64] >> i % 64 & 1) == (i < count && seen[i]));
        memset(bits, 0xa5, sizeof bits);
        CHECK(fastbloom_insert_hashes_tell_new(words, num_words, 3, hashes, count, bits, room));
        for (size_t i = 0; i < 64 * room; i++) {
            bool fresh = i < count && !fastbloom_insert_hash(one_by_one, num_words, 3, hashes[i]);
            CHECK((bits[i / 64] >> i % 64 & 1) == fresh);
        }
        CHECK(bits[room] == 0xa5a5a5a5a5a5a5a5u);
        CHECK(fastbloom_equal(words, num_words, one_by_one, num_words));
        if (count % 13 != 12) continue;
        CHECK(fastbloom_clear(words, num_words) && fastbloom_clear(one_by_one, num_words));
    }
    /* Too few bits, and no words, change nothing. */
    memset(bits, 0xa5, sizeof bits);
    CHECK(!fastbloom_contains_hashes(words, num_words, 3, hashes, 129, bits, 2));
    CHECK(!fastbloom_insert_hashes_tell_new(words, num_words, 3, hashes, 129, bits, 2));
    CHECK(!fastbloom_contains_hashes(words, 0, 3, hashes, 1, bits, 2));
    CHECK(!fastbloom_insert_hashes_tell_new(words, 0, 3, hashes, 1, bits, 2));
    for (size_t i = 0; i < 4; i++) CHECK(bits[i] == 0xa5a5a5a5a5a5a5a5u);
    CHECK(fastbloom_equal(words, num_words, one_by_one, num_words));
    free(words);
    free(one_by_one);
}

/* How many positions are set. */
static void counts(void) {
    uint64_t words[3] = {0, 0, 0};
    CHECK(fastbloom_count_ones(words, 3) == 0 && fastbloom_count_ones(words, 0) == 0);
    words[0] = 1, words[1] = UINT64_MAX, words[2] = (uint64_t)1 << 63;
    CHECK(fastbloom_count_ones(words, 3) == 66 && fastbloom_count_ones(words, 1) == 1);
    CHECK(fastbloom_count_ones(words, (size_t)1 << 58) == 0);
}

/* Sets the first bits of zero words. */
static void set_first(uint64_t *words, size_t num_words, size_t ones) {
    memset(words, 0, 8 * num_words);
    for (size_t p = 0; p < ones; p++) words[p / 64] |= (uint64_t)1 << p % 64;
}

/* How many items a filter has. Of 64 bits one is expected to be set after one hash, 1.98 after two,
 * 2.95 after three, 3.91 after four, 5.77 after six. The rest are numbers of items by the formula
 * ln(1 - ones / bits) / (hashes * ln(1 - 1 / bits)), rounded down, from Python's decimals. */
static void estimates(void) {
    static const struct {
        uint32_t hashes;
        size_t ones, low, high;
    } by_hand[] = {{1, 0, 0, 0},
                   {1, 1, 1, 1},
                   {0, 1, 1, 1},
                   {2, 2, 1, 2},
                   {3, 3, 1, 2},
                   {1, 3, 3, 4},
                   {1, 64, SIZE_MAX, SIZE_MAX}};
    static const struct {
        size_t words;
        uint32_t hashes;
        size_t ones, items;
    } rows[] = {{1, 1, 31, 42},         {1, 3, 29, 12},           {2, 2, 5, 2},
                {3, 5, 160, 68},        {16, 1, 688, 1140},       {16, 7, 997, 531},
                {225, 10, 1328, 139},   {225, 1, 14022, 52415},   {1000, 4, 19094, 5668},
                {1000, 30, 21284, 862}, {4096, 7, 167610, 38195}, {4096, 2, 58962, 33396}};
    uint64_t *words = zero_words(4096);
    size_t low, high;
    for (size_t i = 0; i < sizeof by_hand / sizeof *by_hand; i++) {
        set_first(words, 1, by_hand[i].ones);
        low = 7, high = 9;
        CHECK(fastbloom_estimate(words, 1, by_hand[i].hashes, &low, &high));
        CHECK(low == by_hand[i].low && high == by_hand[i].high);
        low = 7, high = 9;
        CHECK(fastbloom_estimate_union(words, 1, words, 1, by_hand[i].hashes, &low, &high));
        CHECK(low == by_hand[i].low && high == by_hand[i].high);
    }
    for (size_t i = 0; i < sizeof rows / sizeof *rows; i++) {
        set_first(words, rows[i].words, rows[i].ones);
        CHECK(fastbloom_estimate(words, rows[i].words, rows[i].hashes, &low, &high));
        CHECK(low <= rows[i].items && rows[i].items < high && high - low <= 2);
    }
    low = 7, high = 9;
    CHECK(!fastbloom_estimate(words, 0, 3, &low, &high) && low == 0 && high == 0);
    low = 7, high = 9;
    CHECK(!fastbloom_estimate(words, (size_t)1 << 58, 3, &low, &high) && low == 0 && high == 0);
    free(words);
}

/* What two filters of one word and one hash have in common, by hand: two bits tell of two to three
 * items, three of three to four, and none of nothing. */
static void in_common(void) {
    static const uint64_t unit = (uint64_t)1 << 63;
    static const struct {
        uint64_t first, second;
        size_t union_low, union_high, low, high;
        uint64_t part_low, part_high;
    } rows[] = {
        {1, 1, 1, 1, 1, 1, unit, unit}, {1, 2, 2, 3, 0, 0, 0, 0},
        {1, 0, 1, 1, 0, 0, 0, 0},       {0, 0, 0, 0, 0, 0, 0, unit},
        {3, 6, 3, 4, 0, 3, 0, unit},    {7, 7, 3, 4, 2, 5, unit / 2, unit},
        {1, 3, 2, 3, 0, 2, 0, unit},    {1, UINT64_MAX, SIZE_MAX, SIZE_MAX, 0, SIZE_MAX, 0, unit}};
    size_t low, high;
    uint64_t from, to;
    for (size_t i = 0; i < sizeof rows / sizeof *rows; i++) {
        const uint64_t *a = &rows[i].first, *b = &rows[i].second;
        low = 7, high = 9, from = 11, to = 13;
        CHECK(fastbloom_estimate_union(a, 1, b, 1, 1, &low, &high));
        CHECK(low == rows[i].union_low && high == rows[i].union_high);
        CHECK(fastbloom_estimate_common(a, 1, b, 1, 0, &low, &high));
        CHECK(low == rows[i].low && high == rows[i].high);
        CHECK(fastbloom_jaccard(a, 1, b, 1, 1, &from, &to));
        CHECK(from == rows[i].part_low && to == rows[i].part_high);
    }
    uint64_t words[2] = {1, 1};
    static const size_t sizes[][2] = {{0, 0}, {0, 1}, {1, 0},
                                      {1, 2}, {2, 1}, {(size_t)1 << 58, (size_t)1 << 58}};
    for (size_t i = 0; i < sizeof sizes / sizeof *sizes; i++) {
        size_t m = sizes[i][0], n = sizes[i][1];
        low = 7, high = 9, from = 11, to = 13;
        CHECK(!fastbloom_estimate_union(words, m, words, n, 1, &low, &high));
        CHECK(low == 0 && high == 0);
        low = 7, high = 9;
        CHECK(!fastbloom_estimate_common(words, m, words, n, 1, &low, &high));
        CHECK(low == 0 && high == 0);
        CHECK(!fastbloom_jaccard(words, m, words, n, 1, &from, &to) && from == 0 && to == 0);
    }
}

/* The file in lines of hexadecimal digits: one word and three hashes, of `crab` and `lobster`,
 * under the key bytes 0 to 15. */
static void read_hex(const char *path, uint8_t bytes[72]) {
    FILE *file = fopen(path, "r");
    CHECK(file != NULL);
    for (size_t i = 0; i < 72; i++) CHECK(fscanf(file, "%2" SCNx8, &bytes[i]) == 1);
    CHECK(fscanf(file, " %*c") == EOF);
    fclose(file);
}

/* Heads with one byte changed, and the numbers of their refusals. A refusal writes nothing. */
static void heads(const uint8_t file[72]) {
    static const struct {
        size_t place;
        uint8_t byte, code;
    } rows[] = {{0, 'F', FASTBLOOM_NOT_A_FILTER},
                {6, 1, FASTBLOOM_NOT_A_FILTER},
                {7, '2', FASTBLOOM_UNKNOWN_VERSION},
                {8, 0, FASTBLOOM_HASH_COUNT},
                {12, 1, FASTBLOOM_HASH_COUNT},
                {16, 0, FASTBLOOM_EMPTY_WORDS},
                {23, 4, FASTBLOOM_TOO_MANY_WORDS},
                {48, 2, FASTBLOOM_RESERVED},
                {63, 128, FASTBLOOM_RESERVED},
                {23, 3, 0},
                {48, 1, FASTBLOOM_BLOCKED},
                {49, 1, FASTBLOOM_RESERVED},
                {24, 9, 0},
                {47, 0, 0}};
    for (size_t i = 0; i < sizeof rows / sizeof *rows; i++) {
        uint8_t head[64], key[16] = {42};
        size_t num_words = 7;
        uint32_t num_hashes = 9;
        uint64_t seal = 11;
        memcpy(head, file, sizeof head);
        head[rows[i].place] = rows[i].byte;
        CHECK(fastbloom_head_read(head, &num_words, &num_hashes, key, &seal) == rows[i].code);
        bool stays = num_words == 7 && num_hashes == 9 && key[0] == 42 && seal == 11;
        CHECK(stays == (rows[i].code != 0));
    }
    uint8_t head[64] = {42};
    CHECK(fastbloom_head_write(0, 3, counting_key, 1, head) == FASTBLOOM_EMPTY_WORDS);
    size_t most = ((size_t)1 << 58) - 1;
    CHECK(fastbloom_head_write(most + 1, 3, counting_key, 1, head) == FASTBLOOM_TOO_MANY_WORDS);
    CHECK(fastbloom_head_write(SIZE_MAX, 3, counting_key, 1, head) == FASTBLOOM_TOO_MANY_WORDS);
    CHECK(head[0] == 42 && head[1] == 0);
    CHECK(fastbloom_head_write(most, 0, counting_key, 1, head) == 0);
    CHECK(memcmp(head, "fbloom\0001\1\0\0\0\0\0\0\0\377\377\377\377\377\377\377\3", 24) == 0);
}

/* The file in hexadecimal digits is written and read. */
static void file(const char *hex, const char *folder) {
    uint8_t bytes[72], written[73];
    char path[4096];
    read_hex(hex, bytes);
    heads(bytes);
    uint64_t word = 0;
    fastbloom_filter made = {.words = &word, .num_words = 1, .num_hashes = 3}, read;
    memcpy(made.key, counting_key, sizeof made.key);
    CHECK(!fastbloom_insert(&word, 1, 3, counting_key, (const uint8_t *)"crab", 4));
    CHECK(!fastbloom_insert(&word, 1, 3, counting_key, (const uint8_t *)"lobster", 7));
    CHECK((size_t)snprintf(path, sizeof path, "%s/worked.bloom", folder) < sizeof path);
    CHECK(fastbloom_save(path, &made, true) == FASTBLOOM_OK);
    FILE *stream = fopen(path, "rb");
    CHECK(stream != NULL && fread(written, 1, sizeof written, stream) == sizeof bytes);
    fclose(stream);
    CHECK(memcmp(written, bytes, sizeof bytes) == 0);
    CHECK(fastbloom_map(path, FASTBLOOM_MAP_READ, NULL, &read) == FASTBLOOM_OK);
    CHECK(read.num_words == 1 && read.num_hashes == 3);
    CHECK(memcmp(read.key, counting_key, sizeof read.key) == 0);
    CHECK(fastbloom_equal(read.words, 1, &word, 1));
    fastbloom_unmap(&read);
}

int main(int argc, char **argv) {
    if (argc != 4) {
        fprintf(stderr, "usage: check SESSIONS HEX FOLDER\n");
        return 2;
    }
    plans();
    capacities();
    hashes();
    items_together();
    pieces();
    garbage();
    sessions(argv[1]);
    whole();
    refused();
    items();
    many(5);
    many((size_t)1 << 19);
    counts();
    estimates();
    in_common();
    file(argv[2], argv[3]);
    printf("checks %u\n", checks);
    return 0;
}
