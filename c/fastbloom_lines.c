/* Rates to expect of blocked filters, and numbers of items. Each item draws one of the lines, and
 * positions in it, all alike, and so does a look-up. What these calls return follows from that in
 * floating point: it is tested, and not proved. They need no library of mathematics. */
#define FASTBLOOM_NO_WRAPPERS
#include "fastbloom.h"

enum {
    LINE = 8,            /* words of a line */
    BITS = 512,          /* and bits */
    ENOUGH = 48 * BITS,  /* draws after which a line is full but for a chance of 512 / e^48 */
    CROWDED = 2 * ENOUGH /* items a line on average, after which each line had enough */
};

/* Parts of a whole that are left out of a sum, and a chance that is left out of a line. */
static const double NOTHING = 1e-30, LITTLE = 1e-17, NO_CHANCE = 1e-250;

/* How far the floats of a rate and of a share are wrong at most, as a part of it. */
static const double OF_RATE = 1e-12;
static const long double OF_SHARE = 0x1p-50L;

/* One whole. */
static const uint64_t UNIT = (uint64_t)1 << 63;

/* Of two numbers of 64 bits. */
__extension__ typedef unsigned __int128 product;

static uint8_t code_of(size_t num_words) {
    if (num_words < LINE) return FASTBLOOM_EMPTY_WORDS;
    return fastbloom_num_bits(num_words) == 0 ? FASTBLOOM_TOO_MANY_WORDS : FASTBLOOM_OK;
}

/* The power of a number from 0 to 1. */
static long double power(long double base, uint32_t exponent) {
    long double all = 1;
    for (; exponent != 0; exponent /= 2, base *= base)
        if (exponent % 2 == 1) all *= base;
    return all;
}

/* A line, by how likely each number of its bits is set. Numbers below the least one, and above the
 * greatest one, have no chance. */
typedef struct line {
    double chances[BITS + 1];
    int least, greatest;
    uint64_t draws;
} line;

/* Draws the positions of an item. */
static void draw_item(line *one, uint32_t num_hashes) {
    for (uint32_t i = 0; i < num_hashes && one->draws < ENOUGH; i++, one->draws++) {
        if (one->greatest < BITS) one->greatest++;
        for (int set = one->greatest; set > one->least; set--)
            one->chances[set] = (one->chances[set] * (double)set +
                                 one->chances[set - 1] * (double)(BITS - set + 1)) /
                                BITS;
        one->chances[one->least] *= (double)one->least / BITS;
        while (one->chances[one->least] < NO_CHANCE) one->least++;
    }
}

/* How likely a look-up in the line returns true. */
static double rate_of(const line *one, const double rates[BITS + 1]) {
    double rate = 0;
    for (int set = one->least; set <= one->greatest; set++) rate += one->chances[set] * rates[set];
    return rate;
}

/* The mean rate of false positives. */
static double mean_rate(size_t num_words, uint32_t num_hashes, size_t items) {
    const double lines = (double)(num_words / LINE), all = (double)items;
    if (all / lines > CROWDED) return 1;
    double rates[BITS + 1];
    for (int set = 0; set <= BITS; set++) rates[set] = (double)power(set / 512.0L, num_hashes);
    /* A line has `drawn` items with a chance that is binomial. The sum begins where it is small. */
    uint64_t drawn = (uint64_t)(all / lines);
    const uint64_t middle = drawn;
    double chance = 1, sum = 0, whole = 0;
    for (; drawn > 0 && chance > NOTHING && lines > 1; drawn--)
        chance *= (double)drawn * (lines - 1) / (all - (double)drawn + 1);
    line one = {.chances = {1}};
    for (uint64_t i = 0; i < drawn; i++) draw_item(&one, num_hashes);
    while (drawn <= middle || chance > LITTLE * sum) {
        sum += chance * rate_of(&one, rates);
        whole += chance;
        if (drawn == items) break;
        chance *= (all - (double)drawn) / ((double)(drawn + 1) * (lines - 1));
        drawn++;
        draw_item(&one, num_hashes);
    }
    return sum < whole ? sum / whole : 1;
}

/* Fractions of 2^63 about a number. */
static void tell(double number, uint64_t *low, uint64_t *high) {
    const double above = number * (1 + OF_RATE);
    *low = (uint64_t)(number * (1 - OF_RATE) * 0x1p63);
    *high = above < 1 ? (uint64_t)(above * 0x1p63) + (above != 0) : UNIT;
}

uint8_t fastbloom_blocked_rate_bounds(size_t num_words, uint32_t num_hashes, size_t items,
                                      uint64_t *low, uint64_t *high) {
    const uint8_t code = code_of(num_words);
    if (code == FASTBLOOM_OK)
        tell(mean_rate(num_words, num_hashes == 0 ? 1 : num_hashes, items), low, high);
    else
        *low = 0, *high = UNIT;
    return code;
}

/* The share of bits that is set after this many items, each of which sets a part of all. */
static long double share_after(long double part, size_t items) {
    long double share = 0;
    for (; items != 0; items /= 2, part *= 2 - part)
        if (items % 2 == 1) share += part * (1 - share);
    return share;
}

/* The part of all bits that an item sets on average. */
static long double part_of_item(size_t num_words, uint32_t num_hashes) {
    const long double of_line = 1 - power(511.0L / BITS, num_hashes);
    return of_line / (long double)(num_words / LINE);
}

size_t fastbloom_blocked_capacity(size_t num_words, uint32_t num_hashes, uint64_t num,
                                  uint64_t den) {
    if (code_of(num_words) != FASTBLOOM_OK || num == 0 || den == 0) return 0;
    if (num_hashes == 0) num_hashes = 1;
    const long double part = part_of_item(num_words, num_hashes);
    const long double rate = (long double)num / (long double)den * (1 + OF_SHARE);
    size_t found = 0;
    for (size_t bit = (size_t)1 << 63; bit != 0; bit /= 2) {
        /* The mean of powers is above the power of the mean, which takes less time. */
        const size_t items = found + bit;
        uint64_t low, high;
        if (power(share_after(part, items), num_hashes) > rate) continue;
        tell(mean_rate(num_words, num_hashes, items), &low, &high);
        if ((product)high * den <= (product)UNIT * num) found = items;
    }
    return found;
}

/* Two bounds of a number of items, the upper of which may be missing. */
typedef struct bounds {
    size_t low, high;
} bounds;

/* The greatest number of items after which the share isn't above this one. */
static size_t items_at(long double part, long double share) {
    size_t found = 0;
    for (size_t bit = (size_t)1 << 63; bit != 0; bit /= 2)
        if (share_after(part, found + bit) <= share) found += bit;
    return found;
}

/* Of whole lines of which so many bits are set. */
static bounds items_of(size_t num_words, uint32_t num_hashes, size_t ones) {
    const long double share = (long double)ones / BITS / (long double)(num_words / LINE);
    const long double part = part_of_item(num_words, num_hashes == 0 ? 1 : num_hashes);
    if (ones == 0) return (bounds){0, 0};
    if (share >= 1) return (bounds){SIZE_MAX, SIZE_MAX};
    return (bounds){items_at(part, share * (1 - OF_SHARE)),
                    items_at(part, share * (1 + OF_SHARE)) + 1};
}

/* Of the words, and of the union with others, of whole lines. */
static bounds items_in(const uint64_t *words, size_t num_words, uint32_t num_hashes) {
    return items_of(num_words, num_hashes, fastbloom_count_ones(words, num_words / LINE * LINE));
}

static bounds items_in_either(const uint64_t *words, const uint64_t *other, size_t num_words,
                              uint32_t num_hashes) {
    size_t ones = 0;
    for (size_t i = 0; i < num_words / LINE * LINE; i++)
        ones += (size_t)__builtin_popcountll(words[i] | other[i]);
    return items_of(num_words, num_hashes, ones);
}

/* What two have together, less what their union has. */
static bounds items_in_both(bounds one, bounds two, bounds all) {
    bounds both = {0, SIZE_MAX};
    if (all.high != SIZE_MAX && one.low + two.low > all.high)
        both.low = one.low + two.low - all.high;
    if (one.high != SIZE_MAX && two.high != SIZE_MAX)
        both.high = one.high + two.high > all.low ? one.high + two.high - all.low : 0;
    return both;
}

/* Whether there are lines, and as many words in the other list. Else both bounds are 0. */
static bool are_alike(size_t num_words, size_t num_other, bounds *told) {
    *told = (bounds){0, 0};
    return code_of(num_words) == FASTBLOOM_OK && num_other == num_words;
}

bool fastbloom_blocked_estimate(const uint64_t *words, size_t num_words, uint32_t num_hashes,
                                size_t *low, size_t *high) {
    bounds told;
    const bool done = are_alike(num_words, num_words, &told);
    if (done) told = items_in(words, num_words, num_hashes);
    *low = told.low, *high = told.high;
    return done;
}

bool fastbloom_blocked_shared_estimate(fastbloom_shared words, uint32_t num_hashes, size_t *low,
                                       size_t *high) {
    bounds told;
    const bool done = are_alike(words.num_words, words.num_words, &told);
    const fastbloom_shared lines = {words.words, words.num_words / LINE * LINE};
    if (done) told = items_of(words.num_words, num_hashes, fastbloom_shared_count_ones(lines));
    *low = told.low, *high = told.high;
    return done;
}

bool fastbloom_blocked_estimate_union(const uint64_t *words, size_t num_words,
                                      const uint64_t *other, size_t num_other, uint32_t num_hashes,
                                      size_t *low, size_t *high) {
    bounds told;
    const bool done = are_alike(num_words, num_other, &told);
    if (done) told = items_in_either(words, other, num_words, num_hashes);
    *low = told.low, *high = told.high;
    return done;
}

bool fastbloom_blocked_estimate_common(const uint64_t *words, size_t num_words,
                                       const uint64_t *other, size_t num_other, uint32_t num_hashes,
                                       size_t *low, size_t *high) {
    bounds told;
    const bool done = are_alike(num_words, num_other, &told);
    if (done)
        told = items_in_both(items_in(words, num_words, num_hashes),
                             items_in(other, num_words, num_hashes),
                             items_in_either(words, other, num_words, num_hashes));
    *low = told.low, *high = told.high;
    return done;
}

bool fastbloom_blocked_jaccard(const uint64_t *words, size_t num_words, const uint64_t *other,
                               size_t num_other, uint32_t num_hashes, uint64_t *low,
                               uint64_t *high) {
    bounds both, all;
    *low = *high = 0;
    if (!fastbloom_blocked_estimate_common(words, num_words, other, num_other, num_hashes,
                                           &both.low, &both.high))
        return false;
    all = items_in_either(words, other, num_words, num_hashes);
    uint64_t rest;
    *high = UNIT;
    if (all.high != 0 && all.high != SIZE_MAX)
        tell((double)both.low / (double)all.high, low, &rest);
    if (both.high < all.low) tell((double)both.high / (double)all.low, &rest, high);
    return true;
}
