/* Estimates of sets that were counted: the numbers from 0 on are items, each as its eight bytes. The
 * true number lies between the bounds of its estimate, or within four standard deviations of them.
 * Of b bits, k hashes and n items one deviation is the root of b (e^r - 1 - r), divided by k, with
 * r = k n / b (S. J. Swamidass and P. Baldi, 2007). The four are rounded up. */
#include "fastbloom.h"

#include <stdio.h>
#include <stdlib.h>

enum { TOGETHER = 4096, SIZES = 20 };

static const uint64_t sizes[SIZES] = {1,      2,       5,       10,      30,      100,     300,
                                      1000,   3000,    10000,   30000,   100000,  200000,  300000,
                                      500000, 1000000, 2000000, 3000000, 5000000, 10000000};
static const struct {
    size_t bits;
    uint32_t hashes;
    uint64_t deviations[SIZES];
} shapes[] = {{(size_t)1 << 27, 7, {1, 1,  1,  1,  1,   1,   1,   1,   1,    3,
                                    8, 25, 49, 74, 123, 247, 497, 753, 1277, 2674}},
              {(size_t)1 << 24, 3, {1,  1,  1,   1,   1,   1,   1,    1,    3,    7,
                                    21, 70, 139, 210, 351, 712, 1469, 2275, 4054, 9755}},
              {(size_t)1 << 20, 1, {1,  1,   1,   1,   1,    1,    1,    3,     9,     28,
                                    84, 281, 571, 871, 1501, 3281, 8014, 15116, 43341, 482029}}};
static int wrong;

static void wants(int holds, const char *what, uint64_t number) {
    if (holds) return;
    fprintf(stderr, "%s: %llu\n", what, (unsigned long long)number);
    wrong = 1;
}

static uint64_t *zero_words(size_t bits) {
    uint64_t *words = calloc(bits / 64, sizeof *words);
    if (words == NULL) abort();
    return words;
}

/* Inserts the numbers from the first up to the end. */
static void insert(uint64_t *words, size_t bits, uint32_t hashes, uint64_t first, uint64_t end) {
    static const uint8_t key[16];
    uint64_t some[TOGETHER];
    while (first < end) {
        size_t count = 0;
        for (; count < TOGETHER && first < end; count++, first++) {
            uint8_t bytes[8];
            for (size_t i = 0; i < 8; i++) bytes[i] = (uint8_t)(first >> 8 * i);
            some[count] = fastbloom_hash(key, bytes, sizeof bytes);
        }
        if (!fastbloom_insert_hashes(words, bits / 64, hashes, some, count)) abort();
    }
}

/* Whether a number lies between the bounds, or so near them. There may be no upper one. */
static int is_near(size_t low, size_t high, uint64_t number, uint64_t apart) {
    return low <= number + apart && (high == SIZE_MAX || number <= high + apart);
}

/* Two sets of 60,000 have 20,000 of 100,000 in common, a fifth. Four deviations of the three numbers
 * are 171, 171 and 291, which is less than one part in a hundred of the fifth. */
static void fifth(void) {
    const size_t bits = (size_t)1 << 20;
    const uint64_t hundredth = ((uint64_t)1 << 63) / 100;
    uint64_t *a = zero_words(bits), *b = zero_words(bits), from, to;
    size_t n = bits / 64, low, high;
    insert(a, bits, 3, 0, 60000);
    insert(b, bits, 3, 40000, 100000);
    if (!fastbloom_estimate_union(a, n, b, n, 3, &low, &high)) abort();
    wants(is_near(low, high, 100000, 291), "both", low);
    if (!fastbloom_estimate_common(a, n, b, n, 3, &low, &high)) abort();
    wants(is_near(low, high, 20000, 171 + 171 + 291), "in common", low);
    if (!fastbloom_jaccard(a, n, b, n, 3, &from, &to)) abort();
    wants(19 * hundredth < from && to < 21 * hundredth, "a fifth", from);
    free(a);
    free(b);
}

int main(void) {
    for (size_t s = 0; s < sizeof shapes / sizeof *shapes; s++) {
        uint64_t *words = zero_words(shapes[s].bits), count = 0;
        for (size_t i = 0; i < SIZES; i++) {
            size_t low, high;
            insert(words, shapes[s].bits, shapes[s].hashes, count, sizes[i]);
            count = sizes[i];
            if (!fastbloom_estimate(words, shapes[s].bits / 64, shapes[s].hashes, &low, &high))
                abort();
            wants(is_near(low, high, count, shapes[s].deviations[i]), "items", count);
        }
        free(words);
    }
    fifth();
    if (!wrong) puts("60 sizes");
    return wrong;
}
