/* Measures how near the premise of the proved rates comes to what filters do, as dev/draws has it
 * compiled and called. A line of its output is a row of a table. */
#include <math.h>
#include <stdio.h>
#include <stdlib.h>
#include <string.h>
#include "fastbloom.h"

static uint64_t state = 61;

/* splitmix64 (G. L. Steele, D. Lea and C. H. Flood, 2014) */
static uint64_t drawn(void) {
    uint64_t z = state += 0x9e3779b97f4a7c15;
    z = (z ^ z >> 30) * 0xbf58476d1ce4e5b9;
    z = (z ^ z >> 27) * 0x94d049bb133111eb;
    return z ^ z >> 31;
}

/* The rate of false positives after t draws among b positions, for queries of k: the mean of the
 * power to k of the share that was drawn, over how many different ones there may be. */
static double counted(size_t b, size_t t, unsigned k) {
    double *chance = calloc(b + 1, sizeof *chance), rate = 0;
    chance[0] = 1;
    for (size_t i = 0; i < t; i++) {
        size_t most = i + 1 < b ? i + 1 : b;
        for (size_t x = most; x > 0; x--)
            chance[x] = (chance[x] * (double)x + chance[x - 1] * (double)(b - x + 1)) / (double)b;
        chance[0] = 0;
    }
    for (size_t x = 0; x <= b; x++) rate += chance[x] * pow((double)x / (double)b, k);
    free(chance);
    return rate;
}

/* Filters of random hashes are asked for others. */
static void rates(void) {
    static const struct {
        size_t words, filters, items;
        unsigned hashes;
    } rows[] = {{1, 100000, 11, 4},   {1, 100000, 6, 7},     {4, 100000, 25, 7},
                {16, 100000, 100, 7}, {64, 10000, 405, 7},   {256, 1000, 1622, 7},
                {4096, 10, 25957, 7}, {156250, 1, 990210, 7}};
    const size_t asked = 1000000, group = 64;
    for (size_t i = 0; i < sizeof rows / sizeof *rows; i++) {
        size_t words = rows[i].words, bits = 64 * words, found = 0;
        uint64_t *filter = calloc(words, sizeof *filter), low, high, from, to;
        double now = 0;
        for (size_t f = 0; f < rows[i].filters; f++) {
            memset(filter, 0, words * sizeof *filter);
            for (size_t n = 0; n < rows[i].items; n++)
                fastbloom_insert_hash(filter, words, rows[i].hashes, drawn());
            size_t left = asked / rows[i].filters;
            while (left > 0) {
                uint64_t hashes[64], answers = 0;
                size_t some = left < group ? left : group;
                for (size_t n = 0; n < some; n++) hashes[n] = drawn();
                if (!fastbloom_contains_hashes(filter, words, rows[i].hashes, hashes, some,
                                               &answers, 1))
                    exit(1);
                for (; answers; answers &= answers - 1) found++;
                left -= some;
            }
            if (!fastbloom_rate_now(filter, words, rows[i].hashes, &low, &high)) exit(1);
            now += ldexp((double)low + (double)high, -64) / (double)rows[i].filters;
        }
        if (fastbloom_rate_bounds(words, rows[i].hashes, rows[i].items, &low, &high) != 0) exit(1);
        if (fastbloom_expected_rate(words, rows[i].hashes, rows[i].items, &from, &to) != 0) exit(1);
        printf("%zu,%u,%zu,%zu,%zu,%.9f,%.9f,%.9f,%.9f,", bits, rows[i].hashes, rows[i].items,
               rows[i].filters, found, now, ldexp((double)from + (double)to, -64),
               ldexp((double)low, -63), ldexp((double)high, -63));
        if (bits <= 16384)
            printf("%.9f\n", counted(bits, rows[i].items * rows[i].hashes, rows[i].hashes));
        else
            printf("\n");
        fflush(stdout);
        free(filter);
    }
}

enum { PLACES = 7, BITS = 1024, FEW = 64, KEYS = 10000000 };

/* By how many standard deviations a sum of squares lies above what even cells give. */
static double apart(const uint64_t *cells, size_t count) {
    double all = 0, sum = 0, free_cells = (double)count - 1;
    for (size_t i = 0; i < count; i++) all += (double)cells[i];
    for (size_t i = 0; i < count; i++) {
        double off = (double)cells[i] - all / (double)count;
        sum += off * off / (all / (double)count);
    }
    return (sum - free_cells) / sqrt(2 * free_cells);
}

static uint64_t place(uint64_t value, uint64_t bits) {
    return (uint64_t)((unsigned __int128)value * bits >> 64);
}

/* The positions of keys, by where their hashes come from. */
static void positions(void) {
    static const char *const names[] = {"texts", "random", "consecutive"};
    static const uint8_t key[16];
    static uint64_t singles[PLACES][BITS], pairs[PLACES][PLACES][FEW * FEW];
    for (int which = 0; which < 3; which++) {
        memset(singles, 0, sizeof singles);
        memset(pairs, 0, sizeof pairs);
        for (uint64_t n = 1; n <= KEYS; n++) {
            char text[24];
            uint64_t hash = n, chain[PLACES];
            if (which == 0)
                hash = fastbloom_hash(
                    key, (const uint8_t *)text,
                    (size_t)snprintf(text, sizeof text, "%llu", (unsigned long long)n));
            if (which == 1) hash = drawn();
            chain[0] = hash;
            for (int i = 1; i < PLACES; i++)
                chain[i] = (chain[i - 1] << 5 | chain[i - 1] >> 59) + hash * 0x517cc1b727220a95;
            for (int i = 0; i < PLACES; i++) {
                singles[i][place(chain[i], BITS)]++;
                for (int j = 0; j < i; j++)
                    pairs[i][j][place(chain[i], FEW) * FEW + place(chain[j], FEW)]++;
            }
        }
        double single = -1e300, pair = -1e300;
        for (int i = 0; i < PLACES; i++) {
            single = fmax(single, apart(singles[i], BITS));
            for (int j = 0; j < i; j++) pair = fmax(pair, apart(pairs[i][j], FEW * FEW));
        }
        printf("%s,%d,%.2f,%.2f\n", names[which], KEYS, single, pair);
        fflush(stdout);
    }
}

int main(int count, char **words) {
    if (count == 2 && strcmp(words[1], "rates") == 0) {
        rates();
    } else if (count == 2 && strcmp(words[1], "positions") == 0) {
        positions();
    } else {
        return 2;
    }
    return 0;
}
