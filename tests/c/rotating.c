/* Plays the streams of the model in tests/rotating.py to the filters of examples/c/rotating.c:
 * `rotating TABLE`. */
#define main example
#include "../../examples/c/rotating.c"
#undef main

#include <inttypes.h>

/* A digest of the words of a filter, which goes on from that of others. */
static uint64_t digest(uint64_t fold, const uint64_t *words, size_t num_words) {
    for (size_t i = 0; i < num_words; i++) fold = (fold ^ words[i]) * 1099511628211u;
    return fold;
}

/* Whether a filter answers as a row of the table says. */
static bool is_as_told(const char *row) {
    size_t items, taken;
    uint64_t num, den, fold, found = 1469598103934665603u;
    unsigned byte;
    char stream[65], replies[65];
    if (sscanf(row, "%zu %" SCNu64 "/%" SCNu64 " %u %64s %64s %zu %" SCNx64, &items, &num, &den,
               &byte, stream, replies, &taken, &fold) != 8)
        return false;
    struct rotating seen;
    uint8_t key[16];
    memset(key, (int)byte, sizeof key);
    bool well = rotating_make(&seen, num, den, items, key) == FASTBLOOM_OK;
    for (size_t i = 0; well && stream[i] != 0; i++)
        well = rotating_insert(&seen, (const uint8_t *)stream + i, 1) == (replies[i] == '+');
    if (well) {
        found = digest(found, seen.older, seen.num_words);
        found = digest(found, seen.newer, seen.num_words);
        well = seen.taken == taken && found == fold;
    }
    free(seen.older);
    free(seen.newer);
    return well;
}

/* Rates that are refused: with a zero part, and with a half that has too large a part. */
static bool refuses(void) {
    const uint8_t key[16] = {0};
    struct rotating none;
    return rotating_make(&none, 0, 5, 10, key) == FASTBLOOM_ZERO_RATE && none.older == NULL &&
           rotating_make(&none, 1, (uint64_t)1 << 63, 10, key) == FASTBLOOM_SIZE_OVERFLOW &&
           none.older == NULL;
}

int main(int argc, char **argv) {
    char row[256];
    unsigned count = 0;
    FILE *table = argc == 2 ? fopen(argv[1], "r") : NULL;
    if (table == NULL) return fprintf(stderr, "usage: rotating TABLE\n"), 2;
    for (; fgets(row, sizeof row, table) != NULL; count++)
        if (!is_as_told(row)) return fprintf(stderr, "another reply: %s", row), 1;
    fclose(table);
    printf("%u streams\n", count);
    return refuses() ? 0 : 1;
}
