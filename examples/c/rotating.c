/* Writes lines of standard input, but none that is among the last ITEMS different ones:
 * `rotating ITEMS`.
 *
 * It is for a stream without end, since no memory is asked for after the start. Two filters take
 * turns, each for this many items at half the rate, and a look-up asks both. An item goes into the
 * newer one, also where the older one contains it. Once the newer one took as many as it is for, it
 * becomes the older, and the older one is cleared. Of the other lines those are held back that the
 * older one still contains, and false positives, at a rate of 1/1000. */
#define _POSIX_C_SOURCE 200809L
#include "fastbloom.h"

#include <stdio.h>
#include <stdlib.h>
#include <string.h>

struct rotating {
    uint64_t *older, *newer;
    size_t num_words, items, taken;
    uint32_t num_hashes;
    uint8_t key[16];
};

/* Makes both filters, which are empty: for this many last items, where 0 counts as 1, at the rate
 * num / den. Whatever it returns, free takes both. A rate is refused as FASTBLOOM_SIZE_OVERFLOW
 * where twice its lower part is 2^64 or more. */
static uint8_t rotating_make(struct rotating *made, uint64_t num, uint64_t den, size_t items,
                             const uint8_t key[16]) {
    memset(made, 0, sizeof *made);
    if (den > UINT64_MAX / 2) return FASTBLOOM_SIZE_OVERFLOW;
    uint8_t code = fastbloom_plan(num, 2 * den, items, &made->num_words, &made->num_hashes);
    if (code != FASTBLOOM_OK) return code;
    made->items = items;
    memcpy(made->key, key, sizeof made->key);
    made->older = calloc(made->num_words, sizeof *made->older);
    made->newer = calloc(made->num_words, sizeof *made->newer);
    return made->older == NULL || made->newer == NULL ? FASTBLOOM_MEMORY : FASTBLOOM_OK;
}

/* Inserts an item, and returns whether it was contained before, which may be a false positive. */
static bool rotating_insert(struct rotating *seen, const uint8_t *bytes, size_t size) {
    uint64_t hash = fastbloom_hash(seen->key, bytes, size);
    if (fastbloom_insert_hash(seen->newer, seen->num_words, seen->num_hashes, hash)) return true;
    bool held = fastbloom_contains_hash(seen->older, seen->num_words, seen->num_hashes, hash);
    if (++seen->taken >= seen->items) {
        uint64_t *full = seen->newer;
        seen->newer = seen->older, seen->older = full, seen->taken = 0;
        fastbloom_clear(seen->newer, seen->num_words);
    }
    return held;
}

/* Writes the lines that aren't contained. A last line without an end gets one. */
static uint8_t take_lines(struct rotating *seen) {
    char *line = NULL;
    size_t room = 0;
    bool well = true;
    for (ssize_t size; well && (size = getline(&line, &room, stdin)) > 0;) {
        if (line[size - 1] != '\n') line[size++] = '\n'; /* over the last zero */
        if (rotating_insert(seen, (const uint8_t *)line, (size_t)size)) continue;
        well = fwrite(line, 1, (size_t)size, stdout) == (size_t)size;
    }
    free(line);
    if (!well || fflush(stdout) != 0) return FASTBLOOM_OUTPUT;
    return feof(stdin) ? FASTBLOOM_OK : FASTBLOOM_INPUT;
}

int main(int argc, char **argv) {
    /* Where others choose the lines, draw the key. */
    static const uint8_t key[16];
    if (argc != 2) return fprintf(stderr, "usage: rotating ITEMS\n"), 2;
    struct rotating seen;
    uint8_t code = rotating_make(&seen, 1, 1000, strtoull(argv[1], NULL, 10), key);
    if (code == FASTBLOOM_OK) code = take_lines(&seen);
    free(seen.older);
    free(seen.newer);
    if (code != FASTBLOOM_OK) fprintf(stderr, "rotating: %s\n", fastbloom_strerror(code));
    return code == FASTBLOOM_OK ? 0 : 1;
}
