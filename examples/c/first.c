/* A first use: words of one's own, and the bytes of items. */
#include "fastbloom.h"

#include <stdio.h>
#include <stdlib.h>
#include <string.h>

int main(void) {
    /* example filter */
    static const uint8_t key[16]; /* Where others choose the items, draw it. */
    size_t num_words;
    uint32_t num_hashes;
    if (fastbloom_plan(1, 1000, 1000000, &num_words, &num_hashes) != 0) return 1;
    uint64_t *words = calloc(num_words, sizeof *words);
    if (words == NULL) return 1;
    const char *names[] = {"crab", "lobster", "crab"};
    for (size_t i = 0; i < 3; i++) {
        const uint8_t *bytes = (const uint8_t *)names[i];
        bool seen = fastbloom_insert(words, num_words, num_hashes, key, bytes, strlen(names[i]));
        printf("%s: %s\n", names[i], seen ? "seen before" : "new");
    }
    free(words);
    /* end of example */
    return 0;
}
