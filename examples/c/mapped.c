/* Processes that read one filter in a mapped file: `mapped FILE ITEMS`.
 *
 * Each process looks item0, item1 and so on up. */
#define _DEFAULT_SOURCE
#include "fastbloom.h"

#include <stdio.h>
#include <stdlib.h>
#include <sys/wait.h>
#include <unistd.h>

/* How many of so many items are contained. */
static int found(const fastbloom_filter *filter, int items) {
    int count = 0;
    for (int i = 0; i < items; i++) {
        char text[16];
        size_t length = (size_t)snprintf(text, sizeof text, "item%d", i);
        count += fastbloom_contains(filter->words, filter->num_words, filter->num_hashes,
                                    filter->key, (const uint8_t *)text, length);
    }
    return count;
}

int main(int argc, char **argv) {
    enum { READERS = 3 };
    if (argc != 3) return 2;
    int items = atoi(argv[2]);
    fastbloom_filter filter;
    uint8_t refusal = fastbloom_map(argv[1], FASTBLOOM_MAP_READ, NULL, &filter);
    if (refusal != FASTBLOOM_OK) {
        fprintf(stderr, "mapped: %s\n", fastbloom_strerror(refusal));
        return 1;
    }
    for (int reader = 0; reader < READERS; reader++) {
        pid_t child = fork();
        if (child < 0) return 1;
        if (child == 0) _exit(found(&filter, items) == items ? 0 : 1);
    }
    int well = 0, status;
    for (int reader = 0; reader < READERS; reader++) well += wait(&status) > 0 && status == 0;
    fastbloom_unmap(&filter);
    printf("%d of %d readers found %d items\n", well, READERS, items);
    return well == READERS ? 0 : 1;
}
