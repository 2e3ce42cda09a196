/* Processes that fill one filter in a mapped file: `fill_mapped FILE ITEMS`.
 *
 * It makes the file of an empty filter, without a seal. Four processes map it, and each inserts
 * every fourth of item0, item1 and so on. Then the file is sealed, once no process inserts any
 * more. */
#define _DEFAULT_SOURCE
#include "fastbloom.h"

#include <stdio.h>
#include <stdlib.h>
#include <sys/wait.h>
#include <unistd.h>

enum { WRITERS = 4 };

/* Writes the file of an empty filter for this many items. */
static bool make_empty(const char *path, size_t items) {
    fastbloom_filter filter = {.key = {0}};
    if (fastbloom_plan(1, 1000, items, &filter.num_words, &filter.num_hashes) != 0) return false;
    filter.words = calloc(filter.num_words, sizeof *filter.words);
    bool made = filter.words != NULL && fastbloom_save(path, &filter, false) == FASTBLOOM_OK;
    free(filter.words);
    return made;
}

/* example filling */
/* Inserts every fourth item into the words of a mapped file, which other processes fill too. */
static bool fill_part(const char *path, int part, int items) {
    fastbloom_filter filter;
    if (fastbloom_map(path, FASTBLOOM_MAP_SHARE, NULL, &filter) != FASTBLOOM_OK) return false;
    fastbloom_shared words = {filter.words, filter.num_words};
    for (int i = part; i < items; i += WRITERS) {
        char text[16];
        size_t length = (size_t)snprintf(text, sizeof text, "item%d", i);
        fastbloom_shared_insert(words, filter.num_hashes, filter.key, (const uint8_t *)text,
                                length);
    }
    fastbloom_unmap(&filter);
    return true;
}

/* Seals the file, which no process fills any more. */
static bool seal_file(const char *path) {
    fastbloom_filter filter;
    if (fastbloom_load(path, NULL, &filter) != FASTBLOOM_OK) return false;
    bool sealed = fastbloom_save(path, &filter, true) == FASTBLOOM_OK;
    fastbloom_unload(&filter);
    return sealed;
}
/* end of example */

int main(int argc, char **argv) {
    if (argc != 3) return 2;
    int items = atoi(argv[2]);
    if (!make_empty(argv[1], (size_t)items)) return 1;
    for (int part = 0; part < WRITERS; part++) {
        pid_t child = fork();
        if (child < 0) return 1;
        if (child == 0) _exit(fill_part(argv[1], part, items) ? 0 : 1);
    }
    int well = 0, status;
    for (int part = 0; part < WRITERS; part++) well += wait(&status) > 0 && status == 0;
    if (well != WRITERS || !seal_file(argv[1])) return 1;
    printf("%d processes inserted %d items\n", well, items);
    return 0;
}
