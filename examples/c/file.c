/* Files of filters: `file make FILE ITEMS` writes that of item0, item1 and so on, and
 * `file ask FILE TEXT..` maps one and looks texts up. */
#include "fastbloom.h"

#include <stdio.h>
#include <stdlib.h>
#include <string.h>

/* Says what is wrong with a file, and returns the status of the program. */
static int refuse(const char *path, uint8_t code) {
    fprintf(stderr, "file: %s: %s\n", path, fastbloom_strerror(code));
    return 1;
}

static int make(const char *path, size_t items) {
    /* example writing */
    fastbloom_filter filter = {.key = {0}};
    if (fastbloom_plan(1, 1000, items, &filter.num_words, &filter.num_hashes) != 0) return 1;
    filter.words = calloc(filter.num_words, sizeof *filter.words);
    if (filter.words == NULL) return 1;
    for (size_t i = 0; i < items; i++) {
        char text[32];
        size_t length = (size_t)snprintf(text, sizeof text, "item%zu", i);
        fastbloom_insert(filter.words, filter.num_words, filter.num_hashes, filter.key,
                         (const uint8_t *)text, length);
    }
    uint8_t code = fastbloom_save(path, &filter, true);
    free(filter.words);
    if (code != FASTBLOOM_OK) return refuse(path, code);
    /* end of example */
    return 0;
}

static int ask(const char *path, char **texts) {
    /* example reading */
    fastbloom_filter filter;
    uint8_t code = fastbloom_map(path, FASTBLOOM_MAP_READ, NULL, &filter);
    if (code != FASTBLOOM_OK) {
        printf("refused %d\n", code);
        return refuse(path, code);
    }
    for (; *texts != NULL; texts++) {
        bool found = fastbloom_contains(filter.words, filter.num_words, filter.num_hashes,
                                        filter.key, (const uint8_t *)*texts, strlen(*texts));
        printf("%s: %s\n", *texts, found ? "contained" : "new");
    }
    fastbloom_unmap(&filter);
    /* end of example */
    return 0;
}

int main(int argc, char **argv) {
    if (argc == 4 && strcmp(argv[1], "make") == 0)
        return make(argv[2], strtoull(argv[3], NULL, 10));
    if (argc >= 3 && strcmp(argv[1], "ask") == 0) return ask(argv[2], argv + 3);
    fprintf(stderr, "usage: file make FILE ITEMS, or file ask FILE TEXT..\n");
    return 2;
}
