/* Writes each line of standard input that is new: `dedup FILE [ITEMS]`.
 *
 * What came in earlier runs is kept in FILE, which the first run makes for this many items, at a
 * rate of 1/1000. A line that is new may be held back, and none is written twice. But a run that
 * fails keeps nothing, so what it wrote comes again. Blocks of lines are hashed and inserted by two
 * calls. */
#define _POSIX_C_SOURCE 200809L
#include "fastbloom.h"

#include <errno.h>
#include <stdio.h>
#include <stdlib.h>
#include <string.h>

enum { BLOCK = 256 };

/* Lines that lie one behind the other, each with its end. */
struct block {
    char *bytes;
    size_t size, room, count;
    uint64_t offsets[BLOCK + 1];
};

/* Says what went wrong, and returns the status of the program. */
static int refuse(const char *name, uint8_t code) {
    fprintf(stderr, "dedup: %s: %s\n", name, fastbloom_strerror(code));
    return 1;
}

/* Reads the filter of a file, or makes one where there is no file. */
static uint8_t open_filter(const char *path, size_t items, fastbloom_filter *filter) {
    uint8_t code = fastbloom_load(path, NULL, filter);
    if (code != FASTBLOOM_INPUT || errno != ENOENT) return code;
    code = fastbloom_plan(1, 1000, items, &filter->num_words, &filter->num_hashes);
    if (code != FASTBLOOM_OK) return code;
    memset(filter->key, 0, sizeof filter->key);
    filter->words = calloc(filter->num_words, sizeof *filter->words);
    return filter->words == NULL ? FASTBLOOM_MEMORY : FASTBLOOM_OK;
}

/* Puts a line behind those of a block. */
static bool add_line(struct block *block, const char *line, size_t size) {
    if (block->room - block->size < size) {
        size_t room = 2 * block->room + size;
        char *bytes = realloc(block->bytes, room);
        if (bytes == NULL) return false;
        block->bytes = bytes, block->room = room;
    }
    memcpy(block->bytes + block->size, line, size);
    block->offsets[++block->count] = block->size += size;
    return true;
}

/* Inserts the lines of a block, and writes those that were new. */
static bool write_new(struct block *block, const fastbloom_filter *filter) {
    uint64_t hashes[BLOCK], fresh[BLOCK / 64];
    size_t count = block->count;
    bool well =
        fastbloom_hash_items(filter->key, (const uint8_t *)block->bytes, block->size,
                             block->offsets, count + 1, hashes, count) &&
        fastbloom_insert_hashes_tell_new(filter->words, filter->num_words, filter->num_hashes,
                                         hashes, count, fresh, BLOCK / 64);
    for (size_t i = 0; well && i < count; i++) {
        size_t begin = block->offsets[i], size = block->offsets[i + 1] - begin;
        if (fresh[i / 64] >> i % 64 & 1)
            well = fwrite(block->bytes + begin, 1, size, stdout) == size;
    }
    block->size = block->count = 0;
    return well;
}

/* Takes all lines of standard input. A last line without an end gets one. */
static uint8_t take_lines(const fastbloom_filter *filter) {
    struct block block = {.bytes = NULL};
    char *line = NULL;
    size_t room = 0;
    uint8_t code = FASTBLOOM_OK;
    for (ssize_t size; code == FASTBLOOM_OK && (size = getline(&line, &room, stdin)) > 0;) {
        if (line[size - 1] != '\n') line[size++] = '\n'; /* over the last zero */
        if (!add_line(&block, line, (size_t)size))
            code = FASTBLOOM_MEMORY;
        else if (block.count == BLOCK && !write_new(&block, filter))
            code = FASTBLOOM_OUTPUT;
    }
    /* Without a line the input is at its end, a read failed, or there is no room for the line. */
    if (code == FASTBLOOM_OK && !feof(stdin))
        code = ferror(stdin) ? FASTBLOOM_INPUT : FASTBLOOM_MEMORY;
    if (code == FASTBLOOM_OK && (!write_new(&block, filter) || fflush(stdout) != 0))
        code = FASTBLOOM_OUTPUT;
    free(line);
    free(block.bytes);
    return code;
}

int main(int argc, char **argv) {
    if (argc != 2 && argc != 3) return fprintf(stderr, "usage: dedup FILE [ITEMS]\n"), 2;
    size_t items = argc == 3 ? strtoull(argv[2], NULL, 10) : 1000000;
    fastbloom_filter filter;
    uint8_t code = open_filter(argv[1], items, &filter);
    if (code != FASTBLOOM_OK) return refuse(argv[1], code);
    code = take_lines(&filter);
    /* Only once all lines are written: a block is inserted before its lines are. */
    uint8_t saved = code == FASTBLOOM_OK ? fastbloom_save(argv[1], &filter, true) : code;
    fastbloom_unload(&filter);
    if (code != FASTBLOOM_OK) return refuse("a line", code);
    return saved == FASTBLOOM_OK ? 0 : refuse(argv[1], saved);
}
