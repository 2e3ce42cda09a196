/* A program that looks away from a status: a compiler has to warn of it. */
#include "fastbloom.h"

void look_away(size_t *num_words, uint32_t *num_hashes);

void look_away(size_t *num_words, uint32_t *num_hashes) {
    fastbloom_plan(1, 2, 3, num_words, num_hashes);
}
