/* Hands NULL with the length 0 to each call that takes a pointer and a length, and wants what the
 * call returns for no words, no hashes and no bytes. It is linked with the library; and then, with
 * REFUSES_NULL, with calls of c/accept_null.py, which refuse a null pointer and return 1. */
#include <stdio.h>
#include <string.h>

#include "fastbloom.h"

static int wrong;

static void wants(const char *call, uint64_t wanted, uint64_t answer) {
#ifdef REFUSES_NULL
    wanted = 1;
#endif
    if (wanted != answer) {
        fprintf(stderr, "%s is %llx\n", call, (unsigned long long)answer);
        wrong = 1;
    }
}

#define WANTS(wanted, call) wants(#call, wanted, call)
/* what a call returns of a plain filter, and of a blocked one */
#define EACH(wanted, call, ...)                                                                    \
    WANTS(wanted, fastbloom_##call(__VA_ARGS__));                                                  \
    WANTS(wanted, fastbloom_blocked_##call(__VA_ARGS__))

int main(void) {
    /* Rust's own SipHash-1-3 of no bytes, under the key of zeros. */
    const uint64_t hash_of_nothing = UINT64_C(15130871412783076140);
    const uint8_t key[16] = {0};
    uint64_t words[8] = {0}, from, to;
    size_t low, high;
    fastbloom_shared none, some;
    fastbloom_hasher hasher;
    none.words = NULL, none.num_words = 0;
    some.words = words, some.num_words = 8;
    fastbloom_hasher_init(&hasher, key);
    fastbloom_hasher_update(&hasher, NULL, 0);
    WANTS(hash_of_nothing, fastbloom_hasher_finish(&hasher));
    WANTS(hash_of_nothing, fastbloom_hash(key, NULL, 0));
    WANTS(1, fastbloom_hash_items(key, NULL, 0, NULL, 0, NULL, 0));
    /* no words are no filter */
    EACH(0, insert_hash, NULL, 0, 1, 5);
    EACH(0, insert_hashes, NULL, 0, 1, NULL, 0);
    EACH(0, contains_hash, NULL, 0, 1, 5);
    EACH(0, contains_hashes, NULL, 0, 1, NULL, 0, NULL, 0);
    EACH(0, insert_hashes_tell_new, NULL, 0, 1, NULL, 0, NULL, 0);
    EACH(0, insert, NULL, 0, 1, key, NULL, 0);
    EACH(0, contains, NULL, 0, 1, key, NULL, 0);
    EACH(0, estimate, NULL, 0, 1, &low, &high);
    EACH(0, estimate_union, NULL, 0, NULL, 0, 1, &low, &high);
    EACH(0, estimate_common, NULL, 0, NULL, 0, 1, &low, &high);
    EACH(0, jaccard, NULL, 0, NULL, 0, 1, &from, &to);
    EACH(0, rate_now, NULL, 0, 1, &from, &to);
    EACH(0, shared_insert_hash, none, 1, 5);
    EACH(0, shared_insert_hashes, none, 1, NULL, 0);
    EACH(0, shared_contains_hash, none, 1, 5);
    EACH(0, shared_contains_hashes, none, 1, NULL, 0, NULL, 0);
    EACH(0, shared_insert_hashes_tell_new, none, 1, NULL, 0, NULL, 0);
    EACH(0, shared_insert, none, 1, key, NULL, 0);
    EACH(0, shared_contains, none, 1, key, NULL, 0);
    WANTS(fastbloom_seal(words, 0, 1, key), fastbloom_seal(NULL, 0, 1, key));
    WANTS(fastbloom_blocked_seal(words, 0, 1, key), fastbloom_blocked_seal(NULL, 0, 1, key));
    WANTS(0, fastbloom_clear(NULL, 0));
    WANTS(0, fastbloom_union(NULL, 0, NULL, 0));
    WANTS(0, fastbloom_intersect(NULL, 0, NULL, 0));
    WANTS(0, fastbloom_equal(NULL, 0, NULL, 0));
    WANTS(0, fastbloom_count_ones(NULL, 0));
    WANTS(0, fastbloom_shared_clear(none));
    WANTS(0, fastbloom_shared_union(none, none));
    WANTS(0, fastbloom_shared_intersect(none, none));
    WANTS(0, fastbloom_shared_take(none, NULL, 0));
    WANTS(0, fastbloom_shared_load(none, NULL, 0));
    WANTS(0, fastbloom_shared_count_ones(none));
    /* no hashes and no bytes, of a filter with words */
    EACH(1, insert_hashes, words, 8, 1, NULL, 0);
    EACH(1, contains_hashes, words, 8, 1, NULL, 0, NULL, 0);
    EACH(1, insert_hashes_tell_new, words, 8, 1, NULL, 0, NULL, 0);
    EACH(1, shared_insert_hashes, some, 1, NULL, 0);
    EACH(1, shared_contains_hashes, some, 1, NULL, 0, NULL, 0);
    EACH(1, shared_insert_hashes_tell_new, some, 1, NULL, 0, NULL, 0);
    WANTS(0, fastbloom_shared_take(some, NULL, 0));
    WANTS(0, fastbloom_shared_load(some, NULL, 0));
    WANTS(0, fastbloom_count_ones(words, 8));
    EACH(0, insert, words, 8, 1, key, NULL, 0);
    EACH(1, contains, words, 8, 1, key, NULL, 0);
    EACH(1, shared_contains, some, 1, key, NULL, 0);
    memset(words, 0, sizeof words);
    EACH(0, shared_insert, some, 1, key, NULL, 0);
    EACH(1, shared_contains, some, 1, key, NULL, 0);
    return wrong;
}
