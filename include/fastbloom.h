/* Bloom filters over words that the caller owns: the library fastbloom_c. For C++ there is a class
 * for each kind of filter, in fastbloom.hpp and the three headers named after it.
 *
 * A filter is an array of num_words words of 64 bits, and a number of hashes from 1 to 2^32 - 1,
 * where 0 counts as 1. The caller makes the array, may map or store it, and frees it. An array of
 * zeros is the empty filter. No call allocates memory, waits, or keeps a pointer, but for those on
 * files at the end. A call fails only as it says here.
 *
 * No words are no filter: each call that returns a bool returns false for them, and changes
 * nothing. Those that hand out two bounds set both to 0.
 *
 * The number of hashes and the key belong to the words. Under another key, or with more hashes,
 * what was inserted isn't found.
 *
 * The caller must keep these rules, which nothing checks:
 *  - pointers aren't NULL, but for limits, and for one whose length is 0: the last part of this
 *    header hands over another instead. They are aligned as their types are: those to uint64_t,
 *    size_t and structs to 8, those to uint32_t to 4;
 *  - each pointer is to memory of the length that is given, at most 2^63 - 1 bytes. This memory
 *    stays where it is while the call runs. If it is a mapped file, nobody makes the file shorter
 *    meanwhile;
 *  - memory that a call may write (a parameter that isn't const) overlaps with nothing else that
 *    the call is given: fastbloom_union(words, n, words, n) is wrong;
 *  - while a call runs that may write words, no other thread or process touches them. While a call
 *    runs that reads words, none writes them. Calls that read may run at once. Calls whose names
 *    begin with fastbloom_shared_ or fastbloom_blocked_shared_ have a rule of their own instead,
 *    which stands beside the first of them.
 *
 * It is built for x86-64 with SSE4.2 (x86-64-v2).
 */
#ifndef FASTBLOOM_H
#define FASTBLOOM_H

#ifndef __cplusplus
#include <stdbool.h>
#endif
#include <stddef.h>
#include <stdint.h>

/* The version of the library. The major version is the number in the shared library's name: a
 * release that changes or removes a call raises it. */
#define FASTBLOOM_VERSION "0.17.0"
#define FASTBLOOM_VERSION_MAJOR 0
#define FASTBLOOM_VERSION_MINOR 17
#define FASTBLOOM_VERSION_PATCH 0
/* The version and, behind the plus sign, which release of the port it is. */
#define FASTBLOOM_RELEASE "0.17.0+rattle.1"

/* Marks a call whose result must be looked at. It is empty where the compiler has no such mark. */
#ifndef FASTBLOOM_MUST_USE
#if defined(__cplusplus) && __cplusplus >= 201703L
#define FASTBLOOM_MUST_USE [[nodiscard]]
#elif !defined(__cplusplus) && defined(__STDC_VERSION__) && __STDC_VERSION__ >= 202311L
#define FASTBLOOM_MUST_USE [[nodiscard]]
#elif defined(__GNUC__)
#define FASTBLOOM_MUST_USE __attribute__((warn_unused_result))
#else
#define FASTBLOOM_MUST_USE
#endif
#endif

#ifdef __cplusplus
extern "C" {
#endif

/* Status codes. FASTBLOOM_OK is success, and each other number is the reason for a refusal. The
 * proved calls return 2 to 5, 7, 9, 10, 13 and 16 to 18, and those on files 2, 3, 6, 7, 9 to 18,
 * 252, 253 and 255. The other numbers are those of the Rattle library. */
enum fastbloom_status {
    FASTBLOOM_OK = 0,
    FASTBLOOM_ZERO_BITS = 1,        /* zero bits */
    FASTBLOOM_EMPTY_WORDS = 2,      /* no words */
    FASTBLOOM_TOO_MANY_WORDS = 3,   /* more than 2^58 - 1 words */
    FASTBLOOM_ZERO_RATE = 4,        /* a part of the rate is zero */
    FASTBLOOM_SIZE_OVERFLOW = 5,    /* 2^64 bits or more */
    FASTBLOOM_MEMORY = 6,           /* out of memory */
    FASTBLOOM_HASH_COUNT = 7,       /* 0 hashes, or 2^32 and more */
    FASTBLOOM_WORKER = 8,           /* a thread couldn't be started */
    FASTBLOOM_NOT_A_FILTER = 9,     /* no `fbloom` and zero byte first, or under 8 bytes */
    FASTBLOOM_UNKNOWN_VERSION = 10, /* the version of the file isn't `1` */
    FASTBLOOM_CUT = 11,             /* the file ends before its last word */
    FASTBLOOM_TOO_LONG = 12,        /* bytes follow the last word */
    FASTBLOOM_RESERVED = 13,        /* a byte that must be zero isn't */
    FASTBLOOM_SEAL = 14,            /* the seal is wrong: the file was changed */
    FASTBLOOM_INPUT = 15,           /* a read failed */
    FASTBLOOM_PART_OF_A_LINE = 16,  /* words that are no whole lines */
    FASTBLOOM_BLOCKED = 17,         /* the file has a blocked filter */
    FASTBLOOM_NOT_BLOCKED = 18      /* the file's filter isn't blocked */
};

/* Status codes of calls in C and C++ alone. */
enum fastbloom_file_status {
    FASTBLOOM_SEALED = 252,         /* a file that is to be shared has a seal */
    FASTBLOOM_OUTPUT = 253,         /* a write failed */
    FASTBLOOM_RATE_TOO_LARGE = 254, /* a rate of 1 or above, in C++ */
    FASTBLOOM_TOO_MANY_HASHES = 255 /* more hashes than the caller allows */
};

/* The version of the library that runs, which FASTBLOOM_VERSION is of the header; and a status code
 * in words, also one that this library doesn't know. Both texts stay where they are. */
const char *fastbloom_version(void);
const char *fastbloom_strerror(uint8_t code);

/* The numbers of words and of hashes for this many items, where 0 counts as 1, at the rate
 * num / den of false positives. It returns FASTBLOOM_OK; or FASTBLOOM_ZERO_RATE,
 * FASTBLOOM_SIZE_OVERFLOW or FASTBLOOM_TOO_MANY_WORDS, and then both numbers are 0, so that a
 * caller who doesn't look has no words, which are no filter. A rate of 1 or above is taken, as the
 * Rust crate does, and gives the smallest filter: see that num < den where a user chooses it. */
FASTBLOOM_MUST_USE uint8_t fastbloom_plan(uint64_t num, uint64_t den, size_t items,
                                          size_t *num_words, uint32_t *num_hashes);

/* 64 * num_words, or 0 where num_words is more than 2^58 - 1. */
size_t fastbloom_num_bits(size_t num_words);

/* Two bounds of the rate of false positives to expect once this many items are in the filter, as
 * fractions of 2^63: the first by the classical formula, which is a little below the mean rate, and
 * the second of that mean rate itself. They return FASTBLOOM_OK; or FASTBLOOM_EMPTY_WORDS or
 * FASTBLOOM_TOO_MANY_WORDS, and then the bounds are 0 and 2^63. */
FASTBLOOM_MUST_USE uint8_t fastbloom_expected_rate(size_t num_words, uint32_t num_hashes,
                                                   size_t items, uint64_t *low, uint64_t *high);
FASTBLOOM_MUST_USE uint8_t fastbloom_rate_bounds(size_t num_words, uint32_t num_hashes,
                                                 size_t items, uint64_t *low, uint64_t *high);

/* How many items a filter takes at the mean rate num / den of false positives: a number at which the
 * upper bound of fastbloom_rate_bounds isn't above it, while one item more has one that is. It is 0
 * where num_words is 0 or more than 2^58 - 1, or a part of the rate is 0, and SIZE_MAX where no
 * number is too many. */
size_t fastbloom_capacity(size_t num_words, uint32_t num_hashes, uint64_t num, uint64_t den);

/* SipHash-1-3 of exactly these bytes under the key. The key's first eight bytes are the
 * little-endian word k0. The item `Text` of the Rattle library has the same hash. */
uint64_t fastbloom_hash(const uint8_t key[16], const uint8_t *bytes, size_t len);

/* The hashes of many items by one call, for the calls on many hashes. The bytes of the items lie
 * one behind the other, and item i is those from offsets[i] up to offsets[i + 1]. So there is one
 * offset more than there are hashes, but for no item there may be none. This is how Apache Arrow
 * lays out a large binary array. It returns true. Where the numbers differ otherwise, or an item
 * ends before it begins or past len, it returns false and writes nothing. With one offset there is
 * no item, whatever the offset is. */
FASTBLOOM_MUST_USE bool fastbloom_hash_items(const uint8_t key[16], const uint8_t *bytes,
                                             size_t len, const uint64_t *offsets,
                                             size_t num_offsets, uint64_t *hashes, size_t count);

/* The same hash of bytes that come in pieces. The caller owns the struct and may copy it. The key
 * is in it, and up to seven of the bytes. */
typedef struct fastbloom_hasher {
    uint64_t words[8];
} fastbloom_hasher;

/* The first begins with no bytes, and the second takes in a piece. The third returns the hash of
 * all pieces so far, one behind the other, as fastbloom_hash does. More pieces may follow. The last
 * two take any struct, but one that wasn't begun has a hash of no meaning. */
void fastbloom_hasher_init(fastbloom_hasher *hasher, const uint8_t key[16]);
void fastbloom_hasher_update(fastbloom_hasher *hasher, const uint8_t *bytes, size_t len);
uint64_t fastbloom_hasher_finish(const fastbloom_hasher *hasher);

/* Sets all positions of a hash, and returns whether all were set just before. */
bool fastbloom_insert_hash(uint64_t *words, size_t num_words, uint32_t num_hashes, uint64_t hash);

/* Sets all positions of each of count hashes, and returns true. One call for many hashes costs less
 * than a call for each. Where the words are larger than a cache, sixteen hashes are looked up
 * together. */
bool fastbloom_insert_hashes(uint64_t *words, size_t num_words, uint32_t num_hashes,
                             const uint64_t *hashes, size_t count);

/* Whether all positions of a hash are set: false means that it wasn't inserted since one of them
 * was last cleared. */
bool fastbloom_contains_hash(const uint64_t *words, size_t num_words, uint32_t num_hashes,
                             uint64_t hash);

/* Many hashes at once, with a bit for each in words that the caller owns: bit i % 64, from the
 * lowest one, of word i / 64 is that of hashes[i]. Both return true. Where there are no words, or
 * more hashes than bits, they return false and change nothing. Otherwise each bit past the hashes
 * is cleared.
 *
 * The first looks them up: a bit is set where all positions of its hash are set. The second inserts
 * them, one after the other: a bit is set where not all positions of its hash were set just before
 * its insert. So a hash that comes twice is new once at most. */
FASTBLOOM_MUST_USE bool fastbloom_contains_hashes(const uint64_t *words, size_t num_words,
                                                  uint32_t num_hashes, const uint64_t *hashes,
                                                  size_t count, uint64_t *found, size_t num_found);
FASTBLOOM_MUST_USE bool fastbloom_insert_hashes_tell_new(uint64_t *words, size_t num_words,
                                                         uint32_t num_hashes,
                                                         const uint64_t *hashes, size_t count,
                                                         uint64_t *fresh, size_t num_fresh);

/* fastbloom_insert_hash and fastbloom_contains_hash at the hash of the bytes. */
bool fastbloom_insert(uint64_t *words, size_t num_words, uint32_t num_hashes, const uint8_t key[16],
                      const uint8_t *bytes, size_t len);
bool fastbloom_contains(const uint64_t *words, size_t num_words, uint32_t num_hashes,
                        const uint8_t key[16], const uint8_t *bytes, size_t len);

/* Clears every position. */
bool fastbloom_clear(uint64_t *words, size_t num_words);

/* A union sets every position that is set in the other filter, and an intersection clears every
 * position that is clear in it. Both return true. Where the numbers of words differ, they return
 * false and change nothing. The caller sees to it that the numbers of hashes are equal, and the
 * keys: otherwise the words are those of no filter. */
FASTBLOOM_MUST_USE bool fastbloom_union(uint64_t *words, size_t num_words, const uint64_t *other,
                                        size_t num_other);
FASTBLOOM_MUST_USE bool fastbloom_intersect(uint64_t *words, size_t num_words,
                                            const uint64_t *other, size_t num_other);

/* Whether both filters have as many words, and equal ones. */
bool fastbloom_equal(const uint64_t *words, size_t num_words, const uint64_t *other,
                     size_t num_other);

/* The number of positions that are set, or 0 where num_words is more than 2^58 - 1. */
size_t fastbloom_count_ones(const uint64_t *words, size_t num_words);

/* Two bounds of the number of items: in a filter, in the union of two, which isn't made, and in
 * common to both. It is the number of items at which as many positions are expected to be set:
 *
 *   ln(1 - set / bits) / (num_hashes * ln(1 - 1 / bits)).
 *
 * With fewer items than low fewer positions are expected to be set, and with more than high more.
 * Nothing is claimed of how far the number of items that were inserted may lie from it. high is
 * SIZE_MAX where there is no upper bound. Where all positions are set no number is too many, and
 * both bounds are SIZE_MAX. What two filters have in common is what both have together, less what
 * their union has. So its bounds may be as far apart as those of all three together.
 *
 * They return true. Where num_words is 0 or more than 2^58 - 1, or the numbers of words differ,
 * they return false, and both bounds are 0. The caller sees to it that the numbers of hashes are
 * equal, and the keys: otherwise the bounds mean nothing. */
FASTBLOOM_MUST_USE bool fastbloom_estimate(const uint64_t *words, size_t num_words,
                                           uint32_t num_hashes, size_t *low, size_t *high);
FASTBLOOM_MUST_USE bool fastbloom_estimate_union(const uint64_t *words, size_t num_words,
                                                 const uint64_t *other, size_t num_other,
                                                 uint32_t num_hashes, size_t *low, size_t *high);
FASTBLOOM_MUST_USE bool fastbloom_estimate_common(const uint64_t *words, size_t num_words,
                                                  const uint64_t *other, size_t num_other,
                                                  uint32_t num_hashes, size_t *low, size_t *high);

/* Two bounds of the part of the items of two filters that both have, as fractions of 2^63: that of
 * the items in common in those of the union, by the bounds of both. It returns what the calls above
 * do. Where nothing is known of the part, as of two empty filters, the bounds are 0 and 2^63. */
FASTBLOOM_MUST_USE bool fastbloom_jaccard(const uint64_t *words, size_t num_words,
                                          const uint64_t *other, size_t num_other,
                                          uint32_t num_hashes, uint64_t *low, uint64_t *high);

/* Two bounds of the rate of false positives of the filter as it is, as fractions of 2^63: the part
 * of all look-ups, where each position is drawn alike, that return true. It returns true. Where
 * num_words is 0 or more than 2^58 - 1, it returns false, and both bounds are 0. */
FASTBLOOM_MUST_USE bool fastbloom_rate_now(const uint64_t *words, size_t num_words,
                                           uint32_t num_hashes, uint64_t *low, uint64_t *high);

/* A blocked filter: its words are lines of eight, and all positions of a hash lie in one line. So a
 * call on a hash touches one line of the cache where the words begin at a multiple of 64 bytes, as
 * those of aligned_alloc(64, 8 * num_words) do. Words may begin elsewhere, which takes longer. Words
 * of more than some megabytes are best in huge pages: aligned_alloc(1 << 21, SIZE) gives such memory
 * on Linux, with SIZE a multiple of 1 << 21, where madvise(words, SIZE, MADV_HUGEPAGE) is called
 * before they are written.
 *
 * The number of words is a multiple of 8. Words behind the last whole line are no part of the
 * filter, and stay as they are. Fewer than 8 words are no filter: each call that returns a bool
 * returns false for them, and changes nothing. num_hashes 0 counts as 1.
 *
 * Words are a filter of one kind. A hash that was inserted by these calls isn't found by those
 * above, nor the other way round. fastbloom_clear, fastbloom_union, fastbloom_intersect,
 * fastbloom_equal and fastbloom_count_ones are for both kinds. Each kind has rates, estimates and
 * files of its own. */

/* As fastbloom_plan, for a blocked filter. At one rate it takes more bits than a filter above: 2
 * hundredths more at 8 bits for each item, 4 at 10, 10 at 16, and at most 44. That the rate is met
 * was measured, and isn't proved. It isn't met where a filter above has more than 32 bits for each
 * item. More than 2^58 - 8 words are refused as too many. */
FASTBLOOM_MUST_USE uint8_t fastbloom_blocked_plan(uint64_t num, uint64_t den, size_t items,
                                                  size_t *num_words, uint32_t *num_hashes);

/* Two bounds of the rate of false positives of the filter as it is, as fractions of 2^63, at most two
 * a hash and one apart: the part of all look-ups, where the line and each position in it are drawn
 * alike, that return true. It returns true. Where num_words is under 8 or more than 2^58 - 1, it
 * returns false, and both bounds are 0. */
FASTBLOOM_MUST_USE bool fastbloom_blocked_rate_now(const uint64_t *words, size_t num_words,
                                                   uint32_t num_hashes, uint64_t *low,
                                                   uint64_t *high);

/* As fastbloom_rate_bounds, fastbloom_capacity, fastbloom_estimate, fastbloom_estimate_union,
 * fastbloom_estimate_common and fastbloom_jaccard, of blocked filters, where each item draws a line,
 * and positions in it, all alike. Fewer than 8 words count as none. These calls are written in C
 * with floating point: they are tested and not proved. The bounds of a rate are a part of 10^-12 to
 * either side of it; beside exact fractions it was wrong by 2 in 10^15 at most. */
FASTBLOOM_MUST_USE uint8_t fastbloom_blocked_rate_bounds(size_t num_words, uint32_t num_hashes,
                                                         size_t items, uint64_t *low,
                                                         uint64_t *high);
size_t fastbloom_blocked_capacity(size_t num_words, uint32_t num_hashes, uint64_t num,
                                  uint64_t den);
FASTBLOOM_MUST_USE bool fastbloom_blocked_estimate(const uint64_t *words, size_t num_words,
                                                   uint32_t num_hashes, size_t *low, size_t *high);
FASTBLOOM_MUST_USE bool fastbloom_blocked_estimate_union(const uint64_t *words, size_t num_words,
                                                         const uint64_t *other, size_t num_other,
                                                         uint32_t num_hashes, size_t *low,
                                                         size_t *high);
FASTBLOOM_MUST_USE bool fastbloom_blocked_estimate_common(const uint64_t *words, size_t num_words,
                                                          const uint64_t *other, size_t num_other,
                                                          uint32_t num_hashes, size_t *low,
                                                          size_t *high);
FASTBLOOM_MUST_USE bool fastbloom_blocked_jaccard(const uint64_t *words, size_t num_words,
                                                  const uint64_t *other, size_t num_other,
                                                  uint32_t num_hashes, uint64_t *low,
                                                  uint64_t *high);

/* Sets all positions of a hash, and returns whether all were set just before. */
bool fastbloom_blocked_insert_hash(uint64_t *words, size_t num_words, uint32_t num_hashes,
                                   uint64_t hash);

/* Whether all positions of a hash are set: false means that it wasn't inserted since one of them
 * was last cleared. */
bool fastbloom_blocked_contains_hash(const uint64_t *words, size_t num_words, uint32_t num_hashes,
                                     uint64_t hash);

/* The line of a hash, among those of so many words: a number from 0 on. It stands for the words from
 * 8 * line to 8 * line + 7. These eight words alone are a filter of one line, in which the calls on
 * this hash do what they do in all words. So lines may be kept anywhere, as in rows of a table, and
 * only one of them is read for a call. It returns SIZE_MAX where num_words is less than 8. */
size_t fastbloom_blocked_line(size_t num_words, uint64_t hash);

/* Sets all positions of each of count hashes, and returns true. Of words of a mebibyte and more,
 * the lines of 64 hashes are read together first. */
bool fastbloom_blocked_insert_hashes(uint64_t *words, size_t num_words, uint32_t num_hashes,
                                     const uint64_t *hashes, size_t count);

/* As fastbloom_contains_hashes and fastbloom_insert_hashes_tell_new. */
FASTBLOOM_MUST_USE bool fastbloom_blocked_contains_hashes(const uint64_t *words, size_t num_words,
                                                          uint32_t num_hashes,
                                                          const uint64_t *hashes, size_t count,
                                                          uint64_t *found, size_t num_found);
FASTBLOOM_MUST_USE bool fastbloom_blocked_insert_hashes_tell_new(uint64_t *words, size_t num_words,
                                                                 uint32_t num_hashes,
                                                                 const uint64_t *hashes,
                                                                 size_t count, uint64_t *fresh,
                                                                 size_t num_fresh);

/* fastbloom_blocked_insert_hash and fastbloom_blocked_contains_hash at the hash of the bytes. */
bool fastbloom_blocked_insert(uint64_t *words, size_t num_words, uint32_t num_hashes,
                              const uint8_t key[16], const uint8_t *bytes, size_t len);
bool fastbloom_blocked_contains(const uint64_t *words, size_t num_words, uint32_t num_hashes,
                                const uint8_t key[16], const uint8_t *bytes, size_t len);

/* A filter that threads share, and processes too. Any number of threads may make these calls on the
 * same words at once. Each is made of atomic operations on single words. So a bit that a call set is
 * lost to no other call, but to one that clears it. No call takes a lock or waits for a thread. An
 * insert's | on a word is tried again only where another thread changed that word in between.
 *
 * The words are the caller's, passed by value as a pointer and a number: in the heap, in a mapped
 * file, or in memory that processes share. They are those of a plain filter, and the same words may
 * be given to plain calls at another time. From the first of these calls until the last one has
 * returned, the caller keeps these rules for the words, which nothing checks:
 *  - they are aligned to 8, and stay where they are: they aren't freed, moved or unmapped;
 *  - these calls alone change or read them. No plain call and no other code touches them meanwhile,
 *    in this process or in another.
 * Of other memory, what a call may write (found, fresh, taken, loaded) is that call's alone. What
 * it only reads (hashes, bytes, key) other calls may read at once, and nobody writes it meanwhile.
 * The words may be NULL where their number is 0.
 *
 * Where there are no words, or more than 2^58 - 1, each of these calls returns false, or 0, and
 * touches nothing. num_hashes 0 counts as 1. */
typedef struct fastbloom_shared {
    uint64_t *words;
    size_t num_words;
} fastbloom_shared;

/* Sets all positions of a hash, each by one operation, and returns whether these operations found
 * all of them set already. So it returns false exactly if it set a bit itself: with one hash, as
 * many of these calls return false as bits are set. */
bool fastbloom_shared_insert_hash(fastbloom_shared words, uint32_t num_hashes, uint64_t hash);

/* Whether all positions of a hash were found set, one after the other. While no call clears bits,
 * false means that no insert of it had returned when this call began. */
bool fastbloom_shared_contains_hash(fastbloom_shared words, uint32_t num_hashes, uint64_t hash);

/* The two calls above at the hash of the bytes. */
bool fastbloom_shared_insert(fastbloom_shared words, uint32_t num_hashes, const uint8_t key[16],
                             const uint8_t *bytes, size_t len);
bool fastbloom_shared_contains(fastbloom_shared words, uint32_t num_hashes, const uint8_t key[16],
                               const uint8_t *bytes, size_t len);

/* Inserts each of count hashes, and returns true. */
bool fastbloom_shared_insert_hashes(fastbloom_shared words, uint32_t num_hashes,
                                    const uint64_t *hashes, size_t count);

/* As fastbloom_contains_hashes and fastbloom_insert_hashes_tell_new: bit i % 64 of word i / 64 is
 * what the look-up of hashes[i] returned, or is set where its insert returned false. */
FASTBLOOM_MUST_USE bool fastbloom_shared_contains_hashes(fastbloom_shared words,
                                                         uint32_t num_hashes,
                                                         const uint64_t *hashes, size_t count,
                                                         uint64_t *found, size_t num_found);
FASTBLOOM_MUST_USE bool fastbloom_shared_insert_hashes_tell_new(fastbloom_shared words,
                                                                uint32_t num_hashes,
                                                                const uint64_t *hashes,
                                                                size_t count, uint64_t *fresh,
                                                                size_t num_fresh);

/* Clears every position, one word after the other. */
bool fastbloom_shared_clear(fastbloom_shared words);

/* A union sets what is found set in the other words, one word after the other. An intersection
 * clears what is found clear in them. They return true. Where the numbers of words differ, they
 * return false and change nothing. Threads may share the other words as well, and both may be the
 * same. The caller sees to it that the numbers of hashes are equal, and the keys. */
FASTBLOOM_MUST_USE bool fastbloom_shared_union(fastbloom_shared words, fastbloom_shared other);
FASTBLOOM_MUST_USE bool fastbloom_shared_intersect(fastbloom_shared words, fastbloom_shared other);

/* Takes the words out into plain ones, which the caller owns: each is read and cleared by one
 * operation. A bit that another thread sets meanwhile is either taken or still there, so none is
 * lost. It returns true. Where num_taken isn't the number of words, it returns false and takes
 * nothing. */
FASTBLOOM_MUST_USE bool fastbloom_shared_take(fastbloom_shared words, uint64_t *taken,
                                              size_t num_taken);

/* Loads the words into plain ones, one after the other, as for a file. It returns true. Where
 * num_loaded isn't the number of words, it returns false and writes nothing. */
FASTBLOOM_MUST_USE bool fastbloom_shared_load(fastbloom_shared words, uint64_t *loaded,
                                              size_t num_loaded);

/* The number of positions that are set in the words as they are loaded, one after the other. */
size_t fastbloom_shared_count_ones(fastbloom_shared words);

/* As fastbloom_estimate and fastbloom_rate_now, of the words as they are loaded, one after the other:
 * no copy of them is made. */
FASTBLOOM_MUST_USE bool fastbloom_shared_estimate(fastbloom_shared words, uint32_t num_hashes,
                                                  size_t *low, size_t *high);
FASTBLOOM_MUST_USE bool fastbloom_shared_rate_now(fastbloom_shared words, uint32_t num_hashes,
                                                  uint64_t *low, uint64_t *high);

/* A blocked filter that threads share: the calls above on one line of the words. They keep the rule
 * of the other calls on words that threads share. fastbloom_shared_clear, _union, _intersect,
 * _take, _load and _count_ones are for both kinds of filters. Where there are fewer than 8 words,
 * or more than 2^58 - 1, each of these calls returns false, and touches nothing. */

/* Sets all positions of a hash, by one operation for each word of its line that has some, and
 * returns whether these operations found all of them set already. So it returns false exactly if it
 * set a bit itself. */
bool fastbloom_blocked_shared_insert_hash(fastbloom_shared words, uint32_t num_hashes,
                                          uint64_t hash);

/* Whether all positions of a hash were found set, one after the other. While no call clears bits,
 * false means that no insert of it had returned when this call began. */
bool fastbloom_blocked_shared_contains_hash(fastbloom_shared words, uint32_t num_hashes,
                                            uint64_t hash);

/* The two calls above at the hash of the bytes. */
bool fastbloom_blocked_shared_insert(fastbloom_shared words, uint32_t num_hashes,
                                     const uint8_t key[16], const uint8_t *bytes, size_t len);
bool fastbloom_blocked_shared_contains(fastbloom_shared words, uint32_t num_hashes,
                                       const uint8_t key[16], const uint8_t *bytes, size_t len);

/* Inserts each of count hashes, and returns true. */
bool fastbloom_blocked_shared_insert_hashes(fastbloom_shared words, uint32_t num_hashes,
                                            const uint64_t *hashes, size_t count);

/* As fastbloom_shared_contains_hashes and fastbloom_shared_insert_hashes_tell_new. */
FASTBLOOM_MUST_USE bool fastbloom_blocked_shared_contains_hashes(fastbloom_shared words,
                                                                 uint32_t num_hashes,
                                                                 const uint64_t *hashes,
                                                                 size_t count, uint64_t *found,
                                                                 size_t num_found);
FASTBLOOM_MUST_USE bool
fastbloom_blocked_shared_insert_hashes_tell_new(fastbloom_shared words, uint32_t num_hashes,
                                                const uint64_t *hashes, size_t count,
                                                uint64_t *fresh, size_t num_fresh);

/* As fastbloom_blocked_estimate and fastbloom_blocked_rate_now, of the words as they are loaded, one
 * after the other. The first is written in C, and not proved. */
FASTBLOOM_MUST_USE bool fastbloom_blocked_shared_estimate(fastbloom_shared words,
                                                          uint32_t num_hashes, size_t *low,
                                                          size_t *high);
FASTBLOOM_MUST_USE bool fastbloom_blocked_shared_rate_now(fastbloom_shared words,
                                                          uint32_t num_hashes, uint64_t *low,
                                                          uint64_t *high);

/* A file is a head of 64 bytes and then the words. All numbers in it are little-endian. */

/* The seal of the file of these words, whatever their number: SipHash-1-3 of the first 40 bytes of
 * the head and of the words, under the key of zeros. */
uint64_t fastbloom_seal(const uint64_t *words, size_t num_words, uint32_t num_hashes,
                        const uint8_t key[16]);

/* Writes the head of a file with this seal, where 0 stands for a file without one. It returns
 * FASTBLOOM_OK; or FASTBLOOM_EMPTY_WORDS or FASTBLOOM_TOO_MANY_WORDS, and then it writes
 * nothing. */
FASTBLOOM_MUST_USE uint8_t fastbloom_head_write(size_t num_words, uint32_t num_hashes,
                                                const uint8_t key[16], uint64_t seal,
                                                uint8_t head[64]);

/* Reads the head of a file, and returns FASTBLOOM_OK; or the first reason for which these bytes are
 * no head: FASTBLOOM_NOT_A_FILTER, FASTBLOOM_UNKNOWN_VERSION, FASTBLOOM_HASH_COUNT,
 * FASTBLOOM_EMPTY_WORDS, FASTBLOOM_TOO_MANY_WORDS, FASTBLOOM_RESERVED or FASTBLOOM_BLOCKED. Then it
 * writes nothing.
 *
 * The size of the file and the seal are the caller's to compare: the file has 64 + 8 * num_words
 * bytes, and the seal is 0 or that of `fastbloom_seal`. Each call on a filter takes as many steps
 * as it has hashes, and a file may say 2^32 - 1 of them. So set a limit for files that others
 * made. */
FASTBLOOM_MUST_USE uint8_t fastbloom_head_read(const uint8_t head[64], size_t *num_words,
                                               uint32_t *num_hashes, uint8_t key[16],
                                               uint64_t *seal);

/* The same for the file of a blocked filter. Bytes 48 to 55 of its head say that the words are
 * lines, and its seal covers these bytes too, so fastbloom_seal gives another one. For words that
 * are no whole lines fastbloom_blocked_head_write returns FASTBLOOM_PART_OF_A_LINE, and writes
 * nothing. fastbloom_blocked_head_read refuses them by the same number, and the head of a filter
 * that isn't blocked by FASTBLOOM_NOT_BLOCKED. */
uint64_t fastbloom_blocked_seal(const uint64_t *words, size_t num_words, uint32_t num_hashes,
                                const uint8_t key[16]);
FASTBLOOM_MUST_USE uint8_t fastbloom_blocked_head_write(size_t num_words, uint32_t num_hashes,
                                                        const uint8_t key[16], uint64_t seal,
                                                        uint8_t head[64]);
FASTBLOOM_MUST_USE uint8_t fastbloom_blocked_head_read(const uint8_t head[64], size_t *num_words,
                                                       uint32_t *num_hashes, uint8_t key[16],
                                                       uint64_t *seal);

/* Files of filters. These calls are written in C, for Linux. They are tested and not proved.
 * Threads may make them at once. Where they return FASTBLOOM_INPUT or FASTBLOOM_OUTPUT, errno says
 * why. */

/* A filter that a call on files reads, maps or writes. */
typedef struct fastbloom_filter {
    uint64_t *words;
    size_t num_words;
    uint32_t num_hashes;
    uint8_t key[16];
} fastbloom_filter;

/* What a reader takes at most, of a file that others may have made. Where a call is given NULL, it
 * takes any number of words that the file has, and at most 64 hashes. */
typedef struct fastbloom_limits {
    size_t max_words;
    uint32_t max_hashes;
} fastbloom_limits;

#define FASTBLOOM_USUAL_HASHES 64

/* Reads a file into words of its own, which fastbloom_unload frees. It returns FASTBLOOM_OK; or why
 * the file is refused, and then the filter has no words: a reason of fastbloom_head_read,
 * FASTBLOOM_CUT, FASTBLOOM_TOO_LONG, FASTBLOOM_SEAL, FASTBLOOM_TOO_MANY_WORDS or
 * FASTBLOOM_TOO_MANY_HASHES for a limit, FASTBLOOM_MEMORY, or FASTBLOOM_INPUT. The size of the file
 * is compared before memory is asked for. */
FASTBLOOM_MUST_USE uint8_t fastbloom_load(const char *path, const fastbloom_limits *limits,
                                          fastbloom_filter *filter);

/* Frees what fastbloom_load read. The filter then has no words, and nothing is left to be freed. */
void fastbloom_unload(fastbloom_filter *filter);

/* How a file is mapped. Only a sealed file is read whole for it. */
enum fastbloom_map_mode {
    FASTBLOOM_MAP_READ = 0, /* the words are only read: a write ends the process by a signal */
    FASTBLOOM_MAP_COPY = 1, /* what is written stays in the process */
    FASTBLOOM_MAP_SHARE = 2 /* what is written goes into the file, and to all that map it so */
};

/* Maps a file, which fastbloom_unmap undoes. It returns what fastbloom_load does, and a file that
 * has a seal isn't shared: FASTBLOOM_SEALED. While it is mapped nobody writes into the file in
 * another way, or makes it shorter. A process that fills a shared file makes the calls for words
 * that threads share. Where the disk is full, a write into a hole of such a file ends the process
 * by SIGBUS, and so may each write where the file system copies what is written. */
FASTBLOOM_MUST_USE uint8_t fastbloom_map(const char *path, enum fastbloom_map_mode mode,
                                         const fastbloom_limits *limits, fastbloom_filter *filter);

/* Undoes fastbloom_map. The filter then has no words, and nothing is left to be undone. */
void fastbloom_unmap(fastbloom_filter *filter);

/* Writes a file, whole or not at all, with a seal or without one. The bytes go into a new file
 * beside it, which is flushed to the disk and then takes the name, with the owner, mode and ACL of
 * the file that had it, as far as this is allowed. Last the folder is flushed.
 *
 * A link there stays, and the file to which it leads is replaced, or made. What leads to a device, a
 * pipe or a descriptor of this process, as /dev/stdout, is written as a stream instead: nothing is
 * replaced or truncated, and a file to which the descriptor is open goes on at its place.
 *
 * It returns FASTBLOOM_OK; or FASTBLOOM_EMPTY_WORDS, FASTBLOOM_TOO_MANY_WORDS, FASTBLOOM_MEMORY or
 * FASTBLOOM_OUTPUT, and then the old file is as it was, while a stream may have a part of the new
 * one. Only where the flush of the folder failed, the new file is there. */
FASTBLOOM_MUST_USE uint8_t fastbloom_save(const char *path, const fastbloom_filter *filter,
                                          bool sealed);

/* The same calls for the file of a blocked filter. The calls above refuse such a file by
 * FASTBLOOM_BLOCKED, and these refuse the file of the other kind by FASTBLOOM_NOT_BLOCKED. They
 * return FASTBLOOM_PART_OF_A_LINE for words that are no whole lines. fastbloom_unload and
 * fastbloom_unmap are for both kinds. Words that are loaded or mapped begin at a multiple of 64
 * bytes, where a line of the cache does. */
FASTBLOOM_MUST_USE uint8_t fastbloom_blocked_load(const char *path, const fastbloom_limits *limits,
                                                  fastbloom_filter *filter);
FASTBLOOM_MUST_USE uint8_t fastbloom_blocked_map(const char *path, enum fastbloom_map_mode mode,
                                                 const fastbloom_limits *limits,
                                                 fastbloom_filter *filter);
FASTBLOOM_MUST_USE uint8_t fastbloom_blocked_save(const char *path, const fastbloom_filter *filter,
                                                  bool sealed);

#ifdef __cplusplus
}
#endif

/* A pointer whose length is 0 may be NULL, as that of an empty vector or text of C++ is. The names
 * of these calls stand for functions that hand over a pointer to a word of their own instead.
 * The library touches no memory behind it. Where FASTBLOOM_NO_WRAPPERS is defined, the names are
 * the library's own calls, which take no null pointer. */
#ifndef FASTBLOOM_NO_WRAPPERS

/* In C++ a function is one and the same wherever inline functions of classes call it. */
#ifdef __cplusplus
#define FASTBLOOM_INLINE inline
#else
#define FASTBLOOM_INLINE static inline
#endif

FASTBLOOM_INLINE uint64_t *fastbloom_words_(uint64_t *words, size_t len) {
    static uint64_t none;
    return len == 0 ? &none : words;
}

FASTBLOOM_INLINE const uint64_t *fastbloom_read_words_(const uint64_t *words, size_t len) {
    static const uint64_t none = 0;
    return len == 0 ? &none : words;
}

FASTBLOOM_INLINE const uint8_t *fastbloom_bytes_(const uint8_t *bytes, size_t len) {
    static const uint8_t none = 0;
    return len == 0 ? &none : bytes;
}

#error "this header lacks functions: include the one that bin/build-c makes"

#endif

#endif
