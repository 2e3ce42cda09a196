/* Every operation that the calls on shared words make: `steps`.
 *
 * The words lie on pages that nobody may touch. Each instruction that touches them is caught, noted
 * and made alone, with the word before and after it. What a call made is compared with its script
 * from the first operation to the last: the words in their order, one locked instruction for each
 * step that changes a word, and nothing beside them. The positions are computed here once more. */
#define _GNU_SOURCE
#include "fastbloom.h"

#include <signal.h>
#include <stdio.h>
#include <stdlib.h>
#include <string.h>
#include <sys/mman.h>
#include <ucontext.h>
#include <unistd.h>

__extension__ typedef unsigned __int128 wide;

enum { LARGE = 1 << 19, LINES = 1 << 17, MOST = 1 << 19, MANY = 130, TRAP = 0x100, WRITES = 2 };
enum kind { LOADS, STORES, LOCKED };
struct operation {
    size_t word;
    enum kind kind;
    uint64_t before, after;
};

static const uint8_t key[16] = {1, 2, 3};
static struct operation *made;
static size_t num_made, next_made, page, size;
static unsigned char *words_at; /* the words of a filter, and LARGE words later those of another */
static size_t num_words;
static uint32_t num_hashes;
static uint64_t hashes[MANY], calls, wrong;
static const char *call = "";
static int blocked, failed; /* what the filter is, and whether the call did */

/* Tells what is wrong first with a call. */
static void fail(const char *what) {
    if (!failed && wrong++ < 20)
        fprintf(stderr, "%s: operation %zu of %zu, %zu words, %u hashes, blocked %d: %s\n", what,
                next_made, num_made, num_words, (unsigned)num_hashes, blocked, call);
    failed = 1;
}

static void protect(void *at, int how) {
    uintptr_t first = (uintptr_t)at / page * page;
    if (mprotect((void *)first, page, how) != 0) _exit(2);
}

/* Whether an instruction locks its word: it has the prefix, or is an exchange, which always does. */
static int is_locked(const unsigned char *at) {
    if (*at == 0xf0) return 1;
    at += (*at & 0xf0) == 0x40;
    return *at == 0x86 || *at == 0x87;
}

/* Notes an instruction that touches a word, and lets it alone be made. */
static void touched(int number, siginfo_t *about, void *context) {
    greg_t *registers = ((ucontext_t *)context)->uc_mcontext.gregs;
    uintptr_t at = (uintptr_t)about->si_addr - (uintptr_t)words_at;
    (void)number;
    if (at >= size || num_made == MOST) _exit(3);
    struct operation *it = &made[num_made];
    protect(about->si_addr, PROT_READ | PROT_WRITE);
    it->word = at / 8;
    it->before = ((uint64_t *)words_at)[it->word];
    it->kind = (registers[REG_ERR] & WRITES) == 0                     ? LOADS
               : is_locked((const unsigned char *)registers[REG_RIP]) ? LOCKED
                                                                      : STORES;
    registers[REG_EFL] |= TRAP;
}

static void stepped(int number, siginfo_t *about, void *context) {
    struct operation *it = &made[num_made++];
    (void)number, (void)about;
    it->after = ((uint64_t *)words_at)[it->word];
    protect(&((uint64_t *)words_at)[it->word], PROT_NONE);
    ((ucontext_t *)context)->uc_mcontext.gregs[REG_EFL] &= ~(greg_t)TRAP;
}

static void catch_by(int number, void (*handler)(int, siginfo_t *, void *)) {
    struct sigaction action;
    memset(&action, 0, sizeof action);
    action.sa_sigaction = handler;
    action.sa_flags = SA_SIGINFO;
    if (sigaction(number, &action, NULL) != 0) abort();
}

/* The hash of a number, spread evenly: the finish of splitmix64. */
static uint64_t hash_of(uint64_t number) {
    uint64_t word = number + UINT64_C(0x9e3779b97f4a7c15);
    word = (word ^ (word >> 30)) * UINT64_C(0xbf58476d1ce4e5b9);
    word = (word ^ (word >> 27)) * UINT64_C(0x94d049bb133111eb);
    return word ^ (word >> 31);
}

/* The steps of scripts, of which each is the next operation. */

static const struct operation *next(size_t word) {
    static const struct operation none;
    if (next_made < num_made && made[next_made].word == word) return &made[next_made++];
    fail("another word");
    return &none;
}

static uint64_t is_load(size_t word) {
    const struct operation *it = next(word);
    if (it->kind != LOADS) fail("no load");
    return it->before;
}

/* One locked instruction leads to this word. An instruction that exchanges a word if it is still
 * what a load found comes behind that load. */
static void is_change(size_t word, uint64_t mask, int sets, int loads) {
    const struct operation *it = next(word);
    if (loads && it->kind == LOADS) it = next(word);
    if (it->kind != LOCKED) fail("no locked instruction");
    if (it->after != (sets ? it->before | mask : it->before & mask)) fail("another change");
}

static size_t place(uint64_t hash, size_t words, uint64_t *mask) {
    wide product = (wide)hash * words;
    *mask = UINT64_C(1) << (unsigned)(product >> 58) % 64;
    return (size_t)(product >> 64);
}

static uint64_t follow(uint64_t hash, uint64_t source) {
    return ((hash << 5) | (hash >> 59)) + source * UINT64_C(0x517cc1b727220a95);
}

/* The first word of the line of a hash, the number of words in it, and the hash that chooses its
 * positions there: of a plain filter all words. */
static size_t line_of(uint64_t *hash, size_t *words) {
    *words = blocked ? 8 : num_words;
    if (!blocked) return 0;
    size_t line = (size_t)((wide)*hash * (num_words / 8) >> 64);
    *hash *= UINT64_C(0x517cc1b727220a95);
    return 8 * line;
}

static void is_insert(uint64_t hash) {
    size_t words, start = line_of(&hash, &words);
    uint64_t masks[8] = {0}, mask, at = hash;
    for (uint32_t i = 0; i < num_hashes; i++, at = follow(at, hash)) {
        size_t word = place(at, words, &mask);
        if (blocked)
            masks[word] |= mask;
        else
            is_change(word, mask, 1, 1);
    }
    for (size_t i = 0; i < 8; i++)
        if (masks[i] != 0) is_change(start + i, masks[i], 1, 1);
}

static void is_look_up(uint64_t hash) {
    size_t words, start = line_of(&hash, &words);
    uint64_t mask, at = hash;
    for (uint32_t i = 0; i < num_hashes; i++, at = follow(at, hash)) {
        size_t word = place(at, words, &mask);
        if ((is_load(start + word) & mask) == 0) return;
    }
}

static void is_read_ahead(uint64_t hash) {
    size_t words, start = line_of(&hash, &words);
    uint64_t mask, at = hash;
    for (uint32_t i = 0; i < num_hashes && !blocked; i++, at = follow(at, hash))
        is_load(place(at, words, &mask));
    if (blocked) is_load(start), is_load(start + 7);
}

/* From four mebibytes on sixteen hashes are read ahead, in lines 64 from one mebibyte on. */
static void are_inserts(size_t count) {
    size_t together = blocked ? 64 : 16;
    int reads_ahead = num_words >= (blocked ? LINES : LARGE);
    for (size_t done = 0; done < count;) {
        size_t some = count - done < together ? count - done : together;
        for (size_t i = 0; i < some && reads_ahead && (blocked || some == together); i++)
            is_read_ahead(hashes[done + i]);
        for (size_t i = 0; i < some; i++) is_insert(hashes[done + i]);
        done += some;
    }
}

/* Begins a call, whose operations are noted. */
static fastbloom_shared begin(const char *name) {
    calls++, call = name, failed = 0;
    next_made = num_made = 0;
    return (fastbloom_shared){(uint64_t *)words_at, num_words};
}

/* Makes a call, which is to be true, and whose operations are those of a script and no others. */
#define IS(made_call, script)                                                                      \
    do {                                                                                           \
        fastbloom_shared words = begin(#made_call);                                                \
        if (!(made_call)) fail("another reply");                                                   \
        script;                                                                                    \
        if (next_made != num_made) fail("more operations");                                        \
    } while (0)

/* The calls of a plain filter, and of a blocked one. */
static const struct {
    bool (*insert_hash)(fastbloom_shared, uint32_t, uint64_t);
    bool (*contains_hash)(fastbloom_shared, uint32_t, uint64_t);
    bool (*insert)(fastbloom_shared, uint32_t, const uint8_t *, const uint8_t *, size_t);
    bool (*contains)(fastbloom_shared, uint32_t, const uint8_t *, const uint8_t *, size_t);
    bool (*insert_hashes)(fastbloom_shared, uint32_t, const uint64_t *, size_t);
    bool (*contains_hashes)(fastbloom_shared, uint32_t, const uint64_t *, size_t, uint64_t *,
                            size_t);
    bool (*tell_new)(fastbloom_shared, uint32_t, const uint64_t *, size_t, uint64_t *, size_t);
} kinds[] = {{fastbloom_shared_insert_hash, fastbloom_shared_contains_hash, fastbloom_shared_insert,
              fastbloom_shared_contains, fastbloom_shared_insert_hashes,
              fastbloom_shared_contains_hashes, fastbloom_shared_insert_hashes_tell_new},
             {fastbloom_blocked_shared_insert_hash, fastbloom_blocked_shared_contains_hash,
              fastbloom_blocked_shared_insert, fastbloom_blocked_shared_contains,
              fastbloom_blocked_shared_insert_hashes, fastbloom_blocked_shared_contains_hashes,
              fastbloom_blocked_shared_insert_hashes_tell_new}};

static void try_one(uint64_t hash) {
    for (int again = 0; again < 2; again++) {
        IS(kinds[blocked].contains_hash(words, num_hashes, hash) || !again, is_look_up(hash));
        IS(kinds[blocked].insert_hash(words, num_hashes, hash) || !again, is_insert(hash));
    }
    hash = fastbloom_hash(key, key, 5);
    IS(kinds[blocked].insert(words, num_hashes, key, key, 5) || 1, is_insert(hash));
    IS(kinds[blocked].contains(words, num_hashes, key, key, 5), is_look_up(hash));
}

static void try_many(size_t count) {
    uint64_t bits[(MANY + 63) / 64];
    size_t room = (count + 63) / 64;
    IS(kinds[blocked].insert_hashes(words, num_hashes, hashes, count), are_inserts(count));
    IS(kinds[blocked].contains_hashes(words, num_hashes, hashes, count, bits, room),
       for (size_t i = 0; i < count; i++) is_look_up(hashes[i]));
    IS(kinds[blocked].tell_new(words, num_hashes, hashes, count, bits, room),
       for (size_t i = 0; i < count; i++) is_insert(hashes[i]));
    if (count == 0) return;
    IS(!kinds[blocked].contains_hashes(words, num_hashes, hashes, count, bits, room - 1), );
    IS(!kinds[blocked].tell_new(words, num_hashes, hashes, count, bits, room - 1), );
}

static void fill(void) {
    for (size_t i = 0; i < num_words; i++) ((uint64_t *)words_at)[i] = UINT64_MAX;
}

/* The calls on all words, and those that are refused. */
static void try_whole(void) {
    static uint64_t copy[64];
    size_t low, high;
    uint64_t rate;
    fastbloom_shared other = {(uint64_t *)words_at + LARGE, num_words};
    fastbloom_shared fewer = {other.words, num_words - 1};
    IS(fastbloom_shared_load(words, copy, num_words),
       for (size_t i = 0; i < num_words; i++) is_load(i));
    IS((fastbloom_shared_count_ones(words), 1), for (size_t i = 0; i < num_words; i++) is_load(i));
    IS(fastbloom_shared_estimate(words, num_hashes, &low, &high),
       for (size_t i = 0; i < num_words; i++) is_load(i));
    IS(fastbloom_shared_rate_now(words, num_hashes, &rate, &rate),
       for (size_t i = 0; i < num_words; i++) is_load(i));
    IS(fastbloom_shared_union(words, other),
       for (size_t i = 0; i < num_words; i++) is_change(i, is_load(LARGE + i), 1, 1));
    IS(fastbloom_shared_intersect(words, other),
       for (size_t i = 0; i < num_words; i++) is_change(i, is_load(LARGE + i), 0, 1));
    IS(!fastbloom_shared_union(words, fewer), );
    IS(!fastbloom_shared_intersect(words, fewer), );
    IS(!fastbloom_shared_take(words, copy, num_words - 1), );
    IS(!fastbloom_shared_load(words, copy, num_words - 1), );
    fill();
    IS(fastbloom_shared_take(words, copy, num_words),
       for (size_t i = 0; i < num_words; i++) is_change(i, 0, 0, 0));
    fill();
    IS(fastbloom_shared_clear(words), for (size_t i = 0; i < num_words; i++) is_change(i, 0, 0, 0));
}

static void try_all(size_t words, uint32_t count) {
    static const size_t many[] = {0, 1, 15, 16, 17, 63, 64, 65, MANY};
    num_words = words, num_hashes = count;
    for (blocked = 0; blocked < 2 && words >= 8 * (size_t)blocked; blocked++) {
        for (size_t i = 0; i < 3; i++) try_one(hashes[i]);
        for (size_t i = 0; i < sizeof many / sizeof *many; i++)
            if (count * many[i] <= 17000) try_many(many[i]);
    }
    if (words <= 64) try_whole();
}

int main(void) {
    static const struct {
        size_t words;
        uint32_t hashes;
    } shapes[] = {{1, 1},         {8, 2},      {64, 63},       {1, 64},    {17, 65},   {64, 1000},
                  {LINES - 1, 2}, {LINES, 65}, {LARGE - 1, 3}, {LARGE, 1}, {LARGE, 64}};
    page = (size_t)sysconf(_SC_PAGESIZE);
    size = 8 * (LARGE + 64) / page * page + page;
    made = malloc(MOST * sizeof *made);
    words_at = mmap(NULL, size, PROT_READ | PROT_WRITE, MAP_PRIVATE | MAP_ANONYMOUS, -1, 0);
    if (made == NULL || words_at == MAP_FAILED) return 1;
    for (size_t i = 0; i < LARGE + 64; i++) ((uint64_t *)words_at)[i] = hash_of(i);
    for (size_t i = 0; i < MANY; i++) hashes[i] = hash_of(1000 + i);
    catch_by(SIGSEGV, touched);
    catch_by(SIGTRAP, stepped);
    if (mprotect(words_at, size, PROT_NONE) != 0) return 1;
    for (size_t i = 0; i < sizeof shapes / sizeof *shapes; i++)
        try_all(shapes[i].words, shapes[i].hashes);
    printf("%llu calls\n", (unsigned long long)calls);
    return wrong > 0;
}
