/* Loaded into a program by LD_PRELOAD, it refuses requests for memory: with REFUSED=3 the third, and
 * with REFUSED=3.. also each one behind it. With NO_THREAD=3 it refuses the third thread. It tells
 * each refusal on standard error. Requests count that come from between the two addresses in
 * ALLOCATOR, which begin with the program, so that those of C code, as for a thread's start, are
 * left alone. With WATCHED=32792 each thread that lets others run tells whether all that was given
 * in pieces of so many bytes is zero then. With TOLD=1 it tells each request, and all memory that is
 * given back: the address of what is replaced, the bytes asked for, and where they were given. */
#define _GNU_SOURCE
#include <dlfcn.h>
#include <errno.h>
#include <pthread.h>
#include <stdatomic.h>
#include <stdio.h>
#include <stdlib.h>
#include <sys/auxv.h>
#include <unistd.h>

enum { MOST_WATCHED = 8 };

extern void *__libc_malloc(size_t size);
extern void *__libc_realloc(void *old, size_t size);
extern void __libc_free(void *old);

/* Whether an address lies between the two that a text has. */
static int is_between(const char *text, const char *address) {
    Dl_info program;
    char *rest;
    if (!text || !dladdr((void *)getauxval(AT_ENTRY), &program)) return 0;
    unsigned long offset = (unsigned long)(address - (const char *)program.dli_fbase);
    return strtoul(text, &rest, 0) <= offset && offset < strtoul(rest, NULL, 0);
}

static int tell(int error) {
    errno = error;
    return write(STDERR_FILENO, "refused\n", 8) > 0;
}

static int is_refused(const void *caller) {
    static atomic_ulong requests;
    const char *refused = getenv("REFUSED");
    char *rest;
    if (!refused || !is_between(getenv("ALLOCATOR"), caller)) return 0;
    unsigned long number = atomic_fetch_add(&requests, 1) + 1, first = strtoul(refused, &rest, 10);
    if (number < first || (number > first && *rest != '.')) return 0;
    return tell(ENOMEM);
}

static void tell_request(const void *caller, const void *old, size_t size, const void *given) {
    char line[80];
    if (!getenv("TOLD") || (caller && !is_between(getenv("ALLOCATOR"), caller))) return;
    int length = snprintf(line, sizeof line, "request %p %zu %p\n", old, size, given);
    (void)!write(STDERR_FILENO, line, (size_t)length);
}

static size_t watched_size(void) {
    const char *size = getenv("WATCHED");
    return size ? strtoul(size, NULL, 10) : 0;
}

static _Atomic(const unsigned char *) watched[MOST_WATCHED];
static atomic_uint num_watched;

void *malloc(size_t size) {
    if (is_refused(__builtin_return_address(0))) return NULL;
    void *given = __libc_malloc(size);
    tell_request(__builtin_return_address(0), NULL, size, given);
    if (size > 0 && size == watched_size()) {
        unsigned number = atomic_fetch_add(&num_watched, 1);
        if (number < MOST_WATCHED) watched[number] = given;
    }
    return given;
}

int sched_yield(void) {
    size_t size = watched_size();
    unsigned pieces = 0, ones = 0;
    for (; size > 0 && pieces < MOST_WATCHED && watched[pieces] != NULL; pieces++)
        for (size_t i = 0; i < size; i++) ones |= watched[pieces][i];
    if (size > 0) (void)!write(STDERR_FILENO, !pieces ? "none\n" : ones ? "some\n" : "zero\n", 5);
    return 0;
}

void *realloc(void *old, size_t size) {
    if (is_refused(__builtin_return_address(0))) return NULL;
    void *given = __libc_realloc(old, size);
    tell_request(__builtin_return_address(0), old, size, given);
    return given;
}

void free(void *old) {
    tell_request(NULL, old, 0, NULL);
    __libc_free(old);
}

int pthread_create(pthread_t *thread, const pthread_attr_t *how, void *(*begin)(void *),
                   void *with) {
    static atomic_ulong threads;
    const char *refused = getenv("NO_THREAD");
    unsigned long number = atomic_fetch_add(&threads, 1) + 1;
    if (refused && number == strtoul(refused, NULL, 10)) {
        tell(EAGAIN);
        return EAGAIN;
    }
    int (*create)(pthread_t *, const pthread_attr_t *, void *(*)(void *), void *);
    *(void **)&create = dlsym(RTLD_NEXT, "pthread_create");
    return create(thread, how, begin, with);
}
