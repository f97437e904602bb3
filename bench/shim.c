/* A shim over malloc and realloc. With TD_COUNT it says on standard error, for the time between the
   two looks at the clock that came last: how many requests were made, by how many bytes what is
   held grew, and by how many its peak was higher. With TD_REFUSE=N it refuses the request of the
   number N, and says on standard error whether that one came. */
#define _GNU_SOURCE
#include <dlfcn.h>
#include <errno.h>
#include <malloc.h>
#include <stdio.h>
#include <stdlib.h>
#include <time.h>

struct state { long requests, held, peak; };
static struct state now, looked[2];
static long refused;

extern void *__libc_malloc(size_t);
extern void *__libc_realloc(void *, size_t);
extern void __libc_free(void *);

/* What a block takes, with the word before it. */
static long size(void *block) {
    return block ? (long)malloc_usable_size(block) + (long)sizeof(size_t) : 0;
}

static int is_refused(void) {
    return ++now.requests == refused;
}

static void *hold(void *block, long before) {
    now.held += size(block) - before;
    if (now.held > now.peak) now.peak = now.held;
    return block;
}

void *malloc(size_t bytes) {
    return is_refused() ? NULL : hold(__libc_malloc(bytes), 0);
}

void *realloc(void *old, size_t bytes) {
    long before = size(old);
    if (is_refused()) return NULL;
    void *block = __libc_realloc(old, bytes);
    return block ? hold(block, before) : NULL;
}

void free(void *block) {
    now.held -= size(block);
    __libc_free(block);
}

int clock_gettime(clockid_t id, struct timespec *time) {
    static int (*real)(clockid_t, struct timespec *);
    if (!real) *(void **)&real = dlsym(RTLD_NEXT, "clock_gettime");
    looked[0] = looked[1];
    looked[1] = now;
    now.peak = now.held;
    return real(id, time);
}

__attribute__((constructor)) static void begin(void) {
    const char *number = getenv("TD_REFUSE");
    now.requests = 0;
    refused = number ? atol(number) : 0;
}

__attribute__((destructor)) static void end(void) {
    if (refused) fprintf(stderr, "%s\n", now.requests >= refused ? "refused" : "not reached");
    if (getenv("TD_COUNT"))
        fprintf(stderr, "%ld %ld %ld\n", looked[1].requests - looked[0].requests,
            looked[1].held - looked[0].held, looked[1].peak - looked[0].held);
}
