/* A shim over malloc and realloc that refuses one request after the other. Those between the first
   look at the clock and the second are counted. At each one that is chosen the process is
   forked: the child has this request refused and all others met, and goes on to its end; then the
   process itself goes on, with the request met. So a child costs what is left of the run. Standard
   output has a line with the number before what a child prints, a line with its wait status behind
   that, and a last line with the number of all requests.

   Chosen are every request whose number TD_EACH divides, and the first and the last hundred of
   TD_REQUESTS; without TD_EACH none is. */
#define _GNU_SOURCE
#include <dlfcn.h>
#include <stdio.h>
#include <stdlib.h>
#include <sys/wait.h>
#include <time.h>
#include <unistd.h>

enum { ENDS = 100, SECONDS = 120 };

static long each, total, requests;
static int looks, is_child;

extern void *__libc_malloc(size_t);
extern void *__libc_realloc(void *, size_t);

static int is_chosen(void) {
    return each && (requests % each == 0 || requests <= ENDS || requests > total - ENDS);
}

/* Without a request for memory, as dprintf would make one. */
static void say(const char *what, long number) {
    char line[64];
    int length = snprintf(line, sizeof line, "%s %ld\n", what, number);
    if (write(1, line, (size_t)length) != length) abort();
}

/* In the child the answer is that the request is refused. */
static int is_child_of_fork(void) {
    int status;
    say("request", requests);
    pid_t child = fork();
    if (child == 0) {
        is_child = 1;
        alarm(SECONDS);
        return 1;
    }
    if (child < 0 || waitpid(child, &status, 0) < 0) abort();
    say("ended", status);
    return 0;
}

static int is_refused(void) {
    if (looks != 1 || is_child) return 0;
    requests++;
    return is_chosen() && is_child_of_fork();
}

void *malloc(size_t bytes) {
    return is_refused() ? NULL : __libc_malloc(bytes);
}

void *realloc(void *old, size_t bytes) {
    return is_refused() ? NULL : __libc_realloc(old, bytes);
}

int clock_gettime(clockid_t id, struct timespec *time) {
    static int (*real)(clockid_t, struct timespec *);
    if (!real) *(void **)&real = dlsym(RTLD_NEXT, "clock_gettime");
    looks++;
    return real(id, time);
}

static long number(const char *name) {
    const char *text = getenv(name);
    return text ? atol(text) : 0;
}

__attribute__((constructor)) static void begin(void) {
    each = number("TD_EACH");
    total = number("TD_REQUESTS");
}

__attribute__((destructor)) static void end(void) {
    if (!is_child) say("requests", requests);
}
