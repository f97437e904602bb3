/* A shim over the reads of standard input and the writes of standard output. TD_PIECE: a read gives
   at most so many bytes. TD_SHORT: a write takes at most so many. TD_READ and TD_WRITE: the read or
   the write of this number fails. TD_AGAIN: before each read and each write so many are
   interrupted. TD_SIZES: how many bytes each write was given is said on standard error. */
#define _GNU_SOURCE
#include <errno.h>
#include <stdio.h>
#include <stdlib.h>
#include <sys/syscall.h>
#include <unistd.h>

struct side {
    const char *limit, *fails;
    long number, interrupted;
};

static struct side reads = {"TD_PIECE", "TD_READ", 0, 0};
static struct side writes = {"TD_SHORT", "TD_WRITE", 0, 0};

static long said(const char *name, long otherwise) {
    const char *text = getenv(name);
    return text ? atol(text) : otherwise;
}

/* Whether this call is to fail, with the error that it is to have. */
static int fails(struct side *side) {
    if (side->interrupted < said("TD_AGAIN", 0)) {
        side->interrupted++;
        errno = EINTR;
        return 1;
    }
    side->interrupted = 0;
    errno = EIO;
    return ++side->number == said(side->fails, 0);
}

static size_t allowed(struct side *side, size_t room) {
    size_t limit = (size_t)said(side->limit, (long)room);
    return limit < room ? limit : room;
}

ssize_t read(int file, void *buffer, size_t room) {
    if (file == 0) {
        if (fails(&reads)) return -1;
        room = allowed(&reads, room);
    }
    return syscall(SYS_read, file, buffer, room);
}

ssize_t write(int file, const void *bytes, size_t count) {
    if (file == 1) {
        if (fails(&writes)) return -1;
        if (getenv("TD_SIZES")) dprintf(2, "%zu\n", count);
        count = allowed(&writes, count);
    }
    return syscall(SYS_write, file, bytes, count);
}
