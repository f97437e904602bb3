/* A shim over read: each read of standard input gives at most TD_PIECE bytes, out of a buffer of
   its own, so that few of them are calls of the system. */
#define _GNU_SOURCE
#include <stdlib.h>
#include <string.h>
#include <sys/syscall.h>
#include <unistd.h>

static char held[1 << 20];
static size_t given, count;
static size_t piece;

static size_t least(size_t a, size_t b) {
    return a < b ? a : b;
}

ssize_t read(int file, void *buffer, size_t room) {
    if (file != 0) return syscall(SYS_read, file, buffer, room);
    if (!piece) piece = getenv("TD_PIECE") ? (size_t)atol(getenv("TD_PIECE")) : sizeof held;
    if (given == count) {
        ssize_t more = syscall(SYS_read, 0, held, sizeof held);
        if (more <= 0) return more;
        given = 0;
        count = (size_t)more;
    }
    size_t now = least(least(room, piece), count - given);
    memcpy(buffer, held + given, now);
    given += now;
    return (ssize_t)now;
}
