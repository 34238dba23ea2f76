#define _GNU_SOURCE
#include "calls.h"

#include <errno.h>
#include <signal.h>
#include <stdlib.h>
#include <string.h>
#include <sys/mman.h>
#include <sys/types.h>
#include <unistd.h>

struct calls calls;

void calls_anew(void)
{
    memset(&calls, 0, sizeof calls);
}

ssize_t __real_pwrite(int fd, const void *bytes, size_t len, off_t at);
ssize_t __real_pread(int fd, void *bytes, size_t len, off_t at);
int __real_fdatasync(int fd);
int __real_flock(int fd, int how);
void *__real_mmap(void *at, size_t len, int rights, int kind, int fd, off_t from);
int __real_madvise(void *at, size_t len, int advice);
void *__real_malloc(size_t len);
void *__real_calloc(size_t count, size_t len);
void *__real_realloc(void *block, size_t len);

ssize_t __wrap_pwrite(int fd, const void *bytes, size_t len, off_t at);
ssize_t __wrap_pread(int fd, void *bytes, size_t len, off_t at);
int __wrap_fdatasync(int fd);
int __wrap_flock(int fd, int how);
void *__wrap_mmap(void *at, size_t len, int rights, int kind, int fd, off_t from);
int __wrap_madvise(void *at, size_t len, int advice);
void *__wrap_malloc(size_t len);
void *__wrap_calloc(size_t count, size_t len);
void *__wrap_realloc(void *block, size_t len);

/* Notes a call, and gives what becomes of it. */
static enum outcome note(int is_write, uint64_t at, uint64_t len)
{
    if (calls.count < MADE_MOST)
        calls.made[calls.count] = (struct made){is_write, at, len};
    calls.count++;
    if (calls.count != calls.at)
        return AS_IT_IS;
    if (calls.outcome == KILLS)
        kill(getpid(), SIGKILL);
    return calls.outcome;
}

static int fails(int reason)
{
    errno = reason;
    return -1;
}

ssize_t __wrap_pwrite(int fd, const void *bytes, size_t len, off_t at)
{
    if (calls.within != NULL)
        calls.within();
    switch (note(1, (uint64_t)at, len)) {
    case FAILS:
        return fails(calls.reason);
    case IS_INTERRUPTED:
        return fails(EINTR);
    case WRITES_NONE:
        return 0;
    case IS_SHORT:
        return len < 2 ? fails(EINTR) : __real_pwrite(fd, bytes, len / 2, at);
    case TEARS:
        __real_pwrite(fd, bytes, len / 2, at);
        kill(getpid(), SIGKILL);
        return -1;
    default:
        return __real_pwrite(fd, bytes, len, at);
    }
}

int __wrap_fdatasync(int fd)
{
    switch (note(0, 0, 0)) {
    case FAILS:
        return fails(calls.reason);
    case IS_INTERRUPTED:
    case IS_SHORT:
        return fails(EINTR);
    case TEARS:
        kill(getpid(), SIGKILL);
        return -1;
    default:
        return __real_fdatasync(fd);
    }
}

ssize_t __wrap_pread(int fd, void *bytes, size_t len, off_t at)
{
    int outcome = calls.reads_outcome;
    calls.reads_outcome = AS_IT_IS;
    if (outcome == FAILS)
        return fails(EIO);
    if (outcome == IS_INTERRUPTED)
        return fails(EINTR);
    return __real_pread(fd, bytes, outcome == IS_SHORT ? len / 2 : len, at);
}

int __wrap_flock(int fd, int how)
{
    return calls.locks_fail ? fails(ENOLCK) : __real_flock(fd, how);
}

void *__wrap_mmap(void *at, size_t len, int rights, int kind, int fd, off_t from)
{
    if (calls.maps_fail != 0) {
        errno = calls.maps_fail;
        return MAP_FAILED;
    }
    return __real_mmap(at, len, rights, kind, fd, from);
}

int __wrap_madvise(void *at, size_t len, int advice)
{
    calls.given_back += advice == MADV_DONTNEED;
    return __real_madvise(at, len, advice);
}

static int has_memory(void)
{
    return ++calls.memory_count != calls.memory_at;
}

void *__wrap_malloc(size_t len)
{
    return has_memory() ? __real_malloc(len) : NULL;
}

void *__wrap_calloc(size_t count, size_t len)
{
    return has_memory() ? __real_calloc(count, len) : NULL;
}

void *__wrap_realloc(void *block, size_t len)
{
    return has_memory() ? __real_realloc(block, len) : NULL;
}
