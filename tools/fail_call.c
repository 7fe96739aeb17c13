/* Loaded into a process before the C library (LD_PRELOAD), it has one call fail, or move one byte where several were asked for.

   FAIL_CALL names the sort of calls: memory (malloc, realloc), fail or short (reads, writes and syncs). FAIL_AT is the number of the call, from 1. FAIL_TELL is an
   open descriptor, to which one byte is written when it has come to that. Build it with cc -shared -fPIC. */
#include <errno.h>
#include <stdatomic.h>
#include <stddef.h>
#include <stdlib.h>
#include <string.h>
#include <sys/syscall.h>
#include <sys/types.h>
#include <unistd.h>

void *__libc_malloc(size_t);
void *__libc_realloc(void *, size_t);

static atomic_long made;

/* Whether this call, of one of two sorts, is the one. */
static int is_due(const char *sort) {
    const char *wanted = getenv("FAIL_CALL"), *at = getenv("FAIL_AT"), *tell = getenv("FAIL_TELL");
    if (!wanted || !at || strcmp(wanted, sort) || atomic_fetch_add(&made, 1) + 1 != atol(at))
        return 0;
    if (tell)
        syscall(SYS_write, atoi(tell), "!", 1);
    return 1;
}

/* How many bytes such a call may move, or -1 where it fails. */
static ssize_t allowed(size_t count) {
    if (is_due("fail")) {
        errno = EIO;
        return -1;
    }
    return count > 1 && is_due("short") ? 1 : (ssize_t)count;
}

void *malloc(size_t size) {
    if (is_due("memory")) {
        errno = ENOMEM;
        return NULL;
    }
    return __libc_malloc(size);
}

void *realloc(void *old, size_t size) {
    if (is_due("memory")) {
        errno = ENOMEM;
        return NULL;
    }
    return __libc_realloc(old, size);
}

#define MOVES(call)                        \
    ssize_t some = allowed(count);         \
    return some < 0 ? -1 : syscall call

ssize_t read(int file, void *bytes, size_t count) { MOVES((SYS_read, file, bytes, some)); }
ssize_t write(int file, const void *bytes, size_t count) { MOVES((SYS_write, file, bytes, some)); }
ssize_t __write(int file, const void *bytes, size_t count) { MOVES((SYS_write, file, bytes, some)); }
ssize_t pread(int file, void *bytes, size_t count, off_t at) { MOVES((SYS_pread64, file, bytes, some, at)); }
ssize_t pwrite(int file, const void *bytes, size_t count, off_t at) { MOVES((SYS_pwrite64, file, bytes, some, at)); }
ssize_t recv(int file, void *bytes, size_t count, int flags) { MOVES((SYS_recvfrom, file, bytes, some, flags, NULL, NULL)); }
ssize_t send(int file, const void *bytes, size_t count, int flags) { MOVES((SYS_sendto, file, bytes, some, flags, NULL, 0)); }
int fsync(int file) { return allowed(0) < 0 ? -1 : (int)syscall(SYS_fsync, file); }
int fdatasync(int file) { return allowed(0) < 0 ? -1 : (int)syscall(SYS_fdatasync, file); }
