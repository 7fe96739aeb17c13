/* Loaded into a server before the C library (LD_PRELOAD): each look at a path takes a millisecond longer, as on a slow disk. Build it with cc -shared -fPIC. */
#include <fcntl.h>
#include <sys/stat.h>
#include <sys/syscall.h>
#include <time.h>
#include <unistd.h>

static void wait_a_moment(void) {
    const struct timespec moment = {0, 1000000};
    nanosleep(&moment, NULL);
}

int fstatat(int folder, const char *path, struct stat *found, int flags) {
    if (*path)
        wait_a_moment();
    return (int)syscall(SYS_newfstatat, folder, path, found, flags);
}

int lstat(const char *path, struct stat *found) { return fstatat(AT_FDCWD, path, found, AT_SYMLINK_NOFOLLOW); }

int statx(int folder, const char *path, int flags, unsigned mask, struct statx *found) {
    if (*path)
        wait_a_moment();
    return (int)syscall(SYS_statx, folder, path, flags, mask, found);
}
