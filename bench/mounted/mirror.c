/* A mirror of one folder over libfuse's high-level library, mounted: it serves the open FUSE device that stands on its standard input.
 *
 *     mirror ROOT THREADS [clone]
 *
 * One thread is what libfuse's own programs do with -s; with more, so many at most take requests from the device, by one descriptor as libfuse does
 * unless it is told to, or with `clone` each by one of its own (clone_fd). Timeouts of names and attributes are libfuse's own, a second each, which is
 * what mirrord tells the kernel. The device was mounted by who started it, so no option of a mount is this program's. */
#include "../against-libfuse/operations.h"
#include <stdio.h>
#include <stdlib.h>
#include <string.h>
#include <sys/stat.h>

static int loop(struct fuse *fuse, int threads, int clone)
{
    struct fuse_loop_config *config = fuse_loop_cfg_create();
    if (!config)
        return 1;
    fuse_loop_cfg_set_max_threads(config, threads);
    fuse_loop_cfg_set_clone_fd(config, clone);
    int answer = fuse_loop_mt(fuse, config);
    fuse_loop_cfg_destroy(config);
    return answer;
}

int main(int count, char **words)
{
    char *names[] = {"mirror", 0};
    struct fuse_args args = FUSE_ARGS_INIT(1, names);
    int clone = count == 4 && !strcmp(words[3], "clone");
    int threads = count == 3 + clone ? atoi(words[2]) : 0;
    umask(0);
    struct fuse *fuse = threads > 0 && open_folder(words[1], 0) ? fuse_new(&args, &operations, sizeof operations, 0) : 0;
    if (!fuse || fuse_mount(fuse, "/dev/fd/0")) {
        fputs("mirror: it cannot be started\n", stderr);
        return 1;
    }
    int answer = threads == 1 ? fuse_loop(fuse) : loop(fuse, threads, clone);
    fuse_unmount(fuse);
    fuse_destroy(fuse);
    return answer != 0;
}
