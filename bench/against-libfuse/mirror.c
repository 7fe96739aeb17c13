/* A mirror of one folder over libfuse's high-level library, served over a Unix socket to one client by one thread, or by libfuse's pool.
 *
 *     mirror ROOT SOCKET THREADS [looks]
 *
 * It is what mirrord is compared with. What could be chosen is chosen so that libfuse is fast: paths are looked up from the open
 * folder, files stay open between OPEN and RELEASE and are read by pread, requests that have a handle ask for no path, and one
 * receive takes all bytes that are there. A reply is one writev, as libfuse makes it. More threads than one are libfuse's own pool: one
 * at a time takes a frame and one at a time writes a reply, since a stream keeps no two apart, as the kernel's device does.
 *
 * With `looks` it looks as often as mirrord does at what stands at a path before it reads, writes, makes, removes, moves or lists there,
 * so that libfuse is seen beside mirrord with the same calls of the system. It makes nothing of what it sees. */
#include "operations.h"
#include <fuse3/fuse_lowlevel.h>
#include <errno.h>
#include <pthread.h>
#include <stdio.h>
#include <stdlib.h>
#include <string.h>
#include <sys/socket.h>
#include <sys/stat.h>
#include <sys/uio.h>
#include <sys/un.h>
#include <unistd.h>

enum { ROOM = 1 << 18 };

static char received[ROOM];             /* what was received and not handed on */
static size_t received_begin, received_end;

/* The next frame whole, as a read of /dev/fuse gives it; 0 where the client has gone. */
static ssize_t read_frame(int fd, void *frame, size_t room, void *unused)
{
    uint32_t len = 0;
    (void)unused;
    for (;;) {
        size_t have = received_end - received_begin;
        if (have >= sizeof len)
            memcpy(&len, received + received_begin, sizeof len);
        if (have >= sizeof len && have >= len)
            break;
        if (received_begin + (len ? len : sizeof len) > ROOM || !have) {
            memmove(received, received + received_begin, have);
            received_begin = 0;
            received_end = have;
        }
        ssize_t n = recv(fd, received + received_end, ROOM - received_end, 0);
        if (n <= 0) {
            errno = ENODEV;     /* what an unmounted device says */
            return -1;
        }
        received_end += n;
    }
    if (len > room)
        return -1;
    memcpy(frame, received + received_begin, len);
    received_begin += len;
    return len;
}

/* A reply whole: a blocking socket takes all of it, but for a signal. */
static ssize_t write_reply(int fd, struct iovec *pieces, int count, void *unused)
{
    (void)unused;
    return writev(fd, pieces, count);
}

static pthread_mutex_t taking = PTHREAD_MUTEX_INITIALIZER, giving = PTHREAD_MUTEX_INITIALIZER;

static void unlock(void *mutex)
{
    pthread_mutex_unlock(mutex);
}

/* The pool ends its threads where they wait, so also in here. */
static ssize_t read_in_turn(int fd, void *frame, size_t room, void *unused)
{
    ssize_t n;
    pthread_mutex_lock(&taking);
    pthread_cleanup_push(unlock, &taking);
    n = read_frame(fd, frame, room, unused);
    pthread_cleanup_pop(1);
    return n;
}

static ssize_t write_in_turn(int fd, struct iovec *pieces, int count, void *unused)
{
    ssize_t n;
    pthread_mutex_lock(&giving);
    pthread_cleanup_push(unlock, &giving);
    n = write_reply(fd, pieces, count, unused);
    pthread_cleanup_pop(1);
    return n;
}

static void loop(struct fuse *fuse, int threads)
{
    struct fuse_loop_config *config = fuse_loop_cfg_create();
    fuse_loop_cfg_set_max_threads(config, threads);
    fuse_loop_mt(fuse, config);
    fuse_loop_cfg_destroy(config);
}

static int listen_on(const char *path)
{
    struct sockaddr_un address = {.sun_family = AF_UNIX};
    snprintf(address.sun_path, sizeof address.sun_path, "%s", path);
    int listening = socket(AF_UNIX, SOCK_STREAM, 0);
    if (bind(listening, (struct sockaddr *)&address, sizeof address) || listen(listening, 1))
        return -1;
    int client = accept(listening, 0, 0);
    close(listening);
    unlink(path);
    return client;
}

int main(int count, char **words)
{
    static const struct fuse_custom_io alone = {.writev = write_reply, .read = read_frame};
    static const struct fuse_custom_io pool = {.writev = write_in_turn, .read = read_in_turn};
    char *names[] = {"mirror", 0};
    struct fuse_args args = FUSE_ARGS_INIT(1, names);
    int looks = count == 5 && !strcmp(words[4], "looks");
    int threads = count == 4 + looks ? atoi(words[3]) : 0;
    int there = threads > 0 && open_folder(words[1], looks);
    umask(0);
    struct fuse *fuse = !there ? 0 : fuse_new(&args, &operations, sizeof operations, 0);
    int client = fuse ? listen_on(words[2]) : -1;
    if (client < 0 || fuse_session_custom_io(fuse_get_session(fuse), threads == 1 ? &alone : &pool, client)) {
        fputs("mirror: it cannot be started\n", stderr);
        return 1;
    }
    if (threads == 1)
        fuse_loop(fuse);
    else
        loop(fuse, threads);
    fuse_destroy(fuse);
    return 0;
}
