#define _GNU_SOURCE
#include "session.h"
#include "frames.h"
#include <dirent.h>
#include <errno.h>
#include <stdarg.h>
#include <stdio.h>
#include <stdlib.h>
#include <string.h>
#include <sys/socket.h>
#include <sys/un.h>
#include <time.h>
#include <unistd.h>

noreturn void fail(const char *format, ...)
{
    va_list words;
    va_start(words, format);
    fputs("client: ", stderr);
    vfprintf(stderr, format, words);
    fputc('\n', stderr);
    va_end(words);
    exit(1);
}

uint64_t now(void)
{
    struct timespec t;
    clock_gettime(CLOCK_MONOTONIC, &t);
    return t.tv_sec * 1000000000ull + t.tv_nsec;
}

static void *need(void *memory)
{
    if (!memory)
        fail("no memory");
    return memory;
}

struct session *connect_to(const char *path, const char *root)
{
    struct session *s = need(calloc(1, sizeof *s));
    struct sockaddr_un address = {.sun_family = AF_UNIX};
    if (strlen(path) >= sizeof address.sun_path)
        fail("the path of the socket is too long");
    strcpy(address.sun_path, path);
    s->fd = socket(AF_UNIX, SOCK_STREAM, 0);
    for (int tries = 0; connect(s->fd, (struct sockaddr *)&address, sizeof address); tries++) {
        if (tries == 2000)
            fail("nobody listens on %s", path);
        usleep(5000);
    }
    s->root = root;
    s->in_room = 1 << 21;
    s->in = need(malloc(s->in_room));
    s->gained = need(calloc(MOST_NODES, sizeof *s->gained));
    s->gained_list = need(calloc(MOST_NODES, sizeof *s->gained_list));
    return s;
}

void send_all(struct session *s)
{
    size_t sent = 0;
    while (sent < s->out_len) {
        ssize_t n = send(s->fd, s->out + sent, s->out_len - sent, MSG_NOSIGNAL);
        if (n < 0 && errno != EINTR)
            fail("the server has gone");
        sent += n < 0 ? 0 : n;
    }
    s->out_len = 0;
}

/* Whether a whole reply was received, which is then described. */
static int whole_reply(struct session *s, struct reply *r)
{
    size_t have = s->in_end - s->in_begin;
    if (have < REPLY_HEAD)
        return 0;
    memcpy(r, s->in + s->in_begin, REPLY_HEAD);
    if (r->len < REPLY_HEAD || r->len > s->in_room)
        fail("a reply of %u bytes", r->len);
    if (have < r->len)
        return 0;
    r->body = s->in + s->in_begin + REPLY_HEAD;
    r->body_len = r->len - REPLY_HEAD;
    s->in_begin += r->len;
    return 1;
}

static void receive(struct session *s)
{
    if (s->in_begin == s->in_end)
        s->in_begin = s->in_end = 0;
    if (s->in_begin && s->in_room - s->in_end < s->in_room / 2) {
        memmove(s->in, s->in + s->in_begin, s->in_end - s->in_begin);
        s->in_end -= s->in_begin;
        s->in_begin = 0;
    }
    ssize_t n = recv(s->fd, s->in + s->in_end, s->in_room - s->in_end, 0);
    if (n == 0 || (n < 0 && errno != EINTR))
        fail("the server has gone");
    s->in_end += n < 0 ? 0 : n;
}

struct reply take_reply(struct session *s)
{
    struct reply r;
    while (!whole_reply(s, &r))
        receive(s);
    return r;
}

struct reply ask(struct session *s, const char *what)
{
    send_all(s);
    struct reply r = take_reply(s);
    if (r.error)
        fail("%s: error %d", what, -r.error);
    return r;
}

uint64_t entry_of(const struct reply *r)
{
    return handle_at(r, 0);
}

uint64_t handle_at(const struct reply *r, size_t at)
{
    uint64_t number;
    if (r->body_len < at + sizeof number)
        fail("a reply without its body");
    memcpy(&number, r->body + at, sizeof number);
    return number;
}

void gain(struct session *s, uint64_t node)
{
    if (node >= MOST_NODES)
        fail("a node number of %llu", (unsigned long long)node);
    if (!s->gained[node]++)
        s->gained_list[s->gained_len++] = node;
}

/* Gives back all counts that were gained, and waits until that is done. */
void forget_gained(struct session *s)
{
    enum { PAIRS = 1000 };
    static uint64_t body[1 + 2 * PAIRS];
    for (size_t at = 0; at < s->gained_len;) {
        size_t n = 0;
        for (; n < PAIRS && at < s->gained_len; n++, at++) {
            uint64_t node = s->gained_list[at];
            body[1 + 2 * n] = node;
            body[2 + 2 * n] = s->gained[node];
            s->gained[node] = 0;
        }
        body[0] = n;
        put_plain(s, 0, BATCH_FORGET, 0, body, 8 + 16 * n);
        send_all(s);
    }
    s->gained_len = 0;
    put_plain(s, 0, STATFS, ROOT, 0, 0);
    ask(s, "STATFS");
}

/* Takes what replies are due, until half of the lanes may send again. */
static int take_some(struct session *s, const struct work *w, struct lane *lanes, int *ready, int in_flight, int depth)
{
    int count = 0;
    do {
        struct reply r = take_reply(s);
        struct lane *lane = &lanes[r.unique % LANES];
        if (r.error && !s->error) {
            if (!w->may_fail)
                fail("%s: error %d at step %d", w->name, -r.error, lane->step);
            s->error = -r.error;
        }
        if (!r.error)
            w->took(s, lane, &r);
        ready[count++] = lane->index;
    } while (count < in_flight && (count < (depth + 1) / 2 || s->in_end - s->in_begin >= REPLY_HEAD));
    return count;
}

/* The nanoseconds that one thread ran, as the system tells them. */
static uint64_t thread_time(const char *process, const char *thread)
{
    char path[600], text[128] = "0";
    snprintf(path, sizeof path, "%s/%s/schedstat", process, thread);
    FILE *file = fopen(path, "r");
    if (file && !fgets(text, sizeof text, file))
        text[0] = 0;
    if (file)
        fclose(file);
    return strtoull(text, 0, 10);
}

/* The nanoseconds that the server's threads ran so far; 0 where the system does not tell. */
static uint64_t processor_time(struct session *s)
{
    struct ucred peer;
    socklen_t len = sizeof peer;
    char path[64];
    uint64_t sum = 0;
    if (getsockopt(s->fd, SOL_SOCKET, SO_PEERCRED, &peer, &len))
        return 0;
    snprintf(path, sizeof path, "/proc/%d/task", (int)peer.pid);
    DIR *tasks = opendir(path);
    for (struct dirent *entry; tasks && (entry = readdir(tasks));)
        if (entry->d_name[0] != '.')
            sum += thread_time(path, entry->d_name);
    if (tasks)
        closedir(tasks);
    return sum;
}

/* Keeps the lanes going until no unit is left: the nanoseconds that it took. */
static uint64_t run_lanes(struct session *s, const struct work *w, int depth)
{
    struct lane lanes[LANES] = {0};
    int ready[LANES], count = depth, in_flight = 0;
    for (int i = 0; i < depth; i++)
        lanes[i].index = ready[i] = i;
    uint64_t begun = now();
    for (;;) {
        for (int i = 0; i < count; i++)
            in_flight += w->next(s, &lanes[ready[i]]);
        send_all(s);
        if (!in_flight)
            return now() - begun;
        count = take_some(s, w, lanes, ready, in_flight, depth);
        in_flight -= count;
    }
}

uint64_t run_round(struct session *s, const struct work *w, int depth, long units)
{
    s->left = units;
    s->number = 0;
    if (w->before)
        w->before(s, units);
    s->requests = 0;
    uint64_t before = processor_time(s), took = run_lanes(s, w, depth);
    s->processor = processor_time(s) - before;
    return took;
}
