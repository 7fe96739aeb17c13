/* A connection to a server, and requests in flight on it. */
#ifndef SESSION_H
#define SESSION_H
#include <stdint.h>
#include <stddef.h>
#include <stdnoreturn.h>

enum { LANES = 64, MOST_NODES = 1 << 24, FRESH = 4000, DATA_FILES = 16, DEEP = 8, READ_MOST = 65536, PAGE_NAMES = 100, BIG_NAMES = 10000 };

struct reply {
    uint32_t len;
    int32_t error;
    uint64_t unique;
    const uint8_t *body;
    size_t body_len;
};

/* One request after another: the next is sent when the reply of the last has come. */
struct lane {
    int index, step;
    uint64_t node, handle, offset, other;
    long number;
};

struct session {
    int fd;
    uint8_t *in, *out;
    size_t in_begin, in_end, in_room, out_len, out_room;
    uint64_t serial, requests;
    uint64_t processor;             /* the nanoseconds that the server's threads ran in the last round */
    long left, number;              /* units of a round that were not begun, and that were */
    long known;
    uint64_t *known_nodes, known_folder, fresh_folder, data_folder, move_folder, page_folder, big_folder, made_folder, deep_folder;
    uint64_t data_nodes[DATA_FILES], data_handles[DATA_FILES];
    uint32_t *gained;               /* counts that a round brought, by node number */
    uint64_t *gained_list;
    size_t gained_len;
    long touch;                     /* how many of the known names are asked in turn */
    int error;                      /* the error that ended a round, where the work allows it */
    const char *root;
};

/* What a round does: `next` puts the lane's next request and answers 1, or answers 0 where the lane is done; `took` reads its reply. */
struct work {
    const char *name;
    int (*next)(struct session *, struct lane *);
    void (*took)(struct session *, struct lane *, const struct reply *);
    void (*before)(struct session *, long units);
    long most;                      /* units of one round at most */
    int names;                      /* names in a unit, where the time of one is told in place of a request's; else 0 */
    int may_fail;                   /* the first error ends the round and stands in the session, in place of the program's end */
};

noreturn void fail(const char *format, ...);
uint64_t now(void);
struct session *connect_to(const char *path, const char *root);
void send_all(struct session *s);
struct reply take_reply(struct session *s);
/* Sends what was put, and takes the one reply that is due: its body; any error fails. */
struct reply ask(struct session *s, const char *what);
uint64_t entry_of(const struct reply *r);
uint64_t handle_at(const struct reply *r, size_t at);
void gain(struct session *s, uint64_t node);
void forget_gained(struct session *s);
/* Runs so many units with so many requests in flight: the nanoseconds that it took. */
uint64_t run_round(struct session *s, const struct work *w, int depth, long units);
void set_up(struct session *s, long known, int bare);
void make_postings(struct session *s, long postings);
const struct work *find_work(const char *name);
void prepare(const char *root, long known);
#endif
