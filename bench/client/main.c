/* A client of the FUSE protocol 7.31 over a Unix socket, which measures servers. The programs of bench/ run it.
 *
 *     client prepare ROOT KNOWN
 *         makes the files and folders that the workloads use
 *     client run TOUCH ROUNDS TARGET_MS SOCKET=ROOT=KNOWN=POSTINGS .. -- WORKLOAD:DEPTH[:UNITS] ..
 *         measures each workload with all of the servers in turn, each of which has so many known nodes and postings before, and prints
 *         a line for it: WORKLOAD DEPTH REQUESTS, then for each round the nanoseconds of each server and those
 *         that its threads ran, as A:B
 *     client bare ROOT KNOWN SOCKET
 *         makes KNOWN names known and nothing else
 *     client long ROOT TOUCH DEPTH UNITS STEP SOCKET pairs|births
 *         LOOKUPs and FORGETs: for each STEP of them a line with their number, nanoseconds, those that the server's threads
 *         ran, and the error that ended them or 0
 *
 * It reads a line of standard input after `ready`, after `known` and after each line of `long`, so that memory can be looked at meanwhile. */
#include "session.h"
#include "frames.h"
#include <stdio.h>
#include <stdlib.h>
#include <string.h>

enum { SERVERS = 16, WARM_UNITS = 64 };

struct measure {
    struct session *servers[SERVERS];
    int count;
    long rounds, target;
};

static long number(const char *word)
{
    char *end;
    long n = strtol(word, &end, 10);
    if (*end || end == word)
        fail("%s is no number", word);
    return n;
}

static uint64_t one_round(struct session *s, const struct work *w, int depth, long units, uint64_t *requests)
{
    uint64_t took = run_round(s, w, depth, units);
    *requests = s->requests;
    forget_gained(s);
    return took;
}

/* How many units fill the time that a round is meant to take with the slower server. */
static long find_units(struct measure *m, const struct work *w, int depth)
{
    uint64_t slowest = 1, requests;
    long warm = w->most < WARM_UNITS ? w->most : WARM_UNITS;
    for (int turn = 0; turn < 2; turn++)
        for (int i = 0; i < m->count; i++) {
            uint64_t took = one_round(m->servers[i], w, depth, warm, &requests);
            slowest = turn && took > slowest ? took : slowest;
        }
    long units = (long)((double)m->target * 1e6 * warm / slowest);
    units = units > w->most ? w->most : units;
    return units < depth && depth < w->most ? depth : units < 1 ? 1 : units;
}

/* Measures one workload; which server comes first changes from round to round. */
static void measure_work(struct measure *m, char *word)
{
    char *name = strtok(word, ":"), *depth = strtok(0, ":"), *fixed = strtok(0, ":");
    const struct work *w = find_work(name);
    if (!depth)
        fail("a workload needs a depth");
    long units = fixed ? number(fixed) : find_units(m, w, number(depth));
    struct { uint64_t took, processor; } (*times)[SERVERS] = calloc(m->rounds, sizeof *times);
    uint64_t requests = 0;
    if (!times)
        fail("no memory");
    units = units > w->most ? w->most : units;
    for (long r = 0; r < m->rounds; r++)
        for (int i = 0; i < m->count; i++) {
            int turn = r % 2 ? m->count - 1 - i : (i + r / 2) % m->count;
            times[r][turn].took = one_round(m->servers[turn], w, number(depth), units, &requests);
            times[r][turn].processor = m->servers[turn]->processor;
        }
    printf("%s %s %llu", name, depth, (unsigned long long)(w->names ? (uint64_t)w->names * units : requests));
    for (long r = 0; r < m->rounds; r++)
        for (int i = 0; i < m->count; i++)
            printf(" %llu:%llu", (unsigned long long)times[r][i].took, (unsigned long long)times[r][i].processor);
    printf("\n");
    fflush(stdout);
    free(times);
}

static void end_session(struct session *s)
{
    put_plain(s, 0, DESTROY, 0, 0, 0);
    ask(s, "DESTROY");
}

/* Connects to one server and brings it to where it is measured. */
static struct session *start_server(char *word, long touch)
{
    char *path = strtok(word, "="), *root = strtok(0, "="), *known = strtok(0, "="), *postings = strtok(0, "=");
    if (!postings)
        fail("a server is SOCKET=ROOT=KNOWN=POSTINGS");
    struct session *s = connect_to(path, root);
    s->touch = touch;
    set_up(s, number(known), 0);
    make_postings(s, number(postings));
    return s;
}

static void run(char **words, int count)
{
    struct measure m = {.rounds = number(words[1]), .target = number(words[2])};
    int at = 3;
    for (; at < count && strcmp(words[at], "--") && m.count < SERVERS; at++)
        m.servers[m.count++] = start_server(words[at], number(words[0]));
    for (at++; at < count; at++)
        measure_work(&m, words[at]);
    for (int i = 0; i < m.count; i++)
        end_session(m.servers[i]);
}

static void run_long(char **words)
{
    struct session *s = connect_to(words[5], words[0]);
    const struct work *w = find_work(words[6]);
    long units = number(words[3]), step = number(words[4]);
    s->touch = number(words[1]);
    set_up(s, s->touch, 0);
    for (long done = 0; done < units && !s->error; done += step) {
        long now_due = units - done < step ? units - done : step;
        uint64_t took = run_round(s, w, number(words[2]), now_due);
        printf("step %llu %llu %llu %d\n", (unsigned long long)s->requests, (unsigned long long)took, (unsigned long long)s->processor, s->error);
        fflush(stdout);
        getchar();
    }
    end_session(s);
}

int main(int count, char **words)
{
    if (count == 4 && !strcmp(words[1], "prepare")) {
        prepare(words[2], number(words[3]));
    } else if (count >= 8 && !strcmp(words[1], "run")) {
        run(words + 2, count - 2);
    } else if (count == 5 && !strcmp(words[1], "bare")) {
        struct session *s = connect_to(words[4], words[2]);
        set_up(s, number(words[3]), 1);
        end_session(s);
    } else if (count == 9 && !strcmp(words[1], "long")) {
        run_long(words + 2);
    } else {
        fail("see the top of main.c");
    }
    return 0;
}
