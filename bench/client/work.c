/* The workloads. A unit is one request, or a story of several that one lane tells from its first step to its last. */
#include "session.h"
#include "frames.h"
#include <fcntl.h>
#include <stdio.h>
#include <stdlib.h>
#include <string.h>
#include <unistd.h>

enum { SMALL = 4096, LARGE = 65536, PAGE = 4096, FORGETS = 63 };

static uint64_t fresh_nodes[FRESH];

/* Takes a unit of the round, whose number it answers, or -1 where all were taken. */
static long take_unit(struct session *s)
{
    if (!s->left || s->error)
        return -1;
    s->left--;
    return s->number++;
}

/* The number of a known name to ask for: `touch` of them in turn, evenly spread. */
static long known_index(struct session *s, long number)
{
    long touch = s->touch < s->known ? s->touch : s->known;
    return number % touch * (s->known / touch);
}

static const char *numbered(const char *format, long number)
{
    static char name[64];
    snprintf(name, sizeof name, format, number);
    return name;
}

static void nothing(struct session *s, struct lane *l, const struct reply *r)
{
    (void)s, (void)l, (void)r;
}

static void gain_entry(struct session *s, struct lane *l, const struct reply *r)
{
    (void)l;
    gain(s, entry_of(r));
}

static int next_new(struct session *s, struct lane *l)
{
    if ((l->number = take_unit(s)) < 0)
        return 0;
    put_name(s, l->index, LOOKUP, s->fresh_folder, numbered("n%05ld", l->number));
    return 1;
}

static void took_new(struct session *s, struct lane *l, const struct reply *r)
{
    fresh_nodes[l->number] = entry_of(r);
    gain(s, entry_of(r));
}

static int next_again(struct session *s, struct lane *l)
{
    long n = take_unit(s);
    if (n < 0)
        return 0;
    put_name(s, l->index, LOOKUP, s->known_folder, numbered("k%05ld", known_index(s, n)));
    return 1;
}

static int next_getattr(struct session *s, struct lane *l)
{
    long n = take_unit(s);
    if (n < 0)
        return 0;
    put_getattr(s, l->index, s->known_nodes[known_index(s, n)]);
    return 1;
}

static int next_deep(struct session *s, struct lane *l)
{
    if (take_unit(s) < 0)
        return 0;
    put_name(s, l->index, LOOKUP, s->deep_folder, "f");
    return 1;
}

static int next_io(struct session *s, struct lane *l, int writes, uint32_t size)
{
    long n = take_unit(s), file = l->index % DATA_FILES;
    if (n < 0)
        return 0;
    uint64_t offset = size < LARGE ? n % (LARGE / size) * size : 0;
    if (writes)
        put_write(s, l->index, s->data_nodes[file], s->data_handles[file], offset, size);
    else
        put_read(s, l->index, READ, s->data_nodes[file], s->data_handles[file], offset, size);
    return 1;
}

static int next_read_small(struct session *s, struct lane *l)
{
    return next_io(s, l, 0, SMALL);
}

static int next_read_large(struct session *s, struct lane *l)
{
    return next_io(s, l, 0, LARGE);
}

static int next_write_small(struct session *s, struct lane *l)
{
    return next_io(s, l, 1, SMALL);
}

static int next_write_large(struct session *s, struct lane *l)
{
    return next_io(s, l, 1, LARGE);
}

/* CREATE, WRITE, RELEASE, UNLINK, FORGET. */
static int next_create(struct session *s, struct lane *l)
{
    if (l->step == 4) {
        put_forget(s, l->node, 1);
        l->step = 0;
    }
    switch (l->step++) {
    case 0:
        if ((l->number = take_unit(s)) < 0)
            return 0;
        put_create(s, l->index, s->made_folder, numbered("c%ld", l->number));
        break;
    case 1: put_write(s, l->index, l->node, l->handle, 0, SMALL); break;
    case 2: put_release(s, l->index, RELEASE, l->node, l->handle); break;
    default: put_name(s, l->index, UNLINK, s->made_folder, numbered("c%ld", l->number));
    }
    return 1;
}

static void took_made(struct session *s, struct lane *l, const struct reply *r)
{
    (void)s;
    if (l->step != 1)
        return;
    l->node = entry_of(r);
    l->handle = handle_at(r, ENTRY_LEN);
}

/* CREATE, UNLINK while it is open, READ, RELEASE, FORGET. */
static int next_hide(struct session *s, struct lane *l)
{
    if (l->step == 4) {
        put_forget(s, l->node, 1);
        l->step = 0;
    }
    switch (l->step++) {
    case 0:
        if ((l->number = take_unit(s)) < 0)
            return 0;
        put_create(s, l->index, s->made_folder, numbered("h%ld", l->number));
        break;
    case 1: put_name(s, l->index, UNLINK, s->made_folder, numbered("h%ld", l->number)); break;
    case 2: put_read(s, l->index, READ, l->node, l->handle, 0, SMALL); break;
    default: put_release(s, l->index, RELEASE, l->node, l->handle);
    }
    return 1;
}

/* OPENDIR, READDIRPLUS until a page is empty, RELEASEDIR. */
static int next_listing(struct session *s, struct lane *l, uint64_t folder)
{
    if (l->step == 3)
        l->step = 0;
    switch (l->step) {
    case 0:
        if (take_unit(s) < 0)
            return 0;
        l->offset = 0;
        put_open(s, l->index, OPENDIR, folder, O_RDONLY);
        break;
    case 1: put_read(s, l->index, READDIRPLUS, folder, l->handle, l->offset, PAGE); break;
    default: put_release(s, l->index, RELEASEDIR, folder, l->handle);
    }
    return 1;
}

/* Notes the counts of a page, and the offset of the next one. */
static void take_page(struct session *s, struct lane *l, const struct reply *r)
{
    for (size_t at = 0; at < r->body_len;) {
        uint64_t node = handle_at(r, at);
        uint32_t len;
        l->offset = handle_at(r, at + ENTRY_LEN + 8);
        memcpy(&len, r->body + at + ENTRY_LEN + 16, sizeof len);
        int dots = r->body[at + PLUS_HEAD] == '.' && (len == 1 || (len == 2 && r->body[at + PLUS_HEAD + 1] == '.'));
        if (node && !dots)
            gain(s, node);
        at += (PLUS_HEAD + len + 7) / 8 * 8;
    }
}

static void took_listing(struct session *s, struct lane *l, const struct reply *r)
{
    if (l->step == 0)
        l->handle = handle_at(r, 0);
    if (l->step == 1)
        take_page(s, l, r);
    if (l->step != 1 || !r->body_len)
        l->step++;
}

static int next_page(struct session *s, struct lane *l)
{
    return next_listing(s, l, s->page_folder);
}

static int next_big(struct session *s, struct lane *l)
{
    return next_listing(s, l, s->big_folder);
}

/* A file is renamed there and back: two requests a unit. */
static int next_rename(struct session *s, struct lane *l)
{
    char one[32], two[32];
    if (l->step == 0 && take_unit(s) < 0)
        return 0;
    snprintf(one, sizeof one, l->step ? "to%d" : "from%d", l->index);
    snprintf(two, sizeof two, l->step ? "from%d" : "to%d", l->index);
    l->step = !l->step;
    put_rename(s, l->index, s->move_folder, one, s->move_folder, two);
    return 1;
}

/* The files to be removed are made past the server, and made known to it. */
static void before_unlink(struct session *s, long units)
{
    char path[4200];
    for (long n = 0; n < units; n++) {
        snprintf(path, sizeof path, "%s/made/u%05ld", s->root, n);
        int fd = open(path, O_CREAT | O_WRONLY, 0644);
        if (fd < 0)
            fail("%s cannot be made", path);
        close(fd);
        put_name(s, 0, LOOKUP, s->made_folder, numbered("u%05ld", n));
        struct reply r = ask(s, "LOOKUP");
        gain(s, entry_of(&r));
    }
}

static int next_unlink(struct session *s, struct lane *l)
{
    long n = take_unit(s);
    if (n < 0)
        return 0;
    put_name(s, l->index, UNLINK, s->made_folder, numbered("u%05ld", n));
    return 1;
}

static void before_forget(struct session *s, long units)
{
    for (long n = 0; n < units * FORGETS; n++) {
        put_name(s, 0, LOOKUP, s->fresh_folder, numbered("n%05ld", n));
        struct reply r = ask(s, "LOOKUP");
        fresh_nodes[n] = entry_of(&r);
    }
}

/* 63 FORGETs, and a STATFS whose reply tells that they are done. */
static int next_forget(struct session *s, struct lane *l)
{
    long n = take_unit(s);
    if (n < 0)
        return 0;
    for (long i = 0; i < FORGETS; i++)
        put_forget(s, fresh_nodes[n * FORGETS + i], 1);
    put_plain(s, l->index, STATFS, ROOT, 0, 0);
    return 1;
}

/* What a client does in turn: a story of 15 requests with replies, and three FORGETs. */
static int next_mixed(struct session *s, struct lane *l)
{
    const char *name = numbered("m%ld", l->number);
    int file = l->index % DATA_FILES;
    if (l->step == 15) {
        put_forget(s, l->node, 1);
        put_forget(s, l->other, 1);
        l->step = 0;
    }
    switch (l->step++) {
    case 0:
        if ((l->number = take_unit(s)) < 0)
            return 0;
        put_name(s, l->index, LOOKUP, s->known_folder, numbered("k%05ld", known_index(s, l->number)));
        break;
    case 1: put_getattr(s, l->index, l->node); break;
    case 2: put_forget(s, l->node, 1), put_name(s, l->index, LOOKUP, s->fresh_folder, numbered("n%05ld", l->number % FRESH)); break;
    case 3: put_getattr(s, l->index, l->other); break;
    case 4: put_open(s, l->index, OPEN, s->data_nodes[file], O_RDONLY); break;
    case 5: put_read(s, l->index, READ, s->data_nodes[file], l->handle, 0, SMALL); break;
    case 6: put_release(s, l->index, RELEASE, s->data_nodes[file], l->handle); break;
    case 7: put_create(s, l->index, s->made_folder, name); break;
    case 8: put_write(s, l->index, l->node, l->handle, 0, SMALL); break;
    case 9: put_release(s, l->index, RELEASE, l->node, l->handle); break;
    case 10: put_rename(s, l->index, s->made_folder, name, s->move_folder, name); break;
    case 11: put_name(s, l->index, UNLINK, s->move_folder, name); break;
    case 12: put_open(s, l->index, OPENDIR, s->page_folder, O_RDONLY); break;
    case 13: l->offset = 0, put_read(s, l->index, READDIRPLUS, s->page_folder, l->handle, 0, PAGE); break;
    default: put_release(s, l->index, RELEASEDIR, s->page_folder, l->handle);
    }
    return 1;
}

static void took_mixed(struct session *s, struct lane *l, const struct reply *r)
{
    switch (l->step - 1) {
    case 0: l->node = entry_of(r); break;
    case 2: l->other = entry_of(r); break;
    case 7: l->node = entry_of(r), l->handle = handle_at(r, ENTRY_LEN); break;
    case 4: case 12: l->handle = handle_at(r, 0); break;
    case 13: take_page(s, l, r); break;
    }
}

/* A LOOKUP of a known name and the FORGET of its count, for long sessions. */
static int next_pair(struct session *s, struct lane *l)
{
    if (l->step)
        put_forget(s, l->node, 1);
    l->step = 0;
    if (next_again(s, l))
        return 1;
    return 0;
}

/* The same of a name that nobody knows: each LOOKUP is a birth, each FORGET the end of a node. */
static int next_birth(struct session *s, struct lane *l)
{
    long n;
    if (l->step)
        put_forget(s, l->node, 1);
    l->step = 0;
    if ((n = take_unit(s)) < 0)
        return 0;
    put_name(s, l->index, LOOKUP, s->fresh_folder, numbered("n%05ld", n % FRESH));
    return 1;
}

static void took_pair(struct session *s, struct lane *l, const struct reply *r)
{
    (void)s;
    l->node = entry_of(r);
    l->step = 1;
}

static const struct work works[] = {
    {.name = "new", .next = next_new, .took = took_new, .most = FRESH},
    {.name = "again", .next = next_again, .took = gain_entry, .most = 10000},
    {.name = "getattr", .next = next_getattr, .took = nothing, .most = 50000},
    {.name = "deep", .next = next_deep, .took = gain_entry, .most = 10000},
    {.name = "create", .next = next_create, .took = took_made, .most = 3000},
    {.name = "hide", .next = next_hide, .took = took_made, .most = 3000},
    {.name = "read4", .next = next_read_small, .took = nothing, .most = 50000},
    {.name = "read64", .next = next_read_large, .took = nothing, .most = 20000},
    {.name = "write4", .next = next_write_small, .took = nothing, .most = 50000},
    {.name = "write64", .next = next_write_large, .took = nothing, .most = 20000},
    {.name = "readdirplus", .next = next_page, .took = took_listing, .most = 100},
    {.name = "rename", .next = next_rename, .took = nothing, .most = 20000},
    {.name = "mixed", .next = next_mixed, .took = took_mixed, .most = 500},
    {.name = "unlink", .next = next_unlink, .took = nothing, .before = before_unlink, .most = FRESH},
    {.name = "forget", .next = next_forget, .took = nothing, .before = before_forget, .most = FRESH / FORGETS},
    {.name = "listing", .next = next_big, .took = took_listing, .most = 1, .names = BIG_NAMES},
    {.name = "pairs", .next = next_pair, .took = took_pair, .most = 1 << 30, .may_fail = 1},
    {.name = "births", .next = next_birth, .took = took_pair, .most = 1 << 30, .may_fail = 1},
};

const struct work *find_work(const char *name)
{
    for (size_t i = 0; i < sizeof works / sizeof *works; i++)
        if (!strcmp(works[i].name, name))
            return &works[i];
    fail("no workload is called %s", name);
}
