/* The folders that are served, and what a session looks up before it is measured. */
#include "session.h"
#include "frames.h"
#include <fcntl.h>
#include <stdio.h>
#include <stdlib.h>
#include <string.h>
#include <sys/stat.h>
#include <unistd.h>

static void make_folder(const char *root, const char *name)
{
    char path[4200];
    snprintf(path, sizeof path, "%s/%s", root, name);
    if (mkdir(path, 0755))
        fail("%s cannot be made", path);
}

static void make_file(const char *root, const char *name, size_t len)
{
    static char bytes[READ_MOST];
    char path[4200];
    snprintf(path, sizeof path, "%s/%s", root, name);
    int fd = open(path, O_CREAT | O_WRONLY, 0644);
    if (fd < 0 || write(fd, bytes, len) != (ssize_t)len || close(fd))
        fail("%s cannot be made", path);
}

static void make_files(const char *root, const char *format, long count, size_t len)
{
    char name[64];
    for (long n = 0; n < count; n++) {
        snprintf(name, sizeof name, format, n);
        make_file(root, name, len);
    }
}

void prepare(const char *root, long known)
{
    static const char *folders[] = {"known", "fresh", "data", "move", "page", "big", "made"};
    char path[64] = "";
    for (size_t i = 0; i < sizeof folders / sizeof *folders; i++)
        make_folder(root, folders[i]);
    for (int i = 1; i <= DEEP; i++) {
        snprintf(path + strlen(path), sizeof path - strlen(path), "%sd%d", i > 1 ? "/" : "", i);
        make_folder(root, path);
    }
    strcat(path, "/f");
    make_file(root, path, 0);
    make_files(root, "known/k%05ld", known, 0);
    make_files(root, "fresh/n%05ld", FRESH, 0);
    make_files(root, "data/f%ld", DATA_FILES, READ_MOST);
    make_files(root, "move/from%ld", LANES, 0);
    make_files(root, "page/p%05ld", PAGE_NAMES, 0);
    make_files(root, "big/b%05ld", BIG_NAMES, 0);
}

static uint64_t look_up(struct session *s, uint64_t parent, const char *name)
{
    put_name(s, 0, LOOKUP, parent, name);
    struct reply r = ask(s, name);
    return entry_of(&r);
}

/* Looks all known names up, 64 requests at a time. */
static void look_up_known(struct session *s, long known)
{
    char name[32];
    s->known_nodes = calloc(known + 1, sizeof *s->known_nodes);
    if (!s->known_nodes)
        fail("no memory");
    for (long first = 0; first < known; first += LANES) {
        long end = first + LANES < known ? first + LANES : known;
        for (long n = first; n < end; n++) {
            snprintf(name, sizeof name, "k%05ld", n);
            put_name(s, n - first, LOOKUP, s->known_folder, name);
        }
        send_all(s);
        for (long n = first; n < end; n++) {
            struct reply r = take_reply(s);
            if (r.error)
                fail("LOOKUP of known name %ld: error %d", n, -r.error);
            s->known_nodes[first + r.unique % LANES] = entry_of(&r);
        }
    }
    s->known = known;
}

static void start_protocol(struct session *s)
{
    uint32_t offer[4] = {7, 31, 131072, 0x442021};
    put_plain(s, 0, INIT, 0, offer, sizeof offer);
    ask(s, "INIT");
}

static void look_up_folders(struct session *s)
{
    char name[32];
    s->fresh_folder = look_up(s, ROOT, "fresh");
    s->data_folder = look_up(s, ROOT, "data");
    s->move_folder = look_up(s, ROOT, "move");
    s->page_folder = look_up(s, ROOT, "page");
    s->big_folder = look_up(s, ROOT, "big");
    s->made_folder = look_up(s, ROOT, "made");
    s->deep_folder = ROOT;
    for (int i = 1; i <= DEEP; i++) {
        snprintf(name, sizeof name, "d%d", i);
        s->deep_folder = look_up(s, s->deep_folder, name);
    }
    look_up(s, s->deep_folder, "f");
    for (int i = 0; i < DATA_FILES; i++) {
        snprintf(name, sizeof name, "f%d", i);
        s->data_nodes[i] = look_up(s, s->data_folder, name);
        put_open(s, 0, OPEN, s->data_nodes[i], O_RDWR);
        struct reply r = ask(s, "OPEN");
        s->data_handles[i] = handle_at(&r, 0);
    }
    for (int i = 0; i < DATA_FILES; i++) {
        snprintf(name, sizeof name, "from%d", i);
        look_up(s, s->move_folder, name);
    }
}

/* Agrees on a version and looks up the folders (a bare session only that of the known names) and the known names, and tells how long
 * the known names took. */
void set_up(struct session *s, long known, int bare)
{
    start_protocol(s);
    s->known_folder = look_up(s, ROOT, "known");
    if (!bare)
        look_up_folders(s);
    printf("ready\n");
    fflush(stdout);
    getchar();
    uint64_t begun = now();
    look_up_known(s, known);
    printf("known %ld %llu\n", known, (unsigned long long)(now() - begun));
    fflush(stdout);
    getchar();
}

/* So many postings in the ledger: LOOKUPs of known names and FORGETs, each of which is one. */
void make_postings(struct session *s, long postings)
{
    struct work pairs = *find_work("pairs");
    pairs.may_fail = 0;
    if (postings)
        run_round(s, &pairs, 16, postings / 2);
}
