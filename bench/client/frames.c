#include "frames.h"
#include "session.h"
#include <fcntl.h>
#include <stdlib.h>
#include <string.h>

struct request_head {
    uint32_t len, opcode;
    uint64_t unique, node;
    uint32_t uid, gid, pid, padding;
};

/* Makes room for one more frame with a body of that length, writes its header, and gives the body's place. */
static uint8_t *start_frame(struct session *s, int lane, uint32_t opcode, uint64_t node, size_t len)
{
    size_t whole = REQUEST_HEAD + len;
    if (s->out_len + whole > s->out_room) {
        s->out_room = 2 * (s->out_len + whole);
        s->out = realloc(s->out, s->out_room);
        if (!s->out)
            fail("no memory");
    }
    struct request_head head = {.len = whole, .opcode = opcode, .unique = ++s->serial * LANES + lane, .node = node};
    uint8_t *at = s->out + s->out_len;
    memcpy(at, &head, sizeof head);
    s->out_len += whole;
    s->requests++;
    return at + REQUEST_HEAD;
}

void put_plain(struct session *s, int lane, uint32_t opcode, uint64_t node, const void *body, size_t len)
{
    uint8_t *at = start_frame(s, lane, opcode, node, len);
    if (len)
        memcpy(at, body, len);
}

void put_name(struct session *s, int lane, uint32_t opcode, uint64_t node, const char *name)
{
    put_plain(s, lane, opcode, node, name, strlen(name) + 1);
}

void put_create(struct session *s, int lane, uint64_t parent, const char *name)
{
    uint32_t fields[4] = {O_RDWR, 0100644, 0, 0};
    size_t len = strlen(name) + 1;
    uint8_t *at = start_frame(s, lane, CREATE, parent, sizeof fields + len);
    memcpy(at, fields, sizeof fields);
    memcpy(at + sizeof fields, name, len);
}

void put_rename(struct session *s, int lane, uint64_t parent, const char *name, uint64_t other, const char *new_name)
{
    size_t one = strlen(name) + 1, two = strlen(new_name) + 1;
    uint8_t *at = start_frame(s, lane, RENAME, parent, sizeof other + one + two);
    memcpy(at, &other, sizeof other);
    memcpy(at + sizeof other, name, one);
    memcpy(at + sizeof other + one, new_name, two);
}

void put_open(struct session *s, int lane, uint32_t opcode, uint64_t node, uint32_t flags)
{
    uint32_t fields[2] = {flags, 0};
    put_plain(s, lane, opcode, node, fields, sizeof fields);
}

struct io_fields {
    uint64_t handle, offset;
    uint32_t size, io_flags;
    uint64_t lock_owner;
    uint32_t flags, padding;
};

void put_read(struct session *s, int lane, uint32_t opcode, uint64_t node, uint64_t handle, uint64_t offset, uint32_t size)
{
    struct io_fields fields = {.handle = handle, .offset = offset, .size = size};
    put_plain(s, lane, opcode, node, &fields, sizeof fields);
}

void put_write(struct session *s, int lane, uint64_t node, uint64_t handle, uint64_t offset, uint32_t size)
{
    struct io_fields fields = {.handle = handle, .offset = offset, .size = size};
    uint8_t *at = start_frame(s, lane, WRITE, node, sizeof fields + size);
    memcpy(at, &fields, sizeof fields);
    memset(at + sizeof fields, 'w', size);
}

void put_release(struct session *s, int lane, uint32_t opcode, uint64_t node, uint64_t handle)
{
    uint64_t fields[3] = {handle, 0, 0};
    put_plain(s, lane, opcode, node, fields, sizeof fields);
}

void put_getattr(struct session *s, int lane, uint64_t node)
{
    uint64_t fields[2] = {0, 0};
    put_plain(s, lane, GETATTR, node, fields, sizeof fields);
}

void put_forget(struct session *s, uint64_t node, uint64_t lookups)
{
    put_plain(s, 0, FORGET, node, &lookups, sizeof lookups);
}
