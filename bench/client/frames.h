/* Frames of the FUSE protocol 7.31, as a client writes them. Numbers are written in the order of the machine, which is little-endian
 * wherever this is measured. Each function appends one frame to what a session is about to send. */
#ifndef FRAMES_H
#define FRAMES_H
#include <stdint.h>
#include <stddef.h>

enum {
    LOOKUP = 1, FORGET = 2, GETATTR = 3, MKDIR = 9, UNLINK = 10, RENAME = 12, OPEN = 14, READ = 15, WRITE = 16, STATFS = 17,
    RELEASE = 18, INIT = 26, OPENDIR = 27, RELEASEDIR = 29, CREATE = 35, DESTROY = 38, BATCH_FORGET = 42, READDIRPLUS = 44
};
enum { ROOT = 1, REQUEST_HEAD = 40, REPLY_HEAD = 16, ENTRY_LEN = 128, PLUS_HEAD = 152 };

struct session;

void put_plain(struct session *s, int lane, uint32_t opcode, uint64_t node, const void *body, size_t len);
void put_name(struct session *s, int lane, uint32_t opcode, uint64_t node, const char *name);
void put_create(struct session *s, int lane, uint64_t parent, const char *name);
void put_rename(struct session *s, int lane, uint64_t parent, const char *name, uint64_t other, const char *new_name);
void put_open(struct session *s, int lane, uint32_t opcode, uint64_t node, uint32_t flags);
void put_read(struct session *s, int lane, uint32_t opcode, uint64_t node, uint64_t handle, uint64_t offset, uint32_t size);
void put_write(struct session *s, int lane, uint64_t node, uint64_t handle, uint64_t offset, uint32_t size);
void put_release(struct session *s, int lane, uint32_t opcode, uint64_t node, uint64_t handle);
void put_getattr(struct session *s, int lane, uint64_t node);
void put_forget(struct session *s, uint64_t node, uint64_t lookups);
#endif
