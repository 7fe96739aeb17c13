/* What the mirrors over libfuse do with a folder: that behind a socket (mirror.c beside this) and that of a mount (mirror.c in mounted/). */
#ifndef OPERATIONS_H
#define OPERATIONS_H

#define FUSE_USE_VERSION 312
#define _GNU_SOURCE
#include <fuse3/fuse.h>

/* Opens the folder that is mirrored: whether it could be opened. With `looking` the operations look at what stands at a path before they
 * read, write, make, remove, move or list there, as often as mirrord does. They make nothing of what they see. */
int open_folder(const char *path, int looking);

extern const struct fuse_operations operations;

#endif
