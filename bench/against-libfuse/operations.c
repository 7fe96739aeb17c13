/* The operations of the mirrors over libfuse. What could be chosen is chosen so that libfuse is fast: paths are looked up from the open
 * folder, files stay open between OPEN and RELEASE and are read by pread, and requests that have a handle ask for no path. */
#include "operations.h"
#include <dirent.h>
#include <errno.h>
#include <fcntl.h>
#include <stddef.h>
#include <stdio.h>
#include <string.h>
#include <sys/stat.h>
#include <sys/statvfs.h>
#include <unistd.h>

static int folder;                      /* the folder that is mirrored */
static int looks;                       /* whether it looks as often as mirrord does */

int open_folder(const char *path, int looking)
{
    looks = looking;
    folder = open(path, O_RDONLY | O_DIRECTORY);
    return folder >= 0;
}

/* A path of the mirror, as a path from the open folder. */
static const char *below(const char *path)
{
    return path[1] ? path + 1 : ".";
}

static int result(int answer)
{
    return answer < 0 ? -errno : answer;
}

static void look(const char *path)
{
    struct stat st;
    if (looks && path)
        (void)!fstatat(folder, below(path), &st, AT_SYMLINK_NOFOLLOW);
}

/* The folder of a path that is not in the root. */
static void look_above(const char *path)
{
    char above[4096];
    const char *end = strrchr(path, '/');
    if (!looks || end == path)
        return;
    snprintf(above, sizeof above, "%.*s", (int)(end - path), path);
    look(above);
}

/* Whether both paths are of names in one folder. */
static int beside(const char *one, const char *other)
{
    size_t length = strrchr(one, '/') - one;
    return strrchr(other, '/') - other == (ptrdiff_t)length && !strncmp(one, other, length);
}

/* Each name of an open folder. */
static void look_at_all(DIR *opened)
{
    struct dirent *entry;
    struct stat st;
    while (looks && (entry = readdir(opened)))
        (void)!fstatat(dirfd(opened), entry->d_name, &st, AT_SYMLINK_NOFOLLOW);
}

static int do_getattr(const char *path, struct stat *st, struct fuse_file_info *fi)
{
    if (!path)
        return result(fstat(fi->fh, st));
    return result(fstatat(folder, below(path), st, AT_SYMLINK_NOFOLLOW));
}

static int do_chmod(const char *path, mode_t mode, struct fuse_file_info *fi)
{
    return result(path ? fchmodat(folder, below(path), mode, 0) : fchmod(fi->fh, mode));
}

static int do_chown(const char *path, uid_t user, gid_t group, struct fuse_file_info *fi)
{
    return result(path ? fchownat(folder, below(path), user, group, AT_SYMLINK_NOFOLLOW) : fchown(fi->fh, user, group));
}

static int do_utimens(const char *path, const struct timespec times[2], struct fuse_file_info *fi)
{
    return result(path ? utimensat(folder, below(path), times, AT_SYMLINK_NOFOLLOW) : futimens(fi->fh, times));
}

/* A length is set by an open file: there is no truncateat. */
static int do_truncate(const char *path, off_t size, struct fuse_file_info *fi)
{
    if (fi)
        return result(ftruncate(fi->fh, size));
    int fd = openat(folder, below(path), O_WRONLY | O_NOFOLLOW);
    int answer = fd < 0 ? -errno : result(ftruncate(fd, size));
    if (fd >= 0)
        close(fd);
    return answer;
}

static int do_mkdir(const char *path, mode_t mode)
{
    return result(mkdirat(folder, below(path), mode));
}

static int do_unlink(const char *path)
{
    look_above(path);
    look(path);
    return result(unlinkat(folder, below(path), 0));
}

static int do_rmdir(const char *path)
{
    return result(unlinkat(folder, below(path), AT_REMOVEDIR));
}

static int do_rename(const char *from, const char *to, unsigned flags)
{
    look_above(from);
    look(from);
    if (!beside(from, to))
        look_above(to);
    look(to);
    return flags ? -EINVAL : result(renameat(folder, below(from), folder, below(to)));
}

/* Direct access is between the program and the kernel: the library's own memory is not laid out for it. */
static int flags_of(const struct fuse_file_info *fi)
{
    return (fi->flags & ~O_DIRECT) | O_NOFOLLOW;
}

static int do_open(const char *path, struct fuse_file_info *fi)
{
    int fd = openat(folder, below(path), flags_of(fi));
    fi->fh = fd;
    return fd < 0 ? -errno : 0;
}

static int do_create(const char *path, mode_t mode, struct fuse_file_info *fi)
{
    look_above(path);
    look(path);
    int fd = openat(folder, below(path), flags_of(fi) | O_CREAT | O_EXCL, mode);
    fi->fh = fd;
    return fd < 0 ? -errno : 0;
}

static int do_read(const char *path, char *bytes, size_t size, off_t offset, struct fuse_file_info *fi)
{
    look(path);
    return result(pread(fi->fh, bytes, size, offset));
}

static int do_write(const char *path, const char *bytes, size_t size, off_t offset, struct fuse_file_info *fi)
{
    look(path);
    return result(pwrite(fi->fh, bytes, size, offset));
}

static int do_fsync(const char *path, int data_alone, struct fuse_file_info *fi)
{
    (void)path;
    return result(data_alone ? fdatasync(fi->fh) : fsync(fi->fh));
}

static int do_statfs(const char *path, struct statvfs *st)
{
    (void)path;
    return result(fstatvfs(folder, st));
}

static int do_release(const char *path, struct fuse_file_info *fi)
{
    (void)path;
    return result(close(fi->fh));
}

static int do_opendir(const char *path, struct fuse_file_info *fi)
{
    int fd = openat(folder, below(path), O_RDONLY | O_DIRECTORY | O_NOFOLLOW);
    DIR *opened = fd < 0 ? 0 : fdopendir(fd);
    fi->fh = (uintptr_t)opened;
    if (!opened)
        return -errno;
    look(path);
    look_at_all(opened);
    return 0;
}

/* The whole folder at once, with the attributes of each name where they are asked for; libfuse keeps it and makes the pages. */
static int do_readdir(const char *path, void *list, fuse_fill_dir_t fill, off_t offset, struct fuse_file_info *fi, enum fuse_readdir_flags flags)
{
    DIR *opened = (DIR *)(uintptr_t)fi->fh;
    struct dirent *entry;
    (void)path, (void)offset;
    rewinddir(opened);
    while ((entry = readdir(opened))) {
        struct stat st = {.st_ino = entry->d_ino, .st_mode = entry->d_type << 12};
        enum fuse_fill_dir_flags plus = 0;
        if (flags & FUSE_READDIR_PLUS && !fstatat(dirfd(opened), entry->d_name, &st, AT_SYMLINK_NOFOLLOW))
            plus = FUSE_FILL_DIR_PLUS;
        if (fill(list, entry->d_name, &st, 0, plus))
            break;
    }
    return 0;
}

static int do_releasedir(const char *path, struct fuse_file_info *fi)
{
    (void)path;
    return result(closedir((DIR *)(uintptr_t)fi->fh));
}

static void *do_init(struct fuse_conn_info *connection, struct fuse_config *config)
{
    (void)connection;
    config->nullpath_ok = !looks;
    config->use_ino = 1;
    return 0;
}

const struct fuse_operations operations = {
    .init = do_init, .getattr = do_getattr, .chmod = do_chmod, .chown = do_chown, .utimens = do_utimens, .truncate = do_truncate,
    .mkdir = do_mkdir, .unlink = do_unlink, .rmdir = do_rmdir, .rename = do_rename, .open = do_open, .create = do_create,
    .read = do_read, .write = do_write, .fsync = do_fsync, .statfs = do_statfs, .release = do_release,
    .opendir = do_opendir, .readdir = do_readdir, .releasedir = do_releasedir,
};
