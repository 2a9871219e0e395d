/* What musl asks its system for about files, where a program has functions that open or name one
   (build.py, WITH_FILES). Standard input and output are the tenant's, as in services.c. */
#define _GNU_SOURCE
#include <dirent.h>
#include <errno.h>
#include <fcntl.h>
#include <limits.h>
#include <stddef.h>
#include <string.h>
#include <sys/mman.h>
#include <sys/stat.h>
#include "kstat.h"
#include "nodes.h"
#include "parts.h"
#include "syscall.h"
#include "tenant.h"

enum { DESCRIPTORS = 64, BLOCK = 4096 };

/* What descriptors name; `at` is where the next byte is, or in a folder the number of the node that
   was read last. Without a node it is the tenant's input or output. */
struct open_file {
    struct tenant_node *node;
    size_t at;
    int flags, count;
};

static struct open_file files[DESCRIPTORS] = {{.flags = O_RDONLY, .count = 1},
                                              {.flags = O_WRONLY, .count = 2}};
static struct open_file *descriptors[DESCRIPTORS] = {&files[0], &files[1], &files[1]};

static struct open_file *file_of(long number)
{
    return number >= 0 && number < DESCRIPTORS ? descriptors[number] : 0;
}

/* A descriptor from a number on that names the file. */
static long give(struct open_file *file, long from)
{
    if (from < 0 || from >= DESCRIPTORS)
        return -EINVAL;
    for (; from < DESCRIPTORS; from++) {
        if (!descriptors[from]) {
            descriptors[from] = file;
            file->count++;
            return from;
        }
    }
    return -EMFILE;
}

static long close_file(long number)
{
    struct open_file *file = file_of(number);
    if (!file)
        return -EBADF;
    descriptors[number] = 0;
    if (!--file->count && file->node)
        __tenant_leave(file->node);
    return 0;
}

static long open_node(struct tenant_node *node, int flags)
{
    struct open_file *file = files;
    while (file < files + DESCRIPTORS && file->count)
        file++;
    if (file == files + DESCRIPTORS)
        return -EMFILE;
    flags &= ~(O_CREAT | O_EXCL | O_NOCTTY | O_TRUNC);
    *file = (struct open_file){.node = node, .flags = flags};
    long number = give(file, 0);
    if (number >= 0)
        node->opened++;
    return number;
}

/* The absolute name of a path, from the folder of a descriptor. */
static long name_of(long folder, const char *path, char *name)
{
    if (folder == AT_FDCWD || *path == '/')
        return __tenant_name(__tenant_folder(), path, name);
    struct open_file *file = file_of(folder);
    if (!file)
        return -EBADF;
    if (!file->node || !S_ISDIR(file->node->mode))
        return -ENOTDIR;
    return __tenant_name(file->node, path, name);
}

/* The node of a path, or why there is none. */
static long node_of(long folder, const char *path, struct tenant_node **node)
{
    char name[NAME_ROOM];
    long failed = name_of(folder, path, name);
    if (failed)
        return failed;
    *node = __tenant_find(name);
    return *node ? 0 : __tenant_missing(name);
}

static long open_path(long folder, const char *path, int flags, uint32_t mode)
{
    char name[NAME_ROOM];
    int is_read = (flags & O_ACCMODE) == O_RDONLY;
    long failed = name_of(folder, path, name);
    if (failed)
        return failed;
    struct tenant_node *node = __tenant_find(name);
    if (node && (flags & O_CREAT) && (flags & O_EXCL))
        return -EEXIST;
    if (!node && !(flags & O_CREAT))
        return __tenant_missing(name);
    if (!node)
        failed = __tenant_make(name, S_IFREG | (mode & 0755), &node);
    else if (S_ISDIR(node->mode) && (!is_read || flags & (O_CREAT | O_TRUNC)))
        failed = -EISDIR;
    else if (!S_ISDIR(node->mode) && (flags & O_DIRECTORY))
        failed = -ENOTDIR;
    else if (flags & O_TRUNC)
        failed = __tenant_resize(node, 0);
    return failed ? failed : open_node(node, flags);
}

/* The two descriptors of a pipe, which is a file without a name: what is written to the second is
   read from the first. Where nothing is left it is at its end, since nobody else could write. */
static long make_pipe(int *ends)
{
    struct tenant_node *node;
    long failed = __tenant_make("/tmp/", S_IFIFO | 0600, &node);
    if (failed)
        return failed;
    long first = open_node(node, O_RDONLY);
    long second = first < 0 ? first : open_node(node, O_WRONLY | O_APPEND);
    if (second < 0 && first >= 0)
        close_file(first);
    __tenant_remove(node);
    if (second < 0)
        return second;
    ends[0] = (int)first;
    ends[1] = (int)second;
    return 0;
}

/* Bytes of an open file from a place on. */
static long read_at(struct open_file *file, void *bytes, size_t count, size_t at)
{
    struct tenant_node *node = file->node;
    if ((file->flags & O_ACCMODE) == O_WRONLY)
        return -EBADF;
    if (!node)
        return (long)tenant_read(bytes, count);
    if (S_ISDIR(node->mode))
        return -EISDIR;
    size_t left = at < node->size ? node->size - at : 0;
    size_t some = count < left ? count : left;
    memcpy(bytes, node->bytes + at, some);
    return (long)some;
}

static long write_at(struct open_file *file, const void *bytes, size_t count, size_t at)
{
    struct tenant_node *node = file->node;
    if ((file->flags & O_ACCMODE) == O_RDONLY)
        return -EBADF;
    if (!count)
        return 0;
    if (!node) {
        size_t written = tenant_write(bytes, count);
        return written ? (long)written : -ENOSPC;
    }
    size_t most = node->room > MOST_BYTES ? node->room : MOST_BYTES;
    if (at >= most)
        return -EFBIG;
    size_t some = count < most - at ? count : most - at;
    long failed = __tenant_resize(node, at + some > node->size ? at + some : node->size);
    if (failed)
        return failed;
    memcpy(node->bytes + at, bytes, some);
    return (long)some;
}

/* Whether its bytes have places: the tenant's input and output, and pipes, have none. */
static int has_place(const struct open_file *file)
{
    return file->node && !S_ISFIFO(file->node->mode);
}

static long read_file(long number, void *bytes, size_t count)
{
    struct open_file *file = file_of(number);
    long done = file ? read_at(file, bytes, count, file->at) : -EBADF;
    if (done > 0)
        file->at += (size_t)done;
    if (done > 0 && file->node && !has_place(file) && file->at == file->node->size)
        file->at = file->node->size = 0;
    return done;
}

static long write_file(long number, void *bytes, size_t count)
{
    struct open_file *file = file_of(number);
    if (!file)
        return -EBADF;
    if (file->node && (file->flags & O_APPEND))
        file->at = file->node->size;
    long done = write_at(file, bytes, count, file->at);
    if (done > 0)
        file->at += (size_t)done;
    return done;
}

static long seek(struct open_file *file, long offset, long whence)
{
    if (!has_place(file))
        return -ESPIPE;
    long from = whence == SEEK_CUR ? (long)file->at : whence == SEEK_END ? (long)file->node->size
                                                                         : 0;
    if (whence < SEEK_SET || whence > SEEK_END || offset < -from)
        return -EINVAL;
    if (offset > LONG_MAX - from)
        return -EOVERFLOW;
    return (long)(file->at = (size_t)(from + offset));
}

static long stat_node(const struct tenant_node *node, struct kstat *answer)
{
    *answer = (struct kstat){.st_dev = 1, .st_nlink = 1, .st_blksize = BLOCK};
    answer->st_mode = node ? node->mode : S_IFIFO | 0600;
    if (node) {
        answer->st_ino = node->number;
        answer->st_size = (off_t)node->size;
        answer->st_blocks = (blkcnt_t)((node->size + 511) / 512);
    }
    return 0;
}

static long stat_path(long folder, const char *path, struct kstat *answer, long flags)
{
    struct tenant_node *node;
    if (!*path && (flags & AT_EMPTY_PATH) && file_of(folder))
        return stat_node(file_of(folder)->node, answer);
    long failed = node_of(folder, path, &node);
    return failed ? failed : stat_node(node, answer);
}

/* Puts an entry of a folder at its place, if there is room; the bytes that it takes. */
static size_t put_entry(char *place, size_t room, const char *name, uint32_t at, uint32_t mode)
{
    size_t length = strlen(name) + 1;
    size_t whole = (offsetof(struct dirent, d_name) + length + 7) / 8 * 8;
    struct dirent *entry = (struct dirent *)place;
    if (whole > room)
        return 0;
    entry->d_ino = at;
    entry->d_off = at;
    entry->d_reclen = (unsigned short)whole;
    entry->d_type = S_ISDIR(mode) ? DT_DIR : DT_REG;
    memcpy(entry->d_name, name, length);
    return whole;
}

/* `.` and `..` have the places 1 and 2 in a folder, a node that of its number. */
static long list(struct open_file *file, char *bytes, size_t room)
{
    size_t used = 0, more;
    if (!file->node || !S_ISDIR(file->node->mode))
        return -ENOTDIR;
    do {
        struct tenant_node *node = 0;
        uint32_t at = (uint32_t)file->at + 1;
        if (at >= FIRST_NODE && !(node = __tenant_child(file->node, at - 1)))
            return (long)used;
        const char *name = node ? strrchr(node->name, '/') + 1 : &".."[2 - at];
        at = node ? node->number : at;
        more = put_entry(bytes + used, room - used, name, at, node ? node->mode : S_IFDIR);
        if (more)
            file->at = at;
        used += more;
    } while (more);
    return used ? (long)used : -EINVAL;
}

/* Nobody else has a lock, so each one is there that the descriptor may have. */
static long lock(const struct open_file *file, const struct flock *wanted)
{
    int other = wanted->l_type == F_RDLCK ? O_WRONLY : O_RDONLY;
    return wanted->l_type != F_UNLCK && (file->flags & O_ACCMODE) == other ? -EBADF : 0;
}

static long control(long number, long what, long value)
{
    struct open_file *file = file_of(number);
    if (!file)
        return -EBADF;
    switch (what) {
    case F_DUPFD:
    case F_DUPFD_CLOEXEC:
        return give(file, value);
    case F_GETFL:
        return file->flags;
    case F_SETFL:
        file->flags = (file->flags & ~O_APPEND) | (value & O_APPEND);
        return 0;
    case F_GETLK:
        ((struct flock *)value)->l_type = F_UNLCK;
        return 0;
    case F_SETLK:
    case F_SETLKW:
        return lock(file, (const struct flock *)value);
    case F_GETFD:
    case F_SETFD:
        return 0;
    default:
        return -EINVAL;
    }
}

/* dup3: the second number names what the first one names. */
static long copy_descriptor(long from, long to)
{
    struct open_file *file = file_of(from);
    if (!file || to < 0 || to >= DESCRIPTORS)
        return -EBADF;
    if (from == to)
        return -EINVAL;
    if (descriptors[to])
        close_file(to);
    return give(file, to);
}

static long cut(struct tenant_node *node, long size)
{
    if (!node || size < 0)
        return -EINVAL;
    return S_ISDIR(node->mode) ? -EISDIR : __tenant_resize(node, (size_t)size);
}

static long enter(struct tenant_node *node)
{
    if (!node || !S_ISDIR(node->mode))
        return -ENOTDIR;
    __tenant_enter(node);
    return 0;
}

static long change_mode(struct tenant_node *node, long mode)
{
    if (!node)
        return -EINVAL;
    node->mode = (node->mode & S_IFMT) | (mode & 07777);
    return 0;
}

/* The node of a descriptor that may be mapped so, or why it may not. */
hidden long __tenant_mappable(long number, int kinds, int is_shared, struct tenant_node **node)
{
    struct open_file *file = file_of(number);
    if (!file)
        return -EBADF;
    int mode = file->flags & O_ACCMODE, is_written = is_shared && kinds & PROT_WRITE;
    if (mode == O_WRONLY || (is_written && mode != O_RDWR))
        return -EACCES;
    if (!file->node || !S_ISREG(file->node->mode))
        return -ENODEV;
    *node = file->node;
    return 0;
}

/* The calls about an open file; the rest of those that come here has nothing to do. */
static long call_of_open(long number, long a, long b, long c, long d)
{
    struct open_file *file = file_of(a);
    if (!file)
        return -EBADF;
    if ((number == SYS_pread || number == SYS_pwrite) && d < 0)
        return -EINVAL;
    switch (number) {
    case SYS_lseek:
        return seek(file, b, c);
    case SYS_pread:
        return has_place(file) ? read_at(file, (void *)b, (size_t)c, (size_t)d) : -ESPIPE;
    case SYS_pwrite:
        return has_place(file) ? write_at(file, (const void *)b, (size_t)c, (size_t)d) : -ESPIPE;
    case SYS_fstat:
        return stat_node(file->node, (struct kstat *)b);
    case SYS_getdents:
        return list(file, (char *)b, (size_t)c);
    case SYS_ftruncate:
        return (file->flags & O_ACCMODE) == O_RDONLY ? -EINVAL : cut(file->node, b);
    case SYS_fchdir:
        return enter(file->node);
    case SYS_fchmod:
        return change_mode(file->node, b);
    case SYS_dup:
        return give(file, 0);
    case SYS_ioctl:
        return -ENOTTY;
    default:
        return 0;
    }
}

static long remove_path(long folder, const char *path, long flags)
{
    struct tenant_node *node;
    long failed = node_of(folder, path, &node);
    if (failed)
        return failed;
    if (!S_ISDIR(node->mode) != !(flags & AT_REMOVEDIR))
        return S_ISDIR(node->mode) ? -EISDIR : -ENOTDIR;
    return __tenant_remove(node);
}

static long rename_path(long folder, const char *path, long other, const char *to)
{
    char name[NAME_ROOM];
    struct tenant_node *node;
    long failed = node_of(folder, path, &node);
    if (!failed)
        failed = name_of(other, to, name);
    return failed ? failed : __tenant_rename(node, name);
}

static long make_folder(long folder, const char *path, long mode)
{
    char name[NAME_ROOM];
    struct tenant_node *made;
    long failed = name_of(folder, path, name);
    if (failed)
        return failed;
    return __tenant_find(name) ? -EEXIST : __tenant_make(name, S_IFDIR | (mode & 0755), &made);
}

static long read_folder_path(char *place, size_t room)
{
    const char *name = __tenant_folder()->name;
    size_t length = strlen(name) + 1;
    if (length > room)
        return -ERANGE;
    memcpy(place, name, length);
    return (long)length;
}

/* The calls about what a path names; owners and times are not kept. */
static long call_of_node(long number, long folder, const char *path, long c)
{
    struct tenant_node *node;
    long failed = node_of(folder, path, &node);
    if (failed)
        return failed;
    switch (number) {
    case SYS_faccessat:
        return (c & 1) && !(node->mode & 0111) ? -EACCES : 0;
    case SYS_chdir:
        return enter(node);
    case SYS_truncate:
        return cut(node, c);
    case SYS_fchmodat:
        return change_mode(node, c);
    case SYS_readlinkat:
        return -EINVAL;
    default:
        return 0;
    }
}

/* The calls about paths, or -ENOSYS. */
static long call_of_path(long number, long a, long b, long c, long d)
{
    switch (number) {
    case SYS_openat:
        return open_path(a, (const char *)b, (int)c, (uint32_t)d);
    case SYS_fstatat:
        return stat_path(a, (const char *)b, (struct kstat *)c, d);
    case SYS_unlinkat:
        return remove_path(a, (const char *)b, c);
    case SYS_renameat:
        return rename_path(a, (const char *)b, c, (const char *)d);
    case SYS_mkdirat:
        return make_folder(a, (const char *)b, c);
    case SYS_getcwd:
        return read_folder_path((char *)a, (size_t)b);
    case SYS_chdir:
    case SYS_truncate:
        return call_of_node(number, AT_FDCWD, (const char *)a, b);
    case SYS_utimensat:
        if (!b)
            return call_of_open(number, a, b, c, d);
    case SYS_faccessat:
    case SYS_fchmodat:
    case SYS_fchownat:
    case SYS_readlinkat:
        return call_of_node(number, a, (const char *)b, c);
    case SYS_umask:
        return 022;
    default:
        return -ENOSYS;
    }
}

hidden long __tenant_file_call(long number, long a, long b, long c, long d)
{
    switch (number) {
    case SYS_read:
    case SYS_write:
    case SYS_readv:
    case SYS_writev:
        return move_bytes(read_file, write_file, number, a, b, c);
    case SYS_close:
        return close_file(a);
    case SYS_fcntl:
        return control(a, b, c);
    case SYS_dup3:
        return copy_descriptor(a, b);
    case SYS_pipe2:
        return make_pipe((int *)a);
    case SYS_lseek:
    case SYS_pread:
    case SYS_pwrite:
    case SYS_fstat:
    case SYS_getdents:
    case SYS_ftruncate:
    case SYS_fchdir:
    case SYS_fchmod:
    case SYS_dup:
    case SYS_ioctl:
    case SYS_fsync:
    case SYS_fdatasync:
    case SYS_flock:
    case SYS_fchown:
        return call_of_open(number, a, b, c, d);
    default:
        return call_of_path(number, a, b, c, d);
    }
}
