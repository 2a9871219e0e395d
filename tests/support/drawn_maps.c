/* Maps of files and of memory, by lines of an operation and six numbers; after each one its result
   or the number of its error. What a system may choose is left out: bytes behind the end of a file,
   and of private maps of a file that was written since. A map of a file that is shared ends where
   files end at most, so that it never keeps one from growing. */
#define _GNU_SOURCE
#include <errno.h>
#include <fcntl.h>
#include <stdio.h>
#include <string.h>
#include <sys/mman.h>
#include <sys/stat.h>
#include <unistd.h>

enum { PAGE = 4096, SLOTS = 6, MAPS = 8 };

struct map {
    char *start, *end;
    int file, kinds, is_shared, is_stale;
    long at;
};
static int files[SLOTS] = {-1, -1, -1, -1, -1, -1};
static struct map maps[MAPS];
static char bytes[8 * PAGE];

static long number_of(int file)
{
    struct stat it;
    return file < 0 || fstat(file, &it) ? -1 : (long)it.st_ino;
}

/* Private maps of a file that changes. */
static void note_change(int file)
{
    for (int i = 0; i < MAPS; i++)
        if (!maps[i].is_shared && number_of(file) == number_of(maps[i].file))
            maps[i].is_stale = 1;
}

static long sum_of(const char *from, long count)
{
    unsigned long sum = 0;
    while (count-- > 0)
        sum = sum * 31 + (unsigned char)*from++;
    return (long)(sum % 1000003);
}

static long open_slot(long slot, long file, long flags)
{
    char name[] = "m0";
    name[1] = (char)('0' + file);
    if (files[slot] >= 0)
        close(files[slot]);
    files[slot] = open(file == 3 ? "." : name, (int)flags, 0644);
    return files[slot] < 0 ? -1 : 0;
}

/* Whether so many bytes may be accessed: of a file those that it has. */
static int may_access(const struct map *it, long at, long count, int kinds)
{
    struct stat now;
    if (!it->start || at < 0 || count > it->end - it->start - at || (it->kinds & kinds) != kinds)
        return 0;
    return !it->is_stale && (it->file < 0 || (!fstat(it->file, &now)
                                              && it->at + at + count <= now.st_size));
}

/* Whether a file has a shared map: here another one of the same pages would be at its place. */
static int is_shared_by_one(int file)
{
    for (int i = 0; i < MAPS; i++)
        if (maps[i].start && maps[i].is_shared && number_of(maps[i].file) == number_of(file))
            return 1;
    return 0;
}

static long map_slot(struct map *it, long slot, long kinds, long flags, long size, long at)
{
    int file = flags & MAP_ANONYMOUS || slot < 0 ? -1 : files[slot];
    if (file >= 0 && flags & MAP_SHARED && is_shared_by_one(file))
        return -2;
    char *start = mmap(0, (size_t)size, (int)kinds, (int)flags, file, at);
    if (start == MAP_FAILED)
        return -1;
    *it = (struct map){start, start + (size + PAGE - 1) / PAGE * PAGE, dup(file), (int)kinds,
                       flags & MAP_SHARED, 0, at};
    return 0;
}

static long unmap_part(struct map *it, long at, long size)
{
    long end = at + (size + PAGE - 1) / PAGE * PAGE, whole = it->end - it->start;
    if (munmap(it->start + at, (size_t)size))
        return -1;
    if (at <= 0 && end > 0) {
        it->start += end < whole ? end : whole;
        it->at += end;
    } else if (at < whole && end >= whole)
        it->end = it->start + at;
    if (it->start == it->end) {
        close(it->file);
        *it = (struct map){.file = -1};
    }
    return 0;
}

/* What is done to a map that there is. */
static long act_on_map(char act, struct map *it, long a, long b, long c)
{
    long whole = it->end - it->start;
    switch (act) {
    case 'u':
        b = b < whole - a ? b : whole - a;
        return b < 0 || (a > 0 && a + b + PAGE <= whole) ? -2 : unmap_part(it, a, b);
    case 'y':
        return a + b > whole ? -2 : msync(it->start + a, (size_t)b, (int)c);
    case 'a':
        if (a + b > whole || (it->file >= 0 && !it->is_shared))
            return -2;
        return madvise(it->start + a, (size_t)b, (int)c);
    case 'p':
        if (mprotect(it->start, (size_t)whole, (int)c))
            return -1;
        it->kinds = (int)c;
        return 0;
    case 'W':
        if (!may_access(it, a, b, PROT_WRITE))
            return -2;
        memset(it->start + a, (int)c, (size_t)b);
        if (it->is_shared)
            note_change(it->file);
        return 0;
    default:
        return may_access(it, a, b, PROT_READ) ? sum_of(it->start + a, b) : -2;
    }
}

static long read_slot(int file, long at, long count)
{
    long done = pread(file, bytes, (size_t)count, at);
    return done < 0 ? -1 : done + 10 * sum_of(bytes, done);
}

/* What is done to an open file. */
static long act_on_file(char act, int file, long a, long b, long c)
{
    struct flock lock = {.l_type = (short)a, .l_start = b, .l_len = c};
    struct stat it;
    switch (act) {
    case 'w':
        memset(bytes, (int)c, (size_t)b);
        note_change(file);
        return pwrite(file, bytes, (size_t)b, a);
    case 'r':
        return read_slot(file, a, b);
    case 't':
        note_change(file);
        return ftruncate(file, a);
    case 'k':
        if (fcntl(file, F_SETLK, &lock))
            return -1;
        lock.l_type = F_RDLCK;
        return fcntl(file, F_GETLK, &lock) ? -1 : lock.l_type == F_UNLCK;
    case 's':
        return fstat(file, &it) ? -1 : S_ISDIR(it.st_mode) ? 0 : (long)it.st_size;
    default:
        return fdatasync(file);
    }
}

int main(void)
{
    char act;
    long a, b, c, d, e, f;
    for (int i = 0; i < MAPS; i++)
        maps[i].file = -1;
    while (scanf(" %c %ld %ld %ld %ld %ld %ld", &act, &a, &b, &c, &d, &e, &f) == 7) {
        long done = -2;
        errno = 0;
        if (act == 'o')
            done = open_slot(a, b, c);
        else if (act == 'x')
            done = unlink(a == 0 ? "m0" : a == 1 ? "m1" : "m2");
        else if (act == 'm')
            done = maps[a].start ? -2 : map_slot(&maps[a], b, c, d, e, f);
        else if (strchr("uyapWR", act))
            done = maps[a].start ? act_on_map(act, &maps[a], b, c, d) : -2;
        else
            done = act_on_file(act, files[a], b, c, d);
        printf("%c %ld\n", act, done == -1 ? -errno - 10 : done);
    }
    return 0;
}
