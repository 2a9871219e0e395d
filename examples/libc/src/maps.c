/* mmap and its kin. A shared map of a file is the file's own bytes in memory, each other one is a
   chunk of the heap. What is mapped has whole pages, which may be read and written however they are
   protected, and which are given back when nothing of the map is left. */
#define _BSD_SOURCE
#include <errno.h>
#include <stdint.h>
#include <string.h>
#include <sys/mman.h>
#include "nodes.h"
#include "syscall.h"
#include "tenant.h"

enum { PAGE = 4096 };
#define MOST_ADDRESSES ((size_t)1 << 47)

/* What is left of a map, from `start` to `end`: of a chunk of `size` bytes, or of a file's. */
struct map {
    struct map *next;
    char *start, *end, *chunk;
    size_t size;
    struct tenant_node *node;
    int is_anonymous, is_shared, is_for_reading;
};
static struct map *maps;

hidden weak void *__tenant_take_large(size_t alignment, size_t size);
hidden weak void __tenant_free_large(void *block);
hidden weak long __tenant_mappable(long file, int kinds, int is_shared, struct tenant_node **node);
hidden weak void __tenant_leave(struct tenant_node *node);

/* Pages, of which the first `given` bytes are given a value, 0. */
static void *take_pages(size_t size, size_t given)
{
    if (size > MOST_BYTES)
        return __tenant_take_large ? __tenant_take_large(PAGE, size) : 0;
    void *pages = tenant_memalign(PAGE, size);
    return pages ? memset(pages, 0, given) : 0;
}

static void free_pages(void *pages, size_t size)
{
    if (size <= MOST_BYTES)
        tenant_free(pages);
    else
        __tenant_free_large(pages);
}

/* Whole pages for so many bytes. */
static size_t whole(size_t size)
{
    return (size + PAGE - 1) & -(size_t)PAGE;
}

/* Why there is no such map, in the order in which Linux asks, and the node of its file. */
static long refusal(size_t size, int kinds, int flags, long file, off_t at,
                    struct tenant_node **node)
{
    int kind = flags & MAP_TYPE;
    long failed = 0;
    if (at & (PAGE - 1))
        return -EINVAL;
    if (!(flags & MAP_ANONYMOUS))
        failed = __tenant_mappable ? __tenant_mappable(file, kinds, kind != MAP_PRIVATE, node)
                                   : file < 0 || file > 2 ? -EBADF : file ? -EACCES : -ENODEV;
    if (failed == -EBADF)
        return failed;
    if (!size)
        return -EINVAL;
    if (size > MOST_ADDRESSES)
        return -ENOMEM;
    if (at < 0 || size > (size_t)(PTRDIFF_MAX - PAGE - at))
        return -EOVERFLOW;
    if (!kind || kind > MAP_SHARED_VALIDATE)
        return -EINVAL;
    return kinds & PROT_EXEC || flags & (MAP_FIXED | MAP_FIXED_NOREPLACE) ? -ENOTSUP : failed;
}

/* Gives a file whole pages for so many bytes, where it stays while it is mapped; one that may be
   written to has room to grow, where pages are left. */
static long place_file(struct tenant_node *node, size_t room, int is_for_reading)
{
    size_t least = whole(room > node->size ? room : node->size);
    size_t size = is_for_reading || least > MOST_BYTES ? least : MOST_BYTES;
    int is_mapped = node->flags >= NODE_MAP, is_in_pages = !((uintptr_t)node->bytes & (PAGE - 1));
    if (is_in_pages && (is_mapped ? least : size) <= node->room)
        return 0;
    unsigned char *bytes = is_mapped ? 0 : take_pages(size, least);
    if (!bytes && !is_mapped && size > least)
        bytes = take_pages(size = least, least);
    if (!bytes)
        return -ENOMEM;
    memcpy(bytes, node->bytes, node->size);
    if (node->room)
        free_pages(node->bytes, node->room);
    node->bytes = bytes;
    node->room = size;
    return 0;
}

/* Finds the pages of a map: those of a file, or others with what the file has now. */
static long take(struct map *map, struct tenant_node *node, size_t at)
{
    if (node && map->is_shared) {
        long failed = place_file(node, at + map->size, map->is_for_reading);
        if (failed)
            return failed;
        node->flags += NODE_MAP;
        node->flags |= map->is_for_reading ? 0 : NODE_WRITTEN;
        node->opened++;
        map->node = node;
        map->start = (char *)node->bytes + at;
        return 0;
    }
    map->start = map->chunk = take_pages(map->size, map->size);
    if (!map->chunk)
        return -ENOMEM;
    if (node && at < node->size)
        memcpy(map->chunk, node->bytes + at,
               node->size - at < map->size ? node->size - at : map->size);
    return 0;
}

void *mmap(void *start, size_t size, int kinds, int flags, int file, off_t at)
{
    struct tenant_node *node = 0;
    int is_shared = (flags & MAP_TYPE) != MAP_PRIVATE;
    long failed = refusal(size, kinds, flags, file, at, &node);
    struct map *map = failed ? 0 : tenant_calloc(1, sizeof *map);
    (void)start;
    if (map) {
        *map = (struct map){.size = whole(size), .is_anonymous = !node, .is_shared = is_shared};
        map->is_for_reading = node && __tenant_mappable(file, PROT_WRITE, is_shared, &node);
        failed = take(map, node, (size_t)at);
        if (failed)
            tenant_free(map);
    }
    if (failed || !map) {
        errno = failed ? (int)-failed : ENOMEM;
        return MAP_FAILED;
    }
    map->end = map->start + map->size;
    map->next = maps;
    maps = map;
    return map->start;
}
weak_alias(mmap, __mmap);
weak_alias(mmap, mmap64);

/* The map that these bytes are of, or null. */
static struct map *map_of(const char *from, const char *to)
{
    struct map *map = maps;
    while (map && (from < map->start || to > map->end))
        map = map->next;
    return map;
}

/* The place of the map that has exactly these bytes, else of one that has some, or null: maps of a
   file that is shared may have the same. */
static struct map **place_of(const char *from, const char *to)
{
    struct map **found = 0;
    for (struct map **place = &maps; *place; place = &(*place)->next) {
        const struct map *map = *place;
        if (map->start == from && map->end == to)
            return place;
        if (from < map->end && to > map->start)
            found = place;
    }
    return found;
}

/* Gives back a map of which nothing is left. */
static void end_map(struct map *map)
{
    if (map->chunk)
        free_pages(map->chunk, map->size);
    if (map->node) {
        map->node->flags -= NODE_MAP;
        __tenant_leave(map->node);
    }
    tenant_free(map);
}

static long unmap(char *from, char *to)
{
    struct map **place = place_of(from, to), *map = place ? *place : 0;
    if (from == to)
        return -EINVAL;
    if (!map)
        return 0;
    if (from > map->start && to < map->end)
        return -ENOMEM;
    if (from <= map->start)
        map->start = to < map->end ? to : map->end;
    else
        map->end = from;
    if (map->start == map->end) {
        *place = map->next;
        end_map(map);
    }
    return 0;
}

/* What is given up stays in a shared map, and is zero in another one that is of no file. */
static long give_up(struct map *map, char *from, char *to)
{
    if (map->is_shared)
        return 0;
    if (!map->is_anonymous)
        return -EINVAL;
    memset(from, 0, (size_t)(to - from));
    return 0;
}

/* Whether a call has these flags, kinds or this advice. */
static int is_right(long number, long how)
{
    int both = MS_ASYNC | MS_SYNC;
    switch (number) {
    case SYS_msync:
        return !(how & ~(both | MS_INVALIDATE)) && (how & both) != both;
    case SYS_mprotect:
        return !(how & ~(PROT_READ | PROT_WRITE | PROT_EXEC));
    case SYS_madvise:
        return how >= MADV_NORMAL && how <= MADV_DONTNEED;
    default:
        return 1;
    }
}

/* The calls about whole pages that are mapped, but for mmap (services.c). */
hidden long __tenant_map_call(long number, char *from, size_t size, long how)
{
    if ((uintptr_t)from & (PAGE - 1) || size > PTRDIFF_MAX - PAGE || !is_right(number, how))
        return -EINVAL;
    char *to = from + whole(size);
    if (number == SYS_munmap)
        return unmap(from, to);
    struct map *map = map_of(from, to);
    if (from == to || !map)
        return from == to ? 0 : -ENOMEM;
    if (number == SYS_madvise)
        return how == MADV_DONTNEED ? give_up(map, from, to) : 0;
    int is_kept = map->is_shared && map->is_for_reading && how & PROT_WRITE;
    return number == SYS_mprotect && (is_kept || how & PROT_EXEC) ? -EACCES : 0;
}
