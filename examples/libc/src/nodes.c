/* The files and folders of a tenant, by their names: `/`, `/tmp`, those that tenant-args wrote into
   its image, and those that it makes, which are chunks of its heap. */
#include <errno.h>
#include <fcntl.h>
#include <limits.h>
#include <string.h>
#include <sys/stat.h>
#include "nodes.h"
#include "tenant.h"

hidden weak void __tenant_free_large(void *block);

static struct tenant_node scratch = {
    .name = "/tmp", .mode = S_IFDIR | 0755, .number = FIRST_NODE,
};
static struct tenant_node root = {
    .next = &scratch, .name = "/", .mode = S_IFDIR | 0755, .number = 1, .opened = 1,
};
static struct tenant_node *current = &root;
static uint32_t newest = FIRST_NODE;

/* The first node, with those of the image behind it. */
hidden struct tenant_node *__tenant_root(void)
{
    static int is_begun;
    if (is_begun || !__tenant_given)
        return &root;
    is_begun = 1;
    scratch.next = __tenant_given->nodes;
    for (struct tenant_node *node = &scratch; node; node = node->next)
        newest = node->number;
    struct tenant_node *folder = __tenant_find(__tenant_given->folder);
    if (folder)
        __tenant_enter(folder);
    return &root;
}

hidden struct tenant_node *__tenant_folder(void)
{
    __tenant_root();
    return current;
}

hidden void __tenant_enter(struct tenant_node *folder)
{
    folder->opened++;
    struct tenant_node *old = current;
    current = folder;
    __tenant_leave(old);
}

hidden struct tenant_node *__tenant_find(const char *name)
{
    for (struct tenant_node *node = __tenant_root(); node; node = node->next)
        if (!strcmp(node->name, name))
            return node;
    return 0;
}

/* Whether a node is in a folder, be it deeper. */
static int is_below(const struct tenant_node *folder, const struct tenant_node *node)
{
    size_t length = folder == &root ? 0 : strlen(folder->name);
    return node != &root && !strncmp(folder->name, node->name, length)
        && node->name[length] == '/';
}

hidden struct tenant_node *__tenant_child(const struct tenant_node *folder, uint32_t behind)
{
    size_t length = folder == &root ? 0 : strlen(folder->name);
    for (struct tenant_node *node = __tenant_root(); node; node = node->next)
        if (node->number > behind && is_below(folder, node)
            && !strchr(node->name + length + 1, '/'))
            return node;
    return 0;
}

/* Adds the parts of a path to a name of so many bytes; its length then, or -ENAMETOOLONG. */
static long add_parts(char *name, size_t length, const char *path)
{
    while (*path) {
        size_t part = strcspn(path, "/");
        if (part == 2 && !memcmp(path, "..", 2)) {
            while (length && name[--length] != '/')
                ;
        } else if (part && !(part == 1 && *path == '.')) {
            if (part > NAME_MAX || length + part + 2 > NAME_ROOM)
                return -ENAMETOOLONG;
            name[length++] = '/';
            memcpy(name + length, path, part);
            length += part;
        }
        path += part + strspn(path + part, "/");
    }
    return (long)length;
}

hidden long __tenant_name(struct tenant_node *folder, const char *path, char *name)
{
    size_t length = 0;
    if (!*path)
        return -ENOENT;
    if (*path != '/' && folder != &root) {
        length = strlen(folder->name);
        if (length >= NAME_ROOM)
            return -ENAMETOOLONG;
        memcpy(name, folder->name, length);
    }
    long whole = add_parts(name, length, path);
    if (whole < 0)
        return whole;
    if (!whole)
        name[whole++] = '/';
    name[whole] = 0;
    return 0;
}

/* The folder that a name is in, or null. */
static struct tenant_node *parent_of(const char *name)
{
    char above[NAME_ROOM];
    size_t length = (size_t)(strrchr(name, '/') - name);
    if (!length)
        return __tenant_root();
    memcpy(above, name, length);
    above[length] = 0;
    return __tenant_find(above);
}

hidden long __tenant_missing(const char *name)
{
    struct tenant_node *parent = parent_of(name);
    return parent && !S_ISDIR(parent->mode) ? -ENOTDIR : -ENOENT;
}

hidden long __tenant_make(const char *name, uint32_t mode, struct tenant_node **made)
{
    struct tenant_node *parent = parent_of(name);
    if (!parent || !S_ISDIR(parent->mode))
        return __tenant_missing(name);
    size_t length = strlen(name) + 1;
    struct tenant_node *node = tenant_calloc(1, sizeof *node + length), *last = &root;
    if (!node)
        return -ENOSPC;
    node->name = memcpy(node + 1, name, length);
    node->mode = mode;
    node->number = ++newest;
    node->flags = NODE_IS_CHUNK | NODE_WRITTEN;
    while (last->next)
        last = last->next;
    last->next = node;
    *made = node;
    return 0;
}

/* Frees what a node has that was removed and is open no more. */
hidden void __tenant_leave(struct tenant_node *node)
{
    if (--node->opened || !(node->flags & NODE_REMOVED))
        return;
    if (node->room > MOST_BYTES)
        __tenant_free_large(node->bytes);
    else if (node->room)
        tenant_free(node->bytes);
    if (node->flags & NAME_IS_CHUNK)
        tenant_free(node->name);
    if (node->flags & NODE_IS_CHUNK)
        tenant_free(node);
}

hidden long __tenant_remove(struct tenant_node *node)
{
    if (node == &root)
        return -EBUSY;
    if (S_ISDIR(node->mode) && __tenant_child(node, 0))
        return -ENOTEMPTY;
    struct tenant_node *before = &root;
    while (before->next != node)
        before = before->next;
    before->next = node->next;
    node->flags |= NODE_REMOVED;
    node->opened++;
    __tenant_leave(node);
    return 0;
}

/* Gives a node the name `to` in place of its first `length` bytes. */
static long rename_one(struct tenant_node *node, size_t length, const char *to)
{
    size_t first = strlen(to), rest = strlen(node->name) - length;
    if (first + rest >= NAME_ROOM)
        return -ENAMETOOLONG;
    char *name = tenant_malloc(first + rest + 1);
    if (!name)
        return -ENOSPC;
    memcpy(name, to, first);
    memcpy(name + first, node->name + length, rest + 1);
    if (node->flags & NAME_IS_CHUNK)
        tenant_free(node->name);
    node->name = name;
    node->flags |= NAME_IS_CHUNK | NODE_WRITTEN;
    return 0;
}

hidden long __tenant_rename(struct tenant_node *node, const char *to)
{
    struct tenant_node *parent = parent_of(to), *old = __tenant_find(to), *each;
    size_t length = strlen(node->name);
    long failed = 0;
    if (!parent || !S_ISDIR(parent->mode))
        return __tenant_missing(to);
    if (node == &root || parent == node || is_below(node, parent))
        return -EINVAL;
    if (old == node)
        return 0;
    if (old && S_ISDIR(old->mode) != S_ISDIR(node->mode))
        return S_ISDIR(old->mode) ? -EISDIR : -ENOTDIR;
    if (old)
        failed = __tenant_remove(old);
    for (each = root.next; each && !failed; each = each->next)
        if (each != node && is_below(node, each))
            failed = rename_one(each, length, to);
    return failed ? failed : rename_one(node, length, to);
}

/* Room for so many bytes in chunks of the heap, at most MOST_BYTES. */
static long make_room(struct tenant_node *node, size_t size)
{
    if (size <= node->room)
        return 0;
    if (size > MOST_BYTES)
        return -EFBIG;
    if (node->flags >= NODE_MAP)
        return -ENOSPC;
    size_t more = 2 * node->room < 512 ? 512 : 2 * node->room;
    size_t room = size > more ? size : more > MOST_BYTES ? MOST_BYTES : more;
    unsigned char *bytes = node->room ? tenant_realloc(node->bytes, room) : tenant_malloc(room);
    if (!bytes)
        return -ENOSPC;
    if (!node->room)
        memcpy(bytes, node->bytes, node->size < room ? node->size : room);
    node->bytes = bytes;
    node->room = room;
    return 0;
}

hidden long __tenant_resize(struct tenant_node *node, size_t size)
{
    long failed = make_room(node, size);
    if (failed)
        return failed;
    if (size > node->size)
        memset(node->bytes + node->size, 0, size - node->size);
    node->size = size;
    node->flags |= NODE_WRITTEN;
    return 0;
}

hidden size_t __tenant_pack(void)
{
    size_t whole = 0;
    for (struct tenant_node *node = __tenant_root(); node; node = node->next) {
        if (!(node->flags & NODE_WRITTEN))
            continue;
        struct tenant_packed head = {node->mode, (uint32_t)strlen(node->name), node->size};
        tenant_write(&head, sizeof head);
        tenant_write(node->name, head.name_size);
        tenant_write(node->bytes, node->size);
        whole += sizeof head + head.name_size + node->size;
    }
    return whole;
}
