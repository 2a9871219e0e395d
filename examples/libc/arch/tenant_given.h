/* What tenant-args writes into an image: a segment of its own that begins with this. */
#ifndef TENANT_GIVEN_H
#define TENANT_GIVEN_H

#include <stddef.h>
#include <stdint.h>

/* A file or folder. Its name is absolute, without `.`, `..` and a `/` at its end. A file that was
   not written to has room 0, and its bytes are the image's. */
struct tenant_node {
    struct tenant_node *next;
    char *name;
    unsigned char *bytes;
    size_t size, room;
    uint32_t mode, number, opened, flags;
};

/* The words are argv, a null pointer, the environment, and a null pointer; the nodes are in the
   order of their numbers, which are larger than FIRST_NODE, that of `/tmp`. */
struct tenant_given {
    char **words;
    struct tenant_node *nodes;
    char *folder;
    uint64_t flags;
};

enum { FIRST_NODE = 3 };
/* Of what was given: the files that were written are wanted behind the output. */
enum { GIVEN_PACK = 1 };
/* Of a node: its struct, or its name, is a chunk; it has no name any more; it was written. */
enum { NODE_IS_CHUNK = 1, NAME_IS_CHUNK = 2, NODE_REMOVED = 4, NODE_WRITTEN = 8 };

/* Where it is, or null; in the image's note, which tenant-args looks for (start.c). */
extern __attribute__((__visibility__("hidden"))) struct tenant_given *const volatile __tenant_given;

/* What is behind the output then: of each node that was written this head, its name without an end,
   and its bytes; and at last this end. */
struct tenant_packed {
    uint32_t mode, name_size;
    uint64_t size;
};
struct tenant_pack_end {
    char mark[8];
    uint64_t size;
};
#define TENANT_PACK_MARK "TenFiles"

#endif
