/* The files and folders of a tenant, as ../src/nodes.c has them. What returns a long returns 0 or a
   negative number of <errno.h>. */
#ifndef NODES_H
#define NODES_H

#include <features.h>
#include "tenant_given.h"

/* The most bytes of a name with its end, and of a file that was written to: one chunk's. */
enum { NAME_ROOM = 1024, MOST_BYTES = 1048576 };
/* Of the flags of a node, each map of it. */
enum { NODE_MAP = 65536 };

/* The folder that all are in, and the one that names begin in. */
hidden struct tenant_node *__tenant_root(void);
hidden struct tenant_node *__tenant_folder(void);
hidden void __tenant_enter(struct tenant_node *folder);

/* The absolute name of a path that begins in a folder. */
hidden long __tenant_name(struct tenant_node *folder, const char *path, char *name);
hidden struct tenant_node *__tenant_find(const char *name);

/* Why there is no node of a name. */
hidden long __tenant_missing(const char *name);

/* The first node in a folder whose number is larger, or null. */
hidden struct tenant_node *__tenant_child(const struct tenant_node *folder, uint32_t behind);

hidden long __tenant_make(const char *name, uint32_t mode, struct tenant_node **made);
hidden long __tenant_remove(struct tenant_node *node);
hidden long __tenant_rename(struct tenant_node *node, const char *to);

/* Gives a file so many bytes, new ones 0. */
hidden long __tenant_resize(struct tenant_node *node, size_t size);

/* One that opened a node (`opened`) leaves it. */
hidden void __tenant_leave(struct tenant_node *node);

/* Writes the nodes that were written behind the output; the number of bytes. */
hidden size_t __tenant_pack(void);

#endif
