/* Bugs of the heap, for a checker that must tell each with its chunk: BUG says which. */
#include "tenant.h"

static volatile int one = 1;
static volatile char sink;
static void *volatile cell;
static char *others[32];

static char *make(size_t size)
{
    char *chunk = tenant_malloc(size);
    for (size_t i = 0; i < size; i++)
        chunk[i] = 'x';
    return chunk;
}

static void copy(char *to, const char *from, size_t count)
{
    for (size_t i = 0; i < count; i++)
        to[i] = from[i];
}

static size_t length(const char *text)
{
    size_t count = 0;
    while (text[count])
        count++;
    return count;
}

struct node {
    struct node *next;
    long number;
    long more;
};

static void call(void) { sink = 1; }

struct object {
    long number;
    void (*method)(void);
};

static void bug(void)
{
#if BUG == 1 /* a write 1 past 24 */
    char *p = make(24);
    p[24 * one] = 1;
#elif BUG == 2 /* a write 1 past 32 */
    char *p = make(32);
    p[32 * one] = 1;
#elif BUG == 3 /* 34 bytes set in 24 */
    char *p = make(24);
    memset(p, 1, 34 * (size_t)one);
#elif BUG == 4 /* a read far behind 24, in another chunk */
    char *p = make(24);
    make(24);
    for (int i = 0; i < 32; i++)
        make(24);
    sink = p[400 * one];
#elif BUG == 5 /* a product that wraps */
    uint32_t count = 0x40000001u * (uint32_t)one;
    int *p = tenant_malloc(count * 4);
    for (int i = 0; i < 64; i++)
        p[i] = i;
#elif BUG == 6 /* a write 1 before */
    char *p = make(24);
    p[-one] = 1;
#elif BUG == 7 /* a read 1 before */
    char *p = make(24);
    sink = p[-one];
#elif BUG == 8 /* a read far before, in another chunk */
    for (int i = 0; i < 32; i++)
        others[i] = make(24);
    for (int i = 0; i < 32; i++)
        if ((uintptr_t)others[i] % 4096 > 1024) {
            sink = others[i][-208 * one];
            break;
        }
#elif BUG == 9 /* a read 2 past 24 */
    char *p = make(24);
    sink = p[25 * one];
#elif BUG == 10 /* the length of 32 bytes without an end */
    char *p = make(32);
    sink = (char)length(p);
#elif BUG == 11 /* 1,000 bytes copied from 64 */
    char *p = make(64), *q = make(1000);
    copy(q, p, 1000 * (size_t)one);
#elif BUG == 12 /* freed twice */
    char *p = make(24);
    tenant_free(p);
    tenant_free(p);
#elif BUG == 13 /* freed twice, once by a realloc to 0 */
    char *p = make(24);
    cell = tenant_realloc(p, 0);
    tenant_free(p);
#elif BUG == 14 /* freed twice, after its block was given again */
    char *p = make(24);
    tenant_free(p);
    cell = make(24);
    tenant_free(p);
#elif BUG == 15 /* a read after the free */
    char *p = make(24);
    tenant_free(p);
    sink = p[3 * one];
#elif BUG == 16 /* written out after the free */
    char *p = make(24);
    tenant_free(p);
    tenant_write(p, 8);
#elif BUG == 17 /* the next node, read after the free */
    struct node *list = 0;
    for (int i = 0; i < 4; i++) {
        struct node *node = tenant_malloc(sizeof *node);
        node->next = list;
        list = node;
    }
    for (struct node *node = list; node; node = node->next)
        tenant_free(node);
#elif BUG == 18 /* a method, called after the free */
    struct object *p = tenant_malloc(sizeof *p);
    p->method = call;
    tenant_free(p);
    p->method();
#elif BUG == 19 /* a large chunk, read after the free */
    char *p = make(300000);
    tenant_free(p);
    sink = p[1000 * one];
#elif BUG == 20 /* the old pointer, after a realloc that moved */
    char *p = make(24), *wall = make(24);
    cell = tenant_realloc(p, 2000);
    sink = wall[0];
    sink = p[3 * one];
#elif BUG == 21 /* a write by a stale pointer, after its block was given again */
    char *p = make(24);
    tenant_free(p);
    for (int i = 0; i < 40; i++)
        others[i % 32] = make(24);
    p[3 * one] = 1;
#elif BUG == 22 /* a pointer 4 bytes in is freed */
    char *p = make(24);
    tenant_free(p + 4 * one);
#elif BUG == 23 /* a pointer 16 bytes in is freed */
    char *p = make(48);
    tenant_free(p + 16 * one);
#elif BUG == 24 /* a text of 20 in 20 bytes */
    char *p = tenant_malloc(20);
    copy(p, "01234567890123456789", 21 * (size_t)one);
#elif BUG == 25 /* a text of 16 in 16 bytes */
    char *p = tenant_malloc(16);
    copy(p, "0123456789012345", 17 * (size_t)one);
#elif BUG == 26 /* the size of the pointer, for a structure */
    struct node *p = tenant_malloc(sizeof p);
    p->number = 1;
#elif BUG == 27 /* a pointer 1 past 3 */
    void **p = tenant_malloc(3 * sizeof *p);
    for (int i = 0; i <= 3; i++)
        p[i * one] = p;
#elif BUG == 28 /* a read by a stale pointer, after its block was given again */
    char *p = make(40);
    tenant_free(p);
    cell = make(40);
    sink = p[3 * one];
#elif BUG == 29 /* a resize of a freed chunk */
    char *p = make(40);
    tenant_free(p);
    cell = tenant_realloc(p, 80);
#elif BUG == 30 /* read into a chunk that is too small */
    char *p = make(24);
    tenant_read(p, 40);
#elif BUG == 31 /* 4 bytes that begin in a chunk and end past it, written */
    char *p = make(22);
    *(volatile uint32_t *)(p + 20 * one) = 1;
#elif BUG == 33 /* a read by a stale pointer, after 70,000 others of its block */
    char *p = make(24);
    cell = p;
    tenant_free(p);
    for (int i = 0; i < 70000; i++)
        tenant_free(tenant_malloc(24));
    p = make(24);
    sink = ((volatile char *)cell)[3 * one];
#elif BUG == 32 /* lost: a chunk, and what it alone leads to */
    struct node *node = tenant_malloc(sizeof *node);
    node->next = tenant_malloc(sizeof *node);
    node->number = one;
    sink = (char)node->number;
#endif
}

static void clear_stack(void)
{
    volatile char words[512];
    for (int i = 0; i < 512; i++)
        words[i] = 0;
}

int main(void)
{
    bug();
    clear_stack();
    return 0;
}
