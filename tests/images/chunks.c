/* Chunks of several sizes, frees of some between, and then one act: the first letter of the input
   says which. The calls of fill() are numbered; the acts begin with call 14. */
#include "tenant.h"

#define APART __attribute__((noinline))

enum { LARGE = 200000, TOO_LARGE = 2000000 };

struct store {
    char *first;   /* 30 bytes, of call 6 in the place of call 1 */
    char *table;   /* 48 bytes, calloc(3, 16), call 3 */
    char *third;   /* 100 bytes, call 4 */
    char *moved;   /* 1000 bytes, of call 8 in another place than call 7 */
    char *aligned; /* 60 bytes at a multiple of 256, call 9 */
    char *square;  /* 25 bytes, calloc(5, 5), call 11 */
};

APART static char *take(size_t size)
{
    return tenant_malloc(size);
}

APART static char *take_table(size_t rows, size_t columns)
{
    return tenant_calloc(rows, columns);
}

APART static char *resize(char *chunk, size_t size)
{
    return tenant_realloc(chunk, size);
}

APART static void drop(char *chunk)
{
    tenant_free(chunk);
}

APART static int put(volatile char *chunk, long at)
{
    chunk[at] = 'x';
    return chunk[0];
}

APART static int get(volatile char *chunk, long at)
{
    return chunk[at];
}

APART static void fill(struct store *store)
{
    char *first = take(24);                   /* 1 */
    char *second = take(40);                  /* 2 */
    store->table = take_table(3, 16);         /* 3 */
    store->third = take(100);                 /* 4 */
    drop(second);                             /* 5 */
    store->first = resize(first, 30);         /* 6 */
    char *small = take(200);                  /* 7 */
    store->moved = resize(small, 1000);       /* 8 */
    store->aligned = tenant_memalign(256, 60); /* 9 */
    char *fourth = take(70);                  /* 10 */
    store->square = take_table(5, 5);         /* 11 */
    drop(fourth);                             /* 12 */
    if (tenant_usable_size(store->third) < 100) /* 13 */
        tenant_exit(99);
}

/* The table is freed by call 16, behind the free of another chunk. */
APART static char *free_table(struct store *store)
{
    char *other = take(300); /* 14 */
    drop(other);             /* 15 */
    drop(store->table);      /* 16 */
    return store->table;
}

/* Accesses beyond a chunk, or to one that was freed. */
static int access_wrongly(struct store *store, char act)
{
    switch (act) {
    case 'a':
        return put(store->table, 48);
    case 'b':
        return put(store->first, 38);
    case 'c':
        return put(store->third, 600);
    case 'd':
        return get(store->third, -1);
    case 'e':
        return get(store->moved, -16);
    case 'f':
        return get(free_table(store), 17);
    case 's': {
        char *old = free_table(store);
        char *young = take_table(6, 8); /* 17 */
        put(young, 5);
        return get(old, 5);
    }
    case 'L':
        return put(take(LARGE), LARGE + 700); /* 14 */
    case 'M': {
        char *large = take(LARGE); /* 14 */
        drop(store->aligned);      /* 15 */
        drop(large);               /* 16 */
        return get(large, 9);
    }
    case 'n':
        return put(take(TOO_LARGE), 16); /* 14 */
    case 'o':
        return put((char *)0, 8);
    }
    return 0;
}

/* Heap calls with a pointer that is none of a live chunk. */
static int call_wrongly(struct store *store, char act)
{
    switch (act) {
    case 'g': {
        free_table(store);
        char *young = take_table(4, 12); /* 17 */
        drop(young);                     /* 18 */
        drop(young);
        break;
    }
    case 'r':
        store->table = resize(free_table(store), 400);
        break;
    case 'u':
        return (int)tenant_usable_size(free_table(store));
    case 'i':
        drop(store->third + 32);
        break;
    case 'j':
        drop(store->third + 3);
        break;
    case 'k':
        drop((char *)0x2500000);
        break;
    case 'h':
        ((volatile char *)((uintptr_t)store->third & 0xffffffffffffff))[-16] = 9;
        drop(store->third);
        break;
    }
    return 0;
}

/* Accesses that no tag finds. */
static int access_exactly(struct store *store, char act)
{
    switch (act) {
    case 'p':
        return get(store->first, 30);
    case 'q':
        return put(store->first, 30);
    case 'w':
        return (int)tenant_write(store->first, 31);
    case 'A':
        return get(store->square, 25);
    case 'B':
        return put(store->aligned, 61);
    }
    return 0;
}

#ifdef __aarch64__

/* Scudo's checksum of a header without hardware support, under a cookie of 0. */
static uint16_t add_word(uint16_t sum, uint64_t word)
{
    for (int i = 0; i < 8; i++)
        sum = (uint16_t)((sum >> 1 | sum << 15) + (word >> 8 * i & 255));
    return sum;
}

/* Forges a header within the chunk, 32 bytes into it, as that of the chunk itself. */
APART static char *forge(char *chunk)
{
    char *plain = (char *)((uintptr_t)chunk & 0xffffffffffffff);
    uint64_t header = *(volatile uint64_t *)(plain - 16) & 0xffffffffffff;
    uint64_t sum = add_word(add_word(0, (uint64_t)(plain + 32)), header);
    *(volatile uint64_t *)(chunk + 16) = header | sum << 48;
    return chunk + 32;
}

/* What a compiler for another machine has no words for: the tags themselves. */
static int act_on_tags(struct store *store, char act)
{
    char *chunk = store->third;
    char *plain = (char *)((uintptr_t)chunk & 0xffffffffffffff);
    switch (act) {
    case 't':
        return get((char *)((uintptr_t)chunk ^ (uintptr_t)6 << 56), 4);
    case 'v':
        /* stg x9, [x9] */
        __asm__ volatile("mov x9, %0\n\t.inst 0xd9200929" : : "r"(plain) : "x9", "memory");
        return get(chunk, 4);
    case 'K': {
        /* The header as it was before the free: in order, of a block that is free. */
        volatile uint64_t *header = (volatile uint64_t *)(plain - 16);
        uint64_t first = header[0], second = header[1];
        drop(chunk);
        header[0] = first;
        header[1] = second;
        drop(chunk);
        break;
    }
    case 'N':
        drop(forge(chunk));
        break;
    case 'x':
        return get(plain, -2);
    case 'y': {
        char *freed = free_table(store);
        /* ldg x9, [x9] */
        __asm__ volatile("mov x9, %0\n\t.inst 0xd9600129\n\tmov %0, x9" : "+r"(freed) : : "x9");
        return get(freed, 20);
    }
    case 'z':
        return put((char *)((uintptr_t)store->first & 0xffffffffffffff), 34);
    }
    return 0;
}

#else

static int act_on_tags(struct store *store, char act)
{
    (void)store;
    (void)act;
    return 0;
}

#endif

/* Several chunks of one place, of which two stay. */
APART static int keep_some(struct store *store)
{
    char *kept[4];
    for (int i = 0; i < 4; i++)
        kept[i] = take((size_t)(i + 1) * 100); /* 14 to 17 */
    drop(kept[0]);                             /* 18 */
    drop(kept[2]);                             /* 19 */
    drop(store->first);                        /* 20 */
    put(kept[3], 399);
    return 0;
}

APART static int free_all(struct store *store)
{
    drop(store->first);
    drop(store->table);
    drop(store->third);
    drop(store->moved);
    drop(store->aligned);
    drop(store->square);
    return 0;
}

int main(void)
{
    struct store store;
    char act = 0;
    tenant_read(&act, 1);
    fill(&store);
    if (act == 'l')
        return keep_some(&store);
    if (act == 'm')
        return free_all(&store);
    return access_wrongly(&store, act) + call_wrongly(&store, act) + access_exactly(&store, act)
        + act_on_tags(&store, act);
}
