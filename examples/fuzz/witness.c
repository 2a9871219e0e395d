/* A tenant that does what its input says to its heap, its memory and its tags, and then reads all
   of it again: it exits by a sum of what it has found, and loops as often as the sum says. So two
   runs that differ in a register, a byte, a tag or the heap end differently. Some inputs read a
   chunk that was freed. */
#include "../c/tenant.h"

enum { CHUNKS = 16, GRANULES = 64 };

static unsigned char input[4096];
static unsigned char table[GRANULES * 16] __attribute__((aligned(16)));
static unsigned char marked[GRANULES * 16] __attribute__((aligned(16)));
static unsigned char *chunks[CHUNKS], *stale;
static size_t sizes[CHUNKS];
static unsigned long found = 0xCBF29CE484222325;

static void see(unsigned long value)
{
    found = (found ^ value) * 0x100000001B3;
}

static unsigned long tag_at(const void *address)
{
    unsigned long tagged = (unsigned long)address;
    __asm__ volatile("ldg %0, [%0]" : "+r"(tagged) : : "memory");
    return tagged >> 56 & 15;
}

static void mark(unsigned granule, unsigned long tag)
{
    unsigned long tagged = (unsigned long)(marked + granule % GRANULES * 16) | (tag & 15) << 56;
    __asm__ volatile("stg %0, [%0]" : : "r"(tagged) : "memory");
}

static void drop(unsigned at)
{
    tenant_free(chunks[at]);
    stale = chunks[at] ? chunks[at] : stale;
    chunks[at] = 0;
    sizes[at] = 0;
}

static void make(unsigned at, size_t size)
{
    if (chunks[at])
        drop(at);
    chunks[at] = tenant_malloc(size);
    sizes[at] = chunks[at] ? size : 0;
    see((unsigned long)chunks[at]);
}

static void grow(unsigned at, size_t size)
{
    unsigned char *moved = tenant_realloc(chunks[at], size);
    if (moved || size == 0) {
        chunks[at] = moved;
        sizes[at] = moved ? size : 0;
    }
    see((unsigned long)moved);
}

static void fill(unsigned at, unsigned byte)
{
    for (size_t i = 0; i < sizes[at]; i += 7)
        chunks[at][i] = (unsigned char)(byte + i);
}

/* Steps that the input chooses: an operation, a chunk, a number. */
static void act(unsigned operation, unsigned at, unsigned number)
{
    if (operation > 250 && stale)
        see(*(volatile unsigned char *)stale);
    switch (operation % 7) {
    case 0:
        make(at, number + 1);
        break;
    case 1:
        make(at, (number + 1) * 129);
        break;
    case 2:
        drop(at);
        break;
    case 3:
        grow(at, number * 37);
        break;
    case 4:
        fill(at, number);
        break;
    case 5:
        mark(number, at);
        break;
    default:
        table[number * 4 % sizeof table] ^= (unsigned char)(operation + at);
    }
}

static void see_all(void)
{
    for (size_t i = 0; i < sizeof table; i += 8)
        see(*(unsigned long *)(table + i) + (tag_at(marked + i) << 60));
    for (unsigned at = 0; at < CHUNKS; at++)
        for (size_t i = 0; i < sizes[at]; i += 64)
            see(chunks[at][i] + (tag_at(chunks[at] + i) << 8));
    for (unsigned i = 1; i < 8; i++)
        see((unsigned long)tenant_malloc(i * 48));
    see(tenant_pages_left());
}

int main(void)
{
    for (unsigned i = 0; i < CHUNKS / 2; i++)
        make(i, 24 * (i + 1));
    tenant_yield();
    size_t count = tenant_read(input, sizeof input);
    see(count);
    for (size_t i = 0; i + 3 <= count; i += 3)
        act(input[i], input[i + 1] % CHUNKS, input[i + 2]);
    see_all();
    for (volatile unsigned long i = found >> 8 & 4095; i > 0; i--)
        ;
    return (int)(found & 255);
}
