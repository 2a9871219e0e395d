/* Uses of bytes that a check by masks of registers and remembered chunks could miss: BUG is
   which. */
#include "tenant.h"

int main(void)
{
#if BUG == 1
    /* A word that begins within a chunk and ends past it, after a byte of the chunk was read. */
    char *bytes = tenant_malloc(21);
    for (int i = 0; i < 21; i++)
        bytes[i] = (char)i;
    volatile char last = bytes[16];
    volatile unsigned long word = *(volatile unsigned long *)(bytes + 16);
    return last + (int)word == 0;
#elif BUG == 2
    /* A pointer that leads into the next chunk, made before a heap call and used after it. */
    char *chunks[16];
    for (int i = 0; i < 16; i++) {
        chunks[i] = tenant_malloc(24);
        for (int at = 0; at < 24; at++)
            chunks[i][at] = 1;
    }
    char *volatile kept = chunks[3];
    char *volatile next = kept + 96;
    tenant_free(tenant_malloc(5));
    next[0] = 7;
    return 0;
#endif
}
