/* Chunks that lead to one another as the input says: how many there are, which of them a variable
   leads to, and then pairs of one that leads and one that it leads to. The chunk with the number n
   has 64 * 2^n bytes. */
#include "tenant.h"

static void *volatile kept;

__attribute__((noinline)) static void make(void)
{
    unsigned char said[202], used[9] = {0};
    void **chunks[9];
    size_t count = tenant_read(said, sizeof said);
    for (int i = 0; i < said[0]; i++)
        chunks[i] = tenant_calloc(64ul << i, 1);
    if (said[1] < said[0])
        kept = chunks[said[1]];
    for (size_t i = 2; i + 1 < count; i += 2)
        if (used[said[i]] < 8)
            chunks[said[i]][used[said[i]]++] = chunks[said[i + 1]];
}

int main(void)
{
    make();
#define ZERO(n) __asm__ volatile("mov x" #n ", xzr" : : : "x" #n)
    ZERO(1); ZERO(2); ZERO(3); ZERO(4); ZERO(5); ZERO(6); ZERO(7); ZERO(8); ZERO(9); ZERO(10);
    ZERO(11); ZERO(12); ZERO(13); ZERO(14); ZERO(15); ZERO(16); ZERO(17);
    return 0;
}
