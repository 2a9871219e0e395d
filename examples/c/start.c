/* Where a tenant begins, and the functions that compilers call by themselves. */
#include "tenant.h"

int main(void);

_Noreturn void _start(void)
{
    tenant_exit(main());
}

void *memset(void *to, int byte, size_t count)
{
    volatile unsigned char *at = to;
    while (count--)
        *at++ = (unsigned char)byte;
    return to;
}

void *memcpy(void *restrict to, const void *restrict from, size_t count)
{
    volatile unsigned char *at = to;
    const unsigned char *next = from;
    while (count--)
        *at++ = *next++;
    return to;
}
