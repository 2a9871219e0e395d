/* Gives the pointer to its own chunk the tag 5, and reads another chunk through it: a guess, which
   hits in one of eight seeds or so. */
#include "tenant.h"

static volatile char *with_tag(volatile char *pointer, uintptr_t tag)
{
    return (volatile char *)(((uintptr_t)pointer & ~((uintptr_t)15 << 56)) | tag << 56);
}

int main(void)
{
    char *own = tenant_malloc(24);
    volatile char *secret = tenant_malloc(24);
    secret[0] = 's';
    return with_tag(own + (secret - own) % ((intptr_t)1 << 56), 5)[0];
}
