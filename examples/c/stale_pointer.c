/* Reads through a pointer to a chunk whose block has been allocated again: the new chunk has
   another tag.
   ends: 129
   expect: status fault TagCheck read addr 0x0000000012000010 ptr 1 mem
   cause: [MTE]: Use After Free by a stale pointer, 0 bytes into a 24-byte allocation
   cause: 24-byte allocation at 0x0100000012000010 */
#include "tenant.h"

int main(void)
{
    volatile char *old = tenant_malloc(24);
    tenant_free((void *)old);
    volatile char *young = tenant_malloc(24);
    young[0] = 'y';
    return old[0];
}
