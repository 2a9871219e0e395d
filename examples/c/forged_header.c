/* Overwrites a chunk's header through a pointer without a tag, which fits the header's tag 0: the
   checksum differs.
   ends: 131
   expect: status abort HeaderCorrupt ptr 0x0100000012000010
   cause: Corrupt Header: something was written in front of a 24-byte allocation
   cause: 24-byte allocation at 0x0100000012000010 */
#include "tenant.h"

int main(void)
{
    char *chunk = tenant_malloc(24);
    uintptr_t plain = (uintptr_t)chunk & (((uintptr_t)1 << 56) - 1);
    volatile char *header = (volatile char *)(plain - 16);
    header[0] = 3;
    tenant_free(chunk);
    return 0;
}
