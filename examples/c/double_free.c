/* Frees a chunk twice: its header says that it is free.
   ends: 131
   expect: status abort InvalidState ptr 0x0100000012000010
   cause: Double Free of a 24-byte allocation at 0x0100000012000010 */
#include "tenant.h"

int main(void)
{
    void *chunk = tenant_malloc(24);
    tenant_free(chunk);
    tenant_free(chunk);
    return 0;
}
