/* Writes behind the end of a chunk: the granule after it has another tag.
   ends: 129
   expect: status fault TagCheck write addr 0x0000000012000030 ptr 1 mem 0
   cause: [MTE]: Buffer Overflow, 8 bytes right of a 24-byte allocation at 0x0100000012000010 */
#include "tenant.h"

int main(void)
{
    volatile char *text = tenant_malloc(24);
    for (int i = 0; i < 64; i++)
        text[i] = 'x';
    return 0;
}
