/* Reads a chunk that it has freed: the free gave its granules another tag.
   ends: 129
   expect: status fault TagCheck read addr 0x0000000012000010 ptr 1 mem 3
   cause: [MTE]: Use After Free, 0 bytes into a 24-byte allocation at 0x0100000012000010
   cause:   freed by call 2, free(0x0100000012000010) */
#include "tenant.h"

int main(void)
{
    volatile char *text = tenant_malloc(24);
    text[0] = 'x';
    tenant_free((void *)text);
    return text[0];
}
