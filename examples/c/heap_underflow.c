/* Reads in front of a chunk, where its header stands: the header's granule has tag 0.
   ends: 129
   expect: status fault TagCheck read addr 0x000000001200000f ptr 1 mem 0
   cause: [MTE]: Buffer Underflow, 1 byte left of a 24-byte allocation at 0x0100000012000010 */
#include "tenant.h"

int main(void)
{
    volatile char *text = tenant_malloc(24);
    return text[-1];
}
