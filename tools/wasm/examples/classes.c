/* Chunks of several sizes: each size class has a region with blocks of one size.
   The page of the heap shows the header in front of each chunk. */
#include "tenant.h"

int main(void)
{
    static const size_t sizes[] = { 1, 16, 17, 24, 100, 100, 300, 3000 };
    char *chunks[8];
    for (int at = 0; at < 8; at++) {
        chunks[at] = tenant_malloc(sizes[at]);
        chunks[at][0] = (char)('a' + at);
    }
    tenant_free(chunks[5]);
    tenant_free(chunks[4]);
    return chunks[7][0] == 'h' ? 0 : 1;
}
