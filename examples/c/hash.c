/* Hashes a megabyte of the heap (FNV-1a, 64 bits) and writes the hash, the lowest byte first.
   frames: 300
   slices: 48
   expect: status exit 0
   expect: output 8 252382bafac05ce8 */
#include "tenant.h"

enum { COUNT = 1 << 20 };

int main(void)
{
    unsigned char *bytes = tenant_malloc(COUNT);
    if (!bytes)
        return 2;
    for (size_t i = 0; i < COUNT; i++)
        bytes[i] = (unsigned char)(i * 7 + (i >> 8));
    uint64_t hash = 0xcbf29ce484222325u;
    for (size_t i = 0; i < COUNT; i++)
        hash = (hash ^ bytes[i]) * 0x100000001b3u;
    tenant_write(&hash, sizeof hash);
    tenant_free(bytes);
    return 0;
}
