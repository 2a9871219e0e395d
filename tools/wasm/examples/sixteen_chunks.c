/* Of sixteen live chunks of a class two have one tag, since there are fifteen. Arithmetic on one
   pointer reaches the other chunk, in every seed. */
#include "tenant.h"

enum { COUNT = 16 };

static unsigned tag_of(const char *pointer)
{
    return (unsigned)((uintptr_t)pointer >> 56 & 15);
}

int main(void)
{
    char *chunks[COUNT];
    for (int at = 0; at < COUNT; at++)
        chunks[at] = tenant_malloc(24);
    for (int one = 0; one < COUNT; one++)
        for (int other = one + 1; other < COUNT; other++) {
            if (tag_of(chunks[one]) != tag_of(chunks[other]))
                continue;
            volatile char *reached = chunks[one] + (chunks[other] - chunks[one]);
            reached[0] = 'x';
            tenant_write("another chunk, by arithmetic\n", 29);
            return chunks[other][0] == 'x' ? 0 : 1;
        }
    return 2;
}
