/* Many heap calls behind those of the chunk that it goes wrong with, and an access two blocks on,
   which is found where the tags differ. The first letter of the input says which. */
#include "tenant.h"

#define APART __attribute__((noinline))

APART static char *take(size_t size)
{
    return tenant_malloc(size);
}

APART static void drop(char *chunk)
{
    tenant_free(chunk);
}

/* Two heap calls each time. */
APART static void bustle(unsigned times)
{
    for (unsigned i = 0; i < times; i++) {
        char *chunk = take(300 + i % 7);
        chunk[2] = (char)i;
        drop(chunk);
    }
}

APART static int look(const volatile char *chunk)
{
    return chunk[4];
}

/* From a chunk into the one after the next. */
APART static int look_far(void)
{
    char *one = take(200); /* 6 */
    char *two = take(200); /* 7 */
    char *far = take(200); /* 8 */
    two[0] = far[0] = 0;
    return look(one + (((uintptr_t)far - (uintptr_t)one) & 0xffffffffffffff));
}

int main(void)
{
    char act = 0;
    tenant_read(&act, 1);
    char *kept = take(80); /* 1 */
    char *gone = take(50); /* 2 */
    char *more = take(33); /* 3 */
    drop(more);            /* 4 */
    drop(gone);            /* 5 */
    switch (act) {
    case 'h':
        bustle(100);
        return look(gone) + 1;
    case 'k':
        bustle(32800);
        return look(gone) + 1;
    case 'u':
        bustle(90);
        return look(kept - 6) + 1;
    case 'x':
        return look_far();
    }
    return 0;
}
