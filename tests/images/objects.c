/* An object on the stack that has a tag of its own (clang's -fsanitize=memtag), written past its
   end. */
#include "tenant.h"

#define APART __attribute__((noinline))

APART static void set(volatile char *object, long at)
{
    object[at] = 'x';
}

APART static int use(long at)
{
    char before[32];
    char object[16];
    set(before, 3);
    set(object, at);
    return before[3] + object[0];
}

int main(void)
{
    char act = 0;
    tenant_read(&act, 1);
    return use(act == 'o' ? 16 : 15) < 0;
}
