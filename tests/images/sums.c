/* Undefined behavior that UBSan's traps find. The first letter of the input says which. */
#include "tenant.h"

#define APART __attribute__((noinline))

static volatile int one = 1, many = 2147483647;

APART static int add(int left, int right)
{
    return left + right;
}

APART static int divide(int left, int right)
{
    return left / right;
}

APART static int shift(int left, int right)
{
    return left << right;
}

APART static int pick(int at)
{
    static const int few[4] = {2, 3, 5, 7};
    return few[at];
}

int main(void)
{
    char act = 0;
    tenant_read(&act, 1);
    switch (act) {
    case 'a':
        return add(many, one);
    case 'd':
        return divide(many, one - 1);
    case 'p':
        return pick(one + 3);
    case 's':
        return shift(one, one + 40);
    }
    return 0;
}
