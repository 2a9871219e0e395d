/* Calls: deep ones, many, with small frames and without. The first letter of the input says
   which. */
#include "tenant.h"

#define APART __attribute__((noinline))

static volatile unsigned zero;

/* Functions without a frame of their own, where the level allows it. */
APART static unsigned leaf(const volatile unsigned *at)
{
    return at[zero];
}

/* Small frames: a record and next to nothing beside it. */
APART static unsigned third(const volatile unsigned *at)
{
    return leaf(at) + 3;
}

APART static unsigned second(const volatile unsigned *at)
{
    return third(at) + 2;
}

APART static unsigned first(const volatile unsigned *at)
{
    return second(at) + 1;
}

/* Frames of 2 KiB: the stack's end is met inside of one. */
APART static void mark(volatile unsigned *room, unsigned depth)
{
    room[0] = depth;
    room[499] = zero;
}

APART static unsigned sink(unsigned depth)
{
    unsigned room[500];
    mark(room, depth);
    return sink(depth + 1) + room[0] + room[499];
}

/* More records than are told. */
APART static unsigned count(unsigned left, const volatile unsigned *at)
{
    return left ? count(left - 1, at) + left : leaf(at);
}

APART static void clear_from(volatile unsigned char *at)
{
    while (!zero)
        *at++ = 0;
}

/* An array that is written up to the stack's end and past it. */
APART static unsigned flood(void)
{
    volatile unsigned char array[32];
    clear_from(array);
    return array[3];
}

APART static void pass_time(void)
{
    for (unsigned i = 0; i < 200; i++)
        zero = 0;
}

/* The same far past it, at once. */
APART static unsigned reach(void)
{
    volatile unsigned array[8];
    pass_time();
    array[2] = 7;
    return array[2] + array[zero + 900];
}

/* What a program for Linux does first: it looks for its arguments above the stack. */
APART static unsigned arguments(void)
{
    return *(const volatile unsigned *)(uintptr_t)0x40000000;
}

APART static unsigned scribble(void)
{
    pass_time();
    *(volatile unsigned *)(uintptr_t)0x40000010 = 5;
    return 0;
}

int main(void)
{
    char act = 0;
    tenant_read(&act, 1);
    switch (act) {
    case 'a':
        return (int)arguments() + 1;
    case 'b':
        return (int)scribble() + 1;
    case 'c':
        return (int)count(25, 0) + 1;
    case 'd':
        return (int)sink(0) + 1;
    case 'f':
        return (int)flood() + 1;
    case 'l':
        return (int)leaf(0) + 1;
    case 'r':
        return (int)reach() + 1;
    case 's':
        return (int)first(0) + 1;
    }
    return 0;
}
