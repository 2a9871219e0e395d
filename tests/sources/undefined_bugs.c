/* Uses of values that were never given, for a checker that must tell each with what it is a part
   of: BUG says which. */
#include "tenant.h"

static volatile int one = 1;
static volatile int sink;
static const char table[8] = "abcdefg";

struct padded {
    char letter;
    int number;
};

struct fields {
    unsigned first : 3, second : 5;
};

__attribute__((noinline)) static int read_stack(void)
{
    volatile int words[8];
    words[0] = 1;
    return words[one + 1];
}

__attribute__((noinline)) static void fill_stack(void)
{
    volatile int words[16];
    for (int i = 0; i < 16; i++)
        words[i] = i;
}

/* A branch by the comparison of a byte that was not given with a number. */
#ifdef __aarch64__
#define BRANCH(condition, operator, number) \
    __asm__ volatile("cmp %0, %1\n\tb." condition " 1f\n\tnop\n1:" \
                     : : "r"((uint64_t)*(volatile unsigned char *)tenant_malloc(24)), \
                       "i"(number) : "cc")
#else
#define BRANCH(condition, operator, number) \
    if (*(volatile unsigned char *)tenant_malloc(24) operator number) \
        sink = 1
#endif

static int bug(void)
{
#if BUG == 1 /* a branch by a word of a chunk */
    volatile int *p = tenant_malloc(24);
    if (p[2 * one])
        sink = 1;
#elif BUG == 2 /* a branch by a word of the stack */
    if (read_stack() == 5)
        sink = 1;
#elif BUG == 3 /* an index */
    volatile int *p = tenant_malloc(24);
    sink = ((volatile const char *)table)[p[one] & 7];
#elif BUG == 4 /* bytes that are written out */
    char *p = tenant_malloc(24);
    for (int i = 0; i < 16; i++)
        p[i] = 'x';
    tenant_write(p, 16 + (size_t)one);
#elif BUG == 5 /* the exit status */
    volatile int *p = tenant_malloc(24);
    return p[one];
#elif BUG == 6 /* where a function is called */
    void (*volatile *p)(void) = tenant_malloc(24);
    p[one]();
#elif BUG == 7 /* one field of bits, beside another that is set */
    volatile struct fields *p = tenant_malloc(24);
    p->first = 5;
    if (p->second == 9)
        sink = 1;
#elif BUG == 8 /* what a realloc has added */
    char *p = tenant_malloc(20);
    for (int i = 0; i < 20; i++)
        p[i] = 'x';
    volatile char *q = tenant_realloc(p, 24);
    if (q[19] == 'x' && q[19 + one] == 'x')
        sink = 1;
#elif BUG == 9 /* the argument of a service */
    volatile size_t *p = tenant_malloc(24);
    tenant_malloc(p[one]);
#elif BUG == 10 /* the padding of a structure, compared with another's */
    struct padded *p = tenant_malloc(24);
    static struct padded first = {'a', 1};
    p->letter = 'a';
    p->number = 1;
    volatile const char *left = (const char *)p, *right = (const char *)&first;
    for (size_t i = 0; i < sizeof first; i++)
        if (left[i] != right[i])
            sink = 1;
#elif BUG == 11 /* a word of the stack that an earlier call set */
    fill_stack();
    if (read_stack() == 5)
        sink = 1;
#elif BUG == 12 /* through a sum, a product and a copy */
    volatile unsigned *p = tenant_malloc(24);
    p[0] = (p[2] + 1) * 3;
    if (p[0] > 1000)
        sink = 1;
#elif BUG == 13 /* a choice without a branch, and then a branch */
    volatile int *p = tenant_malloc(24);
    int chosen = p[one] > 4 ? one : one + 1;
    if (chosen == 2)
        sink = 1;
#elif BUG == 14 /* through a register that a division wrote */
    volatile unsigned *p = tenant_malloc(24);
    if (p[one] / 7 == 3)
        sink = 1;
#elif BUG == 15 /* equal, by no bit that was given */
    BRANCH("eq", ==, 0xff);
#elif BUG == 16 /* at least, where the number may be less */
    BRANCH("cs", >=, 0xff);
#elif BUG == 17 /* more than 0, where the number may be 0 */
    BRANCH("hi", >, 0);
#endif
    return 0;
}

int main(void)
{
    return bug() & 255;
}
