/* Words that are no instruction of the table, and breakpoints. The first letter of the input says
   which. */
#include "tenant.h"

#define WORD(letter, word)                                       \
    case letter:                                                 \
        __asm__ volatile(".inst " #word : : : "x0", "memory");   \
        break

static int families(char act)
{
    switch (act) {
        WORD('a', 0xb8210000); /* ldadd w1, w0, [x0] */
        WORD('b', 0xd5033bbf); /* dmb ish */
        WORD('c', 0x1ac24020); /* crc32b w0, w1, w2 */
        WORD('d', 0xd50b7420); /* dc zva, x0 */
        WORD('e', 0x885f7c00); /* ldxr w0, [x0] */
        WORD('f', 0x1e622820); /* fadd d0, d1, d2 */
        WORD('g', 0xd4000002); /* hvc #0 */
        WORD('h', 0xd69f03e0); /* eret */
        WORD('i', 0xd4000021); /* svc #1 */
        WORD('m', 0xd53bd040); /* mrs x0, tpidr_el0 */
        WORD('n', 0x0e20b800); /* abs v0.8b, v0.8b */
        WORD('o', 0x88dffc00); /* ldar w0, [x0] */
        WORD('p', 0xf9800000); /* prfm pldl1keep, [x0] */
        WORD('q', 0x3dc00000); /* ldr q0, [x0] */
        WORD('r', 0xdac10020); /* pacia x0, x1 */
        WORD('s', 0x25d8e3e0); /* ptrue p0.d */
        WORD('t', 0xd65f0bff); /* retaa */
        WORD('u', 0x00000000); /* udf #0 */
    }
    return 0;
}

static int breakpoints(char act)
{
    switch (act) {
    case 'A':
        __builtin_trap();
    case 'B':
        __asm__ volatile("brk #0");
        break;
    case 'C':
        __asm__ volatile("brk #6");
        break;
    case 'D':
        __asm__ volatile("brk #77");
        break;
    case 'E':
        __asm__ volatile("brk #0x5512");
        break;
    case 'F':
        __asm__ volatile("brk #0x55fe");
        break;
    }
    return 0;
}

/* Faults that concern neither tags nor the translation. */
static int alignments(char act)
{
    switch (act) {
    case 'S':
        __asm__ volatile("mov x9, sp\n\tsub sp, sp, #8\n\tldr x10, [sp]\n\tmov sp, x9"
                         : : : "x9", "x10");
        break;
    case 'T':
        /* stg x9, [x9] */
        __asm__ volatile("add x9, sp, #4\n\t.inst 0xd9200929" : : : "x9", "memory");
        break;
    }
    return 0;
}

int main(void)
{
    char act = 0;
    tenant_read(&act, 1);
    return families(act) + breakpoints(act) + alignments(act);
}
