/* Loads and stores of all forms, of registers that differ, by SP and by other bases. */
#include "tenant.h"

static const uint64_t numbers[4] = {0x0102030405060708, 0x1112131415161718, 0x8182838485868788, 9};

int main(void)
{
    char *chunk = tenant_malloc(256);
    uint64_t sum;
    __asm__ volatile(
        "mov x9, #0x1111\n\t"
        "mov x10, #0x2222\n\t"
        "movk x9, #0x9999, lsl #48\n\t"
        "movk x10, #0xaaaa, lsl #48\n\t"
        /* pairs by SP: at a constant offset no tag is compared, with writeback one is */
        "stp x9, x10, [sp, #-32]!\n\t"
        "stp x10, x9, [sp, #16]\n\t"
        "stp w9, w10, [sp, #8]\n\t"
        "ldp x11, x12, [sp, #16]\n\t"
        "ldpsw x13, x14, [sp, #8]\n\t"
        "str x9, [sp]\n\t"
        "ldrb w15, [sp, #7]\n\t"
        "ldp x11, x12, [sp], #32\n\t"
        /* pairs by another base */
        "stp x9, x10, [%1]\n\t"
        "stp w10, wzr, [%1, #24]\n\t"
        "stp x11, x10, [%1, #32]\n\t"
        "mov x16, %1\n\t"
        "stp x12, x9, [x16, #64]!\n\t"
        "stp x9, x12, [x16], #16\n\t"
        "ldp x13, x14, [%1, #64]\n\t"
        "ldp w13, w14, [%1, #24]\n\t"
        /* single ones */
        "mov w17, #3\n\t"
        "str x13, [%1, w17, uxtw #3]\n\t"
        "strh w10, [%1, x17, lsl #1]\n\t"
        "stur w9, [%1, #101]\n\t"
        "ldursw x14, [%1, #101]\n\t"
        "ldrsb x15, [%1, #5]\n\t"
        "ldrsh w15, [%1, #6]\n\t"
        "strb w9, [x16], #1\n\t"
        "ldr w15, [x16, #-1]!\n\t"
        "mov x17, #-8\n\t"
        "ldr x17, [x16, w17, sxtw]\n\t"
        /* from a page without tags, and relative to PC */
        "ldp x11, x12, [%2, #8]\n\t"
        "ldr x13, 1f\n\t"
        "ldrsw x14, 1f\n\t"
        "ldr w15, 1f + 4\n\t"
        "b 2f\n\t"
        ".balign 8\n"
        "1:\t.xword 0xfedcba98fedcba98\n"
        "2:\tadd %0, x11, x12\n\t"
        "add %0, %0, x13\n\t"
        : "=&r"(sum)
        : "r"(chunk), "r"(numbers)
        : "x9", "x10", "x11", "x12", "x13", "x14", "x15", "x16", "x17", "memory");
    tenant_write(&sum, sizeof sum);
    tenant_free(chunk);
    return 0;
}
