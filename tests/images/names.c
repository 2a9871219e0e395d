/* Symbols within others, one of another name, one without a size, and a source file with an
   absolute path. The first letter of the input says where it ends. */
#include "tenant.h"

#define APART __attribute__((noinline))

/* outer lasts to its end; inner and innermost lie in it. */
__asm__(
    ".text\n"
    ".balign 4\n"
    ".globl outer\n"
    ".type outer, %function\n"
    "outer:\n"
    "    mov x5, #0\n"
    "    cmp x0, #1\n"
    "    b.eq innermost\n"
    "    cmp x0, #2\n"
    "    b.eq inner\n"
    "    cmp x0, #3\n"
    "    b.eq .Lbehind\n"
    "    ldr x0, [x5]\n"
    ".globl inner\n"
    ".type inner, %function\n"
    "inner:\n"
    "    nop\n"
    "    ldr x1, [x5]\n"
    ".type innermost, %function\n"
    "innermost:\n"
    "    nop\n"
    "    ldr x2, [x5]\n"
    "    .size innermost, . - innermost\n"
    "    nop\n"
    "    .size inner, . - inner\n"
    ".Lbehind:\n"
    "    ldr x3, [x5]\n"
    "    ret\n"
    "    .size outer, . - outer\n"
    ".globl bare\n"
    "bare:\n"
    "    mov x5, #0\n"
    "    ldr x4, [x5]\n"
    "    ret\n");

uint64_t outer(uint64_t where);
uint64_t bare(void);

#line 200 "/usr/share/tenants/elsewhere.c"
APART int absolute(const volatile int *at)
{
    return at[2] + 1;
}

int twin(const volatile int *at) __attribute__((alias("absolute")));

#line 300 "below/nested.c"
APART int nested(const volatile int *at)
{
    return absolute(at) + 1;
}

#line 60 "names.c"
int main(void)
{
    char act = 0;
    tenant_read(&act, 1);
    switch (act) {
    case 'a':
        return absolute(0) + 1;
    case 'b':
        return (int)bare() + 1;
    case 'n':
        return nested(0) + 1;
    case 't':
        return twin(0) + 1;
    case '0':
    case '1':
    case '2':
    case '3':
        return (int)outer((uint64_t)act - '0') + 1;
    }
    return 0;
}
