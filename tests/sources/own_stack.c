/* Writes out as many bytes as its input says, from the end of a chunk that its stack was in, after
   it forbade others. */
#include "tenant.h"
#include "tenant_check.h"

enum { STACK = 65536 };

int main(void)
{
    size_t count = 0;
    tenant_read(&count, sizeof count);
    char *stack = tenant_calloc(STACK, 1);
    CHECK_NO_ACCESS(tenant_malloc(64), 16);
    __asm__ volatile("mov x9, sp\n\tmov sp, %0\n\tsub sp, sp, #64\n\tmov sp, x9"
                     :
                     : "r"(stack + STACK)
                     : "x9", "memory");
    tenant_write(stack + STACK - 512, count);
    return 0;
}
