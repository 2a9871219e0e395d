/* Reads another chunk without its pointer: LDG loads the tag of any granule, so a program that
   chooses its accesses always arrives. Tags are against accidents. */
#include "tenant.h"

/* What a block of this size class takes. */
enum { BLOCK = 64 };

static char *with_memory_tag(char *pointer)
{
    __asm__(".arch_extension memtag\n ldg %0, [%0]" : "+r"(pointer) : : "memory");
    return pointer;
}

int main(void)
{
    char *own = tenant_malloc(24), *secret = tenant_malloc(24);
    *(volatile char *)secret = 's';
    volatile char *other = with_memory_tag(own + BLOCK);
    char found = *other;
    tenant_write(&found, 1);
    tenant_write(": another chunk, by its loaded tag\n", 35);
    return found == 's' ? 0 : 1;
}
