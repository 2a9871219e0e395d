/* Where a tenant begins: the one thread of the C library, constructors, main. A tenant linked with
   the symbol tenant_stack_size (tenant-cc) gets a chunk of so many bytes as its stack, but where
   fewer pages are left than tenant_stack_pages, if that is there too. Its argv and environment are
   those that tenant-args wrote; else argv is tenant_arguments, where it was linked with these
   (tenant-cc --arguments), or the one word `tenant`. */
#include <stdlib.h>
#include "libc.h"
#include "pthread_impl.h"
#include "tenant_given.h"

enum { PAGE = 4096 };

struct pthread __tenant_thread;

extern weak hidden void (*const __init_array_start[])(void), (*const __init_array_end[])(void);
extern char **__environ;
extern weak char *tenant_arguments[];

int main(int, char **, char **);

/* SP is the end of the host's stack here. Without a chunk the tenant ends by its breakpoint 3. */
__asm__(
    ".weak tenant_stack_size\n"
    ".weak tenant_stack_pages\n"
    ".text\n"
    ".globl _start\n"
    ".type _start, %function\n"
    "_start:\n"
    "mov x29, #0\n"
    "mov x30, #0\n"
    "movz x1, #:abs_g1:tenant_stack_size\n"
    "movk x1, #:abs_g0_nc:tenant_stack_size\n"
    "cbz x1, 1f\n"
    "movz x2, #:abs_g0:tenant_stack_pages\n"
    "cbz x2, 3f\n"
    "mov x8, #11\n"
    "svc #0\n"
    "cmp x0, x2\n"
    "b.lo 1f\n"
    "3:\n"
    "mov x0, x1\n"
    "mov x8, #3\n"
    "svc #0\n"
    "cbz x0, 2f\n"
    "add x0, x0, x1\n"
    "mov sp, x0\n"
    "1:\n"
    "bl __tenant_begin\n"
    "2:\n"
    "brk #3\n"
    ".size _start, . - _start\n");

/* A note of type 1 with two numbers, for tenant-args: the address of what it wrote, or 0, and the
   size of the image's file without that. */
__asm__(
    ".pushsection .note.tenant, \"a\", %note\n"
    ".balign 8\n"
    ".word 11, 16, 1\n"
    ".asciz \"Tombolopan\"\n"
    ".balign 8\n"
    ".globl __tenant_given\n"
    ".hidden __tenant_given\n"
    "__tenant_given:\n"
    ".quad 0, 0\n"
    ".popsection\n");

static void start_thread(void)
{
    __tenant_thread.self = __tenant_thread.next = __tenant_thread.prev = &__tenant_thread;
    __tenant_thread.tid = 1;
    __tenant_thread.detach_state = DT_JOINABLE;
    __tenant_thread.locale = &libc.global_locale;
    __tenant_thread.robust_list.head = &__tenant_thread.robust_list.head;
    libc.page_size = PAGE;
}

hidden _Noreturn void __tenant_begin(void)
{
    static char name[] = "tenant";
    static char *alone[] = {name, 0};
    char **words = __tenant_given     ? __tenant_given->words
                   : tenant_arguments ? tenant_arguments
                                      : alone;
    int count = 0;
    while (words[count])
        count++;
    start_thread();
    __environ = words + count + (__tenant_given ? 1 : 0);
    __progname = __progname_full = words[0];
    for (char *at = words[0]; *at; at++)
        if (*at == '/')
            __progname = at + 1;
    for (void (*const *at)(void) = __init_array_start; at < __init_array_end; at++)
        (*at)();
    exit(main(count, words, __environ));
}
