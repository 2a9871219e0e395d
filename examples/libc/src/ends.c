/* How a tenant ends that can't go on: a breakpoint, whose number and place the report has. */
#include <stdint.h>
#include <stdlib.h>

_Noreturn void abort(void)
{
    __asm__ volatile("brk #6");
    __builtin_unreachable();
}

uintptr_t __stack_chk_guard = 0x2b1f0ad5c37e9600;

_Noreturn void __stack_chk_fail(void)
{
    __asm__ volatile("brk #7");
    __builtin_unreachable();
}

_Noreturn void __cxa_pure_virtual(void)
{
    __asm__ volatile("brk #8");
    __builtin_unreachable();
}

_Noreturn void __cxa_deleted_virtual(void)
{
    __cxa_pure_virtual();
}
