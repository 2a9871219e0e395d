/* The one thread of a tenant, in ../src/start.c. */
struct __pthread;
extern struct __pthread __tenant_thread;

static inline uintptr_t __get_tp(void)
{
    return (uintptr_t)&__tenant_thread;
}

#define MC_PC pc
