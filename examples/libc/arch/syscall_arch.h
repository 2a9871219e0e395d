/* The calls by which musl asks its system, answered by a function (../src/services.c). */
#define __SYSCALL_LL_E(x) (x)
#define __SYSCALL_LL_O(x) (x)

__attribute__((__visibility__("hidden"))) long __tenant_system(long, long, long, long, long);

static inline long __syscall0(long n)
{
    return __tenant_system(n, 0, 0, 0, 0);
}

static inline long __syscall1(long n, long a)
{
    return __tenant_system(n, a, 0, 0, 0);
}

static inline long __syscall2(long n, long a, long b)
{
    return __tenant_system(n, a, b, 0, 0);
}

static inline long __syscall3(long n, long a, long b, long c)
{
    return __tenant_system(n, a, b, c, 0);
}

static inline long __syscall4(long n, long a, long b, long c, long d)
{
    return __tenant_system(n, a, b, c, d);
}

static inline long __syscall5(long n, long a, long b, long c, long d, long e)
{
    (void)e;
    return __tenant_system(n, a, b, c, d);
}

static inline long __syscall6(long n, long a, long b, long c, long d, long e, long f)
{
    (void)e, (void)f;
    return __tenant_system(n, a, b, c, d);
}

#define IPC_64 0
