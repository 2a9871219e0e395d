/* What musl asks its system for, by the services of the host. Standard input is the tenant's input;
   standard output and standard error are both its output. There is no other file, unless the
   program has functions that open or name one (files.c); one process and thread, and no clock: time
   is 0. */
#include <errno.h>
#include <signal.h>
#include <time.h>
#include "parts.h"
#include "syscall.h"
#include "tenant.h"
#include "tenant_given.h"

hidden weak long __tenant_file_call(long number, long a, long b, long c, long d);
hidden weak long __tenant_map_call(long number, char *from, size_t size, long how);
hidden weak long __tenant_signal_call(long number, long a, long b, long c);
hidden weak size_t __tenant_pack(void);

/* As write(2): -ENOSPC where there is room for no byte more. */
static long write_all(long file, void *bytes, size_t count)
{
    if (file != 1 && file != 2)
        return -EBADF;
    size_t written = tenant_write(bytes, count);
    return written || !count ? (long)written : -ENOSPC;
}

static long read_some(long file, void *bytes, size_t count)
{
    return file == 0 ? (long)tenant_read(bytes, count) : -EBADF;
}

static long read_clock(struct timespec *time)
{
    time->tv_sec = time->tv_nsec = 0;
    return 0;
}

/* A signal that a tenant sends itself ends it by a breakpoint. */
static long raise_signal(long number)
{
    if (number == SIGABRT)
        __asm__ volatile("brk #6");
    __asm__ volatile("brk #5");
    return 0;
}

/* The calls about files, or -ENOSYS. */
static long call_of_file(long number, long a, long b, long c, long d)
{
    if (__tenant_file_call)
        return __tenant_file_call(number, a, b, c, d);
    switch (number) {
    case SYS_read:
    case SYS_write:
    case SYS_readv:
    case SYS_writev:
        return move_bytes(read_some, write_all, number, a, b, c);
    case SYS_ioctl:
        return -ENOTTY;
    case SYS_lseek:
        return a >= 0 && a <= 2 ? -ESPIPE : -EBADF;
    case SYS_close:
        return a >= 0 && a <= 2 ? 0 : -EBADF;
    case SYS_openat:
    case SYS_faccessat:
    case SYS_newfstatat:
    case SYS_readlinkat:
    case SYS_unlinkat:
        return -ENOENT;
    default:
        return -ENOSYS;
    }
}

/* Ends the tenant, with the files that it wrote behind its output where they are wanted. */
static _Noreturn void end(int code)
{
    if (__tenant_given && (__tenant_given->flags & GIVEN_PACK)) {
        struct tenant_pack_end last = {TENANT_PACK_MARK, __tenant_pack ? __tenant_pack() : 0};
        tenant_write(&last, sizeof last);
    }
    tenant_exit(code);
}

long __tenant_system(long number, long a, long b, long c, long d)
{
    switch (number) {
    case SYS_exit:
    case SYS_exit_group:
        end((int)a);
    case SYS_clock_gettime:
        return read_clock((struct timespec *)b);
    case SYS_getpid:
    case SYS_gettid:
        return 1;
    case SYS_sched_yield:
        tenant_yield();
        return 0;
    case SYS_rt_sigaction:
    case SYS_rt_sigprocmask:
        return __tenant_signal_call ? __tenant_signal_call(number, a, b, c) : 0;
    case SYS_get_robust_list:
    case SYS_set_robust_list:
        return 0;
    case SYS_munmap:
    case SYS_mprotect:
    case SYS_msync:
    case SYS_madvise:
        return __tenant_map_call ? __tenant_map_call(number, (char *)a, (size_t)b, c) : -ENOSYS;
    case SYS_kill:
    case SYS_tkill:
        return raise_signal(b);
    default:
        return call_of_file(number, a, b, c, d);
    }
}

/* What musl has in assembler for another thread or process, which a tenant never gets, and for the
   return from a signal, which it never receives. */
int __clone(int (*body)(void *), void *stack, int flags, void *argument, ...)
{
    (void)body, (void)stack, (void)flags, (void)argument;
    return -ENOSYS;
}

volatile int __thread_list_lock;

int vfork(void)
{
    errno = ENOSYS;
    return -1;
}

/* There is no shell, and no program to run. */
int system(const char *command)
{
    if (!command)
        return 0;
    errno = ENOSYS;
    return -1;
}

void __restore(void)
{
    raise_signal(SIGILL);
}

void __restore_rt(void)
{
    raise_signal(SIGILL);
}
