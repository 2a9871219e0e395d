/* There is one thread. What starts another one says that there is no room for it; a wait for what
   another one does is over at once where it has a limit of time, and else ends the tenant as abort
   does. */
#include <errno.h>
#include <stdlib.h>
#include "pthread_impl.h"
#include "tenant.h"

static void nothing(void)
{
}
weak_alias(nothing, __pthread_tsd_run_dtors);

int __pthread_create(
    pthread_t *restrict thread, const pthread_attr_t *restrict wanted, void *(*body)(void *),
    void *restrict argument)
{
    (void)thread, (void)wanted, (void)body, (void)argument;
    return EAGAIN;
}
weak_alias(__pthread_create, pthread_create);

void __do_cleanup_push(struct __ptcb *cleanup)
{
    cleanup->__next = __pthread_self()->cancelbuf;
    __pthread_self()->cancelbuf = cleanup;
}

void __do_cleanup_pop(struct __ptcb *cleanup)
{
    __pthread_self()->cancelbuf = cleanup->__next;
}

/* The last thread that ends is the program's exit. */
_Noreturn void __pthread_exit(void *result)
{
    struct __ptcb *cleanup;
    (void)result;
    while ((cleanup = __pthread_self()->cancelbuf)) {
        __do_cleanup_pop(cleanup);
        cleanup->__f(cleanup->__x);
    }
    __pthread_tsd_run_dtors();
    exit(0);
}
weak_alias(__pthread_exit, pthread_exit);

static int cancel_none(pthread_t thread)
{
    (void)thread;
    return ESRCH;
}
weak_alias(cancel_none, pthread_cancel);

/* All of musl's waits come to these three. */
static _Noreturn void wait_forever(void)
{
    static const char text[] = "tenant: a wait for another thread, which there is not\n";
    tenant_write(text, sizeof text - 1);
    abort();
}

hidden void __wait(volatile int *place, volatile int *waiters, int value, int is_private)
{
    (void)waiters, (void)is_private;
    if (*place == value)
        wait_forever();
}

hidden int __timedwait_cp(
    volatile int *place, int value, clockid_t clock, const struct timespec *limit, int is_private)
{
    (void)clock, (void)is_private;
    if (limit)
        return limit->tv_nsec >= 1000000000UL ? EINVAL : ETIMEDOUT;
    if (*place == value)
        wait_forever();
    return 0;
}

hidden int __timedwait(
    volatile int *place, int value, clockid_t clock, const struct timespec *limit, int is_private)
{
    return __timedwait_cp(place, value, clock, limit, is_private);
}
