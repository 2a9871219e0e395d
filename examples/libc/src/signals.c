/* What musl asks its system for about signals, where a program has functions that set something of
   them (build.py, WITH_SIGNALS). None ever comes, but a program is told what it has set. */
#include <signal.h>
#include "ksigaction.h"
#include "syscall.h"

static struct k_sigaction actions[_NSIG];
static unsigned long blocked;

static long change_action(long number, const struct k_sigaction *set, struct k_sigaction *old)
{
    struct k_sigaction before = actions[number];
    if (set)
        actions[number] = *set;
    if (old)
        *old = before;
    return 0;
}

static long change_blocked(long how, const unsigned long *set, unsigned long *old)
{
    unsigned long before = blocked;
    if (set && how == SIG_BLOCK)
        blocked |= *set;
    else if (set)
        blocked = how == SIG_UNBLOCK ? blocked & ~*set : *set;
    if (old)
        *old = before;
    return 0;
}

hidden long __tenant_signal_call(long number, long a, long b, long c)
{
    if (number == SYS_rt_sigaction)
        return change_action(a, (const struct k_sigaction *)b, (struct k_sigaction *)c);
    return change_blocked(a, (const unsigned long *)b, (unsigned long *)c);
}
