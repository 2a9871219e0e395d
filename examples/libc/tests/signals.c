/* What a program has set at signals it is told again: handlers, flags, masks. */
#define _POSIX_C_SOURCE 200809L
#include <signal.h>
#include <stdio.h>

static void handle(int number)
{
    (void)number;
}

static const char *name(void (*it)(int))
{
    return it == SIG_DFL ? "default" : it == SIG_IGN ? "ignored" : it == handle ? "handler" : "?";
}

static void tell_blocked(const char *when)
{
    sigset_t mask;
    sigemptyset(&mask);
    int status = sigprocmask(SIG_BLOCK, NULL, &mask);
    printf("%s: %d, %d %d\n", when, status, sigismember(&mask, SIGUSR1),
           sigismember(&mask, SIGUSR2));
}

/* Of signals that no shell ignores for what it starts. */
static void set_handlers(void)
{
    struct sigaction set = {.sa_handler = handle, .sa_flags = SA_RESTART}, old;
    printf("%s ", name(signal(SIGUSR1, SIG_IGN)));
    printf("%s ", name(signal(SIGUSR1, handle)));
    printf("%s ", name(signal(SIGUSR1, SIG_DFL)));
    printf("%s\n", name(signal(SIGUSR2, handle)));
    sigemptyset(&set.sa_mask);
    sigaddset(&set.sa_mask, SIGALRM);
    printf("%d ", sigaction(SIGVTALRM, &set, &old));
    printf("%s %d\n", name(old.sa_handler), old.sa_flags & SA_RESTART);
    printf("%d ", sigaction(SIGVTALRM, NULL, &old));
    printf("%s %d", name(old.sa_handler), (old.sa_flags & SA_RESTART) != 0);
    printf(" %d %d\n", sigismember(&old.sa_mask, SIGALRM), sigismember(&old.sa_mask, SIGINT));
    printf("%d\n", signal(100, handle) == SIG_ERR);
}

static void block_some(void)
{
    sigset_t one, other, before;
    sigemptyset(&one);
    sigemptyset(&other);
    sigaddset(&one, SIGUSR1);
    sigaddset(&other, SIGUSR2);
    tell_blocked("none");
    printf("%d %d\n", sigprocmask(SIG_BLOCK, &one, &before), sigismember(&before, SIGUSR1));
    tell_blocked("the first");
    sigprocmask(SIG_BLOCK, &other, &before);
    tell_blocked("both");
    printf("%d %d\n", sigismember(&before, SIGUSR1), sigismember(&before, SIGUSR2));
    sigprocmask(SIG_UNBLOCK, &one, NULL);
    tell_blocked("the second");
    sigprocmask(SIG_SETMASK, &one, &one);
    tell_blocked("the first again");
    printf("%d %d\n", sigismember(&one, SIGUSR1), sigismember(&one, SIGUSR2));
}

int main(void)
{
    set_handlers();
    block_some();
    return 0;
}
