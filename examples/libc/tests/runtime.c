/* What compilers ask of a library, or emit beyond the host's table of instructions. */
#include <errno.h>
#include <limits.h>
#include <setjmp.h>
#include <stdarg.h>
#include <stdatomic.h>
#include <stdint.h>
#include <stdio.h>
#include <stdlib.h>
#include <string.h>

static _Thread_local int own = 4;
static _Atomic int counter;
static atomic_ullong wide = 1;
static jmp_buf place;

static void at_end(void)
{
    puts("at the end");
}

static __attribute__((constructor)) void at_start(void)
{
    counter = 40;
}

static int sum(int count, ...)
{
    va_list list;
    int total = 0;
    va_start(list, count);
    while (count--)
        total += va_arg(list, int);
    va_end(list);
    return total;
}

static void atomics(void)
{
    int expected = 41;
    unsigned char byte = 7;
    atomic_fetch_add(&counter, 1);
    printf("%d", atomic_compare_exchange_strong(&counter, &expected, 50));
    printf(" %d", atomic_exchange(&counter, 60));
    counter++;
    atomic_fetch_or_explicit(&wide, 6, memory_order_relaxed);
    atomic_thread_fence(memory_order_seq_cst);
    __sync_synchronize();
    __atomic_fetch_xor(&byte, 5, __ATOMIC_ACQ_REL);
    __builtin_prefetch(&wide);
    printf(" %d %llu %d %d\n", atomic_load(&counter), atomic_load(&wide), byte, own++);
}

static void wide_numbers(char **words)
{
    const char *text = words[0] ? "18446744073709551557" : "1";
    unsigned __int128 number = ((unsigned __int128)strtoull(text, NULL, 10) << 60) + own;
    unsigned long long high = (unsigned long long)(number / 1000000007);
    unsigned long long low = (unsigned long long)(number % 1000000007);
    printf("%llu %llu %d %d\n", high, low, __builtin_popcountll(high), __builtin_clzll(low));
}

static void jumps(void)
{
    volatile int round = 0;
    int got = setjmp(place);
    printf("jump %d\n", got);
    if (round++ < 2)
        longjmp(place, round * 10);
}

static void heap(void)
{
    void *volatile none = malloc((size_t)1 << 60);
    errno = 0;
    printf("%d", none == NULL && strtol("99999999999999999999", NULL, 10) == LONG_MAX);
    printf(" %d\n", errno == ERANGE);
    char *chunk = aligned_alloc(256, 512);
    printf("%d\n", (int)((uintptr_t)chunk % 256));
    strcpy(chunk, "a chunk");
    chunk = realloc(chunk, 5000);
    char *copy = strdup(chunk);
    printf("%s, %zu\n", copy, strlen(copy));
    free(copy);
    free(chunk);
}

int main(int argc, char **argv)
{
    char name[32];
    struct { long words[24]; } first = {{1, 2, 3}}, second = first;
    atexit(at_end);
    printf("%d %d %d\n", argc, argv[1] == NULL, sum(9, 1, 2, 3, 4, 5, 6, 7, 8, 9));
    atomics();
    wide_numbers(argv);
    jumps();
    heap();
    snprintf(name, sizeof name, "%-6s|%05d|%#x|%c", "ab", -42, 255, 'z');
    printf("%s %d\n", name, memcmp(&first, &second, sizeof first));
    printf("%ld %d\n", strtol("-0x7f", NULL, 16), fflush(stdout));
    return 7;
}
