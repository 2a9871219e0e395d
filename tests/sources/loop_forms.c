/* What instructions leave that are executed in the loop of a run: of drawn numbers, at addresses of
   all kinds, as numbers on the output. With LINUX it is a program of AArch64 Linux. */
#ifdef LINUX
#include <stdint.h>
#include <unistd.h>
#define tenant_write(bytes, count) write(1, bytes, count)
#else
#include "tenant.h"
#endif

enum { ROUNDS = 64, KINDS = 17, PAGE = 4096 };

static unsigned char pages[2 * PAGE] __attribute__((aligned(PAGE)));
static uint64_t results[ROUNDS * KINDS];

/* Few bits in one round of four, many in the next, then any. */
static uint64_t number(unsigned round)
{
    static uint64_t drawn = 1;
    drawn = drawn * 6364136223846793005u + 1442695040888963407u;
    const uint64_t bit = (uint64_t)1 << round % 64;
    return round % 4 == 0 ? bit : round % 4 == 1 ? ~(bit - 1) : drawn;
}

#define FLAGS "\n\tcset %w1, mi\n\tcset %w2, eq\n\tcset %w3, cs\n\tcset %w4, vs"
#define ADD(TEXT) do { \
    uint64_t sum = 0, n, z, c, v; \
    __asm__(TEXT FLAGS : "+&r"(sum), "=&r"(n), "=&r"(z), "=&r"(c), "=&r"(v) : "r"(x) : "cc"); \
    *to++ = sum << 4 | n << 3 | z << 2 | c << 1 | v; \
} while (0)
#define MOVE(TEXT) __asm__(TEXT : "=r"(*to++) : "r"(x))
#define LOAD(TEXT) __asm__ volatile(TEXT : "=r"(*to++) : "r"(at) : "memory")

static uint64_t *one_round(uint64_t *to, uint64_t x, unsigned char *at)
{
    MOVE("rbit %0, %1");
    MOVE("clz %0, %1");
    ADD("adds %w0, %w5, #0");
    ADD("adds %w0, %w5, #1");
    ADD("adds %w0, %w5, #4095");
    ADD("cmn %w5, #1");
    ADD("cmn %w5, #4095");
    __asm__ volatile("stp %w1, %w2, [%0, #-8]" : : "r"(at), "r"(x), "r"(x >> 32) : "memory");
    __asm__ volatile("stp %w1, wzr, [%0, #8]" : : "r"(at), "r"(x >> 16) : "memory");
    __asm__ volatile("stp %w1, %w1, [%0]" : : "r"(at), "r"(~x) : "memory");
    LOAD("ldrsw %0, [%1, #4]");
    LOAD("ldrsh %0, [%1, #2]");
    LOAD("ldrsb %0, [%1, #1]");
    LOAD("ldrsh %w0, [%1, #6]");
    LOAD("ldrsb %w0, [%1]");
    for (int offset = 0; offset < 2; offset++) {
        uint64_t first, second;
        if (offset)
            __asm__ volatile("ldp %w0, %w1, [%2, #8]" : "=&r"(first), "=r"(second) : "r"(at)
                             : "memory");
        else
            __asm__ volatile("ldp %w0, %w1, [%2, #-8]" : "=&r"(first), "=r"(second) : "r"(at)
                             : "memory");
        *to++ = first;
        *to++ = second;
    }
    *to++ = at[0] | at[7] << 8 | at[11] << 16;
    return to;
}

int main(void)
{
    uint64_t *to = results;
    for (unsigned round = 0; round < ROUNDS; round++)
        to = one_round(to, number(round), pages + PAGE - 32 + round);
    return to != results + ROUNDS * KINDS
        || tenant_write(results, sizeof results) != sizeof results;
}
