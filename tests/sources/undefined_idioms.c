/* What correct programs do with values that were not given: IDIOM says which. None depends on
   them. */
#include "tenant.h"

static volatile int one = 1;
static volatile int sink;

struct padded {
    char letter;
    int number;
    char last;
};

struct fields {
    unsigned first : 3, second : 5, third : 11;
};

/* The length of a text by words, as libraries have it. */
__attribute__((noinline)) static size_t length_by_words(const char *text)
{
    const uint64_t *word = (const uint64_t *)text;
    const uint64_t ones = 0x0101010101010101u, high = 0x8080808080808080u;
    for (;; word++) {
        uint64_t found = (*word - ones) & ~*word & high;
        if (found)
            return (size_t)((const char *)word - text) + (size_t)__builtin_ctzll(found) / 8;
    }
}

__attribute__((noinline)) static int is_valid(const int *valid, const int *value)
{
    return *valid && *value == 3;
}

__attribute__((noinline)) static int sum_of(const struct padded *all, int count)
{
    int sum = 0;
    for (int i = 0; i < count; i++)
        sum += all[i].letter + all[i].number + all[i].last;
    return sum;
}

__attribute__((noinline)) static int use_buffer(int size)
{
    volatile char buffer[size];
    for (int i = 0; i < size; i += 2)
        buffer[i] = (char)i;
    int sum = 0;
    for (int i = 0; i < size; i += 2)
        sum += buffer[i];
    return sum;
}

/* A branch by the comparison of a byte of a chunk with a number. */
#define BRANCH(condition, number) \
    __asm__ volatile("cmp %0, %1\n\tb." condition " 1f\n\tnop\n1:" \
                     : : "r"((uint64_t)p[0]), "i"(number) : "cc")

static int idiom(void)
{
#if IDIOM == 1 /* structures with padding are copied and sorted */
    struct padded *all = tenant_malloc(8 * sizeof *all);
    for (int i = 0; i < 8; i++)
        all[i].letter = (char)(8 - i), all[i].number = i * 100, all[i].last = 1;
    for (int i = 0; i < 8; i++)
        for (int j = 0; j < i; j++)
            if (all[i].letter < all[j].letter) {
                struct padded kept = all[i];
                all[i] = all[j];
                all[j] = kept;
            }
    return sum_of(all, 8) > 100;
#elif IDIOM == 2 /* fields of bits, one after the other */
    volatile struct fields *p = tenant_malloc(sizeof *p);
    p->first = 5;
    p->second = 9;
    if (p->first == 5 && p->second == 9)
        p->third = 1000;
    return p->third == 1000;
#elif IDIOM == 3 /* the length of a text by words */
    char *p = tenant_malloc(32);
    for (int i = 0; i < 11; i++)
        p[i] = 'a';
    p[11] = 0;
    return length_by_words(p) == 11;
#elif IDIOM == 4 /* a mask of the part that was set */
    uint64_t *p = tenant_malloc(8);
    ((volatile char *)p)[2] = 7;
    return (*(volatile uint64_t *)p & 0xff0000) == 0x70000;
#elif IDIOM == 5 /* a value that counts only where another says so */
    int *p = tenant_malloc(8);
    p[0] = one - 1;
    return is_valid(&p[0], &p[1]) == 0;
#elif IDIOM == 6 /* zeros of calloc, and what a realloc keeps */
    int *p = tenant_calloc(10, sizeof *p);
    for (int i = 0; i < 10; i++)
        if (p[i])
            return 0;
    p[9] = 4;
    p = tenant_realloc(p, 4000);
    return p[9] == 4 && p[8] == 0;
#elif IDIOM == 7 /* values that are exchanged by exclusive or */
    volatile uint64_t *p = tenant_malloc(16);
    p[0] = p[0] ^ p[1];
    p[1] = p[0] ^ p[1];
    p[0] = p[0] ^ p[1];
    p[1] = 3;
    return p[1] == 3;
#elif IDIOM == 8 /* what a service has read */
    char *p = tenant_malloc(64);
    size_t count = tenant_read(p, 64);
    int sum = 0;
    for (size_t i = 0; i < count; i++)
        sum += p[i];
    return sum > 0;
#elif IDIOM == 9 /* a register less itself, and with itself */
    volatile uint64_t *p = tenant_malloc(16);
    uint64_t first = p[0], result;
    __asm__ volatile("eor %0, %1, %1\n\tsub x9, %1, %1\n\tadd %0, %0, x9"
                     : "=&r"(result) : "r"(first) : "x9");
    return result == 0;
#elif IDIOM == 10 /* the part that was set is shifted out of the rest */
    volatile uint32_t *p = tenant_malloc(8);
    p[1] = 5;
    uint64_t word = *(volatile uint64_t *)p;
    return word >> 32 == 5 && (uint32_t)(word >> 32) < 6;
#elif IDIOM == 11 /* arrays on the stack of which a part is set */
    int sum = 0;
    for (int i = 1; i < 60; i++)
        sum += use_buffer(i);
    return sum != 0;
#elif IDIOM == 12 /* a number that is small whatever its low bits are */
    volatile unsigned char *p = tenant_malloc(4);
    unsigned value = p[0];
    if (value < 256)
        sink = 1;
    if (value + 4096 > 900)
        sink = 2;
    return sink == 2;
#elif IDIOM == 13 /* the sign alone was set */
    volatile unsigned char *p = tenant_malloc(4);
    p[3] = 0x80;
    if (*(volatile int *)p < 0)
        sink = 3;
    return sink == 3;
#elif IDIOM == 14 /* a buffer that is cleared */
    char *p = tenant_malloc(100);
    memset(p, 0, 100);
    int sum = 0;
    for (int i = 0; i < 100; i++)
        sum += p[i] == 0;
    return sum == 100;
#elif IDIOM == 15 /* more than one word to compare and to add */
    volatile unsigned __int128 *p = tenant_memalign(16, 32);
    p[0] = (unsigned __int128)one << 100;
    p[1] = p[0] + ((unsigned __int128)3 << 90);
    return p[1] > p[0];
#elif IDIOM == 16 /* comparisons of a byte with numbers that decide them, whatever the byte is */
    volatile unsigned char *p = tenant_malloc(24);
    BRANCH("eq", 0x100);
    BRANCH("cs", 0x100);
    BRANCH("cs", 0);
    BRANCH("hi", 0xff);
    BRANCH("ge", 0);
    BRANCH("mi", 0);
    BRANCH("gt", 0xff);
    BRANCH("al", 1);
    return p != 0;
#endif
}

int main(void)
{
    return idiom() - 1;
}
