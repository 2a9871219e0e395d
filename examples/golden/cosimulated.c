/* A program of Linux for AArch64 without a C library, for cosimulate.py: it sorts, hashes, divides
   and writes, with calls and loads and stores of all sizes.

       aarch64-linux-gnu-gcc -O2 -mgeneral-regs-only -ffreestanding -fno-builtin -nostdlib -static \
           -o cosimulated cosimulated.c */
#include <stdint.h>

enum { COUNT = 64 };

static uint32_t numbers[COUNT];
static char text[COUNT * 9];

static long call(long number, long first, long second, long third)
{
    register long x0 __asm__("x0") = first;
    register long x1 __asm__("x1") = second;
    register long x2 __asm__("x2") = third;
    register long x8 __asm__("x8") = number;
    __asm__ volatile("svc #0" : "+r"(x0) : "r"(x1), "r"(x2), "r"(x8) : "memory");
    return x0;
}

/* Sorts a part, by quicksort. */
static void sort(int64_t low, int64_t high)
{
    int64_t left = low, right = high;
    const uint32_t middle = numbers[(low + high) / 2];
    while (left <= right) {
        while (numbers[left] < middle)
            left++;
        while (numbers[right] > middle)
            right--;
        if (left <= right) {
            const uint32_t kept = numbers[left];
            numbers[left++] = numbers[right];
            numbers[right--] = kept;
        }
    }
    if (low < right)
        sort(low, right);
    if (left < high)
        sort(left, high);
}

static uint64_t hash(const char *from, int64_t count)
{
    uint64_t sum = 0xCBF29CE484222325;
    for (int64_t i = 0; i < count; i++)
        sum = (sum ^ (uint8_t)from[i]) * 0x100000001B3;
    return sum;
}

static char *put(char *at, uint32_t number)
{
    for (int bit = 28; bit >= 0; bit -= 4)
        *at++ = "0123456789abcdef"[number >> bit & 15];
    *at++ = '\n';
    return at;
}

void _start(void)
{
    uint64_t drawn = 1;
    char *at = text;
    for (int i = 0; i < COUNT; i++) {
        drawn = drawn * 6364136223846793005 + 1442695040888963407;
        numbers[i] = (uint32_t)(drawn >> 33) % 1000003 + (uint32_t)(drawn / ((drawn >> 40) | 1));
    }
    sort(0, COUNT - 1);
    for (int i = 0; i < COUNT; i++)
        at = put(at, numbers[i]);
    call(64, 1, (long)text, at - text);
    call(93, (long)(hash(text, at - text) % 251), 0, 0);
}
