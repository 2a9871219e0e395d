/* Finds the primes below the first number of its input by a sieve of bits, and writes the others as
   products. */
#include <inttypes.h>
#include <stdbool.h>
#include <stdint.h>
#include <stdio.h>
#include <stdlib.h>

static uint64_t *composite;

static bool is_prime(uint32_t number)
{
    return number >= 2 && !(composite[number / 64] >> number % 64 & 1);
}

static void sieve(uint32_t bound)
{
    for (uint32_t i = 2; (uint64_t)i * i < bound; i++)
        if (is_prime(i))
            for (uint64_t j = (uint64_t)i * i; j < bound; j += i)
                composite[j / 64] |= UINT64_C(1) << j % 64;
}

static void write_product(uint64_t number, uint32_t bound)
{
    const char *between = " = ";
    printf("%" PRIu64, number);
    for (uint32_t i = 2; i < bound && (uint64_t)i * i <= number; i++)
        while (is_prime(i) && number % i == 0) {
            printf("%s%" PRIu32, between, i);
            between = " * ";
            number /= i;
        }
    if (number > 1)
        printf("%s%" PRIu64, between, number);
    putchar('\n');
}

int main(void)
{
    uint32_t bound, count = 0, last = 0;
    uint64_t number;
    if (scanf("%" SCNu32, &bound) != 1 || bound > 10000000)
        return 1;
    composite = calloc(bound / 64 + 1, sizeof *composite);
    if (!composite) {
        perror("calloc");
        return 2;
    }
    sieve(bound);
    for (uint32_t i = 0; i < bound; i++)
        if (is_prime(i)) {
            count++;
            last = i;
        }
    printf("%" PRIu32 " primes below %" PRIu32 ", the last %" PRIu32 "\n", count, bound, last);
    while (scanf("%" SCNu64, &number) == 1)
        write_product(number, bound);
    free(composite);
    return 0;
}
