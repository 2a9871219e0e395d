/* Raises numbers of 512 bits to powers modulo an odd number, each result the next number. */
#include "driver.h"
#include "tommath.h"

enum { BYTES = 64 };

/* A number whose first and last bit are 1. */
static int make_odd(mp_int *number)
{
    unsigned char bytes[BYTES];
    for (size_t i = 0; i < BYTES; i++)
        bytes[i] = (unsigned char)next_number();
    bytes[0] |= 0x80;
    bytes[BYTES - 1] |= 1;
    return mp_from_ubin(number, bytes, BYTES) == MP_OKAY;
}

int main(void)
{
    unsigned long left = read_number();
    unsigned char bytes[BYTES];
    size_t written = 0;
    mp_int number, power, modulus;
    if (mp_init_multi(&number, &power, &modulus, NULL) != MP_OKAY)
        return 2;
    if (!make_odd(&number) || !make_odd(&power) || !make_odd(&modulus))
        return 3;
    for (; left; left--)
        if (mp_exptmod(&number, &power, &modulus, &number) != MP_OKAY)
            return 4;
    if (mp_to_ubin(&number, bytes, sizeof bytes, &written) != MP_OKAY)
        return 5;
    return write_sum(sum_bytes(SUM_START, bytes, written));
}
