/* Asks for a power of 2 whose exponent is below 0. */
#include <stdio.h>
#include "tommath.h"

int main(void)
{
    mp_int number;
    if (mp_init(&number) != MP_OKAY)
        return 2;
    mp_err state = mp_2expt(&number, -120);
    puts(state == MP_OKAY ? "computed" : mp_error_to_string(state));
    mp_clear(&number);
    return 0;
}
