/* Division of 128 bits, of which a tenant's compiler makes a call: bit by bit. */
typedef unsigned __int128 uint128;

uint128 __udivti3(uint128 value, uint128 divisor)
{
    uint128 quotient = 0, rest = 0;
    for (int bit = 127; bit >= 0; bit--) {
        rest = rest << 1 | (value >> bit & 1);
        if (rest >= divisor) {
            rest -= divisor;
            quotient |= (uint128)1 << bit;
        }
    }
    return quotient;
}
