/* Numbers with a fraction, for a tenant that has no registers of floating point: what Lua links
   of the C library. The compiler's arithmetic is that of compiler-rt. What the program never
   calls ends it with status 99. */
#include <stdint.h>
#include <stdlib.h>

enum { MOST_DIGITS = 15, MOST_POWER = 22, FRACTION = 52, BIAS = 1023 };

static uint64_t bits_of(double value)
{
    uint64_t bits;
    __builtin_memcpy(&bits, &value, sizeof bits);
    return bits;
}

static double value_of(uint64_t bits)
{
    double value;
    __builtin_memcpy(&value, &bits, sizeof value);
    return value;
}

/* A decimal number of at most 15 digits with at most 22 of them behind the point: mantissa and
   power of ten are exact, so that one division rounds right. Anything else is unsupported. */
double strtod(const char *text, char **end)
{
    int64_t mantissa = 0;
    int digits = 0, power = 0, point = 0, minus = *text == '-';
    double scale = 1;
    for (text += minus; (*text >= '0' && *text <= '9') || (*text == '.' && !point); text++) {
        if (*text == '.') {
            point = 1;
            continue;
        }
        mantissa = mantissa * 10 + *text - '0';
        digits++;
        power += point;
    }
    if (!digits || digits > MOST_DIGITS || power > MOST_POWER || *text == 'e' || *text == 'E')
        abort();
    while (power--)
        scale *= 10;
    *end = (char *)text;
    return (minus ? -(double)mantissa : (double)mantissa) / scale;
}

/* The largest integral value that is not above: the bits below the point are taken off. */
double floor(double value)
{
    uint64_t bits = bits_of(value);
    int exponent = (int)(bits >> FRACTION & 2047) - BIAS;
    if (exponent >= FRACTION)
        return value;
    if (exponent < 0)
        return bits << 1 == 0 ? value : bits >> 63 ? -1.0 : 0.0;
    uint64_t below = (UINT64_C(1) << (FRACTION - exponent)) - 1;
    if ((bits & below) == 0)
        return value;
    double whole = value_of(bits & ~below);
    return bits >> 63 ? whole - 1 : whole;
}

/* The value times two to a power: the exponent is added to. Both have to be normal numbers. */
double ldexp(double value, int power)
{
    uint64_t bits = bits_of(value);
    int exponent = (int)(bits >> FRACTION & 2047), sum = exponent + power;
    if (exponent == 0 || exponent == 2047 || sum <= 0 || sum >= 2047)
        abort();
    return value_of(bits + ((uint64_t)(int64_t)power << FRACTION));
}

/* A normal number as one of at least a half and below one, times two to `power`. */
double frexp(double value, int *power)
{
    uint64_t bits = bits_of(value);
    int exponent = (int)(bits >> FRACTION & 2047);
    if (exponent == 0 || exponent == 2047)
        abort();
    *power = exponent - (BIAS - 1);
    return value_of((bits & ~(UINT64_C(2047) << FRACTION)) | (uint64_t)(BIAS - 1) << FRACTION);
}

double fmod(double value, double modulus) { abort(); }
double pow(double base, double power) { abort(); }
