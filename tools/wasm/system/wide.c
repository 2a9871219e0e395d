/* What LLVM calls for numbers of 128 bits on wasm64; elsewhere compiler-rt has it. */
#include "small.h"

typedef unsigned __int128 wide;

union halves {
    wide all;
    struct {
        uint64_t low, high;
    } half;
};

wide __multi3(wide left, wide right)
{
    union halves a = {.all = left}, b = {.all = right}, made;
    uint64_t a0 = a.half.low & 0xffffffff, a1 = a.half.low >> 32;
    uint64_t b0 = b.half.low & 0xffffffff, b1 = b.half.low >> 32;
    uint64_t low = a0 * b0;
    uint64_t first = a1 * b0 + (low >> 32);
    uint64_t second = a0 * b1 + (first & 0xffffffff);
    made.half.low = second << 32 | (low & 0xffffffff);
    made.half.high = a1 * b1 + (first >> 32) + (second >> 32) + a.half.low * b.half.high +
                     a.half.high * b.half.low;
    return made.all;
}

wide __ashlti3(wide value, int count)
{
    union halves from = {.all = value}, made;
    if (count == 0)
        return value;
    made.half.low = count < 64 ? from.half.low << count : 0;
    made.half.high = count < 64 ? from.half.high << count | from.half.low >> (64 - count)
                                : from.half.low << (count - 64);
    return made.all;
}

/* Shifts right; `fill` is 0, or all ones for a negative number. */
static wide shift_right(wide value, int count, uint64_t fill)
{
    union halves from = {.all = value}, made;
    if (count == 0)
        return value;
    if (count == 64) {
        made.half.low = from.half.high;
        made.half.high = fill;
    } else if (count < 64) {
        made.half.low = from.half.low >> count | from.half.high << (64 - count);
        made.half.high = from.half.high >> count | fill << (64 - count);
    } else {
        made.half.low = from.half.high >> (count - 64) | fill << (128 - count);
        made.half.high = fill;
    }
    return made.all;
}

wide __lshrti3(wide value, int count)
{
    return shift_right(value, count, 0);
}

__int128 __ashrti3(__int128 value, int count)
{
    union halves from = {.all = (wide)value};
    return (__int128)shift_right(from.all, count, from.half.high >> 63 ? ~(uint64_t)0 : 0);
}

static unsigned bit_of(wide value, int place)
{
    union halves from = {.all = value};
    return (unsigned)((place < 64 ? from.half.low >> place : from.half.high >> (place - 64)) & 1);
}

static wide divide(wide value, wide by, wide *rest)
{
    union halves made = {.all = 0};
    wide left = 0;
    for (int place = 127; place >= 0; place--) {
        left = left + left + bit_of(value, place);
        if (left < by)
            continue;
        left -= by;
        if (place < 64)
            made.half.low |= (uint64_t)1 << place;
        else
            made.half.high |= (uint64_t)1 << (place - 64);
    }
    *rest = left;
    return made.all;
}

wide __udivti3(wide value, wide by)
{
    wide rest;
    return divide(value, by, &rest);
}

wide __umodti3(wide value, wide by)
{
    wide rest;
    divide(value, by, &rest);
    return rest;
}
