/* Numbers that look random (splitmix64). They are the same in each run, so they keep no secret. */
#include <features.h>
#include <stdint.h>
#include <stddef.h>

static uint64_t state;

weak uint32_t arc4random(void)
{
    uint64_t it = state += 0x9e3779b97f4a7c15;
    it = (it ^ it >> 30) * 0xbf58476d1ce4e5b9;
    it = (it ^ it >> 27) * 0x94d049bb133111eb;
    return (uint32_t)(it >> 32);
}

weak void arc4random_buf(void *place, size_t size)
{
    unsigned char *bytes = place;
    for (size_t i = 0; i < size; i++)
        bytes[i] = (unsigned char)arc4random();
}

/* A number below a bound. Of 2^32 numbers the first 2^32 modulo the bound are drawn again, so that
   each answer has as many as the next. */
weak uint32_t arc4random_uniform(uint32_t bound)
{
    if (bound < 2)
        return 0;
    uint32_t drawn, least = -bound % bound;
    while ((drawn = arc4random()) < least)
        ;
    return drawn % bound;
}
