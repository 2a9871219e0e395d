/* Operations that C gives no result, one a build: BUG says which. */
#include "tenant.h"

static volatile int one = 1, many = 40;
static volatile long zero = 0, wide = 64;

static int bug(void)
{
#if BUG == 1 /* a division by 0 */
    return 100 / (one - 1);
#elif BUG == 2 /* a remainder by 0, of longs without sign */
    return (int)((unsigned long)one % (unsigned long)zero);
#elif BUG == 3 /* a shift of 32 bits to the left by 40 */
    return one << many;
#elif BUG == 4 /* a shift of 64 bits to the right by 64 */
    return (int)((unsigned long)one >> wide);
#elif BUG == 5 /* a shift of a number with a sign to the right by -1 */
    return many >> -one;
#elif BUG == 6 /* none: rotations by each amount, a division that is not made */
    unsigned value = (unsigned)one, sum = 0;
    for (unsigned by = 0; by < 32; by++)
        sum += value >> by | value << (31 - by);
    return zero ? (int)(sum / (unsigned)zero) : (int)(sum % 1);
#endif
}

int main(void)
{
    return bug() != 0 && bug() == 0;
}
